// What the programs of this folder are written with: types, the helpers by their numbers, the
// section calls, and how a program names its maps and the length of its context.
#ifndef BPF_H
#define BPF_H

typedef unsigned char u8;
typedef unsigned short u16;
typedef unsigned int u32;
typedef unsigned long long u64;
typedef signed int s32;
typedef signed long long s64;

#define INLINE static inline __attribute__((always_inline))

// A map: its kind, lengths of keys and values in bytes, most linked elements, further slots, and
// how often a slot is taken (4294967295 in a map that lasts). The maps of a program are numbered in
// the order in which its file has them.
struct bpf_map {
    u32 kind;
    u32 key_len;
    u32 value_len;
    u32 entries;
    u32 spare;
    u32 reuse_limit;
};

enum { HASH_MAP = 0, ARRAY_MAP = 1 };

#define MAP(name, key, value, entries, spare, reuse)                                               \
    struct bpf_map name __attribute__((section("maps"), used)) = {                                 \
        HASH_MAP, sizeof(key), sizeof(value), entries, spare, reuse}

// An array: its keys are the indexes below `entries`, as u32, and its elements are there for good,
// of zeros at first.
#define ARRAY(name, value, entries)                                                                \
    struct bpf_map name __attribute__((section("maps"), used)) = {                                 \
        ARRAY_MAP, sizeof(u32), sizeof(value), entries, 0, 1}

// How many bytes the context has.
#define CONTEXT(type) const u32 context_len __attribute__((section("context"), used)) = sizeof(type)

// Flags of an update.
enum { BPF_ANY = 0, BPF_NOEXIST = 1, BPF_EXIST = 2 };

// The helpers, by their numbers.
static void *(*const bpf_map_lookup_elem)(const struct bpf_map *, const void *key) = (void *)1;
static s64 (*const bpf_map_update_elem)(const struct bpf_map *, const void *key, const void *value,
                                        u64 flags) = (void *)2;
static s64 (*const bpf_map_delete_elem)(const struct bpf_map *, const void *key) = (void *)3;

// Kernel functions: a read-side critical section. What a lookup in a hash map gave is used inside
// it alone; an array needs none.
extern void bpf_rcu_read_lock(void);
extern void bpf_rcu_read_unlock(void);

#endif
