// What stands for ../bpf.h when a program is compiled for the computer itself: a map is a list of
// elements, and sections are nothing.
#ifndef BPF_H
#define BPF_H

#include <string.h>

typedef unsigned char u8;
typedef unsigned short u16;
typedef unsigned int u32;
typedef unsigned long long u64;
typedef signed int s32;
typedef signed long long s64;

#define INLINE static inline __attribute__((always_inline))

struct element {
    int used;
    _Alignas(8) u8 key[64];
    _Alignas(8) u8 value[256];
};

struct bpf_map {
    u32 kind;
    u32 key_len;
    u32 value_len;
    u32 entries;
    struct element *elements;
};

enum { HASH_MAP = 0, ARRAY_MAP = 1 };

#define MAP(name, key, value, count, spare, reuse)                                                 \
    static struct element name##_elements[count];                                                  \
    struct bpf_map name = {HASH_MAP, sizeof(key), sizeof(value), count, name##_elements}

// The elements of an array lie at their indexes; each is there from the start, of zeros.
#define ARRAY(name, value, count)                                                                  \
    static struct element name##_elements[count];                                                  \
    struct bpf_map name = {ARRAY_MAP, sizeof(u32), sizeof(value), count, name##_elements}

#define CONTEXT(type) const u32 context_len = sizeof(type)

enum { BPF_ANY = 0, BPF_NOEXIST = 1, BPF_EXIST = 2 };

static struct element *element_at(const struct bpf_map *map, u32 index)
{
    return index < map->entries ? &map->elements[index] : 0;
}

static struct element *element_of(const struct bpf_map *map, const void *key)
{
    if (map->kind == ARRAY_MAP)
        return element_at(map, *(const u32 *)key);
    for (u32 i = 0; i < map->entries; i++)
        if (map->elements[i].used && memcmp(map->elements[i].key, key, map->key_len) == 0)
            return &map->elements[i];
    return 0;
}

static inline void *bpf_map_lookup_elem(const struct bpf_map *map, const void *key)
{
    struct element *element = element_of(map, key);
    return element ? element->value : 0;
}

// The error numbers of bpf(2): EEXIST 17, ENOENT 2, EINVAL 22, E2BIG 7.
static s64 array_update(const struct bpf_map *map, u32 index, const void *value, u64 flags)
{
    struct element *element = element_at(map, index);
    if (flags > BPF_EXIST)
        return -22;
    if (!element)
        return -7;
    if (flags == BPF_NOEXIST)
        return -17;
    memcpy(element->value, value, map->value_len);
    return 0;
}

static inline s64 bpf_map_update_elem(const struct bpf_map *map, const void *key, const void *value,
                                      u64 flags)
{
    if (map->kind == ARRAY_MAP)
        return array_update(map, *(const u32 *)key, value, flags);
    struct element *element = element_of(map, key);
    if (flags == BPF_NOEXIST && element)
        return -17;
    if (flags == BPF_EXIST && !element)
        return -2;
    if (flags > BPF_EXIST)
        return -22;
    for (u32 i = 0; !element && i < map->entries; i++)
        if (!map->elements[i].used)
            element = &map->elements[i];
    if (!element)
        return -7;
    element->used = 1;
    memcpy(element->key, key, map->key_len);
    memcpy(element->value, value, map->value_len);
    return 0;
}

static inline s64 bpf_map_delete_elem(const struct bpf_map *map, const void *key)
{
    if (map->kind == ARRAY_MAP)
        return -22;
    struct element *element = element_of(map, key);
    if (!element)
        return -2;
    element->used = 0;
    return 0;
}

static inline void bpf_rcu_read_lock(void) {}
static inline void bpf_rcu_read_unlock(void) {}

#endif
