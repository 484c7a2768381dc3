// A set of numbers below 256 for each owner, one bit each: a bit is tested and then set.
#include "bpf.h"

struct claim {
    u32 owner;
    u32 number;
};

struct set {
    u64 words[4];
    u32 count;
    u32 unused;
};

CONTEXT(struct claim);
MAP(sets, u32, struct set, 64, 8, 4294967295);

u64 claim(const struct claim *claim)
{
    u32 owner = claim->owner;
    u32 number = claim->number;
    u64 was = 1;

    if (number > 255)
        return 2;
    bpf_rcu_read_lock();
    struct set *set = bpf_map_lookup_elem(&sets, &owner);
    if (set) {
        u64 *word = &set->words[number >> 6];
        u64 bit = 1ULL << (number & 63);

        was = (*word & bit) != 0;
        if (!was) {
            *word |= bit;
            set->count += 1;
        }
    }
    bpf_rcu_read_unlock();
    return was;
}
