// A Bloom filter: a key was perhaps entered where all its three bits are set, in an array of words.
#include "bpf.h"

#define WORDS 1024

struct query {
    u64 key;
    u32 enters;
    u32 unused;
};

CONTEXT(struct query);
ARRAY(words, u64, WORDS);

// Whether a bit of the filter was set; where the key is entered, it is set.
INLINE u64 test(u32 bit, u32 enters)
{
    u32 index = bit / 64 % WORDS;
    u64 mask = 1ULL << (bit & 63);
    u64 *word = bpf_map_lookup_elem(&words, &index);

    if (!word)
        return 0;
    u64 old = *word;
    if (enters)
        *word = old | mask;
    return (old & mask) != 0;
}

u64 ask(const struct query *query)
{
    u64 hash = query->key * 0x9e3779b97f4a7c15;
    u32 first = hash >> 32;
    u32 further = hash | 1;
    u32 enters = query->enters & 1;
    u64 all = test(first, enters);

    all &= test(first + further, enters);
    all &= test(first + 2 * further, enters);
    return all;
}
