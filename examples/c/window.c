// A window of 8 bytes of the context at an aligned place, against a pattern in an element.
#include "bpf.h"

struct text {
    u32 rule;
    u16 at;
    u16 flags;
    u8 bytes[128];
};

struct pattern {
    u64 mask;
    u64 value;
    u32 hits[4];
};

CONTEXT(struct text);
MAP(patterns, u32, struct pattern, 128, 16, 4294967295);

u64 match(const struct text *text)
{
    u32 rule = text->rule;
    u64 at = text->at & 0x70;
    u64 matches = 0;

    bpf_rcu_read_lock();
    struct pattern *pattern = bpf_map_lookup_elem(&patterns, &rule);
    if (pattern) {
        u64 first = *(const u64 *)(text->bytes + at);
        u64 second = *(const u64 *)(text->bytes + at + 8);

        if ((first & pattern->mask) == pattern->value)
            matches |= 1;
        if ((second & pattern->mask) == pattern->value)
            matches |= 2;
        pattern->hits[matches] += 1;
    }
    bpf_rcu_read_unlock();
    return matches;
}
