// Blocks packets by prefixes of their source, of 32, 24, 16 and 8 bits: the longest one decides.
#include "bpf.h"

struct packet {
    u32 interface;
    u32 source;
};

struct interface {
    u64 packets;
    u64 blocked;
};

struct prefix {
    u32 address;
    u32 length;
};

struct rule {
    u64 hits;
    u32 verdict;
    u32 unused;
};

CONTEXT(struct packet);
MAP(interfaces, u32, struct interface, 64, 8, 4294967295);
MAP(rules, struct prefix, struct rule, 1024, 64, 4294967295);

enum { NONE = 0, ALLOW = 1, BLOCK = 2 };

// What the rule of a prefix says. It takes the lock itself, so it may be called anywhere.
INLINE u64 verdict_of(u32 address, u32 length)
{
    struct prefix prefix = {address >> (32 - length) << (32 - length), length};
    u64 verdict = NONE;

    bpf_rcu_read_lock();
    struct rule *rule = bpf_map_lookup_elem(&rules, &prefix);
    if (rule) {
        rule->hits += 1;
        verdict = rule->verdict;
    }
    bpf_rcu_read_unlock();
    return verdict;
}

u64 judge(const struct packet *packet)
{
    u32 name = packet->interface, source = packet->source;
    u64 verdict = NONE;

    bpf_rcu_read_lock();
    struct interface *interface = bpf_map_lookup_elem(&interfaces, &name);
    if (interface) {
#pragma unroll
        for (u32 length = 32; length >= 8; length -= 8)
            if (verdict == NONE)
                verdict = verdict_of(source, length);
        interface->packets += 1;
        interface->blocked += verdict == BLOCK;
    }
    bpf_rcu_read_unlock();
    return verdict;
}
