// A policy for flows: the rule of a flow's own address and port, else that of its port alone, else
// none.
#include "bpf.h"

struct flow {
    u32 address;
    u16 port;
    u8 protocol;
    u8 direction;
    u64 bytes;
};

struct match {
    u32 address;
    u16 port;
    u8 protocol;
    u8 direction;
};

struct rule {
    u32 verdict;
    u32 limit;
    u64 used;
};

CONTEXT(struct flow);
MAP(rules, struct match, struct rule, 512, 64, 4294967295);

enum { DENY = 0, ALLOW = 1, AUDIT = 2 };

u64 judge(const struct flow *flow)
{
    struct match match = {flow->address, flow->port, flow->protocol, flow->direction & 1};
    u64 verdict = DENY;

    bpf_rcu_read_lock();
    struct rule *rule = bpf_map_lookup_elem(&rules, &match);
    if (!rule) {
        match.address = 0;
        rule = bpf_map_lookup_elem(&rules, &match);
    }
    if (rule) {
        u64 used = rule->used + flow->bytes;

        rule->used = used;
        verdict = used > rule->limit ? AUDIT : rule->verdict;
    }
    bpf_rcu_read_unlock();
    return verdict;
}
