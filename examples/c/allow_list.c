// An allow list: eight ranges of addresses in one element, which a host replaces as a whole. A run that
// has looked the list up judges by that list to its end, and never by a half of each.
#include "bpf.h"

#define RANGES 8

struct call {
    u32 list;
    u32 address;
};

struct range {
    u32 first;
    u32 last;
};

struct list {
    u32 version;
    u32 length;
    struct range ranges[RANGES];
};

CONTEXT(struct call);
MAP(lists, u32, struct list, 16, 16, 4294967295);

// The list's version where an address is allowed, and 0 where it is not.
u64 judge(const struct call *call)
{
    u32 name = call->list;
    u32 address = call->address;
    u64 verdict = 0;

    bpf_rcu_read_lock();
    const struct list *list = bpf_map_lookup_elem(&lists, &name);
    if (list) {
        u32 length = list->length;

#pragma unroll
        for (u32 i = 0; i < RANGES; i++)
            if (i < length && address >= list->ranges[i].first && address <= list->ranges[i].last)
                verdict = list->version;
    }
    bpf_rcu_read_unlock();
    return verdict;
}
