// Counts events by their kind: a counter is made at the first event of a kind.
#include "bpf.h"

struct event {
    u32 kind;
    u32 bytes;
};

struct total {
    u64 events;
    u64 bytes;
};

CONTEXT(struct event);
MAP(totals, u32, struct total, 64, 64, 4294967295);

u64 count(const struct event *event)
{
    u32 kind = event->kind;
    u64 events = 1;

    bpf_rcu_read_lock();
    struct total *total = bpf_map_lookup_elem(&totals, &kind);
    if (total) {
        total->events += 1;
        total->bytes += event->bytes;
        events = total->events;
        bpf_rcu_read_unlock();
    } else {
        struct total first = {1, event->bytes};

        bpf_rcu_read_unlock();
        bpf_map_update_elem(&totals, &kind, &first, BPF_NOEXIST);
    }
    return events;
}
