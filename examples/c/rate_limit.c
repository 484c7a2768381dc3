// A bucket of tokens for each client, that is filled with time; clients that were never seen are
// entered, and those that asked to leave are taken out.
#include "bpf.h"

struct call {
    u64 client;
    u64 now;
    u32 cost;
    u8 leaves;
    u8 padding[3];
};

struct bucket {
    u64 tokens;
    u64 filled;
};

CONTEXT(struct call);
MAP(buckets, u64, struct bucket, 4096, 512, 4294967295);

#define FULL 1000

u64 admit(const struct call *call)
{
    u64 client = call->client;
    u64 now = call->now;
    u64 cost = call->cost;
    u64 admitted = 0;

    if (call->leaves)
        return bpf_map_delete_elem(&buckets, &client);
    bpf_rcu_read_lock();
    struct bucket *bucket = bpf_map_lookup_elem(&buckets, &client);
    if (!bucket) {
        struct bucket fresh = {FULL, now};

        bpf_rcu_read_unlock();
        return bpf_map_update_elem(&buckets, &client, &fresh, BPF_ANY) == 0;
    }
    u64 tokens = bucket->tokens + (now - bucket->filled) / 16;
    if (tokens > FULL)
        tokens = FULL;
    if (tokens >= cost) {
        tokens -= cost;
        admitted = 1;
    }
    bucket->tokens = tokens;
    bucket->filled = now;
    bpf_rcu_read_unlock();
    return admitted;
}
