// A histogram of packet sizes by powers of two: a bucket is updated in place, while it is held.
#include "bpf.h"

// All packets, then those below 2, 4, .. 65536 bytes.
#define BUCKETS 17

struct sample {
    u32 size;
    u32 packets;
};

CONTEXT(struct sample);
ARRAY(buckets, u64, BUCKETS);

// The power of two at or below a number of 32 bits.
INLINE u32 power(u32 n)
{
    u32 power = 0;

    if (n > 0xffff) {
        n >>= 16;
        power |= 16;
    }
    if (n > 0xff) {
        n >>= 8;
        power |= 8;
    }
    if (n > 0xf) {
        n >>= 4;
        power |= 4;
    }
    if (n > 0x3) {
        n >>= 2;
        power |= 2;
    }
    if (n > 0x1)
        power |= 1;
    return power;
}

u64 record(const struct sample *sample)
{
    u32 all = 0, bucket = 1 + power(sample->size);
    u64 count = sample->packets;
    u64 *held = bpf_map_lookup_elem(&buckets, &bucket);

    // there is no bucket for larger ones, and the update says so
    if (!held)
        return bpf_map_update_elem(&buckets, &bucket, &count, BPF_ANY);
    u64 *total = bpf_map_lookup_elem(&buckets, &all);
    if (total)
        *total += count;
    count += *held;
    bpf_map_update_elem(&buckets, &bucket, &count, BPF_EXIST);
    return *held;
}
