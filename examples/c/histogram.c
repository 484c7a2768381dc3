// A histogram of latencies for each key, by powers of four.
#include "bpf.h"

#define BUCKETS 16

struct sample {
    u64 key;
    u64 latency;
};

struct histogram {
    u64 count;
    u32 buckets[BUCKETS];
};

CONTEXT(struct sample);
MAP(histograms, u64, struct histogram, 256, 32, 4294967295);

// The power of four at or below a number of 32 bits.
INLINE u32 power(u32 n)
{
    u32 power = 0;

    if (n > 0xffff) {
        n >>= 16;
        power |= 8;
    }
    if (n > 0xff) {
        n >>= 8;
        power |= 4;
    }
    if (n > 0xf) {
        n >>= 4;
        power |= 2;
    }
    if (n > 0x3)
        power |= 1;
    return power;
}

u64 record(const struct sample *sample)
{
    u64 key = sample->key;
    u64 latency = sample->latency;
    u64 count = 0;

    bpf_rcu_read_lock();
    struct histogram *histogram = bpf_map_lookup_elem(&histograms, &key);
    if (histogram) {
        u32 bucket = power(latency > 0xffffffff ? 0xffffffff : latency);

        histogram->buckets[bucket] += 1;
        histogram->count += 1;
        count = histogram->count;
    }
    bpf_rcu_read_unlock();
    return count;
}
