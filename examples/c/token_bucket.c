// A bucket of tokens for all packets together, in the one element of an array: a packet takes as
// many tokens as it has bytes, and time fills the bucket up to its burst.
#include "bpf.h"

struct packet {
    u64 now; // nanoseconds
    u32 bytes;
    u32 padding;
};

struct bucket {
    u64 tokens; // bytes
    u64 filled; // when, in nanoseconds
    u64 taken;  // packets
    u64 left;   // packets that were refused
};

CONTEXT(struct packet);
ARRAY(buckets, struct bucket, 1);

// 1,000,000 bytes a second, and 15,000 at once.
#define NANOSECONDS_A_BYTE 1000
#define BURST 15000

enum { DROP = 0, PASS = 1 };

u64 police(const struct packet *packet)
{
    u32 only = 0;
    u64 now = packet->now;
    u64 bytes = packet->bytes;
    struct bucket *bucket = bpf_map_lookup_elem(&buckets, &only);

    if (!bucket)
        return DROP;
    // a clock that went back fills nothing
    u64 since = now > bucket->filled ? now - bucket->filled : 0;
    u64 room = bucket->tokens < BURST ? BURST - bucket->tokens : 0;
    u64 gained = since / NANOSECONDS_A_BYTE;

    if (gained >= room) {
        bucket->tokens = BURST;
        bucket->filled = now;
    } else {
        bucket->tokens += gained;
        bucket->filled += gained * NANOSECONDS_A_BYTE;
    }
    if (bytes > bucket->tokens) {
        bucket->left += 1;
        return DROP;
    }
    bucket->tokens -= bytes;
    bucket->taken += 1;
    return PASS;
}
