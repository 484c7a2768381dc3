// Places of the context that are joined from two constants, and then read by 4 and 8 bytes.
#include "bpf.h"

struct pair {
    u32 kind;
    u32 left_tag;
    u64 left;
    u32 unused;
    u32 right_tag;
    u64 right;
    u64 rest[4];
};

CONTEXT(struct pair);

u64 choose(const struct pair *pair)
{
    u64 at = pair->kind & 1 ? 4 : 20;
    u64 more = pair->kind & 2 ? 8 : 0;
    const u8 *tag = (const u8 *)pair + at;
    u64 sum = *(const u32 *)tag + *(const u64 *)(tag + 4);

    return sum + *(const u64 *)(tag + more + 4) + pair->rest[(pair->kind >> 2) & 1];
}
