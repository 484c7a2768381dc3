// Numbers of 2, 4 and 8 bytes from tables in the context, at masked indexes; one index is used
// twice.
#include "bpf.h"

struct tables {
    u64 longs[8];
    u32 words[16];
    u16 shorts[16];
    u8 bytes[24];
    u32 index;
    u32 other;
};

CONTEXT(struct tables);

u64 pick(const struct tables *tables)
{
    u32 index = tables->index & 7;
    u32 other = tables->other & 15;

    return tables->longs[index] + tables->words[other] * tables->shorts[index] +
           tables->bytes[other] + tables->bytes[index | 16];
}
