// Masks and comparisons of 32 bits before an index of 64 bits, one of them of the low half of a
// number whose high half is used, too.
#include "bpf.h"

struct request {
    u64 token;
    u32 base;
    u32 length;
    u8 bytes[48];
};

CONTEXT(struct request);

u64 sum(const struct request *request)
{
    u64 token = request->token;
    u32 base = request->base;
    u32 length = request->length & 7;
    u64 sum = token >> 48;

    if (base < 32) {
        u32 end = base + length;

        sum += request->bytes[base] + request->bytes[end] + request->bytes[end + 8];
    }
    if ((token & 0xff) < 40)
        sum += request->bytes[token & 0xff];
    if ((u32)token < 32)
        sum += request->bytes[(u32)token + 8] + (token >> 32);
    return sum;
}
