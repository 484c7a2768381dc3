// Judges the first label of the name that a DNS query asks for, and counts queries by the verdict.
#include "bpf.h"

#define HEADER 12
#define CHECKED 8

struct query {
    u32 len;
    u8 message[252];
};

// CUT: the message ends before the label does; ROOT: the name is empty; POINTER: a length above 63;
// ODD: a character that no name of a host has.
enum { PLAIN, CUT, ROOT, POINTER, ODD, VERDICTS };

CONTEXT(struct query);
ARRAY(counts, u64, VERDICTS);

INLINE int is_plain(u8 c)
{
    return (c >= 'a' && c <= 'z') || (c >= 'A' && c <= 'Z') || (c >= '0' && c <= '9') || c == '-';
}

INLINE u32 judge(const struct query *query)
{
    const u8 *label = query->message + HEADER + 1;
    u32 len = query->len;
    u32 length = query->message[HEADER];

    if (len < HEADER + 1)
        return CUT;
    if (length == 0)
        return ROOT;
    if (length > 63)
        return POINTER;
    if (len < HEADER + 1 + length)
        return CUT;
#pragma unroll
    for (u32 i = 0; i < CHECKED; i++)
        if (i < length && !is_plain(label[i]))
            return ODD;
    return PLAIN;
}

u64 check(const struct query *query)
{
    u32 verdict = judge(query);
    u64 *count = bpf_map_lookup_elem(&counts, &verdict);

    if (count)
        *count += 1;
    return verdict;
}
