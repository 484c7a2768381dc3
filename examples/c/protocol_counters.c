// Counts packets and bytes for each IP protocol, in an array of all of them: no section is needed.
#include "bpf.h"

#define HEADERS 64
#define ETHERNET 14

struct packet {
    u32 len;
    u32 mark;
    u8 data[HEADERS];
};

struct counter {
    u64 packets;
    u64 bytes;
};

CONTEXT(struct packet);
ARRAY(counters, struct counter, 256);

u64 count(const struct packet *packet)
{
    const u8 *data = packet->data;
    u32 len = packet->len;
    u32 kind = data[12] << 8 | data[13];
    u32 protocol;

    if (kind == 0x0800 && len >= ETHERNET + 20)
        protocol = data[ETHERNET + 9];
    else if (kind == 0x86dd && len >= ETHERNET + 40)
        protocol = data[ETHERNET + 6];
    else
        return 0;

    struct counter *counter = bpf_map_lookup_elem(&counters, &protocol);
    if (!counter)
        return 0;
    counter->packets += 1;
    counter->bytes += len;
    return counter->packets;
}
