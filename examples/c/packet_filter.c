// Passes TCP and UDP packets to ports that are open: Ethernet and IPv4 headers are parsed, with the
// options that an IPv4 header may have.
#include "bpf.h"

#define HEADERS 120
#define ETHERNET 14

struct packet {
    u32 len;
    u32 mark;
    u8 data[HEADERS];
};

struct port {
    u32 open;
    u32 seen;
};

CONTEXT(struct packet);
MAP(ports, u16, struct port, 1024, 64, 4294967295);

enum { DROP = 0, PASS = 1 };

INLINE u16 big_endian(const u8 *at)
{
    return at[0] << 8 | at[1];
}

u64 filter(const struct packet *packet)
{
    const u8 *data = packet->data;
    u32 len = packet->len;
    u64 verdict = DROP;

    if (len < ETHERNET + 20 || len > HEADERS)
        return DROP;
    if (big_endian(data + 12) != 0x0800 || data[ETHERNET] >> 4 != 4)
        return DROP;
    u32 header = (data[ETHERNET] & 15) * 4;
    u8 protocol = data[ETHERNET + 9];
    if (header < 20 || (protocol != 6 && protocol != 17))
        return DROP;
    u32 transport = ETHERNET + header;
    if (transport + 4 > len)
        return DROP;

    u16 port = big_endian(data + transport + 2);
    bpf_rcu_read_lock();
    struct port *known = bpf_map_lookup_elem(&ports, &port);
    if (known) {
        known->seen += 1;
        verdict = known->open ? PASS : DROP;
    }
    bpf_rcu_read_unlock();
    return verdict;
}
