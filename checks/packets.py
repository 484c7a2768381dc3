#!/usr/bin/env python3
"""Writes a capture of Ethernet packets at random, the same for the same seed: checks/packets.py SEED COUNT > FILE

IPv4 with options and fragments, IPv6 with extension headers, TCP, UDP, ICMP, SCTP and others over them, ARP, VLANs one in
another, MPLS, PPPoE, frames of 802.3 and of unknown types; some that end early, and some of which less was captured than
was on the wire. At most 248 bytes are captured of each."""
import random
import struct
import sys

CAPTURED = 248
MACS = [bytes.fromhex(it) for it in ("001122334455", "ffffffffffff", "01005e0000fb", "02aabbccddee", "0180c2000000", "333300000001")]
HOSTS = [bytes(map(int, it.split("."))) for it in (
    "10.0.0.1", "10.0.0.77", "10.9.3.1", "172.16.9.1", "192.168.1.5", "192.168.2.9", "8.8.8.8", "224.0.0.251", "127.0.0.1",
    "255.255.255.255", "0.0.0.0")]
HOSTS_6 = [bytes.fromhex(it) for it in (
    "fe800000000000000000000000000001", "20010db8000000000000000000000005", "ff0200000000000000000000000000fb",
    "00000000000000000000000000000001", "20010db8000100000000000000000077")]
PORTS = [22, 53, 80, 443, 123, 8080, 5353, 67, 68, 0, 1, 65535, 161, 3306, 5060, 6000]
FLAGS = [0x02, 0x12, 0x10, 0x01, 0x04, 0x18, 0x29, 0, 0x11, 0xc2]
TEXTS = [b"GET / HTTP/1.1\r\n", b"HTTP/1.1 200 OK\r\n", b"SSH-2.0-", b"\x16\x03\x01\x02\x00\x01"]
IPV4, ARP, RARP, IPV6, MPLS, PPPOE_D, PPPOE_S = 0x0800, 0x0806, 0x8035, 0x86DD, 0x8847, 0x8863, 0x8864


def payload(r):
    """The bytes that the innermost header carries."""
    text = r.choice(TEXTS) if r.random() < 0.2 else b""
    return text + r.randbytes(r.choice([0, 1, 8, r.randrange(64), r.randrange(400)]))


def ports(r):
    return struct.pack(">HH", r.choice(PORTS), r.choice(PORTS))


def tcp(r):
    words = r.choice([0, 0, 0, 3, 10, r.randrange(11)])
    head = ports(r) + r.randbytes(8) + struct.pack(">BBHHH", (5 + words) << 4 | r.randrange(16), r.choice(FLAGS), r.randrange(1 << 16), 0, 0)
    return head + r.randbytes(4 * words) + payload(r)


def udp(r):
    data = payload(r)
    return ports(r) + struct.pack(">HH", r.choice([8 + len(data), r.randrange(1 << 16)]), 0) + data


def icmp(r):
    return bytes([r.choice([0, 3, 5, 8, 11, 128, 129, 135]), r.choice([0, 1, 3])]) + r.randbytes(6) + payload(r)


def sctp(r):
    return ports(r) + r.randbytes(8) + payload(r)


def other(r):
    return payload(r)


# A protocol's number, and what it carries; what is met more often stands more often.
CARRIED = [(6, tcp)] * 6 + [(17, udp)] * 6 + [(1, icmp), (1, icmp), (58, icmp), (132, sctp), (2, other), (50, other), (89, other), (103, other)]


def ipv4(r):
    number, made = r.choice(CARRIED)
    words = r.choice([0, 0, 0, 1, 4, 10])
    fragment = r.choice([0, 0, 0, 0, 0x4000, 0x2000, 0x2005, 0x0005, 0x1FFF])
    data = made(r)
    length = r.choice([20 + 4 * words + len(data)] * 3 + [r.randrange(1 << 16)])
    identity = r.choice([length, r.randrange(1 << 16)])
    head = struct.pack(">BBHHHBBH", 0x40 | 5 + words, r.choice([0, 0x10, 0xB8]), length, identity, fragment, r.choice([1, 64, 128, 255]), number, 0)
    return head + r.choice(HOSTS) + r.choice(HOSTS) + r.randbytes(4 * words) + data


def extension(r, kind, following):
    """An IPv6 extension header of a kind, before one of another."""
    if kind == 44:  # a fragment
        return struct.pack(">BBHI", following, 0, r.choice([0, 1, 0x18, 0x19]), r.randrange(1 << 32))
    words = r.choice([0, 0, 1, 2])
    return bytes([following, words]) + r.randbytes(6 + 8 * words)


def ipv6(r):
    number, made = r.choice(CARRIED)
    kinds = [r.choice([0, 43, 44, 51, 60]) for _ in range(r.choice([0, 0, 0, 1, 1, 2, 3]))] + [number]
    headers = [extension(r, kind, following) for kind, following in zip(kinds, kinds[1:])]
    data = b"".join(headers) + made(r)
    head = struct.pack(">IHBB", 6 << 28 | r.randrange(1 << 28), len(data), kinds[0], r.choice([1, 64, 255]))
    return head + r.choice(HOSTS_6) + r.choice(HOSTS_6) + data


def arp(r):
    return struct.pack(">HHBBH", 1, IPV4, 6, 4, r.choice([1, 2, 3])) + r.choice(MACS) + r.choice(HOSTS) + r.choice(MACS) + r.choice(HOSTS)


def mpls(r):
    labels = [r.choice([16, 100, 1023, r.randrange(1 << 20)]) for _ in range(r.choice([1, 2]))]
    head = b"".join(struct.pack(">I", label << 12 | (at == len(labels) - 1) << 8 | 64) for at, label in enumerate(labels))
    return head + r.choice([ipv4, ipv6])(r)


def pppoe(r):
    protocol, made = r.choice([(0x21, ipv4), (0x57, ipv6), (0xC021, other)])
    data = struct.pack(">H", protocol) + made(r)
    return struct.pack(">BBHH", 0x11, 0, r.choice([1, 7, 300]), len(data)) + data


def link_layer(r):
    """What a frame of 802.3 carries: LLC, some with SNAP."""
    sap = r.choice([0x42, 0xAA, 0xF0, 0xE0, 0xFE])
    snap = r.choice([b"\0\0\0", b"\0\0\x0c"]) + struct.pack(">H", r.choice([IPV4, IPV6, 0x2000]))
    return bytes([sap, sap, 3]) + (snap if sap == 0xAA else b"") + payload(r)


FRAMES = [(IPV4, ipv4)] * 10 + [(IPV6, ipv6)] * 6 + [(ARP, arp)] * 2 + [
    (RARP, arp), (MPLS, mpls), (PPPOE_S, pppoe), (PPPOE_D, other), (0x88CC, other), (0x809B, other), (None, link_layer), (None, link_layer)]


def frame(r):
    """A whole packet."""
    kind, made = r.choice(FRAMES)
    data = made(r)
    tags = b"".join(struct.pack(">HH", r.choice([0x8100, 0x8100, 0x88A8, 0x9100]), r.randrange(16) << 12 | r.choice([1, 7, 100, 300, 4094]))
                    for _ in range(r.choice([0] * 10 + [1, 1, 2])))
    kind = len(data) if kind is None else r.randrange(1 << 16) if r.random() < 0.02 else kind
    packet = r.choice(MACS) + r.choice(MACS) + tags + struct.pack(">H", kind) + data
    return packet.ljust(60, b"\0") if r.random() < 0.5 else packet


def packets(seed, count):
    """Pairs: the bytes that were captured, and the packet's length on the wire."""
    r = random.Random(seed)
    for _ in range(count):
        packet = frame(r)
        if r.random() < 0.1:
            packet = packet[:r.randrange(len(packet) + 1)]
        captured = packet[:CAPTURED]
        if r.random() < 0.15:
            captured = captured[:r.choice([r.randrange(len(captured) + 1), 14, 34, 54, 96])]
        yield captured, len(packet) if r.random() < 0.98 else r.choice([9000, 65535, 262144])


def capture(pairs):
    """The bytes of a capture file; a packet's second of time is its number."""
    records = [struct.pack("<IIII", number, 0, len(data), wire) + data for number, (data, wire) in enumerate(pairs)]
    return struct.pack("<IHHiIII", 0xA1B2C3D4, 2, 4, 0, 0, 1 << 18, 1) + b"".join(records)


if __name__ == "__main__":
    if len(sys.argv) != 3:
        sys.exit(__doc__)
    sys.stdout.buffer.write(capture(packets(int(sys.argv[1]), int(sys.argv[2]))))
