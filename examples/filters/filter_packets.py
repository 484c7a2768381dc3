#!/usr/bin/env python3
"""Writes the packets of a capture that a filter lets pass: filter_packets.py [--link TYPE] BPFRT PROGRAM IN OUT

PROGRAM is what `bpfrt filter` wrote. IN is a pcap file of the link type that the filter was compiled for, and OUT becomes one,
another than IN; `-` is standard input or output. What was captured of a packet behind its first 248 bytes the filter does not see.
What is there of IN is judged and written before more is waited for.

TYPE is the link type that the filter was compiled for, as `tcpdump -y` names it, or its number in a capture. A capture of another
is not judged.

The status is 0 where all is judged, 3 where IN ends inside a packet, 4 where it has another link type than TYPE, and else 1."""
import os
import pathlib
import re
import struct
import sys

sys.dont_write_bytecode = True
sys.path.insert(0, str(pathlib.Path(__file__).resolve().parent.parent / "host"))
from bpfrt import Broken, Refused, Runtime

AT_ONCE = 4096  # So many packets are judged by one write and one read, at most.
PIECE = 1 << 20  # So many bytes are read at once, at most.
SEEN = 248
# For a packet: how many bytes the filter sees, how many the packet had on the wire, and those bytes.
CONTEXT = struct.Struct(f"<II{SEEN}s")
# By the first four bytes of a capture file: a record's head. Seconds, their parts, how many bytes follow, how many there were.
HEADS = {bytes.fromhex(it): struct.Struct(order + "4I") for it, order in [
    ("d4c3b2a1", "<"), ("4d3cb2a1", "<"), ("a1b2c3d4", ">"), ("a1b23c4d", ">")]}
CUT, OTHER_LINK = 3, 4  # Statuses.
# Link types by their names in `tcpdump -y`, with their numbers in a capture.
LINKS = {
    "NULL": 0, "EN10MB": 1, "IEEE802": 6, "PPP": 9, "FDDI": 10, "PPP_SERIAL": 50, "PPP_ETHER": 51, "RAW": 101, "C_HDLC": 104,
    "IEEE802_11": 105, "FRELAY": 107, "LOOP": 108, "LINUX_SLL": 113, "PFLOG": 117, "PRISM_HEADER": 119, "IEEE802_11_RADIO": 127,
    "USB_LINUX": 189, "PPI": 192, "USB_LINUX_MMAPPED": 220, "CAN_SOCKETCAN": 227, "IPV4": 228, "IPV6": 229, "NFLOG": 239,
    "NETLINK": 253, "LINUX_SLL2": 276,
}
OLD_RAW = 12  # Some captures have this number for RAW.


def link_number(word):
    """The number of a link type."""
    number = int(word) if re.fullmatch("[0-9]{1,8}", word) else LINKS.get(word.upper())
    if number is None:
        sys.exit(f"filter_packets: {word} is no number of a link type, and none of {', '.join(LINKS)}")
    return LINKS["RAW"] if number == OLD_RAW else number


def link_of(start):
    """The number of a capture's link type: the low 26 bits of the last word before its records."""
    number, = struct.unpack_from(HEADS[start[:4]].format[0] + "I", start, 20)
    return link_number(str(number & 0x03FFFFFF))


def link_name(number):
    return next((f"{name} ({number})" for name, it in LINKS.items() if it == number), str(number))


def records(data, head):
    """The records that are whole, the context of each and its bytes with its head; and how many bytes these are."""
    found, at = [], 0
    while at + head.size <= len(data):
        _, _, captured, on_wire = head.unpack_from(data, at)
        end = at + head.size + captured
        if end > len(data):
            break
        found.append((CONTEXT.pack(min(captured, SEEN), on_wire, data[at + head.size:end]), data[at:end]))
        at = end
    return found, at


def started(source):
    """The first bytes of a capture, before its records."""
    start = b""
    while len(start) < 24 and (piece := source.read(24 - len(start))):
        start += piece
    if start[:4] not in HEADS or len(start) < 24:
        raise SystemExit("filter_packets: IN is no pcap file (of a pcapng file `tcpdump -r IN -w OUT` makes one)")
    return start


def is_one_file(source, target):
    """Whether what is read is the file that is to be written: to open it would empty it."""
    return os.path.isfile(target) and os.path.samefile(source.fileno(), target)


def write_passed(bpf, program, found, target):
    """Writes those of some records that pass: how many."""
    passed = 0
    for at in range(0, len(found), AT_ONCE):
        part = found[at:at + AT_ONCE]
        verdicts = bpf.run_many(program, [context for context, _ in part])
        kept = [record for (_, record), verdict in zip(part, verdicts) if verdict]
        target.write(b"".join(kept))
        passed += len(kept)
    target.flush()
    return passed


def filter_packets(bpf, program, start, source, target):
    """Copies the packets that pass: how many passed, how many there were, and how many bytes of a packet that is cut are behind."""
    data, passed, count = bytearray(), 0, 0
    target.write(start)
    target.flush()
    while piece := source.read(PIECE):
        data += piece
        found, size = records(data, HEADS[start[:4]])
        del data[:size]
        passed, count = passed + write_passed(bpf, program, found, target), count + len(found)
    return passed, count, len(data)


def loaded(bpf, program):
    """The number of the program."""
    try:
        text = pathlib.Path(program).read_text(errors="backslashreplace")
        if not text.startswith(f"bpfrt 1\nctx {CONTEXT.size}\n"):
            raise ValueError(f"it is no filter that `bpfrt filter` wrote: those have contexts of {CONTEXT.size} bytes")
        return bpf.load(text)
    except (Refused, ValueError, OSError) as error:
        sys.exit(f"filter_packets: {program}: {error}")


def main(link, bpfrt, program, source, target):
    target = 1 if target == "-" else target
    with Runtime(bpfrt) as bpf, open(0 if source == "-" else source, "rb", buffering=0) as reader:
        number, start = loaded(bpf, program), started(reader)
        if link is not None and link != link_of(start):
            print(f"filter_packets: IN has the link type {link_name(link_of(start))}, and the filter is for {link_name(link)}",
                  file=sys.stderr)
            return OTHER_LINK
        if is_one_file(reader, target):
            sys.exit("filter_packets: IN and OUT are one file")
        with open(target, "wb") as writer:
            passed, count, left = filter_packets(bpf, number, start, reader, writer)
    print(f"{passed} of {count} packets passed", file=sys.stderr)
    if left:
        print(f"filter_packets: IN ends inside a packet: its last {left} bytes are not judged", file=sys.stderr)
    return CUT if left else 0


def parted(words):
    """The link type that is given, or None, and the other words."""
    if "--link" not in words[:-1]:
        return None, words
    at = words.index("--link")
    return link_number(words[at + 1]), words[:at] + words[at + 2:]


if __name__ == "__main__":
    given, others = parted(sys.argv[1:])
    if len(others) != 4:
        sys.exit(__doc__)
    try:
        sys.exit(main(given, *others))
    except (Refused, Broken, OSError) as error:
        sys.exit(f"filter_packets: {error}")
    except KeyboardInterrupt:
        sys.exit("filter_packets: interrupted; what was judged is written")
