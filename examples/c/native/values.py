#!/usr/bin/env python3
"""What the programs with maps compute on this computer: the scripts checks/data/scripts/c_NAME.script.

    values.py FOLDER

Each program is compiled by the C compiler (cc) with ./bpf.h, where a map is a list of elements. It goes through the
lines below, and what it answers is written behind the commands that ask the same of the program file, ../NAME.bpfrt.
"""

import pathlib
import re
import struct
import subprocess
import sys
import tempfile

HERE = pathlib.Path(__file__).resolve().parent

DRIVER = """
#include <stdio.h>
#include <stdlib.h>
static _Alignas(8) u8 key[64], value[256], context[256];
static struct bpf_map *maps[] = {%(maps)s};
static void read_bytes(const char *word, u8 *to)
{
    for (; word[0] > ' ' && word[0] != '-'; word += 2) {
        unsigned byte;
        sscanf(word, "%%2x", &byte);
        *to++ = byte;
    }
}
int main(void)
{
    static char verb[8], first[600], second[600];
    unsigned long long flags;
    int map;
    while (scanf("%%7s", verb) == 1) {
        if (verb[0] == 'p') {
            scanf("%%d %%599s %%599s %%llu", &map, first, second, &flags);
            read_bytes(first, key);
            read_bytes(second, value);
            printf("%%lld\\n", bpf_map_update_elem(maps[map], key, value, flags));
        } else if (verb[0] == 'd') {
            scanf("%%d %%599s", &map, first);
            read_bytes(first, key);
            printf("%%lld\\n", bpf_map_delete_elem(maps[map], key));
        } else if (verb[0] == 'g') {
            scanf("%%d %%599s", &map, first);
            read_bytes(first, key);
            u8 *found = bpf_map_lookup_elem(maps[map], key);
            for (u32 i = 0; found && i < maps[map]->value_len; i++)
                printf("%%02x", found[i]);
            puts(found ? "" : "none");
        } else {
            scanf("%%599s", first);
            read_bytes(first, context);
            printf("%%llu\\n", %(function)s((const void *)context));
        }
    }
    return 0;
}
"""


def pack(form, *numbers):
    return struct.pack("<" + form, *numbers).hex()


def packet(length, port, protocol=6, header=5, kind=0x0800):
    """An Ethernet frame with an IPv4 header of so many words."""
    data = bytearray(120)
    data[12:14] = kind.to_bytes(2, "big")
    data[14] = 0x40 | header
    data[23] = protocol
    at = 14 + 4 * header
    data[at + 2:at + 4] = port.to_bytes(2, "big")
    return pack("II", length, 0) + data.hex()


def bloom_words(key):
    """Where in the filter the three bits of a key lie."""
    hashed = key * 0x9e3779b97f4a7c15 % 2 ** 64
    first, further = hashed >> 32, (hashed | 1) % 2 ** 32
    return [(first + number * further) % 2 ** 32 // 64 % 1024 for number in range(3)]


def label(text, length=None, cut=0):
    """A DNS query whose first label has these bytes and says this length, with so many bytes of it cut off."""
    length = len(text) if length is None else length
    message = bytes(12) + bytes([length]) + text
    return pack("I", 13 + length - cut) + message.ljust(252, b"\0").hex()


def internet(length, protocol, kind=0x0800):
    """An Ethernet frame with the beginning of an IPv4 or IPv6 header."""
    data = bytearray(64)
    data[12:14] = kind.to_bytes(2, "big")
    data[14 + (6 if kind == 0x86DD else 9)] = protocol
    return pack("II", length, 0) + data.hex()


def window(rule, at, first, second):
    data = bytearray(128)
    data[at & 0x70:(at & 0x70) + 16] = struct.pack("<QQ", first, second)
    return pack("IHH", rule, at, 0) + data.hex()


def ranges(version, *pairs):
    """An allow list: its version, and up to eight ranges of addresses."""
    bounds = [bound for pair in pairs for bound in pair]
    return pack("18I", version, len(pairs), *bounds, *[0] * (16 - len(bounds)))


# The lines of each program: ("put", map, key, value) with flags behind it where they are not 0, ("get", map, key),
# ("del", map, key), ("run", context). ("hold", context, steps) is a run that has made so many steps, past its lookup, before
# the next lines, and goes on at ("resume",): what it finds is what it found natively before these lines. ("say", command,
# answer) stands as it is.
LINES = {
    "allow_list": [
        ("put", 0, pack("I", 1), ranges(1, (0x0a000000, 0x0affffff), (0xc0a80000, 0xc0a8ffff))),
        *[("run", pack("II", 1, address)) for address in (
            0x0a000000, 0x0affffff, 0x09ffffff, 0x0b000000, 0xc0a80101, 0xc0a90000, 0)],
        ("run", pack("II", 2, 0x0a000000)),
        ("hold", pack("II", 1, 0xc0a80101), 16),
        ("put", 0, pack("I", 1), ranges(2, *[(7 * number, 7 * number + 3) for number in range(8)])),
        *[("run", pack("II", 1, address)) for address in (0xc0a80101, 0, 3, 4, 6, 49, 52, 53)],
        ("say", "advance", "ok"), ("say", "reap", "none"), ("say", "advance", "ok"), ("say", "reap", "none"),
        ("resume",),
        ("say", "advance", "ok"), ("say", "reap", "reaped lists 01000000 free"), ("say", "reap", "none"),
        ("run", pack("II", 1, 0xc0a80101)),
        ("put", 0, pack("I", 1), ranges(3)), ("run", pack("II", 1, 0)),
        ("put", 0, pack("I", 1), ranges(4, (0, 2 ** 32 - 1))), ("run", pack("II", 1, 2 ** 32 - 1)),
        ("put", 0, pack("I", 1), ranges(5, (9, 8))), ("run", pack("II", 1, 8)), ("run", pack("II", 1, 9)),
        ("get", 0, pack("I", 1)),
    ],
    "bitmap": [
        ("put", 0, pack("I", 7), pack("QQQQII", 1, 0, 0, 1 << 63, 2, 0)),
        ("run", pack("II", 7, 0)), ("run", pack("II", 7, 1)), ("run", pack("II", 7, 1)),
        ("run", pack("II", 7, 255)), ("run", pack("II", 7, 130)), ("run", pack("II", 7, 256)),
        ("run", pack("II", 8, 1)), ("get", 0, pack("I", 7)),
    ],
    "bloom": [
        ("run", pack("QII", 77, 0, 0)), ("run", pack("QII", 77, 1, 0)), ("run", pack("QII", 77, 0, 0)),
        ("run", pack("QII", 77, 3, 0)), ("run", pack("QII", 78, 2, 0)), ("run", pack("QII", 78, 0, 0)),
        ("run", pack("QII", 0, 1, 0)), ("run", pack("QII", 0, 0, 0)),
        ("run", pack("QII", 2 ** 64 - 1, 1, 0)), ("run", pack("QII", 2 ** 64 - 1, 0, 0)),
        *[("get", 0, pack("I", word)) for word in bloom_words(77) + bloom_words(0) + bloom_words(2 ** 64 - 1)],
        *[("put", 0, pack("I", word), pack("Q", 2 ** 64 - 1)) for word in bloom_words(79)],
        ("run", pack("QII", 79, 0, 0)), ("put", 0, pack("I", bloom_words(79)[1]), pack("Q", 0)),
        ("run", pack("QII", 79, 0, 0)), ("get", 0, pack("I", 1023)), ("get", 0, pack("I", 1024)),
    ],
    "cidr_blocklist": [
        ("put", 0, pack("I", 1), pack("QQ", 0, 0)),
        ("put", 1, pack("II", 0x0a010203, 32), pack("QII", 0, 1, 0)),
        ("put", 1, pack("II", 0x0a010200, 24), pack("QII", 0, 2, 0)),
        ("put", 1, pack("II", 0x0a010000, 16), pack("QII", 0, 0, 0)),
        ("put", 1, pack("II", 0x0a000000, 8), pack("QII", 0, 2, 0)),
        ("put", 1, pack("II", 0xc0a80000, 16), pack("QII", 5, 1, 0)),
        ("put", 1, pack("II", 0xff000000, 8), pack("QII", 0, 7, 0)),
        ("run", pack("II", 1, 0x0a010203)), ("run", pack("II", 1, 0x0a010204)), ("run", pack("II", 1, 0x0a010303)),
        ("run", pack("II", 1, 0x0aff0203)), ("run", pack("II", 1, 0xc0a8ffff)), ("run", pack("II", 1, 0xc0a90001)),
        ("run", pack("II", 1, 0)), ("run", pack("II", 1, 0xffffffff)), ("run", pack("II", 2, 0x0a010203)),
        *[("get", 1, pack("II", *prefix)) for prefix in [
            (0x0a010203, 32), (0x0a010200, 24), (0x0a010000, 16), (0x0a000000, 8), (0xc0a80000, 16), (0, 8)]],
        ("del", 1, pack("II", 0x0a010203, 32)), ("run", pack("II", 1, 0x0a010203)), ("get", 0, pack("I", 1)),
    ],
    "compared_index": [
        ("put", 0, pack("I", 3), pack("11Q", 100, *range(10))),
        ("run", pack("QII10IQ", 5, 3, 2, *range(10, 20), 9)),
        ("run", pack("QII10IQ", 2, 3, 9, *range(10, 20), 0)),
        ("run", pack("QII10IQ", 2, 3, 10, *range(10, 20), 0)),
        ("run", pack("QII10IQ", 2, 3, 0, *range(10, 20), 10)),
        ("run", pack("QII10IQ", 2, 4, 0, *range(10, 20), 1)),
        ("get", 0, pack("I", 3)),
    ],
    "counter": [
        ("run", pack("II", 5, 100)), ("run", pack("II", 5, 23)), ("run", pack("II", 6, 1)),
        ("run", pack("II", 5, 7)), ("get", 0, pack("I", 5)), ("get", 0, pack("I", 6)),
        ("get", 0, pack("I", 7)),
    ],
    "divided_index": [
        ("put", 0, pack("I", 1), pack("24I4H", *range(24), 1, 2, 3, 65535)),
        ("run", pack("IIII", 1, 3600, 899, 10)), ("run", pack("IIII", 1, 86399, 3599, 4)),
        ("run", pack("IIII", 1, 86400, 0, 1)), ("run", pack("IIII", 1, 0, 3600, 1)),
        ("run", pack("IIII", 2, 0, 0, 1)), ("get", 0, pack("I", 1)),
    ],
    "dns_name": [
        ("run", label(b"www")), ("run", label(b"a")), ("run", label(b"-Z9")), ("run", label(b"x" * 63)),
        ("run", label(b"")), ("run", label(b"x" * 64)), ("run", label(b"", 0xc0)), ("run", label(b"", 255)),
        ("run", label(b"www", cut=1)), ("run", label(b"www", cut=3)), ("run", label(b"", cut=1)),
        ("run", label(b"x" * 63, cut=63)), ("run", label(b"_tcp")), ("run", label(b"a_")),
        ("run", label(b"abcdefg.")), ("run", label(b"abcdefgh_")), ("run", label(b"abcdefg_", 7)),
        *[("run", label(b"ok" + bytes([odd]))) for odd in b"/:@[`{,.\x00\x80\xad\xb0\xc1\xff"],
        *[("run", label(bytes([plain]) * 8)) for plain in b"09AZaz-"],
        *[("get", 0, pack("I", verdict)) for verdict in range(6)],
        ("put", 0, pack("I", 0), pack("Q", 2 ** 64 - 1)), ("run", label(b"www")), ("get", 0, pack("I", 0)),
    ],
    "histogram": [
        ("put", 0, pack("Q", 9), pack("Q16I", 1, *([0] * 16))),
        ("run", pack("QQ", 9, 0)), ("run", pack("QQ", 9, 5)), ("run", pack("QQ", 9, 70000)),
        ("run", pack("QQ", 9, 1 << 40)), ("run", pack("QQ", 8, 5)), ("get", 0, pack("Q", 9)),
    ],
    "packet_filter": [
        ("put", 0, pack("H", 80), pack("II", 1, 0)), ("put", 0, pack("H", 22), pack("II", 0, 5)),
        ("run", packet(60, 80)), ("run", packet(60, 22)), ("run", packet(60, 81)),
        ("run", packet(60, 80, header=15)), ("run", packet(120, 80, header=15)),
        ("run", packet(60, 80, protocol=1)), ("run", packet(60, 80, protocol=17)),
        ("run", packet(33, 80)), ("run", packet(60, 80, kind=0x86DD)), ("run", packet(60, 80, header=4)),
        ("get", 0, pack("H", 80)), ("get", 0, pack("H", 22)),
    ],
    "policy": [
        ("put", 0, pack("IHBB", 10, 443, 6, 1), pack("IIQ", 1, 100, 0)),
        ("put", 0, pack("IHBB", 0, 443, 6, 1), pack("IIQ", 0, 1000, 990)),
        ("run", pack("IHBBQ", 10, 443, 6, 1, 60)), ("run", pack("IHBBQ", 10, 443, 6, 3, 60)),
        ("run", pack("IHBBQ", 11, 443, 6, 1, 5)), ("run", pack("IHBBQ", 11, 443, 6, 1, 50)),
        ("run", pack("IHBBQ", 11, 443, 6, 0, 5)),
        ("get", 0, pack("IHBB", 10, 443, 6, 1)), ("get", 0, pack("IHBB", 0, 443, 6, 1)),
    ],
    "protocol_counters": [
        ("run", internet(60, 6)), ("run", internet(1500, 6)), ("run", internet(60, 17)),
        ("run", internet(34, 0)), ("run", internet(33, 6)), ("run", internet(2 ** 32 - 1, 255)),
        ("run", internet(54, 6, 0x86DD)), ("run", internet(53, 6, 0x86DD)), ("run", internet(60, 6, 0x0806)),
        ("run", internet(0, 6)),
        ("put", 0, pack("I", 1), pack("QQ", 2 ** 64 - 1, 2 ** 64 - 60)), ("run", internet(60, 1)),
        ("put", 0, pack("I", 17), pack("QQ", 0, 0)), ("run", internet(70, 17, 0x86DD)),
        *[("get", 0, pack("I", protocol)) for protocol in (0, 1, 6, 17, 255, 41, 256)],
    ],
    "rate_limit": [
        ("run", pack("QQIB3x", 77, 1000, 5, 0)), ("run", pack("QQIB3x", 77, 1000, 600, 0)),
        ("run", pack("QQIB3x", 77, 1016, 402, 0)), ("run", pack("QQIB3x", 77, 1032, 401, 0)),
        ("get", 0, pack("Q", 77)), ("run", pack("QQIB3x", 77, 0, 0, 1)),
        ("run", pack("QQIB3x", 77, 0, 0, 1)), ("get", 0, pack("Q", 77)),
        ("run", pack("QQIB3x", 77, 99, 1, 0)), ("get", 0, pack("Q", 77)),
    ],
    "signed_index": [
        ("put", 0, pack("I", 1), bytes(range(64)).hex()),
        ("run", pack("Iiii", 1, 3, 4, 1)), ("run", pack("Iiii", 1, 7, 0, 1)),
        ("run", pack("Iiii", 1, 0, 7, -1)), ("run", pack("Iiii", 1, 5, 2, -9)),
        ("run", pack("Iiii", 1, -1, 2, 1)), ("run", pack("Iiii", 1, 2, 8, 1)),
        ("run", pack("Iiii", 2, 2, 2, 1)), ("get", 0, pack("I", 1)),
    ],
    "size_histogram": [
        ("run", pack("II", 0, 1)), ("run", pack("II", 1, 1)), ("run", pack("II", 2, 3)), ("run", pack("II", 3, 1)),
        ("run", pack("II", 1500, 10)), ("run", pack("II", 2047, 2 ** 32 - 1)), ("run", pack("II", 2048, 0)),
        ("run", pack("II", 65535, 2)), ("run", pack("II", 65536, 1)), ("run", pack("II", 2 ** 32 - 1, 1)),
        ("put", 0, pack("I", 16), pack("Q", 2 ** 64 - 1), 2), ("run", pack("II", 40000, 5)),
        ("put", 0, pack("I", 3), pack("Q", 9), 0), ("put", 0, pack("I", 3), pack("Q", 8), 1),
        ("put", 0, pack("I", 3), pack("Q", 8), 3), ("put", 0, pack("I", 17), pack("Q", 8), 0),
        ("put", 0, pack("I", 17), pack("Q", 8), 1), ("put", 0, pack("I", 17), pack("Q", 8), 3),
        ("del", 0, pack("I", 3)), ("del", 0, pack("I", 17)), ("run", pack("II", 4, 1)),
        *[("get", 0, pack("I", bucket)) for bucket in (0, 1, 2, 3, 11, 12, 16, 17, 2 ** 32 - 1)],
    ],
    "spilled": [
        ("put", 0, pack("I", 1), pack("QQ", 500, 0)), ("put", 0, pack("I", 2), pack("QQ", 50, 0)),
        ("put", 1, pack("I", 1), pack("QQ", 0, 0)), ("put", 1, pack("I", 5), pack("QQ", 7, 0)),
        ("run", pack("IIIIQQ", 1, 2, 1, 5, 100, 200)), ("run", pack("IIIIQQ", 1, 2, 1, 5, 300, 200)),
        ("run", pack("IIIIQQ", 2, 1, 1, 5, 145, 200)), ("run", pack("IIIIQQ", 1, 3, 1, 5, 1, 200)),
        ("run", pack("IIIIQQ", 1, 1, 1, 5, 400, 400)),
        ("get", 0, pack("I", 1)), ("get", 0, pack("I", 2)), ("get", 1, pack("I", 1)),
        ("get", 1, pack("I", 5)),
    ],
    "token_bucket": [
        ("run", pack("QII", 0, 1, 0)), ("run", pack("QII", 999, 1, 0)), ("run", pack("QII", 1000, 1, 0)),
        ("run", pack("QII", 10 ** 9, 15000, 0)), ("run", pack("QII", 10 ** 9, 1, 0)),
        ("run", pack("QII", 10 ** 9 + 1499999, 1500, 0)), ("run", pack("QII", 10 ** 9 + 1500000, 1500, 0)),
        ("run", pack("QII", 5, 1500, 0)), ("run", pack("QII", 5, 0, 0)), ("get", 0, pack("I", 0)),
        ("run", pack("QII", 2 ** 64 - 1, 15001, 0)), ("run", pack("QII", 2 ** 64 - 1, 2 ** 32 - 1, 0)),
        ("run", pack("QII", 2 ** 64 - 1, 14000, 0)), ("run", pack("QII", 0, 1000, 0)), ("get", 0, pack("I", 0)),
        ("put", 0, pack("I", 0), pack("QQQQ", 10 ** 6, 0, 7, 2 ** 64 - 1)), ("run", pack("QII", 1, 15001, 0)),
        ("run", pack("QII", 1, 15000, 0)), ("run", pack("QII", 2, 1, 0)), ("get", 0, pack("I", 0)), ("get", 0, pack("I", 1)),
    ],
    "two_hops": [
        ("put", 0, pack("Q", 100), pack("II", 4, 0)), ("put", 0, pack("Q", 101), pack("II", 5, 9)),
        ("put", 1, pack("I", 4), pack("8I", 6, 1, 2, 4, 8, 16, 32, 64)),
        ("run", pack("QII", 100, 2, 0)), ("run", pack("QII", 100, 2, 1)), ("run", pack("QII", 100, 7, 1)),
        ("run", pack("QII", 101, 2, 1)), ("run", pack("QII", 102, 2, 1)),
        ("get", 0, pack("Q", 100)), ("get", 0, pack("Q", 101)),
    ],
    "window": [
        ("put", 0, pack("I", 1), pack("QQ4I", 0xff00, 0x1200, 0, 0, 0, 0)),
        ("run", window(1, 16, 0x34123456, 0x1234)), ("run", window(1, 0x73, 0x1200, 0)),
        ("run", window(1, 0, 0, 0xff)), ("run", window(1, 0xffff, 0x121212, 0xff0012ff)),
        ("run", window(2, 0, 0x1200, 0)), ("get", 0, pack("I", 1)),
    ],
}


def with_flags(line):
    """The line: a put has flags."""
    return (*line, 0) if line[0] == "put" and len(line) == 4 else line


def native(name, folder):
    """What the program answers to its lines."""
    source = (HERE.parent / f"{name}.c").read_text().replace('#include "bpf.h"', f'#include "{HERE}/bpf.h"')
    function = re.findall(r"^u64 (\w+)\(const struct", source, re.M)[-1]
    maps = re.findall(r"^(?:MAP|ARRAY)\((\w+),", source, re.M)
    file = folder / f"{name}.c"
    file.write_text(source + DRIVER % {"maps": ", ".join("&" + m for m in maps), "function": function})
    subprocess.run(["cc", "-O1", "-w", "-o", folder / name, file], check=True)
    asked = [("run", line[1]) if line[0] == "hold" else line for line in LINES[name] if line[0] not in ("resume", "say")]
    text = "\n".join(" ".join(map(str, with_flags(line))) for line in asked)
    return subprocess.run([folder / name], input=text, capture_output=True, text=True, check=True).stdout.split()


def commands(name, maps, folder):
    """The commands of a script, each with its answer. A run that is held is run 0, and others are run 1 meanwhile."""
    answers = iter(native(name, folder))
    held = None
    for line in LINES[name]:
        verb, *words = with_flags(line)
        number = 0 if held is None else 1
        if verb == "put":
            yield f"put {maps[words[0]]} {words[1]} {words[2]} {words[3]}", f"ret {next(answers)}"
        elif verb == "del":
            yield f"del {maps[words[0]]} {words[1]}", f"ret {next(answers)}"
        elif verb == "get":
            told = next(answers)
            yield f"get {maps[words[0]]} {words[1]}", told if told == "none" else f"value {told}"
        elif verb == "say":
            yield tuple(words)
        elif verb == "hold":
            held = next(answers)
            yield f"start 0 {words[0]}", "run 0"
            yield f"step 0 {words[1]}", "moved"
        elif verb == "resume":
            yield "step 0 4096", f"exit {held}"
            yield "drop 0", "ok"
            held = None
        else:
            yield f"start 0 {words[0]}", f"run {number}"
            yield f"step {number} 4096", f"exit {next(answers)}"
            yield f"drop {number}", "ok"
    if next(answers, None) is not None:
        sys.exit(f"{name} answered more than it was asked")


def script(name, folder):
    """The script: its maps and the program of the program file, and the commands."""
    lines = (HERE.parent / f"{name}.bpfrt").read_text().splitlines()
    maps = [line for line in lines if line.startswith("map ")]
    context = next(line.split()[1] for line in lines if line.startswith("ctx "))
    code = "".join(lines[lines.index("code") + 1:]).replace(" ", "")
    names = [line.split()[1] for line in maps]
    pairs = [(line, f"map {number}") for number, line in enumerate(maps)]
    pairs += [(" ".join(["load", context, code, *names]), "prog 0"), *commands(name, names, folder)]
    head = f"# examples/c/{name}.bpfrt; what it exits with and leaves in its maps was computed by examples/c/native.\n"
    return head + "".join(f"{command}\n#> {told}\n" for command, told in pairs)


def main(target):
    with tempfile.TemporaryDirectory() as folder:
        for name in LINES:
            (pathlib.Path(target) / f"c_{name}.script").write_text(script(name, pathlib.Path(folder)))
    return 0


if __name__ == "__main__":
    sys.exit(main(sys.argv[1]) if len(sys.argv) == 2 else __doc__)
