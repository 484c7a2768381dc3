#!/usr/bin/env python3
"""Calls the library in this process, and compares: checks/library/rows.py PART LIBRARY [BPFRT]

checks/library_agree starts it once for each part, and reads what it prints: a line of JSON with how many answers agree, what does not,
and what is missing. A part is one of those in PARTS below. LIBRARY is the shared library's file."""
import ctypes
import ctypes.util
import errno
import importlib.machinery
import importlib.util
import itertools
import json
import pathlib
import random
import re
import struct
import subprocess
import sys
from concurrent.futures import ThreadPoolExecutor

CHECKS = pathlib.Path(__file__).resolve().parent.parent
EXAMPLES = CHECKS.parent / "examples"
DATA = CHECKS / "data"
sys.dont_write_bytecode = True
sys.path[:0] = [str(EXAMPLES / "hosts"), str(EXAMPLES / "host"), str(CHECKS)]
import bpfrt as over_pipes
import bpfrt_ctypes as host
import classic
import packets

SECONDS, SEED, FRAMES, ANY, ROUNDS, CONTEXTS, KEYS = 60, 1, 2000, 2000, 300, 20, 160
PLACES = {0: "", 1: " at {}", 2: " at {}", 3: " at {}", 4: " at map {}"}


def check(name):
    """Another check, as a module."""
    loader = importlib.machinery.SourceFileLoader(name, str(CHECKS / name))
    module = importlib.util.module_from_spec(importlib.util.spec_from_loader(loader.name, loader))
    loader.exec_module(module)
    return module


TABLES = check("answers_agree")


class Program:
    """An open program, or why there is none, in the words of `bpfrt`."""

    def __init__(self, library, call, *given):
        self.library, self.held, why = library, host.Held(library), host.Refusal()
        number = getattr(library, f"bpfrt0_{call}")(self.held.handle, *given, why)
        self.said = "accepted" if number == 0 else told(number, why)

    def run(self, context):
        """What a run exits with, or the number that the call answers."""
        value = ctypes.c_uint64()
        number = self.library.bpfrt0_prog_run(self.held.handle, context, len(context), value)
        return f"exit {value.value}" if number == 0 else f"answers {number}"

    def context(self):
        return self.library.bpfrt0_prog_ctx_len(self.held.handle)

    def packet(self, packet, length):
        value = ctypes.c_uint64()
        number = self.library.bpfrt0_prog_run_packet(self.held.handle, packet, len(packet), length, value)
        return value.value if number == 0 else f"answers {number}"


def told(number, why):
    """A refusal as `bpfrt` writes it; behind it what is wrong with its number of errno's, or with its words."""
    text = f"{'fault' if why.code == 94 else 'refused'} {why.code}" + PLACES[why.place].format(why.at)
    wanted = -errno.EACCES if 20 <= why.code <= 39 else -errno.EINVAL
    room = bytes(why)[host.Refusal.words.offset:]
    flaws = [f"answers {number}"] * (number != wanted) + ["words without an end"] * (0 not in room) + ["no words"] * (room[0] == 0)
    return ", ".join([text, *flaws])


def shapes_of(maps):
    """The shapes of maps, from the words of a script."""
    shapes = []
    for words in (it.split() for it in maps):
        numbers = [2, 4, *map(int, words[1:]), 0, 1] if words[0] == "array" else [1, *map(int, words)]
        shapes.append(host.Shape(*numbers))
    return (host.Shape * max(1, len(shapes)))(*shapes), len(shapes)


def opened(library, code, context, maps):
    return Program(library, "prog_open", code, len(code), context, *shapes_of(maps))


def of_verdicts():
    """The programs of checks/data/verdicts and of docs/REFUSED_PROGRAMS.md: a name, the bytes, the context's length, the maps, what is said."""
    for file in sorted((DATA / "verdicts").iterdir()):
        setting = TABLES.Setting()
        for line in file.read_text().splitlines():
            key, _, text = line.partition(": ")
            if key in ("maps", "context", "begin", "end"):
                setting.take(key, text)
            elif line and not line.startswith("#"):
                code = TABLES.code_of(setting.begin + text.split("; ") + setting.end)
                yield f"{file.name}: {text}", code, setting.context, [*setting.maps], key
    for said, refused, instead in TABLES.shown_programs():
        if said not in ("14 at 1", "15 at 1"):
            yield f"REFUSED_PROGRAMS.md, {said}", TABLES.shown_code(refused) if refused else b"", 8, ["4 8 1 1 2"], f"refused {said}"
        yield f"REFUSED_PROGRAMS.md, in place of {said}", TABLES.shown_code(instead), 8, ["4 8 1 1 2"], "accepted"


def verdicts(library, bpfrt):
    """Programs from their bytes; those without maps are run, too, as `bpfrt run` runs them."""
    r, alone = random.Random(SEED), []
    for name, code, context, maps, said in of_verdicts():
        program = opened(library, code, context, maps)
        yield name, program.said, said
        if said == "accepted" and not maps:
            alone += [(f"{name} on {given.hex()}", code, given, program.run(given)) for given in (bytes(context), r.randbytes(context))]
    for number, slot in (line.split(" ") for line in (DATA / "flaws").read_text().splitlines() if line and line[0] != "#"):
        code = bytes.fromhex(slot + "9500000000000000")
        yield f"flaw {slot}", opened(library, code, 0, []).said, f"refused {number} at 0"
    if bpfrt:
        yield from as_bpfrt_runs(bpfrt, alone)


def as_bpfrt_runs(bpfrt, rows):
    """Rows of a name, a program's bytes, its context and what the library says of the run: beside what `bpfrt run` says."""
    def ran(row):
        _, code, given, _ = row
        file = f"bpfrt 1\nctx {len(given)}\ncode\n{code.hex(' ', -8)}\n".encode()
        words = [bpfrt, "run", "/dev/stdin", *([given.hex()] if given else [])]
        return subprocess.run(words, input=file, capture_output=True, timeout=SECONDS).stdout.decode()
    with ThreadPoolExecutor() as pool:
        for (name, _, _, got), said in zip(rows, pool.map(ran, rows)):
            yield f"bpfrt run: {name}", got, said.split(" steps ")[0]


def runs(library, _):
    """checks/data/runs: what a program exits with, or why it is refused."""
    for line in (DATA / "runs").read_text().splitlines():
        if line and not line.startswith("#"):
            name, context, said, code = line.split(" | ")
            given = bytes.fromhex(context.replace("-", ""))
            program = opened(library, bytes.fromhex(code.replace("-", "")), len(given), [])
            value = re.fullmatch(r"exits with (\d+) after \d+", said)
            yield f"run {name}", program.run(given) if value else program.said, f"exit {value[1]}" if value else said


def files(library, bpfrt):
    """checks/data/files: program files and raw ones."""
    r, alone = random.Random(SEED), []
    for line in (DATA / "files").read_text().splitlines():
        if not line or line.startswith("# "):
            continue
        said, _, content = line.partition(": ")
        text = bytes.fromhex(content[3:]) if content.split(" ")[0] == "raw" else TABLES.escaped(content)
        program = Program(library, "prog_open_file", text, len(text))
        is_sound = said.startswith("accepted")
        yield f"file {content}", program.said, "accepted" if is_sound else said
        if is_sound and b"\nmap " not in text:
            given = r.randbytes(program.context())
            code = bytes.fromhex(text.split(b"\ncode\n")[1].decode()) if text.startswith(b"bpfrt 1\n") else text
            alone.append((f"file {content} on {given.hex()}", code, given, program.run(given)))
    if bpfrt:
        yield from as_bpfrt_runs(bpfrt, alone)


class Compiled(ctypes.Structure):
    """libpcap's struct bpf_program."""
    _fields_ = [("count", ctypes.c_uint), ("insns", ctypes.c_void_p)]


class Pcap:
    """What is called of libpcap."""

    def __init__(self):
        self.library = ctypes.CDLL(ctypes.util.find_library("pcap"))
        self.library.pcap_open_dead.restype = ctypes.c_void_p
        self.library.pcap_geterr.restype, self.library.pcap_geterr.argtypes = ctypes.c_char_p, [ctypes.c_void_p]
        self.library.pcap_compile.argtypes = [ctypes.c_void_p, ctypes.POINTER(Compiled), ctypes.c_char_p, ctypes.c_int, ctypes.c_uint32]
        self.judge = self.library.bpf_filter
        self.judge.argtypes, self.judge.restype = [ctypes.c_void_p, ctypes.c_void_p, ctypes.c_uint, ctypes.c_uint], ctypes.c_uint
        self.link = self.library.pcap_open_dead(1, 1 << 18)

    def compiled(self, expression):
        program = Compiled()
        if self.library.pcap_compile(self.link, program, expression.encode(), 1, 0):
            raise SystemExit(f"library: libpcap does not compile `{expression}`: {self.library.pcap_geterr(self.link).decode()}")
        return program


def captured(file):
    """The packets of a capture of little-endian order, each with its length on the wire."""
    data, at = file.read_bytes(), 24
    while at < len(data):
        size, length = (int.from_bytes(data[at + by:at + by + 4], "little") for by in (8, 12))
        yield data[at + 16:at + 16 + size], length
        at += 16 + size


def some_packets():
    """Packets of a capture, made ones, and bytes at random, of 0 to 1,600 bytes."""
    r = random.Random(SEED)
    yield from captured(EXAMPLES / "filters" / "sample.pcap")
    for _ in range(FRAMES):
        packet = packets.frame(r)
        packet = r.choice([packet, packet, packet + r.randbytes(1600)])[:r.choice([1600, 1600, r.randrange(1601)])]
        yield packet, r.choice([len(packet), len(packet), 1600, 65535, (1 << 32) - 1])
    for _ in range(ANY):
        packet = r.randbytes(r.choice([r.randrange(1601), r.randrange(64), 247, 248, 249]))
        yield packet, len(packet)


def expressions():
    for line in (DATA / "filters").read_text().splitlines():
        if not line.startswith("#"):
            refused, text = re.fullmatch(r"(?:(refused \d+(?: at \d+)?): )?(.*)", line).groups()
            yield text, refused


def filters(library, _):
    """checks/data/filters beside libpcap's own interpreter, of the first 248 bytes of each packet."""
    if ctypes.util.find_library("pcap") is None:
        yield "libpcap", None, None
        return
    pcap, all_packets = Pcap(), [*some_packets()]
    seen = [(packet, len(packet[:classic.PACKET_BYTES]), length) for packet, length in all_packets]
    contexts = b"".join(size.to_bytes(4, "little") + length.to_bytes(4, "little") + packet[:size].ljust(classic.PACKET_BYTES, b"\0")
                        for packet, size, length in seen)
    joined, at = b"".join(packet for packet, _ in all_packets), itertools.accumulate((len(packet) for packet, _ in all_packets), initial=0)
    places = (ctypes.c_uint64 * (2 * len(seen)))(*(number for start, (packet, length) in zip(at, all_packets)
                                                   for number in (start, len(packet) | length << 32)))
    for text, refused in expressions():
        compiled = pcap.compiled(text)
        insns = ctypes.string_at(compiled.insns, 8 * compiled.count)
        program = Program(library, "prog_open_filter", insns, len(insns))
        listing = classic.text_of(classic.of_bytes(insns)).encode()
        other = Program(library, "prog_open_tcpdump", listing, len(listing))
        yield f"`{text}`", program.said, refused or "accepted"
        yield f"`{text}` as text", other.said, refused or "accepted"
        if refused is None:
            rights = [pcap.judge(compiled.insns, packet, length, size) for packet, size, length in seen]
            yield from compared(text, all_packets, [program.packet(*it) for it in all_packets], rights)
            values = (ctypes.c_uint64 * len(seen))()
            library.bpfrt0_prog_run_many(other.held.handle, contexts, len(contexts), values, len(seen))
            yield from compared(f"{text}, many", all_packets, [*values], rights)
            library.bpfrt0_prog_run_packets(program.held.handle, joined, len(joined), places, len(seen), ctypes.byref(values), len(seen))
            yield from compared(f"{text}, in one call", all_packets, [*values], rights)


def compared(name, all_packets, got, rights):
    """A row for each packet on which two answers differ, or one for all."""
    differ = [at for at in range(len(rights)) if got[at] != rights[at]]
    for at in differ[:2]:
        packet, length = all_packets[at]
        yield f"`{name}` on {packet.hex()}, of {length}", str(got[at]), str(rights[at])
    yield from [(f"`{name}`: packets that differ", str(len(differ)), "0"), *[("", "", "")] * (len(rights) - 1)]


def policies(library, _):
    """The policy of examples/filters beside the interpreter of checks/classic.py."""
    r, insns = random.Random(SEED), (EXAMPLES / "filters" / "policy.bpf").read_bytes()
    program, right = Program(library, "prog_open_policy", insns, len(insns)), classic.of_bytes(insns)
    yield "the policy", program.said, "accepted"
    for _ in range(ANY):
        call = r.choice([r.randrange(400), r.getrandbits(32)]).to_bytes(4, "little")
        given = call + r.choice([0xC000003E, 0x40000003]).to_bytes(4, "little") + r.randbytes(56)
        yield f"the policy on {given.hex()}", program.run(given), f"exit {classic.judged(right, given)}"


def classics(library, _):
    """Classic programs at random, as checks/filters_agree makes them, beside the interpreter of checks/classic.py."""
    r, makers = random.Random(SEED), check("filters_agree")
    for number in range(ROUNDS):
        is_policy = number % 5 == 0
        right, call = (classic.judged, "prog_open_policy") if is_policy else (classic.returned, "prog_open_filter")
        insns = makers.random_program(r, is_policy)
        code = classic.bytes_of(insns)
        program = Program(library, call, code, len(code))
        flaws = {f"refused {number}" + ("" if at is None else f" at {at}") for number, at in classic.faults(insns, is_policy)}
        wanted = flaws or {"accepted", "refused 113"}
        yield f"{call} of {insns[:20]}", program.said if program.said not in wanted else "as wanted", "as wanted"
        for _ in range(CONTEXTS if program.said == "accepted" else 0):
            context, given = makers.random_data(r, is_policy)
            yield f"{insns[:20]} on {context.hex()}", program.run(context), f"exit {right(insns, *given)}"
            if not is_policy:
                yield f"{insns[:20]} on packet {given}", str(program.packet(*given)), str(right(insns, *given))


def outcome(call, *given):
    """What a method gives, or raises: the exception's name, with its number."""
    try:
        got = call(*given)
        return str(list(got)) if isinstance(got, host.array.array) else str(got)
    except Exception as error:
        numbers = [getattr(error, name, None) for name in ("code", "slot", "errno")]
        return f"{type(error).__name__} {numbers}"


BYTE = bytes.fromhex("7110000000000000 9500000000000000")  # exits with the context's byte
FILE = "bpfrt 1\nctx 1\nmap a array 1 2\nmap h 4 8 4 4 9\ncode\n7110000000000000 9500000000000000\n"
# Methods of both classes with their arguments; those behind the dots call a world.
METHODS = [
    ("load_code", BYTE, 1), ("load_code", BYTE[:8],), ("load_code", BYTE), ("load_code", b""), ("load_code", BYTE, 257),
    ("load_code", BYTE, -1), ("load_code", BYTE, 1, ["none"]), ("load_code", "95"), ("load", "exit\n"), ("map", "m", 4, 4, 3, 3, 2),
    ("map", "m", 4, 4, 3, 3, 2), ("map", "M", 4, 4, 3, 3, 2), ("map", "é", 4, 4, 3, 3, 2), ("map", "n", 0, 4, 3, 3, 2),
    ("map", "n", 4, 4, 3, 3, 1 << 32), ("map", "n", 4, 4, 3, 3, 1 << 64), ("map", "n", 4, 4, 3, 3, -1), ("map", "a b", 4, 4, 3, 3, 2),
    ("array", "counts", 2, 3), ("array", "more", 2, 4097), ("map", "a" * 33, 4, 4, 3, 3, 2), ("load_code", BYTE, 1, ["m", "counts"]),
    ("load", FILE), ("load", FILE, False), ("load", FILE), ("load", FILE.replace("map h 4", "map h 04")),
    *[("array", f"a{number}", 1, 1) for number in range(14)], *[("load_code", BYTE, 1)] * 62, ("load_code", BYTE, 257, ["none"]),
    ("run", 0, b"\5"), ("run", 0, bytearray(b"\6")), ("run", 0, b""), ("run", 64, b""), ("run", -1, b""), ("run", 0, "01"),
    ("run", 0.5, b""), ("run_many", 0, [b"\7", b"", b"\1"]), ("run_many", 0, []), ("run_many", 0, [b"\1", b"\2", b"\377"]),
    ("run_many", 0, [b"\1", "01"]), ("run_many", 64, [b"\1"]), ("run_many", 0, [memoryview(b"\1")] * 3), "..",
    ("put", "m", b"abcd", b"1234"), ("put", "m", b"abcd", b"1234", 1), ("put", "m", b"efgh", b"1234", 2),
    ("put", "m", b"efgh", b"1234", 3), ("put", "m", b"efgh", b"1234", 1 << 64), ("put", "m", b"efg", b"1234"),
    ("put", "m", b"efgh", b""), ("put", "none", b"", b""), ("get", "m", b"abcd"), ("get", "m", b"efgh"), ("get", "m", b""),
    ("get", "none", b""), ("get", "a b", b""), ("get", "m", 4), ("get", "m", "00"), ("get", "counts", bytes(4)),
    ("put", "counts", b"\2\0\0\0", b"xy"), ("get", "counts", b"\2\0\0\0"), ("get", "counts", b"\3\0\0\0"),
    ("put", "counts", b"\3\0\0\0", b"xy"), ("put", "counts", b"\2\0\0\0", b"xy", 1), ("delete", "counts", bytes(4)),
    ("delete", "m", b"efgh"), ("delete", "m", b""), ("delete", "m", b"abcd"), ("get", "m", b"abcd"), ("advance",),
    ("start", 0, b"\5"), ("step", 0), ("drop", 0), ("step", 0, 9), ("step", 0), ("step", 0, 0), ("step", -1), ("step", 77),
    ("drop", 77), ("start", 64, b""), ("start", 0, b""), ("start", 0.5, b""), ("drop", 0), ("drop", 0), ("run", 0, b"\7"),
    ("run_many", 0, [b"\1", b"\2"]), ("map", "late", 4, 4, 3, 3, 2), ("array", "later", 4, 4),
]


def python(library, bpfrt):
    """The class over the library beside the class over pipes: what each method gives or raises."""
    with host.Runtime(library._name) as one:
        if bpfrt:
            has_worlds = hasattr(library, "bpfrt0_world_open")
            rows = METHODS if has_worlds else METHODS[:METHODS.index("..")]
            with over_pipes.Runtime(bpfrt) as other:
                for name, *given in [row for row in rows if row != ".."]:
                    yield f"{name}{tuple(given)}", outcome(getattr(one, name), *given), outcome(getattr(other, name), *given)
    with host.Runtime(library._name) as one:
        byte, dns = one.load_code(BYTE, 1), (EXAMPLES / "filters" / "dns.txt").read_text()
        number = one.load_filter(dns)
        sample = [*captured(EXAMPLES / "filters" / "sample.pcap")]
        values = [one.run_packet(number, packet, length) for packet, length in sample]
        yield "packets that pass", str(sum(map(bool, values))), "2"
        yield "packets in one call", outcome(one.run_packets, number, sample), str(values)
        starts = itertools.accumulate((len(packet) for packet, _ in sample), initial=0)
        whole = bytearray(b"".join(packet for packet, _ in sample))
        places = b"".join(struct.pack("=QII", at, len(packet), length) for at, (packet, length) in zip(starts, sample))
        yield "packets in a buffer", outcome(one.run_places, number, whole, places), str(values)
        for name, *given, wanted in [
                ("run_places", number, b"", b"", "[]"), ("run_places", number, b"abc", bytes(15), "Refused [63, None, None]"),
                ("run_places", number, b"abc", struct.pack("=QII", 1, 3, 3), "Refused [63, None, None]"),
                ("run_places", byte, b"abc", bytes(16), "Refused [63, None, None]"), ("run_places", 9, b"", b"", "Refused [62, None, None]"),
                ("run_places", number, "abc", b"", "TypeError [None, None, None]"),
                ("run_buffer", byte, b"abc", "[97, 98, 99]"), ("run_buffer", byte, bytearray(b"abc"), "[97, 98, 99]"),
                ("run_buffer", byte, memoryview(b"xabc")[1:], "[97, 98, 99]"), ("run_buffer", byte, b"", "[]"),
                ("run_buffer", byte, host.array.array("H", [0x6261]), "[97, 98]"), ("run_buffer", byte, b"abc", 2, "Refused [63, None, None]"),
                ("run_buffer", 9, b"", "Refused [62, None, None]"), ("run_buffer", byte, "abc", "TypeError [None, None, None]"),
                ("run_packet", byte, b"", "Refused [63, None, None]"), ("run_packet", number, b"", 1 << 32, "ValueError [None, None, None]"),
                ("run_packets", byte, [b"a"], "Refused [63, None, None]"), ("run_packets", 9, [], "Refused [62, None, None]"),
                ("run_packets", number, [(b"", 1 << 32)], "ValueError [None, None, None]"), ("run_packets", number, [], "[]"),
                ("run_packets", number, [(b"", -1)], "ValueError [None, None, None]"), ("run_packets", number, ["a"], "TypeError [None, None, None]"),
                ("load_filter", b"\xff", "Refused [101, None, None]"), ("load_array", b"\6\0\0\0\5\0\0\0", "2"), ("run_packet", 2, b"", "5"),
                ("run_packets", 2, [b"", bytearray(b"a"), (memoryview(b"ab"), 7), (b"", (1 << 32) - 1)], "[5, 5, 5, 5]"),
                ("load_policy", bytes.fromhex("0600000007000000"), "3"), ("run", 3, bytes(64), "7")]:
            yield f"{name}{tuple(given)}", outcome(getattr(one, name), *given), wanted
    yield "a closed one", outcome(one.run, byte, b"a"), "Broken [None, None, None]"
    yield "closed again", outcome(one.close), "None"


# Adds 1 to the number under the key that the context is, and exits with it; the second deletes the key.
COUNT = bytes.fromhex("b706000000000000 7913000000000000 7b3af8ff00000000 8520000001000000 bfa2000000000000 07020000f8ffffff 1851000000000000"
                      "0000000000000000 8500000001000000 1500030000000000 7906000000000000 0706000001000000 7b60000000000000 8520000002000000"
                      "bf60000000000000 9500000000000000")
DELETE = bytes.fromhex("7913000000000000 7b3af8ff00000000 bfa2000000000000 07020000f8ffffff 1851000000000000 0000000000000000"
                       "8500000003000000 9500000000000000")


def counted(table, program, key, times):
    """What a reader of the table counts in a thread."""
    reader = table.reader()
    for number in range(times):
        reader.run(program, key)
    return reader.run(program, key)


def set_soon(table, key):
    """Sets a key; where too few elements are free, or one is to be moved, readers hold it up, and are to go on first."""
    while True:
        try:
            return table.set([key], [0])
        except OSError as error:
            if error.errno not in (errno.ENOSPC, errno.EAGAIN):
                raise


def change_some(table, there, rolled):
    """Removes, replaces and links keys, and those that the host knows to be there go along."""
    for key in rolled.sample(range(KEYS), 20):
        if key in there and rolled.random() < 0.5:
            table.remove([key])
            there.remove(key)
        else:
            set_soon(table, key)
            there.add(key)


def met_meanwhile(table, there, rolled):
    """The keys that a walk meets, in which each that was met is replaced, and odd ones that were not met last are removed."""
    met = []
    for key, in table:
        met.append(key)
        set_soon(table, key)
        odd = rolled.choice([it for it in there if it % 2 and it != key] or [None])
        if odd is not None:
            table.remove([odd])
            there.remove(odd)
    return met


def key_rows(one, count):
    """Walks through keys beside three readers, and what the host knows to be there."""
    table, there, rolled = host.Table(one, 3, 1000, 1, 1), {7}, random.Random(SEED)
    yield "the keys of an empty table", outcome(list, table), "[]"
    table.set([7], [0])
    yield "one key", outcome(list, table), "[[7]]"
    with ThreadPoolExecutor(3) as pool:
        readers = [pool.submit(counted, table, count, key.to_bytes(8, "little"), 20000) for key in range(3)]
        for number in range(100):
            change_some(table, there, rolled)
            yield f"walk {number}", str(sorted(key for key, in table)), str(sorted(there))
        for key in range(KEYS):
            set_soon(table, key)
        there = set(range(KEYS))
        met = met_meanwhile(table, there, rolled)
        yield "keys that stay", str(sorted(key for key in met if not key % 2)), str([*range(0, KEYS, 2)])
        yield "keys that were met twice", str(sorted({key for key in met if met.count(key) > 1})), "[]"
        yield "what readers counted", str([it.exception() for it in readers]), "[None, None, None]"
    yield "the keys then", str(sorted(key for key, in table)), str(sorted(there))
    for key, in table:
        table.remove([key])
    yield "when each was removed in the walk", outcome(list, table), "[]"
    pairs, words = host.Table(one, 0, 4, 2, 1), host.Table(one, 0, 4, 0, 1)
    pairs.set([1, 2], [5])
    yield "a key of two words", outcome(list, pairs), "[[1, 2]]"
    words.set([], [5])
    yield "a key of no words", outcome(list, words), "[[]]"


def tables(library, _):
    """The class for tables: what each method gives or raises, one after another, and four threads that count."""
    key, one, error = (5).to_bytes(8, "little"), host.Runtime(library._name), "OSError [None, None, {}]".format
    one.map("words", 8, 8, 1, 0, 1), one.map("others", 8, 4, 1, 0, 1)
    count, packets_count = one.load_code(COUNT, 8, ["words"]), one.load_code(COUNT, 256, ["words"])
    delete, other, byte = one.load_code(DELETE, 8, ["words"]), one.load_code(BYTE, 1, ["others"]), one.load_code(BYTE, 1)
    table = host.Table(one, 3, 3, 1, 1)
    reader = table.reader()
    for method, *given, wanted in [
            (table.stat, "(3, 0, 2)"), (table.get, [5], "None"), (table.set, [5], [40], "None"), (table.get, [5], "[40]"),
            (table.set, [5], [41], 1, "FileExistsError [None, None, 17]"), (table.set, [6], [41], 2, "FileNotFoundError [None, None, 2]"),
            (table.set, [5, 6], [1], error(22)), (table.set, [5], [], error(22)), (table.set, [5], [1], 3, error(22)),
            (table.set, [1 << 64], [1], "ValueError [None, None, None]"), (table.set, [5], [-1], "ValueError [None, None, None]"),
            (table.get, [], error(22)), (reader.run, count, key, "41"), (reader.run, count, bytes(8), "0"), (reader.run, count, b"", error(22)),
            (reader.run, other, b"a", error(22)), (reader.run, delete, key, error(95)), (reader.run, byte, b"a", "97"),
            (reader.run, 99, b"", "Refused [62, None, None]"), (reader.run_packet, count, b"a", error(22)),
            (reader.run_packet, packets_count, b"abcde", 0, "42"), (reader.run_packet, packets_count, bytes(5), 0, "43"),
            (reader.run_packet, packets_count, b"abcde", "0"), (reader.run_packet, packets_count, b"", 1 << 32, "ValueError [None, None, None]"),
            (table.set, [5], [49], 2, "None"), (table.stat, "(1, 1, 2)"), (table.reclaim, "1"), (table.set, [6], [1], "None"),
            (table.set, [7], [1], error(28)), (table.set, [5], [50], "None"), (table.remove, [6], "None"),
            (table.remove, [6], "FileNotFoundError [None, None, 2]"), (reader.run, count, key, "51"),
            (host.Table, one, 65, 2, 1, 1, error(22)), (host.Table, one, 1 << 32, 2, 1, 1, "ValueError [None, None, None]")]:
        yield f"{method.__name__}{tuple(given)}", outcome(method, *given), wanted
    for is_last in (False, False, True):
        got = outcome(table.reader)
        yield "a further reader", got if is_last else got.split(".")[0], error(28) if is_last else "<bpfrt_ctypes"
    larger, pairs = host.Table(one, 3, 9, 1, 1), host.Table(one, 3, 9, 2, 1)
    larger.set([8], [1])
    for method, *given, wanted in [
            (table.copy_to, table, "ValueError [None, None, None]"), (table.copy_to, pairs, error(22)), (larger.copy_to, table, "None"),
            (table.copy_to, larger, "None"), (larger.get, [5], "[51]"), (larger.get, [8], "[1]"), (table.get, [8], "[1]"),
            (larger.reader().run, count, key, "52"), (table.get, [5], "[51]"), (pairs.stat, "(9, 0, 3)")]:
        yield f"{method.__name__}{tuple(given)}", outcome(method, *given), wanted
    counters = host.Table(one, 4, 2, 1, 1, per_reader=True)
    counters.set([5], [1000])
    with ThreadPoolExecutor(4) as pool:
        lasts = [it.result() for it in [pool.submit(counted, counters, count, key, 999) for _ in range(4)]]
    yield "what each counted", str(sorted(lasts)), "[1000, 1000, 1000, 2000]"
    yield "the sum", outcome(counters.get, [5]), "[5000]"
    yield from key_rows(one, count)
    one.close()
    yield "a closed one", outcome(reader.run, count, key), "Broken [None, None, None]"


WORDS = {"map", "load", "put", "get", "del", "start", "step", "drop", "advance", "reap"}


def answered(bpf, command, is_made):
    """What a script would answer to a command, by the class; a world that is made takes no map and no program there."""
    word, *given = command.split()
    data = [b"" if it == "-" else bytes.fromhex(it) for it in given[1:3]] if word in ("put", "get", "del", "start") else []
    try:
        if word in ("map", "load") and is_made:
            return "refused 56"
        if word == "map":
            return f"map {bpf.array(given[0], *map(int, given[2:])) if given[1] == 'array' else bpf.map(given[0], *map(int, given[1:]))}"
        if word == "load":
            return f"prog {bpf.load_code(bytes.fromhex(given[1].replace('-', '')), int(given[0]), given[2:])}"
        if word == "put":
            return f"ret {bpf.put(given[0], *data, int(given[3])) or 0}"
        if word == "get":
            value = bpf.get(given[0], *data)
            return "none" if value is None else f"value {value.hex()}"
        if word == "del":
            return f"ret {bpf.delete(given[0], *data) or 0}"
        if word == "start":
            return f"run {bpf.start(int(given[0]), *data)}"
        if word == "step":
            value = bpf.step(*map(int, given))
            return "moved" if value is None else f"exit {value}"
        if word == "reap":
            return "reaped" if bpf.reap() else "none"
        return "ok" if (bpf.drop(int(given[0])) if word == "drop" else bpf.advance()) is None else "something"
    except host.Refused as refused:
        return f"refused {refused.code}" + ("" if refused.slot is None else f" at {refused.slot}")
    except OSError as error:
        return f"ret {-error.errno}"


def dialogues(library, _):
    """checks/data/scripts and those of the runs that the library can answer, where it has worlds; what it has not is left out."""
    if not hasattr(library, "bpfrt0_world_open"):
        return
    for file in sorted([*(DATA / "scripts").glob("*.script"), *(EXAMPLES / "scripts").glob("*.script")]):
        text = file.read_bytes().decode("utf-8", "replace")
        if "\n#! " in text or "#> " not in text:
            continue
        with host.Runtime(library._name) as bpf:
            is_made, command = False, ""
            for line in text.splitlines():
                if line.startswith("#> "):
                    if command.split()[:1] and command.split()[0] in WORDS:
                        got = answered(bpf, command, is_made)
                        wanted = line[3:].split(" ")[0] if line[3:].startswith("reaped") else line[3:]
                        yield f"{file.name}: {command}", got, wanted
                    command = ""
                elif line and not line.startswith("#"):
                    command = line
                    is_made = is_made or line.split()[0] not in ("map", "load")


PARTS = {it.__name__: it for it in (verdicts, runs, files, filters, policies, classics, python, tables, dialogues)}


def main(part, path, bpfrt=""):
    rows = [*PARTS[part](host.library_at(path), bpfrt)]
    missing = [name for name, got, wanted in rows if got is wanted is None]
    wrong = [f"{name} gives {got[:200]}, and is to give {wanted[:200]}" for name, got, wanted in rows if got != wanted]
    print(json.dumps({"right": len(rows) - len(wrong) - len(missing), "wrong": wrong[:20], "count": len(wrong), "missing": missing}))


if __name__ == "__main__":
    if len(sys.argv) not in (3, 4) or sys.argv[1] not in PARTS:
        sys.exit(__doc__)
    main(*sys.argv[1:])
