#!/usr/bin/env python3
"""Makes a program file out of an object that clang wrote for the target bpf.

    program.py OBJECT           the program file, as text: context, maps, code
    program.py --script FILE    the first lines of a script: its maps, and the program, bound to them. FILE is an
                                object, or a program file, as text
    program.py --lines OBJECT   for each slot its number, and the line of the source where it comes from; of an object that
                                `clang -g` wrote

A line of a map is `map NAME KEY VALUE ENTRIES SPARE REUSE`, and of an array `map NAME array VALUE ENTRIES`.

The code is the section .text. A wide load of a map's address becomes the wide load of a map (source
5) by the map's number in the program's list, which is the order of the section maps. A call of an
external kernel function becomes a call by that function's number (source 2). Any other relocation
is an error: such a program calls or names what no program here can. So is a second function, or code in
another section.
"""

import pathlib
import re
import struct
import sys

KERNEL_FUNCTIONS = {"bpf_rcu_read_lock": 1, "bpf_rcu_read_unlock": 2}
WIDE, CALL = 0x18, 0x85
SHT_REL, STT_FUNC, STT_SECTION = 9, 2, 3
RELOCATABLE, FOR_BPF = 1, 247
# a map in the section maps: its kind, lengths of keys and values, entries, spare slots, limit of reuse
SHAPE = struct.Struct("<6I")
HASH, ARRAY = 0, 1
INDEX_BYTES = 4


class Object:
    """Sections and symbols of an ELF file of 64 bits, little-endian."""

    def __init__(self, data):
        self.data = data
        offset, = struct.unpack_from("<Q", data, 0x28)
        size, count, names = struct.unpack_from("<HHH", data, 0x3A)
        headers = [struct.unpack_from("<IIQQQQIIQQ", data, offset + i * size) for i in range(count)]
        self.headers = headers
        self.names = [self.string(headers[names], header[0]) for header in headers]
        self.symbols = self.read_symbols()

    def string(self, table, at):
        start = table[4] + at
        return self.data[start:self.data.index(b"\0", start)].decode()

    def body(self, header):
        return self.data[header[4]:header[4] + header[5]]

    def section(self, name):
        return self.body(self.headers[self.names.index(name)]) if name in self.names else b""

    def read_symbols(self):
        if ".symtab" not in self.names:
            sys.exit("the object has no symbols: they were stripped")
        table = self.headers[self.names.index(".symtab")]
        strings = self.headers[table[6]]
        entries = struct.iter_unpack("<IBBHQQ", self.body(table))
        return [(self.string(strings, name), info & 15, section, value)
                for name, info, _, section, value, _ in entries]

    def section_of(self, symbol):
        return self.names[symbol[2]] if 0 < symbol[2] < len(self.names) else None

    def relocations(self, name):
        """Places in a section, and the symbols that belong there."""
        index = self.names.index(name)
        for header in self.headers:
            if header[1] == SHT_REL and header[7] == index:
                for place, info in struct.iter_unpack("<QQ", self.body(header)):
                    yield place, self.symbols[info >> 32]


def maps_of(obj):
    """The maps, in the order of their section: name, and the six numbers of the shape."""
    section = obj.section("maps")
    if len(section) % SHAPE.size:
        sys.exit(f"the section maps has {len(section)} bytes, and a map of bpf.h takes {SHAPE.size}")
    shapes = list(SHAPE.iter_unpack(section))
    names = {value: name for name, kind, section, value in obj.symbols
             if section and kind != STT_SECTION and obj.section_of((name, kind, section, value)) == "maps"}
    if len(shapes) > 16:
        sys.exit(f"a program has at most 16 maps, and not {len(shapes)}")
    for name in names.values():
        if not re.fullmatch(r"[a-z][a-z0-9_]{0,31}", name):
            sys.exit(f"no map has the name {name}: it is 1 to 32 of a to z, 0 to 9 and _, the first a letter")
    maps = [(names[SHAPE.size * i], shape) for i, shape in enumerate(shapes)]
    for name, (kind, key, value, entries, spare, reuse) in maps:
        if kind not in (HASH, ARRAY):
            sys.exit(f"the map {name} has the kind {kind}: it is {HASH}, a hash map, or {ARRAY}, an array")
        if not (1 <= key <= 64 and 1 <= value <= 256 and 1 <= entries <= 4096 and spare <= 4096 and reuse):
            sys.exit(f"the map {name} has keys of {key} bytes (1 to 64), values of {value} (1 to 256), {entries} entries (1 to 4096), "
                     f"{spare} spare slots (0 to 4096), and its slots {reuse} uses (1 or more)")
        if kind == ARRAY and (key, spare, reuse) != (INDEX_BYTES, 0, 1):
            sys.exit(f"the array {name} has keys of {key} bytes, {spare} spare slots and {reuse} uses of each: "
                     f"they are {INDEX_BYTES}, 0 and 1")
    return maps


def context_of(obj):
    lengths = [length for length, in struct.iter_unpack("<I", obj.section("context"))]
    if len(lengths) > 1 or lengths > [256]:
        sys.exit(f"a program has one context of at most 256 bytes, and not of {lengths}")
    return lengths[0] if lengths else 0


def code_of(obj):
    """The slots, with every relocation of them done."""
    functions = {symbol[0]: obj.section_of(symbol) for symbol in obj.symbols if symbol[1] == STT_FUNC}
    if [*functions.values()] != [".text"]:
        found = ", ".join(f"{name} in {section}" for name, section in functions.items()) or "none"
        sys.exit(f"a program is one function in the section .text, and others are INLINE; there is {found}")
    code = bytearray(obj.section(".text"))
    for place, symbol in obj.relocations(".text"):
        opcode = code[place]
        destination = code[place + 1] & 15
        if opcode == WIDE and obj.section_of(symbol) == "maps":
            number = (symbol[3] + struct.unpack_from("<i", code, place + 4)[0]) // SHAPE.size
            struct.pack_into("<BBhiQ", code, place, WIDE, 5 << 4 | destination, 0, number, 0)
        elif opcode == CALL and symbol[0] in KERNEL_FUNCTIONS:
            struct.pack_into("<BBhi", code, place, CALL, 2 << 4, 0, KERNEL_FUNCTIONS[symbol[0]])
        else:
            name = symbol[0] or obj.section_of(symbol)
            section = obj.section_of(symbol) or ""
            why = ""
            if section.startswith((".bss", ".data")):
                why = "; what a program keeps stands in a map"
            if section.startswith(".rodata"):
                why = "; a table of constants stands in a map that the host fills, or in the context"
            sys.exit(f"slot {place // 8} names {name}, which is neither a map nor a kernel function{why}")
    return [bytes(code[i:i + 8]) for i in range(0, len(code), 8)]


def map_line(name, shape):
    """The line of a map: an array has no keys of its own, no spare slots and no reuse."""
    kind, key, value, entries, spare, reuse = shape
    words = ["array", value, entries] if kind == ARRAY else [key, value, entries, spare, reuse]
    return " ".join(["map", name, *map(str, words)])


def map_lines(obj):
    return [map_line(name, shape) for name, shape in maps_of(obj)]


def program_lines(obj):
    """The lines of the program file."""
    slots = [slot.hex() for slot in code_of(obj)]
    code = [" ".join(slots[i:i + 5]) for i in range(0, len(slots), 5)]
    return ["bpfrt 1", f"ctx {context_of(obj)}", *map_lines(obj), "code", *code]


def text_at(strings, at):
    """The text that begins there."""
    return strings[at:strings.index(b"\0", at)].decode(errors="replace")


def lines_of(obj):
    """Where lines begin in the program: a slot, and the file, the number and the text of the line. What clang's option -g writes
    about types (.BTF) has the texts, and its extension (.BTF.ext) the lines."""
    types, more = obj.section(".BTF"), obj.section(".BTF.ext")
    if not types or not more:
        sys.exit("the object has no lines of its source: clang writes them with -g")
    size, _, _, start, length = struct.unpack_from("<5I", types, 4)
    strings = types[size + start:size + start + length]
    size, _, _, start, length = struct.unpack_from("<5I", more, 4)
    record, = struct.unpack_from("<I", more, size + start)
    at, end = size + start + 4, size + start + length
    while at < end:
        section, count = struct.unpack_from("<2I", more, at)
        for number in range(count if text_at(strings, section) == ".text" else 0):
            place, file, text, line = struct.unpack_from("<4I", more, at + 8 + number * record)
            if line >> 10:  # clang's own code has the line 0
                name = pathlib.PurePath(text_at(strings, file)).name
                yield place // 8, f"{name}:{line >> 10}: {text_at(strings, text).strip()}"
        at += 8 + count * record


def source_lines(obj):
    """For each slot that has one its number and its line."""
    begins = dict(lines_of(obj))
    line = None
    for slot in range(len(code_of(obj))):
        line = begins.get(slot, line)
        if line:
            yield f"{slot} {line}"


def script(lines):
    """The first lines of a script, of the lines of a program file that bpfrt takes."""
    maps = [line for line in lines if line.startswith("map ")]
    context = next(line.split()[1] for line in lines if line.startswith("ctx "))
    code = "".join(lines[lines.index("code") + 1:]).replace(" ", "")
    return [*maps, " ".join(["load", context, code or "-", *(line.split()[1] for line in maps)])]


def read(path):
    try:
        return pathlib.Path(path).read_bytes()
    except OSError as error:
        sys.exit(f"{path}: {error.strerror}")


def lines_by(make, path, data):
    """What is made of an object with these bytes."""
    if data[:6] != b"\x7fELF\2\1" or struct.unpack_from("<HH", data.ljust(64), 16) != (RELOCATABLE, FOR_BPF):
        sys.exit(f"{path} is no object that clang wrote for the target bpf")
    try:
        return [*make(Object(data))]
    except (struct.error, IndexError, KeyError, ValueError):
        sys.exit("the object is cut off or damaged: clang is to write it anew")


def lines_in(path):
    """The lines of the program file of an object, or of a program file itself."""
    data = read(path)
    if data.startswith(b"bpfrt 1\n"):
        return data.decode(errors="replace").splitlines()
    return lines_by(program_lines, path, data)


def main(words):
    if words[:1] == ["--script"] and len(words) == 2:
        try:
            lines = script(lines_in(words[1]))
        except (IndexError, StopIteration, ValueError):
            sys.exit(f"{words[1]} is no whole program file: bpfrt check says which line is wrong")
    elif words[:1] == ["--lines"] and len(words) == 2:
        lines = lines_by(source_lines, words[1], read(words[1]))
    elif len(words) == 1 and not words[0].startswith("-"):
        lines = lines_in(words[0])
    else:
        sys.exit(__doc__)
    sys.stdout.write("".join(line + "\n" for line in lines))


if __name__ == "__main__":
    main(sys.argv[1:])
