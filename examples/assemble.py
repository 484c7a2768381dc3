#!/usr/bin/env python3
"""Makes a program file out of a program in assembly text: the fixed language of docs/ASSEMBLY.md, without labels, names and `.equ`.

    assemble.py FILE           the program file, as docs/PROGRAM_FILES.md has it
    assemble.py --script FILE  the first lines of a script: its maps, and the program, bound to them

FILE is a program file without its first line, and with lines of the assembly language in place of slots. What it became
is shown by `bpfrt disasm`; whether it is safe is for `bpfrt check` to say."""
import pathlib
import re
import sys

# Operations, conditions and sizes by the codes of RFC 9669.
OPERATIONS = {"add": 0x00, "sub": 0x10, "mul": 0x20, "div": 0x30, "or": 0x40, "and": 0x50, "lsh": 0x60, "rsh": 0x70,
              "mod": 0x90, "xor": 0xA0, "mov": 0xB0, "arsh": 0xC0, "sdiv": 0x30, "smod": 0x90}
CONDITIONS = {"jeq": 0x10, "jgt": 0x20, "jge": 0x30, "jset": 0x40, "jne": 0x50, "jsgt": 0x60, "jsge": 0x70, "jlt": 0xA0,
              "jle": 0xB0, "jslt": 0xC0, "jsle": 0xD0}
SIZES = {"w": 0x00, "h": 0x08, "b": 0x10, "dw": 0x18}
SWAPS = {"le": 0xD4, "be": 0xDC, "swap": 0xD7}
MEMORY = re.compile(r"(ldx|stx|st)(s?)(dw|[bhw])")


# How each instruction is written, in one way alone.
R, N, O = r"r(?:0|[1-9]\d*)", r"(?:0|-?[1-9]\d*)", r"(?:\+0|[+-][1-9]\d*)"
AT = rf"\[{R}{O}\]"
FORM = re.compile("|".join([
    rf"(?:{'|'.join(OPERATIONS)})(?:32|64) {R}, (?:{R}|{N})", rf"neg(?:32|64) {R}", rf"movsx64 {R}, {R}, (?:8|16|32)",
    rf"movsx32 {R}, {R}, (?:8|16)", rf"(?:le|be|swap)(?:16|32|64) {R}", rf"(?:lddw|ldmap) {R}, {N}",
    rf"ldx(?:dw|s?[bhw]) {R}, {AT}", rf"st(?:dw|[bhw]) {AT}, {N}", rf"stx(?:dw|[bhw]) {AT}, {R}", rf"ja(?:32)? {O}",
    rf"(?:{'|'.join(CONDITIONS)})(?:32)? {R}, (?:{R}|{N}), {O}", rf"call(?:btf)? {N}", "exit"]), re.ASCII)


def slot(opcode, to=0, by=0, offset=0, number=0):
    """The eight bytes of a slot."""
    fields = bytes([opcode, by << 4 | to]) + offset.to_bytes(2, "little", signed=True)
    return fields + (number % 2**32).to_bytes(4, "little")


def within(text, least, limit):
    """The number of a text, which is at least the one and below the other."""
    number = int(text)
    if not least <= number < limit:
        raise ValueError(text)
    return number


def register(text):
    return within(re.fullmatch(r"r(\d+)", text)[1], 0, 11)


def immediate(text):
    return within(text, -2**31, 2**31)


def address(text):
    """A base register and an offset, as [r10-8]."""
    base, offset = re.fullmatch(r"\[(r\d+)([+-]\d+)\]", text).groups()
    return register(base), int(offset)


def with_operand(opcode, to, operand, offset):
    """An instruction whose second operand is a register or a number."""
    if operand.startswith("r"):
        return slot(opcode | 8, register(to), register(operand), offset)
    return slot(opcode, register(to), 0, offset, immediate(operand))


def wide(name, to, number):
    """The two slots of a number or of a map."""
    if name == "ldmap":
        return slot(0x18, register(to), 5, 0, immediate(number)) + slot(0)
    number = within(number, 0, 2**64)
    return slot(0x18, register(to), 0, 0, number) + slot(0, 0, 0, 0, number >> 32)


def memory(kind, sign, size, first, second):
    """A load, or a store of a register or of a number."""
    if kind == "ldx":
        return slot(SIZES[size] | (0x81 if sign else 0x61), register(first), *address(second))
    base, offset = address(first)
    if kind == "stx":
        return slot(SIZES[size] | 0x63, base, register(second), offset)
    return slot(SIZES[size] | 0x62, base, 0, offset, immediate(second))


def arithmetic(stem, kind, to, *others):
    """An operation of 32 or 64 bits, by its class."""
    if stem == "neg":
        return slot(0x80 | kind, register(to))
    if stem == "movsx":
        return slot(0xB8 | kind, register(to), register(others[0]), int(others[1]))
    return with_operand(OPERATIONS[stem] | kind, to, others[0], int(stem in ("sdiv", "smod")))


def control(name, text):
    """A jump that is always taken, a call, or the exit; else nothing."""
    if name == "ja":
        return slot(0x05, 0, 0, int(text))
    if name == "ja32":
        return slot(0x06, 0, 0, 0, immediate(text))
    if name in ("call", "callbtf"):
        return slot(0x85, 0, 2 if name == "callbtf" else 0, 0, immediate(text))
    return slot(0x95) if name == "exit" else None


def assembled(line):
    """The bytes of one line."""
    if not FORM.fullmatch(line):
        raise ValueError(line)
    name, _, text = line.partition(" ")
    words = text.split(", ")
    stem, size = re.fullmatch(r"([a-z]+)(\d*)", name).groups()
    if made := control(name, text):
        return made
    if name in ("lddw", "ldmap"):
        return wide(name, *words)
    if found := MEMORY.fullmatch(name):
        return memory(*found.groups(), *words)
    if stem in CONDITIONS:
        return with_operand(CONDITIONS[stem] | (6 if size else 5), words[0], words[1], int(words[2]))
    if stem in SWAPS:
        return slot(SWAPS[stem], register(text), 0, 0, int(size))
    return arithmetic(stem, {"64": 7, "32": 4}[size], *words)


def code_of(lines):
    """The slots of lines, but for those that are empty or begin with a semicolon."""
    code = []
    for number, line in lines:
        if line and not line.startswith(";"):
            try:
                code.append(assembled(line))
            except (KeyError, ValueError, TypeError, AttributeError, IndexError, OverflowError):
                sys.exit(f"line {number} is no instruction: {line}")
    return code


def main(words):
    if not words or words[:-1] not in ([], ["--script"]):
        sys.exit(__doc__)
    try:
        text = pathlib.Path(words[-1]).read_bytes().decode(errors="replace").split("\n")
    except OSError as error:
        sys.exit(f"{words[-1]}: {error.strerror}")
    if "code" not in text:
        sys.exit(f"{words[-1]} has no line `code`")
    head = [it for it in text[:text.index("code")] if it and not it.startswith(";")]
    if not head or not re.fullmatch(r"ctx (?:0|[1-9]\d*)", head[0], re.ASCII):
        sys.exit(f"{words[-1]} does not begin with the length of the context, as `ctx 0`")
    for line in head[1:]:
        if not line.startswith("map "):
            sys.exit(f"above `code` stands what is no map: {line}")
    code = code_of([*enumerate(text, 1)][text.index("code") + 1:])
    if words[0] != "--script":
        print("\n".join(["bpfrt 1", *head, "code", *(it[at:at + 8].hex() for it in code for at in range(0, len(it), 8))]))
        return
    maps = [it for it in head if it.startswith("map ")]
    context = [it.split()[1] for it in head if it.startswith("ctx ")]
    names = [it.split()[1] for it in maps]
    print("\n".join([*maps, " ".join(["load", *context, b"".join(code).hex(), *names])]))


if __name__ == "__main__":
    main(sys.argv[1:])
