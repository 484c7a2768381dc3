#!/usr/bin/env python3
"""Says what a seccomp policy answers to system calls: judge_calls.py BPFRT PROGRAM [CALLS]

PROGRAM is what `bpfrt filter --seccomp` wrote. CALLS (else standard input) has a line for each call, `arch number argument ..`,
such as `x86_64 41 2 1 0`: names of ARCHES or numbers, and at most six arguments; what is left out is 0. `#` begins a comment."""
import pathlib
import struct
import sys

sys.dont_write_bytecode = True
sys.path.insert(0, str(pathlib.Path(__file__).resolve().parent.parent / "host"))
from bpfrt import Broken, Refused, Runtime

# Linux's AUDIT_ARCH_ numbers.
ARCHES = {"x86_64": 0xC000003E, "x86": 0x40000003, "aarch64": 0xC00000B7, "riscv64": 0xC00000F3}
# What the upper half of an answer means; the lower half is a number that belongs to it.
ACTIONS = {
    0x80000000: "kill the process", 0x00000000: "kill the thread", 0x00030000: "trap", 0x00050000: "errno", 0x7FC00000: "ask",
    0x7FF00000: "trace", 0x7FFC0000: "log", 0x7FFF0000: "allow",
}
# struct seccomp_data: the call's number, the architecture, the instruction pointer, six arguments; little-endian.
DATA = struct.Struct("<IIQ6Q")


def number_of(word, bits, names=""):
    """A number of so many bits; one below 0 stands for what its bits are without a sign."""
    try:
        number = int(word, 0)
    except ValueError:
        raise ValueError(f'"{word}" is no number{names}') from None
    if not -1 << bits - 1 <= number < 1 << bits:
        raise ValueError(f'"{word}" does not fit {bits} bits')
    return number % (1 << bits)


def call_of(line):
    """The data of a call."""
    words = line.split()
    if not 2 <= len(words) <= 8:
        raise ValueError(f'"{line}" is no `arch number argument ..` with at most six arguments')
    arch = ARCHES[words[0]] if words[0] in ARCHES else number_of(words[0], 32, f", and none of {', '.join(ARCHES)}")
    number, *values = number_of(words[1], 32), *(number_of(it, 64) for it in words[2:])
    return DATA.pack(number, arch, 0, *values, *[0] * (6 - len(values)))


def calls_of(path):
    """The lines of a list that are calls, and the data of each."""
    calls = []
    for place, text in enumerate(pathlib.Path(path).read_text(errors="backslashreplace").splitlines(), 1):
        line = text.partition("#")[0].strip()
        try:
            calls += [(line, call_of(line))] if line else []
        except ValueError as error:
            sys.exit(f"judge_calls: {path}:{place}: {error}")
    return calls


def answers_of(bpf, program, contexts):
    """What the policy answers to each call."""
    try:
        text = pathlib.Path(program).read_text(errors="backslashreplace")
        if not text.startswith(f"bpfrt 1\nctx {DATA.size}\n"):
            raise ValueError(f"it is no policy that `bpfrt filter --seccomp` wrote: those have contexts of {DATA.size} bytes")
        return bpf.run_many(bpf.load(text), contexts)
    except (Refused, ValueError, OSError) as error:
        sys.exit(f"judge_calls: {program}: {error}")


def name_of(answer):
    """What an answer means."""
    name = ACTIONS.get(answer & 0xFFFF0000)
    if name is None:
        return f"kill the process (unknown answer {answer:#x})"
    return f"{name} {answer & 0xFFFF}" if name in ("errno", "trap", "trace") else name


def main(bpfrt, program, calls="/dev/stdin"):
    listed = calls_of(calls)
    with Runtime(bpfrt) as bpf:
        answers = answers_of(bpf, program, [context for _, context in listed])
    for (line, _), answer in zip(listed, answers):
        print(f"{name_of(answer)}: {line}")


if __name__ == "__main__":
    if len(sys.argv) not in (3, 4):
        sys.exit(__doc__)
    try:
        main(*sys.argv[1:])
    except (Broken, OSError) as error:
        sys.exit(f"judge_calls: {error}")
