#!/usr/bin/env python3
"""A host that asks `bpfrt` for verdicts by the class of bpfrt.py: host.py BPFRT"""
import pathlib
import struct
import sys

sys.dont_write_bytecode = True
from bpfrt import Broken, Refused, Runtime

POLICY = pathlib.Path(__file__).parent.parent / "c" / "policy.bpfrt"
VERDICTS = ["denied", "allowed", "audited"]
KEY = struct.pack("<IHBB", 0x0100000A, 443, 6, 0)  # 10.0.0.1, port 443, TCP, outwards


def rule(verdict):
    """A rule of this verdict, with 1000 bytes."""
    return struct.pack("<IIQ", verdict, 1000, 0)


def flow(size):
    return KEY + struct.pack("<Q", size)


def talk(bpf):
    """Asks for verdicts, and prints them."""
    policy = bpf.load(POLICY.read_text())
    bpf.put("rules", KEY, rule(1))
    print("a flow of 400 bytes is", VERDICTS[bpf.run(policy, flow(400))])
    print("a flow of no rule is", VERDICTS[bpf.run(policy, bytes(16))])
    held = bpf.start(policy, flow(100))
    print("a run finds the rule:", "goes on" if bpf.step(held, 15) is None else "has ended")
    bpf.put("rules", KEY, rule(0))
    print("the rule is a denial now; a new flow is", VERDICTS[bpf.run(policy, flow(100))])
    bpf.advance()
    bpf.advance()
    print("a grace period is not over, and reclaims", bpf.reap())
    print("the run that holds the old rule is", VERDICTS[bpf.step(held, 4096)])
    bpf.drop(held)
    bpf.advance()
    print("now it is over, and reclaims", bpf.reap()[0])
    try:
        bpf.delete("rules", bytes(8))
    except OSError as error:
        print("to delete what is not there:", error.strerror)
    try:
        bpf.start(policy, b"short")
    except Refused as refused:
        print("to start on a short context is refused", refused.code)
    bpf.put("rules", KEY, rule(1))
    values = bpf.run_many(policy, [flow(400)] * 4)
    print("four flows in one write are", ", ".join(VERDICTS[value] for value in values))
    print("lines in one write are answered", bpf.batch(["advance", "dump rules", "reap"]))
    print(bpf.stat())


if __name__ == "__main__":
    if len(sys.argv) != 2:
        sys.exit(__doc__)
    try:
        with Runtime(sys.argv[1]) as runtime:
            talk(runtime)
    except (Refused, Broken, OSError) as error:
        sys.exit(f"host: {error}")
