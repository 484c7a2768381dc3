#!/usr/bin/env python3
"""A replica of maps and programs: replica.py BPFRT URL NAME

It follows the stream `log` of the Redis at URL. An entry is the lines of a script, under `lines`, or under `begin`, which begins
with a new process and new maps. Their answers go into the stream `answers:NAME`, under the entry's own ID. Started anew, the
replica goes through the log again, and ends where it gives another answer than before. Any fault ends it: start it anew."""
import pathlib
import re
import sys
import time

try:
    import redis
except ImportError:
    sys.exit("replica: Python has no module redis: in Debian the package python3-redis has it")

sys.path.append(str(pathlib.Path(__file__).resolve().parent.parent / "host"))
from bpfrt import Runtime

LOG = "log"
BYTES, NUMBER, NAME = "(?:(?:[0-9a-fA-F]{2})+|-)", "(?:0|[1-9][0-9]{0,18})", "[a-z][a-z0-9_]*"
TO_4096 = "(?:[1-9][0-9]{0,2}|[1-3][0-9]{3}|40[0-8][0-9]|409[0-6])"
FORMS = [
    f"map {NAME} (?:array|{NUMBER} {NUMBER} {NUMBER}) {NUMBER} {NUMBER}", f"load {NUMBER} {BYTES}(?: {NAME}){{0,16}}",
    f"put {NAME} {BYTES} {BYTES} {NUMBER}", f"(?:get|del) {NAME} {BYTES}", f"dump {NAME}", "advance|reap|stat",
    f"start {NUMBER} {BYTES}", f"step {NUMBER}(?: {TO_4096})?", f"drop {NUMBER}",
]
IS_COMMAND = re.compile("|".join(FORMS)).fullmatch
MOST_BYTES = 70_000


class Replica:
    def __init__(self, bpfrt, client, name):
        self.bpfrt, self.client, self.stream = bpfrt, client, answers_of(name)
        self.runtime, self.at = Runtime(bpfrt), "0"

    def answers(self, fields):
        """The answers to an entry: a function of the entries from the last `begin` on. A line that is no command would end the
        process, so none of an entry that has one is given to it."""
        if "begin" in fields:
            self.runtime.close()
            self.runtime = Runtime(self.bpfrt)
        lines = fields.get("begin", fields.get("lines", "")).split("\n")
        if not all(len(line) <= MOST_BYTES and IS_COMMAND(line) for line in lines):
            return "no command"
        return "\n".join(self.runtime.batch(lines))

    def tell(self, pipe, number, answers, told):
        """Adds answers to the stream; where it has some of this entry already, they are to be the same."""
        if told is None:
            pipe.xadd(self.stream, {"answers": answers}, id=number)
        elif told["answers"] != answers:
            sys.exit(f"{self.stream}: entry {number} was answered {told['answers']}, and now {answers}")

    def follow(self):
        while True:
            for _, entries in self.client.xread({LOG: self.at}, count=200, block=1000):
                told = dict(self.client.xrange(self.stream, entries[0][0], entries[-1][0]))
                with self.client.pipeline(transaction=False) as pipe:
                    for number, fields in entries:
                        if "begin" in fields:
                            pipe.xtrim(self.stream, minid=number, approximate=False)
                        self.tell(pipe, number, self.answers(fields), told.get(number))
                    pipe.execute()
                self.at = number


def connected(url):
    return redis.Redis.from_url(url, decode_responses=True, encoding_errors="backslashreplace")


def answers_of(name):
    return f"answers:{name}"


def append(client, *lines):
    """Adds an entry to the log: its ID. All its lines are done one after another."""
    return client.xadd(LOG, {"lines": "\n".join(lines)})


def answered(client, name, number, seconds=60):
    """What a replica answers an entry, once it does."""
    end = time.monotonic() + seconds
    while not (told := client.xrange(answers_of(name), number, number)):
        if time.monotonic() > end:
            raise TimeoutError(f"{name} has not answered {number}")
        time.sleep(0.002)
    return told[0][1]["answers"].split("\n")


def cut(client, of):
    """Begins the log anew, with the maps, the programs and a put for each element, as a replica has them; whether it did. It does
    not where a run is held, since no line makes a run as it is, or where somebody added to the log meanwhile."""
    head = [line for line in client.xrange(LOG, count=1)[0][1]["begin"].split("\n") if line.startswith(("map ", "load "))]
    names = [line.split()[1] for line in head if line.startswith("map ")]
    number = append(client, "stat", *("dump " + it for it in names))
    stat, *elements = answered(client, of, number)
    if " runs 0 " not in stat:
        return False
    lines = iter(elements)
    puts = [f"put {name} {line} 0" for name in names for line in iter(lines.__next__, "end")]
    with client.pipeline() as pipe:
        pipe.watch(LOG)
        if pipe.xrevrange(LOG, count=1)[0][0] != number:
            return False
        pipe.multi()
        pipe.xadd(LOG, {"begin": "\n".join(head + puts)})
        pipe.xtrim(LOG, maxlen=1, approximate=False)
        try:
            pipe.execute()
        except redis.WatchError:
            return False
    return True


if __name__ == "__main__":
    if len(sys.argv) != 4:
        sys.exit(__doc__)
    Replica(sys.argv[1], connected(sys.argv[2]), sys.argv[3]).follow()
