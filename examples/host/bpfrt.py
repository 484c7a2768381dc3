"""`bpfrt script` as a co-process: one class, to be copied. It needs Python 3.8 or later, and its standard library alone.

    with Runtime("bpfrt") as bpf:
        program = bpf.load(open("policy.bpfrt").read())
        values = bpf.run_many(program, [bytes(16)] * 1000)

A call that cannot be written raises TypeError or ValueError, and one that is refused Refused. An update or a delete that gives an
error of Linux's raises OSError. The next call is answered all the same. Behind these it is not:
- Ended: the process has ended, as it does after a line that is no command.
- Broken: a call was cut off between its command and its answers, as by a timeout or Ctrl-C, or what was written is no answer.
Each later call raises the same, since it might take another command's answer for its own. Make another Runtime: its maps are new.

A call waits as long as it takes. With `timeout=` it takes so many seconds at most, in any thread, and then raises TimedOut. It is cut
off by that, unless it still waited for its turn.

Threads may share a Runtime: calls are done one after another, and wait for their turn. `close` cuts off a call that takes longer than
PATIENCE. A handler of a signal may raise an exception in a call; where threads share the Runtime, let it be a call without a timeout.

A fork of the process has no Runtime: there each call raises Broken, and `close` only closes the fork's ends of the pipes. The fork
makes one of its own, as does a host behind the fork by which it goes into the background. While a fork has those ends open, `close`
of the other waits for PATIENCE, and kills.

The process has a session of its own, so Ctrl-C on a terminal does not reach it; it ends with its input."""
import collections
import errno
import operator
import os
import re
import select
import signal
import subprocess
import tempfile
import threading
import time

HEX, NUMBER = "(?:[0-9a-f]{2})+", "(?:0|[1-9][0-9]{0,18})"
IS_ELEMENT = re.compile(f"{HEX} {HEX}").fullmatch
# For each command the answers that are no refusals; a dump's elements stand before its `end`.
ANSWERS = {
    "map": r"map \d+", "load": r"prog \d+", "start": r"run \d+", "step": r"moved|exit \d+", "drop": "ok", "advance": "ok",
    "put": "ret (?:0|-2|-7|-12|-17|-22)", "get": f"value {HEX}|none", "del": "ret (?:0|-2|-22)", "dump": "end",
    "reap": rf"reaped \S+ {HEX} (?:free|worn)|none",
    "stat": r"stat linked \d+ unlinked \d+ given \d+ worn \d+ runs \d+ open \d+",
}
IS_ANSWER = {word: re.compile(rf"{form}|refused \d+(?: at \d+)?").fullmatch for word, form in ANSWERS.items()}
IS_REFUSAL = re.compile(r"refused \d+(?: at \d+)?").fullmatch
ARE_EXITS = re.compile(r"(?:exit \d+\n)*").fullmatch
LONGEST_LINE, MOST_STEPS, RUN_SLOTS = 70_000, 4096, 256
NO_SLOT = " (the map has no free map slot; `tidy` gives back those whose elements wait for no run, but not those that are worn out)"
# What a script refuses, as docs/REFUSALS.md has it.
REFUSALS = """1 Length: the number of bytes is not a multiple of 8
2 Empty: there is no instruction
3 TooLong: more than 4,096 slots
4 UnknownOpcode: the opcode byte stands for nothing
5 OutsideProfile: a packet or atomic instruction
6 BadRegister: a register nibble above 10, used or not
7 UnsupportedSource: the source field of a call is not 0 or 2, that of a wide instruction not 0 or 5
8 UnusedField: a field that the instruction does not use is not zero
9 BadOffset: the offset of DIV or MOD is not 0 or 1, that of MOV by a register not 0, 8, 16 or (64 bits) 32
10 BadWidth: a byte swap of other than 16, 32 or 64 bits
11 WideCut: a wide instruction in the last slot
12 WideTail: the second slot of a wide instruction is not a bare number, or not zero where the source is 5
20 JumpTarget: a jump leads to no instruction's start
21 BackJump: a jump leads to its own slot or before it
22 FallsOff: the last instruction is not EXIT
23 UnwrittenRegister: a register is read that is not written on every path, or not since a call
24 FramePointerWritten: r10 is written
25 PointerArithmetic: a pointer or map as a number, or an offset that may be too far, or one in the frame that is not known as one number
26 NotAPointer: memory reached through a number or a map
27 OutOfBounds: some possible offset of an access lies outside its region
28 Misaligned: some possible offset is not a multiple of the width
29 UnwrittenFrame: a byte of the frame is read that is not written on every path
30 PointerLeak: a pointer or map is stored to an element, stored or read in part, part of a call's key or value, or returned by EXIT
31 MixedRegions: a register or a byte of the frame is read that holds different kinds on different paths
32 MaybeNull: what a lookup gave is used before it is compared with null
33 OutsideSection: an element of a hash map is reached outside the section of its lookup, or a lookup is made outside a section and r1 is no array
34 UnpairedSection: a lock where 8 are open, an unlock outside a section, an exit inside one, or paths that differ in depth
35 UnknownCall: a call of an unknown function
36 WrongArgument: an argument of a call is of a wrong kind
37 NoSuchMap: a map that is not in the program's list
38 Unreachable: no path of the jump graph leads to the instruction
39 ContextWrite: a store to the context
50 BadName: a map's name is not 1 to 32 of a to z, 0 to 9 and _, the first a letter
51 NameTaken: a map has that name
52 BadShape: no map may have that shape
53 TooMany: a seventeenth map
54 TooManyPrograms: a sixty-fifth program
56 TooLate: a script: a map or a program after the world was made
60 NoRun: no run has the run slot
61 Ended: the run has ended
62 NoProgram: no program has the number
63 BadContext: a context of another length than the program's, or above 256
64 RunsFull: no run slot is free
65 NoMap: no map has the number, or the name
66 BadLength: a key or a value of another length than the map's
67 StillRunning: the run has not ended"""
WORDS = {int(number): words for number, words in re.findall("^([0-9]+) (.*)", REFUSALS, re.M)}


class Refused(Exception):
    """A command was refused: `code` of docs/REFUSALS.md or docs/SCRIPTS.md, its name and meaning there as `text` (empty where it
    has none), and the program's slot, if it is of one."""

    def __init__(self, command, answer):
        words = answer.split()
        self.code, self.slot = int(words[1]), int(words[3]) if len(words) > 2 else None
        self.text = WORDS.get(self.code, "")
        super().__init__(f"{answer}{self.text and f' ({self.text})'}: {command[:60]}")


class Broken(Exception):
    """An answer could be another command's: why."""


class Ended(Broken):
    """The process has ended: its status, which is below zero where a signal ended it, what it said on standard error, and the
    command of the call that saw its end, where that was a single one."""

    def __init__(self, status, said, command=""):
        super().__init__(status, said, command)
        self.status, self.said, self.command = status, said, command

    def __str__(self):
        by = f" ({signal.strsignal(-self.status)})" if (self.status or 0) < 0 else ""
        of = f"; the command was `{self.command[:60]}`" if self.command else ""
        return f"bpfrt script has ended with status {self.status}{by}, and said: {self.said or 'nothing'}{of}"


class TimedOut(Exception):
    """A call took all its time: whether for its turn, or for its answers. Behind the latter each later call raises Broken."""


class Timed:
    """A lock for `with`, which is waited for until a time."""
    __exit__ = property(lambda self: self.lock.__exit__)  # It is the lock's own: no exception of a handler comes before it.

    def __init__(self, lock, until):
        self.lock, self.until = lock, until

    def __enter__(self):
        if not self.lock.acquire(timeout=min(max(0, self.until - time.monotonic()), threading.TIMEOUT_MAX)):
            raise TimedOut("calls of other threads took all its time")


def end_of(timeout):
    """When so many seconds are over; None without a timeout."""
    if timeout is not None and not timeout >= 0:
        raise ValueError(f"{timeout} is no number of seconds")
    return None if timeout is None else time.monotonic() + timeout


def name_word(name):
    """A name, as any word that may stand for one."""
    if not re.fullmatch("[^ \n]+", name):
        raise ValueError(f"{name!r} is no word")
    return name


def number_word(number):
    if not 0 <= operator.index(number) < 1 << 64:
        raise ValueError(f"{number} is no number below 2^64")
    return f"{operator.index(number):d}"


def hex_word(data):
    return memoryview(data).hex() or "-"


def load_line(code, context, maps):
    return " ".join(["load", number_word(context), hex_word(code), *map(name_word, maps)])


class Runtime:
    PATIENCE = 2  # So many seconds the process has to end in, before it is killed.
    PIECE = 1 << 16  # So many bytes are written or read at once, at most.

    def __init__(self, bpfrt="bpfrt"):
        self._errors = tempfile.TemporaryFile()  # The process can always write there.
        self.child = subprocess.Popen([bpfrt, "script"], stdin=subprocess.PIPE, stdout=subprocess.PIPE, stderr=self._errors,
                                      bufsize=0, start_new_session=True)
        self._into, self._out = self.child.stdin.fileno(), self.child.stdout.fileno()
        os.set_blocking(self._into, False)
        self._reading, self._either = select.poll(), select.poll()
        self._reading.register(self._out, select.POLLIN)
        self._either.register(self._out, select.POLLIN)
        self._either.register(self._into, select.POLLOUT)
        self._turn, self._maker = threading.RLock(), os.getpid()
        self._why = None  # Why no call is answered any more: an exception's class and arguments.
        self._unwritten, self._lines, self._rest = b"", collections.deque(), ""  # Of the present call.
        self._command = ""  # That of the present call, once it is written, where it is a single one.
        self._until = None  # When the time of the present call is over.
        self._runs = set()  # The run slots that are taken.

    def __enter__(self):
        return self

    def __exit__(self, *_):
        self.close()

    def close(self):
        """Ends the process: its status. In a fork it only closes the pipes."""
        if os.getpid() != self._maker:
            return self._close_pipes()
        try:
            with Timed(self._turn, end_of(self.PATIENCE)):
                return self._closed()
        except TimedOut:
            self.child.kill()  # So the call of another thread has an end.
            with self._turn:
                return self._closed()

    def _closed(self):
        self._why = self._why or (Broken, ("the Runtime is closed",))
        self._close_pipes()
        return self._status(self.PATIENCE)

    def _close_pipes(self):
        for file in (self.child.stdin, self.child.stdout, self._errors):
            file.close()

    def _status(self, patience):
        """The status of the process, which is killed where it does not end by itself; None where even then it has not ended."""
        for seconds in patience, 10:
            try:
                return self.child.wait(seconds)
            except BaseException as error:
                self.child.kill()
                if not isinstance(error, subprocess.TimeoutExpired):
                    raise

    def _ended(self):
        """A pipe of the process is closed: how it has ended."""
        self.child.stdin.close()
        patience = self.PATIENCE if self._until is None else max(0, min(self.PATIENCE, self._until - time.monotonic()))
        status, said = self._status(patience), os.pread(self._errors.fileno(), self.PIECE, 0)
        return Ended(status, said.decode("utf-8", "replace").strip(), self._command)

    def _write(self):
        """Writes as much of what is left as the process takes."""
        try:
            self._unwritten = self._unwritten[os.write(self._into, self._unwritten[:self.PIECE]):]
        except BrokenPipeError:
            raise self._ended() from None

    def _read(self):
        """Waits for lines or a part of one."""
        self._wait(self._reading)
        part = os.read(self._out, self.PIECE)
        if not part:
            raise self._ended()
        *lines, self._rest = (self._rest + part.decode("ascii", "backslashreplace")).split("\n")
        self._lines += lines
        if len(self._rest) > LONGEST_LINE:
            raise Broken(f"a line without an end was written: {self._rest[:60]}")

    def _wait(self, poll):
        """Which pipes are ready, before the call's time is over. A signal just before the system's wait does not end it: its handler
        runs a second later."""
        while True:
            left = 1 if self._until is None else min(1, self._until - time.monotonic())
            if left <= 0:
                raise TimedOut("the answers took all its time")
            if ready := poll.poll(1000 * left):
                return [file for file, _ in ready]

    def _more(self):
        """Waits for lines. What is left is written meanwhile, so that neither side waits for the other."""
        if not self._unwritten or self._out in self._wait(self._either):
            self._read()
        else:
            self._write()

    def _line(self):
        """The next line."""
        while not self._lines:
            self._more()
        return self._lines.popleft()

    def _answer(self, command, word):
        """The answer to a command. What it says of run slots is kept."""
        line, elements = self._lines.popleft() if self._lines else self._line(), []
        while word == "dump" and IS_ELEMENT(line):
            elements.append(line)
            line = self._line()
        if not IS_ANSWER[word](line) or elements and line != "end":
            raise Broken(f"no answer to `{command[:60]}` was written: {line[:60]}")
        if word == "start" and line.startswith("run"):
            self._runs.add(int(line[4:]))
        elif word == "drop" and line == "ok":
            self._runs.discard(int(command[5:]))
        return "\n".join([*elements, line]) if elements else line

    def _many(self, count):
        """So many lines, of commands that have one each."""
        while len(self._lines) < count:
            self._more()
        return [self._lines.popleft() for _ in range(count)]

    def _taken(self, until):
        """The turn of a call, for `with`."""
        if os.getpid() != self._maker:
            raise Broken(f"process {self._maker} made the Runtime, and a fork of it makes one of its own")
        return self._turn if until is None else Timed(self._turn, until)

    def _call(self, text, answers, until, command=""):
        """Writes commands, or a single one, and takes their answers: what `answers` gives. A call that is cut off is the last."""
        with self._taken(until):
            if self._why:
                raise self._why[0](*self._why[1])
            self._why = Broken, ("a call is under way, or was cut off",)
            self._command, self._until = "", until
            taken = self._answered(text, answers, command)
            self._why = None
        return taken

    def _answered(self, text, answers, command):
        try:
            if self._reading.poll(0):  # before a command: the process has ended, or wrote what is no answer
                self._read()
            else:
                self._unwritten, self._command = memoryview(text), command
                self._write()
                taken = answers()
            if self._rest or self._lines or self._unwritten:
                raise Broken(f"more than the answers was written: {[*self._lines, self._rest][0][:60]}")
            return taken
        except BaseException as error:
            told = error if isinstance(error, Broken) else Broken(f"a call was cut off before its answers, by {error!r}")
            self._why = type(told), told.args
            raise

    def _batch(self, commands, until):
        commands = list(commands)
        words = [command.split(" ", 1)[0] for command in commands]
        text = "".join([command + "\n" for command in commands]).encode()
        if not ANSWERS.keys() >= set(words) or text.count(b"\n") != len(commands):
            raise ValueError("a command is one line, and its first word one of " + ", ".join(ANSWERS))
        if len(text) > LONGEST_LINE and max(map(len, text.split(b"\n"))) > LONGEST_LINE:
            raise ValueError(f"a command has at most {LONGEST_LINE} bytes")
        single = commands[0] if len(commands) == 1 else ""
        return self._call(text, lambda: [self._answer(*it) for it in zip(commands, words)], until, single)

    def _ask(self, command, until):
        answer, = self._batch([command], until)
        if answer.startswith("refused"):
            raise Refused(command, answer)
        return answer

    def batch(self, commands, *, timeout=None):
        """The answers to commands, by one write and one read: a line each, refusals among them, and a dump's of several lines.
        Of a command the first word is checked, and the length. Where its other words are none, the process ends."""
        return self._batch(commands, end_of(timeout))

    def ask(self, command, *, timeout=None):
        """The answer to a command that is not refused; `batch` says what is checked of it."""
        return self._ask(command, end_of(timeout))

    def _changed(self, command, timeout):
        """Nothing, or the error of Linux's as an OSError."""
        number = -int(self.ask(command, timeout=timeout).split()[1])
        if number:
            raise OSError(number, errno.errorcode[number] + (NO_SLOT if number == errno.ENOMEM else ""), command)

    def map(self, name, key, value, entries, spare, reuse, *, timeout=None):
        """Makes a hash map: its number."""
        shape = " ".join(map(number_word, (key, value, entries, spare, reuse)))
        return int(self.ask(f"map {name_word(name)} {shape}", timeout=timeout).split()[1])

    def array(self, name, value, entries, *, timeout=None):
        """Makes an array: its number."""
        line = f"map {name_word(name)} array {number_word(value)} {number_word(entries)}"
        return int(self.ask(line, timeout=timeout).split()[1])

    def load_code(self, code, context=0, maps=(), *, timeout=None):
        """Loads a program's bytes, for contexts of so many bytes and maps of these names: its number."""
        return int(self.ask(load_line(code, context, maps), timeout=timeout).split()[1])

    def load(self, text, make_maps=True, *, timeout=None):
        """Makes the maps of a program file's text, or takes those of the same names, and loads its program: its number.
        Maps stay where the program is refused: load the next text for them with make_maps=False."""
        if not isinstance(text, str):
            raise TypeError("load takes a program file as text: read it as text, and give a program's bytes to load_code")
        until, maps = end_of(timeout), rf"(?:map \S+ (?:array|{NUMBER} {NUMBER} {NUMBER}) {NUMBER} {NUMBER}\n)*"
        parts = re.fullmatch(rf"bpfrt 1\nctx ({NUMBER})\n({maps})code\n([0-9a-fA-F \n]*)", text)
        if not parts:
            raise ValueError("no program file as text: `bpfrt asm --file` or examples/c/build makes one")
        last = load_line(bytes.fromhex(parts[3]), int(parts[1]), re.findall(r"^map (\S+)", parts[2], re.M))
        with self._taken(until):
            for line in parts[2].splitlines() if make_maps else []:
                self._ask(line, until)
            return int(self._ask(last, until).split()[1])

    def put(self, name, key, value, flags=0, *, timeout=None):
        """Updates: flags 0 any key, 1 only a new one, 2 only one that is there."""
        self._changed(f"put {name_word(name)} {hex_word(key)} {hex_word(value)} {number_word(flags)}", timeout)

    def get(self, name, key, *, timeout=None):
        """The value, or None."""
        word, *value = self.ask(f"get {name_word(name)} {hex_word(key)}", timeout=timeout).split()
        return bytes.fromhex(value[0]) if word == "value" else None

    def delete(self, name, key, *, timeout=None):
        self._changed(f"del {name_word(name)} {hex_word(key)}", timeout)

    def dump(self, name, *, timeout=None):
        """All elements, by keys in the order of their bytes."""
        words = self.ask(f"dump {name_word(name)}", timeout=timeout).split()[:-1]
        return dict(zip(map(bytes.fromhex, words[::2]), map(bytes.fromhex, words[1::2])))

    def start(self, program, context=b"", *, timeout=None):
        """Starts a run: its run slot."""
        return int(self.ask(f"start {number_word(program)} {hex_word(context)}", timeout=timeout).split()[1])

    def step(self, run, count=1, *, timeout=None):
        """The exit value, once the run has it."""
        if not 1 <= count <= MOST_STEPS:
            raise ValueError(f"1 to {MOST_STEPS} steps")
        word, *value = self.ask(f"step {number_word(run)} {number_word(count)}", timeout=timeout).split()
        return int(value[0]) if word == "exit" else None

    def drop(self, run, *, timeout=None):
        """Takes a run that has exited out of its run slot."""
        self.ask(f"drop {number_word(run)}", timeout=timeout)

    def run(self, program, context=b"", *, timeout=None):
        """Starts a run, steps it to its exit and drops it: its exit value."""
        return self.run_many(program, [context], timeout=timeout)[0]

    def run_many(self, program, contexts, *, timeout=None):
        """Runs a program on each context, one after another: the exit values. It is one write and one read, since each run has
        the lowest run slot that is free. Where a start is refused, the first such refusal is raised when the others have run."""
        until, begin = end_of(timeout), f"start {number_word(program)} "
        starts = [begin + hex_word(context) for context in contexts]
        if max(map(len, starts), default=0) > LONGEST_LINE:
            raise ValueError(f"a command has at most {LONGEST_LINE} bytes")
        with self._taken(until):
            # The slot behind the last, where none is free: all three lines are refused then.
            slot = next(it for it in range(RUN_SLOTS + 1) if it not in self._runs)
            text = f"\nstep {slot} {MOST_STEPS}\ndrop {slot}\n".join([*starts, ""]).encode()
            lines = self._call(text, lambda: self._many(3 * len(starts)), until)
            began, left, dropped = lines[::3], lines[1::3], lines[2::3]
            all_ran = began.count(f"run {slot}") == dropped.count("ok") == len(starts)
            if not (all_ran and ARE_EXITS("\n".join([*left, ""]))):
                self._tell_first(slot, zip(starts, began, left, dropped))
        return [int(line[5:]) for line in left]

    def _tell_first(self, slot, rows):
        """Raises what is wrong with the first run of many that was refused, or was answered otherwise than a run is."""
        for start, began, left, dropped in rows:
            if IS_REFUSAL(began):
                raise Refused(start, began)
            if began != f"run {slot}" or not ARE_EXITS(left + "\n") or dropped != "ok":
                self._why = Broken, (f"run slot {slot} was free, and gave {began[:60]}, {left[:60]}, {dropped[:60]}",)
                raise Broken(*self._why[1])

    def advance(self, *, timeout=None):
        """Ends the grace period, if it can end, and begins the next."""
        self.ask("advance", timeout=timeout)

    def reap(self, *, timeout=None):
        """Reclaims an element: its map's name, its key, and whether its map slot is worn out; None where there is none."""
        word, *of = self.ask("reap", timeout=timeout).split()
        return (of[0], bytes.fromhex(of[1]), of[2] == "worn") if word == "reaped" else None

    def tidy(self, *, timeout=None):
        """Reclaims elements that were replaced or deleted, by `advance` and `reap`, until none is left, or all wait for a run inside a
        section. It gives how many were reclaimed, and how many still wait. A map has map slots for SPARE of these: call it before
        there are more. A reclaimed element's map slot is free again, or worn out (`stat`)."""
        until = end_of(timeout)
        with self._taken(until):
            waiting = int(self._ask("stat", until).split()[4])
            # An element waits for two grace periods at most, and a third does not end where the second does not.
            lines = self._batch(["advance", "advance", *["reap"] * waiting, "stat"], until)
        return sum(line.startswith("reaped") for line in lines), int(lines[-1].split()[4])

    def stat(self, *, timeout=None):
        """The counts, by their names: linked, unlinked, given, worn, runs, open."""
        words = self.ask("stat", timeout=timeout).split()[1:]
        return dict(zip(words[::2], map(int, words[1::2])))
