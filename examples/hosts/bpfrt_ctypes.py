"""The runtime in Python's own process: the class of examples/host/bpfrt.py over the shared library, to be copied. It needs Python 3.8 or
later, and its standard library alone.

    with Runtime() as bpf:
        program = bpf.load(open("policy.bpfrt").read())
        values = bpf.run_many(program, [bytes(16)] * 1000)

The methods that both classes have give the same, and raise the same by name. Here

- a program may be loaded at any time, a map only before the first call that needs them all (`put`, `get`, `delete`, `start`, `reap`,
  `advance`, or a run of a program that names one);
- `run_buffer`, `run_packet`, `run_packets`, `run_places`, `load_filter`, `load_array` and `load_policy` come to it, and `dump`,
  `stat`, `tidy`, `batch` and `ask` are missing;
- `reap` says only whether an element was reclaimed, no call has `timeout=`, and a refusal has no `text`;
- want of memory is a MemoryError, and nothing has changed.

A call cannot be cut off in its midst, so a Runtime does not break. Threads may share one: calls wait for one another. The child of a
fork makes a Runtime of its own.

A Table is a map of its own, over which up to 64 threads run programs at the same time while another changes it:

    table = Table(bpf, readers=2, elements=1000, key_words=1, value_words=2)
    table.set([7], [0, 0])
    value = table.reader().run(program, context)  # a reader for each thread"""
import array
import ctypes
import errno
import itertools
import operator
import os
import re
import struct
import threading

NUMBER = "(?:0|[1-9][0-9]{0,18})"
MOST_STEPS, MOST_MAPS, MOST_PROGRAMS, LONGEST_CONTEXT, LARGEST = 4096, 16, 64, 256, (1 << 32) - 1
HASH, ARRAY = 1, 2
SLOT = 1  # What a refusal's place counts, where that is slots.
ZERO = array.array("Q", [0])
EXIT = bytes.fromhex("b700000000000000 9500000000000000")


class Handle(ctypes.Structure):
    _fields_ = [("at", ctypes.c_void_p), ("state", ctypes.c_uint32)]


class Refusal(ctypes.Structure):
    _fields_ = [("code", ctypes.c_uint32), ("place", ctypes.c_uint32), ("at", ctypes.c_uint64), ("words", ctypes.c_char * 144)]


class Shape(ctypes.Structure):
    _fields_ = [(name, ctypes.c_uint32) for name in ("type", "key_size", "value_size", "max_entries", "spare", "reuse_limit")]


class TableShape(ctypes.Structure):
    _fields_ = [*((name, ctypes.c_uint32) for name in ("readers", "buckets", "elements", "key_words", "value_words", "values")),
                ("first", ctypes.c_uint64), ("second", ctypes.c_uint64)]


class TableStat(ctypes.Structure):
    _fields_ = [(name, ctypes.c_uint64) for name in ("free", "waiting", "seats")]


HANDLE, WHY, SHAPES = ctypes.POINTER(Handle), ctypes.POINTER(Refusal), ctypes.POINTER(Shape)
BYTES, SIZE, U32, U64 = ctypes.c_void_p, ctypes.c_size_t, ctypes.c_uint32, ctypes.c_uint64
MAPS, VALUE = ctypes.POINTER(U32), ctypes.POINTER(U64)
# The calls of bpfrt.h, with what each takes.
CALLS = {
    "prog_open": [HANDLE, BYTES, SIZE, SIZE, SHAPES, SIZE, WHY], "prog_open_file": [HANDLE, BYTES, SIZE, WHY],
    "prog_open_tcpdump": [HANDLE, BYTES, SIZE, WHY], "prog_open_filter": [HANDLE, BYTES, SIZE, WHY],
    "prog_open_policy": [HANDLE, BYTES, SIZE, WHY], "prog_share": [HANDLE, HANDLE], "prog_ctx_len": [HANDLE],
    "prog_run": [HANDLE, BYTES, SIZE, VALUE], "prog_run_many": [HANDLE, BYTES, SIZE, BYTES, SIZE],
    "prog_run_packet": [HANDLE, BYTES, SIZE, U32, VALUE], "close": [HANDLE],
    "world_open": [HANDLE, SHAPES, SIZE, WHY], "world_load": [HANDLE, HANDLE, MAPS, SIZE],
    "map_update_elem": [HANDLE, U32, BYTES, SIZE, BYTES, SIZE, U64], "map_lookup_elem": [HANDLE, U32, BYTES, SIZE, BYTES, SIZE],
    "map_delete_elem": [HANDLE, U32, BYTES, SIZE], "world_run": [HANDLE, U32, BYTES, SIZE, VALUE],
    "world_start": [HANDLE, U32, BYTES, SIZE], "world_step": [HANDLE, U32, VALUE], "world_drop": [HANDLE, U32],
    "world_advance": [HANDLE], "world_reap": [HANDLE],
    "prog_run_packets": [HANDLE, BYTES, SIZE, BYTES, SIZE, BYTES, SIZE], "table_open": [HANDLE, ctypes.POINTER(TableShape)],
    "table_reader": [HANDLE, HANDLE], "table_update_elem": [HANDLE, VALUE, SIZE, VALUE, SIZE, U64],
    "table_lookup_elem": [HANDLE, VALUE, SIZE, VALUE, SIZE], "table_delete_elem": [HANDLE, VALUE, SIZE], "table_reclaim": [HANDLE],
    "table_copy": [HANDLE, HANDLE],
    "table_get_next_key": [HANDLE, U32, VALUE, SIZE, VALUE, SIZE], "table_stat": [HANDLE, ctypes.POINTER(TableStat)],
    "reader_run": [HANDLE, HANDLE, BYTES, SIZE, VALUE],
    "reader_run_packet": [HANDLE, HANDLE, BYTES, SIZE, U32, VALUE],
}


class Refused(Exception):
    """A call was refused: `code` of docs/REFUSALS.md or docs/SCRIPTS.md, and the program's slot, if it is of one."""

    def __init__(self, code, what, slot=None):
        super().__init__(f"refused {code}" + ("" if slot is None else f" at {slot}") + f": {what}")
        self.code, self.slot = code, slot


class Broken(Exception):
    """The Runtime is closed."""


def library_at(path):
    """The library's calls, with their types."""
    library = ctypes.CDLL(path)
    for name, types in CALLS.items():
        if hasattr(library, f"bpfrt0_{name}"):
            call = getattr(library, f"bpfrt0_{name}")
            call.argtypes, call.restype = types, ctypes.c_int32
    return library


def checked_number(number):
    if not 0 <= operator.index(number) < 1 << 64:
        raise ValueError(f"{number} is no number below 2^64")
    return operator.index(number)


def checked_u32(number):
    if checked_number(number) > LARGEST:
        raise ValueError(f"{number} is no number below 2^32")
    return operator.index(number)


def checked_name(name):
    if not re.fullmatch("[^ \n]+", name):
        raise ValueError(f"{name!r} is no word")
    return name


def bytes_of(data):
    """The bytes of an object that has some."""
    return data if isinstance(data, bytes) else bytes(memoryview(data))


def lent(data):
    """What the library can read an object's bytes from, without a copy where that can be; and how many there are."""
    if isinstance(data, bytes):
        return data, len(data)
    view = memoryview(data)
    if view.readonly or not view.nbytes:
        return bytes(view), view.nbytes
    return ctypes.byref(ctypes.c_char.from_buffer(view)), view.nbytes


def room_for(count):
    """An array for so many values, and where it lies, while nothing else has it."""
    values = ZERO * count
    return values, (values if count else ZERO).buffer_info()[0]  # never null, as bpfrt.h wants of what is given to an export


class Held:
    """A handle, which is closed when nothing refers to it."""

    def __init__(self, library):
        self.handle, self._close = Handle(), library.bpfrt0_close

    def close(self):
        if self.handle.state:
            self._close(self.handle)

    __del__ = close


class Program:
    """A program, the numbers of its maps, whether it names none, and its number in the world, where it has one."""

    def __init__(self, held, maps, is_alone):
        self.held, self.maps, self.is_alone, self.number = held, maps, is_alone, None


class Runtime:
    def __init__(self, library="libbpfrt.so.0"):
        self._library = library_at(library)
        self._turn = threading.RLock()
        self._is_closed = False
        self._maps = {}  # The number and the shape of each map, by its name.
        self._programs = []
        self._world = None  # A handle, where maps and programs are made.
        self._runs = {}  # Whether a run has exited, by its run slot.

    def __enter__(self):
        return self

    def __exit__(self, *_):
        self.close()

    def close(self):
        """Frees the programs and the maps."""
        with self._turn:
            self._is_closed = True
            for held in [*(program.held for program in self._programs), *([self._world] if self._world else [])]:
                held.close()

    def _call(self, name, held, *given):
        """What a call of the library answers, 0 or more; else an OSError."""
        if self._is_closed:
            raise Broken("the Runtime is closed")
        number = getattr(self._library, f"bpfrt0_{name}")(held.handle, *given)
        if number < 0:
            raise OSError(-number, os.strerror(-number), name)
        return number

    def _called(self, name, held, *given):
        """The same, with want of memory as a MemoryError."""
        try:
            return self._call(name, held, *given)
        except OSError as error:
            raise MemoryError(name) if error.errno == errno.ENOMEM else error from None

    def _opened(self, name, *given):
        """A new handle that a call opens."""
        held, why = Held(self._library), Refusal()
        try:
            self._call(name, held, *given, why)
        except OSError as error:
            if error.errno == errno.ENOMEM:
                raise MemoryError(name) from None
            raise Refused(why.code, why.words.decode("utf-8", "replace"), why.at if why.place == SLOT else None) from None
        return held

    def _add_map(self, name, numbers):
        with self._turn:
            if self._world:
                raise Refused(56, f"map {name}: the maps are made")
            if not re.fullmatch("[a-z][a-z0-9_]{0,31}", checked_name(name), re.A):
                raise Refused(50, f"map {name}")
            if name in self._maps:
                raise Refused(51, f"map {name}")
            if max(map(checked_number, numbers)) > LARGEST:
                raise Refused(52, f"map {name}")
            shape = Shape(*numbers)
            self._opened("prog_open", EXIT, len(EXIT), 0, shape, 1).close()  # refuses a shape that is none
            if len(self._maps) == MOST_MAPS:
                raise Refused(53, f"map {name}")
            self._maps[name] = len(self._maps), shape
            return len(self._maps) - 1

    def map(self, name, key, value, entries, spare, reuse):
        """Makes a hash map: its number."""
        return self._add_map(name, [HASH, key, value, entries, spare, reuse])

    def array(self, name, value, entries):
        """Makes an array: its number."""
        return self._add_map(name, [ARRAY, 4, value, entries, 0, 1])

    def _map(self, name):
        """The number and the shape of a map."""
        if checked_name(name) not in self._maps:
            raise Refused(65, f"no map {name}")
        return self._maps[name]

    def _add_program(self, maps, name, *given):
        """The number of a program that a call opens, for maps of these names."""
        with self._turn:
            self._find_room()
            numbers, held = [self._map(it)[0] for it in maps], self._opened(name, *given)
            is_alone = self._library.bpfrt0_prog_run_many(held.handle, b"", 0, b"", 0) == 0
            program = Program(held, numbers, is_alone)
            if self._world:
                self._bind(program)
            self._programs.append(program)
            return len(self._programs) - 1

    def _program(self, number):
        if checked_number(number) >= len(self._programs):
            raise Refused(62, f"no program {number}")
        return self._programs[number]

    def _find_room(self):
        if len(self._programs) == MOST_PROGRAMS:
            raise Refused(54, "a sixty-fifth program")

    def load_code(self, code, context=0, maps=()):
        """Loads a program's bytes, for contexts of so many bytes and maps of these names: its number."""
        maps, context, code = list(maps), checked_number(context), bytes_of(code)
        with self._turn:
            self._find_room()
            if context > LONGEST_CONTEXT:
                raise Refused(63, f"a context of {context} bytes")
            shapes = [self._map(name)[1] for name in maps]
            room = (Shape * max(1, len(shapes)))(*shapes)
            return self._add_program(maps, "prog_open", code, len(code), context, room, len(shapes))

    def load(self, text, make_maps=True):
        """Makes the maps of a program file's text, or takes those of the same names, and loads its program: its number.
        Maps stay where the program is refused: load the next text for them with make_maps=False."""
        maps = rf"(?:map \S+ (?:array|{NUMBER} {NUMBER} {NUMBER}) {NUMBER} {NUMBER}\n)*"
        parts = re.fullmatch(rf"bpfrt 1\nctx ({NUMBER})\n({maps})code\n([0-9a-fA-F \n]*)", text)
        if not parts:
            raise ValueError("no program file as text: `bpfrt asm --file` or examples/c/build makes one")
        for line in parts[2].splitlines() if make_maps else []:
            _, name, *words = line.split(" ")
            if words[0] == "array":
                self.array(name, *map(int, words[1:]))
            else:
                self.map(name, *map(int, words))
        return self.load_code(bytes.fromhex(parts[3]), int(parts[1]), re.findall(r"^map (\S+)", parts[2], re.M))

    def load_filter(self, text):
        """Loads the filter that `tcpdump -ddd` wrote: its number."""
        given = text.encode() if isinstance(text, str) else bytes_of(text)
        return self._add_program([], "prog_open_tcpdump", given, len(given))

    def load_array(self, insns):
        """Loads the filter of an array of struct bpf_insn or struct sock_filter: its number."""
        given = bytes_of(insns)
        return self._add_program([], "prog_open_filter", given, len(given))

    def load_policy(self, insns):
        """Loads the policy of system calls of such an array: its number."""
        given = bytes_of(insns)
        return self._add_program([], "prog_open_policy", given, len(given))

    def _bind(self, program):
        """Adds a program to the world, over its maps."""
        count = len(program.maps)
        try:
            program.number = self._call("world_load", self._world, program.held.handle, (U32 * max(1, count))(*program.maps), count)
        except OSError as error:
            raise MemoryError("world_load") if error.errno == errno.ENOMEM else error

    def _made_world(self):
        """The world, with all programs."""
        if not self._world:
            shapes = [shape for _, shape in self._maps.values()]
            self._world = self._opened("world_open", (Shape * max(1, len(shapes)))(*shapes), len(shapes))
        for program in self._programs:
            if program.number is None:
                self._bind(program)
        return self._world

    def _in_map(self, name, call, key, *given, value=None):
        """What a call on an element of a map answers, whose lengths are tested before."""
        key = bytes_of(key)
        with self._turn:
            number, shape = self._map(name)
            world = self._made_world()
            if len(key) != shape.key_size or value is not None and len(value) != shape.value_size:
                raise Refused(66, f"{name}: a length that is not the map's")
            self._call(call, world, number, key, len(key), *given)

    def put(self, name, key, value, flags=0):
        """Updates: flags 0 any key, 1 only a new one, 2 only one that is there."""
        value = bytes_of(value)
        self._in_map(name, "map_update_elem", key, value, len(value), checked_number(flags), value=value)

    def get(self, name, key):
        """The value, or None."""
        with self._turn:
            room = ctypes.create_string_buffer(self._map(name)[1].value_size)
            try:
                self._in_map(name, "map_lookup_elem", key, room, len(room))
            except FileNotFoundError:
                return None
            return room.raw

    def delete(self, name, key):
        self._in_map(name, "map_delete_elem", key)

    def _of_runs(self, call, *given, refusals):
        """What a call on runs answers; some of errno's numbers are refusals."""
        try:
            return self._call(call, self._world, *given)
        except OSError as error:
            if error.errno not in refusals:
                raise
            raise Refused(refusals[error.errno], call) from None

    def _started(self, call, program, context, *given):
        context, program = bytes_of(context), self._program(program)
        self._made_world()
        return self._of_runs(call, program.number, context, len(context), *given, refusals={errno.EINVAL: 63, errno.EAGAIN: 64})

    def start(self, program, context=b""):
        """Starts a run: its run slot."""
        with self._turn:
            run = self._started("world_start", program, context)
            self._runs[run] = False
            return run

    def _run(self, run):
        """A run slot that is taken."""
        if checked_number(run) not in self._runs:
            raise Refused(60, f"no run {run}")
        return operator.index(run)

    def step(self, run, count=1):
        """The exit value, once the run has it."""
        if not 1 <= count <= MOST_STEPS:
            raise ValueError(f"1 to {MOST_STEPS} steps")
        value = U64()
        with self._turn:
            run = self._run(run)
            if self._runs[run]:
                raise Refused(61, f"run {run} has exited")
            for _ in range(count):
                if self._call("world_step", self._world, run, value):
                    self._runs[run] = True
                    return value.value
        return None

    def drop(self, run):
        """Takes a run that has exited out of its run slot."""
        with self._turn:
            run = self._run(run)
            self._of_runs("world_drop", run, refusals={errno.ESRCH: 60, errno.EBUSY: 67})
            del self._runs[run]

    def run(self, program, context=b""):
        """Runs a program on a context: its exit value."""
        return self.run_many(program, [context])[0]

    def run_many(self, program, contexts):
        """Runs a program on each context, one after another: the exit values. Where one is refused, the first such refusal is raised
        when the others have run."""
        contexts = [*map(bytes_of, contexts)]
        with self._turn:
            if contexts and self._program(program).is_alone and len({*map(len, contexts)}) == 1:
                return self.run_buffer(program, b"".join(contexts), len(contexts)).tolist()
            values, refused = [], None
            for context in contexts:
                try:
                    values.append(self._value(program, context))
                except Refused as error:
                    refused = refused or error
        if refused:
            raise refused
        return values

    def _value(self, program, context):
        """What a run exits with; one of a program that names no map has no need of the world."""
        if self._program(program).is_alone:
            return self.run_buffer(program, context, 1)[0]
        value = U64()
        self._started("world_run", program, context, value)
        return value.value

    def run_buffer(self, program, contexts, count=None):
        """Runs a program that names no map on contexts that stand one behind another in a buffer: an array of the exit values."""
        with self._turn:
            held, (room, size) = self._program(program).held, lent(contexts)
            length = self._call("prog_ctx_len", held)
            count = size // max(1, length) if count is None else checked_number(count)
            if size != count * length:
                raise Refused(63, f"contexts of {size} bytes, and one has {length}")
            values, to = room_for(count)
            self._call("prog_run_many", held, room, size, to, count)
        return values

    def run_packet(self, program, packet, length=None):
        """Runs a filter on a packet, of which so many bytes were on the wire: what the classic program returns."""
        with self._turn:
            held, (room, size) = self._program(program).held, lent(packet)
            value, length = U64(), checked_u32(size if length is None else length)
            try:
                self._call("prog_run_packet", held, room, size, length, value)
            except OSError as error:
                raise Refused(63, "the program is no filter") if error.errno == errno.EINVAL else error
            return value.value

    def run_places(self, program, data, places):
        """Runs a filter on packets that lie in a buffer: an array of the values. `places` is a buffer too, with 16 bytes a packet:
        where it begins, how much of it was captured, and how many bytes it had on the wire (struct's "=QII"). No packet is copied."""
        with self._turn:
            held, (room, size), (rows, length) = self._program(program).held, lent(data), lent(bytes_of(places))  # aligned
            if length % 16:
                raise Refused(63, f"places of {length} bytes, and one has 16")
            values, to = room_for(length // 16)
            try:
                self._call("prog_run_packets", held, room, size, rows, length // 16, to, length // 16)
            except OSError as error:
                raise Refused(63, "the program is no filter, or a place lies outside") if error.errno == errno.EINVAL else error
        return values

    def run_packets(self, program, packets):
        """Runs a filter on packets in one call, each of which is bytes, or a pair of bytes and how many were on the wire: an array of
        the values."""
        pairs = [(bytes_of(it[0]), checked_u32(it[1])) if isinstance(it, tuple) else (bytes_of(it), None) for it in packets]
        data, sizes, count = b"".join(it for it, _ in pairs), [len(it) for it, _ in pairs], len(pairs)
        lengths = [size if length is None else length for size, (_, length) in zip(sizes, pairs)]
        rows = zip(itertools.accumulate(sizes, initial=0), sizes, lengths)
        places, (values, to) = struct.pack("=" + "QII" * count, *itertools.chain.from_iterable(rows)), room_for(count)
        with self._turn:
            try:
                self._call("prog_run_packets", self._program(program).held, data, len(data), places, count, to, count)
            except OSError as error:
                raise Refused(63, "the program is no filter") if error.errno == errno.EINVAL else error
        return values

    def advance(self):
        """Ends the grace period, if it can end, and begins the next."""
        with self._turn:
            self._call("world_advance", self._made_world())

    def reap(self):
        """Reclaims an element: whether there was one."""
        with self._turn:
            return self._call("world_reap", self._made_world()) == 1


def words_of(words):
    """Numbers below 2^64 as the library reads them, and how many there are."""
    words = [*map(checked_number, words)]
    return (U64 * max(1, len(words)))(*words), len(words)


class Table:
    """A map of keys and values of so many words, of 8 bytes each. It takes one key fewer than it has elements, so that each value can be
    replaced. Where they are per_reader, each reader has values of its own, and `get` gives their sums. Errors are OSErrors, as bpfrt.h
    tells them."""

    def __init__(self, bpf, readers, elements, key_words, value_words, per_reader=False):
        self._bpf, self._held, self._turn = bpf, Held(bpf._library), threading.Lock()
        numbers = [*map(checked_u32, (readers, elements // 4 + 1, elements, key_words, value_words, bool(per_reader)))]
        self._key_words, self._value_words = key_words, value_words
        self._more = [0] * (value_words * (readers - 1) if per_reader else 0)
        bpf._called("table_open", self._held, TableShape(*numbers, *struct.unpack("=QQ", os.urandom(16))))

    def _on(self, call, *given):
        with self._turn:
            return self._bpf._call(call, self._held, *given)

    def set(self, key, value, flags=0):
        """Sets a key's value: flags 0 any key, 1 only a new one, 2 only one that is there. Of values per reader it is the first; the
        others begin with zeros."""
        self._on("table_update_elem", *words_of(key), *words_of([*value, *self._more]), checked_number(flags))

    def get(self, key):
        """The value's words, or None."""
        room = (U64 * max(1, self._value_words))()
        try:
            self._on("table_lookup_elem", *words_of(key), room, self._value_words)
        except FileNotFoundError:
            return None
        return room[:self._value_words]

    def remove(self, key):
        self._on("table_delete_elem", *words_of(key))

    def copy_to(self, larger):
        """Sets each key in a larger table, with all its values. From then on set and remove keys in both, in the larger first. bpfrt.h has
        the rules, at bpfrt_table_copy."""
        if larger is self:
            raise ValueError("a table is not copied into itself")
        first, second = sorted((self, larger), key=id)
        with first._turn, second._turn:
            self._bpf._call("table_copy", self._held, larger._held.handle)

    def __iter__(self):
        """The keys, in the table's own order. The table may change meanwhile: each key that stays comes once, unless the one that came
        last is removed before the next is asked for. Then they come from the first again. A new key that is set meanwhile may move
        others, which may then come twice or not at all."""
        room, key = (U64 * max(1, self._key_words))(), None
        while True:
            try:
                self._on("table_get_next_key", key is not None, *words_of(key or []), room, self._key_words)
            except FileNotFoundError:
                return
            key = room[:self._key_words]
            yield key

    def reclaim(self):
        """Frees what was removed or replaced, and no run can hold any more: how many."""
        return self._on("table_reclaim")

    def stat(self):
        """How many elements are free, how many wait to be reclaimed, and how many seats no reader has."""
        told = TableStat()
        self._on("table_stat", told)
        return told.free, told.waiting, told.seats

    def reader(self):
        """A reader, whose seat no other gets."""
        made = Reader(self._bpf)
        with self._turn:
            self._bpf._called("table_reader", made._held, self._held.handle)
        return made


class Reader:
    """Runs programs over a table, for one thread at a time. It has handles of its own of them."""

    def __init__(self, bpf):
        self._bpf, self._held, self._programs, self._turn = bpf, Held(bpf._library), {}, threading.Lock()

    def _ran(self, call, program, data, *given):
        value, (room, size) = U64(), lent(data)
        with self._turn:
            if program not in self._programs:
                shared = Held(self._bpf._library)
                with self._bpf._turn:
                    self._bpf._called("prog_share", shared, self._bpf._program(program).held.handle)
                self._programs[program] = shared
            self._bpf._call(call, self._held, self._programs[program].handle, room, size, *given, value)
        return value.value

    def run(self, program, context=b""):
        """Runs a program on a context: its exit value."""
        return self._ran("reader_run", program, context)

    def run_packet(self, program, packet, length=None):
        """The same on a packet, of which so many bytes were on the wire."""
        return self._ran("reader_run_packet", program, packet, checked_u32(memoryview(packet).nbytes if length is None else length))
