"""copies.py BASE: the module `wadlook` on copies, on pickles and on lent buffers, over the sample level.

What is copied, sent or lent answers as before whatever becomes of the first, or Python refuses. Each case runs in a process of its own,
so that a crash is one check that fails. The last line is `N passed, M failed`.
"""

import copy
import ctypes
import gc
import mmap
import multiprocessing
import os
import pickle
import struct
import subprocess
import sys
import tempfile
from array import array
from concurrent.futures import ProcessPoolExecutor
from multiprocessing.shared_memory import SharedMemory

from harness import add_up, check, counts
from wadlook import Block, Level, Place, Status, Wad, WadlookError

NODES, REJECT = 136, 216
PROTOCOLS = range(pickle.HIGHEST_PROTOCOL + 1)
POINTS = [(1, 5), (0, 5), (16384, 0)]
BEHIND = 2**18
"""So many bytes behind the level: what is as large is given back to the system once it is freed, and can't be read then."""


def raises(error, call, *words):
    try:
        call(*words)
    except error:
        return True
    return False


def refused(status, call, *words):
    try:
        call(*words)
    except WadlookError as why:
        return why.status == status
    return False


def clean():
    """Frees what no name holds, and writes over what was freed."""
    gc.collect()
    for size in (409, BEHIND, 409 + BEHIND):
        [b"\xff" * size for _ in range(8)]


# ---- What a level answers ------------------------------------------------------------------------------------------------


def answers(level):
    """What each call tells of the sample level."""
    return [
        level.findings,
        level.sectors(POINTS),
        [level.place(x, y) for x, y in POINTS],
        level.census(-1, 0, 1, 1),
        level.is_blocked(0, 1),
        level.block(0, 5),
        bytes(level.wad.lump("REJECT")),
        level.extract(),
    ]


def answers_of(wad):
    return answers(wad.level("E1M1"))


def is_sample(level):
    """Whether a level is that of the sample."""
    blocks = Block(0, 0, (0, 0))
    wanted = [[], [0, 1, None], [Place(0, 0), Place(1, 1), None], {0: 2, 1: 4}, False, blocks, b"\0", base]
    return answers(level) == wanted


def is_sample_wad(wad):
    return is_sample(wad.level("E1M1"))


def change(buffer):
    """The sample level with its ssectors on the other sides of the partition, and no sight from sector 0 to sector 1."""
    struct.pack_into("<2h", buffer, NODES + 24, -32767, -32768)
    buffer[REJECT] = 2


def is_changed(level):
    return [level.place(x, y) for x, y in POINTS] == [Place(1, 1), Place(0, 0), None] and level.is_blocked(0, 1) is True


# ---- Sources -------------------------------------------------------------------------------------------------------------


class OtherBytes(bytes):
    """Bytes that tell another length, and have others to tell."""

    def __len__(self):
        return 2**40

    def __bytes__(self):
        return b""


class OtherMap(mmap.mmap):
    def __bytes__(self):
        return b""


def mapped(access=mmap.ACCESS_WRITE, kind=mmap.mmap):
    """A file with the sample in it, under a map. It has no name in its folder."""
    with tempfile.TemporaryFile() as file:
        file.write(base + bytes(BEHIND))
        file.flush()
        return kind(file.fileno(), 0, access=access)


def whole():
    """The sample in bytes that nothing else holds."""
    return base + bytes(BEHIND)


SOURCES = {
    "bytes": whole,
    "other bytes": lambda: OtherBytes(whole()),
    "a bytearray": lambda: bytearray(whole()),
    "a view": lambda: memoryview(bytearray(whole())),
    "a view that can't be written": lambda: memoryview(whole()),
    "a view of a part": lambda: memoryview(bytearray(b"before" + whole()))[6:],
    "an array": lambda: array("B", whole()),
    "an array of integers": lambda: array("i", whole() + bytes(-len(whole()) % 4)),
    "another module's buffer": lambda: (ctypes.c_char * len(whole())).from_buffer_copy(whole()),
    "a map": mapped,
    "a map that can't be written": lambda: mapped(mmap.ACCESS_READ),
    "a map of a copy": lambda: mapped(mmap.ACCESS_COPY),
    "a map with other bytes": lambda: mapped(mmap.ACCESS_READ, OtherMap),
    "a path": lambda: path,
}


# ---- Kinds of a caller's own ---------------------------------------------------------------------------------------------


class Titled(Wad):
    """A file with a title, made in another way."""

    def __init__(self, title, source):
        super().__init__(source)
        self.title = title


class Slotted(Wad):
    __slots__ = ("note",)


class Stated(Wad):
    """A file that keeps a list, which it hands out to no pickle."""

    kept = ()

    def __getstate__(self):
        return {name: it for name, it in self.__dict__.items() if name != "kept"}

    def __setstate__(self, state):
        self.__dict__.update(state)
        self.kept = ["anew"]


class Reduced(Wad):
    """A file that goes into a pickle as all objects did at first."""

    def __reduce__(self):
        return super().__reduce__()


class Elsewhere(Wad):
    """A file that finds each lump in another one, far behind its own end."""

    def find(self, name, after=0):
        return super().find(name, after)._replace(place=2**40, size=2**20)


class Marked(Level):
    mark = "none"


# ---- Pickles -------------------------------------------------------------------------------------------------------------


def pickled(kind):
    for protocol in PROTOCOLS:
        sent = pickle.dumps(Wad(SOURCES[kind]()), protocol)
        clean()
        again = pickle.loads(sent)
        clean()
        check(f"a file of {kind} pickled, protocol {protocol}", is_sample_wad(again))
        check(f"its name, of {kind}, protocol {protocol}", again.name == (path if kind == "a path" else ""))
        fresh, asked = Wad(SOURCES[kind]()).level("E1M1"), Wad(SOURCES[kind]()).level("e1m1", wide=True)
        answers(asked)
        sent = pickle.dumps([fresh, asked], protocol)
        check(f"levels that were pickled answer on, of {kind}, protocol {protocol}", is_sample(asked) and is_sample(fresh))
        del fresh, asked
        clean()
        for level in pickle.loads(sent):
            check(f"a place of a level of {kind} pickled, protocol {protocol}", level.place(0, 5) == Place(1, 1))
            check(f"a level of {kind} pickled, protocol {protocol}", is_sample(level))
        check(f"its name and reading, of {kind}, protocol {protocol}", (level.name, level.wide) == ("e1m1", True))


def pickled_findings():
    faulty = bytearray(base)
    struct.pack_into("<2h", faulty, NODES + 24, -32768, -32768)
    level = Wad(faulty).level("E1M1")
    found = level.findings
    check("a level with faults pickled", [it.code for it in pickle.loads(pickle.dumps(level)).findings] == ["F15", "F16"])
    check("its findings are those that were found", pickle.loads(pickle.dumps(level)).findings == found)


def pickled_together():
    for protocol in PROTOCOLS:
        wad = Wad(bytearray(whole()))
        one, two = wad.level("E1M1"), wad.level("E1M1", wide=True)
        one.place(0, 5)
        again, one, two, other = pickle.loads(pickle.dumps([wad, one, two, copy.copy(wad)], protocol))
        check(f"levels of one file share it, protocol {protocol}", one.wad is again and two.wad is again)
        again.lump("REJECT")[0] = 2
        check(f"bytes are shared where they were, protocol {protocol}", other.level("E1M1").is_blocked(0, 1) is True)
        check(f"a pickle's bytes are its own, protocol {protocol}", is_sample_wad(wad))


def pickled_in_a_ring():
    for protocol in PROTOCOLS:
        for source in (whole(), bytearray(whole())):
            wad = Wad(source)
            wad.kept = [wad.level("E1M1")]
            for again in (pickle.loads(pickle.dumps(wad, protocol)), copy.deepcopy(wad)):
                check(f"a file that names its levels, protocol {protocol}", again.kept[0].wad is again)
                check(f"its level, protocol {protocol}", is_sample(again.kept[0]))
            again = pickle.loads(pickle.dumps(wad.kept[0], protocol))
            check(f"a level that its file names, protocol {protocol}", again.wad.kept[0] is again and is_sample(again))


def made_alike(wad, protocols):
    """A file as it comes out of each way to copy it."""
    yield from (pickle.loads(pickle.dumps(wad, protocol)) for protocol in protocols)
    yield from (copy.copy(wad), copy.deepcopy(wad))


def kinds_of_a_caller():
    for source in (whole(), bytearray(whole()), path):
        for again in made_alike(Titled("of a title", source), PROTOCOLS):
            check("a kind with a title", type(again) is Titled and again.title == "of a title" and is_sample_wad(again))
        plain = Wad(source)
        plain.added = ["by the caller"]
        for again in made_alike(plain, PROTOCOLS):
            check("what a caller added", again.added == ["by the caller"] and is_sample_wad(again))
        slotted = Slotted(source)
        slotted.note, slotted.added = "in a slot", 1
        for again in made_alike(slotted, PROTOCOLS[2:]):
            check("a kind with slots", (type(again), again.note, again.added) == (Slotted, "in a slot", 1) and is_sample_wad(again))
        stated = Stated(source)
        stated.kept, stated.added = ["first"], 1
        for again in made_alike(stated, PROTOCOLS):
            check("a kind with a state of its own", (again.kept, again.added) == (["anew"], 1) and is_sample_wad(again))
        marked = Marked(plain, "E1M1")
        marked.mark = "by the caller"
        marked.place(0, 5)
        for again in made_alike(marked, PROTOCOLS):
            check("a kind of level", (type(again), again.mark) == (Marked, "by the caller") and is_sample(again))
            check("the file of a kind of level", again.wad.added == ["by the caller"])
        for again in made_alike(Reduced(source), PROTOCOLS):
            check("a kind that is reduced as at first", type(again) is Reduced and is_sample_wad(again))


# ---- Processes -----------------------------------------------------------------------------------------------------------


def back(it):
    return it


def processes(method):
    with ProcessPoolExecutor(1, multiprocessing.get_context(method)) as pool:
        pool.submit(back, None).result()  # its process is there before the files are
        for kind, make in SOURCES.items():
            wad = Wad(make())
            level = wad.level("E1M1")
            wanted = answers(level)
            check(f"a file of {kind}, sent, {method}", pool.submit(answers_of, wad).result() == wanted)
            check(f"a level of {kind}, sent, {method}", pool.submit(answers, level).result() == wanted)
            check(f"places of a level of {kind}, sent, {method}", list(pool.map(level.place, (1, 0), (5, 5))) == wanted[2][:2])
            check(f"a level of {kind}, sent and back, {method}", is_sample(pool.submit(back, level).result()))


def another_program():
    level = Wad(whole()).level("E1M1")
    level.place(0, 5)
    program = (
        "import pickle, sys; level = pickle.load(sys.stdin.buffer); print(level.faults, *level.place(0, 5), level.is_blocked(0, 1))"
    )
    told = subprocess.run([sys.executable, "-c", program], input=pickle.dumps(level), stdout=subprocess.PIPE)
    check("a level in another program", (told.returncode, told.stdout.split()) == (0, [b"[]", b"1", b"1", b"False"]))


# ---- Copies --------------------------------------------------------------------------------------------------------------


def copied(kind):
    for way, of in (("a deep copy", copy.deepcopy), ("a copy", copy.copy)):
        wad = of(Wad(SOURCES[kind]()))
        clean()
        check(f"{way} of a file of {kind}", is_sample_wad(wad))
        level = Wad(SOURCES[kind]()).level("E1M1")
        level.place(0, 5)
        level = of(level)
        clean()
        check(f"{way} of a level of {kind}", level.place(0, 5) == Place(1, 1) and is_sample(level))


def deep_copies():
    lent = bytearray(whole())
    wad = Wad(lent)
    level = wad.level("E1M1")
    answers(level)
    again, one, two = copy.deepcopy([wad, level, copy.copy(level)])
    change(lent)
    check("a change after a deep copy is seen by the first", is_changed(level) and is_changed(wad.level("E1M1")))
    check("and not by the copy", is_sample_wad(again) and is_sample(one) and is_sample(two))
    check("deep copies of levels of one file share it", one.wad is again and two.wad is again)
    change(again.lump("E1M1", 7).obj)
    check("a deep copy can be changed as the first could", is_changed(one) and is_changed(again.level("E1M1")))
    memo = {}
    check("a deep copy is made once", copy.deepcopy(wad, memo) is copy.deepcopy(wad, memo) is copy.deepcopy(level, memo).wad)
    check("a deep copy of bytes can't be written", copy.deepcopy(Wad(whole())).lump("REJECT").readonly)


def copies():
    lent = bytearray(whole())
    wad = Wad(lent)
    level = wad.level("E1M1")
    level.place(0, 5)
    again, other = copy.copy(wad), copy.copy(level)
    check("a copy of a level is of the same file", other.wad is wad)
    change(lent)
    check("a copy shares lent bytes", is_changed(again.level("E1M1")) and is_changed(other) and is_changed(level))
    del wad, level, other
    clean()
    check("a copy holds lent bytes", raises(BufferError, lent.clear) and is_changed(again.level("E1M1")))
    del again
    clean()
    lent.clear()
    check("lent bytes are free again", lent == b"")


# ---- Lent buffers --------------------------------------------------------------------------------------------------------


def source_gone(kind):
    wad = Wad(SOURCES[kind]())
    level = wad.level("E1M1")
    level.place(0, 5)
    clean()
    check(f"a file whose source is gone, {kind}", is_sample_wad(wad) and is_sample(level))
    reject = wad.lump("E1M1", 9)
    del wad
    clean()
    check(f"a level whose file is gone, {kind}", is_sample(level))
    del level
    clean()
    check(f"a lump whose file is gone, {kind}", bytes(reject) == b"\0")


def resized_bytearray():
    lent = bytearray(whole())
    wad = Wad(lent)
    level = wad.level("E1M1")
    level.place(0, 5)
    for call, *words in (
        (lent.append, 0),
        (lent.extend, bytes(BEHIND)),
        (lent.pop,),
        (lent.clear,),
        (lent.__delitem__, slice(None)),
    ):
        check(f"a lent bytearray refuses {call.__name__}", raises(BufferError, call, *words))
        check(f"and answers after {call.__name__}", is_sample_wad(wad) and is_sample(level))
    reject = wad.lump("REJECT")
    del wad
    clean()
    check("a bytearray stays lent to a level", raises(BufferError, lent.clear) and is_sample(level))
    del level
    clean()
    check("a bytearray stays lent to a lump", raises(BufferError, lent.clear) and bytes(reject) == b"\0")
    del reject
    lent.clear()
    check("the bytearray is free again", lent == b"")


def resized_array():
    lent = array("B", whole())
    wad = Wad(lent)
    level = wad.level("E1M1")
    level.place(0, 5)
    for call, *words in ((lent.append, 0), (lent.frombytes, bytes(BEHIND)), (lent.pop,), (lent.__delitem__, slice(None))):
        check(f"a lent array refuses {call.__name__}", raises(BufferError, call, *words))
        check(f"and answers after {call.__name__}", is_sample_wad(wad) and is_sample(level))
    del wad, level
    clean()
    del lent[:]
    check("the array is free again", not lent)


def released_views():
    lent = bytearray(whole())
    view = memoryview(lent)
    part = view[: len(lent)]
    wads = [Wad(view), Wad(part)]
    with memoryview(lent) as other, memoryview(whole()) as fixed:
        wads += [Wad(other), Wad(fixed)]
    levels = [wad.level("E1M1") for wad in wads]
    for level in levels[::2]:
        level.place(0, 5)
    view.release()
    part.release()
    clean()
    for k, level in enumerate(levels):
        check(f"a released view {k}", is_sample(level) and is_sample_wad(wads[k]))
    check("what it viewed stays lent", raises(BufferError, lent.clear))
    reject = wads[0].lump("REJECT")
    reject.release()
    check("a lump that was released", is_sample_wad(wads[0]) and raises(ValueError, bytes, reject))
    gone = memoryview(lent)
    gone.release()
    check("a view that was released before", raises(ValueError, Wad, gone))
    fixed = memoryview(lent).toreadonly()
    wad = Wad(fixed)
    change(lent)
    check("a view that can't be written is copied", is_sample_wad(wad))


def closed_maps():
    lent = mapped()
    wad = Wad(lent)
    level = wad.level("E1M1")
    level.place(0, 5)
    check("a lent map refuses to be closed", raises(BufferError, lent.close) and is_sample_wad(wad) and is_sample(level))
    check("or resized", raises(BufferError, lent.resize, 2 * BEHIND) and is_sample_wad(wad) and is_sample(level))
    change(lent)
    check("a change under the map is seen", is_changed(wad.level("E1M1")))
    del wad, level
    clean()
    lent.close()
    check("the map can be closed then, and read no more", raises(ValueError, lent.read) and raises(ValueError, Wad, lent))
    fixed = mapped(mmap.ACCESS_READ)
    wad = Wad(fixed)
    level = wad.level("E1M1")
    level.place(0, 5)
    fixed.close()
    clean()
    check("a map that can't be written is copied, and may be closed", is_sample_wad(wad) and is_sample(level))


def shared_memory():
    shared = SharedMemory(create=True, size=len(whole()))
    try:
        shared.buf[: len(whole())] = whole()
        wad = Wad(shared.buf)
        level = wad.level("E1M1")
        level.place(0, 5)
        check("lent shared memory refuses to be closed", raises(BufferError, shared.close))
        check("and answers", is_sample_wad(wad) and is_sample(level) and is_sample_wad(copy.deepcopy(wad)))
        del wad, level
        clean()
        shared.close()
    finally:
        shared.unlink()


def overwritten():
    for byte in range(0, 256, 5):
        lent = bytearray(whole())
        wad = Wad(lent)
        level = wad.level("E1M1")
        level.place(0, 5)
        lent[:] = bytes([byte]) * len(lent)
        calls = [
            (level.sectors, POINTS),
            (level.census, -1, 0, 1, 1),
            (level.is_blocked, 0, 1),
            (level.block, 0, 5),
            (level.extract,),
        ]
        for call, *words in [*calls, (wad.level, "E1M1"), (wad.lump, "REJECT"), (copy.deepcopy(level).place, 0, 5)]:
            check(f"{call.__name__} of bytes that are all {byte}", refused(Status.MAGIC, call, *words))
        check(f"a place that was prepared, of bytes that are all {byte}", isinstance(level.place(0, 5), (Place, type(None))))


def other_find():
    for source in (whole(), bytearray(whole())):
        level = Elsewhere(source).level("E1M1")
        told = [level.is_blocked(0, 1), level.block(0, 5), level.place(0, 5)]
        check("a level asks for its own lumps, whatever its file finds", told == [False, Block(0, 0, (0, 0)), Place(1, 1)])
        check("a lump that isn't in its file has no bytes", bytes(level.wad.lump("REJECT")) == b"")


def removed_file():
    with tempfile.TemporaryDirectory() as folder:
        place = os.path.join(folder, "one.wad")
        with open(place, "wb") as file:
            file.write(whole())
        wad = Wad(place)
    level = wad.level("E1M1")
    check("a file that was removed", is_sample(level) and wad.name == place)
    check("a pickle and copies of it", all(map(is_sample_wad, made_alike(wad, PROTOCOLS))))


def another_file():
    for source in (whole(), bytearray(whole())):
        level = Wad(source).level("E1M1")
        level.place(0, 5)
        level.wad = Wad(b"")
        clean()
        again = copy.deepcopy(level)
        for asked in (level, again):
            check("a level that is given another file is read there", refused(Status.SHORT, asked.sectors, POINTS))
        check("its places stay those that were prepared", level.place(0, 5) == Place(1, 1))
        check("a copy prepares anew", refused(Status.SHORT, again.place, 0, 5))
        wad = Wad(source)
        level = wad.level("E1M1")
        level.place(0, 5)
        wad.__init__(b"")
        del source
        clean()
        check("a file that is made anew", refused(Status.SHORT, level.sectors, POINTS) and level.place(0, 5) == Place(1, 1))


# ---- Each alone ----------------------------------------------------------------------------------------------------------

CASES = [
    *((case, kind) for case in (pickled, copied, source_gone) for kind in SOURCES),
    *((processes, method) for method in multiprocessing.get_all_start_methods()),
    (pickled_findings,),
    (pickled_together,),
    (pickled_in_a_ring,),
    (kinds_of_a_caller,),
    (another_program,),
    (deep_copies,),
    (copies,),
    (resized_bytearray,),
    (resized_array,),
    (released_views,),
    (closed_maps,),
    (shared_memory,),
    (overwritten,),
    (other_find,),
    (removed_file,),
    (another_file,),
]


def count(told, case, *words):
    counts.update({True: 0, False: 0})
    case(*words)
    sys.stdout.flush()
    told.send((counts[True], counts[False]))


def alone(case, *words):
    """Runs a case in a process of its own: how many of its checks passed and failed, one where the process ended before the case."""
    heard, told = fork.Pipe(duplex=False)
    child = fork.Process(target=count, args=(told, case, *words))
    child.start()
    told.close()
    try:
        return heard.recv()
    except EOFError:
        child.join()
        print("FAILED", case.__name__, *words, f"ended with {child.exitcode}", flush=True)
        return 0, 1
    finally:
        child.join()


if __name__ == "__main__":
    path = sys.argv[1]
    with open(path, "rb") as sample:
        base = sample.read()
    fork = multiprocessing.get_context("fork")
    for case in CASES:
        for holds, told in zip((True, False), alone(*case)):
            counts[holds] += told
    sys.exit(add_up())
