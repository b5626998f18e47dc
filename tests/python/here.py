"""Maps that are changed in place: what is said and left, and what runs leave that are stopped or that fail."""
import os
import random
import shutil
import signal
import subprocess
import sys
import tempfile
import time
from typing import Dict, List, NamedTuple, Optional, Tuple

from bench import Bench, Ended, read, write
import bends
import calls
import journals
import memory
import said
from jobs import clear, text_of
from proofs import plain

MAP, BATCH, JOURNAL = "m", "b", journals.name_of("m")
APPLY, RECOVER = ["apply-here", MAP, BATCH], ["recover", MAP]
MOST = 20  # runs that are begun for each that is to be stopped


class Update(NamedTuple):
    """A map, a batch for it, the map afterwards, and the line that is printed."""

    old: bytes
    batch: bytes
    new: bytes
    line: bytes
    journal: bytes = b""

    def lay_out(self) -> None:
        """Puts map, batch and journal into the folder, and nothing else."""
        clear()
        write(MAP, self.old)
        write(BATCH, self.batch)
        if self.journal:
            write(JOURNAL, self.journal)


class Left(NamedTuple):
    """What stands in the folder of a map and its journal."""

    map_: bytes
    journal: bytes

    def restores(self) -> Tuple[bytes, bool]:
        """The map to which they restore, and whether the journal is open."""
        return journals.restored(self.map_, self.journal)


def left(folder: str = ".") -> Left:
    """What stands there."""
    name = os.path.join(folder, JOURNAL)
    return Left(read(os.path.join(folder, MAP)), read(name) if os.path.exists(name) else b"")


def update(bench: Bench, seed: int, count: int, changes: int, version: int) -> Update:
    """A batch of so many records that come, and as many that go, on a generated map; `apply` says what comes of it.

    Every other one has the journal of a longer update beside it, which was carried out.
    """
    chance = random.Random(seed)
    records = list(plain.generated(count, seed))
    records = plain.on_layers(records) if version == 2 else records
    gone = [b"- %d\n" % number for number in chance.sample(range(1, count + 1), changes)]
    end = b" 9 -\n" if version == 2 else b" -\n"
    come = [b"+ %d %d 0 %d 0" % (count + 1 + at, 1000 * at, 1000 * at) + end for at in range(changes)]
    batch = b"batch 1\n" + b"".join(gone + come)
    clear()
    write("r", text_of(records, version))
    write(BATCH, batch)
    made = bench.program(["build2" if version == 2 else "build", MAP, "r"])
    ended = bench.program(["apply", MAP, BATCH, "n"])
    bench.holds((made[0], ended[0]) == (0, 0), "a map and a batch: %s and %s" % (made, ended))
    old, new = read(MAP), read("n")
    longer = journals.spelled(version, journals.changed(journals.PAGES[version], b"", old), 0)
    one = Update(old, batch, new, ended[1], longer if seed % 2 else b"")
    one.lay_out()
    said_ = bench.program(["apply-here", MAP, BATCH])
    bench.holds(said_ == (0, one.line), "in place is said %s, and by apply %s" % (said_, one.line))
    bench.holds(left().map_ == one.new, "in place comes another map than by apply")
    meant = journals.left_by(version, old, new, one.journal)
    bench.holds(left().journal == meant, "the journal has other pages than the changed ones")
    return one


def state_of(one: Update, what: Left) -> str:
    """To which of the two maps this restores, and how; or what must not be."""
    map_, is_open = what.restores()
    if map_ not in (one.old, one.new):
        return "WRONG: it restores to neither map"
    if map_ == one.old:
        return "WRONG: an open journal of the map before" if is_open else "before"
    return "after, with an open journal" if is_open else "after"


def recovers(bench: Bench, one: Update, what: str) -> None:
    """`recover` makes of what is left the map before or after, and says which; what `list` and a second update say."""
    before = left()
    state, (map_, is_open) = state_of(one, before), before.restores()
    bench.holds(not state.startswith("WRONG"), "%s: %s" % (what, state))
    ended = bench.program(["recover", MAP])
    bench.holds(ended == (0, b"recovered\n" if is_open else b"clean\n"), "%s: recover says %s" % (what, ended))
    bench.holds(left().map_ == map_ and not left().restores()[1], "%s: it is not recovered" % what)
    listed = bench.program(["list", MAP])
    write("o", map_)
    bench.holds(listed[0] == 0 and listed == bench.program(["list", "o"]), "%s: list says %s" % (what, listed[0]))
    again = bench.program(["apply-here", MAP, BATCH])
    meant = (0, one.line) if map_ == one.old else (5, b"bad batch OutOfOrder held 1 given 1\n")
    bench.holds(again == meant and left().map_ == one.new, "%s: a second update says %s" % (what, again))


class Tally:
    """Counts in which states maps were left."""

    def __init__(self, what: str) -> None:
        self.what = what
        self.counts: Dict[str, int] = {}

    def add(self, state: str) -> None:
        """One more."""
        self.counts[state] = self.counts.get(state, 0) + 1

    def show(self) -> None:
        """Prints them."""
        parts = ", ".join("%d %s" % (self.counts[state], state) for state in sorted(self.counts))
        print("tests/hostile: updates in place, %s: %s" % (self.what, parts))


class Pace(NamedTuple):
    """How long an update takes: all of it, and behind its first write; in seconds."""

    all_: float
    writing: float


def written() -> Optional[int]:
    """When the journal was written last; none where it is not there."""
    return os.stat(JOURNAL).st_mtime_ns if os.path.exists(JOURNAL) else None


def writes(child: "subprocess.Popen[bytes]", before: Optional[int]) -> None:
    """Waits until an update has written into its journal, or has ended."""
    while child.poll() is None and written() == before:
        pass


def pace_of(bench: Bench, one: Update, words: List[str]) -> Pace:
    """The shortest of three."""
    took = []
    for _ in range(3):
        one.lay_out()
        before, child = written(), begun(bench, words)
        began = time.monotonic()
        writes(child, before)
        wrote = time.monotonic()
        child.wait()
        took.append(Pace(time.monotonic() - began, time.monotonic() - wrote))
    return Pace(min(one_.all_ for one_ in took), min(one_.writing for one_ in took))


def begun(bench: Bench, words: List[str]) -> "subprocess.Popen[bytes]":
    """An update or a recovery that has begun."""
    return subprocess.Popen([bench.program_path, *words], stdout=subprocess.DEVNULL, stderr=subprocess.STDOUT)


def opened(one: Update, version: int, words: List[str]) -> Update:
    """What a command finds: an update the map before it, and a recovery what a stop behind the gate left of one."""
    return one if words == APPLY else begun_once(one, version)


def killed(bench: Bench, seed: int) -> None:
    """Updates that are ended at random moments, two hundred in the long run, and a quarter as many recoveries."""
    chance, tally = random.Random(seed), Tally("ended at random moments")
    size, often = (30000, 100) if bench.is_long else (3000, 4)
    for version in (1, 2):
        one = update(bench, seed % 2**63 * 2 + version, size, size // 30, version)
        cut(bench, one, opened(one, version, APPLY), APPLY, often, chance, tally)
        cut(bench, one, opened(one, version, RECOVER), RECOVER, often // 4, chance, tally)
    tally.show()


def cut(
    bench: Bench, one: Update, found: Update, words: List[str], often: int, chance: random.Random, tally: Tally
) -> None:
    """Ends a command at random moments, so often, over what it finds of an update."""
    pace, stops, runs = pace_of(bench, found, words), 0, 0
    while stops < often and runs < MOST * often:
        found.lay_out()
        # at once where the machine is too busy for more
        pace = Pace(0, 0) if runs == MOST * often // 2 else pace
        before, child = written(), begun(bench, words)
        # of updates three of four while the files are written; a recovery writes its journal last
        if runs % 4 and words == APPLY:
            writes(child, before)
            time.sleep(pace.writing * chance.uniform(0, 0.9))
        else:
            time.sleep(pace.all_ * chance.choice((0.2, 1)) * chance.uniform(0, 1))
        child.send_signal(signal.SIGKILL)
        is_stopped = child.wait() == -signal.SIGKILL
        stops, runs = stops + is_stopped, runs + 1
        if is_stopped:
            tally.add("%s %s" % (words[0], state_of(one, left())))
        recovers(bench, one, "a run of %s that is ended" % words[0])
    bench.holds(stops == often, "of %d runs of %s %d were ended" % (runs, words[0], stops))


def copied(bench: Bench, seed: int) -> None:
    """Copies of map and journal, taken while an update stands still, on a machine that is busy."""
    chance, tally = random.Random(seed), Tally("copied at random moments")
    size, often = (30000, 25) if bench.is_long else (3000, 2)
    busy = [subprocess.Popen([sys.executable, "-c", "while True: pass"]) for _ in range(2)]
    try:
        for version in (1, 2):
            one = update(bench, seed % 2**63 * 2 + version, size, size // 30, version)
            pace = pace_of(bench, one, APPLY)
            for number in range(often):
                one.lay_out()
                before, child, taken = written(), begun(bench, APPLY), []
                while child.poll() is None and len(taken) < 8:
                    if len(taken) == 1:
                        writes(child, before)
                    time.sleep(pace.writing / 3 * chance.uniform(0, 1) if taken else pace.all_ * chance.uniform(0, 0.4))
                    child.send_signal(signal.SIGSTOP)
                    taken.append(left())
                    child.send_signal(signal.SIGCONT)
                child.wait()
                for what in taken:
                    tally.add(state_of(one, what))
                    one._replace(old=what.map_, journal=what.journal).lay_out()
                    recovers(bench, one, "copy %d of version %d" % (number, version))
    finally:
        for one_ in busy:
            one_.kill()
            one_.wait()
    tally.show()


# Calls that only ask or read: in the short run few of each kind fail.
ASKING = {"statx", "fstat", "newfstatat", "lseek", "read", "pread64", "readlink", "access"}


def meant(call: str, place: int, count: int, fault: str) -> Ended:
    """How a run ends of which a call fails: the last one that writes is the output's, and prints nothing."""
    if call == "write" and place == count:
        return 7, b""
    return (8, b"") if fault == "ENOMEM" else (7, b"shelf fault\n")


def failing(bench: Bench, seed: int) -> None:
    """Updates of which one call on a file fails, or which are ended there, each call in its turn.

    The status is 8 where the system had no memory for a call, and else 7; a folder that may not be read is passed over.
    """
    with tempfile.TemporaryDirectory() as folder:
        tracer = calls.Tracer(bench, folder)
        if not tracer.is_there():
            bench.skip("calls of updates in place that fail, which take strace and leave to trace")
            return
        tally = Tally("a call fails, or the run ends there")
        for number, version in enumerate((1, 2, 2, 1)):
            one = update(bench, seed % 2**62 * 4 + number, 400 if bench.is_long else 60, 10, version)
            for words in (APPLY, RECOVER):
                found = opened(one, version, words)
                found.lay_out()
                job = calls.Job(words, {MAP: b"", BATCH: b"", JOURNAL: b""}, "", b"", b"", 0)
                counts, folders = tracer.counts(job), tracer.folders()
                bench.holds(len(folders) == 1, "%s opens its folder %d times" % (words[0], len(folders)))
                whole = 0, one.line if words == APPLY else b"recovered\n"
                for call in sorted(set(counts) - calls.UNSEEN):
                    most = 60 if bench.is_long or call not in ASKING else 3
                    for place in calls.places(counts[call], most):
                        for fault in ("", "ENOMEM", *calls.FAULTS.get(call, ("EIO",))):
                            if not fault and not bench.is_long and place % 2 == 0:
                                continue
                            found.lay_out()
                            how = "error=" + fault if fault else "signal=KILL"
                            ended = tracer.run(job, "%s:%s:when=%d" % (call, how, place))
                            what = "%s, call %d of %s, %s" % (words[0], place, call, how)
                            told = meant(call, place, counts[call], fault)
                            told = whole if calls.is_passed_over(call, fault, place, folders) else told
                            is_so = not fault or ended == told
                            bench.holds(is_so, "%s: status %s" % (what, ended))
                            tally.add(state_of(one, left()))
                            recovers(bench, one, what)
        tally.show()


def begun_once(one: Update, version: int) -> Update:
    """What a stop leaves of an update behind the gate: the pages in an open journal, and a part of them in the map."""
    entries = journals.changed(journals.PAGES[version], one.old, one.new)
    some = journals.spelled(version, entries[: len(entries) // 2])
    half = journals.restored(one.old, some)[0]
    return one._replace(old=half, journal=journals.spelled(version, entries))


def refused(bench: Bench, seed: int) -> None:
    """Updates of which each allocation is refused in its turn."""
    with tempfile.TemporaryDirectory() as folder:
        path = memory.library(folder)
        if path is None:
            bench.skip("allocations of updates in place, which take a C compiler")
            return
        tally = Tally("an allocation is refused")
        for version in (1, 2):
            one = update(bench, seed % 2**63 * 2 + version, 200 if bench.is_long else 40, 10, version)
            for words in (APPLY, RECOVER):
                found = opened(one, version, words)
                for number in range(1, memory.MOST):
                    found.lay_out()
                    (status, said_), came = memory.run(bench, words, path, number, False)
                    if not came:
                        break
                    tally.add(state_of(one, left()))
                    what = "%s, allocation %d refused" % (words[0], number)
                    bench.holds(status in (0, 8), "%s: status %d and %s" % (what, status, said_))
                    if number % 20 == 1:
                        recovers(bench, one, what)
        tally.show()


def in_place(bench: Bench, seed: int) -> None:
    """All of these."""
    for part in (killed, copied, failing, refused):
        part(bench, seed)


# ---- files of any kind


def case(chance: random.Random) -> Tuple[List[str], Dict[str, bytes]]:
    """A command that changes a map in place, or finishes that, and its files: each is honest, bent, or not there."""
    version = chance.choice((1, 2))
    given = bends.records(chance, 200, version)
    tree, held = plain.pack(given), chance.choice((0, 7))
    old = bends.Layout(chance, version).file(tree, held, chance.choice((0, 2)))
    text = bends.batch_text(chance, given, held, version if chance.random() < 0.95 else 3 - version)
    files = {MAP: old, BATCH: text if chance.random() < 0.8 else bends.bent_text(text, chance)}
    if chance.random() < 0.8:
        files[JOURNAL] = journal_of(chance, old, bends.batch_text(chance, given, held, version))
    if chance.random() < 0.15:
        files[MAP] = bends.bent_pages(old, chance) if chance.random() < 0.5 else old[: chance.randrange(len(old))]
    if chance.random() < 1 / 30:
        del files[chance.choice((MAP, BATCH))]
    return (["recover", MAP] if chance.random() < 0.3 else ["apply-here", MAP, BATCH]), files


def journal_of(chance: random.Random, old: bytes, text: bytes) -> bytes:
    """The journal of an update of this map by this batch, if that may be applied; honest or bent, or any bytes."""
    version = said.version_of(old)
    size = journals.PAGES[version]
    try:
        made = said.applied(old, said.read_batch(text, version)).made or b""
        tree, batch = said.read_map(made)
    except said.Told:
        return bends.some_bytes(chance, 3 * size)
    spare = max(0, (len(old) - len(made)) // size) + chance.choice((0, 1))
    new = bends.Layout(chance, version).file(tree, batch, spare)
    gate = chance.choice((journals.GATE, journals.GATE, journals.GATE, 0, 0x17))
    journal = journals.spelled(version, journals.changed(size, old, new), gate)
    return journals.bent(journal, len(old) // size, chance) if chance.random() < 0.5 else journal


def files(bench: Bench, seed: int) -> None:
    """Maps, batches and journals of any kind; a case is made again by its number and the seed alone."""
    counts: Dict[str, int] = {}
    for number in range(8000 if bench.is_long else 240):
        words, given = case(random.Random("%d journals %d" % (seed, number)))
        status, told = judged(bench, words, given, "journals %d of the seed %d" % (number, seed))
        name = "%s %d" % (words[0], status) if status else told.decode().strip() if words[1:] == [MAP] else "apply-here 0"
        counts[name] = counts.get(name, 0) + 1
    parts = ["%d %s" % (counts[name], name) for name in sorted(counts)]
    print("tests/hostile: updates in place, files of any kind: " + ", ".join(parts))
    least = {"recovered", "clean", "apply-here 0", "apply-here 3", "apply-here 4", "apply-here 5", "apply-here 7"}
    bench.holds(least <= set(counts), "some ending did not come: %s" % counts)


def judged(bench: Bench, words: List[str], files: Dict[str, bytes], what: str) -> Ended:
    """The program says what is to be said, and leaves map and journal as is meant, and all else as it was."""
    clear()
    for name, bytes_ in files.items():
        write(name, bytes_)
    meant = said.say(words, files)
    ended = bench.program(words)
    bench.holds(ended == meant.ended, "%s: %s says %s, and meant is %s" % (what, words, ended, meant.ended))
    told, journal = dict(files), files.get(JOURNAL)
    if meant.made is not None:
        told[MAP], journal = meant.made, meant.journal
    if words[0] == "apply-here" and meant.ended[0] == 0:
        is_so = laid_out(read(MAP)) == meant.made
        bench.holds(is_so, "%s: another map is left" % what)
        version, old = said.version_of(meant.made), journals.restored(files[MAP], files.get(JOURNAL, b""))[0]
        told[MAP], journal = read(MAP), journals.left_by(version, old, read(MAP), meant.journal or b"")
    if journal is not None:
        told[JOURNAL] = journal
    there = {name: read(name) for name in os.listdir(".")}
    others = sorted(name for name in {*there, *told} if there.get(name) != told.get(name))
    bench.holds(not others, "%s: %s: other than meant are %s" % (what, words, others))
    return ended


def laid_out(bytes_: bytes) -> Optional[bytes]:
    """The file of the map of these bytes, laid out anew; none of what is no map."""
    try:
        return said.map_bytes(*said.read_map(bytes_), said.version_of(bytes_))
    except said.Told:
        return None
