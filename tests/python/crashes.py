"""Crashes while a map is changed in place: whatever a disk may have lost of what was not synced, `recover` mends it.

The calls of real runs are recorded, and files are made as a crash may leave them (tests/python/disks.py).
"""
import hashlib
import os
import random
import tempfile
from typing import Callable, Dict, List, NamedTuple, Optional, Set, Tuple

from bench import Bench, read, write
import disks
import journals
from disks import Disk, Event, Files, Run
from here import APPLY, BATCH, JOURNAL, MAP, RECOVER
from jobs import clear, text_of
from proofs import plain

NEXT = 2**40  # the first number of the records that come


class Change(NamedTuple):
    """A map, a batch, and the map behind it."""

    what: str
    version: int
    old: bytes
    batch: bytes
    new: bytes

    def pages(self) -> List[journals.Entry]:
        """Those that the batch writes."""
        return journals.changed(journals.PAGES[self.version], self.old, self.new)

    def journal(self, gate: int) -> bytes:
        """The journal of the batch."""
        return journals.spelled(self.version, self.pages(), gate)

    def torn(self) -> bytes:
        """The old map with the first half of the new pages."""
        pages = self.pages()
        return journals.restored(self.old, journals.spelled(self.version, pages[: (len(pages) + 1) // 2]))[0]

    def foreign(self, gate: int) -> bytes:
        """A whole journal of other pages, and of more than the batch writes; open it would spoil each map."""
        size = journals.PAGES[self.version]
        count = len(self.new) // size + 2
        pages = [journals.Entry(page, bytes([0x80 | page % 64]) * size) for page in range(count)]
        return journals.spelled(self.version, pages, gate)


def lay_out(files: Files) -> None:
    """Puts these files into the folder, and nothing else."""
    clear()
    for name, bytes_ in files.items():
        write(name, bytes_)


def batch_text(number: int, gone: List[int], come: int, chance: random.Random, version: int) -> bytes:
    """A batch by which these records go and so many come."""
    lines = ["batch %d" % number, *("- %d" % one for one in gone)]
    for at in range(come):
        x, y = chance.randrange(-(10**6), 10**6), chance.randrange(-(10**6), 10**6)
        record = plain.Record(NEXT * number + at, (x, y, x + at % 7, y), bytes(at % 9), at % 64 if version == 2 else 0)
        lines.append("+ " + plain.line_of(record, version))
    return "".join(line + "\n" for line in lines).encode()


def after(bench: Bench, old: bytes, batch: bytes) -> bytes:
    """The map behind a batch in place, which is a map of the same records and root as `apply` makes."""
    lay_out({MAP: old, BATCH: batch})
    meant = bench.program(["apply", MAP, BATCH, "n"])
    ended = bench.program(APPLY)
    bench.holds(meant[0] == 0 and ended == meant, "a batch: %s, and in place %s" % (meant, ended))
    is_so = bench.program(["list", MAP]) == bench.program(["list", "n"])
    bench.holds(is_so, "in place comes another map than by apply")
    return read(MAP)


def changes(bench: Bench, chance: random.Random, version: int) -> List[Change]:
    """Batches by which a map grows, loses most records, takes free pages, changes nothing, or all of these a little."""
    size = chance.randint(60, 160) if bench.is_long else chance.randint(40, 60)
    records = list(plain.generated(size, chance.randrange(2**63)))
    records = plain.on_layers(records) if version == 2 else records
    lay_out({"r": text_of(records, version)})
    bench.program(["build2" if version == 2 else "build", MAP, "r"])
    built, numbers = read(MAP), chance.sample(range(1, size + 1), size)
    most, few = numbers[: size * 3 // 4], numbers[: size // 8]
    freed = after(bench, built, batch_text(1, most, 0, chance, version))
    given = (
        ("grows", built, batch_text(1, few, size // 2, chance, version)),
        ("shrinks", built, batch_text(1, most, 0, chance, version)),
        ("takes free pages", freed, batch_text(2, [], size // 2, chance, version)),
        ("changes nothing", built, b"batch 1\n"),
        ("changes a little", freed, batch_text(2, numbers[-3:], 3, chance, version)),
    )
    made = [Change(what, version, old, batch, after(bench, old, batch)) for what, old, batch in given]
    is_so = len(made[0].new) > len(built) and free_pages(made[2].new, version) < free_pages(freed, version)
    bench.holds(is_so, "a map does not grow, or takes no free page")
    return made


def free_pages(map_: bytes, version: int) -> int:
    """How many free pages a map has: they begin with a letter of their own."""
    size = journals.PAGES[version]
    return sum(map_[at : at + 1] == b"F" for at in range(size, len(map_), size))


# ---- where a run begins


class Start(NamedTuple):
    """A disk, a command line over it, and the maps of which a crash of it leaves one, from this event on."""

    what: str
    one: Change
    disk: Disk
    words: List[str]
    maps: Tuple[bytes, ...]
    since: int = 0


def begun(one: Change, map_: bytes, journal: Optional[bytes]) -> Disk:
    """A disk of a map, the batch and a journal, if there is one."""
    return disks.settled({MAP: map_, BATCH: one.batch, **({} if journal is None else {JOURNAL: journal})})


# What may stand beside a map as its batch comes.
BESIDE: Dict[str, Callable[[Change], Optional[bytes]]] = {
    "no journal": lambda one: None,
    "an empty journal": lambda one: b"",
    "a longer journal, shut": lambda one: one.foreign(0),
    "a journal with another byte at its front": lambda one: one.foreign(0x17),
    "a journal that is cut": lambda one: one.foreign(journals.GATE)[:-1],
    "a text for a journal": lambda one: b"a text\n",
}


def starts(one: Change) -> List[Start]:
    """Runs over a map and each kind of journal, all of which was synced."""
    both = (one.old, one.new)
    made = [Start(what, one, begun(one, one.old, journal(one)), APPLY, both) for what, journal in BESIDE.items()]
    # what a crash left behind the gate: of the map a part is new, and the journal is open
    opened = begun(one, one.torn(), one.journal(journals.GATE))
    made.append(Start("an open journal", one, opened, RECOVER, (one.new,)))
    made.append(Start("an open journal, and its batch once more", one, opened, APPLY, (one.new,)))
    # the open journal of the old map's own pages, the first of which is spoilt
    size = journals.PAGES[one.version]
    pages = journals.spelled(one.version, journals.changed(size, b"", one.old))
    spoilt = begun(one, b"x" * size + one.old[size:], pages)
    made.append(Start("an open journal of an earlier batch", one, spoilt, APPLY, both))
    return made


# ---- what a crash leaves


class Tally:
    """Counts images, and what they were restored to."""

    def __init__(self) -> None:
        self.seen: Set[Tuple[Tuple[str, bytes], ...]] = set()
        self.counts: Dict[str, int] = {}
        self.deep: Dict[int, int] = {}

    def is_new(self, files: Files) -> bool:
        """Whether these files were not seen before."""
        one = tuple((name, hashlib.sha256(bytes_).digest()) for name, bytes_ in sorted(files.items()))
        is_so = one not in self.seen
        self.seen.add(one)
        return is_so

    def add(self, what: str, deep: int) -> None:
        """One more, of a run behind which so many others come."""
        self.counts[what] = self.counts.get(what, 0) + 1
        self.deep[deep] = self.deep.get(deep, 0) + 1

    def all_(self) -> int:
        """How many there are."""
        return sum(self.counts.values())


def has_ended(run: Run, position: int) -> bool:
    """Whether a run had done all there, and said so: what it left is then safe."""
    return position == len(run.events) and run.ended[0] in (0, 5)


def allowed(start: Start, run: Run, position: int) -> Tuple[bytes, ...]:
    """The maps of which a crash at this place may leave one."""
    return (disks.held(run.disks[-1])[MAP],) if has_ended(run, position) else start.maps


def is_right(start: Start, run: Run, position: int, files: Files) -> bool:
    """Whether by docs/FORMATS.md alone these files restore to one of the maps; where the run had ended, they are it."""
    map_, is_open = journals.restored(files.get(MAP, b""), files.get(JOURNAL, b""))
    return map_ in allowed(start, run, position) and not (is_open and has_ended(run, position))


def mends(bench: Bench, files: Files) -> Tuple[bytes, bytes]:
    """What `recover` leaves of these files, which is what is meant, and what it says."""
    lay_out(files)
    ended, left = bench.program(RECOVER), {name: read(name) for name in os.listdir(".")}
    map_, journal = journals.recovered(files[MAP], files.get(JOURNAL, b""))
    is_open = journals.restored(files[MAP], files.get(JOURNAL, b""))[1]
    meant = {**files, MAP: map_, **({JOURNAL: journal} if JOURNAL in files else {})}
    is_so = ended == (0, b"recovered\n" if is_open else b"clean\n") and left == meant
    bench.holds(is_so, "recover says %s, or leaves other files than are meant" % (ended,))
    return left[MAP], ended[1]


def judge(bench: Bench, start: Start, run: Run, position: int, files: Files) -> str:
    """`recover` makes of what a crash left one of the maps; answers which, or what is wrong."""
    map_, said = mends(bench, files)
    if map_ not in allowed(start, run, position):
        return "WRONG: another map"
    if has_ended(run, position) and said != b"clean\n":
        return "WRONG: the run had ended, and the journal is open"
    return "the map before" if map_ == start.one.old else "the map after"


class Crash:
    """Crashes of runs, and of what is called behind them."""

    def __init__(self, bench: Bench, recorder: disks.Recorder, chance: random.Random, tally: Tally) -> None:
        self.bench, self.recorder, self.chance, self.tally = bench, recorder, chance, tally

    def all_of(self, start: Start, count: int, deep: int) -> None:
        """So many images of a run, at each position in its turn; and of what is called behind it, so deep."""
        run = self.recorder.record(start.disk, start.words, lay_out)
        is_so = run.ended[0] in (0, 5) and disks.held(run.disks[-1])[MAP] in start.maps
        self.bench.holds(is_so, "%s, %s: %s" % (start.words[0], start.what, run.ended))
        positions, made = list(range(start.since, len(run.disks))), 0
        self.chance.shuffle(positions)
        for number in range(4 * count):
            position = positions[number % len(positions)]
            files = disks.crashed(run.disks[position], self.chance)
            if not self.tally.is_new(files):
                continue
            said = judge(self.bench, start, run, position, files)
            what = "%s, %s, a crash behind %d of %d events" % (start.words[0], start.what, position, len(run.events))
            self.bench.holds(not said.startswith("WRONG"), "%s: %s" % (what, said))
            self.tally.add(said, deep)
            made += 1
            if made == count:
                break
        for _ in range((3 if self.bench.is_long else 1) if deep else 0):
            self.behind(start, run, self.chance.choice(positions), count * 2 // 3, deep - 1)

    def behind(self, start: Start, run: Run, position: int, count: int, deep: int) -> None:
        """Crashes of what is called next, where all stopped at this place, or the run alone (`kill -9`).

        Of what the run alone had written, and not synced, a crash may still lose all.
        """
        is_kill = self.chance.random() < 0.5
        disk = run.disks[position] if is_kill else disks.settled(disks.crashed(run.disks[position], self.chance))
        words, one = APPLY if self.chance.random() < 0.3 else RECOVER, start.one
        maps = allowed(start, run, position)
        if words == APPLY and maps != (one.new,):
            maps = (one.old, one.new)
        where = "%d of %d events" % (position, len(run.events))
        what = "%s, %s behind %s" % (start.what, "killed" if is_kill else "crashed", where)
        self.all_of(Start(what, one, disk, words, maps), max(1, count), deep)


DEEP = 2  # runs behind the first one


def images(bench: Bench, recorder: disks.Recorder, seed: int) -> None:
    """Files as crashes leave them, of runs of each kind: 20,000 in the long run, and a thousand in the short one."""
    chance, tally, least = random.Random(seed), Tally(), 20000 if bench.is_long else 1000
    crash, before = Crash(bench, recorder, chance, tally), recorder.count
    for _ in range(20):
        if tally.all_() >= least:
            break
        for version in (1, 2):
            for one in changes(bench, chance, version):
                for start in starts(one):
                    crash.all_of(start, 20 if bench.is_long else 14, DEEP)
    parts = ", ".join("%d %s" % (tally.counts[what], what) for what in sorted(tally.counts))
    runs = recorder.count - before
    print("tests/hostile: crashes of %d updates and recoveries, %d images: %s" % (runs, tally.all_(), parts))
    parts = ", ".join("%d of run %d" % (tally.deep[deep], DEEP + 1 - deep) for deep in sorted(tally.deep, reverse=True))
    print("tests/hostile:   of up to three runs behind one another: " + parts)
    is_so = tally.all_() >= least and set(tally.deep) == set(range(DEEP + 1)) and len(tally.counts) > 1
    bench.holds(is_so, "there are %d images, and %d were meant" % (tally.all_(), least))


# ---- that a sync which is left out is seen


def lacking(bench: Bench, recorder: disks.Recorder, one: Change) -> List[Tuple[Start, Run]]:
    """Runs of which each sync counts: also over what a run left that was killed, and over a map that was copied."""
    some = [start for start in starts(one) if start.what != "a text for a journal"]
    made = [(start, recorder.record(start.disk, start.words, lay_out)) for start in some]
    shut = made[2][1]
    arms = shut.events.index(Event("put", JOURNAL, 0, bytes([journals.GATE]))) + 1
    both, again = (one.old, one.new), one._replace(old=one.new, batch=b"batch %d\n" % (number_of(one) + 1))
    again = again._replace(new=after(bench, again.old, again.batch))
    following = dict(shut.disks[-2], **{BATCH: disks.settled({BATCH: again.batch})[BATCH]})
    copy = begun(one, one.old, None)
    copy[MAP] = disks.copied(MAP, one.old)
    later = [
        Start("killed as the journal was opened", one, shut.disks[arms], RECOVER, both),
        Start("killed as the journal was opened", one, shut.disks[arms], APPLY, both),
        Start("killed before the last sync, and the next batch", again, following, APPLY, (again.old, again.new)),
        Start("a map that was copied there", one, copy, APPLY, both, 1),
        Start("a map that was copied there", one, copy, RECOVER, both[:1], 1),
    ]
    made_one = made[0][1].events.index(Event("make", JOURNAL)) + 1
    later.append(Start("killed as the journal was made", one, made[0][1].disks[made_one], APPLY, both))
    return made + [(start, recorder.record(start.disk, start.words, lay_out)) for start in later]


def number_of(one: Change) -> int:
    """The number of a batch."""
    return int(one.batch.split(b"\n")[0].split()[1])


TRIES = 20000  # images that are looked through for one that is wrong


class Seen(NamedTuple):
    """An image of a run, where it is from, and how many were looked through before."""

    run: Run
    position: int
    files: Files
    tries: int


def without(run: Run, at: int) -> Run:
    """A run as if it had left out one event."""
    events = run.events[:at] + run.events[at + 1 :]
    return run._replace(events=events, disks=disks.all_played(run.disks[0], events))


def found(start: Start, run: Run, at: int, chance: random.Random) -> Optional[Seen]:
    """An image of a run without one of its syncs that is wrong by docs/FORMATS.md alone."""
    blind = without(run, at)
    # from where on each file that was there was synced once, or was to be
    first, last = max(at, start.since - (at < start.since)), len(blind.events)
    for tries in range(TRIES):
        # two of three soon behind the sync
        position = min(last, first + tries // 3 % 4) if tries % 3 else chance.randint(first, last)
        files = disks.crashed(blind.disks[position], chance)
        if not is_right(start, blind, position, files):
            return Seen(blind, position, files, tries)
    return None


def left_out(bench: Bench, recorder: disks.Recorder, seed: int) -> None:
    """With any sync left out that makes something safe, of a file or of the folder, some image is seen to be wrong."""
    chance, counts, most = random.Random(seed), {"sync": 0, "folder": 0}, 0
    for version in (1, 2):
        one = changes(bench, chance, version)[0]
        for start, run in lacking(bench, recorder, one):
            for at, event in enumerate(run.events):
                if not disks.does_sync(run.disks[at], event):
                    continue
                counts[event.kind] += 1
                what = "%s, %s: without event %d, %s" % (start.words[0], start.what, at, shown([event]))
                wrong = found(start, run, at, chance)
                bench.holds(wrong is not None, "%s, no image is seen to be wrong" % what)
                if wrong:
                    said, most = judge(bench, start, wrong.run, wrong.position, wrong.files), max(most, wrong.tries)
                    bench.holds(said.startswith("WRONG"), "%s: %s" % (what, said))
    counted = counts["sync"], counts["folder"], most + 1
    print("tests/hostile: syncs that were left out in turn: %d of files, %d of folders; seen in %d images" % counted)
    bench.holds(min(counted) > 0, "no sync of a folder is seen")


# ---- the order of writes and syncs

SYNC_MAP, SYNC_JOURNAL = Event("sync", MAP), Event("sync", JOURNAL)
# The name of a journal may be new at its first sync, so the folder is synced behind it.
FIRST_SYNC = [SYNC_JOURNAL, Event("folder")]


def gated(byte: int) -> List[Event]:
    """The gate is made this byte, and that is synced."""
    return [Event("put", JOURNAL, 0, bytes([byte])), SYNC_JOURNAL]


def put_in(entries: List[journals.Entry]) -> List[Event]:
    """Pages are written into the map and synced, and the gate is shut."""
    return [*(Event("put", MAP, one.page * len(one.bytes_), one.bytes_) for one in entries), SYNC_MAP, *gated(0)]


def meant(start: Start, is_refused: bool) -> List[Event]:
    """All that a run does to its files, by docs/FORMATS.md: in this order, and nothing else."""
    journal = start.disk[JOURNAL].held if JOURNAL in start.disk else None
    made = [SYNC_MAP] if journal is None else [SYNC_MAP, *FIRST_SYNC]
    gate, entries = (journal or b"\0")[0], journals.entries_of(journal or b"")
    if entries:
        made, gate = made + put_in(entries), 0
    if start.words == RECOVER or is_refused:
        return made
    if journal is None:
        made += [Event("make", JOURNAL), *gated(0)[:1], *FIRST_SYNC]
    elif not journal:
        made += gated(0)
    elif gate:
        made += [] if gate == journals.GATE else [Event("put", JOURNAL, 1, b"\0"), SYNC_JOURNAL]
        made += gated(0)
    body = start.one.journal(0)[1:]
    return [*made, Event("put", JOURNAL, 1, body), SYNC_JOURNAL, *gated(journals.GATE), *put_in(start.one.pages())]


def joined(events: List[Event]) -> List[Event]:
    """The same with writes in one that follow one another; without a cut of a file that was just made."""
    made: List[Event] = []
    for event in events:
        last = made[-1] if made else Event("")
        if event == Event("cut", last.name, 0) and last.kind == "make":
            continue
        if event.kind == last.kind == "put" and (event.name, event.at) == (last.name, last.at + len(last.bytes_)):
            made[-1] = last._replace(bytes_=last.bytes_ + event.bytes_)
        else:
            made.append(event)
    return made


def shown(events: List[Event]) -> str:
    """Events in few words."""
    return ", ".join("%s %s %d+%d" % (one.kind, one.name, one.at, len(one.bytes_)) for one in events)


def orders(bench: Bench, recorder: disks.Recorder, seed: int) -> None:
    """Each write and each sync of updates and recoveries, in the order and with the bytes that docs/FORMATS.md gives."""
    chance, count = random.Random(seed), 0
    for version in (1, 2):
        for one in changes(bench, chance, version)[:3]:
            more = [start._replace(words=RECOVER) for start in starts(one) if start.words == APPLY]
            for start in starts(one) + more:
                run = recorder.record(start.disk, start.words, lay_out)
                count += 1
                is_so = run.ended[0] in (0, 5)
                told, wanted = joined(run.events), joined(meant(start, run.ended[0] == 5))
                parts = start.words[0], start.what, shown(told), shown(wanted)
                bench.holds(is_so and told == wanted, "%s, %s: it does %s, and meant is %s" % parts)
    print("tests/hostile: the order of all writes and syncs of %d updates and recoveries" % count)


def crashes(bench: Bench, seed: int) -> None:
    """All of these."""
    with tempfile.TemporaryDirectory() as folder:
        recorder = disks.Recorder(bench, folder)
        if not recorder.is_there():
            bench.skip("crashes of updates in place, and the order of their syncs: that takes strace")
            return
        for part in (orders, images, left_out):
            part(bench, recorder, seed)
