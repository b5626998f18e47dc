"""Files on a disk that may crash: what runs did to them, as strace tells it, and what a crash may leave of them."""
import os
import random
import re
import subprocess
from typing import Callable, Dict, List, NamedTuple, Optional, Set, Tuple

from bench import Bench, Ended, read
import calls
import journals

# ---- what a run did to its files


class Event(NamedTuple):
    """A file was made, cut to a length, written at a place or synced, or the folder was synced, which has no name."""

    kind: str  # one of "make", "cut", "put", "sync" and "folder"
    name: str = ""
    at: int = 0
    bytes_: bytes = b""


# Calls on files of the folder that change no byte of them, and no name.
QUIET = {
    *("openat", "close", "read", "pread64", "lseek", "statx", "fstat", "newfstatat", "access", "faccessat"),
    *("faccessat2", "flock", "fcntl", "fchmod", "fchmodat", "fchown", "fchownat", "readlink", "readlinkat", "execve"),
}
# Calls that change files which they name by no descriptor.
BY_NAME = {
    *("open", "creat", "truncate", "rename", "link", "symlink", "unlink", "mknod", "mkdir", "rmdir", "sync"),
    *("io_uring_setup", "io_submit"),
}
TRACED = "%file,%desc,?sync,?io_uring_setup,?io_submit"
LINE = re.compile(r"^(\d+) +([a-z_0-9]+)\((.*)\) += (\S+)", re.S)
RESUMED = re.compile(r"^(\d+) +<\.\.\. [a-z_0-9]+ resumed>")
UNFINISHED = " <unfinished ...>"
OPENED = re.compile(r"(\d+|AT_FDCWD)<((?:\\x[0-9a-f]{2})+)>")


class Unknown(Exception):
    """A call that changes files in a way that is not told here."""


def bytes_of(string: str) -> bytes:
    """The bytes that strace spells."""
    return bytes.fromhex(string.replace("\\x", ""))


def whole_lines(trace: str) -> List[str]:
    """The lines of a trace, each call on one line also where another came between its beginning and its end."""
    begun: Dict[str, str] = {}
    made = []
    for line in trace.split("\n"):
        rest = RESUMED.match(line)
        if line.endswith(UNFINISHED):
            begun[line.split(" ", 1)[0]] = line[: -len(UNFINISHED)]
        elif rest:
            made.append(begun.pop(rest[1]) + line[rest.end() :])
        else:
            made.append(line)
    return made


class Reader:
    """Reads the trace of a run: what it did to the files of a folder, of which some were there."""

    def __init__(self, folder: str, there: Set[str]) -> None:
        self.folder, self.there = os.path.realpath(folder).encode(), set(there)
        self.stands: Dict[str, int] = {}  # where the next byte goes, by the descriptor
        self.events: List[Event] = []

    def name_of(self, path: bytes) -> Optional[str]:
        """The name of a file in the folder, nothing for the folder itself, and none for any other."""
        if path == self.folder:
            return ""
        at, name = os.path.split(path)
        return name.decode() if at == self.folder else None

    def read(self, trace: str) -> List[Event]:
        """The events of a trace."""
        for line in whole_lines(trace):
            one = LINE.match(line)
            if one and not one[4].startswith("-") and one[4] != "?":
                self.call(one[2], one[3], line[one.start(4) :])
        return self.events

    def call(self, call: str, words: str, result: str) -> None:
        """Adds what one call did, which did not fail."""
        if call in BY_NAME:
            raise Unknown(call)
        if call == "openat":
            self.opens(words, OPENED.match(result))
        opened = OPENED.match(words)
        name = self.name_of(bytes_of(opened[2])) if opened and opened[1] != "AT_FDCWD" else None
        if opened is None or name is None:
            others = [self.name_of(bytes_of(path)) for _, path in OPENED.findall(words)]
            if call not in QUIET and any(other is not None for other in others):
                raise Unknown(call)
            return
        number, count = opened[1], int(result.split("<")[0].split(" ")[0], 0)
        if call in ("fsync", "fdatasync"):
            self.events.append(Event("sync", name) if name else Event("folder"))
        elif call in ("write", "pwrite64"):
            self.writes(call, name, number, words, count)
        elif call == "ftruncate":
            self.events.append(Event("cut", name, int(words.split(", ")[1], 0)))
        elif call == "lseek":
            self.stands[number] = count
        elif call == "read":
            self.stands[number] += count
        elif call not in QUIET:
            raise Unknown(call)

    def opens(self, words: str, opened: "Optional[re.Match[str]]") -> None:
        """A file is opened."""
        name = self.name_of(bytes_of(opened[2])) if opened else None
        if opened is None or not name:
            return
        flags = words.rsplit('"', 1)[1]
        if "O_APPEND" in flags or "O_TMPFILE" in flags:
            raise Unknown("openat to append")
        self.stands[opened[1]] = 0
        if name not in self.there:
            self.there.add(name)
            self.events.append(Event("make", name))
        elif "O_TRUNC" in flags:
            self.events.append(Event("cut", name, 0))

    def writes(self, call: str, name: str, number: str, words: str, count: int) -> None:
        """Bytes are written."""
        _, string, rest = words.split('"')
        if rest.startswith("..."):
            raise Unknown("write of which not all is shown")
        bytes_ = bytes_of(string)[:count]
        if call == "pwrite64":
            at = int(words.rsplit(", ", 1)[1], 0)
        else:
            at = self.stands[number]
            self.stands[number] = at + count
        self.events.append(Event("put", name, at, bytes_))


# ---- what a disk has, and what a crash may leave


class Area(NamedTuple):
    """A file: what is read of it, what it had as it was synced last and what was done to it since.

    The name of one that was made is not safe until its folder is synced.
    """

    held: bytes
    synced: bytes
    since: Tuple[Event, ...] = ()
    is_named: bool = True


Disk = Dict[str, Area]
Files = Dict[str, bytes]


def settled(files: Files) -> Disk:
    """A disk of these files, on which all is synced."""
    return {name: Area(bytes_, bytes_) for name, bytes_ in files.items()}


def copied(name: str, bytes_: bytes) -> Area:
    """A file that was written and never synced, under a name that is safe."""
    return Area(bytes_, b"", (Event("put", name, 0, bytes_),))


def held(disk: Disk) -> Files:
    """What is read of its files."""
    return {name: area.held for name, area in disk.items()}


def changed(bytes_: bytes, event: Event) -> bytes:
    """What bytes are once they are cut or written."""
    if event.kind == "cut":
        return bytes_[: event.at].ljust(event.at, b"\0")
    if event.kind == "put" and event.bytes_:
        return bytes_[: event.at].ljust(event.at, b"\0") + event.bytes_ + bytes_[event.at + len(event.bytes_) :]
    return bytes_


def played(disk: Disk, event: Event) -> Disk:
    """The disk behind an event."""
    if event.kind == "folder":
        return {name: area._replace(is_named=True) for name, area in disk.items()}
    if event.kind == "make":
        return {**disk, event.name: Area(b"", b"", (), False)}
    area = disk[event.name]
    if event.kind == "sync":
        made = area._replace(synced=area.held, since=())
    else:
        made = area._replace(held=changed(area.held, event), since=(*area.since, event))
    return {**disk, event.name: made}


def all_played(disk: Disk, events: List[Event]) -> List[Disk]:
    """The disk before the first of these events, and behind each."""
    made = [disk]
    for event in events:
        made.append(played(made[-1], event))
    return made


def does_sync(disk: Disk, event: Event) -> bool:
    """Whether an event makes something safe that was not."""
    if event.kind == "folder":
        return not all(area.is_named for area in disk.values())
    return event.kind == "sync" and disk[event.name].since != ()


def garbage(chance: random.Random, count: int) -> bytes:
    """Any bytes; one alone is likely to be an open gate."""
    byte = chance.choice((0, journals.GATE, journals.GATE, journals.GATE, 2, 0xFF))
    return bytes([byte]) * count if count == 1 or chance.random() < 0.5 else chance.randbytes(count)


def part(chance: random.Random, count: int) -> Tuple[int, int]:
    """A part of so many bytes, at their front or end or between: one byte, some, a sector, a page, or any part."""
    size = min(count, chance.choice((1, 16, 512, 4096, chance.randint(0, count))))
    first = chance.choice((0, count - size, chance.randint(0, count - size)))
    return first, first + size


def torn(bytes_: bytes, event: Event, chance: random.Random) -> bytes:
    """Of a write a front is there, or an end, or all but a part between."""
    count = len(event.bytes_)
    at = chance.randint(0, count)
    front, end = chance.choice(((at, count), (0, at), part(chance, count)))
    made = changed(bytes_, event._replace(bytes_=event.bytes_[:front]))
    return changed(made, event._replace(at=event.at + end, bytes_=event.bytes_[end:]))


def left_by(bytes_: bytes, event: Event, way: str, chance: random.Random) -> bytes:
    """What is left of a change that was not synced: all, nothing or a part of it, or any bytes in a part."""
    if way == "lost":
        return bytes_
    if way == "kept" or event.kind != "put":
        return changed(bytes_, event)
    if way == "torn":
        return torn(bytes_, event, chance)
    first, end = part(chance, len(event.bytes_))
    made = changed(bytes_, event) if chance.random() < 0.7 else bytes_
    return changed(made, Event("put", event.name, event.at + first, garbage(chance, end - first)))


WAYS = ("kept", "lost", "torn", "garbled")
# How likely each way is.
MOODS = ((1, 0, 0, 0), (0, 1, 0, 0), (1, 1, 0, 0), (2, 1, 1, 0), (1, 1, 1, 1), (2, 1, 2, 2), (1, 0, 0, 1), (2, 0, 1, 2))


def left_of(area: Area, chance: random.Random) -> Optional[bytes]:
    """What a crash may leave of a file; none where its name is lost.

    All that was synced stays. Of each change since then all, a part or nothing is there, or other bytes are where it
    wrote. The length is any from the least since then to the greatest.
    """
    if not area.is_named and chance.random() < 0.4:
        return None
    made, whole, mood = area.synced, area.synced, chance.choice(MOODS)
    lengths = [len(whole)]
    for event in area.since:
        made, whole = left_by(made, event, chance.choices(WAYS, mood)[0], chance), changed(whole, event)
        lengths.append(len(whole))
    least, most = min(lengths), max(lengths)
    if least < most and chance.random() < 0.3:
        length = chance.choice((least, most, chance.randint(least, most)))
        made = made[:length] + garbage(chance, max(0, length - len(made)))
    return made


def crashed(disk: Disk, chance: random.Random) -> Files:
    """The files that a crash may leave."""
    left = {name: left_of(area, chance) for name, area in disk.items()}
    return {name: bytes_ for name, bytes_ in left.items() if bytes_ is not None}


# ---- runs that are recorded


class Run(NamedTuple):
    """A run: how it ended, what it did, and the disk before that and behind each part of it."""

    words: List[str]
    ended: Ended
    events: List[Event]
    disks: List[Disk]


class Recorder:
    """Runs the program under strace in the folder that it is called in, over the files of a disk."""

    def __init__(self, bench: Bench, folder: str) -> None:
        self.bench, self.traced = bench, os.path.join(folder, "traced")
        self.count = 0

    def is_there(self) -> bool:
        """Whether there is a tracer that may trace."""
        return calls.Tracer(self.bench, os.path.dirname(self.traced)).is_there()

    def record(self, disk: Disk, words: List[str], lay_out: Callable[[Files], None]) -> Run:
        """A run over what is held on a disk; what its calls make of that is what it leaves."""
        self.count += 1
        lay_out(held(disk))
        how = ["-f", "-qq", "-y", "-xx", "-s", str(2**22), "-e", "trace=" + TRACED, "-o", self.traced]
        call = ["strace", *how, self.bench.program_path, *words]
        ran = subprocess.run(call, stdout=subprocess.PIPE, stderr=subprocess.STDOUT)
        ended, events = (ran.returncode, ran.stdout), []
        try:
            events = Reader(".", set(os.listdir(".")) & set(disk)).read(read(self.traced).decode("latin-1"))
        except Unknown as call_:
            self.bench.holds(False, "%s: a call that is not known here: %s" % (words[0], call_))
        disks = all_played(disk, events)
        left = {name: read(name) for name in os.listdir(".")}
        self.bench.holds(left == held(disks[-1]), "%s leaves other files than its calls make" % words[0])
        return Run(words, ended, events, disks)
