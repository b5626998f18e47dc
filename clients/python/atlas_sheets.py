"""An atlas as its publisher keeps it: the folder, the sheets and the index, and the program that makes their maps.

An atlas is a folder. `index.map` is the index, a map with a record for each sheet. `sheets` has the maps of the sheets,
a file each, named by its root digest; the index stands there too, under its own. A file in `sheets` never changes.
`updates/N` is what a mirror replays. The publisher's own are `numbers`, `split`, `lock` and names that begin with
`part-`: nobody else needs them. Tested, and not proved.
"""
from __future__ import annotations

import contextlib
import os
import shutil
import signal
import struct
import subprocess
import threading
import time
from typing import Callable, Iterable, Iterator, List, Optional, TypeVar, Union

if __package__:
    from .mrtree_check import PREIMAGE, Ended, Record, Rect, digest
    from .outputs import Unfit
    from .sources import clipped
else:
    from mrtree_check import PREIMAGE, Ended, Record, Rect, digest
    from outputs import Unfit
    from sources import clipped

MOST_NAME = 125  # bytes of a sheet's name
PART = "part-"  # what is being written begins with this
STATUSES = {3: 1, 4: 2, 5: 1, 7: 7, 8: 8, 10: 10}  # of a script, by those of the program
PATIENCE = 5.0  # seconds that a run waits for another one to end
T = TypeVar("T")
U = TypeVar("U")
Mapper = Callable[[Callable[[T], U], Iterable[T]], Iterable[U]]  # as `map`: what does tasks, maybe several at once


def entry_line(number: int, front: bytes, name: bytes = b"") -> str:
    """The record line in an index of the sheet of this number, by its root preimage and its name.

    >>> entry_line(5, b"R\x01" + bytes(33) + bytes(32))[:20]
    '5 0 0 0 0 5201000000'
    """
    return "%d %d %d %d %d %s" % (number, *rect_of(front), (front + name).hex())


def rect_of(front: bytes) -> Rect:
    """The rectangle in the preimage of the root of a map with records."""
    x0, y0, x1, y1 = struct.unpack(">4i", front[19:35])
    return x0, y0, x1, y1


def count_of(front: bytes) -> int:
    """The number of records in the preimage of the root of a map."""
    return int.from_bytes(front[10:18], "big")


def batch_of(front: bytes) -> int:
    """The batch in the preimage of the root of a map."""
    return int.from_bytes(front[2:10], "big")


def front_of(name: str) -> bytes:
    """The root preimage of the map in a file, as its page 0 says it. Raises Unfit where that is none, and OSError."""
    with open(name, "rb") as file:
        page = file.read(90)
    version = page[4] if len(page) == 90 and page[:4] == b"MRMP" else 0
    if version not in PREIMAGE:
        raise Unfit("%s is no map" % name)
    if page[14:22] == bytes(8):
        return b"E" + page[4:5] + page[6:14]
    tail = page[46:86] if version == 2 else page[46:78]
    return b"R" + page[4:5] + page[6:22] + page[5:6] + page[30:46] + tail


# ---- the program


class Failed(Ended):
    """The program did not do what it was to do, or what it was given is damaged."""


def program() -> str:
    """The program that makes maps and proofs: what MRTREE names, or `mrtree` on the path."""
    return os.environ.get("MRTREE") or "mrtree"


def run(words: List[str], out: Optional[int] = None) -> str:
    """What the program prints for these words, or to a file that is open for writing. Raises Ended, with its line."""
    try:
        printed = subprocess.PIPE if out is None else out
        done = subprocess.run([program(), *words], stdout=printed, stderr=subprocess.DEVNULL)
    except OSError as error:
        raise Failed(7, "%s: %s: MRTREE names the program" % (program(), error.strerror)) from None
    said = (done.stdout or b"").decode("utf-8", "replace").strip()
    if done.returncode < 0:
        raise Failed(7, "%s was ended by the signal %d" % (told(words), -done.returncode))
    if done.returncode:
        raise Failed(STATUSES.get(done.returncode, 7), "%s: %s" % (told(words), clipped(said)[1:-1] or "it failed"))
    return said


def told(words: List[str]) -> str:
    """A command of the program, as it is told."""
    return "mrtree " + " ".join(words[:2])[:200]


def list_to(map_: str, name: str) -> None:
    """Writes the record lines of a map, in rising number, to a file. Raises Ended and OSError."""
    with open(name, "wb") as file:
        run(["list", map_], file.fileno())


# ---- files


def sync(name: str) -> None:
    """Has the system put a file, or the names in a folder, on the disk. Raises OSError."""
    held = os.open(name, os.O_RDONLY)
    try:
        os.fsync(held)
    finally:
        os.close(held)


def keep(part: str, name: str) -> None:
    """Gives a file that is whole its name, once it is on the disk. Raises OSError."""
    sync(part)
    os.replace(part, name)


def write_whole(name: str, text: Union[str, bytes]) -> None:
    """Writes a file that has this name once it is whole. Raises OSError."""
    folder, base = os.path.split(name)
    part = os.path.join(folder, PART + base)
    with open(part, "wb") as file:
        file.write(text.encode() if isinstance(text, str) else text)
    keep(part, name)


def clear_parts(folder: str) -> None:
    """Takes away what a run has left that was stopped while it wrote."""
    with contextlib.suppress(FileNotFoundError):
        for name in os.listdir(folder):
            if name.startswith(PART):
                take_away(os.path.join(folder, name))


def take_away(name: str) -> None:
    """Takes away a file or a folder with all that is in it, if it is there. Raises OSError."""
    with contextlib.suppress(FileNotFoundError):
        if os.path.isdir(name) and not os.path.islink(name):
            shutil.rmtree(name)
        else:
            os.remove(name)


# ---- the folder


class Folder:
    """The names in the folder of an atlas."""

    def __init__(self, name: str) -> None:
        self.name = name
        self.index, self.sheets = self.at("index.map"), self.at("sheets")
        self.numbers, self.split, self.updates = self.at("numbers"), self.at("split"), self.at("updates")

    def at(self, *names: str) -> str:
        """The path of a name in it."""
        return os.path.join(self.name, *names)

    def sheet(self, root: str) -> str:
        """The file of the map with this root digest."""
        return os.path.join(self.sheets, root)

    def has_index(self) -> bool:
        """Whether it is an atlas, and no folder that is to become one."""
        return os.path.exists(self.index)

    @contextlib.contextmanager
    def locked(self) -> Iterator[None]:
        """Keeps out other runs that change it, and clears what a stopped one left. Raises Unfit and OSError."""
        if not os.path.isdir(self.name):
            raise Unfit("%s: there is no such folder" % self.name)
        with open(self.at("lock"), "wb") as file:
            wait_for(file.fileno(), self.name)
            for folder in (self.name, self.sheets, self.numbers, self.updates):
                clear_parts(folder)
            yield


def wait_for(file: int, name: str) -> None:
    """Locks an open file, once no other run has. Raises Unfit where one keeps it for long."""
    try:
        import fcntl
    except ImportError:
        return
    until = time.monotonic() + PATIENCE
    while True:
        try:
            fcntl.lockf(file, fcntl.LOCK_EX | fcntl.LOCK_NB)
            return
        except (BlockingIOError, PermissionError):
            if time.monotonic() > until:
                raise Unfit("%s: another run is at work there" % name) from None
            time.sleep(0.05)


def entries_in(index: str) -> List[Record]:
    """The records of an index, in rising number. Raises Ended."""
    return [record_of(line) for line in run(["list", index]).split("\n") if line]


def record_of(line: str) -> Record:
    """The record of a line of either version that the program printed.

    >>> record_of("7 1 2 3 4 6162"), record_of("7 1 2 3 4 5 -").layer
    (Record(number=7, rect=(1, 2, 3, 4), payload=b'ab', layer=0), 5)
    """
    number, x0, y0, x1, y1, *layer, payload = line.split(" ")
    rect = int(x0), int(y0), int(x1), int(y1)
    return Record(int(number), rect, bytes.fromhex(payload.strip("-")), int(layer[0]) if layer else 0)


def refuse_other_index(folder: Folder) -> None:
    """Raises Unfit where the index is of version 2: what changes atlases here writes batches of version 1 for it."""
    if front_of(folder.index)[1] != 1:
        raise Unfit("%s: its index is of version 2, which is read here and not changed" % folder.name)


def put_sheet(folder: Folder, part: str, root: str) -> bytes:
    """Gives a new map its name among the sheets; answers its root preimage. Raises Unfit where it is another map."""
    front = front_of(part)
    if digest(front).hex() != root:
        raise Unfit("%s: the program printed another root digest than the file has" % part)
    keep(part, folder.sheet(root))
    return front


def switch(folder: Folder, part: str, root: str) -> None:
    """Makes a new index, that stands in a file among the sheets, the one of the atlas: by one rename, the last step."""
    put_sheet(folder, part, root)
    sync(folder.sheets)
    sync(folder.name)
    ready = folder.at(PART + "index.map")
    try:
        os.link(folder.sheet(root), ready)
    except (OSError, AttributeError):  # a file system without links
        shutil.copyfile(folder.sheet(root), ready)
        sync(ready)
    os.replace(ready, folder.index)
    sync(folder.name)


# ---- several tasks at once


def die_with(parent: int) -> None:
    """Ends this process once its parent has: a run that was killed leaves none that go on writing."""

    def watch() -> None:
        """Looks again and again."""
        while os.getppid() == parent:
            time.sleep(0.05)
        os._exit(1)

    signal.signal(signal.SIGINT, signal.SIG_IGN)
    threading.Thread(target=watch, daemon=True).start()


@contextlib.contextmanager
def workers(jobs: int) -> Iterator[Mapper]:
    """What does tasks, so many at once, in processes of their own; of one job, in this one. Raises Ended."""
    if jobs == 1:
        yield map
        return
    from concurrent.futures import ProcessPoolExecutor
    from concurrent.futures.process import BrokenProcessPool

    pool = ProcessPoolExecutor(jobs, initializer=die_with, initargs=(os.getpid(),))
    try:
        yield pool.map
    except BrokenProcessPool:
        words = "a process that did a part of the work was ended: too little memory, or somebody's kill"
        raise Failed(8, words) from None
    finally:
        pool.shutdown(wait=True, cancel_futures=True)
