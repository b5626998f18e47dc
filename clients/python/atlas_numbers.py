"""Where each number of an atlas is: the publisher's directory, by which changes find their sheets.

An entry has 12 bytes: the number of a record (8) and of its sheet (4), which is 0 where the number has gone out.
Entries stand in runs, files in rising number; what stands in a newer run counts. `numbers/ROOT.list` names the runs for the
index with this root digest, the newest first, so that the directory changes in the moment in which the index does.
Tested, and not proved.
"""
from __future__ import annotations

import heapq
import mmap
import os
import re
import struct
from typing import Container, Dict, Iterable, Iterator, List, NamedTuple, Sequence

if __package__:
    from .atlas_sheets import PART, Folder, Mapper, sync, take_away, write_whole
    from .outputs import Unfit
else:
    from atlas_sheets import PART, Folder, Mapper, sync, take_away, write_whole
    from outputs import Unfit

ENTRY = struct.Struct(">QI")
FAN = 256  # runs that are merged at once
NOWHERE = 0
TIMES = 4  # a run is merged with the next older one unless that is so many times as large


class Held(NamedTuple):
    """What a publisher keeps beside the index: the size of sheets, the next sheet's number, and the runs."""

    sheet: int
    next: int
    runs: List[str]


# ---- entries


def entries_of(name: str) -> Iterator[bytes]:
    """The entries of a run."""
    with open(name, "rb", 0) as file:
        while True:
            block = file.read(ENTRY.size * 2048)
            if not block:
                return
            for at in range(0, len(block), ENTRY.size):
                yield block[at : at + ENTRY.size]


def packed(found: Iterable[int], sheet: int) -> bytes:
    """The run of the numbers of one sheet. Raises Unfit where one stands twice.

    >>> packed([5, 3], 7).hex()
    '000000000000000300000007000000000000000500000007'
    """
    numbers = sorted(found)
    for number, other in zip(numbers, numbers[1:]):
        if number == other:
            raise Unfit("the number %d stands twice, in sheet %d" % (number, sheet))
    return b"".join([ENTRY.pack(number, sheet) for number in numbers])


def merged(names: Sequence[str]) -> Iterator[bytes]:
    """The entries of at most FAN runs in rising number; those of one number as the runs stand."""
    if len(names) == 1:
        return entries_of(names[0])
    return heapq.merge(*map(entries_of, names), key=lambda entry: entry[:8])


def newest(entries: Iterable[bytes], keeps_gone: bool) -> Iterator[bytes]:
    """Of the entries of each number the first; those of numbers that have gone out only if they are to be kept."""
    last = b""
    for entry in entries:
        if entry[:8] != last:
            last = entry[:8]
            if keeps_gone or entry[8:] != b"\0\0\0\0":
                yield entry


def once(entries: Iterable[bytes]) -> Iterator[bytes]:
    """Entries of which each number is another. Raises Unfit where one stands twice."""
    last = b" " * ENTRY.size
    for entry in entries:
        if entry[:8] == last[:8]:
            number, sheet = ENTRY.unpack(entry)
            raise Unfit("the number %d stands twice: in the sheets %d and %d" % (number, ENTRY.unpack(last)[1], sheet))
        last = entry
        yield entry


def write_run(entries: Iterable[bytes], name: str) -> None:
    """Writes a run to a file that has this name once it is whole. Raises OSError."""
    folder, base = os.path.split(name)
    part = os.path.join(folder, PART + base)
    with open(part, "wb", 2**16) as file:
        file.writelines(entries)
    sync(part)
    os.replace(part, name)


class Group(NamedTuple):
    """Runs that are to become one."""

    names: List[str]
    out: str


def merge_group(group: Group) -> str:
    """Merges runs into one whose numbers all differ; answers its name. Raises Unfit and OSError."""
    write_run(once(merged(group.names)), group.out)
    return group.out


def merge_all(names: List[str], folder: str, out: str, doing: Mapper) -> None:
    """Merges runs of different sheets into one, by files in a folder. Raises Unfit where a number stands twice."""
    take_away(folder)
    os.makedirs(folder)
    level = 0
    while len(names) > FAN:
        level += 1
        groups = [names[at : at + FAN] for at in range(0, len(names), FAN)]
        tasks = [Group(group, os.path.join(folder, "%d-%d" % (level, at))) for at, group in enumerate(groups)]
        names = list(doing(merge_group, tasks))
    write_run(once(merged(names)) if names else [], out)
    take_away(folder)


# ---- the list


def list_name(folder: Folder, root: str) -> str:
    """The file that names the runs for this root digest."""
    return os.path.join(folder.numbers, root + ".list")


def read_held(folder: Folder, root: str) -> Held:
    """What is kept for the index with this root digest. Raises Unfit where there is nothing, or it is damaged."""
    name = list_name(folder, root)
    try:
        with open(name) as file:
            text = file.read()
    except FileNotFoundError:
        words = "%s is not there, which says where each number is: `build %s` makes it of the sheets"
        raise Unfit(words % (name, folder.name)) from None
    found = re.fullmatch(r"sheet ([0-9]{1,7})\nnext ([0-9]{1,10})\n((?:run [0-9]+-[0-9]+\n)*)end\n", text)
    if not found:
        raise Unfit("%s is damaged: take it away, and `build %s` makes it of the sheets" % (name, folder.name))
    return Held(int(found[1]), int(found[2]), re.findall(r"run (\S+)", found[3]))


def write_held(folder: Folder, root: str, held: Held) -> None:
    """Writes what is kept for the index with this root digest. Raises OSError."""
    runs = "".join("run %s\n" % run for run in held.runs)
    write_whole(list_name(folder, root), "sheet %d\nnext %d\n%send\n" % (held.sheet, held.next, runs))
    sync(folder.numbers)


def forget_others(folder: Folder, root: str, held: Held) -> None:
    """Takes away lists and runs that are not of the index with this root digest."""
    kept = {root + ".list", *held.runs}
    for name in os.listdir(folder.numbers):
        if name not in kept:
            take_away(os.path.join(folder.numbers, name))


# ---- finding and changing


class Numbers:
    """In which sheet each number is, with changes that are not saved yet."""

    def __init__(self, folder: Folder, runs: List[str]) -> None:
        self.folder, self.runs = folder, runs
        self.maps: List[mmap.mmap] = []
        self.new: Dict[int, int] = {}
        for name in runs:
            with open(os.path.join(folder.numbers, name), "rb") as file:
                if os.fstat(file.fileno()).st_size:
                    self.maps.append(mmap.mmap(file.fileno(), 0, access=mmap.ACCESS_READ))

    def get(self, number: int) -> int:
        """The sheet in which a number is, or NOWHERE."""
        held = self.new.get(number)
        if held is not None:
            return held
        key = struct.pack(">Q", number)
        for one in self.maps:
            low, high = 0, len(one) // 12
            while low < high:
                mid = (low + high) // 2
                if one[12 * mid : 12 * mid + 8] < key:
                    low = mid + 1
                else:
                    high = mid
            if one[12 * low : 12 * low + 8] == key:
                return int.from_bytes(one[12 * low + 8 : 12 * low + 12], "big")
        return NOWHERE

    def put(self, number: int, sheet: int) -> None:
        """Says in which sheet a number is from now on, or NOWHERE."""
        self.new[number] = sheet

    def save(self, batch: int, remade: str, others: Container[int]) -> List[str]:
        """Writes the changes as a run; answers the names of all runs, the newest first. Raises OSError.

        Numbers in sheets that were made anew, which are these others, stand in the run `remade`, and not in the
        changes. The new run is merged with older ones that are not much larger, so that there are few.
        """
        own, made = self.path("%d-0" % batch), self.path("%d-1" % batch)
        write_run(sorted(ENTRY.pack(*one) for one in self.new.items() if one[1] not in others), own)
        names, older = [own, remade], [self.path(name) for name in self.runs]
        size = sum(map(os.path.getsize, names))
        while older and os.path.getsize(older[0]) < TIMES * size:
            size += os.path.getsize(older[0])
            names.append(older.pop(0))
        write_run(newest(merged(names), bool(older)), made)
        return [os.path.basename(name) for name in [made, *older]]

    def path(self, name: str) -> str:
        """The file of a run."""
        return os.path.join(self.folder.numbers, name)

