"""What an atlas is, and whether its index and its sheets fit together. Tested, and not proved."""
from __future__ import annotations

import os
import tempfile
from typing import Callable, List, NamedTuple, Optional

if __package__:
    from . import atlas_numbers
    from .atlas_build import Listed, list_numbers
    from .atlas_sheets import PART, Folder, Mapper, batch_of, entries_in, front_of, run
    from .mrtree_check import PREIMAGE, Ended, Record, Refused, Sheet, digest, read_sheet
    from .outputs import Unfit
else:
    import atlas_numbers
    from atlas_build import Listed, list_numbers
    from atlas_sheets import PART, Folder, Mapper, batch_of, entries_in, front_of, run
    from mrtree_check import PREIMAGE, Ended, Record, Refused, Sheet, digest, read_sheet
    from outputs import Unfit

CORNER = "window:2147483647,2147483647,2147483647,2147483647"


def sheets_in(folder: Folder) -> List[Sheet]:
    """The sheets of an atlas, in rising number. Raises Refused, Ended and OSError."""
    return [read_sheet(record) for record in entries_in(folder.index)]


def unneeded(folder: Folder) -> List[str]:
    """The files among the sheets that the index does not name. Raises Refused, Ended and OSError."""
    needed = {sheet.root.hex() for sheet in sheets_in(folder)} | {digest(front_of(folder.index)).hex()}
    return sorted(name for name in os.listdir(folder.sheets) if name not in needed and not name.startswith(PART))


def info(folder: Folder) -> List[str]:
    """What an atlas is, a key and a value on each line. Raises Refused, Unfit, Ended and OSError."""
    front, sheets = front_of(folder.index), sheets_in(folder)
    mask, size = 0, 0
    for sheet in sheets:
        mask |= sheet.mask if sheet.version == 2 else 1
        size += os.path.getsize(folder.sheet(sheet.root.hex()))
    lines = ["root %s" % digest(front).hex(), "batch %d" % batch_of(front)]
    lines += ["version %d" % version for version in sorted({sheet.version for sheet in sheets})]
    lines += ["records %d" % sum(sheet.count for sheet in sheets), "sheets %d" % len(sheets)]
    lines += ["largest %d" % max((sheet.count for sheet in sheets), default=0), "bytes %d" % size]
    if sheets:
        x0s, y0s, x1s, y1s = zip(*(sheet.rect for sheet in sheets))
        lines.append("extent %d %d %d %d" % (min(x0s), min(y0s), max(x1s), max(y1s)))
        lines.append("layers %s" % " ".join(str(layer) for layer in range(64) if mask >> layer & 1))
    return lines + ["unneeded %d" % len(unneeded(folder))]


# ---- audit


class Judged(NamedTuple):
    """A sheet that is to be judged: its record in the index, and a room for the run of its numbers, if it has pages
    to be judged."""

    folder: Folder
    record: Record
    room: Optional[str]


def fault_of(one: Judged) -> str:
    """What is wrong with a sheet, an empty text where nothing is."""
    number = one.record.number
    try:
        sheet = read_sheet(one.record)
        name = one.folder.sheet(sheet.root.hex())
        if digest(front_of(name)) != sheet.root:
            return "sheet %d: its file has another map" % number
        if one.room:
            run(["prove", name, CORNER, os.path.join(one.room, "%d.proof" % number)])
            os.remove(os.path.join(one.room, "%d.proof" % number))
            list_numbers(Listed(one.folder, number, sheet.root.hex(), os.path.join(one.room, "%d" % number)))
        return ""
    except Refused as fault:
        return str(fault)[len("refused ") :]
    except (Unfit, Ended) as fault:
        return "sheet %d: %s" % (number, fault.line if isinstance(fault, Ended) else fault)
    except OSError as error:
        return "sheet %d: %s: %s" % (number, error.filename, error.strerror)


def audit(folder: Folder, deep: bool, doing: Mapper, say: Callable[[str], None]) -> int:
    """Says what is wrong with an atlas; answers how many faults that are. Raises Ended, Unfit and OSError."""
    with tempfile.TemporaryDirectory() as room:
        entries = entries_in(folder.index)
        tasks = [Judged(folder, record, room if deep else None) for record in entries]
        faults = [fault for fault in doing(fault_of, tasks) if fault]
        faults += repeated(entries)
        if deep and not faults:
            faults += twice(room, entries, doing)
    for fault in faults:
        say("bad %s" % fault)
    if not faults:
        say("records %d sheets %d" % (sum(read_sheet(record).count for record in entries), len(entries)))
    return len(faults)


def repeated(entries: List[Record]) -> List[str]:
    """The sheets whose map is that of an earlier one."""
    seen, found = set(), []
    for record in entries:
        front = record.payload[: PREIMAGE.get(record.payload[1], 0)] if record.payload[1:] else b""
        if front and front in seen:
            found.append("sheet %d: its map is a sheet already" % record.number)
        seen.add(front)
    return found


def twice(room: str, entries: List[Record], doing: Mapper) -> List[str]:
    """The least number that stands twice in all sheets, if one does."""
    runs = [os.path.join(room, "%d" % record.number) for record in entries]
    try:
        atlas_numbers.merge_all(runs, os.path.join(room, "merge"), os.path.join(room, "all"), doing)
        return []
    except Unfit as unfit:
        return [str(unfit)]
