"""Record texts of files of any length, record by record, and shapes beside them; of a feature on each line by several
processes.

Tested, and not proved.
"""
from __future__ import annotations

import contextlib
import gzip
import itertools
import os
import struct
import tempfile
import zlib
from typing import IO, Iterator, List, NamedTuple, Tuple

if __package__:
    from . import atlas_sort, shapes, sources
    from .atlas_sheets import Mapper, take_away
    from .mrtree_check import Record
    from .outputs import Unfit
    from .sources import Options, Reading
else:
    import atlas_sort
    import shapes
    import sources
    from atlas_sheets import Mapper, take_away
    from mrtree_check import Record
    from outputs import Unfit
    from sources import Options, Reading

LEAST = 2**20  # bytes of the least part that a process of its own reads
PARTS = 1024  # at most so many
MOST_TOLD = 5  # features that are told
HELD = 2**23  # bytes of shapes that a process holds


class Part(NamedTuple):
    """The lines of a file that begin from one place up to another, and the record text that is made of them."""

    name: str
    start: int
    end: int
    form: str
    options: Options
    out: str
    has_shapes: bool  # whether shapes are written too


class Told(NamedTuple):
    """What is counted while a file is read: features left out and cut at the antimeridian, and where some are cut.

    Beside it, the files of shapes that were written.
    """

    skipped: int
    cut: int
    some: List[str]
    runs: List[str]


class Misfit(Exception):
    """A feature of a part does not fit: where the part begins, the line counted from there, and what is wrong."""


def texts_of(
    name: str, form: str, options: Options, room: str, doing: Mapper, has_shapes: bool = False
) -> Tuple[List[str], Told]:
    """Writes the record texts of a file into a folder; answers their names. Raises Unfit and OSError."""
    size = os.path.getsize(name) if is_by_lines(name, form) else 0
    step = max(LEAST, -(-size // PARTS))
    cuts = [*range(0, size, step), size] if size else [0, -1]
    outs = (os.path.join(room, "text-%06d" % at) for at in itertools.count())
    parts = [Part(name, *ends, form, options, out, has_shapes) for ends, out in zip(zip(cuts, cuts[1:]), outs)]
    try:
        told = list(doing(write_text, parts))
    except Misfit as misfit:
        start, line, words = misfit.args
        before = atlas_sort.line_at(name, start - 1) if start else 0
        raise Unfit("%s: %s%s" % (name, "line %d: " % (before + line) if line else "", words)) from None
    some = [one for each in told for one in each.some][:MOST_TOLD]
    runs = [run for one in told for run in one.runs]
    counts = Told(sum(one.skipped for one in told), sum(one.cut for one in told), some, runs)
    return [part.out for part in parts], counts


def is_by_lines(name: str, form: str) -> bool:
    """Whether a file may be read from the middle: it has a feature on each line, without the marks of RFC 8142."""
    if form != "geojsonseq" or name.lower().endswith(".gz") or not os.path.isfile(name):
        return False
    with open(name, "rb") as file:
        return b"\x1e" not in file.read(LEAST)


def lines_between(file: IO[bytes], start: int, end: int) -> Iterator[bytes]:
    """The lines of a file that begin from one place up to another."""
    file.seek(max(0, start - 1))
    place = max(0, start - 1) + (len(file.readline()) if start else 0)
    while place < end:
        line = file.readline()
        if not line:
            return
        place += len(line)
        yield line


def write_text(part: Part) -> Told:
    """Writes the record text of a part of a file, or of all of it. Raises Misfit and OSError."""
    shelf = Shelf(part.out + ".shapes")
    reading = Reading(part.name, part.options._replace(keep=shelf.keep) if part.has_shapes else part.options)
    reading.at = first = 1 if part.start else 0  # a byte-order mark may stand before the first line of a file alone
    try:
        with sources.opened(part.name) as file, open(part.out, "w", 2**17) as out:
            lines = file if part.end < 0 else lines_between(file, part.start, part.end)
            found = sources.records_of(lines, part.form, reading)  # type: ignore[arg-type]
            out.writelines(record.line(reading.version) + "\n" for record in found)
    except RecursionError:
        raise misfit_of(part, reading, first, sources.DEEP) from None
    except (EOFError, zlib.error, gzip.BadGzipFile):
        raise misfit_of(part, reading, first, "it cannot be unpacked: it was cut off, or is no gzip file") from None
    except Unfit as unfit:
        raise misfit_of(part, reading, first, str(unfit)) from None
    shelf.put()
    return Told(reading.skipped, len(reading.cut), [] if part.start else reading.cut[:MOST_TOLD], shelf.runs)


def misfit_of(part: Part, reading: Reading, first: int, words: str) -> Misfit:
    """That a part does not fit, and where."""
    if part.end >= 0:
        return Misfit(part.start, reading.at - first, words)
    return Misfit(0, 0, "%s %d: %s" % (reading.part, reading.at, words) if reading.part else words)


def copied(name: str, out: str) -> str:
    """Copies the standard input, or what is packed in a file, to a file; answers its name. Raises Unfit and OSError."""
    try:
        with sources.opened(name) as file, open(out, "wb") as into:
            for piece in iter(lambda: file.read(2**17), b""):
                into.write(piece)
    except (EOFError, zlib.error, gzip.BadGzipFile):
        raise Unfit("%s: it cannot be unpacked: it was cut off, or is no gzip file" % name) from None
    return out


# ---- shapes


class Shelf:
    """Shapes that come in any order, in files that have them in the order of their places, a line each."""

    def __init__(self, name: str) -> None:
        self.name, self.size = name, 0
        self.runs: List[str] = []
        self.lines: List[bytes] = []

    def keep(self, record: Record, shape: bytes) -> None:
        """Takes the shape of a record. Raises OSError."""
        self.lines.append(b"%s %s\n" % (shapes.key_of(record.rect, record.number).hex().encode(), shape))
        self.size += len(self.lines[-1])
        if self.size > HELD:
            self.put()

    def put(self) -> None:
        """Writes what it has to a file. Raises OSError."""
        if self.lines:
            self.runs.append(atlas_sort.write_run(self.lines, "%s.%d" % (self.name, len(self.runs))))
            self.size, self.lines = 0, []


def write_shapes(runs: List[str], room: str, out: IO[bytes], index: IO[bytes]) -> None:
    """Writes the shapes that stand in files, a line each, and the index to them. Raises Unfit and OSError."""
    runs = atlas_sort.fewer(runs, os.path.join(room, "shapes-"))
    firsts, count, end = [], 0, 0
    with tempfile.TemporaryFile(dir=room) as entries:
        with atlas_sort.merged(runs) if runs else contextlib.nullcontext(iter([])) as lines:
            for line in lines:
                key = bytes.fromhex(line[:32].decode())
                if count % shapes.BLOCK == 0:
                    firsts.append(key)
                out.write(line[33:])
                entries.write(key + struct.pack(">QI", end, len(line) - 34))
                count, end = count + 1, end + len(line) - 33
        if count > shapes.MOST:
            raise Unfit("%d shapes are too many for an index: at most %d" % (count, shapes.MOST))
        index.write(shapes.HEAD.pack(shapes.MAGIC, 1, shapes.SHAPES, count, end))
        index.writelines(firsts)
        entries.seek(0)
        index.writelines(iter(lambda: entries.read(atlas_sort.BLOCK), b""))
    for run in runs:
        take_away(run)
