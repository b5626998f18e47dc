"""Proofs of an atlas, made from its files by the program: windows, nearest records and counts (docs/FORMATS.md).

What is made here is judged by `mrtree_check.py check-atlas`, as each other proof is. Tested, and not proved.
"""
from __future__ import annotations

import contextlib
import math
import os
import struct
import tempfile
from typing import Iterator, List, Tuple

if __package__:
    from . import mrtree_check as client
    from .atlas_sheets import Failed, Folder, entries_in, front_of, run
    from .mrtree_check import EVERYTHING, OPEN, Query, Rect, Sheet
else:
    import mrtree_check as client
    from atlas_sheets import Failed, Folder, entries_in, front_of, run
    from mrtree_check import EVERYTHING, OPEN, Query, Rect, Sheet

MOST_NEAREST = 1024  # that one query asks for


class Prover:
    """What makes proofs of one state of an atlas: that of the index which stands there when it is made."""

    def __init__(self, folder: Folder, part: str) -> None:
        front = front_of(folder.index)
        self.folder, self.part, self.root = folder, part, client.digest(front)
        self.index = folder.sheet(self.root.hex())

    def proof(self, query: Query, counts: bool) -> Iterator[bytes]:
        """The proof of a query, or of a count, in pieces. Raises Ended, Refused, Unfit and OSError."""
        kind = client.COUNTS if counts else client.kind_of(query)
        half = self.half(query) if query.k else 0
        window = Query(client.square(query.rect, half) if query.k else query.rect, 0, query.mask)
        yield b"MRAT\1" + kind.letter + (struct.pack(">I", half) if query.k else b"")
        first = self.made("prove", self.index, Query(window.rect, 0))
        yield from framed(first)
        ways = client.inside(window) if counts else client.reach(window, None)
        for record in client.judge(self.root, Query(window.rect, 0), [first]).records:
            sheet = client.read_sheet(record)
            if client.way_of_sheet(sheet, window, ways) == OPEN:
                yield from framed(self.made("count" if counts else "prove", self.map_of(sheet), window))

    def made(self, command: str, map_: str, query: Query) -> bytes:
        """The proof that the program makes. Raises Ended and OSError."""
        run([command, map_, word_of(query), self.part])
        with open(self.part, "rb") as file:
            return file.read()

    def map_of(self, sheet: Sheet) -> str:
        """The file of a sheet. Raises Failed where another map stands there, Unfit and OSError."""
        name = self.folder.sheet(sheet.root.hex())
        if client.digest(front_of(name)) != sheet.root:
            raise Failed(2, "sheet %d: its file %s has another map" % (sheet.number, name))
        return name

    def half(self, query: Query) -> int:
        """The least half side by which enough records are near enough, or EVERYTHING where there are too few.

        The sheets are asked by rising distance, until the next one is farther than the last record that is needed.
        """
        found: List[int] = []
        for far, sheet in self.by_distance(query.rect):
            if len(found) >= query.k and far > found[query.k - 1]:
                break
            if client.way_of_sheet(sheet, query, client.reach(Query(query.rect, 1, query.mask), None)) == OPEN:
                near = client.judge(sheet.root, query, [self.made("prove", self.map_of(sheet), query)])
                found += [client.distance(query.rect, record.rect) for record in near.records]
                found = sorted(found)[: query.k]
        if len(found) < query.k:
            return EVERYTHING
        last = found[query.k - 1]
        return min(math.isqrt(last - 1) + 1 if last else 0, EVERYTHING)

    def by_distance(self, point: Rect) -> Iterator[Tuple[int, Sheet]]:
        """The sheets by rising squared distance of their rectangles. Raises Refused, Ended and OSError."""
        k, seen = 4, 0
        while k <= MOST_NEAREST:
            query = Query(point, k)
            near = client.judge(self.root, query, [self.made("prove", self.index, query)]).records
            for record in near[seen:]:
                yield client.distance(point, record.rect), client.read_sheet(record)
            if len(near) < k:
                return
            k, seen = 4 * k, len(near)
        sheets = map(client.read_sheet, entries_in(self.index))
        ranked = sorted((client.distance(point, sheet.rect), sheet.number, sheet) for sheet in sheets)
        for far, _, sheet in ranked[seen:]:
            yield far, sheet


def framed(part: bytes) -> Iterator[bytes]:
    """A part behind its length."""
    yield struct.pack(">I", len(part))
    yield part


def word_of(query: Query) -> str:
    """The word of a query.

    >>> word_of(Query((0, 0, 9, 9), 0)), word_of(Query((5, -5, 5, -5), 2, 33))
    ('window:0,0,9,9', 'nearest:5,-5,2/0000000000000021')
    """
    shape = "nearest:%d,%d,%d" % (*query.rect[:2], query.k) if query.k else "window:%d,%d,%d,%d" % query.rect
    return shape + ("" if query.mask is None else "/%016x" % query.mask)


@contextlib.contextmanager
def prover(folder: Folder) -> Iterator[Prover]:
    """What makes proofs of the atlas in a folder, with a room of its own for files. Raises Unfit and OSError."""
    with tempfile.TemporaryDirectory() as room:
        yield Prover(folder, os.path.join(room, "proof"))
