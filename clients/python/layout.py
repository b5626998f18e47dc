#!/usr/bin/env python3
"""Lays a map file out by levels, so that readers who fetch its pages send fewer requests. The root stays the same.

usage: layout.py OLD NEW

The nodes of each level stand side by side, from the root down, and each level in the order of the one above. OLD is a
map file of either version, as the program writes it; free pages are left out. The map is the same: so are its root
digest and each proof. The pages are moved and not judged: `mrtree list NEW` does that, and every reader does.

What does not fit is told on standard error, and then NEW is left as it was. Exit statuses: 0, 1 where words or the file
do not fit, 7 where a file cannot be read or written, 8 without memory. The script is tested, not proved.
"""
from __future__ import annotations

import sys

if __name__ == "__main__":  # an interrupt while modules are read ends the run without a trace
    sys.excepthook = lambda kind, *rest: kind is KeyboardInterrupt or sys.__excepthook__(kind, *rest)

import signal

if __name__ == "__main__":
    signal.signal(signal.SIGINT, signal.SIG_DFL)

import struct
from itertools import islice
from typing import IO, List, Optional, Tuple

if __package__:
    from . import outputs
    from .outputs import Unfit
    from .pagewise import MOST_PAGES, PAGE
else:
    import outputs
    from outputs import Unfit
    from pagewise import MOST_PAGES, PAGE

SCRIPT = "layout.py"
ENTRY = {1: 52, 2: 68}  # bytes of an entry of an inner node, by the version
FREE = {1: 78, 2: 86}  # the place on page 0 of the first free page


class Pages:
    """The pages of a map file."""

    def __init__(self, file: IO[bytes], name: str) -> None:
        self.file, self.name = file, name
        self.version = 2 if file.read(5)[4:] == b"\2" else 1
        self.size = PAGE[self.version]
        self.head = self.page(0)
        if self.head[:4] != b"MRMP" or self.head[-4:] != b"SEAL":
            raise Unfit("%s: it is no map file" % name)

    def page(self, number: int) -> bytes:
        """A page of this number. Raises Unfit where there is none."""
        self.file.seek(number * self.size)
        found = self.file.read(self.size)
        if len(found) < self.size:
            raise Unfit("%s: it has no page %d" % (self.name, number))
        return found

    def root(self) -> Tuple[int, int]:
        """The level and the page of the root node; the page is 0 where there is none."""
        return self.head[5], struct.unpack_from(">I", self.head, 26)[0]

    def children(self, page: bytes) -> List[int]:
        """The pages that an inner node names."""
        size = ENTRY[self.version]
        return [struct.unpack_from(">I", page, 3 + size * at)[0] for at in range(min(page[2], 64))]

    def renamed(self, page: bytes, first: int) -> bytes:
        """An inner node whose children stand on pages from this one on."""
        renamed, size = bytearray(page), ENTRY[self.version]
        for at in range(min(page[2], 64)):
            struct.pack_into(">I", renamed, 3 + size * at, first + at)
        return bytes(renamed)


def levels(pages: Pages) -> List[List[int]]:
    """The pages of the nodes of each level, from the root down. Raises Unfit where they are more than a file has."""
    level, root = pages.root()
    rows = [[root]] if root else []
    for _ in range(level if root else 0):
        below = (child for number in rows[-1] for child in pages.children(pages.page(number)))
        rows.append(list(islice(below, MOST_PAGES)))
        if sum(map(len, rows)) >= MOST_PAGES:
            raise Unfit("%s: its nodes are more than a file has pages" % pages.name)
    return rows


def lay_out(old: str, new: str) -> int:
    """Writes the map in a file to another, by levels; answers how many pages that has. Raises Unfit and OSError."""
    with open(old, "rb") as file:
        pages = Pages(file, old)
        rows = levels(pages)
        count = 1 + sum(map(len, rows))
        head = bytearray(pages.head)
        struct.pack_into(">II", head, 22, count, 1 if rows else 0)
        struct.pack_into(">I", head, FREE[pages.version], 0)
        with outputs.written(new, [old]) as out:
            out.write(head)
            first = 1
            for row, below in zip(rows, [*rows[1:], None]):
                first += len(row)
                write_row(pages, row, first if below is not None else None, out)
    return count


def write_row(pages: Pages, row: List[int], first: Optional[int], out: IO[bytes]) -> None:
    """Writes the nodes of a level, whose children stand from this page on; leaves have none."""
    for number in row:
        page = pages.page(number)
        if first is not None:
            count = len(pages.children(page))
            page, first = pages.renamed(page, first), first + count
        out.write(page)


def main(words: Optional[List[str]] = None) -> int:
    """Runs the words of a command line; answers the exit status."""
    given = sys.argv[1:] if words is None else words

    def work() -> None:
        """Does what the words say."""
        if given[:1] and given[0] in ("-h", "--help", "--version"):
            outputs.print_help(given[0], SCRIPT, __doc__)
            return
        if len(given) != 2 or "" in given or any(word.startswith("--") for word in given):
            raise Unfit("usage: layout.py OLD NEW")
        outputs.tell(SCRIPT, "%d pages" % lay_out(*given))

    return outputs.status_of(SCRIPT, work)


if __name__ == "__main__":
    signal.signal(signal.SIGINT, signal.default_int_handler)
    sys.exit(main())
