"""A map in a file that is mapped into memory: its proofs, made as fast as can be, and its bytes.

The walk is that of pagewise.py, less what a reader needs and a host does not. No digest is computed, no node is kept,
and no page is judged: whoever asks holds the root digest and checks the proof. Which nodes are open is told by the same
functions of mrtree_check, so the bytes are those of `prove`, `count` and `join` where the file is the map's. Of a file
that is not, the proofs are refused by whoever checks them; nothing is read outside of it, and each walk ends.
"""
from __future__ import annotations

import heapq
import mmap
import os
import struct
from typing import IO, Generator, Iterable, Iterator, List, Optional, Tuple

if __package__:
    from . import mrtree_check as client
    from .mrtree_check import OPEN, Ended, Query, Rect, Ways
    from .pagewise import PAGE, MapRefused, page_0_of
else:
    import mrtree_check as client
    from mrtree_check import OPEN, Ended, Query, Rect, Ways
    from pagewise import PAGE, MapRefused, page_0_of

Pieces = Iterator[bytes]  # a proof, piece by piece; a piece may be empty, where work was done for others to come
Below = Tuple[int, Rect, int]  # what a node holds: the page of a child, 0 of a record; its rectangle and its mask

ENTRY = {1: struct.Struct(">I4i32x"), 2: struct.Struct(">I4iQ40x")}  # what is read of an entry, by the version
RECORD = {1: struct.Struct(">8x4iB"), 2: struct.Struct(">8x4iBB")}  # and of a record: its payload's length is the last


class TooLong(Exception):
    """A proof has more bytes than it may."""


class MappedMap:
    """The map in an open file of a version; `root` is its root digest as 64 hexadecimal digits.

    Several threads may ask at once. Raises MapRefused where page 0 is that of no map, or its number of pages is not the
    file's. A proof of a file with another fault is some bytes, or raises MapRefused.
    """

    def __init__(self, file: IO[bytes]) -> None:
        size = os.fstat(file.fileno()).st_size
        self.bytes = mmap.mmap(file.fileno(), 0, access=mmap.ACCESS_READ) if size else b""
        self.head, digest = page_0_of(self.bytes[: PAGE[2]])
        self.version, self.root, self.page = self.head.version, digest.hex(), PAGE[self.head.version]
        if len(self.bytes) != self.head.pages * self.page:
            raise MapRefused("Header", 0)
        self.entry, self.record = ENTRY[self.version], RECORD[self.version]

    # -- pages

    def inner(self, page: int) -> Tuple[List[Below], bytes]:
        """What the inner node on a page holds, and its bytes from the first entry on."""
        at = page * self.page + 3
        told = self.bytes[at : at + self.bytes[at - 1] * self.entry.size]
        if self.version == 1:
            every = client.ALL_LAYERS
            return [(p, (x0, y0, x1, y1), every) for p, x0, y0, x1, y1 in self.entry.iter_unpack(told)], told
        return [(p, (x0, y0, x1, y1), mask) for p, x0, y0, x1, y1, mask in self.entry.iter_unpack(told)], told

    def leaf(self, page: int) -> bytes:
        """The item of the leaf on a page: its bytes, to the end of its last record."""
        start, size = page * self.page, self.record.size
        end = start + 2
        for _ in range(self.bytes[start + 1]):
            end += size + self.bytes[end + size - 1]
        return self.bytes[start:end]

    def records(self, page: int) -> List[Below]:
        """What the leaf on a page holds."""
        at, found = page * self.page + 2, []
        for _ in range(self.bytes[at - 1]):
            x0, y0, x1, y1, *layer, length = self.record.unpack_from(self.bytes, at)
            found.append((0, (x0, y0, x1, y1), 1 << layer[0] if layer else client.ALL_LAYERS))
            at += self.record.size + length
        return found

    def below(self, level: int, page: int) -> List[Below]:
        """What the node of this level on a page holds."""
        return self.inner(page)[0] if level else self.records(page)

    # -- proofs

    def proof(self, query: Query) -> Pieces:
        """The honest proof of the answer to a query. Raises Ended where it names a mask and the map is of version 1."""
        if query.mask is not None:
            self.refuse_version_1()
        return self.judged(self.proof_of_answer(query))

    def count_proof(self, query: Query) -> Pieces:
        """The honest proof of how many records lie inside a window. Raises Ended where the map is of version 1."""
        self.refuse_version_1()
        return self.judged(self.proof_of(b"C", b"", client.inside(query)))

    def refuse_version_1(self) -> None:
        """Raises Ended where the map is of version 1."""
        if self.version == 1:
            raise Ended(10, "needs version 2")

    def judged(self, pieces: Pieces) -> Pieces:
        """These pieces. Raises MapRefused where a page leads out of the file."""
        try:
            yield from pieces
        except (IndexError, struct.error):
            raise MapRefused("Outside", self.head.pages) from None

    def proof_of_answer(self, query: Query) -> Pieces:
        """The pieces of the proof of the answer to a query."""
        radius = None
        if query.k:
            radius = yield from self.radius(query)
        flag = b"" if not query.k else b"\0" if radius is None else b"\1" + radius.to_bytes(16, "big")
        yield from self.proof_of(b"K" if query.k else b"W", flag, client.reach(query, radius))

    def radius(self, query: Query) -> Generator[bytes, None, Optional[int]]:
        """The squared distance of the last one of the nearest records; None where there are fewer.

        The pieces that come before it are empty. The nearest node is opened, again and again, as long as it may hold a
        nearer record.
        """
        point, asked, root = query.rect, client.layers(query), self.head.root
        best: List[int] = []  # the least squared distances, at most k of them; negated, as a heap
        heap: List[Tuple[int, int, int]] = []  # nodes by their squared distances, with their levels and pages
        if root and root.part.mask & asked:
            heap.append((client.distance(point, root.part.rect), root.level, root.page))
        for _ in range(self.head.pages):  # no map has more nodes
            if not heap or len(best) == query.k and heap[0][0] >= -best[0]:
                break
            _, level, page = heapq.heappop(heap)
            for below, rect, mask in self.below(level, page):
                if not mask & asked:
                    continue
                if level:
                    heapq.heappush(heap, (client.distance(point, rect), level - 1, below))
                elif len(best) < query.k:
                    heapq.heappush(best, -client.distance(point, rect))
                else:
                    heapq.heappushpop(best, -client.distance(point, rect))
            yield b""
        return -best[0] if len(best) == query.k else None

    def proof_of(self, kind: bytes, flag: bytes, way: Ways) -> Pieces:
        """The proof of this kind that opens what is open."""
        root, head = self.head.root, self.head
        front = b"MRVO%c%s" % (head.version, kind) + struct.pack(">QQ", head.batch, head.count) + flag
        if root is None:
            yield front
        elif way(root.part.rect, root.part.mask) != OPEN:
            yield front + bytes([root.level]) + b"P" + root.entry
        else:
            yield front + bytes([root.level])
            yield from self.items(root.level, root.page, way)

    def items(self, level: int, page: int, way: Ways) -> Pieces:
        """The item of an open node, and those of the nodes below it."""
        if level == 0:
            yield self.leaf(page)
            return
        entries, told = self.inner(page)
        size, at, pieces = self.entry.size, 4, [b"N%c" % len(entries)]
        for below, rect, mask in entries:
            if way(rect, mask) != OPEN:
                pieces += (b"P", told[at : at + size - 4])
            elif level == 1:
                pieces.append(self.leaf(below))
            else:
                yield b"".join(pieces)
                yield from self.items(level - 1, below, way)
                pieces = []
            at += size
        yield b"".join(pieces)

    # -- joins

    def part_of_join(self, way: Ways) -> Pieces:
        """The part of an honest join proof that opens what is open."""
        return self.judged(self.proof_of(b"J", b"", way))

    def met(self, level: int, page: int, rect: Rect) -> Iterator[Rect]:
        """The rectangles of the records below a node that meet a rectangle."""
        for below, other, _ in self.below(level, page):
            if client.meet(rect, other):
                if level:
                    yield from self.met(level - 1, below, rect)
                else:
                    yield other


def whole(pieces: Iterable[bytes], most: int) -> bytes:
    """The bytes of some pieces. Raises TooLong where they are more than so many, and what the pieces raise.

    >>> whole(iter([b"a", b"", b"bc"]), 3)
    b'abc'
    >>> whole(iter([b"a", b"", b"bc"]), 2)
    Traceback (most recent call last):
    mapped.TooLong
    """
    kept, size = [], 0
    for piece in pieces:
        kept.append(piece)
        size += len(piece)
        if size > most:
            raise TooLong
    return b"".join(kept)


def join_proof(first: MappedMap, second: MappedMap, most: int) -> bytes:
    """The honest proof of which records of two maps meet.

    Raises Ended where a map is of version 1, TooLong where the proof has more bytes than this, and MapRefused.
    """
    for one in (first, second):
        one.refuse_version_1()
    root, top = second.head.root, first.head.root
    rects: List[Rect] = []
    front = b"MRJN\0"
    if root:
        rect = root.part.rect
        part = whole(first.part_of_join(lambda other, mask: way_of(client.meet(rect, other))), most)
        front = b"MRJN\1" + struct.pack(">4iI", *rect, len(part)) + part
        if top and client.meet(rect, top.part.rect):
            rects = list(first.met(top.level, top.page, rect))
    meets = client.Meets(rects).one
    return front + whole(second.part_of_join(lambda other, mask: way_of(meets(other))), most - len(front))


def way_of(is_open: bool) -> str:
    """The way of what is open, or not."""
    return OPEN if is_open else client.SKIP
