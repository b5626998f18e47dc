"""What stands beside a map: the features that its records tell by their digests, and where the record of a number is.

Both are found by an index, whose form docs/FORMATS.md has. Of a file on a server a few ranges are fetched, and none of
what comes is believed: a shape is one only by the digest that a checked record has for its payload, and a place is only
where a reader asks for a record. Tested, and not proved.
"""
from __future__ import annotations

import hashlib
import os
import struct
import tempfile
from bisect import bisect_left, bisect_right
from contextlib import suppress
from typing import IO, Dict, Iterable, List, Optional, Tuple

if __package__:
    from .mrtree_check import Record, Rect, Refused
    from .ranges import Failed, Limits, Meter, Place, Source, is_address, source_of
else:
    from mrtree_check import Record, Rect, Refused
    from ranges import Failed, Limits, Meter, Place, Source, is_address, source_of

HEAD = struct.Struct(">4sBc2xQQ")  # magic, version, kind, how many entries, how long the file is that they are of
MAGIC = b"MRIX"
SHAPES, PLACES = b"S", b"P"  # the kinds of an index
KEYS = {SHAPES: 16, PLACES: 8}  # bytes of what an entry is found by
VALUES = {SHAPES: 12, PLACES: 16}  # bytes of what it tells
BLOCK = 512  # entries that are fetched together
MOST = 2**26  # entries
FIRST = 16384  # bytes of an index that are fetched first
GAP = 16384  # bytes that nobody asked for, between two that are fetched at once
MOST_RANGE = 2**22  # bytes of a range
MEANINGS = {  # what it mostly is that a shape or an index is refused, by the rule
    "Head": "the file is no index of this kind, or of a version that is not known here",
    "Order": "the index was changed, or is none",
    "Payload": "the payload of the record is no digest: the map was not made with --digest",
    "Missing": "the index does not have the record: it is of another map, or of another state of it",
    "Outside": "the index names a place behind the end of the shapes",
    "Place": "the sides of the place are out of order",
    "Digest": "the feature is another than the map's: it is of another state, or a program rounded its numbers",
    "Short": "the file was cut off, or is of another state than the index",
}
END = ".index"  # what stands behind the name of the shapes in that of their index


class ShapeRefused(Refused):
    """A shape is refused: the number of its record, and the rule that it breaks. An index that is none has no number.

    >>> print(ShapeRefused(7, "Digest"), ShapeRefused(None, "Head"), sep=", ")
    refused shape 7 Digest, refused index Head
    """

    def __init__(self, number: Optional[int], rule: str) -> None:
        super().__init__(rule, number or 0)
        self.number = number

    def __str__(self) -> str:
        if self.number is None:
            return "refused index %s" % self.rule
        return "refused shape %d %s" % (self.number, self.rule)

    def meaning(self) -> str:
        """What it mostly is."""
        return MEANINGS[self.rule]

    def __reduce__(self) -> Tuple[type, Tuple[Optional[int], str]]:
        return type(self), (self.number, self.rule)


# ---- what entries are


def spread(side: int) -> int:
    """The bits of a coordinate above the least one, each followed by a zero.

    >>> bin(spread(5 - 2**31))
    '0b10001'
    """
    return int(format(side + 2**31, "b"), 4)


def key_of(rect: Rect, number: int) -> bytes:
    """What the shape of a record is found by: bits of x0 and y0 in turns, and then the number.

    >>> key_of((-(2**31), 1 - 2**31, 0, 0), 7).hex(), key_of((2 - 2**31, -(2**31), 0, 0), 7).hex()
    ('00000000000000010000000000000007', '00000000000000080000000000000007')
    """
    return struct.pack(">QQ", spread(rect[0]) << 1 | spread(rect[1]), number)


def entry_of_place(record: Record) -> bytes:
    """The entry of where a record is."""
    return struct.pack(">Q4i", record.number, *record.rect)


def index_name(name: str) -> str:
    """The name or the address of the index to the shapes of a name or at an address.

    >>> index_name("a.geojsonl"), index_name("https://example.org/a.geojsonl?key=1#x")
    ('a.geojsonl.index', 'https://example.org/a.geojsonl.index?key=1#x')
    """
    if not is_address(name):
        return name + END
    ends = [at for at in (name.find("?"), name.find("#")) if at >= 0]
    at = min(ends, default=len(name))
    return name[:at] + END + name[at:]


# ---- writing


def write_index(file: IO[bytes], kind: bytes, entries: List[bytes], length: int) -> None:
    """Writes an index of this kind, whose entries are in rising order, to a file."""
    size = KEYS[kind]
    file.write(HEAD.pack(MAGIC, 1, kind, len(entries), length))
    file.write(b"".join(entries[at][:size] for at in range(0, len(entries), BLOCK)))
    for at in range(0, len(entries), BLOCK):
        file.write(b"".join(entries[at : at + BLOCK]))


class Shelf:
    """Shapes that come in any order, and are written in that of their places. They wait in a file without a name."""

    def __init__(self, folder: str) -> None:
        self.file: IO[bytes] = tempfile.TemporaryFile(dir=folder)
        self.entries: List[bytes] = []
        self.end = 0

    def keep(self, record: Record, shape: bytes) -> None:
        """Takes the shape of a record. Raises OSError."""
        self.entries.append(key_of(record.rect, record.number) + struct.pack(">QI", self.end, len(shape)))
        self.file.write(shape)
        self.end += len(shape)

    def write(self, out: IO[bytes], index: IO[bytes]) -> None:
        """Writes the shapes, a line each, and the index to them. Raises OSError."""
        self.entries.sort()
        moved, end = [], 0
        for entry in self.entries:
            place, length = struct.unpack(">QI", entry[16:])
            self.file.seek(place)
            out.write(self.file.read(length) + b"\n")
            moved.append(entry[:16] + struct.pack(">QI", end, length))
            end += length + 1
        write_index(index, SHAPES, moved, end)


# ---- reading


def fetched(source: Source, places: List[Place]) -> List[bytes]:
    """The bytes of each of some ranges, near ones by one request. Raises Failed."""
    order = sorted(set(places))
    groups: List[List[Place]] = []
    for place in order:
        start, end = place
        if groups and start - groups[-1][-1][1] <= GAP and end - groups[-1][0][0] <= MOST_RANGE:
            groups[-1].append(place)
        else:
            groups.append([place])
    found: Dict[Place, bytes] = {}
    wholes = [(group[0][0], max(end for _, end in group)) for group in groups]
    for at, piece in source.many(wholes) if wholes else []:
        for start, end in groups[at]:
            found[start, end] = piece[start - wholes[at][0] : end - wholes[at][0]]
    return [found[place] for place in places]


class Index:
    """An index of a kind, in a file of which ranges are fetched. Every call may raise ShapeRefused and Failed."""

    def __init__(self, source: Source, kind: bytes) -> None:
        self.source, self.key_size, self.size = source, KEYS[kind], KEYS[kind] + VALUES[kind]
        front = next(found for _, found in source.many([(0, FIRST)]))
        if len(front) < HEAD.size:
            raise ShapeRefused(None, "Head")
        magic, version, own, self.count, self.length = HEAD.unpack_from(front)
        if (magic, version, own) != (MAGIC, 1, kind) or any(front[6:8]) or self.count > MOST:
            raise ShapeRefused(None, "Head")
        blocks = -(-self.count // BLOCK)
        self.begin = HEAD.size + blocks * self.key_size  # the place of the first entry
        if self.begin > len(front):
            front += next(found for _, found in source.many([(len(front), self.begin)]))
        if len(front) < self.begin:
            raise ShapeRefused(None, "Short")
        self.firsts = [front[at : at + self.key_size] for at in range(HEAD.size, self.begin, self.key_size)]
        if any(one >= next_ for one, next_ in zip(self.firsts, self.firsts[1:])):
            raise ShapeRefused(None, "Order")

    def find(self, keys: Iterable[bytes]) -> Dict[bytes, bytes]:
        """What the entries of some keys tell, of those that there are."""
        blocks: Dict[int, List[bytes]] = {}
        for key in keys:
            at = bisect_right(self.firsts, key) - 1
            if at >= 0:
                blocks.setdefault(at, []).append(key)
        numbers = sorted(blocks)
        found: Dict[bytes, bytes] = {}
        for number, block in zip(numbers, fetched(self.source, [self.place_of(number) for number in numbers])):
            place = self.place_of(number)
            if len(block) < place[1] - place[0]:
                raise ShapeRefused(None, "Short")
            entries = [block[at : at + self.size] for at in range(0, len(block), self.size)]
            for key in blocks[number]:
                at = bisect_left(entries, key)
                if at < len(entries) and entries[at].startswith(key):
                    found[key] = entries[at][self.key_size :]
        return found

    def place_of(self, block: int) -> Place:
        """Where a block of entries stands."""
        start, end = block * BLOCK, min(block * BLOCK + BLOCK, self.count)
        return self.begin + start * self.size, self.begin + end * self.size


class Shapes:
    """The shapes of a map, of which some are fetched at a time. Every call may raise ShapeRefused and Failed."""

    def __init__(self, name: str, meter: Meter) -> None:
        self.source = source_of(name, meter)
        self.index = Index(source_of(index_name(name), meter), SHAPES)

    def fetch(self, records: Iterable[Record]) -> Dict[int, bytes]:
        """The canonical bytes of the feature of each record, by its number. They are those of the record's digest."""
        wanted = {key_of(record.rect, record.number): record for record in records}
        for record in wanted.values():
            if len(record.payload) != 32:
                raise ShapeRefused(record.number, "Payload")
        told = self.index.find(wanted)
        places: List[Place] = []
        for key, record in wanted.items():
            if key not in told:
                raise ShapeRefused(record.number, "Missing")
            place, length = struct.unpack(">QI", told[key])
            if place + length > self.index.length:
                raise ShapeRefused(record.number, "Outside")
            places.append((place, place + length))
        found: Dict[int, bytes] = {}
        for record, (start, end), shape in zip(wanted.values(), places, fetched(self.source, places)):
            if len(shape) < end - start:
                raise ShapeRefused(record.number, "Short")
            if hashlib.sha256(shape).digest() != record.payload:
                raise ShapeRefused(record.number, "Digest")
            found[record.number] = shape
        return found


def open_shapes(name: str, limits: Optional[Limits] = None) -> Shapes:
    """The shapes in a file at an address or of a name, beside which their index is.

    Raises ShapeRefused where that is none, Failed where it cannot be had, and ValueError where an address is none.
    """
    return Shapes(name, Meter(limits or Limits()))


def has_index(name: str) -> bool:
    """Whether shapes are read by their index: of an address always, and of a name where the index is there."""
    if is_address(name):
        return True
    with suppress(OSError, ValueError):
        return os.path.isfile(index_name(name))
    return False


def is_index(name: str) -> bool:
    """Whether a word is an address, or the name of a file that begins as an index does."""
    if is_address(name):
        return True
    with suppress(OSError, ValueError):
        if os.path.isfile(name):
            with open(name, "rb") as file:
                return file.read(4) == MAGIC
    return False


def places_of(name: str, numbers: Iterable[int], limits: Optional[Limits] = None) -> Dict[int, Rect]:
    """Where the records of some numbers are by an index of places, of those that it has. Raises as `open_shapes`."""
    index = Index(source_of(name, Meter(limits or Limits())), PLACES)
    found: Dict[int, Rect] = {}
    for key, value in index.find(number.to_bytes(8, "big") for number in numbers).items():
        x0, y0, x1, y1 = struct.unpack(">4i", value)
        if x0 > x1 or y0 > y1:
            raise ShapeRefused(int.from_bytes(key, "big"), "Place")
        found[int.from_bytes(key, "big")] = x0, y0, x1, y1
    return found


__all__ = ["Failed", "Index", "Limits", "ShapeRefused", "Shapes", "open_shapes", "places_of"]
