#!/usr/bin/env python3
"""The client, in Python: says whether an answer is that of the map with a root digest. It follows docs/FORMATS.md.

usage: mrtree_check.py [--most BYTES] [check] ROOT QUERY PROOF
       mrtree_check.py [--most BYTES] check-count ROOT QUERY PROOF
       mrtree_check.py [--most BYTES] check-join ROOT ROOT2 PROOF
       mrtree_check.py [--most BYTES] check-all ROOT SCRIPT BUNDLE
       mrtree_check.py [--most BYTES] check-atlas ROOT QUERY PROOF
       mrtree_check.py [--most BYTES] check-atlas-count ROOT QUERY PROOF
       mrtree_check.py --help | -h | --version

ROOT is the root digest of a map, 64 hexadecimal digits; QUERY is window:x0,y0,x1,y1 or nearest:x,y,k, in map units; and
PROOF is the file of a proof. Of many queries SCRIPT has one on each line, and BUNDLE a proof for each.

Lines and exit statuses are those of the program's commands of these names, with three differences. A file may be a pipe
too. The name `-` is the standard input. And of a proof or bundle no more is read than `--most` allows: a longer one
ends with status 7. Where the status is not 0, a line on standard error says what that mostly means. The program has no
atlases: there the lines are those of `check` and `check-count` on all sheets together. The script is tested against the
program, and not proved.

As a module: `check(root, query, proof)` answers the records, the batch and the count of the map, or raises `Refused`;
`check_count(root, query, proof)` answers how many records lie inside a window, by a count proof; and
`check_join(root, root2, proof)` which records of two maps meet, by a join proof. `check_atlas` and `check_atlas_count`
do the same of an atlas, a map of maps. Coordinates and rectangles are in map units, distances are squared map units,
places are numbers of bytes. A mask is a number with a bit for each layer, bit l, worth 2^l, for layer l. Proofs are of
version 1, which has no layers, or 2; count and join proofs are of version 2.
"""
from __future__ import annotations

import sys

if __name__ == "__main__":  # an interrupt while modules are read ends the run without a trace
    sys.excepthook = lambda kind, *rest: kind is KeyboardInterrupt or sys.__excepthook__(kind, *rest)

import signal

if __name__ == "__main__":
    signal.signal(signal.SIGINT, signal.SIG_DFL)

import hashlib
import os
import re
import stat
import struct
from array import array
from bisect import bisect_left, bisect_right
from typing import Callable, Iterable, Iterator, List, NamedTuple, Optional, Tuple, TypeVar, Union

__version__ = "1.3.0"
__all__ = ["Answer", "Count", "Join", "Query", "Record", "Refused", "State", "Verdict", "check", "check_all"]
__all__ += ["AtlasAnswer", "AtlasCount", "Sheet", "check_atlas", "check_atlas_count"]
__all__ += ["check_count", "check_join", "distance", "meet"]

Rect = Tuple[int, int, int, int]  # x0, y0, x1, y1 in map units, with x0 <= x1 and y0 <= y1; the sides belong to it
Bytes = Union[bytes, bytearray, memoryview]
Pieces = Iterable[bytes]  # a byte string in pieces of any size
Pair = Tuple[int, int]  # the numbers of two records that meet, one of each of two maps
T = TypeVar("T")
Ways = Callable[[Rect, int], str]  # what a part with this rectangle and mask is to be in a proof, one of these three:
SKIP, WHOLE, OPEN = "skip", "whole", "open"  # pruned with nothing that is asked for; with all that; opened
Watch = Callable[[str, int, Rect, List["Record"]], None]  # tag, level, rectangle, and the records of an opened leaf;
# the tag is P, L or N as in the proof, and W of a pruned node whose way is whole

MOST_BYTES = 2**30  # no field of a proof ends behind this place
MOST_RECORDS = 2**20  # that a proof may count
MOST_LAYER = 63
ALL_LAYERS = 2**64 - 1  # their mask
MOST_RADIUS = 2 * (2**32 - 1) ** 2  # the greatest squared distance
MOST_LINES = 65536  # of a script
EVERYTHING = 2**32 - 1  # half a side of a square round a point that has all other points in it
PREIMAGE = {1: 67, 2: 75}  # bytes of the preimage of the root of a map with records, by the version
PIECE = 65536  # bytes that are read at once
COMMAND = "mrtree_check.py [--most BYTES]"
# What a run mostly means that did not end with 0, by how its line begins; of several the first one that fits.
MEANINGS = {
    "refused frame BadMagic": "the file is no proof of a join, or none of an atlas where that is asked for",
    "refused frame BadVersion": "the proof is of an unknown version",
    "refused frame WrongKind": "the proof is for another query, or of a count and not of an answer, or vice versa",
    "refused frame WrongRadius": "the proof is for another query",
    "refused frame Trailing": "there is more in the file than a proof",
    "refused index WrongRoot": "the proof is of another atlas, or of another state of it than ROOT; or it was changed",
    "refused index Missing": "the proof was cut off",
    "refused index": "the proof is for another query, or the server held something back",
    "refused sheet": "a sheet was held back, or is of another state; or the proof was cut off, or is for another query",
    "refused entry": "a record of the index tells of no sheet: the publisher erred, or ROOT is that of a map",
    "refused number": "two records have one number: the publisher erred",
    "refused frame BadFlag": "the file is no proof of a join",
    "refused frame BadRect": "the file is no proof of a join",
    "refused frame Short": "the proof was cut off, or is no proof of a join, or of an atlas where that is asked for",
    "refused frame": "the proof is of another second map",
    "refused first WrongRoot": "the proof is of another first map, or of another state of it",
    "refused second WrongRoot": "the proof is of another second map, or of another state of it",
    "refused WrongRoot": "the proof is of another map, or of another state of it than ROOT is; or it was changed",
    "refused WrongKind": "the proof is for another query, or of a count and not of an answer, or the other way round",
    "refused Hidden": "the proof is for another query, or holds back a part of what was asked for",
    "refused Needless": "the proof is for another query",
    "refused WrongRadius": "the proof is for another query",
    "refused BadMagic": "the file is no proof of an answer, nor of a count",
    "refused BadVersion": "the proof is of an unknown version, or of version 1, which has none for layers and for counts",
    "refused Short": "the proof was cut off",
    "refused Trailing": "there is more in the file than a proof",
    "refused": "what the server gave was not taken: it is not right and whole",
    "missing query": "the bundle ends before it",
    "bundle broken": "the bundle was cut off, or has more in it than a proof for each query",
    "bad text": "that line of the script is no query, or has no line feed behind it",
    "missing": "there is no such file, or no such folder on the way to it",
    "shelf fault": "it is a folder or a device, or may not be read",
    "longer than": "--most allows no more bytes",
}


class Record(NamedTuple):
    """A record: its number, its rectangle in map units, its payload of 0 to 200 bytes, its layer, 0 in version 1."""

    number: int
    rect: Rect
    payload: bytes
    layer: int = 0

    def line(self, version: int = 1) -> str:
        """The record line of a version, without its line feed.

        >>> Record(7, (1, 2, 3, 4), b"ab").line(), Record(7, (1, 2, 3, 4), b"", 5).line(2)
        ('7 1 2 3 4 6162', '7 1 2 3 4 5 -')
        """
        layer = (self.layer,) if version == 2 else ()
        return " ".join(map(str, (self.number, *self.rect, *layer, self.payload.hex() or "-")))


class Answer(NamedTuple):
    """What an accepted proof shows: the records of the answer; of the map the batch and the count; the proof's version.

    Of a window the records are in rising number, of nearest records by rising squared distance and then number.
    """

    records: List[Record]
    batch: int
    count: int
    version: int = 1

    def lines(self) -> List[str]:
        """The record lines, those of the proof's version."""
        return [record.line(self.version) for record in self.records]


class Count(NamedTuple):
    """What an accepted count proof shows: how many records lie inside the window; of the map the batch and the count.

    A record lies inside where its rectangle lies in the window, sides included, and its layer is asked for.
    """

    inside: int
    batch: int
    count: int


class State(NamedTuple):
    """What an accepted join proof says of a map: its batch and its count of records."""

    batch: int
    count: int


class Join(NamedTuple):
    """What an accepted join proof shows: all pairs of numbers of records that meet, in rising order; and of both maps.

    Nothing is said of the first map (None) where the second one has no records.
    """

    pairs: List[Pair]
    first: Optional[State]
    second: State


class Query(NamedTuple):
    """A window (then k is 0); or the k nearest records to a point, a rectangle without extent. A mask, if it names one.

    A query that names a mask asks for the records on its layers, and one that names none for those on all layers.
    """

    rect: Rect
    k: int
    mask: Optional[int] = None


class Refused(Exception):
    """A proof is refused: its first broken rule, the place of that fault in bytes, of WrongRoot the digest found.

    Of a join proof `part` says in what the fault is: `frame`, or `first` or `second`, in which places count from there.
    Of an atlas proof that is `frame`, `index` or `sheet N`; or `entry N` or `number N`, and then there is no place.
    """

    def __init__(self, rule: str, place: Optional[int], found: bytes = b"", part: str = "") -> None:
        super().__init__(rule, place, found, part)
        self.rule, self.place, self.found, self.part = rule, place, found, part

    def __str__(self) -> str:
        place = "" if self.place is None else " at %d" % self.place
        found = " found " + self.found.hex() if self.found else ""
        return "refused %s%s%s%s" % (self.part and self.part + " ", self.rule, place, found)

    def meaning(self) -> str:
        """What it mostly is."""
        return meaning_of(str(self))


class Ended(Exception):
    """A run ends before it has an answer, with this exit status and this line."""

    def __init__(self, status: int, line: str) -> None:
        super().__init__(status, line)
        self.status, self.line = status, line


def meaning_of(text: str) -> str:
    """What a run mostly means that printed this text and did not end with 0; nothing where that is not known.

    >>> meaning_of("refused Needless at 161"), meaning_of("query 1 ok 0\\nquery 2 refused Short at 9\\n")
    ('the proof is for another query', 'query 2: the proof was cut off')
    """
    front = ""
    for line in text.split("\n"):
        part = re.match("(query [0-9]+) (refused .*|missing)", line)
        if part or line.startswith("bundle broken"):
            front, text = (part[1] + ": ", part[2]) if part else ("", line)
            break
    text = "missing query" if text == "missing" else text
    return next((front + words for begins, words in MEANINGS.items() if text.startswith(begins)), "")


def digest(preimage: bytes) -> bytes:
    """The digest of a preimage: SHA-256, 32 bytes."""
    return hashlib.sha256(preimage).digest()


# ---- rectangles


def meet(a: Rect, b: Rect) -> bool:
    """Whether two rectangles share a point.

    >>> meet((0, 0, 2, 2), (2, 2, 3, 3)), meet((0, 0, 2, 2), (0, 3, 2, 3))
    (True, False)
    """
    return a[0] <= b[2] and b[0] <= a[2] and a[1] <= b[3] and b[1] <= a[3]


def distance(point: Rect, rect: Rect) -> int:
    """The squared distance of a point to a rectangle, in squared map units: up to 65 bits.

    >>> distance((0, 0, 0, 0), (3, -9, 5, -4)), distance((1, 1, 1, 1), (0, 0, 2, 2))
    (25, 0)
    """
    dx = max(rect[0] - point[0], point[0] - rect[2], 0)
    dy = max(rect[1] - point[1], point[1] - rect[3], 0)
    return dx * dx + dy * dy


def region(query: Query, radius: Optional[int]) -> Callable[[Rect], bool]:
    """Which rectangles the region of a proof meets: the window's; the circle's; without a squared radius all."""
    if query.k == 0:
        return lambda rect: meet(query.rect, rect)
    if radius is None:
        return lambda rect: True
    return lambda rect: distance(query.rect, rect) <= radius


def layers(query: Query) -> int:
    """The mask of the layers that a query asks for."""
    return ALL_LAYERS if query.mask is None else query.mask


def reach(query: Query, radius: Optional[int]) -> Ways:
    """The ways of a query: open is what is in reach, where the region meets the rectangle and a layer is asked for.

    >>> way = reach(Query((0, 0, 9, 9), 0, 0b110), None)
    >>> way((9, 9, 9, 9), 0b010), way((9, 9, 9, 9), 0b001), way((8, 10, 9, 10), 0b010)
    ('open', 'skip', 'skip')
    """
    meets, asked = region(query, radius), layers(query)
    return lambda rect, mask: OPEN if mask & asked != 0 and meets(rect) else SKIP


def inside(query: Query) -> Ways:
    """The ways of a count: whole is what lies in the window, on layers that are asked for alone.

    >>> way = inside(Query((0, 0, 9, 9), 0, 0b110))
    >>> way((0, 0, 9, 9), 0b010), way((0, 0, 9, 10), 0b010), way((0, 0, 9, 9), 0b011), way((0, 10, 9, 10), 0b010)
    ('whole', 'open', 'open', 'skip')
    """
    (x0, y0, x1, y1), asked = query.rect, layers(query)

    def way(rect: Rect, mask: int) -> str:
        """The way of a part."""
        if mask & asked == 0 or not meet(query.rect, rect):
            return SKIP
        is_in = x0 <= rect[0] and y0 <= rect[1] and rect[2] <= x1 and rect[3] <= y1
        return WHOLE if is_in and mask & ~asked == 0 else OPEN

    return way


# ---- fields of a proof


class Fields:
    """The fields of a proof, one after another, from its pieces. `last` is the place of the last field taken."""

    def __init__(self, pieces: Pieces) -> None:
        self.pieces, self.held, self.at, self.place, self.last = iter(pieces), b"", 0, 0, 0

    def take(self, size: int) -> bytes:
        """The next field, of `size` bytes. Raises Refused (Long, Short) where it is not there whole.

        >>> fields = Fields([b"ab", b"cde"])
        >>> fields.take(3), fields.place, fields.last
        (b'abc', 3, 0)
        """
        if self.place + size > MOST_BYTES:
            raise Refused("Long", self.place)
        while len(self.held) - self.at < size:
            piece = next(self.pieces, None)
            if piece is None:
                raise Refused("Short", self.place)
            self.held, self.at = self.held[self.at :] + piece, 0
        self.at, self.last, self.place = self.at + size, self.place, self.place + size
        return self.held[self.at - size : self.at]

    def number(self, size: int) -> int:
        """The next field, a number from 0 of `size` bytes. Raises as `take`."""
        return int.from_bytes(self.take(size), "big")

    def rect(self) -> Rect:
        """The next field, a rectangle. Raises Refused (BadRect) where its sides are out of order, or as `take`."""
        rect = struct.unpack(">4i", self.take(16))
        if rect[0] > rect[2] or rect[1] > rect[3]:
            raise Refused("BadRect", self.last)
        return rect

    def end(self) -> None:
        """Raises Refused (Trailing) where bytes are left."""
        if self.at < len(self.held) or any(self.pieces):
            raise Refused("Trailing", self.place)


class Head(NamedTuple):
    """What a proof says in front: its version, the map's batch and count, the squared radius, the root's level."""

    version: int
    batch: int
    count: int
    radius: Optional[int]
    level: int


class Kind(NamedTuple):
    """What the head of a proof has to be: its kind, and the versions that it may have."""

    letter: bytes
    versions: Tuple[int, ...]


COUNTS = Kind(b"C", (2,))
JOINS = Kind(b"J", (2,))


def kind_of(query: Query) -> Kind:
    """The kind of the proofs of a query's answer."""
    return Kind(b"K" if query.k else b"W", (1, 2) if query.mask is None else (2,))


def read_head(fields: Fields, kind: Kind) -> Head:
    """The head of a proof of this kind. Raises Refused at its first fault."""
    if fields.take(4) != b"MRVO":
        raise Refused("BadMagic", fields.last)
    version = fields.number(1)
    if version not in kind.versions:
        raise Refused("BadVersion", fields.last)
    if fields.take(1) != kind.letter:
        raise Refused("WrongKind", fields.last)
    batch, count = fields.number(8), fields.number(8)
    if count > MOST_RECORDS:
        raise Refused("BadCount", fields.last)
    flag = fields.number(1) if kind.letter == b"K" else 0
    if flag > 1:
        raise Refused("BadFlag", fields.last)
    radius = fields.number(16) if flag else None
    if radius is not None and radius > MOST_RADIUS:
        raise Refused("BadRadius", fields.last)
    level = fields.number(1) if count else 0
    if level > 7:
        raise Refused("BadLevel", fields.last)
    return Head(version, batch, count, radius, level)


def read_record(fields: Fields, version: int) -> Record:
    """The next fields, a record. Raises Refused (BadRect, BadLayer, BadLength, Long, Short)."""
    number, rect = fields.number(8), fields.rect()
    layer = fields.number(1) if version == 2 else 0
    if layer > MOST_LAYER:
        raise Refused("BadLayer", fields.last)
    length = fields.number(1)
    if length > 200:
        raise Refused("BadLength", fields.last)
    return Record(number, rect, fields.take(length) if length else b"", layer)


def record_bytes(record: Record, version: int = 1) -> bytes:
    """The bytes of a record: 25 in version 1 and 26 in version 2, and its payload."""
    layer = bytes([record.layer]) if version == 2 else b""
    return struct.pack(">Q4i", record.number, *record.rect) + layer + bytes([len(record.payload)]) + record.payload


class Part(NamedTuple):
    """What an item shows of a node; in version 1, which says neither, its mask is of all layers and its count is 0."""

    rect: Rect
    mask: int
    count: int
    digest: bytes

    def told(self, version: int) -> bytes:
        """What preimages have of rectangle and mask."""
        return struct.pack(">4i", *self.rect) + (struct.pack(">Q", self.mask) if version == 2 else b"")

    def entry(self, version: int) -> bytes:
        """What the preimage of the node above has of it."""
        return self.told(version) + (struct.pack(">Q", self.count) if version == 2 else b"") + self.digest


def seen(record: Record, version: int) -> Part:
    """What is seen of a shown record, which has no digest of its own."""
    return Part(record.rect, 1 << record.layer, 1, b"") if version == 2 else Part(record.rect, ALL_LAYERS, 0, b"")


def over(parts: List[Part], digest: bytes) -> Part:
    """What is seen of a node that holds these parts."""
    x0, y0, x1, y1 = zip(*(part.rect for part in parts))
    mask, count = 0, 0
    for part in parts:
        mask, count = mask | part.mask, count + part.count
    return Part((min(x0), min(y0), max(x1), max(y1)), mask, count, digest)


class Reading:
    """The items of one proof: what they show. `records` are those shown whose way is open.

    `whole` is the number of records whose way is whole, those below pruned nodes too.
    """

    def __init__(self, fields: Fields, version: int, way: Ways, watch: Optional[Watch]) -> None:
        self.fields, self.version, self.way, self.watch = fields, version, way, watch
        self.records: List[Record] = []
        self.whole = 0

    def item(self, level: int) -> Part:
        """The next item, of a node on this level: what is seen of it. Raises Refused at its first fault."""
        tag = self.fields.take(1)
        if tag == b"P":
            return self.pruned(level)
        if tag != (b"N" if level else b"L"):
            raise Refused("BadTag", self.fields.last)
        count = self.fields.number(1)
        if not 1 <= count <= (64 if level else 16):
            raise Refused("BadEntries", self.fields.last)
        shown: List[Record] = []
        if level:
            parts = [self.item(level - 1) for _ in range(count)]
            preimage = bytes([ord("N"), level, count]) + b"".join(part.entry(self.version) for part in parts)
        else:
            shown = [read_record(self.fields, self.version) for _ in range(count)]
            parts = [seen(record, self.version) for record in shown]
            preimage = bytes([ord("L"), count]) + b"".join(record_bytes(record, self.version) for record in shown)
        part = over(parts, digest(preimage))
        if self.way(part.rect, part.mask) != OPEN:
            raise Refused("Needless", self.fields.last)
        for record, one in zip(shown, parts):
            self.keep(record, self.way(one.rect, one.mask))
        self.see(tag, level, part.rect, shown)
        return part

    def pruned(self, level: int) -> Part:
        """The rest of a pruned item: what it carries. Raises Refused (BadRect, Hidden, BadCount, Long, Short)."""
        rect, mask, count = self.fields.rect(), ALL_LAYERS, 0
        if self.version == 2:
            mask = self.fields.number(8)
        way = self.way(rect, mask)
        if way == OPEN:
            raise Refused("Hidden", self.fields.last)
        if self.version == 2:
            count = self.fields.number(8)
            if not 1 <= count <= MOST_RECORDS:
                raise Refused("BadCount", self.fields.last)
        part = Part(rect, mask, count, self.fields.take(32))
        self.whole += count if way == WHOLE else 0
        self.see(b"W" if way == WHOLE else b"P", level, rect, [])
        return part

    def keep(self, record: Record, way: str) -> None:
        """Keeps and counts a shown record, as its way says."""
        if way == OPEN:
            self.records.append(record)
        self.whole += 1 if way == WHOLE else 0

    def see(self, tag: bytes, level: int, rect: Rect, shown: List[Record]) -> None:
        """Tells who watches that an item was read whole: its tag, level and rectangle, a leaf's records."""
        if self.watch:
            self.watch(tag.decode(), level, rect, shown)


# ---- the verdict


def root_digest(head: Head, part: Optional[Part]) -> bytes:
    """The root digest of the map that a proof speaks of; of one without records there is no part.

    >>> root_digest(Head(1, 0, 0, None, 0), None).hex()[:16], root_digest(Head(2, 0, 0, None, 0), None).hex()[:16]
    ('3192817fd1840eb7', '10896f7117fa69b8')
    """
    if part is None:
        return digest(struct.pack(">sBQ", b"E", head.version, head.batch))
    front = struct.pack(">sBQQB", b"R", head.version, head.batch, head.count, head.level)
    return digest(front + part.told(head.version) + part.digest)


class Shown(NamedTuple):
    """What a proof shows whose fields are right and whose root digest is the one held, and how many bytes it has."""

    head: Head
    part: Optional[Part]
    reading: Reading
    place: int


def read_proof(
    root: bytes, kind: Kind, way: Callable[[Optional[int]], Ways], proof: Pieces, watch: Optional[Watch]
) -> Shown:
    """What a proof of this kind shows, with the ways that its squared radius gives. Raises Refused up to WrongRoot."""
    fields = Fields(proof)
    head = read_head(fields, kind)
    reading = Reading(fields, head.version, way(head.radius), watch)
    part = reading.item(head.level) if head.count else None
    found = root_digest(head, part)
    fields.end()
    if found != root:
        raise Refused("WrongRoot", fields.place, found)
    return Shown(head, part, reading, fields.place)


def refuse_other_tally(shown: Shown) -> None:
    """Raises Refused (WrongTally) where the count in front is not that of the items; in version 1 nothing says it."""
    head, part = shown.head, shown.part
    if head.version == 2 and part is not None and part.count != head.count:
        raise Refused("WrongTally", shown.place)


def judge(root: bytes, query: Query, proof: Pieces, watch: Optional[Watch] = None) -> Answer:
    """The answer that a proof proves. Raises Refused with the proof's first fault; no piece behind it is taken."""
    shown = read_proof(root, kind_of(query), lambda radius: reach(query, radius), proof, watch)
    head, records = shown.head, shown.reading.records
    if query.k and not is_radius_right(query, head.radius, records):
        raise Refused("WrongRadius", shown.place)
    refuse_other_tally(shown)
    return Answer(ordered(query, records), head.batch, head.count, head.version)


def judge_count(root: bytes, query: Query, proof: Pieces, watch: Optional[Watch] = None) -> Count:
    """The count inside a window that a count proof proves. Raises as `judge`."""
    shown = read_proof(root, COUNTS, lambda _: inside(query), proof, watch)
    refuse_other_tally(shown)
    return Count(shown.reading.whole, shown.head.batch, shown.head.count)


def is_radius_right(query: Query, radius: Optional[int], records: List[Record]) -> bool:
    """Whether the squared radius of a proof, or that it has none, is right for the records that are in reach."""
    nearer = [record for record in records if radius is None or distance(query.rect, record.rect) < radius]
    return len(nearer) < query.k and (radius is None or len(records) >= query.k)


def ordered(query: Query, records: List[Record]) -> List[Record]:
    """The answer: of the records that are in reach those that are asked for, in its order."""
    if query.k == 0:
        return sorted(records, key=lambda record: record.number)
    return sorted(records, key=lambda record: (distance(query.rect, record.rect), record.number))[: query.k]


def only_bytes(given: Union[Bytes, Pieces], what: str) -> Pieces:
    """What is given, as pieces of bytes. Raises TypeError where it is no such, at once or when that piece is taken."""
    if isinstance(given, (bytes, bytearray, memoryview)):
        return iter([bytes(given)])
    if isinstance(given, str) or not hasattr(given, "__iter__"):
        raise TypeError("%s is bytes or pieces of bytes, and this is %s" % (what, type(given).__name__))
    return map(lambda piece: one_piece(piece, what), given)


def one_piece(piece: bytes, what: str) -> bytes:
    """A piece of bytes. Raises TypeError where it is none."""
    if not isinstance(piece, (bytes, bytearray, memoryview)):
        raise TypeError("a piece of %s is bytes, and this is %s" % (what, type(piece).__name__))
    return bytes(piece)


def refuse_other_words(*words: str) -> None:
    """Raises TypeError where something is no text."""
    for word in words:
        if not isinstance(word, str):
            raise TypeError("a root and a query are words, so text, and this is %s" % type(word).__name__)


def check(root: str, query: str, proof: Union[Bytes, Pieces], watch: Optional[Watch] = None) -> Answer:
    """The answer to a query word on the map with a root digest, as a proof shows it.

    `root` is 64 lower-case hexadecimal digits, `proof` is bytes or pieces of bytes. Raises Refused where the proof is
    refused, ValueError where root or query is no such word, and TypeError where something is no text or no bytes.

    >>> proof = bytes.fromhex("4d52564f01570000000000000000000000000000000100" "4c01"
    ...     "00000000000000010000000200000003000000040000000500")
    >>> root = "c6de89b68a6b5fd22d3e6042a5ef2f0bfbb8bec15b7d8801400b012791166514"
    >>> check(root, "window:0,0,9,9", proof)
    Answer(records=[Record(number=1, rect=(2, 3, 4, 5), payload=b'', layer=0)], batch=0, count=1, version=1)
    >>> check(root, "window:0,0,1,1", [proof[:30], proof[30:]])
    Traceback (most recent call last):
    mrtree_check.Refused: refused Needless at 49
    """
    refuse_other_words(root, query)
    return judge(read_root(root), read_query(query), only_bytes(proof, "a proof"), watch)


def check_count(root: str, query: str, proof: Union[Bytes, Pieces], watch: Optional[Watch] = None) -> Count:
    """How many records of the map with a root digest lie inside the window of a query word, as a count proof shows it.

    Raises as `check`, and ValueError too where the query is no window.

    >>> part = "50" "00000002000000030000000400000005" "0000000000000040" "0000000000000001"
    >>> digest = "9a5d8c0290e5235be719e0f81098b35fabaafbad2433280f4eba151a1113bc17"
    >>> proof = bytes.fromhex("4d52564f0243" "0000000000000000" "0000000000000001" "00" + part + digest)
    >>> root = "8be0518a61cba994ea224279049f000424a42959da3af83d7ee0d904ca6f0192"
    >>> check_count(root, "window:0,0,9,9", proof), check_count(root, "window:0,0,1,1", proof).inside
    (Count(inside=1, batch=0, count=1), 0)
    >>> check_count(root, "window:0,0,4,4", proof)
    Traceback (most recent call last):
    mrtree_check.Refused: refused Hidden at 40
    """
    refuse_other_words(root, query)
    return judge_count(read_root(root), read_window(query), only_bytes(proof, "a proof"), watch)


def check_join(root: str, root2: str, proof: Union[Bytes, Pieces]) -> Join:
    """Which records of two maps, by their root digests, meet, as a join proof shows it.

    Raises as `check`; of `Refused` the part says in what the fault is.

    >>> part = "4d52564f024a" "0000000000000000" "0000000000000001" "00" "4c01" "%016x" "%032x" "00" "00"
    >>> frame = bytes.fromhex("4d524a4e01" "00000000000000000000000100000001" "00000033")
    >>> first, second = bytes.fromhex(part % (7, 0)), bytes.fromhex(part % (9, 2**32 + 1))
    >>> root = "aa17a0a3d81136d8e8993b421c14507454da6354d55f9b1abbc4104af9ebab34"
    >>> root2 = "de9972e981495e9f2a740138ca5caaf8f0fd1bb232bc96f7c6635ff3b7079f5b"
    >>> check_join(root, root2, frame + first + second)
    Join(pairs=[(7, 9)], first=State(batch=0, count=1), second=State(batch=0, count=1))
    >>> check_join(root, root2, frame + first)
    Traceback (most recent call last):
    mrtree_check.Refused: refused second Short at 0
    """
    refuse_other_words(root, root2)
    return judge_join(read_root(root), read_root(root2), only_bytes(proof, "a proof"))


# ---- words and scripts


def read_decimal(word: str, least: int, most: int) -> int:
    """The value of a canonical decimal. Raises ValueError where it is none, or not from `least` to `most`.

    >>> read_decimal("-5", -9, 9)
    -5
    >>> read_decimal("05", 0, 9)
    Traceback (most recent call last):
    ValueError: 05
    """
    if not re.fullmatch("0|-?[1-9][0-9]{0,19}", word) or not least <= int(word) <= most:
        raise ValueError(word)
    return int(word)


def read_root(word: str) -> bytes:
    """The root digest that 64 lower-case hexadecimal digits spell. Raises ValueError, with what is wrong."""
    if not re.fullmatch("[0-9a-f]{64}", word):
        raise ValueError("the root digest is not 64 lower-case hexadecimal digits")
    return bytes.fromhex(word)


def read_query(word: str) -> Query:
    """The query that a word spells. Raises ValueError, with what is wrong, where it spells none.

    >>> read_query("window:0,0,9,9"), read_query("nearest:5,-5,2/0000000000000021")
    (Query(rect=(0, 0, 9, 9), k=0, mask=None), Query(rect=(5, -5, 5, -5), k=2, mask=33))
    """
    shape, slash, digits = word.partition("/")
    kind, _, rest = shape.partition(":")
    parts = rest.split(",")
    if (kind, len(parts)) not in (("window", 4), ("nearest", 3)):
        raise ValueError("the query is neither window:x0,y0,x1,y1 nor nearest:x,y,k")
    try:
        k = read_decimal(parts.pop(), 1, 1024) if kind == "nearest" else 0
        x0, y0, x1, y1 = [read_decimal(part, -(2**31), 2**31 - 1) for part in (parts * 2)[:4]]
    except ValueError:
        ranges = "coordinates from -2147483648 to 2147483647, k from 1 to 1024"
        raise ValueError("the query has to have whole numbers of map units: " + ranges) from None
    if x0 > x1 or y0 > y1:
        raise ValueError("the sides of the window are out of order: x0 is at most x1, and y0 at most y1")
    if slash and not re.fullmatch("[0-9a-f]{16}", digits):
        raise ValueError("the mask behind / is not 16 lower-case hexadecimal digits")
    return Query((x0, y0, x1, y1), k, int(digits, 16) if slash else None)


def read_window(word: str) -> Query:
    """The query that a word spells, a window. Raises ValueError, with what is wrong, where it spells none."""
    query = read_query(word)
    if query.k:
        raise ValueError("a count is of the records inside a window, and this query is for nearest records")
    return query


def read_script(text: bytes) -> List[Query]:
    """The queries of a script, a line each. Raises Ended (bad text) at its first fault.

    >>> [query.k for query in read_script(b"window:0,0,1,1\\nnearest:0,0,3\\n")]
    [0, 3]
    """
    lines = text.split(b"\n", MOST_LINES + 1)
    unended = len(lines) if lines[-1] else 0
    queries = []
    for number, line in enumerate(lines if unended else lines[:-1], 1):
        try:
            if number > MOST_LINES or number == unended:
                raise ValueError
            queries.append(read_query(line.decode("ascii")))
        except ValueError:
            rule = "TooMany" if number > MOST_LINES else "NoEnd" if number == unended else "Query"
            raise Ended(3, "bad text line %d %s" % (number, rule)) from None
    return queries


# ---- bundles


class Slice:
    """The next bytes of a bundle: `left` of them are still to come. It gives them out in pieces, once."""

    def __init__(self, bundle: Fields, size: int) -> None:
        self.bundle, self.left = bundle, size

    def __iter__(self) -> Iterator[bytes]:
        return self

    def __next__(self) -> bytes:
        bundle = self.bundle
        if bundle.at == len(bundle.held):
            bundle.held, bundle.at = next(filter(None, bundle.pieces), b""), 0
        piece = bundle.held[bundle.at : bundle.at + self.left]
        if not piece:
            raise StopIteration
        bundle.at, bundle.place, self.left = bundle.at + len(piece), bundle.place + len(piece), self.left - len(piece)
        return piece


class Verdict(NamedTuple):
    """What comes of one query of a script: its answer, or why it is refused; neither where its part is missing."""

    answer: Optional[Answer]
    refused: Optional[Refused]


MISSING = Verdict(None, None)


def judge_whole(part: Slice, judged: Callable[[Slice], T]) -> Union[T, Refused, None]:
    """What is judged of a part, or its fault; None where it is not whole. It takes all bytes of the part."""
    found: Union[T, Refused]
    try:
        found = judged(part)
    except Refused as fault:
        found = fault
    for _ in part:
        pass
    return None if part.left else found


def judge_part(root: bytes, query: Query, part: Slice) -> Verdict:
    """The verdict of a part of a bundle."""
    found = judge_whole(part, lambda pieces: judge(root, query, pieces))
    if found is None:
        return MISSING
    return Verdict(None, found) if isinstance(found, Refused) else Verdict(found, None)


def judge_bundle(root: bytes, queries: List[Query], pieces: Pieces) -> Tuple[List[Verdict], Optional[int]]:
    """The verdict of each query of a script, in order, and the place in bytes where the bundle is broken, if it is.

    >>> verdicts, broken = judge_bundle(bytes(32), [read_query("window:0,0,1,1")] * 2, [bytes([0, 0, 0, 1, 77, 0])])
    >>> [str(verdict.refused) for verdict in verdicts], broken
    (['refused Short at 0', 'None'], 5)
    """
    bundle = Fields(pieces)
    verdicts: List[Verdict] = []
    for query in queries:
        start = bundle.place
        front = b"".join(Slice(bundle, 4))
        size = int.from_bytes(front, "big")
        verdict = judge_part(root, query, Slice(bundle, size)) if len(front) == 4 else MISSING
        if verdict == MISSING:
            return verdicts + [MISSING] * (len(queries) - len(verdicts)), start
        verdicts.append(verdict)
    end = bundle.place
    return verdicts, end if any(Slice(bundle, 1)) else None


def check_all(root: str, queries: List[str], bundle: Union[Bytes, Pieces]) -> List[Verdict]:
    """The verdict of each of some query words, in order, on their parts of a bundle. Raises as `check` of the words.

    A part that is not there has a verdict with neither an answer nor a fault. Bytes behind the last part are not told.
    """
    if isinstance(queries, str) or not hasattr(queries, "__iter__"):
        raise TypeError("the queries are a list of words, and this is %s" % type(queries).__name__)
    words = list(queries)
    refuse_other_words(root, *words)
    pieces = only_bytes(bundle, "a bundle")
    return judge_bundle(read_root(root), [read_query(word) for word in words], pieces)[0]


# ---- which rectangles meet


class Corners:
    """Points, kept so that to count those that lie low and to the left takes few steps, whatever they are.

    They stand from left to right. Level k has their heights in blocks of 2^k, each block in rising order.
    """

    def __init__(self, points: Iterable[Tuple[int, int]]) -> None:
        ordered = sorted(points)
        self.xs = array("i", [x for x, _ in ordered])
        self.levels = [array("i", [y for _, y in ordered])]
        while 2 ** len(self.levels) <= len(ordered):
            size, below, level = 2 ** len(self.levels), self.levels[-1], array("i")
            for at in range(0, len(below), size):
                level.extend(sorted(below[at : at + size]))
            self.levels.append(level)

    def count(self, x: int, y: int) -> int:
        """How many lie at most so far to the right and so high."""
        left, start, total = bisect_right(self.xs, x), 0, 0
        for power in reversed(range(len(self.levels))):
            end = start + 2**power
            if left & 2**power:
                total += bisect_right(self.levels[power], y, start, end) - start
                start = end
        return total


class Meets:
    """Rectangles, kept so that whether one of them meets a rectangle is told in few steps, whatever they are.

    Along one axis a rectangle meets as many as begin at its end or before, less those that end before it begins. So
    along both axes four counts of corners tell how many it meets.
    """

    def __init__(self, rects: List[Rect]) -> None:
        self.lower_left, self.upper_left = (Corners((rect[0], rect[at]) for rect in rects) for at in (1, 3))
        self.lower_right, self.upper_right = (Corners((rect[2], rect[at]) for rect in rects) for at in (1, 3))

    def one(self, rect: Rect) -> bool:
        """Whether one of them meets this one.

        >>> meets = Meets([(0, 0, 2, 2), (5, 0, 5, 9)])
        >>> [meets.one(rect) for rect in ((2, 2, 3, 3), (3, 0, 4, 9), (3, 9, 7, 12), (0, 3, 4, 8))]
        [True, False, True, False]
        """
        x0, y0, x1, y1 = rect
        begun = self.lower_left.count(x1, y1) + self.upper_right.count(x0 - 1, y0 - 1)
        ended = self.upper_left.count(x1, y0 - 1) + self.lower_right.count(x0 - 1, y1)
        return ended < begun


def pairs_of(ones: List[Record], others: List[Record]) -> List[Pair]:
    """The numbers of each two records that meet, one of each list, in rising order.

    >>> records = [Record(number, (number, 0, number + 1, 0), b"") for number in (3, 1, 5)]
    >>> pairs_of(records, records[:2])
    [(1, 1), (3, 3)]
    >>> others = [Record(8, (4, -1, 4, 1), b""), Record(7, (0, 0, 9, 0), b""), Record(9, (3, 1, 3, 1), b"")]
    >>> pairs_of(records[:1], others), pairs_of(others, [])
    ([(3, 7), (3, 8)], [])
    """
    pairs = begun_within(ones, others, 0)
    return sorted(pairs + [(one, other) for other, one in begun_within(others, ones, 1)])


def begun_within(spans: List[Record], starts: List[Record], after: int) -> List[Pair]:
    """The numbers of each two that meet, of which the second begins, from left to right, within the first.

    That is at the first one's left side or behind it, or `after` behind it. The seconds are halved from left to right;
    a first that reaches over all of a half meets those that it meets along y. That takes about n log n steps, whatever
    the records, and the pairs.
    """
    pairs: List[Pair] = []
    ranges = [(by_y(spans), by_y(starts), sorted({start.rect[0] for start in starts}))]
    while ranges:
        spans, starts, lefts = ranges.pop()
        some = [span for span in spans if lefts and span.rect[0] + after <= lefts[-1] and lefts[0] <= span.rect[2]]
        over_all = [span for span in some if span.rect[0] + after <= lefts[0] and lefts[-1] <= span.rect[2]]
        pairs += met_along_y(over_all, starts)
        if len(over_all) < len(some):
            half = len(lefts) // 2
            rest = [span for span in some if span.rect[0] + after > lefts[0] or lefts[-1] > span.rect[2]]
            ranges.append((rest, [start for start in starts if start.rect[0] < lefts[half]], lefts[:half]))
            ranges.append((rest, [start for start in starts if start.rect[0] >= lefts[half]], lefts[half:]))
    return pairs


def by_y(records: List[Record]) -> List[Record]:
    """The records in rising order of their lower sides."""
    return sorted(records, key=lambda record: record.rect[1])


def met_along_y(ones: List[Record], others: List[Record]) -> List[Pair]:
    """The numbers of each two that meet along y, of lists in rising order of their lower sides."""
    pairs: List[Pair] = []
    lows = [other.rect[1] for other in others]
    for one in ones:
        met = others[bisect_left(lows, one.rect[1]) : bisect_right(lows, one.rect[3])]
        pairs += [(one.number, other.number) for other in met]
    lows = [one.rect[1] for one in ones]
    for other in others if ones else []:
        met = ones[bisect_right(lows, other.rect[1]) : bisect_right(lows, other.rect[3])]
        pairs += [(one.number, other.number) for one in met]
    return pairs


# ---- joins


REST = 2**64  # more bytes than there are


class Frame(NamedTuple):
    """What the frame of a join proof says: the second map's rectangle, if it has one, and the first part's length."""

    rect: Optional[Rect]
    size: int


def read_frame(fields: Fields) -> Frame:
    """The fields in front of the first part. Raises Refused (BadMagic, BadFlag, BadRect, Short)."""
    if fields.take(4) != b"MRJN":
        raise Refused("BadMagic", fields.last)
    flag = fields.number(1)
    if flag > 1:
        raise Refused("BadFlag", fields.last)
    return Frame(fields.rect(), fields.number(4)) if flag else Frame(None, 0)


def in_part(name: str, fault: Refused) -> Refused:
    """This fault, of a part of a join proof or an atlas proof."""
    return Refused(fault.rule, fault.place, fault.found, name)


def show(root: bytes, meets: Callable[[Rect], bool], proof: Pieces) -> Shown:
    """What a part shows of the map with this root digest: open is what meets. Raises Refused at its first fault."""
    ways: Ways = lambda rect, mask: OPEN if meets(rect) else SKIP
    shown = read_proof(root, JOINS, lambda _: ways, proof, None)
    refuse_other_tally(shown)
    return shown


def show_first(root: bytes, rect: Rect, part: Slice) -> Shown:
    """What the first part shows, for the frame's rectangle. Raises Refused, with the part's name.

    That the part is not there as a whole is a fault of the frame, and comes before those of the part.
    """
    place = part.bundle.place
    shown = judge_whole(part, lambda pieces: show(root, lambda other: meet(rect, other), pieces))
    if shown is None:
        raise Refused("Short", place, part="frame")
    if isinstance(shown, Refused):
        raise in_part("first", shown)
    return shown


def show_second(root: bytes, records: List[Record], part: Slice) -> Shown:
    """What the second part shows, for the rectangles of these records. Raises Refused, with the part's name."""
    try:
        return show(root, Meets([record.rect for record in records]).one, part)
    except Refused as fault:
        raise in_part("second", fault) from None


def judge_join(root: bytes, root2: bytes, proof: Pieces) -> Join:
    """The pairs that a join proof proves. Raises Refused with its first fault; no piece behind it is taken.

    Behind a fault of the first part its bytes are taken, since it has to be there as a whole.
    """
    fields = Fields(proof)
    try:
        rect, size = read_frame(fields)
    except Refused as fault:
        raise in_part("frame", fault) from None
    first = None if rect is None else show_first(root, rect, Slice(fields, size))
    records = [] if first is None else first.reading.records
    second = show_second(root2, records, Slice(fields, REST))
    if rect is None and second.head.count:
        raise Refused("WrongFlag", fields.place, part="frame")
    if rect is not None and (second.part is None or second.part.rect != rect):
        raise Refused("WrongRect", fields.place, part="frame")
    state = None if first is None else state_of(first)
    return Join(pairs_of(records, second.reading.records), state, state_of(second))


def state_of(shown: Shown) -> State:
    """What a part says of its map."""
    return State(shown.head.batch, shown.head.count)


# ---- atlases


class Sheet(NamedTuple):
    """A map of an atlas, as a record of the atlas's index tells of it: its number, rectangle, and so on.

    The mask of a sheet of version 1 is of all layers. The root is a digest, and the name bytes of any kind.
    """

    number: int
    rect: Rect
    version: int
    batch: int
    count: int
    level: int
    mask: int
    root: bytes
    name: bytes


class AtlasAnswer(NamedTuple):
    """What an accepted atlas proof shows: the records, each with its sheet's version; batch and sheets of the index.

    The records are in the order of an `Answer`. The sheets are those whose rectangles meet the window of the proof, in
    rising number.
    """

    records: List[Record]
    versions: List[int]
    batch: int
    sheets: List[Sheet]

    def lines(self) -> List[str]:
        """The record lines, each of its sheet's version."""
        return [record.line(version) for record, version in zip(self.records, self.versions)]


class AtlasCount(NamedTuple):
    """What an accepted atlas proof of a count shows: how many records lie inside; the rest as of AtlasAnswer."""

    inside: int
    batch: int
    sheets: List[Sheet]


def read_sheet(record: Record) -> Sheet:
    """The sheet that a record of an index tells of. Raises Refused (Form, Rect).

    >>> told = "5201" "0000000000000000" "0000000000000001" "00" "00000002000000030000000400000005"
    >>> payload = bytes.fromhex(told + "9d7194ddd9acb06e26ff45011bfa9e1d730f4895ad23dead6b04141fe581ccb3") + b"a"
    >>> sheet = read_sheet(Record(7, (2, 3, 4, 5), payload))
    >>> sheet.root.hex()[:16], sheet.count, sheet.name
    ('c6de89b68a6b5fd2', 1, b'a')
    >>> read_sheet(Record(7, (2, 3, 4, 6), payload))
    Traceback (most recent call last):
    mrtree_check.Refused: refused entry 7 Rect
    """
    told, part = record.payload, "entry %d" % record.number
    version = told[1] if told[:1] == b"R" and len(told) > 1 else 0
    size = PREIMAGE.get(version, 0)
    if not size or len(told) < size:
        raise Refused("Form", None, part=part)
    batch, count, level, *rect = struct.unpack_from(">QQB4i", told, 2)
    mask = int.from_bytes(told[35:43], "big") if version == 2 else ALL_LAYERS
    is_in_order = rect[0] <= rect[2] and rect[1] <= rect[3]
    if not (1 <= count <= MOST_RECORDS and level <= 7 and is_in_order and mask):
        raise Refused("Form", None, part=part)
    if tuple(rect) != record.rect:
        raise Refused("Rect", None, part=part)
    return Sheet(record.number, record.rect, version, batch, count, level, mask, digest(told[:size]), told[size:])


def square(point: Rect, half: int) -> Rect:
    """The points that are within half a side of this one along each axis, as far as there are coordinates.

    >>> square((5, -6, 5, -6), 2), square((0, 0, 0, 0), EVERYTHING)
    ((3, -8, 7, -4), (-2147483648, -2147483648, 2147483647, 2147483647))
    """
    low, high = -(2**31), 2**31 - 1
    return max(point[0] - half, low), max(point[1] - half, low), min(point[0] + half, high), min(point[1] + half, high)


def way_of_sheet(sheet: Sheet, query: Query, ways: Ways) -> str:
    """The way of a sheet among these of a query: its part is there where that is open.

    One of version 1 has none in which masks are told: it is open too, and then no part of it is accepted.
    """
    return OPEN if sheet.version == 1 and query.mask is not None else ways(sheet.rect, sheet.mask)


class AtlasParts:
    """The parts of an atlas proof, one after another, from its pieces: how the index and the sheets are judged.

    `half` is half a side of the square of nearest records, and 0 without such.
    """

    def __init__(self, proof: Pieces, kind: bytes) -> None:
        self.fields, self.half = Fields(proof), 0
        try:
            self.read_frame(kind)
        except Refused as fault:
            raise in_part("frame", fault) from None

    def read_frame(self, kind: bytes) -> None:
        """Reads what is in front of the parts. Raises Refused (BadMagic, BadVersion, WrongKind, Short)."""
        for size, right, rule in ((4, b"MRAT", "BadMagic"), (1, b"\1", "BadVersion"), (1, kind, "WrongKind")):
            if self.fields.take(size) != right:
                raise Refused(rule, self.fields.last)
        self.half = self.fields.number(4) if kind == b"K" else 0

    def judge(self, name: str, judged: Callable[[Slice], T]) -> T:
        """What is judged of the next part, that of this name. Raises Refused (Missing), or with the part's fault."""
        start = self.fields.place
        front = b"".join(Slice(self.fields, 4))
        part = Slice(self.fields, int.from_bytes(front, "big"))
        found = judge_whole(part, judged) if len(front) == 4 else None
        if found is None:
            raise Refused("Missing", start, part=name)
        if isinstance(found, Refused):
            raise in_part(name, found)
        return found

    def index(self, root: bytes, window: Rect) -> Tuple[int, List[Sheet]]:
        """The batch of the index with this root digest, and its sheets that meet a window. Raises Refused."""
        answer = self.judge("index", lambda part: judge(root, Query(window, 0), part))
        return answer.batch, [read_sheet(record) for record in answer.records]

    def sheet(self, sheet: Sheet, judged: Callable[[bytes, Query, Slice], T], query: Query) -> T:
        """What is judged of the next part, that of a sheet. Raises Refused."""
        return self.judge("sheet %d" % sheet.number, lambda part: judged(sheet.root, query, part))

    def end(self) -> None:
        """Raises Refused (Trailing) where bytes are left."""
        place = self.fields.place
        if any(Slice(self.fields, 1)):
            raise Refused("Trailing", place, part="frame")


def judge_atlas(root: bytes, query: Query, proof: Pieces) -> AtlasAnswer:
    """The answer that an atlas proof proves. Raises Refused with its first fault; no piece behind it is taken."""
    parts = AtlasParts(proof, kind_of(query).letter)
    window = Query(square(query.rect, parts.half) if query.k else query.rect, 0, query.mask)
    batch, sheets = parts.index(root, window.rect)
    found: List[Tuple[Record, int]] = []
    for sheet in sheets:
        if way_of_sheet(sheet, window, reach(window, None)) == OPEN:
            answer = parts.sheet(sheet, judge, window)
            found += [(record, answer.version) for record in answer.records]
    parts.end()
    found = nearest_of(query, parts.half, found) if query.k else sorted(found, key=lambda one: one[0].number)
    records = [record for record, _ in found]
    refuse_repeats(sorted(record.number for record in records))
    return AtlasAnswer(records, [version for _, version in found], batch, sheets)


def judge_atlas_count(root: bytes, query: Query, proof: Pieces) -> AtlasCount:
    """The count inside a window that an atlas proof proves. Raises as `judge_atlas`."""
    parts = AtlasParts(proof, COUNTS.letter)
    batch, sheets = parts.index(root, query.rect)
    count, ways = 0, inside(query)
    for sheet in sheets:
        way = way_of_sheet(sheet, query, ways)
        if way == OPEN:
            count += parts.sheet(sheet, judge_count, query).inside
        count += sheet.count if way == WHOLE else 0
    parts.end()
    return AtlasCount(count, batch, sheets)


def nearest_of(query: Query, half: int, found: List[Tuple[Record, int]]) -> List[Tuple[Record, int]]:
    """The nearest of the records that a square of this half side gave, in order. Raises Refused (WrongRadius).

    Half a side has to be the least by which k records are near enough, if there is such a number below EVERYTHING.
    """
    ranked = sorted(found, key=lambda one: (distance(query.rect, one[0].rect), one[0].number))
    far = [distance(query.rect, record.rect) for record, _ in ranked]
    near = len(far) if half == EVERYTHING else bisect_right(far, half * half)
    nearer = bisect_right(far, (half - 1) * (half - 1)) if half else 0
    if half < EVERYTHING and near < query.k or nearer >= query.k:
        raise Refused("WrongRadius", 6, part="frame")
    return ranked[: min(near, query.k)]


def refuse_repeats(numbers: List[int]) -> None:
    """Raises Refused (Repeat) where of numbers in rising order two are equal: the maps of no atlas have these."""
    for number, other in zip(numbers, numbers[1:]):
        if number == other:
            raise Refused("Repeat", None, part="number %d" % number)


def check_atlas(root: str, query: str, proof: Union[Bytes, Pieces]) -> AtlasAnswer:
    """The answer to a query word on the atlas with a root digest, as an atlas proof shows it. Raises as `check`.

    Of `Refused` the part says in what the fault is.

    >>> root = "3192817fd1840eb7f63b1b289a173abad1772411a7b2a52117cfe44a09df8c30"
    >>> proof = bytes.fromhex("4d5241540157" "00000016" "4d52564f01570000000000000000" "0000000000000000")
    >>> check_atlas(root, "window:0,0,9,9", proof)
    AtlasAnswer(records=[], versions=[], batch=0, sheets=[])
    >>> check_atlas(root, "window:0,0,9,9", proof[:-1])
    Traceback (most recent call last):
    mrtree_check.Refused: refused index Missing at 6
    """
    refuse_other_words(root, query)
    return judge_atlas(read_root(root), read_query(query), only_bytes(proof, "a proof"))


def check_atlas_count(root: str, query: str, proof: Union[Bytes, Pieces]) -> AtlasCount:
    """How many records of the atlas with a root digest lie inside a window, as an atlas proof shows it.

    Raises as `check_atlas`, and ValueError too where the query is no window.
    """
    refuse_other_words(root, query)
    return judge_atlas_count(read_root(root), read_window(query), only_bytes(proof, "a proof"))


# ---- the commands


def read_pieces(name: str, most: Optional[int] = None) -> Iterator[bytes]:
    """The bytes of a file or pipe in pieces of up to 65,536, at most so many.

    Raises Ended where it is missing, cannot be read or has more.
    """
    taken = 0
    for piece in pieces_of(name):
        taken += len(piece)
        if most is not None and taken > most:
            raise Ended(7, "longer than %d bytes" % most)
        yield piece


def pieces_of(name: str) -> Iterator[bytes]:
    """The bytes of a file or pipe in pieces of up to 65,536. Raises Ended where it is missing or cannot be read."""
    try:
        if name != "-":
            mode = os.stat(name.encode()).st_mode
            if not (stat.S_ISREG(mode) or stat.S_ISFIFO(mode) or stat.S_ISSOCK(mode)):
                raise Ended(7, "shelf fault")
        with open(0 if name == "-" else name.encode(), "rb", buffering=0, closefd=name != "-") as file:
            while True:
                piece = file.read(PIECE)
                if not piece:
                    return
                yield piece
    except FileNotFoundError:
        raise Ended(7, "missing " + name) from None
    except (OSError, ValueError):
        raise Ended(7, "shelf fault") from None


def check_lines(root: bytes, query: Query, name: str, most: Optional[int]) -> Tuple[int, List[str]]:
    """Status and lines of `check` of the proof in a file. Raises Ended."""
    try:
        return 0, judge(root, query, read_pieces(name, most)).lines()
    except Refused as fault:
        return 2, [str(fault)]


def check_count_lines(root: bytes, query: Query, name: str, most: Optional[int]) -> Tuple[int, List[str]]:
    """Status and lines of `check-count` of the proof in a file. Raises Ended."""
    try:
        return 0, ["count %d" % judge_count(root, query, read_pieces(name, most)).inside]
    except Refused as fault:
        return 2, [str(fault)]


def check_join_lines(root: bytes, root2: bytes, name: str, most: Optional[int]) -> Tuple[int, List[str]]:
    """Status and lines of `check-join` of the proof in a file. Raises Ended."""
    try:
        return 0, ["pair %d %d" % pair for pair in judge_join(root, root2, read_pieces(name, most)).pairs]
    except Refused as fault:
        return 2, [str(fault)]


def check_atlas_lines(root: bytes, query: Query, name: str, most: Optional[int]) -> Tuple[int, List[str]]:
    """Status and lines of `check-atlas` of the proof in a file. Raises Ended."""
    try:
        return 0, judge_atlas(root, query, read_pieces(name, most)).lines()
    except Refused as fault:
        return 2, [str(fault)]


def check_atlas_count_lines(root: bytes, query: Query, name: str, most: Optional[int]) -> Tuple[int, List[str]]:
    """Status and lines of `check-atlas-count` of the proof in a file. Raises Ended."""
    try:
        return 0, ["count %d" % judge_atlas_count(root, query, read_pieces(name, most)).inside]
    except Refused as fault:
        return 2, [str(fault)]


def check_all_lines(root: bytes, script: str, name: str, most: Optional[int]) -> Tuple[int, List[str]]:
    """Status and lines of `check-all` of a script and the bundle in a file. Raises Ended."""
    queries = read_script(b"".join(read_pieces(script)))
    verdicts, broken = judge_bundle(root, queries, read_pieces(name, most))
    lines = []
    for number, (answer, refused) in enumerate(verdicts, 1):
        if answer is not None:
            lines.append("query %d ok %d" % (number, len(answer.records)))
            lines += answer.lines()
        else:
            lines.append("query %d %s" % (number, refused or "missing"))
    accepted = sum(verdict.answer is not None for verdict in verdicts)
    missing = verdicts.count(MISSING)
    lines.append("accepted %d refused %d missing %d" % (accepted, len(verdicts) - accepted - missing, missing))
    if broken is not None:
        lines.append("bundle broken at %d" % broken)
    return (0 if accepted == len(verdicts) and broken is None else 2), lines


COMMANDS = {  # what reads the second word behind each, and what gives status and lines
    "check": (read_query, check_lines),
    "check-count": (read_window, check_count_lines),
    "check-join": (read_root, check_join_lines),
    "check-all": (str, check_all_lines),
    "check-atlas": (read_query, check_atlas_lines),
    "check-atlas-count": (read_window, check_atlas_count_lines),
}


class Words(NamedTuple):
    """The words of a command line: the command, the root digest, what else it is of, the proof's file, the limit.

    The third is a query, of `check-join` the second root digest, and of `check-all` the script's file.
    """

    command: str
    root: bytes
    asked: Union[Query, bytes, str]
    name: str
    most: Optional[int]


def read_words(words: List[str]) -> Words:
    """What the words of a command line mean. Raises ValueError, with what is wrong, where they spell no command."""
    most = None
    if words[:1] == ["--most"]:
        most, words = read_most("".join(words[1:2])), words[2:]
    command, *rest = words if len(words) == 4 else ["check", *words]
    if command not in COMMANDS or len(rest) != 3 or "" in rest:
        ones = "check | check-count | check-atlas | check-atlas-count"
        others = "check-join ROOT ROOT2 PROOF, or: check-all ROOT SCRIPT BUNDLE"
        raise ValueError("usage: %s [%s] ROOT QUERY PROOF, or: %s" % (COMMAND, ones, others))
    root = read_root(rest[0])
    asked = COMMANDS[command][0](rest[1])
    if command == "check-all" and asked == rest[2]:
        raise ValueError("the script and the bundle have one name")
    return Words(command, root, asked, rest[2], most)


def read_most(word: str) -> int:
    """The limit that a word spells. Raises ValueError, with what is wrong."""
    try:
        return read_decimal(word, 0, 2**63 - 1)
    except ValueError:
        raise ValueError("--most stands before a whole number of bytes") from None


def run(words: List[str]) -> Tuple[int, str]:
    """Exit status and printed text of the words behind the script's name.

    >>> run(["check", "00", "window:0,0,1,1", "proof"])
    (1, 'bad words\\n')
    """
    if words[:1] in (["-h"], ["--help"]):
        return 0, __doc__ or "usage: %s [check] ROOT QUERY PROOF\n" % COMMAND
    if words[:1] == ["--version"]:
        return 0, "mrtree_check.py %s\n" % __version__
    try:
        command, root, asked, name, most = read_words(words)
    except ValueError:
        return 1, "bad words\n"
    try:
        status, lines = COMMANDS[command][1](root, asked, name, most)
        return status, "".join(line + "\n" for line in lines)
    except Ended as ended:
        return ended.status, ended.line + "\n"
    except MemoryError:
        return 8, ""


def explain(words: List[str], status: int, text: str) -> None:
    """Says on standard error why words spell no command, or what a status other than 0 mostly means."""
    try:
        why = meaning_of(text) if status != 1 else ""
        if status == 1:
            read_words(words)
    except ValueError as fault:
        why = str(fault)
    try:
        if why and sys.stderr:
            print("mrtree_check.py: %s" % why, file=sys.stderr, flush=True)
    except (OSError, ValueError):
        pass


def main() -> int:
    """Runs the words of the command line; answers the exit status."""
    try:
        words = [os.fsencode(word).decode() for word in sys.argv[1:]]
        status, text = run(words)
        left = memoryview(text.encode())
        while left:
            left = left[os.write(1, left) :]
        if status:
            explain(words, status, text)
    except (UnicodeDecodeError, OSError):
        return 7
    except MemoryError:
        return 8
    except KeyboardInterrupt:
        return 130
    return status


if __name__ == "__main__":
    signal.signal(signal.SIGINT, signal.default_int_handler)
    sys.exit(main())
