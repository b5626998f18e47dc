"""The check of docs/FORMATS.md, step by step, for yes or no: what a client needs that names no fault."""
import hashlib
import struct
from typing import List, Optional, Tuple

from proofs import plain


class No(Exception):
    """The string is refused."""


class Steps:
    """A check of one string, with the numbers of the steps that it takes; of a count, or of an answer."""

    def __init__(self, query: plain.Query, string: bytes, is_count: bool = False) -> None:
        self.query, self.string, self.at, self.kept = query, string, 0, []
        self.version, self.radius, self.is_count, self.inside = 1, None, is_count, 0
        self.round: Optional[Tuple[int, ...]] = None
        self.is_first, self.letter = query.mask is None and not is_count, b"W" if query.is_window() else b"K"
        if is_count:
            self.letter = b"C"

    def take(self, size: int) -> bytes:
        """The next field."""
        self.at += size
        self.demand(self.at <= len(self.string) and self.at <= 2**30)
        return self.string[self.at - size : self.at]

    def demand(self, is_so: bool) -> None:
        """Refuses what is not so."""
        if not is_so:
            raise No

    def number(self, size: int) -> int:
        """The next field, a number."""
        return int.from_bytes(self.take(size), "big")

    def rect(self) -> Tuple[int, ...]:
        """The next field, a rectangle with its sides in order."""
        rect = struct.unpack(">4i", self.take(16))
        self.demand(rect[0] <= rect[2] and rect[1] <= rect[3])
        return rect

    def reaches(self, rect: Tuple[int, ...], mask: int) -> bool:
        """Step 4; of a count whether the part is to be opened."""
        is_met = plain.meets_of(self.query, self.radius)(rect)
        is_reached = is_met and (self.version == 1 or mask & self.query.layers() != 0)
        return is_reached and not (self.is_count and self.is_inside(rect, mask))

    def is_inside(self, rect: Tuple[int, ...], mask: int) -> bool:
        """Whether all of a part is inside, of a count."""
        x0, y0, x1, y1 = self.query.shape
        is_in = x0 <= rect[0] <= rect[2] <= x1 and y0 <= rect[1] <= rect[3] <= y1
        return is_in and mask != 0 and all(self.query.layers() >> layer & 1 for layer in range(64) if mask >> layer & 1)

    def item(self, level: int) -> Tuple[bytes, Tuple[int, ...], int, int]:
        """Steps 7 to 10: the item's digest, rectangle, mask and count."""
        start, tag, told = self.at, self.take(1), self.version == 2
        if tag == b"P":
            rect, mask, count = self.rect(), self.number(8) if told else 0, self.number(8) if told else 0
            self.demand(not self.reaches(rect, mask))
            self.demand(not told or 1 <= count <= 2**20)
            self.inside += count if self.is_count and self.is_inside(rect, mask) else 0
            return self.take(32), rect, mask, count
        self.demand(tag == (b"N" if level else b"L"))
        entries = self.number(1)
        self.demand(1 <= entries <= (64 if level else 16))
        if level:
            parts = [self.item(level - 1) for _ in range(entries)]
            preimage = b"N" + bytes([level, entries]) + b"".join(map(self.entry, parts))
        else:
            records = [self.record() for _ in range(entries)]
            parts = [(b"", record.rect, 1 << record.layer, 1) for record in records]
            preimage = self.string[start : self.at]
            self.kept += [record for record, part in zip(records, parts) if self.reaches(*part[1:3])]
            self.inside += sum(self.is_count and self.is_inside(*part[1:3]) for part in parts)
        around, mask = plain.union([part[1] for part in parts]), 0
        for part in parts:
            mask |= part[2]
        self.demand(self.reaches(around, mask))
        return hashlib.sha256(preimage).digest(), around, mask, sum(part[3] for part in parts)

    def entry(self, part: Tuple[bytes, Tuple[int, ...], int, int]) -> bytes:
        """What the preimage of an inner node has of a child, by step 9."""
        digest, rect, mask, count = part
        return struct.pack(">4i", *rect) + (struct.pack(">QQ", mask, count) if self.version == 2 else b"") + digest

    def record(self) -> plain.Record:
        """One record of step 8."""
        number, rect, layer = self.number(8), self.rect(), self.number(1) if self.version == 2 else 0
        self.demand(layer <= 63)
        length = self.number(1)
        self.demand(length <= 200)
        return plain.Record(number, rect, self.take(length), layer)

    def head(self) -> Tuple[bytes, bytes]:
        """Steps 1 to 3: the batch and the count."""
        self.demand(self.take(4) == b"MRVO")
        self.version = self.number(1)
        self.demand(self.version == 2 or (self.version == 1 and self.is_first))
        self.demand(self.take(1) == self.letter)
        batch, count = self.take(8), self.take(8)
        self.demand(int.from_bytes(count, "big") <= 2**20)
        flag = 0 if self.query.is_window() else self.number(1)
        self.demand(flag <= 1)
        self.radius = self.number(16) if flag else None
        self.demand(not flag or self.radius <= 2 * (2**32 - 1) ** 2)
        return batch, count

    def check(self, root: str) -> List[Tuple]:
        """Steps 1 to 15: the answer."""
        batch, count = self.head()
        version, total = bytes([self.version]), int.from_bytes(count, "big")
        preimage, tally = b"E" + version + batch, 0
        if total:
            level = self.number(1)
            self.demand(level <= 7)
            digest, self.round, mask, tally = self.item(level)
            rect = self.round
            named = struct.pack(">4i", *rect) + (struct.pack(">Q", mask) if self.version == 2 else b"")
            preimage = b"R" + version + batch + count + bytes([level]) + named + digest
        self.demand(self.at == len(self.string))
        self.demand(hashlib.sha256(preimage).hexdigest() == root)
        if not self.query.is_window():
            centre, k = self.query.shape
            far = [plain.distance(centre, record.rect) for record in self.kept]
            nearer = [one for one in far if self.radius is None or one < self.radius]
            self.demand(len(nearer) < k and (self.radius is None or len(far) >= k))
        self.demand(self.version == 1 or tally == total)
        if self.query.is_window():
            return sorted(self.kept, key=lambda record: record.number)
        return sorted(self.kept, key=lambda record: (plain.distance(centre, record.rect), record.number))[:k]


EVERYWHERE = plain.Query((-(2**31), -(2**31), 2**31 - 1, 2**31 - 1))


class PartSteps(Steps):
    """A check of one part of a join's proof, for some rectangles."""

    def __init__(self, rects: List[Tuple[int, ...]], string: bytes) -> None:
        super().__init__(EVERYWHERE, string)
        self.rects, self.is_first, self.letter = rects, False, b"J"

    def reaches(self, rect: Tuple[int, ...], mask: int) -> bool:
        """Whether a part is open."""
        return any(plain.overlap(rect, one) for one in self.rects)


class JoinSteps(Steps):
    """A check of a join's proof."""

    def __init__(self, string: bytes) -> None:
        super().__init__(EVERYWHERE, string)

    def pairs(self, root: str, root2: str) -> List[Tuple[int, int]]:
        """The pairs, by the steps of joins."""
        self.demand(self.take(4) == b"MRJN")
        flag = self.number(1)
        self.demand(flag <= 1)
        rect = self.rect() if flag else None
        ones = PartSteps([rect], self.take(self.number(4))).check(root) if flag else []
        second = PartSteps([one.rect for one in ones], self.string[self.at :])
        others = second.check(root2)
        self.demand(second.round == rect)
        return sorted((a.number, b.number) for a in ones for b in others if plain.overlap(a.rect, b.rect))


def answer(root: str, query: plain.Query, string: bytes) -> Optional[List[Tuple]]:
    """The answer that a string proves, None where it is refused."""
    try:
        return Steps(query, string).check(root)
    except No:
        return None


def count(root: str, query: plain.Query, string: bytes) -> Optional[int]:
    """The count inside a window that a string proves, None where it is refused."""
    try:
        one = Steps(query, string, True)
        one.check(root)
        return one.inside
    except No:
        return None


def pairs(root: str, root2: str, string: bytes) -> Optional[List[Tuple[int, int]]]:
    """The pairs that a string proves, None where it is refused."""
    try:
        return JoinSteps(string).pairs(root, root2)
    except No:
        return None
