"""Joins of two plain maps: honest proofs, and what is said of others. By docs/FORMATS.md, on the client's reading."""
import random
import struct
from typing import Any, Callable, Iterator, List, NamedTuple, Optional, Tuple

import proofs
from bench import mrtree_check
from proofs import head, item, plain

Pair = Tuple[int, int]
Rect = Tuple[int, int, int, int]
KIND = mrtree_check.Kind(b"J", (2,))


class Refused(Exception):
    """A join's proof that is refused: its line."""


class Frame(NamedTuple):
    """The fields of a join's proof: the rectangle (none where map 2 is said to be empty), and both parts."""

    rect: Optional[Rect]
    first: bytes
    second: bytes


# ---- honest proofs


def honest_part(tree: Any, batch: int, rects: List[Rect]) -> bytes:
    """The honest proof of a map for some rectangles: open is what meets one of them."""
    if tree is None:
        return head(2, b"J", batch, 0)
    opens = lambda node: any(plain.overlap(rect, node.rect) for rect in rects)
    return head(2, b"J", batch, len(tree.records()), level=tree.level()) + item(tree, 2, opens)


def frame_bytes(frame: Frame) -> bytes:
    """The bytes of a frame."""
    if frame.rect is None:
        return b"MRJN\x00" + frame.second
    return b"MRJN\x01" + struct.pack(">4iI", *frame.rect, len(frame.first)) + frame.first + frame.second


def honest_join(one: Any, batch: int, other: Any, other_batch: int) -> bytes:
    """The honest proof of the join of two maps of version 2, each by its tree and its batch."""
    if other is None:
        return frame_bytes(Frame(None, b"", honest_part(other, other_batch, [])))
    met = [record.rect for record in one.records() if plain.overlap(other.rect, record.rect)] if one else []
    first, second = honest_part(one, batch, [other.rect]), honest_part(other, other_batch, met)
    return frame_bytes(Frame(other.rect, first, second))


def pairs_of(ones: List[Any], others: List[Any]) -> List[Pair]:
    """The numbers of each two records that meet, by a double loop."""
    return sorted((a.number, b.number) for a in ones for b in others if plain.overlap(a.rect, b.rect))


def map_pairs(one: Any, other: Any) -> List[Pair]:
    """All pairs of two maps."""
    return pairs_of(one.records() if one else [], other.records() if other else [])


def pair_lines(pairs: List[Pair]) -> bytes:
    """A line for each pair."""
    return "".join("pair %d %d\n" % pair for pair in pairs).encode()


def bent_fields(proof: bytes) -> Iterator[bytes]:
    """An honest proof with each field of its frame and of its parts bent in each way."""
    frame = read_frame(proof)
    places = [(0, 4), (4, 1)] + ([(at, 4) for at in (5, 9, 13, 17, 21)] if frame.rect is not None else [])
    for place, size in places:
        for way in range(proofs.WAYS):
            yield proofs.bent_field(proof, place, size, way)
    for first in proofs.bent_fields(frame.first) if frame.first else []:
        yield frame_bytes(frame._replace(first=first))
    for second in proofs.bent_fields(frame.second):
        yield frame_bytes(frame._replace(second=second))


def bent(proof: bytes, other: bytes, chance: random.Random) -> bytes:
    """A string that is made of one or two honest proofs in a random way: the frame is bent, or a part, or parts move."""
    frame, theirs, way = read_frame(proof), read_frame(other), chance.randrange(8)
    if way == 0:
        size = len(proof) - len(frame.first) - len(frame.second)
        at = chance.randrange(size)
        return proof[:at] + bytes([proof[at] ^ 1 << chance.randrange(8)]) + proof[at + 1 :]
    if way == 1:
        return proof[: chance.randrange(len(proof))]
    if way == 2 and frame.rect is not None:
        sides = list(frame.rect)
        sides[chance.randrange(4)] += chance.choice((-1, 1))
        return frame_bytes(frame._replace(rect=tuple(max(-(2**31), min(2**31 - 1, side)) for side in sides)))
    if way == 3:
        return frame_bytes(frame._replace(first=theirs.first))
    if way == 4:
        return frame_bytes(frame._replace(second=theirs.second))
    if way == 5 and frame.rect is not None:
        return frame_bytes(frame._replace(first=proofs.bent(frame.first, theirs.first or frame.first, chance)))
    return frame_bytes(frame._replace(second=proofs.bent(frame.second, theirs.second, chance)))


# ---- what is said of a proof


def of_frame(rule: str, place: int) -> Refused:
    """A fault of the frame."""
    return Refused("refused frame %s at %d" % (rule, place))


def read_frame(proof: bytes) -> Frame:
    """The fields of a join's proof. Raises Refused at the first fault."""
    place = 0

    def take(size: int) -> bytes:
        """The next field."""
        nonlocal place
        if place + size > len(proof):
            raise of_frame("Short", place)
        place += size
        return proof[place - size : place]

    if take(4) != b"MRJN":
        raise of_frame("BadMagic", 0)
    flag = take(1)[0]
    if flag > 1:
        raise of_frame("BadFlag", 4)
    if flag == 0:
        return Frame(None, b"", proof[place:])
    rect = struct.unpack(">4i", take(16))
    if rect[0] > rect[2] or rect[1] > rect[3]:
        raise of_frame("BadRect", 5)
    first = take(int.from_bytes(take(4), "big"))
    return Frame(rect, first, proof[place:])


def read_part(name: str, root: bytes, rects: List[Rect], part: bytes) -> Any:
    """What one part shows, by the client's reading. Raises Refused at its first fault."""
    way = lambda rect, mask: mrtree_check.OPEN if any(plain.overlap(rect, one) for one in rects) else mrtree_check.SKIP
    try:
        shown = mrtree_check.read_proof(root, KIND, lambda _: way, iter([part]), None)
        mrtree_check.refuse_other_tally(shown)
    except mrtree_check.Refused as fault:
        raise Refused(str(fault).replace("refused ", "refused %s " % name)) from fault
    return shown


def judged(first: bytes, second: bytes, proof: bytes) -> List[Pair]:
    """The pairs that a proof gives against the root digests of two maps. Raises Refused at the first fault."""
    frame = read_frame(proof)
    ones: List[Any] = []
    if frame.rect is not None:
        ones = read_part("first", first, [frame.rect], frame.first).reading.records
    shown = read_part("second", second, [one.rect for one in ones], frame.second)
    if frame.rect is None and shown.head.count:
        raise of_frame("WrongFlag", len(proof))
    if frame.rect is not None and (shown.part is None or shown.part.rect != frame.rect):
        raise of_frame("WrongRect", len(proof))
    return pairs_of(ones, shown.reading.records)


def said(first: bytes, second: bytes, proof: bytes) -> Tuple[int, bytes]:
    """Status and text of `check-join`."""
    try:
        return 0, pair_lines(judged(first, second, proof))
    except Refused as fault:
        return 2, b"%s\n" % str(fault).encode()


def audited(maps: List[Tuple[Any, int]], proof: bytes, collision: Callable) -> Tuple[int, bytes]:
    """Status and text of `audit-join` of maps of version 2, by how a collision is found in one of them."""
    roots = [plain.root(tree, batch, 2) for tree, batch in maps]
    status, text = said(*(bytes.fromhex(root) for root in roots), proof)
    if status:
        return status, text
    frame = read_frame(proof)
    parts = [("first", maps[0], frame.first)] if frame.rect is not None else []
    for name, (tree, batch), part in [*parts, ("second", maps[1], frame.second)]:
        pair = collision(tree, batch, 2, part)
        if pair:
            return 6, ("collision %s\n%s\n%s\n" % (name, *(one.hex() for one in pair))).encode()
    if proof != honest_join(*maps[0], *maps[1]) or text != pair_lines(map_pairs(maps[0][0], maps[1][0])):
        raise ValueError("a string that shows what the maps have is accepted, and is not the honest proof")
    return 0, b"sound\n" + text
