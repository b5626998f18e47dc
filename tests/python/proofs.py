"""Honest proofs of plain trees, and strings that are no honest proofs. By docs/FORMATS.md, apart from the client."""
import functools
import os
import random
import struct
import sys
from typing import Callable, Dict, Iterator, List, NamedTuple, Tuple

sys.path.insert(0, os.path.join(os.path.dirname(os.path.abspath(__file__)), ".."))
import plain  # noqa: E402


def word_of(query: plain.Query) -> str:
    """The word of a query."""
    mask = "" if query.mask is None else "/%016x" % query.mask
    if query.is_window():
        return "window:%d,%d,%d,%d" % query.shape + mask
    return "nearest:%d,%d,%d" % (*query.shape[0], query.shape[1]) + mask


# ---- honest proofs


def head(version: int, kind: bytes, batch: int, count: int, radius=None, level=0) -> bytes:
    """The head of a proof; a proof of kind K has a flag, and with a squared radius (an int) flag 01."""
    front = b"MRVO" + bytes([version]) + kind + struct.pack(">QQ", batch, count)
    if kind == b"K":
        front += b"\x00" if radius is None else b"\x01" + radius.to_bytes(16, "big")
    return front + (bytes([level]) if count else b"")


def item(node, version: int, reaches: Callable) -> bytes:
    """The item of a node and those below it."""
    if not reaches(node):
        return b"P" + plain.entry(node, version)
    entries, is_leaf = node.entries, node.is_leaf
    parts = [plain.record_bytes(e, version) if is_leaf else item(e, version, reaches) for e in entries]
    return (b"L" if is_leaf else b"N") + bytes([len(parts)]) + b"".join(parts)


def honest(tree, batch: int, query: plain.Query, version: int = 1) -> bytes:
    """The honest proof of a query on the map of a tree (None of one without records), a query that has one."""
    kind = b"W" if query.is_window() else b"K"
    assert version == 2 or query.mask is None
    if tree is None:
        return head(version, kind, batch, 0)
    records = tree.records()
    radius = None if query.is_window() else plain.radius_of(records, query)
    meets, layers = plain.meets_of(query, radius), query.layers()
    reaches = lambda node: meets(node.rect) and (version == 1 or node.mask() & layers != 0)
    return head(version, kind, batch, len(records), radius, tree.level()) + item(tree, version, reaches)


def opens_for_count(query: plain.Query) -> Callable:
    """Which nodes the proof of a count opens: those that have a part both in the window and out of it, or may have.

    By the definition of a way, said from its other end: a node is opened unless nothing in it is asked for (its
    rectangle is apart from the window, or none of its layers is asked for), or all that it has is.
    """
    window, layers = query.shape, query.layers()

    def opens(node) -> bool:
        has_none = not plain.overlap(window, node.rect) or node.mask() & layers == 0
        has_all = plain.within(node.rect, window) and node.mask() | layers == layers
        return not (has_none or has_all)

    return opens


def honest_count(tree, batch: int, query: plain.Query) -> bytes:
    """The honest count proof of a window on the map of a tree, in version 2: kind C, without a flag."""
    assert query.is_window()
    if tree is None:
        return head(2, b"C", batch, 0)
    count, level = len(tree.records()), tree.level()
    return head(2, b"C", batch, count, level=level) + item(tree, 2, opens_for_count(query))


# ---- where the parts of an honest proof stand


class Item(NamedTuple):
    """An item: where it begins and ends, its level, its tag, its children."""

    start: int
    end: int
    level: int
    tag: int
    children: List["Item"]


class Layout:
    """The fields (place and size of each) and the root item (None where there is none) of an honest proof."""

    def __init__(self, proof: bytes) -> None:
        self.proof, self.fields, self.place = proof, [], 0
        self.take(4)
        self.version, kind = self.take(1), self.take(1)
        self.take(8)
        count = self.take(8)
        if kind == ord("K") and self.take(1):
            self.take(16)
        self.root = self.item(self.take(1)) if count else None

    def take(self, *sizes: int) -> int:
        """Goes over the next fields; answers the last one's value."""
        for size in sizes:
            self.fields.append((self.place, size))
            self.place += size
        return int.from_bytes(self.proof[self.place - sizes[-1] : self.place], "big")

    def item(self, level: int) -> Item:
        """Goes over the next item."""
        start, tag, children = self.place, self.take(1), []
        if tag == ord("P"):
            self.take(16, *([8, 8] if self.version == 2 else []), 32)
        else:
            for _ in range(self.take(1)):
                if tag == ord("N"):
                    children.append(self.item(level - 1))
                else:
                    length = self.take(8, 16, *([1] if self.version == 2 else []), 1)
                    if length:
                        self.take(length)
        return Item(start, self.place, level, tag, children)


@functools.lru_cache(maxsize=256)
def layout(proof: bytes) -> Layout:
    """The layout of an honest proof."""
    return Layout(proof)


def paths(one: Item, path: Tuple[int, ...] = ()) -> Iterator[Tuple[Tuple[int, ...], Item]]:
    """Each item with its path from the root: the positions among its siblings."""
    yield path, one
    for at, child in enumerate(one.children):
        yield from paths(child, (*path, at))


# ---- strings that are bent


WAYS = 5  # to bend a field


def bent_field(proof: bytes, place: int, size: int, way: int) -> bytes:
    """The proof with a field as zeros, as ones, as one more, as one less, or with its first bit changed."""
    value, most = int.from_bytes(proof[place : place + size], "big"), 256**size
    other = (0, most - 1, (value + 1) % most, (value - 1) % most, value ^ (most >> 1))[way]
    return proof[:place] + other.to_bytes(size, "big") + proof[place + size :]


def bent_fields(proof: bytes) -> Iterator[bytes]:
    """The proof with each field bent in each way."""
    for place, size in layout(proof).fields:
        for way in range(WAYS):
            yield bent_field(proof, place, size, way)


def cuts(proof: bytes) -> Iterator[bytes]:
    """Each front of the proof, and the proof with a byte more."""
    for length in range(len(proof)):
        yield proof[:length]
    yield proof + b"\0"


def spliced(proof: bytes, other: bytes, chance: random.Random) -> bytes:
    """The proof with one item from the same place of another proof, or with one of that level from anywhere in it."""
    mine, theirs = layout(proof).root, layout(other).root
    if mine is None or theirs is None:
        return other[: len(other) // 2] + proof
    sources: Dict[Tuple[int, ...], Item] = dict(paths(theirs))
    path, target = chance.choice(list(paths(mine)))
    same = [one for one in sources.values() if one.level == target.level]
    source = sources.get(path) if chance.random() < 0.7 else chance.choice(same) if same else None
    if source is None:
        source = theirs
    return proof[: target.start] + other[source.start : source.end] + proof[target.end :]


def reordered(proof: bytes, chance: random.Random) -> bytes:
    """The proof with the children of one node exchanged, left out or doubled."""
    inner = [one for _, one in paths(layout(proof).root) if len(one.children) > 1] if len(proof) > 23 else []
    if not inner:
        return proof[::-1]
    one = chance.choice(inner)
    parts = [proof[child.start : child.end] for child in one.children]
    way = chance.randrange(3)
    if way == 0:
        chance.shuffle(parts)
    elif way == 1:
        del parts[chance.randrange(len(parts))]
    else:
        parts.append(chance.choice(parts))
    return proof[: one.start + 1] + bytes([len(parts)]) + b"".join(parts) + proof[one.end :]


def noisy(proof: bytes, chance: random.Random) -> bytes:
    """The proof with one to three bytes changed, or a few left out or put in."""
    bytes_ = bytearray(proof)
    for _ in range(chance.randint(1, 3)):
        bytes_[chance.randrange(len(bytes_))] ^= 1 << chance.randrange(8)
    if chance.random() < 0.3:
        at = chance.randrange(len(bytes_))
        bytes_[at : at + chance.randrange(3)] = bytes(chance.randrange(256) for _ in range(chance.randrange(3)))
    return bytes(bytes_)


def bent(proof: bytes, other: bytes, chance: random.Random) -> bytes:
    """A string that is made of one or two proofs in a random way."""
    way = chance.randrange(8)
    if way < 2:
        return bent_field(proof, *chance.choice(layout(proof).fields), chance.randrange(WAYS))
    if way == 2:
        return proof[: chance.randrange(len(proof))]
    if way == 3:
        return reordered(proof, chance)
    if way == 4:
        return noisy(proof, chance)
    return spliced(proof, other, chance)
