"""The tables of crates/mr_rows as values: rows and stories of runs, with the bytes of their files.

An item is a line `KEY: WORDS`, with the lines of its parts below it, two spaces in. A group is an item of one of the
keys that begin one, with the items behind it. A line that ends with `\\` goes on with the next one, behind the two
spaces that this begins with.
"""
import glob
import os
import struct
from typing import Dict, Iterable, Iterator, List, NamedTuple, Optional, Tuple

from proofs import plain

ZEROS = "0" * 62  # what `..` stands for
BEGINS = ("hash", "let", "row", "false row", "story", "bad words")


class Unread(Exception):
    """A line that is no item, or no part of one."""


class Item(NamedTuple):
    """An item, and the lines of its parts."""

    key: str
    words: str
    parts: List[str]


class Group(NamedTuple):
    """The items of a row or a story, the first one with its name."""

    table: "Table"
    hash: str
    items: List[Item]

    def kind(self) -> str:
        """What group it is."""
        return self.items[0].key

    def name(self) -> str:
        """Its name."""
        return self.items[0].words

    def first(self, key: str) -> Item:
        """Its first item of this key."""
        return next(item for item in self.items if item.key == key)

    def has(self, key: str) -> bool:
        """Whether it has an item of this key."""
        return any(item.key == key for item in self.items)

    def files(self) -> Dict[str, bytes]:
        """Its files, by their names."""
        return {item.words: self.table.bytes_of(item) for item in self.items if item.key == "file"}

    def text(self, item: Item) -> bytes:
        """What is printed."""
        return put(b"", "| " + item.words) if item.words else self.table.bytes_of(item)


class Table:
    """One file: its groups, and the parts that go under names."""

    def __init__(self, path: str) -> None:
        self.parts: Dict[str, List[str]] = {}
        self.groups: List[Group] = []
        hash_ = ""
        with open(path) as file:
            items = list(items_of(whole_lines(file)))
        for item in items:
            if item.key == "let":
                self.parts[item.words] = item.parts
            elif item.key == "hash":
                hash_ = item.words
            elif item.key in BEGINS:
                self.groups.append(Group(self, hash_, [item]))
            else:
                self.groups[-1].items.append(item)

    def bytes_of(self, item: Item) -> bytes:
        """The bytes of the parts of an item."""
        bytes_ = b""
        for part in item.parts:
            used = self.parts[part[4:]] if part.startswith("use ") else [part]
            for one in used:
                bytes_ = put(bytes_, one)
        return bytes_


def whole_lines(lines: Iterable[str]) -> Iterator[str]:
    """The lines, those that go on put together."""
    front_ = ""
    for line in lines:
        line = front_ + (line[2:] if front_ else line).rstrip("\n")
        if line.endswith("\\"):
            front_ = line[:-1]
        else:
            front_ = ""
            yield line


def items_of(lines: Iterable[str]) -> Iterator[Item]:
    """The items of a table."""
    item: Optional[Item] = None
    for line in lines:
        line = line.rstrip("\n")
        if line.startswith("  "):
            if item is None:
                raise Unread(line)
            item.parts.append(line[2:])
        elif line and not line.startswith("#"):
            key, _, words = line.partition(":")
            item = Item(key, words[1:], [])
            yield item


# ---- the parts of files


def number_of(word: str) -> Optional[int]:
    """The number that a word spells; none where it is there for the reader."""
    try:
        return int(word, 0)
    except ValueError:
        return None


def numbers_of(words: str) -> List[int]:
    """The numbers among these words."""
    return [number for number in map(number_of, words.split(" ")) if number is not None]


def lines(front_: str, numbers: Iterable[int]) -> bytes:
    """The lines of the places of these numbers, as the tests scatter them, each behind this front."""
    return "".join(front_ + plain.line_of(plain.place(number)) + "\n" for number in numbers).encode()


def lines2(numbers: Iterable[int]) -> bytes:
    """The lines of version 2 of the places of these numbers, each on the layer of its column."""
    return "".join(plain.line_of(plain.place2(number), 2) + "\n" for number in numbers).encode()


def overlapping(numbers: Iterable[int]) -> bytes:
    """The lines of records of these numbers: the odd ones at one place, the even ones scattered, and large."""
    text = ""
    for number in numbers:
        x, y, side = (10000, 10000, 0) if number % 2 else (*plain.place(number)[1][:2], 15000)
        text += "%d %d %d %d %d -\n" % (number, x, y, x + side, y + side)
    return text.encode()


def removed(first: int, count: int, step: int, of: int) -> bytes:
    """The changes of a batch that removes records by a rule."""
    return "".join("- %d\n" % (place * step % of + 1) for place in range(first, first + count)).encode()


def mixed(first: int) -> bytes:
    """The changes of a batch by which records of 3,000 go, and others come."""
    places = range(first, first + 250)
    return b"".join(b"- %d\n" % (place * 7 % 3000 + 1) + lines("+ ", [place + 3001]) for place in places)


def fields(front_: bytes, form: str, numbers: Tuple[int, ...]) -> bytes:
    """These bytes and then numbers, by the letters of `struct`; a digest and a radius are written by their values."""
    bytes_ = front_
    for letter, number in zip(form, numbers):
        widths = {"D": 32, "R": 16}
        bytes_ += number.to_bytes(widths[letter], "big") if letter in widths else struct.pack(">" + letter, number)
    if len(form) != len(numbers):
        raise Unread(form)
    return bytes_


def record(line: str, version: int = 1) -> bytes:
    """A record in a leaf."""
    return plain.record_bytes(plain.record_of(line.split(" ")), version)


def put(bytes_: bytes, part: str) -> bytes:
    """A file with one more part at its end."""
    kind, _, words = part.partition(" ")
    n = tuple(numbers_of(words))
    ways = {
        "|": lambda: words.replace("..", ZEROS).encode() + b"\n",
        "text": lambda: words.replace("..", ZEROS).encode(),
        "times": lambda: put(b"", "| " + words.partition(" ")[2]) * int(words.partition(" ")[0]),
        "hex": lambda: bytes.fromhex(words),
        "zeros": lambda: bytes(n[0]),
        "points": lambda: "".join("%d %d 0 %d 0 -\n" % (i, i, i) for i in range(1, n[0] + 1)).encode(),
        "places": lambda: lines("", range(n[0], n[0] + n[1])),
        "places2": lambda: lines2(range(n[0], n[0] + n[1])),
        "overlapping": lambda: overlapping(range(n[0], n[0] + n[1])),
        "added": lambda: lines("+ ", range(n[0], n[0] + n[1])),
        "removed": lambda: removed(*n),
        "renewed": lambda: (b"- %d\n" % n[0] + lines("+ ", [n[0]])) * n[1],
        "mixed": lambda: mixed(n[0]),
        "window": lambda: fields(b"MRVO\x01W", "QQB", n),
        "window2": lambda: fields(b"MRVO\x02W", "QQB", n),
        "count2": lambda: fields(b"MRVO\x02C", "QQB", n),
        "join2": lambda: fields(b"MRVO\x02J", "QQB", n),
        "joined": lambda: fields(b"MRJN\x01", "iiiiI", n),
        "nearest": lambda: fields(b"MRVO\x01K", "QQBRB" if n[2] else "QQBB", n),
        "nearest2": lambda: fields(b"MRVO\x02K", "QQBRB" if n[2] else "QQBB", n),
        "leaf": lambda: fields(b"L", "B", n),
        "record": lambda: record(words),
        "record2": lambda: record(words, 2),
        "node": lambda: fields(b"N", "B", n),
        "pruned": lambda: fields(b"P", "iiiiD", n),
        "pruned2": lambda: fields(b"P", "iiiiQQD", n),
        "map": lambda: fields(b"MRMP\x01", "BQQIIiiiiD", n),
        "map2": lambda: fields(b"MRMP\x02", "BQQIIiiiiQD", n),
        "inner": lambda: fields(b"N", "BB", n),
        "child": lambda: fields(b"", "IiiiiD", n),
        "child2": lambda: fields(b"", "IiiiiQQD", n),
        "seal": lambda: bytes(4092 - len(bytes_)) + b"SEAL",
        "seal2": lambda: bytes(8188 - len(bytes_)) + b"SEAL",
        "fill": lambda: bytes(-len(bytes_) % 4096),
        "fill2": lambda: bytes(-len(bytes_) % 8192),
    }
    if kind not in ways:
        raise Unread(part)
    return bytes_ + ways[kind]()


def groups(folder: str) -> Iterator[Group]:
    """Each row, story and list of bad words of the tables in a folder."""
    for path in sorted(glob.glob(os.path.join(folder, "*.rows"))):
        yield from Table(path).groups
