"""Journals beside map files, by docs/FORMATS.md alone: which are open, what they restore to, and how they are spelled."""
import random
import struct
from typing import List, NamedTuple, Optional, Tuple

PAGES = {1: 4096, 2: 8192}  # the bytes of a page, by the version of its map
MOST_PAGES = 2**20
GATE = 0x4F  # of an open journal
HEAD = 6  # bytes before the entries


class Entry(NamedTuple):
    """A page by its number, and its bytes."""

    page: int
    bytes_: bytes


def name_of(map_: str) -> str:
    """The name of the journal of a map file."""
    return map_ + ".journal"


def entries_of(journal: bytes) -> Optional[List[Entry]]:
    """The entries behind an open gate, where version and number are in order and all of them are there; else none."""
    if len(journal) < HEAD or journal[0] != GATE or journal[1] not in PAGES:
        return None
    size, count = PAGES[journal[1]], int.from_bytes(journal[2:HEAD], "big")
    if not 1 <= count <= MOST_PAGES or len(journal) < HEAD + count * (4 + size):
        return None
    parts = [journal[HEAD + at * (4 + size) :][: 4 + size] for at in range(count)]
    return [Entry(int.from_bytes(part[:4], "big"), part[4:]) for part in parts]


def restored(map_: bytes, journal: bytes) -> Tuple[bytes, bool]:
    """The map to which a map and its journal restore, and whether the journal is open."""
    made, least = bytearray(map_), 0
    entries = entries_of(journal)
    for page, bytes_ in entries or []:
        at = page * len(bytes_)
        if not least <= page < MOST_PAGES or at > len(made):
            return map_, False
        made[at : at + len(bytes_)] = bytes_
        least = page + 1
    return bytes(made), entries is not None


def recovered(map_: bytes, journal: bytes) -> Tuple[bytes, bytes]:
    """What recovery leaves of a map and its journal."""
    made, is_open = restored(map_, journal)
    return made, b"\0" + journal[1:] if is_open else journal


def spelled(version: int, entries: List[Entry], gate: int = GATE) -> bytes:
    """A journal of these entries."""
    head = struct.pack(">BBI", gate, version, len(entries))
    return head + b"".join(struct.pack(">I", page) + bytes_ for page, bytes_ in entries)


def changed(size: int, old: bytes, new: bytes) -> List[Entry]:
    """Page 0 of a new map, and its pages that are others than in the old one or are not there."""
    pages = [Entry(page, new[page * size : (page + 1) * size]) for page in range(len(new) // size)]
    return [one for one in pages if one.page == 0 or one.bytes_ != old[one.page * size : (one.page + 1) * size]]


def left_by(version: int, old: bytes, new: bytes, journal: bytes) -> bytes:
    """The journal that an update from one map to the other leaves, where one of these bytes was there before."""
    body = spelled(version, changed(PAGES[version], old, new), 0)
    return body + journal[len(body) :]


# ---- journals that nobody means well with


def bent(journal: bytes, pages: int, chance: random.Random) -> bytes:
    """A journal that differs from this one in its gate, version, number, order, pages or length; or not at all."""
    entries, way = entries_of(journal) or [], chance.randrange(10)
    version = journal[1] if len(journal) > 1 else 1
    if way == 0:
        return bytes([chance.choice((0, 1, 0x17, 0x4E, 0xFF))]) + journal[1:]
    if way == 1:
        return journal[:1] + bytes([chance.choice((0, 1, 2, 3, 255))]) + journal[2:]
    if way == 2:
        count = max(0, len(entries) + chance.choice((-1, 1, 0, 2**20, 2**31)))
        return journal[:2] + struct.pack(">I", count % 2**32) + journal[HEAD:]
    if way == 3:
        return journal[: chance.randrange(len(journal) + 1)]
    if way == 4:
        return journal + chance.randbytes(chance.choice((1, 5, 4100, 9000)))
    if way == 5 and len(entries) > 1:
        at = chance.randrange(len(entries) - 1)
        entries[at : at + 2] = entries[at + 1], entries[at]
    elif way == 6 and entries:
        at = chance.randrange(len(entries))
        entries[at] = entries[at]._replace(page=chance.choice((0, pages - 1, pages, pages + 1, 2**20 - 1, 2**20, 2**32 - 1)))
    elif way == 7 and entries:
        entries.insert(chance.randrange(len(entries)), entries[chance.randrange(len(entries))])
    elif way == 8 and entries:
        at = chance.randrange(len(entries))
        entries[at] = entries[at]._replace(bytes_=chance.randbytes(PAGES[version]))
    return spelled(version, entries, journal[0]) if entries else journal
