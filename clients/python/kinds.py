"""What a file is, by its first bytes: a map, a proof, a bundle, a journal, an index or a text; and what it says of itself.

Nothing of that is checked: of a map page 0 alone is read, and of a proof its head. Tested, and not proved.
"""
from __future__ import annotations

import os
import re
import struct
from itertools import chain
from typing import Callable, Dict, Iterator, List, Optional, Tuple

if __package__:
    from .mrtree_check import Refused
    from .outputs import Unfit
    from .pagewise import FIRST, PAGE, Head, MapRefused, read_page_0
    from .ranges import Failed, Limits, Meter, Source, is_address, source_of
    from .shapes import HEAD, MAGIC, PLACES, SHAPES
else:
    from mrtree_check import Refused
    from outputs import Unfit
    from pagewise import FIRST, PAGE, Head, MapRefused, read_page_0
    from ranges import Failed, Limits, Meter, Source, is_address, source_of
    from shapes import HEAD, MAGIC, PLACES, SHAPES

PIECE = 2**20  # bytes that are read at once
INDEX = "index.map"  # the file in the folder of an atlas that has its index
MOST_LINE = 4096  # bytes of the first line of a text
KINDS = {b"W": "window", b"K": "nearest", b"C": "count", b"J": "part of a join"}  # of proofs, by their byte 5
ATLAS_KINDS = (b"W", b"K", b"C")  # those of an atlas's proof
NUMBER = rb"(?:0|[1-9][0-9]{0,19})"
RECORD = re.compile(rb"%s(?: -?[0-9]{1,10}){4}( [0-9]{1,2})? (?:-|[0-9a-f]{2,400})" % NUMBER)
BATCH = re.compile(rb"batch (%s)" % NUMBER)
QUERY = re.compile(rb"(?:window|nearest):[-0-9,]{1,60}(?:/[0-9a-f]{16})?")
SAID = re.compile(rb"([a-z]{1,20}): [^\x00-\x1f]{1,2000}")
SHOWN = ["map", "root", "atlas", "version", "batch", "records", "unit", "crs", "from", "until", "ended"]  # of statements


def lines_of(name: str, limits: Limits = Limits()) -> List[str]:
    """What a file or what lies at an address is, in lines. Raises Unfit, Refused and Failed."""
    if not is_address(name) and os.path.isfile(os.path.join(name, INDEX)):
        return ["file: folder of an atlas", *lines_of(os.path.join(name, INDEX), limits)[1:]]
    try:
        source = source_of(name, Meter(limits))
    except ValueError as fault:
        raise Unfit(str(fault)) from None
    front = next(found for _, found in source.many([(0, FIRST)]))
    size = None if is_address(name) else os.path.getsize(name)
    for begins, read in BY_MAGIC.items():
        if front.startswith(begins):
            return read(front, size)
    if front[4:8] == b"MRVO":
        return bundle_lines(pieces_of(source))
    if name.endswith(".journal") or front[:2] in (b"O\1", b"O\2", b"\0\1", b"\0\2"):
        return journal_lines(front)
    found = text_lines(front, source)
    if not found:
        raise Unfit("%s: it is no map, proof, bundle, journal or index, and no text of a known form" % name)
    return found


def pieces_of(source: Source) -> Iterator[bytes]:
    """The bytes of a file, in pieces. Raises Failed."""
    at, size = 0, PIECE
    while size == PIECE:
        piece = next(found for _, found in source.many([(at, at + PIECE)]))
        at, size = at + PIECE, len(piece)
        yield piece


# ---- by their first bytes


def map_lines(front: bytes, size: Optional[int]) -> List[str]:
    """What page 0 says of a map. Raises MapRefused where it is no page 0, or not of a file so long."""
    head, root = head_of(front)
    if size is not None and size != head.pages * PAGE[head.version]:
        raise MapRefused("Size", 0)
    lines = ["file: map", "version: %d" % head.version, "batch: %d" % head.batch, "records: %d" % head.count]
    lines += ["root: " + root.hex(), "extent: none" if head.root is None else "extent: %d %d %d %d" % head.root.part.rect]
    if head.version == 2:
        mask = head.root.part.mask if head.root else 0
        lines.append("layers: " + (" ".join(str(layer) for layer in range(64) if mask >> layer & 1) or "none"))
    return [*lines, "pages: %d" % head.pages]


def head_of(front: bytes) -> Tuple[Head, bytes]:
    """What page 0 says, and the root digest of the map that it is of. Raises MapRefused."""
    try:
        read_page_0(front, b"")
    except MapRefused as fault:
        if fault.rule == "WrongRoot":
            return read_page_0(front, fault.found), fault.found
        raise
    raise MapRefused("Header", 0)


def proof_lines(front: bytes, size: Optional[int]) -> List[str]:
    """What the head of a proof says. Raises Refused where it is none."""
    version, kind, batch, count = head_of_proof(front, 0)
    return ["file: proof", "kind: " + KINDS[kind], "version: %d" % version, "batch: %d" % batch, "records: %d" % count]


def head_of_proof(front: bytes, at: int) -> Tuple[int, bytes, int, int]:
    """Version, kind, batch and count of the map, in the head of a proof at a place. Raises Refused."""
    if len(front) < at + 22:
        raise Refused("Short", len(front))
    magic, version, kind, batch, count = struct.unpack_from(">4sBcQQ", front, at)
    for is_wrong, rule, place in (
        (magic != b"MRVO", "BadMagic", at),
        (version not in (1, 2), "BadVersion", at + 4),
        (kind not in KINDS, "WrongKind", at + 5),
    ):
        if is_wrong:
            raise Refused(rule, place)
    return version, kind, batch, count


def join_lines(front: bytes, size: Optional[int]) -> List[str]:
    """What the heads of a join's proof say. Raises Refused where it is none."""
    flag = front[4:5]
    if flag not in (b"\0", b"\1"):
        raise Refused("BadFlag" if flag else "Short", 4, b"", "frame")
    lines = ["file: proof", "kind: join", "version: 2"]
    if flag == b"\1":
        if len(front) < 25:
            raise Refused("Short", len(front), b"", "frame")
        lines += ["first batch: %d" % head_of_proof(front, 25)[2], "first records: %d" % head_of_proof(front, 25)[3]]
        return lines
    _, _, batch, count = head_of_proof(front, 5)
    return [*lines, "second batch: %d" % batch, "second records: %d" % count]


def atlas_lines(front: bytes, size: Optional[int]) -> List[str]:
    """What the frame of an atlas's proof says, and the head of its index's part. Raises Refused where it is none.

    >>> atlas_lines(b"MRAT\1W" + bytes([0, 0, 0, 22]) + b"MRVO\1W" + bytes(15) + b"\5", None)
    ['file: proof', 'kind: window of an atlas', 'batch: 0', 'sheets: 5']
    """
    kind = front[5:6]
    if len(front) < 6 or front[4:5] != b"\1" or kind not in ATLAS_KINDS:
        place = 4 if front[4:5] not in (b"", b"\1") else 5
        raise Refused("Short" if len(front) < 6 else "BadVersion" if place == 4 else "WrongKind", place, b"", "frame")
    _, _, batch, count = head_of_proof(front, 14 if kind == b"K" else 10)
    return ["file: proof", "kind: %s of an atlas" % KINDS[kind], "batch: %d" % batch, "sheets: %d" % count]


def index_lines(front: bytes, size: Optional[int]) -> List[str]:
    """What the head of an index says. Raises Unfit where it is none."""
    if len(front) < HEAD.size or front[4:6] not in (b"\1" + SHAPES, b"\1" + PLACES):
        raise Unfit("it begins as an index, and is none that is known")
    _, _, kind, count, length = HEAD.unpack_from(front)
    lines = ["file: index of " + ("shapes" if kind == SHAPES else "places"), "entries: %d" % count]
    return lines + ["bytes of shapes: %d" % length] * (kind == SHAPES)


def known_lines(words: str) -> Callable[[bytes, Optional[int]], List[str]]:
    """What reads a file of which no more is told than these words."""
    return lambda front, size: ["file: " + words]


BY_MAGIC: Dict[bytes, Callable[[bytes, Optional[int]], List[str]]] = {
    b"MRMP": map_lines,
    b"MRVO": proof_lines,
    b"MRJN": join_lines,
    b"MRAT": atlas_lines,
    MAGIC: index_lines,
    b"-----BEGIN SSH SIGNATURE-----": known_lines("signature"),
    b"\x1f\x8b": known_lines("packed by gzip"),
    b"SQLite format 3\0": known_lines("SQLite, as a GeoPackage is: ogr2ogr makes GeoJSON of it"),
}


# ---- others


def bundle_lines(pieces: Iterator[bytes]) -> List[str]:
    """How many proofs a bundle has, and where it is broken.

    >>> bundle_lines(iter([bytes([0, 0, 0, 4]) + b"MRVO", bytes([0, 0, 0, 9]) + b"MRVO"]))
    ['file: bundle', 'proofs: 1', 'broken at: 8']
    """
    held, at, proofs = b"", 0, 0
    skip = 0  # bytes of the last proof that are still to come
    for piece in pieces:
        taken = min(skip, len(piece))
        held, skip, at = held + piece[taken:], skip - taken, at + taken
        while skip == 0 and len(held) >= 4:
            length = int.from_bytes(held[:4], "big")
            taken = min(4 + length, len(held))
            held, skip, at, proofs = held[taken:], 4 + length - taken, at + taken, proofs + 1
            began = at - taken
    if not skip and not held:
        return ["file: bundle", "proofs: %d" % proofs]
    return ["file: bundle", "proofs: %d" % (proofs - (skip > 0)), "broken at: %d" % (began if skip else at)]


def journal_lines(front: bytes) -> List[str]:
    """What the front of a journal says. Of a closed one no more than the first byte means anything."""
    if front[:1] != b"O" or len(front) < 6:
        return ["file: journal", "state: closed"]
    return ["file: journal", "state: open", "version: %d" % front[1], "pages: %d" % int.from_bytes(front[2:6], "big")]


def text_lines(front: bytes, source: Source) -> List[str]:
    """What a text is, by its first line, and how many lines it has; none where its form is not known."""
    first = front[:MOST_LINE].split(b"\n")[0].rstrip(b"\r")
    record, batch = RECORD.fullmatch(first), BATCH.fullmatch(first)
    if record:
        return ["file: record text", "version: %d" % (2 if record[1] else 1), "records: %d" % count_of(source)]
    if batch:
        added = re.search(rb"^\+ (.*)$", front, re.MULTILINE)
        lines = ["file: batch text", "batch: " + batch[1].decode()]
        lines += ["version: %d" % (len(added[1].split(b" ")) - 5)] if added else []
        return [*lines, "changes: %d" % (count_of(source) - 1)]
    if QUERY.fullmatch(first):
        return ["file: script", "queries: %d" % count_of(source)]
    if front.lstrip(b"\xef\xbb\xbf \t\r\n\x1e").startswith(b"{"):
        return ["file: GeoJSON"]
    return statement_lines(front)


def statement_lines(front: bytes) -> List[str]:
    """What a statement says of its map, where a text is one; else none."""
    lines = front.split(b"\n")
    said = {line.split(b":")[0].decode(): line for line in lines[:-1] if SAID.fullmatch(line)}
    if not {"map", "root", "unit"} <= set(said):
        return []
    return ["file: statement", *(said[key].decode("utf-8", "replace") for key in SHOWN if key in said)]


def count_of(source: Source) -> int:
    """How many lines a file has."""
    last, count = b"\n", 0
    for piece in chain(pieces_of(source)):
        count, last = count + piece.count(b"\n"), piece[-1:] or last
    return count + (last != b"\n")


__all__ = ["Failed", "lines_of"]
