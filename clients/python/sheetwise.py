"""An atlas by the pages of its files: those of its index, and then of the sheets that a query opens.

Of each map the honest proof is made (pagewise.py), and of these the honest proof of the atlas: docs/FORMATS.md says
how, at "Atlases". What its bytes are worth mrtree_check says, as of any proof.
"""
from __future__ import annotations

import math
import os
import struct
import threading
from collections import OrderedDict
from contextlib import contextmanager
from functools import partial
from typing import Callable, Dict, Iterator, List, Tuple

if __package__:
    from . import mrtree_check as client
    from .mrtree_check import EVERYTHING, OPEN, Ended, Query, Record, Refused, Sheet, Ways
    from .pagewise import FarMap, in_part
    from .ranges import AT_ONCE, Failed, Link, Meter, is_address, side_by_side, source_of
else:
    import mrtree_check as client
    from mrtree_check import EVERYTHING, OPEN, Ended, Query, Record, Refused, Sheet, Ways
    from pagewise import FarMap, in_part
    from ranges import AT_ONCE, Failed, Link, Meter, is_address, side_by_side, source_of

MOST_SHEETS, MOST_NODES = 64, 20000  # that are kept from one query to the next
Prove = Callable[[FarMap, Query], bytes]


@contextmanager
def told_of(part: str) -> Iterator[None]:
    """What is refused here is told of this map."""
    try:
        yield
    except Refused as fault:
        raise in_part(part, fault) from None


def is_atlas(place: str) -> bool:
    """Whether a word is meant as the place of an atlas, and not of a map: it ends with a slash, or is a folder.

    >>> [is_atlas(word) for word in ("https://example.org/a/", "https://example.org/a", "a.map", "none/", os.curdir)]
    [True, False, False, True, True]
    """
    return place.endswith("/") or not is_address(place) and os.path.isdir(place)


class FarAtlas:
    """The atlas with a root digest, in a folder or below an address; pages of its files come as queries open them.

    Some of what was fetched is kept for the next query. One thread at a time may ask. Every call may raise MapRefused,
    of which the part says in which map it is; Refused where a record of the index tells of no sheet; ranges.Failed; and
    Ended where a sheet of version 2 is needed.
    """

    def __init__(self, root: bytes, place: str, meter: Meter) -> None:
        self.place, self.meter = place if place.endswith("/") else place + "/", meter
        self.free: List[Link] = []
        self.kept: OrderedDict[bytes, FarMap] = OrderedDict()  # sheets, the one that was used last behind the others
        self.lock = threading.Lock()
        with told_of("index"):
            self.index = self.far(root, AT_ONCE)

    def far(self, root: bytes, at_once: int) -> FarMap:
        """The map with this root digest. Raises as FarMap."""
        return FarMap(root, source_of(self.place + "sheets/" + root.hex(), self.meter, self.free, at_once))

    def count_by(self, meter: Meter) -> None:
        """What is fetched from now on counts on this meter. No query is asked meanwhile."""
        self.meter = meter
        for far in (self.index, *self.kept.values()):
            far.source.meter = meter

    def proof(self, query: Query) -> bytes:
        """The honest proof of the answer to a query."""
        half = self.half_side(query) if query.k else 0
        window = Query(client.square(query.rect, half) if query.k else query.rect, 0, query.mask)
        front = b"MRAT\1" + client.kind_of(query).letter + (struct.pack(">I", half) if query.k else b"")
        return self.proof_of(front, window, client.reach(window, None), FarMap.proof)

    def count_proof(self, query: Query) -> bytes:
        """The honest proof of how many records lie inside a window."""
        return self.proof_of(b"MRAT\1C", query, client.inside(query), FarMap.count_proof)

    def proof_of(self, front: bytes, query: Query, ways: Ways, prove: Prove) -> bytes:
        """The proof that begins like this, with the parts of the sheets that are open."""
        window = Query(query.rect, 0)
        with told_of("index"):
            part = self.index.proof(window)
            answer = client.judge(self.index.root, window, [part])
        sheets = [client.read_sheet(record) for record in answer.records]
        opened = [sheet for sheet in sheets if client.way_of_sheet(sheet, query, ways) == OPEN]
        made = self.parts(list({sheet.root: sheet for sheet in opened}.values()), query, prove)
        parts = [part, *(made[sheet.root] for sheet in opened)]
        if sum(map(len, parts)) > self.meter.limits.bytes:  # as it never is without a sheet that stands there often
            raise Failed("MostBytes", self.place, "more than %d bytes" % self.meter.limits.bytes)
        return front + b"".join(struct.pack(">I", len(part)) + part for part in parts)

    def parts(self, sheets: List[Sheet], query: Query, prove: Prove) -> Dict[bytes, bytes]:
        """The parts of sheets, by their root digests: on a server several at once."""
        if not is_address(self.place):
            return {sheet.root: self.part(sheet, query, prove, 1) for sheet in sheets}
        workers = min(AT_ONCE, len(sheets))
        tasks = [partial(self.part, sheet, query, prove, AT_ONCE // workers) for sheet in sheets]
        come = side_by_side(tasks, workers, lambda: self.meter.left(self.place))
        return {sheets[at].root: part for at, part in come}

    def part(self, sheet: Sheet, query: Query, prove: Prove, at_once: int) -> bytes:
        """The part of a sheet, with so many requests at once."""
        with self.asked(sheet, at_once) as far:
            return prove(far, query)

    @contextmanager
    def asked(self, sheet: Sheet, at_once: int) -> Iterator[FarMap]:
        """The map of a sheet, to be asked by one thread; it is kept unless it fails."""
        with self.lock:
            far = self.kept.pop(sheet.root, None)
        with told_of("sheet %d" % sheet.number):
            far = far or self.far(sheet.root, at_once)
            far.source.at_once = at_once
            yield far
        with self.lock:
            self.kept[sheet.root] = far
            while len(self.kept) > MOST_SHEETS or sum(map(nodes_of, self.kept.values())) > MOST_NODES:
                self.kept.popitem(last=False)

    def half_side(self, query: Query) -> int:
        """Half a side of the square of a query for nearest records, by sheets of rising distance."""
        far: List[int] = []
        near = self.index.by_distance(query.rect)
        while True:
            with told_of("index"):
                distance, record = next(near, (0, None))
            if record is None or len(far) == query.k and distance >= far[-1]:
                break
            far = self.distances(client.read_sheet(record), query, far)
        if len(far) < query.k:
            return EVERYTHING
        return min(math.isqrt(far[-1] - 1) + 1 if far[-1] else 0, EVERYTHING)

    def distances(self, sheet: Sheet, query: Query, known: List[int]) -> List[int]:
        """The least squared distances of these that are known and those of the sheet's records, at most k."""
        if sheet.version == 1 and query.mask is not None:
            raise Ended(10, "needs version 2")
        if sheet.mask & client.layers(query) == 0:
            return known
        with self.asked(sheet, AT_ONCE) as far:
            return far.distances(query, known)


def nodes_of(far: FarMap) -> int:
    """How many nodes of a map are kept."""
    return sum(map(len, far.nodes))
