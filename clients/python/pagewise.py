"""A map by the pages of its file: they are fetched as a query opens them, and the honest proof is made of them.

Each page is checked against the entry above it, and page 0 against the root digest: docs/FORMATS.md says how, at "Map
files". Nodes are kept by their digests, never by their pages, since no digest covers the number of a page. The bytes of
a proof are those that the program writes; what they are worth mrtree_check says, as of any proof.
"""
from __future__ import annotations

import heapq
import itertools
import struct
from typing import Callable, Dict, Iterable, Iterator, List, NamedTuple, Optional, Set, Tuple, Union

if __package__:
    from . import mrtree_check as client
    from .mrtree_check import OPEN, Ended, Part, Query, Record, Rect, Refused, Ways
    from .ranges import Place, Source
else:
    import mrtree_check as client
    from mrtree_check import OPEN, Ended, Part, Query, Record, Rect, Refused, Ways
    from ranges import Place, Source

PAGE = {1: 4096, 2: 8192}  # bytes of a page, by the version
MOST_PAGES = 2**20
FIRST = 16384  # bytes that are fetched first: page 0 and the next one, in version 2
GAP = 2  # pages that nobody asked for, between two that are fetched at once
MOST_RANGE = 2**20  # bytes of a range
MOST_LEAVES = 20000  # that are kept from one query to the next
MEANINGS = {  # what it mostly is that a map's file is refused, by the rule
    "Size": "the file ends before its first page does, or later than that says: it is no map file, or was cut off",
    "Unsealed": "the file is no map file, or was not written to its end",
    "Header": "the file is no map file of a version that is known here",
    "WrongRoot": "the file is of another map than the one with this root digest, or of another state of it",
    "Outside": "the file has no such page: it was cut off, or changed",
    "Page": "the page has no such node: the file was changed",
    "Digest": "the page has another node than the one that belongs there: the file was changed",
    "Twice": "a node stands at two places: the root digest is of no map",
}


class MapRefused(Refused):
    """A page of a map's file does not fit the root digest: the rule that it breaks, and its number as the place."""

    def __str__(self) -> str:
        found = " found " + self.found.hex() if self.found else ""
        return "refused %smap page %d %s%s" % (self.part and self.part + " ", self.place, self.rule, found)

    def meaning(self) -> str:
        """What it mostly is."""
        return MEANINGS[self.rule]


class Child(NamedTuple):
    """What is said of a node from above: its page and level, and its entry, also as the bytes that a proof has."""

    page: int
    level: int
    part: Part
    entry: bytes


class Node(NamedTuple):
    """A node: its children, or as a leaf its bytes, and the rectangle and mask of each record."""

    children: List[Child]
    leaf: bytes
    records: List[Tuple[Rect, int]]


class Head(NamedTuple):
    """What page 0 says of the map that it is of; a map without records has no root node."""

    version: int
    batch: int
    count: int
    pages: int
    root: Optional[Child]


# ---- pages


def read_page_0(front: bytes, root: bytes) -> Head:
    """What page 0 says, where it is that of the map with this root digest. Raises MapRefused."""
    head, found = page_0_of(front)
    if found != root:
        raise MapRefused("WrongRoot", 0, found)
    return head


def page_0_of(front: bytes) -> Tuple[Head, bytes]:
    """What page 0 says, and the root digest of the map that it is of. Raises MapRefused."""
    version = 2 if front[4:5] == b"\2" else 1
    page = front[: PAGE[version]]
    if len(page) < PAGE[version]:
        raise MapRefused("Size", 0)
    if page[-4:] != b"SEAL":
        raise MapRefused("Unsealed", 0)
    form = struct.Struct(">4sBBQQII4i" + ("Q32sI" if version == 2 else "32sI"))
    magic, byte, level, batch, count, pages, at, x0, y0, x1, y1, *masks, digest, _ = form.unpack_from(page)
    is_head = magic == b"MRMP" and byte == version and level <= 7 and count <= client.MOST_RECORDS
    is_head = is_head and 1 <= pages <= MOST_PAGES and x0 <= x1 and y0 <= y1 and not any(page[form.size : -4])
    root_fields = (level, at, x0, y0, x1, y1, *masks, *digest)
    if not is_head or (at == 0 or 0 in masks if count else any(root_fields)):
        raise MapRefused("Header", 0)
    mask = masks[0] if masks else client.ALL_LAYERS
    part = Part((x0, y0, x1, y1), mask, count if masks else 0, digest) if count else None
    found = client.root_digest(client.Head(version, batch, count, None, level), part)
    return Head(version, batch, count, pages, part and Child(at, level, part, part.entry(version))), found


def read_node(child: Child, page: bytes, version: int) -> Node:
    """The node of this entry, on its page. Raises MapRefused where that is another one, or none.

    >>> page = bytes.fromhex("4c01" "0000000000000001" "00000002000000030000000400000005" "00").ljust(4096, bytes(1))
    >>> part = Part((2, 3, 4, 5), client.ALL_LAYERS, 0, client.digest(page[:27]))
    >>> read_node(Child(7, 0, part, b""), page, 1).records == [((2, 3, 4, 5), client.ALL_LAYERS)]
    True
    >>> read_node(Child(7, 1, part, b""), page, 1)
    Traceback (most recent call last):
    pagewise.MapRefused: refused map page 7 Page
    """
    try:
        node, told, end = read_inner(child, page, version) if child.level else read_leaf(page, version)
        if any(page[end:]):
            raise ValueError
    except (ValueError, struct.error, IndexError):
        raise MapRefused("Page", child.page) from None
    if client.digest(told) != child.part.digest:
        raise MapRefused("Digest", child.page)
    return node


def read_inner(child: Child, page: bytes, version: int) -> Tuple[Node, bytes, int]:
    """The inner node on a page, its preimage, and where it ends. Raises ValueError where it is none of this level."""
    if page[:1] != b"N" or page[1] != child.level or not 1 <= page[2] <= 64:
        raise ValueError
    size = 52 if version == 1 else 68
    end = 3 + size * page[2]
    children, told = [], [page[:3]]
    for at in range(3, end, size):
        number, x0, y0, x1, y1 = struct.unpack_from(">I4i", page, at)
        mask, count = struct.unpack_from(">QQ", page, at + 20) if version == 2 else (client.ALL_LAYERS, 0)
        if x0 > x1 or y0 > y1 or version == 2 and (mask == 0 or not 1 <= count <= client.MOST_RECORDS):
            raise ValueError
        entry = page[at + 4 : at + size]
        part = Part((x0, y0, x1, y1), mask, count, entry[-32:])
        children.append(Child(number, child.level - 1, part, entry))
        told.append(entry)
    return Node(children, b"", []), b"".join(told), end


def read_leaf(page: bytes, version: int) -> Tuple[Node, bytes, int]:
    """The leaf on a page, its preimage, and where it ends. Raises ValueError, struct.error or IndexError."""
    if page[:1] != b"L" or not 1 <= page[1] <= 16:
        raise ValueError
    records, at = [], 2
    for _ in range(page[1]):
        x0, y0, x1, y1 = struct.unpack_from(">4i", page, at + 8)
        layer, length = (page[at + 24], page[at + 25]) if version == 2 else (0, page[at + 24])
        if x0 > x1 or y0 > y1 or layer > client.MOST_LAYER or length > 200:
            raise ValueError
        records.append(((x0, y0, x1, y1), 1 << layer if version == 2 else client.ALL_LAYERS))
        at += (25 if version == 1 else 26) + length
    return Node([], page[:at], records), page[:at], at


# ---- the map


class FarMap:
    """The map with a root digest, in a file of which pages are fetched as queries open them.

    The nodes that were fetched are kept for the next query. One thread at a time may ask. Every call may raise
    MapRefused, ranges.Failed, and Ended where a map of version 2 is needed.
    """

    def __init__(self, root: bytes, source: Source) -> None:
        self.source, self.root = source, root
        self.nodes: List[Dict[bytes, Node]] = [{} for _ in range(8)]  # those of each level, by their digests
        self.front = next(found for _, found in source.many([(0, FIRST)]))
        self.head = read_page_0(self.front, root)

    def proof(self, query: Query) -> bytes:
        """The honest proof of the answer to a query."""
        if query.mask is not None:
            self.refuse_version_1()
        self.forget()
        radius = self.radius(query) if query.k else None
        flag = b"" if not query.k else b"\0" if radius is None else b"\1" + radius.to_bytes(16, "big")
        return self.proof_of(b"K" if query.k else b"W", flag, client.reach(query, radius))

    def count_proof(self, query: Query) -> bytes:
        """The honest proof of how many records lie inside a window."""
        self.refuse_version_1()
        self.forget()
        return self.proof_of(b"C", b"", client.inside(query))

    def part_of_join(self, meets: Callable[[Rect], bool]) -> bytes:
        """The part of an honest join proof, for what meets the rectangles that it is for."""
        return self.proof_of(b"J", b"", lambda rect, mask: OPEN if meets(rect) else client.SKIP)

    def refuse_version_1(self) -> None:
        """Raises Ended where the map is of version 1."""
        if self.head.version == 1:
            raise Ended(10, "needs version 2")

    def forget(self) -> None:
        """Forgets the leaves, where they are many."""
        if len(self.nodes[0]) > MOST_LEAVES:
            self.nodes[0].clear()

    # -- pages and nodes

    def node(self, child: Child) -> Node:
        """The node of an entry, which was fetched."""
        return self.nodes[child.level][child.part.digest]

    def is_kept(self, child: Child) -> bool:
        """Whether the node of an entry was fetched."""
        return child.part.digest in self.nodes[child.level]

    def keep(self, child: Child, page: bytes) -> None:
        """Keeps the node of an entry, by its page."""
        if len(page) < PAGE[self.head.version]:
            raise MapRefused("Outside", child.page)
        self.nodes[child.level][child.part.digest] = read_node(child, page, self.head.version)

    def fetch(self, children: Iterable[Child]) -> None:
        """Fetches the nodes of entries that are not kept, near ones by one request."""
        size, groups = PAGE[self.head.version], []
        wanted = {child.part.digest: child for child in children if not self.is_kept(child)}
        for child in sorted(wanted.values(), key=lambda child: child.page):
            if not 0 < child.page < self.head.pages:
                raise MapRefused("Outside", child.page)
            at = child.page * size
            if at + size <= len(self.front):
                self.keep(child, self.front[at : at + size])
            elif groups and is_near(groups[-1], child, MOST_RANGE // size):
                groups[-1].append(child)
            else:
                groups.append([child])
        places: List[Place] = [(group[0].page * size, (group[-1].page + 1) * size) for group in groups]
        for number, found in self.source.many(places) if groups else []:
            for child in groups[number]:
                at = (child.page - groups[number][0].page) * size
                self.keep(child, found[at : at + size])

    def open_all(self, way: Ways) -> Set[bytes]:
        """Fetches all nodes that are open, level by level; answers their entries."""
        digests: Set[bytes] = set()
        opened: Set[bytes] = set()
        row = [self.head.root] if self.head.root else []
        while row:
            row = [child for child in row if way(child.part.rect, child.part.mask) == OPEN]
            for child in row:
                see(child, digests)
            self.fetch(row)
            opened.update(child.entry for child in row)
            row = [below for child in row for below in self.node(child).children]
        return opened

    # -- what proofs are made of

    def radius(self, query: Query) -> Optional[int]:
        """The squared distance of the last one of the nearest records; None where there are fewer."""
        far = self.distances(query, [])
        return far[-1] if len(far) == query.k else None

    def distances(self, query: Query, known: List[int]) -> List[int]:
        """The least squared distances, in rising order, of these that are known and those of records: at most k.

        The nearest node is opened, again and again, as long as it may hold a nearer record.
        """
        asked, root = client.layers(query), self.head.root
        best = [-far for far in known]  # the least squared distances, at most k of them; negated, as a heap
        heapq.heapify(best)
        heap: List[Tuple[int, int, Child]] = []  # nodes by their squared distance, and in the order in which they came
        come, turns = [root] if root else [], itertools.count()
        digests: Set[bytes] = set()
        while True:
            for child in come:
                if child.part.mask & asked:
                    heapq.heappush(heap, (client.distance(query.rect, child.part.rect), next(turns), child))
            radius = -best[0] if len(best) == query.k else None
            if not heap or radius is not None and heap[0][0] >= radius:
                return sorted(-far for far in best)
            self.fetch(likely(heap, query.k, radius, self.is_kept))
            nearest = heapq.heappop(heap)[2]
            see(nearest, digests)
            node = self.node(nearest)
            come = node.children
            for rect, mask in node.records:
                if mask & asked:
                    heapq.heappush(best, -client.distance(query.rect, rect))
                    if len(best) > query.k:
                        heapq.heappop(best)

    def by_distance(self, point: Rect) -> Iterator[Tuple[int, Record]]:
        """All records by rising squared distance from a point, each behind its own: nodes are opened as it goes on."""
        heap: List[Tuple[int, int, Union[Child, Record]]] = []
        come: List[Union[Child, Record]] = [self.head.root] if self.head.root else []
        turns, digests = itertools.count(), set()
        while True:
            for one in come:
                rect = one.rect if isinstance(one, Record) else one.part.rect
                heapq.heappush(heap, (client.distance(point, rect), next(turns), one))
            if not heap:
                return
            far, _, nearest = heapq.heappop(heap)
            come = []
            if isinstance(nearest, Record):
                yield far, nearest
                continue
            see(nearest, digests)
            self.fetch([nearest])
            node = self.node(nearest)
            come = [*node.children, *records_of(node, self.head.version)]

    def proof_of(self, kind: bytes, flag: bytes, way: Ways) -> bytes:
        """The proof of this kind that opens what is open."""
        head = self.head
        pieces = [b"MRVO", bytes([head.version]), kind, struct.pack(">QQ", head.batch, head.count), flag]
        if head.root:
            pieces.append(bytes([head.root.level]))
            self.add_item(head.root, self.open_all(way), pieces)
        return b"".join(pieces)

    def add_item(self, child: Child, opened: Set[bytes], pieces: List[bytes]) -> None:
        """Adds the item of a node, and those of the nodes below it."""
        if child.entry not in opened:
            pieces += [b"P", child.entry]
            return
        node = self.node(child)
        pieces.append(node.leaf or b"N" + bytes([len(node.children)]))
        for below in node.children:
            self.add_item(below, opened, pieces)


def records_of(node: Node, version: int) -> List[Record]:
    """The records of a leaf, in its order; none of an inner node.

    >>> leaf = bytes.fromhex("4c01" "0000000000000001" "00000002000000030000000400000005" "00")
    >>> records_of(Node([], leaf, []), 1), records_of(Node([], b"", []), 1)
    ([Record(number=1, rect=(2, 3, 4, 5), payload=b'', layer=0)], [])
    """
    fields = client.Fields([node.leaf[2:]])
    return [client.read_record(fields, version) for _ in range(node.leaf[1] if node.leaf else 0)]


def see(child: Child, digests: Set[bytes]) -> None:
    """Counts a node among those that are opened. Raises MapRefused where it is one: no map has a node twice."""
    if child.part.digest in digests:
        raise MapRefused("Twice", child.page)
    digests.add(child.part.digest)


def is_near(group: List[Child], child: Child, most: int) -> bool:
    """Whether the page of an entry is fetched with those of a group, which have no greater number: at most so many.

    >>> one, two, three, four = [Child(page, 0, Part((0, 0, 0, 0), 1, 1, b""), b"") for page in (5, 6, 9, 13)]
    >>> is_near([one, two], three, 256), is_near([one, two], three, 4), is_near([three], four, 256)
    (True, False, False)
    """
    return child.page - group[-1].page <= GAP + 1 and child.page - group[0].page < most


def likely(
    heap: List[Tuple[int, int, Child]], k: int, bound: Optional[int], is_kept: Callable[[Child], bool]
) -> List[Child]:
    """The nearest node, unless it is kept; and then those of its level with it that may be wanted next.

    Of leaves these are about as many as hold k records.
    """
    first = heap[0][2]
    if is_kept(first):
        return []
    few = 3 + (k // 4 if first.level == 0 else 0)
    near = [one for one in heapq.nsmallest(8 * few, heap) if bound is None or one[0] <= bound]
    return [child for _, _, child in near if child.level == first.level][:few]


def join_proof(first: FarMap, second: FarMap) -> bytes:
    """The honest proof of which records of two maps meet. Raises as the calls of FarMap, a Refused with the part."""
    for far in (first, second):
        far.refuse_version_1()
        far.forget()
    root = second.head.root
    front, records = b"MRJN\0", []
    if root:
        try:
            part = first.part_of_join(lambda rect: client.meet(root.part.rect, rect))
        except Refused as fault:
            raise in_part("first", fault) from None
        shown = client.show_first(first.root, root.part.rect, client.Slice(client.Fields([part]), len(part)))
        records = [record.rect for record in shown.reading.records]
        front = b"MRJN\1" + struct.pack(">4iI", *root.part.rect, len(part)) + part
    try:
        return front + second.part_of_join(client.Meets(records).one)
    except Refused as fault:
        raise in_part("second", fault) from None


def in_part(name: str, fault: Refused) -> Refused:
    """This fault, of a map of a join or an atlas."""
    return type(fault)(fault.rule, fault.place, fault.found, name)
