"""A published map as GIS programs want it: boxes in the unit of its coordinate system, and features that were proved.
An atlas, which is a map of maps, is asked alike.

The gateway and GDAL's driver stand on it. Each answer is made of pages of the map's file, or comes from a host, and is
checked against the root digest by mrtree_check; nothing else is handed out. A large window is cut into cells of some
thousand records, each a query of its own: so the first features of a large map cost no more than one cell. How the
cells lie is guessed by the map's inner nodes, and no answer hangs on it. Tested, and not proved.
"""
from __future__ import annotations

import json
import re
import threading
from collections import OrderedDict
from decimal import ROUND_CEILING, ROUND_FLOOR, Decimal
from functools import partial
from typing import Any, Callable, Dict, List, NamedTuple, Optional, Sequence, Tuple, TypeVar, Union
from urllib.parse import quote, urlsplit

if __package__:
    from . import mrtree_check as client
    from . import records
    from .mrtree_check import Answer, AtlasAnswer, Query, Record, Rect, Refused, Sheet
    from .outputs import Unfit
    from .pagewise import Child, FarMap
    from .ranges import AT_ONCE, Failed, Limits, Meter, is_address, read_address, source_of
    from .sources import Grid
    from .shapes import Shapes, open_shapes, places_of
    from .sheetwise import FarAtlas, told_of
    from .statement import Statement, compare, compare_records, compare_verdict, judged, number_of_key, read_file
else:
    import mrtree_check as client
    import records
    from mrtree_check import Answer, AtlasAnswer, Query, Record, Rect, Refused, Sheet
    from outputs import Unfit
    from pagewise import Child, FarMap
    from ranges import AT_ONCE, Failed, Limits, Meter, is_address, read_address, source_of
    from sources import Grid
    from shapes import Shapes, open_shapes, places_of
    from sheetwise import FarAtlas, told_of
    from statement import Statement, compare, compare_records, compare_verdict, judged, number_of_key, read_file

ALL: Rect = (-(2**31), -(2**31), 2**31 - 1, 2**31 - 1)  # the window in which every record lies
CORNER: Rect = (-(2**31), -(2**31), -(2**31), -(2**31))  # and one that costs little, to hear what the map is
PER_CELL = 1000  # records of a cell, about
MOST_PARTS = 4096  # nodes by which cells are guessed
MOST_CUT = 64  # sheets of an atlas that are counted for one window
KEPT = 16  # answers, counts and rows of cells that are kept
LAYER, LAYER_NAME = "layer", "layer_name"  # the properties that have the layer of a record of version 2
PER_LEAF, PER_NODE = 16, 64  # the most records of a leaf, and the most nodes below one
LIMITS = Limits(bytes=2**28, requests=10000, seconds=60)  # of one query


Box = Tuple[Decimal, Decimal, Decimal, Decimal]  # x0, y0, x1, y1 in the unit of the coordinate system
Start = Tuple[int, int]  # a place in a long answer: a cell, and how many features of it were told
T = TypeVar("T")


class Plan(NamedTuple):
    """What is said of a map before it is asked: by its statement, or by the words of a command line."""

    name: str
    title: str
    root: str
    address: str
    grid: Grid
    crs: Optional[str]  # an authority and a code, as EPSG:25833
    in_degrees: bool  # whether x is the longitude and y the latitude, in degrees
    number: str = "number"  # the property that has the number
    payload: str = "none"  # none, text, digest, key or hexadecimal, as in statements
    payload_name: str = "payload"  # the property that has it
    layers: Dict[int, str] = {}  # the names of layers
    shapes: Optional[str] = None
    places: Optional[str] = None  # the index that has the places of numbers
    statement: Optional[Statement] = None
    is_atlas: bool = False


class State(NamedTuple):
    """What an accepted proof says of the map: its version, batch and count of records, and the rectangle round them.

    Of an atlas the version is 2 where all its sheets are of it, since then there are masks and counts; and all sheets.
    """

    version: int
    batch: int
    count: int
    rect: Optional[Rect]
    sheets: Sequence[Sheet] = ()


class Window(NamedTuple):
    """A box in map units: rounded outwards, which is asked for, and inwards, which a record has to meet.

    Between two units the second has its sides out of order, and what meets it lies over both.
    """

    outer: Rect
    inner: Rect

    def meets(self, rect: Rect) -> bool:
        """Whether a rectangle meets the box itself, to the last digit.

        >>> window = Window((1, 0, 2, 9), (2, 0, 1, 9))
        >>> window.meets((1, 5, 2, 5)), window.meets((2, 5, 2, 5))
        (True, False)
        """
        inner = self.inner
        return rect[0] <= inner[2] and inner[0] <= rect[2] and rect[1] <= inner[3] and inner[1] <= rect[3]


class Page(NamedTuple):
    """Part of an answer: its records, where the next part begins, if there is one; and how many there are in all."""

    records: List[Record]
    rest: Optional[Start]
    matched: Optional[int]


Parts = List[Tuple[Rect, float]]  # rectangles, each with about how many records it has


class Kept:
    """The last few results of what costs much, by their keys. Several threads may ask at once."""

    def __init__(self, most: int = KEPT) -> None:
        self.most, self.lock = most, threading.Lock()
        self.found: OrderedDict[Any, Any] = OrderedDict()

    def get(self, key: Any, make: Callable[[], Any]) -> Any:
        """The result with this key, which is made where it is not kept."""
        with self.lock:
            if key in self.found:
                self.found.move_to_end(key)
                return self.found[key]
        made = make()
        with self.lock:
            self.found[key] = made
            while len(self.found) > self.most:
                self.found.popitem(last=False)
        return made


# ---- where proofs come from


class ByPages:
    """A map's file, of which the pages are fetched that a query opens. One query at a time is asked."""

    def __init__(self, root: str, address: str, limits: Limits) -> None:
        self.root, self.address, self.limits = client.read_root(root), address, limits
        self.map: Optional[FarMap] = None
        self.lock = threading.Lock()

    def opened(self) -> FarMap:
        """The map, with what may be fetched for one query more. Raises Failed and MapRefused."""
        meter = Meter(self.limits)
        if self.map is None:
            self.map = FarMap(self.root, source_of(self.address, meter))
        self.map.source.meter = meter
        return self.map

    def proof(self, word: str) -> bytes:
        """The proof of a window. Raises Failed, Ended and MapRefused."""
        with self.lock:
            return self.opened().proof(client.read_query(word))

    def count_proof(self, word: str) -> bytes:
        """The proof of a count. Raises as `proof`."""
        with self.lock:
            return self.opened().count_proof(client.read_window(word))

    def parts(self, rect: Rect) -> Parts:
        """Rectangles of nodes that meet a window, each with about how many records it has. Raises as `proof`."""
        with self.lock:
            there = self.opened()
            row = [there.head.root] if there.head.root else []
            while row and row[0].level > 1 and len(row) < MOST_PARTS:
                there.fetch(row)
                row = [one for child in row for one in there.node(child).children if client.meet(one.part.rect, rect)]
            return [(child.part.rect, size_of(child)) for child in row]


class ByAtlas:
    """The folder of an atlas, of whose index and sheets the pages are fetched that a query opens. One query at a time.

    What it raises is what ByPages raises; and Refused where a record of the index tells of no sheet.
    """

    def __init__(self, root: str, address: str, limits: Limits) -> None:
        self.root, self.address, self.limits = client.read_root(root), address, limits
        self.atlas: Optional[FarAtlas] = None
        self.lock = threading.Lock()

    def opened(self) -> FarAtlas:
        """The atlas, with what may be fetched for one query more."""
        meter = Meter(self.limits)
        if self.atlas is None:
            self.atlas = FarAtlas(self.root, self.address, meter)
        self.atlas.count_by(meter)
        return self.atlas

    def proof(self, word: str) -> bytes:
        """The proof of a window."""
        with self.lock:
            return self.opened().proof(client.read_query(word))

    def count_proof(self, word: str) -> bytes:
        """The proof of a count."""
        with self.lock:
            return self.opened().count_proof(client.read_window(word))

    def count_proof_of(self, sheet: Sheet, query: Query) -> bytes:
        """The proof of a count in one of the sheets, by the sheet's own root digest."""
        with self.lock:
            return self.opened().part(sheet, query, FarMap.count_proof, AT_ONCE)

    def parts(self, rect: Rect) -> Parts:
        """Nothing: where its sheets lie, and how many records they have, the index says."""
        return []


def size_of(child: Child) -> int:
    """About how many records are below an entry: in version 1 the most that there can be."""
    return child.part.count or min(client.MOST_RECORDS, PER_LEAF * PER_NODE**child.level)


class ByHost:
    """A host, which answers `ROOT/prove?query=WORD` and `ROOT/count?query=WORD` below its address with the proof."""

    def __init__(self, root: str, address: str, limits: Limits) -> None:
        self.limits, self.address = limits, address if address.endswith("/") else address + "/"
        self.pages = ByPages(root, self.address + root + ".map", limits)
        self.place = self.address + root + "/"

    def proof(self, word: str) -> bytes:
        """The proof of a window. Raises Failed."""
        return self.got("prove", word)

    def count_proof(self, word: str) -> bytes:
        """The proof of a count. Raises Failed."""
        return self.got("count", word)

    def got(self, path: str, word: str) -> bytes:
        """What the host answers to a word. Raises Failed."""
        return read_file("%s%s?query=%s" % (self.place, path, quote(word, safe=":,/-")), self.limits.bytes)

    def parts(self, rect: Rect) -> Parts:
        """What the map's pages tell of its nodes, if the host gives them; else nothing."""
        try:
            return self.pages.parts(rect)
        except (Refused, Failed):
            return []


def is_host(address: str) -> bool:
    """Whether an address is that of a host: its path ends with a slash, or there is none.

    >>> is_host("http://127.0.0.1:8711/"), is_host("http://example.org"), is_host("http://example.org/a.map")
    (True, True, False)
    """
    return is_address(address) and (urlsplit(address).path or "/").endswith("/")


def source_at(root: str, address: str, limits: Limits, is_atlas: bool = False) -> Union[ByPages, ByHost, ByAtlas]:
    """Where the proofs of a map or an atlas come from. Raises Unfit where an address is none."""
    try:
        if is_address(address):
            read_address(address)
    except ValueError as fault:
        raise Unfit("%s: %s" % (address, fault)) from None
    if is_atlas:
        return ByAtlas(root, address, limits)
    if is_host(address):
        return ByHost(root, address, limits)
    return ByPages(root, address, limits)


# ---- boxes, windows and cells


def window_of(box: Box, grid: Grid) -> Optional[Window]:
    """The window of a box; none where no coordinate in map units lies in it. Raises Unfit where sides are out of order.

    >>> window_of(tuple(map(Decimal, ("0.04", "0", "0.31", "1"))), Grid(Decimal("0.1")))
    Window(outer=(0, 0, 4, 10), inner=(1, 0, 3, 10))
    >>> window_of(tuple(map(Decimal, ("0.10000000000000001", "0", "0.30000000000000004", "1"))), Grid(Decimal("0.1")))
    Window(outer=(1, 0, 4, 10), inner=(1, 0, 3, 10))
    >>> window_of(tuple(map(Decimal, ("1e999", "0", "2e999", "1"))), Grid(Decimal("0.1"))) is None
    True
    """
    if box[0] > box[2] or box[1] > box[3]:
        raise Unfit("the sides of the box are out of order")
    low, high = grid.unit * ALL[0], grid.unit * ALL[2]
    if box[0] > high or box[1] > high or box[2] < low or box[3] < low:
        return None
    sides = [snapped(min(max(side, low), high), grid) for side in box]
    down, up = ([grid.units(side, way) for side in sides] for way in (ROUND_FLOOR, ROUND_CEILING))
    return Window((down[0], down[1], up[2], up[3]), (up[0], up[1], down[2], down[3]))


def snapped(side: Decimal, grid: Grid) -> Decimal:
    """A side of a box; where it is a whole map unit but for the digits that a number of 64 bits adds, that unit.

    GIS programs write 13.39 as 13.39000000000000057, and mean records at 13.39 too.

    >>> snapped(Decimal("13.39000000000000057"), Grid(Decimal("1e-7"))), snapped(Decimal("1.5"), Grid(Decimal(1)))
    (Decimal('13.3900000'), Decimal('1.5'))
    """
    near = grid.unit * grid.units(side)
    return near if float(near) == float(side) else side


def word_of(rect: Rect, mask: Optional[int]) -> str:
    """The word of the query for a window, on the layers of a mask.

    >>> word_of((0, 0, 9, 9), None), word_of((0, 0, 9, 9), 0b101)
    ('window:0,0,9,9', 'window:0,0,9,9/0000000000000005')
    """
    return "window:%d,%d,%d,%d" % rect + ("" if mask is None else "/%016x" % mask)


def cut_to(rect: Rect, parts: Parts) -> Parts:
    """What of some rectangles lies in a window, with the share of their records that lies there, if they lie evenly.

    >>> cut_to((5, 0, 20, 20), [((0, 0, 9, 9), 100), ((0, 0, 4, 9), 7)])
    [((5, 0, 9, 9), 50.0)]
    """
    found = []
    for part, size in parts:
        if client.meet(part, rect):
            x0, y0, x1, y1 = max(part[0], rect[0]), max(part[1], rect[1]), min(part[2], rect[2]), min(part[3], rect[3])
            area = (part[2] - part[0] + 1) * (part[3] - part[1] + 1)
            found.append(((x0, y0, x1, y1), size * (x1 - x0 + 1) * (y1 - y0 + 1) / area))
    return found


def cells_of(rect: Rect, parts: Parts, count: int) -> List[Rect]:
    """A window in cells of some thousand records each, if those of the map lie in these rectangles evenly.

    >>> cells_of((0, 0, 9, 9), [((0, 0, 9, 3), 900), ((0, 4, 9, 9), 900)], 1800)
    [(0, 0, 4, 9), (5, 0, 9, 9)]
    """
    inside = cut_to(rect, parts)
    scale = min(1.0, count / (sum(size for _, size in inside) or 1.0))
    cells, left = [], [(rect, [(part, size * scale) for part, size in inside])]
    while left:
        cell, inside = left.pop()
        halves = halved(cell, inside) if sum(size for _, size in inside) > 1.5 * PER_CELL else []
        left.extend((half, cut_to(half, inside)) for half in reversed(halves))
        if not halves:
            cells.append(cell)
    return cells


def halved(cell: Rect, parts: Parts) -> List[Rect]:
    """A cell in two, across its longer side, with about as many records each; none where it is a single map unit."""
    axis = 1 if cell[3] - cell[1] > cell[2] - cell[0] else 0
    if cell[axis] == cell[axis + 2]:
        return []
    ordered = sorted(((part[axis] + part[axis + 2]) // 2, size) for part, size in parts)
    half, total, cut = sum(size for _, size in ordered) / 2, 0.0, cell[axis]
    for place, size in ordered:
        total += size
        if total >= half:
            cut = min(place, cell[axis + 2] - 1)
            break
    low, high = list(cell), list(cell)
    low[axis + 2], high[axis] = cut, cut + 1
    return [(low[0], low[1], low[2], low[3]), (high[0], high[1], high[2], high[3])]


# ---- the map


class Published:
    """A published map. Several threads may ask at once.

    What it raises: Refused, and of that MapRefused, where a proof or a page is refused; Failed where a server or a file
    fails; StatementRefused where the map is another one than the statement says; and Ended and Unfit as they say.
    """

    def __init__(self, plan: Plan, limits: Limits = LIMITS) -> None:
        self.plan, self.limits = plan, limits
        self.source = source_at(plan.root, plan.address, limits, plan.is_atlas)
        self.states, self.rows, self.answers, self.counts, self.places = Kept(), Kept(), Kept(), Kept(), Kept(100000)
        self.shapes: Optional[Shapes] = None
        self.shapes_lock = threading.Lock()

    def state(self) -> State:
        """What the map is, by a proof of next to nothing."""
        return self.states.get("state", self.asked_state)

    def said(self) -> str:
        """What is told of the map, once it is known what it is."""
        state = self.state()
        words = "%d records%s at batch %d"
        sheets = " in %d sheets of an atlas" % len(state.sheets) if self.plan.is_atlas else ""
        return words % (state.count, sheets, state.batch)

    def asked_state(self) -> State:
        """The same, asked anew."""
        if self.plan.is_atlas:
            return self.state_of_atlas()
        rects: List[Rect] = []
        answer = self.checked(CORNER, None, lambda tag, level, rect, shown: rects.append(rect))
        if self.plan.statement:
            compare(self.plan.statement, answer.version, answer.batch, answer.count)
        return State(answer.version, answer.batch, answer.count, rects[-1] if rects else None)

    def state_of_atlas(self) -> State:
        """What an atlas is, by a count of everything: its proof has the index alone, and that says all sheets."""
        said, word = self.plan.statement, word_of(ALL, None)
        found = self.judged(client.check_atlas_count, word, self.source.count_proof)
        versions = {sheet.version for sheet in found.sheets} or {said.version if said else 1}
        if said:
            compare_verdict(said, found)
            compare(said, min(versions), found.batch, found.inside)
        sides = list(zip(*(sheet.rect for sheet in found.sheets)))
        rect = (min(sides[0]), min(sides[1]), max(sides[2]), max(sides[3])) if sides else None
        return State(min(versions), found.batch, found.inside, rect, found.sheets)

    def judged(self, judge: Callable[[str, str, bytes], T], word: str, prove: Callable[[str], bytes]) -> T:
        """What comes of the proof for a query word."""
        with judged(self.plan.statement):
            return judge(self.plan.root, word, prove(word))

    def checked(
        self, rect: Rect, mask: Optional[int], watch: Optional[client.Watch] = None
    ) -> Union[Answer, AtlasAnswer]:
        """The checked answer to the query for a window. Of an atlas nothing is watched."""
        said, word = self.plan.statement, word_of(rect, mask)
        if self.plan.is_atlas:
            found: Union[Answer, AtlasAnswer] = self.judged(client.check_atlas, word, self.source.proof)
        else:
            found = self.judged(lambda *words: client.check(*words, watch), word, self.source.proof)
        if said:
            compare_records(said, found.records)
        return found

    def answer(self, rect: Rect, mask: Optional[int]) -> Union[Answer, AtlasAnswer]:
        """The same, or one that is kept."""
        return self.answers.get((rect, mask), lambda: self.checked(rect, mask))

    def inside(self, rect: Rect, mask: Optional[int]) -> int:
        """How many records lie inside a window, by a checked count; the map is of version 2. A window may be empty."""
        if rect[0] > rect[2] or rect[1] > rect[3]:
            return 0
        return self.judged(client.check_count, word_of(rect, mask), self.source.count_proof).inside

    # -- parts of an answer

    def cells(self, rect: Rect) -> List[Rect]:
        """The cells of a window: the same each time, since the map is."""
        state = self.state()
        if state.rect is None:
            return [rect]
        even: Parts = [(sheet.rect, sheet.count) for sheet in state.sheets] or [(state.rect, state.count)]
        return self.rows.get(rect, lambda: cells_of(rect, self.source.parts(rect) or even, state.count))

    def windows(self, box: Optional[Box]) -> List[Window]:
        """The windows that a box is: none where no record can lie in it; two where it goes over the antimeridian."""
        grid = self.plan.grid
        if box is None:
            return [Window(ALL, ALL)]
        boxes = [box]
        if self.plan.in_degrees and box[0] > box[2]:
            boxes = [(box[0], box[1], Decimal(180), box[3]), (Decimal(-180), box[1], box[2], box[3])]
        return [window for window in (window_of(one, grid) for one in boxes) if window]

    def page(
        self, windows: Sequence[Window], mask: Optional[int], start: Start, limit: int, is_short: bool = False
    ) -> Page:
        """Up to so many of the records that meet some windows, from a place on; a short one ends with its cell."""
        cells = [(window, at, cell) for at, window in enumerate(windows) for cell in self.cells(window.outer)]
        (at, skip), shown, total = start, [], None
        while at < len(cells) and len(shown) < limit and not (is_short and shown):
            window, number, cell = cells[at]
            found = [one for one in self.answer(cell, mask).records if is_of(one.rect, cell, window)]
            found = [one for one in found if not any(before.meets(one.rect) for before in windows[:number])]
            total, taken = len(found), found[skip : skip + limit - len(shown)]
            shown, skip = shown + taken, skip + len(taken)
            if skip >= total:
                at, skip = at + 1, 0
        for one in shown:
            self.places.get(one.number, lambda: one.rect)
        matched = total if len(cells) == 1 and total is not None else None if cells else 0
        return Page(shown, (at, skip) if at < len(cells) else None, matched)

    def matched(self, windows: Sequence[Window], mask: Optional[int]) -> Optional[int]:
        """How many records meet some windows, where a checked count tells it: of all, or in version 2 of any window."""
        state = self.state()
        if not windows or state.rect is None:
            return 0
        window = windows[0]
        is_all = client.meet(window.inner, state.rect) and holds(window.inner, state.rect)
        if mask is None and is_all:
            return state.count
        if len(windows) > 1 or state.version == 1:
            return None
        inner, count = window.inner, self.counted_in_sheets if self.plan.is_atlas else self.counted
        return self.counts.get((inner, mask), lambda: count(inner, mask))

    def counted(self, inner: Rect, mask: Optional[int]) -> int:
        """How many records of a map meet a window."""
        return counted_by(inner, lambda rect: self.inside(rect, mask))

    def counted_in_sheets(self, inner: Rect, mask: Optional[int]) -> Optional[int]:
        """How many records of an atlas meet a window; None where it goes through too many sheets.

        Of a sheet that lies in the window the index says how many it has; any other one is counted as a map of its own.
        """
        layers, total, cut = client.ALL_LAYERS if mask is None else mask, 0, []
        for sheet in self.state().sheets:
            if holds(inner, sheet.rect) and not sheet.mask & ~layers:
                total += sheet.count
            elif client.meet(inner, sheet.rect) and sheet.mask & layers:
                cut.append(sheet)
        if len(cut) > MOST_CUT:
            return None
        return total + sum(counted_by(inner, partial(self.inside_sheet, sheet, mask)) for sheet in cut)

    def inside_sheet(self, sheet: Sheet, mask: Optional[int], rect: Rect) -> int:
        """How many records of a sheet lie inside a window, by a count that was checked. A window may be empty."""
        if not client.meet(rect, sheet.rect):
            return 0
        if mask is None and holds(rect, sheet.rect):
            return sheet.count
        query = Query(rect, 0, mask)
        with told_of("sheet %d" % sheet.number):
            proof = self.source.count_proof_of(sheet, query)
            return client.judge_count(sheet.root, query, [proof]).inside

    # -- features

    def features(self, shown: Sequence[Record]) -> List[str]:
        """Records as features of GeoJSON: with their shapes, if the map has any, each by its digest; else as boxes."""
        shapes: Dict[int, bytes] = {}
        if self.plan.shapes and shown:
            with self.shapes_lock:
                if self.shapes is None:
                    self.shapes = open_shapes(self.plan.shapes, self.limits)
                self.shapes.source.meter = self.shapes.index.source.meter = Meter(self.limits)
                shapes = self.shapes.fetch(shown)
        return [self.feature(one, shapes.get(one.number)) for one in shown]

    def feature(self, record: Record, shape: Optional[bytes] = None) -> str:
        """A record as a feature. Raises Unfit where its payload is no text, and has to be."""
        number = record.number if record.number <= records.MOST_EXACT else str(record.number)
        properties, geometry = self.properties(record), records.geometry(record, self.plan.grid)
        if shape is not None:
            told = json.loads(shape)
            properties.update(told.get("properties") or {})
            geometry = records.compact(told["geometry"])
        told = '"id":%s,"properties":%s' % (json.dumps(number), records.compact(properties))
        return '{"type":"Feature",%s,"geometry":%s}' % (told, geometry)

    def properties(self, record: Record) -> Dict[str, Any]:
        """What is told of a record beside its place: the same names for each record of the map."""
        plan, has_keys = self.plan, bool(self.plan.statement and self.plan.statement.keys)
        is_text = has_keys or record.number > records.MOST_EXACT
        properties: Dict[str, Any] = {plan.number: str(record.number) if is_text else record.number}
        if self.state().version == 2:
            properties[LAYER] = record.layer
            if plan.layers:
                properties[LAYER_NAME] = plan.layers.get(record.layer)
        if plan.payload in ("text", "key"):
            try:
                properties[plan.payload_name] = record.payload.decode("utf-8")
            except UnicodeDecodeError:
                raise Unfit("the payload of record %d is not UTF-8" % record.number) from None
        elif plan.payload != "none":
            properties["digest" if plan.payload == "digest" else plan.payload_name] = record.payload.hex()
        return properties

    def found(self, word: str, mask: Optional[int]) -> Optional[Record]:
        """The record of a number or a key, where its place is known: it was told before, or an index has it."""
        numbers = []
        if re.fullmatch("0|[1-9][0-9]{0,19}", word) and int(word) < 2**64:
            numbers.append(int(word))
        if self.plan.statement and self.plan.statement.keys:
            numbers.append(number_of_key(word.encode("utf-8")))
        for number in numbers:
            rect = self.places.found.get(number)
            if rect is None and self.plan.places:
                rect = places_of(self.plan.places, [number], self.limits).get(number)
            for one in self.checked(rect, mask).records if rect else []:
                if one.number == number:
                    return one
        return None


def counted_by(inner: Rect, inside: Callable[[Rect], int]) -> int:
    """How many records meet a window, by counts: all, less those on each side of it, and back those at each corner.

    What lies wholly to the left of the window lies inside the half of the plane there, and so on.
    """
    x0, y0, x1, y1 = inner
    left, low, right, high = ALL
    columns, rows = [(left, x0 - 1), (x1 + 1, right)], [(low, y0 - 1), (y1 + 1, high)]
    total = inside(ALL)
    total -= sum(inside((a, low, b, high)) for a, b in columns)
    total -= sum(inside((left, a, right, b)) for a, b in rows)
    return total + sum(inside((a, c, b, d)) for a, b in columns for c, d in rows)


def is_of(rect: Rect, cell: Rect, window: Window) -> bool:
    """Whether a record is told with a cell of a window: its lower left corner, put into the window, lies there."""
    x, y = max(rect[0], window.outer[0]), max(rect[1], window.outer[1])
    return cell[0] <= x <= cell[2] and cell[1] <= y <= cell[3] and window.meets(rect)


def holds(outer: Rect, rect: Rect) -> bool:
    """Whether a rectangle lies in another one."""
    return outer[0] <= rect[0] and outer[1] <= rect[1] and rect[2] <= outer[2] and rect[3] <= outer[3]
