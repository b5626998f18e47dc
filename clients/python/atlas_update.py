"""The next state of an atlas: changes are taken to their sheets, and a mirror does the same again.

A record that goes out is found by the directory of numbers. One that comes in goes to the sheet whose rectangle is
nearest to its middle, of several to the one of least area. A sheet that gets more than twice the size of sheets is cut
into several new ones. What is done stands in `updates/N`: `K.batch`, the changes of sheet K; `K.txt`, the text of the
new sheet K; `index.batch`; and `batch.sha256`, of the batch that was given. Tested, and not proved.
"""
from __future__ import annotations

import hashlib
import heapq
import math
import os
import re
from typing import Any, Dict, Iterator, List, NamedTuple, Optional, Sequence, Tuple

if __package__:
    from . import atlas_build, atlas_numbers, atlas_sort
    from .atlas_build import Made, Task, make_sheet
    from .atlas_numbers import NOWHERE, Held, Numbers
    from .atlas_sheets import PART, Folder, Mapper, batch_of, entries_in, entry_line, front_of
    from .atlas_sheets import list_to, put_sheet, record_of, refuse_other_index, run, switch, sync, take_away
    from .atlas_sheets import write_whole
    from .mrtree_check import Rect, Sheet, digest, distance, read_sheet
    from .outputs import Unfit
else:
    import atlas_build
    import atlas_numbers
    import atlas_sort
    from atlas_build import Made, Task, make_sheet
    from atlas_numbers import NOWHERE, Held, Numbers
    from atlas_sheets import PART, Folder, Mapper, batch_of, entries_in, entry_line, front_of
    from atlas_sheets import list_to, put_sheet, record_of, refuse_other_index, run, switch, sync, take_away
    from atlas_sheets import write_whole
    from mrtree_check import Rect, Sheet, digest, distance, read_sheet
    from outputs import Unfit

FILL = 16  # places of a node of the tree of sheets
MOST_CHANGES = 2**20  # of a batch of the program
HEAD = re.compile(rb"batch (0|[1-9][0-9]{0,19})\n")
GOES = re.compile(rb"- (0|[1-9][0-9]{0,19})\n")


# ---- where a record goes


Node = Tuple[Rect, int, Any]  # a rectangle, the number of a sheet, the nodes below


class Places:
    """The rectangles of sheets, kept so that the nearest one to a record is found in few steps.

    >>> places = Places([((0, 0, 9, 9), 1), ((5, 5, 6, 6), 2), ((20, 0, 29, 9), 3)])
    >>> [places.nearest(rect) for rect in ((0, 0, 1, 1), (5, 5, 6, 6), (18, 0, 19, 0), (99, 99, 99, 99))]
    [1, 2, 3, 3]
    """

    def __init__(self, sheets: Sequence[Tuple[Rect, int]]) -> None:
        self.nodes: List[Node] = [(doubled(rect), number, None) for rect, number in sheets]
        while len(self.nodes) > FILL:
            self.nodes = [(round_(group), 0, group) for group in groups_of(self.nodes)]

    def nearest(self, rect: Rect) -> int:
        """The sheet for a record with this rectangle. There has to be one."""
        x, y = rect[0] + rect[2], rect[1] + rect[3]
        point, at = (x, y, x, y), 0
        heap: List[Tuple[int, int, int, int, int, Any]] = []
        self.push(heap, self.nodes, point)
        while True:
            _, is_sheet, _, number, _, below = heapq.heappop(heap)
            if is_sheet:
                return number
            self.push(heap, below, point)

    def push(self, heap: List[Any], nodes: List[Node], point: Rect) -> None:
        """Takes nodes into consideration: by distance, nodes before sheets, then by area and number."""
        for rect, number, below in nodes:
            area = (rect[2] - rect[0]) * (rect[3] - rect[1]) if below is None else 0
            heapq.heappush(heap, (distance(point, rect), int(below is None), area, number, id(below), below))


def doubled(rect: Rect) -> Rect:
    """A rectangle in half map units, in which the middle of each is whole."""
    return 2 * rect[0], 2 * rect[1], 2 * rect[2], 2 * rect[3]


def round_(nodes: List[Node]) -> Rect:
    """The rectangle round some nodes."""
    x0s, y0s, x1s, y1s = zip(*(node[0] for node in nodes))
    return min(x0s), min(y0s), max(x1s), max(y1s)


def groups_of(nodes: List[Node]) -> Iterator[List[Node]]:
    """Nodes in groups of neighbours."""
    nodes = sorted(nodes, key=lambda node: node[0][0] + node[0][2])
    step = FILL * max(1, math.isqrt(len(nodes) // FILL))
    for at in range(0, len(nodes), step):
        some = sorted(nodes[at : at + step], key=lambda node: node[0][1] + node[0][3])
        for start in range(0, len(some), FILL):
            yield some[start : start + FILL]


# ---- the changes of a batch


class Change(NamedTuple):
    """A change: its line without the line feed, the number, and the rectangle of a record that comes in."""

    line: bytes
    number: int
    rect: Optional[Rect]


def head_of(name: str) -> Tuple[int, str]:
    """The number of a batch, and the SHA-256 of its text. Raises Unfit and OSError."""
    hash_ = hashlib.sha256()
    with open(name, "rb") as file:
        found = HEAD.fullmatch(file.readline(atlas_sort.LONGEST))
        file.seek(0)
        for piece in iter(lambda: file.read(2**17), b""):
            hash_.update(piece)
    if not found or int(found[1]) >= 2**64:
        raise Unfit("%s: line 1: it is not `batch N`" % name)
    return int(found[1]), hash_.hexdigest()


def changes_of(name: str, version: int) -> Iterator[Change]:
    """The changes of a batch whose records are of a version. Raises Unfit, with the line, and OSError."""
    with open(name, "rb") as file:
        file.readline(atlas_sort.LONGEST)
        at = 1
        while True:
            line = file.readline(atlas_sort.LONGEST)
            if not line:
                return
            at += 1
            try:
                yield change_of(line, version)
            except Unfit as unfit:
                raise Unfit("%s: line %d: %s" % (name, at, unfit)) from None


def change_of(line: bytes, version: int) -> Change:
    """The change that a line spells. Raises Unfit.

    >>> change_of(b"- 7\\n", 1), change_of(b"+ 7 1 2 3 4 -\\n", 1).rect
    (Change(line=b'- 7', number=7, rect=None), (1, 2, 3, 4))
    """
    goes = GOES.fullmatch(line)
    if goes and int(goes[1]) < 2**64:
        return Change(line[:-1], int(goes[1]), None)
    try:
        if line[:2] != b"+ " or line[-1:] != b"\n":
            raise ValueError
        number, rect = atlas_sort.head_of(line[2:-1], atlas_sort.FORMS[version])
    except ValueError:
        raise Unfit("it is neither `- NUMBER` nor `+ ` and a record line of version %d" % version) from None
    return Change(line[:-1], number, rect)


# ---- the state that is there


class State(NamedTuple):
    """An atlas as it stands there: folder, root digest, batch, sheets by number, version, and the publisher's own."""

    folder: Folder
    root: str
    batch: int
    sheets: Dict[int, Sheet]
    version: int
    held: Held


def state_of(folder: Folder, version: int) -> State:
    """The state of an atlas; the version is that of one without sheets. Raises Refused, Unfit, Ended and OSError."""
    refuse_other_index(folder)
    front = front_of(folder.index)
    root = digest(front).hex()
    sheets = [read_sheet(record) for record in entries_in(folder.index)]
    versions = {sheet.version for sheet in sheets} or {version}
    if any(sheet.name for sheet in sheets) or len(versions) > 1:
        raise Unfit("%s: its sheets are maps of others, of which `bind` makes the next state" % folder.name)
    held = atlas_numbers.read_held(folder, root)
    return State(folder, root, batch_of(front), {sheet.number: sheet for sheet in sheets}, versions.pop(), held)


class Routed(NamedTuple):
    """The changes by their sheets, each in the order of the batch; and by how many records each sheet grows."""

    lines: Dict[int, List[bytes]]
    grows: Dict[int, int]
    numbers: Numbers


def route(state: State, name: str) -> Routed:
    """Takes each change to its sheet. Raises Unfit, with the line of the first one that cannot be made."""
    places = Places([(sheet.rect, sheet.number) for sheet in state.sheets.values()]) if state.sheets else None
    routed = Routed({}, {}, Numbers(state.folder, state.held.runs))
    for at, change in enumerate(changes_of(name, state.version), 2):
        sheet = routed.numbers.get(change.number)
        if change.rect is None and sheet == NOWHERE:
            raise Unfit("%s: line %d: the number %d is in no sheet" % (name, at, change.number))
        if change.rect is not None and sheet != NOWHERE:
            raise Unfit("%s: line %d: the number %d is there already, in sheet %d" % (name, at, change.number, sheet))
        if change.rect is not None:
            sheet = places.nearest(change.rect) if places else state.held.next
        routed.numbers.put(change.number, NOWHERE if change.rect is None else sheet)
        routed.lines.setdefault(sheet, []).append(change.line)
        routed.grows[sheet] = routed.grows.get(sheet, 0) + (-1 if change.rect is None else 1)
    return routed


# ---- sheets that change


class Changed(NamedTuple):
    """A sheet that changes: its number, its root digest and rectangle, none of a new one; its changes; what it becomes.

    It becomes `parts` new sheets that count from `first`; or it stays one, and `parts` is 0.
    """

    folder: Folder
    package: str
    room: str
    version: int
    number: int
    sheet: Optional[Sheet]
    lines: List[bytes]
    parts: int
    first: int


def change_sheet(one: Changed) -> List[Made]:
    """Makes the map, or the maps, that a sheet becomes. Raises Unfit, Ended and OSError."""
    if one.parts:
        return remake_sheet(one)
    assert one.sheet is not None
    batch = os.path.join(one.package, "%d.batch" % one.number)
    with open(batch, "wb") as file:
        file.write(b"batch %d\n" % (one.sheet.batch + 1) + b"".join(line + b"\n" for line in one.lines))
    sync(batch)
    return [apply_to(one.folder, one.sheet, batch)]


def apply_to(folder: Folder, sheet: Sheet, batch: str) -> Made:
    """Makes the map of a sheet after a batch. Raises Unfit, Ended and OSError."""
    part = folder.sheet("%sapply-%d" % (PART, sheet.number))
    root = run(["apply", folder.sheet(sheet.root.hex()), batch, part])
    return Made(sheet.number, put_sheet(folder, part, root), b"", "")


def remake_sheet(one: Changed) -> List[Made]:
    """Cuts the records of a sheet after its changes into new sheets. Raises Unfit, Ended and OSError."""
    room = os.path.join(one.room, "%d" % one.number)
    os.makedirs(room)
    text = os.path.join(room, "records")
    write_changed(one, text)
    x0, y0, x1, y1 = one.sheet.rect if one.sheet else (0, 0, 0, 0)
    pieces = atlas_sort.pieces_of([text], one.version, room, atlas_sort.HOLD // 4, y1 - y0 > x1 - x0)
    atlas_sort.cut(pieces, room, one.first, map, lambda count: one.parts)
    made = []
    for number in range(one.first, one.first + one.parts):
        name = os.path.join(room, "%d.txt" % number)
        made.append(make_sheet(Task(one.folder, number, name, one.version)))
        kept = os.path.join(one.package, "%d.txt" % number)
        os.rename(name, kept)
        sync(kept)
    return made


def write_changed(one: Changed, name: str) -> None:
    """Writes the record text of a sheet after its changes. Raises Ended and OSError."""
    last: Dict[bytes, bytes] = {}
    for line in one.lines:
        last[line.split(b" ", 2)[1]] = line
    if one.sheet:
        list_to(one.folder.sheet(one.sheet.root.hex()), name + ".old")
    with open(name, "wb", atlas_sort.BLOCK) as file:
        if one.sheet:
            with open(name + ".old", "rb", atlas_sort.BLOCK) as old:
                file.writelines(line for line in old if line.split(b" ", 1)[0] not in last)
            os.remove(name + ".old")
        file.writelines(line[2:] + b"\n" for line in last.values() if line[:1] == b"+")


def planned(state: State, routed: Routed, package: str, room: str) -> List[Changed]:
    """What is to be done to each sheet that changes, in rising number."""
    next_, plans = state.held.next + (not state.sheets), []
    for number in sorted(routed.lines):
        sheet, lines = state.sheets.get(number), routed.lines[number]
        count = (sheet.count if sheet else 0) + routed.grows[number]
        parts, first = 0, 0
        if count and (sheet is None or count > 2 * state.held.sheet or len(lines) > MOST_CHANGES):
            parts = -(-count // state.held.sheet) if sheet is None else max(1, count // state.held.sheet)
            first, next_ = next_, next_ + parts
        own = lines if count else []
        plans.append(Changed(state.folder, package, room, state.version, number, sheet, own, parts, first))
    return plans


# ---- the next state


def update(folder: Folder, name: str, doing: Mapper) -> None:
    """Makes the state of an atlas after a batch. Raises Refused, Unfit, Ended and OSError."""
    number, given = head_of(name)
    batch = batch_of(front_of(folder.index))
    if number == batch and read_text(os.path.join(folder.updates, "%d" % batch, "batch.sha256")) == given + "\n":
        finish(folder)
        return
    if number != batch + 1:
        raise Unfit("%s: it is batch %d, and the atlas takes batch %d next" % (name, number, batch + 1))
    state = state_of(folder, version_of_batch(name))
    package, room = os.path.join(folder.updates, PART + "%d" % number), folder.at(PART + "update")
    for place in (package, room):
        os.makedirs(place)
    routed = route(state, name)
    plans = planned(state, routed, package, room)
    made = [one for several in doing(change_sheet, [plan for plan in plans if plan.lines]) for one in several]
    write_whole(os.path.join(package, "batch.sha256"), given + "\n")
    gone = [plan.number for plan in plans if plan.sheet]
    write_index_batch(os.path.join(package, "index.batch"), number, gone, made)
    part = folder.sheet(PART + "index")
    root = run(["apply", folder.index, os.path.join(package, "index.batch"), part])
    keep_numbers(state, routed, plans, made, number, root, doing)
    sync(package)
    take_away(os.path.join(folder.updates, "%d" % number))
    os.rename(package, os.path.join(folder.updates, "%d" % number))
    sync(folder.updates)
    switch(folder, part, root)
    finish(folder)


def version_of_batch(name: str) -> int:
    """The version of the first record that comes in by a batch, 1 where none does in its first lines."""
    with open(name, "rb") as file:
        for line in file.readlines(2**16):
            if line[:2] == b"+ ":
                return 2 if line.count(b" ") == 7 else 1
    return 1


def write_index_batch(name: str, number: int, gone: List[int], made: List[Made]) -> None:
    """Writes the batch of the index: sheets that go, and then sheets that come, both in rising number."""
    come = sorted(made, key=lambda one: one.number)
    with open(name, "w") as file:
        file.write("batch %d\n" % number)
        file.writelines("- %d\n" % one for one in sorted(gone))
        file.writelines("+ %s\n" % entry_line(one.number, one.front, one.name) for one in come)
    sync(name)


def keep_numbers(
    state: State, routed: Routed, plans: List[Changed], made: List[Made], number: int, root: str, doing: Mapper
) -> None:
    """Writes the directory of the next state. Raises Unfit and OSError."""
    folder, room = state.folder, state.folder.at(PART + "update")
    remade = os.path.join(room, "remade")
    atlas_numbers.merge_all([one.run for one in made if one.run], os.path.join(room, "merge"), remade, doing)
    runs = routed.numbers.save(number, remade, {plan.number for plan in plans if plan.parts})
    next_ = max([state.held.next, *(one.number + 1 for one in made)])
    atlas_numbers.write_held(folder, root, Held(state.held.sheet, next_, runs))


def finish(folder: Folder) -> None:
    """Takes away what the state that stands there does not need. Raises Unfit and OSError."""
    root = digest(front_of(folder.index)).hex()
    atlas_numbers.forget_others(folder, root, atlas_numbers.read_held(folder, root))
    take_away(folder.at(PART + "update"))


def read_text(name: str) -> str:
    """The text of a small file, an empty one where there is none."""
    try:
        with open(name) as file:
            return file.read(atlas_sort.LONGEST)
    except FileNotFoundError:
        return ""


# ---- a mirror


class Copied(NamedTuple):
    """A sheet that comes in by an update, the sheet that it was, and the folder of the update."""

    folder: Folder
    sheet: Sheet
    old: Optional[Sheet]
    package: str


def replay_sheet(one: Copied) -> None:
    """Makes a sheet as its publisher made it, unless it is there. Raises Unfit, Ended and OSError."""
    name = one.folder.sheet(one.sheet.root.hex())
    if os.path.exists(name):
        return
    batch, text = (os.path.join(one.package, "%d.%s" % (one.sheet.number, end)) for end in ("batch", "txt"))
    part = one.folder.sheet("%sreplay-%d" % (PART, one.sheet.number))
    if one.old and os.path.exists(batch):
        root = run(["apply", one.folder.sheet(one.old.root.hex()), batch, part])
    elif os.path.exists(text):
        root = run(["build2" if one.sheet.version == 2 else "build", part, text])
    else:
        raise Unfit("%s: it has neither %d.batch nor %d.txt" % (one.package, one.sheet.number, one.sheet.number))
    if root != one.sheet.root.hex():
        take_away(part)
        raise Unfit("%s: sheet %d becomes another one than the index says" % (one.package, one.sheet.number))
    put_sheet(one.folder, part, root)


def replay(folder: Folder, package: str, doing: Mapper) -> None:
    """Makes the next state of a mirror by a publisher's update. Raises Refused, Unfit, Ended and OSError."""
    refuse_other_index(folder)
    name = os.path.join(package, "index.batch")
    number, batch = head_of(name)[0], batch_of(front_of(folder.index))
    if number == batch:
        return
    if number != batch + 1:
        raise Unfit("%s: it is update %d, and the atlas takes update %d next" % (package, number, batch + 1))
    olds = {sheet.number: sheet for sheet in map(read_sheet, entries_in(folder.index))}
    lines = [change.line[2:].decode() for change in changes_of(name, 1) if change.rect is not None]
    sheets = [read_sheet(record_of(line)) for line in lines]
    for _ in doing(replay_sheet, [Copied(folder, one, olds.get(one.number), package) for one in sheets]):
        pass
    part = folder.sheet(PART + "index")
    switch(folder, part, run(["apply", folder.index, name, part]))
