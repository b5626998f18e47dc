"""From features to readers and back, by an atlas: parcels with shapes are split, built, put on nginx and asked.

Python, Node, `ogr2ogr` through the gateway, and the pages in Chromium ask. Then the parcels are updated and asked
again. What readers are told is what a look at all parcels gives.

In the gate there are 30,000 parcels. At full size, in an empty folder: roads.py PROGRAM COUNT.
"""
import contextlib
import hashlib
import heapq
import itertools
import json
import os
import resource
import shutil
import subprocess
import sys
import tempfile
import time
from decimal import Decimal
from typing import ContextManager, Dict, FrozenSet, Iterable, List, NamedTuple, Tuple

from bench import TOP, CLIENTS, Bench, write
import atlas_sheets
import gateway
import mrtree_ask
import mrtree_check
import parcels
import servers
import sources
from mrtree_check import Query, Record, Rect
from parcels import Parcel

IN_GATE, FULL = 30000, 3 * 10**6  # parcels, in the gate and at full size
AT_ONCE = 20000  # parcels that a process spells or looks at in one go
NODE = os.path.join(TOP, "clients", "web", "mrtree_ask.js")
PAGES = os.path.join(TOP, "tests", "javascript", "roads.js")
CHROMIUM = ("chromium", "chromium-browser", "google-chrome")
CHANGED = 300
UNIT = "1e-7"


class Stage:
    """Tells how long each stage took, by the clock and of the processor, and how large the largest process was yet."""

    def __init__(self, is_told: bool) -> None:
        self.is_told, self.clock, self.cpu = is_told, time.monotonic(), self.taken()[0]

    def taken(self) -> Tuple[float, int]:
        """Seconds of the processor and KB of the largest process, of this one and those that it has started."""
        both = [resource.getrusage(who) for who in (resource.RUSAGE_SELF, resource.RUSAGE_CHILDREN)]
        return sum(one.ru_utime + one.ru_stime for one in both), max(one.ru_maxrss for one in both)

    def end(self, name: str) -> None:
        """A stage has ended."""
        clock, (cpu, most) = time.monotonic(), self.taken()
        if self.is_told:
            told = name, clock - self.clock, cpu - self.cpu, most // 1024
            print("roads: %-40s clock %7.1f s, processor %7.1f s, largest yet %4d MB" % told, flush=True)
        self.clock, self.cpu = clock, cpu


# ---- parcels, and what a look at all of them gives


def digest_of(one: Parcel) -> bytes:
    """The payload of a parcel: the SHA-256 of its feature's canonical bytes."""
    feature = json.loads(one.feature(), parse_float=Decimal, parse_int=Decimal)
    return hashlib.sha256(sources.canonical(feature).encode()).digest()


def record_of(one: Parcel) -> Record:
    """Its record."""
    return Record(one.number, one.rect, digest_of(one))


def lines_of(found: Iterable[Parcel]) -> List[str]:
    """Their record lines."""
    return [record_of(one).line() for one in found]


class Update(NamedTuple):
    """An update: the lines of its batch, the numbers of the parcels that go, and the parcels that come."""

    lines: List[str]
    gone: FrozenSet[int]
    new: List[Parcel]


def update_of(count: int) -> Update:
    """The update of so many parcels."""
    lines, new = parcels.changes(count, 1, CHANGED), []
    told = [line for line in lines if not line.startswith("+ ")]
    for line in lines:
        if line.startswith("+ "):
            number, x0, y0, x1, y1, payload = line[2:].split()
            new.append(Parcel(int(number), (int(x0), int(y0), int(x1), int(y1)), int(payload, 16)))
            told.append("+ %s\n" % record_of(new[-1]).line())
    return Update(told, frozenset(int(line[2:]) for line in told if line.startswith("- ")), new)


Entry = Tuple[int, int, Parcel]  # how near a parcel is, its number, and it: both below 0, so the last comes first


class Found:
    """What is found of a query before an update, and after it."""

    def __init__(self, query: Query) -> None:
        self.query = query
        self.states: Tuple[List[Entry], List[Entry]] = [], []

    def offer(self, entry: Entry, state: int) -> None:
        """Takes a parcel of a state, if it is one of the answer."""
        found = self.states[state]
        if not self.query.k or len(found) < self.query.k:
            heapq.heappush(found, entry)
        elif entry > found[0]:
            heapq.heapreplace(found, entry)

    def answer(self, state: int) -> List[Parcel]:
        """The parcels of the answer in a state, in the order of its lines."""
        return [entry[2] for entry in sorted(self.states[state], reverse=True)]


class Look(NamedTuple):
    """A look at the parcels from one number to below another, or at those of an update that come."""

    start: int
    end: int
    queries: List[Query]
    gone: FrozenSet[int]
    new: List[Parcel] = []


def look(task: Look) -> List[Found]:
    """What is found of each query."""
    found = [Found(query) for query in task.queries]
    windows = [(one, *one.query.rect) for one in found if not one.query.k]
    points = [one for one in found if one.query.k]
    for parcel in task.new or map(parcels.parcel, range(task.start, task.end)):
        x0, y0, x1, y1 = parcel.rect
        states = [1] if task.new else [0] if parcel.number in task.gone else [0, 1]
        met = [one for one, x, y, right, high in windows if x0 <= right and x <= x1 and y0 <= high and y <= y1]
        for one in met + points:
            far = mrtree_check.distance(one.query.rect, parcel.rect) if one.query.k else 0
            for state in states:
                one.offer((-far, -parcel.number, parcel), state)
    return found


def looked_at(count: int, update: Update, queries: List[Query], doing: atlas_sheets.Mapper) -> Dict[Query, Found]:
    """What is found of each query by one look at all parcels, by several processes."""
    every = {query: Found(query) for query in queries}
    spans = [Look(*span, list(every), update.gone) for span in spans_of(count)]
    for found in doing(look, [*spans, Look(0, 0, list(every), frozenset(), update.new)]):
        for one in found:
            for state, entries in enumerate(one.states):
                for entry in entries:
                    every[one.query].offer(entry, state)
    return every


def spans_of(count: int) -> List[Tuple[int, int]]:
    """The numbers of parcels, in spans that begin with one and end below another."""
    return [(start, min(start + AT_ONCE, count + 1)) for start in range(1, count + 1, AT_ONCE)]


def spell(task: Tuple[int, int, FrozenSet[int]]) -> str:
    """The features of the parcels of a span, without those that are gone."""
    start, end, gone = task
    return "".join(parcels.parcel(number).feature() for number in range(start, end) if number not in gone)


def write_features(name: str, count: int, doing: atlas_sheets.Mapper, update: Update) -> None:
    """Writes the features of the state behind an update to a file."""
    with open(name, "w") as file:
        file.writelines(doing(spell, [(*span, update.gone) for span in spans_of(count)]))
        file.writelines(one.feature() for one in update.new)


# ---- what is asked


def window(rect: Rect, room: int) -> Query:
    """The window of a rectangle with some room on each side."""
    return Query((rect[0] - room, rect[1] - room, rect[2] + room, rect[3] + room), 0)


class Questions(NamedTuple):
    """What readers ask: in Python and Node; through the gateway; and the views of pages."""

    asked: List[Query]
    windows: List[Query]
    views: List[Query]


def questions_of(count: int, update: Update) -> Questions:
    """Windows of some sizes and nearest parcels, in a town, where there is nothing, and where something changes."""
    asked, windows, views = [], [], []
    wide = max(1.0, (FULL / count) ** 0.5)  # where there are fewer parcels, windows are as much larger
    for at, number in enumerate((in_town(), 77, count // 2)):
        x, y = parcels.parcel(number).rect[:2]
        point = x, y, x, y
        asked += [window(point, int(half * wide)) for half in (3000, 60000)]
        asked += [Query(point, 1), Query((x + 7, y - 7, x + 7, y - 7), 50)]
        windows += [window(point, int(half * wide)) for half in (2000, 30000, 300000)[: 1 if at else 3]]
        views += [window(point, int(half * wide)) for half in (3000, 10000)[: 1 if at else 2]]
    asked += [Query((0, 0, 1000, 1000), 0), Query((0, 0, 0, 0), 3)]
    changes = [one.rect for one in update.new[:2]] + [parcels.parcel(number).rect for number in sorted(update.gone)[:2]]
    for rect in changes:
        asked += [window(rect, 9), Query(2 * rect[:2], 9)]
        views.append(window(rect, 3000))
    return Questions(asked, [*windows, *views[-3:-1]], views)


def in_town() -> int:
    """The number of a parcel in the midst of the largest town."""
    x, y, _ = parcels.country().towns[0]
    return next(number for number in itertools.count(1) if parcels.is_near(parcels.parcel(number).rect, x, y, 300000))


def around(view: Query) -> Query:
    """A window in which the view lies that a page makes of another one."""
    return window(view.rect, 2 * (view.rect[2] - view.rect[0]))


# ---- publishing


def atlas(bench: Bench, *words: str) -> str:
    """What the script prints; it ends with status 0."""
    call = [sys.executable, os.path.join(CLIENTS, "mrtree_atlas.py"), *words]
    ran = subprocess.run(call, stdout=subprocess.PIPE, stderr=subprocess.PIPE)
    bench.holds(ran.returncode == 0, "%s: status %d, %s" % (words[0], ran.returncode, ran.stderr.decode()))
    return ran.stdout.decode().strip()


def put_up(source: str, target: str) -> None:
    """Puts an atlas on the server in the order of docs/ATLAS.md: sheets, updates, and the index by one rename."""
    os.makedirs(target + "/sheets", exist_ok=True)
    for name in os.listdir(source + "/sheets"):
        if not os.path.exists("%s/sheets/%s" % (target, name)):
            os.link("%s/sheets/%s" % (source, name), "%s/sheets/%s" % (target, name))
    shutil.copytree(source + "/updates", target + "/updates", dirs_exist_ok=True)
    shutil.copy(source + "/index.map", target + "/index.new")
    os.replace(target + "/index.new", target + "/index.map")


# ---- reading


class Readers(NamedTuple):
    """Those who ask an atlas at an address, what they ask, and what they are to be told."""

    bench: Bench
    address: str
    questions: Questions
    found: Dict[Query, Found]

    def meant(self, query: Query, state: int) -> List[Parcel]:
        """The parcels that answer a query in a state."""
        return self.found[query].answer(state)


def asked(readers: Readers, root: str, state: int, what: str, most: int = 10**9) -> None:
    """Readers in Python and, of some queries, in Node are told what is meant."""
    bench, queries = readers.bench, readers.questions.asked[:most]
    far = mrtree_ask.open_atlas(root, readers.address + "atlas/")
    for at, query in enumerate(queries):
        word, lines = word_of(query), lines_of(readers.meant(query, state))
        found = mrtree_check.judge_atlas(bytes.fromhex(root), query, [far.proof(query)]).lines()
        bench.holds(found == lines, "%s, %s: %d lines and not %d" % (what, word, len(found), len(lines)))
        if at % 5 == 1 and shutil.which("node"):
            ran = subprocess.run(["node", NODE, root, word, readers.address + "atlas/"], stdout=subprocess.PIPE)
            is_so = (ran.returncode, ran.stdout.decode().splitlines()) == (0, lines)
            bench.holds(is_so, "%s, %s in Node" % (what, word))
    meter = far.meter
    print("%s: %s: %d queries, %d requests, %d bytes" % (bench.name, what, len(queries), meter.requests, meter.bytes))


def word_of(query: Query) -> str:
    """The word of a query."""
    if query.k:
        return "nearest:%d,%d,%d" % (*query.rect[:2], query.k)
    return "window:%d,%d,%d,%d" % query.rect


# ---- by the gateway


def by_gateway(readers: Readers, root: str, state: int, what: str) -> None:
    """`ogr2ogr` reads windows through a gateway: parcels in their shapes, and of some windows as boxes too."""
    words = [root, readers.address + "atlas/", "--unit", UNIT, "--atlas", "--name"]
    shaped = ["--shapes", "%s%d.shapes" % (readers.address, state)]
    count, windows = 0, readers.questions.windows
    with gateway.gateway([[*words, "boxes"], [*words, "shapes", *shaped]]) as server:
        source = "OAPIF:http://127.0.0.1:%d" % server.server_port
        for at, query in enumerate(windows):
            meant = readers.meant(query, state)
            where, count = "%s by ogr2ogr, %s" % (what, word_of(query)), count + len(meant)
            found = by_ogr(readers.bench, [source, "shapes"], query, where)
            shapes = {one.number: shape_of(one) for one in meant if touches(one, query.rect)}
            holds_alike(readers.bench, found, shapes, where + ", in their shapes")
            if at % 2:
                found = by_ogr(readers.bench, [source, "boxes"], query, where)
                holds_alike(readers.bench, found, {one.number: [corners_of(one.rect)] for one in meant}, where)
    told = readers.bench.name, what, len(windows), count
    print("%s: %s: %d windows by ogr2ogr through the gateway, %d records" % told)


Shape = List[List[List[float]]]  # the rings of a polygon, each of points


def by_ogr(bench: Bench, source: List[str], query: Query, where: str) -> Dict[int, Shape]:
    """The shapes that `ogr2ogr` reads in a window, by the numbers of records."""
    sides = [parcels.in_degrees(side) for side in query.rect]
    with contextlib.suppress(OSError):
        os.remove("out.geojson")
    call = ["ogr2ogr", "-f", "GeoJSON", "out.geojson", *source, "-oo", "PAGE_SIZE=1000", "-spat", *sides]
    status, text = gateway.gdal([*call, "-lco", "COORDINATE_PRECISION=9"])
    bench.holds((status, text) == (0, ""), "%s: status %d, %s" % (where, status, text[:300]))
    if status:
        return {}
    with open("out.geojson", encoding="utf-8") as file:
        features = json.load(file)["features"]
    found = {one["properties"]["number"]: one["geometry"]["coordinates"] for one in features}
    bench.holds(len(found) == len(features), "%s: a record comes twice" % where)
    return found


def holds_alike(bench: Bench, found: Dict[int, Shape], meant: Dict[int, Shape], where: str) -> None:
    """The records are those that are meant, and each has the ring that is meant, wherever that begins."""
    bench.holds(found.keys() == meant.keys(), "%s: %d records and not %d" % (where, len(found), len(meant)))
    others = [number for number in found if number in meant and ring(found[number]) != ring(meant[number])]
    bench.holds(not others, "%s: %d records lie elsewhere, as %s" % (where, len(others), others[:1]))


def ring(shape: Shape) -> List[List[float]]:
    """The corners of a shape with one ring, the least first, in the direction that it has."""
    corners = shape[0][:-1]
    first = corners.index(min(corners))
    return corners[first:] + corners[:first]


def corners_of(rect: Rect) -> List[List[float]]:
    """The ring of a rectangle, in degrees."""
    x0, y0, x1, y1 = (float(parcels.in_degrees(side)) for side in rect)
    return [[x0, y0], [x1, y0], [x1, y1], [x0, y1], [x0, y0]]


def shape_of(one: Parcel) -> Shape:
    """The shape of a parcel, in degrees."""
    return json.loads(one.feature())["geometry"]["coordinates"]


def touches(one: Parcel, rect: Rect) -> bool:
    """Whether the shape of a parcel meets a rectangle, which meets its own: no cut corner lies between them."""
    for (x0, y0), (x1, y1) in zip(one.ring(), one.ring()[1:]):
        wide, high = x1 - x0, y1 - y0  # what lies to the right of a side, seen along it, is outside
        x, y = rect[0 if high > 0 else 2], rect[3 if wide > 0 else 1]
        if wide * (y - y0) - high * (x - x0) < 0:
            return False
    return True


# ---- by the pages


def by_pages(readers: Readers, root: str, state: int, what: str) -> None:
    """The pages draw and list, in Chromium, what is meant."""
    views = [(view.rect, around(view)) for view in readers.questions.views]
    told = [
        {"window": rect, "around": wide.rect, "lines": lines_of(readers.meant(wide, state))} for rect, wide in views
    ]
    write("views.json", json.dumps(told).encode())
    call = ["node", PAGES, readers.address + "atlas/", root, "views.json"]
    ran = subprocess.run(call, stdout=subprocess.PIPE, stderr=subprocess.STDOUT)
    readers.bench.holds(ran.returncode == 0, "%s, in Chromium: %s" % (what, ran.stdout.decode()[-3000:]))
    print("%s: %s: %s" % (readers.bench.name, what, ran.stdout.decode().strip().replace("\n", "; ")))


def all_ask(readers: Readers, root: str, state: int, what: str, stage: Stage) -> None:
    """All readers ask for a state by its root digest."""
    asked(readers, root, state, what)
    stage.end("asked in Python and Node, on nginx")
    if shutil.which("ogr2ogr"):
        by_gateway(readers, root, state, what)
        stage.end("asked by ogr2ogr through the gateway")
    if shutil.which("node") and any(map(shutil.which, CHROMIUM)):
        by_pages(readers, root, state, what)
        stage.end("asked by the pages in Chromium")


# ---- the whole way


def split(bench: Bench, folder: str, count: int, state: int) -> None:
    """Splits the features of a state, and takes their file away; their shapes are put on the server."""
    sheet, features = "2000" if count == IN_GATE else "16384", "%d.geojsonl" % state
    words = [features, folder, "--unit", UNIT, "--digest", "--sheet", sheet]
    atlas(bench, "split", *words, "--shapes-to", "files/%d.shapes" % state)
    os.remove(features)


def workers(count: int) -> ContextManager[atlas_sheets.Mapper]:
    """What writes and looks at so many parcels: in the gate this process, else one for each processor."""
    return atlas_sheets.workers(1 if count == IN_GATE else os.cpu_count() or 1)


def all_the_way(bench: Bench, count: int, is_told: bool = False) -> None:
    """The whole way, of so many parcels, in the folder that is there."""
    stage, update = Stage(is_told), update_of(count)
    questions = questions_of(count, update)
    queries = [*questions.asked, *questions.windows, *map(around, questions.views)]
    os.mkdir("files")
    os.mkdir("t")
    for state, changes in enumerate((Update([], frozenset(), []), update)):
        with workers(count) as doing:
            write_features("%d.geojsonl" % state, count, doing, changes)
        stage.end("%d parcels, %d bytes" % (count, os.path.getsize("%d.geojsonl" % state)))
    with workers(count) as doing:
        found = looked_at(count, update, queries, doing)
    stage.end("a look at all parcels, %d queries" % len(queries))
    for kind in (questions.asked, questions.windows, list(map(around, questions.views))):
        changed = [query for query in kind if found[query].answer(0) != found[query].answer(1)]
        bench.holds(len(changed) > 1, "the update changes no answers that are asked for")
    split(bench, "atlas", count, 0)
    stage.end("split, with shapes")
    root = atlas(bench, "build", "atlas")
    stage.end("build")
    put_up("atlas", "files/atlas")
    with servers.nginx(bench) as address:
        readers = Readers(bench, address, questions, found)
        all_ask(readers, root, 0, "an atlas on nginx", stage)
        write("b", "".join(update.lines).encode())
        next_ = atlas(bench, "update", "atlas", "b")
        stage.end("update, %d changes" % (len(update.lines) - 1))
        asked(readers, root, 0, "before the update is put up", 3)
        split(bench, "other", count, 1)
        shutil.rmtree("other")
        stage.end("the shapes of the next state")
        put_up("atlas", "files/atlas")
        asked(readers, root, 0, "the old root on the new atlas", 3)
        all_ask(readers, next_, 1, "the next root on the new atlas", stage)
    bench.holds(atlas(bench, "audit", "atlas").startswith("records %d " % count), "the audit")
    skips(bench)


def skips(bench: Bench) -> None:
    """Tells which readers there were none of."""
    if not shutil.which("node"):
        bench.skip("atlases on nginx asked in JavaScript: there is no node")
    if not shutil.which("ogr2ogr"):
        bench.skip("an atlas on nginx asked through the gateway: there is no ogr2ogr")
    if not shutil.which("node") or not any(map(shutil.which, CHROMIUM)):
        bench.skip("an atlas on nginx asked by the pages: there is no chromium, or no node")


def roads_hold(bench: Bench) -> None:
    """The whole way of the gate's parcels; without nginx it is not gone."""
    if not servers.nginx_of():
        bench.skip("an atlas from features to nginx and to readers: there is no nginx")
        return
    os.environ["MRTREE"] = bench.program_path
    for name in os.listdir("."):
        shutil.rmtree(name) if os.path.isdir(name) else os.remove(name)
    all_the_way(bench, IN_GATE)


def main(program: str, count: str) -> int:
    """The whole way at full size, with what each stage took; answers the exit status."""
    bench = Bench(program, True, "roads")
    os.environ["MRTREE"] = bench.program_path
    with tempfile.TemporaryDirectory(dir=".") as room:
        os.chdir(room)
        all_the_way(bench, int(count), True)
        os.chdir("..")
    print("roads: %d rows, %d failed, %d skipped" % (bench.rows, bench.failed, bench.skipped))
    return 1 if bench.failed else 0


if __name__ == "__main__":
    sys.exit(main(*sys.argv[1:]))
