"""The ways from files of publishers to a map and back: records.py and draw.py beside the program and beside scans."""
import csv
import io
import json
import os
import random
from decimal import ROUND_CEILING, ROUND_FLOOR, Decimal
from typing import Any, Dict, List, Tuple

from bench import EXAMPLES, Bench, read, write
import draw
import proofs
import records
from proofs import plain

UNIT = Decimal("1e-7")
SCRIPT = "records.py"

def trips_hold(bench: Bench) -> None:
    """All of it."""
    sample_holds(bench)
    chance = random.Random(7)
    for size in (0, 1, 30, 400, 3000) if bench.is_long else (0, 1, 100):
        trip_holds(bench, chance, size)
        states_hold(bench, chance, size)
    edges_hold(bench)


# ---- the sample


def sample_holds(bench: Bench) -> None:
    """The sample as GeoJSON is the sample, and its picture is that of its proof."""
    example = lambda name: os.path.join(EXAMPLES, name)
    bench.script(SCRIPT, ["text", example("places.geojson"), "r", "--unit", "1e-7", "--payload", "name"])
    bench.holds(read("r") == read(example("places.txt")), "the sample as GeoJSON is another than the text")
    root = bench.program(["root", "r"])[1].decode().strip()
    queries = {
        "window": "window:133700000,525100000,133800000,525200000",
        "nearest": "nearest:133777000,525163000,2",
    }
    for name, query in queries.items():
        proof = example("places-%s.proof" % name)
        bench.script("draw.py", [root, query, proof, "p.svg"])
        if name == "window":
            bench.holds(read("p.svg") == read(example("places-window.svg")), "the picture of the sample is another")
        bench.holds(read("p.svg").count(b'class="answer" cx') == 2, "the answer in the picture of " + name)
    os.remove("p.svg")
    said = bench.call(draw, [root, "window:0,0,1,1", example("places-window.proof"), "p.svg"])
    told = b"draw.py: refused Needless at 161\ndraw.py: the proof is for another query\n"
    is_so = said == (2, told) and not os.path.exists("p.svg")
    bench.holds(is_so, "a refused proof is drawn, or it is said %s" % (said,))




# ---- to a map and back


def place(chance: random.Random) -> List[Any]:
    """A position in degrees, with seven digits or more behind the point, or few."""
    digits = chance.choice((0, 2, 7, 9))
    return [Decimal(chance.randint(-179 * 10**digits, 179 * 10**digits)).scaleb(-digits) for _ in range(2)]


def geometry(chance: random.Random) -> Dict[str, Any]:
    """A geometry of any type."""
    some = [place(chance) for _ in range(chance.randint(1, 4))]
    kinds = {
        "Point": some[0],
        "MultiPoint": some,
        "LineString": some,
        "MultiLineString": [some, [place(chance)]],
        "Polygon": [some + some[:1]],
        "MultiPolygon": [[some], [[place(chance)]]],
    }
    kind = chance.choice(list(kinds))
    one = {"type": kind, "coordinates": kinds[kind]}
    if chance.random() < 0.1:
        return {"type": "GeometryCollection", "geometries": [one, {"type": "Point", "coordinates": place(chance)}]}
    return one


def flat(value: Any) -> List[List[Decimal]]:
    """All positions in a geometry."""
    if isinstance(value, dict):
        return flat(value.get("coordinates", value.get("geometries")))
    if value and isinstance(value[0], Decimal):
        return [value]
    return [position for part in value for position in flat(part)]


def features_of(chance: random.Random, numbers: List[int]) -> List[Dict[str, Any]]:
    """Features at random with these numbers; large ones as text."""
    names = ["", "Tor", "Straße, 5", 'a "b"', "\u2603" * 66]
    return [
        {
            "type": "Feature",
            "id": str(number) if number > 2**53 else number,
            "properties": {"name": chance.choice(names)} if chance.random() < 0.8 else None,
            "geometry": geometry(chance),
        }
        for number in numbers
    ]


def encoded(features: List[Dict[str, Any]]) -> bytes:
    """A GeoJSON file of features."""
    text = json.dumps({"type": "FeatureCollection", "features": features}, default=lambda d: "#%s#" % format(d, "f"))
    return text.replace('"#', "").replace('#"', "").encode()


def expected(feature: Dict[str, Any]) -> plain.Record:
    """The record of a feature, computed anew."""
    xs, ys = zip(*flat(feature["geometry"]))
    sides = [min(xs) / UNIT, min(ys) / UNIT, max(xs) / UNIT, max(ys) / UNIT]
    if sides[:2] == sides[2:]:
        rect = tuple(round(side) for side in sides)
    else:
        ways = (ROUND_FLOOR, ROUND_FLOOR, ROUND_CEILING, ROUND_CEILING)
        rect = tuple(int(side.to_integral_value(way)) for side, way in zip(sides, ways))
    return plain.Record(int(feature["id"]), rect, (feature["properties"] or {}).get("name", "").encode())


def numbers_of(chance: random.Random, size: int) -> List[int]:
    """So many different numbers, small and large."""
    return chance.sample(range(1, 3 * size + 2), size - size // 5) + [2**64 - 1 - at for at in range(size // 5)]


def trip_holds(bench: Bench, chance: random.Random, size: int) -> None:
    """GeoJSON to a text, to a map, to an answer, to GeoJSON: the features are those of a scan."""
    features = features_of(chance, numbers_of(chance, size))
    meant = [expected(feature) for feature in features]
    write("a.geojson", encoded(features))
    options = ["--unit", "1e-7", "--payload", "name"]
    bench.call(records, ["text", "a.geojson", "r", *options])
    lines = "".join(plain.line_of(record) + "\n" for record in sorted(meant))
    bench.holds(read("r").decode() == lines, "the record text of %d features" % size)
    root = bench.program(["build", "m", "r"])[1].decode().strip()
    for shape in [(-(10**9), -(10**9), 10**9, 10**9), (-(2**31), -(2**31), 2**31 - 1, 2**31 - 1), ((0, 0), 25)]:
        query = plain.Query(shape)
        word = proofs.word_of(query)
        bench.program(["prove", "m", word, "p"])
        said = bench.call(records, ["answer", root, word, "p", "back.geojson", *options])
        bench.holds(said[0] == 0, "the answer to %s: %s" % (word, said))
        back = json.loads(read("back.geojson") or "{}", parse_float=Decimal, parse_int=Decimal).get("features")
        scan = plain.answer(meant, query)
        bench.holds([decoded(one) for one in back] == (sorted(scan) if query.is_window() else scan), "back by " + word)


def decoded(feature: Dict[str, Any]) -> plain.Record:
    """The record of a feature that came back, whose kind is that of its rectangle."""
    record = expected(feature)
    extents = (record.rect[2] > record.rect[0]) + (record.rect[3] > record.rect[1])
    assert feature["geometry"]["type"] == ("Point", "LineString", "Polygon")[extents]
    return record


# ---- from one state to another


def table_of(records: List[plain.Record]) -> bytes:
    """A CSV file of records, with columns of other names and in another order."""
    out = io.StringIO(newline="")
    rows = csv.writer(out, delimiter=";")
    rows.writerow(["top", "label", "right", "key", "left", "more", "low"])
    for record in records:
        x0, y0, x1, y1 = record.rect
        rows.writerow([y1, record.payload.decode(), x1, record.number, x0, "x", y0])
    return b"\xef\xbb\xbf" + out.getvalue().encode()


def states_hold(bench: Bench, chance: random.Random, size: int) -> None:
    """The batch from one state of a file to another leads to a map whose list is the second state."""
    old = features_of(chance, numbers_of(chance, size))
    kept = [feature for feature in old if chance.random() < 0.7]
    changed = [{**feature, "geometry": geometry(chance)} if chance.random() < 0.3 else feature for feature in kept]
    new = changed + features_of(chance, [10**7 + at for at in range(size // 4 + 1)])
    chance.shuffle(new)
    meant = [expected(feature) for feature in new]
    write("old.geojson", encoded(old))
    options = ["--unit", "1e-7", "--payload", "name"]
    bench.call(records, ["text", "old.geojson", "r", *options])
    bench.program(["build", "m", "r"])
    lines = "".join(plain.line_of(record) + "\n" for record in sorted(meant))
    write("new.geojson", encoded(new))
    bench.call(records, ["batch", "1", "old.geojson", "new.geojson", "b", *options])
    bench.program(["apply", "m", "b", "n"])
    bench.holds(bench.program(["list", "n"])[1].decode() == lines, "a batch to a second state of %d features" % size)
    wrote = read("b")
    write("new.csv", table_of(meant))
    columns = ["--number", "key", "--payload", "label", "--place", "left,low,right,top", "--delimiter", ";"]
    bench.call(records, ["text", "new.csv", "t", "--unit", "1", *columns])
    bench.holds(read("t").decode() == lines, "the record text of a CSV file of %d rows" % len(meant))
    bench.call(records, ["batch", "1", "r", "t", "b"])
    bench.holds(read("b") == wrote, "a batch from two record texts")
    bench.call(records, ["batch", "2", "t", "t", "b"])
    bench.holds(read("b") == b"batch 2\n", "a batch of no changes")


# ---- the client as a command


def edges_hold(bench: Bench) -> None:
    """What the client says of files and outputs that are not as they should be, as a process of its own."""
    root, query, script = "0" * 64, "window:0,0,1,1", "mrtree_check.py"
    os.mkdir("folder")
    for words, ended in (
        (["check", root, query, "none"], (7, b"missing none\n")),
        (["check", root, query, "no/such"], (7, b"missing no/such\n")),
        (["check", root, query, "folder"], (7, b"shelf fault\n")),
        (["check", root, query, "r/"], (7, b"shelf fault\n")),
        (["check", root, query, "/dev/null"], (7, b"shelf fault\n")),
        (["check", root, query, b"\xff"], (7, b"")),
        (["check", root, query, "r", "r"], (1, b"bad words\n")),
        (["check-all", root, "none", "folder"], (7, b"missing none\n")),
        ([], (1, b"bad words\n")),
    ):
        said = bench.script(script, words)
        bench.holds(said == ended, "the client on %s says %s" % (words, said))
        if words[:1] != ["check-all"]:
            said = bench.program(words)
            bench.holds(said == ended, "the program on %s says %s" % (words, said))
    if os.access("/dev/full", os.W_OK):
        with open("/dev/full", "wb") as full:
            status = bench.script_to(script, ["check", root, query, "none"], full)
            bench.holds(status == 7, "the client to a full output: status %d" % status)
