"""What stands beside a map: shapes, places and keys; both versions of texts and batches; and what a file is."""
import gzip
import hashlib
import http.server
import json
import os
import random
import re
import struct
import subprocess
import sys
import threading
from typing import Any, Dict, List, Tuple

from bench import CLIENTS, EXAMPLES, Bench, read, write
import mrtree_ask
import mrtree_check
import records
import shapes
import sources
from ranges import Failed, Limits

ALL = "window:-2147483648,-2147483648,2147483647,2147483647"
UNIT = ["--unit", "1e-7"]
PLACES = os.path.join(EXAMPLES, "places.geojson")


def beside_holds(bench: Bench) -> None:
    """All of it."""
    canonical_holds(bench)
    versions_hold(bench)
    numbers_hold(bench)
    size = 20000 if bench.is_long else 3000
    root = shaped(bench, size)
    shapes_hold(bench, root, size)
    bent_shapes_hold(bench, root)
    finds_hold(bench, root)
    finds_by_statement_hold(bench, root)
    info_holds(bench)
    helps_hold(bench)


class Ranges(http.server.BaseHTTPRequestHandler):
    """Answers with ranges of the files in the folder."""

    protocol_version = "HTTP/1.1"

    def do_GET(self) -> None:
        """A range of a file."""
        whole = read(self.path[1:])
        first, last = map(int, re.fullmatch("bytes=([0-9]+)-([0-9]+)", self.headers["Range"]).groups())
        piece = whole[first : last + 1]
        self.send_response(206 if piece else 416 if whole else 404)
        self.send_header("Content-Length", str(len(piece)))
        if piece:
            self.send_header("Content-Range", "bytes %d-%d/%d" % (first, first + len(piece) - 1, len(whole)))
        self.end_headers()
        self.wfile.write(piece)

    def log_message(self, *_) -> None:
        """Says nothing."""


class Served:
    """A server of the files in the folder."""

    def __enter__(self) -> "Served":
        self.server = http.server.ThreadingHTTPServer(("127.0.0.1", 0), Ranges)
        self.server.daemon_threads = True
        threading.Thread(target=self.server.serve_forever, daemon=True).start()
        return self

    def __exit__(self, *_) -> None:
        self.server.shutdown()
        self.server.server_close()

    def address(self, name: str) -> str:
        """The address of a file."""
        return "http://127.0.0.1:%d/%s" % (self.server.server_port, name)


def says(bench: Bench, words: List[str], status: int, said: str) -> None:
    """The script ends with this status, and tells these lines."""
    ended = bench.call(records, words)
    meant = "".join("records.py: %s\n" % line for line in said.split("\n") if line)
    bench.holds(ended == (status, meant.encode()), "records.py %s: %s, and %s was meant" % (words, ended, meant))


def features(name: str) -> List[Dict[str, Any]]:
    """The features of a GeoJSON file."""
    return json.loads(read(name) or b'{"features": []}')["features"]


# ---- canonical bytes, the short way beside the long one


def number(chance: random.Random) -> str:
    """A number of JSON, of all sorts."""
    sorts = [
        str(chance.randint(-(10 ** chance.randint(0, 20)), 10 ** chance.randint(0, 20))),
        "%de%d" % (chance.randint(-999, 999), chance.randint(-30, 30)),
        "%d.0" % chance.randint(-99, 99),
        "0.0000%d" % chance.randint(1, 10 ** chance.randint(1, 17)),
        "%d.%d" % (chance.randint(0, 10**16), chance.randint(0, 99)),
        *("-0", "-0.0", "1.50", "5e-324", "1e308"),
        *(repr(chance.uniform(-200, 200)) for _ in range(4)),
    ]
    return chance.choice(sorts)


def text(chance: random.Random) -> str:
    """A text of JSON with letters that may mislead."""
    letters = 'ab,:[]{}e-+.0123456789\u00fc\ue000\U0001f600\x01\\"/\u2028'
    whole = "".join(chance.choice(letters) for _ in range(chance.randint(0, 12)))
    return json.dumps(whole, ensure_ascii=chance.random() < 0.5)


def value(chance: random.Random, depth: int = 0) -> str:
    """A value of JSON."""
    sort = chance.randint(0, 7)
    if sort < 3 or depth > 3:
        return number(chance)
    if sort < 5:
        return text(chance) if sort == 3 else chance.choice(("true", "false", "null"))
    if sort == 5:
        return "[%s]" % ", ".join(value(chance, depth + 1) for _ in range(chance.randint(0, 4)))
    keys = {json.loads(key): key for key in (text(chance) for _ in range(chance.randint(0, 4)))}
    return "{%s}" % ",".join("%s: %s" % (key, value(chance, depth + 1)) for key in keys.values())


def canonical_holds(bench: Bench) -> None:
    """The short way to canonical bytes gives those of the long way, or none."""
    chance, short = random.Random(3), 0
    for _ in range(100000 if bench.is_long else 3000):
        raw = '{"a":%s,"z":%s}' % (value(chance), value(chance))
        parsed = sources.scanned(raw, 0)[0]
        bench.holds(sources.canonical_bytes(parsed, raw) == sources.canonical_bytes(parsed), "canonical: " + raw)
        short += bool(sources.fast_canonical(raw))
    bench.holds(short > 500, "the short way was gone %d times" % short)


# ---- both versions


def versions_hold(bench: Bench) -> None:
    """Texts and batches of both versions are what the program takes; and a week goes on after `upgrade`."""
    name = ["--payload", "name"]
    write("later.geojson", read(PLACES).replace(b"Fernsehturm", b"Alexanderplatz"))
    for layer, build in (([], "build"), (["--layer", "3"], "build2")):
        bench.call(records, ["text", PLACES, "a.txt", *UNIT, *name, *layer])
        bench.program([build, "a.map", "a.txt"])
        bench.holds(bench.program(["list", "a.map"])[1] == read("a.txt"), build + ": the text is not what list prints")
        bench.call(records, ["text", "a.txt", "again.txt"])
        bench.holds(read("again.txt") == read("a.txt"), build + ": a record text that is read back")
        bench.call(records, ["text", "later.geojson", "b.txt", *UNIT, *name, *layer])
        for old, new in ((PLACES, "later.geojson"), ("a.txt", "later.geojson"), ("a.txt", "b.txt")):
            bench.call(records, ["batch", "1", old, new, "1.batch", *UNIT, *name, *(layer if new[-1] == "n" else [])])
            said = bench.program(["apply", "a.map", "1.batch", "b.map"])
            is_so = said[0] == 0 and bench.program(["list", "b.map"])[1] == read("b.txt")
            bench.holds(is_so, "%s: the batch from %s to %s: %s" % (build, old, new, said))
    bench.call(records, ["text", PLACES, "a.txt", *UNIT, *name])
    bench.program(["build", "a.map", "a.txt"])
    bench.program(["upgrade", "a.map", "a2.map"])
    words = ["batch", "1", "a.txt", "later.geojson", "1.batch", *UNIT, *name, "--layer", "0"]
    said = "records that go: 1, that come: 1, and then:\n4 records from 13.332 52.5 to 13.4094 52.5208, 0 without payload"
    says(bench, words, 0, said)
    said = bench.program(["apply", "a2.map", "1.batch", "b2.map"])
    is_so = said[0] == 0 and bench.program(["list", "b2.map"])[1].count(b" 0 ") == 4
    bench.holds(is_so, "a batch after upgrade: %s" % (said,))
    write("b2.txt", bench.program(["list", "b2.map"])[1])
    write("1.batch", b"old")
    said = "later.geojson: it has no layers, and b2.txt has: --layer N puts all records on one, "
    said += "--layer PROPERTY each on its own"
    says(bench, ["batch", "2", "b2.txt", "later.geojson", "1.batch", *UNIT, *name], 1, said)
    bench.holds(read("1.batch") == b"old", "a batch that does not fit is written")
    says(bench, ["batch", "2", "b2.txt", "b2.txt", "1.batch"], 1 if os.name == "nt" else 0, SAME)


SAME = "records that go: 0, that come: 0, and then:\n"
SAME += "4 records from 133320000 525000000 to 134094000 525208000, 0 without payload"


def numbers_hold(bench: Bench) -> None:
    """A key's number is by its SHA-256; two keys with one number, which no test can find, are told."""
    for key in ("12/3", "Straße", "x" * 1000):
        meant = int.from_bytes(hashlib.sha256(key.encode()).digest()[:8], "big")
        bench.holds(sources.hashed(key)[0] == meant, "the number of the key " + key[:9])
    kept, sources.hashed = sources.hashed, lambda key: (7, len(key))
    write("k.csv", b"key,x,y\na,1,2\nbb,1,2\n")
    said = 'k.csv: line 3: the key "bb" has the number 7, and another key has it too, at line 2: give one of them another key'
    says(bench, ["text", "k.csv", "k.txt", "--unit", "1", "--key", "key"], 1, said)
    sources.hashed = kept


# ---- shapes


def parcel(chance: random.Random, at: int) -> Dict[str, Any]:
    """A feature with a key, on one of three layers."""
    x, y = 13 + at % 50 * 0.001, 52 + at // 50 * 0.001
    ring = [[x + chance.random() * 0.0008, y + chance.random() * 0.0008] for _ in range(5)]
    key = "DEBE%06d/%d" % (at, chance.randint(0, 9))
    properties = {"key": key, "use": chance.choice(("house", "road", "park")), "name": "Straße \U0001f600 %d" % at}
    shape = {"type": "Polygon", "coordinates": [[*ring, ring[0]]]} if at % 7 else {"type": "Point", "coordinates": ring[0]}
    return {"type": "Feature", "properties": properties, "geometry": shape}


def shaped(bench: Bench, size: int) -> str:
    """Makes the map s.map of parcels, its shapes and places; answers its root digest."""
    chance = random.Random(11)
    whole = {"type": "FeatureCollection", "features": [parcel(chance, at) for at in range(size)]}
    write("s.geojson.gz", gzip.compress(json.dumps(whole).encode(), 1))
    write("layers", b"0 house\n1 road\n2 park\n")
    words = ["text", "s.geojson.gz", "s.txt", *UNIT, "--key", "key", "--digest", "--layer", "use", "--layers", "layers"]
    status, said = bench.call(records, [*words, "--shapes-to", "s.geojsonl", "--places-to", "s.places"])
    bench.holds(status == 0, "the shapes of parcels: %s" % said)
    bench.holds(sorted(name for name in os.listdir(".") if "part" in name) == [], "parts of outputs stay")
    lines = read("s.geojsonl").splitlines()
    bench.holds(len(lines) == size and len(read("s.geojsonl.index")) == 24 + -(-size // 512) * 16 + size * 28, "their sizes")
    bench.holds(len(read("s.places")) == 24 + -(-size // 512) * 8 + size * 24, "the size of the places")
    return bench.program(["build2", "s.map", "s.txt"])[1].decode().strip()


def shapes_hold(bench: Bench, root: str, size: int) -> None:
    """Answers come with their true shapes: from the file, from an address, and by the whole file as before."""
    lines = {hashlib.sha256(line).digest(): line for line in read("s.geojsonl").splitlines()}
    queries = [ALL, "window:130000000,520000000,130100000,520100000", "nearest:130200000,520300000,40", "window:0,0,1,1"]
    with Served() as served:
        for query in queries:
            bench.program(["prove", "s.map", query, "p"])
            answer = mrtree_check.check(root, query, read("p"))
            meant = [json.loads(lines[record.payload]) for record in answer.records]
            for proof, source in (("p", "s.geojsonl"), ("s.map", served.address("s.geojsonl"))):
                words = ["answer", root, query, proof, "o", *UNIT, "--shapes", source]
                bench.holds(bench.call(records, words)[0] == 0, "the shapes by %s" % source)
                bench.holds(features("o") == meant, "%s by %s: others" % (query, source))
        far = shapes.open_shapes(served.address("s.geojsonl"))
        found = far.fetch(mrtree_check.check(root, queries[1], proof_of(bench, queries[1])).records)
        spent = far.source.meter
        is_few = spent.bytes < len(read("s.geojsonl")) // 4 and spent.requests < 40
        bench.holds(is_few and len(found) > 50, "%d shapes: %d bytes, %d requests" % (len(found), spent.bytes, spent.requests))
        few = ["answer", root, queries[1], "p", "o", *UNIT, "--most", "100000", "--shapes", served.address("s.geojsonl")]
        bench.program(["prove", "s.map", queries[1], "p"])
        bench.holds(bench.call(records, few)[0] == 0, "shapes within --most: %s" % (bench.call(records, few),))
        few[few.index("100000")] = "20000"
        status, said = bench.call(records, few)
        bench.holds(status == 7 and (b"MostBytes" in said or b"longer than" in said), "more than --most: %s" % said)
    os.rename("s.geojsonl.index", "away")
    words = ["answer", root, queries[1], "p", "o", *UNIT, "--shapes", "s.geojsonl", "--key", "key"]
    bench.holds(bench.call(records, words)[0] == 0 and len(features("o")) == len(found), "shapes without their index")
    rounded = read("s.geojsonl").replace(b"13.0", b"13.1")
    write("r.geojsonl", rounded)
    status, said = bench.call(records, [*words[:-3], "r.geojsonl", "--key", "key"])
    bench.holds(status == 1 and b"COORDINATE_PRECISION" in said, "rounded shapes: %s" % said)
    os.rename("away", "s.geojsonl.index")


def proof_of(bench: Bench, query: str) -> bytes:
    """The proof of a query on s.map."""
    bench.program(["prove", "s.map", query, "p"])
    return read("p")


def bent_shapes_hold(bench: Bench, root: str) -> None:
    """Shapes and an index that were changed give no wrong shape: each is refused by name, or fails."""
    query = "window:130000000,520000000,130100000,520100000"
    answer = mrtree_check.check(root, query, proof_of(bench, query)).records
    whole, index = read("s.geojsonl"), read("s.geojsonl.index")
    right = shapes.open_shapes("s.geojsonl").fetch(answer)
    blocks = struct.unpack_from(">Q", index, 8)[0] // -512 * -16
    bents = [
        (whole, b"MRIY" + index[4:], "refused index Head"),
        (whole, index[:5] + b"P" + index[6:], "refused index Head"),
        (whole, index[:8] + b"\xff" * 8 + index[16:], "refused index Head"),
        (whole, index[:20], "refused index Head"),
        (whole, b"", "refused index Head"),
        (whole, index[:40], "refused index Short"),
        (whole, index[: 24 + blocks + 30], "refused index Short"),
        (whole, index[:24] + index[24 : 24 + blocks][::-1] + index[24 + blocks :], "refused index Order"),
        (whole[:500], index, "refused shape"),
        (whole.replace(b"13.0", b"13.1"), index, "refused shape"),
        (whole, index[:16] + bytes(8) + index[24:], "refused shape"),
        (whole, index[: 24 + blocks] + bytes(len(index) - 24 - blocks), "refused shape"),
    ]
    for bent, bent_index, begins in bents:
        write("b.geojsonl", bent)
        write("b.geojsonl.index", bent_index)
        words = ["answer", root, query, "p", "o", *UNIT, "--shapes", "b.geojsonl"]
        write("o", b"old")
        status, said = bench.call(records, words)
        is_so = status == 2 and said.startswith(b"records.py: " + begins.encode()) and said.count(b"\n") == 2
        bench.holds(is_so and read("o") == b"old", "bent shapes, %s: %s" % (begins, said))
    chance = random.Random(2)
    for _ in range(2000 if bench.is_long else 100):
        bent_index = bytearray(index)
        for _ in range(chance.randint(1, 3)):
            bent_index[chance.randrange(24 + blocks + 28 * 600)] = chance.randrange(256)
        write("b.geojsonl", whole)
        write("b.geojsonl.index", bytes(bent_index))
        try:
            found = shapes.open_shapes("b.geojsonl", Limits(bytes=2**26)).fetch(answer)
            bench.holds(found == right, "a bent index gives other shapes")
        except (shapes.ShapeRefused, Failed) as fault:
            bench.holds(bool(str(fault)), "no word")
    payload = [answer[0]._replace(payload=b"abc")]
    try:
        shapes.open_shapes("s.geojsonl").fetch(payload)
        bench.holds(False, "a payload that is no digest")
    except shapes.ShapeRefused as fault:
        bench.holds(str(fault) == "refused shape %d Payload" % answer[0].number, "a payload: %s" % fault)


# ---- one record by its key


def finds_hold(bench: Bench, root: str) -> None:
    """The record of a key, by places in a file, at an address and in a record text; and a key that is not there."""
    keys = [json.loads(line)["properties"]["key"] for line in read("s.geojsonl").splitlines()[5:400:70]]
    with Served() as served:
        for places, far in (("s.places", "s.map"), ("s.txt", "s.map"), (served.address("s.places"), served.address("s.map"))):
            words = ["find", root, far, "o", *keys, *UNIT, "--places", places]
            says(bench, words, 0, "found: %d, not there: 0" % len(keys))
            numbers = [int(one["id"]) for one in features("o")]
            bench.holds(numbers == [sources.hashed(key)[0] for key in keys], "the records of keys: %s" % numbers)
        words = ["find", root, "s.map", "o", *keys, *UNIT, "--places", "s.places", "--shapes", served.address("s.geojsonl")]
        says(bench, words, 0, "found: %d, not there: 0" % len(keys))
        bench.holds([one["properties"]["key"] for one in features("o")] == keys, "the shapes of keys")
    other = str(sources.hashed(keys[0])[0])
    says(bench, ["find", root, "s.map", "o", other, *UNIT, "--places", "s.txt", "--by-number"], 0, "found: 1, not there: 0")
    write("o", b"old")
    says(bench, ["find", root, "s.map", "o", "no such key", *UNIT, "--places", "s.places"], 1, NO_PLACE % "s.places")
    says(bench, ["find", root, "s.map", "o", "no such key", *UNIT, "--places", "s.txt"], 1, NO_PLACE % "s.txt")
    says(bench, ["find", root, "s.map", "o", "k", *UNIT], 1, "--places has to be given: a file that tells where records are")
    says(bench, ["find", root, "p", "o", keys[0], *UNIT, "--places", "s.txt"], 1, "p is no map file: " + ASKS)
    says(bench, ["find", root, "s.map", "o", "07", *UNIT, "--places", "s.txt", "--by-number"], 1, NO_NUMBER)
    says(bench, ["find", root, "s.map", "o", keys[0], *UNIT, "--places", "s.geojsonl.index"], 2, NO_INDEX)
    wrong = "refused map page 0 WrongRoot found %s\nthe file is of another map than the one with this root digest, " % root
    words = ["find", "0" * 64, "s.map", "o", keys[0], *UNIT, "--places", "s.txt"]
    says(bench, words, 2, wrong + "or of another state of it")
    bench.holds(read("o") == b"old", "what was not found is written")
    write("moved.txt", ("%s 5 6 7 8 -\n" % other).encode())
    said = 'the map has no record of %s at 0.0000005 0.0000006 0.0000007 0.0000008, checked\nfound: 0, not there: 1'
    words = ["find", root, "s.map", "o", keys[0], *UNIT, "--places", "moved.txt"]
    says(bench, words, 0, said % json.dumps(keys[0]))
    bench.holds(features("o") == [] and read("o") != b"old", "what is not there")


def finds_by_statement_hold(bench: Bench, root: str) -> None:
    """With a statement root, map, unit and shapes are not given by hand; and what does not go with it is refused."""
    key = json.loads(read("s.geojsonl").splitlines()[9])["properties"]["key"]
    words = ["statement", "s.map", "s.statement", "--map", "parcels", *UNIT, "--crs", "EPSG:4326", "--address", "s.map"]
    words += ["--axes", "longitude latitude", "--key", "key", "--digest", "--layers", "layers", "--shapes", "s.geojsonl"]
    ended = bench.call(records, [*words, "--from", "2026-12-01", "--until", "2999-12-01"])
    bench.holds(ended[0] == 0, "the statement of parcels: %s" % (ended,))
    finds = ["find", "--statement", "s.statement", "o", key, "--places", "s.places"]
    says(bench, finds, 0, "found: 1, not there: 0")
    bench.holds([one["properties"]["key"] for one in features("o")] == [key], "what is found by a statement")
    said = bench.script("records.py", ["info", "s.statement"])
    lines = b"file: statement\nmap: parcels\nroot: %s\nversion: 2\nbatch: 0\n" % root.encode()
    bench.holds(said[0] == 0 and said[1].startswith(lines), "info of a statement: %s" % (said,))
    whole = read("s.statement")
    write("n.statement", whole.replace(b"keys: key\n", b"numbers: none of yours\n"))
    no_keys = "n.statement: it names no keys: --by-number finds numbers"
    says(bench, [*finds[:2], "n.statement", *finds[3:]], 1, no_keys)
    write("c.statement", whole.replace(b"batch: 0\n", b"batch: 1\n"))
    status, told = bench.call(records, [*finds[:2], "c.statement", *finds[3:]])
    bench.holds(status == 2 and b"refused OtherBatch" in told, "a statement with another batch: %s" % told)


NO_PLACE = '%s tells no place of "no such key", so that it cannot be asked for'
NO_NUMBER = 'the number "07" is no whole number from 0 and below 2^64'
ASKS = "find asks a map file, or the address of one"
NO_INDEX = "refused index Head\nthe file is no index of this kind, or of a version that is not known here"


# ---- what a file is


def an_atlas(bench: Bench) -> str:
    """Makes an atlas of one sheet in the folder `at`, and a proof of a window on it; answers its root digest."""
    with open("one.map", "rb") as file:
        page = file.read(78)
    preimage = b"R" + page[4:5] + page[6:22] + page[5:6] + page[30:78]
    rect = " ".join(str(int.from_bytes(page[at : at + 4], "big", signed=True)) for at in range(30, 46, 4))
    os.makedirs(os.path.join("at", "sheets"), exist_ok=True)
    write("index.txt", ("1 %s %s\n" % (rect, preimage.hex())).encode())
    index = bench.program(["build", os.path.join("at", "index.map"), "index.txt"])[1].decode().strip()
    write(os.path.join("at", "sheets", index), read(os.path.join("at", "index.map")))
    write(os.path.join("at", "sheets", hashlib.sha256(preimage).hexdigest()), read("one.map"))
    write("at.proof", mrtree_ask.open_atlas(index, "at").proof(mrtree_check.read_query("window:0,0,1,1")))
    return index


def info_holds(bench: Bench) -> None:
    """Each kind of file is told in exact lines; what is none, and what is not whole, is refused."""
    bench.program(["build", "one.map", os.path.join(EXAMPLES, "places.txt")])
    write("layered.txt", b"1 1 1 1 1 0 -\n2 2 2 2 2 5 -\n3 3 3 3 3 5 -\n")
    bench.program(["build2", "two.map", "layered.txt"])
    write("none.txt", b"")
    bench.program(["build2", "none.map", "none.txt"])
    write("1.batch", b"batch 1\n+ 4 1 1 1 1 63 -\n- 2\n")
    bench.program(["count", "two.map", "window:0,0,2,2", "two.count"])
    write("other.map", read("two.map"))
    bench.program(["join", "two.map", "other.map", "two.join"])
    bench.program(["join", "two.map", "none.map", "none.join"])
    script = os.path.join(EXAMPLES, "places.script")
    bench.program(["serve", "one.map", script, "u"])
    write("cut.u", read("u")[:-1])
    write("a.geojson", read(PLACES))
    write("sig", b"-----BEGIN SSH SIGNATURE-----\n")
    bench.program(["apply-here", "two.map", "1.batch"])
    closed = read("two.map.journal")
    write("x.journal", b"O" + closed[1:])
    write("y.journal", b"")
    root = lambda words: bench.program(words)[1].decode().strip()
    two = root(["upgrade", "two.map", "again.map"])
    sheets = an_atlas(bench)
    rows = [
        ("one.map", "map|version: 1|batch: 0|records: 4|root: %s|%s|pages: 2" % (root(["build", "o.map", EXAMPLE]), EXTENT)),
        ("two.map", "map|version: 2|batch: 1|records: 3|root: %s|extent: 1 1 3 3|layers: 0 5 63|pages: 2" % two),
        ("none.map", "map|version: 2|batch: 0|records: 0|root: %s|extent: none|layers: none|pages: 1" % root(["root2", "none.txt"])),
        ("two.count", "proof|kind: count|version: 2|batch: 0|records: 3"),
        ("two.join", "proof|kind: join|version: 2|first batch: 0|first records: 3"),
        ("none.join", "proof|kind: join|version: 2|second batch: 0|second records: 0"),
        (os.path.join(EXAMPLES, "places-window.proof"), "proof|kind: window|version: 1|batch: 0|records: 4"),
        (os.path.join(EXAMPLES, "places-nearest.proof"), "proof|kind: nearest|version: 1|batch: 0|records: 4"),
        ("u", "bundle|proofs: 2"),
        ("at", "folder of an atlas|version: 1|batch: 0|records: 1|root: %s|%s|pages: 2" % (sheets, EXTENT)),
        ("at.proof", "proof|kind: window of an atlas|batch: 0|sheets: 1"),
        ("cut.u", "bundle|proofs: 1|broken at: %d" % (4 + int.from_bytes(read("u")[:4], "big"))),
        ("two.map.journal", "journal|state: closed"),
        ("x.journal", "journal|state: open|version: 2|pages: %d" % int.from_bytes(closed[2:6], "big")),
        ("y.journal", "journal|state: closed"),
        (EXAMPLE, "record text|version: 1|records: 4"),
        ("layered.txt", "record text|version: 2|records: 3"),
        ("1.batch", "batch text|batch: 1|version: 2|changes: 2"),
        (script, "script|queries: 2"),
        ("s.geojsonl.index", "index of shapes|entries: %d|bytes of shapes: %d" % sizes()),
        ("s.places", "index of places|entries: %d" % sizes()[0]),
        ("a.geojson", "GeoJSON"),
        ("s.geojsonl", "GeoJSON"),
        ("s.geojson.gz", "packed by gzip"),
        ("sig", "signature"),
    ]
    for name, lines in rows:
        meant = "".join(line + "\n" for line in ("file: " + lines).split("|")).encode()
        said = bench.script("records.py", ["info", name])
        bench.holds(said == (0, meant), "info %s: %s" % (name, said))
    with Served() as served:
        said = [bench.script("records.py", ["info", one]) for one in ("s.map", served.address("s.map"))]
        bench.holds(said[0] == said[1] and said[0][0] == 0, "info at an address: %s" % (said,))
    write("cut.map", read("one.map")[:-1])
    write("un.map", read("one.map")[:4095] + b"M" + read("one.map")[4096:])
    write("cut.proof", b"MRVO\1W")
    for name, status, said in (
        ("cut.map", 2, "refused map page 0 Size"),
        ("un.map", 2, "refused map page 0 Unsealed"),
        ("cut.proof", 2, "refused Short at 6"),
        ("none", 7, "failed NoFile none: missing"),
        ("/", 7, "failed NoFile /: it is no file with bytes of its own"),
        ("none.txt", 1, "none.txt: it is no map, proof, bundle, journal or index, and no text of a known form"),
        (os.path.join(CLIENTS, "info"), 7, "failed NoFile "),
    ):
        ended = bench.told("records.py", ["info", name])
        bench.holds(ended[0] == status and ended[1].startswith(b"records.py: " + said.encode()), "info: %s" % (ended,))


EXAMPLE = os.path.join(EXAMPLES, "places.txt")
EXTENT = "extent: 133320000 525000000 134094000 525208000"


def sizes() -> Tuple[int, int]:
    """How many shapes there are, and how many bytes they have."""
    return len(read("s.geojsonl").splitlines()), len(read("s.geojsonl"))


# ---- command lines


def helps_hold(bench: Bench) -> None:
    """Each command says what it is on standard output, with status 0; and a refusal has a line on standard error."""
    for name in ("mrtree_check.py", "mrtree_ask.py", "records.py", "draw.py", "layout.py"):
        call = [sys.executable, os.path.join(CLIENTS, name)]
        for word in ("--help", "-h", "--version"):
            ran = subprocess.run([*call, word], stdout=subprocess.PIPE, stderr=subprocess.PIPE)
            is_so = (ran.returncode, ran.stderr) == (0, b"") and (b"usage: " + name.encode() in ran.stdout or word[2:] == "version")
            is_so = is_so and (word != "--version" or ran.stdout == b"%s %s\n" % (name.encode(), VERSION))
            bench.holds(is_so, "%s %s: %s" % (name, word, ran))
        ran = subprocess.run(call, stdout=subprocess.PIPE, stderr=subprocess.PIPE)
        is_so = ran.returncode == 1 and ran.stdout in (b"", b"bad words\n") and ran.stderr.startswith(name.encode() + b": ")
        bench.holds(is_so and ran.stderr.count(b"\n") == 1, "%s: %s" % (name, ran))
    proof, root = os.path.join(EXAMPLES, "places-window.proof"), "b136e9ea66645cc4c87feaf0addfecbc0d52bd619bc06f05e004ff35cbfaff04"
    for words, said in (
        ([root, "window:0,0,1,1", proof], b"the proof is for another query"),
        (["0" * 64, ALL, proof], b"the proof is of another map, or of another state of it than ROOT is; or it was changed"),
        (["check-count", root, ALL, proof], b"the proof is of an unknown version, or of version 1, which has none"),
        (["check-join", root, root, proof], b"the file is no proof of a join"),
        ([root, ALL, "none"], b"there is no such file, or no such folder on the way to it"),
        ([root, ALL, "/"], b"it is a folder or a device, or may not be read"),
        (["--most", "3", root, ALL, proof], b"--most allows no more bytes"),
        (["check-all", root, proof, "s.txt"], b"that line of the script is no query, or has no line feed behind it"),
    ):
        status, told = bench.told("mrtree_check.py", words)
        is_so = status not in (0, 1) and told.startswith(b"mrtree_check.py: " + said) and told.count(b"\n") == 1
        bench.holds(is_so, "mrtree_check.py %s: %s" % (words, told))


VERSION = mrtree_check.__version__.encode()
