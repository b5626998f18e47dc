"""The gateway and the driver of GDAL: requests and answers that were foretold, real programs, and what is hostile."""
import contextlib
import http.client
import json
import os
import random
import re
import shutil
import signal
import socket
import subprocess
import sys
import tempfile
import threading
import time
from decimal import Decimal
from typing import Any, Dict, Iterator, List, NamedTuple, Optional, Tuple
from urllib.parse import unquote

from bench import CLIENTS, HERE, TOP, Bench, read, write
import mrtree_check
import mrtree_gateway
import published
import records
import servers
import sources

STATEMENT = """map: %s
root: %s
version: %d
batch: 0
records: %d
unit: %s
crs: %s
axes: %s
%s
from: 2026-12-01
until: 2036-12-01
ended: none
"""
TOWN = """1 0 0 0 0 0 -
2 10 10 20 20 3 -
4 1795 0 1800 5 0 -
5 -1800 0 -1795 5 0 -
9007199254740993 30 5 30 5 3 -
"""
METRES = "1 40000000 580000050 40000000 580000050 -\n2 40000100 580000000 40000200 580000100 -\n"
UTM = "http://www.opengis.net/def/crs/EPSG/0/25833"
LINES = 80  # that the table has, at least


# ---- the maps, and a gateway of its own for each test


def root_of(bench: Bench, command: str, name: str) -> str:
    """The root digest of the map NAME.map, which is made of NAME.txt."""
    status, said = bench.program([command, name + ".map", name + ".txt"])
    bench.holds(status == 0, "the map %s: %s" % (name, said))
    return said.decode().strip()


def make_maps(bench: Bench) -> List[List[str]]:
    """The maps of the table, and the words of a gateway for each."""
    shutil.copy(os.path.join(TOP, "examples", "places.txt"), "places.txt")
    write("town.txt", TOWN.encode())
    write("metres.txt", METRES.encode())
    commands = {"places": "build", "town": "build2", "metres": "build"}
    roots = {name: root_of(bench, command, name) for name, command in commands.items()}
    shutil.copy("places.map", "bent.map")
    degrees = "EPSG:4326", "longitude latitude"
    lines = "numbers: ours\npayload: text name\naddress: %s.map"
    for name in ("places", "bent"):
        text = STATEMENT % ("places of Berlin", roots["places"], 1, 4, "1e-7", *degrees, lines % name)
        write(name + ".statement", text.encode())
    lines = "numbers: ours\npayload: none\nlayers: 0 buildings, 3 roads\naddress: town.map"
    write("town.statement", (STATEMENT % ("a town", roots["town"], 2, 5, "0.1", *degrees, lines)).encode())
    metres = [roots["metres"], "metres.map", "--unit", "0.01", "--crs", "EPSG:25833"]
    return [["places.statement"], ["town.statement"], metres, ["bent.statement"]]


@contextlib.contextmanager
def gateway(groups: List[List[str]], is_quiet: bool = True) -> Iterator[mrtree_gateway.Server]:
    """A gateway over the maps of some words."""
    with open(os.devnull, "w") as nothing, contextlib.redirect_stderr(nothing if is_quiet else sys.stderr):
        plans = [mrtree_gateway.plan_of(group, None) for group in groups]
        service = mrtree_gateway.Service(mrtree_gateway.collections_of([mrtree_gateway.opened(plan) for plan in plans]))
    server = mrtree_gateway.Server(("127.0.0.1", 0), service, mrtree_gateway.NAMES, False)
    thread = threading.Thread(target=server.serve_forever, args=(0.05,), daemon=True)
    thread.start()
    try:
        yield server
    finally:
        server.shutdown()
        server.server_close()


# ---- the table


class Row(NamedTuple):
    """A line of the table: a request, and what is foretold of its answer."""

    line: int
    kind: str
    method: str
    target: str
    host: Optional[str]
    status: int
    meant: List[Tuple[str, str]]


def rows_of(name: str) -> List[Row]:
    """The lines of the table."""
    found = []
    with open(os.path.join(HERE, name), encoding="utf-8") as file:
        for number, line in enumerate(file, 1):
            if not line.startswith("#"):
                kind, request, heads, status, *meant = line.rstrip("\n").split("\t")
                method, _, target = request.partition(" ")
                host = "127.0.0.1" if heads == "-" else heads.partition(":")[2].strip()
                pairs = [(one.split("=", 1)[0], one.split("=", 1)[1]) for one in meant]
                found.append(Row(number, kind, method, target, host, int(status), pairs))
    return found


def at_place(value: Any, path: str) -> Any:
    """What stands at a place of a JSON value; None where nothing does."""
    for part in path.split("/"):
        if part == "#":
            value = len(value)
        elif part.startswith("rel:"):
            value = next((one for one in value if one["rel"] == part[4:]), None)
        elif isinstance(value, list):
            value = value[int(part)] if int(part) < len(value) else None
        else:
            value = value.get(unquote(part)) if isinstance(value, dict) else None
    return value


def asked(port: int, method: str, target: str, host: Optional[str] = "127.0.0.1") -> Tuple[int, Dict[str, str], bytes]:
    """Status, head and body of an answer."""
    link = http.client.HTTPConnection("127.0.0.1", port, timeout=60)
    link.putrequest(method, target, skip_host=True, skip_accept_encoding=True)
    if host is not None:
        link.putheader("Host", host)
    link.endheaders()
    reply = link.getresponse()
    body = reply.read()
    link.close()
    return reply.status, {name.lower(): value for name, value in reply.getheaders()}, body


def table_holds(bench: Bench) -> None:
    """Each line of gateway.tsv, over a map file and over a host where there is one."""
    groups, rows = make_maps(bench), rows_of("gateway.tsv")
    with gateway(groups) as server:
        bytes_ = read("bent.map")
        write("bent.map", bytes_[:4100] + bytes([bytes_[4100] ^ 1]) + bytes_[4101:])
        bent = server.service.collections["bent"].map
        bent.source.map = None  # as a gateway that begins now has it
        for row in rows:
            row_holds(bench, server.server_port, row)
    bench.holds(len(rows) >= LINES, "gateway.tsv has %d lines" % len(rows))
    bench.holds({row.kind for row in rows} >= {*mrtree_gateway.PARTS}, "a class has no line")
    words_hold(bench)


def row_holds(bench: Bench, port: int, row: Row) -> None:
    """A line of the table."""
    status, head, body = asked(port, row.method, row.target, row.host)
    where = "gateway.tsv line %d" % row.line
    bench.holds(status == row.status, "%s: status %d, %s" % (where, status, body[:300]))
    if row.method == "HEAD":
        bench.holds(body == b"" and int(head["content-length"]) > 0, "%s: a body behind HEAD" % where)
    value = json.loads(body) if body else {}
    bench.holds(status == 200 or "features" not in value, "%s: a feature beside an error" % where)
    for path, meant in row.meant:
        found = head.get(path[1:]) if path.startswith("@") else at_place(value, path)
        wanted = None if meant == "absent" else meant if path.startswith("@") else json.loads(meant)
        if path.startswith("@") and wanted is not None:
            wanted = json.loads(meant)
        bench.holds(found == wanted, "%s: %s is %s" % (where, path, found))


BAD_WORDS = [
    [],
    ["--port", "8710"],
    ["places.statement", "--unit", "1"],
    ["places.statement", "places.statement"],
    ["places.statement", "--port", "70000"],
    ["places.statement", "--name", "a b"],
    ["places.statement", "--number", "name"],
    ["0" * 64],
    ["0" * 64, "places.map"],
    ["0" * 64, "places.map", "--unit", "0"],
    ["0" * 64, "places.map", "--unit", "1", "--crs", "metres"],
    ["0" * 64, "places.map", "--unit", "1", "--payload", "a", "--digest"],
    ["0" * 64, "ftp://example.org/a.map", "--unit", "1"],
    ["--unit", "1"],
    ["places.statement", "--zoom", "1"],
]


def words_hold(bench: Bench) -> None:
    """Words that do not fit, and maps that are refused or missing as the gateway begins."""
    root = mrtree_gateway.statement.open_statement("places.statement").root
    for words in BAD_WORDS:
        status, told = bench.call(mrtree_gateway, words)
        bench.holds(status == 1 and told.count(b"\n") == 1, "%s: status %d, %s" % (words, status, told))
    for words, status, text in (
        (["none.statement"], 7, b"failed NoFile none.statement: missing"),
        (["0" * 64, "places.map", "--unit", "1e-7"], 2, b"refused map page 0 WrongRoot found %s" % root.encode()),
        ([root, "none.map", "--unit", "1e-7"], 7, b"failed NoFile none.map: missing"),
        (["places.statement", "none.map"], 7, b"failed NoFile none.map: missing"),
        ([root, "places.map", "--unit", "1e-6"], 1, b"and so is not in degrees"),
        ([root, "places.map", "--unit", "1e-7", "--bind", "192.0.2.1"], 7, b"192.0.2.1:8710: "),
        (["places.txt"], 2, b"bad statement 1 Form places.txt"),
    ):
        said = bench.call(mrtree_gateway, words)
        bench.holds(said[0] == status and text in said[1], "%s: %s" % (words, said))
    said = bench.script("mrtree_gateway.py", ["--help"])
    bench.holds(said[0] == 0 and b"usage: mrtree_gateway.py MAP.." in said[1], "--help: %s" % (said,))
    ends_by_signal(bench)


def ends_by_signal(bench: Bench) -> None:
    """It runs as a process of its own, tells where, answers, and ends by a signal."""
    call = [sys.executable, os.path.join(CLIENTS, "mrtree_gateway.py"), "places.statement", "--port", "0", "--log"]
    child = subprocess.Popen(call, stderr=subprocess.PIPE)
    lines = [child.stderr.readline() for _ in range(2)]
    found = re.search(rb"http://127.0.0.1:(\d+)/", lines[1])
    bench.holds(found is not None and b"places: 4 records at batch 0" in lines[0], "it begins: %s" % lines)
    if found:
        bench.holds(asked(int(found[1]), "GET", "/")[0] == 200, "it answers")
    child.send_signal(signal.SIGTERM)
    rest = child.communicate(timeout=60)[1]
    bench.holds(child.returncode == 0 and b'"GET / HTTP/1.1" 200' in rest, "it ends: %s, %s" % (child.returncode, rest))


# ---- GDAL

SIZES = (1, 100, 10000)  # about how many records a window has
DRIVER = {"GDAL_PYTHON_DRIVER_PATH": os.path.abspath(CLIENTS)}


def gdal(call: List[str], seconds: int = 300) -> Tuple[int, str]:
    """Status and text of a program of GDAL."""
    path = "/usr/bin:/bin:" + os.environ.get("PATH", "")  # GDAL takes the modules of the Python that it finds first
    env = {**os.environ, **DRIVER, "PATH": path}
    ran = subprocess.run(call, stdout=subprocess.PIPE, stderr=subprocess.STDOUT, env=env, timeout=seconds)
    return ran.returncode, ran.stdout.decode("utf-8", "replace")


Told = Dict[int, Tuple[float, ...]]  # numbers of records, each with the sides that are told of it


def records_in(name: str) -> Told:
    """The features in a file of GeoJSON."""
    found = {}
    with open(name, encoding="utf-8") as file:
        features = json.load(file)["features"]
    for one in features:
        told = one["geometry"]["coordinates"]
        kind = one["geometry"]["type"]
        points = [told] if kind == "Point" else told if kind == "LineString" else told[0]
        xs, ys = zip(*points)
        found[one["properties"]["number"]] = (min(xs), min(ys), max(xs), max(ys))
    return found


class Window(NamedTuple):
    """A window: its sides in map units, and what `check` prints of it, in the unit of the coordinate system."""

    rect: Tuple[int, ...]
    unit: str
    records: Told

    def sides(self) -> List[str]:
        """The sides, in the unit of the coordinate system."""
        grid = sources.Grid(Decimal(self.unit))
        return [grid.in_file(side) for side in self.rect]


def windows_on(bench: Bench, root: str, unit: str, count: int) -> List[Window]:
    """A window for each size, on the map `m` of so many generated records."""
    grid, found = sources.Grid(Decimal(unit)), []
    for size in SIZES:
        half = int(10**6 * (min(size / count, 1) ** 0.5))
        for half in (half, half * 3 // 2, half * 2, half * 4):
            word = "window:%d,%d,%d,%d" % (-half - 7, -half + 3, half - 7, half + 3)
            bench.program(["prove", "m", word, "p"])
            lines = bench.client(["check", root, word, "p"])[1].decode().splitlines()
            if lines:
                break
        told = {}
        for line in lines:
            number, *rect = map(int, line.split(" ")[:5])
            told[number] = tuple(float(grid.in_file(side)) for side in rect)
        found.append(Window((-half - 7, -half + 3, half - 7, half + 3), unit, told))
    return found


def ways_of(port: int, root: str, window: Window, is_degrees: bool, is_long: bool) -> List[List[str]]:
    """The calls of ogr2ogr by which a window of the map `m` is read: in short all but one of them."""
    sides = window.sides()
    crs = "" if is_degrees else ",crs=EPSG:25833"
    name = "MRTREE:%s,address=m,unit=%s%s,name=m" % (root, window.unit, crs)
    calls = [["ogr2ogr", "-f", "GeoJSON", "out", name, "-spat", *sides, "-lco", "COORDINATE_PRECISION=9"]]
    if is_degrees:
        source = "OAPIF:http://127.0.0.1:%d" % port
        for size in ("10" if len(window.records) < 1000 else "10000",):
            calls.append(calls[0][:4] + [source, "m", "-oo", "PAGE_SIZE=" + size, *calls[0][5:]])
    else:
        words = "limit=all&crs=%s&bbox-crs=%s&bbox=%s" % (UTM, UTM, ",".join(sides))
        source = "http://127.0.0.1:%d/collections/m/items?%s" % (port, words)
        calls.append(calls[0][:4] + [source, *calls[0][-2:]])
    is_all = is_long or len(window.records) < 1000
    return calls if is_all else calls[1:] if is_degrees else calls[:1]


def windows_hold(bench: Bench) -> None:
    """Windows by the gateway and by the driver: exactly the records that `check` prints, in the right system."""
    count = 2**20 if bench.is_long else 12000
    bench.program(["make", str(count), "7", "m.txt"])
    root = root_of(bench, "build", "m")
    os.rename("m.map", "m")
    for unit, is_degrees in (("1e-5", True), ("0.01", False)):
        words = [root, "m", "--unit", unit, "--name", "m"] + ([] if is_degrees else ["--crs", "EPSG:25833"])
        with gateway([words]) as server:
            if is_degrees:
                open_holds(bench, server.server_port, count)
            for window in windows_on(bench, root, unit, count):
                for call in ways_of(server.server_port, root, window, is_degrees, bench.is_long):
                    window_holds(bench, call, window, is_degrees)


def window_holds(bench: Bench, call: List[str], window: Window, is_degrees: bool) -> None:
    """A call of ogr2ogr gives what `check` prints of a window."""
    with contextlib.suppress(OSError):
        os.remove("out")
    status, text = gdal(call)
    found = records_in("out") if status == 0 else {}
    where = "%s of %d records" % (call[4][:60], len(window.records))
    bench.holds(status == 0 and text == "", "%s: status %d, %s" % (where, status, text[:300]))
    bench.holds(found.keys() == window.records.keys(), "%s: %d records" % (where, len(found)))
    far = [one for one in found if any(abs(a - b) > 1e-9 for a, b in zip(found[one], window.records.get(one, ())))]
    bench.holds(not far, "%s: %d records lie elsewhere" % (where, len(far)))
    if not is_degrees and len(found) == 1:
        said = gdal(["ogrinfo", "-so", "-al", "out"])[1]
        bench.holds('ID["EPSG",25833]' in said, "%s: the coordinate system is another: %s" % (where, said[-300:]))


def open_holds(bench: Bench, port: int, count: int) -> None:
    """GDAL opens a map without a box, and costs little; the count and the extent are the map's."""
    began, used = time.monotonic(), time.process_time()
    said = gdal(["ogrinfo", "-so", "OAPIF:http://127.0.0.1:%d" % port, "m"])[1]
    took, used = time.monotonic() - began, time.process_time() - used
    bench.holds("Feature Count: %d\n" % count in said, "ogrinfo: %s" % said[:300])
    is_busy = os.getloadavg()[0] > (os.cpu_count() or 1)  # then the clock tells of other processes
    bench.holds(used < 2 and (took < 2 or is_busy), "opened in %.1f s, %.1f s of processor" % (took, used))
    print("tests/clients: GDAL opens %d records in %.2f s, %.2f s of the gateway's processor" % (count, took, used))


# ---- what is refused


def refusals_hold(bench: Bench) -> None:
    """A bent map, a bent host and one that stopped: an error with its name, and no feature."""
    bench.program(["make", "6000", "3", "m.txt"])
    root = root_of(bench, "build", "m")
    os.rename("m.map", "m")
    whole = read("m")
    leaves = [at for at in range(4096, len(whole), 4096) if whole[at : at + 1] == b"L"]
    for name, some in (("all", leaves), ("one", leaves[-1:])):
        pages = [(at, whole[at : at + 4096]) for at in range(0, len(whole), 4096)]
        write(name, b"".join(bent(page) if at in some else page for at, page in pages))
    plans = {name: [root, name, "--unit", "1e-5", "--name", name] for name in ("all", "one")}
    with gateway(list(plans.values())) as server:
        source = "OAPIF:http://127.0.0.1:%d" % server.server_port
        refused(bench, [source, "all"], ["502", "refused map page "], 0)
        later = mrtree_gateway.LATER[2:20]
        refused(bench, [source, "one", "-oo", "PAGE_SIZE=100"], ["502", "refused map page ", later], 1)
    for name, parts, least in (("all", ["refused map page "], 0), ("one", ["refused map page ", "not all"], 1)):
        refused(bench, ["MRTREE:%s,address=%s,unit=1e-5" % (root, name)], parts, least)
    hosts_hold(bench, root)


def bent(page: bytes) -> bytes:
    """A leaf with another coordinate."""
    return page[:14] + bytes([page[14] ^ 1]) + page[15:]


def refused(bench: Bench, source: List[str], parts: List[str], least: int) -> None:
    """ogr2ogr of a source ends with an error that has some parts; no feature is in what it wrote, or not all are."""
    with contextlib.suppress(OSError):
        os.remove("out.geojson")
    status, text = gdal(["ogr2ogr", "-f", "GeoJSON", "out.geojson", *source])
    where = "%s: status %d, %s" % (source, status, text[:400])
    bench.holds(status != 0 and all(part in text for part in parts) and "Traceback" not in text, where)
    count = read("out.geojson").count(b'"Feature"')
    bench.holds(count == 0 if least == 0 else least <= count < 6000, "%s: %d features" % (where, count))


def hosts_hold(bench: Bench, root: str) -> None:
    """A host is asked; one that bends its proofs gives an error and no feature, and so does one that stopped."""
    try:
        import mrtree_host  # noqa: F401
    except ImportError:
        bench.skip("the gateway over a host: there is no host")
        return
    call = [sys.executable, os.path.join(CLIENTS, "mrtree_host.py"), "--port", "0", "m"]
    child = subprocess.Popen(call, stderr=subprocess.PIPE)
    try:
        found = None
        while found is None:
            line = child.stderr.readline()
            found = re.search(rb"http://127.0.0.1:(\d+)/", line)
            if not line:
                break
        bench.holds(found is not None, "a host begins")
        address = "http://127.0.0.1:%s/" % (found[1].decode() if found else "9")
        with gateway([[root, address, "--unit", "1e-5", "--name", "m"]]) as server:
            source = "OAPIF:http://127.0.0.1:%d" % server.server_port
            said = gdal(["ogrinfo", "-so", source, "m", "-spat", "0", "0", "3", "3"])
            bench.holds(said[0] == 0 and "Feature Count: " in said[1], "a host: %s" % (said,))
            status, _, body = asked(server.server_port, "GET", "/collections/m/items?limit=10000")
            bench.holds(status == 200 and body.count(b'"Feature"') > 0, "a host: %s" % body[:200])
            inner = server.service.collections["m"].map
            honest, inner.source.got = inner.source.got, lambda path, word: bent_proof(honest(path, word))
            refused(bench, [source, "m", "-spat", "0", "0", "2", "2"], ["502", "refused "], 0)
            inner.source.got = honest
            child.terminate()
            child.wait()
            inner.answers.found.clear()
            refused(bench, [source, "m", "-spat", "0", "0", "2.5", "2"], ["502", "failed NoAnswer "], 0)
    finally:
        child.kill()
        child.wait()


def bent_proof(proof: bytes) -> bytes:
    """A proof of which a byte is another."""
    at = len(proof) * 2 // 3
    return proof[:at] + bytes([proof[at] ^ 1]) + proof[at + 1 :]


# ---- what is hostile

SIGNS = b"%\\\"'<>\x00\xff\x7f,.;:/?&=+-0123456789aeENx"
GOOD = b"GET /collections/places/items?bbox=13,52,14,53 HTTP/1.1\r\nHost: 127.0.0.1\r\nConnection: close\r\n\r\n"


def hostile(chance: random.Random) -> bytes:
    """A request at random: bytes, cuts, long heads, odd words, boxes, paths, methods, sizes and names."""
    way = chance.randrange(9)
    some = bytes(chance.choice(SIGNS) for _ in range(chance.choice((1, 7, 60, 900))))
    if way == 0:
        return bytes(chance.randrange(256) for _ in range(chance.choice((1, 30, 2000)))) + b"\r\n\r\n"
    if way == 1:
        return GOOD[: chance.randrange(len(GOOD))]
    if way == 2:
        at = chance.randrange(len(GOOD))
        return GOOD[:at] + bytes([GOOD[at] ^ 1 << chance.randrange(8)]) + GOOD[at + 1 :]
    if way == 3:
        return b"GET /%s HTTP/1.1\r\nHost: 127.0.0.1\r\nConnection: close\r\n\r\n" % some
    if way == 4:
        name = chance.choice((b"bbox", b"limit", b"start", b"layers", b"crs", b"bbox-crs", b"datetime", b"f", some))
        return GOOD.replace(b"bbox=13,52,14,53", name + b"=" + some)
    if way == 5:
        return GOOD.replace(b"\r\n\r\n", b"\r\nx: " + b"y" * chance.choice((10, 70000)) + b"\r\n" * 2)
    if way == 6:
        return GOOD.replace(b"\r\n\r\n", b"\r\n" + b"a: b\r\n" * chance.choice((5, 200)) + b"\r\n")
    if way == 7:
        return GOOD.replace(b"127.0.0.1", chance.choice((some, b"evil.example", b"127.0.0.1.evil.example:80", b"")))
    method = chance.choice((b"POST", b"PUT", b"TRACE", b"CONNECT", b"get", b"GET /x", some))
    size = chance.choice((b"0", b"10", b"-1", b"99999999999999999999", b"x"))
    return method + GOOD[3:-2] + b"Content-Length: " + size + b"\r\n\r\n" + some


HIDDEN = b"GET /collections/places/items HTTP/1.1\r\nHost: 127.0.0.1\r\n\r\n"
FRONT = b"GET / HTTP/1.1\r\nHost: 127.0.0.1\r\n"
BODIES = {  # fields by which a request has a body, in which another request is hidden, and the status of the first
    b"Content-Length: 60\r\n": b"200",
    b"Content-Length: 0\r\nContent-Length: 60\r\n": b"400",
    b"Content-Length : 60\r\n": b"400",
    b"Content-Length:\r\n 60\r\n": b"200",
    b"Content-Length: +0\r\n": b"200",
    b"Transfer-Encoding: chunked\r\n": b"200",
    b"Transfer-Encoding: identity\r\nContent-Length: 0\r\n": b"200",
    b"A: b\rContent-Length: 60\r\n": b"200",
    b"no field\r\nContent-Length: 60\r\n": b"400",
}


def hidden_hold(bench: Bench, port: int) -> None:
    """Of a request with a body one answer comes, and what is hidden in the body is not answered."""
    for fields, status in BODIES.items():
        said = answered(port, FRONT + fields + b"\r\n" + HIDDEN)
        is_so = said.startswith(b"HTTP/1.1 " + status) and said.count(b"HTTP/1.1 ") == 1 and b"Feature" not in said
        bench.holds(is_so, "a request hidden behind %r: %r" % (fields, said[:200]))


def answered(port: int, request: bytes) -> bytes:
    """What comes of a request; empty where the connection is closed without an answer."""
    with socket.create_connection(("127.0.0.1", port), 60) as link:
        with contextlib.suppress(OSError):
            link.sendall(request)
            link.shutdown(socket.SHUT_WR)
        pieces = []
        with contextlib.suppress(OSError):
            while True:
                piece = link.recv(65536)
                if not piece:
                    break
                pieces.append(piece)
    return b"".join(pieces)


def hostile_requests(bench: Bench) -> None:
    """Requests by the thousand: each is answered by 4xx or by what it asks for, and the gateway goes on."""
    chance, counts = random.Random(66), {}
    groups = make_maps(bench)
    told = tempfile.TemporaryFile("w+")
    with gateway(groups) as server, contextlib.redirect_stderr(told):
        for number in range(10000 if bench.is_long else 1500):
            request = hostile(chance)
            said = answered(server.server_port, request)
            found = re.match(rb"HTTP/1\.[01] ([0-9]{3}) ", said)
            kind = found[1].decode() if found else "?" if said else "closed"
            counts[kind] = counts.get(kind, 0) + 1
            is_so = kind in ("200", "closed") or kind[0] == "4"
            bench.holds(is_so, "hostile request %d: %r is answered %r" % (number, request[:100], said[:100]))
            bench.holds(b"Traceback" not in said, "hostile request %d: a trace" % number)
        hidden_hold(bench, server.server_port)
        status, _, body = asked(server.server_port, "GET", "/collections/places/items")
        bench.holds(status == 200 and body.count(b'"Feature"') == 4, "behind hostile requests: %d" % status)
        idle = [socket.create_connection(("127.0.0.1", server.server_port), 60) for _ in range(20)]
        for link in idle:
            link.sendall(b"GET / HT")
        bench.holds(asked(server.server_port, "GET", "/")[0] == 200, "beside connections that stand idle")
        for link in idle:
            link.close()
    told.seek(0)
    bench.holds(told.read() == "", "something is told of hostile requests")
    bench.holds(sum(counts.get(one, 0) for one in ("400", "404", "403", "405", "431")) > 500, "hostile: %s" % counts)
    told_ = ", ".join("%s %d" % one for one in sorted(counts.items()))
    print("tests/clients: hostile requests to the gateway: " + told_)


# ---- pages and counts, beside a scan


def pages_hold(bench: Bench) -> None:
    """Answers that are put together of small cells and pages are those of a scan, each record once; counts too."""
    chance, unit = random.Random(67), Decimal("0.1")
    for version in (1, 2):
        made = made_at_random(chance, version, 1500, "m.txt")
        root = root_of(bench, "build2" if version == 2 else "build", "m")
        plan = published.Plan("m", "m", root, "m.map", sources.Grid(unit), None, True)
        kept, published.PER_CELL = published.PER_CELL, 40
        map_ = published.Published(plan)
        for number in range(400 if bench.is_long else 20):
            box = None if number == 0 else box_of(chance)
            answer_holds(bench, chance, map_, made, box, mask_of(chance) if version == 2 else None)
        published.PER_CELL = kept


def made_at_random(chance: random.Random, version: int, count: int, name: str) -> List[mrtree_check.Record]:
    """Records with numbers below a count, in a record text: points, boxes, and some beside the antimeridian."""
    made = []
    for number in range(1, count):
        x, y = (round(chance.gauss(0, 500)) for _ in range(2)) if number % 3 else (chance.choice((-1800, 1790)), 7)
        wide, high = (chance.choice((0, 0, 3, 10, 400)) for _ in range(2))
        sides, layer = (x, y, min(x + wide, 1800), y + high), chance.choice((0, 3, 9))
        made.append(mrtree_check.Record(number, sides, b"", layer))
    write(name, "".join(one.line(version) + "\n" for one in made).encode())
    return made


def mask_of(chance: random.Random) -> Optional[int]:
    """Layers that are asked for."""
    return chance.choice((None, None, 1, 0b1001, 1 << 9, 1 << 5))


def box_of(chance: random.Random) -> Tuple[Decimal, ...]:
    """A box at random: with sides at map units or beside them, over the antimeridian, large or of no size."""
    digits = chance.choice((1, 1, 3, 17))
    x, y = (Decimal(round(chance.gauss(0, 50) * 10**digits)).scaleb(-digits) for _ in range(2))
    if chance.random() < 0.15:
        return Decimal(chance.randint(170, 180)), y, Decimal(chance.randint(-180, -170)), y + 90
    wide, high = (Decimal(chance.choice((0, 1, 70, 900, 3000))).scaleb(-1) for _ in range(2))
    return x, y, x + wide, y + high


def answer_holds(
    bench: Bench, chance: random.Random, map_: published.Published, made: List[Any], box: Any, mask: Optional[int]
) -> None:
    """An answer of pages is that of a scan, and so is the count, where one is told."""
    unit, meant = map_.plan.grid.unit, set()
    halves = [box]
    if box is not None and box[0] > box[2]:
        halves = [(box[0], box[1], 180, box[3]), (-180, box[1], box[2], box[3])]
    for one in made:
        x0, y0, x1, y1 = (side * unit for side in one.rect)
        for half in halves:
            meets = half is None or x0 <= half[2] and half[0] <= x1 and y0 <= half[3] and half[1] <= y1
            if meets and (mask is None or mask >> one.layer & 1):
                meant.add(one.number)
    windows, start, found = map_.windows(box), (0, 0), []
    limit, is_short, where = chance.choice((1, 7, 100, 5000)), chance.random() < 0.3, "%s, layers %s" % (box, mask)
    while start and len(found) <= 3000:
        page = map_.page(windows, mask, start, limit, is_short)
        size = len(page.records)
        bench.holds(0 < size <= limit or page.rest is None, "%s: %d of a page" % (where, size))
        found += [one.number for one in page.records]
        start = page.rest
    is_so = len(found) == len(set(found)) and set(found) == meant
    bench.holds(is_so, "%s: %d records, and %d" % (where, len(found), len(meant)))
    counts = {page.matched, map_.matched(windows, mask)} - {None}
    bench.holds(counts <= {len(meant)}, "%s: counts %s, and %d" % (where, counts, len(meant)))
    bench.holds(bool(counts) or map_.state().version == 1 or len(windows) > 1, "%s: no count" % where)


# ---- atlases


def atlas_of(bench: Bench, *words: str) -> str:
    """What a command of mrtree_atlas.py prints."""
    status, said = bench.script("mrtree_atlas.py", list(words), env={**os.environ, "MRTREE": bench.program_path})
    bench.holds(status == 0, "mrtree_atlas.py %s: status %d" % (words, status))
    return said.decode().strip()


def atlases_hold(bench: Bench) -> None:
    """Atlases are collections like maps: beside a scan, by GDAL, on a server, and what is refused."""
    chance, kept = random.Random(68), published.PER_CELL
    for version in (1, 2):
        made, name = made_at_random(chance, version, 700, "r.txt"), "atlas%d" % version
        atlas_of(bench, "split", "r.txt", name, "--sheet", "60" if version == 2 else "200")
        root, published.PER_CELL = atlas_of(bench, "build", name), 40
        plan = published.Plan("a", "a", root, name, sources.Grid(Decimal("0.1")), None, True, is_atlas=True)
        map_ = published.Published(plan)
        for number in range(400 if bench.is_long else 15):
            box = None if number == 0 else box_of(chance)
            answer_holds(bench, chance, map_, made, box, mask_of(chance) if version == 2 else None)
        published.PER_CELL = kept
        lines = "numbers: ours\npayload: none\natlas: yes\naddress: %s/" % name
        degrees = "EPSG:4326", "longitude latitude"
        write(name + ".statement", (STATEMENT % ("a land", root, version, 699, "0.04", *degrees, lines)).encode())
    atlas_served(bench, root, made)
    atlas_refused(bench, root)
    atlas_words(bench, root)
    atlas_bound(bench)


def atlas_served(bench: Bench, root: str, made: List[mrtree_check.Record]) -> None:
    """The collection of an atlas, over a file server too, and through GDAL; masks, counts and links to the next."""
    with servers.Server(b"", lambda asked: servers.honest(asked._replace(file=read(asked.path)))) as files:
        words = [root, files.address + "atlas2/", "--unit", "0.04", "--atlas", "--name", "far"]
        with gateway([["atlas2.statement"], ["atlas1.statement"], words]) as server:
            port, box = server.server_port, "-30,-30,30,30"
            for name in ("atlas2", "far"):
                told = json.loads(asked(port, "GET", "/collections/" + name)[2])
                is_so = told["description"].startswith("699 records in 12 sheets of an atlas at batch 0, root digest ")
                bench.holds(is_so, "the collection %s: %s" % (name, told))
                found, path = [], "/collections/%s/items?limit=100&layers=0,3&bbox=%s" % (name, box)
                while path:
                    value = json.loads(asked(port, "GET", path)[2])
                    found += [one["id"] for one in value["features"]]
                    path = next((one["href"] for one in value["links"] if one["rel"] == "next"), "")
                    path = path[path.find("/collections") :] if path else ""
                meant = [one.number for one in made if one.layer in (0, 3) and is_in(one.rect, 750)]
                is_so = sorted(found) == meant and value["numberMatched"] == len(meant)
                bench.holds(is_so, "%s: %d records, and %d" % (name, len(found), len(meant)))
            status, _, body = asked(port, "GET", "/collections/atlas1/items?layers=0")
            bench.holds(status == 400 and b"of version 1" in body, "layers of an atlas of version 1: %s" % body)
            if shutil.which("ogr2ogr"):
                atlas_by_gdal(bench, ["OAPIF:http://127.0.0.1:%d" % port, "far"], made)
    if shutil.which("ogr2ogr"):
        atlas_by_gdal(bench, ["MRTREE:%s,address=atlas2,unit=0.04,atlas=yes" % root], made)


def is_in(rect: Tuple[int, ...], side: int) -> bool:
    """Whether a rectangle meets the square of so many map units on each side of the origin."""
    return rect[0] <= side and -side <= rect[2] and rect[1] <= side and -side <= rect[3]


def atlas_by_gdal(bench: Bench, source: List[str], made: List[mrtree_check.Record]) -> None:
    """What GDAL reads of an atlas."""
    call = ["ogr2ogr", "-f", "GeoJSON", "/vsistdout/", *source, "-spat", "-30", "-30", "30", "30"]
    status, text = gdal(call)
    found = sorted(map(int, re.findall(r'"number": (\d+)', text)))
    meant = [one.number for one in made if is_in(one.rect, 750)]
    bench.holds(status == 0 and found == meant, "%s: %d records, and %d" % (source, len(found), len(meant)))
    bench.holds("Feature Count: 699\n" in gdal(["ogrinfo", "-so", "-al", *source])[1], "%s: the count" % source)


def atlas_refused(bench: Bench, root: str) -> None:
    """A bent sheet and one that is not there: an error with the sheet, and no feature; beside it all goes on."""
    sheets = published.Published(mrtree_gateway.plan_of(["atlas2.statement"], None)).state().sheets
    first, last = (sheets[at].root.hex() for at in (0, -1))
    shutil.copytree("atlas2", "bent")
    pages = read("bent/sheets/" + first)
    rest = [pages[at : at + 4096] for at in range(4096, len(pages), 4096)]
    write("bent/sheets/" + first, pages[:4096] + b"".join(bent(one) if one[:1] == b"L" else one for one in rest))
    os.remove("bent/sheets/" + last)
    with gateway([[root, "bent", "--unit", "0.04"]]) as server:
        for sheet, code, words in (
            (sheets[0], "MapRefused", "refused sheet %d map page " % sheets[0].number),
            (sheets[-1], "SourceFailed", "failed NoFile bent/sheets/%s: missing" % last),
        ):
            box = ",".join(sources.Grid(Decimal("0.04")).in_file(side) for side in sheet.rect)
            status, _, body = asked(server.server_port, "GET", "/collections/bent/items?bbox=" + box)
            value = json.loads(body)
            is_so = status == 502 and value["code"] == code and value["description"].startswith(words)
            bench.holds(is_so and "features" not in value, "a sheet that is not as it was: %s" % body)
            if shutil.which("ogr2ogr") and code == "MapRefused":
                sides = box.split(",")
                source = ["MRTREE:%s,address=bent,unit=0.04" % root, "-spat", *sides]
                status, text = gdal(["ogr2ogr", "-f", "GeoJSON", "out.geojson", *source])
                bench.holds(status != 0 and words in text, "by the driver: %d %s" % (status, text))
                bench.holds(read("out.geojson").count(b'"Feature"') < 60, "by the driver, features")


def atlas_words(bench: Bench, root: str) -> None:
    """An atlas is told by its statement or an option, never by the bytes that come; statements are held beside it."""
    write("plain.txt", ("7" + METRES.replace("\n2 ", "\n72 ")).encode())
    plain = root_of(bench, "build", "plain")
    text = read("atlas2.statement")
    write("many.statement", text.replace(b"records: 699", b"records: 698"))
    write("old.statement", text.replace(b"version: 2", b"version: 1"))
    write("map.statement", text.replace(b"atlas: yes\n", b"").replace(b"atlas2/", b"atlas2/index.map"))
    os.makedirs("near/sheets")
    shutil.copy("plain.map", "near/sheets/" + plain)
    write("file.statement", text.replace(b"atlas2/", b"atlas2/index.map"))
    for words, status, part in (
        (["many.statement"], 2, b"refused OtherCount many.statement"),
        (["old.statement"], 2, b"refused OtherVersion old.statement"),
        (["map.statement"], 2, b"refused OtherVersion map.statement"),
        (["file.statement"], 7, b"failed NoFile atlas2/index.map/sheets/%s" % root.encode()),
        (["atlas2.statement", "--atlas"], 1, b"a statement says itself"),
        (["0" * 64, "atlas2", "--unit", "0.04"], 7, b"failed NoFile atlas2/sheets/%s: missing" % (b"0" * 64)),
        ([plain, "near", "--unit", "0.04"], 2, b"refused entry 71 Form"),
    ):
        said = bench.call(mrtree_gateway, words)
        bench.holds(said[0] == status and part in said[1], "%s: %s" % (words, said))


def atlas_bound(bench: Bench) -> None:
    """An atlas with sheets of both versions has no layers, and one without records no features."""
    write("town.txt", TOWN.encode())
    root_of(bench, "build2", "town")
    both = atlas_of(bench, "bind", "both", "town.map", "plain.map")
    write("none.txt", b"")
    atlas_of(bench, "split", "none.txt", "none")
    none = atlas_of(bench, "build", "none")
    groups = [[both, "both", "--unit", "1e-7"], [none, "none", "--unit", "1"]]
    with gateway(groups) as server:
        for name, count in (("both", 7), ("none", 0)):
            status, _, body = asked(server.server_port, "GET", "/collections/%s/items" % name)
            value = json.loads(body)
            is_so = status == 200 and len(value["features"]) == value["numberMatched"] == count
            is_so = is_so and not any("layer" in one["properties"] for one in value["features"])
            bench.holds(is_so, "the atlas %s: %s" % (name, body))
        status, _, body = asked(server.server_port, "GET", "/collections/both/items?layers=0")
        bench.holds(status == 400 and b"of version 1" in body, "layers of sheets of both versions: %s" % body)


# ---- numbers

LARGE = (2147483647, 2147483648, 10**12, 2**53, 2**53 + 1, 2**63 - 1)
LARGEST = (5, 2**60, 2**63, 2**64 - 1)


def types_hold(bench: Bench) -> None:
    """Numbers of more than 32 bits come through GDAL as they are, also where the first ones are small."""
    numbers = [*range(1, 3001), *LARGE]
    write("m.txt", "".join("%d %d 0 %d 5 -\n" % (one, at * 10, at * 10 + 5) for at, one in enumerate(numbers)).encode())
    words = [root_of(bench, "build", "m"), "m.map", "--unit", "1e-5", "--name"]
    write("large.txt", "".join("%d 0 0 9 9 -\n" % one for one in LARGEST).encode())
    large = [root_of(bench, "build", "large"), "large.map", "--unit", "1e-5"]
    with gateway([[*words, "m"], [*words, "other", "--number", "<n>"], large]) as server:
        port = server.server_port
        status, head, body = asked(port, "GET", "/collections/m/schema")
        is_so = status == 200 and head["content-type"] == "application/xml" and b'name="number" type="xs:long"' in body
        bench.holds(is_so, "the schema: %s %s" % (head, body))
        body = asked(port, "GET", "/collections/other/schema")[2]
        bench.holds(b'name="&lt;n&gt;"' in body, "a name in the schema that has to be escaped: %s" % body)
        bench.holds(asked(port, "GET", "/collections/m/schema?limit=1")[0] == 400, "the schema takes a parameter")
        if shutil.which("ogr2ogr"):
            call = ["ogr2ogr", "-f", "GeoJSON", "/vsistdout/", "OAPIF:http://127.0.0.1:%d" % server.server_port, "m"]
            status, text = gdal([*call, "-spat", "0.29", "0", "1", "1"])
            found = sorted(map(int, re.findall(r'"number": (\d+)', text)))
            is_so = status == 0 and "Warning" not in text and found == numbers[2900:]
            bench.holds(is_so, "large numbers by GDAL: %s" % found[-len(LARGE) :])
            status, text = gdal([*call[:-1], "large"])
            found = sorted(map(int, re.findall(r'"number": "(\d+)"', text)))
            bench.holds(status == 0 and found == [*LARGEST], "the largest numbers by GDAL: %s" % text)


# ---- shapes

SHAPES = [  # a feature each: a triangle with a hole, two lines, a point
    {"type": "Polygon", "coordinates": [[[0, 0], [9, 0], [0, 9], [0, 0]], [[1, 1], [2, 1], [1, 2], [1, 1]]]},
    {"type": "MultiLineString", "coordinates": [[[20, 20], [25, 22.5]], [[24, 20], [21, 29]]]},
    {"type": "Point", "coordinates": [30.25, 5]},
]


def shapes_hold(bench: Bench) -> None:
    """Features have their shapes, each by its digest; where one is another, none is told."""
    features = [
        {"type": "Feature", "id": at + 1, "properties": {"name": "Nr. %d \u00e4" % at, "size": at / 4}, "geometry": one}
        for at, one in enumerate(SHAPES)
    ]
    write("town.geojson", json.dumps({"type": "FeatureCollection", "features": features}).encode())
    root = shapes_written(bench, "town.geojson")
    words = [root, "t.map", "--unit", "1e-7", "--shapes", "town.shapes", "--places", "places", "--name", "t"]
    with gateway([words]) as server:
        status, _, body = asked(server.server_port, "GET", "/collections/t/items/2")
        bench.holds(status == 200 and json.loads(body)["geometry"] == SHAPES[1], "by its number: %s" % body)
        found = json.loads(asked(server.server_port, "GET", "/collections/t/items")[2])["features"]
        bench.holds([one["geometry"] for one in found] == SHAPES, "shapes: %s" % found)
        bench.holds(found[0]["properties"]["name"] == "Nr. 0 \u00e4", "properties of shapes: %s" % found[0])
        if shutil.which("ogr2ogr"):
            shapes_by_gdal(bench, server.server_port, root)
        write("town.shapes", read("town.shapes").replace(b"25,22.5", b"25,22.6"))
        server.service.collections["t"].map.shapes = None
        status, _, body = asked(server.server_port, "GET", "/collections/t/items?limit=2")
        is_so = status == 502 and json.loads(body)["code"] == "ShapeRefused" and b'"Feature"' not in body
        bench.holds(is_so, "a shape that was changed: %s" % body)


def shapes_written(bench: Bench, name: str) -> str:
    """Writes the map `t.map`, the shapes and both indexes of a file of GeoJSON; answers the root digest."""
    words = ["text", name, "t.txt", "--unit", "1e-7", "--digest", "--shapes-to", "town.shapes", "--places-to", "places"]
    status, told = bench.call(records, words)
    bench.holds(status == 0, "the shapes are written: %s" % told)
    return root_of(bench, "build", "t")


def shapes_by_gdal(bench: Bench, port: int, root: str) -> None:
    """Shapes through the gateway and through the driver are those of the publisher's file."""
    others = [["OAPIF:http://127.0.0.1:%d" % port], ["MRTREE:%s,address=t.map,unit=1e-7,shapes=town.shapes" % root]]
    for source in [["town.geojson"], *others]:
        text = gdal(["ogrinfo", "-al", "-q", *source])[1]
        shapes = re.findall(r"^  ([A-Z]+ \(.*)$", text, re.MULTILINE)
        sizes = re.findall(r"size \(Real\) = (.*)$", text, re.MULTILINE)
        is_so = shapes == SHAPES_TOLD and sizes == ["0", "0.25", "0.5"]
        bench.holds(is_so, "%s: shapes %s, sizes %s" % (source, shapes, sizes))


SHAPES_TOLD = [
    "POLYGON ((0 0,9 0,0 9,0 0),(1 1,2 1,1 2,1 1))",
    "MULTILINESTRING ((20 20,25.0 22.5),(24 20,21 29))",
    "POINT (30.25 5.0)",
]


# ---- the driver of GDAL


def driver_holds(bench: Bench) -> None:
    """Names of datasets that do not fit, statements, counts, extents, layers, and a large number."""
    make_maps(bench)
    for name, part in (
        ("MRTREE:", "names no map"),
        ("MRTREE:none.statement", "failed NoFile none.statement: missing"),
        ("MRTREE:places.statement,unit=1", "a statement says itself"),
        ("MRTREE:%s,address=places.map,unit=1e-7" % ("0" * 64), "refused map page 0 WrongRoot"),
        ("MRTREE:%s,address=places.map" % ("0" * 64), "and --unit"),
        ("MRTREE:places.statement,layers=1", "which has no layers"),
    ):
        status, text = gdal(["ogrinfo", "-so", name])
        is_so = status != 0 and "ERROR 1: MRTREE: " in text and part in text and "Traceback" not in text
        bench.holds(is_so, "%s: status %d, %s" % (name, status, text[:300]))
    status, text = gdal(["ogrinfo", "-al", "MRTREE:places.statement"])
    wanted = ["Feature Count: 4\n", "Extent: (13.332000, 52.500000) - (13.409400, 52.520800)", 'ID["EPSG",4326]]']
    wanted += ["name (String) = Fernsehturm", "POINT (13.4094 52.5208)", "number (Integer64) = 103"]
    bench.holds(status == 0 and all(one in text for one in wanted), "places by the driver: %s" % text[:1500])
    text = gdal(["ogrinfo", "-al", "-q", "MRTREE:town.statement,layers=3"])[1]
    wanted = ["number (Integer64) = 9007199254740993", "layer_name (String) = roads", "number (Integer64) = 2"]
    bench.holds(all(one in text for one in wanted) and text.count("OGRFeature") == 2, "layer 3: %s" % text[:600])


def numbers_hold(bench: Bench) -> None:
    """Under GDAL each feature's id is the record's number, also where the property does not fit the type of the first."""
    numbers = [*range(1, 13), 2**31 + 5, 2**53 - 1, 2**53 + 1]
    write("n.txt", "".join("%d %d 0 %d 0 -\n" % (number, at, at) for at, number in enumerate(numbers)).encode())
    root = root_of(bench, "build", "n")
    with gateway([[root, "n.map", "--unit", "1"]]) as server:
        text = gdal(["ogrinfo", "-al", "-q", "OAPIF:http://127.0.0.1:%d" % server.server_port])[1]
    found = sorted(map(int, re.findall(r"^OGRFeature\(n\):([0-9]+)$", text, re.MULTILINE)))
    bench.holds(found == numbers, "the ids under GDAL: %s" % text[-600:])
    text = gdal(["ogrinfo", "-al", "-q", "MRTREE:%s,address=n.map,unit=1" % root])[1]
    found = sorted(map(int, re.findall(r"number \(Integer64\) = ([0-9]+)$", text, re.MULTILINE)))
    bench.holds(found == numbers, "the numbers by the driver: %s" % text[-600:])


def pipe_holds(bench: Bench) -> None:
    """An answer goes by a pipe from records.py to ogr2ogr."""
    make_maps(bench)
    script = os.path.join(CLIENTS, "records.py")
    root = mrtree_gateway.statement.open_statement("places.statement").root
    window = "window:133700000,525100000,133800000,525200000"
    words = [script, "answer", root, window, "places.map", "-", "--unit", "1e-7", "--payload", "name"]
    first = subprocess.Popen([sys.executable, *words], stdout=subprocess.PIPE, stderr=subprocess.DEVNULL)
    last = subprocess.run(["ogr2ogr", "out.gpkg", "/vsistdin/"], stdin=first.stdout, stderr=subprocess.PIPE)
    bench.holds(first.wait() == 0 and last.returncode == 0, "the pipe: %s" % last.stderr)
    bench.holds("Feature Count: 2" in gdal(["ogrinfo", "-so", "-al", "out.gpkg"])[1], "what came by the pipe")


# ---- QGIS

POINTS = 400  # of the picture along each side
BOX = "13.32,52.51,13.34,52.53"


def has_qgis() -> bool:
    """Whether the system's Python has QGIS."""
    call = ["/usr/bin/python3", "-c", "import qgis.core"]
    return os.path.exists(call[0]) and subprocess.run(call, stderr=subprocess.DEVNULL).returncode == 0


def in_qgis(groups: List[List[str]]) -> List[Dict[str, Any]]:
    """What QGIS says of some collections, without a screen."""
    env = {**os.environ, **DRIVER, "QT_QPA_PLATFORM": "offscreen", "HOME": os.getcwd()}
    env["PATH"] = "/usr/bin:/bin:" + os.environ.get("PATH", "")
    call = ["/usr/bin/python3", os.path.join(HERE, "in_qgis.py"), *(word for group in groups for word in group)]
    ran = subprocess.run(call, stdout=subprocess.PIPE, stderr=subprocess.PIPE, env=env, timeout=300)
    told = [json.loads(line) for line in ran.stdout.decode().splitlines() if line.startswith("{")]
    return told + [{"error": ran.stderr.decode()[-300:]}] * (len(groups) - len(told))


def qgis_holds(bench: Bench) -> None:
    """QGIS opens a collection, counts it, finds what `check` finds, and draws it where a plain drawing has it."""
    if not has_qgis():
        bench.skip("the gateway under QGIS: /usr/bin/python3 has no qgis (python3-qgis and qgis-providers of Debian)")
        return
    chance, lines = random.Random(5), []
    for number in range(1, 3001):  # parcels on a grid, with ways between them
        x, y = 133000000 + number % 60 * 20000, 525000000 + number // 60 * 15000
        sides = x + chance.randrange(3000), y + chance.randrange(3000), x + 19000, y + 14000
        lines.append("%d %d %d %d %d -\n" % (number, *sides))
    write("m.txt", "".join(lines).encode())
    root = root_of(bench, "build", "m")
    rect = 133200000, 525100000, 133400000, 525300000
    bench.program(["prove", "m.map", "window:%d,%d,%d,%d" % rect, "p"])
    said = bench.client(["check", root, "window:%d,%d,%d,%d" % rect, "p"])[1].decode().splitlines()
    found = [tuple(map(int, line.split(" ")[:5])) for line in said]
    whole = read("m.map")
    pages = [whole[at : at + 4096] for at in range(0, len(whole), 4096)]
    write("bent", b"".join(bent(page) if page[:1] == b"L" else page for page in pages))
    called = {"parcels": "m.map", "bent": "bent"}
    groups = [[root, file, "--unit", "1e-7", "--name", name] for name, file in called.items()]
    with gateway(groups) as server:
        address = "http://127.0.0.1:%d" % server.server_port
        source = "MRTREE:%s,address=m.map,unit=0.01,crs=EPSG:25833" % root
        asked_for = [[address, "parcels", BOX, "out"], [address, "bent", BOX, "none"]]
        asked_for.append([source, "m", "1332000,5251000,1334000,5253000", "metres"])
        told, refused, metres = in_qgis(asked_for)
    is_so = refused.get("is_valid") is False and "refused map page " in " ".join(refused.get("messages", []))
    bench.holds(is_so and not os.path.exists("none.png"), "QGIS with a bent map: %s" % refused)
    numbers = sorted(one[0] for one in found)
    is_so = metres.get("crs") == "EPSG:25833" and metres["count"] == 3000 and metres["numbers"] == numbers
    bench.holds(is_so, "QGIS, by the driver: %s" % metres)
    is_so = told.get("is_valid") is True and told["count"] == 3000 and told["crs"] == "EPSG:4326"
    bench.holds(is_so, "QGIS: %s" % told)
    bench.holds(told.get("fields") == ["number"], "QGIS: fields %s" % told.get("fields"))
    picture_holds(bench, found)
    inside = set(told.get("numbers", []))
    bench.holds(inside >= set(numbers), "QGIS: %d features, and %d" % (len(inside), len(numbers)))


def picture_holds(bench: Bench, found: List[Tuple[int, ...]]) -> None:
    """The picture has red where a record is, and white elsewhere, but for points at the sides of records."""
    picture, wrong = read("out.rgb"), 0
    bench.holds(len(picture) == 3 * POINTS * POINTS, "QGIS drew %d bytes" % len(picture))
    meant = bytearray(POINTS * POINTS)
    step = 200000 / POINTS
    for _, x0, y0, x1, y1 in found:
        for row in range(max(0, round((525300000 - y1) / step)), min(POINTS, round((525300000 - y0) / step))):
            for column in range(max(0, round((x0 - 133200000) / step)), min(POINTS, round((x1 - 133200000) / step))):
                meant[row * POINTS + column] = 1
    for at in range(0, min(len(picture), 3 * len(meant)), 3):
        wrong += (picture[at + 1] < 128) != meant[at // 3]
    share = sum(meant) / len(meant)
    is_so = 0.2 < share < 0.9 and wrong < 0.01 * len(meant)
    bench.holds(is_so, "QGIS: %d points differ, %.2f are drawn" % (wrong, share))
    bench.holds(read("out.png")[:4] == b"\x89PNG", "QGIS drew no picture")
    if os.environ.get("KEEP_PICTURE"):
        shutil.copy("out.png", os.environ["KEEP_PICTURE"])


# ---- all of it


def gateway_holds(bench: Bench) -> None:
    """All of it, each part in a folder of its own."""
    parts = [table_holds, pages_hold, atlases_hold, types_hold, hostile_requests, shapes_hold]
    if shutil.which("ogr2ogr"):
        parts += [windows_hold, refusals_hold, driver_holds, numbers_hold, pipe_holds]
    else:
        bench.skip("the gateway under GDAL, and its driver: there is no ogr2ogr")
    parts.append(qgis_holds)
    for part in parts:
        began, used = time.monotonic(), sum(os.times()[:4])
        with tempfile.TemporaryDirectory(dir=".") as folder:
            os.chdir(folder)
            part(bench)
            os.chdir("..")
        took = time.monotonic() - began, sum(os.times()[:4]) - used
        print("tests/clients: the gateway, %s: %.1f s, %.1f s of processors" % (part.__name__, *took), flush=True)
