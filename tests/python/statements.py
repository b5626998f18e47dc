"""Statements of maps: the table of them, signatures, what they are compared with, and a week of a publisher's life.

The table is examples/vectors/statements.tsv: each line has the bytes of a statement and what comes of it, between tabs.
"""
import collections
import contextlib
import datetime
import functools
import http.server
import io
import json
import os
import shutil
import subprocess
import threading
import time
from typing import Dict, Iterator, List, Optional, Tuple

from bench import EXAMPLES, Bench, read, write
from inputs import unescaped
import draw
import mrtree_ask
import mrtree_check
import records
import statement
from statement import BadStatement, read_statement

LEAST = 350  # lines of the table
PLACES = "b136e9ea66645cc4c87feaf0addfecbc0d52bd619bc06f05e004ff35cbfaff04"
WINDOW = "window:133700000,525100000,133800000,525200000"
PROOF = os.path.join(EXAMPLES, "places-window.proof")
SAMPLE = {
    **{"map": "places of Berlin", "root": PLACES, "version": "1", "batch": "0", "records": "4", "unit": "1e-7"},
    **{"crs": "EPSG:4326", "axes": "longitude latitude", "numbers": "keys of our register", "payload": "text name"},
    **{"from": "2026-12-01", "until": "2036-12-01", "ended": "none"},
}
OTHER = "11" * 32


def text_of(**values: Optional[str]) -> bytes:
    """The text of the sample's statement with other values, none of those that are None."""
    lines = {**SAMPLE, **{key.strip("_"): value for key, value in values.items()}}
    return "".join("%s: %s\n" % line for line in lines.items() if line[1] is not None).encode()


def put(name: str, **values: Optional[str]) -> str:
    """Puts a statement into the folder; answers its name."""
    write(name, text_of(**values))
    return name


# ---- texts


def told_of(text: bytes) -> str:
    """What comes of a text: what it says, as JSON, or the line of the refusal."""
    try:
        one = read_statement(text)
    except BadStatement as bad:
        assert bad.meaning() and "KEYS" not in bad.meaning() and "FORM" not in bad.meaning()
        return str(bad)
    names = "map root atlas version batch records unit crs axes numbers keys payload name layers shapes address"
    values = {**one._asdict(), "batch": str(one.batch), "unit": one.unit_word, "name": one.payload_name}
    days = {"begins": one.begins.isoformat(), "until": one.until.isoformat(), "ended": one.ended}
    return json.dumps({**{key: values[key] for key in names.split()}, **days}, ensure_ascii=False,
        separators=(",", ":"))


def table_holds(bench: Bench) -> None:
    """Each line of the table; one that is right is written again as it was, in the order of the keys."""
    with open(os.path.join(EXAMPLES, "vectors", "statements.tsv"), "rb") as file:
        lines = file.read().split(b"\n")
    rows = [(at, *line.split(b"\t")) for at, line in enumerate(lines, 1) if line and line[:1] != b"#"]
    bench.holds(len(rows) >= LEAST, "statements.tsv has %d lines" % len(rows))
    for at, spelled, told in rows:
        text = unescaped(spelled)
        found = told_of(text)
        bench.holds(found == unescaped(told).decode(), "statements.tsv line %d: %s" % (at, found))
        if found.startswith("{"):
            again = statement.spelled(read_statement(text)).encode()
            bench.holds(sorted(again.split(b"\n")) == sorted(text.split(b"\n")), "line %d is written otherwise" % at)


def large_hold(bench: Bench) -> None:
    """Texts that are too large for a table, or would take long: each is judged within two seconds."""
    roots = ["%064x" % number for number in range(980)]
    layered = {"version": "2", "root": OTHER}
    for text, meant in (
        (text_of() + bytes(65536), "Long"),
        (b"\n" * 65537, "bad statement 65537 Long"),
        (b"\n" * 65536, "bad statement 1 Form"),
        (bytes(2**24), "bad statement 1 Long"),
        (text_of(address=":/" * 32000), "{"),
        (text_of(address="://" * 21000), "bad statement 14 Value address"),
        (text_of(layers="0 " + "a " * 32000 + ",", **layered), "bad statement 14 Value layers"),
        (text_of(layers="0 a, " * 13000 + "1 b", **layered), "bad statement 14 Value layers"),
        (text_of(unit="1" * 64000), "bad statement 6 Value unit"),
        (text_of(batch="1" * 64000), "bad statement 4 Value batch"),
        (text_of(ended=" ".join(roots)), "{"),
        (text_of(ended=" ".join(roots + roots[:1])), "bad statement 13 Value ended"),
        (text_of(map="x" * 65000), "{"),
    ):
        began = time.monotonic()
        found = told_of(text)
        is_soon = time.monotonic() - began < 2
        bench.holds(meant in found and is_soon, "a large statement: %s, not %s" % (found[:80], meant))


# ---- what tools do with them


@contextlib.contextmanager
def captured() -> Iterator[io.StringIO]:
    """What is said on standard error meanwhile."""
    told = io.StringIO()
    with contextlib.redirect_stderr(told):
        yield told


def asked(words: List[str]) -> Tuple[int, str, str]:
    """Status and text of mrtree_ask.py, and what it says on standard error."""
    with captured() as told:
        status, text = mrtree_ask.run(words)
    return status, text, told.getvalue()


TOOLS = ("records.py answer", "records.py answers", "draw.py", "mrtree_ask.py", "mrtree_ask.py by a map")


def tool_says(bench: Bench, tool: str, names: List[str], more: List[str] = []) -> Tuple[int, str]:
    """Status and what is told by a tool that judges the sample by statements."""
    options = [word for name in names for word in ("--statement", name)] + more
    if tool == "records.py answer":
        found = bench.call(records, ["answer", *options, WINDOW, PROOF, "out"])
    elif tool == "records.py answers":
        found = bench.call(records, ["answers", *options, "script", "bundle", "out"])
    elif tool == "draw.py":
        found = bench.call(draw, [*options, WINDOW, PROOF, "out"])
    else:
        status, text, told = asked([*options, WINDOW, *(["places.map"] if "map" in tool else [])])
        return status, text * (status != 0) + told
    return found[0], found[1].decode()


def sample(bench: Bench) -> None:
    """Puts the sample's map, a script and its bundle into the folder."""
    bench.program(["build", "places.map", os.path.join(EXAMPLES, "places.txt")])
    write("script", (WINDOW + "\n").encode())
    bench.program(["serve", "places.map", "script", "bundle"])


REFUSED = (  # the values of a statement, and what each tool says of it
    ({}, 0, ""),
    ({"batch": "1"}, 2, "refused OtherBatch s: its batch is 1, and that of the proof is 0"),
    ({"version": "2"}, 2, "refused OtherVersion s: its version is 2, and that of the proof is 1"),
    ({"atlas": "yes"}, 2, "refused OtherKind s: it is of an atlas, and the proof of a map"),
    ({"records": "5"}, 2, "refused OtherCount s: its count of records is 5, and that of the proof is 4"),
    ({"root": OTHER}, 2, "refused (map page 0 )?WrongRoot|query 1 refused WrongRoot"),
    ({"root": OTHER, "ended": PLACES}, 2, "refused EndedRoot s: it says that the root %s has ended" % PLACES),
    ({"batch": "x"}, 2, "bad statement 4 Value batch s: batch has to be: a whole number from 0"),
    ({"map": None}, 2, "bad statement 14 Missing map s: the line map is missing"),
    ({"from_": "2001-01-01", "until": "2001-02-01"}, 0, "s: the next statement was to come until 2001-02-01: ask"),
    ({"from_": "2035-01-01"}, 0, "s: it is for the time from 2035-01-01 on"),
)
OF_RECORDS = (  # the same where a tool sees the records
    ({"payload": "none"}, 2, "refused OtherPayload s: the payload of record 101 is there, and there is to be none"),
    ({"payload": "digest"}, 2, "refused OtherPayload s: the payload of record 101 is no digest"),
    ({"payload": "key", "numbers": None, "keys": "id"}, 2,
    "refused OtherKey s: the payload of record 101 is not the key"),
    ({"payload": "hexadecimal"}, 0, ""),
)


def tools_hold(bench: Bench) -> None:
    """The same statement in all tools comes to one end; what is refused leaves no output."""
    sample(bench)
    for tool in TOOLS:
        rows = [*REFUSED, *(OF_RECORDS if tool != "draw.py" else ())]
        for values, status, says in rows:
            put("s", **{"address": "places.map", **values})
            if os.path.exists("out"):
                os.remove("out")
            found = tool_says(bench, tool, ["s"])
            is_said = says == "" or any(part in found[1] or rule(part, found[1]) for part in says.split("|"))
            bench.holds(found[0] == status and is_said, "%s with %s: %s" % (tool, values, found))
            bench.holds(status == 0 or not os.path.exists("out"), "%s with %s leaves an output" % (tool, values))
            bench.holds(": \n" not in found[1], "%s with %s says nothing: %s" % (tool, values, found))
        found = tool_says(bench, tool, ["none"])
        is_missing = found[0] == 7 and "failed NoFile none: missing" in found[1]
        bench.holds(is_missing, "%s without the statement: %s" % (tool, found))


def rule(part: str, told: str) -> bool:
    """Whether something that is told has the words of a rule, with what may stand between in brackets."""
    return part.replace("(map page 0 )?", "map page 0 ") in told or part.replace("(map page 0 )?", "") in told


def several_hold(bench: Bench) -> None:
    """Of several statements the newest is taken; what others say has ended stays so."""
    sample(bench)
    old = put("old", root=OTHER, from_="2026-11-01", until="2026-12-01")
    new = put("new")
    for tool in TOOLS:
        for names in ([old, new], [new, old], [new]):
            put("new", address="places.map")
            found = tool_says(bench, tool, names)
            bench.holds(found[0] == 0 and found[1].count("was to come") == 0, "%s with %s: %s" % (tool, names, found))
    put("old", root=OTHER, from_="2026-11-01", until="2026-12-01", ended=PLACES)
    found = tool_says(bench, TOOLS[0], [old, new])
    bench.holds(found[0] == 2 and "refused EndedRoot old: " in found[1], "a root that came again: %s" % (found,))
    put("old", root=OTHER)
    found = tool_says(bench, TOOLS[0], [old, new])
    bench.holds(found[0] == 2 and "refused TwoRoots" in found[1], "two roots of one day: %s" % (found,))
    answers = [["answer", PLACES, "--statement", "new", WINDOW, PROOF, "out"],
        ["answer", OTHER, "--statement", "new", WINDOW, PROOF, "out"]]
    put("new", ended="22" * 32)
    answers.append(["answer", "22" * 32, "--statement", "new", WINDOW, PROOF, "out"])
    for words, status, says in zip(answers, (0, 2, 2), ("", "refused OtherRoot new: ", "refused EndedRoot new: ")):
        found = bench.call(records, words)
        bench.holds(found[0] == status and says in found[1].decode(), "a root beside a statement: %s" % (found,))
    for root, status, says in ((PLACES, 0, ""), (OTHER, 2, "refused OtherRoot"), ("22" * 32, 2, "refused EndedRoot")):
        found = asked(["--statement", "new", root, WINDOW, "places.map"])
        bench.holds(found[0] == status and says in found[1], "mrtree_ask.py, a root beside a statement: %s" % (found,))


def words_hold(bench: Bench) -> None:
    """Words that do not go with statements, and what an answer by one looks like."""
    sample(bench)
    put("s")
    put("with", address="places.map")
    for words, says in (
        (["answer", "--statement", "s", WINDOW, "out"], "s: it has no address of the map, so PROOF has to be given"),
        (["answer", "--statement", "s", WINDOW, PROOF, "out", "--unit", "1"], "--unit is for maps without a statement"),
        (["answer", "--statement", "s", WINDOW, PROOF, "out", "--crs", "EPSG:1"], "--crs is for maps without"),
        (["answer", "--statement", "s", WINDOW, PROOF, "out", "--payload", "a"], "--payload is for maps without"),
        (["answer", "--statement", "s", WINDOW, PROOF, "out", "--digest"], "--digest is for maps without"),
        (["answer", PLACES, WINDOW, PROOF, "out", "--unit", "1", "--publishers", "p"],
        "--publishers is of a statement"),
        (["answer", "--statement", "s", WINDOW, PROOF, "s"], "s is to be written, and it is read too"),
        (["answer", PLACES, WINDOW, PROOF, "out", "--unit", "1", "--format", "kml"],
        "--format is geojson, geojsonseq or csv"),
        (["answer", PLACES, WINDOW, PROOF, "out", "--unit", "1", "--crs", "25833"], "--crs is an authority and a code"),
        (["answer", "--statement", "s", "out"], "the following arguments are required"),
        (["query", "--statement", "s", "--unit", "1", "window", "0", "0", "1", "1"], "--unit is for maps without"),
    ):
        found = bench.call(records, words)
        bench.holds(found[0] == 1 and says in found[1].decode(), "%s: %s" % (words, found))
    for words in (
        ["--statement", "s"], ["--publishers", "p", PLACES, WINDOW, "places.map"], ["--statement2", "s", WINDOW, "m"],
        ["--statement", "s", "check-join", "a", "b"], ["--statement", "s", "--statement2", "s", "check-join", "a"],
        ["--statement", "s", WINDOW, "m", "m", "m"], ["--statement", "s", ""], ["--statement"],
        ["--statement", "s", WINDOW, "places.map", "--proof", "s"],
    ):
        found = asked(words)
        bench.holds(found[:2] == (1, "bad words\n"), "mrtree_ask.py %s: %s" % (words, found))
    found = asked(["--statement", "s", WINDOW])
    bench.holds(found[0] == 7 and "has no address of the map" in found[1],
        "mrtree_ask.py without an address: %s" % (found,))
    formats_hold(bench)


def formats_hold(bench: Bench) -> None:
    """An answer in each format, by a statement."""
    crs = '"crs":{"type":"name","properties":{"name":"urn:ogc:def:crs:EPSG::25833"}}'
    points = "POINT (13.3777 52.5163),101,Brandenburger Tor\nPOINT (13.3761 52.5186),102,Reichstag\n"
    lines = {
        "geojson": '{"type":"FeatureCollection",' + crs + ',"features":[\n%s,\n%s\n]}\n',
        "geojsonseq": "%s\n%s\n",
        "csv": "WKT,number,name\n" + points,
    }
    features = tuple(
        '{"type":"Feature","id":%d,"properties":{"name":"%s"},"geometry":{"type":"Point","coordinates":[%s]}}' % one
        for one in ((101, "Brandenburger Tor", "13.3777,52.5163"), (102, "Reichstag", "13.3761,52.5186"))
    )
    put("grid", crs="EPSG:25833", axes="east north", address="places.map")
    for form, text in lines.items():
        found = bench.call(records, ["answer", "--statement", "grid", WINDOW, "out", "--format", form])
        wrote = text % features if "%s" in text else text
        bench.holds(found[0] == 0 and read("out").decode() == wrote, "%s: %s" % (form, read("out")))
        is_told = b"says no coordinate system; it is EPSG:25833" in found[1]
        bench.holds(is_told == (form != "geojson"), "%s: %s" % (form, found))
    put("none", crs="none", axes="x y", address="places.map")
    found = bench.call(records, ["answer", "--statement", "none", WINDOW, "out"])
    bench.holds(b"GeoJSON is taken for degrees" in found[1] and b'"crs"' not in read("out"),
        "without a system: %s" % (found,))
    for unit, crs, is_told in (("1e-6", [], True), ("1e-7", [], False), ("0.01", [], False),
        ("1e-6", ["EPSG:3857"], False),
                               ("1", ["EPSG:4326"], True)):
        more = ["--crs", *crs] if crs else []
        found = bench.call(records, ["answer", PLACES, WINDOW, PROOF, "out", "--unit", unit, *more])
        bench.holds((b"no latitude is above 90" in found[1]) == is_told,
            "latitudes with %s %s: %s" % (unit, crs, found))


def atlases_hold(bench: Bench) -> None:
    """What a statement of an atlas is compared with: the batch of its index, the versions and counts of sheets."""
    sheet = collections.namedtuple("sheet", "version count")
    shown = collections.namedtuple("shown", "batch sheets")
    said = read_statement(text_of(atlas="yes", records="3000000", version="2", batch="7"))
    for found, rule in (
        (shown(7, []), ""), (shown(7, [sheet(2, 10)]), ""), (shown(7, [sheet(2, 1500000), sheet(2, 1500000)]), ""),
        (shown(6, []), "OtherBatch"), (shown(7, [sheet(2, 1), sheet(1, 1)]), "OtherVersion"),
        (shown(7, [sheet(2, 1500000), sheet(2, 1500001)]), "OtherCount"), (mrtree_check.State(7, 1), "OtherKind"),
    ):
        try:
            statement.compare_verdict(said, found)
            told = ""
        except statement.StatementRefused as refused:
            told = refused.rule
        bench.holds(told == rule, "an atlas that shows %s: %r" % (found, told))


# ---- signatures


def key(name: str) -> str:
    """A key of its own; answers its public half."""
    run(["ssh-keygen", "-q", "-t", "ed25519", "-N", "", "-C", name, "-f", name])
    return read(name + ".pub").decode().strip()


def sign(name: str, by: str, namespace: str = "map") -> None:
    """Signs a file."""
    if os.path.exists(name + ".sig"):
        os.remove(name + ".sig")
    run(["ssh-keygen", "-q", "-Y", "sign", "-f", by, "-n", namespace, name])


def run(words: List[str], **how) -> None:
    """Runs what has to go well."""
    subprocess.run(words, check=True, stdout=subprocess.DEVNULL, stderr=subprocess.DEVNULL, **how)


class Quiet(http.server.SimpleHTTPRequestHandler):
    """A server of files that gives no ranges."""

    def log_message(self, *words) -> None:
        """Says nothing."""

    def handle(self) -> None:
        """Says nothing of readers who went away."""
        with contextlib.suppress(ConnectionError):
            super().handle()


@contextlib.contextmanager
def served() -> Iterator[str]:
    """The address of this folder on a server."""
    handler = functools.partial(Quiet, directory=os.getcwd())
    server = http.server.ThreadingHTTPServer(("127.0.0.1", 0), handler)
    threading.Thread(target=server.serve_forever, daemon=True).start()
    try:
        yield "http://127.0.0.1:%d/" % server.server_port
    finally:
        server.shutdown()
        server.server_close()


def signatures_hold(bench: Bench) -> None:
    """With publishers, the signature beside a statement is checked first."""
    if not shutil.which("ssh-keygen"):
        bench.skip("signatures of statements: there is no ssh-keygen")
        return
    sample(bench)
    ours, others = key("maps@example.org"), key("other")
    write("publishers", ("maps@example.org %s\n" % ours).encode())
    pattern = "# ours\n*@example.org,!x@example.org namespaces=\"map\" %s\nother@example.com %s\n"
    write("pattern", (pattern % (ours, ours)).encode())
    write("expired", ("maps@example.org valid-before=\"20200101\" %s\n" % ours).encode())
    write("file-only", ("maps@example.org namespaces=\"file\" %s\n" % ours).encode())
    write("empty", b"")
    write("garbage", b"\0\xff" * 100)
    put("s", address="places.map")
    sign("s", "maps@example.org")
    right = read("s.sig")
    put("foreign", address="places.map")
    sign("foreign", "other")
    put("unsigned", address="places.map")
    put("otherspace", address="places.map")
    sign("otherspace", "maps@example.org", "file")
    for name, signature in (("changed", right), ("cut", right[:100]), ("nothing", b""), ("zeros", bytes(300)),
        ("long", right + b"x" * 70000)):
        put(name, address="places.map", **({"map": "another"} if name == "changed" else {}))
        write(name + ".sig", signature)
    put("bent", batch="x")
    sign("bent", "maps@example.org")
    rows = [
        ("s", "publishers", 0, ""), ("s", "pattern", 0, ""),
        ("s", "expired", 2, "refused OtherPublisher s: it is signed by a key of nobody in expired"),
        ("s", "file-only", 2, "refused BadSignature s"), ("s", "empty", 2, "refused OtherPublisher s"),
        ("s", "garbage", 2, "refused OtherPublisher s"),
        ("s", "nopublishers", 7, "failed NoFile nopublishers: missing"),
        ("foreign", "publishers", 2, "refused OtherPublisher foreign"),
        ("unsigned", "publishers", 2, "refused NoSignature unsigned: there is no unsigned.sig"),
        ("otherspace", "publishers", 2, "refused BadSignature otherspace"),
        *((name, "publishers", 2, "refused BadSignature " + name) for name in ("changed", "cut", "zeros")),
        ("nothing", "publishers", 2, "refused NoSignature nothing"), ("long", "publishers", 0, ""),
        ("bent", "publishers", 2, "bad statement 4 Value batch bent"),
        ("-", "publishers", 2, "refused NoSignature -"),
    ]
    for name, publishers, status, says in rows:
        if name == "-":
            with open("s", "rb") as file:
                ended = bench.told("records.py", ["answer", "--statement", "-", "--publishers", publishers, WINDOW,
                    PROOF, "out"], stdin=file)
            found = ended[0], ended[1].decode()
        else:
            found = tool_says(bench, TOOLS[0], [name], ["--publishers", publishers])
        bench.holds(found[0] == status and says in found[1], "%s by %s: %s" % (name, publishers, found))
    for tool in TOOLS[1:]:
        for name, status, says in (("s", 0, ""), ("changed", 2, "refused BadSignature changed"),
            ("unsigned", 2, "refused NoSignature")):
            found = tool_says(bench, tool, [name], ["--publishers", "publishers"])
            bench.holds(found[0] == status and says in found[1], "%s with %s: %s" % (tool, name, found))
    addresses_hold(bench)


def addresses_hold(bench: Bench) -> None:
    """The same of statements at addresses, on a server that gives whole files alone."""
    with served() as url:
        for name, status, says in (
            ("s", 0, ""), ("changed", 2, "refused BadSignature"), ("unsigned", 2, "refused NoSignature"),
            ("nosuch", 7, "failed Status"), ("bent", 2, "bad statement 4 Value batch"),
        ):
            found = tool_says(bench, TOOLS[0], [url + name], ["--publishers", "publishers"])
            bench.holds(found[0] == status and says in found[1], "%s at an address: %s" % (name, found))
        put("relative", address="places.map")
        said = statement.open_statement(url + "relative")
        bench.holds(said.where(said.address or "") == url + "places.map", "where the map of a statement is")
        write("huge", b"map: " + b"a" * 10**6)
        found = tool_says(bench, TOOLS[0], [url + "huge"])
        bench.holds(found[0] == 2 and "bad statement 1 Long" in found[1], "a long one at an address: %s" % (found,))
    for name in ("http://", "ftp://a/b", "http://u:p@a/b", "http://a\u00e4/"):
        found = tool_says(bench, TOOLS[0], [name])
        bench.holds(found[0] == 7 and "failed NoFile" in found[1], "%s: %s" % (name, found))


# ---- what a publisher writes


def written_hold(bench: Bench) -> None:
    """What `records.py statement` writes, and what it refuses."""
    sample(bench)
    right = {"--map": "places", "--unit": "1e-7", "--crs": "EPSG:4326", "--axes": "longitude latitude",
        "--numbers": "keys",
             "--payload": "name", "--until": "2036-12-01", "--from": "2026-12-01"}
    for change, status, says in (
        ({}, 0, "records.py: root %s, version 1, batch 0, 4 records\n" % PLACES),
        ({"--map": None}, 1, "--map has to be given: words that say what the map is"),
        ({"--unit": None}, 1, "--unit has to be given"), ({"--crs": None}, 1, "--crs has to be given"),
        ({"--axes": None}, 1, "--axes has to be given"), ({"--numbers": None}, 1, "--numbers has to be given"),
        ({"--until": None}, 1, "--until has to be given: a day, as 2026-12-31"), ({"--from": None}, 0, ""),
        ({"--until": "tomorrow"}, 1, "until has to be: a day"),
        ({"--until": "2026-11-30"}, 1, "from and until do not go"),
        ({"--crs": "WGS84"}, 1, "--crs is an authority and a code"),
        ({"--axes": "lat lon"}, 1, "axes has to be: longitude"),
        ({"--crs": "EPSG:4326", "--axes": "x y"}, 1, "the lines crs and axes do not go together"),
        ({"--map": "a\nb: c"}, 1, "a line is a key"), ({"--map": "a\natlas: yes"}, 1, "a line is a key"),
        ({"--map": " a"}, 1, "a line is a key"), ({"--map": "\udcff"}, 1, "not UTF-8"),
        ({"--layers": "0 a"}, 1, "the lines version and layers do not go together"),
        ({"--layers": "nofile"}, 1, "--layers is a file of layers, or: numbers from 0 to 63"),
        ({"--ended": OTHER}, 0, ""), ({"--ended": "x"}, 1, "ended has to be: none, or root digests"),
        ({"--payload": None}, 2, "refused OtherPayload statement: the payload of record 10"),
        ({"--payload": None, "--hexadecimal": ""}, 0, ""),
        ({"--hexadecimal": ""}, 1, "say different things of the payloads"),
        ({"--payload": None, "--digest": ""}, 2, "refused OtherPayload"),
        ({"--payload": None, "--numbers": None, "--key": "id"}, 2, "refused OtherKey"),
        ({"--shapes": "a.geojson"}, 1, "the lines payload and shapes do not go together"),
        ({"--address": "ftp://a/b"}, 1, "address has to be: the name of a file"), ({"--address": "a b.map"}, 0, ""),
    ):
        options = {option: value for option, value in {**right, **change}.items() if value is not None}
        words = [word for option, value in options.items() for word in ([option, value] if value else [option])]
        write("out", b"old")
        found = bench.call(records, ["statement", "places.map", "out", *words])
        bench.holds(found[0] == status and says in found[1].decode(), "%s: %s" % (change, found))
        is_written = read("out") != b"old"
        bench.holds(is_written == (status == 0), "%s: an output is %s" % (change, "there" if is_written else "missing"))
        if status == 0:
            one = read_statement(read("out"))
            bench.holds((one.root, one.version, one.batch, one.records) == (PLACES, 1, 0, 4),
                "what is read from the map")
    for name, status, says in (("none", 7, "failed NoFile none: missing"), (PROOF, 2, "refused map page 0 Size"),
        ("script", 2, "Size")):
        found = bench.call(records, ["statement", name, "out", *words])
        bench.holds(found[0] == status and says in found[1].decode(), "the statement of %s: %s" % (name, found))


def preimage_of(name: str) -> bytes:
    """The preimage of the root of the map in a file, which has records."""
    page = read(name)
    size = 16 + (8 if page[4] == 2 else 0) + 32
    return b"R" + page[4:5] + page[6:22] + page[5:6] + page[30 : 30 + size]


def index_holds(bench: Bench) -> None:
    """The statement of an atlas: version and count are those of its sheets."""
    lines = []
    for number, (command, text) in enumerate((("build2", "1 5 5 6 6 0 61\n"),
        ("build2", "2 7 7 8 8 0 -\n3 8 8 8 8 0 -\n"), ("build", "4 9 9 9 9 -\n"))):
        write("s.txt", text.encode())
        bench.program([command, "sheet", "s.txt"])
        preimage = preimage_of("sheet")
        at = 19  # the byte of the rectangle
        sides = [int.from_bytes(preimage[at + 4 * side : at + 4 * side + 4], "big", signed=True) for side in range(4)]
        lines.append("%d %d %d %d %d %s\n" % (number, *sides, (preimage + b"x").hex()))
    words = ["--map", "a", "--unit", "1", "--crs", "none", "--axes", "x y", "--numbers", "n", "--payload", "p",
        "--until", "2036-12-01"]
    for some, status, says in ((lines[:2], 0, "version 2, batch 0, 3 records"),
        (lines[2:], 0, "version 1, batch 0, 1 records"),
                               (lines, 1, "its sheets are of two versions"),
                               (["9 9 9 9 9 61\n"], 1, "it is no index of an atlas")):
        write("index.txt", "".join(some).encode())
        root = bench.program(["build", "index.map", "index.txt"])[1].decode().strip()
        found = bench.call(records, ["statement", "index.map", "out", "--atlas", *words])
        bench.holds(found[0] == status and says in found[1].decode(), "the statement of an atlas: %s" % (found,))
        if status == 0:
            one = read_statement(read("out"))
            bench.holds(one.atlas and one.root == root, "an atlas in a statement: %s" % (one,))


def week_holds(bench: Bench) -> None:
    """A week: a map with layers is published, signed and changed; an old statement, an ended root, a lost statement."""
    write("monday.txt", b"1 10 10 10 10 0 61\n2 20 20 20 20 1 62\n")
    write("layers", b"0 houses\n1 roads\n")
    first = bench.program(["build2", "monday.map", "monday.txt"])[1].decode().strip()
    today = datetime.datetime.now(datetime.timezone.utc).date()
    days = [(today + datetime.timedelta(days)).isoformat() for days in (-7, 0, 7)]
    words = {"--map": "a week", "--unit": "0.01", "--crs": "EPSG:25833", "--axes": "east north",
        "--numbers": "keys of ours",
             "--payload": "name", "--layers": "layers", "--address": "monday.map", "--from": days[0],
                 "--until": days[1]}
    options = [word for one in words.items() for word in one]
    bench.call(records, ["statement", "monday.map", "monday.statement", *options])
    write("batch", b"batch 1\n- 2\n+ 3 30 30 30 30 1 63\n")
    second = bench.program(["apply", "monday.map", "batch", "sunday.map"])[1].decode().strip()
    more = ["--after", "monday.statement", "--from", days[1], "--until", days[2], "--address", "sunday.map"]
    bench.call(records, ["statement", "sunday.map", "sunday.statement", *more])
    old, new = read_statement(read("monday.statement")), read_statement(read("sunday.statement"))
    bench.holds((old.root, old.batch, new.root, new.batch) == (first, 0, second, 1), "the roots of a week")
    bench.holds(new.ended == (first,) and new.layers == {0: "houses", 1: "roads"}, "what has ended: %s" % (new,))
    everything = "window:0,0,100,100"
    for names, status, text in (
        (["sunday.statement"], 0, '"layer":"roads","name":"c"'),
        (["monday.statement"], 0, '"layer":"roads","name":"b"'),
        (["monday.statement", "sunday.statement"], 0, '"layer":"roads","name":"c"'),
    ):
        options = [word for name in names for word in ("--statement", name)]
        found = bench.call(records, ["answer", *options, everything, "out"])
        bench.holds(found[0] == status and text in read("out").decode(), "an answer by %s: %s" % (names, found))
    found = bench.call(records, ["answer", "--statement", "sunday.statement", everything, "monday.map", "out"])
    bench.holds(found[0] == 2 and b"refused EndedRoot sunday.statement" in found[1],
        "a server with the old map: %s" % (found,))
    found = bench.call(records, ["answer", "--statement", "monday.statement", everything, "sunday.map", "out"])
    bench.holds(found[0] == 2 and b"refused map page 0 WrongRoot" in found[1],
        "an old statement, a new map: %s" % (found,))
    os.remove("sunday.statement")
    found = bench.call(records, ["answer", "--statement", "sunday.statement", everything, "out"])
    bench.holds(found[0] == 7 and b"failed NoFile sunday.statement: missing" in found[1],
        "a lost statement: %s" % (found,))
    bench.call(records, ["statement", "sunday.map", "again.statement", *more])
    again = read_statement(read("again.statement"), name="statement")
    bench.holds(again == new, "a statement that was lost is written again")
    found = bench.call(records, ["statement", "sunday.map", "longer.statement", "--after", "again.statement",
        "--until", days[2]])
    longer = read_statement(read("longer.statement"))
    bench.holds(found[0] == 0 and longer.ended == (first,) and longer.root == second,
        "the same root for longer: %s" % (found,))


def features_hold(bench: Bench) -> None:
    """mrtree_ask.py keeps the true shapes of an answer, by a statement or by their own name, and no others."""
    given, window = os.path.join(EXAMPLES, "places.geojson"), "window:133300000,525000000,133500000,525100000"
    made = ["text", given, "r", "--unit", "1e-7", "--layer", "0", "--digest", "--shapes-to", "r.shapes"]
    bench.holds(bench.call(records, made)[0] == 0, "the shapes")
    write("later.geojson", read(given).replace(b"Fernsehturm", b"Alexanderplatz"))
    later = ["--unit", "1e-7", "--layer", "0", "--digest", "--shapes-to", "b.shapes"]
    found = bench.call(records, ["batch", "1", "r", "later.geojson", "b", *later])
    is_so = found[0] == 0 and [line[:5] for line in read("b").split(b"\n")[1:]] == [b"- 103", b"+ 103", b""]
    bench.holds(is_so, "a batch of digests from a record text: %s" % (found,))
    root = bench.program(["build2", "m", "r"])[1].decode().strip()
    put("s", root=root, version="2", payload="digest", address="m", shapes="r.shapes")
    put("none", root=root, version="2", payload="digest", address="m")
    meant = b"".join(line + b"\n" for line in read("r.shapes").split(b"\n") if b"Tiergarten" in line)
    write("bent", read("r.shapes").replace(b"13.345", b"13.346"))
    write("cut", read("r.shapes"))
    write("bent.index", read("r.shapes.index"))
    write("cut.index", read("r.shapes.index")[:40])
    shown = [root, window, "m"]
    for words, status, says in (
        (["--statement", "s", window], 0, "104 133320000 "),
        ([*shown, "--shapes", "r.shapes"], 0, "104 133320000 "),
        (["--statement", "none", window, "--shapes", "./r.shapes"], 0, "104 133320000 "),
        ([root, "window:0,0,1,1", "m", "--shapes", "r.shapes"], 0, ""),
        ([*shown, "--shapes", "bent"], 2, "refused shape 104 Digest"),
        ([*shown, "--shapes", "cut"], 2, "refused index Short"),
        ([*shown, "--shapes", "nosuch"], 7, "failed NoFile nosuch.index: missing"),
        ([*shown, "--shapes", "ftp://a/b"], 7, "failed NoFile ftp://a/b: an address begins with"),
        (["--statement", "none", window], 7, "failed NoFile none: the statement says no shapes"),
        ([*shown, "--shapes", "r.shapes", "--requests", "1"], 7, "failed MostRequests r.shapes.index"),
        (shown, 1, "bad words"), (["check-count", *shown, "--shapes", "r.shapes"], 1, "bad words"),
    ):
        write("out", b"old")
        found = told_by([*words, "--features", "out"])
        is_kept = read("out") == (b"old" if found[0] else meant if says else b"")
        bench.holds(found[0] == status and says in found[1] and is_kept, "features by %s: %s" % (words, found))
    found = bench.script("mrtree_ask.py", [*shown, "--shapes", "r.shapes", "--features", "-"])
    bench.holds(found == (0, meant), "features that are printed: %s" % (found,))
    with served() as url:
        found = told_by([root, window, "m", "--shapes", url + "r.shapes", "--features", "out"])
        bench.holds(found[0] == 7 and "NoRanges" in found[1], "shapes at an address: %s" % (found,))
    inputs = ["m", "r.shapes", "r.shapes.index", "s", "publishers", "s.sig"]
    put("r", root=root)
    write("publishers", b"")
    write("s.sig", b"")
    for name in inputs:
        for option in ("--features", "--proof"):
            old = read(name)
            more = ["--publishers", "publishers"] if name in ("publishers", "s.sig") else []
            more += ["--shapes", "r.shapes", "--features", "out"] if option == "--proof" else []
            found = told_by(["--statement", "s", *more, option, "./" + name, window])
            bench.holds(found[0] in (1, 2, 7) and read(name) == old, "%s over %s: %s" % (option, name, found))


def told_by(words: List[str]) -> Tuple[int, str]:
    """Status of mrtree_ask.py and what it says, also of a fault."""
    try:
        status, text, told = asked(words)
        return status, text + told
    except statement.Ended as ended:
        return ended.status, ended.line


def node_holds(bench: Bench) -> None:
    """The same statements in mrtree_ask.js: status and first line are those of mrtree_ask.py."""
    if not shutil.which("node"):
        bench.skip("statements in mrtree_ask.js: there is no node")
        return
    sample(bench)
    put("ended", root=OTHER, ended=PLACES)
    put("batch", batch="1")
    put("kind", atlas="yes")
    put("bent", batch="x")
    put("here", address="places.map")
    put("digest", payload="digest")
    with served() as url:
        for words in (
            ["--statement", "s", WINDOW, "places.map"], ["--statement", "here", WINDOW], ["--statement", "here", ""],
            ["--statement", "./here", "check", PLACES, WINDOW, "./places.map"], ["--statement", "s", WINDOW],
            ["--statement", "ended", WINDOW, "places.map"], ["--statement", "ended", PLACES, WINDOW, "places.map"],
            ["--statement", "s", OTHER, WINDOW, "places.map"], ["--statement", "batch", WINDOW, "places.map"],
            ["--statement", "kind", WINDOW, "places.map"], ["--statement", "bent", WINDOW, "places.map"],
            ["--statement", "digest", WINDOW, "places.map"], ["--statement", "places.map", WINDOW],
            ["--statement", "nosuch", WINDOW], ["--statement", url + "s", WINDOW, "places.map"],
            ["--statement", url + "here", WINDOW], ["--statement", url + "nosuch", WINDOW],
            ["--statement", url + "bent", WINDOW], ["--statement", "s"], ["--statement2", "s", WINDOW, "places.map"],
            ["--statement", "s", "--statement2", "s", WINDOW, "places.map"], ["--statement", "s", "check-join"],
            ["--statement", "here", "--statement2", "here", "check-join"],
            ["--statement", "s", WINDOW, "places.map", "--proof", "./s"],
        ):
            script = os.path.join(os.path.dirname(EXAMPLES), "clients", "web", "mrtree_ask.js")
            ended = subprocess.run(["node", script, *words], stdout=subprocess.PIPE, stderr=subprocess.PIPE, text=True)
            found = ended.returncode, ended.stdout or ended.stderr.replace("mrtree_ask.js: ", "")
            status, told = told_by(words)
            first = told.split("\n")[0]
            bench.holds(found[0] == status and found[1].startswith(first), "%s: %s, in Node %s" % (words, told, found))


def statements_hold(bench: Bench) -> None:
    """All of it, each in an empty folder."""
    for part in (table_holds, large_hold, tools_hold, atlases_hold, several_hold, words_hold, signatures_hold,
        written_hold,
        index_holds, week_holds, features_hold, node_holds):
        for name in os.listdir("."):
            (shutil.rmtree if os.path.isdir(name) else os.remove)(name)
        part(bench)
