"""What readers and publishers do with the scripts but for texts and batches: answers, queries, outputs, stops, GDAL."""
import contextlib
import importlib.util
import itertools
import json
import os
import random
import resource
import shutil
import signal
import stat
import subprocess
import sys
import tempfile
import time
from typing import Dict, List, Tuple
from xml.etree import ElementTree

from bench import CLIENTS, EXAMPLES, Bench, Ended, read, write
import draw
import mrtree_check
import records

ROOT = "b136e9ea66645cc4c87feaf0addfecbc0d52bd619bc06f05e004ff35cbfaff04"
WINDOW = "window:133700000,525100000,133800000,525200000"
PROOF = os.path.join(EXAMPLES, "places-window.proof")
NAMED = ["--unit", "1e-7", "--payload", "name"]
TOLD = "2 records from 13.3761 52.5163 to 13.3777 52.5186"


def ways_hold(bench: Bench) -> None:
    """All of it."""
    queries_hold(bench)
    answers_hold(bench)
    bundles_hold(bench)
    layers_hold(bench)
    shapes_hold(bench)
    pictures_hold(bench)
    outputs_hold(bench)
    counts_hold(bench)
    joins_hold(bench)
    stops_hold(bench)
    terminals_hold(bench)
    modules_hold(bench)
    installs(bench)
    gdal_holds(bench)
    if bench.is_long:
        large_holds(bench)


def says(bench: Bench, words: List[str], status: int, said: str) -> None:
    """The script ends with this status, and tells these lines; and of a refusal what it mostly means."""
    ended = bench.call(records, words)
    lines = [said, mrtree_check.meaning_of(said)] if status == 2 else said.split("\n")
    meant = "".join("records.py: %s\n" % line for line in lines if line)
    bench.holds(ended == (status, meant.encode()), "records.py %s: %s, and %s was meant" % (words, ended, meant))


def features(name: str) -> List[Dict]:
    """The features of a GeoJSON file."""
    return json.loads(read(name) or b'{"features": []}')["features"]


# ---- queries and answers


QUERIES: List[Tuple[str, int, str]] = [
    ("window 13.37 52.51 13.38 52.52", 0, WINDOW),
    ("window -1e-7 -0.5 1.00000001 0", 0, "window:-1,-5000000,10000001,0"),
    ("nearest 13.3777 52.5163 2", 0, "nearest:133777000,525163000,2"),
    ("nearest -13.37770004 -1e-3 1024", 0, "nearest:-133777000,-10000,1024"),
    ("nearest 1 2 0", 1, "0 nearest records are asked for, and 1 to 1024 can be"),
    ("nearest 1 2 1025", 1, "1025 nearest records are asked for, and 1 to 1024 can be"),
    ("nearest 1 2", 1, "a query is: window X0 Y0 X1 Y1, or: nearest X Y K"),
    ("window 2 1 1 2", 1, "the sides 2 1 1 2 are out of order"),
    ("window 0 0 1 x", 1, '"x" is no number'),
    ("window 0 0 1 215", 1, "the coordinate 215 is out of range: with --unit 1e-7 from -214.7483648 to 214.7483647; a larger unit, as 1e-6, would do"),
    ("circle 0 0 1", 1, "a query is: window X0 Y0 X1 Y1, or: nearest X Y K"),
    ("nearest 1 2 3 --payload a", 1, "unrecognized arguments: --payload a (records.py --help)"),
]


def queries_hold(bench: Bench) -> None:
    """The word of a query is printed, by coordinates in the file's unit."""
    for words, status, said in QUERIES:
        call = ["query", "--unit", "1e-7", *words.split()]
        if status == 0:
            ended = bench.script("records.py", call)
            bench.holds(ended == (0, said.encode() + b"\n"), "query %s: %s" % (words, ended))
        else:
            says(bench, call, status, said)


def answers_hold(bench: Bench) -> None:
    """An answer is checked and written in one; a failed check leaves what was there, with the client's status."""
    says(bench, ["answer", ROOT, WINDOW, PROOF, "o", *NAMED], 0, TOLD + ", of a map of 4 at batch 0")
    names = [one["properties"]["name"] for one in features("o")]
    bench.holds(names == ["Brandenburger Tor", "Reichstag"], "the features of an answer: %s" % names)
    wrote = read("o")
    write("short", read(PROOF)[:-1])
    for root, query, proof, status, said in (
        (ROOT, WINDOW, "short", 2, "refused Short at 161"),
        (ROOT, "window:0,0,1,1", PROOF, 2, "refused Needless at 161"),
        ("0" * 64, WINDOW, PROOF, 2, "refused WrongRoot at 172 found " + ROOT),
        (ROOT, WINDOW, "none", 7, "missing none"),
        (ROOT, WINDOW, "/", 7, "failed NoFile /sheets/%s: missing" % ROOT),
        ("00", WINDOW, PROOF, 1, "the root digest is not 64 lower-case hexadecimal digits"),
        (ROOT, "window:0,0,1", PROOF, 1, "the query is neither window:x0,y0,x1,y1 nor nearest:x,y,k"),
    ):
        says(bench, ["answer", root, query, proof, "o", *NAMED], status, said)
        bench.holds(read("o") == wrote, "an answer that is not accepted is written: %s" % said)
    says(bench, ["answer", ROOT, WINDOW, PROOF, "o", "--unit", "1e-7", "--most", "171"], 7, "longer than 171 bytes")
    write(WINDOW, read(PROOF))
    bench.holds(bench.client(["check", ROOT, WINDOW, WINDOW])[0] == 0, "a proof file with the query's word for a name")
    for option, word, said in (
        ("--most", "x", 'argument --most: "x" is no whole number of bytes (records.py --help)'),
        ("--place", "x,y", "unrecognized arguments: --place x,y (records.py --help)"),
        ("--shapes", "f", "the payload is either what --payload names or, with --digest or --shapes, a digest"),
    ):
        says(bench, ["answer", ROOT, WINDOW, PROOF, "o", *NAMED, option, word], 1, said)
    for most, meant in (("171", (7, b"longer than 171 bytes\n")), ("172", bench.client(["check", ROOT, WINDOW, PROOF]))):
        with open(PROOF, "rb") as file:
            ended = bench.script("mrtree_check.py", ["--most", most, "check", ROOT, WINDOW, "-"], stdin=file)
        bench.holds(ended == meant, "the client, with --most %s, says %s" % (most, ended))


def bundles_hold(bench: Bench) -> None:
    """Answers of many queries become features, each with its queries; and those that were printed."""
    script, window = os.path.join(EXAMPLES, "places.script"), read(PROOF)
    near = read(os.path.join(EXAMPLES, "places-nearest.proof"))
    parts = [len(proof).to_bytes(4, "big") + proof for proof in (window, near)]
    write("u", b"".join(parts))
    says(bench, ["answers", ROOT, script, "u", "o", *NAMED], 0, TOLD)
    wrote, found = read("o"), [(one["id"], one["properties"]["queries"]) for one in features("o")]
    bench.holds(found == [(101, [1, 2]), (102, [1, 2])], "the answers of a bundle: %s" % found)
    printed = bench.client(["check-all", ROOT, script, "u"])[1]
    write("p", printed)
    says(bench, ["features", "p", "o", *NAMED], 0, TOLD)
    bench.holds(read("o") == wrote, "what check-all printed gives other features")
    checked = bench.client(["check", ROOT, WINDOW, PROOF])[1]
    write("p", b"sound\n" + checked)
    says(bench, ["features", "p", "o", *NAMED], 0, TOLD)
    bench.holds([one["id"] for one in features("o")] == [101, 102], "what audit printed")
    wrote = read("o")
    for bundle, said in ((b"".join(parts[1:]), "query 1 refused WrongKind at 5"), (parts[0], "query 2 missing")):
        write("v", bundle)
        says(bench, ["answers", ROOT, script, "v", "o", *NAMED], 2, said)
        write("p", bench.client(["check-all", ROOT, script, "v"])[1])
        bench.holds(bench.call(records, ["features", "p", "o", *NAMED])[0] == 1, "features of a bundle: %s" % said)
    write("v", b"".join(parts) + b"x")
    says(bench, ["answers", ROOT, script, "v", "o", *NAMED], 2, "bundle broken at 369")
    for text in [b"", b"sound", b"refused Short at 161\n", b"missing p\n", b"collision\n", printed[:-1], printed[1:]] + [
        b"".join(lines) for lines in left_out(printed.splitlines(keepends=True))
    ]:
        write("p", text)
        ended = bench.call(records, ["features", "p", "o", *NAMED])
        is_so = ended[0] == 1 and ended[1].startswith(b"records.py: p: ")
        bench.holds(is_so and read("o") == wrote, "the features of %s: %s" % (text, ended))


def layers_hold(bench: Bench) -> None:
    """Answers on a map of version 2 become features, with their layers where a property is named for them."""
    write("r", b"1 1 1 1 1 0 -\n2 2 2 2 2 63 -\n3 3 3 3 3 63 -\n")
    root = bench.program(["build2", "m", "r"])[1].decode().strip()
    query = "window:0,0,2,2/8000000000000000"
    bench.program(["prove", "m", query, "p"])
    said = "1 record from 2 2 to 2 2"
    named = ["--unit", "1", "--layer", "level"]
    says(bench, ["answer", root, query, "p", "o", *named], 0, said + ", of a map of 3 at batch 0")
    wrote, found = read("o"), [(one["id"], one["properties"]) for one in features("o")]
    bench.holds(found == [(2, {"level": 63})], "the features of an answer with layers: %s" % found)
    printed = bench.client(["check", root, query, "p"])
    bench.holds(printed == (0, b"2 2 2 2 2 63 -\n"), "the lines of version 2: %s" % (printed,))
    for front in (b"", b"sound\n"):
        write("q", front + printed[1])
        says(bench, ["features", "q", "o", *named], 0, said)
        bench.holds(read("o") == wrote, "the features of printed lines with layers")
    write("s", query.encode() + b"\nwindow:0,0,9,9\n")
    bench.program(["serve", "m", "s", "u"])
    says(bench, ["answers", root, "s", "u", "o", *named], 0, "3 records from 1 1 to 3 3")
    found = [(one["id"], one["properties"]) for one in features("o")]
    rows = ((1, 0, [2]), (2, 63, [1, 2]), (3, 63, [2]))
    meant = [(number, {"level": layer, "queries": queries}) for number, layer, queries in rows]
    bench.holds(found == meant, "the features of a bundle with layers: %s" % found)
    picture = bench.call(draw, [root, query, "p", "d.svg"])
    bench.holds(picture[0] == 0, "the picture of an answer with layers: %s" % (picture,))
    told = "--number, --payload and --layer name different properties, and none of them queries"
    for words in (["--payload", "level"], ["--number", "level"], ["--payload", "queries"]):
        says(bench, ["answer", root, query, "p", "o", *named, *words], 1, told)
    says(bench, ["text", "r", "t"], 0, "3 records from 1 1 to 3 3, 3 without payload")
    bench.holds(read("t") == read("r"), "a record text of version 2 that is read back")


def left_out(lines: List[bytes]) -> List[List[bytes]]:
    """Some lines, with each of them left out."""
    return [lines[:at] + lines[at + 1 :] for at in range(len(lines))]


def shapes_hold(bench: Bench) -> None:
    """With payloads that are digests the features of a file belong to an answer, or the first that does not is told."""
    source = os.path.join(EXAMPLES, "places.geojson")
    bench.call(records, ["text", source, "r", "--unit", "1e-7", "--digest"])
    root = bench.program(["build", "m", "r"])[1].decode().strip()
    everything = "window:0,0,2000000000,2000000000"
    bench.program(["prove", "m", everything, "q"])
    call = ["answer", root, everything, "q", "o", "--unit", "1e-7", "--shapes", source]
    bench.holds(bench.call(records, call)[0] == 0, "the shapes of an answer")
    kinds = [one["geometry"]["type"] for one in features("o")]
    meant = json.loads(read(source))["features"]
    bench.holds(features("o") == meant and kinds[3] == "Polygon", "the shapes of an answer are others")
    write("s.geojson", read(source).replace(b"52.512]", b"52.513]"))
    said = "s.geojson: it has no feature of the number 104 with the digest of the answer; it has one with another: "
    said += "it is of another state, or a program rounded its numbers (COORDINATE_PRECISION)"
    says(bench, [*call[:-1], "s.geojson"], 1, said)
    lines = "\n".join(json.dumps(one, indent=None, ensure_ascii=True) for one in reversed(meant))
    write("s.geojsonl", lines.encode())
    bench.holds(bench.call(records, [*call[:-1], "s.geojsonl"])[0] == 0, "shapes that are written another way")
    bench.holds(features("o") == meant, "the shapes of another file are others")


# ---- pictures


def pictures_hold(bench: Bench) -> None:
    """A picture is drawn of any accepted proof, is well-formed, and has no more shapes than it says."""
    big = "".join("%d %d %d %d %d -\n" % (at, at % 100, at // 100, at % 100 + at % 3, at // 100) for at in range(6000))
    for text, query, least in (
        ("", "window:0,0,9,9", 0),
        ("", "nearest:0,0,3", 0),
        ("1 5 5 5 5 3c26\n", "window:-2147483648,-2147483648,2147483647,2147483647", 1),
        ("1 5 5 5 5 3c26\n", "window:90,90,99,99", 0),
        ("1 5 5 5 5 ff\n2 6 6 9 9 -\n", "nearest:2147483647,2147483647,1", 1),
        ("1 5 5 5 5 -\n", "nearest:5,5,1", 1),
        ("1 5 5 5 5 -\n", "nearest:5,5,9", 1),
        (big, "window:0,0,100,100", 3000),
        (big, "nearest:50,30,1024", 1024),
    ):
        write("r", text.encode())
        root = bench.program(["build", "m", "r"])[1].decode().strip()
        bench.program(["prove", "m", query, "p"])
        ended = bench.call(draw, [root, query, "p", "d.svg"])
        shapes = ElementTree.fromstring(read("d.svg")).iter()
        answers = sum(one.get("class") == "answer" for one in shapes) - 1
        is_so = ended[0] == 0 and least <= answers <= draw.MOST_SHAPES and len(read("d.svg")) < 10**6
        bench.holds(is_so, "the picture of %s: %s, %d records" % (query, ended, answers))
        is_told = (b"not drawn: " in read("d.svg")) == (b"shapes are not drawn" in ended[1])
        bench.holds(is_told and (b"not drawn" in ended[1]) == (query == "window:0,0,100,100"), "what is not drawn")
    said = bench.call(draw, ["--most", "9", root, query, "p", "e.svg"])
    bench.holds(said == (7, b"draw.py: longer than 9 bytes\n") and not os.path.exists("e.svg"), "--most: %s" % (said,))
    said = bench.call(draw, [root, query, "p", "p"])
    bench.holds(said[0] == 1 and b"it is read too" in said[1], "a picture in place of its proof: %s" % (said,))
    bench.holds(bench.call(draw, ["00", query, "p", "e.svg"])[0] == 1, "a picture by another root digest")


# ---- outputs


def outputs_hold(bench: Bench) -> None:
    """An output takes an old one's place whole, has its name and rights, and is never an input."""
    os.mkdir("f")
    source = os.path.join(EXAMPLES, "places.txt")
    for name in ("a.txt", "b.txt"):
        shutil.copy(source, name)
    os.symlink("b.txt", "l.txt")
    os.link("b.txt", "h.txt")
    os.chmod("a.txt", 0o640)
    write("old", b"old")
    os.chmod("old", 0o604)
    os.symlink("old", "link")
    for name in ("b.txt", "./b.txt", "l.txt", "h.txt", os.path.abspath("b.txt")):
        said = "%s is to be written, and it is read too: give the output another name" % name
        says(bench, ["text", "b.txt", name], 1, said)
        says(bench, ["batch", "1", "a.txt", "b.txt", name], 1, said)
        says(bench, ["features", "b.txt", name, "--unit", "1"], 1, said)
    for number, said in (
        ("0", "no map takes batch 0: a map that was just built is at batch 0, and takes batch 1"),
        ("1.5", 'the number "1.5" is no whole number from 0 and below 2^64'),
    ):
        says(bench, ["batch", number, "a.txt", "b.txt", "o.batch"], 1, said)
    bench.holds(read("b.txt") == read(source), "an input was written")
    bench.holds(bench.call(records, ["text", "a.txt", "link"])[0] == 0, "an output by a link")
    bench.holds(os.path.islink("link") and read("old") == read(source), "an output by a link is elsewhere")
    bench.holds(stat.S_IMODE(os.stat("old").st_mode) == 0o604, "the rights of an old output changed")
    says(bench, ["text", "a.txt", "f"], 7, "f: it is a folder")
    says(bench, ["text", "a.txt", "no/o"], 7, "no/o: No such file or directory")
    bench.holds(not [name for name in os.listdir(".") if ".part-" in name], "a part of an output is left")
    with open("a.txt", "rb") as file:
        ended = bench.script("records.py", ["text", "-", "-"], stdin=file)
    bench.holds(ended == (0, read(source)), "the standard input and output: %s" % (ended,))
    write("log", b"first\n")
    with open("log", "ab") as log:
        bench.script_to("records.py", ["text", "a.txt", "/dev/stdout"], log)
    bench.holds(read("log") == b"first\n" + read(source), "an output to /dev/stdout replaces a file")
    odd = [b"\xff.txt", b"\xfe.txt"]
    write(odd[0], read(source))
    ended = bench.told("records.py", ["text", *odd])
    is_so = ended[0] == 0 and os.listdir(b".").count(odd[1]) == 1
    bench.holds(is_so, "names that are not UTF-8: %s" % (ended,))
    ended = bench.told("records.py", ["features", "a.txt", "o", "--unit", "1", "--payload", b"\xff"])
    bench.holds(ended == (1, b"records.py: what --number, --payload and --layer name is not UTF-8\n"), "%s" % (ended,))
    if os.access("/dev/full", os.W_OK):
        with open("/dev/full", "wb") as full:
            call = [sys.executable, os.path.join(CLIENTS, "records.py"), "text", "a.txt", "-"]
            ran = subprocess.run(call, stdout=full, stderr=subprocess.PIPE)
        is_so = (ran.returncode, ran.stderr) == (7, b"records.py: No space left on device\n")
        bench.holds(is_so, "a full output: %s" % (ran,))


def stops_hold(bench: Bench) -> None:
    """A run that is interrupted or killed leaves the old output; one whose output nobody reads is silent; no trace."""
    lines = ["%d %d 0 %d 0 -\n" % (number, number, number) for number in range(40000)]
    whole = "".join(lines).encode()
    write("many", whole)
    chance, call = random.Random(3), [sys.executable, os.path.join(CLIENTS, "records.py"), "text", "many", "out"]
    for at in range(12 if bench.is_long else 2):
        write("out", b"old")
        ran = subprocess.Popen([*call[:3], "-", "out"], stdin=subprocess.PIPE, stderr=subprocess.PIPE)
        ran.stdin.write(whole)  # more than a pipe holds: so it reads already
        time.sleep(chance.random() * 0.2)
        ran.send_signal(signal.SIGINT if at % 3 else signal.SIGKILL)
        with contextlib.suppress(BrokenPipeError):
            ran.stdin.close()
        told = ran.stderr.read()
        ran.wait()
        is_so = ran.returncode != 0 and told == b"" and read("out") == b"old"
        bench.holds(is_so, "a run that is stopped: status %d, %s" % (ran.returncode, told[-200:]))
    for words in (["text", "many", "-"], ["--help"], ["text", "--help"]):
        reads, writes = os.pipe()
        os.close(reads)
        ran = subprocess.run([*call[:2], *words], stdout=writes, stderr=subprocess.PIPE)
        os.close(writes)
        bench.holds((ran.returncode, ran.stderr) == (141, b""), "an output that nobody reads: %s" % (ran,))
    os.mkdir("early")
    write("early/signal.py", b"raise KeyboardInterrupt\n")  # an interrupt while the first module is read
    for name in ("records.py", "mrtree_check.py", "draw.py"):
        early = [sys.executable, "-S", os.path.join(CLIENTS, name)]
        ran = subprocess.run(early, stderr=subprocess.PIPE, env={**os.environ, "PYTHONPATH": "early"})
        is_so = (ran.returncode, ran.stderr) == (-signal.SIGINT, b"")
        bench.holds(is_so, "%s, interrupted at once: %s" % (name, ran))
    with open("zeros", "wb") as file:
        file.truncate(2**28)
    ended = memory_ends([*call[:3], "zeros", "out"], 128)
    bench.holds(ended == (8, b"records.py: there is not enough memory\n"), "without memory: %s" % (ended,))
    os.remove("zeros")
    closed = subprocess.run(["/bin/sh", "-c", '"$0" "$1" nothing 2>&-', *call[:2]])
    bench.holds(closed.returncode == 1, "without a standard error: status %d" % closed.returncode)


def memory_ends(call: List[str], size: int) -> Ended:
    """How a run ends that has so many megabytes of memory."""
    least = lambda: resource.setrlimit(resource.RLIMIT_AS, (size * 2**20,) * 2)
    ran = subprocess.run(call, stderr=subprocess.PIPE, preexec_fn=least)
    return ran.returncode, ran.stderr


# ---- counts


# The root digest in version 2 of the map of 2,000 points in docs/FORMATS.md.
ROOT_POINTS = "c7a73721c314b72b6b01110486ea947d1a52c4af606454bfe0a7ebea24a12064"
COUNTED = "window:200,200,800,600"


def counts_hold(bench: Bench) -> None:
    """The module answers a count; the picture of a count proof shows what is inside by its entry alone."""
    name = os.path.join(EXAMPLES, "vectors", "level-2-count.proof")
    proof, check = read(name), mrtree_check.check_count
    for given in (proof, [proof[:9], proof[9:]], memoryview(proof), open(name, "rb")):
        count = check(ROOT_POINTS, COUNTED, given)
        bench.holds(count == mrtree_check.Count(447, 0, 2000), "the count is %s" % (count,))
    for words, kind in (
        ((ROOT_POINTS, "nearest:0,0,1", proof), ValueError),
        ((ROOT_POINTS, "window:0,0,1", proof), ValueError),
        ((ROOT_POINTS[1:], COUNTED, proof), ValueError),
        ((ROOT_POINTS, COUNTED, name), TypeError),
        ((ROOT_POINTS, COUNTED, None), TypeError),
        ((ROOT_POINTS, "window:200,200,800,601", proof), mrtree_check.Refused),
        ((ROOT, WINDOW, read(PROOF)), mrtree_check.Refused),
    ):
        try:
            told = check(*words)
        except (ValueError, TypeError, mrtree_check.Refused) as error:
            told = error
        bench.holds(isinstance(told, kind), "the module on a count of %s answers %s" % (words[:2], told))
    ended = bench.call(draw, ["--count", ROOT_POINTS, COUNTED, name, "c.svg"])
    picture = os.path.join(EXAMPLES, "vectors", "level-2-count.svg")
    bench.holds(ended == (0, b"") and read("c.svg") == read(picture), "the picture of a count: %s" % (ended,))
    kinds = [one.get("class") for one in ElementTree.fromstring(read("c.svg")).iter()]
    bench.holds(kinds.count("whole") == 2 * 18 + 1, "%d parts inside are drawn" % kinds.count("whole"))
    told = b"records inside: 447; nodes opened: 25; parts inside: 18, apart: 85"
    bench.holds(told in read("c.svg"), "what the picture says")
    says_drawn(bench, ["--count", ROOT, WINDOW, PROOF, "refused.svg"], 2, b"draw.py: refused BadVersion at 4\n")
    says_drawn(bench, [ROOT_POINTS, COUNTED, name, "refused.svg"], 2, b"draw.py: refused WrongKind at 5\n")
    longer = ["--most", "9", "--count", ROOT_POINTS, COUNTED, name, "refused.svg"]
    says_drawn(bench, longer, 7, b"draw.py: longer than 9 bytes\n")
    said = bench.call(draw, ["--count", ROOT_POINTS, "nearest:0,0,1", name, "refused.svg"])
    bench.holds(said[0] == 1 and b"nearest" in said[1], "a picture of a count of nearest records: %s" % (said,))


def says_drawn(bench: Bench, words: List[str], status: int, said: bytes) -> None:
    """The picture is not drawn, and it is said why."""
    ended = bench.call(draw, words)
    meaning = mrtree_check.meaning_of(said.decode()[9:]).encode()
    meant = said + b"draw.py: %s\n" % meaning if status == 2 else said
    bench.holds(ended == (status, meant) and not os.path.exists(words[-1]), "draw.py %s: %s" % (words, ended))


# ---- joins


# The join of a map of the one record 7, a point, and one of the record 9, a square, in version 2; and a map of none.
ROOT_SEVEN = "aa17a0a3d81136d8e8993b421c14507454da6354d55f9b1abbc4104af9ebab34"
ROOT_NINE = "de9972e981495e9f2a740138ca5caaf8f0fd1bb232bc96f7c6635ff3b7079f5b"
ROOT_NONE = "10896f7117fa69b8930dc9bb47d24a8103b853237ece5e99e2d9c5f41da74593"
HEAD = "4d52564f024a" + "00" * 15 + "01" + "00" + "4c01"
SEVEN, NINE = HEAD + "%016x" % 7 + "00" * 18, HEAD + "%016x" % 9 + "00" * 8 + "00000001" * 2 + "0000"
JOIN = bytes.fromhex("4d524a4e01" + "00" * 8 + "00000001" * 2 + "00000033" + SEVEN + NINE)
JOIN_NONE = bytes.fromhex("4d524a4e00" + "4d52564f024a" + "00" * 16)


def joins_hold(bench: Bench) -> None:
    """The module answers pairs, and both maps' batches and counts; what is refused tells the part."""
    check, state = mrtree_check.check_join, mrtree_check.State(0, 1)
    write("j", JOIN)
    for given in (JOIN, [JOIN[:9], JOIN[9:]], memoryview(JOIN), open("j", "rb")):
        join = check(ROOT_SEVEN, ROOT_NINE, given)
        bench.holds(join == mrtree_check.Join([(7, 9)], state, state), "the join is %s" % (join,))
    join = check(ROOT_SEVEN, ROOT_NONE, JOIN_NONE)
    bench.holds(join == mrtree_check.Join([], None, mrtree_check.State(0, 0)), "the empty join is %s" % (join,))
    for words, kind, part in (
        ((ROOT_SEVEN[1:], ROOT_NINE, JOIN), ValueError, ""),
        ((ROOT_SEVEN, "window:0,0,1,1", JOIN), ValueError, ""),
        ((ROOT_SEVEN, ROOT_NINE, "j"), TypeError, ""),
        ((ROOT_SEVEN, None, JOIN), TypeError, ""),
        ((ROOT_SEVEN, ROOT_NINE, [JOIN[:9], "j"]), TypeError, ""),
        ((ROOT_NINE, ROOT_SEVEN, JOIN), mrtree_check.Refused, "first"),
        ((ROOT_SEVEN, ROOT_SEVEN, JOIN), mrtree_check.Refused, "second"),
        ((ROOT_SEVEN, ROOT_NINE, JOIN[:40]), mrtree_check.Refused, "frame"),
        ((ROOT, ROOT, read(PROOF)), mrtree_check.Refused, "frame"),
    ):
        try:
            told = check(*words)
        except (ValueError, TypeError, mrtree_check.Refused) as error:
            told = error
        is_so = isinstance(told, kind) and getattr(told, "part", "") == part
        bench.holds(is_so, "the module on a join of %s answers %s" % (words[:2], told))
    zeros = itertools.repeat(bytes(10))
    with contextlib.suppress(mrtree_check.Refused):
        bench.holds(check(ROOT_SEVEN, ROOT_NINE, zeros) is None, "zeros without an end are accepted")
    longer = ["--most", "126", "check-join", ROOT_SEVEN, ROOT_NINE, "j"]
    bench.holds(bench.client(longer) == (7, b"longer than 126 bytes\n"), "a join of more than --most")
    longer[1] = "127"
    bench.holds(bench.client(longer) == (0, b"pair 7 9\n"), "a join of as many bytes as --most")


# ---- terminals, modules, packages


BAD_WORDS: List[Tuple[List[str], str]] = [
    ([ROOT[1:], WINDOW, "p"], "the root digest is not 64 lower-case hexadecimal digits"),
    ([ROOT, "window:1,2,3", "p"], "the query is neither window:x0,y0,x1,y1 nor nearest:x,y,k"),
    ([ROOT, "window:2,0,1,1", "p"], "the sides of the window are out of order"),
    ([ROOT, "nearest:0,0,1025", "p"], "k from 1 to 1024"),
    ([ROOT, "window:0,0,1.5,2", "p"], "whole numbers of map units"),
    (["check-all", ROOT, "p", "p"], "the script and the bundle have one name"),
    (["--most", "x", ROOT, WINDOW, "p"], "--most stands before a whole number of bytes"),
    (["list", "a"], "usage: mrtree_check.py"),
    (["check-count", ROOT, "nearest:0,0,1", "p"], "a count is of the records inside a window"),
    (["check-count", ROOT, "window:1,2,3", "p"], "the query is neither window:x0,y0,x1,y1 nor nearest:x,y,k"),
    (["count", ROOT, WINDOW, "p"], "usage: mrtree_check.py"),
    (["check-join", ROOT, WINDOW, "p"], "the root digest is not 64 lower-case hexadecimal digits"),
    (["join", ROOT, ROOT, "p"], "usage: mrtree_check.py"),
]


def terminals_hold(bench: Bench) -> None:
    """The client prints what the program prints, alone; and says on standard error what is wrong with words."""
    bare = [sys.executable, "-OO", os.path.join(CLIENTS, "mrtree_check.py")]  # without docstrings
    ran = subprocess.run(bare, stdout=subprocess.PIPE, stderr=subprocess.PIPE)
    is_so = (ran.returncode, ran.stdout) == (1, b"bad words\n") and b"usage: mrtree_check.py" in ran.stderr
    bench.holds(is_so, "no words: %s" % (ran,))
    call = [sys.executable, os.path.join(CLIENTS, "mrtree_check.py")]
    for words, says_ in BAD_WORDS:
        ran = subprocess.run([*call, *words], stdout=subprocess.PIPE, stderr=subprocess.PIPE)
        is_line = ran.stderr.startswith(b"mrtree_check.py: ") and ran.stderr.count(b"\n") == 1
        is_so = (ran.returncode, ran.stdout) == (1, b"bad words\n") and says_ in ran.stderr.decode() and is_line
        bench.holds(is_so, "bad words: %s tells %s" % (words, ran))


def modules_hold(bench: Bench) -> None:
    """The module answers records, batch and count, and refuses what is no text and no bytes by its name."""
    proof, check = read(PROOF), mrtree_check.check
    answer = check(ROOT, WINDOW, proof)
    told = [record.number for record in answer.records], answer.batch, answer.count
    bench.holds(told == ([101, 102], 0, 4), "the module answers %s" % (answer,))
    for given in ([proof[:9], bytearray(proof[9:])], memoryview(proof), iter([proof]), open(PROOF, "rb")):
        bench.holds(check(ROOT, WINDOW, given) == answer, "the module on %s" % type(given))
    for root, query, given in (
        (ROOT, WINDOW, PROOF),
        (ROOT, WINDOW, None),
        (ROOT, WINDOW, 7),
        (ROOT, WINDOW, [1, 2]),
        (ROOT, WINDOW, ["a"]),
        (bytes.fromhex(ROOT), WINDOW, proof),
        (ROOT, 7, proof),
        (None, WINDOW, proof),
    ):
        try:
            told = repr(check(root, query, given))
        except TypeError as error:
            told = str(error)
        bench.holds("and this is " in told, "the module on wrong types says %s" % told)
    for queries in (WINDOW, None, 7, [7]):
        try:
            told = repr(mrtree_check.check_all(ROOT, queries, b""))
        except TypeError as error:
            told = str(error)
        bench.holds("and this is " in told, "the module on wrong queries says %s" % told)
    verdicts = mrtree_check.check_all(ROOT, [WINDOW, WINDOW], len(proof).to_bytes(4, "big") + proof)
    is_so = verdicts[0].answer == answer and verdicts[1] == mrtree_check.MISSING
    bench.holds(is_so, "the module on a bundle answers %s" % (verdicts,))
    spec = importlib.util.spec_from_file_location("package", os.path.join(CLIENTS, "__init__.py"))
    given = sys.modules["package"] = importlib.util.module_from_spec(spec)
    spec.loader.exec_module(given)
    is_so = all(getattr(given, name, None) is not None for name in mrtree_check.__all__)
    bench.holds(is_so and set(given.__all__) == {*mrtree_check.__all__, "__version__"}, "what the package gives out")


def installs(bench: Bench) -> None:
    """pip makes a package of the folder without a network: the modules with their types, and commands."""
    if importlib.util.find_spec("pip") is None:
        bench.skip("pip installs the package: there is no pip")
        return
    with tempfile.TemporaryDirectory() as folder:
        source, into = os.path.join(folder, "python"), os.path.join(folder, "into")
        shutil.copytree(CLIENTS, source)
        pip = [sys.executable, "-m", "pip", "install", "--no-index", "--no-deps", "--target", into, source]
        ran = subprocess.run(pip, stdout=subprocess.PIPE, stderr=subprocess.STDOUT)
        bench.holds(ran.returncode == 0, "pip: %s" % ran.stdout.decode()[-500:])
        env = {**os.environ, "PYTHONPATH": into, "PYTHONDONTWRITEBYTECODE": "1"}
        run = lambda words: subprocess.run(words, stdout=subprocess.PIPE, stderr=subprocess.DEVNULL, env=env)
        ran = run([os.path.join(into, "bin", "mrtree-check"), ROOT, WINDOW, PROOF])
        bench.holds((ran.returncode, ran.stdout) == bench.client(["check", ROOT, WINDOW, PROOF]), "mrtree-check")
        ran = run([os.path.join(into, "bin", "mrtree-records"), "query", "--unit", "1", "window", "0", "0", "1", "1"])
        bench.holds((ran.returncode, ran.stdout) == (0, b"window:0,0,1,1\n"), "mrtree-records: %s" % (ran,))
        ran = run([os.path.join(into, "bin", "mrtree-draw"), ROOT, WINDOW, PROOF, "-"])
        picture = read(os.path.join(EXAMPLES, "places-window.svg"))
        bench.holds((ran.returncode, ran.stdout) == (0, picture), "mrtree-draw: %s" % ran.returncode)
        bench.program(["build", "m", os.path.join(EXAMPLES, "places.txt")])
        ran = run([os.path.join(into, "bin", "mrtree-layout"), "m", "laid"])
        bench.holds(ran.returncode == 0 and read("laid") == read("m"), "mrtree-layout: %s" % (ran,))
        ran = run([os.path.join(into, "bin", "mrtree-ask"), ROOT, WINDOW, "laid"])
        bench.holds((ran.returncode, ran.stdout) == bench.client(["check", ROOT, WINDOW, PROOF]), "mrtree-ask")
        ran = run([os.path.join(into, "bin", "mrtree-host"), "--help"])
        bench.holds(ran.returncode == 0 and b"usage: mrtree_host.py" in ran.stdout, "mrtree-host: %s" % (ran,))
        ran = run([os.path.join(into, "bin", "mrtree-tiles"), "grid", "5", "0,0,5,5", "grid"])
        bench.holds(ran.returncode == 0 and read("grid").count(b"\n") == 4, "mrtree-tiles: %s" % (ran,))
        ran = run([os.path.join(into, "bin", "mrtree-gateway"), "--help"])
        bench.holds(ran.returncode == 0 and b"mrtree_gateway.py MAP.." in ran.stdout, "mrtree-gateway: %s" % (ran,))
        asks = "import mrtree_check; print(mrtree_check.__version__, mrtree_check.check.__module__)"
        ran = run([sys.executable, "-c", asks])
        meant = "%s mrtree_check.mrtree_check\n" % mrtree_check.__version__
        bench.holds(ran.stdout.decode() == meant, "the module that is installed: %s" % (ran,))
        bench.holds(os.path.exists(os.path.join(into, "mrtree_check", "py.typed")), "py.typed is not installed")


# ---- round trips through GDAL


def gdal_holds(bench: Bench) -> None:
    """What ogr2ogr writes of a file, in each form, gives the same record text; and it reads an answer."""
    if shutil.which("ogr2ogr") is None:
        bench.skip("round trips through GDAL: there is no ogr2ogr")
        return
    chance, made = random.Random(5), []
    for number in range(1, 300 if bench.is_long else 40):
        x, y = chance.randint(-1799999999, 1799999999), chance.randint(-899999999, 899999999)
        point = {"type": "Point", "coordinates": [x / 10**7, y / 10**7]}
        properties = {"key": number, "name": "Straße, %d" % number if chance.random() < 0.8 else None}
        made.append({"type": "Feature", "id": number, "properties": properties, "geometry": point})
    write("g.geojson", json.dumps({"type": "FeatureCollection", "features": made}).encode())
    options = ["--unit", "1e-7", "--payload", "name", "--number", "key"]
    bench.call(records, ["text", "g.geojson", "r", *options])
    bench.holds(read("r").count(b"\n") == len(made), "the record text before GDAL")
    for form, name, layer in (
        ("GeoJSON", "t.geojson", []),
        ("GeoJSON", "rfc.geojson", ["-lco", "RFC7946=YES"]),
        ("GeoJSONSeq", "t.geojsonl", []),
        ("GeoJSONSeq", "t.geojsons", ["-lco", "RS=YES"]),
        ("CSV", "xy.csv", ["-lco", "GEOMETRY=AS_XY"]),
        ("CSV", "yx.csv", ["-lco", "GEOMETRY=AS_YX"]),
        ("CSV", "wkt.csv", ["-lco", "GEOMETRY=AS_WKT"]),
    ):
        ogr(bench, ["-f", form, name, "g.geojson", *layer])
        ended = bench.call(records, ["text", name, "s", *options])
        bench.holds(ended[0] == 0 and read("s") == read("r"), "the record text of %s by GDAL: %s" % (name, ended))
    ogr(bench, ["-f", "ESRI Shapefile", "t.shp", "g.geojson"])
    ogr(bench, ["-f", "GeoJSONSeq", "u.geojsonl", "t.shp"])
    ended = bench.call(records, ["text", "u.geojsonl", "s", *options])
    bench.holds(ended[0] == 0 and read("s") == read("r"), "the record text of a Shapefile: %s" % (ended,))
    bench.call(records, ["features", "r", "b.geojson", *options])
    ogr(bench, ["-f", "CSV", "b.csv", "b.geojson", "-lco", "GEOMETRY=AS_XY"])
    ended = bench.call(records, ["text", "b.csv", "s", *options])
    bench.holds(ended[0] == 0 and read("s") == read("r"), "an answer, read by GDAL: %s" % (ended,))


def ogr(bench: Bench, words: List[str]) -> None:
    """Runs ogr2ogr."""
    ran = subprocess.run(["ogr2ogr", *words], stdout=subprocess.PIPE, stderr=subprocess.STDOUT)
    bench.holds(ran.returncode == 0, "ogr2ogr %s: %s" % (words, ran.stdout[-300:]))


# ---- a million points


POINTS, MOST_MEMORY, MOST_TIMES = 10**6, 300 * 10**6, 3
FEATURE = '{"type":"Feature","id":%d,"properties":{"name":"p %d"},"geometry":{"type":"Point","coordinates":[%s,%s]}}'


def large_holds(bench: Bench) -> None:
    """A million points take at most 300 MB, and from GeoJSON three times the processor time of ogr2ogr."""
    chance = random.Random(9)
    with open("l.geojsonl", "w") as lines, open("l.csv", "w") as rows, open("l.geojson", "w") as whole:
        rows.write("number,x,y,name\n")
        whole.write('{"type":"FeatureCollection","features":[\n')
        for number in range(POINTS):
            x, y = ("%.7f" % chance.uniform(-90, 90) for _ in range(2))
            rows.write("%d,%s,%s,p %d\n" % (number, x, y, number))
            lines.write(FEATURE % (number, number, x, y) + "\n")
            whole.write(",\n" * (number > 0) + FEATURE % (number, number, x, y))
        whole.write("\n]}\n")
    script, seconds = [sys.executable, os.path.join(CLIENTS, "records.py"), "text"], {}
    for name in ("l.geojson", "l.geojsonl", "l.csv"):
        seconds[name], memory = used([*script, name, "r", "--unit", "1e-7", "--payload", "name"])
        print("tests/clients: %s of %d points: %.1f s, %d MB" % (name, POINTS, seconds[name], memory // 10**6))
        bench.holds(read("r").count(b"\n") == POINTS and memory <= MOST_MEMORY, "%s takes %d bytes" % (name, memory))
    if shutil.which("ogr2ogr") is None:
        bench.skip("the processor time beside GDAL: there is no ogr2ogr")
        return
    other, _ = used(["ogr2ogr", "-f", "GeoJSON", "o.geojson", "l.geojson"])
    print("tests/clients: ogr2ogr of the first: %.1f s" % other)
    bench.holds(seconds["l.geojson"] <= MOST_TIMES * other, "%.1f s, and ogr2ogr %.1f" % (seconds["l.geojson"], other))


# Begins a run, and prints the seconds of processor time and the most bytes of memory that it takes.
MEASURE = """
import os, subprocess, sys
ran = subprocess.Popen(sys.argv[1:], stdout=subprocess.DEVNULL, stderr=subprocess.DEVNULL)
usage = os.wait4(ran.pid, 0)[2]
print(usage.ru_utime + usage.ru_stime, usage.ru_maxrss * 1024)
"""


def used(words: List[str]) -> Tuple[float, int]:
    """The seconds of processor time and the most bytes of memory of a run, which a small program begins.

    The system counts to a run the memory of the program that begins it, and this one may have become large.
    """
    ran = subprocess.run([sys.executable, "-c", MEASURE, *words], stdout=subprocess.PIPE, check=True)
    seconds, memory = ran.stdout.split()
    return float(seconds), int(memory)
