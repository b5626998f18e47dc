"""Atlases by their publisher: cut, built, changed and replayed; beside a scan of all records; what is said and refused.

How runs are stopped and how calls fail is in tests/python/atlas_stops.py.
"""
import contextlib
import gzip
import os
import random
import shutil
import subprocess
import sys
from typing import Dict, Iterable, Iterator, List, NamedTuple, Optional, Tuple

from bench import CLIENTS, TOP, Bench, read, write
import atlas_build
import atlas_numbers
import atlas_prove
import atlas_sort
import atlas_texts
import atlas_update
import mrtree_ask
import mrtree_atlas
import mrtree_check
import parcels
from atlas_sheets import Folder
from mrtree_check import Query, Record, Rect
from proofs import plain

LOW, HIGH = -(2**31), 2**31 - 1
ALL = (LOW, LOW, HIGH, HIGH)
SAYS = "mrtree_atlas.py: "


def does(words: List[str]) -> Tuple[int, str, str]:
    """What the script prints and says for words, in a process of its own: status, output, standard error."""
    call = [sys.executable, os.path.join(CLIENTS, "mrtree_atlas.py"), *words]
    ran = subprocess.run(call, stdout=subprocess.PIPE, stderr=subprocess.PIPE)
    return ran.returncode, ran.stdout.decode(), ran.stderr.decode()


def quick(words: List[str]) -> Tuple[int, str]:
    """What the script prints for words, as a module: status and output; what it says goes to a file."""
    os.makedirs("out", exist_ok=True)
    with open("out/printed", "wb+") as file, open("out/said", "w") as said:
        kept = os.dup(1)
        os.dup2(file.fileno(), 1)
        try:
            with contextlib.redirect_stderr(said):
                status = mrtree_atlas.main(words)
        finally:
            os.dup2(kept, 1)
            os.close(kept)
    return status, read("out/printed").decode()


def said() -> str:
    """What the last `quick` said on standard error."""
    return read("out/said").decode()


def made(bench: Bench, words: List[str]) -> str:
    """What the script prints, which has to end with status 0."""
    status, text = quick(words)
    bench.holds(status == 0, "%s: status %d, %s" % (" ".join(words), status, said()))
    return text.strip()


def clear() -> None:
    """Takes all out of the folder."""
    for name in os.listdir("."):
        shutil.rmtree(name) if os.path.isdir(name) else os.remove(name)


# ---- records at random, and how they change


def some_records(chance: random.Random, count: int, version: int, first: int = 1) -> List[Record]:
    """Records: many in a few places, some at the corners of the coordinates, with sides of all lengths."""
    found = []
    places = [(chance.randrange(-(10**6), 10**6), chance.randrange(-(10**6), 10**6)) for _ in range(7)]
    numbers = chance.sample(range(first, first + 4 * count), count)
    for number in numbers:
        x, y = chance.choice(places)
        x, y = x + int(chance.gauss(0, 50000)), y + int(chance.gauss(0, 50000))
        if chance.random() < 0.02:
            x, y = chance.choice((LOW, HIGH, 0)), chance.choice((LOW, HIGH, 0))
        width, height = chance.choice((0, 0, 5, 300, 20000)), chance.choice((0, 5, 300, 20000))
        rect = (x, y, min(x + width, HIGH), min(y + height, HIGH))
        layer = chance.randrange(8) if version == 2 else 0
        found.append(Record(number, rect, bytes(chance.randrange(256) for _ in range(chance.randrange(4))), layer))
    return found


def text_of(records: Iterable[Record], version: int) -> bytes:
    """Their record text."""
    return "".join(record.line(version) + "\n" for record in records).encode()


def some_changes(chance: random.Random, held: Dict[int, Record], version: int, count: int) -> List[str]:
    """Changes that can be made one after the other, made to the records that are held: many come in at one place."""
    lines, x, y = [], chance.randrange(-(10**6), 10**6), chance.randrange(-(10**6), 10**6)
    numbers = sorted(held)
    for _ in range(count):
        if numbers and chance.random() < 0.4:
            number = numbers.pop(chance.randrange(len(numbers)))
            record = held.pop(number)
            lines.append("- %d" % number)
            if chance.random() < 0.3:
                dx = chance.choice((0, 10, 10**6))
                moved = tuple(max(LOW, min(HIGH, side + dx)) for side in record.rect)
                held[number] = record._replace(rect=moved)
                lines.append("+ " + held[number].line(version))
        else:
            [record] = some_records(chance, 1, version, 10**6 * chance.randrange(1, 10**6))
            if chance.random() < 0.7:
                left, low = x + chance.randrange(30000), y + chance.randrange(30000)
                record = record._replace(rect=(left, low, left + chance.randrange(99), low + chance.randrange(99)))
            if record.number not in held:
                held[record.number] = record
                lines.append("+ " + record.line(version))
    return lines


# ---- beside a scan


class Made(NamedTuple):
    """An atlas in a folder, its root digest, its version and its records."""

    name: str
    root: str
    version: int
    records: List[Record]


def some_query(chance: random.Random, one: Made) -> Tuple[Query, bool]:
    """A question of any kind, and whether it is a count."""
    masks = [None, None, chance.getrandbits(8), 1 << chance.randrange(64), 0, 2**64 - 1]
    mask = chance.choice(masks) if one.version == 2 else None
    x, y = chance.choice(one.records).rect[:2] if one.records and chance.random() < 0.7 else (0, 0)
    if chance.random() < 0.2:
        x, y = chance.choice((LOW, HIGH)), chance.choice((LOW, HIGH))
    if chance.random() < 0.4:
        return Query((x, y, x, y), chance.choice((1, 2, 10, 100, 1023, 1024)), mask), False
    half = chance.choice((0, 10, 1000, 10**5, 10**6, 2**32))
    counts = one.version == 2 and chance.random() < 0.4
    return Query((max(x - half, LOW), max(y - half, LOW), min(x + half, HIGH), min(y + half, HIGH)), 0, mask), counts


def scanned(one: Made, query: Query) -> List[str]:
    """The record lines of the answer, by a scan of all records."""
    asked = [record for record in one.records if query.mask is None or query.mask >> record.layer & 1]
    if query.k:
        ranked = sorted((mrtree_check.distance(query.rect, record.rect), record.number, record) for record in asked)
        return [record.line(one.version) for _, _, record in ranked[: query.k]]
    met = [record for record in asked if mrtree_check.meet(record.rect, query.rect)]
    return [record.line(one.version) for record in sorted(met)]


def counted(one: Made, query: Query) -> int:
    """How many records lie inside a window, by a scan of all records."""
    x0, y0, x1, y1 = query.rect
    asked = [record for record in one.records if query.mask is None or query.mask >> record.layer & 1]
    return sum(x0 <= r[0] and y0 <= r[1] and r[2] <= x1 and r[3] <= y1 for r in (record.rect for record in asked))


def asks(bench: Bench, chance: random.Random, one: Made, how_many: int) -> None:
    """Questions beside a scan; some of them by the pages of the files too, with the same proof."""
    with atlas_prove.prover(Folder(one.name)) as prover:
        bench.holds(prover.root.hex() == one.root, "another root than was printed")
        for number in range(how_many):
            query, counts = some_query(chance, one)
            word = ("count of " if counts else "") + atlas_prove.word_of(query)
            try:
                proof = b"".join(prover.proof(query, counts))
                if counts:
                    found, meant = mrtree_check.judge_atlas_count(prover.root, query, [proof]).inside, counted(one, query)
                else:
                    found, meant = mrtree_check.judge_atlas(prover.root, query, [proof]).lines(), scanned(one, query)
            except mrtree_check.Refused as fault:
                found, meant = str(fault), ""
            bench.holds(found == meant, "%s on %s: %.200s and not %.200s" % (word, one.root, found, meant))
            if number % 4 == 0:
                far = mrtree_ask.open_atlas(one.root, one.name)
                by_pages = far.count_proof(query) if counts else far.proof(query)
                bench.holds(by_pages == proof, "%s on %s: by pages comes another proof" % (word, one.root))


def beside_scan(bench: Bench) -> None:
    """Atlases of both versions beside a scan, after updates in which sheets split, shrink and go; and their mirrors."""
    rounds, size, each = (10, 4000, 40) if bench.is_long else (2, 900, 12)
    chance = random.Random(67)
    for number in range(rounds):
        version, sheet = 1 + number % 2, chance.choice((60, 100, 250))
        clear()
        held = {record.number: record for record in some_records(chance, size, version)}
        write("r", text_of(held.values(), version))
        made(bench, ["split", "r", "a", "--sheet", str(sheet), "--jobs", "1"])
        root = made(bench, ["build", "a", "--jobs", "1"])
        shutil.copytree("a", "mirror")
        asks(bench, chance, Made("a", root, version, list(held.values())), each)
        for batch in range(1, 4):
            lines = some_changes(chance, held, version, chance.choice((1, size // 3, size)))
            write("b", ("batch %d\n" % batch + "".join(line + "\n" for line in lines)).encode())
            root = made(bench, ["update", "a", "b", "--jobs", "1"])
            copied = made(bench, ["replay", "mirror", "a/updates/%d" % batch, "--jobs", "1"])
            bench.holds(copied == root, "a mirror has another root")
            bench.holds(sheets_of("a") == sheets_of("mirror"), "a mirror has other sheets")
            bench.holds(quick(["audit", "a", "--deep", "--jobs", "1"])[0] == 0, "an audit: %s" % said())
            asks(bench, chance, Made("a", root, version, list(held.values())), each if batch < 3 else 2 * each)
        counts = [int(line.split()[-1]) for line in made(bench, ["info", "a"]).split("\n") if line.startswith("largest")]
        bench.holds(counts[0] <= 2 * sheet, "a sheet has %d records" % counts[0])
        told = made(bench, ["info", "a"])
        bench.holds("records %d\n" % len(held) in told, "info says %s" % told)
        goes_empty(bench, held, version)


def goes_empty(bench: Bench, held: Dict[int, Record], version: int) -> None:
    """All records of an atlas go out, and some come in again."""
    write("b", ("batch 4\n" + "".join("- %d\n" % number for number in held)).encode())
    root = made(bench, ["update", "a", "b", "--jobs", "1"])
    asks(bench, random.Random(1), Made("a", root, version, []), 4)
    some = some_records(random.Random(2), 300, version)
    write("b", ("batch 5\n" + "".join("+ %s\n" % record.line(version) for record in some)).encode())
    root = made(bench, ["update", "a", "b", "--jobs", "1"])
    asks(bench, random.Random(3), Made("a", root, version, some), 6)


def sheets_of(name: str) -> Dict[str, bytes]:
    """The files in the folder of sheets, by their names."""
    return {one: read(os.path.join(name, "sheets", one)) for one in sorted(os.listdir(os.path.join(name, "sheets")))}


# ---- the cut


@contextlib.contextmanager
def narrow(hold: int, fan: int, block: int) -> Iterator[None]:
    """Little is held at once, as if memory were small beside the text."""
    kept = atlas_sort.HOLD, atlas_sort.FAN, atlas_sort.BLOCK, atlas_sort.LEAST, atlas_numbers.FAN
    atlas_sort.HOLD, atlas_sort.FAN, atlas_sort.BLOCK, atlas_sort.LEAST, atlas_numbers.FAN = hold, fan, block, 1, fan
    try:
        yield
    finally:
        atlas_sort.HOLD, atlas_sort.FAN, atlas_sort.BLOCK, atlas_sort.LEAST, atlas_numbers.FAN = kept


def groups_meant(records: List[Record], most: int) -> List[List[Record]]:
    """The sheets that the bulk load of docs/FORMATS.md gives, with sheets for leaves."""
    p = -(-len(records) // most)
    s = next(s for s in range(p + 1) if s * s >= p)
    ordered = sorted(records, key=lambda one: (one.rect[0] + one.rect[2], one.number))
    groups: List[List[Record]] = []
    for j in range(s):
        first, last = j * p // s, (j + 1) * p // s
        start, end = first * len(records) // p, last * len(records) // p
        some = sorted(ordered[start:end], key=lambda one: (one.rect[1] + one.rect[3], one.number))
        for group in range(first, last):
            low, high = group * len(records) // p, (group + 1) * len(records) // p
            groups.append(some[low - start : high - start])
    return groups


def is_cut_right(bench: Bench) -> None:
    """The cut is the bulk load's, whatever is held at once and however many processes there are."""
    chance = random.Random(5)
    for number in range(30 if bench.is_long else 6):
        clear()
        version, most = 1 + number % 2, chance.choice((1, 7, 50, 400))
        count = chance.choice((0, 1, 8, 300))
        records = some_records(chance, count, version)
        write("r", text_of(records, version))
        hold, fan, block = chance.choice((1, 3, 50)), chance.choice((2, 3, 9)), chance.choice((1, 7, 100))
        with narrow(hold, fan, block):
            made(bench, ["split", "r", "a", "--sheet", str(most), "--jobs", "1"])
            meant = [text_of(group, version) for group in groups_meant(records, most)]
            found = [read("a/split/%d.txt" % (at + 1)) for at in range(len(meant))]
            what = "%d records at %d, %d held, %d merged, pieces of %d" % (count, most, hold, fan, block)
            bench.holds(found == meant, "the cut of " + what)
            bench.holds(len(os.listdir("a/split")) == len(meant), "files beside the texts of " + what)
            root = made(bench, ["build", "a", "--jobs", "1"])
        if number < 2:
            made(bench, ["split", "r", "b", "--sheet", str(most), "--jobs", "3"])
            bench.holds(made(bench, ["build", "b", "--jobs", "3"]) == root, "three processes make another atlas")
        bench.holds(sorted(os.listdir("a")) == ["index.map", "lock", "numbers", "sheets", "updates"], "what is left")


def is_from_files(bench: Bench) -> None:
    """From GeoJSON, a sequence of it, CSV and the standard input comes the atlas of the record text."""
    clear()
    some = [parcels.parcel(number) for number in range(1, 301)]
    write("r.geojsonl", "".join(one.feature() for one in some).encode())
    features = ",\n".join(one.feature().strip() for one in some)
    write("r.geojson", ('{"type":"FeatureCollection","features":[%s]}' % features).encode())
    rows = ["%d,%s,%s,%s,%s\n" % (one.number, *map(parcels.in_degrees, one.rect)) for one in some]
    write("r.csv", ("number,a,b,c,d\n" + "".join(rows)).encode())
    for name, words in (("r.geojsonl", ["--digest"]), ("r.geojson", ["--payload", "use"]), ("r.csv", ["--place", "a,b,c,d"])):
        options = ["--unit", "1e-7", *words]
        status, _ = bench.script("records.py", ["text", name, "r.txt", *options])
        bench.holds(status == 0, "the text of %s" % name)
        roots = []
        for source, more in ((name, options), ("r.txt", [])):
            shutil.rmtree("a", ignore_errors=True)
            made(bench, ["split", source, "a", "--sheet", "70", "--jobs", "1", *more])
            roots.append(made(bench, ["build", "a", "--jobs", "1"]))
        bench.holds(roots[0] == roots[1], "%s gives another atlas than its text" % name)
    with gzip.open("r.geojsonl.gz", "wb") as file:
        file.write(read("r.geojsonl"))
    layers = ["--unit", "1e-7", "--layer", "use", "--layers", "l", "--jobs", "1"]
    write("l", b"".join(b"%d %c\n" % (at, b"abcde"[at]) for at in range(5)))
    shutil.rmtree("a")
    made(bench, ["split", "r.geojsonl.gz", "a", *layers])
    made(bench, ["build", "a"])
    told = made(bench, ["info", "a"])
    bench.holds("version 2\n" in told and "layers 0 1 2 3 4\n" in told, "with layers: %s" % told)
    kept, atlas_texts.LEAST = atlas_texts.LEAST, 1000
    shutil.rmtree("a")
    made(bench, ["split", "r.geojsonl", "a", "--unit", "1e-7", "--digest", "--jobs", "1"])
    one = made(bench, ["build", "a"])
    write("bad.geojsonl", read("r.geojsonl") + b"{}\n")
    status, _ = quick(["split", "bad.geojsonl", "b", "--unit", "1e-7", "--jobs", "2"])
    bench.holds(status == 1 and said() == SAYS + "bad.geojsonl: line 301: it is no feature\n", "a part: %s" % said())
    atlas_texts.LEAST = kept
    shutil.rmtree("a")
    made(bench, ["split", "r.geojsonl", "a", "--unit", "1e-7", "--digest", "--jobs", "1"])
    bench.holds(made(bench, ["build", "a"]) == one, "a file that is read in parts gives another atlas")
    shutil.rmtree("a")
    with open("r.txt", "rb") as file:
        bench.holds(bench.script("mrtree_atlas.py", ["split", "-", "a", "--sheet", "70"], stdin=file)[0] == 0, "a pipe")
    bench.holds(made(bench, ["build", "a"]) == roots[1], "the standard input gives another atlas")


def shapes_come_beside(bench: Bench) -> None:
    """The shapes that `split` writes, in parts and by several processes, are those of `records.py text`, and so is
    their index. Of a split that is refused there are none."""
    clear()
    write("r.geojsonl", "".join(parcels.parcel(number).feature() for number in range(1, 1301)).encode())
    write("none.geojsonl", b"")
    options, kept = ["--unit", "1e-7", "--digest", "--shapes-to"], (atlas_texts.LEAST, atlas_texts.HELD)
    for name, least, held, jobs in (
        ("r.geojsonl", *kept, "1"),
        ("r.geojsonl", 5000, 9000, "1"),
        ("r.geojsonl", 900, 1, "2"),
        ("none.geojsonl", *kept, "1"),
    ):
        atlas_texts.LEAST, atlas_texts.HELD = least, held
        shutil.rmtree("a", ignore_errors=True)
        made(bench, ["split", name, "a", "--sheet", "70", "--jobs", jobs, *options, "s"])
        bench.script("records.py", ["text", name, "r.txt", *options, "t"])
        is_so = read("s") == read("t") and read("s.index") == read("t.index") != b""
        bench.holds(is_so, "the shapes of %s, in parts of %d bytes" % (name, least))
        bench.holds(sorted(os.listdir("a")) == ["lock", "split"], "the shapes leave %s" % os.listdir("a"))
        bench.holds(all(one.endswith(".txt") for one in os.listdir("a/split")), "the shapes leave files in `split`")
    atlas_texts.LEAST, atlas_texts.HELD = kept
    write("bad.geojsonl", read("r.geojsonl") + b"{}\n")
    before = read("s"), read("s.index")
    status, _ = quick(["split", "bad.geojsonl", "b", *options, "s", "--jobs", "1"])
    bench.holds(status == 1 and (read("s"), read("s.index")) == before, "a refused split changed shapes: %s" % said())


# ---- what is said

TEXT = b"1 0 0 5 5 -\n2 9 9 9 9 61\n3 -7 0 -7 4 -\n"
TEXT2 = b"1 0 0 5 5 0 -\n2 9 9 9 9 63 61\n"


class Case(NamedTuple):
    """A command line after others, the files and how they are changed, the status, and what is said or printed."""

    before: List[str]
    files: Dict[str, bytes]
    words: str
    status: int
    told: str


BUILT = ["split r a --sheet 2", "build a"]
CASES = [
    Case([], {"r": TEXT}, "split r a --sheet 2", 0, "3 records in 2 sheets"),
    Case([], {"r": b""}, "split r a", 0, "0 records in 0 sheets"),
    Case([], {"r": TEXT}, "split r a --sheet 0", 1, "argument --sheet: \"0\" is no number from 1 to 1048576 (mrtree_atlas.py --help)"),
    Case([], {"r": TEXT}, "split r a --jobs x", 1, "argument --jobs: \"x\" is no number from 1 to 64 (mrtree_atlas.py --help)"),
    Case([], {}, "split r a", 7, "r: No such file or directory"),
    Case([], {"r": TEXT + b"4 0 0 5 5\n"}, "split r a", 1, "r: line 4: it is no record line of version 1"),
    Case([], {"r": TEXT + b"4 0 0 5 5 -"}, "split r a", 1, "r: line 4: it is no record line of version 1"),
    Case([], {"r": TEXT + b"4 5 0 0 5 -\n"}, "split r a", 1, "r: line 4: it is no record line of version 1"),
    Case([], {"r": TEXT + b"18446744073709551616 0 0 0 0 -\n"}, "split r a", 1, "r: line 4: it is no record line of version 1"),
    Case([], {"r": TEXT + b"4 0 0 0 2147483648 -\n"}, "split r a", 1, "r: line 4: it is no record line of version 1"),
    Case([], {"r": TEXT + b"4 0 0 0 0 6\n"}, "split r a", 1, "r: line 4: it is no record line of version 1"),
    Case([], {"r": TEXT + b"4 0 0 0 0 " + b"ab" * 201 + b"\n"}, "split r a", 1, "r: line 4: it is no record line of version 1"),
    Case([], {"r": TEXT + b"x" * 3000000}, "split r a", 1, "r: line 4: it is no record line of version 1"),
    Case([], {"r": TEXT + TEXT2}, "split r a", 1, "r: line 4: it is no record line of version 1"),
    Case([], {"r": TEXT2 + TEXT}, "split r a", 1, "r: line 3: it is no record line of version 2"),
    Case([], {"r": b"1 0 0 0 0 64 -\n"}, "split r a", 1, "r: line 1: it is no record line of version 2"),
    Case([], {"r.csv": b"number,x,y\n1,2,3\n"}, "split r.csv a", 1, "--unit has to be given: how large a map unit is in the file's unit"),
    Case([], {"r.csv": b"number,x,y\n1,2,z\n"}, "split r.csv a --unit 1", 1, 'r.csv: line 2: "z" is no number'),
    Case([], {"r.geojsonl": b'{"type":"Feature","id":1,"geometry":{"type":"Point","coordinates":[1,2]}}\n{}\n'}, "split r.geojsonl a --unit 1", 1, "r.geojsonl: line 2: it is no feature"),
    Case([], {"r.geojson": b'{"type":"FeatureCollection","features":[{}]}'}, "split r.geojson a --unit 1", 1, "r.geojson: feature 1: it is no feature"),
    Case([], {"r": TEXT}, "split r a --digest --shapes-to s", 1, "a record text has no shapes, which --shapes-to would write"),
    Case([], {"r.geojsonl": b""}, "split r.geojsonl a --unit 1 --shapes-to s", 1, "--shapes-to writes the features of a map that has their digests: --digest"),
    Case([], {"r.geojsonl": b""}, "split r.geojsonl a --unit 1 --digest --shapes-to -", 1, "--shapes-to names a file of its own"),
    Case([], {"r.geojsonl": b""}, "split r.geojsonl a --unit 1 --digest --shapes-to r.geojsonl", 1, "r.geojsonl is to be written, and it is read too: give the output another name"),
    Case([], {"r.geojsonl": b""}, "split r.geojsonl a --unit 1 --digest --shapes-to none/s", 7, "none/s: No such file or directory"),
    Case([], {"r.geojson": b"[]"}, "split r.geojson a --unit 1", 1, "r.geojson: it is no object of JSON, so neither a feature nor a collection of features"),
    Case([], {"r": TEXT}, "split r a --form x", 1, '--form is geojson, geojsonseq, csv or text, and not "x"'),
    Case(["split r a"], {"r": TEXT}, "split r a", 1, "a: there is a split already, which `build` makes an atlas of; take it away, or name another folder"),
    Case(BUILT, {"r": TEXT}, "split r a", 1, "a: there is an atlas; take it away, or name another folder"),
    Case([], {}, "build a", 1, "a: there is no such folder"),
    Case([], {"a/x": b""}, "build a", 1, "a: it is no atlas, and there are no texts of sheets: `split` makes them"),
    Case([], {"r": TEXT + TEXT[:12]}, "split r a --sheet 2", 0, "4 records in 2 sheets"),
    Case(["split r a --sheet 2"], {"r": TEXT + TEXT[:12]}, "build a", 1, "the number 1 stands twice: in the sheets 1 and 2"),
    Case(["split r a --sheet 1"], {"r": TEXT + TEXT[:12]}, "build a", 1, "the number 1 stands twice: in the sheets 2 and 3"),
    Case(["split r a --sheet 9"], {"r": TEXT + TEXT[:12]}, "build a", 1, "the number 1 stands twice, in sheet 1"),
    Case(["split r a --sheet 2"], {"r": TEXT, "a/split/x": b""}, "build a", 1, "a/split/x: it is no text of a sheet (1.txt, 2.txt ..)"),
    Case(["split r a --sheet 2"], {"r": TEXT, "a/split/9.txt": b""}, "build a", 1, "a/split/9.txt: a sheet has records, and this text has none"),
    Case(["split r a --sheet 2"], {"r": TEXT}, "update a b", 1, "a: it is no atlas yet: `build` makes it"),
    Case(["split r a --sheet 2"], {"r": TEXT}, "info a", 1, "a: it is no atlas yet: `build` makes it"),
    Case([], {}, "info a", 1, "a: it is no atlas"),
    Case(BUILT, {"r": TEXT}, "update a b", 7, "b: No such file or directory"),
    Case(BUILT, {"r": TEXT, "b": b""}, "update a b", 1, "b: line 1: it is not `batch N`"),
    Case(BUILT, {"r": TEXT, "b": b"batch 01\n"}, "update a b", 1, "b: line 1: it is not `batch N`"),
    Case(BUILT, {"r": TEXT, "b": b"batch 2\n"}, "update a b", 1, "b: it is batch 2, and the atlas takes batch 1 next"),
    Case(BUILT, {"r": TEXT, "b": b"batch 0\n"}, "update a b", 1, "b: it is batch 0, and the atlas takes batch 1 next"),
    Case(BUILT, {"r": TEXT, "b": b"batch 1\n- 4\n"}, "update a b", 1, "b: line 2: the number 4 is in no sheet"),
    Case(BUILT, {"r": TEXT, "b": b"batch 1\n- 3\n- 3\n"}, "update a b", 1, "b: line 3: the number 3 is in no sheet"),
    Case(BUILT, {"r": TEXT, "b": b"batch 1\n+ 3 0 0 0 0 -\n"}, "update a b", 1, "b: line 2: the number 3 is there already, in sheet 1"),
    Case(BUILT, {"r": TEXT, "b": b"batch 1\n+ 4 0 0 0 0 -\n+ 4 0 0 0 0 -\n"}, "update a b", 1, "b: line 3: the number 4 is there already, in sheet 2"),
    Case(BUILT, {"r": TEXT, "b": b"batch 1\n+ 4 0 0 0 0 0 -\n"}, "update a b", 1, "b: line 2: it is neither `- NUMBER` nor `+ ` and a record line of version 1"),
    Case(BUILT, {"r": TEXT2, "b": b"batch 1\n+ 4 0 0 0 0 -\n"}, "update a b", 1, "b: line 2: it is neither `- NUMBER` nor `+ ` and a record line of version 2"),
    Case(BUILT, {"r": TEXT, "b": b"batch 1\n- 3"}, "update a b", 1, "b: line 2: it is neither `- NUMBER` nor `+ ` and a record line of version 1"),
    Case(BUILT, {"r": TEXT, "b": b"batch 1\n" + b"- " * 9**6}, "update a b", 1, "b: line 2: it is neither `- NUMBER` nor `+ ` and a record line of version 1"),
    Case(BUILT, {"r": TEXT}, "prove a window:0,0,1 p", 1, "the query is neither window:x0,y0,x1,y1 nor nearest:x,y,k"),
    Case(BUILT, {"r": TEXT}, "count a nearest:0,0,1 p", 1, "a count is of the records inside a window, and this query is for nearest records"),
    Case(BUILT, {"r": TEXT}, "prove a window:0,0,9,9 p", 0, "proof 299"),
    Case(BUILT, {"r": TEXT}, "prove a window:0,0,9,9 a/index.map", 1, "a/index.map is to be written, and it is read too: give the output another name"),
    Case(BUILT, {"r": TEXT}, "prove a window:0,0,9,9 a/sheets/p", 1, "a/sheets/p is to be written among the sheets of an atlas: give it another name"),
    Case(BUILT, {"r": TEXT}, "prove a window:0,0,9,9/0000000000000001 p", 10, "mrtree prove a/sheets/SHEET: needs version 2"),
    Case(BUILT, {"r": TEXT}, "count a window:0,0,3,3 p", 10, "mrtree count a/sheets/SHEET: needs version 2"),
    Case(BUILT, {"r": TEXT2}, "count a window:0,0,3,3 p", 0, "proof 217"),
    Case(BUILT, {"r": TEXT}, "audit a", 0, "records 3 sheets 2"),
    Case(BUILT, {"r": TEXT}, "audit a --deep", 0, "records 3 sheets 2"),
    Case(BUILT, {"r": TEXT}, "tidy a", 0, "removed 0"),
    Case(BUILT, {"r": TEXT, "a/sheets/x": b""}, "tidy a", 0, "removed 1"),
    Case(BUILT, {"r": TEXT}, "replay a u", 7, "u/index.batch: No such file or directory"),
    Case(BUILT, {"r": TEXT, "u/index.batch": b"batch 7\n"}, "replay a u", 1, "u: it is update 7, and the atlas takes update 1 next"),
    Case([], {}, "", 1, "the following arguments are required: command (mrtree_atlas.py --help)"),
    Case([], {}, "merge a", 1, "argument command: invalid choice: 'merge'"),
]


def is_said(bench: Bench) -> None:
    """Each case ends with its status, and says or prints what it says, in a line."""
    for case in CASES:
        clear()
        for name, bytes_ in case.files.items():
            if not name.startswith("a/") or not case.before:
                os.makedirs(os.path.dirname(name) or ".", exist_ok=True)
                write(name, bytes_)
        for words in case.before:
            made(bench, words.split(" ") + (["--jobs", "1"] if words.split(" ")[0] in ("split", "build") else []))
        for name, bytes_ in case.files.items():
            if name.startswith("a/"):
                write(name, bytes_)
        before = tree("a")
        status, printed = quick(case.words.split())
        roots = [name for name in os.listdir("a/sheets")] if os.path.isdir("a/sheets") else []
        told = said()[len(SAYS) :] if status or not printed else printed
        for root in roots:
            told = told.replace(root, "SHEET")
        is_so = told.startswith(case.told) and told.count("\n") == 1 and len(told) < 500
        bench.holds(status == case.status and is_so, "%s: status %d, %s" % (case.words, status, told))
        if status:
            bench.holds(tree("a") == before, "%s: it changed the atlas" % case.words)


def tree(name: str) -> Dict[str, bytes]:
    """The files in a folder that matter to an atlas, with what is in them."""
    found = {}
    for folder, _, names in os.walk(name):
        for one in names:
            path = os.path.join(folder, one)
            if one != "lock" and os.sep + "split" + os.sep not in path and not is_loose(path):
                found[path] = read(path)
    return found


def is_loose(path: str) -> bool:
    """Whether a file is one that a stopped run may leave: a part, a sheet or a run that no index names."""
    return "part-" in path or path.split(os.sep)[-2] in ("sheets", "numbers")


def is_damaged(bench: Bench) -> None:
    """Atlases in which something is wrong: `audit` says what, and `replay` takes no other sheet than the index names."""
    clear()
    write("r", TEXT)
    made(bench, ["split", "r", "a", "--sheet", "2", "--jobs", "1"])
    made(bench, ["build", "a", "--jobs", "1"])
    shutil.copytree("a", "mirror")
    write("b", b"batch 1\n- 2\n+ 9 1 1 1 1 -\n")
    root = made(bench, ["update", "a", "b", "--jobs", "1"])
    sheets = [name for name in sheets_of("a") if name != root and name not in sheets_of("mirror")]
    for name, change, told in damages(sheets[0]):
        shutil.rmtree("c", ignore_errors=True)
        shutil.copytree("a", "c")
        change("c/sheets/" + name)
        status, printed = quick(["audit", "c", "--deep", "--jobs", "1"])
        bench.holds(status == 2 and told in printed and printed.startswith("bad sheet "), "%s: %s" % (told, printed))
        bench.holds(said() == SAYS + "1 faults\n", "an audit says %s" % said())
        if told == "its file has another map":
            for query in ("window:-9,-9,9,9", "nearest:0,0,3"):
                status, _ = quick(["prove", "c", query, "p"])
                is_so = status == 2 and said().endswith(" has another map\n") and not os.path.exists("p")
                bench.holds(is_so, "a proof of %s: %s" % (query, said()))
    package = "a/updates/1"
    for name in sorted(os.listdir(package)):
        if name.endswith((".txt", ".batch")) and name != "index.batch":
            shutil.copytree(package, "u")
            write("u/" + name, read("u/" + name).replace(b"9 1 1 1 1", b"9 1 1 1 2").replace(b"- 2\n", b"- 3\n"))
            before = sheets_of("mirror")
            status, _ = quick(["replay", "mirror", "u", "--jobs", "1"])
            bench.holds(status == 1 and sheets_of("mirror") == before, "a bent update: status %d, %s" % (status, said()))
            os.remove("u/" + name)
            status, _ = quick(["replay", "mirror", "u", "--jobs", "1"])
            bench.holds(status == 1 and "it has neither" in said(), "an update with a file less: %s" % said())
            shutil.rmtree("u")
    bench.holds(made(bench, ["replay", "mirror", package]) == root, "a mirror behind bent updates")
    numbers_again(bench, root)


def damages(name: str):
    """Ways to damage a sheet, and what is said of it."""

    def flips(path: str) -> None:
        """Changes a byte behind page 0."""
        bytes_ = bytearray(read(path))
        bytes_[4100] ^= 1
        write(path, bytes(bytes_))

    def other(path: str) -> None:
        """Puts another map there."""
        bytes_ = bytearray(read(path))
        bytes_[13] ^= 1
        write(path, bytes(bytes_))

    yield name, os.remove, "No such file or directory"
    yield name, flips, "bad map page 1 "
    yield name, other, "its file has another map"
    yield name, lambda path: write(path, b"MRMP"), "is no map"


def index_of(bench: Bench, command: str, lines: List[str]) -> str:
    """Puts an index of these record lines in the place of that of the atlas; answers its root digest."""
    write("r", "".join(line + "\n" for line in lines).encode())
    status, root = bench.program([command, "a/index.map", "r"])
    bench.holds(status == 0, "%s of an index" % command)
    shutil.copy("a/index.map", "a/sheets/" + root.decode().strip())
    return root.decode().strip()


def is_made_by_others(bench: Bench) -> None:
    """Atlases that another program made by FORMATS: an index of version 2 is read and not changed; a map that is a
    sheet twice, under two names, is told by each audit."""
    clear()
    write("r", TEXT)
    made(bench, ["split", "r", "a", "--sheet", "2", "--jobs", "1"])
    made(bench, ["build", "a", "--jobs", "1"])
    lines = bench.program(["list", "a/index.map"])[1].decode().splitlines()
    index_of(bench, "build", lines + ["7" + lines[0][1:] + "6161"])
    status, printed = quick(["audit", "a", "--jobs", "1"])
    bench.holds(status == 2 and printed == "bad sheet 7: its map is a sheet already\n", "a sheet twice: %s" % printed)
    root = index_of(bench, "build2", [line.replace(" 52", " 5 52") for line in lines])
    for words, told in (
        (["info", "a"], "root %s\nbatch 0\nversion 1\nrecords 3\nsheets 2\n" % root),
        (["audit", "a", "--deep", "--jobs", "1"], "records 3 sheets 2\n"),
        (["build", "a", "--jobs", "1"], root + "\n"),
        (["prove", "a", "nearest:0,0,2", "p"], "proof "),
    ):
        status, printed = quick(words)
        bench.holds(status == 0 and printed.startswith(told), "an index of version 2: %s: %s" % (words, said() or printed))
    found = mrtree_check.check_atlas(root, "nearest:0,0,2", read("p")).lines()
    bench.holds(found == ["1 0 0 5 5 -", "3 -7 0 -7 4 -"], "an index of version 2: %s" % found)
    write("b", b"batch 1\n- 2\n")
    os.makedirs("u")
    write("u/index.batch", b"batch 1\n")
    before = tree("a")
    for words in (["update", "a", "b"], ["replay", "a", "u"], ["bind", "a", "a/index.map"]):
        status, _ = quick([*words, "--jobs", "1"])
        is_so = status == 1 and said() == SAYS + "a: its index is of version 2, which is read here and not changed\n"
        bench.holds(is_so and tree("a") == before, "an index of version 2: %s: %s" % (words, said()))


def numbers_again(bench: Bench, root: str) -> None:
    """The directory of numbers is made anew of the sheets: then a mirror takes batches as its publisher does."""
    made(bench, ["tidy", "a"])
    shutil.rmtree("mirror/numbers")
    write("b", b"batch 2\n- 9\n+ 2 5 5 6 6 -\n")
    status, _ = quick(["update", "mirror", "b"])
    told = "which says where each number is: `build mirror` makes it of the sheets\n"
    bench.holds(status == 1 and said().endswith(told), "an update without the directory: %s" % said())
    bench.holds(made(bench, ["build", "mirror"]) == root, "a build of a mirror's directory")
    bench.holds(made(bench, ["update", "mirror", "b"]) == made(bench, ["update", "a", "b"]), "a mirror takes a batch")
    for name in os.listdir("a/numbers"):
        if name.endswith(".list"):
            write("a/numbers/" + name, b"sheet 2\n")
    bench.holds(quick(["update", "a", "b"])[0] in (0, 1) and "is damaged" in said(), "a damaged list: %s" % said())


# ---- maps of others


def bound_holds(bench: Bench) -> None:
    """Maps of both versions are bound, one of them again in its next state; readers see the records of all."""
    clear()
    chance = random.Random(8)
    north = some_records(chance, 300, 1)
    south = some_records(chance, 200, 2, 10**9)
    for name, records, command in (("north", north, "build"), ("south", south, "build2")):
        write("r", text_of(records, 1 if command == "build" else 2))
        bench.holds(bench.program([command, name + ".map", "r"])[0] == 0, "a county's map")
    root = made(bench, ["bind", "a", "north.map", "south.map", "--jobs", "1"])
    asks_bound(bench, root, north, south)
    bench.holds(made(bench, ["bind", "a", "north.map", "south.map"]) == root, "the same maps are another atlas")
    write("b", b"batch 1\n- %d\n" % north.pop().number)
    os.mkdir("next")
    bench.program(["apply", "north.map", "b", "next/north.map"])
    after = made(bench, ["bind", "a", "next/north.map", "south.map", "--jobs", "1"])
    bench.holds(after != root and "batch 1\n" in made(bench, ["info", "a"]), "the next state of an atlas of others' maps")
    asks_bound(bench, after, north, south)
    bench.holds(quick(["audit", "a", "--deep", "--jobs", "1"])[0] == 0, "an audit: %s" % said())
    told = made(bench, ["bind", "a", "south.map"]) and made(bench, ["info", "a"])
    bench.holds("sheets 1\n" in told and "batch 2\n" in told, "a county that left: %s" % told)
    refused_binds(bench)


def asks_bound(bench: Bench, root: str, north: List[Record], south: List[Record]) -> None:
    """A window of everything and the nearest records of an atlas of two maps, one of each version."""
    lines = [record.line(1) for record in north] + [record.line(2) for record in south]
    with atlas_prove.prover(Folder("a")) as prover:
        bench.holds(prover.root.hex() == root, "another root than was printed")
        query = Query(ALL, 0)
        found = mrtree_check.judge_atlas(prover.root, query, prover.proof(query, False)).lines()
        bench.holds(sorted(found) == sorted(lines), "everything of two maps")
        query = Query((0, 0, 0, 0), 100)
        found = mrtree_check.judge_atlas(prover.root, query, prover.proof(query, False)).lines()
        ranked = sorted((mrtree_check.distance(query.rect, one.rect), one.number) for one in north + south)
        bench.holds([int(line.split()[0]) for line in found] == [number for _, number in ranked[:100]], "the nearest 100")


def refused_binds(bench: Bench) -> None:
    """What is not bound: maps with one name, one map twice, no map, an empty one, a number in two maps."""
    write("r", b"")
    bench.program(["build", "empty.map", "r"])
    write("r", TEXT)
    bench.program(["build", "one.map", "r"])
    write("r", TEXT[:12])
    bench.program(["build", "two.map", "r"])
    shutil.copy("one.map", "copy.map")
    shutil.copy("two.map", "bad.map")
    bytes_ = bytearray(read("bad.map"))
    bytes_[4100] ^= 1
    write("bad.map", bytes(bytes_))
    before = tree("a")
    for files, status, told in (
        ("bad.map", 2, "bad map page 1 "),
        ("one.map next/../one.map", 1, "another map has this name"),
        ("one.map copy.map", 1, "copy.map: it is the map of one.map"),
        ("one.map r", 1, "r is no map"),
        ("one.map none.map", 7, "none.map: No such file"),
        ("one.map empty.map", 1, "empty.map: it has no records, and a sheet has some"),
        ("one.map two.map", 1, "the number 1 stands twice: in the sheets "),
    ):
        for folder in ("a", "new"):
            found, _ = quick(["bind", folder, *files.split(), "--jobs", "1"])
            bench.holds(found == status and told in said() and said().count("\n") == 1, "bind %s: %s" % (files, said()))
    bench.holds(tree("a") == before and not os.path.exists("new/index.map"), "a refused bind changed an atlas")
    write("b", b"batch 3\n- 5\n")
    status, _ = quick(["update", "a", "b"])
    bench.holds(status == 1 and "its sheets are maps of others" in said(), "an update of others' maps: %s" % said())


# ---- where records go


def places_hold(bench: Bench) -> None:
    """The sheet for a record is the nearest by a look at all, of several the least, however many there are."""
    chance = random.Random(9)
    for count in (1, 2, 16, 17, 300, 2000):
        rects = []
        for _ in range(count):
            x, y = chance.randrange(-1000, 1000), chance.randrange(-1000, 1000)
            rects.append((x, y, x + chance.randrange(90), y + chance.randrange(90)))
        places = atlas_update.Places([(rect, number) for number, rect in enumerate(rects, 1)])
        for _ in range(60):
            x, y = chance.randrange(-1200, 1200), chance.randrange(-1200, 1200)
            rect = (x, y, x + chance.randrange(9), y + chance.randrange(9))
            middle = (x + rect[2], y + rect[3]) * 2
            far = lambda one: mrtree_check.distance(middle, tuple(2 * side for side in one))
            area = lambda one: (one[2] - one[0]) * (one[3] - one[1])
            meant = min((far(one), area(one), number) for number, one in enumerate(rects, 1))[2]
            bench.holds(places.nearest(rect) == meant, "%s among %d sheets" % (rect, count))


def numbers_hold(bench: Bench) -> None:
    """The directory is as a dictionary, however many updates it has seen, and has few runs."""
    clear()
    os.makedirs("n/numbers")
    chance, folder, runs = random.Random(3), Folder("n"), []
    meant: Dict[int, int] = {}
    for batch in range(1, 40):
        numbers = atlas_numbers.Numbers(folder, runs)
        for _ in range(chance.choice((0, 1, 30, 900))):
            number, sheet = chance.randrange(2000) * (2**64 // 2000), chance.choice((0, 1, 2, 2**32 - 1))
            numbers.put(number, sheet)
            meant[number] = sheet
        atlas_numbers.write_run([], "n/numbers/empty")
        runs = numbers.save(batch, "n/numbers/empty", set())
        again = atlas_numbers.Numbers(folder, runs)
        asked = [*meant, *(chance.randrange(2**64) for _ in range(9))]
        bench.holds(all(again.get(one) == meant.get(one, 0) for one in asked), "the directory after %d updates" % batch)
        bench.holds(len(runs) <= 8, "%d runs after %d updates" % (len(runs), batch))


# ---- all of it


def atlases_hold(bench: Bench) -> None:
    """All of these; the program is the one that is tested."""
    os.environ["MRTREE"] = bench.program_path
    parts = [places_hold, numbers_hold, is_cut_right, is_from_files, shapes_come_beside, is_said, is_damaged]
    parts += [is_made_by_others, bound_holds, beside_scan]
    for part in parts:
        part(bench)
