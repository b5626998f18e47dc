"""A map asked by its pages: the proofs beside those of the program, files that are bent, and what the script says."""
import contextlib
import hashlib
import itertools
import os
import pty
import random
import re
import struct
import subprocess
import sys
import tempfile
from typing import Iterator, List, NamedTuple, Optional, Tuple

from bench import CLIENTS, EXAMPLES, Bench, read, write
import bends
import broken
import chances
import layout
import mrtree_ask
import mrtree_check
import pagewise
import proofs
import ranges
import records
import vectors

ALL = "window:-2147483648,-2147483648,2147483647,2147483647"
SEEN = ("Size", "Unsealed", "Header", "Outside", "Page", "Digest")  # the rules of pages that a reader by pages tells
Told = Tuple[int, str]  # a status and a text


class InMemory:
    """A map file in memory, by ranges, of which what is asked for is counted."""

    def __init__(self, bytes_: bytes, limits: ranges.Limits = ranges.Limits()) -> None:
        self.bytes_, self.name, self.meter = bytes_, "m", ranges.Meter(limits)

    def many(self, places: List[ranges.Place]) -> Iterator[Tuple[int, bytes]]:
        """The bytes of each range, the last one first: the order in which they come is open."""
        self.meter.spend(len(places), sum(end - start for start, end in places), self.name)
        self.meter.trips += 1
        for at in reversed(range(len(places))):
            start, end = places[at]
            yield at, self.bytes_[start:end]


class Question(NamedTuple):
    """What is asked of a map: a command of the program that proves it, and a query word."""

    command: str
    word: str

    def proof(self, far: pagewise.FarMap) -> bytes:
        """The proof that the pages give."""
        query = mrtree_check.read_query(self.word)
        return far.count_proof(query) if self.command == "count" else far.proof(query)


def root_of(bytes_: bytes) -> bytes:
    """The root digest that page 0 of a map file gives."""
    try:
        pagewise.read_page_0(bytes_, bytes(32))
    except pagewise.MapRefused as fault:
        return fault.found or bytes(32)
    raise AssertionError("a root digest of zeros")


def questions(chance: random.Random, one: chances.Map) -> Question:
    """What may be asked of a map at random: in version 2 a count too."""
    if one.version == 2 and chance.random() < 0.3:
        return Question("count", proofs.word_of(one.counted()))
    return Question("prove", proofs.word_of(one.query()))


# ---- proofs beside the program


SIZES = (0, 1, 2, 16, 17, 40, 300, 700, 1500, 5000, 20000)
IN_SHORT = (0, 1, 17, 300, 1500)  # in both versions, built and after a batch; and one larger map


def honest_proofs(bench: Bench) -> None:
    """Proofs on maps at random are those of the program, byte for byte, however the file is laid out."""
    chance, before = random.Random(64), bench.rows
    made = list(itertools.product(SIZES if bench.is_long else IN_SHORT, (1, 2), (False, True)))
    for size, version, is_changed in made * 4 if bench.is_long else [*made, (20000, 2, True)]:
        one = chances.Map(bench, chance, size, is_changed, version)
        each_proof(bench, chance, one, 24 if bench.is_long else 4)
    joins_hold(bench, chance)
    print("tests/clients: %d rows of proofs by pages" % (bench.rows - before))


def freed_pages(bench: Bench) -> None:
    """The same on maps with free pages, as `apply` leaves them and in layouts at random."""
    chance = random.Random(68)
    for (version, level), left in broken.all_left(bench, 66).items():
        files = [left, *(broken.laid_out(level, version, chance) for _ in range(10 if bench.is_long else 2))]
        for at, bytes_ in enumerate(files):
            write("map", bytes_)
            words = [proofs.word_of(bends.query(chance, version)) for _ in range(8 if bench.is_long else 3)]
            asked = [Question("prove", word) for word in [ALL, *words]] + [Question("count", ALL)] * (version - 1)
            for question in asked:
                where = "file %d of version %d and level %d with free pages" % (at, version, level)
                bench.holds(beside_program(bench, bytes_, question, where), where)


def each_proof(bench: Bench, chance: random.Random, one: chances.Map, count: int) -> None:
    """Some proofs on a map, of nodes that are kept or fetched anew, and of the map laid out by levels."""
    layout.lay_out("m", "l")
    bench.holds(bench.program(["list", "l"]) == bench.program(["list", "m"]), "a map that is laid out by levels")
    root, files = bytes.fromhex(one.root), {name: read(name) for name in ("m", "l")}
    kept = {name: pagewise.FarMap(root, InMemory(bytes_)) for name, bytes_ in files.items()}
    nodes = len(files["l"]) // pagewise.PAGE[one.version]
    asked = [questions(chance, one) for _ in range(count)]
    for question in [*asked, Question("prove", ALL)][: None if one.batch or bench.is_long else -1]:
        name = chance.choice("ml")
        bench.program([question.command, "m", question.word, "p"])
        is_fresh = chance.random() < 0.5
        far = pagewise.FarMap(root, InMemory(files[name])) if is_fresh else kept[name]
        where = "%s of %d records of version %d in %s" % (question, len(one.records), one.version, name)
        bench.holds(question.proof(far) == read("p"), "the proof by pages of %s" % where)
        meter = far.source.meter
        bench.holds(not is_fresh or meter.requests <= nodes, "%s: %d requests" % (where, meter.requests))
    words = ["check-count"] * (asked[0].command == "count") + [one.root, asked[0].word, "m", "--proof", "q"]
    said = mrtree_ask.run(words)
    bench.program([asked[0].command, "m", asked[0].word, "p"])
    check = "check-count" if asked[0].command == "count" else "check"
    bench.holds((said[0], said[1].encode()) == bench.client([check, one.root, asked[0].word, "p"]), "%s" % words)
    bench.holds(read("q") == read("p"), "the proof that is kept of %s" % words)


def joins_hold(bench: Bench, chance: random.Random) -> None:
    """Proofs of joins are those of the program."""
    for sizes, is_changed in itertools.product((*chances.JOINED, (1300, 900)), (False, True)):
        for _ in range(10 if bench.is_long else 1):
            made = chances.joined(bench, chance, sizes, is_changed)
            words = ["check-join", made.one.root, made.other.root, "k", "m", "--proof", "q"]
            said = mrtree_ask.run(words)
            bench.holds((said[0], said[1].encode()) == bench.client(made.words("p")), "%s" % words)
            bench.holds(read("q") == made.proof, "the proof of a join by pages")


def vector_maps(bench: Bench) -> None:
    """On each map file of the vectors: the proof of the program, or where it refuses one a proof that `check` takes."""
    seen, honest = set(), 0
    words = [ALL, "window:0,0,5,5", "nearest:3,3,2", "nearest:-9,4,1024", "window:0,0,9,9/0000000000000001"]
    for vector in vectors.lines_of("vectors.tsv"):
        for one, spelled in [*vector.before, *vector.after]:
            bytes_ = vectors.bytes_of(spelled, ".")
            write(one, bytes_)
            if bytes_[:4] != b"MRMP" or hashlib.sha256(bytes_).digest() in seen:
                continue
            seen.add(hashlib.sha256(bytes_).digest())
            write("map", bytes_)
            for question in [Question("prove", word) for word in words] + [Question("count", ALL)]:
                honest += beside_program(bench, bytes_, question, "vectors.tsv line %d" % vector.line)
    bench.holds(len(seen) > 50 and honest > 50, "%d maps of the vectors, and %d proofs" % (len(seen), honest))


def beside_program(bench: Bench, bytes_: bytes, question: Question, where: str) -> bool:
    """A question on the map file `map`: what comes, beside what the program says. Answers whether it gave a proof."""
    status, text = bench.program([question.command, "map", question.word, "p"])
    proof, said = outcome(bench, root_of(bytes_), question, InMemory(bytes_), where)
    if status == 0:
        bench.holds(proof == read("p"), "%s: %s, and by pages %s" % (where, question, said))
    elif status == 10:
        bench.holds(said == (10, "needs version 2"), "%s: %s: by pages %s" % (where, question, said))
    return proof is not None


def outcome(
    bench: Bench, root: bytes, question: Question, source: InMemory, where: str
) -> Tuple[Optional[bytes], Told]:
    """The proof that pages give, if they give one that `check` takes; status and text where they do not."""
    try:
        proof = question.proof(pagewise.FarMap(root, source))
        query = mrtree_check.read_query(question.word)
        (mrtree_check.judge_count if question.command == "count" else mrtree_check.judge)(root, query, [proof])
        return proof, (0, "")
    except mrtree_check.Refused as fault:
        return None, (2, str(fault))
    except mrtree_check.Ended as ended:
        return None, (ended.status, ended.line)
    except Exception as fault:  # whatever is not one of these is a fault of the scripts
        bench.holds(False, "%s: %s: %r" % (where, question, fault))
        return None, (70, repr(fault))


# ---- files that are bent


def rules_hold(bench: Bench) -> None:
    """Of files made to break one rule that is the rule that is told, with its page, if it is one that can be seen."""
    chance, left = random.Random(65), broken.all_left(bench, 66)
    told = {rule: 0 for rule in SEEN}
    for version, (rule, level) in [*((1, one) for one in broken.ALL), *((2, one) for one in broken.SECOND)]:
        for _ in range(20 if bench.is_long else 1):
            whole = left[version, level] if chance.random() < 0.5 else broken.laid_out(level, version, chance)
            bytes_ = broken.broken(whole, rule, chance)
            write("map", bytes_)
            meant = bench.program(["list", "map"])[1].decode()
            where = "a map of version %d, level %d with a broken %s: %s" % (version, level, rule, meant.strip())
            proof, said = outcome(bench, root_of(bytes_), Question("prove", ALL), InMemory(bytes_), where)
            bench.holds(proof is not None or said[0] == 2, "%s: %s" % (where, said))
            found = re.match(r"refused map page ([0-9]+) (\w+)", said[1])
            if found and rule not in ("Size", "Header"):
                # a page that is named twice does not fit the second entry: of that the program says no more
                is_so = meant.startswith("bad map page %s %s" % (found[1], rule if rule == "Twice" else found[2]))
                bench.holds(is_so, "%s: %s" % (where, said))
            is_seen = rule in ("Unsealed", "Outside", "Page", "Digest")
            bench.holds(found is not None or not is_seen, "%s: by pages %s" % (where, said))
            if found:
                told[found[2]] = told.get(found[2], 0) + 1
    bench.holds(all(told.values()), "the rules that were told: %s" % told)


def bent_files(bench: Bench) -> None:
    """Of files that are bent by the thousand come the honest proof or a refusal, and no more requests than nodes."""
    chance, counts = random.Random(67), {"honest": 0, "refused": 0, "failed": 0}
    for round_ in range(40 if bench.is_long else 6):
        version, size = 1 + round_ % 2, chance.choice((3, 17, 60, 400, 1300))
        one = chances.Map(bench, chance, size, round_ % 3 == 0, version)
        honest, root = read("m"), bytes.fromhex(one.root)
        layout.lay_out("m", "l")
        nodes = len(read("l")) // pagewise.PAGE[version]
        other = chances.Map(bench, chance, size, False, version)
        asked = [questions(chance, one) for _ in range(5)] + [Question("prove", ALL)]
        meant = [question.proof(pagewise.FarMap(root, InMemory(honest))) for question in asked]
        for number in range(500 if bench.is_long else 300):
            bytes_ = bent(chance, honest, read("m"))
            at = chance.randrange(len(asked))
            source = InMemory(bytes_, ranges.Limits(requests=nodes, bytes=3 * 8192 * nodes + pagewise.FIRST))
            proof, said = outcome(bench, root, asked[at], source, "bent file %d of map %d" % (number, round_))
            counts["honest" if said[0] == 0 else "refused" if said[0] == 2 else "failed"] += 1
            is_so = proof == meant[at] if said[0] == 0 else re.match(r"refused map page \d+ [A-Z]\w+", said[1])
            bench.holds(bool(is_so), "bent file %d of map %d: %s gives %s" % (number, round_, asked[at], said))
        bench.holds(other.version == version, "the other map")
    bench.holds(counts["failed"] == 0 and counts["refused"] > 300 and counts["honest"] > 100, "bent files: %s" % counts)
    print("tests/clients: bent map files: " + ", ".join("%d %s" % (count, name) for name, count in counts.items()))


def bent(chance: random.Random, bytes_: bytes, other: bytes) -> bytes:
    """A map file that is bent: a bit, a cut, bytes, pages exchanged or moved, numbers of pages, or another map's."""
    way, page = chance.randrange(8), pagewise.PAGE[2 if bytes_[4] == 2 else 1]
    some, at = bytearray(bytes_), chance.randrange(len(bytes_))
    if way == 0:
        some[at] ^= 1 << chance.randrange(8)
    elif way == 1:
        del some[at:]
    elif way == 2:
        some[at : at + 40] = b"\xff" * len(some[at : at + 40])
    elif way == 3:
        place = chance.randrange(len(bytes_) // page) * page
        some[place : place + page] = other[place : place + page].ljust(page, b"\0")
    elif way == 4:
        return other if chance.random() < 0.1 else some[:page] + other[page:]
    elif way == 5:
        return circled(chance, bytes_)
    elif way == 6:  # the bytes that mean something stand in front of a page
        place = chance.randrange(len(bytes_) // page) * page + chance.randrange(120)
        some[place] ^= 1 << chance.randrange(8)
    else:
        return bends.bent_pages(bytes_, chance)
    return bytes(some)


def circled(chance: random.Random, bytes_: bytes) -> bytes:
    """A map file of which an inner page has children that all point at one page, the root's or another."""
    version = 2 if bytes_[4] == 2 else 1
    page, some = pagewise.PAGE[version], bytearray(bytes_)
    inner = [at for at in range(page, len(some), page) if some[at : at + 1] == b"N"]
    if inner:
        at, other = chance.choice(inner), struct.pack(">I", chance.randrange(len(some) // page))
        target = chance.choice((bytes_[26:30], other))
        for entry in range(some[at + 2]):
            place = at + 3 + layout.ENTRY[version] * entry
            some[place : place + 4] = target
    return bytes(some)


# ---- trees of their owners' own


def owners_hold(bench: Bench) -> None:
    """A tree with one node at many places, under its owner's own root, is refused before it is without bounds."""
    for version, aside in itertools.product((1, 2), (0, 1, 63)):
        bytes_ = repeating(version, aside)
        root = root_of(bytes_)
        words = [("prove", word) for word in ("window:0,0,1,1", "nearest:0,0,9", "window:9,9,9,9")]
        for command, word in words + [("count", ALL)] * (version - 1):
            source = InMemory(bytes_, ranges.Limits(requests=9, bytes=10**6))
            where = "a node 64 times on each level, %d of them aside, of version %d" % (aside, version)
            _, said = outcome(bench, root, Question(command, word), source, where)
            is_pruned = command == "count" or aside == 0 and word == "window:9,9,9,9"  # all of it, by its entry
            bench.holds(said == (0, "") if is_pruned else said[0] == 2, "%s: %s: %s" % (where, word, said))


def repeating(version: int, aside: int) -> bytes:
    """A map file of eight nodes, of which each but the leaf has the next one 64 times; some of them lie aside."""
    size, mask = pagewise.PAGE[version], struct.pack(">QQ", 1, 1) * (version - 1)
    node = b"L\1" + mrtree_check.record_bytes(mrtree_check.Record(1, (0, 0, 0, 0), b""), version)
    pages, digest = [node], hashlib.sha256(node).digest()
    for level in range(1, 8):
        rects = [struct.pack(">4i", *[9 * (number >= 64 - aside)] * 4) for number in range(64)]
        front = bytes([ord("N"), level, 64])
        pages.append(front + b"".join(struct.pack(">I", level) + rect + mask + digest for rect in rects))
        digest = hashlib.sha256(front + b"".join(rect + mask + digest for rect in rects)).digest()
    around = struct.pack(">4i", 0, 0, *[9 * (aside > 0)] * 2)
    head = b"MRMP" + bytes([version, 7]) + struct.pack(">QQII", 0, 1, 9, 8) + around + mask[:8] + digest
    return b"".join([head.ljust(size - 4, b"\0") + b"SEAL", *(page.ljust(size, b"\0") for page in pages)])


# ---- what the script says


def vectors_by_pages(bench: Bench) -> None:
    """The script says what each line of pages.tsv says."""
    count = 0
    for vector in vectors.lines_of("pages.tsv"):
        for name, spelled in vector.before:
            write(name, vectors.bytes_of(spelled, "."))
        said, meant = mrtree_ask.run(vector.words), (vector.status, vector.text.decode())
        bench.holds(said == meant, "pages.tsv line %d: %s" % (vector.line, said))
        for name, spelled in vector.after:
            bench.holds(read(name) == vectors.bytes_of(spelled, "."), "pages.tsv line %d: %s" % (vector.line, name))
        count += 1
        if count % 7 == 0:
            says = bench.told if vector.status == 7 else bench.script
            told = b"mrtree_ask.py: " * (vector.status == 7) + vector.text
            said = says("mrtree_ask.py", vector.words)
            bench.holds(said == (vector.status, told), "pages.tsv line %d: the script says %s" % (vector.line, said))
    bench.holds(count >= 30, "pages.tsv has %d lines" % count)


ROOT = "b136e9ea66645cc4c87feaf0addfecbc0d52bd619bc06f05e004ff35cbfaff04"
WINDOW = "window:133700000,525100000,133800000,525200000"
BAD_WORDS = [
    [],
    [ROOT, WINDOW],
    [ROOT, WINDOW, "m", "n"],
    [ROOT, WINDOW, ""],
    ["check-join", ROOT, ROOT, "m"],
    ["check-join", ROOT, ROOT, "m", "atlas/"],
    ["check-all", ROOT, WINDOW, "m"],
    ["check-count", ROOT, "nearest:0,0,1", "m"],
    [ROOT.upper(), WINDOW, "m"],
    [ROOT, "window:1,0,0,0", "m"],
    [ROOT, WINDOW, "m", "--proof"],
    [ROOT, WINDOW, "m", "--proof", "m"],
    [ROOT, WINDOW, "m", "--proof", "./m"],
    [ROOT, WINDOW, "m", "--proof", "p", "--proof", "q"],
    [ROOT, WINDOW, "m", "--most", "-1"],
    [ROOT, WINDOW, "m", "--most", "1e9"],
    [ROOT, WINDOW, "m", "--seconds", "0.5"],
    [ROOT, WINDOW, "m", "--gap", "1"],
    [ROOT, WINDOW, "ftp://example.org/m"],
    [ROOT, WINDOW, "file:///m"],
    [ROOT, WINDOW, "http:///m"],
    [ROOT, WINDOW, "http://a:b@example.org/m"],
    [ROOT, WINDOW, "http://example.org:port/m"],
    [ROOT, WINDOW, "http://example.org:70000/m"],
    [ROOT, WINDOW, "http://example.org/a b"],
    [ROOT, WINDOW, "http://example.org/\u00e4"],
    [ROOT, WINDOW, "http://[::1/m"],
]
OTHER_MAP = b"records.py: the file is of another map than the one with this root digest, or of another state of it\n"
LIMITED = [
    (["--requests", "0"], "failed MostRequests m: more than 0 requests"),
    (["--most", "16383"], "failed MostBytes m: more than 16383 bytes"),
    (["--seconds", "0"], "failed MostSeconds m: more than 0 seconds"),
]


def words_hold(bench: Bench) -> None:
    """Words that spell no command, limits, and files that are not there or may not be written."""
    bench.program(["build", "m", os.path.join(EXAMPLES, "places.txt")])
    for words in BAD_WORDS:
        bench.holds(mrtree_ask.run(words) == (1, "bad words\n"), "%s: %s" % (words, mrtree_ask.run(words)))
    for limit, text in LIMITED:
        for words in ([ROOT, WINDOW, "m", *limit], [*limit, "check", ROOT, WINDOW, "m"]):
            said = mrtree_ask.run(words)
            bench.holds(said == (7, text + "\n"), "%s: %s" % (words, said))
    bench.holds(mrtree_ask.run([ROOT, WINDOW, "m", "--requests", "1", "--most", "16384"])[0] == 0, "what is needed")
    os.mkdir("folder")
    for words, part in (
        ([ROOT, WINDOW, "none"], "failed NoFile none: missing"),
        ([ROOT, WINDOW, "folder"], "failed NoFile folder/sheets/%s: missing" % ROOT),
        ([ROOT, WINDOW, "m", "--proof", "folder/none/p"], "failed NoFile folder/none/p: "),
        ([ROOT, WINDOW, "m", "--proof", "folder"], "failed NoFile folder: "),
        ([ROOT, WINDOW, "/dev/null"], "failed NoFile /dev/null: "),
    ):
        said = mrtree_ask.run(words)
        bench.holds(said[0] == 7 and said[1].startswith(part), "%s: %s" % (words, said))
        ended = bench.told("mrtree_ask.py", words)
        meant = b"mrtree_ask.py: " + said[1].encode()
        bench.holds(ended == (7, meant) and bench.script("mrtree_ask.py", words) == (7, b""), "%s: %s" % (words, ended))
    write("p", b"old")
    said = mrtree_ask.run(["0" * 64, WINDOW, "m", "--proof", "p"])
    bench.holds(said == (2, "refused map page 0 WrongRoot found %s\n" % ROOT) and read("p") == b"old", "%s" % (said,))
    said = in_terminal(["check-count", ROOT, "nearest:0,0,1", "m"])
    bench.holds(b"bad words" in said and b"mrtree_ask.py: a count is of the records inside" in said, "%s" % said)
    for words in (["-h"], ["--help"], ["--help", ROOT]):
        status, told = bench.script("mrtree_ask.py", words)
        bench.holds(status == 0 and b"\nusage: mrtree_ask.py [OPTIONS] " in told, "%s: %s" % (words, told[:100]))


def in_terminal(words: List[str]) -> bytes:
    """What the script says in a terminal."""
    main_, side = pty.openpty()
    call = [sys.executable, os.path.join(CLIENTS, "mrtree_ask.py"), *words]
    subprocess.run(call, stdin=subprocess.DEVNULL, stdout=side, stderr=side)
    os.close(side)
    told = b""
    with contextlib.suppress(OSError):
        while True:
            told += os.read(main_, 1000)
    os.close(main_)
    return told


def module_holds(bench: Bench) -> None:
    """The module's calls, and `answer` of records.py on a map file."""
    bench.program(["build", "m", os.path.join(EXAMPLES, "places.txt")])
    with open(os.path.join(EXAMPLES, "places-window.proof"), "rb") as file:
        meant = mrtree_check.check(ROOT, WINDOW, file.read())
    bench.holds(mrtree_ask.ask(ROOT, WINDOW, "m") == meant, "the module's answer")
    bench.program(["upgrade", "m", "n"])
    root2 = root_of(read("n")).hex()
    bench.holds(mrtree_ask.ask_count(root2, ALL, "n").inside == meant.count, "the module's count")
    bench.holds(len(mrtree_ask.ask_join(root2, root2, "n", "n").pairs) >= meant.count, "the module's join")
    for part, roots in (("first", ("0" * 64, root2)), ("second", (root2, "0" * 64))):
        said = mrtree_ask.run(["check-join", *roots, "n", "n"])
        bench.holds(said == (2, "refused %s map page 0 WrongRoot found %s\n" % (part, root2)), "%s" % (said,))
    named = ["--unit", "1e-7", "--payload", "name"]
    proof = os.path.join(EXAMPLES, "places-window.proof")
    both = ((proof, "a"), ("m", "b"))
    told = [bench.call(records, ["answer", ROOT, WINDOW, source, out, *named]) for source, out in both]
    bench.holds(told[0] == told[1] and told[0][0] == 0 and read("a") == read("b"), "records.py answer: %s" % told)
    for words, meant_ in (
        (["0" * 64, WINDOW, "m"], (2, b"records.py: refused map page 0 WrongRoot found %s\n" % ROOT.encode() + OTHER_MAP)),
        ([ROOT, WINDOW + "/%016x" % 1, "m"], (10, b"records.py: needs version 2\n")),
        ([ROOT, WINDOW, "ftp://example.org/m"], (1, b"records.py: an address begins with http:// or https://\n")),
        ([ROOT, WINDOW, "m", "--most", "100"], (7, b"records.py: failed MostBytes m: more than 100 bytes\n")),
    ):
        said = bench.call(records, ["answer", *words[:3], "c", *words[3:], *named])
        bench.holds(said == meant_ and not os.path.exists("c"), "records.py answer %s: %s" % (words, said))


def layouts_hold(bench: Bench) -> None:
    """What layout.py says, and that it leaves what it cannot do."""
    bench.program(["build", "m", os.path.join(EXAMPLES, "places.txt")])
    for words, meant in (
        (["m", "l"], (0, b"layout.py: 2 pages\n")),
        (["m"], (1, b"layout.py: usage: layout.py OLD NEW\n")),
        (["m", "m"], (1, b"layout.py: m is to be written, and it is read too: give the output another name\n")),
        ([os.path.join(EXAMPLES, "places.txt"), "n"], (1, None)),
        (["none", "n"], (7, b"layout.py: none: No such file or directory\n")),
    ):
        said = bench.call(layout, words)
        bench.holds(said[0] == meant[0] and meant[1] in (None, said[1]), "layout.py %s: %s" % (words, said))
    bench.holds(read("l") == read("m") and not os.path.exists("n"), "what layout.py writes")
    write("cut", read("m")[:4096])
    said = bench.call(layout, ["cut", "n"])
    bench.holds(said == (1, b"layout.py: cut: it has no page 1\n") and not os.path.exists("n"), "%s" % (said,))


def asks_hold(bench: Bench) -> None:
    """All of it, but for servers."""
    parts = honest_proofs, freed_pages, vector_maps, rules_hold, bent_files, owners_hold, vectors_by_pages, words_hold
    for part in (*parts, module_holds, layouts_hold):
        with tempfile.TemporaryDirectory(dir=".") as folder:
            os.chdir(folder)
            part(bench)
            os.chdir("..")
