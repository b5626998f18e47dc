"""Files that nobody means well with, refusals and stops: the built program beside docs/FORMATS.md.

tests/hostile calls it: hostile.py short|long SEED PROGRAM.
"""
import itertools
import os
import random
import re
import subprocess
import sys
import tempfile
import time
from typing import Any, Callable, Dict, List, Optional, Tuple

from bench import Bench, Ended, read, write
import bends
import broken
import calls
import crashes
import foretold
import here
import instructions
import joins
import memory
import proofs
import said
import stops
import times
import together
from proofs import plain

PATIENCE = 60  # seconds of a run on a small file, after which it hangs


def ran(bench: Bench, words: List[str]) -> Ended:
    """What the program says, or that it hangs."""
    try:
        call, pipe = [bench.program_path, *words], subprocess.PIPE
        run = subprocess.run(call, stdout=pipe, stderr=subprocess.STDOUT, timeout=PATIENCE)
    except subprocess.TimeoutExpired:
        return -1, b"it hangs"
    return run.returncode, run.stdout


# ---- one command line over some files


class Case:
    """A command line, its files, and the name of the one that it makes, if it makes any.

    Of a map file also the rule that it is to break, if that is known.
    """

    def __init__(self, words: List[str], files: Dict[str, bytes], made: str = "", rule: str = "") -> None:
        self.words, self.files, self.made, self.rule = words, files, made, rule


def is_made(case: Case, meant: Optional[bytes], before: Optional[bytes]) -> bool:
    """Whether the file that a command makes is what it is to be; a map after a batch may be of another layout."""
    if not case.made:
        return True
    if meant is None:
        return (read(case.made) if os.path.exists(case.made) else None) == before
    made = read(case.made)
    if case.words[0] != "apply" or made == meant:
        return made == meant
    try:
        return foretold.laid_out(made) == meant
    except said.Told:
        return False


def judge(bench: Bench, case: Case, what: str) -> Ended:
    """The program says, twice, what is to be said, makes what is to be made and leaves all else. Answers what."""
    for name in os.listdir("."):
        os.remove(name)
    for name, bytes_ in case.files.items():
        write(name, bytes_)
    before = case.files.get(case.made)
    meant = said.say(case.words, case.files)
    for turn in ("first", "second"):
        one = ran(bench, case.words)
        if meant.ended[0] == 6:
            bench.holds(False, "%s: two strings of one SHA-256, or a fault: %s" % (what, one))
        where = "%s: %s, the %s time" % (what, " ".join(case.words), turn)
        told = (where, one[0], one[1][:200], meant.ended[0], meant.ended[1][:200])
        bench.holds(one == meant.ended, "%s: status %d and %s, and meant are %d and %s" % told)
        is_right = is_made(case, meant.made, before)
        bench.holds(is_right, "%s: the file %s is another than is meant" % (where, case.made))
        if one != meant.ended or not is_right:
            keep(bench, case)
            break
    for name, bytes_ in case.files.items():
        bench.holds(name == case.made or read(name) == bytes_, "%s: the file %s is another" % (what, name))
    others = set(os.listdir(".")) - set(case.files) - {case.made}
    bench.holds(not others, "%s: the files %s are made besides" % (what, sorted(others)))
    is_so = not case.rule or rule_of(meant.ended) == case.rule
    bench.holds(is_so, "%s: meant is %s, and the file was made to break %s" % (what, meant.ended, case.rule))
    return meant.ended


def rule_of(ended: Ended) -> str:
    """The rule of a map file that is told, or none."""
    told = re.match(rb"bad map page [0-9]+ ([A-Z][a-z]+)", ended[1])
    return told[1].decode() if told and ended[0] == 4 else ""


def keep(bench: Bench, case: Case) -> None:
    """Keeps the files of a case that failed where somebody can look at them."""
    if bench.failed > 5:
        return
    folder = tempfile.mkdtemp(prefix="mrtree-hostile-")
    for name, bytes_ in case.files.items():
        write(os.path.join(folder, name), bytes_)
    print("  its files are in " + folder)


# ---- what is tried, by kind of file


def maybe(chance: random.Random, files: Dict[str, bytes], name: str) -> Dict[str, bytes]:
    """The files, one time in thirty without this one."""
    if chance.random() < 1 / 30:
        files = {other: bytes_ for other, bytes_ in files.items() if other != name}
    return files


def texts(chance: random.Random) -> Case:
    """Record texts of either version, for `root` and for `build`, over an older map or none."""
    version = chance.choice((1, 1, 2))
    text = bends.record_text(bends.records(chance, 300, version), version)
    way, end = chance.random(), "2" if version == (2 if chance.random() < 0.95 else 1) else ""
    text = bends.bent_text(text, chance) if way < 0.8 else bends.some_bytes(chance, 2000) if way < 0.85 else text
    files = maybe(chance, {"r": text}, "r")
    if chance.random() < 0.5:
        return Case(["root" + end, "r"], files)
    old = {"m": bends.some_bytes(chance, 9000)} if chance.random() < 0.5 else {}
    return Case(["build" + end, "m", "r"], {**files, **old}, "m")


def honest_map(chance: random.Random, given: List[plain.Record], version: int = 1) -> bytes:
    """A map file without a fault."""
    return bends.Layout(chance, version).file(plain.pack(given), 0, chance.choice((0, 2)))


def batches(chance: random.Random) -> Case:
    """Batches, most of them bent and some of the other version, on maps of either version without a fault."""
    version = chance.choice((1, 1, 2))
    given = bends.records(chance, 200, version)
    text = bends.batch_text(chance, given, 0, version if chance.random() < 0.95 else 3 - version)
    way = chance.random()
    text = bends.bent_text(text, chance) if way < 0.5 else bends.some_bytes(chance, 500) if way < 0.55 else text
    files = maybe(chance, {"m": honest_map(chance, given, version), "b": text}, chance.choice("mb"))
    old = {"n": bends.some_bytes(chance, 9000)} if chance.random() < 0.3 else {}
    return Case(["apply", "m", "b", "n"], {**files, **old}, "n")


def maps(chance: random.Random) -> Case:
    """Map files of either version, honest in any layout and bent, for each command that reads one."""
    version = chance.choice((1, 1, 2))
    given = bends.records(chance, chance.choice((40, 400, 1500)), version)
    bytes_, held = bends.map_file(chance, given, version)
    if chance.random() < 0.05:
        bytes_ = bends.some_bytes(chance, 3 * said.FIRST)
    return over(bytes_, chance, given, held, "", version)


# The commands that read a map file m; and those that do not change it where it breaks a rule.
OVER = (
    *("list m", "upgrade m n", "prove m QUERY p", "audit m QUERY p", "apply m b n", "serve m s u"),
    *("count m QUERY p", "audit-count m QUERY p", "join m k p", "join k m p", "audit-join m k p", "audit-join k m p"),
)
OVER_BROKEN = (*OVER, "apply-here m b")


def over(
    bytes_: bytes, chance: random.Random, given: List[plain.Record], held: int, rule: str = "", version: int = 1
) -> Case:
    """A command that reads this map file, which was made of these records at this batch in this version."""
    words = chance.choice(OVER_BROKEN if rule else OVER).split(" ")
    made, others = foretold.made_of(words), bends.records(chance, 40, 2)
    word, string = offered(chance, words, given, held, version, others, bool(rule))
    inputs: Dict[str, Callable[[], bytes]] = {
        "m": lambda: bytes_,
        "k": lambda: honest_map(chance, others, 2),
        # `apply-here` reads its batch before the map, in the version that the file says
        "b": lambda: bends.batch_text(chance, given, held, said.version_of(bytes_) if rule else version),
        "s": lambda: bends.script_text(chance, version),
        "p": lambda: string,
    }
    files = {name: inputs[name]() for name in words[1:] if name in inputs and name != made}
    if made and chance.random() < 0.3:
        files[made] = bends.some_bytes(chance, 9000)
    return Case([word if one == "QUERY" else one for one in words], files, made, rule)


def offered(
    chance: random.Random,
    words: List[str],
    given: List[plain.Record],
    held: int,
    version: int,
    others: List[plain.Record],
    is_right: bool,
) -> Tuple[str, bytes]:
    """The word of a query for a command, and a string that it is offered as a proof on a map of these records."""
    if "count" in words[0]:
        return count_of(chance, given, held, is_right)[1:]
    if words[0] == "audit-join":
        maps = [(plain.pack(given), held), (plain.pack(others), 0)]
        return "", join_of(chance, *(maps if words[1] == "m" else maps[::-1]))
    word = proofs.word_of(bends.query(chance, version if chance.random() < 0.7 else 2))
    return word, proof_of(chance, given, held, version)[2] if words[0] == "audit" else b""


def proof_of(
    chance: random.Random, given: List[plain.Record], batch: int, version: int
) -> Tuple[str, plain.Query, bytes]:
    """A root digest, a query, and a string that is offered as its proof, honest or not."""
    tree, query = plain.pack(given), bends.query(chance, version)
    proof = proofs.honest(tree, batch, query, version)
    way = chance.random()
    if way < 0.5:
        string = proofs.bent(proof, proofs.honest(tree, batch, bends.query(chance, version), version), chance)
    elif way < 0.6:
        string = bends.some_bytes(chance, 400)
    elif way < 0.7:
        string = bends.bent_bytes(proof, chance)
    else:
        string = proof
    other = bends.query(chance, chance.choice((1, 2)))
    return plain.root(tree, batch, version), other if chance.random() < 0.1 else query, string


def proofs_(chance: random.Random) -> Case:
    """Proofs, for `check`, and for `audit` beside their map."""
    version = chance.choice((1, 2))
    given = bends.records(chance, chance.choice((40, 400)), version)
    root, query, string = proof_of(chance, given, 0, version)
    if chance.random() < 0.6:
        return Case(["check", root, proofs.word_of(query), "p"], maybe(chance, {"p": string}, "p"))
    files = {"m": honest_map(chance, given, version), "p": string}
    return Case(["audit", "m", proofs.word_of(query), "p"], maybe(chance, files, "p"))


def counted(chance: random.Random, given: List[plain.Record], is_right: bool = False) -> str:
    """A window's word, for a count: any, or one from a record's side to another's.

    Where it need not be right, now and then it is no window's.
    """
    query = bends.query(chance, 2)
    while not query.is_window() and (is_right or chance.random() < 0.95):
        query = bends.query(chance, 2)
    if given and chance.random() < 0.6:
        one, other = (chance.choice(given).rect for _ in range(2))
        xs, ys = sorted((one[chance.choice((0, 2))], other[2])), sorted((one[chance.choice((1, 3))], other[3]))
        query = plain.Query((xs[0], ys[0], xs[1], ys[1]), query.mask)
    return proofs.word_of(query)


def count_of(
    chance: random.Random, given: List[plain.Record], batch: int, is_right: bool = False
) -> Tuple[str, str, bytes]:
    """A root digest in version 2, a window's word, and a string that is offered as its count proof, honest or not."""
    tree, word, other = plain.pack(given), counted(chance, given, is_right), counted(chance, given, is_right)
    whole = lambda one: said.read_query(one.encode()) if one.startswith("window:") else plain.Query((0, 0, 9, 9))
    proof, way = proofs.honest_count(tree, batch, whole(word)), chance.random()
    if way < 0.5:
        string = proofs.bent(proof, proofs.honest_count(tree, batch, whole(other)), chance)
    elif way < 0.6:
        string = bends.some_bytes(chance, 400)
    elif way < 0.7:
        string = bends.bent_bytes(proof, chance)
    elif way < 0.75:
        string = proofs.honest(tree, batch, whole(word), 2)
    else:
        string = proof
    return plain.root(tree, batch, 2), other if chance.random() < 0.1 else word, string


def counts(chance: random.Random) -> Case:
    """Count proofs, for `check-count`, for `audit-count` beside their map, and for `check`; and `count` of a map."""
    given = bends.records(chance, chance.choice((40, 400)), 2)
    root, word, string = count_of(chance, given, 0)
    way = chance.random()
    if way < 0.6:
        command = "check" if chance.random() < 0.05 else "check-count"
        return Case([command, root, word, "p"], maybe(chance, {"p": string}, "p"))
    version = 2 if chance.random() < 0.9 else 1
    given = given if version == 2 else [one._replace(layer=0) for one in given]
    files = {"m": honest_map(chance, given, version), "p": string}
    if way < 0.85:
        return Case(["audit-count", "m", word, "p"], maybe(chance, files, chance.choice("mp")))
    return Case(["count", "m", word, "p"], maybe(chance, files, "m"), "p")


def join_of(chance: random.Random, one: Tuple[Any, int], other: Tuple[Any, int]) -> bytes:
    """A string that is offered as the proof of the join of two maps, each by its tree and batch, honest or not."""
    proof, way = joins.honest_join(*one, *other), chance.random()
    if way < 0.5:
        return joins.bent(proof, joins.honest_join(*other, *one), chance)
    if way < 0.6:
        return bends.some_bytes(chance, 400)
    if way < 0.7:
        return bends.bent_bytes(proof, chance)
    return proofs.honest(*one, bends.query(chance, 2), 2) if way < 0.75 else proof


def join_proofs(chance: random.Random) -> Case:
    """Proofs of joins, for `check-join`, for `audit-join` beside their maps; and `join` of maps of either version."""
    given = [bends.records(chance, chance.choice((40, 200)), 2) for _ in "mk"]
    trees = [(plain.pack(one), 0) for one in given]
    string, way = join_of(chance, *trees), chance.random()
    if way < 0.5:
        roots = [plain.root(*tree, 2) for tree in trees]
        roots = roots[::-1] if chance.random() < 0.1 else roots
        return Case(["check-join", *roots, "p"], maybe(chance, {"p": string}, "p"))
    files = {"p": string}
    for name, one in zip("mk", given):
        version = 2 if chance.random() < 0.95 else 1
        one = one if version == 2 else [record._replace(layer=0) for record in one]
        files[name] = honest_map(chance, one, version)
    if way < 0.8:
        return Case(["audit-join", "m", "k", "p"], maybe(chance, files, chance.choice("mkp")))
    return Case(["join", "m", "k", "p"], maybe(chance, files, chance.choice("mk")), "p")


def scripts(chance: random.Random) -> Case:
    """Scripts, for `serve` and for `check-all`."""
    version = chance.choice((1, 2))
    given, text = bends.records(chance, 200, version), bends.script_text(chance, version)
    text = bends.bent_text(text, chance) if chance.random() < 0.7 else text
    if chance.random() < 0.7:
        return Case(["serve", "m", "s", "u"], maybe(chance, {"m": honest_map(chance, given, version), "s": text}, "s"), "u")
    root, bytes_ = plain.root(plain.pack(given), 0, version), bends.some_bytes(chance, 300)
    return Case(["check-all", root, "s", "u"], {"s": text, "u": bytes_})


def bundles(chance: random.Random) -> Case:
    """Bundles for `check-all`; in some of them a proof is of the other version than the root is."""
    version = chance.choice((1, 2))
    tree = plain.pack(bends.records(chance, 200, version))
    queries = [bends.query(chance, version) for _ in range(chance.choice((0, 1, 2, 6)))]
    of = lambda query: 3 - version if query.mask is None and chance.random() < 0.05 else version
    bytes_ = bends.bundle(chance, [proofs.honest(tree, 0, query, of(query)) for query in queries])
    text = "".join(proofs.word_of(query) + "\n" for query in queries).encode()
    root = plain.root(tree, 0, version)
    return Case(["check-all", root, "s", "u"], maybe(chance, {"s": text, "u": bytes_}, "u"))


KINDS: List[Tuple[str, Callable[[random.Random], Case], int]] = [
    ("record texts", texts, 5),
    ("batches", batches, 4),
    ("maps", maps, 8),
    ("proofs", proofs_, 5),
    ("count proofs", counts, 5),
    ("join proofs", join_proofs, 4),
    ("scripts", scripts, 3),
    ("bundles", bundles, 3),
]


def bent_files(bench: Bench, seed: int) -> None:
    """Files of each kind; a case is made again by its number and the seed alone."""
    ended: Dict[int, int] = {}
    for kind, make, share in KINDS:
        for number in range(share * (1000 if bench.is_long else 30)):
            case = make(random.Random("%d %s %d" % (seed, kind, number)))
            status, _ = judge(bench, case, "%s %d of the seed %d" % (kind, number, seed))
            ended[status] = ended.get(status, 0) + 1
    told = ", ".join("%d with %d" % (ended[status], status) for status in sorted(ended))
    print("tests/hostile: runs by status: " + told)
    bench.holds({0, 2, 3, 4, 5, 7, 10} <= set(ended), "some status did not come: " + told)


def broken_maps(bench: Bench, seed: int) -> None:
    """Map files that break each rule, of each level and with free pages: laid out anew, and as `apply` left them."""
    left, told = broken.all_left(bench, seed), {}
    for number in range(40 if bench.is_long else 1):
        for version, source in itertools.product((1, 2), ("laid out", "left by apply")):
            for rule, level in broken.ALL if version == 1 else broken.SECOND:
                what = "%d: a map of version %d, level %d, %s, that breaks %s" % (number, version, level, source, rule)
                chance = random.Random("%d %s" % (seed, what))
                whole = left[version, level] if source == "left by apply" else broken.laid_out(level, version, chance)
                bytes_ = broken.broken(whole, rule, chance)
                case = over(bytes_, chance, [], 0, rule, version)
                ended = version, rule_of(judge(bench, case, "%s, of the seed %d" % (what, seed))), level
                told[ended] = told.get(ended, 0) + 1
    for version, all_ in ((1, broken.ALL), (2, broken.SECOND)):
        for level in broken.LEVELS:
            rules = [(rule, told.get((version, rule, level), 0)) for rule, other in all_ if other == level]
            counts = version, level, ", ".join("%s %d" % one for one in rules)
            print("tests/hostile: rules that were told of maps of version %d and level %d: %s" % counts)
            bench.holds(all(count for _, count in rules), "some rule did not come")


def main(how: str, seed: int, program: str) -> int:
    """Runs the parts in a folder of its own; answers the exit status."""
    bench = Bench(program, how == "long", "tests/hostile")
    print("tests/hostile: the seed is %d" % seed)
    parts: List[Tuple[str, Callable[[Bench, int], None]]] = [
        ("random bytes and bent files", bent_files),
        ("map files that break each rule", broken_maps),
        ("runs that are stopped", stops.stopped),
        ("allocations that are refused", memory.refused),
        ("how much memory is taken", memory.bounded),
        ("how long runs take", times.limited),
        ("how many instructions runs take", instructions.bounded),
        ("the largest inputs", times.largest),
        ("calls on files that fail", calls.failing),
        ("journals beside maps", here.files),
        ("updates in place that are cut short", here.in_place),
        ("crashes of updates in place", crashes.crashes),
        ("two runs at once", together.together),
    ]
    room: Optional[str] = "/dev/shm" if os.access("/dev/shm", os.W_OK) else None
    for name, part in parts:
        rows, began = bench.rows, time.monotonic()
        with tempfile.TemporaryDirectory(dir=room) as folder:
            os.chdir(folder)
            part(bench, seed)
            os.chdir("/")
        print("tests/hostile: %s: %d rows, %.1f s" % (name, bench.rows - rows, time.monotonic() - began), flush=True)
    print("tests/hostile: %d rows, %d failed, %d skipped" % (bench.rows, bench.failed, bench.skipped))
    return 1 if bench.failed else 0


if __name__ == "__main__":
    sys.exit(main(sys.argv[1], int(sys.argv[2]), sys.argv[3]))
