"""How long runs take: where the plain way of a search takes minutes, all end within seconds; and the largest inputs."""
import functools
import resource
import subprocess
from typing import Any, Callable, Iterator, List, Tuple

from bench import Bench, Ended, write
from jobs import clear
from joins import Frame, frame_bytes
from memory import ALL, COUNTED, ON_ALL
from proofs import head, item, plain

SECONDS = 20  # of processor time; the slowest of the runs takes less than two
PATIENCE = 300  # seconds of it on the largest inputs
LINES = 200000  # of the text whose numbers fall
PLACES = 2**17  # records of each map that is joined
MOST = 2**20  # records of a map
QUERIES = 2**16  # of a script
ACROSS, UP = 7919, 104729  # each makes of the numbers from 0 on all those below PLACES, in another order

Rect = Tuple[int, int, int, int]


def timed(bench: Bench, words: List[str], most: int) -> Tuple[Ended, float]:
    """How a run ends and what it prints, and its seconds; behind so many of processor time it is stopped."""
    limit = functools.partial(resource.setrlimit, resource.RLIMIT_CPU, (most, most + 1))
    began, pipe = resource.getrusage(resource.RUSAGE_CHILDREN), subprocess.PIPE
    ran = subprocess.run([bench.program_path, *words], stdout=pipe, stderr=subprocess.STDOUT, preexec_fn=limit)
    ended = resource.getrusage(resource.RUSAGE_CHILDREN)
    return (ran.returncode, ran.stdout), ended.ru_utime + ended.ru_stime - began.ru_utime - began.ru_stime


class Slowest:
    """Has runs done, each within the limit, and knows how long the slowest took."""

    def __init__(self, bench: Bench, most: int = SECONDS) -> None:
        self.bench, self.most, self.seconds = bench, most, 0.0

    def done(self, what: str, words: List[str], lines: int = 1) -> bytes:
        """What is printed by a run that does all and prints so many lines, each ended."""
        (status, said), seconds = timed(self.bench, words, self.most)
        self.seconds = max(self.seconds, seconds)
        is_so = status == 0 and said.count(b"\n") == lines
        told = what, " ".join(words)[:60], seconds, self.most, status, said[:80]
        self.bench.holds(is_so, "%s: %s: %.1f s of at most %d; status %d and %s" % told)
        return said


def texts(slowest: Slowest) -> None:
    """Of a text whose numbers fall, each number is looked up among those before it."""
    for command, layer in (("root", ""), ("root2", "0 ")):
        lines = ("%d 0 0 0 0 %s-\n" % (number, layer) for number in range(LINES, 0, -1))
        write("r", "".join(lines).encode())
        slowest.done("a text whose numbers fall", [command, "r"])


def lying(number: int) -> Rect:
    """A rectangle across the map, at a height of its own."""
    return 0, 2 * (number * UP % PLACES), PLACES, 2 * (number * UP % PLACES)


def beside(number: int) -> Rect:
    """A point on one of those, for every other number; or between two of them."""
    x, y = number * ACROSS % PLACES, 2 * (number * UP % PLACES) + number % 2
    return x, y, x, y


def turned(place: Callable[[int], Rect]) -> Callable[[int], Rect]:
    """The same with the axes changed."""
    return lambda number: tuple(place(number)[axis] for axis in (1, 0, 3, 2))


def build(bench: Bench, name: str, place: Callable[[int], Rect]) -> None:
    """Makes a map of records at such places."""
    lines = ("%d %d %d %d %d 0 -\n" % (number + 1, *place(number)) for number in range(PLACES))
    write("r", "".join(lines).encode())
    bench.program(["build2", name, "r"])


def strewn(place: Callable[[int], Rect]) -> plain.Node:
    """A tree of records at such places, each of whose nodes has some from all over the map, in any order."""
    nodes: List[Any] = [plain.Record(number + 1, place(number), b"") for number in range(PLACES)]
    most, is_leaf = 16, True
    while len(nodes) > 1:
        nodes = [plain.Node(is_leaf, nodes[at : at + most]) for at in range(0, len(nodes), most)]
        most, is_leaf = 64, False
    return nodes[0]


def opened(tree: plain.Node) -> bytes:
    """The part of a join's proof that opens all nodes of a tree."""
    return head(2, b"J", 0, PLACES, level=tree.level()) + item(tree, 2, lambda node: True)


def joins(slowest: Slowest) -> None:
    """Of two maps, whatever of the one lies beside the other at once, or has been passed or is to come."""
    for way, change in (("lie", lambda place: place), ("stand", turned)):
        what = "rectangles that %s, and points" % way
        for name, place in (("m", lying), ("k", beside)):
            build(slowest.bench, name, change(place))
        slowest.done(what, ["join", "m", "k", "p"])
        slowest.done(what, ["audit-join", "m", "k", "p"], PLACES // 2 + 1)
        trees = [strewn(change(place)) for place in (lying, beside)]
        parts = [(tree, plain.root(tree, 0, 2), opened(tree)) for tree in trees]
        for (_, root, first), (other, other_root, second) in (parts, parts[::-1]):
            write("p", frame_bytes(Frame(other.rect, first, second)))
            slowest.done(what + ", in any order", ["check-join", root, other_root, "p"], PLACES // 2)


def limited(bench: Bench, seed: int) -> None:
    """No run takes more seconds than the limit, where one that asks all for each takes minutes."""
    slowest = Slowest(bench)
    for part in (texts, joins):
        part(slowest)
        clear()
    print("tests/hostile: the slowest of these runs took %.1f s of at most %d" % (slowest.seconds, SECONDS))


# ---- the largest inputs

# A command line each, and how many lines it prints. $m stands for the root digest of the map m. The maps m and n have
# as many records as there may be, of either version, and k has one that many of them meet; so the first part of the
# join is as large as it may be, and the second one the other way round.
LARGEST = (
    ("root r", 1),
    ("build m r", 1),
    ("list m", MOST),
    ("upgrade m o", 1),
    ("prove m %s p" % ALL, 1),
    ("check $m %s p" % ALL, MOST),
    ("audit m %s p" % ALL, MOST + 1),
    ("root2 t", 1),
    ("build2 n t", 1),
    ("list n", MOST),
    ("upgrade n o", 1),
    ("prove n %s%s p" % (ALL, ON_ALL), 1),
    ("check $n %s%s p" % (ALL, ON_ALL), MOST),
    ("audit n %s%s p" % (ALL, ON_ALL), MOST + 1),
    ("count n %s p" % COUNTED, 1),
    ("check-count $n %s p" % COUNTED, 1),
    ("audit-count n %s p" % COUNTED, 2),
    ("build2 k zone", 1),
    ("join n k p", 1),
    ("check-join $n $k p", MOST),
    ("audit-join n k p", MOST + 1),
    ("join k n p", 1),
    ("check-join $k $n p", MOST),
    ("audit-join k n p", MOST + 1),
    ("build s few", 1),
    ("serve s q u", 1),
    ("check-all $s q u", 17 * QUERIES + 1),
    ("apply m b o", 1),
    ("apply-here m b", 1),
    ("recover m", 1),
    ("apply n c o", 1),
    ("apply-here n c", 1),
    ("recover n", 1),
    ("make %d 1 o" % MOST, 1),
)


def lay_out_largest() -> None:
    """Texts of as many records as there may be, on all layers; batches that change most leaves; a script."""
    points = ["%d %d %d %d %d" % (number, x, y, x, y) for number, x, y in places(MOST)]
    write("r", "".join("%s -\n" % point for point in points).encode())
    write("t", "".join("%s %d -\n" % (point, at % 64) for at, point in enumerate(points)).encode())
    write("few", "".join("%s -\n" % point for point in points[:16]).encode())
    write("zone", b"7 0 0 %d %d 63 -\n" % (MOST, MOST))
    write("q", (ALL + "\n").encode() * QUERIES)
    gone = b"".join(b"- %d\n" % number for number in range(1, MOST, 40))
    come = ["+ %d %d %d %d %d" % (MOST + number, x, y, x, y) for number, x, y in places(MOST // 40)]
    write("b", b"batch 1\n" + gone + "".join("%s -\n" % line for line in come).encode())
    write("c", b"batch 1\n" + gone + "".join("%s 63 -\n" % line for line in come).encode())


def places(count: int) -> Iterator[Tuple[int, int, int]]:
    """So many numbers from 1 on, each with a point of its own."""
    return ((number + 1, number * ACROSS % MOST, number * UP % MOST) for number in range(count))


def largest(bench: Bench, seed: int) -> None:
    """Each command does its work on the largest input that it may have, in the long run alone."""
    if not bench.is_long:
        return
    lay_out_largest()
    slowest, roots = Slowest(bench, PATIENCE), {}
    for line, lines in LARGEST:
        words = [roots[word[1:]] if word.startswith("$") else word for word in line.split(" ")]
        said = slowest.done("the largest input", words, lines)
        if words[0] in ("build", "build2"):
            roots[words[1]] = said.decode().strip()
    print("tests/hostile: the slowest run on the largest inputs took %.1f s" % slowest.seconds)
    clear()
