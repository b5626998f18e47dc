"""Commands whose runs are cut short, and what may be left of them: all inputs, and of the output what may stand."""
import os
import random
from typing import Dict, Iterable, List, NamedTuple, Optional, Tuple

from bench import Bench, read, write
from proofs import plain, word_of

WINDOW = "window:-1000000,-1000000,200000,200000"
MAKE_MAPS = ("build", "build2", "upgrade", "apply")


class Job(NamedTuple):
    """A command line, its input files, the file that it makes (or ""), and how a whole run ends, prints and makes."""

    words: List[str]
    inputs: Dict[str, bytes]
    made: str
    text: bytes
    whole: bytes
    status: int


def clear() -> None:
    """Takes all files out of the folder."""
    for name in os.listdir("."):
        os.remove(name)


def job(bench: Bench, words: str, inputs: Dict[str, bytes], made: str, meant: int = 0) -> Job:
    """The job of a command line, done once as a whole."""
    clear()
    for name, bytes_ in inputs.items():
        write(name, bytes_)
    status, text = bench.program(words.split(" "))
    bench.holds(status == meant, "%s: a whole run ends with %d: %s" % (words, status, text[:200]))
    return Job(words.split(" "), inputs, made, text, read(made) if made else b"", meant)


def text_of(records: Iterable[plain.Record], version: int = 1) -> bytes:
    """The text of records."""
    return "".join(plain.line_of(record, version) + "\n" for record in records).encode()


def wider(rect: Tuple[int, ...]) -> Tuple[int, ...]:
    """A rectangle with its upper sides moved, so that it meets some others."""
    return (*rect[:2], rect[2] + 100000, rect[3] + 100000)


def jobs(bench: Bench, seed: int, count: int, changes: int, queries: int) -> List[Job]:
    """A job of each command on a generated map of so many records, in each version that it knows."""
    chance = random.Random(seed)
    text = text_of(plain.generated(count, seed))
    gone = [b"- %d\n" % number for number in chance.sample(range(1, count + 1), changes)]
    come = [b"+ %d %d 0 %d 0 -\n" % (count + 1 + i, 1000 * i, 1000 * i) for i in range(changes)]
    batch = b"batch 1\n" + b"".join(gone + come)
    batch2 = batch.replace(b" -\n", b" 9 -\n")
    text2 = text_of(plain.on_layers(plain.generated(count, seed)), 2)
    script = "".join(word_of(query) + "\n" for query in plain.generated_queries(queries, seed)).encode()
    build = job(bench, "build m r", {"r": text}, "m")
    map_, root = build.whole, build.text.decode().strip()
    build2 = job(bench, "build2 m r", {"r": text2}, "m")
    prove = job(bench, "prove m %s p" % WINDOW, {"m": map_}, "p")
    serve = job(bench, "serve m s u", {"m": map_, "s": script}, "u")
    masked = WINDOW + "/00000000000000ff"
    prove2 = job(bench, "prove m %s p" % masked, {"m": build2.whole}, "p")
    counted = job(bench, "count m %s p" % WINDOW, {"m": build2.whole}, "p")
    wide = [record._replace(rect=wider(record.rect)) for record in plain.generated(max(1, count // 4), seed + 1)]
    other = job(bench, "build2 k r", {"r": text_of(plain.on_layers(wide), 2)}, "k")
    both = {"m": build2.whole, "k": other.whole}
    joined = job(bench, "join m k p", both, "p")
    root2 = build2.text.decode().strip()
    roots = root2, other.text.decode().strip()
    script2 = script.replace(b"\n", b"/00000000000000ff\n")
    serve2 = job(bench, "serve m s u", {"m": build2.whole, "s": script2}, "u")
    return [
        build,
        job(bench, "apply m b n", {"m": map_, "b": batch}, "n"),
        prove,
        serve,
        job(bench, "make %d %d r" % (count, seed), {}, "r"),
        job(bench, "root r", {"r": text}, ""),
        job(bench, "list m", {"m": map_}, ""),
        job(bench, "root2 r", {"r": text2}, ""),
        build2,
        job(bench, "upgrade m n", {"m": map_}, "n"),
        job(bench, "upgrade m n", {"m": build2.whole}, "n"),
        job(bench, "apply m b n", {"m": build2.whole, "b": batch2}, "n"),
        serve2,
        job(bench, "serve m s u", {"m": map_, "s": script2}, "", 10),
        prove2,
        job(bench, "prove m %s p" % masked, {"m": map_}, "", 10),
        job(bench, "audit m %s p" % masked, {"m": build2.whole, "p": prove2.whole}, ""),
        job(bench, "list m", {"m": build2.whole}, ""),
        counted,
        job(bench, "count m %s p" % WINDOW, {"m": map_}, "", 10),
        job(bench, "check-count %s %s p" % (root2, WINDOW), {"p": counted.whole}, ""),
        job(bench, "audit-count m %s p" % WINDOW, {"m": build2.whole, "p": counted.whole}, ""),
        joined,
        job(bench, "join m k p", {"m": build2.whole, "k": map_}, "", 10),
        job(bench, "check-join %s %s p" % roots, {"p": joined.whole}, ""),
        job(bench, "audit-join m k p", {**both, "p": joined.whole}, ""),
        job(bench, "audit-join m k p", {"m": map_, "k": other.whole, "p": joined.whole}, "", 10),
        job(bench, "check %s %s p" % (root, WINDOW), {"p": prove.whole}, ""),
        job(bench, "check %s %s p" % (root2, masked), {"p": prove2.whole}, ""),
        job(bench, "audit m %s p" % WINDOW, {"m": map_, "p": prove.whole}, ""),
        job(bench, "check-all %s s u" % root, {"s": script, "u": serve.whole}, ""),
        job(bench, "check-all %s s u" % root2, {"s": script2, "u": serve2.whole}, ""),
        job(bench, "demo %d %d" % (max(1, count // 10), seed), {}, ""),
    ]


def few(bench: Bench) -> List[Job]:
    """The same of very few records; the first four make a file of each kind.

    Two leaves are built, or one, or a leaf is split; a window of two leaves is proved; two queries are answered on one
    record, and checked, also where the second proof is cut off.
    """
    row = [plain.point(number, number, 0) for number in range(1, 18)]
    sixteen = job(bench, "build m r", {"r": text_of(row[:16])}, "m")
    layered = job(bench, "build2 m r", {"r": text_of(plain.on_layers(row[:16]), 2)}, "m")
    seventeen = job(bench, "build m r", {"r": text_of(row)}, "m")
    second = job(bench, "build2 m r", {"r": text_of(plain.on_layers(row), 2)}, "m")
    counted = job(bench, "count m window:0,0,9,0 p", {"m": second.whole}, "p")
    check_count = "check-count %s window:0,0,9,0 p" % second.text.decode().strip()
    zone = job(bench, "build2 k r", {"r": b"30 2 0 3 0 0 -\n"}, "k")
    joined = job(bench, "join m k p", {"m": second.whole, "k": zone.whole}, "p")
    check_join = "check-join %s %s p" % (second.text.decode().strip(), zone.text.decode().strip())
    one = job(bench, "build m r", {"r": b"7 0 0 0 0 -\n"}, "m")
    script = b"window:0,0,0,0\nwindow:1,1,2,2\n"
    serve = job(bench, "serve m s u", {"m": one.whole, "s": script}, "u")
    check = "check-all %s s u" % one.text.decode().strip()
    batch = b"batch 1\n+ 17 100 100 100 100 -\n"
    return [
        seventeen,
        job(bench, "apply m b n", {"m": sixteen.whole, "b": batch}, "n"),
        job(bench, "prove m window:2,0,3,0 p", {"m": seventeen.whole}, "p"),
        serve,
        sixteen,
        job(bench, "prove m window:0,0,0,0 p", {"m": one.whole}, "p"),
        job(bench, check, {"s": script, "u": serve.whole}, ""),
        job(bench, check, {"s": script, "u": serve.whole[:-1]}, "", 2),
        second,
        counted,
        job(bench, check_count, {"p": counted.whole}, ""),
        job(bench, check_count, {"p": counted.whole[:-1]}, "", 2),
        joined,
        job(bench, check_join, {"p": joined.whole}, ""),
        job(bench, check_join, {"p": joined.whole[:-1]}, "", 2),
        job(bench, "upgrade m n", {"m": seventeen.whole}, "n"),
        job(bench, "apply m b n", {"m": layered.whole, "b": batch.replace(b" -", b" 63 -")}, "n"),
    ]


def begin(one: Job, old: Optional[bytes]) -> None:
    """Lays out the inputs, and the file that an older run made, if any."""
    clear()
    for name, bytes_ in one.inputs.items():
        write(name, bytes_)
    if one.made and old is not None:
        write(one.made, old)


def left_of(bench: Bench, one: Job, old: Optional[bytes]) -> str:
    """What is left of the output: absent, as before, whole, a front, or unfinished; or what must not be left."""
    names = {name for name in os.listdir(".")}
    if names - {one.made} != set(one.inputs):
        return "WRONG: other files: %s" % sorted(names)
    if any(read(name) != bytes_ for name, bytes_ in one.inputs.items()):
        return "WRONG: an input is another"
    if not one.made:
        return "no output"
    if one.made not in names:
        return "absent" if old is None else "WRONG: the output is gone"
    left = read(one.made)
    if left == one.whole:
        return "whole"
    if left == old:
        return "as before"
    if one.words[0] not in MAKE_MAPS:
        return "a front" if one.whole.startswith(left) else "WRONG: no front of the whole"
    said = bench.program(["list", one.made])
    is_told = said in ((4, b"bad map page 0 Size\n"), (4, b"bad map page 0 Unsealed\n"))
    return "unfinished" if is_told else "WRONG: `list` says of it %s" % (said,)


def is_done_again(bench: Bench, one: Job) -> bool:
    """Whether the same command line, called again, does all."""
    return bench.program(one.words) == (one.status, one.text) and (not one.made or read(one.made) == one.whole)


class Tally:
    """Counts what was left, by command."""

    def __init__(self) -> None:
        self.counts: Dict[Tuple[str, str], int] = {}

    def add(self, one: Job, left: str) -> None:
        """One more."""
        self.counts[one.words[0], left] = self.counts.get((one.words[0], left), 0) + 1

    def show(self) -> None:
        """Prints a line for each command."""
        for name in dict.fromkeys(name for name, _ in self.counts):
            parts = ["%d %s" % (count, left) for (other, left), count in sorted(self.counts.items()) if other == name]
            print("tests/hostile:   %s: %s" % (name, ", ".join(parts)))
