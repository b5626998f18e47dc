"""How many instructions runs take: what reads, hashes or judges a thing twice takes more than its bound."""
import re
import shutil
import subprocess
from typing import Dict, List, NamedTuple, Optional, Tuple

from bench import Bench, read, write
from jobs import clear, text_of, wider
from memory import ALL, COUNTED, NEAREST, ON_ALL
from proofs import plain

RECORDS = 1000  # of a map, each with 200 bytes of payload: 63 leaves, and what is hashed counts
OUT = "--cachegrind-out-file=/dev/null"
COUNTER = ["valgrind", "--tool=cachegrind", "--cache-sim=no", OUT]


class Bound(NamedTuple):
    """A command line, and how many million instructions it may take."""

    words: str
    millions: float


# $m stands for the root digest of the map m. Each bound is a tenth above what was measured of a program that is built
# without its proof, and that takes some tenth more than a proved one. A leaf that is hashed once more takes 14 million
# for a map. What is hashed, and how lines and records are read, is most of it.
BOUNDS = (
    # each leaf is hashed once, also where its page is written
    Bound("root r", 30.1),
    Bound("build e r", 30.7),
    Bound("build2 e t", 31.4),
    # a map, of which each leaf is hashed once
    Bound("list m", 19.6),
    Bound("list k", 19.9),
    Bound("prove m %s e" % ALL, 19.1),
    Bound("prove k %s%s e" % (ALL, ON_ALL), 19.3),
    Bound("count k %s e" % COUNTED, 19.3),
    # the map, and the one of the other version
    Bound("upgrade m e", 32.8),
    # the maps, and the proofs that are made of them
    Bound("join k j e", 43.7),
    Bound("serve m s e", 22.8),
    Bound("serve k x e", 24.2),
    # proofs, of which each leaf is hashed once
    Bound("check $m %s p" % ALL, 20.4),
    Bound("check $k %s%s y" % (ALL, ON_ALL), 20.6),
    Bound("check-count $k %s c" % COUNTED, 16.8),
    Bound("check-join $k $j i", 28.6),
    Bound("check-all $m s u", 44.3),
    Bound("check-all $k x v", 50.4),
    # the same, and the map
    Bound("audit m %s p" % ALL, 37.4),
    Bound("audit-count k %s c" % COUNTED, 33.6),
    Bound("audit-join k j i", 73.5),
    # the map, and the new one
    Bound("apply m b e", 46.3),
    Bound("apply-here h b", 48.0),
    Bound("apply-here g b", 53.5),
    # short records, whose fields are most of the work
    Bound("root w", 24.3),
    Bound("build e w", 27.2),
    Bound("list l", 20.1),
    Bound("check $l %s q" % ALL, 22.0),
    Bound("audit l %s q" % ALL, 39.1),
)


def counted(bench: Bench, words: List[str]) -> Tuple[int, Optional[int]]:
    """The status of a run, and how many instructions it takes."""
    pipe = subprocess.PIPE
    ran = subprocess.run([*COUNTER, bench.program_path, *words], stdout=subprocess.DEVNULL, stderr=pipe)
    told = re.search(rb"I +refs: +([0-9,]+)", ran.stderr)
    return ran.returncode, int(told[1].replace(b",", b"")) if told else None


def long(records: List[plain.Record]) -> List[plain.Record]:
    """The records with as many bytes of payload as there may be."""
    return [one._replace(payload=bytes([one.number % 256]) * 200) for one in records]


def lay_out(bench: Bench) -> Dict[str, str]:
    """Makes what the command lines read, and answers the root digests of the maps by their names.

    These are the texts r and t, the maps m and k of them, h and g and o and f their copies, j of records that meet
    those of k, and l of the short records w; the proofs p, y, c, i and q, a batch, scripts, bundles, and open journals.
    """
    clear()
    records = long(plain.generated(RECORDS, 1))
    wide = [one._replace(rect=wider(one.rect)) for one in long(plain.generated(RECORDS // 4, 2))]
    write("r", text_of(records))
    write("t", text_of(plain.on_layers(records), 2))
    write("wide", text_of(plain.on_layers(wide), 2))
    write("s", ("%s\n%s%s\n" % (ALL, NEAREST[:11], ",3")).encode() * 2)
    write("x", ("%s%s\n%s\n" % (ALL, ON_ALL, NEAREST)).encode() * 2)
    write("b", b"batch 1\n" + b"".join(b"- %d\n" % (number * 20 + 1) for number in range(40)))
    roots = {}
    builds = ("build m r", "build2 k t", "build2 j wide", "build l w")
    made = ("prove m %s p" % ALL, "prove k %s%s y" % (ALL, ON_ALL), "count k %s c" % COUNTED, "prove l %s q" % ALL)
    for words in ("make %d 3 w" % (4 * RECORDS), *builds, *made, "join k j i", "serve m s u", "serve k x v"):
        status, said = bench.program(words.split(" "))
        bench.holds(status == 0, "%s: status %d and %s" % (words, status, said[:200]))
        if words in builds:
            roots[words.split(" ")[1]] = said.decode().strip()
    for map_, copies in (("m", "ho"), ("k", "gf")):
        for name in copies:
            write(name, read(map_))
        # of the second copy the journal is open, and the map as it was
        status, said = bench.program(["apply-here", copies[1], "b"])
        bench.holds(status == 0, "apply-here: status %d and %s" % (status, said[:200]))
        write(copies[1], read(map_))
        write(copies[1] + ".journal", b"O" + read(copies[1] + ".journal")[1:])
    return roots


def bounded(bench: Bench, seed: int) -> None:
    """No command takes more instructions than its bound, on maps of which a leaf is long."""
    if shutil.which(COUNTER[0]) is None:
        bench.skip("how many instructions runs take, which takes valgrind")
        return
    roots, most = lay_out(bench), 0.0
    for bound in BOUNDS:
        words = [roots[word[1:]] if word.startswith("$") else word for word in bound.words.split(" ")]
        status, count = counted(bench, words)
        share = (count or 0) / bound.millions / 10**6
        most = max(most, share)
        is_so = status == 0 and 0 < share <= 1
        told = bound.words, status, share * bound.millions, bound.millions
        bench.holds(is_so, "%s: status %d; %.1f million instructions, and at most %.1f are meant" % told)
    print("tests/hostile: the instructions of these runs are at most %.2f of their bounds" % most)
    clear()
