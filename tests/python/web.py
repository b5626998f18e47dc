"""The client in clients/web beside the one in clients/python and the program: all three say the same of each string.

tests/web calls it: web.py short|long PROGRAM. Strings are proofs and bundles at random, honest and bent, and those of
atlases, which the program does not know.
"""
import itertools
import json
import os
import random
import subprocess
import sys
import tempfile
import time
from typing import List

from bench import TOP, Bench, Ended
import chances
import sheets

ANSWER = os.path.join(TOP, "tests", "javascript", "answer.js")
SIZES = (0, 1, 7, 100, 65536, 2**30)  # bytes of the pieces in which the client gets a file; 0: as it reads it
SHORT, LONG = (400, 2100), (2200, 25000)  # honest proofs, and other strings


class Three(Bench):
    """Runs the program and both clients: where the one in Python is asked, the one in JavaScript is asked too."""

    def __init__(self, program: str, is_long: bool) -> None:
        super().__init__(program, is_long, "tests/web")
        self.chance, self.asked = random.Random(39), 0
        pipe = subprocess.PIPE
        self.node = subprocess.Popen(["node", os.path.abspath(ANSWER)], stdin=pipe, stdout=pipe, text=True)

    def in_javascript(self, words: List[str]) -> Ended:
        """What the client in JavaScript says."""
        self.node.stdin.write(json.dumps([words, self.chance.choice(SIZES)]) + "\n")
        self.node.stdin.flush()
        status, text = json.loads(self.node.stdout.readline())
        return status, text.encode()

    def client(self, words: List[str]) -> Ended:
        """What the client in Python says; the one in JavaScript says the same."""
        one, other = super().client(words), self.in_javascript(words)
        self.asked += 1
        self.holds(one == other, "%s: in Python %s, in JavaScript %s" % (" ".join(words), one, other))
        return one

    def ask_in_javascript(self, words: List[str]) -> Ended:
        """What the asker in JavaScript says."""
        return self.in_javascript(["ask", *words])

    def end(self) -> None:
        """Ends the process of the client in JavaScript: it reads to the end of its input, and has not failed."""
        self.node.stdin.close()
        self.holds(self.node.wait() == 0, "the client in JavaScript ended with a failure")


def random_proofs(bench: Three) -> None:
    """Maps of up to 20,000 records, of each size one of each version; honest proofs, other strings, bundles.

    Of the largest maps there are a tenth as many.
    """
    sizes = [0, 1, 5, 17, 100, 300, 700, 2000, 5000, 20000] if bench.is_long else [0, 1, 17, 300, 2000]
    honest, bent = LONG if bench.is_long else SHORT
    chance = random.Random(1639)
    for at, (size, version) in enumerate(itertools.product(sizes, (1, 2))):
        one = chances.Map(bench, chance, size, is_changed=at // 2 % 4 == 3, version=version)
        share = 2 * len(sizes) * (10 if size > 5000 else 1)
        asked = [one.query() for _ in range(honest // share)]
        given = [(query, chances.proved(bench, one, query)) for query in asked]
        chances.bent_agree(bench, one, given, bent // share)
        chances.bundles_agree(bench, one, given, honest // share // 8)
        chances.counts_agree(bench, one, honest // share // 4, bent // share // 4)
        counts = size, version, bench.rows, bench.failed
        print("tests/web: %d records in version %d: %d rows, %d failed" % counts, flush=True)
    chances.joins_agree(bench, chance, 60 if bench.is_long else 4)
    counts = bench.honest, bench.counts, bench.joins, bench.bent, bench.bundles
    print("tests/web: %d honest proofs, %d counts, %d joins, %d other strings, %d bundles" % counts)
    bench.holds(bench.honest + bench.bent >= (20000 if bench.is_long else 2000), "too few strings")


def main(how: str, program: str) -> int:
    """Runs the rows in a folder of its own; answers the exit status."""
    room, began, top = "/dev/shm" if os.access("/dev/shm", os.W_OK) else None, time.monotonic(), os.getcwd()
    program = os.path.abspath(program)
    with tempfile.TemporaryDirectory(dir=room) as folder:
        os.chdir(folder)
        bench = Three(program, how == "long")
        random_proofs(bench)
        sheets.sheets_hold(bench, (30, 400), 7)
        bench.end()
        os.chdir(top)
    seconds = time.monotonic() - began
    print("tests/web: three beside one another: %d rows, %d failed, %.1f s" % (bench.rows, bench.failed, seconds))
    return 1 if bench.failed else 0


if __name__ == "__main__":
    sys.exit(main(*sys.argv[1:]))
