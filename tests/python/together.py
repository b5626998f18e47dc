"""Two runs at one time that change one map: the second one is refused, or comes behind the first."""
import fcntl
import os
import random
import signal
import subprocess
import tempfile
import time
from typing import Dict, List, NamedTuple, Optional, Tuple

from bench import Bench, Ended, read, write
import calls
import here
import journals
from here import JOURNAL, MAP, RECOVER, Left, left

BATCHES = ("b", "c", "d")
Outcome = Tuple[Tuple[Ended, ...], bytes]  # how runs end, and the map that they leave


class Pair(NamedTuple):
    """Two command lines over a map and a journal, and what comes of each order of both, of one of them and of none."""

    what: str
    files: Dict[str, bytes]
    words: Tuple[List[str], List[str]]
    outcomes: Dict[Tuple[int, ...], Outcome]

    def lay_out(self) -> None:
        """Puts the files into the folder, and nothing else."""
        here.clear()
        for name, bytes_ in self.files.items():
            write(name, bytes_)


def pair(bench: Bench, what: str, files: Dict[str, bytes], words: Tuple[List[str], List[str]]) -> Pair:
    """Two command lines, each order of which is tried, one behind the other."""
    made = Pair(what, files, words, {})
    for order in ((), (0,), (1,), (0, 1), (1, 0)):
        made.lay_out()
        ended = tuple(bench.program(words[at]) for at in order)
        made.outcomes[order] = ended, left().map_
    bench.holds(made.outcomes[0, 1] != made.outcomes[1, 0], "%s: the order makes no difference" % what)
    return made


def pairs(bench: Bench, seed: int, version: int) -> List[Pair]:
    """Two batches of one number that differ, one of the next number, and a recovery beside a batch."""
    size = 30000 if bench.is_long else 3000
    one = here.update(bench, seed % 2**62 * 2, size, size // 30, version)
    end = b" 9 -\n" if version == 2 else b" -\n"
    texts = [one.batch]
    for number in (1, 2):
        gone = [b"- %d\n" % at for at in random.Random(seed + number).sample(range(1, size + 1), size // 40)]
        come = [b"+ %d 7 %d 7 %d" % (3 * size + at, at, at) + end for at in range(size // 40)]
        # what the first batch took out cannot be taken out again
        gone = [line for line in gone if number == 1 or line not in one.batch]
        texts.append(b"batch %d\n" % number + b"".join(gone + come))
    batches = dict(zip(BATCHES, texts))
    files = {MAP: one.old, **batches}
    apply = {name: ["apply-here", MAP, name] for name in BATCHES}
    half = here.begun_once(one, version)
    opened = {**files, MAP: half.old, JOURNAL: half.journal}
    return [
        pair(bench, "two batches of one number", files, (apply["b"], apply["c"])),
        pair(bench, "a batch and the next one", files, (apply["b"], apply["d"])),
        pair(bench, "a recovery and a batch", opened, (RECOVER, apply["d"])),
    ]


def begun(bench: Bench, words: List[str]) -> "subprocess.Popen[bytes]":
    """A run that has begun."""
    return subprocess.Popen([bench.program_path, *words], stdout=subprocess.PIPE, stderr=subprocess.STDOUT)


def ended_of(child: "subprocess.Popen[bytes]") -> Ended:
    """How a run ends."""
    text = child.communicate()[0]
    return child.returncode, text


REFUSED = (7, b"shelf fault\n")


def judge(bench: Bench, one: Pair, ended: List[Ended]) -> str:
    """The runs that were not refused came behind one another in some order; `recover` has nothing to do. Says which."""
    done = [at for at in (0, 1) if ended[at] != REFUSED]
    map_, what = left().map_, "%s: statuses %s" % (one.what, [status for status, _ in ended])
    orders = [order for order in one.outcomes if sorted(order) == done]
    meant = [(tuple(ended[at] for at in order), map_) for order in orders]
    is_so = done != [] and any(one.outcomes[order] == told for order, told in zip(orders, meant))
    bench.holds(is_so, "%s, and what is left comes of no order" % what)
    again = bench.program(RECOVER)
    bench.holds(again == (0, b"clean\n") and left().map_ == map_, "%s, and then recover says %s" % (what, again))
    return "one was refused" if len(done) == 1 else "one came behind the other"


def at_once(bench: Bench, one: Pair, chance: random.Random) -> str:
    """Both begin within a moment."""
    one.lay_out()
    children = {}
    first = chance.randrange(2)
    children[first] = begun(bench, one.words[first])
    time.sleep(chance.choice((0, 0, 0.001, 0.005, 0.02)))
    children[1 - first] = begun(bench, one.words[1 - first])
    return judge(bench, one, [ended_of(children[at]) for at in (0, 1)])


def is_locked() -> bool:
    """Whether a run has locked the map, as far as the system tells."""
    node = str(os.stat(MAP).st_ino)
    lines = read("/proc/locks").decode().splitlines()
    return any("FLOCK" in line and node in line.replace(":", " ").split() for line in lines)


def slow(bench: Bench, words: List[str], chance: random.Random) -> "subprocess.Popen[bytes]":
    """A run that has begun and waits a moment before one of its first syncs. Where its tracer stands still, so does it."""
    inject = "inject=fdatasync:delay_enter=300000:when=%d" % chance.randint(1, 4)
    call = ["strace", "-f", "-qq", "-o", os.devnull, "-e", "trace=fdatasync", "-e", inject, bench.program_path, *words]
    return subprocess.Popen(call, stdout=subprocess.PIPE, stderr=subprocess.STDOUT)


def held_up(bench: Bench, one: Pair, first: int, chance: random.Random) -> Optional[str]:
    """One stands still once it has locked its map; then the other is refused, and writes nothing.

    None where it ended before it stood still.
    """
    one.lay_out()
    child = slow(bench, one.words[first], chance)
    while child.poll() is None and not is_locked():
        time.sleep(0.001)
    time.sleep(chance.uniform(0, 0.2))
    child.send_signal(signal.SIGSTOP)
    stopped = child.returncode is None and os.waitid(os.P_PID, child.pid, os.WSTOPPED | os.WEXITED | os.WNOWAIT)
    # of what it had begun it may finish one call
    time.sleep(0.02)
    stands = left()
    if not stopped or stopped.si_code != os.CLD_STOPPED or not is_locked():
        child.send_signal(signal.SIGCONT)
        ended_of(child)
        return None
    other = bench.program(one.words[1 - first])
    bench.holds(other == REFUSED, "%s: beside another run it says %s" % (one.what, other))
    bench.holds(left() == stands, "%s: a run changes what another one has begun" % one.what)
    child.send_signal(signal.SIGCONT)
    ended = {first: ended_of(child), 1 - first: other}
    return judge(bench, one, [ended[0], ended[1]]) + ", held up"


def often_held_up(bench: Bench, one: Pair, often: int, chance: random.Random) -> List[str]:
    """The same so often, by turns of which stands still."""
    told: List[str] = []
    for turn in range(here.MOST * often):
        said = held_up(bench, one, turn % 2, chance)
        told += [said] if said else []
        if len(told) == often:
            break
    bench.holds(len(told) == often, "%s: of %d runs %d stood still" % (one.what, here.MOST * often, len(told)))
    return told


def are_there_locks() -> bool:
    """Whether files can be locked here."""
    with open("lock", "wb") as file:
        try:
            fcntl.flock(file, fcntl.LOCK_EX | fcntl.LOCK_NB)
        except OSError:
            return False
    return True


ROUNDS = 50


def together(bench: Bench, seed: int) -> None:
    """Each pair in each version so often: both are begun at once; and a few times one stands still meanwhile."""
    if not are_there_locks():
        bench.skip("two runs at once, which takes a file system with locks")
        return
    chance = random.Random(seed)
    counts: Dict[str, int] = {}
    with tempfile.TemporaryDirectory() as folder:
        is_there = calls.Tracer(bench, folder).is_there()
    if not is_there:
        bench.skip("a run beside one that stands still, which takes strace")
    for version in (1, 2):
        for one in pairs(bench, seed, version):
            told = [at_once(bench, one, chance) for _ in range(ROUNDS if bench.is_long else 6)]
            told += often_held_up(bench, one, 10 if bench.is_long else 2, chance) if is_there else []
            for what in told:
                counts[what] = counts.get(what, 0) + 1
    print("tests/hostile: two runs at once: " + ", ".join("%d: %s" % (counts[what], what) for what in sorted(counts)))
