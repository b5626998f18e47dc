"""Runs of which one allocation is refused, each in its turn; and how much memory runs take."""
import os
import shutil
import subprocess
import tempfile
from typing import Dict, List, NamedTuple, Optional, Tuple

from bench import HERE, Bench, Ended, read, write
from jobs import Job, Tally, begin, clear, few, is_done_again, jobs, left_of, text_of, wider
from proofs import plain

SOURCE = os.path.join(HERE, "..", "refuse.c")
MOST = 20000  # allocations of a run that are refused in turn
# These do their work in halves, by threads where those can be begun: they can do without the memory of a thread.
IN_HALVES = ("root", "build", "serve", "check-all", "demo")


def library(folder: str) -> Optional[str]:
    """The library that refuses, compiled; None where there is no compiler, or another C library."""
    compiler = shutil.which("cc") or shutil.which("gcc")
    path = os.path.join(folder, "refuse.so")
    words = [compiler or "", "-shared", "-fPIC", "-O1", "-o", path, SOURCE]
    if compiler is None or subprocess.run(words, stderr=subprocess.DEVNULL).returncode != 0:
        return None
    return path


def run(bench: Bench, words: List[str], path: str, number: int, has_rest: bool) -> Tuple[Ended, bool]:
    """What a run says of which this allocation is refused (and all behind it), and whether it came to that one."""
    seen, tell = os.pipe()
    environment = {**os.environ, "LD_PRELOAD": path, "REFUSE": str(number), "REFUSE_TELL": str(tell)}
    if has_rest:
        environment["REFUSE_REST"] = "1"
    call, pipe = [bench.program_path, *words], subprocess.PIPE
    ran = subprocess.run(call, stdout=pipe, stderr=subprocess.STDOUT, env=environment, pass_fds=[tell])
    os.close(tell)
    with os.fdopen(seen, "rb") as told:
        came = told.read() != b""
    return (ran.returncode, ran.stdout), came


def may_do_without(bench: Bench, one: Job, path: str, number: int, has_rest: bool) -> bool:
    """Whether a command may end as a whole run does where this allocation is refused.

    All commands ask for room by guesses at the length of a list, and where that is refused for less: so they end with
    status 8 where all behind it is refused too. Those that work in halves may begin no thread.
    """
    if one.words[0] in IN_HALVES:
        return True
    begin(one, None)
    return not has_rest and run(bench, one.words, path, number, True)[0][0] == 8


def each_refused(bench: Bench, one: Job, path: str, has_rest: bool, tally: Tally) -> int:
    """Refuses each allocation of a job in turn; answers how many there are."""
    for number in range(1, MOST):
        old = b"F" * 5000 if number % 2 else None
        begin(one, old)
        (status, said), came = run(bench, one.words, path, number, has_rest)
        what = "%s, allocation %d%s refused" % (one.words[0], number, " and all behind it" if has_rest else "")
        if not came:
            is_so = (status, said) == (one.status, one.text)
            bench.holds(is_so, "%s: past the last one it ends with %d" % (what, status))
            return number - 1
        left = left_of(bench, one, old)
        tally.add(one, "with status %d, %s" % (status, left))
        is_whole = status == one.status
        is_right = status == 8 or (is_whole and may_do_without(bench, one, path, number, has_rest))
        bench.holds(is_right, "%s: status %d and %s" % (what, status, said[:200]))
        is_so = said == one.text and left in ("whole", "no output") if is_whole else one.text.startswith(said)
        bench.holds(is_so, "%s: status %d, and it says %s" % (what, status, said[:200]))
        bench.holds(not left.startswith("WRONG"), "%s: %s" % (what, left))
        if number % 20 == 1:
            bench.holds(is_done_again(bench, one), "%s does not do all after a refusal" % one.words[0])
    bench.holds(False, "%s: it has more than %d allocations" % (one.words[0], MOST - 1))
    return MOST


def refused(bench: Bench, seed: int) -> None:
    """Each allocation of each command refused, on small inputs; in the long run also with all behind it."""
    with tempfile.TemporaryDirectory() as folder:
        path = library(folder)
        if path is None:
            bench.skip("allocations that are refused, which take a C compiler and the GNU C library")
            return
        counts, tally = [], Tally()
        for one in [*few(bench), *jobs(bench, seed % 2**64, 200 if bench.is_long else 40, 15, 2)]:
            for has_rest in (False, True) if bench.is_long else (False,):
                count = each_refused(bench, one, path, has_rest, tally)
            bench.holds(count > 0, "no allocation of %s is seen" % one.words[0])
            counts.append("%s %d" % (one.words[0], count))
        print("tests/hostile: allocations that were refused in turn: " + ", ".join(counts))
        tally.show()


# ---- how much memory is taken

ALL = "window:-2147483648,-2147483648,2147483647,2147483647"
ON_ALL = "/ffffffffffffffff"  # a mask of all layers
NEAREST = "nearest:0,0,1024/0000000000000001"  # on layer 0 alone
COUNTED = "window:-1500000000,-1500000000,1500000000,1500000000/00000000ffffffff"  # most records, half of the layers
LONG = 16384  # records of 200 bytes of payload, on a map that is proved whole in 3.7 MB
SERVED = 200  # queries, each of which is answered by all of 2,000 records


class Bound(NamedTuple):
    """A command line, how often it may ask for memory, and how many bytes it may hold at once."""

    words: str
    calls: int
    bytes_: int


# $m stands for the root digest of the map m. Each bound is some 7 in a hundred above what was measured; by threads the
# numbers of some commands differ by a few calls from run to run. A record takes some 230 bytes.
BOUNDS = (
    # the records that are made, and their text
    Bound("make 65536 1 e", 31, 21 * 10**6),
    # the tree of 65,536 records, and copies of half of them
    Bound("list m", 5000, 26 * 10**6),
    Bound("list k", 5000, 26 * 10**6),
    # the records, of which the tree takes one after the other; then the tree, and the pages below one child of the root
    Bound("root w", 9100, 21 * 10**6),
    Bound("root2 t", 9000, 21 * 10**6),
    Bound("demo 20000 1", 5500, 11 * 10**6),
    Bound("build e w", 9500, 21 * 10**6),
    Bound("build2 e t", 9500, 21 * 10**6),
    # the tree, and the pages below one child of the root
    Bound("upgrade m n", 5300, 175 * 10**5),
    Bound("upgrade k n", 5300, 175 * 10**5),
    # the nodes that are kept, and what a search holds
    Bound("prove l %s z" % ALL, 2700, 52 * 10**5),
    # the records, and neither the proof nor as many again for a sort; 57 pieces come, none of which asks for memory
    Bound("check $l %s p" % ALL, 40, 45 * 10**5),
    # the records, the nodes and a part of the proof
    Bound("audit l %s p" % ALL, 2800, 99 * 10**5),
    # the proofs, of 13.3 million bytes, each in no more room than it has bytes, and of the bundle a part
    Bound("serve s q u", 2700, 150 * 10**5),
    # each proof is judged once
    Bound("check-all $s q u", 3500, 150 * 10**6),
    # with masks, in version 2: as above
    Bound("prove k %s z" % NEAREST, 7000, 21 * 10**5),
    Bound("check $k %s%s y" % (ALL, ON_ALL), 40, 17 * 10**6),
    Bound("audit k %s%s y" % (ALL, ON_ALL), 9700, 22 * 10**6),
    # on one processor up to 62 million bytes were measured, and on four 50
    Bound("serve k layered v", 5500, 66 * 10**6),
    Bound("check-all $k layered v", 480, 240 * 10**6),
    # the nodes that are kept, and the proof; the proof, and the records that it shows; these, and the nodes
    Bound("count k %s z" % COUNTED, 9500, 37 * 10**5),
    Bound("check-count $k %s z" % COUNTED, 45, 126 * 10**5),
    Bound("audit-count k %s z" % COUNTED, 9800, 137 * 10**5),
    # both trees; the records that the proof shows, in two orders, and the pairs; all of these
    Bound("join k j z", 5300, 50 * 10**6),
    Bound("check-join $k $j z", 170000, 30 * 10**6),
    Bound("audit-join k j z", 180000, 57 * 10**6),
    # the nodes that are kept, and the directory of the records
    Bound("apply m b n", 11200, 51 * 10**5),
    Bound("apply k b n", 11200, 51 * 10**5),
    # the map and the new one, and the directory of its records: less than three times the map's 17,047,552 bytes, and
    # of version 2 twice as much as that
    Bound("apply-here h b", 11200, 40 * 10**6),
    Bound("apply-here g b", 11200, 78 * 10**6),
    # the journal
    Bound("recover o", 29, 8 * 10**5),
    Bound("recover f", 29, 15 * 10**5),
)


def counted(bench: Bench, words: List[str], path: str) -> Tuple[int, int, int]:
    """The status of a run, how often it asks for memory, and the most bytes that it holds at once."""
    seen, tell = os.pipe()
    environment = {**os.environ, "LD_PRELOAD": path, "COUNT_TELL": str(tell)}
    call = [bench.program_path, *words]
    ran = subprocess.run(call, stdout=subprocess.DEVNULL, env=environment, pass_fds=[tell])
    os.close(tell)
    with os.fdopen(seen, "rb") as told:
        calls, most = map(int, told.read().split())
    return ran.returncode, calls, most


def lay_out(bench: Bench) -> Dict[str, str]:
    """Makes what the command lines read, and answers the root digests of the maps by their names.

    These are the maps m and w's and k and t's of 65,536 records, h and g and o and f their copies, j of records that
    meet those of k; l of long records, and s of few; the proofs p and y, a batch, scripts, and open journals.
    """
    clear()
    lines = [plain.line_of(plain.place(number)._replace(payload=b"Z" * 200)) + "\n" for number in range(1, LONG + 1)]
    wide = [one._replace(rect=wider(one.rect)) for one in plain.generated(500, 2)]
    write("long.txt", "".join(lines).encode())
    write("wide.txt", text_of(plain.on_layers(wide), 2))
    write("t", text_of(plain.on_layers(plain.generated(65536, 1)), 2))
    write("q", (ALL + "\n").encode() * SERVED)
    write("layered", ("%s%s\n%s\n" % (ALL, ON_ALL, NEAREST)).encode() * 10)
    write("b", b"batch 1\n" + b"".join(b"- %d\n" % (number * 600 + 1) for number in range(100)))
    roots = {}
    builds = ("build m w", "build2 k t", "build l long.txt", "build s few.txt", "build2 j wide.txt")
    proved = ("prove k %s%s y" % (ALL, ON_ALL), "prove l %s p" % ALL)
    for words in ("make 65536 1 w", "make 2000 1 few.txt", *builds, *proved):
        status, said = bench.program(words.split(" "))
        bench.holds(status == 0, "%s: status %d and %s" % (words, status, said[:200]))
        if words in builds:
            roots[words.split(" ")[1]] = said.decode().strip()
    for map_, copies in (("m", "ho"), ("k", "gf")):
        for name in copies:
            write(name, read(map_))
        # of the second copy the journal is open, and the map as it was
        status, said = bench.program(["apply-here", copies[1], "b"])
        bench.holds(status == 0, "apply-here: status %d and %s" % (status, said[:200]))
        write(copies[1], read(map_))
        write(copies[1] + ".journal", b"O" + read(copies[1] + ".journal")[1:])
    return roots


def bounded(bench: Bench, seed: int) -> None:
    """No command takes more memory than its bound, on maps that are large beside what it may keep of them."""
    with tempfile.TemporaryDirectory() as folder:
        path = library(folder)
        if path is None:
            bench.skip("how much memory runs take, which takes a C compiler and the GNU C library")
            return
        roots = lay_out(bench)
        for bound in BOUNDS:
            words = [roots[word[1:]] if word.startswith("$") else word for word in bound.words.split(" ")]
            status, calls, most = counted(bench, words, path)
            is_so = status == 0 and 0 < calls <= bound.calls and 0 < most <= bound.bytes_
            told = (bound.words, status, calls, most, bound.calls, bound.bytes_)
            bench.holds(is_so, "%s: status %d; memory %d times, %d bytes; meant are %d and %d" % told)
        clear()
