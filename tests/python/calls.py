"""Runs of which one call of the system on a file fails, or which are stopped there, each call in its turn."""
import os
import re
import shutil
import subprocess
import tempfile
from typing import Dict, List, Set

from bench import Bench, Ended, read
from jobs import Job, Tally, begin, few, is_done_again, jobs, left_of

# Calls that give up a file are not looked at by the program: what they say comes too late.
UNSEEN = {"close"}
FAULTS = {"write": ("EIO", "ENOSPC"), "openat": ("EIO", "EMFILE", "EACCES"), "ftruncate": ("EIO", "EFBIG")}


class Tracer:
    """strace on the files of a job alone, the one that it prints to and the folder included."""

    def __init__(self, bench: Bench, folder: str) -> None:
        self.program, self.folder = bench.program_path, folder
        self.printed, self.traced = os.path.join(folder, "printed"), os.path.join(folder, "traced")

    def run(self, one: Job, inject: str = "") -> Ended:
        """What a run says, with this done to it."""
        names = [*one.inputs, one.made] if one.made else [*one.inputs]
        words = ["strace", "-f", "-qq", "-o", self.traced, "-P", self.printed, "-P", "."]
        for name in names:
            # by the path of what is open, and by the name in a call
            words += ["-P", os.path.join(os.getcwd(), name), "-P", name]
        words += ["-e", "inject=" + inject] if inject else []
        with open(self.printed, "wb") as out:
            ran = subprocess.run([*words, self.program, *one.words], stdout=out, stderr=subprocess.DEVNULL)
        return ran.returncode, read(self.printed)

    def is_there(self) -> bool:
        """Whether there is a tracer that may trace and fail calls."""
        if shutil.which("strace") is None:
            return False
        words = ["strace", "-f", "-qq", "-o", self.traced, "-e", "inject=write:error=EIO:when=1", "true"]
        return subprocess.run(words, stderr=subprocess.DEVNULL).returncode == 0

    def counts(self, one: Job) -> Dict[str, int]:
        """How often a run makes each call on its files."""
        self.run(one)
        counts: Dict[str, int] = {}
        for name in re.findall(r"^\d+ +([a-z_0-9]+)\(", read(self.traced).decode("latin-1"), re.M):
            counts[name] = counts.get(name, 0) + 1
        return counts

    def folders(self) -> Set[int]:
        """Which calls of `openat` in the run before open the folder, so that it can be synced."""
        opens = re.findall(r"^\d+ +openat\((.*)", read(self.traced).decode("latin-1"), re.M)
        return {number for number, words in enumerate(opens, 1) if words.startswith('AT_FDCWD, ".",')}


def places(count: int, most: int) -> List[int]:
    """Which of so many calls are tried: all; or this many at most, the first and the last ones and some between."""
    if count <= most:
        return list(range(1, count + 1))
    ends = [1, count, 2, count - 1][: max(2, min(4, most - 2))]
    between = most - len(ends)
    return sorted({*ends, *(1 + (count - 1) * place // (between + 1) for place in range(1, between + 1))})


def is_told(one: Job, call: str, ended: Ended) -> bool:
    """Whether status and text are those after a call that failed: of the shelf, or of the output."""
    status, said = ended
    return status == 7 and (said == b"shelf fault\n" or (call == "write" and one.text.startswith(said)))


def fail(bench: Bench, tracer: Tracer, one: Job, call: str, number: int, fault: str, tally: Tally) -> None:
    """Has one call of a run fail."""
    old = b"F" * 5000 if number % 2 else None
    begin(one, old)
    ended = tracer.run(one, "%s:error=%s:when=%d" % (call, fault, number))
    left = left_of(bench, one, old)
    tally.add(one, "with status %d, %s" % (ended[0], left))
    what = "%s, call %d of %s fails with %s" % (one.words[0], number, call, fault)
    bench.holds(is_told(one, call, ended), "%s: status %d and %s" % (what, ended[0], ended[1][:200]))
    bench.holds(not left.startswith("WRONG"), "%s: %s" % (what, left))


def is_passed_over(call: str, fault: str, number: int, folders: Set[int]) -> bool:
    """Whether a run goes on where this call fails so: a folder may be written and not read, and then is not synced."""
    return call == "openat" and fault == "EACCES" and number in folders


def pass_over(bench: Bench, tracer: Tracer, one: Job, number: int) -> None:
    """Has a run not read its folder, by this call of `openat`."""
    begin(one, None)
    ended = tracer.run(one, "openat:error=EACCES:when=%d" % number)
    left = left_of(bench, one, None)
    what = "%s, in a folder that may not be read" % one.words[0]
    bench.holds(ended == (one.status, one.text), "%s: status %d and %s" % (what, ended[0], ended[1][:200]))
    bench.holds(left == "whole", "%s: %s" % (what, left))


def stop(bench: Bench, tracer: Tracer, one: Job, call: str, number: int, tally: Tally) -> None:
    """Stops a run at one of its calls."""
    old = b"F" * 5000 if number % 2 else None
    begin(one, old)
    status, said = tracer.run(one, "%s:signal=KILL:when=%d" % (call, number))
    left = left_of(bench, one, old)
    tally.add(one, "stopped, %s" % left)
    what = "%s, stopped at call %d of %s" % (one.words[0], number, call)
    bench.holds(status != 0 and one.text.startswith(said), "%s: status %d and %s" % (what, status, said[:200]))
    bench.holds(not left.startswith("WRONG"), "%s: %s" % (what, left))
    bench.holds(is_done_again(bench, one), "%s, and called again it does not do all" % what)


def failing(bench: Bench, seed: int) -> None:
    """Each call of each command on its files; in the short run some of each kind."""
    with tempfile.TemporaryDirectory() as folder:
        tracer = Tracer(bench, folder)
        if not tracer.is_there():
            bench.skip("calls that fail, which take strace and leave to trace")
            return
        fails, stops = Tally(), Tally()
        least, count = few(bench), 200 if bench.is_long else 40
        for one in (least if bench.is_long else least[:4]) + jobs(bench, seed % 2**64, count, 15, 2):
            begin(one, b"old")
            counts, folders = tracer.counts(one), tracer.folders()
            bench.holds(counts != {}, "%s: no call is seen" % one.words[0])
            bench.holds(len(folders) == (one.made != ""), "%s: its folder is opened %s" % (one.words[0], folders))
            for number in folders:
                pass_over(bench, tracer, one, number)
            for call in sorted(set(counts) - UNSEEN):
                for number in places(counts[call], 60 if bench.is_long else 3):
                    for fault in FAULTS.get(call, ("EIO",))[: 3 if bench.is_long else 1]:
                        if is_passed_over(call, fault, number, folders):
                            continue
                        fail(bench, tracer, one, call, number, fault, fails)
                    if one.made and (bench.is_long or number % 2):
                        stop(bench, tracer, one, call, number, stops)
        fails.show()
        stops.show()
