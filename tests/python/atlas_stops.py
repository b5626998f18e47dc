"""Runs that change an atlas and are stopped, or of which a call fails: what is left, and that the same command goes on.

A run is a child of the test in which the calls that change files, and those of the program, are counted: one of them
does not come any more, since the run is killed there, or it fails. Long runs are killed at a moment that is drawn.
"""
import builtins
import contextlib
import errno
import os
import random
import shutil
import signal
import subprocess
import sys
import time
from typing import Any, Callable, Dict, List, NamedTuple, Optional, Tuple

from bench import CLIENTS, Bench, read, write
import atlas_prove
import mrtree_ask
import mrtree_atlas
import mrtree_check
from atlas_sheets import Folder
from atlases import clear, made, sheets_of, some_changes, some_records, text_of

CHANGING = [(os, name) for name in ("replace", "rename", "link", "fsync", "remove", "makedirs", "write")]
CHANGING += [(shutil, "rmtree"), (subprocess, "run"), (builtins, "open")]
KILL, FAIL = "killed", "failing"
WORD = "window:-1000000,-1000000,1000000,1000000"
FULL = "there is no room on the disk"


class Run(NamedTuple):
    """A command, the folder as it is before it, and as it is afterwards where nothing stops it, and what it prints."""

    words: List[str]
    before: str
    after: Dict[str, bytes]
    printed: str


# ---- a child that is stopped


class Counter:
    """Counts calls that change something, and does to one of them what is to be done."""

    def __init__(self, place: int, how: str) -> None:
        self.place, self.how, self.count = place, how, 0

    def around(self, call: Callable[..., Any], name: str) -> Callable[..., Any]:
        """The call, counted."""

        def counted(*words: Any, **more: Any) -> Any:
            """Counts, and calls."""
            if name == "open" and set("wax+").isdisjoint(more.get("mode", words[1] if len(words) > 1 else "r")):
                return call(*words, **more)
            self.count += 1
            if self.count == self.place and self.how == KILL:
                half_of(name, words)
                os.kill(os.getpid(), signal.SIGKILL)
            if self.count == self.place:
                raise OSError(errno.ENOSPC, os.strerror(errno.ENOSPC), *words[:1])
            return call(*words, **more)

        return counted


def half_of(name: str, words: Tuple[Any, ...]) -> None:
    """Does a part of a call that is no single step: takes away half of a folder."""
    if name == "rmtree":
        for folder, _, names in os.walk(words[0]):
            for one in names[::2]:
                REMOVE(os.path.join(folder, one))


REMOVE = os.remove


def stopped(words: List[str], place: int, how: str) -> Tuple[int, str, str, int]:
    """Runs words in a child of which the call at a place is stopped: status, output, what it says, calls that came.

    The status of a child that was killed is -9.
    """
    os.makedirs("out", exist_ok=True)
    child = os.fork()
    if child == 0:
        status = 99
        try:
            out, told = (os.open("out/" + name, os.O_RDWR | os.O_CREAT | os.O_TRUNC) for name in ("printed", "said"))
            os.dup2(out, 1)
            os.dup2(told, 2)
            sys.stderr = builtins.open(2, "w", closefd=False)
            counter = Counter(place, how)
            for module, name in CHANGING:
                setattr(module, name, counter.around(getattr(module, name), name))
            status = mrtree_atlas.main(words)
            os.pwrite(os.open("out/count", os.O_WRONLY | os.O_CREAT | os.O_TRUNC), b"%d" % counter.count, 0)
        finally:
            os._exit(status)
    ended = os.waitpid(child, 0)[1]
    status = os.WEXITSTATUS(ended) if os.WIFEXITED(ended) else -os.WTERMSIG(ended)
    count = int(read("out/count") or b"0") if status >= 0 else place
    return status, read("out/printed").decode(), read("out/said").decode(), count


# ---- what is to be so afterwards


def files(name: str) -> Dict[str, bytes]:
    """All files of an atlas by their names in it, but for the lock."""
    found = {}
    for folder, _, names in os.walk(name):
        for one in names:
            path = os.path.join(folder, one)
            if one != "lock":
                found[os.path.relpath(path, name)] = read(path)
    return found


def fits(bench: Bench, run: Run, what: str) -> None:
    """The atlas is the one before or the one after, whole; and who holds the root before asks on as if nothing were."""
    old, new = os.path.join(run.before, "index.map"), run.after.get("index.map", b"")
    index = read("a/index.map")
    bench.holds(index in (read(old), new), "%s: the index is neither the one before nor the one after" % what)
    for name in os.listdir(run.before + "/sheets") if os.path.isdir(run.before + "/sheets") else []:
        bench.holds(read("a/sheets/" + name) == read("%s/sheets/%s" % (run.before, name)), "%s: a sheet changed" % what)
    for name in os.listdir("a/sheets") if os.path.isdir("a/sheets") else []:
        is_right = name.startswith("part-") or read("a/sheets/" + name) == run.after.get("sheets/" + name)
        bench.holds(is_right, "%s: the sheet %s is another one" % (what, name))
    for held in {read(old), index} - {b""}:
        root = root_in(held)
        far = mrtree_ask.open_atlas(root, "a")
        query = mrtree_check.read_query(WORD)
        answer = mrtree_check.judge_atlas(bytes.fromhex(root), query, [far.proof(query)])
        bench.holds(len(answer.records) > 0, "%s: the answer of %s" % (what, root))


def root_in(index: bytes) -> str:
    """The root digest of the map in an index's file, of version 1."""
    front = b"R" + index[4:5] + index[6:22] + index[5:6] + index[30:78]
    return mrtree_check.digest(front).hex()


def goes_on(bench: Bench, run: Run, what: str) -> None:
    """The same command does it, and prints what it prints; then all files are as after a run that nothing stopped."""
    status, printed, said, _ = stopped(run.words, 0, "")
    is_so = status == 0 and printed == run.printed
    bench.holds(is_so, "%s: the same command ends with %d: %s%s" % (what, status, printed, said))
    found = files("a")
    others = sorted(name for name in {*found, *run.after} if found.get(name) != run.after.get(name))
    bench.holds(not others, "%s: behind the same command these are other files: %s" % (what, others[:5]))


def lay_out(run: Run) -> None:
    """Puts the folder there as it is before a run."""
    shutil.rmtree("a", ignore_errors=True)
    if os.path.isdir(run.before):
        shutil.copytree(run.before, "a")


def each_step(bench: Bench, run: Run) -> Tuple[int, int]:
    """The run is killed at each step, and each call of it fails; answers how many steps and stops that were."""
    lay_out(run)
    steps = stopped(run.words, 0, "")[3]
    places = range(1, steps + 1)
    short = [place for place in places if place % 5 == len(run.words[0]) % 5 or place > steps - 12]
    stops = 0
    for place in places if bench.is_long else short:
        for how in (KILL, FAIL):
            what = "%s, %s at step %d of %d" % (" ".join(run.words), how, place, steps)
            lay_out(run)
            status, printed, said, _ = stopped(run.words, place, how)
            if how == KILL:
                bench.holds(status == -9, "%s: status %d" % (what, status))
            else:
                is_so = status == 7 and said.count("\n") == 1 or status == 0 and printed == run.printed
                bench.holds(is_so, "%s: status %d, %s" % (what, status, said))
            stops += 1
            fits(bench, run, what)
            goes_on(bench, run, what)
    return steps, stops


# ---- the runs


def runs_of(bench: Bench, version: int) -> List[Run]:
    """A split, a build, an update in which sheets split and one goes, and a mirror's replay of it."""
    chance = random.Random(version)
    held = {record.number: record for record in some_records(chance, 150, version)}
    write("r", text_of(held.values(), version))
    found = []
    lines = some_changes(chance, held, version, 120)
    write("b", ("batch 1\n" + "".join(line + "\n" for line in lines)).encode())
    jobs = ["--jobs", "1"]
    shutil.rmtree("a", ignore_errors=True)
    for words in (["split", "r", "a", "--sheet", "40", *jobs], ["build", "a", *jobs], ["update", "a", "b", *jobs]):
        before = "before-%s-%d" % (words[0], version)
        if os.path.isdir("a"):
            shutil.copytree("a", before)
        printed = made(bench, words)
        found.append(Run(words, before, files("a"), printed + "\n" if printed else ""))
    package = "package-%d" % version
    shutil.copytree("a/updates/1", package)
    mirror = "mirror-%d" % version
    shutil.copytree(found[-1].before, mirror)
    shutil.rmtree(mirror + "/numbers")
    shutil.rmtree("a")
    shutil.copytree(mirror, "a")
    words = ["replay", "a", package, *jobs]
    printed = made(bench, words)
    found.append(Run(words, mirror, files("a"), printed + "\n"))
    return found


def at_each_step(bench: Bench) -> None:
    """Runs of one process that are killed at each of their steps, or of which each call fails in its turn."""
    clear()
    steps, stops = 0, 0
    for version in (1, 2) if bench.is_long else (2,):
        for run in runs_of(bench, version):
            one, others = each_step(bench, run)
            steps, stops = steps + one, stops + others
    print("tests/clients: atlases: %d steps, %d stops" % (steps, stops))


def at_some_moment(bench: Bench) -> None:
    """Runs of two processes that are killed at a moment that is drawn: the script alone, or all of its processes."""
    clear()
    chance, stops = random.Random(11), 0
    for run in runs_of(bench, 2)[1:3]:
        words = [sys.executable, os.path.join(CLIENTS, "mrtree_atlas.py"), *run.words[:-1], "2"]
        lay_out(run)
        began = time.monotonic()
        subprocess.run(words, stdout=subprocess.DEVNULL)
        lasts = time.monotonic() - began
        for number in range(60 if bench.is_long else 3):
            lay_out(run)
            nothing = subprocess.DEVNULL
            child = subprocess.Popen(words, stdout=nothing, stderr=nothing, start_new_session=True)
            time.sleep(lasts * chance.uniform(0.1, 1))
            all_ = chance.random() < 0.5
            stops += child.poll() is None
            with contextlib.suppress(ProcessLookupError):
                os.killpg(child.pid, signal.SIGKILL) if all_ else child.kill()
            child.wait()
            what = "%s, %s killed" % (" ".join(run.words), "all" if all_ else "one")
            fits(bench, run, what)
            goes_on(bench, run, what)
    print("tests/clients: atlases: %d runs killed at some moment" % stops)


def by_the_program(bench: Bench) -> None:
    """Runs of which the program fails, is killed or is not there: a line, and the same command goes on behind it."""
    clear()
    cases = [("exit 8", 8, "mrtree build2 a/sheets/part-build-2: it failed")]
    cases += [("kill -9 $$", 7, "was ended by the signal 9")]
    cases += [("echo 'bad map page 1 Digest'; exit 4", 2, "bad map page 1 Digest"), ("echo 0; exit 0", 7, "")]
    cases += [("", 7, "Permission denied: MRTREE names the program")]
    [run] = runs_of(bench, 2)[1:2]
    for script, meant, told in cases:
        lay_out(run)
        lines = '#!/bin/sh\ncase "$*" in *-2" "*|*"-2 a"*) %s ;; esac\nexec %s "$@"\n' % (script, bench.program_path)
        write("fails", lines.encode())
        os.chmod("fails", 0o755 if script else 0o644)
        os.environ["MRTREE"] = os.path.abspath("fails")
        status, _, said, _ = stopped(run.words, 0, "")
        os.environ["MRTREE"] = bench.program_path
        is_so = status == meant and told in said and said.count("\n") == 1
        bench.holds(is_so, "%s: status %d, %s" % (script, status, said))
        fits(bench, run, "a build whose program does: %s" % script)
        goes_on(bench, run, "a build whose program does: %s" % script)
    os.environ["MRTREE"] = "/none"
    status, _, said, _ = stopped(["info", "a"], 0, "")
    os.environ["MRTREE"] = bench.program_path
    bench.holds(status == 7 and "/none: No such file or directory: MRTREE names" in said, "no program: %s" % said)


def two_at_once(bench: Bench) -> None:
    """Of two runs that change an atlas the second one waits; where the first one takes long it is refused."""
    clear()
    [run] = runs_of(bench, 1)[2:3]
    lay_out(run)
    words = [sys.executable, os.path.join(CLIENTS, "mrtree_atlas.py"), *run.words]
    both = [subprocess.Popen(words, stdout=subprocess.PIPE, stderr=subprocess.PIPE) for _ in range(2)]
    for child in both:
        printed, said = child.communicate()
        is_so = (child.returncode, printed.decode()) == (0, run.printed) or b"another run is at work there" in said
        bench.holds(is_so, "two at once: status %d, %s" % (child.returncode, said))
    goes_on(bench, run, "two at once")


def stops_hold(bench: Bench) -> None:
    """All of these."""
    os.environ["MRTREE"] = bench.program_path
    for part in (at_each_step, by_the_program, two_at_once, at_some_moment):
        part(bench)
