"""The script `mrtree` at the top, with a command `rt` that only seems to prove. tests/script calls it with PROGRAM."""
import os
import pty
import re
import shutil
import subprocess
import sys
import tempfile
import time
from typing import Dict, List, NamedTuple, Optional

import quick
from bench import EXAMPLES, TOP, Bench

NOBODY = 65534
KIT = "rattle-kit-0 logic 0123456789abcdef"
COMMANDS = """root build root2 build2 list upgrade apply apply-here recover prove check audit count check-count audit-count
    join check-join audit-join serve check-all make demo""".split()
CRATES = {"low": [], "middle": ["low"], "beside": ["low"], "mrtree": ["low", "middle", "beside"]}
PLACES = "b136e9ea66645cc4c87feaf0addfecbc0d52bd619bc06f05e004ff35cbfaff04"
WINDOW = "window:133700000,525100000,133800000,525200000"
# A command rt that tells of each function, leaves what a build leaves, and keeps a list of its calls.
RT = """#!/bin/sh
[ "$1" != version ] || { echo "${RT_SAYS:-%s}"; exit; }
[ "$1" != doc ] || { echo "$RT_KIT/START-HERE.md"; exit; }
name=$(basename "$PWD")
echo "$1 $name" >>"$RT_CALLS"
[ "$name" != "${RT_FAILS:-}" ] || exit 1
for one in $(sed -n 's/^fn \\([a-z]*\\).*/\\1/p' src/lib.rt); do
    [ "$name" != "${RT_SLOW:-}" ] || sleep 15
    echo "fn $name::lib::$one: proved"
    echo "fn $name::lib::fn::$one::map: proved"
    sleep "${RT_SLEEPS:-0}"
done
mkdir -p out/rlib
[ "$1" != run ] || cp "$RT_PROGRAM" out/mrtree
""" % KIT


class Ran(NamedTuple):
    """How a run ended: its status, and what it printed to standard output and to standard error."""

    status: int
    out: str
    err: str


class World:
    """A folder with the script, four small crates and a command rt."""

    def __init__(self, bench: Bench, folder: str) -> None:
        self.bench, self.folder, self.calls = bench, folder, os.path.join(folder, "calls")
        self.top = os.path.join(folder, "top")
        os.makedirs(os.path.join(self.top, "docs"))
        os.makedirs(os.path.join(folder, "bin"))
        quick.make_kit(folder)
        shutil.copy(os.path.join(TOP, "mrtree"), self.top)
        shutil.copytree(os.path.join(TOP, "scripts"), os.path.join(self.top, "scripts"))
        shutil.copy(os.path.join(TOP, "docs", "COMMANDS.md"), os.path.join(self.top, "docs"))
        self.put("README.md", "Proved with `%s`: all of it.\n" % KIT)
        self.put("HANDLES", "Handles allowed: none.\n")
        self.put("crates.txt", "".join("%s: %s\n" % (name, " ".join(below)) for name, below in CRATES.items()))
        for name in CRATES:
            self.put("crates/%s/src/lib.rt" % name, "fn one()\n\nfn two()\n")
        with open(os.path.join(folder, "bin", "rt"), "w") as file:
            file.write(RT)
        os.chmod(file.name, 0o755)

    def put(self, name: str, text: str) -> None:
        """Puts a file below the top."""
        path = os.path.join(self.top, name)
        os.makedirs(os.path.dirname(path), exist_ok=True)
        with open(path, "w") as file:
            file.write(text)

    def environment(self, **more: str) -> Dict[str, str]:
        """What the script sees, with the command rt on the path."""
        path = os.path.join(self.folder, "bin") + ":" + os.environ["PATH"]
        own = {"PATH": path, "RT_CALLS": self.calls, "RT_PROGRAM": self.bench.program_path, "TMPDIR": self.folder}
        own["RT_KIT"] = os.path.join(self.folder, "kit")
        return {**os.environ, **own, **more}

    def start(self, words: List[str], user: Optional[int] = None, **more: str) -> subprocess.Popen:
        """Starts the script."""
        change = (lambda: os.setuid(user)) if user is not None else None
        pipe = subprocess.PIPE
        how = {"cwd": self.folder, "env": self.environment(**more), "preexec_fn": change}
        return subprocess.Popen([os.path.join(self.top, "mrtree"), *words], stdout=pipe, stderr=pipe, **how)

    def run(self, words: List[str], user: Optional[int] = None, **more: str) -> Ran:
        """Runs the script."""
        process = self.start(words, user, **more)
        out, err = process.communicate(timeout=120)
        return Ran(process.returncode, out.decode(), err.decode())

    def run_in_terminal(self, words: List[str]) -> Ran:
        """Runs the script with a terminal as standard error."""
        mine, theirs = pty.openpty()
        path = os.path.join(self.top, "mrtree")
        how = {"cwd": self.folder, "env": self.environment()}
        process = subprocess.Popen([path, *words], stdout=subprocess.PIPE, stderr=theirs, **how)
        out, _ = process.communicate(timeout=120)
        os.close(theirs)
        told = b""
        try:
            while True:
                told += os.read(mine, 4096)
        except OSError:  # the terminal is closed, and all was read
            os.close(mine)
        return Ran(process.returncode, out.decode(), told.decode().replace("\r\n", "\n"))

    def says(self, ran: Ran, status: int, out: Optional[str], err: str, what: str) -> None:
        """A run ended so, printed this (None: anything), and told what this pattern finds."""
        is_so = ran.status == status and out in (None, ran.out) and re.search(err, ran.err, re.S) is not None
        self.bench.holds(is_so, "%s: %s" % (what, ran))

    def called(self) -> List[str]:
        """The calls of rt so far, in order; forgets them."""
        if not os.path.exists(self.calls):
            return []
        with open(self.calls) as file:
            calls = file.read().split("\n")[:-1]
        os.remove(self.calls)
        return calls


NOTHING = r"^\Z"
ONE_LINE = r"^mrtree: [^\n]*%s[^\n]*\n\Z"


def before_a_program(world: World) -> None:
    """Help, version and words that are none, without a build and without rt."""
    helps = [world.run([word], PATH="/usr/bin:/bin") for word in ("help", "-h", "--help")]
    for ran in helps:
        world.says(ran, 0, helps[0].out, NOTHING, "help")
    shown = re.findall(r"^  mrtree (\S+)", helps[0].out, re.M)
    own = ["help", "version", "quick", "prepare"]
    world.bench.holds(shown == COMMANDS + own, "the commands that help shows: %s" % shown)
    world.says(world.run([]), 1, "bad words\n", "^usage: mrtree .*check-all ROOT SCRIPT BUNDLE", "no word")
    for word in ("rot", "-v", "--version", "root places", "", "root\nlist", "\\n"):
        world.says(world.run([word, "x"]), 1, "bad words\n", ONE_LINE % "is no command", "the word %r" % word)
    told = world.run(["version"])
    world.says(told, 0, None, NOTHING, "version")
    world.bench.holds("proved with: %s\ntoolchain here: %s\nprogram: not built\n" % (KIT, KIT) in told.out, str(told))
    world.bench.holds(told.out.startswith("commit: not known"), "version without a clone: %s" % told.out)
    if shutil.which("git"):
        subprocess.run(["git", "init", "-q", world.folder], check=True)
        told = world.run(["version"])
        world.bench.holds(told.out.startswith("commit: not known"), "version in another clone: %s" % told.out)
        shutil.rmtree(os.path.join(world.folder, ".git"))
    else:
        world.bench.skip("the version in a clone: there is no git")
    told = world.run(["version"], PATH="/usr/bin:/bin")
    world.bench.holds("toolchain here: none" in told.out, "version without rt: %s" % told.out)
    ran = world.run(["root", "x"], PATH="/usr/bin:/bin")
    world.says(ran, 70, "", ONE_LINE % "there is no 'rt'", "a command without rt")
    world.bench.holds(world.called() == [], "rt was called before there is a program to build")


def builds(world: World) -> None:
    """The first build, and later ones."""
    ran = world.run(["prepare"], RT_FAILS="middle")
    world.says(ran, 70, "", "the build failed", "a build that fails")
    world.bench.holds(sorted(world.called())[-1] == "lib middle", "the crates up to the one that fails")
    ran = world.run(["root", "none"], RT_SAYS="another", RT_SLEEPS="0.5")
    world.says(ran, 7, "missing none\n", "building the program", "the first run")
    for part in (r"3\.7 GB in /\S+ ", r"[0-9.]+ GB are free", "toolchain is 'another', .*'%s'" % KIT):
        world.says(ran, 7, None, part, "what the first run tells")
    start = r"0 min \d+ s gone, too early to say how long still: 0 of 8 functions proved \(0 %\); proving low, 3 more"
    world.says(ran, 7, None, start, "the beginning")
    end = r"\d s gone, some 1 min to go: 6 of 8 functions proved \(75 %\); proving mrtree, 0 more"
    world.says(ran, 7, None, end, "the end")
    world.bench.holds(sorted(world.called()) == ["lib beside", "lib low", "lib middle", "run mrtree"], "its crates")
    world.says(world.run(["root", "none"]), 7, "missing none\n", NOTHING, "the second run")
    world.says(world.run(["prepare"]), 0, "", NOTHING, "a program that is there")
    world.bench.holds("program: built from these sources, with proofs\n" in world.run(["version"]).out, "version")
    os.utime(os.path.join(world.top, "crates/low/src/lib.rt"))
    world.says(world.run(["prepare"]), 0, "", NOTHING, "a source that is touched alone")
    world.bench.holds(world.called() == [], "rt was called though nothing changed")
    world.put("crates/low/src/lib.rt", "fn one()\n\nfn three()\n")
    world.bench.holds("program: built from other sources" in world.run(["version"]).out, "version of other sources")
    world.says(world.run(["prepare"]), 0, "", "building", "a source that is changed")
    world.bench.holds(len(world.called()) == 4, "rt was not called though a source changed")
    left = set(os.listdir(os.path.join(world.top, ".built")))
    world.bench.holds(left == {"mrtree", "checksum", "sources", "build.log"}, "what is left: %s" % sorted(left))


def tells_more(world: World) -> None:
    """A toolchain of another name and the same logic is not warned of; a slow crate is told, and what is to go."""
    world.put("crates/low/src/lib.rt", "fn one()\n\nfn slowly()\n")
    ran = world.run(["prepare"], RT_SAYS=KIT.replace("kit-0", "kit-1"), RT_SLOW="middle")
    world.says(ran, 0, "", "building the program with proofs", "a toolchain of another name")
    world.bench.holds("may fail" not in ran.err, "a toolchain of another name is warned of: %s" % ran.err)
    slow = r"some 1 min to go: 5 of 8 functions proved \(62 %\); at work longest: middle, for 0 min \d\d s, 1 of 2\n"
    world.says(ran, 0, "", slow, "a slow crate")
    world.called()
    world.put("crates/low/src/lib.rt", "fn one()\n\nfn other()\n")
    ran = world.run(["prepare"], RT_SAYS=KIT.replace("0123", "1123"))
    world.says(ran, 0, "", "toolchain is '[^']*1123[^']*', .*they may fail", "a toolchain of another logic")
    world.called()


def two_at_once(world: World) -> None:
    """Two first runs at once build the program once; a lock of a run that was ended is taken away."""
    shutil.rmtree(os.path.join(world.top, ".built"))
    started = [world.start(["root", "none"], RT_SLEEPS="0.5") for _ in range(3)]
    ended = [process.communicate(timeout=120) for process in started]
    world.bench.holds(all(process.returncode == 7 for process in started), "runs at once: %s" % ended)
    world.bench.holds(all(out == b"missing none\n" for out, _ in ended), "what they print: %s" % ended)
    waited = sum(b"another run builds the program" in err for _, err in ended)
    world.bench.holds(waited == 2 and len(world.called()) == 4, "%d waited: %s" % (waited, ended))
    world.put("crates/low/src/lib.rt", "fn one()\n\nfn four()\n")
    dead = subprocess.Popen(["true"])
    dead.wait()
    world.put(".built/lock/process", "%d\n" % dead.pid)
    world.says(world.run(["prepare"]), 0, "", "building", "a lock of a run that was ended")
    world.called()
    world.put("crates/low/src/lib.rt", "fn one()\n\nfn five()\n")
    process = world.start(["prepare"], RT_SLEEPS="5")
    while not os.path.exists(world.calls):
        time.sleep(0.05)
    process.terminate()
    process.communicate(timeout=60)
    world.bench.holds(process.returncode == 70, "a build that is ended: %d" % process.returncode)
    world.bench.holds(not os.path.exists(os.path.join(world.top, ".built/lock")), "a lock is left")
    world.says(world.run(["prepare"]), 0, "", "building", "the next build")
    world.called()


def without_leave(world: World) -> None:
    """In a folder that may not be written, the program that is there is run if it is of these sources."""
    user = NOBODY if os.getuid() == 0 else None
    built = os.path.join(world.top, ".built")
    os.utime(os.path.join(world.top, "crates/low/src/lib.rt"))
    for folder in (world.top, built):
        os.chmod(folder, 0o555)
    world.says(world.run(["root", "none"], user), 7, "missing none\n", NOTHING, "a folder that may not be written")
    os.chmod(world.top, 0o755)
    os.chmod(built, 0o755)
    world.put("crates/low/src/lib.rt", "fn one()\n\nfn six()\n")
    os.chmod(world.top, 0o555)
    os.chmod(built, 0o555)
    ran = world.run(["root", "none"], user)
    world.says(ran, 70, "", ONE_LINE % "may not be written", "other sources in such a folder")
    os.chmod(world.top, 0o755)
    os.chmod(built, 0o755)
    world.bench.holds(world.called() == [], "rt was called in a folder that may not be written")
    world.says(world.run(["prepare"]), 0, "", "building", "the folder of its owner")


TOLD = [  # words, status, what the line has in it
    (["root"], 1, r"the words are: root RECORDS;"),
    (["check", PLACES, WINDOW], 1, r"the words are: check ROOT QUERY PROOF;"),
    (["check", "0" * 64, WINDOW, "places-window.proof"], 2, "of another map, or of another state"),
    (["audit", "other.map", WINDOW, "places-window.proof"], 2, "of another map, or of another state"),
    (["check", PLACES, "window:0,0,1,1", "places-window.proof"], 2, "for another query"),
    (["check", PLACES, WINDOW, "cut.proof"], 2, "'cut.proof' was cut off"),
    (["check", PLACES, WINDOW, "places.txt"], 2, "'places.txt' is a record text: "),
    (["check-all", "0" * 64, "places.script", "places.bundle"], 2, "what the server gave was not taken"),
    (["root2", "windows.txt"], 3, r"line 1 of 'windows.txt' is: 7 0 0 0 0 -\$"),
    (["build2", "new.map", "layers.txt"], 3, r"line 2 of 'layers.txt' is: 8 0 0 0 0 64 -\$"),
    (["upgrade", "places.txt", "new.map"], 4, "'places.txt' is a record text: "),
    (["upgrade", "none.map", "new.map"], 7, "there is no file 'none.map'"),
    (["upgrade", "places.map", "folder"], 7, "'folder' is a folder"),
    (["build2", "none/new.map", "layer.txt"], 7, "there is no folder 'none'"),
    (["list", "places.proof"], 4, "'places.proof' is a proof: "),
    (["list", "other.batch"], 4, "'other.batch' is not a whole map"),
    (["prove", "places.map", WINDOW + "/" + "f" * 16, "new.proof"], 10, "'places.map' is of version 1, and layers"),
    (["serve", "places.map", "layer.script", "new.bundle"], 10, "'places.map' is of version 1, and layers"),
    (["count", "places.map", WINDOW, "new.proof"], 10, "'places.map' is of version 1, and a count is asked for"),
    (["count", "none.map", WINDOW, "new.proof"], 7, "there is no file 'none.map'"),
    (["count", "second.map", WINDOW, "none/p"], 7, "there is no folder 'none'"),
    (["count", "second.map", WINDOW], 1, r"the words are: count MAP QUERY PROOF;"),
    (["check-count", PLACES, WINDOW, "places-window.proof"], 2, "which has none for layers and for counts"),
    (["check-count", PLACES, WINDOW, "second.proof"], 2, "of a count and not of an answer"),
    (["check-count", PLACES, WINDOW, "none.proof"], 7, "there is no file 'none.proof'"),
    (["audit-count", "second.map", WINDOW, "second.proof"], 2, "of a count and not of an answer"),
    (["audit-count", "second.map", WINDOW, "none.proof"], 7, "there is no file 'none.proof'"),
    (["join", "places.map", "second.map", "new.proof"], 10, "'places.map' or 'second.map' is of version 1"),
    (["join", "second.map", "none.map", "new.proof"], 7, "there is no file 'none.map'"),
    (["join", "second.map", "places.txt", "new.proof"], 4, "'places.txt' is a record text: "),
    (["join", "second.map", "places.map"], 1, r"the words are: join MAP MAP2 PROOF;"),
    (["check-join", PLACES, PLACES, "second.proof"], 2, "'second.proof' is no proof of a join"),
    (["check-join", PLACES, PLACES, "none.proof"], 7, "there is no file 'none.proof'"),
    (["apply", "second.map", "places.batch", "new.map"], 3, r"line 2 of 'places.batch' is: \+ 105"),
    (["apply-here", "second.map", "places.batch"], 3, r"line 2 of 'places.batch' is: \+ 105"),
    (["apply-here", "none.map", "places.batch"], 7, "there is no file 'none.map'"),
    (["apply-here", "places.map", "none.batch"], 7, "there is no file 'none.batch'"),
    (["apply-here", "places.txt", "places.batch"], 4, "'places.txt' is a record text: "),
    (["apply-here", "places.map"], 1, r"the words are: apply-here MAP BATCH;"),
    (["recover", "none.map"], 7, "there is no file 'none.map'"),
    (["recover"], 1, r"the words are: recover MAP;"),
    (["root", "windows.txt"], 3, r"line 2 of 'windows.txt' is: 8 0 0 0 0 -\\r\$"),
    (["build", "new.map", "tabs.txt"], 3, r"line 1 of 'tabs.txt' is: 7\\t0"),
    (["build", "new.map", "back\\nslash"], 7, r"there is no file 'back\\nslash'"),
    (["apply", "places.map", "places.txt", "new.map"], 3, "line 1 of 'places.txt' is: 101"),
    (["serve", "places.map", "places.txt", "new.bundle"], 3, "line 1 of 'places.txt' is: 101"),
    (["check-all", PLACES, "places.txt", "none"], 3, "line 1 of 'places.txt' is: 101"),
    (["apply", "places.map", "late.batch", "new.map"], 5, "'late.batch' is not the next batch of 'places.map'"),
    (["root", "places.map"], 3, "'places.map' is a map file: './mrtree list places.map' prints its records"),
    (["build", "new.map", "places.geojson"], 3, "'places.geojson' is GeoJSON: 'clients/python/records.py text "),
    (["root", "places-window.proof"], 3, "'places-window.proof' is a proof: "),
    (["list", "places.txt"], 4, "'places.txt' is a record text: './mrtree build MAP places.txt' makes a map of it"),
    (["apply", "places.map", "other.map", "new.map"], 3, "'other.map' is a map file: "),
    (["prove", "late.batch", WINDOW, "new.proof"], 4, "'late.batch' is a batch text: './mrtree apply OLD late.batch NEW'"),
    (["check", PLACES, WINDOW, "places.map"], 2, "'places.map' is a map file: "),
    (["check", PLACES, WINDOW, "places.geojson"], 2, "'places.geojson' is GeoJSON: "),
    (["root", "none.txt"], 7, "there is no file 'none.txt' in /"),
    (["list", "folder"], 7, "'folder' is a folder"),
    (["root", "pipe"], 7, "'pipe' is a pipe or a device"),
    (["build", "folder", "places.txt"], 7, "'folder' is a folder"),
    (["build", "none/new.map", "places.txt"], 7, "there is no folder 'none'"),
    (["build", "link.txt", "own.txt"], 7, "'link.txt' and 'own.txt' are one file"),
    (["prove", "none.map", WINDOW, "new.proof"], 7, "there is no file 'none.map'"),
    (["make", "1", "1", "none/r"], 7, "there is no folder 'none'"),
]


def in_a_terminal(world: World) -> None:
    """One line more after a status other than 0, in a terminal alone; standard output is the program's own."""
    for name in os.listdir(EXAMPLES):
        if name.startswith("places"):
            shutil.copy(os.path.join(EXAMPLES, name), world.folder)
    os.chdir(world.folder)
    os.makedirs("folder")
    os.mkfifo("pipe")
    shutil.copy("places.txt", "own.txt")
    os.link("own.txt", "link.txt")
    files = {"windows.txt": b"7 0 0 0 0 -\n8 0 0 0 0 -\r\n", "tabs.txt": b"7\t0 0 0 0 -\n", "late.batch": b"batch 2\n"}
    files["other.batch"] = b"none of all\n"
    files["other.txt"], files["layer.txt"] = b"7 0 0 0 0 -\n", b"7 0 0 0 0 5 -\n"
    files["layers.txt"], files["places.proof"] = b"7 0 0 0 0 5 -\n8 0 0 0 0 64 -\n", b"MRVO\2"
    files["layer.script"] = b"window:0,0,1,1\nwindow:0,0,1,1/0000000000000001\n"
    with open("places-window.proof", "rb") as file:
        files["cut.proof"] = file.read()[:100]
    for name, bytes_ in files.items():
        with open(name, "wb") as file:
            file.write(bytes_)
    maps = (["build", "places.map", "places.txt"], ["build", "other.map", "other.txt"])
    for words in (*maps, ["upgrade", "places.map", "second.map"]):
        world.bench.holds(world.bench.program(words)[0] == 0, "a map for the rows")
    world.bench.program(["serve", "places.map", "places.script", "places.bundle"])
    world.bench.program(["prove", "second.map", WINDOW, "second.proof"])
    for words, status, line in TOLD:
        ended, out = world.bench.program(words)
        world.says(world.run(words), status, out.decode(), NOTHING, "not in a terminal: %s" % words)
        world.says(world.run_in_terminal(words), ended, out.decode(), ONE_LINE % line, "in a terminal: %s" % words)
    world.says(world.run_in_terminal(["root", "places.txt"]), 0, PLACES + "\n", NOTHING, "what was done, in a terminal")
    made = [name for name in ("new.map", "new.bundle", "new.proof") if os.path.exists(name)]
    world.bench.holds(made == [], "files that no run was to make: %s" % made)
    os.chdir("/")


def main(program: str) -> int:
    """Runs the parts in a folder of their own; answers the exit status."""
    bench = Bench(program, False, "tests/script")
    began = time.monotonic()
    with tempfile.TemporaryDirectory() as folder:
        os.chmod(folder, 0o755)
        world = World(bench, folder)
        parts = [before_a_program, builds, tells_more, two_at_once, without_leave, *quick.PARTS, in_a_terminal]
        for part in parts:
            part(world)
    quick.programs_agree(bench)
    told = (bench.rows, bench.failed, bench.skipped, time.monotonic() - began)
    print("tests/script: %d rows, %d failed, %d parts skipped, %.1f s" % told)
    return 1 if bench.failed else 0


if __name__ == "__main__":
    sys.exit(main(*sys.argv[1:]))
