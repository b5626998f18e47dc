"""What runs a program and the client on the same words, in one folder, and counts what agrees."""
import contextlib
import io
import os
import subprocess
import sys
from typing import IO, List, Tuple

HERE = os.path.dirname(os.path.abspath(__file__))
TOP = os.path.join(HERE, "..", "..")
CLIENTS = os.path.join(TOP, "clients", "python")
EXAMPLES = os.path.join(TOP, "examples")
sys.path[:0] = [CLIENTS, HERE]
sys.dont_write_bytecode = True
import mrtree_check  # noqa: E402

MOST_SHOWN = 20  # failures that are printed
Ended = Tuple[int, bytes]  # a status, and what was printed


def write(name: str, bytes_: bytes) -> None:
    """Puts a file into the folder."""
    with open(name, "wb") as file:
        file.write(bytes_)


def read(name: str) -> bytes:
    """The bytes of a file in the folder, none where it is not there."""
    if not os.path.exists(name):
        return b""
    with open(name, "rb") as file:
        return file.read()


class Bench:
    """Runs program and client in one folder, and counts what agrees."""

    def __init__(self, program: str, is_long: bool, name: str = "tests/clients") -> None:
        self.program_path, self.is_long, self.name = os.path.abspath(program), is_long, name
        self.rows = self.failed = self.skipped = self.honest = self.bent = self.bundles = self.counts = self.joins = 0

    def holds(self, is_so: bool, what: str) -> None:
        """Counts one thing that is to be so, and prints it where it is not."""
        self.rows += 1
        if not is_so:
            self.failed += 1
            if self.failed <= MOST_SHOWN:
                print("FAILED: " + what)

    def skip(self, what: str) -> None:
        """Counts what cannot be tested here, and says so as tests/skip does."""
        self.skipped += 1
        line = "%s: SKIPPED, NOT TESTED: %s" % (self.name, what)
        print(line, flush=True)
        if os.environ.get("TESTS_SKIPPED"):
            with open(os.environ["TESTS_SKIPPED"], "a") as file:
                file.write(line + "\n")

    def program(self, words: List[str]) -> Ended:
        """What the program says; on standard error it says nothing."""
        ran = subprocess.run([self.program_path, *words], stdout=subprocess.PIPE, stderr=subprocess.STDOUT)
        return ran.returncode, ran.stdout

    def client(self, words: List[str]) -> Ended:
        """What the client says, called as a module."""
        status, text = mrtree_check.run(words)
        return status, text.encode()

    def script(self, name: str, words: List[str], **how) -> Ended:
        """What a script of clients/python prints, as a process of its own."""
        how.setdefault("stderr", subprocess.DEVNULL)
        ran = subprocess.run([sys.executable, os.path.join(CLIENTS, name), *words], stdout=subprocess.PIPE, **how)
        return ran.returncode, ran.stdout

    def call(self, module, words: List[str]) -> Ended:
        """What a script says on standard error, called as a module."""
        told = io.StringIO()
        with contextlib.redirect_stderr(told):
            status = module.main(words)
        return status, told.getvalue().encode()

    def told(self, name: str, words: List[str], **how) -> Ended:
        """What a script of clients/python says on standard error, as a process of its own."""
        call = [sys.executable, os.path.join(CLIENTS, name), *words]
        ran = subprocess.run(call, stdout=subprocess.DEVNULL, stderr=subprocess.PIPE, **how)
        return ran.returncode, ran.stderr

    def script_to(self, name: str, words: List[str], out: IO[bytes]) -> int:
        """The status of a script that prints to this file."""
        call = [sys.executable, os.path.join(CLIENTS, name), *words]
        return subprocess.run(call, stdout=out, stderr=subprocess.DEVNULL).returncode

    def knows_bundles(self) -> bool:
        """Whether the program has the commands `serve` and `check-all`."""
        return self.program(["check-all", "0" * 64, "none", "none.u"])[1] != b"bad words\n"

    def agree(self, words: List[str], what: str) -> Ended:
        """Both clients say the same of a command line; answers what."""
        one, other = self.program(words), self.client(words)
        self.holds(one == other, "%s: %s: the program %s, the client %s" % (what, " ".join(words), one, other))
        return one

    def agree_to_end(self, words: List[str], what: str) -> Ended:
        """As `agree`; and again by the root digest to which a proof leads, where that is not the one in the words."""
        first, words = self.agree(words, what), list(words)
        parts = first[1].decode().split()
        for _ in range(2):
            if "WrongRoot" in parts:
                words[2 if parts[1] == "second" else 1] = parts[-1]
                parts = self.agree(words, what + ", against its own root")[1].decode().split()
        return first

    def agree_on(self, root: str, query: str, proof: bytes, what: str, command: str = "check") -> Ended:
        """Both say the same of a proof in the file p."""
        write("p", proof)
        return self.agree([command, root, query, "p"], what)
