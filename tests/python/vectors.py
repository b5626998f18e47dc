"""The vectors in examples/vectors: reads their lines as docs/FORMATS.md says."""
import os
import re
from typing import Iterator, List, NamedTuple, Tuple

from bench import EXAMPLES

FILE = re.compile(r'([^ =>]+)([=>])((?:"[^"]*"|[^ "])*)')
TERM = re.compile(r'"([^"]*)"|@([^+<]+)|\+|([0-9a-f(])')


class Vector(NamedTuple):
    """A line: its number, the words, the files before and after (name, bytes as they are spelled), status and text."""

    line: int
    words: List[str]
    before: List[Tuple[str, str]]
    after: List[Tuple[str, str]]
    status: int
    text: bytes


def lines_of(name: str) -> Iterator[Vector]:
    """The vectors in a file of that folder."""
    with open(os.path.join(EXAMPLES, "vectors", name), newline="\n") as file:
        for number, line in enumerate(file.read().split("\n"), 1):
            if line and line[0] != "#":
                words, files, status, text = line.split("\t")
                found = FILE.findall("" if files == "-" else files)
                before, after = ([(one, spelled) for one, sign, spelled in found if sign == way] for way in "=>")
                yield Vector(number, words.split(" "), before, after, int(status), text.replace("\\n", "\n").encode())


def repeated(digits: str, at: int = 0) -> Tuple[bytes, int]:
    """The bytes of hexadecimal digits with repeated parts up to a `*`, a `+`, a `<` or the end, and where that stands.

    >>> repeated("4c(00*3)(01(02*2)*2)")
    (b'L\\x00\\x00\\x00\\x01\\x02\\x02\\x01\\x02\\x02', 20)
    """
    bytes_ = b""
    while at < len(digits) and digits[at] not in "*+<":
        if digits[at] == "(":
            part, star = repeated(digits, at + 1)
            at = digits.index(")", star) + 1
            bytes_ += part * int(digits[star + 1 : at - 1])
        else:
            end = re.compile("[0-9a-f]*").match(digits, at).end()
            bytes_, at = bytes_ + bytes.fromhex(digits[at:end]), end
    return bytes_, at


def bytes_of(spelled: str, folder: str) -> bytes:
    """The bytes that are spelled; files of earlier lines stand in this folder.

    >>> bytes_of('"ab\\\\n"+4c4d<4', ".")
    b'ab\\nL'
    """
    bytes_, at = b"", 0
    while at < len(spelled) and spelled[at] != "<":
        term = TERM.match(spelled, at)
        if term[1] is not None:
            bytes_ += term[1].replace("\\n", "\n").encode()
        elif term[2]:
            own = os.path.join(folder, term[2])
            with open(own if os.path.exists(own) else os.path.join(EXAMPLES, term[2]), "rb") as file:
                bytes_ += file.read()
        elif term[3]:
            part, at = repeated(spelled, at)
            bytes_ += part
            continue
        at = term.end()
    return bytes_[: int(spelled[at + 1 :])] if at < len(spelled) else bytes_
