"""The bytes in docs/FORMATS.md: what its test vectors spell is what the vectors in examples/vectors have, or its hash."""
import hashlib
import itertools
import os
import re
from typing import Iterator, List, Set

from bench import EXAMPLES, TOP, Bench, read
import vectors

NAMES = ("vectors.tsv", "atlas.tsv")
LEAST = 8  # bytes of a string that is looked for
SECTIONS = ("## Proofs of joins", "## Vectors as files", "## Test vectors")


def sections() -> List[str]:
    """The lines of the sections that spell bytes."""
    lines, taken = [], False
    with open(os.path.join(TOP, "docs", "FORMATS.md"), encoding="utf-8") as file:
        for line in file.read().split("\n"):
            taken = line in SECTIONS if line.startswith("## ") else taken
            lines += [line] if taken else []
    return lines


def spelled(lines: List[str]) -> Iterator[bytes]:
    """The strings of bytes in blocks: a line goes on in those that are set in deeper; between brackets stand words.

    >>> list(spelled(["", "    4c 01 (so and so) 0203", "       04", "    05", "text"]))
    [b'L\\x01', b'\\x02\\x03\\x04', b'\\x05']
    """
    whole = ""
    for line in [*lines, ""]:
        if re.match(" {7,}[0-9a-f(]", line):
            whole += line
            continue
        for part in re.sub(r"\([^)]*\)", "|", whole).split("|"):
            digits = part.replace(" ", "")
            if re.fullmatch("(?:[0-9a-f]{2})+", digits):
                yield bytes.fromhex(digits)
        whole = line if re.match(" {4}[0-9a-f(]", line) else ""


def in_tables(lines: List[str]) -> Iterator[bytes]:
    """The strings of bytes in tables, the cells of each behind one another."""
    digits = ""
    for line in [*lines, ""]:
        if line.startswith("|"):
            digits += "".join(re.findall("`([0-9a-f ]+)`", line)).replace(" ", "")
        elif digits:
            yield bytes.fromhex(digits)
            digits = ""


def known() -> List[bytes]:
    """The files of the vectors, as far as they are spelled, and those of the examples."""
    files = []
    for vector in itertools.chain(*map(vectors.lines_of, NAMES)):
        files += [vectors.bytes_of(one, EXAMPLES) for _, one in vector.before + vector.after if "@" not in one]
    for folder in (EXAMPLES, os.path.join(EXAMPLES, "vectors")):
        files += [read(os.path.join(folder, name)) for name in sorted(os.listdir(folder)) if name.endswith(".proof")]
    return sorted(set(files))


def formats_hold(bench: Bench) -> None:
    """Each string stands in a file of the vectors, or is told by one; or its digest is; or it is that of such a file."""
    all_ = itertools.chain(*map(vectors.lines_of, NAMES))
    texts = b"".join(vector.text + " ".join(vector.words).encode() for vector in all_)
    files = known()
    whole, digests = b"\0".join(files), {hashlib.sha256(file).digest() for file in files}
    lines, seen = sections(), 0
    for string in [*spelled(lines), *in_tables(lines)]:
        digest = hashlib.sha256(string).digest()
        is_known = any(one in whole or one.hex().encode() in texts for one in (string, digest)) or string in digests
        if len(string) >= LEAST:
            seen += 1
            bench.holds(is_known, "FORMATS spells what no vector has: %s" % string.hex())
    bench.holds(seen >= 40, "only %d strings of FORMATS are found" % seen)
