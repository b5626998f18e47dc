"""The table inputs.tsv: files for `records.py text`, what is said of each, and what is written.

A line has a name, what stands in the file, the options, the exit status, what stands on standard error and what is
written, between tabs. A name with @ in front is a file below this folder. In a field `\\n`, `\\t`, `\\r`, `\\\\` and
`\\xNN` are bytes.
"""
import os
import re
from typing import Iterator, List, NamedTuple

from bench import HERE, Bench, read, write
import records

BYTE = re.compile(rb"\\(n|t|r|\\|x[0-9a-f]{2})")
SIGNS = {b"n": b"\n", b"t": b"\t", b"r": b"\r", b"\\": b"\\"}
LEAST = 200  # rows
# What stands in no table: too large, or for the memory that a test may take.
LARGE = [
    ("a.geojson", b"[" * 100000, "", "it is no object of JSON"),
    ("a.geojson", b'{"a":' * 100000, "", "there are too many brackets in one another"),
    ("a.geojson", b'{"type":"Feature","x":' + b"[" * 50000 + b"]" * 50000 + b"}", "", "too many brackets"),
    ("a.geojson", b'{"type":"Feature","id":1,"x":' + b"[" * 700 + b"]" * 700 + b"}", "--digest", "brackets|geometry"),
    ("a.geojson", b'{"type":"Feature","id":' + b"7" * 10**6 + b"}", "", "it has no geometry"),
    ("a.geojson", b'{"type":"Feature","id":"' + b"7" * 10**6, "", "it is no JSON: Unterminated string"),
    ("a.csv", b"number,wkt\n7," + b"GEOMETRYCOLLECTION(" * 5000, "", "too many brackets|well-known text"),
    ("a.csv", b'number,wkt\n7,"POINT ' + b"(" * 10**5 + b'"', "", "well-known text"),
    ("a.csv", b"number,x,y\n7,1," + b"9" * 10**6, "", "the coordinate 9{40}[.][.] is out of range"),
    ("a.txt", b"1" * 10**6, "", "it has no line feed"),
]


# Files that rows name behind --layers.
LAYERS = {"layers": b"0 house\n1 main road\n0 garage\n", "twice": b"0 house\n1 house\n", "bad": b"house 0\n", "empty": b""}


class Row(NamedTuple):
    """A row: its line, the file's name, its bytes, the options, the status, what is said and what is written."""

    line: int
    name: str
    bytes: bytes
    options: List[str]
    status: int
    said: bytes
    wrote: bytes


def unescaped(field: bytes) -> bytes:
    """The bytes that a field spells.

    >>> unescaped(b"a\\\\n\\\\x41")
    b'a\\nA'
    """
    return BYTE.sub(lambda sign: SIGNS.get(sign[1]) or bytes.fromhex(sign[1][1:].decode()), field)


def rows_of(name: str) -> Iterator[Row]:
    """The rows of the table."""
    with open(os.path.join(HERE, name), "rb") as file:
        lines = file.read().split(b"\n")
    for number, line in enumerate(lines, 1):
        if line and line[:1] != b"#":
            name_, spelled, options, status, said, wrote = line.split(b"\t")
            bytes_ = unescaped(spelled)
            if name_[:1] == b"@":
                with open(os.path.join(HERE, name_[1:].decode()), "rb") as file:
                    bytes_, name_ = file.read(), name_.rsplit(b"/", 1)[1]
            words = options.decode().split()
            yield Row(number, name_.decode(), bytes_, words, int(status), unescaped(said), unescaped(wrote))


def row_holds(bench: Bench, row: Row) -> None:
    """A file of the table: status, standard error and output are as it says; a script of its own says so too."""
    write(row.name, row.bytes)
    write("out", b"old")
    words = ["text", row.name, "out", *row.options]
    ended = bench.call(records, words)
    bench.holds(ended == (row.status, row.said), "inputs.tsv line %d: %s" % (row.line, ended))
    wrote = row.wrote if row.status == 0 else b"old"
    bench.holds(read("out") == wrote, "inputs.tsv line %d: it writes %s" % (row.line, read("out")))
    if bench.is_long or row.line % 10 == 0:
        ended = bench.told("records.py", words)
        bench.holds(ended == (row.status, row.said), "inputs.tsv line %d, as a script: %s" % (row.line, ended))


def inputs_hold(bench: Bench) -> None:
    """Each file of the table, and some that are too large for it."""
    rows = list(rows_of("inputs.tsv"))
    bench.holds(len(rows) >= LEAST, "inputs.tsv has %d rows" % len(rows))
    for name, bytes_ in LAYERS.items():
        write(name, bytes_)
    for row in rows:
        row_holds(bench, row)
    for name, bytes_, options, says in LARGE:
        write(name, bytes_)
        status, said = bench.call(records, ["text", name, "out", "--unit", "1", *options.split()])
        is_so = status == 1 and re.search(says, said.decode()) is not None and len(said) < 400
        bench.holds(is_so, "a large %s, %s..: status %d, %s" % (name, bytes_[:40], status, said[:400]))
