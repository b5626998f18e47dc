"""The scripts in clients/python beside the program. tests/clients calls it: clients.py short|long PROGRAM."""
import ast
import doctest
import importlib
import os
import re
import sys
import tempfile
import time
from typing import Callable, List, Optional, Tuple

from bench import TOP, Bench, read, write
import ask
import atlas_stops
import atlases
import beside
import chances
import foretold
import formats
import gateway
import gis
import hosts
import inputs
import mrtree_check
import pages
import roads
import servers
import sheets
import statements
import tables
import trips
import vectors
import ways

LONGEST = 40  # lines of a function
MODULES = ["mrtree_check", "mrtree_ask", "ranges", "pagewise", "sheetwise", "layout"]
MODULES += ["outputs", "sources", "statement", "shapes", "kinds", "records", "draw", "packing", "mrtree_host"]
MODULES += ["listening", "mapped", "tiles", "published", "mrtree_gateway", "mrtree_atlas"]
MODULES += ["atlas_sheets", "atlas_sort", "atlas_numbers", "atlas_build", "atlas_update", "atlas_bind"]
MODULES += ["atlas_prove", "atlas_audit", "atlas_texts"]
NO_EXAMPLES = ("layout", "outputs", "packing", "mrtree_atlas", "atlas_build", "atlas_bind", "atlas_audit", "atlas_texts")
MOST_IN_SHORT = 2**17  # bytes of a proof that the short run takes from a story
# The rules by which texts, batches, map files and proofs are refused.
RULES = """TooMany NoEnd Head Form Number Coordinate Order Payload Repeat Query Layer OutOfOrder Present Full Absent
    Size Unsealed Header Outside Twice Page Digest Rect Sum Fill Number Count Free Long Short BadMagic BadVersion WrongKind
    BadCount BadFlag BadRadius BadLevel BadTag BadEntries BadRect BadLength Hidden Needless Trailing WrongRoot
    WrongRadius WrongTally BadLayer WrongFlag WrongRect""".split()
CHECKS = ("check", "check-count", "check-join", "check-all")  # the commands that the client has too
AUDITS = ("check", "audit", "check-count", "audit-count")  # by which a story has one proof of one map judged


# ---- how the scripts are written


def style(bench: Bench) -> None:
    """Examples hold, functions are short, typed and told, and nothing is imported but the standard library."""
    for module in (vectors, inputs, formats):
        bench.holds(doctest.testmod(module).failed == 0, "the examples of " + module.__name__)
    for name in MODULES:
        module = importlib.import_module(name)
        results = doctest.testmod(module)
        has_some = results.attempted > 0 or name in NO_EXAMPLES
        bench.holds(results.failed == 0 and has_some, "%s: its examples" % name)
        with open(module.__file__) as file:
            tree = ast.parse(file.read(), feature_version=(3, 9))
        for node in ast.walk(tree):
            if isinstance(node, (ast.FunctionDef, ast.ClassDef)):
                told = ast.get_docstring(node) is not None or node.name.startswith("__")
                bench.holds(told, "%s: %s has no docstring" % (name, node.name))
            if isinstance(node, ast.FunctionDef):
                bench.holds(node.end_lineno - node.lineno < LONGEST, "%s: %s is too long" % (name, node.name))
                typed = node.returns is not None and all(a.annotation or a.arg == "self" for a in node.args.args)
                bench.holds(typed, "%s: %s has no types" % (name, node.name))
            for imported in names_imported(node):
                known = getattr(sys, "stdlib_module_names", {imported}) | {*MODULES, ""}
                bench.holds(imported in known, "%s imports %s" % (name, imported))


def names_imported(node: ast.AST) -> List[str]:
    """The modules that a statement imports."""
    if isinstance(node, ast.ImportFrom):
        return [(node.module or "").split(".")[0]]
    return [one.name.split(".")[0] for one in node.names] if isinstance(node, ast.Import) else []


# ---- vectors


def each_rule_is_shown(bench: Bench) -> None:
    """Some vector shows each rule."""
    texts = b"".join(vector.text for name in ("vectors.tsv", "large.tsv") for vector in vectors.lines_of(name))
    for rule in RULES:
        bench.holds(re.search(rb"\b%s\b" % rule.encode(), texts) is not None, "no vector shows the rule " + rule)


def vectors_hold(bench: Bench, name: str) -> None:
    """Program and client say what each vector says; the client from a file, from a pipe, and in pieces of a byte."""
    serves, passed = bench.knows_bundles(), 0
    for vector in vectors.lines_of(name):
        where = "%s line %d" % (name, vector.line)
        for one, spelled in vector.before:
            write(one, vectors.bytes_of(spelled, "."))
        expected = (vector.status, vector.text)
        if vector.words[0] in ("serve", "check-all") and not serves:
            passed += 1
        else:
            said = bench.program(vector.words)
            bench.holds(said == expected, "%s: the program says %s" % (where, said))
            for one, spelled in vector.after:
                bench.holds(read(one) == vectors.bytes_of(spelled, "."), "%s: the file %s" % (where, one))
        for one, spelled in vector.after:
            write(one, vectors.bytes_of(spelled, "."))
        if vector.words[0] in CHECKS:
            client_says(bench, vector, where)
    if passed:
        bench.skip("%d lines of %s: this program has no bundles" % (passed, name))


def client_says(bench: Bench, vector: vectors.Vector, where: str) -> None:
    """The client says what a vector says, however it is given the file."""
    expected = (vector.status, vector.text)
    said = bench.client(vector.words)
    bench.holds(said == expected, "%s: the client says %s" % (where, said))
    last = vector.words[-1]
    if not os.path.exists(last) or any(os.path.getsize(name) > 10**5 for name in os.listdir(".")):
        return
    kept, mrtree_check.PIECE = mrtree_check.PIECE, 1
    bench.holds(bench.client(vector.words) == expected, "%s: in pieces of a byte" % where)
    mrtree_check.PIECE = kept
    if vector.status != 1 and (bench.is_long or vector.line % 10 == 0):
        with open(last, "rb") as file:
            said = bench.script("mrtree_check.py", [*vector.words[:-1], "-"], stdin=file)
        bench.holds(said == expected, "%s: the client, by a pipe, says %s" % (where, said))


def atlas_vectors_hold(bench: Bench) -> None:
    """The client says what each vector of atlases says; the program, which has no atlases, is not asked."""
    texts, count = b"", 0
    for vector in vectors.lines_of("atlas.tsv"):
        for one, spelled in vector.before:
            write(one, vectors.bytes_of(spelled, "."))
        client_says(bench, vector, "atlas.tsv line %d" % vector.line)
        texts, count = texts + vector.text, count + 1
    bench.holds(count >= 100, "only %d lines of atlas.tsv" % count)
    for fault in sheets.FAULTS:
        bench.holds(re.search(fault.encode(), texts) is not None, "no vector of atlases shows the fault " + fault)


# ---- the tables of the program's own tests


def rows_hold(bench: Bench) -> None:
    """The rows and stories of crates/mr_rows: what they print under their hash, and both clients under SHA-256."""
    folder, checks = os.path.join(TOP, "crates", "mr_rows"), 0
    with open(os.path.join(folder, "args")) as file:
        gone_through = file.read().split()
    bench.holds(gone_through == sorted(os.listdir(os.path.join(folder, "data"))), "a table is not gone through")
    for group in tables.groups(os.path.join(folder, "data")):
        for name in os.listdir("."):
            os.remove(name)
        for name, bytes_ in group.files().items():
            write(name, bytes_)
        judges = group.kind() == "row" and group.first("run").words.split(" ")[0] in CHECKS[:3]
        if judges and not group.has("fails"):
            checks += row_holds(bench, group)
        elif group.kind() == "story":
            checks += story_holds(bench, group)
    bench.holds(checks >= 150, "only %d checks are found in the tables" % checks)


def row_holds(bench: Bench, row: tables.Group) -> int:
    """A row is as it says under one of the two hash functions; both clients agree on its proof. Answers how many."""
    words = row.first("run").words.replace("..", tables.ZEROS).split(" ")
    text = row.text(row.first("prints"))
    hashes = (foretold.exclusive_or, foretold.sha_256)
    said = [foretold.under(hash_, lambda: bench.client(words)[1]) for hash_ in hashes]
    bench.holds(text in said, "the row '%s': the client says %s" % (row.name(), said))
    bench.agree_to_end(words, "the row '%s'" % row.name())
    return 1


def story_holds(bench: Bench, story: tables.Group) -> int:
    """The steps of a story, done by the program under SHA-256; both clients agree on each proof that it judges."""
    root, checks, roots = "0" * 64, 0, {}
    for at, step in enumerate(story.items):
        words = step.words.replace("..", tables.ZEROS).split(" ") if step.key in ("run", "do") else [""]
        if words[0] in AUDITS:
            command, (query, proof) = words[0].replace("audit", "check"), words[2:]
            if os.path.exists(proof) and (bench.is_long or os.path.getsize(proof) < MOST_IN_SHORT):
                said = bench.agree([command, root, query, proof], "the story '%s'" % story.name())
                bench.agree([command, "0" * 64, query, proof], "the story '%s', no root" % story.name())
                if words[1] == root and step.key == "run":
                    bench.holds(said[1] == story.text(story.items[at + 2]), "the story '%s': %s" % (story.name(), said))
            checks += 2
        elif words[0] == "audit-join" and os.path.exists(words[3]):
            both = [roots.get(name, "0" * 64) for name in words[1:3]]
            for two in (both, both[::-1]):
                bench.agree_to_end(["check-join", *two, words[3]], "the story '%s'" % story.name())
            checks += 2
        elif words[0] in MAKES:
            status, said = bench.program(words)
            if words[0] in PLACES and status == 0:
                root = roots[words[PLACES[words[0]]]] = said.decode().strip()
        elif step.key == "change":
            change(*step.words.split(" ", 1))
    return checks


# Which word names the map whose root a command prints; and all commands of which a later step takes a file.
PLACES = {"build": 1, "build2": 1, "upgrade": 2, "apply": 3}
MAKES = (*PLACES, "root", "root2", "list", "prove", "count", "join", "make")


def change(name: str, words: str) -> None:
    """Changes bytes of a file, by places and values; of the byte at a place alone the lowest bit turns."""
    bytes_, numbers = bytearray(read(name)), tables.numbers_of(words)
    for place, value in zip(numbers[::2], [*numbers[1::2], None]):
        if place < len(bytes_):
            bytes_[place] = bytes_[place] ^ 1 if value is None else value
    write(name, bytes(bytes_))


# ---- all of it


def main(how: str, program: str) -> int:
    """Runs the parts in a folder of its own; answers the exit status."""
    bench = Bench(program, how == "long")
    parts: List[Tuple[str, Callable[[Bench], None]]] = [
        ("how the scripts are written", style),
        ("the rules that vectors show", each_rule_is_shown),
        ("vectors", lambda bench: vectors_hold(bench, "vectors.tsv")),
        ("vectors of atlases", atlas_vectors_hold),
        ("the bytes in FORMATS", formats.formats_hold),
        ("the tables of the program's tests", rows_hold),
        ("the same tables, foretold", foretold.tables_hold),
        ("proofs at random", chances.random_proofs),
        ("counts beside a scan", chances.counts_beside_scan),
        ("joins beside a loop", chances.joins_beside_loop),
        ("files that are odd or do not fit", inputs.inputs_hold),
        ("from files of publishers and back", trips.trips_hold),
        ("answers, outputs and stops", ways.ways_hold),
        ("shapes, places, keys and kinds of files", beside.beside_holds),
        ("statements of maps", statements.statements_hold),
        ("round trips with GDAL", gis.gis_hold),
        ("maps asked by their pages", ask.asks_hold),
        ("maps on servers", servers.all_hold),
        ("a host", hosts.all_hold),
        ("the gateway and the driver of GDAL", gateway.gateway_holds),
        ("atlases as readers judge them", sheets.sheets_hold),
        ("atlases by their publisher", atlases.atlases_hold),
        ("atlases whose making is stopped", atlas_stops.stops_hold),
        ("an atlas from features to readers", roads.roads_hold),
        ("the examples on pages", pages.pages_hold),
    ]
    if bench.is_long:
        parts.append(("vectors on large files", lambda bench: vectors_hold(bench, "large.tsv")))
    room: Optional[str] = "/dev/shm" if os.access("/dev/shm", os.W_OK) else None
    for name, part in parts:
        rows, began = bench.rows, time.monotonic()
        with tempfile.TemporaryDirectory(dir=None if "large" in name else room) as folder:
            os.chdir(folder)
            part(bench)
            os.chdir("/")
        print("tests/clients: %s: %d rows, %.1f s" % (name, bench.rows - rows, time.monotonic() - began))
    print("tests/clients: %d rows, %d failed, %d skipped" % (bench.rows, bench.failed, bench.skipped))
    return 1 if bench.failed else 0


if __name__ == "__main__":
    sys.exit(main(*sys.argv[1:]))
