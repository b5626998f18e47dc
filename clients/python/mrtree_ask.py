#!/usr/bin/env python3
"""Asks a map by its root digest, where its file lies on a server or on the disk, and prints the checked answer.

usage: mrtree_ask.py [OPTIONS] [check | check-count] ROOT QUERY SOURCE
       mrtree_ask.py [OPTIONS] check-join ROOT ROOT2 SOURCE SOURCE2
       mrtree_ask.py --statement FILE [OPTIONS] [check | check-count] QUERY [SOURCE]
       mrtree_ask.py --statement FILE --statement2 FILE [OPTIONS] check-join [SOURCE SOURCE2]

SOURCE is an address that begins with http:// or https://, or the name of a map file. Of it the pages are fetched that
the query opens. The honest proof is made of them, and then it is checked by mrtree_check.py, whose lines are printed.
A SOURCE that ends with a slash, or is a folder, is an atlas, a map of maps: then the lines are those of check-atlas and
check-atlas-count. Joins are not of atlases.

--proof FILE        keeps the proof in a file, once it is accepted
--features FILE     of `check`, keeps the true shapes of the answer in a file, a feature of GeoJSON on each line; for -
                    they are printed in the place of the records
--shapes FILE       the shapes that the publisher gives, a file or an address, with an index beside it; else those that
                    the statement says. Those of the answer are fetched alone, each by its digest
--most BYTES        fetches at most so many bytes in all, else 1073741824
--requests NUMBER   sends at most so many requests in all, else 10000
--seconds NUMBER    takes at most so long for them, else 600
--statement FILE    takes root and address from the publisher's statement, and compares what it says; of several the
                    newest is taken. FILE may be an address
--statement2 FILE   the same of the second map of a join
--publishers FILE   takes statements alone that somebody signed who stands in this file (ssh-keygen's allowed signers)
--help, -h          prints this, where it stands first; --version the version

Exit statuses are those of mrtree_check.py, and 10 where a map of version 2 is needed. docs/HOSTING.md has all texts.
The script is tested, not proved.

As a module: `ask(root, query, source)` answers what `check` of mrtree_check answers, or raises what it raises, and
Failed where the file cannot be had. `ask_count` and `ask_join` do the same of counts and joins. Of an atlas the first
two answer what `check_atlas` and `check_atlas_count` do. `open_map` and `open_atlas` are for several queries: they keep
what was fetched, and make the proofs.
"""
from __future__ import annotations

import sys

if __name__ == "__main__":  # an interrupt while modules are read ends the run without a trace
    sys.excepthook = lambda kind, *rest: kind is KeyboardInterrupt or sys.__excepthook__(kind, *rest)

import signal

if __name__ == "__main__":
    signal.signal(signal.SIGINT, signal.SIG_DFL)

import os
import re
from contextlib import ExitStack, suppress
from typing import Dict, List, NamedTuple, Optional, Tuple, Union

if __package__:
    from . import mrtree_check as client
    from . import outputs, shapes, statement
    from .mrtree_check import Answer, AtlasAnswer, AtlasCount, Count, Ended, Join, Query, Refused
    from .pagewise import MEANINGS, FarMap, MapRefused, join_proof
    from .ranges import Failed, Limits, Meter, is_address, read_address, source_of, told
    from .sheetwise import FarAtlas, is_atlas
    from .statement import Statement
else:
    import mrtree_check as client
    import outputs
    import shapes
    import statement
    from mrtree_check import Answer, AtlasAnswer, AtlasCount, Count, Ended, Join, Query, Refused
    from pagewise import MEANINGS, FarMap, MapRefused, join_proof
    from ranges import Failed, Limits, Meter, is_address, read_address, source_of, told
    from sheetwise import FarAtlas, is_atlas
    from statement import Statement

__all__ = ["FarAtlas", "FarMap", "Failed", "Limits", "MapRefused", "Refused", "ask", "ask_count", "ask_join"]
__all__ += ["is_atlas", "open_atlas", "open_map"]

SCRIPT = "mrtree_ask.py"
USAGE = "usage: %s [OPTIONS] [check | check-count] ROOT QUERY SOURCE" % SCRIPT
USAGE += ", or: check-join ROOT ROOT2 SOURCE SOURCE2"


# ---- as a module


def open_map(root: str, source: str, limits: Limits = Limits()) -> FarMap:
    """The map with a root digest, in a file at an address or of a name, for several queries. Raises as `ask`."""
    return FarMap(client.read_root(root), source_of(source, Meter(limits)))


def open_atlas(root: str, place: str, limits: Limits = Limits()) -> FarAtlas:
    """The atlas with a root digest, in a folder or below an address, for several queries. Raises as `ask`."""
    return FarAtlas(client.read_root(root), place, Meter(limits))


def ask(root: str, query: str, source: str, limits: Limits = Limits()) -> Union[Answer, AtlasAnswer]:
    """The answer to a query word on the map or atlas with a root digest, which is at an address or has a name.

    Raises Refused, and of that MapRefused where a page does not fit; Failed where a file cannot be had; Ended where a
    mask is named and a map is of version 1; and ValueError where a word is no such word.
    """
    asked = client.read_query(query)
    if is_atlas(source):
        return client.check_atlas(root, query, open_atlas(root, source, limits).proof(asked))
    return client.check(root, query, open_map(root, source, limits).proof(asked))


def ask_count(root: str, query: str, source: str, limits: Limits = Limits()) -> Union[Count, AtlasCount]:
    """How many records lie inside the window of a query word. Raises as `ask`."""
    asked = client.read_window(query)
    if is_atlas(source):
        return client.check_atlas_count(root, query, open_atlas(root, source, limits).count_proof(asked))
    return client.check_count(root, query, open_map(root, source, limits).count_proof(asked))


def ask_join(root: str, root2: str, source: str, source2: str, limits: Limits = Limits()) -> Join:
    """Which records of two maps meet. Raises as `ask`; of Refused the part says of which map it is."""
    digests = client.read_root(root), client.read_root(root2)
    return client.check_join(root, root2, proof_of_join(*digests, [source, source2], Meter(limits)))


def proof_of_join(root: bytes, root2: bytes, sources: List[str], meter: Meter) -> bytes:
    """The honest proof of a join of the maps in two files. Raises as `ask_join`."""
    fars = []
    for part, one, source in zip(("first", "second"), (root, root2), sources):
        try:
            fars.append(FarMap(one, source_of(source, meter)))
        except MapRefused as fault:
            raise MapRefused(fault.rule, fault.place, fault.found, part) from None
    return join_proof(*fars)


def is_map(name: str) -> bool:
    """Whether a word is an address, or the name of a file that begins as map files do.

    >>> is_map("https://example.org/a.map"), is_map("no such file")
    (True, False)
    """
    if is_address(name):
        return True
    with suppress(OSError, ValueError):
        if os.path.isfile(name):
            with open(name, "rb") as file:
                return file.read(4) == b"MRMP"
    return False


# ---- the commands


class Words(NamedTuple):
    """The words of a command line: the command, the root digest, what is asked, the sources, and what options say.

    What is asked is a query, and of `check-join` the second root digest. Where no proof is kept, its name is empty, and
    so of features. So are root digests, sources and shapes that are still to be taken from statements.
    """

    command: str
    root: bytes
    asked: Union[Query, bytes]
    sources: List[str]
    proof: str
    limits: Limits
    statements: Tuple[List[str], List[str]] = ([], [])  # the files of each map's
    publishers: Optional[str] = None
    said: Tuple[Statement, ...] = ()  # of each map, once they are read
    features: str = ""
    shapes: str = ""


Done = Tuple[bytes, List[str], bytes]  # a proof, the lines of its answer, and its features where they are kept


def check_done(words: Words, meter: Meter) -> Done:
    """What comes of `check`."""
    if is_atlas(words.sources[0]):
        proof = FarAtlas(words.root, words.sources[0], meter).proof(words.asked)
        answer: Union[Answer, AtlasAnswer] = client.judge_atlas(words.root, words.asked, [proof])
    else:
        proof = FarMap(words.root, source_of(words.sources[0], meter)).proof(words.asked)
        answer = client.judge(words.root, words.asked, [proof])
    for said in words.said:
        statement.compare_verdict(said, answer)
        statement.compare_records(said, answer.records)
    features = features_of(words.shapes, answer, meter) if words.features else b""
    return proof, answer.lines(), features


def features_of(name: str, answer: Union[Answer, AtlasAnswer], meter: Meter) -> bytes:
    """The features of an answer, a line each, out of shapes of which no others are fetched. Raises Refused, Failed."""
    try:
        found = shapes.Shapes(name, meter).fetch(answer.records)
    except ValueError as fault:
        raise Failed("NoFile", name, str(fault)) from None
    return b"".join(found[record.number] + b"\n" for record in answer.records)


def count_done(words: Words, meter: Meter) -> Done:
    """What comes of `check-count`."""
    if is_atlas(words.sources[0]):
        proof = FarAtlas(words.root, words.sources[0], meter).count_proof(words.asked)
        count: Union[Count, AtlasCount] = client.judge_atlas_count(words.root, words.asked, [proof])
    else:
        proof = FarMap(words.root, source_of(words.sources[0], meter)).count_proof(words.asked)
        count = client.judge_count(words.root, words.asked, [proof])
    for said in words.said:
        statement.compare_verdict(said, count)
    return proof, ["count %d" % count.inside], b""


def join_done(words: Words, meter: Meter) -> Done:
    """What comes of `check-join`."""
    proof = proof_of_join(words.root, words.asked, words.sources, meter)
    join = client.judge_join(words.root, words.asked, [proof])
    for said, state in zip(words.said, (join.first, join.second)):
        if state:
            statement.compare_verdict(said, state)
    return proof, ["pair %d %d" % pair for pair in join.pairs], b""


COMMANDS = {  # how many sources each has, what reads its second word, and what does it
    "check": (1, client.read_query, check_done),
    "check-count": (1, client.read_window, count_done),
    "check-join": (2, client.read_root, join_done),
}
NAMED = ("--proof", "--publishers", "--features", "--shapes")  # options that name a file
SEVERAL = ("--statement", "--statement2")  # options that may stand several times
LIMITS = {"--most": "bytes", "--requests": "requests", "--seconds": "seconds"}  # the options that set one


def read_words(words: List[str]) -> Words:
    """What the words of a command line mean. Raises ValueError, with what is wrong, where they spell no command.

    >>> words = read_words(["00" * 32, "nearest:1,2,3", "a.map", "--requests", "5"])
    >>> words.command, words.asked.k, words.sources, words.proof, words.limits.requests
    ('check', 3, ['a.map'], '', 5)
    """
    given, rest = read_options(words)
    command = rest.pop(0) if rest and rest[0] in COMMANDS else "check"
    count, read, _ = COMMANDS[command]
    statements = given.pop("--statement", []), given.pop("--statement2", [])
    publishers = given.pop("--publishers", [None])[0]
    if publishers and not statements[0] or bool(statements[1]) != (command == "check-join" and bool(statements[0])):
        raise ValueError("--publishers goes with --statement, and --statement2 too, of the second map of a join")
    if statements[0]:
        rest = filled(rest, command)
    elif "" in rest:
        raise ValueError(USAGE)
    if len(rest) != 2 + count:
        raise ValueError(USAGE)
    root, asked = rest[0] and client.read_root(rest[0]), rest[1] and read(rest[1])
    for source in filter(is_address, rest[2:]):
        read_address(source)
    proof, features, shapes_ = (given.pop(option, [""])[0] for option in ("--proof", "--features", "--shapes"))
    if command == "check-join" and any(map(is_atlas, rest[2:])):
        raise ValueError("joins are of maps, and not of atlases")
    if shapes_ and not features or features and (command != "check" or not (shapes_ or statements[0])):
        raise ValueError("--features goes with `check`, and with --shapes or a statement that says where shapes are")
    limits = {LIMITS[option]: read_number(option, word) for option, (word,) in given.items()}
    found = Words(command, root or b"", asked or b"", rest[2:], proof, Limits(**limits), statements, publishers)
    found = found._replace(features=features, shapes=shapes_)
    refuse_read(found)
    return found


def refuse_read(words: Words) -> None:
    """Raises ValueError where what is to be written is read too, or is to stand among the sheets of an atlas."""
    beside = [words.shapes, shapes.index_name(words.shapes)] if words.shapes else []
    stated_ = [*words.statements[0], *words.statements[1]]
    signed = [words.publishers, *map(statement.signature_name, stated_)] if words.publishers else []
    given = [*words.sources, *stated_, *signed, *beside]
    if words.proof:
        refuse_same(words.proof, given)
    if words.features:
        refuse_same(words.features, [*given, words.proof] if words.proof else given)


def filled(words: List[str], command: str) -> List[str]:
    """The words of a command, with an empty one for each that is left out since statements say it.

    >>> filled(["window:0,0,1,1"], "check"), filled(["a.map", "b.map"], "check-join")
    (['', 'window:0,0,1,1', ''], ['', '', 'a.map', 'b.map'])
    """
    if command == "check-join":
        return [""] * 4 if not words else ["", "", *words] if len(words) == 2 else words
    more = {1: ["", *words, ""], 2: ["", *words]}.get(len(words), words)
    return more if more[1:2] != [""] else []


def stated(words: Words) -> Words:
    """The words with what is left out of them, from the statements that they name. Raises Ended."""
    names = [one for one in words.statements if one]
    said = tuple(statement.chosen(one, words.publishers, lambda line: outputs.tell(SCRIPT, line)) for one in names)
    digests = [words.root, words.asked if len(said) == 2 else b""]
    roots = [client.read_root(statement.root_of(*one)) for one in zip(said, [one.hex() or None for one in digests])]
    sources = [source or address_of(one) for source, one in zip(words.sources, said)]
    shapes_ = words.shapes or shapes_said(said[0]) if words.features else ""
    asked = roots[1] if len(said) == 2 else words.asked
    found = words._replace(root=roots[0], asked=asked, sources=sources, said=said, shapes=shapes_)
    try:
        refuse_read(found)
    except ValueError as fault:
        raise Failed("NoFile", said[0].name, str(fault)) from None
    return found


def shapes_said(said: Statement) -> str:
    """Where the shapes of a statement are. Raises Ended where it says none."""
    if not said.shapes:
        raise Failed("NoFile", said.name, "the statement says no shapes: name them with --shapes")
    return said.where(said.shapes)


def address_of(said: Statement) -> str:
    """Where the map of a statement is. Raises Ended where it says no address, or one that is none."""
    if not said.address:
        raise Failed("NoFile", said.name, "the statement has no address of the map: name the SOURCE")
    found = said.where(said.address)
    try:
        return read_address(found).word if is_address(found) else found
    except ValueError as fault:
        raise Failed("NoFile", found, str(fault)) from None


def read_options(words: List[str]) -> Tuple[Dict[str, List[str]], List[str]]:
    """The options of a command line, and its other words. Raises ValueError."""
    given: Dict[str, List[str]] = {}
    rest: List[str] = []
    left = iter(words)
    for word in left:
        if not word.startswith("--"):
            rest.append(word)
            continue
        value = next(left, "")
        is_new = word not in given or word in SEVERAL
        if word not in (*NAMED, *SEVERAL, *LIMITS) or not is_new or not value:
            raise ValueError("%s is no option, or stands there twice, or has no value" % word)
        given.setdefault(word, []).append(value)
    return given, rest


def read_number(option: str, word: str) -> int:
    """The number of an option. Raises ValueError."""
    try:
        return client.read_decimal(word, 0, 2**63 - 1)
    except ValueError:
        raise ValueError("%s stands before a whole number" % option) from None


def refuse_same(proof: str, sources: List[str]) -> None:
    """Raises ValueError where a proof is to stand in a file that is read, or among those of an atlas."""
    folder = os.path.dirname(os.path.realpath(proof))
    if any(is_atlas(source) and folder == os.path.realpath(os.path.join(source, "sheets")) for source in sources):
        raise ValueError("%s is to be written among the sheets of an atlas: give it another name" % proof)
    try:
        outputs.refuse_same(proof, sources)
    except outputs.Unfit as unfit:
        raise ValueError(str(unfit)) from None


def keep(name: str, what: bytes) -> None:
    """Keeps a proof or features in a file. Raises Failed."""
    try:
        with outputs.written(name) as file:
            file.write(what)
    except (OSError, ValueError) as fault:
        raise Failed("NoFile", name, told(fault)) from None


def run(words: List[str]) -> Tuple[int, str]:
    """Exit status and text of the words behind the script's name: of status 7 the text is for standard error.

    >>> run(["--help"])[1].splitlines()[2]
    'usage: mrtree_ask.py [OPTIONS] [check | check-count] ROOT QUERY SOURCE'

    >>> run(["00" * 32, "window:0,0,1,1", "no such file"])
    (7, 'failed NoFile no such file: missing\\n')
    """
    if words[:1] in (["-h"], ["--help"]):
        return 0, (__doc__ or USAGE) + "\n" * (__doc__ is None)
    if words[:1] == ["--version"]:
        return 0, "%s %s\n" % (SCRIPT, client.__version__)
    try:
        asked = read_words(words)
    except ValueError:
        return 1, "bad words\n"
    try:
        asked = stated(asked) if asked.statements[0] else asked
        with ExitStack() as stack:
            for said in asked.said:
                stack.enter_context(statement.judged(said))
            proof, lines, features = COMMANDS[asked.command][2](asked, Meter(asked.limits))
        for name, kept in ((asked.proof, proof), (asked.features, features)):
            if name:
                keep(name, kept)
        return 0, "".join(line + "\n" for line in lines if asked.features != "-")
    except Refused as fault:
        return 2, "%s\n" % fault
    except Ended as ended:
        return ended.status, ended.line + "\n"
    except MemoryError:
        return 8, ""


def explain(words: List[str], status: int, text: str) -> None:
    """Says on standard error why words spell no command, or what a status other than 0 mostly means."""
    try:
        if status == 1:
            read_words(words)
        page = re.search(r"map page [0-9]+ ([A-Za-z]+)", text) if status == 2 else None
        shape = re.match(r"refused (?:shape [0-9]+|index) ([A-Za-z]+)\n$", text)
        is_told = ": " in text  # what does not go with a statement says itself why
        why = shapes.MEANINGS[shape[1]] if shape else "" if is_told else client.meaning_of(text)
        why = MEANINGS.get(page[1], "") if page else why
        if status == 10:
            why = "the map is of version 1, which has no layers, no counts and no joins"
    except ValueError as fault:
        why = str(fault)
    if why:
        outputs.tell(SCRIPT, why)


def main() -> int:
    """Runs the words of the command line; answers the exit status."""
    try:
        words = [os.fsencode(word).decode() for word in sys.argv[1:]]
        status, text = run(words)
        if status == 7:
            outputs.tell(SCRIPT, text.rstrip("\n"))
            return status
        left = memoryview(text.encode())
        while left:
            left = left[os.write(1, left) :]
        if status:
            explain(words, status, text)
    except (UnicodeDecodeError, OSError):
        return 7
    except MemoryError:
        return 8
    except KeyboardInterrupt:
        return outputs.STOPPED
    return status


if __name__ == "__main__":
    signal.signal(signal.SIGINT, signal.default_int_handler)
    sys.exit(main())
