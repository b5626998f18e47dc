#!/usr/bin/env python3
"""More than a million records: an atlas, a map of maps, by its publisher. docs/ATLAS.md says how, from first to last.

usage: mrtree_atlas.py split RECORDS ATLAS [--sheet N] [--jobs N] [options]   the texts of the sheets, from a file
       mrtree_atlas.py build ATLAS [--jobs N]                  the maps of these, and the index; prints the root digest
       mrtree_atlas.py update ATLAS BATCH [--jobs N]           the next state; prints its root digest
       mrtree_atlas.py replay ATLAS UPDATE [--jobs N]          of a mirror: the same by `updates/N` of the publisher
       mrtree_atlas.py bind ATLAS MAP.. [--jobs N]             an atlas of others' maps, or its next state; prints it
       mrtree_atlas.py prove ATLAS QUERY PROOF                 the proof of a query
       mrtree_atlas.py count ATLAS QUERY PROOF                 the proof of a count, in version 2
       mrtree_atlas.py info ATLAS                              what the atlas is
       mrtree_atlas.py audit ATLAS [--deep] [--jobs N]         whether index and sheets fit together
       mrtree_atlas.py tidy ATLAS                              takes away sheets and indexes of older states
       mrtree_atlas.py COMMAND --help                          the options of a command

RECORDS is a record text of either version, of any length, or a file that `records.py text` reads, with its options.
ATLAS is a folder: the index and `sheets`, with a file for each sheet, named by its root digest, which never changes.
The program is `mrtree` on the path, or what MRTREE names.

A run that is stopped leaves the atlas as it was, or as it is to be, and the same command finishes it. Exit statuses: 0,
1 where words or a file do not fit, 2 where a map is damaged or no sheet, 7 where a file cannot be read or written, 8
without memory, 10 where version 2 is needed. This script is tested and not proved.
"""
from __future__ import annotations

import sys

if __name__ == "__main__":  # an interrupt while modules are read ends the run without a trace
    sys.excepthook = lambda kind, *rest: kind is KeyboardInterrupt or sys.__excepthook__(kind, *rest)

import signal

if __name__ == "__main__":
    signal.signal(signal.SIGINT, signal.SIG_DFL)

import argparse
import contextlib
import os
from typing import Any, Callable, Dict, List, NoReturn, Optional

if __package__:
    from . import atlas_audit, atlas_bind, atlas_build, atlas_numbers, atlas_prove, atlas_sort, atlas_update
    from . import atlas_texts, outputs, records, shapes, sources
    from . import mrtree_check as client
    from .atlas_sheets import PART, Failed, Folder, Mapper, front_of, take_away, workers
    from .outputs import Unfit
else:
    import atlas_audit
    import atlas_bind
    import atlas_build
    import atlas_numbers
    import atlas_prove
    import atlas_sort
    import atlas_texts
    import atlas_update
    import mrtree_check as client
    import outputs
    import records
    import shapes
    import sources
    from atlas_sheets import PART, Failed, Folder, Mapper, front_of, take_away, workers
    from outputs import Unfit

SCRIPT = "mrtree_atlas.py"
SHEET = 2**14  # records of a sheet, unless --sheet says otherwise
MOST_JOBS = 64
READS = records.READS.replace("places-to ", "")  # the options by which `split` reads a file


# ---- split


def split_command(given: argparse.Namespace) -> None:
    """Writes the texts of the sheets."""
    folder = Folder(given.ATLAS)
    os.makedirs(folder.name, exist_ok=True)
    with folder.locked():
        if folder.has_index() or os.path.exists(folder.split):
            there = "an atlas" if folder.has_index() else "a split already, which `build` makes an atlas of"
            raise Unfit("%s: there is %s; take it away, or name another folder" % (folder.name, there))
        room = folder.at(PART + "split")
        os.makedirs(room)
        with workers(given.jobs) as doing:
            told = cut_file(given, room, doing)
        os.rename(room, folder.split)
    outputs.tell(SCRIPT, told)


def cut_file(given: argparse.Namespace, room: str, doing: Mapper) -> str:
    """Cuts what is in a file into the texts of sheets; answers what is told of it. Raises Unfit and OSError."""
    form, told = given.form or ("text" if given.RECORDS == "-" else sources.form_of(given.RECORDS)), ""
    if form != "text":
        options, has_shapes = records.options_of(given), bool(given.shapes_to)
        names, counts = atlas_texts.texts_of(given.RECORDS, form, options, room, doing, has_shapes)
        told += "; left out, since without geometry: %d" % counts.skipped if counts.skipped else ""
        told += "; cut at the antimeridian: %d, %s .." % (counts.cut, ", ".join(counts.some)) if counts.cut else ""
    else:
        is_there = given.RECORDS != "-" and not given.RECORDS.lower().endswith(".gz")
        names = [given.RECORDS if is_there else atlas_texts.copied(given.RECORDS, os.path.join(room, "text-"))]
    version = max(map(atlas_sort.version_of, names))
    pieces = atlas_sort.pieces_of(names, version, room, atlas_sort.HOLD // given.jobs)
    try:
        sizes = atlas_sort.cut(pieces, room, 1, doing, lambda count: -(-count // given.sheet))
    except atlas_sort.BadLine as bad:
        words = "%s: line %d: it is no record line of version %d"
        raise Unfit(words % (given.RECORDS, atlas_sort.line_at(*bad.args), version)) from None
    for name in names:
        if name != given.RECORDS:
            take_away(name)
    if given.shapes_to:
        put_shapes(given, counts.runs, room)
    return "%d records in %d sheets" % sizes + told


def put_shapes(given: argparse.Namespace, runs: List[str], room: str) -> None:
    """Writes the shapes of the records, and the index to them. Raises Unfit and OSError."""
    with contextlib.ExitStack() as stack:
        names = given.shapes_to, shapes.index_name(given.shapes_to)
        files = [stack.enter_context(outputs.written(name, [given.RECORDS])) for name in names]
        atlas_texts.write_shapes(runs, room, *files)


# ---- build, update, replay


def build_command(given: argparse.Namespace) -> None:
    """Makes the atlas of the texts, and prints its root digest; of an atlas, what of its directory is missing."""
    folder = Folder(given.ATLAS)
    with folder.locked():
        if not folder.has_index() and not os.path.isdir(folder.split):
            raise Unfit("%s: it is no atlas, and there are no texts of sheets: `split` makes them" % folder.name)
        with workers(given.jobs) as doing:
            if not folder.has_index():
                atlas_build.make_atlas(folder, doing)
            root = root_of(folder)
            if not os.path.exists(atlas_numbers.list_name(folder, root)):
                atlas_build.remake_numbers(folder, root, doing)
        atlas_numbers.forget_others(folder, root, atlas_numbers.read_held(folder, root))
        take_away(folder.split)
    say(root)


def update_command(given: argparse.Namespace) -> None:
    """Makes the next state of an atlas by a batch, and prints its root digest."""
    folder = Folder(given.ATLAS)
    with folder.locked(), workers(given.jobs) as doing:
        atlas_update.update(atlas_of(folder), given.BATCH, doing)
        root = root_of(folder)
    say(root)


def replay_command(given: argparse.Namespace) -> None:
    """Makes the next state of a mirror's atlas, as its publisher made it, and prints its root digest."""
    folder = Folder(given.ATLAS)
    with folder.locked(), workers(given.jobs) as doing:
        atlas_update.replay(atlas_of(folder), given.UPDATE, doing)
        root = root_of(folder)
    say(root)


def bind_command(given: argparse.Namespace) -> None:
    """Makes an atlas of maps that others publish, or its next state, and prints its root digest."""
    folder = Folder(given.ATLAS)
    os.makedirs(folder.name, exist_ok=True)
    with folder.locked(), workers(given.jobs) as doing:
        if os.path.isdir(folder.split):
            raise Unfit("%s: there are texts of sheets, which `build` makes an atlas of" % folder.name)
        atlas_bind.bind(folder, given.MAP, doing)
        root = root_of(folder)
    say(root)


def tidy_command(given: argparse.Namespace) -> None:
    """Takes away what the index does not name, and prints how many files that was."""
    folder = Folder(given.ATLAS)
    with folder.locked():
        unneeded = atlas_audit.unneeded(atlas_of(folder))
        for name in unneeded:
            take_away(folder.sheet(name))
    say("removed %d" % len(unneeded))


def atlas_of(folder: Folder) -> Folder:
    """The folder of an atlas. Raises Unfit where it is none."""
    if not folder.has_index():
        hint = "it is no atlas yet: `build` makes it" if os.path.isdir(folder.split) else "it is no atlas"
        raise Unfit("%s: %s" % (folder.name, hint))
    return folder


def root_of(folder: Folder) -> str:
    """The root digest of an atlas."""
    return client.digest(front_of(folder.index)).hex()


# ---- proofs, and what an atlas is


def prove_command(given: argparse.Namespace, counts: bool = False) -> None:
    """Writes the proof of a query, or of a count, and prints its length."""
    folder = atlas_of(Folder(given.ATLAS))
    try:
        query = client.read_window(given.QUERY) if counts else client.read_query(given.QUERY)
    except ValueError as fault:
        raise Unfit(str(fault)) from None
    if os.path.realpath(os.path.dirname(given.PROOF)) == os.path.realpath(folder.sheets):
        raise Unfit("%s is to be written among the sheets of an atlas: give it another name" % given.PROOF)
    size = 0
    with atlas_prove.prover(folder) as prover, outputs.written(given.PROOF, [folder.index]) as file:
        for piece in prover.proof(query, counts):
            size += file.write(piece)
    say("proof %d" % size)


def count_command(given: argparse.Namespace) -> None:
    """Writes the proof of a count, and prints its length."""
    prove_command(given, True)


def info_command(given: argparse.Namespace) -> None:
    """Prints what the atlas is."""
    for line in atlas_audit.info(atlas_of(Folder(given.ATLAS))):
        say(line)


def audit_command(given: argparse.Namespace) -> None:
    """Prints what does not fit together, and ends with status 2 where something does not."""
    with workers(given.jobs) as doing:
        bad = atlas_audit.audit(atlas_of(Folder(given.ATLAS)), given.deep, doing, say)
    if bad:
        raise Failed(2, "%d faults" % bad)


def say(line: str) -> None:
    """Prints a line. Raises OSError."""
    os.write(1, line.encode() + b"\n")


# ---- words


def whole(least: int, most: int) -> Callable[[str], int]:
    """What reads a whole number from the least to the most."""

    def read(word: str) -> int:
        """The number that a word spells. Raises ArgumentTypeError."""
        try:
            return client.read_decimal(word, least, most)
        except ValueError:
            told = sources.clipped(word), least, most
            raise argparse.ArgumentTypeError("%s is no number from %d to %d" % told) from None

    return read


COMMANDS: Dict[str, Any] = {
    "split": (split_command, "RECORDS ATLAS"),
    "build": (build_command, "ATLAS"),
    "update": (update_command, "ATLAS BATCH"),
    "replay": (replay_command, "ATLAS UPDATE"),
    "bind": (bind_command, "ATLAS MAP"),
    "prove": (prove_command, "ATLAS QUERY PROOF"),
    "count": (count_command, "ATLAS QUERY PROOF"),
    "info": (info_command, "ATLAS"),
    "audit": (audit_command, "ATLAS"),
    "tidy": (tidy_command, "ATLAS"),
}
WITH_JOBS = ("split", "build", "update", "replay", "bind", "audit")


class Parser(records.Parser):
    """A parser of command lines that tells in a line what is wrong."""

    def error(self, message: str) -> NoReturn:
        """Raises Unfit."""
        raise Unfit("%s (%s --help)" % (message, SCRIPT))


def parser() -> Parser:
    """The parser of all command lines."""
    raw = argparse.RawDescriptionHelpFormatter
    top = Parser(prog=SCRIPT, description=__doc__, usage=argparse.SUPPRESS, formatter_class=raw)
    commands = top.add_subparsers(dest="command", required=True, help=argparse.SUPPRESS)
    for command, (_, names) in COMMANDS.items():
        one = commands.add_parser(command, prog="%s %s" % (SCRIPT, command), allow_abbrev=False)
        for name in names.split():
            one.add_argument(name, nargs="+" if name == "MAP" else None)
        if command in WITH_JOBS:
            jobs = min(4, os.cpu_count() or 1)
            one.add_argument("--jobs", type=whole(1, MOST_JOBS), default=jobs, help="processes at once: %d" % jobs)
        if command == "split":
            told = "the most records of a sheet: %d" % SHEET
            one.add_argument("--sheet", type=whole(1, 2**20), default=SHEET, help=told)
            add_reading(one)
        if command == "audit":
            one.add_argument("--deep", action="store_true", help="judges each page of each sheet too")
    return top


def add_reading(one: Any) -> None:
    """Gives a command the options by which `records.py text` reads a file."""
    for option, told in (line.split(": ", 1) for line in records.HELP.split("\n")):
        is_sign = option in records.SIGNS
        if option[2:] not in READS.split():
            one.set_defaults(**{option[2:].replace("-", "_"): False if is_sign else None})
        elif is_sign:
            one.add_argument(option, action="store_true", help=told)
        else:
            one.add_argument(option, type=records.TYPES.get(option), help=told)


def refuse_clash(given: argparse.Namespace) -> None:
    """Raises Unfit where options of `split` do not go together, or one is missing."""
    if given.form not in (None, *sources.FORMS.values(), "text"):
        raise Unfit("--form is geojson, geojsonseq, csv or text, and not %s" % sources.clipped(given.form))
    if given.payload and given.digest:
        raise Unfit("the payload is either what --payload names or, with --digest, a digest")
    records.refuse_other_reads(given)
    form = given.form or ("text" if given.RECORDS == "-" else sources.form_of(given.RECORDS))
    if form == "text" and given.shapes_to:
        raise Unfit("a record text has no shapes, which --shapes-to would write")
    if form != "text" and given.unit is None:
        raise Unfit("--unit has to be given: how large a map unit is in the file's unit")


def run(words: List[str]) -> None:
    """Does what the words of a command line say. Raises what outputs.status_of tells."""
    given = parser().parse_args(words)
    if given.command == "split":
        refuse_clash(given)
    COMMANDS[given.command][0](given)


def main(words: Optional[List[str]] = None) -> int:
    """Runs the words of a command line; answers the exit status."""
    return outputs.status_of(SCRIPT, lambda: run(sys.argv[1:] if words is None else words))


if __name__ == "__main__":
    signal.signal(signal.SIGINT, signal.default_int_handler)
    sys.exit(main())
