"""An atlas of maps that others publish: each county signs its own map, and the nation's index binds them.

A bound sheet is a map file as it came, and its name is the file's. Binding again makes the next state: a map that is
given again under its name keeps its number, one that is not given any more goes. No record number stands in two of
them. Tested, and not proved.
"""
from __future__ import annotations

import os
import shutil
import tempfile
from typing import Dict, List, NamedTuple, Tuple

if __package__:
    from . import atlas_numbers
    from .atlas_build import Listed, Made, list_numbers, make_index
    from .atlas_numbers import Held
    from .atlas_sheets import MOST_NAME, PART, Folder, Mapper, batch_of, count_of, entries_in, front_of
    from .atlas_sheets import put_sheet, refuse_other_index, run, switch, sync, take_away
    from .atlas_update import finish, write_index_batch
    from .mrtree_check import digest, read_sheet
    from .outputs import Unfit
else:
    import atlas_numbers
    from atlas_build import Listed, Made, list_numbers, make_index
    from atlas_numbers import Held
    from atlas_sheets import MOST_NAME, PART, Folder, Mapper, batch_of, count_of, entries_in, front_of
    from atlas_sheets import put_sheet, refuse_other_index, run, switch, sync, take_away
    from atlas_update import finish, write_index_batch
    from mrtree_check import digest, read_sheet
    from outputs import Unfit


class Given(NamedTuple):
    """A map that is to be bound: its file, its name, its root preimage."""

    file: str
    name: bytes
    front: bytes


def given_of(files: List[str]) -> List[Given]:
    """The maps in files, each by its name. Raises Unfit and OSError."""
    found: Dict[bytes, Given] = {}
    fronts: Dict[bytes, str] = {}
    for file in files:
        name = os.fsencode(os.path.splitext(os.path.basename(file))[0])
        front = front_of(file)
        if not 1 <= len(name) <= MOST_NAME:
            raise Unfit("%s: the name of a sheet has 1 to %d bytes" % (file, MOST_NAME))
        if front[:1] != b"R":
            raise Unfit("%s: it has no records, and a sheet has some" % file)
        if name in found:
            raise Unfit("%s: another map has this name: %s" % (file, found[name].file))
        if front in fronts:
            raise Unfit("%s: it is the map of %s" % (file, fronts[front]))
        found[name], fronts[front] = Given(file, name, front), file
    return list(found.values())


class Copied(NamedTuple):
    """A map that is to become a sheet: where, its number, its file."""

    folder: Folder
    number: int
    given: Given
    room: str


def bind_sheet(one: Copied) -> Made:
    """Copies a map among the sheets, once all of its pages are judged, and lists its numbers. Raises Unfit, Ended."""
    root = digest(one.given.front).hex()
    numbers = os.path.join(one.room, "%d" % one.number)
    if not os.path.exists(one.folder.sheet(root)):
        part = one.folder.sheet("%sbind-%d" % (PART, one.number))
        shutil.copyfile(one.given.file, part)
        run(["prove", part, "window:0,0,0,0", numbers + ".proof"])
        put_sheet(one.folder, part, root)
    list_numbers(Listed(one.folder, one.number, root, numbers))
    return Made(one.number, one.given.front, one.given.name, numbers)


def bind(folder: Folder, files: List[str], doing: Mapper) -> None:
    """Makes an atlas of maps, or its next state. Raises Refused, Unfit, Ended and OSError."""
    given = given_of(files)
    for name in (folder.sheets, folder.numbers, folder.updates):
        os.makedirs(name, exist_ok=True)
    held, next_ = bound(folder) if folder.has_index() else ({}, 1)
    numbers = {one.name: held[one.name][0] if one.name in held else 0 for one in given}
    for one in given:
        if not numbers[one.name]:
            numbers[one.name], next_ = next_, next_ + 1
    with tempfile.TemporaryDirectory(dir=folder.name, prefix=PART) as room:
        made = list(doing(bind_sheet, [Copied(folder, numbers[one.name], one, room) for one in given]))
        old = {name: front for name, (_, front) in held.items()}
        if folder.has_index() and old == {one.name: one.front for one in made}:
            return
        batch = batch_of(front_of(folder.index)) + 1 if folder.has_index() else 0
        run_of = "%d-0" % batch
        out = os.path.join(folder.numbers, run_of)
        atlas_numbers.merge_all([one.run for one in made], os.path.join(room, "merge"), out, doing)
        kept = Held(max((count_of(one.front) for one in made), default=1), next_, [run_of])
        if not folder.has_index():
            make_index(folder, made, kept)
            return
        gone = [number for name, (number, front) in held.items() if numbers_differ(name, front, made)]
        come = [one for one in made if held.get(one.name, (0, b""))[1] != one.front]
        change_index(folder, batch, gone, come, kept)


def numbers_differ(name: bytes, front: bytes, made: List[Made]) -> bool:
    """Whether a sheet goes: no map of its name is there any more, or another one."""
    return all(one.name != name or one.front != front for one in made)


def bound(folder: Folder) -> Tuple[Dict[bytes, Tuple[int, bytes]], int]:
    """The sheets by their names, each with its number and root preimage; and the next number. Raises Unfit."""
    refuse_other_index(folder)
    held = {}
    for record in entries_in(folder.index):
        sheet = read_sheet(record)
        if not sheet.name:
            raise Unfit("%s: sheet %d has no name: it is an atlas that `update` changes" % (folder.name, sheet.number))
        held[sheet.name] = sheet.number, record.payload[: len(record.payload) - len(sheet.name)]
    root = digest(front_of(folder.index)).hex()
    return held, atlas_numbers.read_held(folder, root).next


def change_index(folder: Folder, batch: int, gone: List[int], come: List[Made], kept: Held) -> None:
    """Makes the next index. Raises Unfit, Ended and OSError."""
    package, part = os.path.join(folder.updates, PART + "%d" % batch), folder.sheet(PART + "index")
    os.makedirs(package)
    write_index_batch(os.path.join(package, "index.batch"), batch, gone, come)
    root = run(["apply", folder.index, os.path.join(package, "index.batch"), part])
    atlas_numbers.write_held(folder, root, kept)
    take_away(os.path.join(folder.updates, "%d" % batch))
    os.rename(package, os.path.join(folder.updates, "%d" % batch))
    sync(folder.updates)
    switch(folder, part, root)
    finish(folder)
