"""Makes an atlas of the texts of its sheets: a map of each, the index, and the directory of numbers.

`split` leaves the texts of the sheets in the folder `split`: `N.txt` is that of sheet N, and any other program may put
them there too. `build` makes a map of each, by several processes, and then the index; its last step is one rename. A
run that is stopped has made no atlas, and the same command goes on where it was. Tested, and not proved.
"""
from __future__ import annotations

import os
import re
from typing import List, NamedTuple, Optional

if __package__:
    from . import atlas_numbers, atlas_sort
    from .atlas_numbers import Held
    from .atlas_sheets import PART, Folder, Mapper, clear_parts, count_of, entries_in, entry_line, front_of
    from .atlas_sheets import list_to, put_sheet, run, switch, take_away, write_whole
    from .mrtree_check import digest, read_sheet
    from .outputs import Unfit
else:
    import atlas_numbers
    import atlas_sort
    from atlas_numbers import Held
    from atlas_sheets import PART, Folder, Mapper, clear_parts, count_of, entries_in, entry_line, front_of
    from atlas_sheets import list_to, put_sheet, run, switch, take_away, write_whole
    from mrtree_check import digest, read_sheet
    from outputs import Unfit

TEXT = re.compile(r"([1-9][0-9]{0,9})\.txt")


class Task(NamedTuple):
    """A sheet that is to be made of a text: where, its number, its text, and the version of its map."""

    folder: Folder
    number: int
    text: str
    version: int


class Made(NamedTuple):
    """A sheet that is made: its number, the preimage of its root, its name, and the run of its numbers."""

    number: int
    front: bytes
    name: bytes
    run: str


# ---- a sheet of a text


def make_sheet(task: Task) -> Made:
    """Makes the map of a sheet and the run of its numbers. Raises Unfit, Ended and OSError.

    What says that it is made stands beside the text, so that a run behind a stop does not make it again.
    """
    base = task.text[: -len(".txt")]
    kept, numbers = base + ".made", base + ".numbers"
    front = made_before(task, kept)
    if front is None:
        atlas_numbers.write_run([atlas_numbers.packed(numbers_of(task.text), task.number)], numbers)
        part = task.folder.sheet("%sbuild-%d" % (PART, task.number))
        root = run(["build2" if task.version == 2 else "build", part, task.text])
        front = put_sheet(task.folder, part, root)
        write_whole(kept, front)
    if front[:1] != b"R":
        raise Unfit("%s: a sheet has records, and this text has none" % task.text)
    return Made(task.number, front, b"", numbers)


def made_before(task: Task, kept: str) -> Optional[bytes]:
    """The root preimage of a sheet that an earlier run has made of this text, if there is one."""
    try:
        with open(kept, "rb") as file:
            front = file.read()
        made, text = os.stat(kept), os.stat(task.text)
        is_same = front_of(task.folder.sheet(digest(front).hex())) == front
        return front if is_same and made.st_mtime_ns >= text.st_mtime_ns else None
    except (FileNotFoundError, Unfit):
        return None


def numbers_of(text: str) -> List[int]:
    """The numbers of the records in a text, or in what `list` printed."""
    with open(text, "rb", atlas_sort.BLOCK) as file:
        return [int(line.split(b" ", 1)[0]) for line in file]


# ---- the atlas of the texts


def texts_in(folder: Folder) -> List[Task]:
    """The texts of sheets that are to be made, in rising number. Raises Unfit where there is something else."""
    found = []
    for name in os.listdir(folder.split):
        text = TEXT.fullmatch(name)
        if text and int(text[1]) < 2**32:
            found.append((int(text[1]), os.path.join(folder.split, name)))
        elif not name.endswith((".made", ".numbers")) and name != "merge":
            raise Unfit("%s: it is no text of a sheet (1.txt, 2.txt ..)" % os.path.join(folder.split, name))
    found.sort()
    version = atlas_sort.version_of(found[0][1]) if found else 1
    return [Task(folder, number, text, version) for number, text in found]


def make_atlas(folder: Folder, doing: Mapper) -> None:
    """Makes the atlas of the texts in the folder `split`. Raises Unfit, Ended and OSError."""
    for name in (folder.sheets, folder.numbers, folder.updates):
        os.makedirs(name, exist_ok=True)
    clear_parts(folder.split)
    made = list(doing(make_sheet, texts_in(folder)))
    run_of = "0-0"
    atlas_numbers.merge_all(
        [one.run for one in made],
        os.path.join(folder.split, "merge"),
        os.path.join(folder.numbers, run_of),
        doing,
    )
    sheet = max((count_of(one.front) for one in made), default=1)
    next_ = max((one.number for one in made), default=0) + 1
    make_index(folder, made, Held(sheet, next_, [run_of]))


def make_index(folder: Folder, made: List[Made], held: Held) -> None:
    """Makes the first index of an atlas, of these sheets. Raises Ended and OSError."""
    text, part = folder.at(PART + "index.txt"), folder.sheet(PART + "index")
    with open(text, "w") as file:
        file.writelines(entry_line(one.number, one.front, one.name) + "\n" for one in made)
    root = run(["build", part, text])
    atlas_numbers.write_held(folder, root, held)
    switch(folder, part, root)
    take_away(text)


# ---- the directory of an atlas that has none


class Listed(NamedTuple):
    """A sheet whose numbers are to be listed, and where."""

    folder: Folder
    number: int
    root: str
    run: str


def list_numbers(task: Listed) -> str:
    """Writes the run of the numbers of a sheet; answers its name. Raises Ended and OSError."""
    text = task.run + ".txt"
    list_to(task.folder.sheet(task.root), text)
    atlas_numbers.write_run([atlas_numbers.packed(numbers_of(text), task.number)], task.run)
    os.remove(text)
    return task.run


def remake_numbers(folder: Folder, root: str, doing: Mapper) -> None:
    """Makes the directory of the atlas with this root digest, of its sheets. Raises Refused, Unfit, Ended, OSError."""
    os.makedirs(folder.numbers, exist_ok=True)
    os.makedirs(folder.updates, exist_ok=True)
    room = folder.at(PART + "numbers")
    os.makedirs(room)
    sheets = [read_sheet(record) for record in entries_in(folder.index)]
    tasks = [Listed(folder, one.number, one.root.hex(), os.path.join(room, "%d" % one.number)) for one in sheets]
    runs = list(doing(list_numbers, tasks))
    atlas_numbers.merge_all(runs, os.path.join(room, "merge"), os.path.join(folder.numbers, "0-0"), doing)
    size, next_ = max((one.count for one in sheets), default=1), max((one.number for one in sheets), default=0) + 1
    atlas_numbers.write_held(folder, root, Held(size, next_, ["0-0"]))
    take_away(room)
