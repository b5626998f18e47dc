#!/usr/bin/env python3
"""Cuts a map into tiles, each a file with the proof of what is in it: for any web host, where nothing runs.

usage: tiles.py grid SIDE X0,Y0,X1,Y1 SCRIPT
       tiles.py split SCRIPT BUNDLE FOLDER

A tile is a window that begins at COLUMN * SIDE, ROW * SIDE and has SIDE coordinates each way: its last ones are COLUMN *
SIDE + SIDE - 1 and ROW * SIDE + SIDE - 1. `grid` writes a script with the windows of all tiles that meet the rectangle
X0,Y0,X1,Y1. Of it `mrtree serve` makes the bundle. `split` puts each proof of that into a file of its own,
FOLDER/SIDE/COLUMN/ROW.proof; FOLDER is made anew. The proofs are not judged here: whoever reads a tile checks it, and
knows its window by the file's name.

What does not fit is told on standard error, and then nothing is left. Exit statuses: 0, 1 where words or a file do not
fit, 7 where a file cannot be read or written, 8 without memory. The script is tested, not proved.
"""
from __future__ import annotations

import sys

if __name__ == "__main__":  # an interrupt while modules are read ends the run without a trace
    sys.excepthook = lambda kind, *rest: kind is KeyboardInterrupt or sys.__excepthook__(kind, *rest)

import signal

if __name__ == "__main__":
    signal.signal(signal.SIGINT, signal.SIG_DFL)

import os
import shutil
from typing import IO, List, Optional, Tuple

if __package__:
    from . import mrtree_check as client
    from . import outputs
    from .mrtree_check import Ended, Query, Rect
    from .outputs import Unfit
else:
    import mrtree_check as client
    import outputs
    from mrtree_check import Ended, Query, Rect
    from outputs import Unfit

SCRIPT = "tiles.py"
LEAST, MOST = -(2**31), 2**31 - 1  # coordinates
PIECE = 2**20  # bytes that are copied at once


def grid_of(side: int, rect: Rect) -> List[Rect]:
    """The windows of the tiles that meet a rectangle, row by row. Raises Unfit where they are too many or too far out.

    >>> grid_of(10, (-1, 5, 10, 9))
    [(-10, 0, -1, 9), (0, 0, 9, 9), (10, 0, 19, 9)]
    """
    columns, rows = (range(rect[at] // side, rect[at + 2] // side + 1) for at in (0, 1))
    if len(columns) * len(rows) > client.MOST_LINES:
        raise Unfit("these are %d tiles, and a script has at most %d" % (len(columns) * len(rows), client.MOST_LINES))
    if min(columns[0], rows[0]) * side < LEAST or (max(columns[-1], rows[-1]) + 1) * side - 1 > MOST:
        raise Unfit("a tile reaches over the coordinates that there are")
    return [(c * side, r * side, c * side + side - 1, r * side + side - 1) for r in rows for c in columns]


def place_of(query: Query) -> Tuple[int, int, int]:
    """Side, column and row of the tile that a query asks for. Raises Unfit where it is for none.

    >>> place_of(client.read_query("window:-10,0,-1,9"))
    (10, -1, 0)
    """
    x0, y0, x1, y1 = query.rect
    side = x1 - x0 + 1
    if query.k or query.mask is not None or y1 - y0 + 1 != side or x0 % side or y0 % side:
        raise Unfit("a query of the script is for no tile")
    return side, x0 // side, y0 // side


def write_grid(side: str, rect: str, script: str) -> None:
    """Writes the script of a grid. Raises Unfit and OSError."""
    try:
        windows = grid_of(client.read_decimal(side, 1, 2**32), client.read_window("window:" + rect).rect)
    except ValueError:
        raise Unfit("SIDE is a number of map units, and X0,Y0,X1,Y1 a rectangle in them") from None
    with outputs.written(script) as file:
        for window in windows:
            file.write(("window:%d,%d,%d,%d\n" % window).encode())
    outputs.tell(SCRIPT, "%d tiles" % len(windows))


def split(script: str, bundle: str, folder: str) -> None:
    """Puts the proofs of a bundle into files, all or none. Raises Unfit, Ended and OSError."""
    with open(script, "rb") as file:
        queries = client.read_script(file.read())
    places = [place_of(query) for query in queries]
    if len(set(places)) < len(places):
        raise Unfit("%s: a tile is there twice" % script)
    if os.path.lexists(folder):
        raise Unfit("%s is there already" % folder)
    part = "%s.part-%d" % (folder.rstrip("/"), os.getpid())
    os.mkdir(part)
    try:
        with open(bundle, "rb") as file:
            for side, column, row in places:
                os.makedirs("%s/%d/%d" % (part, side, column), exist_ok=True)
                with open("%s/%d/%d/%d.proof" % (part, side, column, row), "wb") as out:
                    copy_part(file, out, bundle)
            if file.read(1):
                raise Unfit("%s: it has more than the queries of the script" % bundle)
        os.rename(part, folder)
    except BaseException:
        shutil.rmtree(part, ignore_errors=True)
        raise
    outputs.tell(SCRIPT, "%d tiles" % len(places))


def copy_part(bundle: IO[bytes], out: IO[bytes], name: str) -> None:
    """Copies the next part of a bundle. Raises Unfit where it is not there whole."""
    front = bundle.read(4)
    left = int.from_bytes(front, "big")
    while left and len(front) == 4:
        piece = bundle.read(min(left, PIECE))
        if not piece:
            break
        out.write(piece)
        left -= len(piece)
    if left or len(front) < 4:
        raise Unfit("%s: it has less than the queries of the script" % name)


def main(words: Optional[List[str]] = None) -> int:
    """Runs the words of a command line; answers the exit status."""
    given = sys.argv[1:] if words is None else words

    def work() -> None:
        """Does what the words say."""
        if len(given) != 4 or given[0] not in ("grid", "split") or "" in given:
            raise Unfit("usage: tiles.py grid SIDE X0,Y0,X1,Y1 SCRIPT, or: tiles.py split SCRIPT BUNDLE FOLDER")
        (write_grid if given[0] == "grid" else split)(*given[1:])

    return outputs.status_of(SCRIPT, work)


if __name__ == "__main__":
    signal.signal(signal.SIGINT, signal.default_int_handler)
    sys.exit(main())
