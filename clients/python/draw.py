#!/usr/bin/env python3
"""Draws a proof as an SVG picture: what it shows of the map, what it leaves out, and the answer.

usage: draw.py [--most BYTES] [--count] ROOT QUERY PROOF SVG
       draw.py [--most BYTES] [--count] --statement FILE [--publishers FILE] QUERY [PROOF] SVG

The proof is checked first, and only one that is accepted is drawn. Round the query and the answer stand the opened
nodes, the pruned parts, the records that are shown and those of the answer. So does the window, or the circle through
the last of the nearest records. With `--count` the proof is a count proof: the pruned parts that are inside the window
are drawn as such, and of the records that are shown those that are inside. A small picture below shows where on the map
that is. North is up. Of more than 4,000 shapes the first are drawn, those of the answer before others, and that is
told. `-` is the standard input or output. With `--statement` the publisher's statement says the root, and where the map
is, of whose pages the proof is made if none is given; `--publishers` names who may have signed it. Exit statuses are those of `records.py`. The script is tested, not proved.
"""
from __future__ import annotations

import sys

if __name__ == "__main__":  # an interrupt while modules are read ends the run without a trace
    sys.excepthook = lambda kind, *rest: kind is KeyboardInterrupt or sys.__excepthook__(kind, *rest)

import signal

if __name__ == "__main__":
    signal.signal(signal.SIGINT, signal.SIG_DFL)

import html
import math
from typing import Callable, Dict, Iterator, List, NamedTuple, Optional, Tuple

if __package__:
    from . import mrtree_ask, outputs, statement
    from . import mrtree_check as client
    from .mrtree_check import Query, Record, Rect
    from .ranges import Limits
    from .statement import Statement
else:
    import mrtree_ask
    import mrtree_check as client
    import outputs
    import statement
    from mrtree_check import Query, Record, Rect
    from ranges import Limits
    from statement import Statement

WIDTH = 640  # of what is drawn of the map, in pixels
HEIGHT = 480  # at most
MARGIN = 24  # round it, in pixels
SMALL = 150, 88  # the most that the picture of the whole map takes, in pixels
MOST_SHAPES = 4000
MOST_SMALL = 400  # shapes in the picture of the whole map
MOST_NAMES = 20  # answers with more records have no names in the picture
STYLE = """
text { font: 11px sans-serif; fill: #222 }
.inner { fill: none; stroke: #1b7f4d; stroke-width: 1.5 }
.leaf { fill: #bfe8d0; fill-opacity: 0.5; stroke: #1b7f4d }
.pruned { fill: #d8d8d8; fill-opacity: 0.5; stroke: #8a8a8a }
.other { fill: #fff; fill-opacity: 0.6; stroke: #555 }
.answer { fill: #1f5fbf; fill-opacity: 0.5; stroke: #1f5fbf }
.frame { fill: none; stroke: #8a8a8a }
.region { fill: #d0402b; fill-opacity: 0.08; stroke: #d0402b; stroke-width: 1.5 }
"""
WHOLE_STYLE = ".whole { fill: #bcd3f5; fill-opacity: 0.6; stroke: #1f5fbf }\n"  # of a part that is inside
LEGEND = [
    ("inner", "opened inner node"),
    ("pruned", "pruned part"),
    ("leaf", "opened leaf"),
    ("answer", "record of the answer"),
    ("region", "what was asked for"),
    ("other", "other record shown"),
]
COUNT_LEGEND = [
    ("inner", "opened inner node"),
    ("whole", "part inside, by its entry alone"),
    ("leaf", "opened leaf"),
    ("pruned", "part apart, by its entry alone"),
    ("region", "what was asked for"),
    ("answer", "record inside"),
    ("other", "other record shown"),
]


class Item(NamedTuple):
    """An item of a proof: its tag, its level, its rectangle in map units, the records of an opened leaf."""

    tag: str
    level: int
    rect: Rect
    records: List[Record]

    def kind(self) -> str:
        """How it is drawn."""
        return {"N": "inner", "L": "leaf", "P": "pruned", "W": "whole"}[self.tag]


class Shown(NamedTuple):
    """What is drawn of an accepted proof: the records of the answer, or of a count those shown that are inside.

    Of a count also how many are inside.
    """

    records: List[Record]
    inside: Optional[int] = None


class Frame(NamedTuple):
    """Which part of the map is drawn where: a rectangle in map units, its upper left corner and the size of a map unit
    in pixels."""

    part: Rect
    left: float
    top: float
    scale: float

    def at(self, x: float, y: float) -> Tuple[float, float]:
        """The place of a point of the map, in pixels from the picture's upper left corner.

        >>> Frame((0, 0, 10, 10), 24, 24, 2.0).at(10, 10)
        (44.0, 24.0)
        """
        return self.left + (x - self.part[0]) * self.scale, self.top + (self.part[3] - y) * self.scale


def frame_of(part: Rect, left: float, top: float, size: Tuple[int, int]) -> Frame:
    """The frame of a part of the map that stands at this place and takes at most so many pixels.

    >>> frame_of((0, 0, 320, 10), 24, 24, (640, 480)).scale
    2.0
    """
    return Frame(part, left, top, min(size[0] / max(part[2] - part[0], 1), size[1] / max(part[3] - part[1], 1)))


def around(rects: List[Rect]) -> Rect:
    """The rectangle round some rectangles."""
    x0s, y0s, x1s, y1s = zip(*rects)
    return min(x0s), min(y0s), max(x1s), max(y1s)


def grown(rect: Rect, part: int) -> Rect:
    """A rectangle with a border of one part in so many of its longer side.

    >>> grown((0, 0, 100, 10), 10)
    (-10, -10, 110, 20)
    """
    more = max(rect[2] - rect[0], rect[3] - rect[1], part) // part
    return rect[0] - more, rect[1] - more, rect[2] + more, rect[3] + more


def reach(query: Query, answer: Shown) -> int:
    """How far from its point a query for the k nearest asked, in map units; 0 of a window, or where fewer are there."""
    if query.k == 0 or len(answer.records) < query.k:
        return 0
    return math.isqrt(client.distance(query.rect, answer.records[-1].rect)) + 1


def view(whole: Rect, query: Query, answer: Shown) -> Rect:
    """The part of a map with this rectangle that is drawn: query and answer with what is round them, at least 4 to 3."""
    far = reach(query, answer)
    x0, y0, x1, y1 = query.rect
    asked = around([(x0 - far, y0 - far, x1 + far, y1 + far), *(record.rect for record in answer.records)])
    part, most = grown(asked, 2), grown(whole, 20)
    if client.meet(asked, most):
        part = max(part[0], most[0]), max(part[1], most[1]), min(part[2], most[2]), min(part[3], most[3])
    more = max((part[3] - part[1]) * WIDTH // HEIGHT - (part[2] - part[0]), 0) // 2
    return part[0] - more, part[1], part[2] + more, part[3]


# ---- shapes


def box(frame: Frame, rect: Rect, kind: str) -> str:
    """A rectangle of the map, at least two pixels wide and high.

    >>> box(Frame((0, 0, 10, 10), 24, 24, 2.0), (0, 0, 10, 5), "leaf")
    '<rect class="leaf" x="24.0" y="34.0" width="20.0" height="10.0"/>'
    """
    (x, y), (right, low) = frame.at(rect[0], rect[3]), frame.at(rect[2], rect[1])
    size = 'x="%.1f" y="%.1f" width="%.1f" height="%.1f"' % (x, y, max(right - x, 2), max(low - y, 2))
    return '<rect class="%s" %s/>' % (kind, size)


def dot(frame: Frame, x: int, y: int, radius: float, kind: str) -> str:
    """A circle round a point of the map, with a radius in pixels."""
    return '<circle class="%s" cx="%.1f" cy="%.1f" r="%.1f"/>' % (kind, *frame.at(x, y), radius)


def record(frame: Frame, one: Record, kind: str) -> str:
    """A record: a dot for a point, else its rectangle."""
    x0, y0, x1, y1 = one.rect
    return dot(frame, x0, y0, 3, kind) if (x0, y0) == (x1, y1) else box(frame, one.rect, kind)


def name(frame: Frame, one: Record) -> str:
    """The number of a record beside it, and its payload where that is a text."""
    try:
        told = one.payload.decode("utf-8")
    except UnicodeDecodeError:
        told = ""
    x, y = frame.at(one.rect[2], one.rect[3])
    words = html.escape("%d %s" % (one.number, told[:40] if told.isprintable() else "")).strip()
    return '<text x="%.1f" y="%.1f">%s</text>' % (x + 6, y + 4, words)


def region(frame: Frame, query: Query, answer: Shown) -> List[str]:
    """What a query asked for: its window; or its point, and the circle through the last of k records."""
    x, y = query.rect[:2]
    if query.k == 0:
        return [box(frame, query.rect, "region")]
    shapes = [dot(frame, x, y, 4, "region")]
    if reach(query, answer):
        far = math.sqrt(client.distance(query.rect, answer.records[-1].rect))
        shapes.append(dot(frame, x, y, max(far * frame.scale, 4), "region"))
    return shapes


def seen(frame: Frame, items: List[Item], answer: Shown) -> Tuple[List[str], int]:
    """The shapes of items and records in a frame, the lowest first, and how many are left out."""
    meets: Callable[[Rect], bool] = lambda rect: client.meet(frame.part, rect)
    chosen = set(answer.records)
    answers = [one for one in answer.records if meets(one.rect)]
    nodes = [item for item in items if meets(item.rect)]
    others = [one for item in nodes for one in item.records if one not in chosen and meets(one.rect)]
    room = MOST_SHAPES
    kept: List[List[str]] = []
    for kind, found in (("answer", answers), ("other", others)):
        kept.append([record(frame, one, kind) for one in found[:room]])
        room -= len(kept[-1])
    order = {"pruned": 0, "whole": 1, "leaf": 2, "inner": 3}
    drawn = sorted(sorted(nodes, key=lambda item: -item.level)[:room], key=lambda item: order[item.kind()])
    shapes = [box(frame, item.rect, item.kind()) for item in drawn] + kept[1] + kept[0]
    return shapes, len(answers) + len(others) + len(nodes) - len(shapes)


# ---- the picture


def legend(top: float, kinds: List[Tuple[str, str]]) -> Iterator[str]:
    """What the colours mean, below the map."""
    for at, (kind, words) in enumerate(kinds):
        x, y = MARGIN + SMALL[0] + 30 + at % 2 * 215, top + at // 2 * 18
        yield '<rect class="%s" x="%d" y="%.1f" width="12" height="10"/>' % (kind, x, y)
        yield '<text x="%d" y="%.1f">%s</text>' % (x + 18, y + 9, words)


def small(frame: Frame, items: List[Item], part: Rect) -> Iterator[str]:
    """The whole map as a small picture: its largest nodes and parts, and where the part is that is drawn."""
    for item in sorted(items, key=lambda item: -item.level)[:MOST_SMALL]:
        yield box(frame, item.rect, item.kind())
    yield box(frame, part, "region")


def counts(items: List[Item], answer: Shown, left_out: int) -> List[str]:
    """What the picture says of the proof, in lines."""
    tags = [item.tag for item in items]
    opened, wholes = tags.count("N") + tags.count("L"), tags.count("W")
    if answer.inside is None:
        told = "records in the answer: %d; nodes opened: %d; parts pruned: %d"
        lines = [told % (len(answer.records), opened, tags.count("P"))]
    else:
        told = "records inside: %d; nodes opened: %d; parts inside: %d, apart: %d"
        lines = [told % (answer.inside, opened, wholes, tags.count("P"))]
    return lines + ["not drawn: %d shapes" % left_out] * (left_out > 0)


def picture(query: Query, items: List[Item], answer: Shown) -> Tuple[str, int]:
    """The SVG of an accepted proof with these items, of which the last is the root's; and how much is not drawn."""
    whole = items[-1].rect if items else query.rect
    frame = frame_of(view(whole, query, answer), MARGIN, MARGIN, (WIDTH, HEIGHT))
    low = frame.at(0, frame.part[1])[1]
    shapes, left_out = seen(frame, items, answer)
    shapes += region(frame, query, answer)
    names = [name(frame, one) for one in answer.records if len(answer.records) <= MOST_NAMES]
    corner = frame_of(around([whole, frame.part]), MARGIN, low + MARGIN, SMALL)
    kinds, more = (LEGEND, 0) if answer.inside is None else (COUNT_LEGEND, 18)
    size = WIDTH + 2 * MARGIN, low + MARGIN + SMALL[1] + more + MARGIN
    lines = ['<svg xmlns="http://www.w3.org/2000/svg" viewBox="0 0 %d %.0f" width="%d">' % (*size, size[0])]
    style = STYLE + WHOLE_STYLE * (answer.inside is not None)
    lines += ["<style>%s</style>" % style, '<rect width="100%" height="100%" fill="#fff"/>']
    lines += ['<clipPath id="map">%s</clipPath>' % box(frame, frame.part, "map")]
    lines += ['<g clip-path="url(#map)">', *shapes, "</g>", box(frame, frame.part, "frame"), *names]
    lines += [*small(corner, items, frame.part), *legend(low + MARGIN, kinds)]
    for at, words in enumerate(counts(items, answer, left_out)):
        x, y = MARGIN + SMALL[0] + 30, low + MARGIN + 68 + more + at * 15
        lines.append('<text x="%d" y="%.1f">%s</text>' % (x, y, words))
    return "\n".join([*lines, "</svg>"]) + "\n", left_out


def drawn(root: str, word: str, proof: client.Pieces, said: Optional[Statement] = None) -> Tuple[str, int]:
    """The SVG of a proof, and how much is not drawn.

    Raises Refused, ValueError where the words are none, and StatementRefused where a statement says something else.
    """
    items: List[Item] = []
    answer = client.check(root, word, proof, lambda *item: items.append(Item(*item)))
    if said:
        statement.compare_verdict(said, answer)
    return picture(client.read_query(word), items, Shown(answer.records))


def drawn_count(root: str, word: str, proof: client.Pieces, said: Optional[Statement] = None) -> Tuple[str, int]:
    """The SVG of a count proof, and how much is not drawn. Raises as `drawn`."""
    items: List[Item] = []
    count = client.check_count(root, word, proof, lambda *item: items.append(Item(*item)))
    if said:
        statement.compare_verdict(said, count)
    query = client.read_window(word)
    way = client.inside(query)
    records = [one for item in items for one in item.records if way(one.rect, 1 << one.layer) == client.WHOLE]
    return picture(query, items, Shown(records, count.inside))


USAGE = "usage: draw.py [--most BYTES] [--count] ROOT QUERY PROOF SVG, or: --statement FILE QUERY [PROOF] SVG"


class Words(NamedTuple):
    """What the words of a command line say: options, a root digest, a query, a proof's name and a picture's."""

    options: Dict[str, List[str]]
    root: Optional[str]
    query: str
    proof: str
    out: str
    most: Optional[int]


def read_words(words: List[str]) -> Words:
    """What the words of a command line mean. Raises ValueError, with what is wrong."""
    options: Dict[str, List[str]] = {}
    while words and words[0].startswith("--"):
        size = 1 if words[0] == "--count" else 2
        if words[0] not in ("--most", "--count", "--statement", "--publishers") or len(words) < size:
            raise ValueError(USAGE)
        options.setdefault(words[0], []).extend(words[1:size])
        words = words[size:]
    is_stated = "--statement" in options
    if not (2 <= len(words) <= 4 if is_stated else len(words) == 4) or ("--publishers" in options and not is_stated):
        raise ValueError(USAGE)
    root = words[0] if len(words) == 4 else None
    query, proof, out = words[-3:] if len(words) > 2 else (words[0], "", words[1])
    most = client.read_most(options["--most"][-1]) if "--most" in options else None
    return Words(options, root, query, proof, out, most)


def proof_of(words: Words, root: str, said: Optional[Statement]) -> client.Pieces:
    """The proof in a file, or the one that the pages of a statement's map give. Raises Ended, Refused, ValueError."""
    if words.proof or said is None:
        return client.read_pieces(words.proof, words.most)
    limits = Limits() if words.most is None else Limits(bytes=words.most)
    far = mrtree_ask.open_map(root, mrtree_ask.address_of(said), limits)
    read = client.read_window if "--count" in words.options else client.read_query
    asked = read(words.query)
    return [far.count_proof(asked) if "--count" in words.options else far.proof(asked)]


def run(words: List[str]) -> None:
    """Does what the words of a command line say. Raises what outputs.status_of tells."""
    if words[:1] and words[0] in ("-h", "--help", "--version"):
        outputs.print_help(words[0], "draw.py", __doc__)
        return
    try:
        given = read_words(words)
        names, publishers = given.options.get("--statement", []), given.options.get("--publishers", [None])[-1]
        outputs.refuse_same(given.out, [*filter(None, [given.proof]), *names])
        said = statement.chosen(names, publishers, lambda line: outputs.tell("draw.py", line)) if names else None
        root = statement.root_of(said, given.root) if said else str(given.root)
        draws = drawn_count if "--count" in given.options else drawn
        with statement.judged(said):
            whole, left_out = draws(root, given.query, proof_of(given, root, said), said)
    except ValueError as fault:
        raise outputs.Unfit(str(fault)) from None
    with outputs.written(given.out, [*filter(None, [given.proof]), *names]) as file:
        file.write(whole.encode("utf-8"))
    if left_out:
        outputs.tell("draw.py", "%d shapes are not drawn, since %d are the most" % (left_out, MOST_SHAPES))


def main(words: Optional[List[str]] = None) -> int:
    """Runs the words of a command line; answers the exit status."""
    return outputs.status_of("draw.py", lambda: run(sys.argv[1:] if words is None else words))


if __name__ == "__main__":
    signal.signal(signal.SIGINT, signal.default_int_handler)
    sys.exit(main())
