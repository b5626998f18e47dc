#!/usr/bin/env python3
"""Record texts from the files that publishers have, batches from two states of a file, and answers as GeoJSON.

usage: records.py text FILE RECORDS [options]              the record text of a file
       records.py batch N OLD NEW BATCH [options]          the text of batch N, from one state of a file to another
       records.py query window X0 Y0 X1 Y1 --unit UNIT     the word of a query, by coordinates in the file's unit
       records.py query nearest X Y K --unit UNIT
       records.py answer ROOT QUERY PROOF OUT [options]    checks a proof, and writes the answer as GeoJSON
       records.py answers ROOT SCRIPT BUNDLE OUT [options] the same of a bundle, where each part of it is accepted
       records.py features LINES OUT [options]             what `list`, `check`, `check-all` or `audit` printed, as GeoJSON
       records.py find ROOT MAP OUT KEY .. [options]       the records of keys whose places are known, checked
       records.py info FILE                                what a file is, or what lies at an address
       records.py statement MAP OUT [options]              the statement of a map, in the form that tools read
       records.py COMMAND --help                           the options of a command

A file is GeoJSON, a GeoJSON text sequence, CSV or a record text: by the end of its name, or as --form says. `-` is the
standard input or output. Each feature becomes a record: a point, or the box round a line or an area. A point goes to
the nearest map unit, and a box is rounded outwards. The number is the feature's id, or the property or column that
--number names; or it is made of a key, a text that --key names. The payload is the text or number that --payload names,
in UTF-8. With --layer record texts and batches are of version 2, which has layers, and else of version 1; record texts
of either are read. Of `answer` PROOF may be a map file too, or the address of one: then the pages are read that the
query opens, and make the proof. A PROOF that ends with a slash, or is a folder, is an atlas, a map of maps, which is
asked alike; the proof of an atlas is told by its first bytes.

With --statement FILE the publisher's statement says root, unit, coordinate system, payload and layers, and the word
ROOT is left out. So may PROOF be, where the statement has the map's address.

What does not fit is told on standard error, and then the output is left as it was. Exit statuses: 0, 1 where words or a
file do not fit, 2 where a proof is refused, 7 where a file cannot be read or written, 8 without memory. This script is
tested and not proved.
"""
from __future__ import annotations

import sys

if __name__ == "__main__":  # an interrupt while modules are read ends the run without a trace
    sys.excepthook = lambda kind, *rest: kind is KeyboardInterrupt or sys.__excepthook__(kind, *rest)

import signal

if __name__ == "__main__":
    signal.signal(signal.SIGINT, signal.SIG_DFL)

import argparse
import datetime
import hashlib
import json
import os
import re
from contextlib import ExitStack, contextmanager, suppress
from decimal import Decimal
from typing import Any, Dict, Iterable, Iterator, List, Mapping, NamedTuple, NoReturn, Optional, Sequence, Tuple, Union

if __package__:
    from . import kinds, mrtree_ask, outputs, shapes, sources, statement
    from . import mrtree_check as client
    from .mrtree_check import Answer, AtlasAnswer, Query, Record
    from .outputs import Unfit
    from .ranges import Limits
    from .sources import Grid, Options, State, clipped, number_of
    from .statement import Statement
else:
    import kinds
    import mrtree_ask
    import mrtree_check as client
    import outputs
    import shapes
    import sources
    import statement
    from mrtree_check import Answer, AtlasAnswer, Query, Record
    from outputs import Unfit
    from ranges import Limits
    from sources import Grid, Options, State, clipped, number_of
    from statement import Statement

SCRIPT = "records.py"
MOST_EXACT = 2**53 - 1  # the greatest whole number that every reader of JSON keeps
MOST_OF_DEGREES = Decimal("1e-4")  # a map unit up to this is taken for one of degrees, where nothing says so
QUERIES = "queries"  # the property that tells which queries of a script a feature answers
SOME = client.read_query("nearest:0,0,16")  # some records, of which payloads are looked at
ALL = client.read_query("window:-2147483648,-2147483648,2147483647,2147483647")
SAID = ("map", "crs", "axes", "numbers", "layers", "shapes", "address", "from", "until")  # options that are lines
MOST_TOLD = 5  # features that are told by their number
MOST_OF_LAYERS = 2**20  # bytes of a file of layers
ROUNDED = "; it has one with another: it is of another state, or a program rounded its numbers (COORDINATE_PRECISION)"
HELP = """--unit: a map unit in the file's unit, as 1e-7 of a degree, or 1 metre
--number: the property or column of the number, for the feature's id or the column number
--key: the property or column of the key, a text from whose SHA-256 the number is made
--payload: the property or column of the payload, which else is the key, or none
--layer: the layer of all records, from 0 to 63, or the property or column that has it; of an answer the one that gets it
--layers: a file with a number and a name on each line, the layers of names; of a statement also: 0 buildings, 1 roads
--digest: the payload is the SHA-256 of the feature's canonical bytes, by RFC 8785
--shapes: of a map made with --digest, the file that has the features, or its address if an index stands beside it
--shapes-to: a file that is to have the features, with --digest; beside it stands an index, FILE.index
--places-to: a file that is to tell where the record of each number is
--places: where records are: a file that --places-to has written, or its address, or a record text
--by-number: the words are numbers, and no keys
--place: the columns x,y of a point, x0,y0,x1,y1 of a box, or that of well-known text; else x,y or WKT
--delimiter: what stands between the fields of CSV, a comma or one character, or tab
--form: how the input is written, where its name does not tell: geojson, geojsonseq, csv or text
--skip-empty: leaves out features without geometry, and counts them
--most: the most bytes of a proof, a bundle or a map that are read
--format: how the answer is written: geojson, or geojsonseq (a feature on each line), or csv (with well-known text)
--crs: the coordinate system of the map, as EPSG:25833; one that a GeoJSON file says is compared
--statement: the publisher's statement of the map, a file or an address; of several the newest is taken
--publishers: a file of publishers (ssh-keygen's allowed signers), one of whom has to have signed the statement
--map: words that say what the map is
--atlas: the root digest is that of an atlas, so that a proof of a map is refused; of statement MAP is its index
--axes: what x and y are: longitude latitude, or east north, or x y
--numbers: words that say what the numbers are
--hexadecimal: the payloads are neither texts nor digests
--address: where the map file is to be had
--from: the day from which on the statement holds, else today
--until: the day until which the next statement comes
--ended: a root digest that has ended; the option may stand several times
--after: the statement before, which this one follows: its root has ended, and what is not given is as it was"""


# ---- what is made of records


def text(packed: Iterable[bytes], version: int = 1) -> Iterator[str]:
    """The lines of a record text of a version."""
    for record in sources.unpacked(packed, version):
        yield record.line(version) + "\n"


def batch(number: int, old: List[bytes], new: List[bytes], version: int = 1) -> List[str]:
    """The lines of the batch of this number that leads from one state of a map to another. Raises Unfit.

    Both states are of this version. What left or changed goes out in rising number, and then what came or changed comes
    in.

    >>> one, two, three = [client.record_bytes(Record(number, (0, 0, 0, 0), b"")) for number in (1, 2, 3)]
    >>> batch(5, [one, two], [client.record_bytes(Record(2, (0, 0, 0, 0), b"a")), three])
    ['batch 5\\n', '- 1\\n', '- 2\\n', '+ 2 0 0 0 0 61\\n', '+ 3 0 0 0 0 -\\n']
    """
    before, after = set(old), set(new)
    gone = [one for one in old if one not in after]
    come = [one for one in new if one not in before]
    if len(gone) + len(come) > sources.MOST:
        raise Unfit("%d changes, and a batch has at most %d" % (len(gone) + len(come), sources.MOST))
    lines = ["- %d\n" % record.number for record in sources.unpacked(gone, version)]
    return ["batch %d\n" % number, *lines, *("+ " + line for line in text(come, version))]


def alike(old: State, new: State) -> Tuple[State, State]:
    """Two states in one version. Raises Unfit where the new one has no layers, and the old one has.

    An old state of version 1 is that of a map which `upgrade` made, so with all records on layer 0.
    """
    if new.version < old.version and new.packed:
        words = "%s: it has no layers, and %s has: --layer N puts all records on one, --layer PROPERTY each on its own"
        raise Unfit(words % (new.reading.name, old.reading.name))
    is_later = max(old.version, new.version) == 2
    return (old.upgraded(), new.upgraded()) if is_later else (old, new)


def query_word(words: Sequence[str], grid: Grid) -> str:
    """The word of a query whose coordinates are in the file's unit: a window is rounded outwards. Raises Unfit.

    >>> query_word(["window", "13.37", "52.51", "13.38", "52.52"], Grid(Decimal("1e-7")))
    'window:133700000,525100000,133800000,525200000'
    >>> query_word(["nearest", "13.3777", "52.5163", "2"], Grid(Decimal("1e-7")))
    'nearest:133777000,525163000,2'
    """
    kind, *given = words
    if (kind, len(given)) not in (("window", 4), ("nearest", 3)):
        raise Unfit("a query is: window X0 Y0 X1 Y1, or: nearest X Y K")
    if kind == "window":
        x0, y0, x1, y1 = map(sources.decimal_of, given)
        rect = grid.rect((x0, y0, x1, y1))
        return "window:%d,%d,%d,%d" % rect
    k = number_of(given[2])
    if not 1 <= k <= 1024:
        raise Unfit("%d nearest records are asked for, and 1 to 1024 can be" % k)
    return "nearest:%d,%d,%d" % (*(grid.units(sources.decimal_of(side)) for side in given[:2]), k)


# ---- GeoJSON of records


class Naming(NamedTuple):
    """How a record becomes a feature: its map units, and the names of the properties that it is to have."""

    grid: Grid
    number: Optional[str] = None
    payload: Optional[str] = None
    is_digest: bool = False  # whether the payload is a digest, which becomes the property `digest`
    layer: Optional[str] = None
    hexadecimal: Optional[str] = None  # the property that has the payload in hexadecimal
    layers: Mapping[int, str] = {}  # the names of layers


def geometry(record: Record, grid: Grid) -> str:
    """The rectangle of a record as a geometry: a point, a line or an area.

    >>> geometry(Record(7, (15, 20, 15, 25), b""), Grid(Decimal("0.1")))
    '{"type":"LineString","coordinates":[[1.5,2],[1.5,2.5]]}'
    """
    x0, y0, x1, y1 = map(grid.in_file, record.rect)
    corners = ["[%s,%s]" % corner for corner in ((x0, y0), (x1, y0), (x1, y1), (x0, y1), (x0, y0))]
    if (x0, y0) == (x1, y1):
        kind, coordinates = "Point", corners[0]
    elif x0 == x1 or y0 == y1:
        kind, coordinates = "LineString", "[%s,%s]" % (corners[0], corners[2])
    else:
        kind, coordinates = "Polygon", "[[%s]]" % ",".join(corners)
    return '{"type":"%s","coordinates":%s}' % (kind, coordinates)


def feature(record: Record, naming: Naming, queries: Sequence[int] = ()) -> str:
    """The feature of a record, which answers these queries of a script. Raises Unfit.

    >>> print(feature(Record(7, (15, 20, 15, 20), b""), Naming(Grid(Decimal("0.1")))))
    {"type":"Feature","id":7,"properties":{},"geometry":{"type":"Point","coordinates":[1.5,2]}}
    """
    properties = properties_of(record, naming)
    if queries:
        properties[QUERIES] = list(queries)
    told = '"id":%s,"properties":%s' % (json.dumps(exact(record.number)), compact(properties))
    return '{"type":"Feature",%s,"geometry":%s}' % (told, geometry(record, naming.grid))


def exact(number: int) -> Union[int, str]:
    """A number as each reader of JSON keeps it: a large one as its digits."""
    return number if number <= MOST_EXACT else str(number)


def properties_of(record: Record, naming: Naming) -> Dict[str, Any]:
    """The properties of a record. Raises Unfit."""
    properties: Dict[str, Any] = {naming.number: exact(record.number)} if naming.number else {}
    if naming.layer:
        name = naming.layers.get(record.layer, str(record.layer))
        properties[naming.layer] = name if naming.layers else record.layer
    if naming.payload and record.payload:
        try:
            properties[naming.payload] = record.payload.decode("utf-8")
        except UnicodeDecodeError:
            raise Unfit("the payload of record %d is not UTF-8" % record.number) from None
    for name in filter(None, ["digest" if naming.is_digest else None, naming.hexadecimal]):
        properties[name] = record.payload.hex()
    return properties


def compact(value: Any) -> str:
    """A value as JSON without spaces."""
    return json.dumps(value, ensure_ascii=False, separators=(",", ":"))


def collection(features: Iterable[str], crs: Optional[str] = None) -> Iterator[str]:
    """The GeoJSON of some features, a line each, in a coordinate system that it says unless it is in degrees.

    >>> "".join(collection(["1", "2"]))
    '{"type":"FeatureCollection","features":[\\n1,\\n2\\n]}\\n'
    >>> next(collection([], "EPSG:25833"))[28:]
    '"crs":{"type":"name","properties":{"name":"urn:ogc:def:crs:EPSG::25833"}},"features":[\\n'
    """
    said = ""
    if crs and crs not in statement.DEGREES:
        name = "urn:ogc:def:crs:" + crs.replace(":", "::")
        said = '"crs":%s,' % compact({"type": "name", "properties": {"name": name}})
    yield '{"type":"FeatureCollection",%s"features":[\n' % said
    between = ""
    for one in features:
        yield between + one
        between = ",\n"
    yield "\n]}\n"


# ---- CSV of records


def well_known(record: Record, grid: Grid) -> str:
    """The rectangle of a record as well-known text.

    >>> well_known(Record(7, (15, 20, 15, 25), b""), Grid(Decimal("0.1")))
    'LINESTRING (1.5 2,1.5 2.5)'
    """
    x0, y0, x1, y1 = map(grid.in_file, record.rect)
    if (x0, y0) == (x1, y1):
        return "POINT (%s %s)" % (x0, y0)
    if x0 == x1 or y0 == y1:
        return "LINESTRING (%s %s,%s %s)" % (x0, y0, x1, y1)
    return "POLYGON ((%s %s,%s %s,%s %s,%s %s,%s %s))" % (x0, y0, x1, y0, x1, y1, x0, y1, x0, y0)


def table(records: Iterable[Tuple[Record, Sequence[int]]], naming: Naming, with_queries: bool) -> Iterator[str]:
    """The CSV of records, with well-known text. Raises Unfit.

    >>> naming = Naming(Grid(Decimal(1)), payload="name")
    >>> list(table([(Record(7, (1, 2, 1, 2), b'a "b" c'), [])], naming, False))
    ['WKT,number,name\\n', 'POINT (1 2),7,"a ""b"" c"\\n']
    """
    names = [naming.number or "number", naming.layer, naming.payload, "digest" if naming.is_digest else None]
    columns = ["WKT", *filter(None, [*names, naming.hexadecimal, QUERIES if with_queries else None])]
    if len({name.lower() for name in columns}) < len(columns):
        raise Unfit("two columns of CSV would have one name: --number and --layer name others")
    yield row(columns)
    for record, queries in records:
        properties = {**properties_of(record, naming), columns[1]: record.number}
        properties.update({"WKT": well_known(record, naming.grid), QUERIES: " ".join(map(str, queries))})
        if "\0" in str(properties.get(naming.payload, "")):
            raise Unfit("the payload of record %d has a zero byte, which CSV cannot have" % record.number)
        yield row(str(properties.get(name, "")) for name in columns)


def row(fields: Iterable[str]) -> str:
    """A row of CSV.

    >>> row(["a,b", "", " d"])
    '"a,b",, d\\n'
    """
    quoted = ('"%s"' % field.replace('"', '""') if re.search('[",\r\n]', field) else field for field in fields)
    return ",".join(quoted) + "\n"


# ---- features by their digests


def shapes_for(given: argparse.Namespace, records: Sequence[Record]) -> List[str]:
    """The features of records, from the shapes that a command line names. Raises Unfit, OSError and what shapes do."""
    if not shapes.has_index(given.shapes):
        return shapes_of(given.shapes, given.form, options_of(given), records)
    try:
        found = shapes.open_shapes(given.shapes, limits_of(given)).fetch(records)
    except ValueError as fault:
        raise Unfit(str(fault)) from None
    return [found[record.number].decode("utf-8") for record in records]


def shapes_of(name: str, form: Optional[str], options: Options, records: Sequence[Record]) -> List[str]:
    """The features of a file whose digests are the payloads of these records, in their order. Raises Unfit, OSError."""
    wanted, found = {record.number: record.payload for record in records}, {}
    reading = sources.Reading(name, options)
    form = form or sources.form_of(name)
    if form not in ("geojson", "geojsonseq"):
        raise Unfit("%s: --shapes takes GeoJSON" % name)
    try:
        with sources.opened(name) as file:
            is_plain = form == "geojson"
            all_ = sources.features_of(file, reading) if is_plain else sources.values_of(reading, file)
            for one in sources.counted(all_, reading) if is_plain else all_:
                number = sources.number_of_feature(one, sources.properties_of(one), reading)
                if number in wanted:
                    shape = sources.canonical_bytes(one, reading.raw())
                    is_right = hashlib.sha256(shape).digest() == wanted[number]
                    found.setdefault(number, None)
                    found[number] = shape.decode("utf-8") if is_right else found[number]
    except RecursionError:
        raise Unfit(reading.where() + sources.DEEP) from None
    except Unfit as unfit:
        raise Unfit(reading.where() + str(unfit)) from None
    missing = [record.number for record in records if found.get(record.number) is None]
    if missing:
        words = "%s: it has no feature of the number %d with the digest of the answer" % (name, missing[0])
        raise Unfit(words + ROUNDED * (missing[0] in found))
    return [found[record.number] or "" for record in records]


# ---- lines that were printed


def printed(file: Iterable[bytes]) -> Iterator[Tuple[Record, List[int]]]:
    """The records of printed lines, each with the queries that it answers, none but of `check-all`. Raises Unfit."""
    lines = iter(file)
    first = next(lines, b"")
    if not first:
        raise Unfit("it has no lines, as after a check that failed: `answer` checks a proof and writes its answer")
    reading = sources.Reading("", Options(Grid(Decimal(1))))
    try:
        if re.match(rb"query \d+ ", first):
            yield from merged(verdicts([first, *lines], reading))
            return
        reading.at = 1 if first == b"sound\n" else 0
        rest = lines if reading.at else joined(first, lines)
        for record, _ in sources.from_lines(rest, reading):
            yield record, []
    except Unfit as unfit:
        raise Unfit("line %d: %s" % (reading.at, unfit)) from None


def joined(first: bytes, lines: Iterator[bytes]) -> Iterator[bytes]:
    """Some lines behind a first one."""
    yield first
    yield from lines


def verdicts(lines: List[bytes], reading: sources.Reading) -> Iterator[Tuple[int, List[Record]]]:
    """The answers in what `check-all` printed, each with the number of its query. Raises Unfit unless all are there."""
    number = 0
    while reading.at < len(lines):
        line = lines[reading.at]
        reading.at += 1
        head = re.fullmatch(rb"query (\d{1,5}) ok (\d{1,7})\n", line)
        if not head:
            if line == b"accepted %d refused 0 missing 0\n" % number and reading.at == len(lines):
                return
            raise Unfit("not each part of the bundle was accepted, or lines are missing")
        number, size = number + 1, int(head[2])
        start = reading.at
        records = [record for record, _ in sources.from_lines(lines[start : start + size], reading)]
        if int(head[1]) != number or len(records) != size:
            raise Unfit("the answer to query %d is not there whole" % number)
        yield number, records
    raise Unfit("the last line is missing, which tells how many parts were accepted")


def merged(answers: Iterable[Tuple[int, List[Record]]]) -> Iterator[Tuple[Record, List[int]]]:
    """The records of the answers to several queries, each once, in rising number, with the queries that it answers."""
    found: Dict[Record, List[int]] = {}
    for number, records in answers:
        for record in records:
            found.setdefault(record, []).append(number)
    yield from sorted(found.items())


# ---- what is told of it


Bounds = Tuple[int, Optional[client.Rect]]  # how many records there are, and the rectangle round them


def bounds(records: Iterable[Record]) -> Bounds:
    """How many records there are, and the rectangle round them."""
    rects, count = [], 0
    for record in records:
        count += 1
        rects.append(record.rect)
        if len(rects) == 1024:
            rects = [around(rects)]
    return count, around(rects) if rects else None


def extent(found: Bounds, grid: Grid) -> str:
    """How many records there are, and where they lie in the file's unit.

    >>> some = [Record(7, (15, 20, 15, 20), b""), Record(8, (0, -5, 9, 9), b"")]
    >>> extent(bounds(some), Grid(Decimal("0.1")))
    '2 records from 0 -0.5 to 1.5 2'
    """
    count, rect = found
    ends = " from %s %s to %s %s" % tuple(map(grid.in_file, rect)) if rect else ""
    return "%d record%s%s" % (count, "" if count == 1 else "s", ends)


def around(rects: List[client.Rect]) -> client.Rect:
    """The rectangle round some rectangles."""
    x0s, y0s, x1s, y1s = zip(*rects)
    return min(x0s), min(y0s), max(x1s), max(y1s)


def tell_latitudes(rect: Optional[client.Rect], grid: Grid, is_degrees: bool) -> None:
    """Says on standard error where records of a map in degrees lie beyond the poles, as by a wrong unit."""
    worst = grid.in_file(max(rect[1::2], key=abs)) if rect and is_degrees else "0"
    if abs(Decimal(worst)) > 90:
        words = "no latitude is above 90 or below -90, and there is %s: is a map unit %s degrees, and y the latitude?"
        outputs.tell(SCRIPT, words % (worst, str(grid.unit).lower()))


def looks_like_degrees(grid: Grid, crs: Optional[str]) -> bool:
    """Whether a map is in degrees by its coordinate system; or where that is not known, by the size of a map unit."""
    return crs in statement.DEGREES if crs else grid.unit <= MOST_OF_DEGREES


def refuse_other_system(given: argparse.Namespace, reading: sources.Reading) -> None:
    """Raises Unfit where a GeoJSON text says another coordinate system than --crs; tells where it goes with no unit."""
    said, meant = reading.crs, given.crs
    if said and meant and said != meant and not {said, meant} <= set(statement.DEGREES):
        raise Unfit("%s: it says that it is in %s, and --crs is %s" % (reading.name, said, meant))
    if said and not meant and said not in statement.DEGREES and reading.options.grid.unit <= MOST_OF_DEGREES:
        words = "%s says that it is in %s: is a map unit %s of that? (--crs %s says that it is so)"
        outputs.tell(SCRIPT, words % (reading.name, said, str(reading.options.grid.unit).lower(), said))


def tell_state(state: State, crs: Optional[str]) -> None:
    """Says on standard error what a file gave: how many records, how many without payload, and what was left out."""
    reading = state.reading
    grid, found = reading.options.grid, bounds(state.records())
    told = extent(found, grid) + ", %d without payload" % reading.bare
    if reading.skipped:
        told += "; left out, since without geometry: %d" % reading.skipped
    outputs.tell(SCRIPT, told)
    if reading.cut:
        places = ", ".join(reading.cut[:MOST_TOLD]) + (" .." if reading.cut[MOST_TOLD:] else "")
        words = "cut at the antimeridian, so that the box goes round the earth (make two features of each): %d, %s"
        outputs.tell(SCRIPT, words % (len(reading.cut), places))
    tell_latitudes(found[1], grid, looks_like_degrees(grid, crs or reading.crs))


# ---- the commands


def text_command(given: argparse.Namespace) -> None:
    """Writes the record text of a file."""
    with shelf_of(given) as shelf:
        options = options_of(given)._replace(keep=shelf and shelf.keep)
        state = sources.read_state(given.FILE, given.form, options)
        refuse_other_system(given, state.reading)
        write_state(given, given.RECORDS, text(state.packed, state.version), state, shelf)
    tell_state(state, given.crs)


def batch_command(given: argparse.Namespace) -> None:
    """Writes the batch from one state of a file to another."""
    number, options = number_of(given.N), options_of(given)
    if number == 0:
        raise Unfit("no map takes batch 0: a map that was just built is at batch 0, and takes batch 1")
    is_text = (given.form or sources.form_of(given.OLD)) == "text"
    old = sources.read_state(given.OLD, given.form, options._replace(layer=None, is_digest=False) if is_text else options)
    with shelf_of(given) as shelf:
        new = sources.read_state(given.NEW, given.form, options._replace(keep=shelf and shelf.keep))
        for state in (old, new):
            refuse_other_system(given, state.reading)
        old, new = alike(old, new)
        lines = batch(number, old.packed, new.packed, new.version)
        write_state(given, given.BATCH, lines, new, shelf)
    gone = sum(line[0] == "-" for line in lines)
    outputs.tell(SCRIPT, "records that go: %d, that come: %d, and then:" % (gone, len(lines) - 1 - gone))
    tell_state(new, given.crs)


@contextmanager
def shelf_of(given: argparse.Namespace) -> Iterator[Optional[shapes.Shelf]]:
    """Where shapes wait until they are written, where they are to be. Raises OSError."""
    if not given.shapes_to:
        yield None
        return
    try:
        shelf = shapes.Shelf(os.path.dirname(os.path.realpath(given.shapes_to)))
    except OSError as fault:
        fault.filename = given.shapes_to
        raise
    with shelf.file:
        yield shelf


def write_state(
    given: argparse.Namespace, name: str, lines: Iterable[str], state: State, shelf: Optional[shapes.Shelf]
) -> None:
    """Writes lines to a file of this name, and beside it the shapes and places of a state. Raises Unfit and OSError."""
    names = [name] + ([given.shapes_to, shapes.index_name(given.shapes_to)] if shelf else [])
    names += [given.places_to] if given.places_to else []
    inputs = [vars(given)[one] for one in ("FILE", "OLD", "NEW", "layers") if vars(given).get(one)]
    for at, one in enumerate(names):
        with suppress(ValueError):
            if os.path.realpath(one) in map(os.path.realpath, names[:at]):
                raise Unfit("%s names two outputs: give each a name of its own" % one)
    with ExitStack() as stack:
        files = []
        for one in names:
            files.append(stack.enter_context(outputs.written(one, inputs)))
        files[0].writelines(line.encode("utf-8") for line in lines)
        if shelf:
            shelf.write(files[1], files[2])
        if given.places_to:
            entries = [shapes.entry_of_place(record) for record in state.records()]
            shapes.write_index(files[-1], shapes.PLACES, entries, 0)


def query_command(given: argparse.Namespace) -> None:
    """Prints the word of a query."""
    write("-", [], [query_word(given.WORDS, given.unit) + "\n"])


def answer_command(given: argparse.Namespace) -> None:
    """Writes the answer that a proof proves."""
    root, query = root_and_query(given.ROOT, given.QUERY)
    with statement.judged(given.said):
        answer = answer_of(given, root, query)
    compare(given, [answer])
    inputs, naming = [given.PROOF, *(given.statement or [])], naming_of(given)
    if given.shapes:
        inputs.append(given.shapes)
        features = shapes_for(given, answer.records)
    else:
        features = [feature(record, naming) for record in answer.records]
    rows = [(record, []) for record in answer.records]
    write(given.OUT, inputs, written_as(given, features, rows, naming))
    found = bounds(answer.records)
    outputs.tell(SCRIPT, extent(found, naming.grid) + ", of " + what_of(answer))
    tell_system(given, found[1])


def answer_of(given: argparse.Namespace, root: bytes, query: Query) -> Union[Answer, AtlasAnswer]:
    """The answer of a map or an atlas, by a proof or by pages. Raises Unfit, Refused and Ended."""
    pieces, front = iter(proof_of(given, query)), b""
    while len(front) < 4:
        piece = next(pieces, None)
        if piece is None:
            break
        front += piece
    is_atlas = given.atlas or front.startswith(b"MRAT")
    return (client.judge_atlas if is_atlas else client.judge)(root, query, joined(front, pieces))


def what_of(answer: Union[Answer, AtlasAnswer]) -> str:
    """What an answer is of."""
    if isinstance(answer, AtlasAnswer):
        return "%d sheets of an atlas at batch %d" % (len(answer.sheets), answer.batch)
    return "a map of %d at batch %d" % (answer.count, answer.batch)


def compare(given: argparse.Namespace, answers: Iterable[Union[Answer, AtlasAnswer]]) -> None:
    """Raises StatementRefused where a statement says something else than accepted proofs."""
    for answer in answers if given.said else ():
        statement.compare_verdict(given.said, answer)
        statement.compare_records(given.said, answer.records)


Rows = Sequence[Tuple[Record, Sequence[int]]]


def written_as(given: argparse.Namespace, features: List[str], rows: Rows, naming: Naming) -> Iterator[str]:
    """The lines of an answer, in the format that was asked for. Raises Unfit."""
    if given.format == "csv":
        return table(rows, naming, any(queries for _, queries in rows))
    if given.format == "geojsonseq":
        return (one + "\n" for one in features)
    return collection(features, given.crs)


def tell_system(given: argparse.Namespace, rect: Optional[client.Rect]) -> None:
    """Says on standard error what an answer does not say of its coordinate system, and where that cannot be right."""
    said, is_plain = given.said, given.format in (None, "geojson")
    is_degrees = said.is_in_degrees() if said else looks_like_degrees(given.unit, given.crs)
    if given.crs and given.crs not in statement.DEGREES and not is_plain:
        outputs.tell(SCRIPT, "%s says no coordinate system; it is %s" % (given.format, given.crs))
    if said and not said.crs and not is_degrees and is_plain:
        outputs.tell(SCRIPT, "the map has no coordinate system that is known, and GeoJSON is taken for degrees")
    tell_latitudes(rect, given.unit, is_degrees)


def proof_of(given: argparse.Namespace, query: Query) -> client.Pieces:
    """The proof in a file, or the one that the pages of a map or an atlas give. Raises Unfit, Refused and Ended."""
    is_atlas = mrtree_ask.is_atlas(given.PROOF)
    if not is_atlas and not mrtree_ask.is_map(given.PROOF):
        return client.read_pieces(given.PROOF, given.most)
    try:
        opened = mrtree_ask.open_atlas if is_atlas else mrtree_ask.open_map
        return [opened(given.ROOT, given.PROOF, limits_of(given)).proof(query)]
    except ValueError as fault:
        raise Unfit(str(fault)) from None


def limits_of(given: argparse.Namespace) -> Limits:
    """How much is asked of servers."""
    return Limits() if given.most is None else Limits(bytes=given.most)


def answers_command(given: argparse.Namespace) -> None:
    """Writes the answers that the parts of a bundle prove, where all are accepted."""
    root, _ = root_and_query(given.ROOT, "window:0,0,0,0")
    queries = client.read_script(b"".join(client.read_pieces(given.SCRIPT)))
    found, broken = client.judge_bundle(root, queries, client.read_pieces(given.BUNDLE, given.most))
    for number, verdict in enumerate(found, 1):
        if verdict.answer is None:
            refuse_if_ended(given, verdict.refused)
            raise client.Ended(2, "query %d %s" % (number, verdict.refused or "missing"))
    if broken is not None:
        raise client.Ended(2, "bundle broken at %d" % broken)
    compare(given, (verdict.answer for verdict in found if verdict.answer))
    answers = ((at, verdict.answer.records if verdict.answer else []) for at, verdict in enumerate(found, 1))
    records = list(merged(answers))
    write_several(given, records, [given.SCRIPT, given.BUNDLE])


def refuse_if_ended(given: argparse.Namespace, refused: Optional[client.Refused]) -> None:
    """Raises StatementRefused where a proof leads to a root that has ended, as a statement says."""
    if refused is not None:
        with suppress(client.Refused), statement.judged(given.said):
            raise refused


def features_command(given: argparse.Namespace) -> None:
    """Writes printed lines as GeoJSON."""
    try:
        with open(0 if given.LINES == "-" else given.LINES, "rb", closefd=given.LINES != "-") as file:
            records = list(printed(file))
    except Unfit as unfit:
        raise Unfit("%s: %s" % (given.LINES, unfit)) from None
    write_several(given, records, [given.LINES])


def find_command(given: argparse.Namespace) -> None:
    """Writes the records of keys, as a map has them where they are to be. Raises as `answer_command`."""
    numbers = {word: number_of(word) if given.by_number else sources.hashed(word)[0] for word in given.KEYS}
    places, naming = places_for(given, numbers), naming_of(given)
    found = found_at(given, places)
    records = [found[number] for number in numbers.values() if number in found]
    told = shapes_for(given, records) if given.shapes else [feature(record, naming) for record in records]
    write(given.OUT, [given.MAP, given.places, *filter(None, [given.shapes])], collection(told, given.crs))
    missing = [word for word, number in numbers.items() if number not in found]
    for word in missing[:MOST_TOLD]:
        rect = " ".join(map(naming.grid.in_file, places[numbers[word]]))
        outputs.tell(SCRIPT, "the map has no record of %s at %s, checked" % (clipped(word), rect))
    outputs.tell(SCRIPT, "found: %d, not there: %d" % (len(records), len(missing)))


def found_at(given: argparse.Namespace, places: Dict[int, client.Rect]) -> Dict[int, Record]:
    """The records of some numbers that a map has where they are to be, checked. Raises as `answer_command`."""
    root, _ = root_and_query(given.ROOT, "window:0,0,0,0")
    if not mrtree_ask.is_map(given.MAP):
        raise Unfit("%s is no map file: find asks a map file, or the address of one" % given.MAP)
    found: Dict[int, Record] = {}
    try:
        with statement.judged(given.said):
            far = mrtree_ask.open_map(given.ROOT, given.MAP, limits_of(given))
            for number, rect in places.items():
                query = Query(rect, 0)
                answer = client.judge(root, query, [far.proof(query)])
                compare(given, [answer])
                found.update((number, record) for record in answer.records if record.number == number)
    except ValueError as fault:
        raise Unfit(str(fault)) from None
    return found


def places_for(given: argparse.Namespace, numbers: Dict[str, int]) -> Dict[int, client.Rect]:
    """Where the records of some numbers are to be, each named by a word. Raises Unfit where that is not known."""
    wanted = set(numbers.values())
    if not given.places:
        raise Unfit("--places has to be given: a file that tells where records are")
    if shapes.is_index(given.places):
        try:
            places = shapes.places_of(given.places, wanted, limits_of(given))
        except ValueError as fault:
            raise Unfit(str(fault)) from None
    else:
        reading = sources.Reading(given.places, Options(Grid(Decimal(1))))
        try:
            with sources.opened(given.places) as file:
                lines = sources.from_lines(file, reading)
                places = {record.number: record.rect for record, _ in lines if record.number in wanted}
        except Unfit as unfit:
            raise Unfit(reading.where() + str(unfit)) from None
    for word, number in numbers.items():
        if number not in places:
            raise Unfit("%s tells no place of %s, so that it cannot be asked for" % (given.places, clipped(word)))
    return places


def info_command(given: argparse.Namespace) -> None:
    """Prints what a file is."""
    write("-", [], (line + "\n" for line in kinds.lines_of(given.FILE, limits_of(given))))


def statement_command(given: argparse.Namespace) -> None:
    """Writes the statement of a map, whose root, version, batch and count are read from the map itself."""
    root, far = opened(given.MAP)
    before = statement.values_of(statement.open_named(given.after, given.publishers)) if given.after else {}
    lines = lines_said(given, before, root)
    version, count = sheets_said(given.MAP, far) if given.atlas else (far.head.version, far.head.count)
    lines.update(version=str(version), batch=str(far.head.batch), records=str(count))
    lines.update({"atlas": "yes"} if given.atlas else {})
    try:
        text_ = statement.text_of(lines)
    except statement.BadStatement as bad:
        name, _, key = bad.rule.partition(" ")
        missing = "--%s has to be given: %s" % (key, statement.KEYS.get(key, ""))
        raise Unfit(missing if name == "Missing" else bad.meaning()) from None
    said = statement.read_statement(text_.encode("utf-8"))
    if not said.atlas:
        statement.compare_records(said, client.judge(far.root, SOME, [far.proof(SOME)]).records)
    write(given.OUT, [given.MAP, *filter(None, [given.after])], [text_])
    words = "root %s, version %d, batch %d, %d records"
    outputs.tell(SCRIPT, words % (root, said.version, said.batch, said.records))


def opened(name: str) -> Tuple[str, mrtree_ask.FarMap]:
    """The root digest that the first page of a map's file has, and the map. Raises Unfit, Refused and Ended."""
    try:
        mrtree_ask.open_map("0" * 64, name)
        raise Unfit("%s: its root digest is all zeros" % name)
    except mrtree_ask.MapRefused as fault:
        if fault.rule != "WrongRoot":
            raise
        return fault.found.hex(), mrtree_ask.open_map(fault.found.hex(), name)
    except ValueError as fault:
        raise Unfit(str(fault)) from None


def sheets_said(name: str, far: mrtree_ask.FarMap) -> Tuple[int, int]:
    """The version and the count of records of the sheets that the index of an atlas tells. Raises Unfit, Refused."""
    sheets = [record.payload for record in client.judge(far.root, ALL, [far.proof(ALL)]).records]
    least = {1: 67, 2: 75}  # bytes of the preimage of a sheet's root
    if not all(sheet[:1] == b"R" and len(sheet) >= least.get(sheet[1], 999) for sheet in sheets):
        raise Unfit("%s: it is no index of an atlas: a record of it tells no sheet" % name)
    versions = {sheet[1] for sheet in sheets} or {far.head.version}
    if len(versions) > 1:
        raise Unfit("%s: its sheets are of two versions, and a statement says one" % name)
    return versions.pop(), sum(int.from_bytes(sheet[10:18], "big") for sheet in sheets)


def lines_said(given: argparse.Namespace, before: Dict[str, str], root: str) -> Dict[str, str]:
    """The lines that a command line and the statement before say of a map with this root digest."""
    lines = {key: value for key, value in before.items() if key not in ("from", "until")}
    for key in ("address", "shapes"):
        if key in lines:  # a file may be named by the root digest
            lines[key] = lines[key].replace(before["root"], root)
    words = {key: vars(given)[key] for key in SAID if vars(given)[key]}
    if given.numbers or given.key:
        lines = {key: value for key, value in lines.items() if key not in ("numbers", "keys")}
        words.update({"keys": given.key} if given.key else {})
    if given.unit:
        words["unit"] = str(given.unit.unit).lower()
    if given.layers and not statement.is_right("layers", given.layers):
        words["layers"] = layers_said(given.layers)
    ended = [*before.get("ended", "none").split(" "), before.get("root", "none"), *(given.ended or [])]
    others = [one for one in dict.fromkeys(ended) if one not in ("none", root)]
    today = datetime.datetime.now(datetime.timezone.utc).date().isoformat()
    payload = {} if before and not payload_said(given) else {"payload": payload_said(given) or "none"}
    return {"from": today, **lines, **words, **payload, "root": root, "ended": " ".join(others) or "none"}


def layers_said(name: str) -> str:
    """What a statement says of layers, by a file of their numbers and names. Raises Unfit and OSError."""
    names: Dict[int, List[str]] = {}
    try:
        with sources.opened(name) as file:
            for one, layer in sources.read_layers(file.read(MOST_OF_LAYERS)).items():
                names.setdefault(layer, []).append(one)
    except FileNotFoundError:
        raise Unfit("--layers is a file of layers, or: %s" % statement.KEYS["layers"]) from None
    except Unfit as unfit:
        raise Unfit("%s: %s" % (name, unfit)) from None
    return ", ".join("%d %s" % (layer, " or ".join(names[layer])) for layer in sorted(names))


def payload_said(given: argparse.Namespace) -> str:
    """What a command line says of payloads; empty where it says nothing."""
    kinds = {"text %s" % given.payload: given.payload, "digest": given.digest, "hexadecimal": given.hexadecimal}
    found = [kind for kind, is_given in kinds.items() if is_given] or ["key"] * bool(given.key)
    if len(found) > 1:
        raise Unfit("--payload, --digest and --hexadecimal say different things of the payloads")
    return "".join(found)


def write_several(given: argparse.Namespace, records: List[Tuple[Record, List[int]]], inputs: List[str]) -> None:
    """Writes the features of records, each with the queries that it answers."""
    naming = naming_of(given)
    features = [feature(record, naming, queries) for record, queries in records]
    write(given.OUT, [*inputs, *(given.statement or [])], written_as(given, features, records, naming))
    found = bounds(record for record, _ in records)
    outputs.tell(SCRIPT, extent(found, naming.grid))
    tell_system(given, found[1])


def write(name: str, inputs: Sequence[str], lines: Iterable[str]) -> None:
    """Writes lines to a file that has this name once all of them are there. Raises Unfit and OSError."""
    outputs.refuse_same(name, inputs)
    with outputs.written(name, inputs) as file:
        file.writelines(line.encode("utf-8") for line in lines)


# ---- words


def root_and_query(root: str, query: str) -> Tuple[bytes, Query]:
    """What the words of a root digest and a query mean. Raises Unfit."""
    try:
        return client.read_root(root), client.read_query(query)
    except ValueError as fault:
        raise Unfit(str(fault)) from None


def options_of(given: argparse.Namespace) -> Options:
    """How the files of a command line are read."""
    grid, place = given.unit or Grid(Decimal(1)), given.place
    names = given.number, given.payload, place, given.delimiter or ","
    options = Options(grid, *names, given.skip_empty, given.digest or bool(given.shapes), given.key)
    return options._replace(layer=layer_of_all(given.layer), layers=layers_of(given))


def layer_of_all(word: Optional[str]) -> Union[None, int, str]:
    """The layer of all records that a word spells, or else the property that it names. Raises Unfit."""
    if word is None or not re.fullmatch("[0-9]+", word):
        return word
    if len(word) > 2 or int(word) > client.MOST_LAYER:
        raise Unfit("--layer is a number from 0 to %d, or names a property" % client.MOST_LAYER)
    return int(word)


def layers_of(given: argparse.Namespace) -> Optional[Dict[str, int]]:
    """The numbers of layers in the file that --layers names. Raises Unfit and OSError."""
    if not given.layers:
        return None
    if given.layer is None or given.layer.isdigit():
        raise Unfit("--layers says the numbers of names, and --layer the property that has such a name")
    with sources.opened(given.layers) as file:
        try:
            return sources.read_layers(file.read(MOST_OF_LAYERS))
        except Unfit as unfit:
            raise Unfit("%s: %s" % (given.layers, unfit)) from None


def naming_of(given: argparse.Namespace) -> Naming:
    """How the records of an answer become features."""
    names = [name for name in (given.number, given.payload, given.layer) if name]
    if len(set(names)) < len(names) or QUERIES in names:
        raise Unfit("--number, --payload and --layer name different properties, and none of them %s" % QUERIES)
    try:
        "".join(names).encode("utf-8")
    except UnicodeEncodeError:
        raise Unfit("what --number, --payload and --layer name is not UTF-8") from None
    hexadecimal = "payload" if given.said and given.said.payload == "hexadecimal" else None
    layers = given.said.layers if given.said else {}
    return Naming(given.unit, given.number, given.payload, given.digest, given.layer, hexadecimal, layers)


def unit_of(word: str) -> Grid:
    """The map units of a size that a word spells. Raises ArgumentTypeError."""
    with suppress(Unfit):
        unit = sources.decimal_of(word)
        if Decimal("1e-30") <= unit <= Decimal("1e30"):
            return Grid(unit)
    raise argparse.ArgumentTypeError("%s is no number from 1e-30 to 1e30" % clipped(word))


def place_of(word: str) -> List[str]:
    """The names of one, two or four columns. Raises ArgumentTypeError."""
    names = word.split(",")
    if len(names) not in (1, 2, 4):
        raise argparse.ArgumentTypeError("it names one, two or four columns")
    return names


def delimiter_of(word: str) -> str:
    """What stands between fields. Raises ArgumentTypeError."""
    word = "\t" if word in ("tab", "\\t") else word
    if len(word) != 1 or word in '"\r\n' or ord(word) > 0xFFFF:
        raise argparse.ArgumentTypeError("it is one character, or tab")
    return word


def most_of(word: str) -> int:
    """A number of bytes. Raises ArgumentTypeError."""
    try:
        return client.read_most(word)
    except ValueError:
        raise argparse.ArgumentTypeError("%s is no whole number of bytes" % clipped(word)) from None


class Parser(argparse.ArgumentParser):
    """A parser of command lines that tells in a line what is wrong."""

    def error(self, message: str) -> NoReturn:
        """Raises Unfit."""
        raise Unfit("%s (%s --help)" % (message, SCRIPT))

    def print_help(self, file: Any = None) -> None:
        """Prints how the script is used."""
        write("-", [], [self.format_help()])


READS = "unit crs number key payload layer layers digest shapes-to places-to place delimiter form skip-empty"  # of files
WRITES = "unit number payload layer digest format crs"  # of one that writes an answer
STATED = "statement publishers"  # of one that takes what a statement says
STATES = "map atlas unit crs axes numbers key payload digest hexadecimal layers shapes address from until ended after"
COMMANDS = {
    "text": (text_command, "FILE RECORDS", READS),
    "batch": (batch_command, "N OLD NEW BATCH", READS),
    "query": (query_command, "WORDS", "unit " + STATED),
    "answer": (answer_command, "ROOT QUERY PROOF OUT", WRITES + " key shapes atlas form most " + STATED),
    "answers": (answers_command, "ROOT SCRIPT BUNDLE OUT", WRITES + " most " + STATED),
    "features": (features_command, "LINES OUT", WRITES),
    "find": (find_command, "ROOT MAP OUT KEYS", "unit number key payload layer digest shapes places by-number form most " + STATED),
    "info": (info_command, "FILE", "most"),
    "statement": (statement_command, "MAP OUT", STATES + " publishers"),
}
WORDS = {  # what the words of commands are
    "FILE": "the file: GeoJSON, a feature on each line, CSV or a record text; of info any file, or an address",
    "RECORDS": "the record text that is written",
    "N": "the number of the batch: one more than that of the map",
    "OLD": "the file of the state that the map is in",
    "NEW": "the file of the state that it is to come to",
    "BATCH": "the batch text that is written",
    "WORDS": "window X0 Y0 X1 Y1, or nearest X Y K, in the file's unit",
    "ROOT": "the root digest of the map: 64 hexadecimal digits, from somebody you trust; left out with --statement",
    "QUERY": "a query word in map units, as `query` prints it",
    "PROOF": "the file of a proof, or a map file, or the address of one, which may be left out with --statement",
    "SCRIPT": "the file of a script: a query word on each line",
    "BUNDLE": "the file of the proofs for a script",
    "LINES": "a file of what was printed",
    "MAP": "a map file, or its address",
    "OUT": "the file that is written",
    "KEYS": "keys, or with --by-number record numbers",
}
SIGNS = ("--digest", "--skip-empty", "--hexadecimal", "--by-number", "--atlas")  # options without a value
SEVERAL = ("--statement", "--ended")  # options that may stand several times
ENDS = tuple(sources.FORMS)
FORMATS = ("geojson", "geojsonseq", "csv")
TYPES: Dict[str, Any] = {"--unit": unit_of, "--place": place_of, "--delimiter": delimiter_of, "--most": most_of}


def parser() -> Parser:
    """The parser of all command lines."""
    raw = argparse.RawDescriptionHelpFormatter
    whole = Parser(prog=SCRIPT, description=__doc__, usage=argparse.SUPPRESS, formatter_class=raw)
    whole.add_argument("--version", action="version", version="%s %s" % (SCRIPT, client.__version__))
    commands = whole.add_subparsers(dest="command", required=True, help=argparse.SUPPRESS)
    for command, (_, names, options) in COMMANDS.items():
        one = commands.add_parser(command, prog="%s %s" % (SCRIPT, command), allow_abbrev=False)
        for name in names.split():
            one.add_argument(name, nargs="+" if name in ("WORDS", "KEYS") else None, help=WORDS[name])
        for option, told in (line.split(": ", 1) for line in HELP.split("\n")):
            is_sign = option in SIGNS
            if option[2:] not in options.split():
                one.set_defaults(**{option[2:].replace("-", "_"): False if is_sign else None})
            elif is_sign:
                one.add_argument(option, action="store_true", help=told)
            else:
                action = "append" if option in SEVERAL else "store"
                one.add_argument(option, type=TYPES.get(option), action=action, help=told)
    return whole


def arguments(words: List[str]) -> argparse.Namespace:
    """What the words of a command line mean. Raises Unfit."""
    negative = re.compile(r"-[0-9.]+[eE][+-]?[0-9]{1,2}")
    given = parser().parse_args(
        [sources.spelled(sources.decimal_of(word)) if negative.fullmatch(word) else word for word in filled(words)]
    )
    take_statement(given)
    if given.form not in (None, *sources.FORMS.values(), "text"):
        raise Unfit("--form is geojson, geojsonseq, csv or text, and not %s" % clipped(given.form))
    if given.command == "info":
        return given
    if given.command in ("text", "batch"):
        refuse_other_reads(given)
    is_statement = given.command == "statement"
    if given.payload and (given.digest or given.shapes) and not is_statement:
        raise Unfit("the payload is either what --payload names or, with --digest or --shapes, a digest")
    files = [vars(given)[name] for name in ("FILE", "OLD", "NEW") if name in given]
    is_text = given.form == "text" or not (given.form or any(sources.plain_name(name).endswith(ENDS) for name in files))
    if given.unit is None and not (files and is_text) and not is_statement:
        raise Unfit("--unit has to be given: how large a map unit is in the file's unit")
    if given.format not in (None, *FORMATS):
        raise Unfit("--format is geojson, geojsonseq or csv, and not %s" % clipped(given.format))
    if given.crs and not statement.is_right("crs", given.crs):
        raise Unfit("--crs is %s, and not %s" % (statement.KEYS["crs"], clipped(given.crs)))
    if given.shapes and given.format == "csv":
        raise Unfit("--format csv has the boxes of records, and no shapes")
    return given


def refuse_other_reads(given: argparse.Namespace) -> None:
    """Raises Unfit where options do not go together by which files are read."""
    if given.key and given.number:
        raise Unfit("the number is either what --number names or, with --key, made of a key")
    if given.shapes_to and not given.digest:
        raise Unfit("--shapes-to writes the features of a map that has their digests: --digest")
    for option, word in (("--shapes-to", given.shapes_to), ("--places-to", given.places_to)):
        if word and (word == "-" or outputs.is_special(word)):
            raise Unfit("%s names a file of its own" % option)


def filled(words: List[str]) -> List[str]:
    """The words of a command line, with an empty one in the place of each that a statement makes needless.

    >>> filled(["answer", "--statement", "a.statement", "window:0,0,1,1", "out"])
    ['answer', '', '--statement', 'a.statement', 'window:0,0,1,1', '', 'out']
    """
    least = {"answer": 2, "answers": 3}.get("".join(words[:1]), 9)
    if not any(word.split("=")[0] == "--statement" for word in words):
        return words
    if words[0] == "find":
        return [words[0], "", "", *words[1:]]
    places, is_value = [], False
    for at, word in enumerate(words):
        is_option = word.startswith("--") and not is_value
        if at and not is_option and not is_value:
            places.append(at)
        is_value = is_option and "=" not in word and word not in SIGNS
    if not least <= len(places) <= 3:
        return words
    fewer = words[: places[-1]] + [""] * (len(places) == 2) + words[places[-1] :]
    return [fewer[0], "", *fewer[1:]]


def take_statement(given: argparse.Namespace) -> None:
    """Takes from statements what the words of a command line leave out. Raises Unfit and Ended."""
    given.said = None
    if given.publishers and not (given.statement or given.after):
        raise Unfit("--publishers is of a statement, and none is given")
    if not given.statement:
        return
    for option in ("unit", "crs", "payload", "digest"):
        if vars(given)[option]:
            raise Unfit("--%s is for maps without a statement: it says that itself" % option)
    said = given.said = statement.chosen(given.statement, given.publishers, lambda words: outputs.tell(SCRIPT, words))
    given.unit, given.crs = Grid(said.unit), said.crs
    if given.command == "query":
        return
    given.ROOT = statement.root_of(said, given.ROOT or None)
    given.payload = {"text": said.payload_name, "key": said.keys}.get(said.payload)
    given.digest = said.payload == "digest"
    given.layer = given.layer or ("layer" if said.layers else None)
    if given.command == "answer" and not given.PROOF:
        if not said.address:
            raise Unfit("%s: it has no address of the map, so PROOF has to be given" % said.name)
        given.PROOF = said.where(said.address)
    if given.command == "find":
        if not said.address or not (said.keys or given.by_number):
            words = "it has no address of the map" if said.keys else "it names no keys: --by-number finds numbers"
            raise Unfit("%s: %s" % (said.name, words))
        given.MAP = said.where(said.address)
    if given.command in ("answer", "find") and said.shapes and not given.shapes and given.format != "csv":
        given.shapes = said.where(said.shapes)


def run(words: List[str]) -> None:
    """Does what the words of a command line say. Raises what outputs.status_of tells."""
    given = arguments(words)
    COMMANDS[given.command][0](given)


def main(words: Optional[List[str]] = None) -> int:
    """Runs the words of a command line; answers the exit status."""
    return outputs.status_of(SCRIPT, lambda: run(sys.argv[1:] if words is None else words))


if __name__ == "__main__":
    signal.signal(signal.SIGINT, signal.default_int_handler)
    sys.exit(main())
