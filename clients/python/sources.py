"""Records from the files that publishers have: GeoJSON, GeoJSON text sequences, CSV and record texts.

A file is read as it comes, and of its features no more is kept than their records. One whose name ends with .gz is
unpacked on the way. `Options` says how it is read. What does not fit raises Unfit, with its file and its feature or
line. Tested, and not proved.
"""
from __future__ import annotations

import codecs
import csv
import gzip
import hashlib
import json
import re
import struct
import zlib
from decimal import MAX_EMAX, MIN_EMIN, ROUND_05UP, ROUND_CEILING, ROUND_FLOOR, ROUND_HALF_EVEN
from decimal import Context, Decimal, Inexact, InvalidOperation
from typing import IO, Any, Callable, Dict, Iterable, Iterator, List, NamedTuple, NoReturn, Optional, Sequence, Tuple, Union

if __package__:
    from .mrtree_check import MOST_LAYER, Record, Rect, read_decimal, record_bytes
    from .outputs import Unfit
else:
    from mrtree_check import MOST_LAYER, Record, Rect, read_decimal, record_bytes
    from outputs import Unfit

MOST = 2**20  # records of a map, and changes of a batch
PIECE = 2**18  # bytes of GeoJSON that are read at once
DEEP = "there are too many brackets in one another"
CLIPPED = 80  # characters of a value that are told
SYSTEM = r"(?:urn:ogc:def:crs:)?([a-z][a-z0-9_]{0,19}):(?:[0-9.]{0,20}:)?([a-z0-9_.]{1,40})"  # in GeoJSON of 2008
DEPTHS = {"Point": 0, "MultiPoint": 1, "LineString": 1, "MultiLineString": 2, "Polygon": 2, "MultiPolygon": 3}
NUMBER = r"[+-]?(?:[0-9]+(?:\.[0-9]*)?|\.[0-9]+)(?:[eE][+-]?[0-9]{1,6})?"
FORMS = {
    ".geojson": "geojson",
    ".json": "geojson",
    ".geojsonl": "geojsonseq",
    ".geojsons": "geojsonseq",
    ".ndjson": "geojsonseq",
    ".csv": "csv",
}
UNREADABLE = (".shp", ".gpkg", ".kml", ".gml", ".fgb", ".zip", ".dbf", ".xlsx", ".parquet")
# ROUND_05UP: what is rounded to 80 digits and then to a whole number is as if it were rounded once.
EXACT = Context(prec=80, rounding=ROUND_05UP, Emin=MIN_EMIN, Emax=MAX_EMAX)
MOST_POWER = 30  # of ten, in the size of a map unit
Box = Tuple[Decimal, Decimal, Decimal, Decimal]  # x0, y0, x1, y1 in the file's unit


class Grid:
    """The map units of a publisher: the size of one in the file's unit."""

    def __init__(self, unit: Decimal) -> None:
        self.unit, self.most = unit, unit * 2**32
        context = EXACT.copy()
        self.times = context.divide(Decimal(1), unit)
        self.is_exact = not context.flags[Inexact]

    def units(self, value: Decimal, rounding: str = ROUND_HALF_EVEN) -> int:
        """A coordinate in map units. Raises Unfit where it is out of range.

        >>> Grid(Decimal("1e-7")).units(Decimal("13.3777"))
        133777000
        >>> Grid(Decimal("1e-7")).units(Decimal("1e999999"))
        Traceback (most recent call last):
        outputs.Unfit: the coordinate 1E+999999 is out of range: with --unit 1e-7 from -214.7483648 to 214.7483647
        """
        if -self.most <= value <= self.most:
            scaled = EXACT.multiply(value, self.times) if self.is_exact else EXACT.divide(value, self.unit)
            units = int(scaled.to_integral_value(rounding))
            if -(2**31) <= units < 2**31:
                return units
        ends = spelled(self.unit * -(2**31)), spelled(self.unit * (2**31 - 1))
        told = clipped(value), str(self.unit).lower(), *ends
        words = "the coordinate %s is out of range: with --unit %s from %s to %s" % told
        raise Unfit(words + larger_unit(value))

    def rect(self, box: Box) -> Rect:
        """A box in map units: a point at the nearest one, else the least rectangle that holds it. Raises Unfit.

        >>> Grid(Decimal(1)).rect((Decimal("1.5"), Decimal("0.2"), Decimal("1.5"), Decimal("0.2")))
        (2, 0, 2, 0)
        >>> Grid(Decimal(1)).rect((Decimal("1.5"), Decimal("0.2"), Decimal("1.6"), Decimal("0.2")))
        (1, 0, 2, 1)
        """
        x0, y0, x1, y1 = box
        if x0 == x1 and y0 == y1:
            x, y = self.units(x0), self.units(y0)
            return x, y, x, y
        if x0 > x1 or y0 > y1:
            raise Unfit("the sides %s are out of order" % " ".join(map(clipped, box)))
        low, high = ROUND_FLOOR, ROUND_CEILING
        return self.units(x0, low), self.units(y0, low), self.units(x1, high), self.units(y1, high)

    def in_file(self, units: int) -> str:
        """A coordinate in the file's unit, as a number of JSON.

        >>> Grid(Decimal("1e-7")).in_file(133777000), Grid(Decimal(10)).in_file(-5)
        ('13.3777', '-50')
        """
        return spelled(EXACT.multiply(Decimal(units), self.unit))


def larger_unit(value: Decimal) -> str:
    """Which larger unit, a power of ten, would do for a coordinate, as the end of a message; nothing where none would.

    >>> larger_unit(Decimal("5796287.22")), larger_unit(Decimal(523)), larger_unit(Decimal("1e999"))
    ('; a larger unit, as 0.01, would do', '; a larger unit, as 1e-6, would do', '')
    """
    power = value.adjusted() - 9
    if power > MOST_POWER:
        return ""
    power += value.copy_abs() > Decimal(2**31 - 2).scaleb(power)
    if power > MOST_POWER:
        return ""
    unit = Decimal(1).scaleb(power)
    return "; a larger unit, as %s, would do" % (spelled(unit) if -4 < power < 9 else "1e%d" % power)


class Options(NamedTuple):
    """How a file is read: its map units, and the names of what is taken from it."""

    grid: Grid
    number: Optional[str] = None  # the property or column of the number
    payload: Optional[str] = None  # the property or column of the payload
    place: Optional[Sequence[str]] = None  # the columns of CSV: two of a point, four of a box, or one of WKT
    delimiter: str = ","  # what stands between fields of CSV
    skips_empty: bool = False  # whether features without a position are left out
    is_digest: bool = False  # whether the payload is the digest of the feature's canonical bytes
    key: Optional[str] = None  # the property or column of the key, a text whose SHA-256 gives the number
    layer: Union[None, int, str] = None  # the layer of all records, or the property or column of it; else version 1
    layers: Optional[Dict[str, int]] = None  # the layers by the texts of that property
    keep: Optional[Callable[[Record, bytes], None]] = None  # takes each record with its feature's canonical bytes


class Reading:
    """How far a file is read, and what is counted on the way."""

    def __init__(self, name: str, options: Options) -> None:
        self.name, self.options = name, options
        self.part, self.at = "", 0  # what is being read: "line" or "feature", and the how many-th
        self.skipped = self.bare = 0  # features that are left out, and records without a payload
        self.has_payload = False  # whether some feature has the property of the payload
        self.version = 1 if options.layer is None else 2  # of a record text that of its lines
        self.key, self.mark = "", 0  # the last key, and the next bits of its SHA-256 behind the number
        self.raw: Callable[[], str] = str  # gives the JSON text of the last feature, an empty one where it is not held
        self.cut: List[str] = []  # the features that are cut at the antimeridian, each by its line or number
        self.crs: Optional[str] = None  # the coordinate system that a GeoJSON text says, as EPSG:25833

    def where(self) -> str:
        """Where reading is, to be put before what is wrong."""
        return "%s: %s" % (self.name, "%s %d: " % (self.part, self.at) if self.part else "")


# ---- values, and how they are told


def clipped(value: Any) -> str:
    """A value as it is told: JSON, in 80 characters at most, all of which can be printed.

    >>> clipped(None), clipped(Decimal("1E+2")), clipped("a\\x1b"), clipped([1])
    ('null', '1E+2', '"a\\\\u001b"', '[..]')
    """
    if isinstance(value, (list, dict)):
        return "[..]" if isinstance(value, list) else "{..}"
    if isinstance(value, Decimal):
        text = str(value) if value.is_finite() and len(value.as_tuple().digits) < CLIPPED else "%.40s.." % value
    else:
        text = json.dumps(value[:CLIPPED] if isinstance(value, str) else value, ensure_ascii=False)
    return "".join(letter if letter.isprintable() else "\\u%04x" % ord(letter) for letter in text)[: CLIPPED + 2]


def spelled(value: Decimal) -> str:
    """A number as its canonical decimal: digits without exponent, and no zeros at the end.

    >>> spelled(Decimal("1E+2")), spelled(Decimal("-0.50")), spelled(Decimal("-0.0"))
    ('100', '-0.5', '0')
    """
    digits = format(value, "f")
    if "." in digits:
        digits = digits.rstrip("0").rstrip(".")
    return "0" if digits == "-0" else digits


def number_of(value: Any) -> int:
    """A record number, from 0 and below 2^64, of a whole number or its digits. Raises Unfit.

    >>> number_of(Decimal("7.0")), number_of("18446744073709551615"), number_of("7.0")
    (7, 18446744073709551615, 7)
    """
    if type(value) is Decimal and 0 <= value < 2**64 and value == int(value):
        return int(value)
    try:
        if type(value) is not str:
            raise ValueError
        return read_decimal(re.sub(r"\.0{1,20}\Z", "", value), 0, 2**64 - 1)
    except ValueError:
        raise Unfit("the number %s is no whole number from 0 and below 2^64" % clipped(value)) from None


def text_of(value: Any, what: str) -> str:
    """A text as it is, a number in its canonical decimal, and none of null. Raises Unfit of anything else.

    >>> text_of("Tor", "payload"), text_of(None, "payload"), text_of(Decimal("1.50"), "key"), text_of(True, "payload")
    ('Tor', '', '1.5', 'true')
    """
    if type(value) is Decimal:
        if not -200 < value.adjusted() < 200:
            raise Unfit("the %s %s has more than 200 digits" % (what, clipped(value)))
        return spelled(value)
    if type(value) is bool:
        return clipped(value)
    if value is not None and type(value) is not str:
        raise Unfit("the %s %s is neither a text nor a number" % (what, clipped(value)))
    return value or ""


def payload_of(value: Any) -> bytes:
    """The payload that a text is in UTF-8, or a number in its canonical decimal. Raises Unfit where it has no room.

    >>> payload_of("Tor"), payload_of(None), payload_of(Decimal("1.50")), payload_of(True)
    (b'Tor', b'', b'1.5', b'true')
    """
    try:
        payload = text_of(value, "payload").encode("utf-8")
    except UnicodeEncodeError:
        raise Unfit("the payload is not UTF-8") from None
    if len(payload) > 200:
        raise Unfit("the payload has %d bytes, and 200 are the most" % len(payload))
    return payload


def hashed(key: str) -> Tuple[int, int]:
    """The number of a key, the first 8 bytes of the SHA-256 of its UTF-8; and its next 4 bytes. Raises Unfit.

    >>> hashed("DEBE000000001ABC")[0], hashed("12/3")[0]
    (4118383698152195645, 12140195663999862151)
    """
    try:
        whole = hashlib.sha256(key.encode("utf-8")).digest()
    except UnicodeEncodeError:
        raise Unfit("the key is not UTF-8") from None
    return int.from_bytes(whole[:8], "big"), int.from_bytes(whole[8:12], "big")


def number_of_key(value: Any, reading: "Reading") -> int:
    """The number of a key. Raises Unfit where there is none."""
    reading.key = text_of(value, "key")
    if not reading.key:
        raise Unfit("the key is empty")
    number, reading.mark = hashed(reading.key)
    return number


def layer_of(value: Any, options: Options) -> int:
    """The layer that a value of its property says: its number, or the name of one. Raises Unfit."""
    text = text_of(value, "layer")
    if options.layers is not None:
        if text not in options.layers:
            raise Unfit("the layer %s is none of those that --layers names" % clipped(text))
        return options.layers[text]
    try:
        return read_decimal(re.sub(r"\.0{1,20}\Z", "", text), 0, MOST_LAYER)
    except ValueError:
        words = "the layer %s is no whole number from 0 to %d: --layers FILE says the numbers of names"
        raise Unfit(words % (clipped(text), MOST_LAYER)) from None


def read_layers(text: bytes) -> Dict[str, int]:
    """The layers that a text names: on each line a number from 0 to 63, a space and a name. Raises Unfit.

    >>> read_layers(b"0 house\\n1 main road\\n0 garage\\n")
    {'house': 0, 'main road': 1, 'garage': 0}
    """
    found: Dict[str, int] = {}
    for at, line in enumerate(utf8(text, True).split("\n"), 1):
        number, _, name = line.rstrip("\r").partition(" ")
        if not number and not name:
            continue
        try:
            layer = read_decimal(number, 0, MOST_LAYER)
        except ValueError:
            layer = -1
        if layer < 0 or not name:
            raise Unfit("line %d: it is no number from 0 to %d, a space and a name" % (at, MOST_LAYER))
        if name in found:
            raise Unfit("line %d: the name %s stands twice" % (at, clipped(name)))
        found[name] = layer
    if not found:
        raise Unfit("it names no layers")
    return found


def decimal_of(field: str) -> Decimal:
    """The number that a field spells, in the file's unit. Raises Unfit."""
    field = field.strip()
    if not re.fullmatch(NUMBER, field):
        raise Unfit("%s is no number" % clipped(field))
    return Decimal(field)


def like(name: str, names: Iterable[str]) -> Optional[str]:
    """Which of some names is meant: this one, or one that differs in the case of letters. Raises Unfit of two such.

    >>> like("Name", ["name", "kind"]), like("name", ["NAME", "name"]), like("a", ["b"])
    ('name', 'name', None)
    """
    if name in names:
        return name
    found = [one for one in names if one.lower() == name.lower()]
    if len(found) > 1:
        raise Unfit("%s and %s are both there, and %s is neither" % (*map(clipped, found[:2]), clipped(name)))
    return found[0] if found else None


# ---- JSON


def object_of(pairs: List[Tuple[str, Any]]) -> Dict[str, Any]:
    """An object of its members. Raises Unfit where a key stands twice."""
    members = dict(pairs)
    if len(members) < len(pairs):
        keys = [key for key, _ in pairs]
        raise Unfit("the key %s stands twice" % clipped(next(key for key in keys if keys.count(key) > 1)))
    return members


def no_number(word: str) -> NoReturn:
    """Refuses NaN and the infinities, which Python's reader would take."""
    raise Unfit("%s is no number" % word)


SCANNER = json.JSONDecoder(
    object_pairs_hook=object_of, parse_float=Decimal, parse_int=Decimal, parse_constant=no_number
)


def scanned(text: str, at: int) -> Tuple[Any, int]:
    """The value of JSON at a place of a text, and where it ends. Raises JSONDecodeError where it is none, and Unfit."""
    try:
        return SCANNER.raw_decode(text, at)
    except RecursionError:
        raise Unfit(DEEP) from None
    except InvalidOperation:
        raise Unfit("a number has too many digits") from None


def in_words(error: json.JSONDecodeError) -> str:
    """What is wrong with a JSON text, without its place."""
    return "it is no JSON: " + re.sub(r" (starting )?at$", "", error.msg)


SIGN = re.compile(r"[^ \t\n\r]")


class Text:
    """A JSON text that is read as it comes: what is held of it, the place in that, and the line on which it begins."""

    def __init__(self, file: IO[bytes]) -> None:
        self.file, self.held, self.at, self.line, self.is_whole = file, "", 0, 1, False
        self.began = 0  # the place of the last value
        self.decoder = codecs.getincrementaldecoder("utf-8-sig")()

    def more(self) -> None:
        """Holds the next piece too, one as large as what is held. Raises Unfit where it is not UTF-8."""
        self.line += self.held.count("\n", 0, self.at)
        self.held, self.at = self.held[self.at :], 0
        piece = self.file.read(max(PIECE, len(self.held)))
        try:
            self.held += self.decoder.decode(piece, not piece)
        except UnicodeDecodeError as error:
            lines = self.held.count("\n") + error.object.count(b"\n", 0, error.start)
            raise Unfit("line %d: it is not UTF-8" % (self.line + lines)) from None
        self.is_whole = not piece

    def sign(self) -> str:
        """The next character that is no space, none at the end; reading comes to stand on it."""
        while True:
            found = SIGN.search(self.held, self.at)
            self.at = found.start() if found else len(self.held)
            if found or self.is_whole:
                return self.held[self.at : self.at + 1]
            self.more()

    def take(self, signs: str) -> str:
        """Goes over the next sign, which is one of these. Raises Unfit."""
        sign = self.sign()
        if not sign or sign not in signs:
            self.fail("there is no %s" % " or ".join(signs), self.at)
        self.at += 1
        return sign

    def value(self) -> Any:
        """Goes over the next value. Raises Unfit."""
        self.sign()
        while True:
            try:
                value, end = scanned(self.held, self.at)
                if end < len(self.held) or self.is_whole:
                    self.began, self.at = self.at, end
                    return value
            except Unfit as unfit:
                self.fail(str(unfit), self.at)
            except json.JSONDecodeError as error:
                if self.is_whole:
                    self.fail(in_words(error), error.pos)
            self.more()

    def last(self) -> str:
        """The text of the last value, as long as nothing behind it was read."""
        return self.held[self.began : self.at]

    def key(self) -> str:
        """Goes over the next key of an object. Raises Unfit."""
        if self.sign() != '"':
            self.fail("there is no key", self.at)
        return str(self.value())

    def fail(self, words: str, at: int) -> NoReturn:
        """Raises Unfit, with the line of a place."""
        raise Unfit("line %d: %s" % (self.line + self.held.count("\n", 0, at), words))

    def items(self) -> Iterator[Any]:
        """Goes over the next list; yields its values. Raises Unfit."""
        self.take("[")
        if self.sign() == "]":
            self.take("]")
            return
        while True:
            yield self.value()
            if self.take(",]") == "]":
                return


def features_of(file: IO[bytes], reading: "Reading") -> Iterator[Any]:
    """The features of a GeoJSON text: of a feature, or a collection of features. Raises Unfit.

    >>> import io
    >>> text = io.BytesIO(b'{"type": "FeatureCollection", "features": [1, "a"]}')
    >>> list(features_of(text, Reading("a.geojson", Options(Grid(Decimal(1))))))
    [Decimal('1'), 'a']
    """
    text, members, sign = Text(file), {}, ","
    if text.sign() != "{":
        raise Unfit("it is no object of JSON, so neither a feature nor a collection of features")
    text.take("{")
    if text.sign() == "}":
        sign = text.take("}")
    while sign == ",":
        key = text.key()
        if key in members:
            text.fail("the key %s stands twice" % clipped(key), text.at)
        text.take(":")
        if key == "features" and text.sign() == "[" and members.get("type") != "Feature":
            reading.raw = text.last
            yield from text.items()
            reading.raw = str
            members[key] = []
        else:
            members[key] = text.value()
        sign = text.take(",}")
    if text.sign():
        text.fail("something stands behind it (--form geojsonseq, if each line is a feature)", text.at)
    reading.crs = system_of(members.get("crs"))
    if members.get("type") == "Feature" and members.get("features", [0]) != []:
        yield members
    elif members.get("type") != "FeatureCollection" or members.get("features") != []:
        raise Unfit("it has neither a feature nor a collection of features")


def system_of(member: Any) -> Optional[str]:
    """The coordinate system that the member `crs` of a GeoJSON text names, as EPSG:25833; none of another form.

    >>> name = "urn:ogc:def:crs:OGC:1.3:CRS84"
    >>> system_of({"type": "name", "properties": {"name": name}}), system_of(None)
    ('OGC:CRS84', None)
    """
    properties = member.get("properties") if type(member) is dict else None
    name = properties.get("name") if type(properties) is dict else None
    found = re.fullmatch(SYSTEM, name, re.IGNORECASE) if type(name) is str else None
    return "%s:%s" % (found[1].upper(), found[2]) if found else None


def sequence(reading: Reading, file: IO[bytes]) -> Iterator[bytes]:
    """The texts of a GeoJSON text sequence (RFC 8142); without its marks, the lines. Empty ones are none."""
    reading.part, held = "line", []
    for line in file:
        if line[:1] == b"\x1e":
            if held:
                yield b"".join(held)
            reading.part, held = "feature", [line.lstrip(b"\x1e")]
            reading.at += 1
        elif held:
            held.append(line)
        else:
            reading.at += 1
            yield line
    if held:
        yield b"".join(held)


def values_of(reading: Reading, file: IO[bytes]) -> Iterator[Any]:
    """The values of a GeoJSON text sequence. Raises Unfit."""
    for text in sequence(reading, file):
        line = utf8(text, reading.at == 1).strip(" \t\r\n")
        if line:
            try:
                value, end = scanned(line, 0)
            except json.JSONDecodeError as error:
                raise Unfit(in_words(error)) from None
            if end < len(line):
                raise Unfit("something stands behind its feature")
            reading.raw = line.__str__
            yield value


def utf8(text: bytes, is_first: bool) -> str:
    """The text of bytes; before the first ones of a file there may be a byte-order mark. Raises Unfit."""
    try:
        return text.decode("utf-8-sig" if is_first else "utf-8")
    except UnicodeDecodeError:
        raise Unfit("it is not UTF-8") from None


# ---- geometries (RFC 7946)


def position(coordinates: Any) -> Tuple[Decimal, Decimal]:
    """A position, in the file's unit. Raises Unfit."""
    if type(coordinates) is list and len(coordinates) >= 2:
        x, y = coordinates[:2]
        if type(x) is Decimal and type(y) is Decimal:
            return x, y
    raise Unfit("a position of it is not two numbers")


def parts(coordinates: Any, depth: int) -> Iterator[List[Tuple[Decimal, Decimal]]]:
    """The positions of each line in an array of arrays so deep, at least 1. Raises Unfit."""
    if type(coordinates) is not list:
        raise Unfit("its coordinates are not those of its type")
    if depth == 1:
        yield [position(one) for one in coordinates]
        return
    for part in coordinates:
        yield from parts(part, depth - 1)


def boxes(geometry: Any) -> Iterator[Box]:
    """The boxes round the parts of a geometry that is no point, those of no position left out. Raises Unfit."""
    kind = geometry.get("type") if type(geometry) is dict else None
    if kind == "GeometryCollection" and type(geometry.get("geometries")) is list:
        for one in geometry["geometries"]:
            yield from boxes(one)
    elif kind == "Point" and geometry.get("coordinates") != []:
        yield position(geometry.get("coordinates")) * 2  # type: ignore[misc]
    elif type(kind) is str and kind in DEPTHS:
        for part in parts(geometry.get("coordinates"), max(DEPTHS[kind], 1)):
            if part:
                xs, ys = zip(*part)
                yield min(xs), min(ys), max(xs), max(ys)
    else:
        raise Unfit("its geometry is of no type that is known")


def is_cut(found: List[Box]) -> bool:
    """Whether these are boxes of parts that are cut at the antimeridian: some end there, some begin, none does both."""
    starts = {at for at, box in enumerate(found) if box[0] == -180}
    ends = {at for at, box in enumerate(found) if box[2] == 180}
    return bool(starts) and bool(ends) and not starts & ends


def rect_of(geometry: Any, reading: Reading) -> Optional[Rect]:
    """The rectangle of a geometry, none of one without a position. Raises Unfit."""
    grid = reading.options.grid
    if type(geometry) is dict and geometry.get("type") == "Point" and geometry.get("coordinates") != []:
        x, y = position(geometry.get("coordinates"))
        left, low = grid.units(x), grid.units(y)
        return left, low, left, low
    found = [] if geometry is None else list(boxes(geometry))
    if not found:
        return None
    if len(found) > 1 and is_cut(found):
        reading.cut.append("%s %d" % (reading.part, reading.at))
    x0s, y0s, x1s, y1s = zip(*found)
    return grid.rect((min(x0s), min(y0s), max(x1s), max(y1s)))


def placed(rect: Optional[Rect], reading: Reading) -> bool:
    """Whether there is a rectangle; counts what is left out. Raises Unfit where nothing is to be left out."""
    if rect is None and not reading.options.skips_empty:
        raise Unfit("it has no geometry, or one without a position; --skip-empty leaves such features out")
    reading.skipped += rect is None
    return rect is not None


# ---- features


def number_of_feature(feature: Dict[str, Any], properties: Dict[str, Any], reading: Reading) -> int:
    """The number of a feature: its id, or that of the property that is named, or of its key. Raises Unfit."""
    name, key = reading.options.number, reading.options.key
    if key is not None:
        return number_of_key(needed(properties, key, "key"), reading)
    if name is None:
        if "id" not in feature:
            words = "it has no id: --number PROPERTY names the property that has the number"
            raise Unfit(words + ", and --key PROPERTY one whose text is the key")
        return number_of(feature["id"])
    return number_of(needed(properties, name, "number"))


def needed(properties: Dict[str, Any], name: str, what: str) -> Any:
    """The property of this name. Raises Unfit where there is none."""
    key = like(name, properties)
    if key is None:
        raise Unfit("it has no property %s, which is to be its %s" % (clipped(name), what))
    return properties[key]


def payload_of_feature(properties: Dict[str, Any], reading: Reading) -> bytes:
    """The payload of a feature: the property that is named, else the key, if it has one. Raises Unfit."""
    if reading.options.payload is None:
        return payload_of(reading.key)
    key = like(reading.options.payload, properties)
    if key is None:
        return b""
    reading.has_payload = True
    return payload_of(properties[key])


def layer_of_feature(properties: Dict[str, Any], options: Options) -> int:
    """The layer of a feature: the one of all, or the property that is named. Raises Unfit."""
    if type(options.layer) is str:
        return layer_of(needed(properties, options.layer, "layer"), options)
    return options.layer or 0  # type: ignore[return-value]


def properties_of(feature: Any) -> Dict[str, Any]:
    """The properties of a feature. Raises Unfit where it is none, or they are no object."""
    if type(feature) is not dict or feature.get("type") != "Feature":
        raise Unfit("it is no feature")
    properties = feature.get("properties")
    if properties is None:
        return {}
    if type(properties) is not dict:
        raise Unfit("its properties are no object")
    return properties


def from_features(features: Iterable[Any], reading: Reading) -> Iterator[Record]:
    """The records of features. Raises Unfit."""
    for feature in features:
        properties = properties_of(feature)
        rect = rect_of(feature.get("geometry"), reading)
        if rect is not None or placed(rect, reading):
            yield record_of_feature(feature, properties, rect, reading)  # type: ignore[arg-type]


def record_of_feature(feature: Dict[str, Any], properties: Dict[str, Any], rect: Rect, reading: Reading) -> Record:
    """The record of a feature in this rectangle. Raises Unfit."""
    options = reading.options
    number, layer = number_of_feature(feature, properties, reading), layer_of_feature(properties, options)
    if not options.is_digest:
        return Record(number, rect, payload_of_feature(properties, reading), layer)
    shape = canonical_bytes(feature, reading.raw())
    record = Record(number, rect, hashlib.sha256(shape).digest(), layer)
    if options.keep:
        options.keep(record, shape)
    return record


def counted(features: Iterable[Any], reading: Reading) -> Iterator[Any]:
    """The features of a GeoJSON text, each once reading is at it; what is wrong elsewhere has a line of its own."""
    for at, feature in enumerate(features, 1):
        reading.part, reading.at = "feature", at
        yield feature
        reading.part = ""


# ---- canonical bytes (RFC 8785)


def number_in_javascript(value: Decimal) -> str:
    """A number as ECMAScript writes the double that is nearest to it. Raises Unfit where there is none.

    >>> [number_in_javascript(Decimal(word)) for word in ("1e21", "-0.0", "1.50", "1e-7", "123456789012345678901")]
    ['1e+21', '0', '1.5', '1e-7', '123456789012345680000']
    """
    double = float(value) if value.adjusted() < 400 else float("inf")
    if double in (float("inf"), float("-inf")):
        raise Unfit("the number %s is too large for a digest" % clipped(value))
    shortest = repr(double)
    if "e" not in shortest:
        whole = shortest[:-2] if shortest.endswith(".0") else shortest
        return "0" if whole == "-0" else whole
    sign, digits_, exponent = Decimal(shortest).as_tuple()
    digits = "".join(map(str, digits_)).rstrip("0") or "0"
    point = len(digits_) + int(exponent)
    if len(digits) <= point <= 21:
        text = digits + "0" * (point - len(digits))
    elif -6 < point <= 0:
        text = "0." + "0" * -point + digits
    else:
        text = digits[0] + ("." + digits[1:] if digits[1:] else "") + "e%+d" % (point - 1)
    return "-" + text if sign else text


def canonical(value: Any) -> str:
    """A value of JSON in its canonical text, by RFC 8785. Raises Unfit.

    >>> canonical({"b": [Decimal("1.0"), None, True], "a": "x"})
    '{"a":"x","b":[1,null,true]}'
    """
    if isinstance(value, Decimal):
        return number_in_javascript(value)
    if isinstance(value, list):
        return "[%s]" % ",".join(map(canonical, value))
    if isinstance(value, dict):
        keys = sorted(value, key=lambda key: key.encode("utf-16-be", "surrogatepass"))
        return "{%s}" % ",".join("%s:%s" % (canonical(key), canonical(value[key])) for key in keys)
    return json.dumps(value, ensure_ascii=False)


def short_whole(word: str) -> int:
    """A whole number of so few digits that a double has each of them. Raises ValueError of a longer one."""
    if len(word) > 15:
        raise ValueError
    return int(word)


# Python's own reader and writer of JSON make the canonical text of most features, and much faster. Not so of a number
# with an exponent or with nothing but a zero behind its point, nor of a long whole one; and where a text has letters
# above U+FFFF, by which keys are in another order.
FAST_READER = json.JSONDecoder(parse_int=short_whole)
FAST_WRITER = json.JSONEncoder(
    ensure_ascii=False, separators=(",", ":"), sort_keys=True, check_circular=False, allow_nan=False
)
OTHER_SIGNS = (".0,", ".0]", ".0}", "e-", "e+")  # one of them is in each text that has such a number
OTHER_NUMBER = re.compile(r"[\[:,]-?(?:[0-9]+\.0[,\]}]|[0-9.]+e)")


def fast_canonical(raw: str) -> str:
    """The canonical text of a JSON text without doubled keys; an empty one where this way is not sure of it.

    >>> fast_canonical('{"b": [1.50, 2], "a": null}'), fast_canonical('{"a": 1.0}'), fast_canonical('[1E5]')
    ('{"a":null,"b":[1.5,2]}', '', '')
    """
    try:
        text = FAST_WRITER.encode(FAST_READER.raw_decode(raw)[0]) if raw else ""
    except (ValueError, RecursionError):
        return ""
    if any(sign in text for sign in OTHER_SIGNS) and OTHER_NUMBER.search(text):
        return ""
    return text


def canonical_bytes(feature: Dict[str, Any], raw: str = "") -> bytes:
    """The canonical bytes of a feature, of which a JSON text may be at hand. Raises Unfit."""
    text = fast_canonical(raw)
    try:
        if not text or not text.isascii() and len(text.encode("utf-16-le")) > 2 * len(text):
            text = canonical(feature)
        return text.encode("utf-8")
    except UnicodeEncodeError:
        raise Unfit("a text in it is not UTF-8") from None


# ---- well-known text, as GDAL writes it to CSV

TOKEN = re.compile(r"\s*([A-Za-z]+|%s|[(),])" % NUMBER)
KINDS = {kind.upper(): kind for kind in [*DEPTHS, "GeometryCollection"]}


class WellKnown:
    """A geometry in well-known text: its words, numbers and brackets."""

    def __init__(self, text: str) -> None:
        self.tokens, at = [], 0
        text = text.strip()
        while at < len(text):
            found = TOKEN.match(text, at)
            if not found:
                raise Unfit("%s is no well-known text" % clipped(text))
            self.tokens.append(found[1])
            at = found.end()
        self.tokens.reverse()

    def next(self) -> str:
        """Goes over the next token, none at the end."""
        return self.tokens.pop() if self.tokens else ""

    def geometry(self) -> Dict[str, Any]:
        """Goes over a geometry; answers it as GeoJSON has it. Raises Unfit."""
        word = self.next()
        kind = KINDS.get(word.upper())
        if kind is None:
            raise Unfit("%s is no kind of geometry that is known" % clipped(word))
        if self.tokens and self.tokens[-1].upper() in ("Z", "M", "ZM"):
            self.next()
        if self.tokens and self.tokens[-1].upper() == "EMPTY":
            self.next()
            return {"type": kind, "coordinates": [], "geometries": []}
        if kind == "GeometryCollection":
            return {"type": kind, "geometries": self.several()}
        found = self.brackets()
        if kind == "Point":
            found = found[0] if len(found) == 1 else None
        elif kind == "MultiPoint":
            found = [one[0] if one and type(one[0]) is list else one for one in found]
        return {"type": kind, "coordinates": found}

    def several(self) -> List[Any]:
        """Goes over geometries in brackets. Raises Unfit."""
        found, sign = [], self.next()
        while sign == "(" or (found and sign == ","):
            found.append(self.geometry())
            sign = self.next()
        if sign != ")":
            raise Unfit("its well-known text ends too early")
        return found

    def brackets(self) -> List[Any]:
        """Goes over one pair of brackets; answers what is in it: positions, or lists of such. Raises Unfit."""
        stack: List[List[Any]] = [[]]
        numbers: List[Decimal] = []
        while self.tokens:
            token = self.next()
            if token == "(" and not numbers:
                stack.append([])
            elif token == "(" or len(stack) == 1:
                raise Unfit("%s stands where no such may in its well-known text" % clipped(token))
            elif token in ",)":
                if numbers:
                    stack[-1].append(numbers)
                    numbers = []
                if token == ")":
                    stack[-2].append(stack.pop())
                if len(stack) == 1:
                    return stack[0][0]
            else:
                numbers.append(decimal_of(token))
        raise Unfit("its well-known text ends too early")


def geometry_of(text: str) -> Optional[Dict[str, Any]]:
    """The geometry that a well-known text spells, none of an empty text. Raises Unfit.

    >>> geometry_of("POINT Z (1 2 3)")
    {'type': 'Point', 'coordinates': [Decimal('1'), Decimal('2'), Decimal('3')]}
    """
    if not text.strip():
        return None
    reader = WellKnown(text)
    geometry = reader.geometry()
    if reader.tokens:
        raise Unfit("something stands behind its well-known text")
    return geometry


# ---- CSV (RFC 4180)

POINT = re.compile(r"\s*POINT\s*\(\s*(%s)\s+(%s)\s*\)\s*" % (NUMBER, NUMBER), re.I)
OPEN_QUOTE = "unexpected end of data"  # as Python's reader has it


def lines_of_csv(file: IO[bytes], reading: Reading) -> Iterator[str]:
    """The lines of a CSV file with their ends, which may be carriage returns alone. Raises Unfit."""
    reading.part = "line"
    for line in file:
        reading.at += 1
        text = utf8(line, reading.at == 1)
        if "\0" in text:
            raise Unfit("there is a zero byte in it")
        if "\r" in text[:-2]:
            pieces = [piece for piece in re.split(r"(?<=\r)(?!\n)", text) if piece]
            reading.at += len(pieces) - 1
            yield from pieces
        else:
            yield text


def column(columns: List[str], name: str, option: str) -> int:
    """Where the column of a name stands. Raises Unfit."""
    key = like(name, columns)
    if key is None or columns.count(key) > 1:
        count = "no column" if key is None else "more than one column"
        raise Unfit("there is %s %s: %s names another" % (count, clipped(name), option))
    return columns.index(key)


def place_columns(columns: List[str], place: Optional[Sequence[str]]) -> List[int]:
    """Where the columns of the place stand: those named, else x and y, else WKT. Raises Unfit."""
    if place:
        return [column(columns, name, "--place") for name in place]
    for names in (["x", "y"], ["wkt"]):
        if all(like(name, columns) is not None for name in names):
            return [column(columns, name, "--place") for name in names]
    raise Unfit("there are neither the columns x and y nor the column WKT: --place names others")


def rect_of_fields(fields: List[str], reading: Reading) -> Optional[Rect]:
    """The rectangle that the fields of a place spell, none where they are empty. Raises Unfit."""
    grid, point = reading.options.grid, None
    if len(fields) == 1:
        point = POINT.fullmatch(fields[0])
        if not point:
            return rect_of(geometry_of(fields[0]), reading)
    elif not any(field.strip() for field in fields):
        return None
    if len(fields) == 4:
        x0, y0, x1, y1 = map(decimal_of, fields)
        return grid.rect((x0, y0, x1, y1))
    x, y = (Decimal(side) for side in point.groups()) if point else map(decimal_of, fields)
    left, low = grid.units(x), grid.units(y)
    return left, low, left, low


def full_rows(rows: Iterator[List[str]], columns: List[str]) -> Iterator[List[str]]:
    """The rows that have a field for each column; the last one may be missing where it has no name.

    Empty lines at the end are none. Raises Unfit.
    """
    least, is_empty = len(columns) - (columns[-1] == ""), False
    for fields in rows:
        if not fields:
            is_empty = True
        elif is_empty:
            raise Unfit("an empty line stands before it")
        elif not least <= len(fields) <= len(columns):
            raise Unfit("it has %d fields, and there are %d columns" % (len(fields), len(columns)))
        else:
            yield fields


def from_rows(rows: Iterator[List[str]], reading: Reading) -> Iterator[Record]:
    """The records of rows, of which the first names the columns. Raises Unfit."""
    options, columns = reading.options, next(rows, [])
    if not columns:
        reading.part = ""
        raise Unfit("there is no line with the names of the columns")
    key_at = column(columns, options.key, "--key") if options.key else None
    number_at = column(columns, options.number or "number", "--number") if key_at is None else 0
    layer_at = column(columns, options.layer, "--layer") if type(options.layer) is str else None
    layer = options.layer if type(options.layer) is int else 0
    place_at = place_columns(columns, options.place)
    payload_at = column(columns, options.payload, "--payload") if options.payload else key_at
    reading.has_payload = payload_at is not None
    for fields in full_rows(rows, columns):
        rect = rect_of_fields([fields[at] for at in place_at], reading)
        if rect is not None or placed(rect, reading):
            has_key = key_at is not None
            number = number_of_key(fields[key_at], reading) if has_key else number_of(fields[number_at].strip())
            payload = payload_of(fields[payload_at]) if payload_at is not None else b""
            own_layer = layer if layer_at is None else layer_of(fields[layer_at].strip(), options)
            yield Record(number, rect, payload, own_layer)  # type: ignore[arg-type]


def from_csv(file: IO[bytes], reading: Reading) -> Iterator[Record]:
    """The records of a CSV file, whose first line names its columns. Raises Unfit.

    >>> import io
    >>> reading = Reading("a.csv", Options(Grid(Decimal(1))))
    >>> [record.line() for record in from_csv(io.BytesIO(b"y,x,number\\n1,2,7\\n"), reading)]
    ['7 2 1 2 1 -']
    """
    csv.field_size_limit(2**31 - 1)
    rows = csv.reader(lines_of_csv(file, reading), delimiter=reading.options.delimiter, strict=True)
    try:
        yield from from_rows(rows, reading)
    except csv.Error as error:
        is_open = str(error) == OPEN_QUOTE
        told = "a quote is still open at the end" if is_open else "something stands between a quote and the delimiter"
        raise Unfit(told) from None


# ---- record texts


def record_of_line(line: str) -> Tuple[Record, int]:
    """The record that a record line spells, and the version of the line. Raises Unfit.

    >>> record_of_line("7 1 2 3 4 6162"), record_of_line("7 1 2 3 4 5 -")[0].layer
    ((Record(number=7, rect=(1, 2, 3, 4), payload=b'ab', layer=0), 1), 5)
    """
    fields = line.split(" ")
    try:
        if len(fields) not in (6, 7) or not re.fullmatch("-|([0-9a-f]{2}){1,200}", fields[-1]):
            raise ValueError
        layer = read_decimal(fields[5], 0, MOST_LAYER) if len(fields) == 7 else 0
        number = read_decimal(fields[0], 0, 2**64 - 1)
        x0, y0, x1, y1 = [read_decimal(field, -(2**31), 2**31 - 1) for field in fields[1:5]]
        if x0 > x1 or y0 > y1:
            raise ValueError
    except ValueError:
        raise Unfit("it is no record line") from None
    return Record(number, (x0, y0, x1, y1), bytes.fromhex(fields[-1].strip("-")), layer), len(fields) - 5


def from_lines(file: Iterable[bytes], reading: Reading) -> Iterator[Tuple[Record, int]]:
    """The records of record lines, in their order, each with the version of its line. Raises Unfit."""
    reading.part = "line"
    for line in file:
        reading.at += 1
        if line[-1:] != b"\n":
            raise Unfit("it has no line feed")
        yield record_of_line(utf8(line[:-1], reading.at == 1))


def from_text(file: Iterable[bytes], reading: Reading) -> Iterator[Record]:
    """The records of a record text, of either version; of version 1 on the layer of all, if there is one. Raises Unfit."""
    layer, version = reading.options.layer, 0
    for record, own in from_lines(file, reading):
        if version and own != version:
            raise Unfit("it is a record line of version %d, and those before it are of version %d" % (own, version))
        if own == 2 and layer is not None:
            raise Unfit("its line has a layer already, and --layer gives another")
        if type(layer) is str:
            raise Unfit("a record text has no property %s: --layer N puts all records on one layer" % clipped(layer))
        version, reading.version = own, max(own, reading.version)
        yield record if layer is None else record._replace(layer=layer)


# ---- a state of a map


class State(NamedTuple):
    """The records of a map, in rising number, each as its bytes; and what was counted while they were read."""

    packed: List[bytes]
    reading: Reading
    version: int = 1

    def records(self) -> Iterator[Record]:
        """The records, in rising number."""
        return unpacked(self.packed, self.version)

    def upgraded(self) -> "State":
        """The same in version 2: records of version 1 go to layer 0, as `upgrade` has it."""
        if self.version == 2:
            return self
        return self._replace(packed=[one[:24] + b"\0" + one[24:] for one in self.packed], version=2)


def form_of(name: str) -> str:
    """How a file of this name is written. Raises Unfit where it cannot be read."""
    lower = plain_name(name)
    if lower.endswith(UNREADABLE):
        raise Unfit("it is neither GeoJSON, CSV nor a record text; ogr2ogr makes such of it")
    return next((form for end, form in FORMS.items() if lower.endswith(end)), "text")


def plain_name(name: str) -> str:
    """A name in lower case, without .gz at its end.

    >>> plain_name("A.GeoJSON.GZ")
    'a.geojson'
    """
    lower = name.lower()
    return lower[:-3] if lower.endswith(".gz") else lower


def opened(name: str) -> IO[bytes]:
    """A file to read, `-` for the standard input; one with .gz at its end is unpacked. Raises OSError."""
    if name.lower().endswith(".gz"):
        return gzip.open(name, "rb")  # type: ignore[return-value]
    return open(0 if name == "-" else name, "rb", closefd=name != "-")


def records_of(file: IO[bytes], form: str, reading: Reading) -> Iterator[Record]:
    """The records of a file that is written in this form. Raises Unfit."""
    if form == "geojson":
        return from_features(counted(features_of(file, reading), reading), reading)
    if form == "geojsonseq":
        return from_features(values_of(reading, file), reading)
    if reading.options.is_digest:
        raise Unfit("--digest is of features, so of GeoJSON")
    return from_csv(file, reading) if form == "csv" else from_text(file, reading)


def gathered(records: Iterable[Record], reading: Reading) -> List[bytes]:
    """The bytes of records, in rising number. Raises Unfit where a number stands twice, or they are too many."""
    places: Dict[int, int] = {}  # where each number stands, above 2^32 times the mark of its key
    packed: List[bytes] = []
    for record in records:
        place = reading.at << 32 | reading.mark
        first = places.setdefault(record.number, place)
        if first != place:
            raise Unfit(twice(record.number, first, reading))
        if len(packed) == MOST:
            raise Unfit("a map has at most %d records: docs/ATLAS.md says how to publish more" % MOST)
        packed.append(record_bytes(record, reading.version))
        reading.bare += not record.payload
    packed.sort()
    return packed


def twice(number: int, first: int, reading: Reading) -> str:
    """What is wrong where a number stands twice: its key does, or two keys have one number."""
    place = "%s %d" % (reading.part, first >> 32)
    if not reading.key:
        return "the number %d stands twice, first at %s" % (number, place)
    if first & 2**32 - 1 == reading.mark:
        return "the key %s stands twice, first at %s" % (clipped(reading.key), place)
    words = "the key %s has the number %d, and another key has it too, at %s: give one of them another key"
    return words % (clipped(reading.key), number, place)


def read_state(name: str, form: Optional[str], options: Options) -> State:
    """The records of a file, `-` for the standard input, in rising number. Raises Unfit and OSError."""
    reading = Reading(name, options)
    try:
        form = form or form_of(name)
        with opened(name) as file:
            packed = gathered(records_of(file, form, reading), reading)
        if options.payload and form != "text" and packed and not reading.has_payload:
            reading.part = ""
            raise Unfit("no feature has the property %s, which is to be the payload" % clipped(options.payload))
    except RecursionError:
        raise Unfit(reading.where() + DEEP) from None
    except (EOFError, zlib.error, gzip.BadGzipFile):
        raise Unfit(reading.where() + "it cannot be unpacked: it was cut off, or is no gzip file") from None
    except Unfit as unfit:
        raise Unfit(reading.where() + str(unfit)) from None
    return State(packed, reading, reading.version)


def unpacked(packed: Iterable[bytes], version: int = 1) -> Iterator[Record]:
    """The records that some bytes of a version are."""
    head = struct.Struct(">Q4iB" if version == 1 else ">Q4iBB")
    for one in packed:
        number, x0, y0, x1, y1, layer, *_ = head.unpack_from(one)
        yield Record(number, (x0, y0, x1, y1), one[head.size :], layer if version == 2 else 0)
