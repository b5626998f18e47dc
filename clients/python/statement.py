"""What a map is, in a text that its publisher signs: read, judged, written, and compared with what proofs say.

The form is that of docs/FORMATS.md, at "Statements", and mrtree_statement.js reads the same. A text that does not have
it raises BadStatement, by its first fault. What a statement is good for is told in docs/PUBLISHING.md and
docs/READING.md. Tested, and not proved.
"""
from __future__ import annotations

import datetime
import hashlib
import os
import re
import subprocess
import tempfile
from contextlib import contextmanager
from decimal import Decimal
from typing import Any, Callable, Dict, Iterable, Iterator, List, NamedTuple, NoReturn, Optional, Sequence, Tuple
from urllib.parse import urljoin

if __package__:
    from .mrtree_check import MOST_LAYER, MOST_RECORDS, Ended, Record, Refused, read_decimal
    from .ranges import Failed, Limits, Meter, OnServer, Place, Reply, is_address, told
else:
    from mrtree_check import MOST_LAYER, MOST_RECORDS, Ended, Record, Refused, read_decimal
    from ranges import Failed, Limits, Meter, OnServer, Place, Reply, is_address, told

MOST_BYTES = 65536  # of a statement, and of a signature
MOST_PUBLISHERS = 2**20  # bytes of a file of publishers
MOST_OF_ATLAS = 2**40  # records
MOST_TOLD = 300  # letters of what is told of a statement
PATIENCE = 60  # seconds for a check of a signature
NAMESPACE = "map"  # in which statements are signed
DEGREES = ("EPSG:4326", "OGC:CRS84")  # the systems whose coordinates are plain longitude and latitude in GeoJSON

Names = Tuple[str, ...]
KEYS = {  # each key, in the order in which a statement is written, and what its value has to be
    "map": "words that say what the map is",
    "root": "64 digits of 0 to 9 and a to f, lower case",
    "atlas": "yes, or the line is left out",
    "version": "1 or 2",
    "batch": "a whole number from 0 and below 2^64, in plain digits",
    "records": "a whole number from 0 to 2^40, in plain digits",
    "unit": "a number from 1e-30 to 1e30, as 1e-7 or 0.01",
    "crs": "an authority and a code, as EPSG:4326, or none",
    "axes": "longitude latitude, or east north, or x y",
    "numbers": "words that say what the numbers are",
    "keys": "the name of the property that has the key",
    "payload": "none, digest, key, hexadecimal, or text and the name of a property",
    "layers": "numbers from 0 to 63 in rising order, each with its name, as: 0 buildings, 1 roads",
    "shapes": "the name of a file, or an address that begins with http:// or https://",
    "address": "the name of a file or folder, or an address that begins with http:// or https://",
    "from": "a day, as 2026-12-01",
    "until": "a day, as 2026-12-31",
    "ended": "none, or root digests with a space between, each once",
}
MAY_MISS = ("atlas", "numbers", "keys", "layers", "shapes", "address")
NO_KEY = "is not the key that its number stands for"
AXES = ("longitude latitude", "east north", "x y")
CONTROL = re.compile("[\0-\x1f\x7f-\x9f\u2028-\u202e\u2066-\u2069\ufeff]")
LINE = re.compile("([a-z]+): ([^ ]|[^ ].*[^ ])", re.DOTALL)
UNIT = re.compile(r"[0-9]{1,40}(\.[0-9]{1,40})?(e[+-]?[0-9]{1,2})?")
FORMS = {
    "root": "[0-9a-f]{64}",
    "atlas": "yes",
    "version": "[12]",
    "crs": "none|[A-Z][A-Z0-9_]{0,19}:[A-Za-z0-9_.]{1,40}",
    "axes": "|".join(AXES),
    "payload": "none|digest|key|hexadecimal|text [^ ].*",
    "layers": "[0-9]{1,2} [^, ]([^,]*[^, ])?(, [0-9]{1,2} [^, ]([^,]*[^, ])?)*",
    "shapes": "https?://[!-~]+|(?!.*://).+",
    "address": "https?://[!-~]+|(?!.*://).+",
    "ended": "none|[0-9a-f]{64}( [0-9a-f]{64})*",
}


class BadStatement(ValueError):
    """A text is no statement: the line of its first fault, and the rule that it breaks, with the key if there is one.

    >>> print(BadStatement(3, "Value unit"))
    bad statement 3 Value unit
    """

    def __init__(self, line: int, rule: str) -> None:
        self.line, self.rule = line, rule
        super().__init__("bad statement %d %s" % (line, rule))

    def meaning(self) -> str:
        """What the rule says, in words."""
        name, _, keys = self.rule.partition(" ")
        return MEANINGS[name].replace("KEYS", keys.replace(" ", " and ")).replace("FORM", KEYS.get(keys, ""))


MEANINGS = {
    "Utf8": "the line is not UTF-8",
    "Long": "a statement has at most %d bytes" % MOST_BYTES,
    "NoEnd": "the last line has no line feed: part of the statement may be missing",
    "Form": "a line is a key in lower case, a colon, a space and a value, without anything round them",
    "Key": "no statement has this key",
    "Twice": "KEYS stands there twice",
    "Value": "KEYS has to be: FORM",
    "Missing": "the line KEYS is missing",
    "Clash": "the lines KEYS do not go together",
}


class StatementRefused(Ended):
    """A statement does not hold, or not of what came: the rule, the statement's name, and what is told. Status 2.

    >>> print(StatementRefused("OtherBatch", "a.statement", "it says 1\\x1b").line)
    refused OtherBatch a.statement: it says 1?
    """

    def __init__(self, rule: str, name: str, words: str) -> None:
        shown = "".join(letter if letter.isprintable() else "?" for letter in words)[:MOST_TOLD]
        self.rule, self.name, self.words = rule, name, shown
        super().__init__(2, "refused %s %s: %s" % (rule, name, shown))

    def __str__(self) -> str:
        return self.line


class Bent(Ended):
    """A file is no statement: the line of its first fault, its name, and what that means. Status 2."""

    def __init__(self, name: str, fault: BadStatement) -> None:
        super().__init__(2, "%s %s: %s" % (fault, name, fault.meaning()))


class Statement(NamedTuple):
    """What a publisher says of a map. `place` is the folder or address that relative names go from; `name` its own."""

    map: str
    root: str
    atlas: bool
    version: int
    batch: int
    records: int
    unit: Decimal  # a map unit, in the unit of the coordinate system
    unit_word: str
    crs: Optional[str]
    axes: str
    numbers: Optional[str]
    keys: Optional[str]  # the property whose text is the key
    payload: str  # none, text, digest, key or hexadecimal
    payload_name: Optional[str]  # of text, the property that it came from
    layers: Dict[int, str]
    shapes: Optional[str]
    address: Optional[str]
    begins: datetime.date
    until: datetime.date
    ended: Names
    place: str = ""
    name: str = "statement"

    def where(self, name: str) -> str:
        """The file or address that is meant by a name in the statement.

        >>> one = read_statement(EXAMPLE, "https://example.org/maps/places.statement")
        >>> one.where("sheets/a.map"), one._replace(place="maps").where("a.map"), one.where("http://a/b")
        ('https://example.org/maps/sheets/a.map', 'maps/a.map', 'http://a/b')
        """
        if is_address(name):
            return name
        return urljoin(self.place, name) if is_address(self.place) else os.path.join(self.place, name)

    def is_in_degrees(self) -> bool:
        """Whether x is the longitude and y the latitude, in degrees as GeoJSON has them."""
        return self.axes == AXES[0] or self.crs in DEGREES


# ---- a text becomes a statement


def read_statement(text: bytes, place: str = "", name: str = "statement") -> Statement:
    """The statement that a text spells; `place` is where relative names in it go from. Raises BadStatement.

    >>> one = read_statement(EXAMPLE)
    >>> one.unit, one.payload, one.payload_name, one.layers, one.ended
    (Decimal('1E-7'), 'text', 'name', {0: 'buildings', 1: 'parks'}, ())
    >>> read_statement(EXAMPLE[:-1])
    Traceback (most recent call last):
    statement.BadStatement: bad statement 14 NoEnd
    """
    if len(text) > MOST_BYTES:
        raise BadStatement(1 + text.count(b"\n", 0, MOST_BYTES), "Long")
    values: Dict[str, str] = {}
    lines = text.split(b"\n")
    for number, line in enumerate(lines, 1):
        is_last = number == len(lines)
        if line or not is_last:
            key, value = read_line(line, is_last, number)
            if key in values:
                raise BadStatement(number, "Twice " + key)
            if not is_right(key, value):
                raise BadStatement(number, "Value " + key)
            values[key] = value
    missing = [key for key in KEYS if key not in values and key not in MAY_MISS]
    if "numbers" not in values and "keys" not in values:
        missing = sorted([*missing, "numbers"], key=list(KEYS).index)
    if missing:
        raise BadStatement(len(lines), "Missing " + missing[0])
    clash = clash_of(values)
    if clash:
        raise BadStatement(len(lines), "Clash " + clash)
    return of_values(values, place, name)


def read_line(line: bytes, is_cut: bool, number: int) -> Tuple[str, str]:
    """Key and value of a line, which is cut where no line feed stands behind it. Raises BadStatement."""
    if is_cut:
        raise BadStatement(number, "NoEnd")
    try:
        text = line.decode("utf-8")
    except UnicodeDecodeError:
        raise BadStatement(number, "Utf8") from None
    parts = LINE.fullmatch(text)
    if not parts or CONTROL.search(text):
        raise BadStatement(number, "Form")
    if parts[1] not in KEYS:
        raise BadStatement(number, "Key")
    return parts[1], parts[2]


def is_right(key: str, value: str) -> bool:
    """Whether a value has the form that its key asks for.

    >>> is_right("unit", "1e-7"), is_right("unit", "1e99"), is_right("from", "2026-02-29"), is_right("batch", "07")
    (True, False, False, False)
    >>> is_right("layers", "0 a, 63 b"), is_right("layers", "1 a, 1 b"), is_right("ended", "none")
    (True, False, True)
    """
    if key in FORMS and not re.fullmatch(FORMS[key], value):
        return False
    try:
        if key in ("batch", "records"):
            read_decimal(value, 0, 2**64 - 1 if key == "batch" else MOST_OF_ATLAS)
        elif key in ("from", "until"):
            read_day(value)
        elif key == "layers":
            read_layers(value)
    except ValueError:
        return False
    if key == "ended":
        return len(set(value.split(" "))) == value.count(" ") + 1
    return key != "unit" or is_unit(value)


def is_unit(word: str) -> bool:
    """Whether a word is the size of a map unit."""
    return UNIT.fullmatch(word) is not None and Decimal("1e-30") <= Decimal(word) <= Decimal("1e30")


def read_day(word: str) -> datetime.date:
    """The day that a word spells. Raises ValueError."""
    parts = re.fullmatch("([0-9]{4})-([0-9]{2})-([0-9]{2})", word)
    if not parts:
        raise ValueError("a day is spelled as 2026-12-01")
    return datetime.date(*map(int, parts.groups()))


def read_layers(value: str) -> Dict[int, str]:
    """The names of layers. Raises ValueError where their numbers do not rise, or a name stands twice.

    >>> read_layers("0 buildings, 7 roads and ways")
    {0: 'buildings', 7: 'roads and ways'}
    """
    layers: Dict[int, str] = {}
    for part in value.split(", "):
        word, _, name = part.partition(" ")
        number = read_decimal(word, max(layers, default=-1) + 1, MOST_LAYER)
        if name in layers.values():
            raise ValueError("the name of a layer stands twice")
        layers[number] = name
    return layers


def clash_of(values: Dict[str, str]) -> str:
    """The keys that do not go together, in a statement whose values are right one by one; empty where all do."""
    payload = values["payload"]
    clashes = {
        "records atlas": "atlas" not in values and int(values["records"]) > MOST_RECORDS,
        "crs axes": values["crs"] in DEGREES and values["axes"] != AXES[0],
        "numbers keys": "numbers" in values and "keys" in values,
        "keys payload": payload == "key" and "keys" not in values,
        "version layers": "layers" in values and values["version"] == "1",
        "payload shapes": "shapes" in values and payload != "digest",
        "from until": values["until"] < values["from"],
        "root ended": values["root"] in values["ended"].split(" "),
    }
    return next((keys for keys, is_so in clashes.items() if is_so), "")


def of_values(values: Dict[str, str], place: str, name: str) -> Statement:
    """The statement of values that are right."""
    payload, _, payload_name = values["payload"].partition(" ")
    return Statement(
        map=values["map"],
        root=values["root"],
        atlas="atlas" in values,
        version=int(values["version"]),
        batch=int(values["batch"]),
        records=int(values["records"]),
        unit=Decimal(values["unit"]),
        unit_word=values["unit"],
        crs=None if values["crs"] == "none" else values["crs"],
        axes=values["axes"],
        numbers=values.get("numbers"),
        keys=values.get("keys"),
        payload=payload,
        payload_name=payload_name or None,
        layers=read_layers(values["layers"]) if "layers" in values else {},
        shapes=values.get("shapes"),
        address=values.get("address"),
        begins=read_day(values["from"]),
        until=read_day(values["until"]),
        ended=() if values["ended"] == "none" else tuple(values["ended"].split(" ")),
        place=place,
        name=name,
    )


# ---- a statement becomes a text


def values_of(statement: Statement) -> Dict[str, str]:
    """The value of each line that a statement has."""
    values = {
        "map": statement.map,
        "root": statement.root,
        "atlas": "yes" if statement.atlas else None,
        "version": str(statement.version),
        "batch": str(statement.batch),
        "records": str(statement.records),
        "unit": statement.unit_word,
        "crs": statement.crs or "none",
        "axes": statement.axes,
        "numbers": statement.numbers,
        "keys": statement.keys,
        "payload": " ".join(filter(None, [statement.payload, statement.payload_name])),
        "layers": ", ".join("%d %s" % one for one in sorted(statement.layers.items())) or None,
        "shapes": statement.shapes,
        "address": statement.address,
        "from": statement.begins.isoformat(),
        "until": statement.until.isoformat(),
        "ended": " ".join(statement.ended) or "none",
    }
    return {key: value for key, value in values.items() if value is not None}


def spelled(statement: Statement) -> str:
    """The text of a statement, with its lines in the order of the table. Raises BadStatement where it has none.

    >>> spelled(read_statement(EXAMPLE)).encode() == EXAMPLE
    True
    """
    return text_of(values_of(statement))


def text_of(values: Dict[str, str]) -> str:
    """The text of lines, in the order of the table. Raises BadStatement where they make no statement.

    >>> text_of({"map": "a\\nended: none"})
    Traceback (most recent call last):
    statement.BadStatement: bad statement 1 Form
    """
    lines = ["%s: %s\n" % (key, values[key]) for key in KEYS if key in values]
    for number, line in enumerate(lines, 1):
        if CONTROL.search(line[:-1]):
            raise BadStatement(number, "Form")  # a value with a line end would be two lines
    text = "".join(lines)
    read_statement(text.encode("utf-8", "surrogatepass"))
    return text


# ---- a file or an address becomes a statement


class Whole(OnServer):
    """A small file on a server, which may be handed out as a whole where a range is asked for."""

    def body(self, reply: Reply, place: Place) -> bytes:
        """The bytes of an answer, at most those of the range. Raises Failed."""
        if reply.status != 200:
            return super().body(reply, place)
        if reply.headers.get("content-encoding", "identity").lower() != "identity":
            raise self.failed("Encoded", "the answer is encoded: " + reply.headers["content-encoding"])
        data = reply.read(place[1] - place[0])
        if reply.length and len(data) < place[1] - place[0]:
            raise self.failed("Shorter", "the answer is shorter than the server says")
        return data


def read_file(name: str, most: int) -> bytes:
    """The bytes of a file or at an address, `-` for the standard input; of a longer one, one more than the most.

    Raises Failed.
    """
    if is_address(name):
        try:
            return Whole(name, Meter(Limits(bytes=most + 1, requests=10))).one((0, most + 1))
        except ValueError as fault:
            raise Failed("NoFile", name, str(fault)) from None
    try:
        with open(0 if name == "-" else name, "rb", closefd=name != "-") as file:
            return file.read(most + 1)
    except FileNotFoundError:
        raise Failed("NoFile", name, "missing") from None
    except (OSError, ValueError) as fault:
        raise Failed("NoFile", name, told(fault)) from None


def open_statement(name: str, publishers: Optional[str] = None) -> Statement:
    """The statement in a file or at an address; with a file of publishers, its signature is checked first.

    Raises BadStatement, StatementRefused where the signature is none of theirs, and Failed.
    """
    text = read_file(name, MOST_BYTES)
    if publishers is not None:
        check_signature(name, text, publishers)
    return read_statement(text, name if is_address(name) else os.path.dirname(name), name)


def signature_name(name: str) -> str:
    """The file or address of the signature that stands beside a statement.

    >>> signature_name("a.statement"), signature_name("https://example.org/a.statement?v=1")
    ('a.statement.sig', 'https://example.org/a.statement.sig?v=1')
    """
    front, mark, query = name.partition("?") if is_address(name) else (name, "", "")
    return front + ".sig" + mark + query


def check_signature(name: str, text: bytes, publishers: str) -> str:
    """Who of some publishers signed the text of a statement, by the signature beside it.

    Raises StatementRefused where nobody of them did, and Failed.
    """
    trusted = read_file(publishers, MOST_PUBLISHERS)
    beside = signature_name(name)
    try:
        signature = b"" if name == "-" else read_file(beside, MOST_BYTES)
    except Failed as fault:
        if fault.words not in ("missing", "status 404", "status 410"):
            raise
        signature = b""
    if not signature:
        raise StatementRefused("NoSignature", name, "there is no %s" % ("file beside it" if name == "-" else beside))
    with tempfile.TemporaryDirectory() as folder:
        files = [os.path.join(folder, one) for one in ("signature", "publishers")]
        for file_name, bytes_ in zip(files, (signature, trusted)):
            with open(file_name, "wb") as file:
                file.write(bytes_)
        return signer_of(name, text, publishers, *files)


def signer_of(name: str, text: bytes, publishers: str, signature: str, trusted: str) -> str:
    """Who of some publishers signed a text, by files of the signature and of them. Raises as check_signature."""
    _, found = ssh_keygen(["find-principals", "-s", signature, "-f", trusted], b"")
    for line in found.decode("utf-8", "replace").splitlines():
        for one in filter(None, line.split(",")):
            words = ["verify", "-f", trusted, "-I", one, "-n", NAMESPACE, "-s", signature]
            if not one.startswith("!") and ssh_keygen(words, text)[0]:
                return one
    is_whole = ssh_keygen(["check-novalidate", "-n", NAMESPACE, "-s", signature], text)[0]
    if is_whole and not found.strip():
        raise StatementRefused("OtherPublisher", name, "it is signed by a key of nobody in %s" % publishers)
    raise StatementRefused("BadSignature", name, "the signature beside it is not one of this text")


def ssh_keygen(words: List[str], text: bytes) -> Tuple[bool, bytes]:
    """Whether `ssh-keygen -Y` with these words says yes to a text, and what it prints. Raises Failed."""
    call = ["ssh-keygen", "-Y", *words]
    try:
        ran = subprocess.run(call, input=text, stdout=subprocess.PIPE, stderr=subprocess.DEVNULL, timeout=PATIENCE)
    except subprocess.TimeoutExpired:
        raise Failed("NoAnswer", "ssh-keygen", "no answer for %d seconds" % PATIENCE) from None
    except OSError as fault:
        raise Failed("NoFile", "ssh-keygen", "it checks signatures, and cannot be run: " + told(fault)) from None
    return ran.returncode == 0, ran.stdout


# ---- what a statement is compared with


def newest(statements: Sequence[Statement]) -> Statement:
    """The newest of some statements of a map, by `from` and then by batch. Raises StatementRefused.

    Its root may not stand among those that another one says have ended, and no other one as new may name another root.
    """
    found = max(statements, key=lambda one: (one.begins, one.batch))
    for one in statements:
        if found.root in one.ended:
            refuse_ended(one, found.root)
        if (one.begins, one.batch) == (found.begins, found.batch) and one.root != found.root:
            raise StatementRefused("TwoRoots", one.name, "%s names another root for the same day" % found.name)
    ended = {root: None for one in statements for root in one.ended if root != found.root}
    return found._replace(ended=tuple(ended))


def chosen(names: Sequence[str], publishers: Optional[str], tell: Callable[[str], None]) -> Statement:
    """The newest of the statements in files or at addresses; tells where its time has not begun, or is over.

    Raises as open_statement and newest; what BadStatement says has the name in front.
    """
    found = newest([open_named(name, publishers) for name in names])
    for words in told_of_time(found, datetime.datetime.now(datetime.timezone.utc).date()):
        tell(words)
    return found


def open_named(name: str, publishers: Optional[str]) -> Statement:
    """A statement, as open_statement has it; one that is bent raises Bent, with its name and what that means."""
    try:
        return open_statement(name, publishers)
    except BadStatement as fault:
        raise Bent(name, fault) from None


def told_of_time(statement: Statement, today: datetime.date) -> Iterator[str]:
    """What is to be said aloud of the time of a statement.

    >>> one = read_statement(EXAMPLE)
    >>> list(told_of_time(one, one.until)), list(told_of_time(one, one.until + datetime.timedelta(1)))
    ([], ['statement: the next statement was to come until 2036-12-01: ask for it, since the map may have changed'])
    """
    if statement.until < today:
        words = "%s: the next statement was to come until %s: ask for it, since the map may have changed"
        yield words % (statement.name, statement.until)
    if today < statement.begins:
        yield "%s: it is for the time from %s on" % (statement.name, statement.begins)


def root_of(statement: Statement, given: Optional[str] = None) -> str:
    """The root digest that proofs are judged by, where a command line may have given one too.

    Raises StatementRefused where that is another one, or has ended.
    """
    if given is not None and given != statement.root:
        if given in statement.ended:
            refuse_ended(statement, given)
        words = "its root is %s, and another one was given" % statement.root
        raise StatementRefused("OtherRoot", statement.name, words)
    return statement.root


def refuse_ended(statement: Statement, root: str) -> NoReturn:
    """Raises StatementRefused, of a root that has ended."""
    raise StatementRefused("EndedRoot", statement.name, "it says that the root %s has ended" % root)


def compare(statement: Statement, version: int, batch: int, count: int) -> None:
    """Raises StatementRefused where an accepted proof says another version, batch or count of records of the map."""
    pairs = {"Version": (statement.version, version), "Batch": (statement.batch, batch)}
    pairs["Count"] = statement.records, count
    for rule, (said, found) in pairs.items():
        if said != found:
            name = "count of records" if rule == "Count" else rule.lower()
            words = "its %s is %d, and that of the proof is %d" % (name, said, found)
            raise StatementRefused("Other" + rule, statement.name, words)


def compare_verdict(statement: Statement, found: Any) -> None:
    """Raises StatementRefused where a statement says something else than what an accepted proof shows of a map.

    That is an answer or a count, also of an atlas, which shows some sheets; of a join it is the state of a map.
    """
    sheets = getattr(found, "sheets", None)
    if statement.atlas != (sheets is not None):
        kinds = ("an atlas", "a map") if statement.atlas else ("a map", "an atlas")
        raise StatementRefused("OtherKind", statement.name, "it is of %s, and the proof of %s" % kinds)
    if sheets is None:
        compare(statement, getattr(found, "version", 2), found.batch, found.count)
        return
    for sheet in sheets:
        compare(statement, sheet.version, found.batch, statement.records)
    count = sum(sheet.count for sheet in sheets)
    if count > statement.records:
        compare(statement, statement.version, found.batch, count)
    compare(statement, statement.version, found.batch, statement.records)


def compare_records(statement: Statement, records: Iterable[Record]) -> None:
    """Raises StatementRefused where the payload of a record is not what a statement says, or its number of no key."""
    for record in records:
        words = misfit(statement, record)
        if words:
            rule = "OtherKey" if words == NO_KEY else "OtherPayload"
            raise StatementRefused(rule, statement.name, "the payload of record %d %s" % (record.number, words))


def misfit(statement: Statement, record: Record) -> str:
    """What is wrong with a record's payload by a statement; empty where nothing is.

    >>> one = read_statement(EXAMPLE)
    >>> misfit(one, Record(7, (0, 0, 0, 0), b"a")), misfit(one, Record(7, (0, 0, 0, 0), b"\\xff"))
    ('', 'is no text')
    """
    payload, kind = record.payload, statement.payload
    if kind in ("text", "key"):
        try:
            payload.decode("utf-8")
        except UnicodeDecodeError:
            return "is no text"
    if kind == "key" and number_of_key(payload) != record.number:
        return NO_KEY
    if kind == "digest" and len(payload) != 32:
        return "is no digest"
    return "is there, and there is to be none" if kind == "none" and payload else ""


def number_of_key(key: bytes) -> int:
    """The number that stands for a key, in UTF-8.

    >>> number_of_key(b"DEBE01")
    10356492398083197917
    """
    return int.from_bytes(hashlib.sha256(key).digest()[:8], "big")


@contextmanager
def judged(statement: Optional[Statement]) -> Iterator[None]:
    """What is judged by a statement's root: of a proof or map that leads to a root which has ended that is told.

    Raises StatementRefused then, and else what was raised.
    """
    try:
        yield
    except Refused as fault:
        if statement and fault.found and fault.found.hex() in statement.ended:
            refuse_ended(statement, fault.found.hex())
        raise


EXAMPLE = b"""map: places of Berlin
root: 7cb808d4eb133501404826618145383917f0f0e0fcbf73027608db1ac0befabc
version: 2
batch: 0
records: 4
unit: 1e-7
crs: EPSG:4326
axes: longitude latitude
numbers: keys of our register, never used again
payload: text name
layers: 0 buildings, 1 parks
from: 2026-12-01
until: 2036-12-01
ended: none
"""
