"""Atlases as readers judge them: honest proofs beside a scan, hostile servers and publishers, each byte and each cut.

Proofs and maps are made of plain trees, by docs/FORMATS.md, apart from the client and from what makes atlases.
"""
import itertools
import os
import random
import re
import shutil
import struct
import time
from typing import Callable, Dict, Iterator, List, NamedTuple, Optional, Tuple

from bench import Bench, read, write
import mrtree_ask
import mrtree_check
import proofs
import records
import said
import servers
from proofs import plain

ALL = 2**32 - 1  # half a side of the square that is everything
LOW, HIGH = -(2**31), 2**31 - 1
WHOLE = plain.Query((LOW, LOW, HIGH, HIGH))
# The faults of an atlas proof, as patterns of their lines: each has a vector.
FAULTS = [r"frame %s at \d+\n" % rule for rule in ("Short", "BadMagic", "BadVersion", "WrongKind", "Trailing", "WrongRadius")]
FAULTS += [r"%s %s at \d+" % (name, rule) for name in ("index", r"sheet \d+") for rule in ("Missing", "Short", "WrongRoot")]
FAULTS += [r"index (Hidden|Needless) at \d+\n", r"sheet \d+ BadVersion at 4\n", r"sheet \d+ WrongKind at 5\n"]
FAULTS += [r"entry \d+ Form\n", r"entry \d+ Rect\n", r"number \d+ Repeat\n"]


# ---- atlases


class Sheet(NamedTuple):
    """A sheet: its number, its version, its tree and batch, and its name."""

    number: int
    version: int
    tree: plain.Node
    batch: int = 0
    name: bytes = b""

    def preimage(self) -> bytes:
        """The preimage of its root."""
        return plain.root_preimage(self.tree, self.batch, self.version)

    def record(self) -> plain.Record:
        """Its record in an index."""
        return plain.Record(self.number, self.tree.rect, self.preimage() + self.name)

    def has_part(self, query: plain.Query, is_count: bool) -> bool:
        """Whether an honest proof of what meets it has a part of it, or a part that no proof has."""
        layers, rect = query.layers(), self.tree.rect
        if self.version == 1:
            return query.mask is not None or not (is_count and plain.within(rect, query.shape))
        is_counted = is_count and plain.within(rect, query.shape) and self.tree.mask() | layers == layers
        return self.tree.mask() & layers != 0 and not is_counted


def kept(node: plain.Node, version: int) -> plain.Node:
    """A tree that changes no more: what is asked of each of its nodes is computed once."""
    for child in [] if node.is_leaf else node.entries:
        kept(child, version)
    records, mask, level, digest = node.records(), node.mask(), node.level(), node.digest(version)
    node.records, node.mask, node.level = lambda: records, lambda: mask, lambda: level
    node.digest = lambda asked=1: digest if asked == version else plain.Node.digest(node, asked)
    return node


class Proof(NamedTuple):
    """An atlas proof: what is in front, the index's part, and those of sheets by their numbers, in order."""

    front: bytes
    index: bytes
    sheets: Dict[int, bytes]

    def spelled(self) -> bytes:
        """Its bytes."""
        return self.front + b"".join(map(part, [self.index, *self.sheets.values()]))

    def without(self, number: int) -> "Proof":
        """That one without the part of a sheet."""
        return self._replace(sheets={one: bytes_ for one, bytes_ in self.sheets.items() if one != number})

    def having(self, sheets: Dict[int, bytes]) -> "Proof":
        """That one with other parts of some sheets."""
        return self._replace(sheets={**self.sheets, **sheets})


def part(bytes_: bytes) -> bytes:
    """A part behind its length."""
    return struct.pack(">I", len(bytes_)) + bytes_


class Atlas:
    """Sheets, and an index of a version and a batch over them; its records are what sheets say, or as given."""

    def __init__(
        self, sheets: List[Sheet], version: int = 1, batch: int = 0, index: Optional[List[plain.Record]] = None
    ) -> None:
        self.sheets, self.version, self.batch = {sheet.number: sheet for sheet in sheets}, version, batch
        self.entries = [sheet.record() for sheet in sheets] if index is None else index
        self.tree = plain.pack(self.entries)
        trees = [(sheet.tree, sheet.version) for sheet in sheets] + [(self.tree, version)] * bool(self.entries)
        for tree, its in trees:
            kept(tree, its)
        self.root = plain.root(self.tree, batch, version)

    def with_entry(self, number: int, change: Callable[[plain.Record], plain.Record]) -> "Atlas":
        """The one whose index has another record of a sheet: what a publisher makes who errs or lies."""
        index = [change(one) if one.number == number else one for one in self.entries]
        return Atlas(list(self.sheets.values()), self.version, self.batch, index)

    def records(self) -> List[Tuple[plain.Record, int]]:
        """All records, each with its version."""
        return [(record, sheet.version) for sheet in self.sheets.values() for record in sheet.tree.records()]

    def half(self, query: plain.Query) -> int:
        """Half a side in the honest proof of nearest records: the least that is enough."""
        centre, k = query.shape
        asked = [record for record, _ in self.records() if query.layers() >> record.layer & 1]
        far = sorted(plain.distance(centre, record.rect) for record in asked)
        low, high = 0, ALL
        while low < high and len(far) >= k:
            middle = (low + high) // 2
            low, high = (low, middle) if far[k - 1] <= middle**2 else (middle + 1, high)
        return high

    def proof(self, query: plain.Query, half: Optional[int] = None) -> Proof:
        """The honest proof of an answer, or the one of another half side."""
        if query.is_window():
            return self.proof_of(b"MRAT\1W", query, False)
        half = self.half(query) if half is None else half
        return self.proof_of(b"MRAT\1K" + struct.pack(">I", half), square(query, half), False)

    def count_proof(self, query: plain.Query) -> Proof:
        """The honest proof of a count."""
        return self.proof_of(b"MRAT\1C", query, True)

    def proof_of(self, front: bytes, query: plain.Query, is_count: bool) -> Proof:
        """The proof that begins like this, on a window."""
        window = plain.Query(query.shape)
        index = proofs.honest(self.tree, self.batch, window, self.version)
        sheets = {}
        for entry in sorted(plain.answer(self.entries, window)):
            sheet = self.sheets[entry.number]
            if sheet.has_part(query, is_count):
                sheets[sheet.number] = part_of(sheet, query, is_count)
        return Proof(front, index, sheets)

    def put(self, folder: str) -> None:
        """Puts the files of its maps into a folder."""
        os.makedirs(os.path.join(folder, "sheets"), exist_ok=True)
        maps = [(self.tree, self.batch, self.version)]
        maps += [(sheet.tree, sheet.batch, sheet.version) for sheet in self.sheets.values()]
        for one in maps:
            write(os.path.join(folder, "sheets", plain.root(*one)), said.map_bytes(*one))


def part_of(sheet: Sheet, query: plain.Query, is_count: bool = False) -> bytes:
    """The part of a sheet; where its map has no such proof, one of another version that nobody will take."""
    if is_count and sheet.version == 2:
        return proofs.honest_count(sheet.tree, sheet.batch, query)
    mask = query.mask if sheet.version == 2 else None
    return proofs.honest(sheet.tree, sheet.batch, plain.Query(query.shape, mask), sheet.version)


def square(query: plain.Query, half: int) -> plain.Query:
    """The window of a proof of nearest records."""
    (x, y), _ = query.shape
    sides = max(x - half, LOW), max(y - half, LOW), min(x + half, HIGH), min(y + half, HIGH)
    return plain.Query(sides, query.mask)


def lines_of(found: List[Tuple[plain.Record, int]]) -> bytes:
    """The lines of records."""
    return "".join(plain.line_of(record, version) + "\n" for record, version in found).encode()


def scan(atlas: Atlas, query: plain.Query) -> bytes:
    """The lines of an answer, by a scan of all records."""
    asked = [one for one in atlas.records() if query.layers() >> one[0].layer & 1]
    if query.is_window():
        return lines_of(sorted(one for one in asked if plain.overlap(query.shape, one[0].rect)))
    centre, k = query.shape
    return lines_of(sorted(asked, key=lambda one: (plain.distance(centre, one[0].rect), one[0].number))[:k])


# ---- at random


def some_atlas(chance: random.Random, size: int, most: int, versions: Tuple[int, ...]) -> Atlas:
    """An atlas of so many records, at most so many in a sheet, whose sheets are of these versions; some changed."""
    span = chance.choice((10, 1000, 10**6, 2**31 - 101))
    layers = chance.choice(((0,), (0, 5, 63), range(64)))
    groups: List[List[plain.Record]] = [[]]
    if size:
        made = [some_record(chance, number, span, layers) for number in chance.sample(range(1, 4 * size), size)]
        groups = plain.grouped([(record.rect, record.number, record) for record in made], most)
    sheets = []
    for number, group in enumerate(filter(None, groups), 1):
        version = chance.choice(versions)
        group = [record if version == 2 else record._replace(layer=0) for record in group]
        tree, batch = plain.pack(group), 0
        if len(group) > 3 and chance.random() < 0.3:
            tree, batch = plain.inserted(plain.deleted(tree, group[0].number), group[0]), chance.randrange(2**64)
        name = chance.choice((b"", b"", b"a", bytes(125)))
        sheets.append(Sheet(number * chance.choice((1, 3)) + 10**6 * number, version, tree, batch, name))
    return Atlas(sheets, chance.choice((1, 2)), chance.choice((0, 7)))


def some_record(chance: random.Random, number: int, span: int, layers: Tuple[int, ...]) -> plain.Record:
    """A record: a point or a rectangle, on one of some layers."""
    x, y = chance.randint(-span, span), chance.randint(-span, span)
    wide, high = (chance.randint(0, chance.choice((0, 0, 3, 100))) for _ in range(2))
    return plain.Record(number, (x, y, x + wide, y + high), bytes(chance.choice((0, 1, 8))), chance.choice(layers))


def some_query(chance: random.Random, atlas: Atlas, masks: bool) -> plain.Query:
    """A query: a window of any size, or up to 1,024 nearest records; some with a mask."""
    rect = chance.choice(atlas.records())[0].rect if atlas.sheets else (0, 0, 0, 0)
    x, y = chance.choice((rect[:2], (chance.randint(LOW, HIGH), 5), (LOW, HIGH), (0, 0)))
    mask = chance.choice((None, 0, 1, 33, 2**64 - 1, chance.randrange(2**64))) if masks else None
    if chance.random() < 0.5:
        return plain.Query(((x, y), chance.choice((1, 1, 2, 7, 40, 1024))), mask)
    return some_window(chance, atlas, (x, y), mask)


def some_window(
    chance: random.Random, atlas: Atlas, point: Tuple[int, int], mask: Optional[int] = None
) -> plain.Query:
    """A window of any size: round a point, over some sheets to their sides, or everything."""
    way = chance.randrange(3)
    if way == 0 or not atlas.sheets:
        return WHOLE._replace(mask=mask)
    if way == 1:
        some = chance.sample(sorted(atlas.sheets), min(len(atlas.sheets), chance.randint(1, 3)))
        return plain.Query(plain.union([atlas.sheets[number].tree.rect for number in some]), mask)
    return square(plain.Query((point, 1), mask), chance.choice((0, 1, 50, 1000, 10**6, 2**30)))


def proof_agrees(bench: Bench, atlas: Atlas, query: plain.Query, is_count: bool, where: str) -> None:
    """The honest proof of an atlas that lies in the folder `a` is taken and asked, beside a scan; or there is none."""
    proof = (atlas.count_proof if is_count else atlas.proof)(query)
    write("p", proof.spelled())
    word = proofs.word_of(query)
    check = "check-atlas-count" if is_count else "check-atlas"
    told = bench.client([check, atlas.root, word, "p"])
    asked = ask(bench, ["check-count"] * is_count + [atlas.root, word, "a", "--proof", "q"])
    needs_two = query.mask is not None or is_count
    if needs_two and any(atlas.sheets[number].version == 1 for number in proof.sheets):
        bench.holds(told[0] == 2 and b" BadVersion at 4\n" in told[1], "%s: %s: %s" % (where, word, told))
        bench.holds(asked == (10, b"needs version 2\n"), "%s: asked, %s: %s" % (where, word, asked))
        return
    records = [record for record, _ in atlas.records()]
    meant = b"count %d\n" % plain.count_inside(records, query) if is_count else scan(atlas, query)
    bench.holds(told == (0, meant), "%s: %s: %s" % (where, word, (told[0], told[1][:200])))
    bench.holds(asked == (0, meant), "%s: asked, %s: %s" % (where, word, (asked[0], asked[1][:200])))
    bench.holds(read("q") == proof.spelled(), "%s: asked, %s: another proof" % (where, word))


def ask(bench: Bench, words: List[str]) -> Tuple[int, bytes]:
    """What comes of asking; where the bench knows the other asker too, both say the same and keep the same."""
    status, text = mrtree_ask.run(words)
    if hasattr(bench, "ask_in_javascript"):
        kept = read("q")
        other = bench.ask_in_javascript(words)
        is_so = other == (status, text.encode()) and (status != 0 or read("q") == kept)
        bench.holds(is_so, "asked in JavaScript: %s: %s" % (words, other))
    return status, text.encode()


KINDS = (((1,), "version 1"), ((2,), "version 2"), ((1, 2), "both versions"))


def atlases_agree(bench: Bench, count: int) -> None:
    """Queries at random on atlases at random, so many of each kind."""
    chance, asked = random.Random(670), 0
    for versions, name in KINDS:
        for size, most in ((0, 1), (1, 1), (40, 5), (200, 16), (600, 60)):
            atlas = some_atlas(chance, size, most, versions)
            shutil.rmtree("a", ignore_errors=True)
            atlas.put("a")
            for _ in range(count // 15 + 1):
                masks = versions != (1,) and chance.random() < 0.5
                is_count = chance.random() < 0.3
                query = some_query(chance, atlas, masks)
                if is_count:
                    query = some_window(chance, atlas, (0, 0), query.mask)
                proof_agrees(bench, atlas, query, is_count, "%d records of %s" % (size, name))
                asked += 1
    print("%s: %d queries on atlases beside a scan" % (bench.name, asked))


# ---- hostile servers, and publishers who err or lie


class Row(NamedTuple):
    """A case: what it is, the root digest, the command, the query, the proof, and what is said, as a pattern."""

    name: str
    root: str
    command: str
    query: str
    proof: bytes
    said: str


def two_atlases(version: int) -> Tuple[Atlas, Atlas]:
    """An atlas of some hundred records in nine sheets, and the same after a change in one of them."""
    records = [plain.place2(number) if version == 2 else plain.place(number) for number in range(1, 201)]
    groups = plain.grouped([(record.rect, record.number, record) for record in records], 24)
    sheets = [Sheet(number, version, plain.pack(group)) for number, group in enumerate(groups, 1)]
    old = Atlas(sheets)
    at = sheets[3]
    tree = plain.inserted(plain.pack(at.tree.records()), plain.Record(999, at.tree.rect[:2] * 2, b"new"))
    changed = [*sheets[:3], Sheet(4, version, tree, 1), *sheets[4:]]
    return old, Atlas(changed, 1, 1)


WRONG = r"refused %s WrongRoot at \d+ found [0-9a-f]{64}"


def crossing(atlas: Atlas) -> plain.Query:
    """A window that crosses some sheets, and has others in it."""
    return plain.Query((2000, 2000, 15000, 15000))


def server_rows(version: int) -> Iterator[Row]:
    """What a server may do, on an atlas of a version."""
    old, new = two_atlases(version)
    query = crossing(new)
    word, proof, before = proofs.word_of(query), new.proof(query), old.proof(query)
    numbers = list(proof.sheets)
    one, two, last = numbers[0], numbers[1], numbers[-1]

    def row(name: str, bytes_: bytes, said_: str, root: str = new.root) -> Row:
        """A case of this window."""
        return Row(name, root, "check-atlas", word, bytes_, said_)

    swapped = proof.having({one: proof.sheets[two], two: proof.sheets[one]})
    spelled = proof.spelled()
    yield row("two sheets' proofs exchanged", swapped.spelled(), WRONG % ("sheet %d" % one))
    yield row("the first sheet missing", proof.without(one).spelled(), WRONG % ("sheet %d" % one))
    missing = r"refused sheet %d Missing at %d" % (last, len(proof.without(last).spelled()))
    yield row("the last sheet missing", proof.without(last).spelled(), missing)
    yield row("a sheet twice", spelled + part(proof.sheets[last]), "refused frame Trailing at %d" % len(spelled))
    yield row("bytes behind", spelled + b"\0", "refused frame Trailing at %d" % len(spelled))
    yield row("a sheet's part empty", proof.having({one: b""}).spelled(), "refused sheet %d Short at 0" % one)
    yield row("an empty index's part", proof._replace(index=b"").spelled(), "refused index Short at 0")
    yield row("no parts", proof.front, "refused index Missing at 6")
    yield row("the index alone", proof.front + part(proof.index), "refused sheet %d Missing at %d"
              % (one, 10 + len(proof.index)))
    yield row("the index of another atlas", proof._replace(index=before.index).spelled(), WRONG % "index")
    yield row("all of the old atlas", before.spelled(), WRONG % "index")
    yield row("the new atlas for the old root", spelled, WRONG % "index", old.root)
    yield row("the new index with one old sheet", proof.having({4: before.sheets[4]}).spelled(), WRONG % "sheet 4")
    yield row("the old index with one new sheet", before.having({4: proof.sheets[4]}).spelled(), WRONG % "sheet 4",
              old.root)
    other = Atlas([sheet._replace(batch=9) for sheet in new.sheets.values()]).proof(query)
    yield row("sheets of another atlas", proof._replace(sheets=other.sheets).spelled(), WRONG % ("sheet %d" % one))
    small = new.proof(plain.Query((2000, 2000, 9000, 9000)))
    yield row("all of a smaller window", small.spelled(), r"refused (index|sheet \d+) (Hidden|WrongRoot) at \d+.*")
    narrow = proof._replace(sheets={number: small.sheets.get(number, b"") for number in numbers})
    yield row("sheets' proofs of a smaller window", narrow.spelled(), r"refused sheet \d+ (Hidden|Short) at \d+")
    wide = new.proof(plain.Query((2000, 2000, 19000, 19000)))
    yield row("all of a larger window", wide.spelled(), r"refused (index|sheet \d+) (Needless|WrongRoot) at \d+.*")
    yield row("a window's proof of a map", proof.index, "refused frame BadMagic at 0")
    yield row("another version", b"MRAT\2" + spelled[5:], "refused frame BadVersion at 4")
    yield row("a count's proof for a window", new.proof_of(b"MRAT\1C", query, False).spelled(),
              "refused frame WrongKind at 5")
    yield row("no bytes", b"", "refused frame Short at 0")
    yield row("an index proof that is cut", proof._replace(index=proof.index[:-1]).spelled(),
              "refused index Short at .*")
    lie = proof.front + struct.pack(">I", 2**32 - 1) + proof.index
    yield row("an index's length beyond the end", lie, "refused index Missing at 6")


def nearest_rows(version: int) -> Iterator[Row]:
    """What a server may do with nearest records."""
    _, atlas = two_atlases(version)
    query = plain.Query(((9000, 9000), 7))
    word, half = proofs.word_of(query), atlas.half(query)

    def row(name: str, proof: Proof, said_: str) -> Row:
        """A case of these nearest records."""
        return Row(name, atlas.root, "check-atlas", word, proof.spelled(), said_)

    honest = atlas.proof(query)
    yield row("h one too small", atlas.proof(query, half - 1), "refused frame WrongRadius at 6")
    yield row("h one too large", atlas.proof(query, half + 1), "refused frame WrongRadius at 6")
    yield row("h everything", atlas.proof(query, ALL), "refused frame WrongRadius at 6")
    yield row("h zero", atlas.proof(query, 0), "refused frame WrongRadius at 6")
    large = honest._replace(front=b"MRAT\1K" + struct.pack(">I", ALL))
    yield row("h larger than its proofs", large, r"refused (index|sheet \d+) (Hidden|WrongRoot) at \d+.*")
    yield row("a window's proof for nearest", atlas.proof(square(query, half)), "refused frame WrongKind at 5")
    yield row("nearest of one k more", atlas.proof(plain.Query(((9000, 9000), 8))), "refused frame WrongRadius at 6")
    yield row("nearest of another point", atlas.proof(plain.Query(((9001, 9000), 7))),
              r"refused (frame|index|sheet \d+) \w+ at \d+.*")
    yield row("a half side that is cut", Proof(honest.front[:8], b"", {})._replace(index=b""),
              r"refused index \w+ at .*")
    many = plain.Query(((9000, 9000), 201 + 1))
    few = Row("fewer than k, with a smaller h", atlas.root, "check-atlas", proofs.word_of(many),
              atlas.proof(many, 30000).spelled(), "refused frame WrongRadius at 6")
    yield few


def count_rows() -> Iterator[Row]:
    """What a server may do with counts and masks."""
    _, atlas = two_atlases(2)
    query = crossing(atlas)
    word, proof = proofs.word_of(query), atlas.count_proof(query)
    first, last = list(proof.sheets)[0], list(proof.sheets)[-1]

    def row(name: str, one: Proof, said_: str, command: str = "check-atlas-count", word_: str = word) -> Row:
        """A case of this count."""
        return Row(name, atlas.root, command, word_, one.spelled(), said_)

    missing = "refused sheet %d Missing at %d" % (last, len(proof.without(last).spelled()))
    yield row("count: a crossing sheet left out", proof.without(last), missing)
    windows = {number: part_of(atlas.sheets[number], query) for number in proof.sheets}
    yield row("count: windows' proofs", proof.having(windows), "refused sheet %d WrongKind at 5" % first)
    whole = next(number for number, sheet in atlas.sheets.items() if plain.within(sheet.tree.rect, query.shape))
    more = {**proof.sheets, whole: part_of(atlas.sheets[whole], query, True)}
    more = dict(sorted(more.items()))
    yield row("count: a part of a sheet inside", proof._replace(sheets=more),
              r"refused (frame Trailing at \d+|sheet \d+ WrongRoot at \d+ found [0-9a-f]{64})")
    yield row("count: a window's proof", atlas.proof(query), "refused frame WrongKind at 5")
    yield row("a count's proof for a window", proof, "refused frame WrongKind at 5", "check-atlas")
    masked = plain.Query(query.shape, 2**24 - 2**7)
    with_mask, word_2 = atlas.proof(masked), proofs.word_of(masked)
    some = list(with_mask.sheets)
    out = next(number for number in atlas.proof(query).sheets if number not in some)
    parted = r"refused (sheet \d+|frame) \w+ at \d+.*"
    yield row("a mask: proofs without it", atlas.proof(query), parted, "check-atlas", word_2)
    yield row("proofs of a mask for none", with_mask, parted, "check-atlas")
    yield row("a mask: a sheet left out", with_mask.without(some[0]), WRONG % ("sheet %d" % some[0]), "check-atlas",
              word_2)
    more = dict(sorted({**with_mask.sheets, out: part_of(atlas.sheets[out], masked)}.items()))
    yield row("a mask: a part of a sheet without such a layer", with_mask._replace(sheets=more),
              r"refused (sheet \d+ WrongRoot|frame Trailing) at \d+.*", "check-atlas", word_2)
    lie = atlas.with_entry(some[0], bent_payload(35, struct.pack(">Q", 1)))
    yield Row("a mask in the payload that leaves out a layer", lie.root, "check-atlas", word,
              lie.proof(query).spelled(), WRONG % ("sheet %d" % some[0]))
    hidden = lie.proof(masked).without(some[0])
    shown = [one for one in atlas.records() if one[0] not in atlas.sheets[some[0]].tree.records()]
    lines = lines_of(sorted(one for one in shown if plain.overlap(query.shape, one[0].rect)
                            and masked.mask >> one[0].layer & 1))
    yield Row("the same, where it is not asked", lie.root, "check-atlas", word_2, hidden.spelled(),
              re.escape(lines.decode().rstrip("\n")))
    _, version_1 = two_atlases(1)
    told = "refused sheet %d BadVersion at 4" % list(version_1.proof(query).sheets)[0]
    yield Row("a mask on sheets of version 1", version_1.root, "check-atlas", word + "/%016x" % 1,
              version_1.proof(query).spelled(), told)
    none = version_1.proof_of(b"MRAT\1W", query, False)._replace(sheets={})
    yield Row("a mask of no layer on sheets of version 1", version_1.root, "check-atlas", word + "/%016x" % 0,
              none.spelled(), r"refused sheet \d+ Missing at \d+")
    yield Row("a count on crossing sheets of version 1", version_1.root, "check-atlas-count", word,
              version_1.proof_of(b"MRAT\1C", query, False).spelled(), r"refused sheet \d+ BadVersion at 4")


def bent_payload(at: int, bytes_: bytes) -> Callable[[plain.Record], plain.Record]:
    """What puts bytes into the payload of a sheet's record."""
    return lambda one: one._replace(payload=one.payload[:at] + bytes_ + one.payload[at + len(bytes_) :])


def publisher_rows(version: int) -> Iterator[Row]:
    """What a publisher may do who errs or lies: the proofs are honest ones for what was published."""
    _, good = two_atlases(version)
    query = crossing(good)
    word, rect = proofs.word_of(query), good.sheets[4].tree.rect

    def row(name: str, atlas: Atlas, said_: str, asked: plain.Query = query) -> Row:
        """A case of an atlas as it was published."""
        return Row(name, atlas.root, "check-atlas", proofs.word_of(asked), atlas.proof(asked).spelled(), said_)

    smaller = (rect[0], rect[1], rect[2] - 1, rect[3])
    less = good.with_entry(4, lambda one: one._replace(rect=smaller))
    yield row("the index's rectangle one smaller", less, "refused entry 4 Rect")
    away = good.with_entry(4, lambda one: one._replace(rect=(10**9, 10**9, 10**9, 10**9)))
    yield row("the index's rectangle elsewhere, shown there", away, "refused entry 4 Rect", WHOLE)
    others = [one for one in good.records() if one[0] not in good.sheets[4].tree.records()]
    lines = lines_of(sorted(one for one in others if plain.overlap(query.shape, one[0].rect)))
    yield row("the index's rectangle elsewhere, not shown", away, re.escape(lines.decode().rstrip("\n")))
    both = good.with_entry(4, lambda one: bent_payload(19, struct.pack(">4i", *smaller))(one)._replace(rect=smaller))
    yield row("a smaller rectangle in both", both, WRONG % "sheet 4")
    count = good.with_entry(4, bent_payload(10, struct.pack(">Q", 5)))
    yield row("another count in the payload", count, WRONG % "sheet 4")
    yield row("another batch in the payload", good.with_entry(4, bent_payload(2, bytes(8))), WRONG % "sheet 4")
    for name, change in (
        ("no payload", lambda one: one._replace(payload=b"")),
        ("a payload of one byte", lambda one: one._replace(payload=b"R")),
        ("a payload that is cut", lambda one: one._replace(payload=one.payload[:-1])),
        ("another letter", bent_payload(0, b"E")),
        ("version 0", bent_payload(1, b"\0")),
        ("version 3", bent_payload(1, b"\3")),
        ("a count of 0", bent_payload(10, bytes(8))),
        ("a count above 2^20", bent_payload(10, struct.pack(">Q", 2**20 + 1))),
        ("a count of 2^64 - 1", bent_payload(10, b"\xff" * 8)),
        ("a level of 8", bent_payload(18, b"\x08")),
        ("sides that are out of order", bent_payload(19, struct.pack(">4i", 5, 0, 4, 0))),
        *([("a mask of 0", bent_payload(35, bytes(8)))] if version == 2 else []),
    ):
        yield row(name, good.with_entry(4, change), "refused entry 4 Form")
    first = good.with_entry(4, lambda one: one._replace(payload=b"")).with_entry(
        list(good.proof(query).sheets)[-1], lambda one: one._replace(rect=smaller))
    yield row("two entries that are bent", first, "refused entry 4 Form", WHOLE)
    twice = Atlas([*good.sheets.values(), good.sheets[4]._replace(number=900)])
    least = min(one.number for one in good.sheets[4].tree.records() if plain.overlap(query.shape, one.rect))
    yield row("a sheet listed twice", twice, "refused number %d Repeat" % least)
    yield row("the same, where it is not asked", twice, "", plain.Query((HIGH, HIGH, HIGH, HIGH)))
    same = Sheet(901, version, plain.pack([plain.Record(least, (3000, 3000, 3000, 3000), b"")]))
    yield row("a number in two sheets", Atlas([*good.sheets.values(), same]), "refused number %d Repeat" % least)
    near = plain.Query(((3000, 3000), 200))
    yield row("the same, of nearest records", Atlas([*good.sheets.values(), same]), "refused number %d Repeat" % least,
              near)


def rows() -> Iterator[Row]:
    """All cases."""
    for version in (1, 2):
        yield from server_rows(version)
        yield from nearest_rows(version)
        yield from publisher_rows(version)
    yield from count_rows()


def rows_hold(bench: Bench) -> None:
    """Of each case comes what is meant."""
    count = 0
    for row in rows():
        write("p", row.proof)
        status, text = bench.client([row.command, row.root, row.query, "p"])
        meant = 2 if row.said.startswith("refused") else 0
        is_so = status == meant and re.fullmatch(row.said + "\n?", text.decode()) is not None
        bench.holds(is_so, "%s: %s, and meant is %s" % (row.name, (status, text[:200]), row.said[:200]))
        count += 1
    bench.holds(count >= 90, "only %d cases" % count)
    print("%s: %d cases of hostile servers and publishers" % (bench.name, count))


# ---- each byte and each cut


def sample(version: int) -> Atlas:
    """A small atlas: two sheets of three records."""
    records = [plain.place2(number)._replace(layer=number % 3 if version == 2 else 0) for number in range(1, 7)]
    groups = plain.grouped([(record.rect, record.number, record) for record in records], 3)
    return Atlas([Sheet(number, version, plain.pack(group), 0, b"n") for number, group in enumerate(groups, 1)])


def bytes_and_cuts(bench: Bench, step: int) -> None:
    """Each byte of some proofs with its highest or its lowest bit changed, and each cut, is refused.

    Of the second and the third one no more than every so manieth string is judged.
    """
    count, steps = 0, iter((1, step, step))
    for version, command, query in (
        (1, "check-atlas", crossing_of_sample()),
        (2, "check-atlas", plain.Query(((9000, 9000), 3), 3)),
        (2, "check-atlas-count", crossing_of_sample()),
    ):
        atlas = sample(version)
        word = proofs.word_of(query)
        proof = (atlas.count_proof if command == "check-atlas-count" else atlas.proof)(query).spelled()
        write("p", proof)
        bench.holds(bench.client([command, atlas.root, word, "p"])[0] == 0, "the proof of %s" % word)
        for string in itertools.islice(bent_bytes(proof), 0, None, next(steps)):
            write("p", string)
            status, text = bench.client([command, atlas.root, word, "p"])
            bench.holds(status == 2 and text.startswith(b"refused "), "%s: %d bytes: %s" % (word, len(string), text))
            count += 1
    bench.holds(count >= 1300, "only %d strings" % count)
    print("%s: %d strings that differ from an atlas proof in a byte, or are cut" % (bench.name, count))


def crossing_of_sample() -> plain.Query:
    """A window that crosses the sheets of the sample."""
    return plain.Query((0, 0, 14000, 14000))


def bent_bytes(proof: bytes) -> Iterator[bytes]:
    """A proof with each byte changed, twice, and each cut."""
    for at, byte in enumerate(proof):
        for bit in (1, 128):
            yield proof[:at] + bytes([byte ^ bit]) + proof[at + 1 :]
    for length in range(len(proof)):
        yield proof[:length]


# ---- atlases asked by their pages


def change_page(name: str, page: int, place: int) -> None:
    """Changes a byte of a page of a file of version 2."""
    bytes_ = bytearray(read(name))
    bytes_[8192 * page + place] ^= 1
    write(name, bytes(bytes_))


def asks_hold(bench: Bench) -> None:
    """What is told of an atlas whose files do not fit, or are not there, and of its publisher's faults."""
    old, atlas = two_atlases(2)
    query = plain.Query((2000, 2000, 9000, 9000))
    word, numbers = proofs.word_of(query), list(atlas.proof(query).sheets)
    one, other = numbers[0], numbers[1]
    files = {number: "sheets/" + plain.root(sheet.tree, sheet.batch, 2) for number, sheet in atlas.sheets.items()}
    index = "sheets/" + atlas.root
    cases: List[Tuple[str, Callable[[], object], int, str]] = [
        ("all is there", lambda: None, 0, re.escape(scan(atlas, query).decode())),
        ("no index", lambda: os.remove(index), 7, "failed NoFile a/%s: missing\n" % index),
        ("a sheet is missing", lambda: os.remove(files[one]), 7, "failed NoFile a/%s: missing\n" % files[one]),
        ("a sheet that is not asked is missing", lambda: os.remove(files[unasked(atlas, query)]), 0, ".*"),
        ("another index", lambda: shutil.copy("sheets/" + old.root, index), 2,
         "refused index map page 0 WrongRoot found %s\n" % old.root),
        ("another sheet", lambda: shutil.copy(files[other], files[one]), 2,
         "refused sheet %d map page 0 WrongRoot found %s\n" % (one, files[other][7:])),
        ("a sheet's page that was changed", lambda: change_page(files[one], 1, 30), 2,
         "refused sheet %d map page 1 (Digest|Page)\n" % one),
        ("a sheet that is no map", lambda: write(files[one], b"x" * 9000), 2,
         "refused sheet %d map page 0 Unsealed\n" % one),
        ("a sheet without bytes", lambda: write(files[one], b""), 2, "refused sheet %d map page 0 Size\n" % one),
        ("a folder in the place of a sheet", lambda: (os.remove(files[one]), os.mkdir(files[one])), 7,
         "failed NoFile a/%s: it is no file with bytes of its own\n" % files[one]),
    ]
    for name, change, status, meant in cases:
        shutil.rmtree("a", ignore_errors=True)
        for one_of in (old, atlas):
            one_of.put("a")
        os.chdir("a")
        change()
        os.chdir("..")
        said_ = ask(bench, [atlas.root, word, "a/", "--proof", "q"])
        is_so = said_[0] == status and re.fullmatch(meant, said_[1].decode(), re.DOTALL) is not None
        bench.holds(is_so, "asked where %s: %s" % (name, said_))
    publishers_asked(bench)
    words_hold(bench, atlas, word)


def unasked(atlas: Atlas, query: plain.Query) -> int:
    """A sheet that does not meet a window."""
    return next(number for number, sheet in atlas.sheets.items() if not plain.overlap(query.shape, sheet.tree.rect))


def publishers_asked(bench: Bench) -> None:
    """Atlases of publishers who err are refused as their proofs are."""
    for row in itertools.chain(publisher_atlases(1), publisher_atlases(2)):
        name, atlas, query, meant = row
        shutil.rmtree("a", ignore_errors=True)
        atlas.put("a")
        for shape in (query, plain.Query((query.shape[:2], 1000))):
            said_ = ask(bench, [atlas.root, proofs.word_of(shape), "a"])
            is_so = said_[0] in (2, 7) and re.fullmatch(meant, said_[1].decode()) is not None
            bench.holds(is_so, "asked, %s: %s" % (name, said_))


def publisher_atlases(version: int) -> Iterator[Tuple[str, Atlas, plain.Query, str]]:
    """Atlases of publishers who err, a window, and what is said of it and of all nearest records."""
    _, good = two_atlases(version)
    rect = good.sheets[4].tree.rect
    smaller = (rect[0], rect[1], rect[2] - 1, rect[3])
    yield "Form", good.with_entry(4, lambda one: one._replace(payload=b"")), WHOLE, "refused entry 4 Form\n"
    yield "Rect", good.with_entry(4, lambda one: one._replace(rect=smaller)), WHOLE, "refused entry 4 Rect\n"
    lie = good.with_entry(4, bent_payload(10, struct.pack(">Q", 5)))
    yield "another count", lie, WHOLE, "failed NoFile a/sheets/[0-9a-f]{64}: missing\n"
    twice = Atlas([*good.sheets.values(), good.sheets[4]._replace(number=900)])
    least = min(one.number for one in good.sheets[4].tree.records())
    yield "a sheet twice", twice, WHOLE, "refused number %d Repeat\n" % least
    often = Atlas([good.sheets[4]._replace(number=number) for number in range(1, 200)])
    yield "a sheet 199 times", often, WHOLE, r"refused number \d+ Repeat\n"


def words_hold(bench: Bench, atlas: Atlas, word: str) -> None:
    """Words that spell no command, limits, and `answer` of records.py."""
    shutil.rmtree("a", ignore_errors=True)
    atlas.put("a")
    empty = Atlas([])
    empty.put("a")
    for words, meant in (
        (["check-join", atlas.root, atlas.root, "a", "a"], (1, "bad words\n")),
        (["check-join", atlas.root, atlas.root, "m", "none/"], (1, "bad words\n")),
        (["check-count", atlas.root, "nearest:0,0,1", "a"], (1, "bad words\n")),
        ([atlas.root, word, "a", "--proof", "a/sheets/q"], (1, "bad words\n")),
        ([atlas.root, word, "a", "--proof", "./a//sheets/" + atlas.root], (1, "bad words\n")),
        ([atlas.root, word, "none/"], (7, "failed NoFile none/sheets/%s: missing\n" % atlas.root)),
        ([atlas.root, word, "a", "--requests", "0"], (7, "failed MostRequests a/sheets/%s: more than 0 requests\n" % atlas.root)),
        ([atlas.root, word, "a", "--most", "100"], (7, "failed MostBytes a/sheets/%s: more than 100 bytes\n" % atlas.root)),
        ([empty.root, word, "a"], (0, "")),
        ([empty.root, "nearest:1,2,3", "a"], (0, "")),
        (["check-count", empty.root, word, "a"], (0, "count 0\n")),
    ):
        said_ = ask(bench, words)
        bench.holds(said_ == (meant[0], meant[1].encode()), "%s: %s" % (words, said_))
    bench.holds(not os.path.exists("a/sheets/q"), "a proof among the sheets")
    write("p", atlas.proof(mrtree_query(word)).spelled())
    write("i", proofs.honest(atlas.tree, atlas.batch, mrtree_query(word), atlas.version))
    told = [bench.call(records, ["answer", atlas.root, word, source, "o-" + source, "--unit", "1"]) for source in "pa"]
    is_so = told[0] == told[1] and told[0][0] == 0 and read("o-p") == read("o-a") != b""
    bench.holds(is_so and b" sheets of an atlas at batch 1\n" in told[0][1], "records.py answer: %s" % told)
    for source, options, meant in (("i", [], 0), ("i", ["--atlas"], 2), ("p", ["--atlas"], 0)):
        status, told_ = bench.call(records, ["answer", atlas.root, word, source, "o", "--unit", "1", *options])
        is_so = status == meant and (b"refused frame BadMagic at 0" in told_) == (meant == 2)
        bench.holds(is_so, "records.py answer %s of the index's own proof: %s" % (options, told_))


def mrtree_query(word: str) -> plain.Query:
    """The window that a word spells."""
    query = mrtree_check.read_query(word)
    return plain.Query(query.rect, query.mask)


def servers_hold(bench: Bench) -> None:
    """Atlases on servers: the proofs are those of definition, six requests at once, and no connection for each sheet."""
    chance = random.Random(671)
    atlas = some_atlas(chance, 400, 12, (2,))
    shutil.rmtree("files", ignore_errors=True)
    atlas.put("files/at")
    under_way: List[int] = []
    most = []

    def answers(asked: servers.Asked) -> Iterator[bytes]:
        """An honest answer, some milliseconds later; how many are under way is kept."""
        under_way.append(asked.number)
        most.append(len(under_way))
        time.sleep(0.01)
        file = read(os.path.join("files", asked.path.lstrip("/")))
        pieces = list(servers.honest(asked._replace(file=file)))
        under_way.remove(asked.number)
        return iter(pieces)

    with servers.Server(b"", answers) as server:
        for query in (WHOLE, plain.Query(((0, 0), 300)), some_window(chance, atlas, (0, 0))):
            said_ = ask(bench, [atlas.root, proofs.word_of(query), server.address + "at/", "--proof", "q"])
            meant = (0, scan(atlas, query))
            is_so = said_ == meant and read("q") == atlas.proof(query).spelled()
            bench.holds(is_so, "an atlas on a server: %s: %s" % (query, said_[1][:200]))
    bench.holds(2 < max(most) <= 6, "%d requests at once" % max(most))
    if not servers.nginx_of():
        bench.skip("atlases behind nginx: there is no nginx")
        return
    os.makedirs("t", exist_ok=True)
    with servers.nginx(bench) as address:
        far = mrtree_ask.open_atlas(atlas.root, address + "at/")
        for _ in range(20 if bench.is_long else 5):
            query = some_query(chance, atlas, True)
            is_so = far.proof(mrtree_check.read_query(proofs.word_of(query))) == atlas.proof(query).spelled()
            bench.holds(is_so, "an atlas behind nginx: %s" % (query,))
        said_ = ask(bench, [atlas.root, "window:0,0,1,1", address + "none/"])
        meant = "failed Status %snone/sheets/%s: status 404\n" % (address, atlas.root)
        bench.holds(said_ == (7, meant.encode()), "no atlas behind nginx: %s" % (said_,))


# ---- all of it


def in_pieces(bench: Bench) -> None:
    """However a proof is given, the module says the same."""
    atlas = sample(2)
    query = crossing_of_sample()
    word, proof = proofs.word_of(query), atlas.proof(query).spelled()
    whole = mrtree_check.check_atlas(atlas.root, word, proof)
    pieces = [proof[at : at + 1] for at in range(len(proof))]
    bench.holds(mrtree_check.check_atlas(atlas.root, word, pieces) == whole, "an atlas proof in pieces of a byte")
    bench.holds("".join(line + "\n" for line in whole.lines()).encode() == scan(atlas, query), "the module's lines")
    counted = mrtree_check.check_atlas_count(atlas.root, word, atlas.count_proof(query).spelled())
    meant = plain.count_inside([record for record, _ in atlas.records()], query)
    bench.holds(counted.inside == meant and len(counted.sheets) == 2, "the module's count: %s" % (counted,))
    bench.holds([sheet.name for sheet in counted.sheets] == [b"n"] * 2, "the names of sheets")


def sheets_hold(bench: Bench, queries: Tuple[int, int] = (120, 2000), step: int = 1) -> None:
    """All of it: so many queries in short and in long; of some bent proofs in short every so manieth."""
    rows_hold(bench)
    bytes_and_cuts(bench, 1 if bench.is_long else step)
    in_pieces(bench)
    asks_hold(bench)
    servers_hold(bench)
    atlases_agree(bench, queries[bench.is_long])
