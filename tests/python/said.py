"""What the program says of its files: status, printed text and the file that it makes, by docs/FORMATS.md alone.

A text or a map that breaks a rule is told by the line that is printed of it. Proofs and bundles are judged by the
client in clients/python. Maps and proofs are of version 1 or 2. Slow: for maps of a few thousand records.
"""
import re
import struct
from typing import Any, Dict, Iterator, List, NamedTuple, Optional, Set, Tuple

from bench import Ended, mrtree_check
import joins
import journals
from proofs import Item, Layout, honest, honest_count, plain

Query = plain.Query

PAGES = journals.PAGES
FIRST = PAGES[1]
MOST_RECORDS = 2**20
MOST_PAGES = journals.MOST_PAGES
MOST_LAYER = 63
MOST_QUERIES = 65536
Files = Dict[str, bytes]


class Told(Exception):
    """A run ends with this status and text, and makes no file."""

    def __init__(self, status: int, text: str) -> None:
        super().__init__(text)
        self.ended = status, text.encode() + b"\n"


# ---- texts


def lines_of(text: bytes, most: int) -> List[bytes]:
    """The lines of a text up to the first that is past the limit or has no end; that one is told when it is reached."""
    lines = text.split(b"\n")
    return lines if lines[-1] else lines[:-1]


def told_of_line(text: bytes, line: int, rules: List[str]) -> None:
    """Tells of a line the first rule that it breaks, if it breaks any."""
    if rules:
        raise Told(3, "bad text line %d %s" % (line, rules[0]))


def number_of(field: bytes, least: int, most: int) -> Optional[int]:
    """The value of a canonical decimal in these bounds."""
    if not re.fullmatch(rb"0|-?[1-9][0-9]{0,30}", field) or (least >= 0 and field[:1] == b"-"):
        return None
    value = int(field)
    return value if least <= value <= most else None


def read_fields(fields: List[bytes], numbers: Set[int]) -> Tuple[Any, List[str]]:
    """The record of six fields, or of seven with a layer, and the rules that they break, in their order.

    These numbers stand on earlier lines.
    """
    number = number_of(fields[0], 0, 2**64 - 1)
    corners = [number_of(field, -(2**31), 2**31 - 1) for field in fields[1:5]]
    layer = number_of(fields[5], 0, MOST_LAYER) if len(fields) == 7 else 0
    payload = fields[-1]
    rules = ["Number"] if number is None else []
    if None in corners:
        rules.append("Coordinate")
    elif corners[0] > corners[2] or corners[1] > corners[3]:
        rules.append("Order")
    if payload != b"-" and not re.fullmatch(rb"([0-9a-f]{2}){1,200}", payload):
        rules.append("Payload")
    rules += ["Repeat"] if number in numbers else []
    rules += ["Layer"] if layer is None else []
    if rules:
        return None, rules
    held = b"" if payload == b"-" else bytes.fromhex(payload.decode())
    return plain.Record(number, tuple(corners), held, layer), []


def fields_of(version: int) -> int:
    """How many fields the line of a record has."""
    return 5 + version


def ends_in_time(text: bytes, place: int, lines: List[bytes], most: int) -> List[str]:
    """TooMany and NoEnd of the line at this place, from 0 on."""
    rules = ["TooMany"] if place >= most else []
    return rules + (["NoEnd"] if place == len(lines) - 1 and text[-1:] != b"\n" else [])


def read_records(text: bytes, version: int = 1) -> List[plain.Record]:
    """The records of a record text."""
    records, seen, lines = [], set(), lines_of(text, MOST_RECORDS)
    for place, line in enumerate(lines):
        rules, fields = ends_in_time(text, place, lines, MOST_RECORDS), line.split(b" ")
        is_form = len(fields) == fields_of(version)
        record, broken = read_fields(fields, seen) if is_form else (None, ["Form"])
        told_of_line(text, place + 1, rules + broken)
        seen.add(record.number)
        records.append(record)
    return records


def read_change(line: bytes, version: int) -> Tuple[Any, List[str]]:
    """A record that comes or the number of one that goes, and the rules that the line breaks."""
    fields = line.split(b" ")
    if fields[0] == b"+" and len(fields) == 1 + fields_of(version):
        return read_fields(fields[1:], set())
    if fields[0] == b"-" and len(fields) == 2:
        number = number_of(fields[1], 0, 2**64 - 1)
        return number, (["Number"] if number is None else [])
    return None, ["Form"]


def read_batch(text: bytes, version: int = 1) -> Tuple[int, List[Any]]:
    """The number of a batch text, and its changes."""
    lines, changes, batch = lines_of(text, MOST_RECORDS + 1), [], 0
    told_of_line(text, 1, [] if lines else ["Head"])
    for place, line in enumerate(lines):
        rules = ends_in_time(text, place, lines, MOST_RECORDS + 1)
        if place == 0:
            batch = number_of(line[6:], 0, 2**64 - 1) if line[:6] == b"batch " else None
            rules += ["Head"] if batch is None else []
        else:
            change, broken = read_change(line, version)
            rules += broken
            changes.append(change)
        told_of_line(text, place + 1, rules)
    return batch, changes


def read_query(word: bytes) -> Optional[Query]:
    """The query of a word."""
    front, slash, digits = word.partition(b"/")
    shape, is_mask = read_shape(front), re.fullmatch(b"[0-9a-f]{16}", digits)
    if shape is None or (slash and not is_mask):
        return None
    return Query(shape, int(digits, 16) if slash else None)


def read_shape(word: bytes) -> Optional[Tuple]:
    """What the front of a query's word asks for: a window, or a centre and how many of the nearest records."""
    name, _, rest = word.partition(b":")
    fields = rest.split(b",")
    low, high = -(2**31), 2**31 - 1
    if name == b"window" and len(fields) == 4:
        corners = tuple(number_of(field, low, high) for field in fields)
        is_so = None not in corners and corners[0] <= corners[2] and corners[1] <= corners[3]
        return corners if is_so else None
    if name == b"nearest" and len(fields) == 3:
        x, y, k = number_of(fields[0], low, high), number_of(fields[1], low, high), number_of(fields[2], 1, 1024)
        return None if None in (x, y, k) else ((x, y), k)
    return None


def read_script(text: bytes) -> List[Query]:
    """The queries of a script."""
    queries, lines = [], lines_of(text, MOST_QUERIES)
    for place, line in enumerate(lines):
        query = read_query(line)
        told_of_line(text, place + 1, ends_in_time(text, place, lines, MOST_QUERIES) + ([] if query else ["Query"]))
        queries.append(query)
    return queries


# ---- map files


def version_of(bytes_: bytes) -> int:
    """The version in which a map file is read."""
    return 2 if bytes_[4:5] == b"\x02" else 1


class Named(NamedTuple):
    """How a node is named by its parent or by page 0: by page 0 without a count, in version 1 without a mask too."""

    page: int
    level: int
    rect: Tuple[int, ...]
    digest: bytes
    mask: Optional[int] = None
    count: Optional[int] = None


def told_of_map(page: int, rule: str, what: str = "") -> Told:
    """The fault of a map file."""
    return Told(4, "bad map page %d %s%s" % (page, rule, what))


def is_in_order(rect: Tuple[int, ...]) -> bool:
    """Whether no side is past the opposite one."""
    return rect[0] <= rect[2] and rect[1] <= rect[3]


class Walk:
    """Reads a map file: its tree (None of a map without records) and its batch, or tells its fault."""

    def __init__(self, bytes_: bytes, version: int) -> None:
        self.bytes_, self.version, self.size = bytes_, version, PAGES[version]
        self.pages = len(bytes_) // self.size
        self.reached: Set[int] = {0}
        self.numbers: Set[int] = set()

    def page(self, page: int) -> bytes:
        """The bytes of a page."""
        return self.bytes_[page * self.size : (page + 1) * self.size]

    def read(self) -> Tuple[Any, int]:
        """The tree and the batch."""
        if not self.bytes_ or len(self.bytes_) % self.size or self.pages > MOST_PAGES:
            raise told_of_map(0, "Size")
        head = self.page(0)
        if head[-4:] != b"SEAL":
            raise told_of_map(0, "Unsealed")
        level, (batch, count, pages, root) = head[5], struct.unpack(">QQII", head[6:30])
        named, free, rest = self.root_named(head, level, root)
        is_none = not (level or root or any(named.rect) or named.mask or any(named.digest))
        is_some = root and named.mask != 0 and count <= MOST_RECORDS
        is_right = head[:5] == b"MRMP" + bytes([self.version]) and level <= 7 and pages == self.pages
        if not (is_right and (is_some if count else is_none) and is_in_order(named.rect)) or any(rest):
            raise told_of_map(0, "Header")
        tree = self.node(named, True) if count else None
        if count != len(self.numbers):
            raise told_of_map(0, "Count", " held %d found %d" % (count, len(self.numbers)))
        self.chain(free)
        return tree, batch

    def root_named(self, head: bytes, level: int, page: int) -> Tuple[Named, int, bytes]:
        """How page 0 names the root; the first free page; and the zeros between that and the seal."""
        at = 46 if self.version == 1 else 54
        mask = int.from_bytes(head[46:at], "big") if self.version == 2 else None
        named = Named(page, level, struct.unpack(">4i", head[30:46]), head[at : at + 32], mask)
        return named, int.from_bytes(head[at + 32 : at + 36], "big"), head[at + 36 : -4]

    def node(self, named: Named, is_root: bool) -> Any:
        """The node that is named so."""
        page = named.page
        if not 0 < page < self.pages:
            raise told_of_map(page, "Outside")
        if page in self.reached:
            raise told_of_map(page, "Twice")
        self.reached.add(page)
        parts, preimage = self.parts(named)
        found = plain.digest(preimage)
        if found != named.digest:
            raise told_of_map(page, "Digest", " held %s found %s" % (named.digest.hex(), found.hex()))
        if plain.union([part.rect for part in parts]) != named.rect:
            raise told_of_map(page, "Rect")
        if not self.sums(named, parts, is_root):
            raise told_of_map(page, "Sum")
        if len(parts) < ((1 if named.level == 0 else 2) if is_root else (6 if named.level == 0 else 24)):
            raise told_of_map(page, "Fill")
        for record in [] if named.level else parts:
            if record.number in self.numbers:
                raise told_of_map(page, "Number")
            self.numbers.add(record.number)
        node = plain.Node(not named.level, [self.node(part, False) for part in parts] if named.level else parts)
        node.page = page
        return node

    def sums(self, named: Named, parts: List[Any], is_root: bool) -> bool:
        """Whether a node is named with the mask and the count of its parts, if its version says either."""
        if self.version == 1:
            return True
        mask, count = 0, 0
        for part in parts:
            mask |= part.mask if named.level else 1 << part.layer
            count += part.count if named.level else 1
        return mask == named.mask and (is_root or count == named.count)

    def parts(self, named: Named) -> Tuple[List[Any], bytes]:
        """The records or the named children of a node's page, and the preimage."""
        try:
            return self.leaf(named.page) if named.level == 0 else self.inner(named.page, named.level)
        except (ValueError, struct.error, IndexError):
            raise told_of_map(named.page, "Page") from None

    def leaf(self, page: int) -> Tuple[List[Any], bytes]:
        """The records of a leaf page."""
        bytes_, at, records = self.page(page), 2, []
        for _ in range(self.count(bytes_[:1] == b"L", bytes_[1], 16)):
            number, *rect = struct.unpack_from(">Q4i", bytes_, at)
            layer, end = (0, at + 25) if self.version == 1 else (bytes_[at + 24], at + 26)
            length = bytes_[end - 1]
            if not is_in_order(tuple(rect)) or layer > MOST_LAYER or length > 200:
                raise ValueError
            records.append(plain.Record(number, tuple(rect), bytes_[end : end + length], layer))
            at = end + length
        return self.ended(bytes_, at, records), bytes_[:at]

    def inner(self, page: int, level: int) -> Tuple[List[Any], bytes]:
        """The named children of an inner page."""
        bytes_, at, named, preimage = self.page(page), 3, [], self.page(page)[:3]
        for _ in range(self.count(bytes_[:1] == b"N" and bytes_[1] == level, bytes_[2], 64)):
            child, *rect = struct.unpack_from(">I4i", bytes_, at)
            mask, count = struct.unpack_from(">QQ", bytes_, at + 20) if self.version == 2 else (None, None)
            if not is_in_order(tuple(rect)) or mask == 0 or (count is not None and not 1 <= count <= MOST_RECORDS):
                raise ValueError
            end = at + (52 if self.version == 1 else 68)
            named.append(Named(child, level - 1, tuple(rect), bytes_[end - 32 : end], mask, count))
            preimage += bytes_[at + 4 : end]
            at = end
        return self.ended(bytes_, at, named), preimage

    def count(self, is_kind: bool, count: int, most: int) -> int:
        """The number of parts, if the page is of its kind."""
        if not (is_kind and 1 <= count <= most):
            raise ValueError
        return count

    def ended(self, bytes_: bytes, at: int, parts: List[Any]) -> List[Any]:
        """The parts, if zeros stand behind them."""
        if any(bytes_[at:]):
            raise ValueError
        return parts

    def chain(self, page: int) -> None:
        """The chain of free pages, and that no page is left."""
        while page:
            bytes_ = self.page(page) if page < self.pages else b""
            if page in self.reached or bytes_[:1] != b"F" or any(bytes_[5:]):
                raise told_of_map(page, "Free")
            self.reached.add(page)
            page = int.from_bytes(bytes_[1:5], "big")
        for page in range(self.pages):
            if page not in self.reached:
                raise told_of_map(page, "Free")


def read_map(bytes_: bytes) -> Tuple[Any, int]:
    """The tree and the batch that a file stands for, in the version that it has; each node has its page."""
    return Walk(bytes_, version_of(bytes_)).read()


def has_proof(bytes_: bytes, queries: List[Query]) -> None:
    """Tells of a map of version 1 that there is no proof on it, if one of these queries names a mask."""
    if version_of(bytes_) == 1 and any(query.mask is not None for query in queries):
        raise Told(10, "needs version 2")


def page_of(node: Any, children: List[int], version: int = 1) -> bytes:
    """The page of a node whose children are on these pages."""
    if node.is_leaf:
        page = node.preimage(version)
    else:
        parts = [struct.pack(">I", at) + plain.entry(child, version) for at, child in zip(children, node.entries)]
        page = b"N" + bytes([node.level(), len(parts)]) + b"".join(parts)
    return page.ljust(PAGES[version], b"\0")


def page_0(tree: Any, batch: int, pages: int, root: int, free: int, version: int = 1) -> bytes:
    """Page 0 of a file of so many pages, with the root node and the first free page there."""
    named = plain.root_entry(tree, version) if tree else bytes(48 if version == 1 else 56)
    count, level = (len(tree.records()), tree.level()) if tree else (0, 0)
    head = b"MRMP" + bytes([version, level]) + struct.pack(">QQII", batch, count, pages, root) + named
    return (head + struct.pack(">I", free)).ljust(PAGES[version] - 4, b"\0") + b"SEAL"


def map_bytes(tree: Any, batch: int, version: int = 1) -> bytes:
    """The map file with the nodes from page 1 on, a node before its children, and no free page."""
    pages: List[bytes] = []

    def put(node: Any) -> int:
        at = len(pages)
        pages.append(b"")
        pages[at] = page_of(node, [] if node.is_leaf else [put(child) for child in node.entries], version)
        return at + 1

    root = put(tree) if tree else 0
    return page_0(tree, batch, len(pages) + 1, root, 0, version) + b"".join(pages)


# ---- commands


class Meant(NamedTuple):
    """How a run is to end, and of a run that makes a file what that is to hold.

    Of a run that changes a map in place `made` is the map, and `journal` what recovery leaves of its journal; neither
    is there where both stay as they are.
    """

    ended: Ended
    made: Optional[bytes] = None
    journal: Optional[bytes] = None


def file_of(files: Files, name: str) -> bytes:
    """The bytes of an input file."""
    if name not in files:
        raise Told(7, "missing " + name)
    return files[name]


def record_lines(records: List[plain.Record], version: int = 1) -> bytes:
    """The lines of records."""
    return "".join(plain.line_of(record, version) + "\n" for record in records).encode()


def line(text: str) -> bytes:
    """A printed line."""
    return text.encode() + b"\n"


def say_root(words: List[str], files: Files) -> Meant:
    """`root`, `root2`, and `build` and `build2`, which make a map."""
    version = 2 if words[0][-1] == "2" else 1
    tree = plain.pack(read_records(file_of(files, words[-1]), version))
    made = map_bytes(tree, 0, version) if words[0].startswith("build") else None
    return Meant((0, line(plain.root(tree, 0, version))), made)


def say_list(words: List[str], files: Files) -> Meant:
    """`list`."""
    bytes_ = file_of(files, words[1])
    tree, _ = read_map(bytes_)
    return Meant((0, record_lines(sorted(tree.records()) if tree else [], version_of(bytes_))))


def say_upgrade(words: List[str], files: Files) -> Meant:
    """`upgrade`."""
    tree, batch = read_map(file_of(files, words[1]))
    return Meant((0, line(plain.root(tree, batch, 2))), map_bytes(tree, batch, 2))


def applied(bytes_: bytes, batch: Tuple[int, List[Any]]) -> Meant:
    """What comes of a batch on the map of these bytes; those of the map that is made are one layout of several."""
    (tree, held), version = read_map(bytes_), version_of(bytes_)
    fault = plain.fault(tree, held, batch)
    if fault:
        raise Told(5, fault)
    for change in batch[1]:
        tree = plain.inserted(tree, change) if isinstance(change, tuple) else plain.deleted(tree, change)
    return Meant((0, line(plain.root(tree, batch[0], version))), map_bytes(tree, batch[0], version))


def say_apply(words: List[str], files: Files) -> Meant:
    """`apply`."""
    bytes_ = file_of(files, words[1])
    read_map(bytes_)
    return applied(bytes_, read_batch(file_of(files, words[2]), version_of(bytes_)))


def beside(words: List[str], files: Files) -> Tuple[bytes, bytes, bool]:
    """What recovery leaves of a map that is changed in place and of its journal, and whether the journal is open."""
    map_, journal = file_of(files, words[1]), files.get(journals.name_of(words[1]), b"")
    return (*journals.recovered(map_, journal), journals.restored(map_, journal)[1])


def say_recover(words: List[str], files: Files) -> Meant:
    """`recover`."""
    map_, journal, is_open = beside(words, files)
    return Meant((0, b"recovered\n"), map_, journal) if is_open else Meant((0, b"clean\n"))


def say_apply_here(words: List[str], files: Files) -> Meant:
    """`apply-here`; where it refuses the batch or the map, both were recovered."""
    map_, journal, is_open = beside(words, files)
    batch = read_batch(file_of(files, words[2]), version_of(map_))
    try:
        meant = applied(map_, batch)
    except Told as told:
        return Meant(told.ended, map_, journal) if is_open else Meant(told.ended)
    return meant._replace(journal=journal)


def query_of(word: str) -> Query:
    """The query of a word that is one."""
    query = read_query(word.encode())
    if query is None:
        raise Told(1, "bad words")
    return query


def say_prove(words: List[str], files: Files) -> Meant:
    """`prove`."""
    query, bytes_ = query_of(words[2]), file_of(files, words[1])
    map_ = read_map(bytes_)
    has_proof(bytes_, [query])
    made = honest(*map_, query, version_of(bytes_))
    return Meant((0, line("proof %d" % len(made))), made)


class Shown(NamedTuple):
    """What a proof shows of a node: what its parent says of it, its preimage (none of a pruned one), its children."""

    rect: Tuple[int, ...]
    mask: int
    count: int
    digest: bytes
    preimage: bytes
    children: List["Shown"]

    def named(self, version: int) -> bytes:
        """Its rectangle and, in version 2, its mask."""
        return struct.pack(">4i", *self.rect) + (struct.pack(">Q", self.mask) if version == 2 else b"")

    def entry(self, version: int) -> bytes:
        """What its parent says of it."""
        return self.named(version) + (struct.pack(">Q", self.count) if version == 2 else b"") + self.digest


def shown(proof: bytes, item: Item) -> Shown:
    """What an item of an accepted proof shows."""
    version, bytes_ = proof[4], proof[item.start : item.end]
    if item.tag == ord("P"):
        mask, count = struct.unpack(">QQ", bytes_[17:33]) if version == 2 else (0, 0)
        return Shown(struct.unpack(">4i", bytes_[1:17]), mask, count, bytes_[-32:], b"", [])
    children = [shown(proof, child) for child in item.children]
    parts, mask, count = [(child.rect, child.mask, child.count) for child in children], 0, 0
    at = 2
    while item.tag == ord("L") and at < len(bytes_):
        rect, layer = struct.unpack(">4i", bytes_[at + 8 : at + 24]), bytes_[at + 24] if version == 2 else 0
        parts.append((rect, 1 << layer, 1))
        at += 24 + version + bytes_[at + 23 + version]
    if item.tag == ord("N"):
        bytes_ = b"N" + bytes([item.level, len(parts)]) + b"".join(child.entry(version) for child in children)
    for _, bits, number in parts:
        mask, count = mask | bits, count + number
    return Shown(plain.union([rect for rect, _, _ in parts]), mask, count, plain.digest(bytes_), bytes_, children)


def root_preimages(tree: Any, batch: int, version: int, proof: bytes) -> Tuple[bytes, bytes]:
    """The preimages of the roots of a map and of an accepted proof, each in its own version."""
    layout = Layout(proof)
    theirs = b"E" + proof[4:5] + proof[6:14]
    if layout.root:
        one = shown(proof, layout.root)
        theirs = b"R" + proof[4:5] + proof[6:22] + bytes([layout.root.level]) + one.named(proof[4]) + one.digest
    return plain.root_preimage(tree, batch, version), theirs


def preimages(node: Any, version: int, one: Shown) -> Iterator[Tuple[bytes, bytes]]:
    """The preimages of a node and those below it, and of what a proof shows in their places, down to a difference."""
    if one.preimage:
        yield node.preimage(version), one.preimage
        for child, part in zip([] if node.is_leaf else node.entries, one.children):
            yield from preimages(child, version, part)


def collision(tree: Any, batch: int, version: int, proof: bytes) -> Optional[Tuple[bytes, bytes]]:
    """The first two preimages that differ, of a map and of an accepted proof."""
    pairs = [root_preimages(tree, batch, version, proof)]
    root = Layout(proof).root
    if tree is not None and root is not None and pairs[0][0] == pairs[0][1]:
        pairs = preimages(tree, version, shown(proof, root))
    return next((pair for pair in pairs if pair[0] != pair[1]), None)


def say_audit(words: List[str], files: Files) -> Meant:
    """`audit`."""
    query_of(words[2])
    bytes_ = file_of(files, words[1])
    (tree, batch), version = read_map(bytes_), version_of(bytes_)
    proof = file_of(files, words[3])
    status, text = mrtree_check.run(["check", plain.root(tree, batch, version), *words[2:]])
    pair = collision(tree, batch, version, proof) if status == 0 else None
    if pair:
        return Meant((6, b"collision\n%s\n%s\n" % (pair[0].hex().encode(), pair[1].hex().encode())))
    return Meant((status, (b"sound\n" if status == 0 else b"") + text.encode()))


def window_of(word: str) -> Query:
    """The query of a word that is one for a window."""
    query = query_of(word)
    if not query.is_window():
        raise Told(1, "bad words")
    return query


def say_count(words: List[str], files: Files) -> Meant:
    """`count`."""
    query, bytes_ = window_of(words[2]), file_of(files, words[1])
    map_ = read_map(bytes_)
    if version_of(bytes_) == 1:
        raise Told(10, "needs version 2")
    made = honest_count(*map_, query)
    return Meant((0, line("proof %d" % len(made))), made)


def say_check_count(words: List[str], files: Files) -> Meant:
    """`check-count`, by the client, which reads the file itself."""
    window_of(words[2])
    return say_client(words, files)


def say_audit_count(words: List[str], files: Files) -> Meant:
    """`audit-count`; of an honest proof the count is that of a scan."""
    query = window_of(words[2])
    bytes_ = file_of(files, words[1])
    (tree, batch), version = read_map(bytes_), version_of(bytes_)
    proof = file_of(files, words[3])
    status, text = mrtree_check.run(["check-count", plain.root(tree, batch, version), *words[2:]])
    if status != 0:
        return Meant((status, text.encode()))
    pair = collision(tree, batch, version, proof)
    if pair:
        return Meant((6, b"collision\n%s\n%s\n" % (pair[0].hex().encode(), pair[1].hex().encode())))
    if proof != honest_count(tree, batch, query):
        raise ValueError("a string that shows what the map has is accepted, and is not the honest count proof")
    return Meant((0, b"sound\ncount %d\n" % plain.count_inside(tree.records() if tree else [], query)))


def two_maps(words: List[str], files: Files) -> List[Tuple[Any, int]]:
    """Both maps of a join, read one behind the other; each has to be of version 2."""
    bytes_ = []
    maps = []
    for word in words[1:3]:
        bytes_.append(file_of(files, word))
        maps.append(read_map(bytes_[-1]))
    if any(version_of(one) == 1 for one in bytes_):
        raise Told(10, "needs version 2")
    return maps


def say_join(words: List[str], files: Files) -> Meant:
    """`join`."""
    (one, batch), (other, other_batch) = two_maps(words, files)
    made = joins.honest_join(one, batch, other, other_batch)
    return Meant((0, line("proof %d" % len(made))), made)


def say_check_join(words: List[str], files: Files) -> Meant:
    """`check-join`."""
    return Meant(joins.said(bytes.fromhex(words[1]), bytes.fromhex(words[2]), file_of(files, words[3])))


def say_audit_join(words: List[str], files: Files) -> Meant:
    """`audit-join`."""
    maps = two_maps(words, files)
    return Meant(joins.audited(maps, file_of(files, words[3]), collision))


def say_serve(words: List[str], files: Files) -> Meant:
    """`serve`."""
    bytes_ = file_of(files, words[1])
    (tree, batch), version = read_map(bytes_), version_of(bytes_)
    queries = read_script(file_of(files, words[2]))
    has_proof(bytes_, queries)
    proofs = [honest(tree, batch, query, version) for query in queries]
    made = b"".join(len(proof).to_bytes(4, "big") + proof for proof in proofs)
    return Meant((0, line("served %d %d" % (len(queries), len(made)))), made)


def say_client(words: List[str], files: Files) -> Meant:
    """`check` and `check-all`, by the client, which reads the files itself."""
    status, text = mrtree_check.run(words)
    return Meant((status, text.encode()))


COMMANDS = {
    "root": say_root,
    "root2": say_root,
    "build": say_root,
    "build2": say_root,
    "upgrade": say_upgrade,
    "list": say_list,
    "apply": say_apply,
    "prove": say_prove,
    "audit": say_audit,
    "serve": say_serve,
    "check": say_client,
    "check-all": say_client,
    "count": say_count,
    "check-count": say_check_count,
    "audit-count": say_audit_count,
    "join": say_join,
    "check-join": say_check_join,
    "audit-join": say_audit_join,
    "apply-here": say_apply_here,
    "recover": say_recover,
}


def say(words: List[str], files: Files) -> Meant:
    """What comes of a command line over these files, which stand in the folder too."""
    try:
        return COMMANDS[words[0]](words, files)
    except Told as told:
        return Meant(told.ended)
