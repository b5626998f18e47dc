"""Texts, batches, scripts, maps and bundles at random: honest, bent at one place or several, or of random bytes."""
import hashlib
import random
import struct
from typing import Any, Callable, List, NamedTuple, Optional, Tuple

from chances import bent_bundle
from proofs import plain, word_of
from said import PAGES, version_of

EDGES = [-(2**63), -(2**31) - 1, -(2**31), -1, 0, 1, 63, 64, 2**31 - 1, 2**31, 2**63, 2**64 - 1, 2**64, 10**40]
TOKENS = [
    *(b"", b" ", b"\t", b"\r", b"\n", b"\0", b"-", b"+", b"- ", b"+ ", b",", b"-0", b"+5", b"05", b"0x1", b"1e3"),
    *(b"\xef\xbb\xbf", b"\xff", b"\xc2\xa0", b"ab", b"AB", b"abc", b"zz", b"0" * 400, b"6" * 401),
    *(b"batch 1", b"window:0,0,1,1", b"nearest:0,0,1025"),
    *(b"/", b"/0000000000000020", b"/000000000000002", b"/F" + b"0" * 15),
]
# Where the fields of page 0 begin, and their sizes, by the version; the last two are zeros and the seal.
FRONT = [(0, 4), (4, 1), (5, 1), (6, 8), (14, 8), (22, 4), (26, 4), (30, 16)]
HEADS = {
    1: [*FRONT, (46, 32), (78, 4), (82, 4010), (4092, 4)],
    2: [*FRONT, (46, 8), (54, 32), (86, 4), (90, 8098), (8188, 4)],
}
LINKS = {1: 52, 2: 68}  # the bytes that a page has of a child


def some_bytes(chance: random.Random, most: int) -> bytes:
    """Random bytes, of which some are all alike."""
    size = chance.choice((0, 1, 3, 30, most))
    if chance.random() < 0.3:
        return bytes([chance.choice((0, 10, 32, 48, 70, 76, 78, 255))]) * size
    return bytes(chance.randrange(256) for _ in range(size))


# ---- records, changes and queries


def place(chance: random.Random) -> int:
    """A coordinate: near zero, far, or at an end."""
    span = chance.choice((3, 40, 1000, 2**31 - 1))
    value = chance.randint(-span, span)
    return -(2**31) if chance.random() < 0.01 else value


def rect(chance: random.Random) -> Tuple[int, ...]:
    """A rectangle, most of them points."""
    x, y, wide, high = place(chance), place(chance), chance.choice((0, 0, 0, 7)), chance.choice((0, 0, 0, 7))
    return x, y, min(x + wide, 2**31 - 1), min(y + high, 2**31 - 1)


def record(chance: random.Random, number: int, version: int = 1) -> plain.Record:
    """A record of this number."""
    size = chance.choice((0, 0, 0, 0, 1, 8, 200))
    payload = bytes(chance.randrange(256) for _ in range(size))
    layer = 0 if version == 1 else chance.choice((0, 0, 5, 5, 63, chance.randrange(64)))
    return plain.Record(number, rect(chance), payload, layer)


def records(chance: random.Random, most: int, version: int = 1) -> List[plain.Record]:
    """Up to so many records in any order."""
    count = chance.choice((0, 1, 2, 15, 16, 17, 40, most))
    numbers = chance.sample(range(4 * count + 4), min(count, most))
    if numbers and chance.random() < 0.2:
        numbers[0] = 2**64 - 1
    return [record(chance, number, version) for number in numbers]


def mask(chance: random.Random) -> int:
    """Some layers, none or all."""
    one = 1 << chance.choice((0, 5, 63, chance.randrange(64)))
    return chance.choice((0, one, one | 32, (2**64 - 1) ^ one, 2**64 - 1, chance.randrange(2**64)))


def query(chance: random.Random, version: int = 1) -> plain.Query:
    """A window or the nearest records; in version 2 about half of them name a mask, and in version 1 none does."""
    named = mask(chance) if version == 2 and chance.random() < 0.5 else None
    if chance.random() < 0.5:
        k = chance.choice((1, 2, 10, 1024, chance.randint(1, 1024)))
        return plain.Query(((place(chance), place(chance)), k), named)
    x, y = place(chance), place(chance)
    wide = chance.choice((0, 5, 1000, 2**30))
    return plain.Query((x, y, min(x + wide, 2**31 - 1), min(y + wide, 2**31 - 1)), named)


def record_text(given: List[plain.Record], version: int = 1) -> bytes:
    """The text of records."""
    return "".join(plain.line_of(one, version) + "\n" for one in given).encode()


def batch_text(chance: random.Random, given: List[Tuple], held: int, version: int = 1) -> bytes:
    """A batch on a map of these records that can be applied, or nearly so."""
    there, lines = [one[0] for one in given], ["batch %d" % (held + chance.choice((1, 1, 1, 1, 1, 1, 1, 0, 2)))]
    for _ in range(chance.choice((0, 1, 5, 40))):
        if there and chance.random() < 0.5:
            number = there.pop(chance.randrange(len(there)))
            lines.append("- %d" % number)
        else:
            number = chance.randrange(10**6, 10**7)
            there.append(number)
            lines.append("+ " + plain.line_of(record(chance, number, version), version))
    if len(lines) > 1 and chance.random() < 0.2:
        lines.append(chance.choice(lines[1:]))
    return "".join(one + "\n" for one in lines).encode()


def script_text(chance: random.Random, version: int = 1) -> bytes:
    """A script of a few queries for maps of a version, or of them and for others."""
    version = 2 if chance.random() < 0.2 else version
    return "".join(word_of(query(chance, version)) + "\n" for _ in range(chance.choice((0, 1, 2, 8)))).encode()


# ---- bent texts


def edge(chance: random.Random) -> bytes:
    """A number at an end of a range, or a piece of text that does not belong there."""
    return b"%d" % chance.choice(EDGES) if chance.random() < 0.5 else chance.choice(TOKENS)


def bent_line(line: bytes, chance: random.Random) -> bytes:
    """A line with a field exchanged, taken out, put in or doubled."""
    sign = chance.choice((b" ", b" ", b","))
    fields, way = line.split(sign), chance.randrange(4)
    at = chance.randrange(len(fields))
    if way == 0:
        fields[at] = edge(chance)
    elif way == 1:
        del fields[at]
    elif way == 2:
        fields.insert(at, edge(chance))
    else:
        fields[at] = fields[chance.randrange(len(fields))]
    return sign.join(fields)


def bent_bytes(bytes_: bytes, chance: random.Random) -> bytes:
    """The bytes with a few of them changed, left out or put in, or cut off."""
    if not bytes_:
        return some_bytes(chance, 300)
    at, way = chance.randrange(len(bytes_)), chance.randrange(4)
    if way == 0:
        return bytes_[:at] + bytes([bytes_[at] ^ 1 << chance.randrange(8)]) + bytes_[at + 1 :]
    if way == 1:
        return bytes_[:at] + bytes_[at + chance.choice((1, 2, 50)) :]
    if way == 2:
        return bytes_[:at] + chance.choice((edge(chance), some_bytes(chance, 9))) + bytes_[at:]
    return bytes_[:at]


def bent_text(text: bytes, chance: random.Random) -> bytes:
    """A text that is bent once or twice."""
    for _ in range(chance.choice((1, 1, 2))):
        lines, way = text.split(b"\n"), chance.randrange(8)
        at = chance.randrange(len(lines))
        if way < 3:
            lines[at] = bent_line(lines[at], chance)
        elif way == 3:
            lines.insert(at, chance.choice(lines))
        elif way == 4:
            del lines[at]
        elif way == 5:
            chance.shuffle(lines)
        else:
            text = bent_bytes(text, chance)
            continue
        text = b"\n".join(lines)
    return text


# ---- maps


class Laid(NamedTuple):
    """A node that was put: its page, what is to be said of it, and how many records are below it."""

    page: int
    rect: Tuple[int, ...]
    digest: bytes
    count: int
    mask: int

    def entry(self, version: int) -> bytes:
        """What its parent says of it."""
        told = struct.pack(">QQ", self.mask, self.count) if version == 2 else b""
        return struct.pack(">4i", *self.rect) + told + self.digest


class Layout:
    """Writes a map file with its nodes on pages in any order and with free pages, as a bender of nodes likes it.

    `bend` may change the parts of a node before its digest is taken: all above it then agrees with what it became.
    """

    def __init__(self, chance: random.Random, version: int = 1, bend: Optional[Callable] = None) -> None:
        self.chance, self.version, self.bend, self.pages = chance, version, bend, []

    def node(self, node: Any) -> Laid:
        """Puts a node."""
        version, mask = self.version, 0
        parts = list(node.entries) if node.is_leaf else [self.node(child) for child in node.entries]
        parts = self.bend(node, parts) if self.bend else parts
        if node.is_leaf:
            body = b"L" + bytes([len(parts) % 256]) + b"".join(plain.record_bytes(part, version) for part in parts)
            preimage, count = body, len(parts)
        else:
            front = b"N" + bytes([node.level(), len(parts) % 256])
            body = front + b"".join(struct.pack(">I", part.page) + part.entry(version) for part in parts)
            preimage, count = front + b"".join(part.entry(version) for part in parts), sum(part.count for part in parts)
        for part in parts:
            mask |= 1 << part.layer % 64 if node.is_leaf else part.mask
        self.pages.append(body[: PAGES[version]].ljust(PAGES[version], b"\0"))
        rect_ = plain.union([part.rect for part in parts]) if parts else (0, 0, 0, 0)
        return Laid(len(self.pages), rect_, hashlib.sha256(preimage).digest(), count, mask)

    def file(self, tree: Any, batch: int, free: int) -> bytes:
        """The map file, with so many free pages."""
        root, size = self.node(tree) if tree else Laid(0, (0, 0, 0, 0), bytes(32), 0, 0), PAGES[self.version]
        total = len(self.pages) + free
        order = self.chance.sample(range(1, total + 1), total)  # the page of each place
        places = {place_ + 1: page for place_, page in enumerate(order)}
        places[0] = 0
        file = [b""] * (total + 1)
        for place_, page in enumerate(self.pages, 1):
            file[places[place_]] = self.moved(page, places)
        chain = order[len(self.pages) :]
        for page, behind in zip(chain, [*chain[1:], 0]):
            file[page] = (b"F" + struct.pack(">I", behind)).ljust(size, b"\0")
        head = b"MRMP" + bytes([self.version, tree.level() if tree else 0])
        head += struct.pack(">QQII", batch, root.count, total + 1, places.get(root.page, 0))
        mask = struct.pack(">Q", root.mask) if self.version == 2 else b""
        head += struct.pack(">4i", *root.rect) + mask + root.digest + struct.pack(">I", chain[0] if chain else 0)
        file[0] = head.ljust(size - 4, b"\0") + b"SEAL"
        return b"".join(file)

    def moved(self, page: bytes, places: dict) -> bytes:
        """A page that names its children where they went."""
        if page[:1] != b"N":
            return page
        bytes_, link = bytearray(page), LINKS[self.version]
        for at in range(3, 3 + link * page[2], link):
            bytes_[at : at + 4] = struct.pack(">I", places.get(int.from_bytes(page[at : at + 4], "big"), 1))
        return bytes(bytes_)


def bender(chance: random.Random, version: int) -> Callable:
    """What bends the parts of one node of a tree, or of a few."""
    way, often = chance.randrange(7 if version == 1 else 10), chance.choice((0.02, 0.2, 1))

    def bend(node: Any, parts: List[Any]) -> List[Any]:
        if chance.random() > often or not parts:
            return parts
        at = chance.randrange(len(parts))
        if way == 0:  # too few
            return parts[: chance.randint(1, len(parts))]
        if way == 1:  # one twice
            return [*parts, parts[at]]
        if way == 2 and node.is_leaf:  # a number again, a record in the place of another
            parts[at] = parts[at]._replace(number=parts[0].number)
        elif way == 3 and not node.is_leaf:  # a rectangle that is another
            around = parts[at].rect
            parts[at] = parts[at]._replace(rect=(around[0] - 1 if around[0] > -(2**31) else 0, *around[1:]))
        elif way == 4 and not node.is_leaf:  # a digest of another
            parts[at] = parts[at]._replace(digest=parts[0].digest)
        elif way == 5 and not node.is_leaf:  # a page of another
            parts[at] = parts[at]._replace(page=parts[0].page)
        elif way == 6 and node.is_leaf:  # sides out of order, with all above it in order
            x0, y0, x1, y1 = parts[at].rect
            parts[at] = parts[at]._replace(rect=(x1, y0, x0, y1))
        elif way == 7 and not node.is_leaf:  # a mask that is another
            mask = parts[at].mask
            parts[at] = parts[at]._replace(mask=chance.choice((0, 2**64 - 1, mask ^ 1 << chance.randrange(64), 1)))
        elif way == 8 and not node.is_leaf:  # a count that is another
            count = parts[at].count
            parts[at] = parts[at]._replace(count=chance.choice((0, 1, max(0, count - 1), count + 1, 2**20, 2**20 + 1)))
        elif way == 9 and node.is_leaf:  # a layer that is none
            parts[at] = parts[at]._replace(layer=chance.choice((64, 255)))
        return parts

    return bend


def bent_pages(bytes_: bytes, chance: random.Random) -> bytes:
    """A map file, of which the last page may be cut, with a field of page 0, an entry, a page or their order bent."""
    version = version_of(bytes_)
    page = PAGES[version]
    pages = [bytes_[at : at + page] for at in range(0, len(bytes_), page)]
    way, at = chance.randrange(9), chance.randrange(len(pages))
    other = bytearray(pages[at])
    if way < 2:
        start, size = chance.choice(HEADS[version])
        head = bytearray(pages[0])
        value = chance.choice((0, 1, 2, len(pages), len(pages) - 1, 256**size - 1, chance.randrange(256**min(size, 4))))
        head[start : start + size] = (value % 256**size).to_bytes(size, "big")
        pages[0] = bytes(head)
    elif way == 2 and other[:1] == b"N" and len(other) > 2:
        start = 3 + LINKS[version] * chance.randrange(max(1, other[2]))
        size = chance.choice((4, 20, 36, LINKS[version]))
        other[start : start + size] = bytes(chance.randrange(3) for _ in range(size))
        pages[at] = bytes(other)
    elif way == 3:
        where = chance.choice((0, 1, 2, chance.randrange(60), chance.randrange(page), page - 1))
        other[where % len(other)] ^= 1 << chance.randrange(8)
        pages[at] = bytes(other)
    elif way == 4:
        pages[at] = pages[chance.randrange(len(pages))]
    elif way == 5:
        chance.shuffle(pages)
    elif way == 6:
        pages.insert(at, chance.choice((bytes(page), b"F".ljust(page, b"\0"), pages[at])))
        if chance.random() < 0.8:
            pages[0] = pages[0][:22] + struct.pack(">I", len(pages)) + pages[0][26:]
    elif way == 7:
        del pages[at]
    else:
        return bent_bytes(bytes_, chance)
    return b"".join(pages)


def map_file(chance: random.Random, given: List[plain.Record], version: int = 1) -> Tuple[bytes, int]:
    """A map file of these records, honest or not, in a layout of its own, and the batch that it is at."""
    tree, batch, way = plain.pack(given), chance.choice((0, 0, 1, 2**64 - 1, 2**64 - 2)), chance.random()
    layout = Layout(chance, version, bender(chance, version) if way < 0.3 else None)
    bytes_ = layout.file(tree, batch, chance.choice((0, 0, 1, 5)))
    for _ in range(chance.choice((1, 1, 2)) if way > 0.6 else 0):
        bytes_ = bent_pages(bytes_, chance) if bytes_ else some_bytes(chance, 2 * PAGES[version])
    return bytes_, batch


# ---- bundles


def bundle(chance: random.Random, proofs_: List[bytes]) -> bytes:
    """A bundle of these proofs, honest or bent, or any bytes."""
    if not proofs_ or chance.random() < 0.1:
        return some_bytes(chance, 300)
    bytes_ = bent_bundle(proofs_, chance)
    return bent_bytes(bytes_, chance) if chance.random() < 0.2 else bytes_
