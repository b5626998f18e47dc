"""Map files that break one rule, made of files without a fault: rectangles and digests above a node are taken anew."""
import hashlib
import random
import struct
from typing import Dict, List, NamedTuple, Optional, Tuple

import bends
from bench import Bench, read, write
from proofs import plain
from said import MOST_RECORDS, PAGES, version_of

RULES = ["Size", "Unsealed", "Header", "Outside", "Twice", "Page", "Digest", "Rect", "Fill", "Number", "Count", "Free"]
LEVELS = (0, 1, 2)
# A map of a single leaf names no page but its root's, and that leaf may have a single record.
NEVER = {("Twice", 0), ("Fill", 0)}
ALL = [(rule, level) for level in LEVELS for rule in RULES if (rule, level) not in NEVER]
SECOND = [*ALL, *(("Sum", level) for level in LEVELS)]  # of maps of version 2


class Spot(NamedTuple):
    """A node of a map file: its page, its level, and where it is named: by which node, if by any, and at which byte."""

    page: int
    level: int
    above: Optional["Spot"]
    at: int  # of the page number; the rectangle is 4 bytes behind it, and a mask 20, on page 0 too


class Pages:
    """A map file without a fault, page by page."""

    def __init__(self, bytes_: bytes, chance: random.Random) -> None:
        self.version, self.chance = version_of(bytes_), chance
        self.size_, self.link = PAGES[self.version], bends.LINKS[self.version]
        self.pages = [bytearray(bytes_[at : at + self.size_]) for at in range(0, len(bytes_), self.size_)]
        self.spots: List[Spot] = []  # a node before its children
        self.first_free = 78 if self.version == 1 else 86
        self.find(None, 26, self.pages[0][5])
        chain, page = [], self.number(0, self.first_free)
        while page:
            chain.append(page)
            page = self.number(page, 1)
        self.free = chain

    def number(self, page: int, at: int) -> int:
        """A page number that stands there."""
        return int.from_bytes(self.pages[page][at : at + 4], "big")

    def put(self, page: int, at: int, number: int, size: int = 4) -> None:
        """Writes a number there."""
        self.pages[page][at : at + size] = number.to_bytes(size, "big")

    def find(self, above: Optional[Spot], at: int, level: int) -> None:
        """Finds a node and those below it."""
        spot = Spot(self.number(above.page if above else 0, at), level, above, at)
        self.spots.append(spot)
        for start, _ in self.parts(spot) if level else []:
            self.find(spot, start, level - 1)

    def parts(self, spot: Spot) -> List[Tuple[int, int]]:
        """Where the records or the entries of a node begin and end."""
        page, at, found = self.pages[spot.page], 3 if spot.level else 2, []
        for _ in range(page[2 if spot.level else 1]):
            plain_ = 24 + self.version  # bytes of a record without a payload
            size = self.link if spot.level else plain_ + page[at + plain_ - 1]
            found.append((at, at + size))
            at += size
        return found

    def named(self, spot: Spot) -> bytearray:
        """The page that names a node."""
        return self.pages[spot.above.page if spot.above else 0]

    def digest_at(self, spot: Spot) -> int:
        """Where the digest of a node stands on the page that names it."""
        return spot.at + (20 if self.version == 1 else 36 if spot.above else 28)

    def renew(self, spot: Optional[Spot]) -> None:
        """Takes what is said of a node anew, and of all above it."""
        while spot:
            page, bounds, skip = self.pages[spot.page], self.parts(spot), 4 if spot.level else 0
            preimage = bytes(page[: 3 if spot.level else 2]) + b"".join(page[at + skip : end] for at, end in bounds)
            rects = [struct.unpack_from(">4i", page, at + (4 if spot.level else 8)) for at, _ in bounds]
            named, at = self.named(spot), self.digest_at(spot)
            struct.pack_into(">4i", named, spot.at + 4, *plain.union(rects))
            if self.version == 2:
                named[spot.at + 20 : at] = struct.pack(">QQ", *self.sums(spot))[: at - spot.at - 20]
            named[at : at + 32] = hashlib.sha256(preimage).digest()
            spot = spot.above

    def sums(self, spot: Spot) -> Tuple[int, int]:
        """The mask and the count of a node, by its page."""
        page, mask, count = self.pages[spot.page], 0, 0
        for at, _ in self.parts(spot):
            one = struct.unpack_from(">QQ", page, at + 20) if spot.level else (1 << page[at + 24] % 64, 1)
            mask, count = mask | one[0], count + one[1]
        return mask, count

    def keep(self, spot: Spot, count: int) -> None:
        """Leaves a node so many of its records or entries."""
        end = self.parts(spot)[count - 1][1]
        self.pages[spot.page][end:] = bytes(self.size_ - end)
        self.pages[spot.page][2 if spot.level else 1] = count
        self.renew(spot)

    def some(self) -> Spot:
        """A node."""
        return self.chance.choice(self.spots)

    # ---- the rules

    def size(self) -> bytes:
        """Bytes are missing at the end, or too many, or none is there."""
        whole, some = b"".join(self.pages), self.chance.randrange(1, self.size_)
        return self.chance.choice((b"", whole[:some], whole[:-some], whole + bytes(some)))

    def unsealed(self) -> None:
        """The seal is another."""
        self.pages[0][self.chance.randrange(self.size_ - 4, self.size_)] ^= 1 << self.chance.randrange(8)

    def header(self) -> None:
        """A field of page 0 is none that may stand there."""
        pages, behind, last = len(self.pages), self.first_free + 4, self.size_ - 5
        gap = self.chance.randint(behind, last), 1, self.chance.randint(1, 255)
        wrong = [(0, 4, 0x4D524D51), (5, 1, 8), (5, 1, 255), (14, 8, MOST_RECORDS + 1), (14, 8, 0)]
        wrong += [(22, 4, pages - 1), (22, 4, pages + 1), (22, 4, 0), (26, 4, 0), gap, (behind, 1, 1), (last, 1, 1)]
        wrong += [(30, 16, 1 << 96), (30, 16, 1 << 64)]  # x0 is 1 and x1 is 0, or y0 and y1
        # another version; a file of version 2 with one is read as of version 1, and one of 1 with a 2 as of 2
        wrong += [(4, 1, 0), (4, 1, 3)] if self.version == 1 else [(46, 8, 0)] * 2
        at, size, value = self.chance.choice(wrong)
        self.put(0, at, value, size)

    def outside(self) -> None:
        """A node is named that is behind the end, or page 0."""
        spot, pages = self.some(), len(self.pages)
        far = self.chance.choice((pages, pages + 1, 2**20, 2**32 - 1, 0 if spot.above else pages))
        self.put(spot.above.page if spot.above else 0, spot.at, far)

    def twice(self) -> None:
        """A node is named in the place of another one behind it."""
        place = self.chance.randrange(1, len(self.spots))
        spot = self.spots[place]
        ways = [self.chance.choice(self.spots[:place]), self.spots[place - 1], spot.above]
        self.put(spot.above.page, spot.at, self.chance.choice(ways).page)

    def page(self) -> None:
        """A page is none of its kind, or a free one is named."""
        spot = self.some()
        page, bounds, way = self.pages[spot.page], self.parts(spot), self.chance.randrange(3 + 2 * self.version)
        if way > 4:
            self.untold(spot, self.chance.choice(bounds)[0])
        elif way == 0:
            page[0] = self.chance.choice([other for other in b"\0FLNlP" if other != page[0]])
        elif way == 1:
            page[2 if spot.level else 1] = self.chance.choice((0, 65, 255))
        elif way == 2:
            page[self.chance.choice((bounds[-1][1], self.size_ - 1))] = self.chance.randint(1, 255)
        elif way == 3:  # x0 above x1
            at = self.chance.choice(bounds)[0] + (4 if spot.level else 8)
            struct.pack_into(">i", page, at, 2**31 - 1)
            struct.pack_into(">i", page, at + 8, 2**31 - 2)
        else:
            self.put(spot.above.page if spot.above else 0, spot.at, self.chance.choice(self.free))

    def untold(self, spot: Spot, at: int) -> None:
        """The part there has a layer that is none; or a mask or a count that no node has."""
        if spot.level == 0:
            self.pages[spot.page][at + 24] = self.chance.choice((64, 65, 128, 255))
        else:
            field, value = self.chance.choice(((20, 0), (28, 0), (28, MOST_RECORDS + 1), (28, 2**64 - 1)))
            self.put(spot.page, at + field, value, 8)
        self.renew_above(spot)

    def renew_above(self, spot: Spot) -> None:
        """Takes the digest of a node anew, and all that is said above it."""
        page, bounds, skip = self.pages[spot.page], self.parts(spot), 4 if spot.level else 0
        preimage = bytes(page[: 3 if spot.level else 2]) + b"".join(page[at + skip : end] for at, end in bounds)
        at = self.digest_at(spot)
        self.named(spot)[at : at + 32] = hashlib.sha256(preimage).digest()
        self.renew(spot.above)

    def sum(self) -> None:
        """A node is named with another mask or another count."""
        spot = self.some()
        named, (mask, count) = self.named(spot), self.sums(spot)
        if spot.above and self.chance.random() < 0.5:
            most = MOST_RECORDS - self.sums(self.spots[0])[1] + count  # all above it count 2^20 at most
            others = [1, count - 1, count + 1, 2 * count, most]
            self.put(spot.above.page, spot.at + 28, self.chance.choice([n for n in others if 0 < n != count]), 8)
        else:
            others = [1, mask ^ 1 << self.chance.randrange(64), mask << 1 & 2**64 - 1, mask & mask - 1, 2**64 - 1]
            other = self.chance.choice([n for n in others if 0 < n != mask])
            named[spot.at + 20 : spot.at + 28] = other.to_bytes(8, "big")
        self.renew(spot.above)

    def digest(self) -> None:
        """A record, or what a node says of a child, is another than the digest says; or the digest is."""
        spot = self.some()
        if self.chance.random() < 0.3:
            self.named(spot)[self.digest_at(spot) + self.chance.randrange(32)] ^= 1
            self.renew(spot.above)
            return
        at = self.chance.choice(self.parts(spot))[0] + (self.link - 32 if spot.level else 0)
        self.pages[spot.page][at + self.chance.randrange(8)] ^= 1 << self.chance.randrange(8)

    def rect(self) -> None:
        """A node is named with another rectangle."""
        spot = self.some()
        named = self.named(spot)
        x0, y0, x1, y1 = struct.unpack_from(">4i", named, spot.at + 4)
        low, high = -(2**31), 2**31 - 1
        ways = [(low, y0, x1, y1), (x0, low, x1, y1), (x0, y0, high, y1), (x0, y0, x1, high), (x1, y0, x1, y1)]
        ways += [(x0, y1, x1, y1), (x0, y0, min(x1 + 1, high), y1), (x0, max(y0 - 1, low), x1, y1)]
        other = self.chance.choice([one for one in ways if one != (x0, y0, x1, y1)])
        struct.pack_into(">4i", named, spot.at + 4, *other)
        self.renew(spot.above)

    def fill(self) -> None:
        """A node has too few parts."""
        spot = self.some() if self.chance.random() < 0.7 else self.chance.choice([s for s in self.spots if s.level])
        least = (24 if spot.above else 2) if spot.level else 6
        self.keep(spot, self.chance.choice((1, least - 1, self.chance.randrange(1, least))))

    def again(self) -> None:
        """A record has the number of one that stands before it."""
        leaves = [spot for spot in self.spots if spot.level == 0]
        number = lambda spot, at: bytes(self.pages[spot.page][at : at + 8])
        met = [(spot, at) for spot in leaves for at, _ in self.parts(spot)]
        place = self.chance.randrange(1, len(met))
        spot, at = met[place]
        self.pages[spot.page][at : at + 8] = number(*self.chance.choice((met[place - 1], met[0], met[place // 2])))
        self.renew(spot)

    def count(self) -> None:
        """Page 0 counts other records than there are."""
        held = int.from_bytes(self.pages[0][14:22], "big")
        leaf = self.chance.choice([spot for spot in self.spots if spot.level == 0])
        has = len(self.parts(leaf))
        if has > 6 and self.chance.random() < 0.5:
            self.keep(leaf, has - 1)
        else:
            others = [one for one in (1, held - 1, held + 1, 2**20) if 0 < one != held]
            self.put(0, 14, self.chance.choice(others), 8)

    def chain(self) -> None:
        """The chain of free pages leads elsewhere, ends early or comes to none."""
        ends = [(0, self.first_free), *((page, 1) for page in self.free)]
        place = self.chance.randrange(len(ends) - 1)
        way, page = self.chance.randrange(4), self.free[place]
        elsewhere = [len(self.pages), 2**32 - 1, self.some().page, 0]
        if way == 0:
            self.put(*ends[place], self.chance.choice(elsewhere))
        elif way == 1:  # back to one before
            self.put(page, 1, self.chance.choice(self.free[: place + 1]))
        elif way == 2:
            self.pages[page][0] = self.chance.choice(b"\0LNf")
        else:
            self.pages[page][self.chance.choice((5, self.size_ - 1))] = self.chance.randint(1, 255)


BREAKS = {**{rule: rule.lower() for rule in (*RULES, "Sum")}, "Number": "again", "Free": "chain"}


def broken(bytes_: bytes, rule: str, chance: random.Random) -> bytes:
    """A file of which this rule is told: made of one with records and free pages that is without a fault."""
    pages = Pages(bytes_, chance)
    cut = getattr(pages, BREAKS[rule])()
    return b"".join(pages.pages) if cut is None else cut


# ---- files without a fault


def laid_out(level: int, version: int, chance: random.Random) -> bytes:
    """A map of this level with free pages, in a layout of its own."""
    count = chance.randint(*((2, 16), (17, 400), (1025, 1200))[level])
    records = [bends.record(chance, number, version) for number in chance.sample(range(4 * count), count)]
    layout = bends.Layout(chance, version)
    return layout.file(plain.pack(records), chance.choice((0, 7)), chance.choice((1, 5)))


def some_left(bench: Bench, level: int, version: int, seed: int) -> bytes:
    """A map as `apply` leaves it: the records that lie to one side are removed."""
    count, gone = ((40, 31), (300, 60), (1300, 130))[level]
    records = plain.on_layers(plain.generated(count, seed))
    aside = sorted(records, key=lambda record: record[1])[:gone]
    write("r", "".join(plain.line_of(record, version) + "\n" for record in records).encode())
    write("b", b"batch 1\n" + b"".join(b"- %d\n" % record[0] for record in aside))
    for words in ("build2 m r" if version == 2 else "build m r", "apply m b n"):
        status, text = bench.program(words.split(" "))
        bench.holds(status == 0, "%s ends with %d: %s" % (words, status, text[:200]))
    return read("n")


def left_by_apply(bench: Bench, level: int, version: int, seed: int) -> bytes:
    """Such a map of this level with free pages, of the first seed from this one on that gives one."""
    free = 78 if version == 1 else 86
    for more in range(20):
        made = some_left(bench, level, version, (seed + more) % 2**64)
        is_so = made[4:6] == bytes([version, level]) and any(made[free : free + 4])
        if is_so:
            break
    bench.holds(is_so, "`apply` leaves no map of level %d with free pages" % level)
    return made


def all_left(bench: Bench, seed: int) -> Dict[Tuple[int, int], bytes]:
    """One of each version and level."""
    each = [(version, level) for version in (1, 2) for level in LEVELS]
    return {(version, level): left_by_apply(bench, level, version, seed % 2**64) for version, level in each}
