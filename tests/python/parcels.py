"""Generated parcels, as a country has them: most of them in towns, some anywhere; as records, as features, and batches.

Coordinates are in units of 1e-7 degree. Parcel N is the same each time, whatever is generated before it.
"""
import bisect
import functools
import itertools
import random
from typing import IO, Callable, Iterable, List, NamedTuple, Tuple

TOWNS = 2000
WEST, SOUTH, EAST, NORTH = 58_000_000, 472_000_000, 150_000_000, 550_000_000
DEGREE = 10**7
FEATURE = '{"type":"Feature","id":%d,"properties":{"use":"%s"},"geometry":{"type":"Polygon","coordinates":[['
FEATURE += ",".join(["[%s,%s]"] * 9) + "]]}}\n"  # with eight corners, and the first one again


class Parcel(NamedTuple):
    """A parcel: its number, its rectangle, a number drawn for it."""

    number: int
    rect: Tuple[int, int, int, int]
    drawn: int

    def line(self, version: int = 1) -> str:
        """Its record line, with a payload of 8 bytes."""
        layer = "%d " % (self.drawn % 5) if version == 2 else ""
        return "%d %d %d %d %d %s%016x\n" % (self.number, *self.rect, layer, self.drawn)

    def feature(self) -> str:
        """It as a feature: a shape of eight corners in its rectangle, which touches all sides."""
        corners = [in_degrees(side) for point in self.ring() for side in point]
        return FEATURE % (self.number, "abcde"[self.drawn % 5], *corners)

    def ring(self) -> List[Tuple[int, int]]:
        """The corners of its shape, and the first one again."""
        x0, y0, x1, y1 = self.rect
        a, b = 1 + self.drawn % 97, 1 + self.drawn % 89
        ring = [(x0, y0 + b), (x0 + a, y0), (x1 - b, y0), (x1, y0 + a), (x1, y1 - b), (x1 - a, y1), (x0 + b, y1)]
        return [*ring, (x0, y1 - a), ring[0]]


def in_degrees(units: int) -> str:
    """A coordinate above 0 in degrees, as canonical JSON has it.

    >>> in_degrees(58_000_000), in_degrees(472_000_010)
    ('5.8', '47.200001')
    """
    return ("%d.%07d" % divmod(units, DEGREE)).rstrip("0").rstrip(".")


class Country(NamedTuple):
    """Towns by place and weight, offsets from their middles, and which town each of 4,096 picks gives."""

    towns: List[Tuple[int, int, float]]
    offsets: List[Tuple[float, float, float]]
    picks: List[int]


@functools.lru_cache(None)
def country() -> Country:
    """The country, which is always the same."""
    chance = random.Random(7)
    towns = [(chance.randrange(WEST, EAST), chance.randrange(SOUTH, NORTH), 1 / (at + 3)) for at in range(TOWNS)]
    offsets = [(chance.gauss(0, 1), chance.gauss(0, 1), chance.random() ** 0.5) for _ in range(2**12)]
    weights = list(itertools.accumulate(town[2] for town in towns))
    picks = [bisect.bisect(weights, (at + 0.5) / 2**12 * weights[-1]) for at in range(2**12)]
    return Country(towns, offsets, picks)


def parcel(number: int) -> Parcel:
    """The parcel of a number."""
    towns, offsets, picks = country()
    drawn = random_bits(number)
    width, height = 300 + (drawn >> 50 & 0x7FF), 300 + (drawn >> 39 & 0x7FF)
    if drawn & 7 == 0:  # an eighth: anywhere in the country
        x = WEST + (drawn >> 8 & 0xFFFFFF) * (EAST - WEST) // 2**24
        y = SOUTH + (drawn >> 32 & 0xFFFFFF) * (NORTH - SOUTH) // 2**24
    else:
        town_x, town_y, weight = towns[picks[drawn >> 3 & 0xFFF]]
        east, north, near = offsets[drawn >> 15 & 0xFFF]
        size = (1 + 12 * weight**0.5) * near
        x = int(town_x + 150_000 * east * size) + (drawn >> 27 & 0x1FFF)
        y = int(town_y + 100_000 * north * size) + (drawn >> 40 & 0x1FFF)
    return Parcel(number, (x, y, x + width, y + height), drawn)


def random_bits(number: int) -> int:
    """64 bits that look drawn, by a number (splitmix64)."""
    mask = 2**64 - 1
    bits = (number * 0x9E3779B97F4A7C15) & mask
    bits = ((bits ^ bits >> 30) * 0xBF58476D1CE4E5B9) & mask
    bits = ((bits ^ bits >> 27) * 0x94D049BB133111EB) & mask
    return bits ^ bits >> 31


def write(file: IO[str], count: int, spelled: Callable[[Parcel], str]) -> None:
    """Writes so many parcels to a file, each as it is spelled."""
    for start in range(1, count + 1, 20000):
        file.write("".join(spelled(parcel(number)) for number in range(start, min(start + 20000, count + 1))))


def changes(count: int, batch: int, how_many: int, near: int = 0, version: int = 1) -> List[str]:
    """The lines of a batch for that many parcels: half of the changes take some away, and half bring new ones.

    They are scattered over the country, or at most so near to the middle of the largest town along each axis. No two
    batches of 1 to 16 take the same parcel.
    """
    chance, x, y = random.Random(batch), *country().towns[0][:2]
    numbers: Iterable[int] = range(batch % 16, count + 1, 16)
    if near:
        numbers = (one for one in numbers if one and is_near(parcel(one).rect, x, y, near))
    else:
        numbers = chance.sample(numbers[1:], min(how_many, len(numbers) - 1))
    taken = [parcel(number) for number in itertools.islice(numbers, how_many)]
    lines = ["batch %d\n" % batch, *("- %d\n" % one.number for one in taken[: how_many // 2])]
    for at, one in enumerate(taken[how_many // 2 :]):
        dx, dy = chance.randrange(-2000, 2000), chance.randrange(-2000, 2000)
        x0, y0, x1, y1 = one.rect
        new = Parcel(10**12 + batch * 10**7 + at, (x0 + dx, y0 + dy, x1 + dx, y1 + dy), one.drawn)
        lines.append("+ " + new.line(version))
    return lines


def is_near(rect: Tuple[int, int, int, int], x: int, y: int, near: int) -> bool:
    """Whether a rectangle begins so near to a point along each axis."""
    return max(abs(rect[0] - x), abs(rect[1] - y)) <= near
