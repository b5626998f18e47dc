#!/usr/bin/env python3
"""A plain, slow program for maps after batches and for generated workloads, written from docs/FORMATS.md alone.

usage: tests/plain.py RECORDS [BATCH ..]
       tests/plain.py 2 RECORDS [BATCH ..]
       tests/plain.py make N SEED
       tests/plain.py demo N SEED

Prints the root digest of the map of the record text in the file RECORDS, and then that after each batch in turn, or
the line on the first batch that may not be applied. Behind the word 2 text, batches and map are of version 2. It takes
texts to be without a fault. `make` prints the text that the program's command of that name writes to a file, `demo`
what the program's prints. With no words it prints the roots in the stories of crates/mr_rows, by their names, and those
of crates/mr_tests/src/plainly.rt. The gate does not run it; tests/clients takes its functions.
"""
import hashlib
import math
import struct
import sys
from typing import NamedTuple, Optional, Tuple


def digest(bytes_):
    return hashlib.sha256(bytes_).digest()


MOST_LAYER = 63
ALL_LAYERS = 2**64 - 1  # their mask

# ---- rectangles (x0, y0, x1, y1)


def union(rects):
    return (min(r[0] for r in rects), min(r[1] for r in rects), max(r[2] for r in rects), max(r[3] for r in rects))


def area(r):
    return (r[2] - r[0]) * (r[3] - r[1])


def growth(r, other):
    return area(union([r, other])) - area(r)


def waste(a, b):
    return area(union([a, b])) - area(a) - area(b)


def choose(rects, new):
    return min(range(len(rects)), key=lambda i: (growth(rects[i], new), area(rects[i]), i))


def split(rects, least):
    pairs = [(i, j) for i in range(len(rects)) for j in range(i + 1, len(rects))]
    i, j = min(pairs, key=lambda p: (-waste(rects[p[0]], rects[p[1]]), p))
    groups, rounds = [[i], [j]], [rects[i], rects[j]]
    left = [k for k in range(len(rects)) if k not in (i, j)]
    while left:
        needy = [g for g in groups if len(g) + len(left) == least]
        if needy:
            needy[0].extend(left)
            break
        k = min(left, key=lambda k: (-abs(growth(rounds[0], rects[k]) - growth(rounds[1], rects[k])), k))
        left.remove(k)
        g = min((0, 1), key=lambda g: (growth(rounds[g], rects[k]), area(rounds[g]), len(groups[g]), g))
        groups[g].append(k)
        rounds[g] = union([rounds[g], rects[k]])
    return sorted(groups[0]), sorted(groups[1])


# ---- trees: records in leaves; versions are 1 and 2


class Record(NamedTuple):
    """A record of a map; in one of version 1 its layer is 0."""

    number: int
    rect: Tuple[int, ...]
    payload: bytes
    layer: int = 0


class Node:
    def __init__(self, is_leaf, entries):
        self.is_leaf, self.entries = is_leaf, entries
        self.renew()

    def rects(self):
        return [e[1] if self.is_leaf else e.rect for e in self.entries]

    def renew(self):
        self.rect = union(self.rects()) if self.entries else None

    def records(self):
        return list(self.entries) if self.is_leaf else [r for e in self.entries for r in e.records()]

    def level(self):
        return 0 if self.is_leaf else 1 + self.entries[0].level()

    def mask(self):
        """The layers of the records below, each as its bit."""
        return sum(1 << layer for layer in {r.layer for r in self.records()})

    def preimage(self, version=1):
        if self.is_leaf:
            return b"L" + bytes([len(self.entries)]) + b"".join(record_bytes(r, version) for r in self.entries)
        return b"N" + bytes([self.level(), len(self.entries)]) + b"".join(entry(e, version) for e in self.entries)

    def digest(self, version=1):
        return digest(self.preimage(version))


def entry(child, version=1):
    """What a preimage says of a child; a page that says it has the child's page before it."""
    told = struct.pack(">QQ", child.mask(), len(child.records())) if version == 2 else b""
    return struct.pack(">4i", *child.rect) + told + child.digest(version)


def record_bytes(record, version=1):
    layer = bytes([record.layer]) if version == 2 else b""
    return struct.pack(">Q4i", record.number, *record.rect) + layer + bytes([len(record.payload)]) + record.payload


def root_entry(tree, version=1):
    """What the root's preimage, and page 0, say of the root node."""
    told = struct.pack(">Q", tree.mask()) if version == 2 else b""
    return struct.pack(">4i", *tree.rect) + told + tree.digest(version)


def root_preimage(tree, batch, version=1):
    if tree is None:
        return b"E" + bytes([version]) + struct.pack(">Q", batch)
    head = struct.pack(">QQ", batch, len(tree.records())) + bytes([tree.level()])
    return b"R" + bytes([version]) + head + root_entry(tree, version)


def root(tree, batch, version=1):
    return digest(root_preimage(tree, batch, version)).hex()


def grouped(entries, most):
    """Entries are (rectangle, number that decides ties, item)."""
    count = -(-len(entries) // most)
    slices = math.isqrt(count - 1) + 1
    first = lambda group: group * len(entries) // count
    by_x = sorted(entries, key=lambda e: (e[0][0] + e[0][2], e[1]))
    order = []
    for j in range(slices):
        piece = by_x[first(j * count // slices) : first((j + 1) * count // slices)]
        order += sorted(piece, key=lambda e: (e[0][1] + e[0][3], e[1]))
    return [[e[2] for e in order[first(g) : first(g + 1)]] for g in range(count)]


def pack(records):
    if not records:
        return None
    nodes = [Node(True, g) for g in grouped([(r[1], r[0], r) for r in records], 16)]
    while len(nodes) > 1:
        nodes = [Node(False, g) for g in grouped([(n.rect, i, n) for i, n in enumerate(nodes)], 64)]
    return nodes[0]


def settled(node):
    """The node, or the two that it is split into."""
    most, least = (16, 6) if node.is_leaf else (64, 24)
    node.renew()
    if len(node.entries) <= most:
        return [node]
    return [Node(node.is_leaf, [node.entries[k] for k in group]) for group in split(node.rects(), least)]


def put(node, record):
    if node.is_leaf:
        node.entries.append(record)
    else:
        at = choose(node.rects(), record[1])
        node.entries[at : at + 1] = put(node.entries[at], record)
    return settled(node)


def inserted(tree, record):
    if tree is None:
        return Node(True, [record])
    nodes = put(tree, record)
    return nodes[0] if len(nodes) == 1 else Node(False, nodes)


def take(node, number, aside):
    if node.is_leaf:
        node.entries = [r for r in node.entries if r[0] != number]
    else:
        at = next(i for i, e in enumerate(node.entries) if any(r[0] == number for r in e.records()))
        child = node.entries[at]
        take(child, number, aside)
        if len(child.entries) < (6 if child.is_leaf else 24):
            del node.entries[at]
            aside += child.records()
    node.renew()


def deleted(tree, number, aside=None):
    """The tree without the record; the records that are set aside are added to a list, if one is given."""
    aside = [] if aside is None else aside
    take(tree, number, aside)
    if tree.is_leaf and not tree.entries:
        tree = None
    while tree is not None and not tree.is_leaf and len(tree.entries) == 1:
        tree = tree.entries[0]
    for record in sorted(aside):
        tree = inserted(tree, record)
    return tree


# ---- batches: (number, changes), a change a record or a number


def fault(tree, held, batch):
    number, changes = batch
    if number != held + 1:
        return "bad batch OutOfOrder held %d given %d" % (held, number)
    there = {r[0] for r in tree.records()} if tree else set()
    for line, change in enumerate(changes, 2):
        if isinstance(change, tuple):
            if change[0] in there:
                return "bad batch line %d Present" % line
            if len(there) == 2**20:
                return "bad batch line %d Full" % line
            there.add(change[0])
        else:
            if change not in there:
                return "bad batch line %d Absent" % line
            there.remove(change)
    return None


def lines_of(records, batches, version=1):
    tree, held = pack(records), 0
    yield root(tree, held, version)
    for batch in batches:
        bad = fault(tree, held, batch)
        if bad:
            yield bad
            return
        for change in batch[1]:
            tree = inserted(tree, change) if isinstance(change, tuple) else deleted(tree, change)
        held = batch[0]
        yield root(tree, held, version)


# ---- texts


def record_of(fields):
    """The record of six fields, or of the seven of version 2, of which the last but one is the layer."""
    payload, layer = b"" if fields[-1] == "-" else bytes.fromhex(fields[-1]), fields[5:-1]
    return Record(int(fields[0]), tuple(int(f) for f in fields[1:5]), payload, int(layer[0]) if layer else 0)


def batch_of(text):
    lines = [line.split(" ") for line in text.splitlines()]
    return int(lines[0][1]), [record_of(f[1:]) if f[0] == "+" else int(f[1]) for f in lines[1:]]


def line_of(record, version=1):
    layer = [record.layer] if version == 2 else []
    return " ".join(map(str, [record.number, *record.rect, *layer, record.payload.hex() or "-"]))


# ---- workloads that are made up


def words(count, state):
    for _ in range(count):
        state = (state + 0x9E3779B97F4A7C15) % 2**64
        z = (state ^ state >> 30) * 0xBF58476D1CE4E5B9 % 2**64
        z = (z ^ z >> 27) * 0x94D049BB133111EB % 2**64
        yield z ^ z >> 31


def halves(word):
    return word >> 32, word % 2**32


def corner(word):
    return tuple(half % 2000000 - 1000000 for half in halves(word))


def generated(count, seed):
    for number, word in enumerate(words(count, seed), 1):
        (x, y), (a, b) = corner(word), halves(word)
        yield Record(number, (x, y, x + a % 64, y + b % 64), word.to_bytes(8, "big"))


def generated_queries(count, seed):
    """Queries that name no mask."""
    for j, (x, y) in enumerate(map(corner, words(count, seed))):
        yield Query((x, y, x + 20000, y + 20000) if j % 2 == 0 else ((x, y), 10))


# ---- queries, answers and the lengths of their proofs


class Query(NamedTuple):
    """A window, or a centre and how many of the nearest records are asked for: ((x, y), k). A mask, if it names one."""

    shape: Tuple
    mask: Optional[int] = None

    def is_window(self):
        return len(self.shape) == 4

    def layers(self):
        """The mask of the layers that it asks for."""
        return ALL_LAYERS if self.mask is None else self.mask


def overlap(a, b):
    return a[0] <= b[2] and b[0] <= a[2] and a[1] <= b[3] and b[1] <= a[3]


def distance(centre, r):
    """The square of how far the rectangle is."""
    return sum(max(r[i] - centre[i], centre[i] - r[i + 2], 0) ** 2 for i in (0, 1))


def meets_of(query, radius):
    """Which rectangles the region meets: the window's, the circle's of a squared radius, or without one all."""
    if query.is_window():
        return lambda rect: overlap(query.shape, rect)
    return lambda rect: radius is None or distance(query.shape[0], rect) <= radius


def answer(records, query):
    """The records that are asked for; those of a window in the order that they have."""
    records = [r for r in records if query.layers() >> r.layer & 1]
    if query.is_window():
        return [r for r in records if overlap(query.shape, r[1])]
    centre, most = query.shape
    return sorted(records, key=lambda r: (distance(centre, r[1]), r[0]))[:most]


def within(rect, window):
    """Whether a rectangle lies in a window, sides included."""
    return window[0] <= rect[0] and rect[2] <= window[2] and window[1] <= rect[1] and rect[3] <= window[3]


def count_inside(records, query):
    """How many records lie inside a window, on the layers that are asked for: by a scan."""
    return len([r for r in records if within(r.rect, query.shape) and query.layers() >> r.layer & 1])


def radius_of(records, query):
    """The squared radius in the honest proof of a query for nearest records, None where there are too few."""
    near = answer(records, query)
    return None if len(near) < query.shape[1] else distance(query.shape[0], near[-1][1])


def item_length(node, meets):
    if not meets(node.rect):
        return 1 + 16 + 32
    if node.is_leaf:
        return 2 + sum(len(record_bytes(r)) for r in node.entries)
    return 2 + sum(item_length(child, meets) for child in node.entries)


def proof_length(tree, query):
    """Of the proof of version 1 on a map that is not empty."""
    head = 4 + 1 + 1 + 8 + 8 + 1
    radius = None if query.is_window() else radius_of(tree.records(), query)
    flag = 0 if query.is_window() else 1 if radius is None else 1 + 16
    return head + flag + item_length(tree, meets_of(query, radius))


def demo_lines(count, seed):
    records = list(generated(count, seed))
    tree, queries = pack(records), list(generated_queries(64, seed))
    yield "records %d" % count
    yield "level %d" % tree.level()
    yield "root " + root(tree, 0)
    yield "queries 64"
    yield "accepted 64"
    yield "answers %d" % sum(len(answer(records, q)) for q in queries)
    yield "bytes %d" % sum(proof_length(tree, q) for q in queries)


# ---- the stories of the tests, by name


def place(i):
    x, y = i * 7919 % 20011, i * 104729 % 19997
    return Record(i, (x, y, x + i % 3, y + i % 5), bytes([i % 256]))


def places(first, last):
    return [place(i) for i in range(first, last + 1)]


def place2(i):
    """That place on the layer of its column: what stands near has few layers."""
    return place(i)._replace(layer=place(i).rect[0] // 320)


def on_layers(records):
    """These records on all layers by turns."""
    return [record._replace(layer=record.number * 7 % 64) for record in records]


def removals(step, count, each):
    modulus = count * each
    return [(b + 1, [(b * each + k) * step % modulus + 1 for k in range(each)]) for b in range(count)]


def mixed(batch):
    at = range((batch - 1) * 250, batch * 250)
    return batch, [change for k in at for change in (k * 7 % 3000 + 1, place(3001 + k))]


def point(number, x, y):
    return Record(number, (x, y, x, y), b"")


STORIES = {
    "two thousand additions": (places(1, 5000), [(1, places(5001, 7000))]),
    "batches of five hundred changes": (places(1, 3000), [mixed(b) for b in range(1, 5)]),
    "a map is emptied in rising order": (places(1, 300), removals(1, 3, 100)),
    "a map is emptied in falling order": (places(1, 300), removals(299, 3, 100)),
    "a map is emptied in scattered order": (places(1, 300), removals(7, 3, 100)),
    "a map of three levels is emptied: nodes leave at two levels at once": (places(1, 1500), removals(11, 4, 375)),
    "a root of 64 nodes is split": ([point(i, i, 0) for i in range(1, 1025)], [(1, [point(2000, 5, 0), point(2001, 700, 1)])]),
    "one record goes and comes, twenty times": (places(1, 40), [(1, [7, place(7)] * 20)]),
    "a proof of more than 1 MiB": (places(1, 45000), []),
}

# The batches of crates/mr_tests/src/plainly.rt: how many numbers are taken, whether in steps, and whether records come
# and go. In version 2 each record is on the layer of its column.
DRAWS = [(900, True, "+"), (300, False, "+-"), (1200, True, "-"), (200, False, "+-"), (2400, True, "+-")]


def drawn(draws, count, state):
    there = set()

    def word():
        nonlocal state
        state = (state * 6364136223846793005 + 1442695040888963407) % 2**64
        return state >> 33

    for batch, (taken, stepped, signs) in enumerate(draws, 1):
        changes = []
        for place_ in range(taken):
            number = place_ * 487 % count if stepped else word() % count
            if number in there and "-" in signs:
                there.remove(number)
                changes.append(number)
            elif number not in there and "+" in signs:
                there.add(number)
                x, y = word() % 20000, word() % 20000
                changes.append(Record(number, (x, y, x + number % 40, y + number % 7), b"", x // 320))
        yield batch, changes


if __name__ != "__main__":
    pass  # its functions are taken
elif len(sys.argv) == 1:
    for name, (records, batches) in STORIES.items():
        print(name, *lines_of(records, batches), sep="\n")
    for version in (1, 2):
        lines = lines_of([], drawn(DRAWS, 1200, 1), version)
        print("batches that are drawn, in version %d" % version, *lines, sep="\n")
    print("two thousand records that are made", root(pack(list(generated(2000, 1))), 0), sep="\n")
    print("a demonstration", *demo_lines(1000, 1), sep="\n")
elif sys.argv[1:2] == ["make"]:
    for record in generated(int(sys.argv[2]), int(sys.argv[3])):
        print(line_of(record))
elif sys.argv[1:2] == ["demo"]:
    for line in demo_lines(int(sys.argv[2]), int(sys.argv[3])):
        print(line)
else:
    of, names = (2, sys.argv[2:]) if sys.argv[1] == "2" else (1, sys.argv[1:])
    with open(names[0]) as text:
        given = [record_of(line.split(" ")) for line in text.read().splitlines()]
    for line in lines_of(given, [batch_of(open(name).read()) for name in names[1:]], of):
        print(line)
