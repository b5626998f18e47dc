"""Maps, queries, proofs and bundles at random, honest and bent: program and client say the same of each."""
import itertools
import os
import random
from typing import List, NamedTuple, Tuple

import joins
import proofs
import steps
from bench import Bench, Ended, read, write
from proofs import plain


class Kind(NamedTuple):
    """What records of a map are at random: how far from the origin, 0 for any of four; how wide and high at most."""

    span: int
    extents: Tuple[int, ...]


MIXED = Kind(0, (0, 0, 0, 3, 100))


class Map:
    """A map of a version that was made at random and built by the program, changed by a batch or not."""

    def __init__(
        self, bench: Bench, chance: random.Random, size: int, is_changed: bool, version: int = 1, kind: Kind = MIXED
    ) -> None:
        self.span = kind.span or chance.choice((10, 1000, 10**6, 2**31 - 101))
        self.chance, self.batch, self.version, self.extents = chance, 0, version, kind.extents
        self.layers = chance.choice(((0,), (0, 5, 63), range(64)))
        self.records = [self.record(number) for number in chance.sample(range(1, 4 * size + 9), size)]
        write("r", "".join(plain.line_of(record, version) + "\n" for record in self.records).encode())
        self.root = bench.program(["build2" if version == 2 else "build", "m", "r"])[1].decode().strip()
        self.tree = plain.pack(self.records) if size <= 2000 and not is_changed else None
        if is_changed:
            self.change(bench)

    def record(self, number: int) -> plain.Record:
        """A record at random: a point or a rectangle, most without a payload; in version 2 on a layer of the map's."""
        chance, span = self.chance, self.span
        x, y = chance.randint(-span, span), chance.randint(-span, span)
        size = chance.choice(self.extents)
        payload = bytes(chance.randrange(256) for _ in range(chance.choice((0, 0, 0, 1, 8, 200))))
        rect = (x, y, x + chance.randint(0, size), y + chance.randint(0, size))
        return plain.Record(number, rect, payload, chance.choice(self.layers) if self.version == 2 else 0)

    def change(self, bench: Bench) -> None:
        """A batch that takes out about a quarter of the records and puts others in."""
        gone = {record[0] for record in self.records if self.chance.random() < 0.25}
        come = [self.record(10**6 + number) for number in range(len(self.records) // 8 + 1)]
        lines = ["batch 1"] + ["- %d" % number for number in gone]
        lines += ["+ " + plain.line_of(record, self.version) for record in come]
        write("b", "".join(line + "\n" for line in lines).encode())
        self.root = bench.program(["apply", "m", "b", "n"])[1].decode().strip()
        os.replace("n", "m")
        self.records = [record for record in self.records if record[0] not in gone] + come
        self.batch = 1

    def query(self) -> plain.Query:
        """A query at random: a window of any size, or up to 1,024 records that are nearest to a point.

        On a map of version 2 half of them name a mask: of some of its layers, of none or of all.
        """
        chance, span = self.chance, self.span
        x, y = chance.randint(-span, span), chance.randint(-span, span)
        if self.records and chance.random() < 0.5:
            x, y = chance.choice(self.records)[1][:2]
        mask = self.mask() if self.version == 2 and chance.random() < 0.5 else None
        if chance.random() < 0.5:
            k = chance.choice((1, 1, 2, 3, 10, 100, 1024, max(1, min(len(self.records) + 1, 1024))))
            return plain.Query(((x, y), k), mask)
        return plain.Query(self.window(x, y), mask)

    def window(self, x: int, y: int) -> Tuple[int, ...]:
        """A window of any size round this point."""
        wide = self.chance.choice((0, 1, self.span // 100, self.span // 10, self.span))
        low = -(2**31)
        return max(x - wide, low), max(y - wide, low), min(x + wide, -low - 1), min(y + wide, -low - 1)

    def counted(self) -> plain.Query:
        """A window at random for a count: round a point, or from a side of a record to one of another."""
        chance, span = self.chance, self.span
        mask = self.mask() if chance.random() < 0.5 else None
        if len(self.records) < 2 or chance.random() < 0.5:
            return plain.Query(self.window(chance.randint(-span, span), chance.randint(-span, span)), mask)
        one, other = (chance.choice(self.records).rect for _ in range(2))
        xs = sorted(chance.choice((rect[0], rect[2])) for rect in (one, other))
        ys = sorted(chance.choice((rect[1], rect[3])) for rect in (one, other))
        return plain.Query((xs[0], ys[0], xs[1], ys[1]), mask)

    def mask(self) -> int:
        """Some layers."""
        chance = self.chance
        some = sum(1 << layer for layer in self.layers if chance.random() < 0.5)
        return chance.choice((0, 1 << chance.choice(self.layers), some, some, 2**64 - 1, chance.randrange(2**64)))


def proved(bench: Bench, one: Map, query: plain.Query) -> bytes:
    """The program's proof of a query, once both clients took it and gave the answer of a scan."""
    word = proofs.word_of(query)
    bench.program(["prove", "m", word, "p"])
    proof, bench.honest = read("p"), bench.honest + 1
    said = bench.agree(["check", one.root, word, "p"], "an honest proof")
    answer = plain.answer(one.records, query)
    answer = sorted(answer) if query.is_window() else answer
    lines = "".join(plain.line_of(record, one.version) + "\n" for record in answer)
    bench.holds(said == (0, lines.encode()), "an honest proof of %s: both say %s" % (word, said[:1]))
    if one.tree or not one.records:
        meant = proofs.honest(one.tree, one.batch, query, one.version)
        bench.holds(proof == meant, "the bytes of the proof of " + word)
    return proof


def steps_agree(bench: Bench, root: str, query: plain.Query, string: bytes, said: Ended) -> None:
    """The steps of docs/FORMATS.md give the same answer, or none."""
    answer = steps.answer(root, query, string)
    version = 2 if string[4:5] == b"\x02" else 1
    lines = "".join(plain.line_of(record, version) + "\n" for record in answer or [])
    is_so = said[0] == 2 if answer is None else said == (0, lines.encode())
    bench.holds(is_so, "%s: by the steps of FORMATS %s, and it is said %s" % (proofs.word_of(query), answer, said))


def bent_agree(bench: Bench, one: Map, given: List[Tuple[plain.Query, bytes]], count: int) -> None:
    """Both clients say the same of bent strings: of one proof, of two, of a proof for another query."""
    for _ in range(count):
        query, proof = one.chance.choice(given)
        _, other = one.chance.choice(given)
        string = proofs.bent(proof, other, one.chance)
        if one.chance.random() < 0.05:
            query, string = one.chance.choice(given)[0], proof
        bench.bent += string != proof
        said = bench.agree_on(one.root, proofs.word_of(query), string, "a bent proof")
        steps_agree(bench, one.root, query, string, said)
        found = said[1].split()[-1].decode() if b"WrongRoot" in said[1] else ""
        if found and one.chance.random() < 0.3:
            said = bench.agree(["check", found, proofs.word_of(query), "p"], "a bent proof, against its own root")
            steps_agree(bench, found, query, string, said)


def counted(bench: Bench, one: Map, query: plain.Query) -> bytes:
    """The program's count proof of a window, once all took it and gave the count of a scan."""
    word, meant = proofs.word_of(query), plain.count_inside(one.records, query)
    ended = bench.program(["count", "m", word, "p"])
    proof, bench.counts = read("p"), bench.counts + 1
    bench.holds(ended == (0, b"proof %d\n" % len(proof)), "the count of %s: %s" % (word, ended))
    said = bench.agree(["check-count", one.root, word, "p"], "an honest count proof")
    bench.holds(said == (0, b"count %d\n" % meant), "the count of %s: %s, and a scan %d" % (word, said, meant))
    bench.holds(steps.count(one.root, query, proof) == meant, "the count of %s, by the steps" % word)
    said = bench.program(["audit-count", "m", word, "p"])
    bench.holds(said == (0, b"sound\ncount %d\n" % meant), "the audit of the count of %s: %s" % (word, said))
    if one.tree or not one.records:
        is_so = proof == proofs.honest_count(one.tree, one.batch, query)
        bench.holds(is_so, "the bytes of the count proof of " + word)
    return proof


def counts_agree(bench: Bench, one: Map, honest: int, bent: int) -> None:
    """All say the same of count proofs, honest and bent, and of proofs of other kinds for counts."""
    if one.version == 1:
        word = proofs.word_of(one.counted())
        bench.holds(bench.program(["count", "m", word, "q"]) == (10, b"needs version 2\n"), "a count in version 1")
        return
    given = [(query, counted(bench, one, query)) for query in [one.counted() for _ in range(honest)]]
    for _ in range(bent):
        query, proof = one.chance.choice(given)
        string = proofs.bent(proof, one.chance.choice(given)[1], one.chance)
        if one.chance.random() < 0.1:
            query, string = one.chance.choice(given)[0], proof
        word, bench.bent = proofs.word_of(query), bench.bent + (string != proof)
        said = bench.agree_on(one.root, word, string, "a bent count proof", "check-count")
        found = said[1].split()[-1].decode() if b"WrongRoot" in said[1] else one.root
        said = bench.agree(["check-count", found, word, "p"], "a bent count proof, against its own root")
        number = steps.count(found, query, string)
        is_so = said[0] == 2 if number is None else said == (0, b"count %d\n" % number)
        bench.holds(is_so, "%s: by the steps %s, and it is said %s" % (word, number, said))
        bench.agree(["check", found, word, "p"], "a count proof for an answer")


COUNTED = 500  # windows of a map of three levels


def counts_beside_scan(bench: Bench) -> None:
    """Counts in windows at random, with masks and without, on maps of three levels: as a scan says, and honest."""
    chance, seen = random.Random(18), {0: 0}
    for is_changed in (False, True):
        one = Map(bench, chance, 2000, is_changed, 2)
        for _ in range(COUNTED if bench.is_long else COUNTED // 2):
            query = one.counted()
            counted(bench, one, query)
            number = plain.count_inside(one.records, query)
            seen[number] = seen.get(number, 0) + 1
    bench.holds(len(seen) > 20 and seen[0] < bench.counts // 2, "few windows have records: %s" % seen)


JOINED = ((0, 5), (5, 0), (0, 0), (1, 1), (17, 40), (300, 20), (20, 300), (400, 400))  # records of two maps
JOINS = ((0,), (1,), (0, 0, 0, 3, 100))  # extents of points; of what shares many sides; and of both, and larger ones


class Joined(NamedTuple):
    """Two maps, in the files k and m, the program's proof of their join, and how many pairs it gives."""

    one: Map
    other: Map
    proof: bytes
    pairs: int

    def words(self, name: str) -> List[str]:
        """The words that check the proof in a file."""
        return ["check-join", self.one.root, self.other.root, name]


def joined(bench: Bench, chance: random.Random, sizes: Tuple[int, int], is_changed: bool) -> Joined:
    """A join of two maps at random, the first changed or not, once all took its proof and gave the pairs of a loop."""
    span, extents = chance.choice((10, 30, 100, 300)), chance.choice(JOINS)
    one = Map(bench, chance, sizes[0], is_changed, 2, Kind(span, extents))
    os.replace("m", "k")
    other = Map(bench, chance, sizes[1], False, 2, Kind(span, chance.choice(JOINS)))
    meant = joins.pairs_of(one.records, other.records)
    lines = joins.pair_lines(meant)
    ended = bench.program(["join", "k", "m", "p"])
    made = Joined(one, other, read("p"), len(meant))
    bench.holds(ended == (0, b"proof %d\n" % len(made.proof)), "a join: %s" % (ended,))
    said = bench.agree(made.words("p"), "an honest join")
    bench.holds(said == (0, lines), "the pairs of a join: %s" % (said,))
    bench.holds(steps.pairs(one.root, other.root, made.proof) == meant, "the pairs of a join, by the steps")
    said = bench.program(["audit-join", "k", "m", "p"])
    bench.holds(said == (0, b"sound\n" + lines), "the audit of a join: %s" % (said,))
    if all(map_.tree or not map_.records for map_ in (one, other)):
        honest = joins.honest_join(one.tree, one.batch, other.tree, other.batch)
        bench.holds(made.proof == honest, "the bytes of the proof of a join")
    bench.joins += 1
    return made


def bent_join_agrees(bench: Bench, made: Joined, string: bytes) -> None:
    """All say of a string that is offered as a join's proof what the formats say; so they do against its own roots."""
    write("q", string)
    roots = bytes.fromhex(made.one.root), bytes.fromhex(made.other.root)
    bench.bent += string != made.proof
    meant, said = joins.said(*roots, string), bench.agree_to_end(made.words("q"), "a bent join")
    bench.holds(said == meant, "a bent join: %s, and %s is meant" % (said, meant))
    given = steps.pairs(made.one.root, made.other.root, string)
    is_so = said[0] == 2 if given is None else said == (0, joins.pair_lines(given))
    bench.holds(is_so, "a bent join: by the steps %s, and it is said %s" % (given, said))
    if said[0] == 2:
        audited = bench.program(["audit-join", "k", "m", "q"])
        bench.holds(audited == said, "the audit of a bent join: %s, and %s" % (audited, said))


def joins_agree(bench: Bench, chance: random.Random, bent: int) -> None:
    """Joins of maps at random, of each size one of a map that was changed, and so many other strings beside each."""
    given: List[Joined] = []
    for sizes in JOINED:
        for is_changed in (False, True):
            given.append(joined(bench, chance, sizes, is_changed))
            for _ in range(bent):
                string = joins.bent(given[-1].proof, chance.choice(given).proof, chance)
                bent_join_agrees(bench, given[-1], string)
    bench.holds(sum(made.pairs for made in given) > 100, "few pairs: %s" % [made.pairs for made in given])


def joins_beside_loop(bench: Bench) -> None:
    """Joins of maps at random: the pairs of a double loop, and of bent proofs what the formats say, fault by fault."""
    chance = random.Random(19)
    joins_agree(bench, chance, 100 if bench.is_long else 10)
    made = joined(bench, chance, (17, 2), False)
    cuts = (made.proof[:length] for length in range(len(made.proof)))
    for string in [made.proof + b"\0", *joins.bent_fields(made.proof), *cuts][:: 1 if bench.is_long else 7]:
        bent_join_agrees(bench, made, string)
    print("tests/clients: %d joins" % bench.joins)


def said_of_bundle(bench: Bench, root: str, words: List[str], bundle: bytes) -> Ended:
    """What is to be said of a bundle for these query words: part by part what the program's `check` says of it."""
    at, lines, counts = 0, [], [0, 0, 0]
    for number, word in enumerate(words, 1):
        front = bundle[at : at + 4]
        part = bundle[at + 4 : at + 4 + int.from_bytes(front, "big")]
        if len(front) < 4 or len(part) < int.from_bytes(front, "big"):
            lines += ["query %d missing" % late for late in range(number, len(words) + 1)]
            counts[2] = len(words) + 1 - number
            break
        write("part", part)
        status, said = bench.program(["check", root, word, "part"])
        told = said.decode().splitlines()
        lines += ["query %d ok %d" % (number, len(told)), *told] if status == 0 else ["query %d %s" % (number, told[0])]
        counts[0 if status == 0 else 1] += 1
        at += 4 + len(part)
    lines.append("accepted %d refused %d missing %d" % tuple(counts))
    if counts[2] or at < len(bundle):
        lines.append("bundle broken at %d" % at)
    is_right = counts[1:] == [0, 0] and at == len(bundle)
    return (0 if is_right else 2), "".join(line + "\n" for line in lines).encode()


def bent_bundle(proofs_: List[bytes], chance: random.Random) -> bytes:
    """A bundle of these proofs, honest or bent: a proof or a length is another, parts are moved, bytes cut or added."""
    parts = [len(proof).to_bytes(4, "big") + proof for proof in proofs_]
    way, at = chance.randrange(7), chance.randrange(len(parts))
    if way == 1:
        string = proofs.bent(proofs_[at], chance.choice(proofs_), chance)
        parts[at] = len(string).to_bytes(4, "big") + string
    elif way == 2:
        parts[at] = (len(proofs_[at]) + chance.choice((-1, 1, 40, 2**31))).to_bytes(4, "big") + proofs_[at]
    elif way == 3:
        chance.shuffle(parts)
    elif way == 4:
        del parts[at]
    whole = b"".join(parts)
    if way == 5:
        return whole[: chance.randrange(len(whole))]
    return whole + bytes(chance.randrange(1, 9)) if way == 6 else whole


def bundles_agree(bench: Bench, one: Map, given: List[Tuple[plain.Query, bytes]], count: int) -> None:
    """The client says of bundles, honest and bent, what is to be said; so does the program, if it knows bundles."""
    serves = bench.knows_bundles()
    for _ in range(count):
        chosen = one.chance.sample(given, one.chance.randint(1, min(6, len(given))))
        words = [proofs.word_of(query) for query, _ in chosen]
        write("s", "".join(word + "\n" for word in words).encode())
        whole = b"".join(len(proof).to_bytes(4, "big") + proof for _, proof in chosen)
        bundle = bent_bundle([proof for _, proof in chosen], one.chance)
        write("u", bundle)
        meant, call = said_of_bundle(bench, one.root, words, bundle), ["check-all", one.root, "s", "u"]
        bench.holds(bench.client(call) == meant, "the client on a bundle: %s, %s" % (bench.client(call), meant))
        bench.bundles += 1
        if serves:
            bench.holds(bench.program(call) == meant, "the program on a bundle: %s" % (meant,))
            said = bench.program(["serve", "m", "s", "v"])
            is_so = said == (0, b"served %d %d\n" % (len(words), len(whole))) and read("v") == whole
            bench.holds(is_so, "the bundle that is served: %s" % (said,))


def each_agrees(bench: Bench, one: Map) -> None:
    """Both clients say the same of a proof with each field bent in each way, and of each cut of it."""
    queries = [one.query() for _ in range(60)]
    given = [(query, proofs.honest(one.tree, 0, query, one.version)) for query in queries]
    for is_window in (False, True):
        pairs = [pair for pair in given if pair[0].is_window() == is_window]
        query, proof = min(pairs, key=lambda pair: abs(len(pair[1]) - 1800))
        for string in [*proofs.bent_fields(proof), *proofs.cuts(proof)]:
            bench.agree_on(one.root, proofs.word_of(query), string, "a proof with a bent field, or cut")
            bench.bent += 1


def random_proofs(bench: Bench) -> None:
    """Maps of up to 20,000 records, honest proofs and bent ones; each field and each cut of some in the long run.

    Of each size there is a map of each version.
    """
    chance = random.Random(28)
    sizes = [0, 1, 5, 16, 17, 40, 300, 1025, 2000, 5000, 12000, 20000] if bench.is_long else [0, 1, 17, 300, 2000]
    honest, bent = (2000, 16000) if bench.is_long else (50, 400)
    for at, (size, version) in enumerate(itertools.product(sizes, (1, 2))):
        one = Map(bench, chance, size, is_changed=at // 2 % 4 == 3, version=version)
        asked = [one.query() for _ in range(honest // len(sizes) // 2 + 1)]
        given = [(query, proved(bench, one, query)) for query in asked]
        bent_agree(bench, one, given, bent // len(sizes) // 2 + 1)
        bundles_agree(bench, one, given, honest // len(sizes) // 8 + 1)
        counts_agree(bench, one, honest // len(sizes) // 4 + 1, bent // len(sizes) // 4 + 1)
        if size == 2000 and bench.is_long:
            each_agrees(bench, one)
    counts = bench.honest, bench.counts, bench.bent, bench.bundles
    print("tests/clients: %d honest proofs, %d counts, %d other strings, %d bundles" % counts)
