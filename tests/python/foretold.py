"""The rows and stories of crates/mr_rows, foretold: what runs print and leave, and what is left where a call fails.

What comes of a command is that of said.py, by docs/FORMATS.md, under the hash function of the table. Calls that fail
are foretold from the course of a command's calls, as the rows name them. A text or a proof is asked for its size and
read by pieces, a map page by page; what a command makes is then made, written and synced, a map's page 0 last. A map
goes to its file child by child of the root, behind zeros for page 0 and the root, and the root's page before page 0.
One without an inner node goes there at once. Of what is written in a call that fails half is there. Of `apply` the
calls between the copy of OLD and the first sync are not foretold one by one. Whichever they are, a file that they
leave is Unsealed, or is of a bad Size just where a page was being added. That comes about as often as the file has
pages more than OLD. Half a page of version 2 is a whole one of version 1, in which a file without page 0 is read: so
that file is Unsealed there too. Where each call on real files fails in turn, what the whole run says and leaves is
foretold, and about how many calls it makes. What may be left where one fails is a rule of the program that goes
through the rows.
"""
import hashlib
import itertools
import os
import re
from typing import Any, Callable, Dict, List, NamedTuple, Optional, Set, Tuple

from bench import TOP, Bench, Ended, mrtree_check, write
import journals
from proofs import plain
import said
import tables

PIECE = 65536  # bytes of a text that are read by one call, and the most that are printed by one
ROOM = 512  # bytes for one more line, without which a piece of lines goes out
MOST = 7  # bytes that the output takes at once where each call fails in turn
KEPT = 256  # nodes of a map that are kept
WHOSE = ("shelf", "sink")  # whose calls fail
LEFT = ("leaves", "front", "makes", "absent")  # what is said of a file
SIZE, UNSEALED = (b"bad map page 0 %s\n" % rule for rule in (b"Size", b"Unsealed"))


# ---- which words spell a command


def is_name(word: str) -> bool:
    """Whether it may name a file."""
    return word != ""


def is_count(least: int, most: int) -> Callable[[str], bool]:
    """What tells whether a word is a canonical decimal in these bounds."""
    return lambda word: said.number_of(word.encode(), least, most) is not None


def is_root(word: str) -> bool:
    """Whether it is a root digest."""
    return re.fullmatch("[0-9a-f]{64}", word) is not None


def is_query(word: str) -> bool:
    """Whether it is a query word."""
    return said.read_query(word.encode()) is not None


def is_window(word: str) -> bool:
    """Whether it is the query word of a window."""
    return is_query(word) and word.startswith("window:")


FORMS: Dict[str, List[Callable[[str], bool]]] = {
    "root": [is_name],
    "root2": [is_name],
    "build": [is_name, is_name],
    "build2": [is_name, is_name],
    "upgrade": [is_name, is_name],
    "list": [is_name],
    "apply": [is_name, is_name, is_name],
    "prove": [is_name, is_query, is_name],
    "check": [is_root, is_query, is_name],
    "audit": [is_name, is_query, is_name],
    "serve": [is_name, is_name, is_name],
    "check-all": [is_root, is_name, is_name],
    "count": [is_name, is_window, is_name],
    "check-count": [is_root, is_window, is_name],
    "audit-count": [is_name, is_window, is_name],
    "join": [is_name, is_name, is_name],
    "check-join": [is_root, is_root, is_name],
    "audit-join": [is_name, is_name, is_name],
    "apply-here": [is_name, is_name],
    "recover": [is_name],
    "make": [is_count(0, 2**20), is_count(0, 2**64 - 1), is_name],
    "demo": [is_count(1, 65536), is_count(0, 2**64 - 1)],
}


def is_command(words: List[str]) -> bool:
    """Whether these words spell a command."""
    form = FORMS.get(words[0], None)
    if form is None or len(form) != len(words) - 1 or not all(test(word) for test, word in zip(form, words[1:])):
        return False
    names = [word for test, word in zip(form, words[1:]) if test is is_name]
    names += [journals.name_of(words[1])] if words[0] in IN_PLACE else []
    return len(set(names)) == len(names)


# ---- the calls of a command


class Call(NamedTuple):
    """A call on a file: `asks` its size, `reads`, `makes`, `adds` bytes at its end, `puts` them somewhere, or `syncs`.

    Of `apply` also one that `edits` it, and the one behind all of those, at which it `holds` these bytes.
    """

    kind: str
    bytes_: bytes = b""
    at: int = 0


def reads_text(bytes_: Optional[bytes]) -> List[Call]:
    """The calls by which a text, a proof or a bundle is read."""
    return [Call("asks")] + [Call("reads")] * -(-len(bytes_ or b"") // PIECE)


def page_size(bytes_: bytes) -> int:
    """The bytes of a page of a map."""
    return said.PAGES[said.version_of(bytes_)]


def reads_map(bytes_: Optional[bytes]) -> List[Call]:
    """The calls by which a map is read, of at most 257 pages where more than its records are asked for.

    Of a file that is shorter than a page of version 1 nothing is read, and page 0 alone where its size is bad.
    """
    size, page = len(bytes_ or b""), page_size(bytes_ or b"")
    pages = 1 if size % page or size // page > said.MOST_PAGES else size // page
    return [Call("asks")] + [Call("reads")] * (pages if size >= said.FIRST else 0)


def is_first(*maps: Optional[bytes]) -> bool:
    """Whether one of these maps is of version 1."""
    return any(said.version_of(map_ or b"") == 1 for map_ in maps)


# The commands that change a map in its own file.
IN_PLACE = ("apply-here", "recover")
# The commands that make a file, and the place of its name among the words.
MADE = {"build": 1, "build2": 1, "upgrade": 2, "make": 3, "prove": 3, "serve": 3, "apply": 3, "count": 3, "join": 3}


def made_of(words: List[str]) -> str:
    """The name of the file that a command makes, or none."""
    return words[MADE[words[0]]] if words[0] in MADE else ""


def saves(made: bytes) -> List[Call]:
    """The calls by which the file of a map is made, behind the one that `makes` it."""
    page, (tree, _) = page_size(made), said.read_map(made)
    calls, end = [], len(made)
    if tree is None or tree.is_leaf:
        calls.append(Call("adds", bytes(page) + made[page:]))
    else:
        begins = [child.page * page for child in tree.entries]
        calls.append(Call("adds", bytes(2 * page)))
        calls += [Call("adds", made[begin:next_]) for begin, next_ in zip(begins, [*begins[1:], end])]
        calls.append(Call("puts", made[page : 2 * page], page))
    return [*calls, Call("syncs"), Call("puts", made[:page]), Call("syncs")]


def course(words: List[str], files: said.Files, made: Optional[bytes]) -> List[Call]:
    """The calls of a run that is done; of `apply` up to the end of the copy."""
    of = lambda at: files.get(words[at])
    inputs = {
        "root": lambda: reads_text(of(1)),
        "root2": lambda: reads_text(of(1)),
        "build": lambda: reads_text(of(2)),
        "build2": lambda: reads_text(of(2)),
        "upgrade": lambda: reads_map(of(1)),
        "list": lambda: reads_map(of(1)),
        "apply": lambda: reads_map(of(1)) + reads_text(of(2)),
        "prove": lambda: reads_map(of(1)),
        "check": lambda: reads_text(of(3)),
        "audit": lambda: reads_map(of(1)) + reads_text(of(3)),
        "serve": lambda: reads_map(of(1)) + reads_text(of(2)),
        "check-all": lambda: reads_text(of(2)) + reads_text(of(3)),
        "count": lambda: reads_map(of(1)),
        "check-count": lambda: reads_text(of(3)),
        "audit-count": lambda: reads_map(of(1)) + reads_text(of(3)),
        "join": lambda: reads_map(of(1)) + reads_map(of(2)),
        "check-join": lambda: reads_text(of(3)),
        "audit-join": lambda: reads_map(of(1)) + reads_map(of(2)) + ([] if is_first(of(1), of(2)) else reads_text(of(3))),
        # of these the calls that come before anything is written
        "recover": lambda: [Call("asks")] + [Call("syncs")] * 2 + [Call("asks")] * 3 + [Call("reads")],
        "apply-here": lambda: [Call("asks")] * 4 + [Call("reads")] + reads_text(of(2)),
    }
    calls = inputs.get(words[0], list)()
    if made is None:
        return calls
    calls.append(Call("makes"))
    if words[0] == "apply":
        page = page_size(of(1))
        calls.append(Call("adds", bytes(page)))
        for at in range(page, len(of(1)), page):
            calls += [Call("reads"), Call("adds", of(1)[at : at + page])]
    elif words[0] in ("build", "build2", "upgrade"):
        calls += saves(made)
    else:
        calls += [Call("adds", made), Call("syncs")]
    return calls


def ending(made: bytes, count: int) -> List[Call]:
    """The calls of `apply` behind the copy, of which there are so many: all but the last three are not foretold."""
    page = page_size(made)
    unsealed = bytes(page) + made[page:]
    return [Call("edits")] * (count - 3) + [Call("holds", unsealed), Call("puts", made[:page]), Call("syncs")]


def stopped(calls: List[Call], old: Optional[bytes], at: int) -> Optional[bytes]:
    """The file that these calls leave where the one of this number, from 1 on, fails; None where it is not there."""
    left = old
    for number, (kind, bytes_, place) in enumerate(calls[:at], 1):
        part = bytes_[: len(bytes_) // 2] if number == at else bytes_
        if kind == "makes" and number < at:
            left = b""
        elif kind == "adds":
            left += part
        elif kind == "puts":
            left = left[:place] + part + left[place + len(part) :]
        elif kind == "holds":
            left = bytes_
    return left


def pieces_of(text: bytes) -> List[bytes]:
    """The pieces in which lines go out."""
    pieces, piece = [], b""
    for line in text.splitlines(keepends=True):
        if len(piece) > PIECE - ROOM:
            pieces.append(piece)
            piece = b""
        piece += line
    return [*pieces, piece]


# ---- runs


def say_make(words: List[str], files: said.Files) -> said.Meant:
    """`make`."""
    made = said.record_lines(list(plain.generated(int(words[1]), int(words[2]))))
    return said.Meant((0, b"made %s\n" % words[1].encode()), made)


def say_demo(words: List[str], files: said.Files) -> said.Meant:
    """`demo`."""
    return said.Meant((0, "".join(line + "\n" for line in plain.demo_lines(*map(int, words[1:]))).encode()))


def say(words: List[str], files: said.Files) -> said.Meant:
    """What comes of a command line over these files, which stand in the folder too."""
    if not is_command(words):
        return said.Meant((1, b"bad words\n"))
    more = {"make": say_make, "demo": say_demo}
    return more[words[0]](words, files) if words[0] in more else said.say(words, files)


class Course:
    """A row or a story that is gone through: its files, and how its last run ended.

    `behind` is how many calls `apply` makes behind the copy; `drafts` has the files that are left in between. Maps of
    which the layout is not foretold are `open`; of those `placed` has the ones of which it is, but for the order of the
    chain of free pages.
    """

    def __init__(self, group: tables.Group, behind: int) -> None:
        self.group, self.files, self.behind = group, dict(group.files()), behind
        self.open: Set[str] = set()
        self.placed: Set[str] = set()
        self.drafts: Set[str] = set()
        fails = [item.words.split(" ") for item in group.items if item.key == "fails"]
        self.fails = {whose: [int(one) for name, *all_ in fails if name == whose for one in all_] for whose in WHOSE}
        self.calls, self.runs, self.words, self.at = 0, 0, [""], 0
        self.ended: Ended = (0, b"")
        self.reads: Tuple[int, int] = (0, 0)
        self.pages: Dict[str, Tuple[int, int]] = {}
        for name, bytes_ in self.files.items():
            write(name, bytes_)

    def run(self, words: List[str], key: str) -> None:
        """Does a command line."""
        self.words, meant, made = words, say(words, self.files), made_of(words)
        self.reads = reads_of(words, self.files, meant) if self.group.has("reads") else (0, 0)
        calls = course(words, self.files, meant.made) if meant.ended[0] != 1 else []
        if words[0] == "apply" and meant.made is not None and self.behind:
            calls += ending(meant.made, self.behind)
        failing = [at - self.calls for at in self.fails["shelf"] if 0 < at - self.calls <= len(calls)]
        self.calls += len(calls)
        sink = self.fails["sink"] if key == "run" and self.runs == 0 else []
        self.runs += key == "run"
        if failing:
            self.ended = 7, b"" if 1 in sink else b"shelf fault\n"
            self.put(made, stopped(calls, self.files.get(made), failing[0]))
            self.drafts |= {made} if calls[failing[0] - 1].kind == "edits" else set()
            return
        if words[0] in IN_PLACE:
            self.change_in_place(words, meant)
        elif meant.made is not None:
            if words[0] == "apply" and self.group.has("pages"):
                self.pages[made] = pages_of(words, self.files)
            placed = in_place(words, self.files) if words[0] == "apply" and self.group.has("change") else None
            (self.placed.discard if placed is None else self.placed.add)(made)
            self.put(made, placed or meant.made)
            (self.open.add if words[0] == "apply" else self.open.discard)(made)
        pieces = pieces_of(meant.ended[1]) if words[0] in ("list", "check") else [meant.ended[1]]
        told = [at for at in sink if at <= len(pieces)]
        self.ended = (7, b"".join(pieces[: told[0] - 1])) if told else meant.ended

    def change_in_place(self, words: List[str], meant: said.Meant) -> None:
        """Leaves a map that is changed in its own file, and its journal.

        Behind a batch the map is laid out as the group has it there, if that is the map that is meant.
        """
        journal, made, left = journals.name_of(words[1]), meant.made, meant.journal
        if made is not None and words[0] == "apply-here" and meant.ended[0] == 0:
            behind = itertools.takewhile(lambda item: item.key not in ("run", "do"), self.group.items[self.at + 1 :])
            given = [item for item in behind if (item.key, item.words) == ("leaves", words[1])]
            placed = self.group.table.bytes_of(given[0]) if given else made
            made = placed if laid_out(placed) == made else made
            old = journals.restored(self.files[words[1]], self.files.get(journal, b""))[0]
            left = journals.left_by(said.version_of(made), old, made, left or b"")
        self.put(words[1], made)
        self.put(journal, left)

    def put(self, name: str, bytes_: Optional[bytes]) -> None:
        """Leaves a file, or none."""
        if bytes_ is not None:
            self.files[name] = bytes_
            write(name, bytes_)

    def bend(self, words: str) -> None:
        """Changes bytes of a file."""
        name, _, changes = words.partition(" ")
        bytes_, numbers = bytearray(self.files[name]), tables.numbers_of(changes)
        for place, value in zip(numbers[::2], [*numbers[1::2], None]):
            bytes_[place] = bytes_[place] ^ 1 if value is None else value
        self.put(name, bytes(bytes_))

    def lay_out(self, words: str) -> None:
        """Writes the map in one file to another."""
        name, _, other = words.partition(" ")
        self.put(other, laid_out(self.files[name]))

    def left(self, item: tables.Item) -> bool:
        """Whether a file is left as an item has it. The pages of a map after `apply` may be in any order."""
        name, _, rest = item.words.partition(" ")
        bytes_ = self.files.get(name)
        if item.key == "absent" or bytes_ is None:
            return item.key == "absent" and bytes_ is None
        given = self.group.table.bytes_of(item)
        if item.key == "leaves" and name in self.open:
            return laid_out(given) == bytes_
        if item.key == "makes" or name in self.open:
            return True
        return bytes_ == given if item.key == "leaves" else given.startswith(bytes_) and len(bytes_) == int(rest)

    def is_so(self, item: tables.Item) -> bool:
        """Whether it is foretold what an item says."""
        numbers = tables.numbers_of(item.words)
        if item.key in LEFT:
            return self.left(item)
        if item.key == "status":
            return numbers == [self.ended[0]]
        if item.key == "prints" and self.words[0] == "list" and self.words[1] in self.drafts:
            return self.group.text(item) in (SIZE, UNSEALED)
        if item.key == "prints":
            return self.group.text(item) == self.ended[1]
        if item.key == "prints front":
            whole = self.group.table.bytes_of(item)
            return whole.startswith(self.ended[1]) and numbers == [len(self.ended[1])]
        if item.key == "reads":
            return self.reads[0] <= numbers[0] and numbers[-1] <= self.reads[1]
        if item.key == "each call fails":
            return self.makes_calls(*numbers)
        if item.key == "pages":
            return self.has_pages(item.words.split(" ")[0], *numbers)
        if item.key == "hashes":
            name, length, digits = item.words.split(" ")
            bytes_ = self.files[name]
            return (len(bytes_), hashlib.sha256(bytes_).hexdigest()) == (int(length), digits)
        return True

    def makes_calls(self, least: int) -> bool:
        """Whether a row has one run, and so many calls on files and on an output of 7 bytes a call are asked for.

        A call of the shelf is one to five calls on files. How many `apply` makes for its changes is not foretold.
        """
        is_one = [item.key for item in self.group.items if item.key in ("run", "do")] == ["run"]
        printed = -(-len(self.ended[1]) // MOST)
        is_within = self.words[0] == "apply" or least <= 5 * self.calls + printed
        return is_one and self.calls + printed <= least and is_within

    def has_pages(self, name: str, pages: int, free: int) -> bool:
        """Whether the file of a map may have so many pages, and so many free ones."""
        nodes = 1 + nodes_of(said.read_map(self.files[name])[0])
        least, most = self.pages.get(name, (nodes, nodes)) if name in self.open else (nodes, nodes)
        return free == pages - nodes and max(nodes, least) <= pages <= most

    def untold(self) -> Optional[str]:
        """A file that is another than before, or was made, of which nothing is said."""
        told = {item.words.split(" ")[0] for item in self.group.items if item.key in LEFT}
        before = self.group.files()
        return next((name for name in self.files if name not in told and self.files[name] != before.get(name)), None)

    def untrue(self) -> Optional[tables.Item]:
        """The first item that is not foretold, if there is one."""
        for self.at, item in enumerate(self.group.items):
            if item.key in ("run", "do"):
                self.run(item.words.replace("..", tables.ZEROS).split(" "), item.key)
                if item.key == "do" and self.ended[0] != 0:
                    return item
            elif item.key == "change":
                if item.words.split(" ")[0] in self.open - self.placed:
                    return item
                self.bend(item.words)
            elif item.key == "lay out":
                self.lay_out(item.words)
            elif not self.is_so(item):
                return item
        return None


def laid_out(bytes_: bytes) -> bytes:
    """The file of a map that is laid out anew."""
    return said.map_bytes(*said.read_map(bytes_), said.version_of(bytes_))


def read_changes(bytes_: bytes, text: bytes) -> List[Any]:
    """The changes of a batch text for the map of these bytes."""
    return said.read_batch(text, said.version_of(bytes_))[1]


def nodes_of(tree: Any) -> int:
    """How many nodes a tree has."""
    return 0 if tree is None else 1 if tree.is_leaf else 1 + sum(map(nodes_of, tree.entries))


def pages_of(words: List[str], files: said.Files) -> Tuple[int, int]:
    """The fewest and the most pages of the file that `apply` makes: those of OLD, or by the trees on the way."""
    bytes_ = files[words[1]]
    old, (tree, _) = len(bytes_) // page_size(bytes_), said.read_map(bytes_)
    most = nodes_of(tree)
    for change in read_changes(bytes_, files[words[2]]):
        tree = plain.inserted(tree, change) if isinstance(change, tuple) else plain.deleted(tree, change)
        most = max(most, nodes_of(tree))
    return old, max(old, most + 1)


def in_place(words: List[str], files: said.Files) -> Optional[bytes]:
    """The file that `apply` makes where all nodes are those of before: each on its page, and all others are free.

    Where a node is another, or comes in the course of the batch, its page is not foretold, and nothing is answered.
    """
    old, version = files[words[1]], said.version_of(files[words[1]])
    (batch, changes), (tree, _) = said.read_batch(files[words[2]], version), said.read_map(old)
    for change in changes:
        before = nodes_of(tree)
        tree = plain.inserted(tree, change) if isinstance(change, tuple) else plain.deleted(tree, change)
        if nodes_of(tree) > before:
            return None
    pages = [b""] * (len(old) // page_size(old))

    def put(node: Any) -> bool:
        page, children = getattr(node, "page", 0), [] if node.is_leaf else node.entries
        pages[page] = said.page_of(node, [getattr(child, "page", 0) for child in children], version)
        return page > 0 and all(map(put, children))

    if tree is None or not put(tree):
        return None
    behind = 0
    for page in range(1, len(pages)):
        if not pages[page]:
            pages[page], behind = (b"F" + behind.to_bytes(4, "big")).ljust(page_size(old), b"\0"), page
    pages[0] = said.page_0(tree, batch, len(pages), tree.page, behind, version)
    return b"".join(pages)


def reads_along(tree: Any, changes: List[Any]) -> int:
    """How many pages the changes of a batch may read, by docs/DEFINITIONS.md."""
    reads, look = 0, 0
    for change in changes:
        if isinstance(change, tuple):
            reads += 17
            tree = plain.inserted(tree, change)
        else:
            nodes, aside = nodes_of(tree), []
            reads += 2 * nodes
            look = max(look, nodes)
            tree = plain.deleted(tree, change, aside)
            reads += 17 * len(aside)
    return reads + look


def reads_of(words: List[str], files: said.Files, meant: said.Meant) -> Tuple[int, int]:
    """The fewest and the most reads of a run; of a map of more than 257 pages what is not kept is read again.

    A window opens all nodes here; nearest records, a query that names layers, and a count may open kept ones alone.
    """
    of_page_0 = [b"bad map page 0 %s\n" % rule for rule in (b"Size", b"Unsealed", b"Header")]
    calls = course(words, files, meant.made) if meant.ended[0] in (0, 2, 10) or meant.ended[1] in of_page_0 else []
    count = sum(call.kind == "reads" for call in calls)
    if meant.ended[0] == 4:
        return (min(1, count),) * 2
    place = re.match(rb"refused [A-Za-z]+ at ([0-9]+)", meant.ended[1])
    if words[0] == "check" and place:
        return (int(place[1]) // PIECE + 1,) * 2
    is_kept = words[0] in ("prove", "count") and meant.ended[0] != 10
    map_ = files.get(words[1], b"") if is_kept or words[0] == "apply" else b""
    pages = len(map_) // page_size(map_) if is_kept else 0
    again = pages - 1 if pages > KEPT + 1 else 0
    most = count + again
    if words[0] == "apply" and meant.made is not None:
        along = reads_along(said.read_map(map_)[0], read_changes(map_, files[words[2]]))
        most += 1 + along
    few = words[0] == "count" or (words[0] == "prove" and (words[2].startswith("nearest:") or "/" in words[2]))
    return count + (0 if few else max(0, again - KEPT)), most


# ---- the tables


def under(hash_: Callable[[bytes], bytes], what: Callable[[], Any]) -> Any:
    """What comes of it where this is the hash function."""
    kept = plain.digest, mrtree_check.digest
    plain.digest = mrtree_check.digest = hash_
    try:
        return what()
    finally:
        plain.digest, mrtree_check.digest = kept


def exclusive_or(preimage: bytes) -> bytes:
    """The hash function of most of these tables: 31 zeros, and the exclusive or of all bytes."""
    last = 0
    for byte in preimage:
        last ^= byte
    return bytes(31) + bytes([last])


def sha_256(preimage: bytes) -> bytes:
    """The hash function of the others."""
    return hashlib.sha256(preimage).digest()


def failing_call(group: tables.Group) -> int:
    """The number of the first call of the shelf that fails in a row of `apply`, 0 where there is none."""
    if group.kind() != "row" or not group.first("run").words.startswith("apply ") or not group.has("fails"):
        return 0
    whose, *numbers = group.first("fails").words.split(" ")
    return int(numbers[0]) if whose == "shelf" else 0


def series(group: tables.Group) -> str:
    """The front of the name that rows have in common of which one call after another fails."""
    return group.name().split(":")[0]


class Series:
    """The rows of `apply` of which one call after another fails: how many calls there are, and are behind the copy."""

    def __init__(self, groups: List[tables.Group]) -> None:
        self.places = [failing_call(group) for group in groups]
        row = groups[0]
        self.words, self.files = row.first("run").words.split(" "), row.files()
        meant = say(self.words, self.files)
        self.copied = len(course(self.words, self.files, meant.made))
        self.behind = max(self.places) - 1 - self.copied
        self.least, self.most = pages_of(self.words, self.files)
        self.nodes, self.version = len(meant.made) // page_size(meant.made) - 1, said.version_of(meant.made)
        between = [row for row, at in zip(groups, self.places) if self.copied < at <= self.copied + self.behind - 3]
        self.sizes = sum(any(row.text(one) == SIZE for one in row.items if one.key == "prints") for row in between)

    def holds(self, bench: Bench, name: str) -> None:
        """Each call fails once; so many of those behind the copy add a page as the file has pages more than OLD."""
        whole = list(range(1, self.copied + self.behind + 2))
        bench.holds(sorted(self.places) == whole, "%s: the calls that fail: %s" % (name, self.places))
        pages = max(self.nodes + 1, self.least)
        bench.holds(pages == self.most, "%s: from %d to %d pages" % (name, pages, self.most))
        is_so = self.sizes == (pages - self.least if self.version == 1 else 0)
        bench.holds(is_so, "%s: a bad Size %d times" % (name, self.sizes))


def is_foretold(group: tables.Group, behind: int) -> Optional[str]:
    """What a row or a story says and is not foretold, if there is something."""
    if group.kind() == "bad words":
        lines = [item.words[1:-1].replace("..", tables.ZEROS) for item in group.items if item.key == "line"]
        return next((line for line in lines if is_command(line.split(" "))), None)
    course_ = Course(group, behind)
    untrue = course_.untrue()
    if untrue is not None:
        return "%s: %s, and %s was foretold" % (untrue.key, untrue.words, course_.ended)
    return None if group.kind() == "story" else course_.untold()


def tables_hold(bench: Bench) -> None:
    """Each row and story is as it is foretold, and no false row is; and the program goes through all these tables."""
    rows = os.path.join(TOP, "crates", "mr_rows")
    groups = list(tables.groups(os.path.join(rows, "data")))
    with open(os.path.join(rows, "args")) as names:
        listed = names.read().split()
    bench.holds(sorted(listed) == sorted(os.listdir(os.path.join(rows, "data"))), "the tables that are gone through")
    named: Dict[str, List[tables.Group]] = {}
    for group in groups:
        if failing_call(group):
            named.setdefault(series(group), []).append(group)
    behind = {}
    for name, rows in named.items():
        one = under(exclusive_or, lambda rows=rows: Series(rows))
        one.holds(bench, name)
        behind[name] = one.behind
    for group in groups:
        for name in os.listdir("."):
            os.remove(name)
        hash_, count = {"xor": exclusive_or, "sha-256": sha_256}[group.hash], behind.get(series(group), 0)
        found = under(hash_, lambda: is_foretold(group, count))
        is_so = found is not None if group.kind() == "false row" else found is None
        bench.holds(is_so, "the %s '%s': %s" % (group.kind(), group.name(), found))
