"""Runs the examples of README.md and of the pages in docs, and compares what the pages say of them.

How a page is read. A block of lines that stand four columns in is run by `sh -e` where it begins with a command; all
blocks of a page are run in one folder, which has `clients`, `examples` and `mrtree`, and values that a block gives to
names are there in those behind it.

- A block that begins with no command is what the last one printed, byte by byte; the sentence before says 'print'.
- Of a sentence directly behind the commands that says 'print', each piece of code is a line that was printed, or what
  it begins with; lines that are named so may be left out of the block. Where the block is all, the code may be other.
- A run ends with status 0, or with the status that the sentence directly behind it names, or that in front of it.
- A block that ends with two dots (`./mrtree COMMAND WORDS..`) is a form. Before any other block that is not to be run
  stands a line `<!-- not run: WHY -->`.

What was printed is what stands on standard output, or with what stands on standard error before or behind it.

>>> page = "Say it:\\n\\n    echo a; echo b\\n\\nIt prints `a` and\\n\\n    b\\n"
>>> [(one.lines, one.shown, one.named) for one in examples_of(page)]
[(['echo a; echo b'], ['b'], ['a'])]
"""
import doctest
import os
import re
import shutil
import subprocess
import sys
from typing import Dict, List, NamedTuple, Optional, Tuple

from bench import TOP, Bench

# The pages whose blocks are diagrams, bytes and digests. Those of FORMATS are tested as vectors.
NO_EXAMPLES = {"DESIGN.md", "FORMATS.md"}
# What a block begins with that is run.
COMMANDS = set(
    """awk cat cd chmod cmp cp curl cut diff echo export for git grep gunzip gzip head if jq ln ls make mkdir mv nice
    node npm ogr2ogr ogrinfo od openssl pip printf python3 rm rt sed sh sha256sum sort split ssh-keygen strace tail tar
    tee test timeout touch tr truncate ulimit unzip wc while xxd zip""".split()
)
# What is not everywhere: a block that needs it is passed over where it is not there, and told.
OPTIONAL = ("curl", "git", "jq", "node", "ogr2ogr", "ogrinfo", "openssl", "ssh-keygen", "strace", "xxd")
# A line that gives a value to a name, which the blocks behind it have too.
GIVES = r"""\w+=(\S*|\$\(.*\)|"[^"]*"|'[^']*')$"""
CODE = r"`[^`]*`"
LONGEST_RUN = 600  # seconds
MOST_WORDS = 35  # of a sentence
# The pages whose sentences are counted.
PLAIN = """README.md CHANGELOG.md docs/PUBLISHING.md docs/SERVING.md docs/HOSTING.md docs/HOST.md docs/ATLAS.md docs/READING.md docs/GATEWAY.md docs/DEVELOPING.md docs/SPEED.md
    docs/COUNTS.md docs/JOINS.md docs/HEADLINE.md docs/PROVED.md docs/HOSTILE.md docs/GLOSSARY.md docs/DECISIONS.md docs/COMMANDS.md docs/FORMATS.md
    docs/DESIGN.md docs/PROVING.md docs/DEFINITIONS.md""".split()
# The words that the script itself answers, before any build; and those that build, where the program is there.
WRAPPER = """#!/bin/sh
case ${1-} in
    -h | --help | help | version) exec '%s' "$@" ;;
    quick | prepare) exit 0 ;;
esac
exec '%s' "$@"
"""


# Pages that hold, and pages that do not: a wrong text, line, status, and blocks that nobody runs.
TRUE = [
    "So:\n\n    echo a\n    echo b\n\nIt prints `a` and\n\n    b\n",
    "So:\n\n    a=5\n    b=$(echo 6 7)\n\nand\n\n    echo $a $b\n\nIt prints the `name`:\n\n    5 6 7\n",
    "So:\n\n    test -e none\n\nIt ends with status 1.\n",
    "<!-- not run: it fails -->\n\n    false\n",
    "So:\n\n    test COMMAND WORDS..\n\nIt is so.\n",
]
FALSE = [
    "So:\n\n    echo a\n\nIt prints\n\n    b\n",
    "So:\n\n    echo a\n    echo b\n\nIt prints\n\n    a\n",
    "So:\n\n    echo a\n    echo b\n    echo c\n\nIt prints `a` and\n\n    c\n",
    "So:\n\n    echo a\n\nIt prints `b`.\n",
    "So:\n\n    test -e none\n",
    "So:\n\n    true\n\nIt ends with status 2.\n",
    "It prints\n\n    b\n",
    "So:\n\n    b\n",
    "So:\n\n```\ntrue\n```\n",
    "- so:\n\n    true\n",
]


class Quiet(Bench):
    """Counts what is not so, and says nothing of it."""

    def holds(self, is_so: bool, what: str) -> None:
        """Counts one thing that is to be so."""
        self.rows += 1
        self.failed += not is_so


class Example(NamedTuple):
    """Commands, and what the page says of them."""

    line: int  # of the page, counted from 1
    lines: List[str]
    skipped: bool
    status: int
    named: List[str]  # lines that were printed, or what they begin with
    shown: Optional[List[str]]  # the other lines that were printed


class Item(NamedTuple):
    """A paragraph as one line, a heading, or a block of lines."""

    line: int
    text: str
    block: List[str]


# ---- how a page is read


def items_of(page: str) -> List[Item]:
    """The paragraphs and blocks of a page, in order; tables, lists and headings are paragraphs.

    >>> [(one.line, one.text or one.block) for one in items_of("# A\\n\\nb\\nc:\\n\\n    d\\n\\n      e\\n")]
    [(1, '# A'), (3, 'b c:'), (6, ['d', '', '  e'])]
    """
    items: List[Item] = []
    for number, line in enumerate(page.split("\n"), 1):
        last = items[-1] if items else None
        if line.startswith("    ") and (last is None or last.block or last.text.endswith("\0")):
            if last is not None and last.block:
                last.block.append(line[4:])
            else:
                items.append(Item(number, "", [line[4:]]))
        elif not line.strip():
            items = after_empty(items)
        elif last is None or last.block or last.text.endswith("\0"):
            items.append(Item(number, line.strip(), []))
        else:
            items[-1] = last._replace(text=last.text + " " + line.strip())
    return [Item(one.line, one.text.rstrip("\0"), trimmed(one.block)) for one in items]


def after_empty(items: List[Item]) -> List[Item]:
    """The items behind an empty line, which ends a paragraph and may stand in a block."""
    if items and items[-1].block:
        items[-1].block.append("")
    elif items and not items[-1].text.endswith("\0"):
        items[-1] = items[-1]._replace(text=items[-1].text + "\0")
    return items


def trimmed(block: List[str]) -> List[str]:
    """A block without the empty lines at its end."""
    while block and not block[-1]:
        block = block[:-1]
    return block


def sentences_of(text: str) -> List[str]:
    """The sentences of a paragraph.

    >>> sentences_of("It is `a. B` so. And (as it goes) on! 3.5 it is")
    ['It is `a. B` so.', 'And (as it goes) on!', '3.5 it is']
    """
    codes: List[str] = re.findall(CODE, text)
    cut = re.split(r"""(?<=[.!?])[*")]*\s+(?=[*"(]*[A-Z0-9\0])""", re.sub(CODE, "\0", text))
    return [re.sub("\0", lambda _: codes.pop(0), sentence) for sentence in cut]


def is_command(line: str) -> bool:
    """Whether a block that begins with this line is run.

    >>> [is_command(line) for line in ("./mrtree list m", "root=00", "accepted 2", "python3 a.py")]
    [True, True, False, True]
    """
    word = line.split(" ")[0]
    return word in COMMANDS or word.startswith("./") or re.match(r"\w+=", line) is not None


def says_print(sentence: str) -> bool:
    """Whether a sentence says that something is printed."""
    return re.search(r"\bprint(s|ed)?\b", sentence) is not None


def status_by(*sentences: str) -> int:
    """The status that the first of these sentences names that names one."""
    for sentence in sentences:
        found = re.search(r"\bstatus (\d+)", sentence)
        if found:
            return int(found.group(1))
    return 0


def example_at(items: List[Item], at: int) -> Example:
    """The example whose commands are the block at this place."""
    before = items[at - 1].text if at and not items[at - 1].block else ""
    behind = items[at + 1].text if at + 1 < len(items) and not items[at + 1].block else ""
    first = sentences_of(behind)[0]
    last = items[at + 2] if behind and at + 2 < len(items) else None
    is_shown = last is not None and last.block and not is_command(last.block[0])
    named = re.findall(r"`([^`]*)`", first) if says_print(first) else []
    status = status_by(first, sentences_of(before)[-1])
    skipped = before.startswith("<!-- not run") or items[at].block[-1].endswith("..")
    return Example(items[at].line, items[at].block, skipped, status, named, last.block if last and is_shown else None)


def examples_of(page: str) -> List[Example]:
    """The examples of a page."""
    items = items_of(page)
    return [example_at(items, at) for at, item in enumerate(items) if item.block and is_command(item.block[0])]


def strays_of(page: str) -> List[int]:
    """The lines at which a block begins that is neither run nor said to be printed, or that is fenced; and one that is
    shown as text, since it stands directly behind a list."""
    items, strays = items_of(page), []
    for at, item in enumerate(items):
        is_in_list = item.block and at and re.match(r"(-|\d+\.) ", items[at - 1].text)
        if item.text.startswith("```") or is_in_list:
            strays.append(item.line)
        if item.block and not is_command(item.block[0]):
            is_said = at > 1 and says_print(items[at - 1].text) and items[at - 2].block
            is_said = is_said or at > 0 and items[at - 1].text.startswith("<!-- not run")
            if not is_said:
                strays.append(item.line)
    return strays


# ---- how it is run


def pages() -> List[str]:
    """README and the pages in docs that have examples, by their paths from the top."""
    names = sorted(name for name in os.listdir(os.path.join(TOP, "docs")) if name.endswith(".md"))
    return ["README.md"] + ["docs/" + name for name in names if name not in NO_EXAMPLES]


def text_of(page: str) -> str:
    """What stands on a page."""
    with open(os.path.join(TOP, page), encoding="utf-8") as file:
        return file.read()


def furnish(program: str, folder: str) -> None:
    """Makes a folder as the top of a clone is, with a program that was built, and enters it."""
    os.mkdir(folder)
    os.chdir(folder)
    for name in ("clients", "examples", "docs"):
        os.symlink(os.path.join(os.path.abspath(TOP), name), name)
    with open("mrtree", "w") as file:
        file.write(WRAPPER % (os.path.join(os.path.abspath(TOP), "mrtree"), program))
    os.chmod("mrtree", 0o755)


def missing(lines: List[str]) -> Optional[str]:
    """A command that the lines need and that is not there."""
    words = set(re.findall(r"[\w-]+", " ".join(lines)))
    return next((one for one in OPTIONAL if one in words and shutil.which(one) is None), None)


def ran(example: Example, given: List[str]) -> Tuple[int, List[bytes]]:
    """The status of an example behind these assignments, and what may count as printed."""
    env: Dict[str, str] = {**os.environ, "HOME": os.getcwd(), "LC_ALL": "C.UTF-8"}
    text = "\n".join(given + example.lines)
    done = subprocess.run(
        ["/bin/sh", "-e", "-c", text],
        stdin=subprocess.DEVNULL,
        stdout=subprocess.PIPE,
        stderr=subprocess.PIPE,
        env=env,
        timeout=LONGEST_RUN,
    )
    return done.returncode, [done.stdout, done.stderr + done.stdout, done.stdout + done.stderr]


def is_as_said(example: Example, printed: List[str]) -> bool:
    """Whether these are the lines that the page says were printed."""
    if example.shown == printed:
        return True
    if not all(any(line.startswith(code) for line in printed) for code in example.named):
        return False
    others = [line for line in printed if not any(line.startswith(code) for code in example.named)]
    return example.shown is None or example.shown == others


def example_holds(bench: Bench, page: str, example: Example, given: List[str]) -> None:
    """An example does and prints what its page says."""
    status, texts = ran(example, given)
    where = "%s line %d" % (page, example.line)
    bench.holds(status == example.status, "%s: status %d: %s" % (where, status, texts[1].decode(errors="replace")))
    lines = [text.decode(errors="replace").split("\n")[:-1] for text in texts]
    is_so = any(is_as_said(example, one) for one in lines)
    bench.holds(is_so, "%s: it printed\n%s" % (where, texts[1].decode(errors="replace")))


def page_holds(bench: Bench, page: str, text: str) -> int:
    """The examples of a page do and print what it says of them; answers how many were run."""
    for line in strays_of(text):
        bench.holds(False, "%s line %d: a block neither run nor said to be printed, or in a list" % (page, line))
    given: List[str] = []
    examples = [example for example in examples_of(text) if not example.skipped]
    for at, example in enumerate(examples):
        lacks = missing(example.lines)
        if lacks:
            bench.skip("%s from line %d on: there is no %s" % (page, example.line, lacks))
            return at
        example_holds(bench, page, example, given)
        given += [line for line in example.lines if re.match(GIVES, line)]
    return len(examples)


def wrong_pages_fail(bench: Bench) -> None:
    """A page that does not hold is told from one that does, and the functions here do what their heads say."""
    bench.holds(doctest.testmod(sys.modules[__name__]).failed == 0, "the examples of the reader of pages")
    for text in TRUE + FALSE:
        quiet = Quiet(bench.program_path, False)
        page_holds(quiet, "", text)
        bench.holds((quiet.failed > 0) == (text in FALSE), "a page that %s: %r" % (quiet.failed or "holds", text))


# ---- links and sentences


def anchors_of(text: str) -> List[str]:
    """What links to the headings of a page have behind their `#`.

    >>> anchors_of("# A\\n\\n## What `x` is, and why\\n")
    ['a', 'what-x-is-and-why']
    """
    return [re.sub(r"[^\w -]", "", one).lower().replace(" ", "-") for one in re.findall(r"(?m)^#+ (.*)$", text)]


def links_hold(bench: Bench, page: str, text: str) -> None:
    """Each link of a page to a file leads to one, and to a heading that is there."""
    for link, anchor in re.findall(r"(?m)(?:\]\(|^\[\w+\]: )([^)#:\s]*)#?([^)\s]*)(?:\)|$)", text):
        path = os.path.join(os.path.dirname(page), link) if link else page
        bench.holds(os.path.exists(os.path.join(TOP, path)), "%s: there is no %s" % (page, link))
        if anchor and path.endswith(".md"):
            bench.holds(anchor in anchors_of(text_of(path)), "%s: there is no %s#%s" % (page, link, anchor))


def are_short(bench: Bench, page: str, text: str) -> None:
    """No sentence of a page is long; a cell of a table and an item of a list are sentences of their own."""
    prose = "\n".join("" if line.startswith("    ") else line for line in text.split("\n"))
    apart = re.sub(r"(?m)^(\s*(- |\d+\. |> |#))|(?<!\\)\|", "\n\n", re.sub(CODE, "Code", prose))
    for item in items_of(apart):
        for sentence in sentences_of(item.text):
            words = [word for word in re.sub(r"\]\([^)]*\)", "]", sentence).split() if re.search(r"\w", word)]
            is_short = len(words) <= MOST_WORDS
            bench.holds(is_short, "%s: %d words: %s .." % (page, len(words), " ".join(words[:8])))


# ---- all of it


def pages_hold(bench: Bench) -> None:
    """All pages, each in a folder of its own."""
    wrong_pages_fail(bench)
    room, examples = os.getcwd(), 0
    for at, page in enumerate(pages()):
        furnish(bench.program_path, os.path.join(room, str(at)))
        examples += page_holds(bench, page, text_of(page))
        os.chdir(room)
        shutil.rmtree(str(at))
    print("tests/clients: %d examples of %d pages" % (examples, len(pages())))
    for page in pages() + ["docs/" + name for name in sorted(NO_EXAMPLES)]:
        links_hold(bench, page, text_of(page))
    for page in PLAIN:
        are_short(bench, page, text_of(page))
