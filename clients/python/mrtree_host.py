#!/usr/bin/env python3
"""A host: answers queries on maps with their honest proofs, by HTTP. Nobody has to trust it: whoever asks checks.

usage: mrtree_host.py [OPTIONS] MAP..

--port NUMBER         listens on this port, else 8066; 0 is any that is free
--address ADDRESS     at this address of the machine, else 127.0.0.1; 0.0.0.0 is all of them
--processes NUMBER    with so many processes, else 1
--log FILE            writes a line for each request; - is the standard error
--most BYTES          makes no longer proof, else 16777216
--nearest NUMBER      and none of more nearest records, else 1024
--connections NUMBER  keeps so many connections in a process, else 1000
--help, -h            prints this, where it stands first

MAP is a map file. Each is reached under its root digest, and a single one without it too: /ROOT/prove?query=QUERY,
/ROOT/count?query=QUERY, /ROOT/join?with=ROOT2, /ROOT/head, and the file itself, by ranges, as /ROOT.map. A file that is
renamed to MAP takes its place at the next request. Never change a file in place that is served.

docs/HOST.md has all answers. Exit statuses: 0 when it was told to end, 1 where words do not fit, 2 where a file is no
map, 7 where a file cannot be read or the port not be had. The script is tested, not proved.

As a module: `application` is for WSGI servers, with the maps that MRTREE_MAPS names, and `make_application(names)`
makes others.
"""
from __future__ import annotations

import sys

if __name__ == "__main__":  # an interrupt while modules are read ends the run without a trace
    sys.excepthook = lambda kind, *rest: kind is KeyboardInterrupt or sys.__excepthook__(kind, *rest)

import signal

if __name__ == "__main__":
    signal.signal(signal.SIGINT, signal.SIG_DFL)

import asyncio
import json
import os
import re
import resource
import socket
import stat
import struct
import threading
import time
from contextlib import suppress
from typing import Any, Callable, Dict, Iterable, Iterator, List, NamedTuple, Optional, Tuple, TypeVar, Union
from urllib.parse import unquote_to_bytes

if __package__:
    from . import mrtree_check as client
    from . import listening, outputs
    from .listening import Answer, Fields, Request, Unfit, Work, refusal
    from .mapped import MappedMap, Pieces, TooLong, join_proof
    from .mrtree_check import Ended
    from .pagewise import MapRefused
else:
    import mrtree_check as client
    import listening
    import outputs
    from listening import Answer, Fields, Request, Unfit, Work, refusal
    from mapped import MappedMap, Pieces, TooLong, join_proof
    from mrtree_check import Ended
    from pagewise import MapRefused

SCRIPT = "mrtree_host.py"
USAGE = "usage: %s [OPTIONS] MAP.." % SCRIPT
MOST_LOGGED = 2048  # letters of a request line
FOR_EVER = "public, max-age=31536000, immutable"
PATH = re.compile(r"(?:/([0-9a-f]{64}))?/(prove|count|join|head)|/([0-9a-f]{64})\.map|/")
RANGE = re.compile(r"bytes=([0-9]{0,19})-([0-9]{0,19})", re.IGNORECASE)
METHODS = "GET, HEAD, OPTIONS"
PREFLIGHT = [
    ("Access-Control-Allow-Methods", METHODS),
    ("Access-Control-Allow-Headers", "Range, If-Range, If-None-Match"),
    ("Access-Control-Max-Age", "86400"),
]
SHARED = [  # so that pages of any site may read what is answered
    ("Access-Control-Allow-Origin", "*"),
    ("Access-Control-Expose-Headers", "ETag, Content-Range, Accept-Ranges"),
    ("X-Content-Type-Options", "nosniff"),
]
T = TypeVar("T")
KEPT = 1  # maps that had a name before the one that has it now, and are still answered for


# ---- maps


class Slot:
    """A name and the map that it stands for, if it does; and those that it stood for before, the last one first."""

    def __init__(self, name: str, tell: Callable[[str], None]) -> None:
        self.name, self.tell, self.lock = name, tell, threading.Lock()
        self.mark: Tuple[int, ...] = ()
        self.now: Optional[MappedMap] = None
        self.before: List[MappedMap] = []
        self.open_now()

    def refresh(self) -> None:
        """Opens the file anew that has the name now, where it is another one."""
        try:
            mark = mark_of(os.stat(self.name))
        except OSError:
            return  # whoever renames a file may take the old one away first
        if mark != self.mark and self.lock.acquire(blocking=False):
            try:
                self.open_now()
            except (MapRefused, OSError, ValueError) as fault:
                if mark[:2] == self.mark[:2]:
                    self.now = None  # the file was changed in place: what is mapped is no map any more
                self.tell("%s: %s" % (self.name, fault))
                self.mark = mark
            finally:
                self.lock.release()

    def open_now(self) -> None:
        """Opens the file that has the name now. Raises MapRefused, OSError."""
        with open(self.name, "rb", opener=without_waiting) as file:
            status = os.fstat(file.fileno())
            if not stat.S_ISREG(status.st_mode):
                raise OSError(0, "it is no file with bytes of its own", self.name)
            there, mark = MappedMap(file), mark_of(status)
        if self.now and mark[:2] != self.mark[:2]:
            self.before = [self.now, *self.before][:KEPT]
        self.now, self.mark = there, mark
        words = (there.root, there.version, there.head.batch, there.head.count, self.name)
        self.tell("map %s version %d batch %d records %d %s" % words)


def without_waiting(name: str, flags: int) -> int:
    """Opens a file, and does not wait for anybody where it is a pipe."""
    return os.open(name, flags | os.O_NONBLOCK)


def mark_of(status: os.stat_result) -> Tuple[int, ...]:
    """What tells a file from another, and from itself once it was changed."""
    return status.st_dev, status.st_ino, status.st_size, status.st_mtime_ns


class Bounds(NamedTuple):
    """The longest proof in bytes, and the most nearest records of one."""

    most: int = 2**24
    nearest: int = 1024


class Host:
    """The maps of some names, and the answers to requests. Raises MapRefused and OSError where a file is no map."""

    def __init__(self, names: List[str], bounds: Bounds, tell: Callable[[str], None]) -> None:
        self.slots, self.bounds = [Slot(name, tell) for name in names], bounds

    def refresh(self) -> None:
        """Looks for other files under the names."""
        for slot in self.slots:
            slot.refresh()

    def map_of(self, root: Optional[str]) -> MappedMap:
        """The map with this root digest; without one the only map. Raises Unfit where there is none."""
        if root is None:
            if len(self.slots) > 1:
                raise Unfit(404, "NoRoot", "there are several maps here, so a root digest stands in front: /ROOT/..")
            self.refresh()
            now = self.slots[0].now
            if now is None:
                raise Unfit(503, "Changed", "the file of the map was changed in place, and is none just now")
            return now
        for slot in self.slots:
            if slot.now and slot.now.root == root:
                slot.refresh()
        found = self.kept(root)
        if found is None:
            self.refresh()
            found = self.kept(root)
        if found is None:
            raise Unfit(404, "NoMap", "there is no map with this root digest here")
        return found

    def kept(self, root: str) -> Optional[MappedMap]:
        """The map with this root digest among those that are open."""
        there = [slot.now for slot in self.slots if slot.now] + [one for slot in self.slots for one in slot.before]
        return next((one for one in there if one.root == root), None)

    # -- answers

    def answer(self, request: Request) -> Union[Answer, Work]:
        """The answer to a request, or the work of which it comes."""
        try:
            return self.answer_to(request)
        except Unfit as unfit:
            more = [("Allow", METHODS)] if unfit.status == 405 else []
            return refusal(unfit.status, unfit.name, unfit.words, *more)
        except Ended as ended:
            return refusal(422, "NeedsVersion2", ended.line)

    def answer_to(self, request: Request) -> Union[Answer, Work]:
        """The answer to a request. Raises Unfit and Ended where it is refused."""
        if request.method == "OPTIONS":
            return Answer(204, [("Allow", METHODS), *PREFLIGHT])
        if request.method not in ("GET", "HEAD"):
            raise Unfit(405, "BadMethod", "a host answers %s" % METHODS)
        path = PATH.fullmatch(request.path)
        if not path:
            raise Unfit(404, "NoPath", "a path is /ROOT/prove, /ROOT/count, /ROOT/join, /ROOT/head or /ROOT.map")
        root, what, file = path.groups()
        if file:
            return file_of(self.map_of(file), request)
        if not what:
            refuse_words(request)
            return as_json({"maps": [listed(slot.now) for slot in self.slots if slot.now]}, "no-cache")
        there = self.map_of(root)
        cached = FOR_EVER if root else "no-cache"
        if what == "head":
            refuse_words(request)
            return unchanged(request, there.root, cached) or as_json(head_of(there), cached, there.root)
        if what == "join":
            return self.join(there, request, cached)
        return self.prove(there, request, cached, what == "count")

    def prove(self, there: MappedMap, request: Request, cached: str, is_count: bool) -> Union[Answer, Work]:
        """The proof of an answer or of a count."""
        query = read(client.read_window if is_count else client.read_query, parameter(request, "query"))
        if query.k > self.bounds.nearest:
            raise Unfit(422, "TooMany", "no more than %d nearest records are proved here" % self.bounds.nearest)
        pieces = there.count_proof(query) if is_count else there.proof(query)
        return unchanged(request, there.root, cached) or Proving(pieces, self.bounds.most, there.root, cached)

    def join(self, there: MappedMap, request: Request, cached: str) -> Union[Answer, Work]:
        """The proof of a join with another map."""
        other = self.map_of(read(client.read_root, parameter(request, "with")).hex())
        there.refuse_version_1()
        other.refuse_version_1()
        both = "%s-%s" % (there.root, other.root)
        return unchanged(request, both, cached) or Joining(there, other, self.bounds.most, both, cached)


def tagged(tag: str, cached: str) -> Fields:
    """The fields of what is as it is for ever, under this tag."""
    return [("ETag", '"%s"' % tag), ("Cache-Control", cached)]


def unchanged(request: Request, tag: str, cached: str) -> Optional[Answer]:
    """The answer to whoever has what has this tag."""
    held = [one.strip() for one in request.fields.get("if-none-match", "").split(",")]
    if "*" in held or '"%s"' % tag in held or 'W/"%s"' % tag in held:
        return Answer(304, tagged(tag, cached))
    return None


def refuse_words(request: Request) -> None:
    """Raises Unfit where words stand behind a path that takes none."""
    if request.query:
        raise Unfit(400, "BadWords", "behind this path stands nothing")


def parameter(request: Request, name: str) -> str:
    """The word behind a path, which has this name. Raises Unfit."""
    key, _, value = request.query.partition("=")
    if key != name or not value or "&" in value:
        raise Unfit(400, "BadWords", "behind this path stands ?%s=.. and nothing else" % name)
    return unquote_to_bytes(value).decode("utf-8", "replace")


def read(reader: Callable[[str], T], word: str) -> T:
    """What a word spells. Raises Unfit."""
    try:
        return reader(word)
    except ValueError as fault:
        raise Unfit(400, "BadWords", str(fault)) from None


def as_json(told: Any, cached: str, tag: str = "") -> Answer:
    """An answer in JSON."""
    fields = [("Content-Type", "application/json"), *(tagged(tag, cached) if tag else [("Cache-Control", cached)])]
    return Answer(200, fields, (json.dumps(told) + "\n").encode())


def listed(there: MappedMap) -> Dict[str, Any]:
    """What is told of a map where all are listed."""
    head = there.head
    return {"root": there.root, "version": there.version, "batch": str(head.batch), "records": head.count}


def head_of(there: MappedMap) -> Dict[str, Any]:
    """What page 0 of a map says; the SHA-256 of `preimage` is the root digest."""
    head, root = there.head, there.head.root
    told = {**listed(there), "pages": head.pages, "bytes": len(there.bytes)}
    if root is None:
        return {**told, "preimage": (struct.pack(">sBQ", b"E", head.version, head.batch)).hex()}
    front = struct.pack(">sBQQB", b"R", head.version, head.batch, head.count, root.level)
    told.update(level=root.level, rectangle=list(root.part.rect), mask="%016x" % root.part.mask)
    told.update(digest=root.part.digest.hex())
    return {**told, "preimage": (front + root.part.told(head.version) + root.part.digest).hex()}


# ---- proofs


class Proving(Work):
    """The making of a proof."""

    def __init__(self, pieces: Pieces, most: int, tag: str, cached: str) -> None:
        self.pieces, self.most, self.tag, self.cached = pieces, most, tag, cached
        self.made: List[bytes] = []
        self.size = 0

    def held(self) -> int:
        """How many bytes of the proof are there."""
        return self.size

    def go_on(self, until: float) -> Optional[Answer]:
        """Makes more of the proof."""
        try:
            for piece in self.pieces:
                self.made.append(piece)
                self.size += len(piece)
                if self.size > self.most:
                    raise TooLong
                if time.perf_counter() > until:
                    return None
        except (TooLong, MapRefused) as fault:
            return refused(fault, self.most)
        return proved(b"".join(self.made), self.tag, self.cached)


class Joining(Work):
    """The making of a join proof."""

    is_whole = True

    def __init__(self, first: MappedMap, second: MappedMap, most: int, tag: str, cached: str) -> None:
        self.maps, self.most, self.tag, self.cached = (first, second), most, tag, cached

    def go_on(self, until: float) -> Optional[Answer]:
        """Makes the proof."""
        try:
            return proved(join_proof(*self.maps, self.most), self.tag, self.cached)
        except (TooLong, MapRefused) as fault:
            return refused(fault, self.most)


def proved(proof: bytes, tag: str, cached: str) -> Answer:
    """The answer that is a proof."""
    return Answer(200, [("Content-Type", "application/octet-stream"), *tagged(tag, cached)], proof)


def refused(fault: Exception, most: int) -> Answer:
    """The answer where no proof can be made."""
    if isinstance(fault, TooLong):
        return refusal(422, "TooLong", "the proof has more than %d bytes" % most)
    return refusal(500, "BadMap", "the file of the map has a fault: %s" % fault)


# ---- the file


def file_of(there: MappedMap, request: Request) -> Answer:
    """The file of a map, or a range of its bytes. Of several ranges, or what is none, the whole file is the answer."""
    refuse_words(request)
    size, tag = len(there.bytes), '"%s"' % there.root
    same = unchanged(request, there.root, FOR_EVER)
    if same:
        return same
    fields = [("Content-Type", "application/octet-stream"), ("Accept-Ranges", "bytes"), *tagged(there.root, FOR_EVER)]
    spelled = RANGE.fullmatch(request.fields.get("range", ""))
    if request.fields.get("if-range", tag) != tag or not spelled:
        return Answer(200, fields, pieces_of(there, 0, size), size)
    place = place_of(spelled[1], spelled[2], size)
    if place is None:
        return Answer(200, fields, pieces_of(there, 0, size), size)
    start, end = place
    if start >= end:
        return refusal(416, "Outside", "the file has %d bytes" % size, ("Content-Range", "bytes */%d" % size))
    fields.append(("Content-Range", "bytes %d-%d/%d" % (start, end - 1, size)))
    if end - start <= listening.PIECE:
        return Answer(206, fields, there.bytes[start:end])
    return Answer(206, fields, pieces_of(there, start, end), end - start)


def place_of(first: str, last: str, size: int) -> Optional[Tuple[int, int]]:
    """Where a range begins and where it ends in a file of this size; nothing where it is none.

    >>> [place_of(*ends, 10) for ends in (("2", "4"), ("8", ""), ("", "3"), ("0", "99"), ("10", ""), ("4", "2"))]
    [(2, 5), (8, 10), (7, 10), (0, 10), (10, 10), None]
    """
    if not first:
        return (max(size - int(last), 0), size) if last else None
    if last and int(last) < int(first):
        return None
    return int(first), min(int(last or size) + 1, size)


def pieces_of(there: MappedMap, start: int, end: int) -> Iterator[bytes]:
    """The bytes of a file from one place to another, in pieces."""
    for at in range(start, end, listening.PIECE):
        yield there.bytes[at : min(at + listening.PIECE, end)]


# ---- WSGI

Environ = Dict[str, Any]
Start = Callable[[str, Fields], Any]
Application = Callable[[Environ, Start], Iterable[bytes]]


def make_application(names: List[str], bounds: Bounds = Bounds()) -> Application:
    """A WSGI application over the maps of these names. Raises MapRefused and OSError where a file is no map."""
    host = Host(names, bounds, lambda line: outputs.tell(SCRIPT, line))

    def answers(environ: Environ, start: Start) -> Iterable[bytes]:
        """The body of the answer to a request."""
        request = request_of(environ)
        found = request if isinstance(request, Answer) else host.answer(request)
        answer = found.go_on(float("inf")) if isinstance(found, Work) else found
        assert answer is not None
        fields = [*answer.fields, *SHARED]
        if answer.status not in listening.WITHOUT_BODY:
            fields.append(("Content-Length", str(answer.size())))
        start("%d %s" % (answer.status, listening.REASONS[answer.status]), fields)
        if environ["REQUEST_METHOD"] == "HEAD":
            return []
        return [answer.body] if isinstance(answer.body, bytes) else answer.body

    return answers


def request_of(environ: Environ) -> Union[Request, Answer]:
    """The request that a WSGI server took, or its refusal."""
    names = ("range", "if-range", "if-none-match")
    sent = {name: environ.get("HTTP_" + name.replace("-", "_").upper()) for name in names}
    fields = {name: value for name, value in sent.items() if value is not None}
    if environ.get("CONTENT_LENGTH", "") not in ("", "0") or "HTTP_TRANSFER_ENCODING" in environ:
        return refusal(413, "Body", "a request has no body here")
    if len(environ.get("QUERY_STRING", "")) > listening.MOST_LINE:
        return refusal(414, "LongLine", "the request line has more than %d bytes" % listening.MOST_LINE)
    return Request(environ["REQUEST_METHOD"], environ.get("PATH_INFO", ""), environ.get("QUERY_STRING", ""), fields)


MADE: List[Application] = []  # the application of MRTREE_MAPS, once it was asked
MAKING = threading.Lock()


def application(environ: Environ, start: Start) -> Iterable[bytes]:
    """A WSGI application over the map files that MRTREE_MAPS names, with colons between them."""
    with MAKING:
        if not MADE:
            names = os.environ.get("MRTREE_MAPS", "").split(os.pathsep)
            MADE.append(make_application([name for name in names if name]))
    return MADE[0](environ, start)


# ---- the log


class Log:
    """A file with a line for each request, which is opened anew where another has its name by now."""

    def __init__(self, name: str) -> None:
        self.name, self.mark = name, (0, 0)
        self.file = 2
        self.second, self.clock = 0, ""
        self.refresh()

    def refresh(self) -> None:
        """Opens the file anew where the name is that of another. Raises OSError."""
        if self.name in ("", "-"):
            return
        with suppress(FileNotFoundError):
            found = os.stat(self.name)
            if (found.st_dev, found.st_ino) == self.mark:
                return
        file = os.open(self.name, os.O_WRONLY | os.O_APPEND | os.O_CREAT, 0o644)
        if self.file != 2:
            os.close(self.file)
        found = os.fstat(file)
        self.file, self.mark = file, (found.st_dev, found.st_ino)

    def tick(self) -> None:
        """Looks whether the name is that of another file."""
        with suppress(OSError):
            self.refresh()

    def write(self, peer: str, line: str, status: int, size: int, seconds: float) -> None:
        """Writes the line of a request."""
        if not self.name:
            return
        now = int(time.time())
        if now != self.second:
            self.second, self.clock = now, time.strftime("%Y-%m-%dT%H:%M:%SZ", time.gmtime(now))
        told = '%s %s "%s" %d %d %.6f\n' % (self.clock, peer, visible(line), status, size, seconds)
        with suppress(OSError):
            os.write(self.file, told.encode())


def visible(line: str) -> str:
    """A request line as a log has it: what is no visible letter of ASCII, and quotes, as their bytes.

    >>> visible('GET /"\\x1b HTTP/1.1')
    'GET /\\\\x22\\\\x1b HTTP/1.1'
    """
    return re.sub(r'[^ !#-\[\]-~]', lambda found: "\\x%02x" % ord(found[0]), line[:MOST_LOGGED])


# ---- the command


class Words(NamedTuple):
    """What a command line says."""

    names: List[str]
    port: int = 8066
    address: str = "127.0.0.1"
    processes: int = 1
    log: str = ""
    most: int = Bounds().most
    nearest: int = Bounds().nearest
    connections: int = listening.Limits().connections


NUMBERS = {"port": (0, 65535), "processes": (1, 256), "most": (0, 2**31 - 1), "nearest": (1, 1024)}
NUMBERS["connections"] = (1, 100000)


def read_words(words: List[str]) -> Words:
    """What the words of a command line mean. Raises Unfit of outputs.py.

    >>> read_words(["--port", "0", "a.map", "b.map"])[:3]
    (['a.map', 'b.map'], 0, '127.0.0.1')
    """
    names: List[str] = []
    given: Dict[str, Any] = {}
    left = iter(words)
    for word in left:
        if not word.startswith("--"):
            names.append(word)
            continue
        option, value = word[2:], next(left, "")
        if option not in Words._fields[1:] or option in given or not value:
            raise outputs.Unfit("%s is no option, or stands there twice, or has no value" % word)
        given[option] = read_number(option, value) if option in NUMBERS else value
    if not names or "" in names:
        raise outputs.Unfit(USAGE)
    outputs.refuse_same(given.get("log", "-"), names)
    return Words(names, **given)


def read_number(option: str, word: str) -> int:
    """The number of an option. Raises Unfit of outputs.py."""
    try:
        return client.read_decimal(word, *NUMBERS[option])
    except ValueError:
        raise outputs.Unfit("--%s stands before a number from %d to %d" % (option, *NUMBERS[option])) from None


def listeners(words: Words) -> List[socket.socket]:
    """A socket on the port for each process. Raises Ended."""
    try:
        family = socket.getaddrinfo(words.address, None, type=socket.SOCK_STREAM)[0][0]
        first = socket.create_server((words.address, words.port), family=family, backlog=listening.BACKLOG)
        if words.processes == 1:
            return [first]
        port = first.getsockname()[1]
        first.close()  # nobody else has it, and from here on several may
        how: Dict[str, Any] = {"family": family, "backlog": listening.BACKLOG, "reuse_port": True}
        return [socket.create_server((words.address, port), **how) for _ in range(words.processes)]
    except (OSError, ValueError) as fault:
        told = getattr(fault, "strerror", None) or str(fault)
        raise Ended(7, "the port %d of %s: %s" % (words.port, words.address, told)) from None


def serve(words: Words) -> None:
    """Serves until a signal comes. Raises Unfit, MapRefused, Ended, OSError."""
    bounds = Bounds(words.most, words.nearest)
    log = Log(words.log)
    host = Host(words.names, bounds, lambda line: outputs.tell(SCRIPT, line))
    sockets = listeners(words)
    place = "[%s]" % words.address if ":" in words.address else words.address
    outputs.tell(SCRIPT, "listens on http://%s:%d/" % (place, sockets[0].getsockname()[1]))

    def run(listener: socket.socket) -> None:
        """Serves in a process."""

        def tick() -> None:
            """Looks for other files."""
            host.refresh()
            log.tick()

        sys.setswitchinterval(0.001)  # so that a thread that makes a join does not keep others waiting
        limits = listening.Limits()._replace(connections=room(words.connections))
        asyncio.run(listening.Server(host.answer, log.write, tick, SHARED, limits).run(listener))

    if len(sockets) == 1:
        run(sockets[0])
        os._exit(0)  # no thread is waited for that makes a join for nobody
    else:
        keep_running(sockets, run)


def room(connections: int) -> int:
    """How many connections there may be, with the files that a process may have open."""
    soft, hard = resource.getrlimit(resource.RLIMIT_NOFILE)
    wanted = connections + 100
    if soft != resource.RLIM_INFINITY and soft < wanted:
        soft = wanted if hard == resource.RLIM_INFINITY else min(wanted, hard)
        resource.setrlimit(resource.RLIMIT_NOFILE, (soft, hard))
        return max(soft - 100, 1)
    return connections


def keep_running(sockets: List[socket.socket], run: Callable[[socket.socket], None]) -> None:
    """Runs a process for each socket, and another one where one ends by itself, until a signal comes."""
    there: Dict[int, Tuple[socket.socket, float]] = {}
    stopped: List[int] = []

    def stop(number: int, _: Any) -> None:
        """Ends all processes."""
        stopped.append(number)
        for process in there:
            with suppress(OSError):
                os.kill(process, signal.SIGTERM)

    signal.signal(signal.SIGTERM, stop)
    signal.signal(signal.SIGINT, stop)
    for listener in sockets:
        there[forked(listener, run)] = listener, time.monotonic()
    while there:
        process, status = os.wait()
        listener, began = there.pop(process)
        if not stopped:
            outputs.tell(SCRIPT, "a process ended by itself, with status %d, and another takes its place" % status)
            time.sleep(max(0.0, began + 1 - time.monotonic()))
        if not stopped:
            there[forked(listener, run)] = listener, time.monotonic()


def forked(listener: socket.socket, run: Callable[[socket.socket], None]) -> int:
    """Runs in a process of its own; answers its number."""
    process = os.fork()
    if process == 0:
        status = 1
        try:
            run(listener)
            status = 0
        finally:
            os._exit(status)
    return process


def main(words: Optional[List[str]] = None) -> int:
    """Runs the words of a command line; answers the exit status."""
    given = sys.argv[1:] if words is None else words
    if given[:1] in (["-h"], ["--help"]):
        print(__doc__ or USAGE)
        return 0
    return outputs.status_of(SCRIPT, lambda: serve(read_words(given)))


if __name__ == "__main__":
    signal.signal(signal.SIGINT, signal.default_int_handler)
    sys.exit(main())
