"""A small HTTP/1.1 server for answers that are bytes: many connections at once in one process, none of which waits for
another. Shared by the scripts.

Who reads slowly, sends half a request or none holds a connection and nothing else: when these are used up, the one that
has been silent longest is closed. Work is done in slices between what comes and goes, or in a thread where it cannot be
cut. What comes in is bounded by its length and in time, and a request that is no HTTP is refused by name and the
connection closed.
"""
from __future__ import annotations

import asyncio
import re
import signal
import socket
import time
from collections import deque
from concurrent.futures import ThreadPoolExecutor
from email.utils import formatdate
from http import HTTPStatus
from typing import Any, Callable, Deque, Dict, Iterator, List, NamedTuple, Optional, Tuple, TypeVar, Union

if __package__:
    from . import outputs
else:
    import outputs

T = TypeVar("T")

MOST_LINE = 2048  # bytes of a request line
MOST_HEAD = 8192  # bytes of the head of a request
MOST_FIELDS = 64
HEAD_SECONDS, IDLE_SECONDS, SEND_SECONDS = 10, 75, 30  # for a head to come, between requests, for a piece to be taken
LINGER = 2  # seconds that a connection is read from once it was refused, so that the refusal arrives
SLICE = 0.002  # seconds that work goes on before others have their turn
PIECE = 2**18  # bytes that are sent at once
LAST_SECONDS = 5  # for answers that are under way when the server is to end
BACKLOG = 1024  # connections that nobody has taken in yet
AT_ONCE = 2  # threads for work that cannot be cut
WITHOUT_BODY = (204, 304)
TICK = 0.5  # seconds from one look at all connections to the next
REASONS = {status.value: status.phrase for status in HTTPStatus}

TOKEN = rb"[!#$%&'*+.^_`|~0-9A-Za-z-]+"
LINE = re.compile(rb"(" + TOKEN + rb") ([!-~]+) HTTP/1\.([01])")
HEAD = re.compile(rb"(?:" + TOKEN + rb":[\t -~\x80-\xff]*\r\n)*")
AUTHORITY = re.compile(r"(?:[A-Za-z0-9._~-]*|\[[0-9A-Fa-f:.]+\])(?::[0-9]{0,5})?")

Fields = List[Tuple[str, str]]


class Request(NamedTuple):
    """A request: its method; the path and the query as they were sent, without `?`; its fields by lower-case names."""

    method: str
    path: str
    query: str
    fields: Dict[str, str]


class Answer(NamedTuple):
    """An answer: its status and fields, and its body; of one in pieces their length in all."""

    status: int
    fields: Fields
    body: Union[bytes, Iterator[bytes]] = b""
    length: Optional[int] = None

    def size(self) -> int:
        """How many bytes the body has."""
        return len(self.body) if isinstance(self.body, bytes) else self.length or 0


class Work:
    """Work of which an answer comes. `go_on` does a part of it and answers None, or the answer.

    It is called again and again with the time at which it is to stop, by the clock `time.perf_counter`. What cannot be
    cut is called once, in a thread.
    """

    is_whole = False  # whether it cannot be cut

    def held(self) -> int:
        """How many bytes of the answer are there."""
        return 0

    def go_on(self, until: float) -> Optional[Answer]:
        """A part of the work."""
        raise NotImplementedError


Answers = Callable[[Request], Union[Answer, Work]]
Log = Callable[[str, str, int, int, float], None]  # address, request line, status, bytes of the body, seconds


class Unfit(Exception):
    """What came is no request that is answered: the status, the name and the words of the refusal."""

    def __init__(self, status: int, name: str, words: str) -> None:
        super().__init__(status, name, words)
        self.status, self.name, self.words = status, name, words


def read_head(head: bytes) -> Tuple[Request, bool]:
    """The request of a head, without the empty line at its end, and whether the connection stays. Raises Unfit.

    >>> request, stays = read_head(b"GET /a?b=c HTTP/1.1\\r\\nHost: example.org\\r\\nX: y \\r\\n")
    >>> request, stays
    (Request(method='GET', path='/a', query='b=c', fields={'host': 'example.org', 'x': 'y'}), True)
    >>> read_head(b"GET /a HTTP/1.1\\r\\nHost : example.org\\r\\n")
    Traceback (most recent call last):
    listening.Unfit: (400, 'BadRequest', 'a field is not NAME: VALUE')
    """
    line, _, rest = head.partition(b"\r\n")
    if len(line) > MOST_LINE:
        raise Unfit(414, "LongLine", "the request line has more than %d bytes" % MOST_LINE)
    spelled = LINE.fullmatch(line)
    if not spelled:
        raise Unfit(400, "BadRequest", "the request line is not METHOD PATH HTTP/1.1")
    if not HEAD.fullmatch(rest):
        raise Unfit(400, "BadRequest", "a field is not NAME: VALUE")
    fields: Dict[str, str] = {}
    for field in rest.decode("latin-1").split("\r\n")[:-1]:
        name, _, value = field.partition(":")
        name, value = name.lower(), value.strip("\t ")
        if name in fields and name in ("host", "content-length", "range"):
            raise Unfit(400, "BadRequest", "the field %s is there twice" % name)
        fields[name] = value if name not in fields else fields[name] + ", " + value
    if rest.count(b"\n") > MOST_FIELDS:
        raise Unfit(431, "LongHead", "the head has more than %d fields" % MOST_FIELDS)
    method, target, minor = (part.decode("ascii") for part in spelled.groups())
    refuse_unfit(fields, minor)
    kept = "close" not in fields.get("connection", "").lower() and minor == "1"
    return Request(method, *path_of(target), fields), kept


def refuse_unfit(fields: Dict[str, str], minor: str) -> None:
    """Raises Unfit where the fields of a head of HTTP/1.0 or 1.1 do not fit."""
    if minor == "1" and "host" not in fields:
        raise Unfit(400, "BadRequest", "the field host is missing")
    if not AUTHORITY.fullmatch(fields.get("host", "")):
        raise Unfit(400, "BadRequest", "the field host is no name of a host")
    if "transfer-encoding" in fields or fields.get("content-length", "0") != "0":
        raise Unfit(413, "Body", "a request has no body here")


def path_of(target: str) -> Tuple[str, str]:
    """Path and query of the target of a request, which may be an address. Raises Unfit.

    >>> path_of("/a?b?c"), path_of("http://example.org/a"), path_of("*")
    (('/a', 'b?c'), ('/a', ''), ('*', ''))
    """
    if target[:7].lower() == "http://":
        target = "/" + target[7:].partition("/")[2]
    path, _, query = target.partition("?")
    if not path.startswith("/") and path != "*":
        raise Unfit(400, "BadRequest", "the path does not begin with /")
    return path, query


def refusal(status: int, name: str, words: str, *fields: Tuple[str, str]) -> Answer:
    """The answer that refuses a request: a line with name and words."""
    told: Fields = [("Content-Type", "text/plain; charset=utf-8"), ("Cache-Control", "no-store"), *fields]
    return Answer(status, told, ("%s: %s\n" % (name, words)).encode())


# ---- a connection


class Connection(asyncio.Protocol):
    """A connection: a request, its answer, and so on. `due` is when it is closed unless something happens."""

    def __init__(self, server: Server) -> None:
        self.server, self.held, self.due = server, b"", 0.0
        self.is_busy = self.is_ending = self.is_full = self.is_half = False
        self.request_line, self.began, self.since = "", 0.0, 0.0
        self.status = self.size = self.kept = 0  # of the answer: its status, how long its body is, and how much is kept
        self.pieces: Iterator[bytes] = iter(())

    # -- what happens

    def connection_made(self, transport: Any) -> None:
        """Somebody has come."""
        self.transport, self.peer = transport, (transport.get_extra_info("peername") or ("-",))[0]
        transport.set_write_buffer_limits(high=0)
        transport.get_extra_info("socket").setsockopt(socket.IPPROTO_TCP, socket.TCP_NODELAY, 1)
        self.wait(HEAD_SECONDS)
        self.server.admit(self)

    def data_received(self, data: bytes) -> None:
        """Bytes have come."""
        if self.is_ending and not self.is_busy:
            return
        if self.is_busy:
            self.held += data
            if len(self.held) > MOST_HEAD:
                self.transport.pause_reading()
            return
        if not self.held:
            self.wait(HEAD_SECONDS)
        self.held = (self.held + data).lstrip(b"\r\n")  # empty lines may stand in front of a request
        self.next_request()

    def eof_received(self) -> bool:
        """No more will come; what was asked for is answered still."""
        self.is_half = True
        if not self.is_busy and not self.is_ending:
            self.server.loop.call_soon(self.go_on)
        return self.is_busy or not self.is_ending

    def connection_lost(self, fault: Optional[Exception]) -> None:
        """Nobody is there any more."""
        self.is_ending = True
        self.server.leave(self)

    def pause_writing(self) -> None:
        """What was sent is not taken yet."""
        self.is_full = True

    def resume_writing(self) -> None:
        """What was sent is taken."""
        self.is_full = False
        if self.is_busy:
            self.send()

    def wait(self, seconds: float) -> None:
        """Gives so much time for what comes next."""
        self.since = time.monotonic()
        self.due = self.since + seconds

    # -- requests

    def next_request(self) -> None:
        """Answers the next request, if it is there."""
        head, end, rest = self.held.partition(b"\r\n\r\n")
        if not end and len(self.held) <= MOST_HEAD:
            if b"\n" in self.held or len(self.held) <= MOST_LINE:
                if self.is_half:
                    self.transport.close()
                return
        self.is_busy, self.began = True, time.perf_counter()
        self.request_line = head.partition(b"\r\n")[0][: 2 * MOST_LINE].decode("latin-1")
        try:
            if not end and b"\n" not in self.held[:MOST_LINE]:
                raise Unfit(414, "LongLine", "the request line has more than %d bytes" % MOST_LINE)
            if not end or len(head) > MOST_HEAD:
                raise Unfit(431, "LongHead", "the head has more than %d bytes" % MOST_HEAD)
            self.held = rest
            request, kept = read_head(head + b"\r\n")
        except Unfit as unfit:
            self.is_ending = True
            self.answer(refusal(unfit.status, unfit.name, unfit.words), True)
            return
        self.is_ending = not kept
        self.due = float("inf")
        self.server.answer(self, request)

    def answer(self, answer: Answer, with_body: bool) -> None:
        """Sends an answer, of which a HEAD request gets no body."""
        if self.transport.is_closing():
            return
        size = answer.size()
        lines = "".join(["%s: %s\r\n" % field for field in answer.fields])
        if answer.status not in WITHOUT_BODY:
            lines += "Content-Length: %d\r\n" % size
        if self.is_ending:
            lines += "Connection: close\r\n"
        front = "HTTP/1.1 %d %s\r\nDate: %s\r\n" % (answer.status, REASONS[answer.status], self.server.date)
        head = (front + self.server.always + lines + "\r\n").encode("latin-1")
        self.status, self.size = answer.status, size if with_body else 0
        self.kept = self.size if isinstance(answer.body, bytes) else PIECE
        self.server.held += self.kept
        if not with_body:
            self.pieces = iter((head,))
        elif isinstance(answer.body, bytes):
            self.pieces = iter((head + answer.body,)) if size <= PIECE else cut(head, answer.body)
        else:
            self.pieces = behind(head, answer.body)
        self.send()

    def send(self) -> None:
        """Sends pieces as long as they are taken; behind the last one comes the next request."""
        for piece in self.pieces:
            self.wait(SEND_SECONDS)
            self.transport.write(piece)
            if self.is_full:
                return
        seconds = time.perf_counter() - self.began
        self.server.log(self.peer, self.request_line, self.status, self.size, seconds)
        self.server.held, self.kept = self.server.held - self.kept, 0
        self.is_busy, self.pieces = False, iter(())
        if self.is_ending or self.is_half and not self.held:
            self.end()
        else:
            self.wait(HEAD_SECONDS if self.held else IDLE_SECONDS)
            self.transport.resume_reading()
            if self.held:
                self.server.loop.call_soon(self.go_on)

    def go_on(self) -> None:
        """Answers a request that came behind another one."""
        if not self.is_busy and not self.is_ending and not self.transport.is_closing():
            self.next_request()

    def end(self) -> None:
        """Ends the connection, but takes for a while what still comes, so that the answer is not lost by it."""
        self.wait(LINGER)
        if self.is_half:
            self.transport.close()
        elif not self.transport.is_closing():
            self.transport.write_eof()


def cut(head: bytes, body: bytes) -> Iterator[bytes]:
    """A head and a long body in pieces."""
    yield head
    for at in range(0, len(body), PIECE):
        yield body[at : at + PIECE]


def behind(head: bytes, pieces: Iterator[bytes]) -> Iterator[bytes]:
    """A head and the pieces behind it."""
    yield head
    yield from pieces


# ---- the server


class Limits(NamedTuple):
    """What a process has at most: connections, work under way, and bytes of answers that are made or sent."""

    connections: int = 1000
    works: int = 64
    held: int = 2**28


class Server:
    """Connections and the work for them. `each_tick` is called twice a second; each answer has the fields `always`."""

    def __init__(
        self, answers: Answers, log: Log, each_tick: Callable[[], None], always: Fields, limits: Limits
    ) -> None:
        self.answers, self.log, self.each_tick, self.limits = answers, log, each_tick, limits
        self.always = "".join("%s: %s\r\n" % field for field in always)
        self.connections: Dict[Connection, None] = {}
        self.works: Dict[Connection, Work] = {}
        self.row: Deque[Tuple[Connection, Work, bool]] = deque()  # works that are gone on with, one slice at a time
        self.held, self.date = 0, formatdate(usegmt=True)
        self.threads = ThreadPoolExecutor(AT_ONCE)

    # -- connections

    def admit(self, connection: Connection) -> None:
        """Takes a connection in; where they are too many, the one that has been silent longest is closed."""
        self.connections[connection] = None
        if len(self.connections) > self.limits.connections:
            silent = min((one for one in self.connections if not one.is_busy), key=lambda one: one.since)
            self.leave(silent)
            silent.transport.abort()

    def leave(self, connection: Connection) -> None:
        """Lets a connection go, and what was under way for it."""
        self.connections.pop(connection, None)
        self.works.pop(connection, None)
        self.held, connection.kept = self.held - connection.kept, 0

    def tick(self) -> None:
        """Closes the connections for which it is time."""
        self.date = formatdate(usegmt=True)
        now = time.monotonic()
        for connection in [one for one in self.connections if one.due < now]:
            connection.transport.abort()
        self.each_tick()
        self.loop.call_later(TICK, self.tick)

    # -- work

    def answer(self, connection: Connection, request: Request) -> None:
        """Answers a request, at once or when its work is done."""
        with_body = request.method != "HEAD"
        found = guarded(lambda: self.answers(request))
        if not isinstance(found, Work):
            connection.answer(found or busy(), with_body)
        elif len(self.works) >= self.limits.works or self.held >= self.limits.held:
            connection.answer(busy(), with_body)
        else:
            self.works[connection] = found
            if found.is_whole:
                self.loop.create_task(self.go_apart(connection, found, with_body))
            elif self.goes_on(connection, found, with_body):
                self.row.append((connection, found, with_body))
                if len(self.row) == 1:
                    self.loop.call_soon(self.next_slice)

    def next_slice(self) -> None:
        """Goes on with the work whose turn it is."""
        one = self.row.popleft()
        if self.goes_on(*one):
            self.row.append(one)
        if self.row:
            self.loop.call_soon(self.next_slice)

    def goes_on(self, connection: Connection, work: Work, with_body: bool) -> bool:
        """Does a slice of some work; answers whether there is more to do."""
        if connection not in self.works:
            return False
        answer = guarded(lambda: work.go_on(time.perf_counter() + SLICE))
        if answer is None and self.held + sum(one.held() for one in self.works.values()) > self.limits.held:
            answer = busy()
        if answer is None:
            return True
        self.works.pop(connection)
        connection.answer(answer, with_body)
        return False

    async def go_apart(self, connection: Connection, work: Work, with_body: bool) -> None:
        """Does work in a thread, unless nobody waits for it any more once it is its turn."""

        def done() -> Optional[Answer]:
            """The answer."""
            return guarded(lambda: work.go_on(float("inf")) if connection in self.works else None)

        answer = await self.loop.run_in_executor(self.threads, done)
        if self.works.pop(connection, None):
            connection.answer(answer or busy(), with_body)

    # -- from beginning to end

    async def run(self, listener: socket.socket) -> None:
        """Serves until a signal comes; answers that are under way then are sent."""
        self.loop, stopped = asyncio.get_running_loop(), asyncio.Event()
        for number in (signal.SIGTERM, signal.SIGINT):
            self.loop.add_signal_handler(number, stopped.set)
        server = await self.loop.create_server(lambda: Connection(self), sock=listener, backlog=BACKLOG)
        self.tick()
        await stopped.wait()
        server.close()
        end = time.monotonic() + LAST_SECONDS
        while any(one.is_busy for one in self.connections) and time.monotonic() < end:
            await asyncio.sleep(TICK / 10)
        for connection in list(self.connections):
            connection.transport.abort()


def guarded(call: Callable[[], T]) -> Union[T, Answer]:
    """What a call answers; a fault of it is an answer too, and is told on standard error."""
    try:
        return call()
    except MemoryError:
        return busy()
    except Exception as fault:
        outputs.tell("listening.py", "a fault: %s: %s" % (type(fault).__name__, str(fault)[:200]))
        return refusal(500, "Fault", "the request could not be answered")


def busy() -> Answer:
    """The answer where there is too much to do."""
    return refusal(503, "Busy", "there is too much to do just now", ("Retry-After", "1"))
