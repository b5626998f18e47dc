"""A file by ranges of its bytes: one on a server, by HTTP, or one on the disk. Shared by the scripts.

A server that errs, lies or stalls is found out here as far as its answers go, by name (docs/HOSTING.md); what the bytes
are worth is for others to judge. Ranges come six at a time, over connections that are kept. What is asked for is
counted, and there are limits on bytes, requests and seconds.
"""
from __future__ import annotations

import functools
import http.client
import io
import os
import queue
import re
import socket
import ssl
import stat
import threading
import time
from collections import deque
from contextlib import suppress
from typing import Any, Callable, Deque, Iterator, List, NamedTuple, Optional, Tuple, TypeVar, Union
from urllib.parse import urljoin, urlsplit

if __package__:
    from .mrtree_check import Ended, __version__
else:
    from mrtree_check import Ended, __version__

Place = Tuple[int, int]  # a range: the place of its first byte, and the place behind its last one
T = TypeVar("T")

AT_ONCE = 6  # requests
PATIENCE = 30  # seconds without a byte, after which a server is taken for dead
MOST_LED = 5  # times that a server may lead on to another address
MOST_TIMES, MOST_MORE = 8, 2**20  # an answer has at most so many times the bytes of its range, and so many more
LONGER = "the answer is longer than its range"
MOST_TOLD = 200  # letters of what is told of a fault, some of which a server may have chosen
LED = (301, 302, 303, 307, 308)  # the statuses by which it does
PORT = {False: 80, True: 443}  # without TLS, and with it, where an address names none
HEADERS = {"Accept-Encoding": "identity", "User-Agent": "mrtree-ask/" + __version__}
RANGE = re.compile(r"bytes ([0-9]{1,19})-([0-9]{1,19})/([0-9]{1,19}|\*)", re.IGNORECASE)


class Failed(Ended):
    """A file cannot be had: by which name that is known, its address, and what is told of it. The status is 7.

    >>> print(Failed("Redirect", "m", "led to \\x1b[2J"))
    failed Redirect m: led to ?[2J
    """

    def __init__(self, name: str, address: str, words: str) -> None:
        shown = "".join(letter if letter.isprintable() else "?" for letter in " ".join(words.split()))
        self.name, self.address, self.words = name, address, shown[:MOST_TOLD]
        super().__init__(7, "failed %s %s: %s" % (name, address, self.words))

    def __str__(self) -> str:
        return self.line


class Limits(NamedTuple):
    """The most bytes and requests that are asked for in all, and the most seconds that this takes."""

    bytes: int = 2**30
    requests: int = 10000
    seconds: int = 600


class Meter:
    """What was asked for, and what of the limits is left. Several files may have one meter.

    `trips` counts how often it was waited for what was asked for at once.
    """

    def __init__(self, limits: Limits = Limits()) -> None:
        self.limits, self.end, self.lock = limits, time.monotonic() + limits.seconds, threading.Lock()
        self.bytes = self.requests = self.trips = 0

    def spend(self, requests: int, size: int, address: str) -> None:
        """Counts requests for so many bytes. Raises Failed (MostBytes, MostRequests, MostSeconds) before they are sent.

        >>> meter = Meter(Limits(bytes=10))
        >>> meter.spend(2, 10, "m")
        >>> meter.spend(1, 1, "m")
        Traceback (most recent call last):
        ranges.Failed: failed MostBytes m: more than 10 bytes
        """
        self.left(address)
        with self.lock:
            if self.requests + requests > self.limits.requests:
                raise Failed("MostRequests", address, "more than %d requests" % self.limits.requests)
            if self.bytes + size > self.limits.bytes:
                raise Failed("MostBytes", address, "more than %d bytes" % self.limits.bytes)
            self.requests, self.bytes = self.requests + requests, self.bytes + size

    def left(self, address: str) -> float:
        """How many seconds are left. Raises Failed (MostSeconds) where none is."""
        left = self.end - time.monotonic()
        if left <= 0:
            raise Failed("MostSeconds", address, "more than %d seconds" % self.limits.seconds)
        return left


# ---- several things at once


def side_by_side(tasks: List[Callable[[], T]], at_once: int, left: Callable[[], float]) -> Iterator[Tuple[int, T]]:
    """What tasks give, as it comes, each behind its number in the list: so many at once, in threads of their own.

    Raises what the first one raises that fails, and begins no other then. `left` says how long one may wait, or raises.

    >>> sorted(side_by_side([lambda: "a", lambda: "b", lambda: "c"], 2, lambda: 9.0))
    [(0, 'a'), (1, 'b'), (2, 'c')]
    """
    waiting = deque(enumerate(tasks))
    come: queue.SimpleQueue[Tuple[int, Any]] = queue.SimpleQueue()
    for _ in range(min(at_once, len(tasks))):
        threading.Thread(target=work, args=(waiting, come), daemon=True).start()
    try:
        for _ in tasks:
            at, found = next_of(come, left)
            if isinstance(found, BaseException):
                raise found
            yield at, found
    finally:
        waiting.clear()


def work(waiting: Deque[Tuple[int, Callable[[], Any]]], come: Any) -> None:
    """Does task after task, as long as some are waiting."""
    with suppress(IndexError):
        while True:
            at, task = waiting.popleft()
            try:
                found = task()
            except BaseException as fault:  # whoever waits for it has to be told of any
                come.put((at, fault))
                return
            come.put((at, found))


def next_of(come: Any, left: Callable[[], float]) -> Tuple[int, Any]:
    """What comes next."""
    while True:
        wait = left()
        with suppress(queue.Empty):
            return come.get(timeout=min(wait, PATIENCE))


# ---- a file on the disk


class OnDisk:
    """A file on the disk, by ranges."""

    def __init__(self, name: str, meter: Meter) -> None:
        self.name, self.meter, self.at_once = name, meter, 1

    def many(self, places: List[Place]) -> Iterator[Tuple[int, bytes]]:
        """The bytes of each range, behind its number in the list; fewer where the file ends. Raises Failed."""
        self.meter.spend(len(places), sum(end - start for start, end in places), self.name)
        self.meter.trips += 1
        try:
            if not stat.S_ISREG(os.stat(self.name).st_mode):
                raise Failed("NoFile", self.name, "it is no file with bytes of its own")
            with open(self.name, "rb") as file:
                for at, (start, end) in enumerate(places):
                    file.seek(start)
                    yield at, file.read(end - start)
        except FileNotFoundError:
            raise Failed("NoFile", self.name, "missing") from None
        except (OSError, ValueError) as fault:
            raise Failed("NoFile", self.name, told(fault)) from None


# ---- a file on a server


class Address(NamedTuple):
    """Where a file is: `secret` is whether the way there is encrypted."""

    word: str
    secret: bool
    host: str
    port: int
    path: str


def is_address(word: str) -> bool:
    """Whether a word is meant as an address, and not as the name of a file.

    >>> [is_address(word) for word in ("http://a/b", "HTTPS:", "ftp://a", "a.map", "C:/a.map", "-")]
    [True, False, True, False, False, False]
    """
    return re.match(r"[A-Za-z][A-Za-z0-9+.-]*://", word) is not None


def read_address(word: str) -> Address:
    """The address that a word spells. Raises ValueError, with what is wrong.

    >>> read_address("https://example.org:8443/maps/a.map?v=1#part")[1:]
    (True, 'example.org', 8443, '/maps/a.map?v=1')
    >>> read_address("http://[::1]/a.map")[1:]
    (False, '::1', 80, '/a.map')
    >>> read_address("ftp://example.org/a.map")
    Traceback (most recent call last):
    ValueError: an address begins with http:// or https://
    """
    if not re.match("https?://", word, re.IGNORECASE):
        raise ValueError("an address begins with http:// or https://")
    if not re.fullmatch("[!-~]+", word):
        raise ValueError("an address is of visible letters of ASCII; others are spelled with %")
    try:
        parts = urlsplit(word)
        host, port = parts.hostname, parts.port
    except ValueError:
        host, port = None, None
    if not host or "@" in parts.netloc:
        raise ValueError("an address has the name of a host, and neither a user's name nor a password")
    path = (parts.path or "/") + (parts.query and "?" + parts.query)
    secret = parts.scheme.lower() == "https"
    return Address(word, secret, host, PORT[secret] if port is None else port, path)


def server_of(address: Address) -> Tuple[bool, str, Optional[int]]:
    """What tells the server of an address from others.

    >>> server_of(read_address("https://example.org/a")) == server_of(read_address("https://EXAMPLE.org/b"))
    True
    """
    return address.secret, address.host, address.port


def told(fault: BaseException) -> str:
    """What the system says of a fault."""
    return getattr(fault, "strerror", None) or str(fault) or type(fault).__name__


class Overlong(Exception):
    """An answer has more bytes than may be."""


class Wire(io.RawIOBase):
    """What comes by a socket, so many bytes at most: each piece is waited for as long as `left` says."""

    def __init__(self, link: socket.socket, left: Callable[[], float], most: int) -> None:
        self.link, self.raw, self.left, self.most = link, link.makefile("rb", buffering=0), left, most

    def readable(self) -> bool:
        """It is to be read."""
        return True

    def readinto(self, buffer: Any) -> Optional[int]:
        """Puts the next piece into a buffer; answers its length. Raises Overlong."""
        self.link.settimeout(self.left())
        size = self.raw.readinto(buffer)
        self.most -= size or 0
        if self.most < 0:
            raise Overlong
        return size

    def close(self) -> None:
        """Lets go of the socket."""
        self.raw.close()
        super().close()


class Reply(http.client.HTTPResponse):
    """An answer whose socket is waited for as long as `left` says, of at most so many bytes with its head.

    Python's own reader goes by what a server says: where that is a chunk of -1 bytes, it reads for ever.
    """

    def __init__(self, left: Callable[[], float], most: int, link: socket.socket, *words: Any, **more: Any) -> None:
        super().__init__(link, *words, **more)
        self.fp.close()
        self.fp = io.BufferedReader(Wire(link, left, most))


Link = Tuple[Tuple[bool, str, Optional[int]], http.client.HTTPConnection]  # a connection, behind the server's name


class OnServer:
    """A file on a server, by ranges, so many at once. Its connections are kept for the next ranges, in a list.

    Several files may have one such list.
    """

    def __init__(self, word: str, meter: Meter, free: Optional[List[Link]] = None, at_once: int = AT_ONCE) -> None:
        self.name, self.meter, self.address, self.at_once = word, meter, read_address(word), at_once
        self.free: List[Link] = [] if free is None else free
        self.tls = ssl.create_default_context() if self.address.secret else None

    def failed(self, name: str, words: str) -> Failed:
        """The fault of this name."""
        return Failed(name, self.name, words)

    def patience(self) -> float:
        """How long it is waited for the next byte. Raises Failed (MostSeconds)."""
        return min(PATIENCE, self.meter.left(self.name))

    def many(self, places: List[Place]) -> Iterator[Tuple[int, bytes]]:
        """The bytes of each range as they come, behind its number in the list; fewer where the file ends.

        Raises Failed, at the first that fails.
        """
        self.meter.spend(len(places), sum(end - start for start, end in places), self.name)
        self.meter.trips += 1
        if len(places) == 1:
            yield 0, self.one(places[0])
            return
        tasks = [functools.partial(self.one, place) for place in places]
        yield from side_by_side(tasks, self.at_once, lambda: self.meter.left(self.name))

    def one(self, place: Place) -> bytes:
        """The bytes of a range, fewer where the file ends. Raises Failed."""
        try:
            for _ in range(MOST_LED + 1):
                address = self.address
                link, reply = self.sent(address, place)
                if reply.status not in LED:
                    data = self.body(reply, place)
                    if reply.isclosed():
                        self.free.append((server_of(address), link))
                    else:
                        link.close()
                    return data
                link.close()
                self.address = self.led_to(address, reply.headers.get("location", ""))
                self.meter.spend(1, 0, self.name)
            raise self.failed("Redirect", "led to " + self.address.word)
        except Overlong:
            raise self.failed("Longer", LONGER) from None
        except http.client.IncompleteRead:
            raise self.failed("Shorter", "the answer is shorter than its range") from None
        except socket.timeout:
            self.meter.left(self.name)
            raise self.failed("NoAnswer", "no answer for %d seconds" % PATIENCE) from None
        except (OSError, http.client.HTTPException, ValueError) as fault:
            raise self.failed("NoAnswer", told(fault)) from None

    def sent(self, address: Address, place: Place) -> Tuple[http.client.HTTPConnection, Reply]:
        """A connection on which a range was asked for, and the head of the answer.

        A kept connection may be closed by the server meanwhile. So where one fails, it is made anew, once.
        """
        kept = [one for one in self.free if one[0] == server_of(address)]
        link = self.new_link(address)
        with suppress(ValueError, IndexError):
            self.free.remove(kept[-1])
            link = kept[-1][1]
        is_kept = link.sock is not None
        try:
            return link, self.asked(link, address, place)
        except (ConnectionError, http.client.BadStatusLine):
            link.close()
            if not is_kept:
                raise
        return link, self.asked(link, address, place)

    def new_link(self, address: Address) -> http.client.HTTPConnection:
        """A connection, which is made once something is asked for."""
        if address.secret:
            return http.client.HTTPSConnection(address.host, address.port, context=self.tls)
        return http.client.HTTPConnection(address.host, address.port)

    def asked(self, link: http.client.HTTPConnection, address: Address, place: Place) -> Reply:
        """The head of the answer to a request for a range."""
        link.timeout = self.patience()
        if link.sock is not None:
            link.sock.settimeout(link.timeout)
        most = MOST_MORE + MOST_TIMES * (place[1] - place[0])
        link.response_class = functools.partial(Reply, self.patience, most)
        link.request("GET", address.path, headers={**HEADERS, "Range": "bytes=%d-%d" % (place[0], place[1] - 1)})
        return link.getresponse()

    def led_to(self, address: Address, word: str) -> Address:
        """The address to which a server leads. Raises Failed (Redirect) where it may not."""
        target, led = word, None
        with suppress(ValueError):
            target = urljoin(address.word, word)
            led = read_address(target)
        if not word or led is None or led.secret != address.secret:
            raise self.failed("Redirect", "led to " + (target if word else "no address"))
        return led

    def body(self, reply: Reply, place: Place) -> bytes:
        """The bytes of an answer to a request for a range. Raises Failed."""
        if reply.status == 416 or reply.status == 200 and not reply.length and not reply.read(1):
            return b""  # the file ends before the range begins, or has no bytes at all
        if reply.status != 206:
            words = "the server gives no ranges" if reply.status == 200 else "status %d" % reply.status
            raise self.failed("NoRanges" if reply.status == 200 else "Status", words)
        encoding = ", ".join(reply.headers.get_all("content-encoding", []))
        if encoding.strip().lower() not in ("", "identity"):
            raise self.failed("Encoded", "the answer is encoded: " + encoding)
        size = self.size_of(", ".join(reply.headers.get_all("content-range", [])), place)
        told_size = size if reply.length is None else reply.length
        data = reply.read(size + 1) if told_size == size else b""
        if told_size > size or len(data) > size:
            raise self.failed("Longer", LONGER)
        if len(data) < size:
            raise self.failed("Shorter", "the answer is shorter than its range")
        return data

    def size_of(self, word: str, place: Place) -> int:
        """How many bytes an answer has by its Content-Range. Raises Failed (OtherRange) where that is not as asked for.

        >>> source = OnServer("http://example.org/a.map", Meter())
        >>> source.size_of("bytes 8-15/4096", (8, 16)), source.size_of("bytes 8-9/10", (8, 16))
        (8, 2)
        >>> source.size_of("bytes 8-9/4096", (8, 16))
        Traceback (most recent call last):
        ranges.Failed: failed OtherRange http://example.org/a.map: another range than was asked for: bytes 8-9/4096
        """
        said = RANGE.fullmatch(word)
        if said:
            first, last = int(said[1]), int(said[2])
            is_cut = said[3] != "*" and last == int(said[3]) - 1 and first <= last < place[1] - 1
            if first == place[0] and (last == place[1] - 1 or is_cut):
                return last + 1 - first
        raise self.failed("OtherRange", "another range than was asked for: " + (word or "none is told"))


Source = Union[OnDisk, OnServer]


def source_of(word: str, meter: Meter, free: Optional[List[Link]] = None, at_once: int = AT_ONCE) -> Source:
    """The file at an address or of a name. Raises ValueError where an address is none.

    Of a server so many ranges come at once, over connections in a list that others may have too.
    """
    return OnServer(word, meter, free, at_once) if is_address(word) else OnDisk(word, meter)
