"""The host: its proofs beside those of the program while maps are exchanged, what it answers to each request, hostile
and slow ones, as many processes, behind nginx, and as a WSGI application under the servers that are there."""
import contextlib
import http.client
import io
import itertools
import json
import os
import random
import shutil
import signal
import socket
import subprocess
import sys
import tempfile
import threading
import time
import wsgiref.validate
from typing import Any, Callable, Dict, List, NamedTuple, Optional, Tuple

from bench import CLIENTS, Bench, read, write
import ask
import chances
import mrtree_ask
import mrtree_check
import mrtree_host
import proofs
import servers
import tiles

SLACK = 20  # seconds that anything may take on a busy machine
NOT = "0" * 64  # a root digest of no map
FOR_EVER = "public, max-age=31536000, immutable"
WINDOW = "window:-5,-5,5,5"


# ---- running hosts, and asking them


class Running:
    """A host as a process of its own."""

    def __init__(self, *words: str) -> None:
        call = [sys.executable, os.path.join(CLIENTS, "mrtree_host.py"), "--port", "0", *words]
        self.child = subprocess.Popen(call, stderr=subprocess.PIPE, text=True)
        self.told: List[str] = []
        for line in self.child.stderr or ():
            self.told.append(line)
            if "listens on" in line:
                break
        self.port = int(self.told[-1].rsplit(":", 1)[1].rstrip("/\n"))
        self.address = "http://127.0.0.1:%d" % self.port
        threading.Thread(target=self.listen, daemon=True).start()

    def listen(self) -> None:
        """Takes what the host tells later."""
        for line in self.child.stderr or ():
            self.told.append(line)

    def __enter__(self) -> "Running":
        return self

    def __exit__(self, *_: Any) -> None:
        self.end()

    def end(self) -> int:
        """Tells it to end; answers its status."""
        self.child.send_signal(signal.SIGTERM)
        return self.child.wait(SLACK)

    def waits_for(self, words: str) -> bool:
        """Whether the host tells this within some time."""
        return within(lambda: any(words in line for line in self.told))


def within(is_so: Callable[[], bool], seconds: float = SLACK) -> bool:
    """Whether something is so within some time."""
    end = time.monotonic() + seconds
    while time.monotonic() < end:
        if is_so():
            return True
        time.sleep(0.02)
    return False


class Reply(NamedTuple):
    """An answer: its status, its fields by lower-case names, and its body."""

    status: int
    fields: Dict[str, str]
    body: bytes


def asked(
    port: int, path: str, method: str = "GET", fields: Optional[Dict[str, str]] = None, seconds: float = SLACK
) -> Reply:
    """The answer to a request on a connection of its own."""
    link = http.client.HTTPConnection("127.0.0.1", port, timeout=seconds)
    try:
        return on(link, path, method, fields)
    finally:
        link.close()


def on(
    link: http.client.HTTPConnection, path: str, method: str = "GET", fields: Optional[Dict[str, str]] = None
) -> Reply:
    """The answer to a request on a connection."""
    link.request(method, path, headers=fields or {})
    reply = link.getresponse()
    return Reply(reply.status, {name.lower(): value for name, value in reply.getheaders()}, reply.read())


def sent(port: int, data: bytes, seconds: float = SLACK) -> bytes:
    """What comes back for these bytes, up to the end of the connection."""
    got = b""
    with socket.create_connection(("127.0.0.1", port), seconds) as link, contextlib.suppress(OSError):
        link.sendall(data)
        link.shutdown(socket.SHUT_WR)
        while True:
            piece = link.recv(65536)
            if not piece:
                break
            got += piece
    return got


def in_process(names: List[str], path: str, method: str, fields: Dict[str, str]) -> Reply:
    """The answer of the WSGI application, as the standard library's validator lets it pass."""
    began: List[Any] = []
    path, mark, query = path.partition("?")
    environ = {"REQUEST_METHOD": method, "SCRIPT_NAME": "", "PATH_INFO": path, "QUERY_STRING": query}
    environ.update({"SERVER_NAME": "h", "SERVER_PORT": "80", "SERVER_PROTOCOL": "HTTP/1.1", "wsgi.version": (1, 0)})
    environ.update({"wsgi.url_scheme": "http", "wsgi.input": io.BytesIO(), "wsgi.errors": io.StringIO()})
    environ.update({"wsgi.multithread": True, "wsgi.multiprocess": False, "wsgi.run_once": False})
    environ.update({"HTTP_" + name.replace("-", "_").upper(): value for name, value in fields.items()})
    key = (os.getcwd(), *names)
    with contextlib.redirect_stderr(io.StringIO()):
        if key not in MADE:
            MADE[key] = wsgiref.validate.validator(mrtree_host.make_application(names))
        body = MADE[key](environ, lambda status, fields: began.extend((status, fields)))
    whole = b"".join(body)
    body.close()
    return Reply(int(began[0][:3]), {name.lower(): value for name, value in began[1]}, whole)


# ---- proofs beside the program's


def proofs_hold(bench: Bench) -> None:
    """Proofs of answers, counts and joins are those of the program, of many maps at once."""
    chance, made = random.Random(80), []
    sizes = (0, 1, 17, 300, 1500, 5000, 20000) if bench.is_long else (0, 1, 17, 300, 1500)
    for at, (version, size) in enumerate(itertools.product((1, 2), sizes)):
        one = chances.Map(bench, chance, size, size and at % 2 == 1, version)
        os.replace("m", "m%d" % at)
        made.append((one, "m%d" % at))
    with Running(*(name for _, name in made)) as host:
        link = http.client.HTTPConnection("127.0.0.1", host.port, timeout=SLACK)
        for one, name in made:
            for _ in range(200 if bench.is_long else 12):
                question = ask.questions(chance, one)
                bench.program([question.command, name, question.word, "p"])
                reply = on(link, "/%s/%s?query=%s" % (one.root, question.command, question.word))
                bench.holds(reply.status == 200 and reply.body == read("p"), "%s of %s" % (question, one.root))
        second = [(one, name) for one, name in made if one.version == 2]
        for (one, name), (other, name2) in itertools.permutations(second[:4], 2):
            bench.program(["join", name, name2, "p"])
            reply = on(link, "/%s/join?with=%s" % (one.root, other.root))
            bench.holds(reply.status == 200 and reply.body == read("p"), "a join of %s and %s" % (name, name2))
        one = made[3][0]
        said = mrtree_ask.run([one.root, ask.ALL, "%s/%s.map" % (host.address, one.root)])
        is_so = said == mrtree_ask.run([one.root, ask.ALL, "m3"]) and said[0] == 0
        bench.holds(is_so, "asked by pages: %s" % (said[:1],))
        bench.holds(len(json.loads(asked(host.port, "/").body)["maps"]) == len(made), "all maps are listed")


class Exchange(NamedTuple):
    """States of a map, one behind another: their root digests, and the proofs of some queries on each."""

    roots: List[str]
    words: List[str]
    proofs: List[List[bytes]]


def exchange_of(bench: Bench, states: int, queries: int, size: int) -> Exchange:
    """A map and its states behind batches, in the files s0, s1 and so on, with the proofs that `serve` makes."""
    chance, made = random.Random(81), Exchange([], [], [])
    one = chances.Map(bench, chance, size, False, 2)
    made.words.extend(proofs.word_of(one.query()) for _ in range(queries))
    write("s", "".join(word + "\n" for word in made.words).encode())
    os.replace("m", "s0")
    made.roots.append(one.root)
    for batch in range(1, states):
        lines = ["batch %d" % batch] + ["- %d" % record[0] for record in one.records[20 * batch - 20 : 20 * batch]]
        lines += ["+ " + proofs.plain.line_of(one.record(10**6 * batch + at), 2) for at in range(30)]
        write("b", "".join(line + "\n" for line in lines).encode())
        said = bench.program(["apply", "s%d" % (batch - 1), "b", "s%d" % batch])
        made.roots.append(said[1].decode().strip())
    for batch in range(states):
        bench.program(["serve", "s%d" % batch, "s", "u"])
        bundle, at, parts = read("u"), 0, []
        for _ in made.words:
            end = at + 4 + int.from_bytes(bundle[at : at + 4], "big")
            parts.append(bundle[at + 4 : end])
            at = end
        made.proofs.append(parts)
    return made


class Client(threading.Thread):
    """Asks a host for proofs until it is stopped: each has to be that of a state of the map, and none goes back."""

    def __init__(self, port: int, made: Exchange, seed: int) -> None:
        super().__init__()
        self.port, self.made, self.chance = port, made, random.Random(seed)
        self.is_over, self.faults, self.seen = False, [], []  # type: bool, List[str], List[int]

    def run(self) -> None:
        """Asks."""
        link = http.client.HTTPConnection("127.0.0.1", self.port, timeout=SLACK)
        try:
            while not self.is_over:
                self.one(link)
        except (OSError, http.client.HTTPException) as fault:
            self.faults.append("a lost answer: %r" % fault)

    def one(self, link: http.client.HTTPConnection) -> None:
        """Asks once."""
        at = self.chance.randrange(len(self.made.words))
        front = "/" + self.made.roots[self.seen[-1]] if self.seen and self.chance.random() < 0.3 else ""
        reply = on(link, "%s/prove?query=%s" % (front, self.made.words[at]))
        batch = int.from_bytes(reply.body[6:14], "big")
        if reply.status != 200 or batch >= len(self.made.roots) or reply.body != self.made.proofs[batch][at]:
            self.faults.append("%d %r at %s" % (reply.status, reply.body[:60], self.made.words[at]))
        elif reply.fields["etag"] != '"%s"' % self.made.roots[batch]:
            self.faults.append("another tag")
        elif self.seen and (batch < self.seen[-1] or front and batch != self.seen[-1]):
            self.faults.append("it went back")
        else:
            self.seen.append(batch)


def exchanged_hold(bench: Bench) -> None:
    """Maps are renamed to a name under clients: each answer is that of the program, of one state, and none is lost."""
    states, queries, size, least = (9, 200, 20000, 2000) if bench.is_long else (5, 20, 1500, 200)
    made = exchange_of(bench, states, queries, size)
    os.link("s0", "now")
    with Running("now", "--processes", "2") as host:
        clients = [Client(host.port, made, seed) for seed in range(4)]
        for one in clients:
            one.start()
        for batch in range(states):
            if batch:
                os.link("s%d" % batch, "next")
                os.rename("next", "now")
            enough = least * (batch + 1) // states
            within(lambda: sum(len(one.seen) for one in clients) >= enough or any(one.faults for one in clients))
            within(lambda: all(not one.is_alive() or batch in one.seen[-1:] for one in clients))
        for one in clients:
            one.is_over = True
        for one in clients:
            one.join()
        seen, faults = sum((one.seen for one in clients), []), sum((one.faults for one in clients), [])
        is_so = not faults and len(seen) >= least and set(seen) == set(range(states))
        bench.holds(is_so, "maps exchanged under clients: %d answers, %s" % (len(seen), faults[:3]))
        bench.rows += len(seen)
        old = asked(host.port, "/%s/head" % made.roots[0])
        bench.holds(old.status == 404, "a map of long ago: %s" % (old,))
    print("tests/clients: %d proofs of %d maps that were exchanged" % (len(seen), states))


def changed_hold(bench: Bench) -> None:
    """A name that is taken away, one under which no map comes, and a file that is changed in place."""
    chances.Map(bench, random.Random(82), 40, False)
    map_ = read("m")
    with Running("m") as host:
        root = json.loads(asked(host.port, "/head").body)["root"]
        for way, (first, second) in enumerate((("here", "gone"), ("no map", "no map"))):
            os.rename("m", "gone") if first == "here" else (write("x", b"no map"), os.rename("x", "m"))
            both = asked(host.port, "/head"), asked(host.port, "/%s/prove?query=%s" % (root, WINDOW))
            is_so = all(one.status == 200 for one in both)
            bench.holds(is_so, "a map whose name is of another file, %d: %s" % (way, both))
            if first == "here":
                os.rename("gone", "m")
        bench.holds(host.waits_for("m: refused map page 0 Size"), "a file that is no map: %s" % host.told)
        write("x", map_)
        os.rename("x", "m")
        bench.holds(asked(host.port, "/head").status == 200, "the map is there again")
        os.truncate("m", 4096)
        both = asked(host.port, "/head"), asked(host.port, "/%s/head" % root)
        is_so = both[0].status == 503 and both[0].body.startswith(b"Changed: ") and both[1].status == 200
        bench.holds(is_so, "a map that was cut in place: %s" % (both,))
        write("x", map_)
        os.rename("x", "m")
        bench.holds(asked(host.port, "/%s/head" % root).status == 200, "a map in its place")


# ---- requests and answers


class Row(NamedTuple):
    """A request, and what is foretold of its answer: status, what the body begins with, and fields."""

    path: str
    status: int
    body: bytes = b""
    method: str = "GET"
    fields: Dict[str, str] = {}
    told: Dict[str, Optional[str]] = {}


def rows_of(root: str, root2: str, size: int) -> List[Row]:
    """Requests to a host with a map of version 1, whose file has this size, and one of version 2."""
    one, two = "/" + root, "/" + root2
    tag, tag2, ever = '"%s"' % root, '"%s"' % root2, {"cache-control": FOR_EVER}
    window, file, plain = "?query=" + WINDOW, one + ".map", {"content-type": "text/plain; charset=utf-8"}
    octets = {"content-type": "application/octet-stream"}
    none = {**plain, "cache-control": "no-store", "etag": None}
    words, ranged = b"BadWords: ", {"accept-ranges": "bytes", **octets, **ever, "etag": tag}
    rows = [
        Row("/", 200, b'{"maps": [{"root": "%s", ' % root.encode(), told={"cache-control": "no-cache"}),
        Row("/?a", 400, words, told=none),
        Row(one + "/head", 200, b'{"root": "%s", "version": 1, ' % root.encode(), told={"etag": tag, **ever}),
        Row(one + "/head?query=1", 400, words),
        Row(one + "/prove" + window, 200, b"MRVO\1W", told={"etag": tag, **ever, **octets}),
        Row(one + "/prove?query=nearest%3A0%2c0%2C3", 200, b"MRVO\1K"),
        Row("http://example.org" + one + "/prove" + window, 200, b"MRVO\1W"),
        Row(one + "/prove" + window, 200, b"", "HEAD", told={"etag": tag}),
        Row(one + "/prove" + window, 304, b"", fields={"If-None-Match": tag}, told={"etag": tag, **ever}),
        Row(one + "/prove" + window, 304, b"", fields={"If-None-Match": '"a", W/%s' % tag}),
        Row(one + "/prove" + window, 304, b"", fields={"If-None-Match": "*"}),
        Row(one + "/prove" + window, 200, b"MRVO", fields={"If-None-Match": tag2}),
        Row(two + "/prove" + window + "/0000000000000001", 200, b"MRVO\2W"),
        Row(two + "/count" + window, 200, b"MRVO\2C", told={"etag": tag2, **ever}),
        Row(two + "/join?with=" + root2, 200, b"MRJN", told={"etag": '"%s-%s"' % (root2, root2), **ever, **octets}),
        Row(two + "/join?with=" + root2, 304, fields={"If-None-Match": '"%s-%s"' % (root2, root2)}),
        Row(one + "/prove", 400, words + b"behind this path stands ?query=.. and nothing else", told=none),
        Row(one + "/prove?query=", 400, words),
        Row(one + "/prove" + window + "&a=b", 400, words),
        Row(one + "/prove?window=1", 400, words),
        Row(one + "/prove?query=window:1,2", 400, words + b"the query is neither window:x0,y0,x1,y1 nor nearest:x,y,k"),
        Row(one + "/prove?query=window:5,5,1,1", 400, words + b"the sides of the window are out of order"),
        Row(one + "/prove?query=nearest:1,1,1025", 400, words),
        Row(one + "/prove?query=%ff%00", 400, words),
        Row(two + "/count?query=nearest:0,0,3", 400, words + b"a count is of the records inside a window"),
        Row(two + "/join?with=12", 400, words + b"the root digest is not 64 lower-case hexadecimal digits"),
        Row(two + "/join?query=" + root2, 400, words + b"behind this path stands ?with=.. and nothing else"),
        Row(one + "/count" + window, 422, b"NeedsVersion2: needs version 2\n", told=none),
        Row(one + "/prove" + window + "/0000000000000001", 422, b"NeedsVersion2: "),
        Row(two + "/join?with=" + root, 422, b"NeedsVersion2: "),
        Row(one + "/count" + window, 422, b"NeedsVersion2: ", fields={"If-None-Match": tag}),
        Row("/prove" + window, 404, b"NoRoot: ", told=none),
        Row("/" + NOT + "/prove" + window, 404, b"NoMap: ", told=none),
        Row("/" + NOT + ".map", 404, b"NoMap: "),
        Row(two + "/join?with=" + NOT, 404, b"NoMap: "),
        Row("/favicon.ico", 404, b"NoPath: ", told=none),
        Row("/" + root.upper() + "/head", 404, b"NoPath: "),
        Row(one, 404, b"NoPath: "),
        Row(one + "/prove/" + window, 404, b"NoPath: "),
        Row("/../" + root + ".map", 404, b"NoPath: "),
        Row(one + "/prove" + window, 405, b"BadMethod: ", "POST", told={**none, "allow": "GET, HEAD, OPTIONS"}),
        Row("/", 405, b"BadMethod: ", "DELETE"),
        Row(one + "/prove", 204, b"", "OPTIONS", told={"allow": "GET, HEAD, OPTIONS", "content-length": None}),
        Row(one + "/prove", 413, b"Body: ", fields={"Content-Length": "5"}),
        Row(file, 200, b"MRMP\1", told={**ranged, "content-length": str(size)}),
        Row(file, 200, b"", "HEAD", told={**ranged, "content-length": str(size)}),
        Row(file + "?a=b", 400, words),
        Row(file, 304, fields={"If-None-Match": tag, "Range": "bytes=0-1"}),
        Row(file, 416, b"Outside: the file has %d bytes\n" % size, fields={"Range": "bytes=%d-" % size}),
        Row(file, 416, b"Outside", fields={"Range": "bytes=-0"}, told={"content-range": "bytes */%d" % size}),
    ]
    for spelled, start, end in (("0-3", 0, 4), ("4096-", 4096, size), ("-5", size - 5, size), ("1-99999999", 1, size)):
        told = {**ranged, "content-range": "bytes %d-%d/%d" % (start, end - 1, size)}
        told["content-length"] = str(end - start)
        rows.append(Row(file, 206, b"", fields={"Range": "bytes=" + spelled}, told=told))
    for spelled in ("bytes=3-1", "bytes=0-1,4-5", "bytes=a-b", "lines=0-1", "bytes=-", "bytes=" + "1" * 30 + "-"):
        rows.append(Row(file, 200, b"MRMP", fields={"Range": spelled}, told={"content-length": str(size)}))
    rows.append(Row(file, 206, b"MR", fields={"Range": "bytes=0-1", "If-Range": tag}))
    rows.append(Row(file, 200, b"MRMP", fields={"Range": "bytes=0-1", "If-Range": '"other"'}))
    return rows


def row_holds(bench: Bench, row: Row, reply: Reply, map_: bytes, where: str) -> None:
    """A request is answered as foretold."""
    is_so = reply.status == row.status and reply.body.startswith(row.body)
    is_so = is_so and all(reply.fields.get(name) == value for name, value in row.told.items())
    is_so = is_so and reply.fields["access-control-allow-origin"] == "*"
    if row.status == 206:
        first, last = reply.fields["content-range"].split(" ")[1].split("/")[0].split("-")
        is_so = is_so and reply.body == map_[int(first) : int(last) + 1]
    if row.method == "HEAD" or row.status in (204, 304):
        is_so = is_so and reply.body == b""
    if reply.status >= 400 and row.method != "HEAD":
        is_so = is_so and reply.body.count(b"\n") == 1 and reply.body.endswith(b"\n") and len(reply.body) < 200
    shown = reply._replace(body=reply.body[:99])
    bench.holds(is_so, "%s: %s %s %s: %s" % (where, row.method, row.path, row.fields, shown))


def table_holds(bench: Bench) -> None:
    """Each request is answered as the table says, by the host and by the application; heads lead to root digests."""
    chance, roots = random.Random(83), []
    for version in (1, 2):
        roots.append(chances.Map(bench, chance, 300, False, version).root)
        os.replace("m", "m%d" % version)
    map_ = read("m1")
    rows = rows_of(*roots, len(map_))
    with Running("m1", "m2", "--log", "log") as host:
        link = http.client.HTTPConnection("127.0.0.1", host.port, timeout=SLACK)
        for row in rows:
            row_holds(bench, row, on(link, row.path, row.method, row.fields), map_, "the host")
            if "http" not in row.path and row.status != 413:
                reply = in_process(["m1", "m2"], row.path, row.method, row.fields)
                row_holds(bench, row, reply, map_, "the application")
        for root in roots:
            head = json.loads(asked(host.port, "/%s/head" % root).body)
            found = mrtree_check.digest(bytes.fromhex(head["preimage"])).hex()
            bench.holds(found == root == head["root"] and head["records"] == 300, "the head of %s: %s" % (root, head))
        log_holds(bench, host, len(rows))
    heads_hold(bench)
    empty_holds(bench)


def log_holds(bench: Bench, host: Running, requests: int) -> None:
    """The log has a line for each request, without anything but visible letters; it goes on under its name."""
    sent(host.port, b"GET /\x1b[2J\xff\"\\ HTTP/1.1\r\n\r\n")
    within(lambda: len(read("log").splitlines()) >= requests + 3)
    lines = read("log").splitlines()
    is_so = len(lines) == requests + 3 and all(32 <= letter < 127 for line in lines for letter in line)
    bench.holds(is_so, "the log has %d lines, the last of them %s" % (len(lines), lines[-1:]))
    bench.holds(b'"GET /\\x1b[2J\\xff\\x22\\x5c HTTP/1.1" 400 ' in lines[-1], "the last line: %s" % lines[-1])
    os.rename("log", "log.1")
    within(lambda: bool(asked(host.port, "/")) and os.path.exists("log") and len(read("log")) > 0)
    bench.holds(b'"GET / HTTP/1.1" 200 ' in read("log"), "a log under its name: %s" % read("log"))


HEADS = {  # heads of requests by what is wrong, and the status and name that are foretold
    b"GET / HTTP/1.1\r\n\r\n": b"400 Bad Request|BadRequest: the field host is missing",
    b"GET / HTTP/1.1\r\nHost: a\r\nHost: a\r\n\r\n": b"400 Bad Request|BadRequest: the field host is there twice",
    b"GET / HTTP/1.1\r\nHost: a b\r\n\r\n": b"400 Bad Request|BadRequest: the field host is no name of a host",
    b"GET / HTTP/1.1\r\nHost: a\r\n b\r\n\r\n": b"400 Bad Request|BadRequest: a field is not NAME: VALUE",
    b"GET / HTTP/1.1\r\nHost : a\r\n\r\n": b"400 Bad Request|BadRequest: a field is not NAME: VALUE",
    b"GET / HTTP/1.1\r\nHost: a\0\r\n\r\n": b"400 Bad Request|BadRequest: a field is not NAME: VALUE",
    b"GET / HTTP/2.0\r\nHost: a\r\n\r\n": b"400 Bad Request|BadRequest: the request line is not METHOD PATH HTTP/1.1",
    b"GET  / HTTP/1.1\r\nHost: a\r\n\r\n": b"400 Bad Request|BadRequest: the request line is not METHOD PATH HTTP/1.1",
    b"GET a HTTP/1.1\r\nHost: a\r\n\r\n": b"400 Bad Request|BadRequest: the path does not begin with /",
    b"PRI * HTTP/2.0\r\n\r\nSM\r\n\r\n": b"400 Bad Request|BadRequest: the request line is not METHOD PATH HTTP/1.1",
    b"GET / HTTP/1.1\r\nHost: a\r\nTransfer-Encoding: chunked\r\n\r\n": b"413 |Body: a request has no body here",
    b"GET /" + b"a" * 3000 + b" HTTP/1.1\r\nHost: a\r\n\r\n": b"414 |LongLine: the request line has more than 2048",
    b"G" * 5000: b"414 |LongLine: the request line has more than 2048 bytes",
    b"GET / HTTP/1.1\r\nHost: a\r\nA: " + b"a" * 9000: b"431 |LongHead: the head has more than 8192 bytes",
    b"GET / HTTP/1.1\r\nHost: a\r\n" + b"A: a\r\n" * 70 + b"\r\n": b"431 |LongHead: the head has more than 64 fields",
    b"\r\n\r\nGET / HTTP/1.1\r\nHost: a\r\n\r\n": b"200 OK|{",
    b"GET / HTTP/1.0\r\n\r\n": b"200 OK|{",
    b"GET / HTTP/1.1\r\nHost: a\r\nExpect: 100-continue\r\n\r\n": b"200 OK|{",
    b"GET / HTTP/1.1\r\nHost: a\r\n": b"",
}


def heads_hold(bench: Bench) -> None:
    """Heads that do not fit are refused by name and the connection closed; requests in a row are answered."""
    with Running("m1", "m2") as host:
        for head, meant in HEADS.items():
            status, _, body = meant.partition(b"|")
            got = sent(host.port, head)
            is_so = got.startswith(b"HTTP/1.1 " + status) and (b"\r\n\r\n" + body) in got if meant else got == b""
            is_so = is_so and (b"\r\nConnection: close\r\n" in got or not meant or b" 200 " in got)
            bench.holds(is_so, "the head %r: %r" % (head[:60], got[:200]))
        got = sent(host.port, b"GET / HTTP/1.1\r\nHost: a\r\n\r\n" * 3000)
        answers = got.count(b"HTTP/1.1 200 OK")
        bench.holds(answers == 3000, "requests one behind another: %d" % answers)


def empty_holds(bench: Bench) -> None:
    """A map without records, by its name alone, is asked without a root; proofs may have bounds."""
    for version, command in ((1, "build"), (2, "build2")):
        write("r", b"")
        root = bench.program([command, "m", "r"])[1].decode().strip()
        with Running("m", "--most", "22") as host:
            head = json.loads(asked(host.port, "/head").body)
            found = mrtree_check.digest(bytes.fromhex(head["preimage"])).hex()
            bench.holds(found == root, "the head of an empty map: %s" % head)
            reply = asked(host.port, "/prove?query=" + WINDOW)
            bench.program(["prove", "m", WINDOW, "p"])
            is_so = reply.body == read("p") and reply.fields["cache-control"] == "no-cache"
            bench.holds(is_so and reply.fields["etag"] == '"%s"' % root, "an empty map: %s" % (reply,))
            reply = asked(host.port, "/prove?query=nearest:1,1,1")
            is_so = reply[::2] == (422, b"TooLong: the proof has more than 22 bytes\n")
            bench.holds(is_so, "a long proof: %s" % (reply,))
    with Running("m2", "--nearest", "3", "--most", "100") as host:
        root = json.loads(asked(host.port, "/head").body)["root"]
        near = "/prove?query=nearest:0,0,4"
        for path, meant in ((near, b"TooMany: no more than 3 nearest"), ("/join?with=" + root, b"TooLong: ")):
            reply = asked(host.port, path)
            bench.holds(reply.status == 422 and reply.body.startswith(meant), "%s: %s" % (path, reply))


# ---- those who mean no good


METHODS = (b"GET", b"GET", b"GET", b"HEAD", b"POST", b"OPTIONS", b"get", b"G ET")
HOSTS = (b"Host: localhost", b"Host: localhost", b"Host: evil.example", b"", b"Host: a\r\nHost: b")
NAMES = (b"Range", b"If-None-Match", b"If-Range", b"Content-Length", b"Transfer-Encoding", b"Connection", b"Expect")
WORDS = (b"", WINDOW.encode(), ask.ALL.encode(), b"nearest:0,0,1024", b"nearest:1,1,99999", b"window:9999999999,0,0,0")
WORDS += (b"%00" * 500, b"nearest:0,0,3/00000000000000ff")


def hostile(chance: random.Random, root: str) -> bytes:
    """The bytes of a request at random that is no good one."""

    def junk(most: int) -> bytes:
        """Some bytes, of any kind or visible."""
        drawn = chance.randbytes(chance.choice((0, 1, 9, chance.randint(0, most))))
        return drawn if chance.random() < 0.3 else bytes(33 + letter % 94 for letter in drawn)

    method = chance.choice((*METHODS, junk(40)))
    path = chance.choice((b"/", b"/head", b"/prove?query=", b"/count?query=", b"/join?with=", b".map", junk(300)))
    front = chance.choice((b"", b"/" + root.encode(), b"/" + NOT.encode(), b"/" + junk(80), b"http://a", b"//", b"/.."))
    words = (*WORDS, root.encode(), b"window:" + junk(200), b"%" + junk(30), b"a" * chance.randint(0, 5000))
    word = chance.choice(words)
    version = chance.choice((b" HTTP/1.1", b" HTTP/1.1", b" HTTP/1.0", b"", b" HTTP/9", junk(9)))
    line = method + b" " + front + path + word + version
    fields = [chance.choice((*HOSTS, b"Host: " + junk(300)))]
    for _ in range(chance.choice((0, 0, 1, 1, 2, 3, 100))):
        name = chance.choice((*NAMES, b"X" * chance.randint(1, 200), junk(20)))
        value = chance.choice((b"bytes=0-", b"bytes=" + junk(40), b"0", b"5", b"chunked", b"close", junk(900)))
        fields.append(name + b": " + value)
    end = chance.choice((b"\r\n", b"\r\n", b"\r\n", b"\n", b"\r"))
    whole = line + end + end.join(fields) + end + end + chance.choice((b"", b"", junk(2000)))
    return whole[: chance.randint(0, len(whole))] if chance.random() < 0.2 else whole


def hostile_hold(bench: Bench) -> None:
    """A thousand hostile requests are answered or refused, each; none ends the host, and it answers on."""
    chance, counts = random.Random(84), {}  # type: random.Random, Dict[bytes, int]
    root = chances.Map(bench, chance, 1500, False, 2).root
    allowed = {b"200", b"204", b"206", b"304", b"400", b"404", b"405", b"413", b"414", b"416", b"422", b"431"}
    with Running("m") as host:
        for at in range(10000 if bench.is_long else 1000):
            data = hostile(chance, root)
            status = sent(host.port, data)[9:12]
            counts[status] = counts.get(status, 0) + 1
            bench.holds(status in allowed or status == b"", "a hostile request: %r: %r" % (data[:200], status))
            if at % 100 == 0:
                bench.holds(asked(host.port, "/head").status == 200, "the host behind hostile requests")
        is_so = host.child.poll() is None and not any("fault" in line for line in host.told)
        bench.holds(is_so, "told: %s" % host.told[-3:])
        bench.holds(host.end() == 0, "the status of a host that was told to end")
    refused = sum(count for status, count in counts.items() if status >= b"400")
    bench.holds(refused > 450, "hostile requests: %s" % counts)


def bent_hold(bench: Bench) -> None:
    """Of map files with bent pages come proofs, or a refusal by name, and whoever checks takes the honest one alone."""
    chance = random.Random(85)
    for version in (1, 2):
        one = chances.Map(bench, chance, 1500, False, version)
        map_, size = read("m"), mrtree_host.listening and 4096 * version
        question = ask.Question("prove", ask.ALL), ask.Question("prove", "nearest:0,0,9")
        honest = []
        for each in question:
            bench.program([each.command, "m", each.word, "p"])
            honest.append(read("p"))
        for _ in range(300 if bench.is_long else 25):
            bent = bytearray(map_)
            for _ in range(chance.choice((1, 3, 40))):
                at = chance.randrange(size, len(bent))
                at = at // size * size + chance.randrange(80) if chance.random() < 0.7 else at
                bent[at : at + 1] = bytes([chance.choice((0, 255, bent[at] ^ 1, chance.randrange(256)))])
            write("bent", bytes(bent))
            for each, proof in zip(question, honest):
                reply = in_process(["bent"], "/prove?query=" + each.word, "GET", {})
                is_so = reply.status == 500 and reply.body.startswith(b"BadMap: ") or reply.status in (200, 422)
                with contextlib.suppress(mrtree_check.Refused):
                    mrtree_check.check(one.root, each.word, reply.body)
                    is_so = is_so and reply.body == proof
                bench.holds(is_so, "a bent map: %s" % (reply._replace(body=reply.body[:60]),))


# ---- those who are slow


def slow_hold(bench: Bench) -> None:
    """Half-open and slow connections, such that do not read, and long proofs do not keep others waiting."""
    chance = random.Random(86)
    root = chances.Map(bench, chance, 20000 if bench.is_long else 4000, False, 2).root
    with Running("m", "--connections", "50") as host:
        links = [socket.create_connection(("127.0.0.1", host.port), SLACK) for _ in range(45)]
        for at, link in enumerate(links):
            if at % 3 == 1:
                link.sendall(b"GET /%s/pro" % root.encode())
            elif at % 3 == 2:  # it asks for the file and all records, again and again, and reads nothing
                with contextlib.suppress(OSError):
                    link.settimeout(1)
                    both = ("/%s.map" % root, "/prove?query=" + ask.ALL)
                    link.sendall(b"".join(b"GET %s HTTP/1.1\r\nHost: a\r\n\r\n" % one.encode() for one in both) * 20)
        began = time.monotonic()
        for at in range(50):
            if at % 5 == 0:
                with contextlib.suppress(OSError):
                    links[1].sendall(b"v")
            reply = asked(host.port, "/prove?query=" + WINDOW)
            bench.holds(reply.status == 200, "beside slow connections: %s" % (reply[:1],))
        seconds = time.monotonic() - began
        bench.holds(seconds < SLACK, "beside slow connections 50 requests take %.1f s" % seconds)
        more = [socket.create_connection(("127.0.0.1", host.port), SLACK) for _ in range(100)]
        bench.holds(asked(host.port, "/head").status == 200, "beside more connections than there may be")
        closed = sum(is_closed(link) for link in [*links[::3], *more])
        bench.holds(closed >= 60, "of those that say nothing %d are closed" % closed)
        for link in [*links, *more]:
            link.close()
        heavy_hold(bench, host)
    listening = mrtree_host.listening
    times_hold(bench, listening)


def is_closed(link: socket.socket) -> bool:
    """Whether a connection was closed from the other side."""
    link.settimeout(0)
    try:
        return link.recv(1) == b""
    except BlockingIOError:
        return False
    except OSError:
        return True


def heavy_hold(bench: Bench, host: Running) -> None:
    """Long proofs under way, and joins, do not keep a short one waiting; they come whole."""
    root, done = json.loads(asked(host.port, "/head").body)["root"], []  # type: str, List[int]

    def heavy(path: str) -> None:
        """Asks for much."""
        done.append(asked(host.port, path, seconds=6 * SLACK).status)

    paths = ["/prove?query=" + ask.ALL, "/join?with=" + root] * (4 if bench.is_long else 2)
    threads = [threading.Thread(target=heavy, args=(path,)) for path in paths]
    for one in threads:
        one.start()
    waits = []
    while any(one.is_alive() for one in threads):
        began = time.monotonic()
        bench.holds(asked(host.port, "/prove?query=" + WINDOW).status == 200, "a short proof beside long ones")
        waits.append(time.monotonic() - began)
    for one in threads:
        one.join()
    is_so = set(done) == {200} and max(waits, default=0) < SLACK / 4
    bench.holds(is_so, "long proofs: %s, waits %s" % (done, sorted(waits)[-3:]))


def times_hold(bench: Bench, listening: Any) -> None:
    """Who sends half a request, none, or does not take the answer, is let go once it is time."""
    script = """
import sys
sys.path.insert(0, %r)
import listening, mrtree_host
listening.HEAD_SECONDS, listening.IDLE_SECONDS, listening.SEND_SECONDS = 1, 2, 1
sys.exit(mrtree_host.main(["--port", "0", "m"]))
"""
    with tempfile.NamedTemporaryFile("w", suffix=".py", dir=".") as file:
        file.write(script % os.path.abspath(CLIENTS))
        file.flush()
        child = subprocess.Popen([sys.executable, file.name], stderr=subprocess.PIPE, text=True)
        told = [child.stderr.readline(), child.stderr.readline()] if child.stderr else []
        port = int(told[-1].rsplit(":", 1)[1].rstrip("/\n"))
        root = json.loads(asked(port, "/head").body)["root"].encode()
        links = [socket.create_connection(("127.0.0.1", port), SLACK) for _ in range(4)]
        links[1].sendall(b"GET / HT")
        links[2].sendall(b"GET / HTTP/1.1\r\nHost: a\r\n\r\n")
        links[3].sendall(b"GET /%s.map HTTP/1.1\r\nHost: a\r\n\r\n" % root * 200)
        bench.holds(within(lambda: is_closed(links[0]) and is_closed(links[1])), "half a request, or none")
        got = links[2].recv(65536)
        bench.holds(got.startswith(b"HTTP/1.1 200") and within(lambda: is_closed(links[2])), "no next request")
        time.sleep(2)
        total = 0
        with contextlib.suppress(OSError):
            links[3].settimeout(SLACK)
            while True:
                piece = links[3].recv(2**20)
                total += len(piece)
                if not piece:
                    break
        bench.holds(total < 200 * os.path.getsize("m"), "an answer that is not taken: %d bytes" % total)
        child.terminate()
        bench.holds(child.wait(SLACK) == 0, "the host's status")
        for link in links:
            link.close()


# ---- processes, words, servers of others


def processes_hold(bench: Bench) -> None:
    """A process that ends by itself gets another in its place; all end when they are told to, with status 0."""
    chances.Map(bench, random.Random(87), 300, False)
    with Running("m", "--processes", "3") as host:
        def children() -> List[int]:
            """The numbers of the processes."""
            text = read("/proc/%d/task/%d/children" % (host.child.pid, host.child.pid)).decode()
            return [int(word) for word in text.split()]

        if not within(lambda: len(children()) == 3, 5):
            bench.skip("a process of the host that ends: this system does not tell which there are")
            return
        os.kill(children()[0], signal.SIGKILL)
        bench.holds(host.waits_for("a process ended by itself"), "a process that ends: %s" % host.told)
        bench.holds(within(lambda: len(children()) == 3), "the processes: %s" % children())
        bench.holds(all(asked(host.port, "/head").status == 200 for _ in range(20)), "behind a process that ended")
        bench.holds(host.end() == 0, "the status of three processes")
        bench.holds(within(lambda: not is_there(host.port)), "nobody listens any more")


def is_there(port: int) -> bool:
    """Whether somebody listens on a port."""
    try:
        socket.create_connection(("127.0.0.1", port), 1).close()
        return True
    except OSError:
        return False


def words_hold(bench: Bench) -> None:
    """Words that do not fit, files that are no map or not there, a port that is taken: status and line."""
    write("none", b"")
    write("text", b"no map\n" * 1000)
    chances.Map(bench, random.Random(88), 17, False)
    write("longer", read("m") + bytes(4096))
    os.mkfifo("pipe")
    with socket.create_server(("127.0.0.1", 0)) as taken:
        port = str(taken.getsockname()[1])
        for words, status, meant in (
            ([], 1, "usage: mrtree_host.py [OPTIONS] MAP.."),
            (["m", "--port"], 1, "--port is no option, or stands there twice, or has no value"),
            (["m", "--port", "65536"], 1, "--port stands before a number from 0 to 65535"),
            (["m", "--port", "1", "--port", "1"], 1, "--port is no option, or stands there twice"),
            (["--much", "m"], 1, "--much is no option"),
            (["m", "--processes", "0"], 1, "--processes stands before a number from 1 to 256"),
            (["m", "--log", "m"], 1, "m is to be written, and it is read too"),
            (["missing"], 7, "missing: No such file or directory"),
            (["."], 7, "."),
            (["pipe"], 7, "pipe: it is no file with bytes of its own"),
            (["none"], 2, "refused map page 0 Size"),
            (["text"], 2, "refused map page 0 Unsealed"),
            (["longer"], 2, "refused map page 0 Header"),
            (["m", "--port", port], 7, "the port %s of 127.0.0.1: Address already in use" % port),
            (["m", "--address", "nowhere.invalid"], 7, "the port 8066 of nowhere.invalid: "),
            (["m", "--log", "none/log"], 7, "none/log: "),
        ):
            said = bench.call(mrtree_host, words)
            is_so = said[0] == status and ("mrtree_host.py: " + meant).encode() in said[1]
            bench.holds(is_so, "mrtree_host.py %s: %s" % (words, said))
    said = bench.script("mrtree_host.py", ["--help"])
    bench.holds(said[0] == 0 and b"usage: mrtree_host.py [OPTIONS] MAP.." in said[1], "the usage")


SERVERS = {  # WSGI servers, by the words that run them at a port
    "gunicorn": "gunicorn --bind 127.0.0.1:%d --workers 2 --threads 4 --log-level error mrtree_host:application",
    "uwsgi": "uwsgi --http-socket 127.0.0.1:%d --plugin python3 --workers 2 --threads 4 --die-on-term --master "
    "--disable-logging --module mrtree_host:application",
}


def applications_hold(bench: Bench) -> None:
    """The application under the WSGI servers that are there gives the proofs of the program, and pages by range."""
    one = chances.Map(bench, random.Random(89), 1500, False, 2)
    map_ = read("m")
    for name, spelled in SERVERS.items():
        if shutil.which(name) is None:
            bench.skip("the host under %s: it is not there" % name)
            continue
        with socket.create_server(("127.0.0.1", 0)) as unused:
            port = unused.getsockname()[1]
        env = {**os.environ, "MRTREE_MAPS": "m", "PYTHONPATH": os.path.abspath(CLIENTS), "PYTHONDONTWRITEBYTECODE": "1"}
        with open("said", "wb") as said:
            child = subprocess.Popen((spelled % port).split(), env=env, stdout=said, stderr=said)
        try:
            if not within(lambda: is_there(port)):
                bench.holds(False, "%s does not listen: %s" % (name, read("said")[-500:]))
                continue
            for _ in range(100 if bench.is_long else 15):
                question = ask.questions(one.chance, one)
                bench.program([question.command, "m", question.word, "p"])
                reply = asked(port, "/%s/%s?query=%s" % (one.root, question.command, question.word))
                bench.holds(reply.status == 200 and reply.body == read("p"), "%s: %s" % (name, question))
            said_ = mrtree_ask.run([one.root, ask.ALL, "http://127.0.0.1:%d/%s.map" % (port, one.root)])
            bench.holds(said_ == mrtree_ask.run([one.root, ask.ALL, "m"]), "%s: asked by pages" % name)
            for row in rows_of(NOT, one.root, len(map_)):
                is_told = row.path.startswith("/" + one.root) and "with=" + NOT not in row.path
                if is_told and "Content-Length" not in row.fields:
                    row_holds(bench, row, asked(port, row.path, row.method, row.fields), map_, name)
        finally:
            child.terminate()
            child.wait(SLACK)


PROXY = """
daemon off; pid nginx.pid; error_log errors; worker_processes 1; %s
events { worker_connections 64; }
http {
    access_log off; types { }
    client_body_temp_path t/1; proxy_temp_path t/2; fastcgi_temp_path t/3; uwsgi_temp_path t/4; scgi_temp_path t/5;
    proxy_cache_path cache keys_zone=proofs:10m max_size=1g inactive=30d;
    upstream host { server 127.0.0.1:%d; keepalive 16; }
    server {
        listen 127.0.0.1:%d;
        location / {
            proxy_pass http://host;
            proxy_http_version 1.1;
            proxy_set_header Connection "";
            proxy_cache proofs;
            proxy_cache_lock on;
            proxy_cache_revalidate on;
            add_header X-Cache $upstream_cache_status;
        }
    }
}
"""


def proxy_holds(bench: Bench) -> None:
    """Behind nginx the answers are the same; the second time they come of its cache, but for those without a root."""
    if not servers.nginx_of():
        bench.skip("the host behind nginx: there is no nginx")
        return
    one = chances.Map(bench, random.Random(90), 1500, False, 2)
    os.mkdir("t")
    with Running("m") as host, socket.create_server(("127.0.0.1", 0)) as unused:
        port = unused.getsockname()[1]
        unused.close()
        write("nginx.conf", (PROXY % ("user root;" if os.geteuid() == 0 else "", host.port, port)).encode())
        with open("said", "wb") as said:
            call = [servers.nginx_of(), "-p", os.getcwd(), "-c", "nginx.conf", "-e", "errors"]
            child = subprocess.Popen(call, stdout=said, stderr=said)
        try:
            bench.holds(within(lambda: is_there(port)), "nginx: %s" % read("said"))
            for path, meant in (("/" + one.root, ["MISS", "HIT"]), ("", ["MISS", "REVALIDATED"])):
                bench.program(["prove", "m", WINDOW, "p"])
                replies = [asked(port, path + "/prove?query=" + WINDOW) for _ in range(2)]
                is_so = all(reply.status == 200 and reply.body == read("p") for reply in replies)
                caches = [reply.fields.get("x-cache", "") for reply in replies]
                is_so = is_so and (caches == meant or path == "" and "HIT" not in caches)
                bench.holds(is_so and all(reply.fields["etag"] for reply in replies), "behind nginx: %s" % caches)
            said_ = mrtree_ask.run([one.root, ask.ALL, "http://127.0.0.1:%d/%s.map" % (port, one.root)])
            is_so = said_ == mrtree_ask.run([one.root, ask.ALL, "m"]) and said_[0] == 0
            bench.holds(is_so, "by pages, behind nginx: %s" % (said_[:1],))
            reply = asked(port, "/%s/prove?query=window:1" % one.root)
            bench.holds(reply.status == 400 and reply.body.startswith(b"BadWords"), "behind nginx: %s" % (reply,))
        finally:
            child.terminate()
            child.wait(SLACK)


def tiles_hold(bench: Bench) -> None:
    """A map in tiles: each file is its window's proof, all records are there; what does not fit leaves nothing."""
    for version in (1, 2):
        one = chances.Map(bench, random.Random(91), 700, False, version, chances.Kind(500, (0, 3, 100)))
        said = bench.call(tiles, ["grid", "200", "-500,-500,600,600", "grid"])
        bench.holds(said == (0, b"tiles.py: 49 tiles\n"), "a grid: %s" % (said,))
        bench.program(["serve", "m", "grid", "u"])
        folder = "tiles%d" % version
        said = bench.call(tiles, ["split", "grid", "u", folder])
        bench.holds(said == (0, b"tiles.py: 49 tiles\n"), "tiles: %s" % (said,))
        found = {}
        for at in range(-3, 4):
            for row in range(-3, 4):
                word = "window:%d,%d,%d,%d" % (200 * at, 200 * row, 200 * at + 199, 200 * row + 199)
                bench.program(["prove", "m", word, "p"])
                proof = read("%s/200/%d/%d.proof" % (folder, at, row))
                bench.holds(proof == read("p") != b"", "the tile %d %d" % (at, row))
                for record in mrtree_check.check(one.root, word, proof).records:
                    found[record.number] = record.rect
        meant = {record.number: record.rect for record in one.records}
        bench.holds(found == meant, "the records of all tiles: %d of %d" % (len(found), len(meant)))
    bundle = read("u")
    write("cut", bundle[:-1])
    write("more", bundle + b"\0")
    write("twice", b"window:0,0,1,1\n" * 2)
    write("other", b"window:0,0,1,2\n")
    write("layers", b"window:0,0,1,1/0000000000000001\n")
    before = sorted(os.listdir("."))
    for words, status, meant in (
        (["grid", "0", "0,0,1,1", "g"], 1, "SIDE is a number of map units"),
        (["grid", "5", "0,0,1", "g"], 1, "SIDE is a number of map units"),
        (["grid", "1", "0,0,9999,9999", "g"], 1, "these are 100000000 tiles, and a script has at most 65536"),
        (["grid", "3000000000", "0,0,9,9", "g"], 1, "a tile reaches over the coordinates that there are"),
        (["split", "grid", "cut", "new"], 1, "cut: it has less than the queries of the script"),
        (["split", "grid", "more", "new"], 1, "more: it has more than the queries of the script"),
        (["split", "twice", "u", "new"], 1, "twice: a tile is there twice"),
        (["split", "other", "u", "new"], 1, "a query of the script is for no tile"),
        (["split", "layers", "u", "new"], 1, "a query of the script is for no tile"),
        (["split", "u", "u", "new"], 3, "bad text line 1 Query"),
        (["split", "grid", "u", folder], 1, "%s is there already" % folder),
        (["split", "grid", "none", "new"], 7, "none: No such file or directory"),
        (["join"], 1, "usage: tiles.py grid"),
    ):
        said = bench.call(tiles, words)
        is_so = said[0] == status and said[1].startswith(("tiles.py: " + meant).encode())
        bench.holds(is_so and sorted(os.listdir(".")) == before, "tiles.py %s: %s" % (words, said))


MADE: Dict[Tuple[str, ...], Any] = {}  # applications, by the folder and the names of the maps


def all_hold(bench: Bench) -> None:
    """All of it."""
    parts = (proofs_hold, exchanged_hold, changed_hold, table_holds, hostile_hold, bent_hold, slow_hold)
    for part in (*parts, processes_hold, words_hold, applications_hold, proxy_holds, tiles_hold):
        began = time.monotonic()
        with tempfile.TemporaryDirectory(dir=".") as folder:
            os.chdir(folder)
            part(bench)
            os.chdir("..")
        print("tests/clients: the host, %s: %.1f s" % (part.__name__, time.monotonic() - began), flush=True)
