#!/usr/bin/env python3
"""A gateway on the reader's own machine, by which QGIS, GDAL and others read maps that were checked.

usage: mrtree_gateway.py MAP.. [--port PORT] [--bind HOST] [--names NAMES] [--log]
       where each MAP is   STATEMENT [ADDRESS]   or   ROOT ADDRESS --unit UNIT   and options of it behind that

It speaks OGC API - Features: each map is a collection. STATEMENT is the file or address of a map's statement. ADDRESS
is that of a map file, by http:// or https://, or a file's name; or that of a host, which ends with a slash. Of an
atlas, a map of maps, it is that of the folder. Each answer is checked against the root digest, and a feature is told
once it was proved. One that is refused is status 502, with rule and place, and no feature.

--name NAME            what the collection is called, else by the statement's or map's file
--unit UNIT            of a ROOT: a map unit in the unit of the coordinate system, as 1e-7 or 0.01
--crs CRS              of a ROOT: the coordinate system, as EPSG:25833; else longitude and latitude in degrees
--payload NAME         of a ROOT: the payload is text, and the property NAME has it
--digest               of a ROOT: the payload is the digest of a shape
--atlas                of a ROOT: it is that of an atlas, as a statement says by itself
--shapes SHAPES        of a ROOT: the file or address of the shapes
--places INDEX         the file or address of an index that tells where the record of a number or a key is
--number NAME          the property that has the number of a record, else number
--publishers FILE      each statement has to be signed by one of the publishers in this file
--port PORT            else 8710; 0 is any that is free
--bind HOST            the address of this machine to listen at, else 127.0.0.1: then nobody else can ask
--names NAMES          names with commas by which it may be asked, beside 127.0.0.1 and localhost
--log                  tells each request on standard error
--help, -h             prints this, where it stands first

Exit statuses: 0 where it is ended by a signal, 1 of words that do not fit, 2 of a map or statement that is refused as
it begins, 7 where one cannot be had or the port is taken. docs/GATEWAY.md has all answers. Tested, and not proved.
"""
from __future__ import annotations

import sys

if __name__ == "__main__":  # an interrupt while modules are read ends the run without a trace
    sys.excepthook = lambda kind, *rest: kind is KeyboardInterrupt or sys.__excepthook__(kind, *rest)

import signal

if __name__ == "__main__":
    signal.signal(signal.SIGINT, signal.SIG_DFL)

import argparse
import json
import os
import re
import socket
import threading
from contextlib import suppress
from decimal import Decimal
from http.server import BaseHTTPRequestHandler, ThreadingHTTPServer
from typing import Any, Callable, Dict, List, NamedTuple, NoReturn, Optional, Sequence, Tuple, Union
from urllib.parse import parse_qsl, unquote, urlencode, urlsplit
from xml.sax.saxutils import quoteattr

if __package__:
    from . import mrtree_ask, outputs, published, records, sources, statement
    from . import mrtree_check as client
    from .mrtree_check import Ended, Refused, __version__
    from .outputs import Unfit
    from .pagewise import MapRefused
    from .published import Box, Plan, Published, Start
    from .ranges import Failed, is_address
    from .shapes import ShapeRefused
    from .sources import Grid
else:
    import mrtree_ask
    import mrtree_check as client
    import outputs
    import published
    import records
    import sources
    import statement
    from mrtree_check import Ended, Refused, __version__
    from outputs import Unfit
    from pagewise import MapRefused
    from published import Box, Plan, Published, Start
    from ranges import Failed, is_address
    from shapes import ShapeRefused
    from sources import Grid

SCRIPT = "mrtree_gateway.py"
PORT = 8710
NAMES = ("127.0.0.1", "localhost", "[::1]")  # by which it may be asked
PATIENCE = 30  # seconds that a client may be silent, or not take what is sent
AT_ONCE = 64  # connections
SIGNS = ("--digest", "--atlas")  # options without a value
LIMIT, MOST_LIMIT = 1000, 10000  # features of a page, where it is not said, and at most
EVERY, MOST_EVERY = "all", 100000  # the limit by which all features are asked for at once, and how many these may be
MANY = "more than %d features: the box has to be smaller, or a page asked for" % MOST_EVERY
MOST_DIGITS = 64  # letters of a coordinate
MOST_TOLD, MOST_REASON = 400, 200  # letters of a message, and of what of it stands in the first line of an answer
DEFINITIONS = "http://www.opengis.net/def/crs/"
CRS84 = DEFINITIONS + "OGC/1.3/CRS84"
PARTS = {"core": 1, "geojson": 1, "oas30": 1, "crs": 2}  # the conformance classes, each with its part of the standard
CONFORMS = ["http://www.opengis.net/spec/ogcapi-features-%d/1.0/conf/%s" % (part, one) for one, part in PARTS.items()]
JSON, GEOJSON = "application/json", "application/geo+json"
OPENAPI = "application/vnd.oai.openapi+json;version=3.0"
XML = "application/xml"
SCHEMA = """<?xml version="1.0" encoding="UTF-8"?>
<xs:schema xmlns:xs="http://www.w3.org/2001/XMLSchema" xmlns:gml="http://www.opengis.net/gml/3.2" xmlns:m="urn:map"
 targetNamespace="urn:map" elementFormDefault="qualified">
<xs:import namespace="http://www.opengis.net/gml/3.2" schemaLocation="http://schemas.opengis.net/gml/3.2.1/gml.xsd"/>
<xs:element name="feature" type="m:featureType" substitutionGroup="gml:AbstractFeature"/>
<xs:complexType name="featureType"><xs:complexContent><xs:extension base="gml:AbstractFeatureType"><xs:sequence>
<xs:element name=%s type="%s" minOccurs="0"/>
</xs:sequence></xs:extension></xs:complexContent></xs:complexType>
</xs:schema>
"""
ITEMS = ("bbox", "bbox-crs", "crs", "datetime", "limit", "layers", "start", "f")  # the parameters of items
TIME = r"\d{4}-\d\d-\d\d([Tt]\d\d:\d\d:\d\d(\.\d{1,9})?([Zz]|[+-]\d\d:\d\d))?"
LATER = ": it came behind features that were proved, and they are not all"


class Fault(Exception):
    """A request ends with this status; code and words are told, and what more there is to tell."""

    def __init__(self, status: int, code: str, words: str, **more: Any) -> None:
        shown = "".join(letter if letter.isprintable() else "?" for letter in words)[:MOST_TOLD]
        super().__init__(status, code, shown)
        self.status, self.code, self.words, self.more = status, code, shown, more

    def body(self) -> str:
        """What is sent of it."""
        return json.dumps({"code": self.code, "description": self.words, **self.more})


def fault_of(cause: Exception, is_later: bool = False) -> Fault:
    """What is told of a map that does not give an answer.

    >>> fault_of(Refused("Hidden", 40)).body()
    '{"code": "ProofRefused", "description": "refused Hidden at 40", "rule": "Hidden", "place": 40}'
    """
    words, code, more = str(cause), "SourceFailed", {}
    if isinstance(cause, Refused):
        code = {MapRefused: "MapRefused", ShapeRefused: "ShapeRefused"}.get(type(cause), "ProofRefused")
        more = {"rule": cause.rule, "place": cause.place}
    elif isinstance(cause, statement.StatementRefused):
        code, more = "StatementRefused", {"rule": cause.rule}
    elif isinstance(cause, Failed):
        more = {"rule": cause.name}
    elif isinstance(cause, Ended):
        code, words = "NoSuchMap", cause.line
    elif isinstance(cause, Unfit):
        code = "PayloadUnfit"
    return Fault(502, code, words + LATER * is_later, **more)


# ---- what is served


class Collection(NamedTuple):
    """A collection: a map, or one layer of it."""

    name: str
    title: str
    map: Published
    layer: Optional[int] = None

    def crs(self) -> str:
        """The coordinate system of its features, as OGC names it."""
        return uri_of(self.map.plan)

    def mask(self, word: Optional[str]) -> Optional[int]:
        """The mask of the layers that a word asks for. Raises Fault."""
        if word is None:
            return None if self.layer is None else 1 << self.layer
        try:
            numbers = [client.read_decimal(one, 0, client.MOST_LAYER) for one in word.split(",")]
        except ValueError:
            raise Fault(400, "InvalidParameter", "layers are numbers from 0 to 63 with commas") from None
        if self.map.state().version == 1:
            raise Fault(400, "InvalidParameter", "the map is of version 1, which has no layers")
        mask = sum(1 << one for one in set(numbers))
        return mask if self.layer is None else mask & 1 << self.layer


def uri_of(plan: Plan) -> str:
    """The coordinate system of a map, as OGC names it.

    >>> plan = Plan("a", "a", "", "", Grid(Decimal(1)), "EPSG:25833", False)
    >>> uri_of(plan), uri_of(plan._replace(in_degrees=True))
    ('http://www.opengis.net/def/crs/EPSG/0/25833', 'http://www.opengis.net/def/crs/OGC/1.3/CRS84')
    """
    if plan.in_degrees:
        return CRS84
    authority, _, code = (plan.crs or "").partition(":")
    return DEFINITIONS + "%s/%s/%s" % (authority, "1.3" if authority == "OGC" else "0", code)


def collections_of(maps: Sequence[Published]) -> Dict[str, Collection]:
    """The collections of some maps, by their names: of each that says its layers one for each of them too."""
    found = {}
    for one in maps:
        plan = one.plan
        found[plan.name] = Collection(plan.name, plan.title, one)
        for layer, title in sorted(plan.layers.items()):
            name = "%s.layer-%d" % (plan.name, layer)
            found[name] = Collection(name, "%s: %s" % (plan.title, title), one, layer)
    return found


class Asked(NamedTuple):
    """A request that may be answered: where the server is asked, its path, and its parameters, each once."""

    base: str
    path: str
    words: Dict[str, str]

    def link(self, rel: str, path: str, kind: str = JSON) -> Dict[str, str]:
        """A link to a path of this server."""
        return {"rel": rel, "href": self.base + path, "type": kind}

    def only(self, *names: str) -> None:
        """Raises Fault where another parameter is there than these, or another form is asked for than JSON."""
        for name, word in self.words.items():
            if name not in names:
                raise Fault(400, "InvalidParameter", "there is no parameter %s" % sources.clipped(name))
            if name == "f" and word not in ("json", "geojson"):
                raise Fault(400, "InvalidParameter", "f is json, and nothing else is told")


Answer = Tuple[str, str, Optional[str]]  # a media type, a text, and the coordinate system of it


class Service:
    """What is answered to requests."""

    def __init__(self, collections: Dict[str, Collection]) -> None:
        self.collections = collections

    def answer(self, asked: Asked) -> Answer:
        """The answer to a request. Raises Fault."""
        parts = asked.path.split("/")[1:]
        if asked.path == "/":
            return self.landing(asked)
        if parts == ["conformance"]:
            return self.told(asked, {"conformsTo": CONFORMS})
        if parts == ["api"]:
            asked.only("f")
            return OPENAPI, json.dumps(self.api(asked)), None
        if parts == ["collections"]:
            every = [self.described(asked, one) for one in self.collections.values()]
            return self.told(asked, {"links": [asked.link("self", "/collections")], "collections": every})
        if parts[0] == "collections" and 2 <= len(parts) <= 4:
            one = self.collections.get(parts[1])
            if one is None:
                raise Fault(404, "NotFound", "there is no collection %s" % sources.clipped(parts[1]))
            if len(parts) == 2:
                return self.told(asked, self.described(asked, one))
            if parts[2] == "items":
                return self.items(asked, one) if len(parts) == 3 else self.item(asked, one, parts[3])
            if parts[2:] == ["schema"]:
                return self.schema(asked, one)
        raise Fault(404, "NotFound", "there is nothing at %s" % sources.clipped(asked.path))

    def told(self, asked: Asked, value: Any) -> Answer:
        """An answer of JSON, to a request that may say no more than that it wants JSON."""
        asked.only("f")
        return JSON, json.dumps(value), None

    def landing(self, asked: Asked) -> Answer:
        """The first page."""
        links = [asked.link("self", "/"), asked.link("conformance", "/conformance"), asked.link("data", "/collections")]
        links.append(asked.link("service-desc", "/api", OPENAPI))
        title = "; ".join(one.title for one in self.collections.values() if one.layer is None)
        words = "maps whose answers were checked against their root digests"
        return self.told(asked, {"title": title, "description": words, "links": links})

    def described(self, asked: Asked, one: Collection) -> Dict[str, Any]:
        """What is told of a collection."""
        path, state, plan = "/collections/" + one.name, one.map.state(), one.map.plan
        words = "%s, root digest %s" % (one.map.said(), plan.root)
        found: Dict[str, Any] = {"id": one.name, "title": one.title, "description": words, "itemType": "feature"}
        if plan.in_degrees and state.rect:
            box = [float(plan.grid.in_file(side)) for side in state.rect]
            found["extent"] = {"spatial": {"bbox": [box], "crs": CRS84}}
        found.update({"crs": [one.crs()], "storageCrs": one.crs()})
        found["links"] = [asked.link("self", path), asked.link("items", path + "/items", GEOJSON)]
        found["links"].append(asked.link("describedBy", path + "/schema", XML))
        return found

    def schema(self, asked: Asked, one: Collection) -> Answer:
        """The type of a record's number, in XML: by the first features alone GDAL would take it for one of 32 bits.

        It is a text where the number of a key or of one of the first features is told as one.
        """
        asked.only("f")
        plan = one.map.plan
        try:
            first = one.map.page(one.map.windows(None), one.mask(None), (0, 0), LIMIT, True).records
        except (Refused, Ended, Unfit) as cause:
            raise fault_of(cause, False) from None
        is_text = bool(plan.statement and plan.statement.keys) or any(one.number > records.MOST_EXACT for one in first)
        return XML, SCHEMA % (quoteattr(plan.number), "xs:string" if is_text else "xs:long"), None

    def api(self, asked: Asked) -> Dict[str, Any]:
        """The description of the server, by OpenAPI 3.0."""
        paths = {}
        for path in ["/", "/conformance", "/collections"]:
            paths[path] = operation("get" + path.title().replace("/", ""), [], JSON)
        for one in self.collections.values():
            path = "/collections/" + one.name
            paths[path] = operation("describe-" + one.name, [], JSON)
            paths[path + "/schema"] = operation("schema-" + one.name, [], XML)
            paths[path + "/items"] = operation("items-" + one.name, list(PARAMETERS), GEOJSON)
            number = {"name": "id", "in": "path", "required": True, "schema": {"type": "string"}}
            paths[path + "/items/{id}"] = operation("item-" + one.name, ["crs"], GEOJSON, [number])
        info = {"title": "checked maps", "version": __version__}
        shared = {"parameters": {name: dict(value, name=name, **QUERY) for name, value in PARAMETERS.items()}}
        servers = [{"url": asked.base}]
        return {"openapi": "3.0.3", "info": info, "servers": servers, "paths": paths, "components": shared}

    # -- features

    def items(self, asked: Asked, one: Collection) -> Answer:
        """Some features of a collection: up to `limit`, and where the others are."""
        asked.only(*ITEMS)
        limit, start = limit_of(asked.words.get("limit")), start_of(asked.words.get("start"))
        refuse_other_crs(one, asked.words.get("crs"), "crs")
        refuse_other_time(asked.words.get("datetime"))
        box, mask = self.box_of(asked, one), one.mask(asked.words.get("layers"))
        try:
            windows = one.map.windows(box)
        except Unfit as unfit:
            raise Fault(400, "InvalidParameter", str(unfit)) from None
        is_every = asked.words.get("limit") == EVERY
        try:
            if is_every and (one.map.matched(windows, mask) or 0) > MOST_EVERY:
                raise Fault(400, "TooMany", MANY)
            page = one.map.page(windows, mask, start, limit, box is None and not is_every)
            if page.rest and is_every:
                raise Fault(400, "TooMany", MANY)
            matched = one.map.matched(windows, mask) if page.matched is None else page.matched
            features = one.map.features(page.records)
        except (Refused, Ended, Unfit) as cause:
            raise fault_of(cause, start != (0, 0)) from None
        links = [asked.link("self", asked.path + spelled(asked.words), GEOJSON)]
        if page.rest:
            rest = {**asked.words, "limit": str(limit), "start": "%d.%d" % page.rest}
            links.append(asked.link("next", asked.path + spelled(rest), GEOJSON))
        links.append(asked.link("collection", "/collections/" + one.name))
        head = {"type": "FeatureCollection", "numberReturned": len(features), "links": links, **named_crs(one)}
        if matched is not None:
            head["numberMatched"] = matched
        told = json.dumps(head)[:-1] + ',"features":[\n%s\n]}\n' % ",\n".join(features)
        return GEOJSON, told, one.crs()

    def box_of(self, asked: Asked, one: Collection) -> Optional[Box]:
        """The box that is asked for. Raises Fault."""
        refuse_other_crs(one, asked.words.get("bbox-crs"), "bbox-crs", "bbox" in asked.words)
        if "bbox" not in asked.words:
            return None
        words = asked.words["bbox"].split(",")
        try:
            if len(words) not in (4, 6) or max(map(len, words)) > MOST_DIGITS:
                raise Unfit("a bbox is four numbers with commas, or six")
            sides = [sources.decimal_of(word) for word in words]
        except Unfit as unfit:
            raise Fault(400, "InvalidParameter", str(unfit)) from None
        half = len(sides) // 2
        return sides[0], sides[1], sides[half], sides[half + 1]

    def item(self, asked: Asked, one: Collection, word: str) -> Answer:
        """One feature, where its place is known."""
        asked.only("crs", "f")
        refuse_other_crs(one, asked.words.get("crs"), "crs")
        try:
            found = one.map.found(word, one.mask(None))
            features = one.map.features([found] if found else [])
        except (Refused, Ended, Unfit) as cause:
            raise fault_of(cause) from None
        if not features:
            told = "where %s is nothing tells: no proof goes by numbers, so ask by bbox" % sources.clipped(word)
            raise Fault(404, "NotFound", told)
        here = asked.link("self", asked.path + spelled(asked.words), GEOJSON)
        links = [here, asked.link("collection", "/collections/" + one.name)]
        head = json.dumps({"links": links, **named_crs(one)})[:-1]
        return GEOJSON, head + "," + features[0][1:] + "\n", one.crs()


def spelled(words: Dict[str, str]) -> str:
    """Parameters behind a path.

    >>> spelled({"bbox": "0,0,1,1", "crs": "http://a/b"}), spelled({})
    ('?bbox=0,0,1,1&crs=http://a/b', '')
    """
    return "?" * bool(words) + urlencode(words, safe=",:/")


def named_crs(one: Collection) -> Dict[str, Any]:
    """What GeoJSON says of a coordinate system other than longitude and latitude, as GDAL and QGIS read it."""
    if one.map.plan.in_degrees:
        return {}
    authority, _, code = (one.map.plan.crs or "").partition(":")
    return {"crs": {"type": "name", "properties": {"name": "urn:ogc:def:crs:%s::%s" % (authority, code)}}}


def refuse_other_crs(one: Collection, word: Optional[str], name: str, is_needed: bool = True) -> None:
    """Raises Fault where a coordinate system is asked for, or left out, that is not the map's."""
    meant = one.crs()
    if word is None and is_needed and meant != CRS84:
        words = "the map is in %s, and not in degrees: %s has to name %s" % (one.map.plan.crs, name, meant)
        raise Fault(400, "InvalidParameter", words)
    if word is not None and word != meant:
        raise Fault(400, "InvalidParameter", "%s may be %s" % (name, meant))


def refuse_other_time(word: Optional[str]) -> None:
    """Raises Fault where a time is none; features have no time, so that each time fits them."""
    if word is not None and not re.fullmatch(r"(%s|\.\.)?/(%s|\.\.)?|%s" % (TIME, TIME, TIME), word[:99]):
        raise Fault(400, "InvalidParameter", "datetime is a time of RFC 3339, or two with a slash between")


def limit_of(word: Optional[str]) -> int:
    """How many features are asked for. Raises Fault."""
    if word in (None, EVERY):
        return LIMIT if word is None else MOST_EVERY
    if not re.fullmatch("[0-9]{1,18}", word) or int(word) < 1:
        raise Fault(400, "InvalidParameter", "limit is a whole number from 1, and %d at most are told" % MOST_LIMIT)
    return min(int(word), MOST_LIMIT)


def start_of(word: Optional[str]) -> Start:
    """Where in a long answer a page begins. Raises Fault."""
    found = re.fullmatch(r"([0-9]{1,9})\.([0-9]{1,9})", word or "0.0")
    if not found:
        raise Fault(400, "InvalidParameter", "start is what a link to the next page has")
    return int(found[1]), int(found[2])


QUERY = {"in": "query", "required": False, "style": "form", "explode": False}
PARAMETERS: Dict[str, Dict[str, Any]] = {  # of items, with what OpenAPI says of each
    "bbox": {"schema": {"type": "array", "minItems": 4, "maxItems": 6, "items": {"type": "number"}}},
    "bbox-crs": {"schema": {"type": "string", "format": "uri"}},
    "crs": {"schema": {"type": "string", "format": "uri"}},
    "datetime": {"schema": {"type": "string"}},
    "limit": {"schema": {"type": "integer", "minimum": 1, "maximum": MOST_LIMIT, "default": LIMIT}},
    "layers": {"schema": {"type": "array", "items": {"type": "integer", "minimum": 0, "maximum": 63}}},
    "start": {"schema": {"type": "string"}},
    "f": {"schema": {"type": "string", "enum": ["json"]}},
}


def operation(name: str, words: List[str], kind: str, more: Sequence[Any] = ()) -> Dict[str, Any]:
    """What OpenAPI says of a path."""
    given = [*more, *({"$ref": "#/components/parameters/" + word} for word in words)]
    told: Dict[str, Any] = {"200": {"description": "as asked for", "content": {kind: {"schema": {"type": "object"}}}}}
    told["400"], told["502"] = {"description": "a parameter that is none"}, {"description": "refused, or not to be had"}
    return {"get": {"operationId": name, "parameters": given, "responses": told}}


# ---- requests


def asked_of(target: str, host: str, names: Sequence[str]) -> Asked:
    """A request, by its target and the name by which the server was asked. Raises Fault.

    >>> asked_of("/collections/a/items?limit=5", "127.0.0.1:8710", NAMES)[:2]
    ('http://127.0.0.1:8710', '/collections/a/items')
    """
    if not re.fullmatch(r"(\[[0-9a-fA-F:.]{2,45}\]|[A-Za-z0-9.-]{1,253})(:[0-9]{1,5})?", host):
        raise Fault(400, "BadRequest", "the field Host is not there once, or is none")
    if re.sub(":[0-9]+$", "", host).lower() not in names:
        raise Fault(403, "Forbidden", "it may be asked by the names %s alone" % ", ".join(names))
    try:
        url = urlsplit(target)
        pairs = parse_qsl(url.query, keep_blank_values=True, max_num_fields=50, errors="strict")
        path = unquote(url.path, errors="strict")
    except ValueError:
        raise Fault(400, "BadRequest", "the target is none") from None
    if url.netloc and url.netloc.lower() != host.lower() or not target.startswith(("/", "http://")):
        raise Fault(400, "BadRequest", "the target is of another server")
    words = dict(pairs)
    if len(words) < len(pairs):
        raise Fault(400, "InvalidParameter", "a parameter stands twice")
    return Asked("http://" + host, re.sub("/+$", "", path) or "/", words)


class Handler(BaseHTTPRequestHandler):
    """A connection: requests come, and answers go."""

    protocol_version, disable_nagle_algorithm, wbufsize = "HTTP/1.1", True, 1 << 16
    server_version, sys_version, timeout = "mrtree-gateway/" + __version__, "", PATIENCE
    server: "Server"

    def do_GET(self) -> None:
        """Answers a request."""
        try:
            hosts = self.headers.get_all("host", [])
            is_bent = bool(self.headers.defects or self.headers.get_payload())
            sizes = self.headers.get_all("content-length", ["0"])
            if sizes != ["0"] or "transfer-encoding" in self.headers or is_bent:
                self.close_connection = True  # what follows is no request
            if is_bent or len(sizes) > 1:
                raise Fault(400, "BadRequest", "a field of the head is none, or there is more than one Content-Length")
            if not hosts and self.request_version != "HTTP/1.1":
                hosts = ["%s:%d" % self.server.server_address[:2]]
            asked = asked_of(self.path, hosts[0] if len(hosts) == 1 else "", self.server.names)
            self.tell(200, *self.server.service.answer(asked))
        except Fault as fault:
            self.tell_fault(fault)
        except (Refused, Ended, Unfit) as cause:
            self.tell_fault(fault_of(cause))
        except MemoryError:
            self.tell_fault(Fault(503, "NoMemory", "there is not enough memory"))

    do_HEAD = do_GET

    def tell_fault(self, fault: Fault) -> None:
        """Sends an error. It stands in the first line too, which is all that QGIS shows of it."""
        reason = fault.words.encode("ascii", "replace").decode()[:MOST_REASON]
        self.tell(fault.status, JSON, fault.body(), reason=reason)

    def tell(self, status: int, kind: str, text: str, crs: Optional[str] = None, reason: Optional[str] = None) -> None:
        """Sends an answer."""
        body = text.encode("utf-8", "replace")
        if self.request_version == "HTTP/0.9":  # the oldest clients take an answer without a head; none of them is left
            self.request_version = "HTTP/1.0"
        self.send_response(status, reason)
        self.send_header("Content-Type", kind)
        self.send_header("Content-Length", str(len(body)))
        self.send_header("Cache-Control", "no-store")
        self.send_header("X-Content-Type-Options", "nosniff")
        if crs:
            self.send_header("Content-Crs", "<%s>" % crs)
        if status == 405:
            self.send_header("Allow", "GET, HEAD")
        if self.close_connection:
            self.send_header("Connection", "close")
        self.end_headers()
        if self.command != "HEAD":
            self.wfile.write(body)

    def send_error(self, code: int, message: Optional[str] = None, explain: Optional[str] = None) -> None:
        """Sends what http.server finds wrong with a request: one that is none, too long, or of another method."""
        status = {501: 405, 505: 400}.get(code, code)
        self.close_connection = True
        if not hasattr(self, "command") or self.command is None:
            self.command = ""
        words = "only GET and HEAD are answered" if status == 405 else message or "the request is none"
        self.tell_fault(Fault(status, "BadRequest", words))

    def log_message(self, format: str, *words: Any) -> None:
        """Tells a request, where that is wanted."""
        if self.server.is_logged:
            line = format % words
            outputs.tell(SCRIPT, "".join(letter if letter.isprintable() else "?" for letter in line)[:MOST_TOLD])


class Server(ThreadingHTTPServer):
    """The server: so many connections at once, each with a thread."""

    daemon_threads, request_queue_size = True, 64

    def __init__(self, place: Tuple[str, int], service: Service, names: Sequence[str], is_logged: bool) -> None:
        self.address_family = socket.AF_INET6 if ":" in place[0] else socket.AF_INET
        super().__init__(place, Handler)
        self.service, self.names, self.is_logged = service, names, is_logged
        self.free = threading.BoundedSemaphore(AT_ONCE)

    def server_bind(self) -> None:
        """Takes the port, without asking who it is."""
        socket.socket.bind(self.socket, self.server_address)
        self.server_address = self.socket.getsockname()
        self.server_name, self.server_port = self.server_address[:2]

    def process_request(self, request: Any, client_address: Any) -> None:
        """Answers the requests of a connection by a thread, once there are less than so many."""
        self.free.acquire()
        try:
            super().process_request(request, client_address)
        except BaseException:
            self.free.release()
            raise

    def process_request_thread(self, request: Any, client_address: Any) -> None:
        """Answers the requests of a connection."""
        try:
            super().process_request_thread(request, client_address)
        finally:
            self.free.release()

    def handle_error(self, request: Any, client_address: Any) -> None:
        """A connection that broke is nobody's fault here; anything else is told in a line."""
        fault = sys.exc_info()[1]
        if not isinstance(fault, OSError):
            outputs.tell(SCRIPT, "a request could not be answered: %r" % fault)


# ---- words


class Parser(argparse.ArgumentParser):
    """A parser of command lines that tells in a line what is wrong."""

    def error(self, message: str) -> NoReturn:
        """Raises Unfit."""
        raise Unfit("%s (%s --help)" % (message, SCRIPT))


def parser_of_map() -> Parser:
    """The parser of the words of one map."""
    parser = Parser(prog=SCRIPT, add_help=False, allow_abbrev=False)
    parser.add_argument("words", nargs="*")
    for option in ("--name", "--crs", "--payload", "--shapes", "--places"):
        parser.add_argument(option)
    parser.add_argument("--number", default="number")
    parser.add_argument("--unit", type=records.unit_of)
    parser.add_argument("--digest", action="store_true")
    parser.add_argument("--atlas", action="store_true")
    return parser


def parser_of_server() -> Parser:
    """The parser of the options that are of no map."""
    parser = Parser(prog=SCRIPT, add_help=False, allow_abbrev=False)
    parser.add_argument("--port", type=int, default=PORT, choices=range(65536), metavar="PORT")
    parser.add_argument("--bind", default="127.0.0.1")
    parser.add_argument("--names", default="")
    parser.add_argument("--publishers")
    parser.add_argument("--log", action="store_true")
    return parser


def groups_of(words: Sequence[str]) -> List[List[str]]:
    """The words of each map: a root digest and what is behind it, or a statement and what is behind that.

    >>> words = ["a.statement", "--name", "a", "b.statement", "http://a/b.map", "0" * 64, "c.map", "--unit", "1"]
    >>> [len(group) for group in groups_of(words)]
    [3, 2, 4]
    """
    groups: List[List[str]] = []
    is_value = is_root = False
    for word in words:
        starts = not is_value and not is_root and not word.startswith("--") and not is_source(word, groups)
        if starts:
            groups.append([])
        elif not groups:
            raise Unfit("in front of the options of a map stands its statement, or its root digest")
        groups[-1].append(word)
        is_root = starts and re.fullmatch("[0-9a-f]{64}", word) is not None
        is_value = not is_value and word.startswith("--") and word not in SIGNS and "=" not in word
    if not groups:
        raise Unfit("no map is named (%s --help)" % SCRIPT)
    return groups


def is_source(word: str, groups: List[List[str]]) -> bool:
    """Whether a word behind a statement is the address of its map, or a file that is missing, and no next statement."""
    is_missing = not os.path.lexists(word) and not re.fullmatch("[0-9a-f]{64}", word)
    is_place = mrtree_ask.is_map(word) or mrtree_ask.is_atlas(word) or is_missing
    return bool(groups) and not word.endswith(".statement") and is_place


def plan_of(words: Sequence[str], publishers: Optional[str]) -> Plan:
    """What the words of one map say of it. Raises Unfit, Ended, Failed and StatementRefused."""
    given = parser_of_map().parse_intermixed_args(list(words))
    if len(given.words) > 2:
        raise Unfit("%s is neither a statement nor an address behind one" % sources.clipped(given.words[2]))
    first, address = given.words[0], given.words[1] if len(given.words) > 1 else None
    if not re.fullmatch("[0-9a-f]{64}", first):
        if given.unit or given.crs or given.payload or given.digest or given.atlas:
            words = "a statement says itself what --unit, --crs, --payload, --digest and --atlas say of a root digest"
            raise Unfit(words)
        said = statement.chosen([first], publishers, lambda told: outputs.tell(SCRIPT, told))
        plan = plan_of_statement(said, address)
    elif address is None or given.unit is None:
        raise Unfit("behind a root digest stand the address of its map, and --unit")
    else:
        plan = plan_of_root(given, first, address)
    plan = plan._replace(number=given.number, shapes=given.shapes or plan.shapes, places=given.places)
    name = given.name or name_of(address or first if given.unit else first)
    if not re.fullmatch("[A-Za-z0-9_-]{1,64}", name):
        raise Unfit("%s is no name of a collection: it has letters, digits, _ and -" % sources.clipped(name))
    names = [plan.number, published.LAYER, published.LAYER_NAME, "digest"]
    if plan.payload_name in names and plan.payload in ("text", "key", "hexadecimal") or plan.number in names[1:]:
        raise Unfit("%s: two properties have one name: --number names another one" % name)
    return plan._replace(name=name, title=name if plan.title is None else plan.title)


def plan_of_statement(said: statement.Statement, address: Optional[str]) -> Plan:
    """What a statement says of its map; an address that is given stands before its own. Raises Unfit."""
    if address is None and said.address is None:
        raise Unfit("%s has no address: one has to stand behind it" % said.name)
    where = said.where(said.address) if address is None else address
    payload_name = said.payload_name or (said.keys if said.payload == "key" else None) or "payload"
    shapes = said.where(said.shapes) if said.shapes else None
    grid, degrees = Grid(said.unit), said.is_in_degrees()
    plan = Plan("", said.map, said.root, where, grid, said.crs, degrees, payload=said.payload)
    plan = plan._replace(payload_name=payload_name, layers=said.layers, shapes=shapes, statement=said)
    return plan._replace(is_atlas=said.atlas)


def plan_of_root(given: argparse.Namespace, root: str, address: str) -> Plan:
    """What the words behind a root digest say of its map. Raises Unfit."""
    if given.crs and not re.fullmatch(statement.FORMS["crs"], given.crs):
        raise Unfit("--crs names an authority and a code, as EPSG:25833")
    payload = "digest" if given.digest or given.shapes else "text" if given.payload else "none"
    if given.payload and payload == "digest":
        raise Unfit("the payload is either what --payload names or, with --digest or --shapes, a digest")
    degrees = given.crs in (None, *statement.DEGREES)
    plan = Plan("", "map %s" % root[:8], root, address, given.unit, given.crs, degrees, payload=payload)
    is_atlas = given.atlas or not is_address(address) and os.path.isdir(address)
    return plan._replace(payload_name=given.payload or "payload", is_atlas=is_atlas)


def name_of(word: str) -> str:
    """What a collection is called by the name of its file.

    >>> name_of("maps/parcels.statement"), name_of("https://example.org/%s.map" % ("0" * 64)), name_of("http://a/")
    ('parcels', '00000000', 'map')
    >>> name_of("maps/atlas/")
    'atlas'
    """
    last = (urlsplit(word).path if is_address(word) else word).rstrip("/")
    stem = re.sub("[^A-Za-z0-9_-]", "-", os.path.basename(last).split(".")[0])[:64]
    return stem[:8] if re.fullmatch("[0-9a-f]{64}", stem) else stem or "map"


def opened(plan: Plan) -> Published:
    """A map, once a proof has told what it is. Raises what Published raises, and Unfit."""
    if not plan.in_degrees and not plan.crs:
        raise Unfit("%s: its statement names no coordinate system, so no program could draw it" % plan.name)
    found = Published(plan)
    state = found.state()
    if plan.in_degrees and state.rect:
        x0, y0, x1, y1 = (plan.grid.unit * side for side in state.rect)
        if x0 < -180 or x1 > 180 or y0 < -90 or y1 > 90:
            ends = "%s goes from %s %s to %s %s" % (plan.name, *map(plan.grid.in_file, state.rect))
            raise Unfit(ends + ", and so is not in degrees: --crs or --unit says what it is in")
    crs = "longitude and latitude" if plan.in_degrees else plan.crs
    outputs.tell(SCRIPT, "%s: %s, in %s" % (plan.name, found.said(), crs))
    return found


def run(words: List[str]) -> None:
    """Serves the maps that the words of a command line name, until a signal ends it. Raises what status_of tells."""
    if words[:1] in (["-h"], ["--help"]):
        print(__doc__ or SCRIPT)
        return
    given, rest = parser_of_server().parse_known_args(words)
    plans = [plan_of(group, given.publishers) for group in groups_of(rest)]
    called = [plan.name for plan in plans]
    for name in called:
        if called.count(name) > 1:
            raise Unfit("two maps are called %s: --name calls one of them otherwise" % name)
    service = Service(collections_of([opened(plan) for plan in plans]))
    names = [*NAMES, *filter(None, given.names.lower().split(","))]
    try:
        server = Server((given.bind, given.port), service, names, given.log)
    except OSError as fault:
        raise Ended(7, "%s:%d: %s" % (given.bind, given.port, fault.strerror or fault)) from None
    signal.signal(signal.SIGTERM, lambda *_: threading.Thread(target=server.shutdown).start())
    host = "[%s]" % given.bind if ":" in given.bind else given.bind
    outputs.tell(SCRIPT, "http://%s:%d/" % (host, server.server_port))
    with server, suppress(KeyboardInterrupt):
        server.serve_forever()


def main(words: Optional[List[str]] = None) -> int:
    """Runs the words of the command line; answers the exit status."""
    return outputs.status_of(SCRIPT, lambda: run(sys.argv[1:] if words is None else words))


if __name__ == "__main__":
    signal.signal(signal.SIGINT, signal.default_int_handler)
    sys.exit(main())
