"""A driver of GDAL for published maps: each answer is checked, and ogr2ogr and others get features that were proved.

GDAL finds it where GDAL_PYTHON_DRIVER_PATH names this folder. Names of a dataset: MRTREE:STATEMENT, or
MRTREE:ROOT,address=ADDRESS,unit=UNIT; behind them may stand more of these: address, unit, crs, payload, shapes, number,
name, layers, publishers, each with its value, and atlas=yes. A spatial filter is asked as a window; what is refused is
an error, and gives no feature. docs/GATEWAY.md has all of it. Tested, and not proved.
"""
# gdal: DRIVER_NAME = "MRTREE"
# gdal: DRIVER_SUPPORTED_API_VERSION = [1]
# gdal: DRIVER_DCAP_VECTOR = "YES"
# gdal: DRIVER_DMD_LONGNAME = "Published maps, checked"
# gdal: DRIVER_DMD_CONNECTION_PREFIX = "MRTREE:"
from __future__ import annotations

import ctypes
import json
import os
import re
import sys
from decimal import Decimal
from typing import Any, Dict, Iterator, List, Optional, Tuple

sys.path.insert(0, os.path.dirname(os.path.abspath(__file__)))

import mrtree_gateway as gateway  # noqa: E402
import published  # noqa: E402
import records  # noqa: E402
from mrtree_check import Ended, Record, Refused  # noqa: E402
from outputs import Unfit  # noqa: E402
from published import Published, Window  # noqa: E402
from gdal_python_driver import BaseDataset, BaseDriver, BaseLayer  # noqa: E402

PREFIX = "MRTREE:"
# What may stand in the name of a dataset.
OPTIONS = ("address", "unit", "crs", "payload", "shapes", "number", "name", "layers", "publishers", "atlas")
PER_PAGE = 1000  # features that are asked for at once
SAMPLE = 100  # shapes by which the names and types of properties are told
MOST_NUMBER = 2**63 - 1  # that fits a field of GDAL
FAULTS = (Refused, Ended, Unfit, ValueError, MemoryError)
FAILURE, APPLICATION = 3, 1  # of GDAL: how bad an error is, and its number


def tell(words: str) -> None:
    """Tells GDAL of an error, by its own function: an exception would come with a trace."""
    shown = "".join(letter if letter.isprintable() else "?" for letter in "MRTREE: " + words)
    if "osgeo.gdal" in sys.modules:
        sys.modules["osgeo.gdal"].Error(FAILURE, APPLICATION, shown)
        return
    ctypes.CDLL(None).CPLError(FAILURE, APPLICATION, b"%s", shown.encode())


def words_of(name: str) -> Tuple[List[str], Dict[str, str]]:
    """The words of the gateway that a dataset's name means, and what is said beside them. Raises Unfit."""
    first, *rest = re.split(",(?=(?:%s)=)" % "|".join(OPTIONS), name[len(PREFIX) :])
    given = dict(part.split("=", 1) for part in rest)
    if len(given) < len(rest) or not first or "" in given.values() or given.get("atlas", "yes") != "yes":
        raise Unfit("%s names no map, or an option twice, or one without its value" % name)
    words = [first] + ([given["address"]] if "address" in given else [])
    for option in ("unit", "crs", "payload", "shapes", "number", "name"):
        words += ["--%s=%s" % (option, given[option])] if option in given else []
    return words + ["--atlas"] * ("atlas" in given), given


class Driver(BaseDriver):
    """What GDAL asks whether a name is one of a published map."""

    def identify(self, filename: str, first_bytes: Any, open_flags: int, open_options: Any = None) -> bool:
        """Whether a name is one of a published map."""
        return filename.startswith(PREFIX)

    def open(self, filename: str, first_bytes: Any, open_flags: int, open_options: Any = None) -> Any:
        """The dataset of a name; None where there is none, and then the error is told."""
        try:
            if not self.identify(filename, first_bytes, open_flags):
                return None
            words, given = words_of(filename)
            plan = gateway.plan_of(words, given.get("publishers"))
            return Dataset(Published(plan), given.get("layers"))
        except FAULTS as fault:
            tell(said(fault))
        except OSError as fault:
            tell("%s: %s" % (fault.filename, fault.strerror))
        return None


def said(fault: BaseException) -> str:
    """What is told of a fault."""
    return fault.line if isinstance(fault, Ended) else str(fault) or type(fault).__name__


class Dataset(BaseDataset):
    """A map, as a dataset of one layer."""

    def __init__(self, map_: Published, layers: Optional[str]) -> None:
        whole = gateway.Collection(map_.plan.name, map_.plan.title, map_)
        try:
            mask = whole.mask(layers)
        except gateway.Fault as fault:
            raise Unfit(fault.words) from None
        state, plan = map_.state(), map_.plan
        self.layers = [Layer(map_, mask)]
        self.metadata = {"ROOT": plan.root, "BATCH": str(state.batch), "RECORDS": str(state.count), "TITLE": plan.title}


class Layer(BaseLayer):
    """The records of a map as features; with shapes, as their shapes."""

    def __init__(self, map_: Published, mask: Optional[int]) -> None:
        self.map, self.mask, plan = map_, mask, map_.plan
        self.name, self.fid_name = plan.name, ""
        self.box: Optional[Tuple[float, ...]] = None
        self.fields = [{"name": name, "type": type_} for name, type_ in self.types().items()]
        crs = "EPSG:4326" if plan.crs in (None, "OGC:CRS84") and plan.in_degrees else plan.crs
        self.geometry_fields = [{"name": "", "type": 0, **({"srs": crs} if crs else {})}]
        self.iterator_honour_spatial_filter = self.feature_count_honour_spatial_filter = not plan.shapes

    def types(self) -> Dict[str, str]:
        """The fields, each with its type: those of some shapes too, if the map has any."""
        plan, version = self.map.plan, self.map.state().version
        found = {plan.number: "String" if plan.statement and plan.statement.keys else "Integer64"}
        if version == 2:
            found[published.LAYER] = "Integer"
            found.update({published.LAYER_NAME: "String"} if plan.layers else {})
        if plan.payload != "none":
            found["digest" if plan.payload == "digest" else plan.payload_name] = "String"
        if plan.shapes:
            page = self.map.page(self.windows(), self.mask, (0, 0), SAMPLE)
            for one in self.map.features(page.records):
                for name, value in json.loads(one)["properties"].items():
                    found[name] = wider(found.get(name), value)
            found["properties"] = "String"
        return found

    # -- what GDAL asks

    def spatial_filter_changed(self) -> None:
        """Keeps the box of the spatial filter, if there is one."""
        self.box = self.spatial_filter_extent if self.spatial_filter else None

    def test_capability(self, name: str) -> bool:
        """What the layer can do fast."""
        is_fast = name in ("FastFeatureCount", "FastGetExtent") and self.box is None
        return is_fast or name in ("FastSpatialFilter", "StringsAsUTF8")

    def feature_count(self, force_computation: bool) -> int:
        """How many features there are; -1 where it is refused."""
        try:
            count = self.map.matched(self.windows(), self.mask)
            return sum(len(page) for page in self.pages()) if count is None else count
        except FAULTS as fault:
            tell(said(fault))
        return -1

    def extent(self, force_computation: bool) -> Optional[List[float]]:
        """The rectangle round all records."""
        rect = self.map.state().rect
        return [float(self.map.plan.grid.in_file(side)) for side in rect] if rect else None

    def __iter__(self) -> Iterator[Dict[str, Any]]:
        """The features in the box of the spatial filter; behind a refusal no more, and then the error is told."""
        is_later = False
        try:
            for page in self.pages():
                for record, one in zip(page, self.map.features(page)):
                    yield self.feature(record, one)
                    is_later = True
        except FAULTS as fault:
            tell(said(fault) + gateway.LATER * is_later)

    # -- features

    def windows(self) -> List[Window]:
        """The windows of the spatial filter."""
        return self.map.windows(tuple(map(Decimal, self.box)) if self.box else None)

    def pages(self) -> Iterator[List[Record]]:
        """The records of the answer, some at a time."""
        start: Optional[published.Start] = (0, 0)
        while start:
            page = self.map.page(self.windows(), self.mask, start, PER_PAGE)
            start = page.rest
            yield page.records

    def feature(self, record: Record, text: str) -> Dict[str, Any]:
        """A feature, as GDAL takes it. Raises Unfit where its number does not fit."""
        told = json.loads(text)
        properties = told["properties"]
        if record.number > MOST_NUMBER and self.fields[0]["type"] != "String":
            raise Unfit("the number %d has no room in a field of whole numbers" % record.number)
        fields = {one["name"]: fitted(properties.get(one["name"]), one["type"]) for one in self.fields}
        fields[self.map.plan.number] = fitted(record.number, self.fields[0]["type"])
        if self.map.plan.shapes:
            fields["properties"] = records.compact(properties)
        found = {"type": "OGRFeature", "fields": fields, "geometry_fields": {"": well_known(told["geometry"])}}
        return {**found, "id": record.number} if record.number <= MOST_NUMBER else found


def wider(type_: Optional[str], value: Any) -> str:
    """The type of a field that has this value too."""
    own = {bool: "String", int: "Integer64", float: "Real"}.get(type(value), "String")
    if type(value) is int and abs(value) > MOST_NUMBER:
        own = "Real"
    if value is None or type_ in (own, None):
        return own if type_ is None else type_
    return "Real" if {type_, own} == {"Integer64", "Real"} else "String"


def fitted(value: Any, type_: str) -> Any:
    """A value for a field of a type; None where there is none, or it does not fit."""
    if value is None or type_ != "String" and type(value) not in (int, float):
        return None
    if type_ == "String":
        return value if isinstance(value, str) else records.compact(value)
    return float(value) if type_ == "Real" else int(value)


def well_known(geometry: Any) -> Optional[str]:
    """A geometry of GeoJSON as well-known text; heights where the first position has one."""
    if geometry is None:
        return None
    kind, inner = geometry["type"], geometry.get("geometries", geometry.get("coordinates"))
    if not inner:
        return kind.upper() + " EMPTY"
    if kind == "GeometryCollection":
        return "GEOMETRYCOLLECTION (%s)" % ",".join(str(well_known(one)) for one in inner)
    first = inner
    while isinstance(first[0], list):
        first = first[0]
    size = min(len(first), 3)
    told = coordinates(inner, size)
    return kind.upper() + " Z " * (size == 3) + ("(%s)" % told if kind == "Point" else told)


def coordinates(value: List[Any], size: int) -> str:
    """Coordinates as well-known text has them, so many of each position."""
    if isinstance(value[0], list):
        return "(%s)" % ",".join(coordinates(one, size) for one in value)
    return " ".join(repr(float(side)) for side in [*value, 0][:size])
