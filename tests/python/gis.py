"""Round trips with GDAL: features of a GIS to a map, to an answer by a statement, and back into a GeoPackage.

The features have points, lines, areas with holes, several parts, letters of other scripts, and some have no geometry.
They come as GeoPackage, Shapefile, FlatGeobuf and CSV, in degrees and in three grids of metres. What comes back has the
coordinate system that it had, and boxes that are right within a map unit.
"""
import json
import os
import re
import shutil
import subprocess
from typing import Any, Dict, List, Tuple

from bench import Bench, read, write
import records

DRIVERS = {"gpkg": "GPKG", "shp": "ESRI Shapefile", "fgb": "FlatGeobuf", "csv": "CSV"}
# Of each coordinate system: a map unit, the axes, and a place in it with the length of a step there.
SYSTEMS: Dict[str, Tuple[str, str, Tuple[float, float], float]] = {
    "EPSG:4326": ("1e-7", "longitude latitude", (13.3777, 52.5163), 0.00123456789),
    "EPSG:25833": ("0.01", "east north", (389908.123456, 5819926.654321), 97.31234567),
    "EPSG:3857": ("0.01", "east north", (1489201.987654, 6894025.123456), 141.7654321),
    "EPSG:2154": ("0.01", "east north", (652469.123456, 6862035.654321), 88.87654321),
}
NAMES = ("Brandenburger Tor", "Здание, «а»", "東京都庁舎", "🗺️ map", "a\tb \"c\"", "", "e\u0301")


def shapes_at(place: Tuple[float, float], step: float) -> List[Dict[str, Any]]:
    """Geometries round a place: one of each kind, and none at the end."""
    def at(x: float, y: float) -> List[float]:
        return [place[0] + x * step, place[1] + y * step]

    ring = [at(0, 0), at(3, 0), at(3, 3), at(0, 3), at(0, 0)]
    hole = [at(1, 1), at(1, 2), at(2, 2), at(2, 1), at(1, 1)]
    far = [at(5, 5), at(6, 5), at(6, 6.5), at(5, 5)]
    return [
        {"type": "Point", "coordinates": at(0.3, 0.7)},
        {"type": "LineString", "coordinates": [at(-1, 0), at(-2, 3), at(-2.5, -1)]},
        {"type": "Polygon", "coordinates": [ring, hole]},
        {"type": "MultiPolygon", "coordinates": [[ring, hole], [far]]},
        {"type": "MultiPoint", "coordinates": [at(-4, -4), at(-5, 4.4)]},
        {"type": "MultiLineString", "coordinates": [[at(8, 8), at(9, 9)], [at(8, 9), at(8.5, 7)]]},
        None,  # type: ignore[list-item]
    ]


def ogr2ogr(*words: str, **how) -> subprocess.CompletedProcess:
    """Runs ogr2ogr, which has to go well."""
    return subprocess.run(["ogr2ogr", *words], check=True, stderr=subprocess.PIPE, **how)


def source_of(crs: str, driver: str, kind: int) -> str:
    """A file of features in a coordinate system; of a Shapefile, which has one kind alone, those of that kind."""
    _, _, place, step = SYSTEMS[crs]
    shapes = shapes_at(place, step)
    chosen = list(range(len(shapes))) if driver != "shp" else [kind, len(shapes) - 1]
    features = [
        {"type": "Feature", "properties": {"key": 1000 + at, "name": NAMES[at]}, "geometry": shapes[at]} for at in chosen
    ]
    system = {"type": "name", "properties": {"name": "urn:ogc:def:crs:" + crs.replace(":", "::")}}
    text = {"type": "FeatureCollection", "name": "made", "crs": system, "features": features}
    write("made.geojson", json.dumps(text, ensure_ascii=False).encode())
    name = "source." + driver
    for old in os.listdir("."):
        if old.startswith("source."):
            os.remove(old)
    more = ["-lco", "GEOMETRY=AS_WKT"] if driver == "csv" else ["-lco", "ENCODING=UTF-8"] if driver == "shp" else []
    ogr2ogr("-f", DRIVERS[driver], name, "made.geojson", *more)
    return name


def given_to(name: str, crs: str) -> Tuple[str, List[str]]:
    """What `records.py text` takes of a file: CSV as it is, other files as ogr2ogr writes them; and its options."""
    if name.endswith(".csv"):
        return name, ["--payload", "name"]
    if crs == "EPSG:4326":
        ogr2ogr("-f", "GeoJSONSeq", "-lco", "COORDINATE_PRECISION=15", "taken.geojsonl", name)
        return "taken.geojsonl", ["--payload", "name"]
    ogr2ogr("-f", "CSV", "-lco", "GEOMETRY=AS_WKT", "taken.csv", name)
    return "taken.csv", ["--payload", "name"]


def boxes_in(name: str, number: str) -> Dict[int, Tuple[List[float], str]]:
    """The box and the name of each feature of a file, as GDAL reads it, by the number in a property."""
    text = subprocess.run(
        ["ogr2ogr", "-f", "GeoJSON", "/vsistdout/", name, "-lco", "RFC7946=NO", "-lco", "COORDINATE_PRECISION=15"],
        check=True, stdout=subprocess.PIPE, stderr=subprocess.DEVNULL,
    ).stdout
    found = {}
    for feature in json.loads(text)["features"]:
        if feature["geometry"] is not None:
            numbers = re.findall(r"-?[0-9.]+(?:[eE][+-]?[0-9]+)?", json.dumps(feature["geometry"]["coordinates"]))
            xs, ys = list(map(float, numbers[0::2])), list(map(float, numbers[1::2]))
            box = [min(xs), min(ys), max(xs), max(ys)]
            found[int(feature["properties"][number])] = box, feature["properties"].get("name") or ""
    return found


def trip_holds(bench: Bench, crs: str, driver: str, kind: int, form: str) -> None:
    """Features from a file to a map, to an answer in a format, and into a GeoPackage."""
    unit, axes, place, step = SYSTEMS[crs]
    where = "%s from %s by %s" % (crs, driver, form)
    name = source_of(crs, driver, kind)
    before = boxes_in(name, "key")
    for old in ("taken.csv", "taken.geojsonl", "back.gpkg"):
        if os.path.exists(old):
            os.remove(old)
    taken, more = given_to(name, crs)
    said = bench.call(records, ["text", taken, "r.txt", "--unit", unit, "--number", "key", "--skip-empty", *more])
    is_told = b"left out, since without geometry: 1" in said[1] or driver == "fgb"  # its writer leaves such out itself
    bench.holds(said[0] == 0 and is_told, "%s: %s" % (where, said))
    bench.program(["build", "r.map", "r.txt"])
    said = bench.call(records, [
        "statement", "r.map", "r.statement", "--map", where, "--unit", unit, "--crs", crs, "--axes", axes,
        "--numbers", "keys", "--payload", "name", "--address", "r.map", "--until", "2036-12-01",
    ])
    bench.holds(said[0] == 0, "%s: the statement: %s" % (where, said))
    sides = ["%.9f" % (place[at % 2] + way * step) for at, way in enumerate((-20, -20, 20, 20))]
    word = bench.script("records.py", ["query", "--statement", "r.statement", "window", *sides])[1].decode().strip()
    words = ["answer", "--statement", "r.statement", word, "answer", "--format", form, "--number", "key"]
    said = bench.call(records, words)
    bench.holds(said[0] == 0, "%s: the answer: %s" % (where, said))
    back_holds(bench, where, crs, form, before, float(unit))


def back_holds(bench: Bench, where: str, crs: str, form: str, before: Dict[int, Any], unit: float) -> None:
    """The answer, put into a GeoPackage by a pipe, has the system and the boxes, within a map unit."""
    prefix = {"geojson": "", "geojsonseq": "GeoJSONSeq:", "csv": "CSV:"}[form]
    system = [] if form == "geojson" else ["-a_srs", crs]
    with open("answer", "rb") as file:
        ogr2ogr("-f", "GPKG", "back.gpkg", prefix + "/vsistdin/", "-nln", "answer", *system, stdin=file)
    info = subprocess.run(["ogrinfo", "-al", "-so", "back.gpkg"], check=True, stdout=subprocess.PIPE).stdout.decode()
    ids = re.findall(r'ID\["EPSG",([0-9]+)\]\]\n', info)
    bench.holds(ids[-1:] == [crs[5:]], "%s: the system that came back: %s" % (where, ids))
    after = boxes_in("back.gpkg", "key")
    bench.holds(sorted(after) == sorted(before), "%s: %s came back of %s" % (where, sorted(after), sorted(before)))
    for number, (box, name) in before.items():
        found, its = after.get(number, ([0.0] * 4, ""))
        is_point = box[0] == box[2] and box[1] == box[3]
        most = (0.5 if is_point else 1) * unit * (1 + 1e-6)
        far = max(abs(one - other) for one, other in zip(box, found))
        bench.holds(far <= most, "%s: %d lies %g away" % (where, number, far))
        is_round = is_point or all(a <= b + 1e-9 for a, b in zip(found[:2] + box[2:], box[:2] + found[2:]))
        bench.holds(is_round, "%s: the box of %d is not round its shape: %s, %s" % (where, number, found, box))
        bench.holds(its == name, "%s: the name of %d is %r, and was %r" % (where, number, its, name))


def gis_hold(bench: Bench) -> None:
    """Each coordinate system from each kind of file, in each format; in short each system from one kind of file."""
    if not shutil.which("ogr2ogr") or not shutil.which("ogrinfo"):
        bench.skip("round trips with GDAL: there is no ogr2ogr")
        return
    forms = ("geojson", "geojsonseq", "csv")
    for at, crs in enumerate(SYSTEMS):
        for turn, driver in enumerate(DRIVERS):
            if bench.is_long or turn == at:
                for kind in range(6) if driver == "shp" and bench.is_long else (2,):
                    for form in forms if bench.is_long else (forms[at % 3],):
                        trip_holds(bench, crs, driver, kind, form)
