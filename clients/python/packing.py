"""Makes a wheel of these files for pip, with the standard library alone: the build backend of pyproject.toml (PEP 517).

The package mrtree_check has the scripts as modules, and there are commands for those that are called.
"""
from __future__ import annotations

import base64
import hashlib
import os
import zipfile
from typing import Any, Dict

import mrtree_check

HERE = os.path.dirname(os.path.abspath(__file__))
FILES = ["__init__.py", "mrtree_check.py", "mrtree_ask.py", "ranges.py", "pagewise.py", "sheetwise.py", "layout.py"]
FILES += ["outputs.py", "sources.py", "statement.py", "shapes.py", "kinds.py", "records.py", "draw.py", "py.typed"]
FILES += ["mrtree_host.py", "listening.py", "mapped.py", "tiles.py", "published.py", "mrtree_gateway.py"]
FILES += ["mrtree_atlas.py", "atlas_sheets.py", "atlas_sort.py", "atlas_numbers.py", "atlas_build.py"]
FILES += ["atlas_update.py", "atlas_bind.py", "atlas_prove.py", "atlas_audit.py", "atlas_texts.py"]
NAME = "mrtree_check-%s" % mrtree_check.__version__
METADATA = """Metadata-Version: 2.1
Name: mrtree-check
Version: %s
Summary: Asks published maps and checks answers against their root digests, and makes maps of GeoJSON and CSV
Requires-Python: >=3.9
""" % mrtree_check.__version__
COMMANDS = """[console_scripts]
mrtree-check = mrtree_check.mrtree_check:main
mrtree-ask = mrtree_check.mrtree_ask:main
mrtree-gateway = mrtree_check.mrtree_gateway:main
mrtree-layout = mrtree_check.layout:main
mrtree-records = mrtree_check.records:main
mrtree-draw = mrtree_check.draw:main
mrtree-host = mrtree_check.mrtree_host:main
mrtree-tiles = mrtree_check.tiles:main
mrtree-atlas = mrtree_check.mrtree_atlas:main
"""
WHEEL = "Wheel-Version: 1.0\nGenerator: packing\nRoot-Is-Purelib: true\nTag: py3-none-any\n"


def members() -> Dict[str, bytes]:
    """The files of the wheel, but for the list of them."""
    found = {}
    for name in FILES:
        with open(os.path.join(HERE, name), "rb") as file:
            found["mrtree_check/" + name] = file.read()
    for name, text in (("METADATA", METADATA), ("WHEEL", WHEEL), ("entry_points.txt", COMMANDS)):
        found["%s.dist-info/%s" % (NAME, name)] = text.encode()
    return found


def line_of(name: str, data: bytes) -> str:
    """The line of a file in the list of them: its name, digest and length."""
    digest = base64.urlsafe_b64encode(hashlib.sha256(data).digest()).rstrip(b"=").decode()
    return "%s,sha256=%s,%d\n" % (name, digest, len(data))


def build_wheel(folder: str, settings: Any = None, metadata_folder: Any = None) -> str:
    """Writes the wheel into a folder; answers its name. The bytes are the same each time."""
    name, listed = NAME + "-py3-none-any.whl", NAME + ".dist-info/RECORD"
    found = members()
    found[listed] = ("".join(line_of(*one) for one in found.items()) + listed + ",,\n").encode()
    with zipfile.ZipFile(os.path.join(folder, name), "w", zipfile.ZIP_DEFLATED) as wheel:
        for member, data in found.items():
            wheel.writestr(zipfile.ZipInfo(member), data)
    return name
