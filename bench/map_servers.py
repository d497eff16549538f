"""The towns of `boxes.py` by QGIS Server and MapServer, if they are installed.

Debian's packages `qgis-server`, `python3-qgis` and `cgi-mapserver`, with `nginx` and `gdal-bin`. A
town is a GeoPackage in EPSG:25832, which has an R*Tree. Both answer by OGC API - Features, four
processes each behind nginx, and get requests for boxes in degrees.
"""

from __future__ import annotations

import contextlib
import http.client
import json
import shutil
import statistics
import subprocess
import time
from collections.abc import Iterable, Iterator
from pathlib import Path
from typing import Any

from gateway import EASTING, MAPSERVER, NORTHING, QGIS_SERVER, Service, mapserver, qgis_server

Box = tuple[int, int, int, int]
Feature = dict[str, Any]
METRES, DEGREES = "EPSG:25832", "EPSG:4326"


def in_metres(feature: Feature) -> Feature:
    """A line of a town as GDAL reads it, its id in a field."""
    points = feature["geometry"]["coordinates"]
    moved = [[EASTING + x / 1000, NORTHING + y / 1000] for x, y in points]
    return {
        "geometry": {"coordinates": moved, "type": "LineString"},
        "properties": {**feature["properties"], "id": feature["id"]},
        "type": "Feature",
    }


def geopackage(features: Iterable[Feature], folder: Path) -> Path:
    """The features of a town as the layer `lamps`, which is what the servers are queried for."""
    text, made = folder / "town.geojsonl", folder / "town.gpkg"
    with text.open("w") as lines:
        for feature in features:
            lines.write(json.dumps(in_metres(feature), separators=(",", ":")) + "\n")
    words = ["ogr2ogr", "-f", "GPKG", "-a_srs", METRES, "-nln", "lamps", str(made)]
    subprocess.run([*words, f"GeoJSONSeq:{text}"], check=True)
    text.unlink()
    return made


def in_degrees(areas: list[Box]) -> list[str]:
    """Boxes as a query has them: from the south-western to the north-eastern corner of each."""
    corners = [(area[at], area[at + 1]) for area in areas for at in (0, 2)]
    given = "".join(f"{EASTING + x / 1000} {NORTHING + y / 1000}\n" for x, y in corners)
    words = ["gdaltransform", "-s_srs", METRES, "-t_srs", DEGREES, "-output_xy"]
    done = subprocess.run(words, input=given, capture_output=True, text=True, check=True)
    degrees = [",".join(line.split()) for line in done.stdout.splitlines()]
    return [f"{low},{high}" for low, high in zip(degrees[::2], degrees[1::2])]


@contextlib.contextmanager
def beside(features: Iterable[Feature], width: int, folder: Path) -> Iterator[list[Service]]:
    """The servers that are installed, over a town of such a width in millimetres."""
    installed = [it for it in (QGIS_SERVER, MAPSERVER) if it.exists()]
    if not installed or not all(shutil.which(it) for it in ("nginx", "ogr2ogr", "gdaltransform")):
        yield []
        return
    folder.chmod(0o755)
    layer = geopackage(features, folder)
    with contextlib.ExitStack() as started:
        services = []
        if QGIS_SERVER in installed:
            services.append(started.enter_context(qgis_server(layer, folder / "qgis")))
        if MAPSERVER in installed:
            reach = (width // 1000 + 100, width // 1000 + 100)
            other = mapserver(layer, folder / "mapserver", "LINE", reach)
            services.append(started.enter_context(other))
        yield services


def median(service: Service, areas: list[Box | None], limit: int) -> float:
    """The median time of pages of these boxes, or of all, in milliseconds."""
    asked = [area for area in areas if area is not None]
    queries = [f"&bbox={box}" for box in in_degrees(asked)] if asked else [""] * len(areas)
    mark = "&" if "?" in service.items else "?"
    connection = http.client.HTTPConnection("127.0.0.1", service.port, timeout=600)
    took = []
    for query in queries:
        start = time.perf_counter()
        connection.request("GET", f"{service.items}{mark}limit={limit}{query}")
        answer = connection.getresponse()
        text = answer.read()
        took.append((time.perf_counter() - start) * 1000)
        if answer.status != 200 or b'"FeatureCollection"' not in text:
            raise RuntimeError(f"{service.name}: {answer.status} {text[:200]!r}")
    connection.close()
    return statistics.median(took)
