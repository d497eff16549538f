"""QGIS's own provider, GDAL and OWSLib as Debian has them, against the gateway."""

import json
import subprocess
from decimal import ROUND_HALF_UP, Decimal
from pathlib import Path
from typing import Any

from gateway_tests.data import collections, feature, shape
from gateway_tests.round_trip import TO_SEQUENCE
from gateway_tests.service import PYTHON, Gateway, environment
from harness import Context
from osgeo import gdal, ogr
from owslib.ogcapi.features import Features

SCRIPT = Path(__file__).with_name("qgis_layers.py")
SECONDS = 300
BOXES = ("9.95,53.5,10.0,53.6", "9.5,53.3,10.2,53.56", "9.98,53.55,9.9801,53.5501", "0,0,1,1")
ORIGIN = (565000.0, 5934000.0)
# What is drawn, in EPSG:25832.
GROUND = "557000,5929000,572000,5939000"

gdal.UseExceptions()


def check_clients(context: Context, asked: Gateway) -> None:
    check_qgis(context, asked)
    check_ogrinfo(context, asked)
    check_geopackage(context, asked)
    check_owslib(context, asked)
    check_owslib_edits(context, asked)


def check_qgis(context: Context, asked: Gateway) -> None:
    """QGIS opens each collection, counts, reads all, requests boxes, and draws."""
    picture = context.folder / "map.png"
    words = [PYTHON, str(SCRIPT), asked.url, str(picture), GROUND, *collections(), *BOXES]
    folder = str(context.folder)
    seen = environment() | {"QT_QPA_PLATFORM": "offscreen", "HOME": folder, "TMPDIR": folder}
    ended = subprocess.run(words, env=seen, capture_output=True, text=True, timeout=SECONDS)
    context.check("QGIS ends", ended.returncode, 0)
    found = json.loads(ended.stdout.splitlines()[-1])
    for name, made in collections().items():
        layer = found[name]
        context.check(f"QGIS opens {name}", (layer["valid"], layer["crs"]), (True, "EPSG:4326"))
        context.check(f"QGIS counts {name}", layer["count"], len(made))
        context.check(f"QGIS reads {name}", layer["ids"], [each["id"] for each in made])
        for box in BOXES:
            wanted = asked.ids(name, bbox=box, limit=1000)
            context.check(f"QGIS asks {name} in {box}", layer["boxes"][box], wanted)
    context.check("QGIS draws", found["drawn"] > 1000, True)


def check_ogrinfo(context: Context, asked: Gateway) -> None:
    """`ogrinfo -spat` counts what the gateway has in the box."""
    for name in collections():
        for box in BOXES:
            words = ["ogrinfo", "-ro", "-al", "-so", "-spat", *box.split(",")]
            words += [f"OAPIF:{asked.url}", name]
            ended = subprocess.run(words, capture_output=True, text=True, timeout=SECONDS)
            count = ended.stdout.partition("Feature Count: ")[2].partition("\n")[0]
            wanted = len(asked.ids(name, bbox=box, limit=1000))
            context.check(f"ogrinfo -spat {box} {name}", count, str(wanted))


def check_geopackage(context: Context, asked: Gateway) -> None:
    """`ogr2ogr` to a GeoPackage in EPSG:25832: the grid, after rounding to whole millimetres."""
    for name, made in collections().items():
        file = context.folder / f"{name}.gpkg"
        words = ["ogr2ogr", "-f", "GPKG", "-t_srs", "EPSG:25832", str(file)]
        words += [f"OAPIF:{asked.url}", name]
        ended = subprocess.run(words, capture_output=True, text=True, timeout=SECONDS)
        context.check(f"ogr2ogr {name}", (ended.returncode, ended.stderr), (0, ""))
        with_geometry = {each["id"]: grid_of(each["geometry"]) for each in made}
        check_sequence(context, name, file, made)
        source = ogr.Open(str(file))
        got = {each.GetField("id"): steps_of(each.GetGeometryRef()) for each in source.GetLayer(0)}
        context.check(f"{name} as a GeoPackage", got, with_geometry)


def check_sequence(context: Context, name: str, file: Path, made: list[dict[str, Any]]) -> None:
    """The GeoPackage as a text sequence in metres: the grid again, by decimals."""
    text = file.with_suffix(".jsonl")
    words = [*TO_SEQUENCE, str(text), str(file)]
    ended = subprocess.run(words, capture_output=True, text=True, timeout=SECONDS)
    context.check(f"{name} as a sequence", ended.returncode, 0)
    lines = [json.loads(line, parse_float=Decimal) for line in text.read_text().splitlines()]
    wanted = {each["id"]: grid_of(each["geometry"]) for each in made}
    got = {each["id"]: grid_of_metres(each["geometry"]) for each in lines}
    context.check(f"{name} as a sequence: the grid", got, wanted)


def grid_of_metres(geometry: dict[str, Any] | None) -> Any:
    """The same as `grid_of` of a geometry in metres, half away from zero."""
    if geometry is None:
        return None
    if geometry["type"] == "GeometryCollection":
        return [grid_of_metres(member) for member in geometry["geometries"]]

    def whole(number: Decimal) -> int:
        return int((number * 1000).quantize(Decimal(1), ROUND_HALF_UP))

    def placed(item: Any) -> Any:
        if isinstance(item[0], list):
            return [placed(each) for each in item]
        x, y, *height = (Decimal(number) for number in item)
        return [whole(x - 565000), whole(y - 5934000), *map(whole, height)]

    return [geometry["type"], placed(geometry["coordinates"])]


def grid_of(geometry: dict[str, Any] | None) -> Any:
    """The kind and positions of a geometry of the grid, heights left out of the comparison if
    it has none."""
    if geometry is None:
        return None
    if geometry["type"] == "GeometryCollection":
        return [grid_of(member) for member in geometry["geometries"]]
    return [geometry["type"], geometry["coordinates"]]


def steps_of(geometry: Any) -> Any:
    """The same of a geometry in metres, rounded to whole millimetres."""
    if geometry is None:
        return None
    value = json.loads(geometry.ExportToJson(["COORDINATE_PRECISION=6"]))

    def rounded(item: Any) -> Any:
        if isinstance(item[0], list):
            return [rounded(each) for each in item]
        x, y, *height = item
        steps = [round((x - ORIGIN[0]) * 1000), round((y - ORIGIN[1]) * 1000)]
        return steps + [round(z * 1000) for z in height]

    def member(each: dict[str, Any]) -> Any:
        if each["type"] == "GeometryCollection":
            return [member(one) for one in each["geometries"]]
        return [each["type"], rounded(each["coordinates"])]

    return member(value)


def check_owslib(context: Context, asked: Gateway) -> None:
    """OWSLib: description, collections, items with box and time, single items."""
    service = Features(f"{asked.url}/")
    context.check("api", service.api()["openapi"][:3], "3.0")
    names = list(collections())
    listed = [each["id"] for each in service.collections()["collections"]]
    context.check("collections", listed, names)
    context.check("feature_collections", service.feature_collections(), names)
    context.check("conformance", len(service.conformance()["conformsTo"]), 6)
    context.check("collection", service.collection("lamps")["title"], "Lamps")
    box, interval = [9.95, 53.5, 10.0, 53.6], "2010-01-01T00:00:00Z/.."
    found = service.collection_items("lamps", bbox=list(box), datetime=interval, limit=1000)
    wanted = asked.ids("lamps", bbox=",".join(map(str, box)), datetime=interval, limit=1000)
    context.check("collection_items", [each["id"] for each in found["features"]], wanted)
    item = service.collection_item("lamps", "L00001")
    context.check("collection_item", item["id"], "L00001")


def check_owslib_edits(context: Context, asked: Gateway) -> None:
    """OWSLib 0.27 has no calls for edits. Plain requests to the URLs that it builds are edits, and
    it reads what they leave."""
    service = Features(f"{asked.url}/")
    calls = [f"collection_item_{kind}" for kind in ("create", "update", "delete")]
    context.check("OWSLib's edits", [name for name in calls if hasattr(service, name)], [])
    items, item = (
        service._build_url(f"collections/lamps/items{end}").removeprefix(asked.url)
        for end in ("", "/by-owslib")
    )
    for number, (method, path, status) in enumerate((("POST", items, 201), ("PUT", item, 204))):
        sent = feature("by-owslib", shape("Point", [9.98, 53.55]), {"no": number})
        answer = asked.send(method, path, sent)
        context.check(f"{method} at OWSLib's URL", answer.status_code, status)
        shown = service.collection_item("lamps", "by-owslib")
        context.check(f"what {method} left", shown["properties"], {"no": number})
    context.check("DELETE at OWSLib's URL", asked.send("DELETE", item).status_code, 204)
    left = service.collection_items("lamps", limit=1000)["features"]
    context.check("what DELETE left", "by-owslib" in [each["id"] for each in left], False)
