"""Round trips by GDAL: a collection by the gateway into a GeoPackage, and by `load` into another
file.

Flat properties that each feature has come back byte for byte. What a GeoPackage changes else is
here row by row, and as a table in docs/CLIENTS.md.
"""

import json
import subprocess
from pathlib import Path
from typing import Any

from gateway_tests.data import KILOMETRE, Feature, Maker, batches, feature, kerbs, mixed
from gateway_tests.data import parks, shape
from gateway_tests.service import Gateway, gateway
from harness import Context
from messages import post

SECONDS = 300
TO_SEQUENCE = ["ogr2ogr", "-f", "GeoJSONSeq", "-a_srs", "None"]
TO_SEQUENCE += ["-lco", "ID_FIELD=id", "-lco", "COORDINATE_PRECISION=3"]
PLACED = ("--open", "--round", "--scale", "1000", "--shift", "565000,5934000")
POINT = shape("Point", [1234567, -7654321])
LACKING = object()
# GDAL learns the fields from its first page, which has ten features if nothing else is set.
FIRST_PAGE = 10
LONG_PAGES = ("-oo", "PAGE_SIZE=1000")

# A property of two features, and what comes back of it.
CHANGED: dict[str, tuple[list[Any], list[Any]]] = {
    "lacking": ([1, LACKING], [1, None]),
    "numbers": ([[1, 2], [3]], ["(2:1,2)", "(1:3)"]),
    "texts": ([["x", "y"], ["z"]], ["(2:x,y)", "(1:z)"]),
    "switches": ([[True, False], [True]], ["(2:1,0)", "(1:1)"]),
    "large": ([2**63 - 1, 2**63], [2**63 - 1, 2**63 - 1]),
    "large within": ([{"a": 2**63 + 1}, {}], [{"a": 2**63 - 1}, {}]),
    "true and number": ([True, 1], [1, 1]),
    "number and text": ([1, "x"], ["1", "x"]),
    "object and number": ([{"z": 1}, 5], [{"z": 1}, "5"]),
    "parts of seconds": (
        ["2024-05-01T12:00:00.5Z", "2024-05-01T12:00:00.123456Z"],
        ["2024-05-01T12:00:00.500Z", "2024-05-01T12:00:00.123Z"],
    ),
    "no seconds": (
        ["2024-05-01T12:00Z", "2024-05-01T12:30Z"],
        ["2024-05-01T12:00:00", "2024-05-01T12:30:00"],
    ),
    "day and moment": (
        ["2024-05-02", "2024-05-01T12:00:00Z"],
        ["2024-05-02T00:00:00", "2024-05-01T12:00:00Z"],
    ),
    "slashes": (["2024/05/01", "2024/05/02"], ["2024-05-01", "2024-05-02"]),
    "time of day": (["12:30", "12:31"], ["12:30:00", "12:31:00"]),
    "day and time of day": (["2024-05-01", "12:30:00"], [2024, 12]),
    "zero byte": (["a\0b", "c"], ["a", "c"]),
}
# A property of two features that comes back as it was.
SAME: dict[str, list[Any]] = {
    "null in both": [None, None],
    "empty text": ["", "x"],
    "object": [{"a": 1, "b": [1, "x", None]}, {"c": {"d": True}}],
    "array of kinds": [["x", 1], [None, 2]],
    "array of arrays": [[[1], [2]], [[3]]],
    "empty array": [[], []],
    "day": ["2024-05-01", "2024-05-02"],
    "day and text": ["2024-05-01", "x"],
    "moment": ["2024-05-01T12:00:00Z", "2024-05-01T12:00:01+02:00"],
    "interval": ["2024-05-01/..", "2024-05-01T12:00:00Z/.."],
    "digits": ["007", "1.50"],
    "least": [-(2**63), 2**63 - 1],
    "signs": ["a\nb\t\"\\'", "\u2028💡e\u0301"],
}


def flat(number: int) -> Feature:
    """The same flat properties for each feature."""
    left = None if number % 3 else number
    return {"kind": "Leuchte é", "left": left, "lit": number % 2 == 0, "no": 2**53 + number}


def points() -> list[Feature]:
    maker = Maker(12)
    return [
        feature(f"L{number:03}", shape("Point", maker.position(900 * KILOMETRE)), flat(number))
        for number in range(200)
    ]


def kinds() -> list[Feature]:
    """Geometries of all kinds, and none."""
    found = [each["geometry"] for each in (*kerbs(), *parks(), *mixed())]
    return [feature(f"G{n:03}", geometry, flat(n)) for n, geometry in enumerate(found)]


def heights() -> list[Feature]:
    spots = [[5, 6, 7], [5, 6, -1234567], [5, 6]]
    return [feature(f"H{n}", shape("Point", spot), flat(n)) for n, spot in enumerate(spots)]


def columns() -> list[Feature]:
    """Two features, with a property for each row of both tables."""
    rows = {name: before for name, (before, _) in CHANGED.items()} | SAME
    made = []
    for at, name in enumerate(("column-a", "column-b")):
        values = {row: before[at] for row, before in rows.items()}
        there = {row: value for row, value in values.items() if value is not LACKING}
        made.append(feature(name, POINT, there))
    return made


def behind(late: list[Any], first: Any) -> list[Feature]:
    """Features of which those after GDAL's first page have other values."""
    values = [first] * FIRST_PAGE + late
    made = [{} if value is LACKING else {"a": value} for value in values]
    return [feature(f"{late[0]}-{n:02}", POINT, each) for n, each in enumerate(made)]


# Collections whose features are changed, and what comes back of the last features: the id and the
# properties of each.
OTHERS: dict[str, tuple[list[Feature], list[tuple[str, Any]]]] = {
    "no-properties": (
        [feature("np-a", POINT, {"a": 1}), feature("np-b", POINT)],
        [("np-a", {"a": 1}), ("np-b", {"a": None})],
    ),
    "none-at-all": ([feature("na-a", POINT), feature("na-b", POINT)], [("na-a", {}), ("na-b", {})]),
    "named-id": ([feature("ni-a", POINT, {"id": 7, "a": 1})], [("7", {"a": 1})]),
    "named-fid": ([feature("nf-a", POINT, {"fid": 7, "a": 1})], [("nf-a", {"a": 1})]),
    "upper-fid": ([feature("uf-a", POINT, {"FID": 7, "a": 1})], [("uf-a", {"a": 1})]),
    "unnamed": ([feature("un-a", POINT, {"": 7, "a": 1})], [("un-a", {"a": 1})]),
    "cases": ([feature("ca-a", POINT, {"A": 7, "a": 1})], [("ca-a", {"A": 7, "a2": 1})]),
    "late": (behind([7], LACKING), [("7-10", {})]),
    "late-large": (behind([2**40], 1), [(f"{2**40}-10", {"a": 2**31 - 1})]),
    "late-text": (behind(["x"], 1), [("x-10", {"a": 0})]),
    "late-number": (behind([9], True), [("9-10", {"a": True})]),
    "late-word": (behind(["y"], "2024-05-01"), [("y-10", {"a": None})]),
}


def geopackage(context: Context, asked: Gateway, name: str, *words: str) -> Path:
    """A collection in EPSG:25832, as `ogr2ogr` writes it."""
    file = context.folder / f"round-{name}{len(words)}.gpkg"
    given = ["ogr2ogr", *words, "-f", "GPKG", "-t_srs", "EPSG:25832", str(file)]
    given += [f"OAPIF:{asked.url}", name]
    ended = subprocess.run(given, capture_output=True, text=True, timeout=SECONDS)
    context.check(f"ogr2ogr {' '.join(words)} {name}", ended.returncode, 0)
    return file


def sequence(context: Context, file: Path) -> Path:
    """The features of a GeoPackage, a line each, in metres."""
    text = file.with_suffix(".geojsonl")
    given = [*TO_SEQUENCE, str(text), str(file)]
    ended = subprocess.run(given, capture_output=True, text=True, timeout=SECONDS)
    context.check(f"{text.name}", ended.returncode, 0)
    return text


def load(context: Context, file: Path, name: str, text: Path) -> bytes:
    """Loads a sequence in metres into a new collection of a file. Returns its export."""
    context.run("load", file, text, "--key", name, "--collection", name, *PLACED)
    return context.run("export", file, "--collection", name)


def check_round_trips(context: Context) -> None:
    """What comes back is the same export, but for the changes that are listed."""
    same = {"heights": heights(), "kinds": kinds(), "points": points()}
    others = {name: before for name, (before, _) in OTHERS.items()}
    geom = {"named-geom": [feature("ng-a", POINT, {"geom": 7})]}
    kept = {**same, "columns": columns(), **others, **geom}
    file = context.new_file("there.streetmap", *map(post, batches(kept)))
    back = context.new_file("back.streetmap")
    with context.serve(file, "--clients", "32") as server:
        with gateway(context, server.url) as asked:
            names = [*same, "columns", *others]
            files = {name: geopackage(context, asked, name) for name in names}
            long = geopackage(context, asked, "late", *LONG_PAGES)
            check_name_geom(context, asked)
    texts = {name: sequence(context, each) for name, each in files.items()}
    for name in same:
        wanted = context.run("export", file, "--collection", name)
        what = f"{name}: the same export, {len(wanted)} bytes"
        context.check(what, load(context, back, name, texts[name]) == wanted, True)
    joined = context.folder / "changed.geojsonl"
    joined.write_bytes(b"".join(texts[name].read_bytes() for name in ("columns", *others)))
    check_changes(context, json.loads(load(context, back, "changed", joined))["features"])
    check_long_pages(context, sequence(context, long))


def check_changes(context: Context, features: list[Feature]) -> None:
    """Each row of the table, as it comes back."""
    found = {each["id"]: each["properties"] for each in features}
    first, second = (found[name] for name in ("column-a", "column-b"))
    for name, (_, after) in CHANGED.items():
        context.check(f"changed: {name}", [first[name], second[name]], after)
    for name, before in SAME.items():
        context.check(f"not changed: {name}", [first[name], second[name]], before)
    context.check("no other property", set(first), {*CHANGED, *SAME})
    for name, (_, after) in OTHERS.items():
        context.check(f"changed: {name}", [(key, found.get(key)) for key, _ in after], after)
    shapes = {json.dumps(each["geometry"]) for each in features}
    context.check("their geometry", [json.loads(each) for each in shapes], [POINT])


def check_name_geom(context: Context, asked: Gateway) -> None:
    """`ogr2ogr` makes no GeoPackage of a property `geom`."""
    file = str(context.folder / "geom.gpkg")
    given = ["ogr2ogr", "-f", "GPKG", file, f"OAPIF:{asked.url}", "named-geom"]
    ended = subprocess.run(given, capture_output=True, text=True, timeout=SECONDS)
    said = "duplicate column name: geom" in ended.stderr
    context.check("a property geom", (ended.returncode, said), (1, True))


def check_long_pages(context: Context, text: Path) -> None:
    """With pages of 1,000 features GDAL learns the fields from all of these."""
    last = json.loads(text.read_text().splitlines()[-1])
    context.check("a late property in a long page", last["properties"], {"a": 7})
