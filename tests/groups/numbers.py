"""`load --scale --shift --round --fractions` beside Python's `fractions`, and layers in metres.

A load has a feature for each number, as an easting, a northing or a height, and passes over those at
fault: what is exported, and what is listed, is what the rules in plain Python say of each.
"""

import json
import subprocess
from collections.abc import Iterator
from dataclasses import dataclass
from fractions import Fraction
from pathlib import Path
from random import Random
from typing import Any

from followers_tests import postgres
from followers_tests.processes import wait_until
from harness import Context
from loading import faults_in, load_words, sequence

PACKAGES = ("gdal-bin", "postgresql", "python3-psycopg2")
# A table of it is loaded too if it is installed.
POSTGIS = Path("/usr/share/postgresql/15/extension/postgis.control")
METRES = ("--open", "--round", "--scale", "1000", "--shift", "412000,5712000")
SEED, NUMBERS = 39, 120
GREATEST, PLACES, MOST_CHARACTERS = 10**9, 18, 38
SCALES = ("1", "1000", "1e3", "0.001", "304.8", "0.3048", "0.000000001", "999999.999999999")
SHIFTS = ("0,0", "412000,5712000", "-500000.125,0.5", "1e17,-1e17", "0.000000000000000001,1")
# What GDAL and PostGIS write near zero, halves, and numbers at the limits of what is kept.
EDGES = (
    *("-1.1368683772161603e-13", "0.5", "-0.5", "1.5", "-2.5", "0.49999999999999999", "-0", "-0.0"),
    *("0e5", "999999999999999999", "1e-18", "1e-19", "5e-19", "1000000.0005", "1E+2"),
    *("1e18", "-1e18", "1000000000499999999.9", "1000000000500000000", "1e19", "1e20"),
    *("-1000000.0004", "0.4999999999999999999", "0.5000000000000000001", "412345.678", "1e30"),
    *("1.000000000000000000000000000000000000", "1.0000000000000000000000000000000000000"),
    *("123456789012345678901234567890.5", "1000000000", "1000000001", "999999999.5", "1e-400"),
)


@dataclass(frozen=True)
class Placing:
    """The options of a load that say how its numbers are read."""

    scale: str
    shift: str
    rounds: bool

    def words(self) -> list[str]:
        words = [f"--scale={self.scale}", f"--shift={self.shift}"]
        return [*words, "--round"] if self.rounds else words

    def shift_of(self, axis: int) -> str:
        return "0" if axis == 2 else self.shift.split(",")[axis]


def nearest(number: Fraction) -> int:
    """The nearest whole number, half away from zero."""
    whole = int(abs(number) + Fraction(1, 2))
    return -whole if number < 0 else whole


def in_grid(number: Fraction) -> int | None:
    """The nearest whole number, if that is a coordinate."""
    found = nearest(number)
    return found if abs(found) <= GREATEST else None


def placed(text: str, placing: Placing, axis: int) -> int | str:
    """The millimetres of a number, or its fault."""
    if len(text) > MOST_CHARACTERS:
        return "too_many_digits"
    shift, scale = Fraction(placing.shift_of(axis)), Fraction(placing.scale)
    count = abs(Fraction(text)) * 10**PLACES
    sign = -1 if text.startswith("-") else 1
    near, far = int(count), int(count) + (count.denominator != 1)
    if not placing.rounds and near != far:
        return "too_many_digits"
    sides = [(Fraction(sign * side, 10**PLACES) - shift) * scale for side in (near, far)]
    first, second = map(in_grid, sides)
    if first != second:
        return "too_many_digits"
    if first is None:
        return "out_of_grid"
    return first if placing.rounds or sides[0].denominator == 1 else "fraction"


def random_number(chance: Random) -> str:
    """A number text of any size, mostly one of a map in metres."""
    digits = "".join(chance.choice("0123456789") for _ in range(chance.choice((1, 3, 6, 7, 12))))
    whole = digits.lstrip("0") or "0"
    places = chance.choice((0, 1, 3, 3, 4, 9, 17, 18, 19, 25))
    fraction = "".join(chance.choice("0123456789") for _ in range(places))
    exponent = chance.choice(("", "", "", "e3", "E-3", "e+1", "e-12", "e9"))
    sign = chance.choice(("", "-"))
    return sign + whole + (f".{fraction}" if fraction else "") + exponent


def feature_text(number: str, placing: Placing, axis: int) -> str:
    """The text of a feature with this number at a coordinate, and the others at the grid's 0."""
    others = [placing.shift_of(each) for each in range(3 if axis == 2 else 2)]
    coordinates = ",".join(number if at == axis else each for at, each in enumerate(others))
    geometry = f'{{"type":"Point","coordinates":[{coordinates}]}}'
    return f'{{"type":"Feature","geometry":{geometry},"properties":null}}'


def placings() -> Iterator[Placing]:
    for at, scale in enumerate(SCALES):
        for rounds in (False, True):
            yield Placing(scale, SHIFTS[(2 * at + rounds) % len(SHIFTS)], rounds)
    yield from (Placing("1000", "412000,5712000", rounds) for rounds in (False, True))


def exported(context: Context, file: Path) -> list[Any]:
    collection = json.loads(context.run("export", file, "--collection", "lamps"))
    features: list[Any] = collection["features"]
    return features


def check_placing(context: Context, number: int, placing: Placing, chance: Random) -> None:
    """What comes of the numbers of a load, each at its place."""
    texts = [*EDGES, *(random_number(chance) for _ in range(NUMBERS))]
    axes = [chance.randrange(3) for _ in texts]
    wanted = {
        place: (axis, placed(text, placing, axis))
        for place, (text, axis) in enumerate(zip(texts, axes), 1)
    }
    file = context.new_file(f"placed-{number}")
    text = sequence([feature_text(it, placing, axis) for it, axis in zip(texts, axes)])
    words = load_words(file, None, "k", "--open", "--skip", *placing.words())
    ended = context.start(*words, sent=text)
    faults = faults_in(ended.stderr)
    found = {
        int(it["id"]): it["geometry"]["coordinates"][wanted[int(it["id"])][0]]
        for it in exported(context, file)
    }
    for place, (axis, millimetres) in wanted.items():
        what = f"{texts[place - 1]} at {axis}, {placing}"
        context.check(what, found.get(place, faults.get(place)), millimetres)


# Numbers whose millimetres, or faults, are written down: the scale, the shift, whether it rounds,
# the axis (easting, northing, height), the number, and its result.
WRITTEN = (
    ("1000", "-500000.125,0", False, 0, "412345.678", 912345803),
    ("1000", "0,0", False, 0, "-1.5e3", -1500000),
    ("1", "0,0", True, 0, "-0.5", -1),
    ("1", "0,0", True, 0, "2.5", 3),
    ("1", "0,0", True, 0, "-2.5", -3),
    ("1", "0,0", True, 0, "0.49999999", 0),
    ("1", "1,0", True, 0, "0.5", -1),
    ("0.3048", "0,0", True, 0, "1000", 305),
    ("1000", "0,0", True, 0, "1000000.0004", 1000000000),
    ("1000", "0,0", True, 0, "1000000.0005", "out_of_grid"),
    ("1000", "0,0", True, 0, "-1.1368683772161603e-13", 0),
    ("1", "0,0", True, 0, "0.4999999999999999999", "too_many_digits"),
    ("1", "0,0", True, 0, "0.5000000000000000001", 1),
    ("1", "0,0", True, 0, "1e-19", 0),
    ("1", "0,0", True, 0, "1e18", "out_of_grid"),
    ("1", "0,0", False, 0, "1e-19", "too_many_digits"),
    ("1", "0,0", False, 0, "-0.5", "fraction"),
    ("1", "-1e17,0", False, 0, "-1e17", 0),
    ("0.000000001", "0,0", True, 0, "4.99999999e8", 0),
    ("1e-9", "0,0", True, 0, "1e18", 1000000000),
    ("1e-9", "0,0", False, 0, "-1e18", -1000000000),
    ("1e-9", "0,0", True, 0, "1000000000499999999.9", 1000000000),
    ("1e-9", "0,0", True, 0, "1000000000500000000", "out_of_grid"),
    ("1e-9", "9e17,0", False, 0, "19e17", 1000000000),
    ("1e-9", "9e17,0", False, 0, "1900000001e9", "out_of_grid"),
    ("10", "100,7", False, 1, "8.5", 15),
    ("10", "100,7", False, 2, "8.5", 85),
)
# A line string whose two positions are at fault: the first in the order of the text is reported.
FIRST_FAULTS = (
    ("[[1e18,1],[1,0.49999999999999999999]]", "out_of_grid"),
    ("[[1,0.49999999999999999999],[1e18,1]]", "too_many_digits"),
)


def check_written(context: Context) -> None:
    """What the numbers of the table come to, and which of two faults comes first."""
    for number, (scale, shift, rounds, axis, text, wanted) in enumerate(WRITTEN):
        placing = Placing(scale, shift, rounds)
        file = context.new_file(f"written-{number}")
        words = load_words(file, None, "k", "--open", "--skip", *placing.words())
        ended = context.start(*words, sent=sequence([feature_text(text, placing, axis)]))
        found = [it["geometry"]["coordinates"][axis] for it in exported(context, file)]
        found += faults_in(ended.stderr).values()
        context.check(f"{text} at {axis}, {placing}", found, [wanted])
    for coordinates, fault in FIRST_FAULTS:
        geometry = f'{{"type":"LineString","coordinates":{coordinates}}}'
        text = f'{{"type":"Feature","id":"a","geometry":{geometry},"properties":null}}\n'
        words = load_words(context.new_file(fault), None, "k", "--open", "--round", "--scale", "1")
        code = f"bad_feature 1 {fault}"
        context.run(*words, sent=text.encode(), status=1, code=code)


# Numbers within properties, as they are written, and what is kept of them.
KEPT = (
    *(("3.5", "3.5"), ("-0.50", "-0.50"), ("1e400", "1e400"), ("1E2", "1E2")),
    *(("12345678901234567890123", "12345678901234567890123"), ("7", 7), ("1.0", 1), ("-7", -7)),
)


def check_fractions(context: Context) -> None:
    """`--fractions text` keeps numbers that are not whole as texts; without it they are faults."""
    members = ",".join(f'"{at}":[{text},{{"a":{text}}}]' for at, (text, _) in enumerate(KEPT))
    text = sequence([f'{{"type":"Feature","id":"a","geometry":null,"properties":{{{members}}}}}'])
    file = context.new_file("fractions")
    words = load_words(file, None, "k", "--open", "--fractions", "text")
    context.run(*words, sent=text)
    (feature,) = exported(context, file)
    wanted = {str(at): [kept, {"a": kept}] for at, (_, kept) in enumerate(KEPT)}
    context.check("fractions as texts", feature["properties"], wanted)
    one = b'{"type":"Feature","id":"b","geometry":null,"properties":{"a":3.5}}\n'
    ended = context.start(*load_words(file, None, "l"), sent=one)
    context.check("a fraction", ended.stderr, b"streetmap: bad_feature 1 fraction\n")
    # A geometry's other members and a feature's own are no coordinates.
    other = b'{"type":"Feature","id":"c","bbox":[0.5,1,2,3],"geometry":{"type":"Point",'
    other += b'"coordinates":[1.5,2],"bbox":[0.5,1,2,3]}}\n'
    context.run(*load_words(file, None, "m", "--scale", "2"), sent=other)
    found = {it["id"]: it["geometry"] for it in exported(context, file)}
    context.check("coordinates alone", found["c"]["coordinates"], [3, 4])


def check_words(context: Context) -> None:
    """Options that are no scale, shift or fate of fractions are usage faults, before all else."""
    absent = context.folder / "absent"
    bad: list[list[str]] = [["--scale", it] for it in ("0", "-1", "", "1e-10", "1e27", "01", "1 ")]
    bad += [["--shift", it] for it in ("1", "1;2", ",", "1,2,3", "1,1e18")]
    bad += [["--fractions", it] for it in ("number", "", "Text")]
    for words in bad:
        given = load_words(absent, None, "k", *words)
        context.run(*given, status=2, code="usage")
    context.run(*load_words(absent, None, "k", "--scale", "1"), status=1, code="no_file")


def check_other_words(context: Context) -> None:
    """Another scale is another text: the batches of a load are those of its options."""
    file = context.new_file("again")
    text = sequence([feature_text("1.5", Placing("2", "0,0", rounds=False), 0)])
    words = load_words(file, None, "k", "--open")
    first = context.run(*words, "--scale", "2", sent=text)
    context.check("again", context.run(*words, "--scale", "2.0", sent=text), first)
    context.run(*words, "--scale", "4", sent=text, status=1, code="key_used")
    # A file of metres without the options is refused, and nothing of it is in.
    context.run(*load_words(file, None, "l"), sent=text, status=1, code="bad_feature 1 fraction")


def ogr2ogr(context: Context, *words: str | Path) -> bytes:
    """What a run of `ogr2ogr` writes on standard output."""
    return subprocess.run(
        ["ogr2ogr", *words], check=True, timeout=context.seconds, capture_output=True
    ).stdout


def lamps_of(context: Context, name: str, source: str) -> dict[str, tuple[int, ...]]:
    """The layer `lamps` of a source in metres, by a pipe into a load: ids and positions."""
    words = ["-f", "GeoJSONSeq", "-a_srs", "None", "-lco", "ID_FIELD=lamp"]
    words += ["-lco", "COORDINATE_PRECISION=3", "/vsistdout/", source, "lamps"]
    file = context.new_file(name)
    context.run(*load_words(file, None, "k", *METRES), sent=ogr2ogr(context, *words))
    return {it["id"]: tuple(it["geometry"]["coordinates"]) for it in exported(context, file)}


def check_layers(context: Context) -> None:
    """A GeoPackage in metres (EPSG:25832), and if PostGIS is installed a table of it, come in to
    the millimetre by `ogr2ogr`."""
    chance = Random(SEED)
    positions = [
        (chance.randrange(10**7), chance.randrange(10**7), chance.randrange(10**5))
        for _ in range(300)
    ]
    metres = [(f"{412000 + x / 1000:.3f}", f"{5712000 + y / 1000:.3f}", z) for x, y, z in positions]
    features = [
        f'{{"type":"Feature","properties":{{"lamp":"L{at}"}},"geometry":{{"type":"Point",'
        f'"coordinates":[{x},{y},{z / 1000:.3f}]}}}}'
        for at, (x, y, z) in enumerate(metres)
    ]
    source, layer = context.folder / "lamps.geojson", context.folder / "lamps.gpkg"
    source.write_text(f'{{"type":"FeatureCollection","features":[{",".join(features)}]}}')
    ogr2ogr(context, "-f", "GPKG", "-a_srs", "EPSG:25832", "-nln", "lamps", layer, source)
    wanted = {f"L{at}": it for at, it in enumerate(positions)}
    context.check("a GeoPackage", lamps_of(context, "geopackage", str(layer)), wanted)
    if POSTGIS.exists():
        context.check("a table of PostGIS", lamps_of_table(context, layer), wanted)


def lamps_of_table(context: Context, layer: Path) -> dict[str, tuple[int, ...]]:
    """The same layer, put into a table of PostGIS and read from it."""
    database = postgres.primary(context)
    database.process.start()
    wait_until("PostgreSQL answers", database.answers, context.seconds)
    try:
        database.ask_alone("CREATE EXTENSION postgis")
        source = f"PG:host=127.0.0.1 port={database.port} user={postgres.USER} dbname=postgres"
        ogr2ogr(context, "-f", "PostgreSQL", source, layer, "lamps")
        return lamps_of(context, "postgis", source)
    finally:
        database.process.kill()


def run(context: Context) -> None:
    if not context.takes("load", context.folder, "--key", "k", "--collection", "c", "--round"):
        return
    chance = Random(SEED)
    for number, placing in enumerate(placings()):
        check_placing(context, number, placing, chance)
    check_written(context)
    check_fractions(context)
    check_words(context)
    check_other_words(context)
    check_layers(context)
