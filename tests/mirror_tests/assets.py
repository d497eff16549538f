"""A made collection whose properties and geometries are of all kinds, for filters."""

import random
from typing import Any

from gateway_tests.data import Feature, Maker, feature, shape

COUNT = 200
REACH, SIZE = 400_000, 60_000
NAMES = ["Ahorn", "ahorn", "Linde", "O'Hara", "50 %", "a_b", "a\\b", "Ünit", "", "ab\ncd", "x" * 40]
DAYS = ["2010-01-01", "2010-01-02", "2011-06-30", "0004-02-29"]
MOMENTS = ["2010-01-01T00:00:00Z", "2010-01-01T23:59:59.999999Z", "2010-01-02T01:00:00+02:00"]
SPANS = ["2010-01-01T00:00:00Z/2010-01-02T12:00:00Z", "../2011-01-01T00:00:00Z"]
# The property that is the time of the collection, and one of texts that may be times.
TIME, SEEN = "set", "seen"
QUOTED = 'crown "width"'


def geometry(maker: Maker, number: int) -> Feature | None:
    """A geometry; of each eleventh feature none."""
    chance = maker.random
    small = maker.position(REACH)
    if number % 11 == 0:
        return None
    if number % 3 == 0:
        return shape("Point", [*small, 7] if number % 2 else small)
    if number % 5 == 0:
        return shape("LineString", maker.line(REACH, SIZE, 4))
    if number % 7 == 0:
        return {
            "type": "GeometryCollection",
            "geometries": [
                shape("Point", small),
                shape("Polygon", [maker.ring(maker.position(REACH), SIZE)]),
            ],
        }
    if number % 13 == 0:
        x, y = small
        bow = [[x, y], [x + SIZE, y + SIZE], [x + SIZE, y], [x, y + SIZE], [x, y]]
        return shape("Polygon", [bow])
    if number % 2 == 0:
        parts = [maker.polygon(REACH, SIZE) for _ in range(2)]
        return (
            shape("MultiPolygon", apart(parts))
            if chance.random() < 0.3
            else shape("Polygon", parts[0])
        )
    return shape("MultiPoint", [small, maker.position(REACH)])


def apart(polygons: list[Any]) -> list[Any]:
    """Polygons of which no two meet: the second is moved far enough."""
    moved = [[[x + 4 * SIZE + 2 * REACH, y] for x, y in ring] for ring in polygons[1]]
    return [polygons[0], moved]


def properties(chance: random.Random, number: int) -> dict[str, Any] | None:
    """Values of each kind; each is missing, or null, in some features."""
    values = {
        "no": number,
        "height": chance.choice([-3, 0, 1, 2, 5, 2**40, 2**62, 2**64 - 1]),
        "name": chance.choice(NAMES),
        "lit": chance.random() < 0.5,
        "mixed": chance.choice([1, 2, "1", "two", True, False, None, [1, 2], {"a": 1}]),
        QUOTED: chance.randint(0, 9),
        "breite": chance.choice(["1.5", "2", "2.25", "wide", 2]),
        TIME: chance.choice([*DAYS, *MOMENTS, *SPANS]),
        SEEN: chance.choice([*DAYS, *MOMENTS, *SPANS, "soon", "2010-02-30"]),
        "tags": ["a", "b"],
    }
    kept = {name: value for name, value in values.items() if chance.random() < 0.85}
    if chance.random() < 0.05:
        kept["name"] = None
    return None if chance.random() < 0.03 else kept


def assets() -> list[Feature]:
    maker = Maker(23)
    return [
        feature(f"A{number:04}", geometry(maker, number), properties(maker.random, number))
        for number in range(COUNT)
    ]
