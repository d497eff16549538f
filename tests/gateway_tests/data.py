"""Collections for the tests, made from a fixed seed: points, lines, polygons, and all of them."""

import json
import random
from collections.abc import Iterable
from typing import Any

Feature = dict[str, Any]
KILOMETRE = 1_000_000
# The collections whose time is their property `set`.
TIMED = ("assets", "lamps")


def feature(name: str, geometry: Feature | None, properties: Feature | None = None) -> Feature:
    return {"type": "Feature", "id": name, "geometry": geometry, "properties": properties}


def shape(kind: str, coordinates: Any) -> Feature:
    return {"type": kind, "coordinates": coordinates}


class Maker:
    """Random geometries around a place."""

    def __init__(self, seed: int) -> None:
        self.random = random.Random(seed)

    def position(self, reach: int) -> list[int]:
        return [self.random.randint(-reach, reach) for _ in range(2)]

    def line(self, reach: int, length: int, points: int) -> list[list[int]]:
        start = self.position(reach)
        steps = [self.position(length) for _ in range(points - 1)]
        return [start, *([start[0] + x, start[1] + y] for x, y in steps)]

    def ring(self, centre: list[int], size: int) -> list[list[int]]:
        x, y = centre
        wide, high = (self.random.randint(size // 4, size) for _ in range(2))
        corners = [[x - wide, y - high], [x + wide, y - high], [x + wide, y + high]]
        return [*corners, [x - wide, y + high], corners[0]]

    def polygon(self, reach: int, size: int) -> list[list[list[int]]]:
        centre = self.position(reach)
        return [self.ring(centre, size), self.ring(centre, size // 8)[::-1]]


def lamps(count: int = 300) -> list[Feature]:
    """Points within 5 km, some with a height, with days as times."""
    maker = Maker(1)
    made = []
    for number in range(count):
        position = maker.position(5 * KILOMETRE)
        if number % 7 == 0:
            position.append(maker.random.randint(0, 99_999))
        properties = {"no": number, "set": f"20{number % 25:02}-05-01", "kind": "lamp"}
        made.append(feature(f"L{number:05}", shape("Point", position), properties))
    return made


def kerbs() -> list[Feature]:
    """Lines, short ones and ones of up to 100 km and more."""
    maker = Maker(2)
    short = [maker.line(30 * KILOMETRE, KILOMETRE, 4) for _ in range(40)]
    long = [maker.line(60 * KILOMETRE, 100 * KILOMETRE, 2) for _ in range(20)]
    return [
        feature(f"K{number:03}", shape("LineString", line), {"no": number})
        for number, line in enumerate([*short, *long])
    ]


def parks() -> list[Feature]:
    """Polygons with holes from 100 m to 40 km."""
    maker = Maker(3)
    sizes = [100_000 * 2 ** (number % 9) for number in range(50)]
    return [
        feature(f"P{n:03}", shape("Polygon", maker.polygon(60 * KILOMETRE, size)), {"no": n})
        for n, size in enumerate(sizes)
    ]


def mixed() -> list[Feature]:
    """All other kinds, a ring that crosses itself, and a feature without geometry."""
    maker = Maker(4)
    reach = 20 * KILOMETRE
    lines = [maker.line(reach, 10 * KILOMETRE, 3) for _ in range(3)]
    polygons = [maker.polygon(reach, 2 * KILOMETRE) for _ in range(3)]
    bow = [[0, 0], [9 * KILOMETRE, 9 * KILOMETRE], [9 * KILOMETRE, 0], [0, 9 * KILOMETRE], [0, 0]]
    members = [shape("Point", maker.position(reach)), shape("LineString", lines[0])]
    return [
        feature("bow", shape("Polygon", [bow])),
        feature("collection", {"type": "GeometryCollection", "geometries": members}),
        feature("lines", shape("MultiLineString", lines), {"kind": "kerb"}),
        feature("nothing", None, {"kind": "lost", "nested": {"list": [1, None, True, 'ü"\n']}}),
        feature("points", shape("MultiPoint", [maker.position(reach) for _ in range(5)])),
        feature("polygons", shape("MultiPolygon", polygons), {"big": 2**62}),
        feature("way/12 ü", shape("Point", [1, -1])),
    ]


def collections() -> dict[str, list[Feature]]:
    return {"kerbs": kerbs(), "lamps": lamps(), "mixed": mixed(), "parks": parks()}


def batch(key: str, edits: Iterable[Feature]) -> bytes:
    return json.dumps({"key": key, "edits": list(edits)}).encode()


def opening(collection: str) -> Feature:
    time = {"time": "set"} if collection in TIMED else {}
    return {"op": "open", "collection": collection, "title": collection.title(), **time}


def insert(collection: str, made: Feature) -> Feature:
    return {"op": "insert", "collection": collection, "feature": made}


def batches(kept: dict[str, list[Feature]], each: int = 1000) -> list[bytes]:
    """The batches that open these collections and fill them."""
    edits = [opening(name) for name in kept]
    edits += [insert(name, made) for name, features in kept.items() for made in features]
    starts = range(0, len(edits), each)
    return [batch(f"data-{start}", edits[start : start + each]) for start in starts]
