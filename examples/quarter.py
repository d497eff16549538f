"""Writes the sample quarter, a batch that opens six collections and fills them:

    python3 examples/quarter.py > examples/quarter.json

It has streets and kerbs as lines, a park with a pond as a polygon with a hole, lamps and trees as
points, and works that last for a time. Coordinates are whole millimetres.
"""

import json
import math
import random
from collections.abc import Sequence
from typing import Any

METRE = 1000
STREETS = [
    ("Harbour Street", [(0, 60), (120, 64), (260, 58), (420, 70)], 9),
    ("Mill Lane", [(110, 0), (118, 64), (112, 150), (124, 280)], 7),
    ("Chapel Street", [(270, 0), (262, 58), (276, 170), (268, 280)], 8),
    ("Ropewalk", [(0, 205), (115, 198), (272, 206), (420, 196)], 8),
    ("Orchard Row", [(272, 130), (340, 126), (420, 132)], 6),
]
PARK = [(134, 78), (250, 74), (260, 120), (259, 186), (196, 188), (130, 182), (126, 120)]
POND = [(178, 112), (200, 104), (222, 116), (226, 140), (204, 152), (182, 142)]
Point = tuple[float, float]
Edit = dict[str, Any]


def position(point: Point) -> list[int]:
    """A point in metres as a position of the grid."""
    return [round(point[0] * METRE), round(point[1] * METRE)]


def ring(points: Sequence[Point]) -> list[list[int]]:
    """A closed ring."""
    return [position(point) for point in [*points, points[0]]]


def along(line: Sequence[Point], spacing: float, offset: float) -> list[Point]:
    """Points beside a line, each `spacing` after the one before."""
    found, left = [], spacing / 2
    for (x0, y0), (x1, y1) in zip(line, line[1:]):
        length = math.dist((x0, y0), (x1, y1))
        east, north = (x1 - x0) / length, (y1 - y0) / length
        while left < length:
            found.append((x0 + east * left - north * offset, y0 + north * left + east * offset))
            left += spacing
        left -= length
    return found


def beside(line: Sequence[Point], offset: float) -> list[Point]:
    """A line beside a line."""
    found = []
    for index, (x, y) in enumerate(line):
        (x0, y0), (x1, y1) = line[max(0, index - 1)], line[min(len(line) - 1, index + 1)]
        length = math.dist((x0, y0), (x1, y1))
        found.append((x - (y1 - y0) / length * offset, y + (x1 - x0) / length * offset))
    return found


def insert(collection: str, key: str, kind: str, coordinates: list[Any], **properties: Any) -> Edit:
    """An edit that inserts a feature."""
    geometry = {"type": kind, "coordinates": coordinates}
    feature = {"type": "Feature", "id": key, "geometry": geometry, "properties": properties}
    return {"op": "insert", "collection": collection, "feature": feature}


def streets() -> list[Edit]:
    """The streets, and a kerb on each side."""
    edits = []
    for number, (name, line, width) in enumerate(STREETS, 1):
        coordinates = [position(point) for point in line]
        edits.append(
            insert(
                "streets",
                f"S{number}",
                "LineString",
                coordinates,
                name=name,
                width_mm=width * METRE,
            )
        )
        for side, offset in (("left", width / 2), ("right", -width / 2)):
            kerb = [position(point) for point in beside(line, offset)]
            edits.append(
                insert("kerbs", f"K{number}-{side}", "LineString", kerb, street=name, height_mm=120)
            )
    return edits


def lamps(chance: random.Random) -> list[Edit]:
    """Lamps along the streets, left and right in turn."""
    places = []
    for name, line, width in STREETS:
        for index, point in enumerate(along(line, 28, width / 2 + 1.2)):
            other = along(line, 28, -width / 2 - 1.2)[index]
            places.append((name, point if index % 2 else other))
    return [
        insert(
            "lamps",
            f"L{number:03}",
            "Point",
            position(point),
            street=name,
            set=f"{chance.randint(2008, 2025)}-{chance.randint(1, 12):02}-15",
            watts=chance.choice([28, 35, 52]),
            led=chance.random() < 0.7,
        )
        for number, (name, point) in enumerate(places, 1)
    ]


def trees(chance: random.Random) -> list[Edit]:
    """Trees in the park and along one street."""
    spots = [
        (192 + 58 * r * math.cos(a), 129 + 48 * r * math.sin(a))
        for a, r in (
            (chance.uniform(0, 2 * math.pi), chance.uniform(0.62, 0.97)) for _ in range(46)
        )
    ]
    spots += along(STREETS[3][1], 16, -7.5)
    species = ["lime", "oak", "plane", "hornbeam", "maple"]
    return [
        insert(
            "trees",
            f"T{number:03}",
            "Point",
            position(point),
            species=chance.choice(species),
            planted=f"{chance.randint(1935, 2023)}-11-01",
        )
        for number, point in enumerate(spots, 1)
    ]


def batch() -> dict[str, Any]:
    """The whole quarter."""
    chance = random.Random(7)
    opened = [
        {"op": "open", "collection": name, "title": title, **({"time": time} if time else {})}
        for name, title, time in (
            ("kerbs", "Kerbs", None),
            ("lamps", "Street lamps", "set"),
            ("parks", "Parks", None),
            ("streets", "Streets", None),
            ("trees", "Trees", "planted"),
            ("works", "Road works", "during"),
        )
    ]
    park = insert(
        "parks", "P1", "Polygon", [ring(PARK), ring(POND)], name="Weaver's Park", benches=14
    )
    green = [(300, 84), (352, 80), (404, 88), (398, 116), (330, 112)]
    small = insert("parks", "P2", "Polygon", [ring(green)], name="Orchard Green", benches=3)
    digging = [(20, 53), (64, 54), (64, 69), (20, 68)]
    during = "2026-10-12T06:00:00Z/2026-12-18T16:00:00Z"
    works = insert(
        "works", "water-main", "Polygon", [ring(digging)], what="water main", during=during
    )
    edits = [*opened, park, small, works, *streets(), *lamps(chance), *trees(chance)]
    return {"key": "quarter", "edits": edits}


if __name__ == "__main__":
    whole = batch()
    lines = ",\n".join(json.dumps(edit, separators=(",", ":")) for edit in whole["edits"])
    print(f'{{"key":"{whole["key"]}","edits":[\n{lines}\n]}}')
