"""Filters of the gateway over the mirror: what they select, beside the plain model."""

import random
from collections.abc import Callable, Sequence
from concurrent.futures import ThreadPoolExecutor
from decimal import Decimal
from typing import Any

from gateway_tests.service import OFFICE, Gateway
from harness import Context
from mirror_tests import evaluation
from mirror_tests.assets import DAYS, MOMENTS, NAMES, QUOTED, REACH, SEEN, SIZE, TIME
from mirror_tests.crossing import Area, add
from mirror_tests.evaluation import OPERATORS, Filter, Read, boolean_in, number_in, quoted
from mirror_tests.evaluation import set_number_in, text_in, time_in
from mirror_tests.front import BOXES, SYSTEMS, Front
from mirror_tests.mirrors import SYSTEM
from model import is_inside

# Levels of AND, OR and NOT; how many requests are made at once.
LEVELS, AT_ONCE = 3, 4
PATTERNS = [
    "%",
    "a%",
    "A%",
    "%a%",
    "_",
    "a_b",
    "a\\_b",
    "50 \\%",
    "%\\\\b",
    "%'%",
    "Ün_t",
    "ab%",
    "",
]
NUMBERS = ["-3", "0", "1", "+2", "1.0", "1.5", "2.25", "5e0", "399", "4611686018427387904"]
FAR = ["18446744073709551615", "-1e30", "1E38", ".5", "100"]
# A pair of a value's text in the filter and the value.
Known = tuple[str, Any]


class Making:
    """Random filters over the made collection."""

    def __init__(self, seed: int) -> None:
        self.chance = random.Random(seed)
        self.makers = [self.comparison, self.like, self.between, self.among, self.null, self.shape]

    def any(self, level: int = LEVELS) -> Filter:
        kind = self.chance.random() if level else 1
        if kind < 0.3:
            return evaluation.conjunction(self.several(level))
        if kind < 0.6:
            return evaluation.disjunction(self.several(level))
        if kind < 0.75:
            return evaluation.negation(self.any(level - 1))
        return self.chance.choice(self.makers)()

    def several(self, level: int) -> list[Filter]:
        return [self.any(level - 1) for _ in range(self.chance.randint(2, 3))]

    def scalar(self) -> tuple[str, Read, Callable[[], Known]]:
        """A property, how its values of one kind are read, and values of that kind."""
        return self.chance.choice(
            [
                *[(name, number_in, self.number) for name in ("no", "height", "mixed", QUOTED)],
                *[(name, text_in, self.text) for name in ("name", "mixed", "id", TIME, SEEN)],
                *[(name, time_in, self.time) for name in (TIME, SEEN)],
                ("breite", set_number_in, self.number),
            ]
        )

    def number(self) -> Known:
        text = self.chance.choice([*NUMBERS, *FAR])
        return text, Decimal(text)

    def text(self) -> Known:
        text = self.chance.choice([*NAMES, "1", "two", "A0123", "2010-01-01", "b"])
        return quoted(text), text

    def time(self) -> Known:
        if self.chance.random() < 0.5:
            text = self.chance.choice(DAYS)
            return f"DATE('{text}')", time_in(text)
        text = self.chance.choice([*MOMENTS, "2010-01-02T00:00:00Z", "2010-06-01T12:00:00-03:00"])
        return f"TIMESTAMP('{text}')", time_in(text)

    def comparison(self) -> Filter:
        operator = self.chance.choice(list(OPERATORS))
        if self.chance.random() < 0.1:
            value = self.chance.choice([("TRUE", True), ("false", False)])
            name = self.chance.choice(["lit", "mixed"])
            return evaluation.compared(name, boolean_in, operator, *value)
        name, read, values = self.scalar()
        text, known = values()
        made = evaluation.compared(name, read, operator, text, known)
        is_turned = self.chance.random() < 0.3
        return evaluation.turned(made, name, operator, text) if is_turned else made

    def word(self) -> str:
        return self.chance.choice(["", "NOT "])

    def like(self) -> Filter:
        name = self.chance.choice(["name", "mixed", "id"])
        return evaluation.like(name, self.chance.choice(PATTERNS), self.word())

    def between(self) -> Filter:
        name, read, values = self.scalar()
        return evaluation.between(name, read, [values(), values()], self.word())

    def among(self) -> Filter:
        name, read, values = self.scalar()
        found = [values() for _ in range(self.chance.randint(1, 4))]
        return evaluation.among(name, read, found, self.word())

    def null(self) -> Filter:
        names = ["no", "name", "mixed", "lit", "id", "geometry", QUOTED, TIME]
        return evaluation.is_null(self.chance.choice(names), self.word())

    def position(self) -> tuple[int, int]:
        return self.chance.randint(-REACH, REACH), self.chance.randint(-REACH, REACH)

    def shape(self) -> Filter:
        kind = self.chance.choice(["BBOX", "POINT", "LINESTRING", "POLYGON", "MULTIPOLYGON"])
        area = Area()
        if kind == "BBOX":
            (west, south), (wide, high) = self.position(), self.position()
            ring = corners(west, south, west + abs(wide), south + abs(high))
            add(area, "Polygon", [ring])
            (x0, y0), (x1, y1) = office(ring[0]), office(ring[2])
            return evaluation.intersects(f"BBOX({x0},{y0},{x1},{y1})", area)
        if kind in ("POINT", "LINESTRING"):
            path = [self.position() for _ in range(1 if kind == "POINT" else 3)]
            add(
                area,
                "Point" if kind == "POINT" else "LineString",
                path[0] if kind == "POINT" else path,
            )
            return evaluation.intersects(f"{kind}{wkt(path)}", area)
        rings = [self.rings() for _ in range(1 if kind == "POLYGON" else 2)]
        for each in rings:
            add(area, "Polygon", each)
        texts = [f"({','.join(map(wkt, each))})" for each in rings]
        listed = texts[0] if kind == "POLYGON" else f"({','.join(texts)})"
        return evaluation.intersects(f"{kind}{listed}", area)

    def rings(self) -> list[list[tuple[int, int]]]:
        """A triangle or a rectangle with a hole."""
        if self.chance.random() < 0.5:
            found = [self.position() for _ in range(3)]
            return [[*found, found[0]]]
        x, y = self.position()
        size = self.chance.randint(1000, 2 * SIZE)
        hole = corners(x - size // 2, y - size // 2, x + size // 2, y + size // 2)
        return [corners(x - size, y - size, x + size, y + size), hole[::-1]]


def corners(west: int, south: int, east: int, north: int) -> list[tuple[int, int]]:
    found = [(west, south), (east, south), (east, north), (west, north)]
    return [*found, found[0]]


def office(position: Sequence[int]) -> tuple[str, str]:
    """A grid position in the office's system, by its digits."""
    return decimal(SYSTEM.easting + position[0]), decimal(SYSTEM.northing + position[1])


def decimal(steps: int) -> str:
    return f"{steps // 1000}.{steps % 1000:03}"


def wkt(path: Sequence[Sequence[int]]) -> str:
    return "(" + ",".join(" ".join(office(position)) for position in path) + ")"


def selected(asked: Gateway, made: Filter) -> list[str] | str:
    """The ids that a filter selects, or what it is answered."""
    answer = asked.ask(
        "/collections/assets/items",
        filter=made.text,
        filter_crs=OFFICE,
        properties="",
        limit=1000,
    )
    if answer.status_code != 200:
        return answer.text
    page = answer.json()
    found = [feature["id"] for feature in page["features"]]
    assert page["numberMatched"] == page["numberReturned"] == len(found)
    return found


def check_places(context: Context, front: Front) -> None:
    """Geometries in each system: a box selects what `bbox` does, a position of an answer meets its
    feature, and a triangle in degrees has inside what it has in degrees."""
    for system in SYSTEMS:
        box, text = BOXES[system], f"S_INTERSECTS(geometry, BBOX({BOXES[system]}))"
        wanted = front.ids("assets", bbox=box, bbox_crs=system, filter="TRUE", limit=1000)
        found = front.ids("assets", filter=text, filter_crs=system, limit=1000)
        context.check(f"a box of {system}", found, wanted)
        for made in front.asked.all_items("lamps", crs=system, filter="no < 5"):
            x, y = at(made)[:2]
            text = f"S_INTERSECTS(geometry, POINT({x!r} {y!r}))"
            found = front.ids("lamps", filter=text, filter_crs=system)
            context.check(f"{made['id']} at its position in {system}", made["id"] in found, True)
    ring = [(9.93, 53.52), (10.02, 53.53), (9.98, 53.58), (9.93, 53.52)]
    text = f"S_INTERSECTS(geometry, POLYGON(({','.join(f'{x} {y}' for x, y in ring)})))"
    whole = [list(map(nano, corner)) for corner in ring]
    wanted = [
        made["id"]
        for made in front.asked.all_items("lamps", filter="TRUE", limit=1000)
        if is_inside(nano(at(made)[0]), nano(at(made)[1]), [whole])
    ]
    found = front.ids("lamps", filter=text, limit=1000)
    context.check("a triangle in degrees", (found, len(found) > 20), (wanted, True))


def at(made: Any) -> list[float]:
    """The position of a point."""
    found: list[float] = made["geometry"]["coordinates"]
    return found


def nano(degrees: float) -> int:
    return round(degrees * 10**9)


def check_filters(context: Context, asked: Gateway, features: list[Any], count: int) -> None:
    """Random filters: the ids that each selects, in their order."""
    maker = Making(count)
    filters = [maker.any() for _ in range(count)]
    with ThreadPoolExecutor(AT_ONCE) as pool:
        found = list(pool.map(lambda made: selected(asked, made), filters))
    sizes = 0
    for made, ids in zip(filters, found):
        wanted = [feature["id"] for feature in features if made.holds(feature) is True]
        sizes += bool(wanted)
        context.check(f"filter {made.text}", ids, wanted)
    context.check("filters that select something", sizes > count // 2, True)
