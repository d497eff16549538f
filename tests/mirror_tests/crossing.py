"""Whether two geometries of whole numbers meet, exactly: the plain model of S_INTERSECTS.

They do if a segment of one meets one of the other, or if a position of one lies inside a polygon of
the other by the even-odd rule.
"""

from collections.abc import Iterator
from dataclasses import dataclass, field
from itertools import pairwise
from typing import Any

from model import is_inside

Position = tuple[int, int]
Segment = tuple[Position, Position]


@dataclass(frozen=True)
class Area:
    """All segments of a geometry, a point being one of no length, and its polygons."""

    segments: list[Segment] = field(default_factory=list)
    polygons: list[list[list[Position]]] = field(default_factory=list)


def area_of(geometry: dict[str, Any] | None) -> Area | None:
    if geometry is None:
        return None
    area = Area()
    for kind, coordinates in simple_parts(geometry):
        add(area, kind, coordinates)
    return area


def simple_parts(geometry: dict[str, Any]) -> Iterator[tuple[str, Any]]:
    kind = geometry["type"]
    if kind == "GeometryCollection":
        for member in geometry["geometries"]:
            yield from simple_parts(member)
    elif kind.startswith("Multi"):
        for coordinates in geometry["coordinates"]:
            yield kind.removeprefix("Multi"), coordinates
    else:
        yield kind, geometry["coordinates"]


def add(area: Area, kind: str, coordinates: Any) -> None:
    if kind == "Point":
        found = flat(coordinates)
        area.segments.append((found, found))
        return
    rings = [coordinates] if kind == "LineString" else coordinates
    paths = [[flat(position) for position in ring] for ring in rings]
    for path in paths:
        area.segments.extend(pairwise(path))
    if kind == "Polygon":
        area.polygons.append(paths)


def flat(position: Any) -> Position:
    return position[0], position[1]


def areas_meet(one: Area, other: Area) -> bool:
    if any(segments_meet(a, b) for a in one.segments for b in other.segments):
        return True
    return has_inside(one, other) or has_inside(other, one)


def has_inside(one: Area, other: Area) -> bool:
    """Whether a position of the other lies inside a polygon of the first. If no segments meet,
    one position of each path shows it for the whole path."""
    starts = {start for start, _ in other.segments}
    return any(
        is_inside(x, y, [[list(position) for position in ring] for ring in rings])
        for rings in one.polygons
        for x, y in starts
    )


def segments_meet(one: Segment, other: Segment) -> bool:
    """By signs: the ends of each lie on different sides of the other, or an end lies on it."""
    (a, b), (c, d) = one, other
    if max(a[0], b[0]) < min(c[0], d[0]) or max(c[0], d[0]) < min(a[0], b[0]):
        return False
    if max(a[1], b[1]) < min(c[1], d[1]) or max(c[1], d[1]) < min(a[1], b[1]):
        return False
    return side(a, b, c) * side(a, b, d) <= 0 and side(c, d, a) * side(c, d, b) <= 0


def side(a: Position, b: Position, c: Position) -> int:
    product = (b[0] - a[0]) * (c[1] - a[1]) - (b[1] - a[1]) * (c[0] - a[0])
    return (product > 0) - (product < 0)
