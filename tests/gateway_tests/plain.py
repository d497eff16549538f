"""A plain exact test of features and boxes in CRS84, written apart from the gateway's.

It carries the feature to degrees, where the box is straight, in chords that bend by less than a
hundredth of a millimetre. The gateway carries the box to the grid, where the feature is straight.
"""

from dataclasses import dataclass
from typing import Any

import numpy
import pyproj

# A line of this many millimetres is off its chord in degrees by less than 0.01 mm.
CHORD = 20_000_000 / 1000


@dataclass(frozen=True)
class Shape:
    """A geometry in degrees: its points, its segments, and rings of which each is on the grid."""

    points: Any
    starts: Any
    ends: Any
    polygons: list[list[Any]]
    bounds: tuple[float, float, float, float]


@dataclass(frozen=True)
class Box:
    west: float
    south: float
    east: float
    north: float

    def grown(self, by: float) -> "Box":
        return Box(self.west - by, self.south - by, self.east + by, self.north + by)


class Plain:
    """The plain test over an office's system."""

    def __init__(self, system: str, easting: int, northing: int) -> None:
        self.transformer = pyproj.Transformer.from_crs(system, "OGC:CRS84", always_xy=True)
        self.easting, self.northing = easting, northing

    def degrees(self, x: Any, y: Any) -> Any:
        easting, northing = (x + self.easting * 1000.0) / 1000, (y + self.northing * 1000.0) / 1000
        return numpy.column_stack(self.transformer.transform(easting, northing))

    def corner(self, box: Box) -> tuple[float, float]:
        """The south-west corner on the grid."""
        easting, northing = self.transformer.transform(box.west, box.south, direction="INVERSE")
        return easting * 1000 - self.easting * 1000.0, northing * 1000 - self.northing * 1000.0

    def shape(self, feature: dict[str, Any]) -> Shape | None:
        """The geometry of a feature of the grid, none if it has none."""
        if feature["geometry"] is None:
            return None
        points, lines, polygons = parts(feature["geometry"])
        starts, ends = [], []
        for line in lines:
            chords = self.degrees(*dense(line))
            starts.append(chords[:-1])
            ends.append(chords[1:])
        dots = numpy.array([each[:2] for each in points], float).reshape(-1, 2)
        found = self.degrees(dots[:, 0], dots[:, 1]) if len(dots) else dots
        start = numpy.concatenate([*starts, numpy.empty((0, 2))])
        end = numpy.concatenate([*ends, numpy.empty((0, 2))])
        everything = numpy.concatenate([found, start, end])
        low, high = everything.min(axis=0), everything.max(axis=0)
        return Shape(found, start, end, polygons, (low[0], low[1], high[0], high[1]))

    def meets(self, shape: Shape | None, box: Box) -> bool:
        if shape is None or not overlaps(shape.bounds, box):
            return False
        if len(shape.points) and numpy.any(within(shape.points, box)):
            return True
        if len(shape.starts) and numpy.any(crossed(shape.starts, shape.ends, box)):
            return True
        corner = self.corner(box)
        return any(inside(rings, *corner) for rings in shape.polygons)


def parts(geometry: dict[str, Any]) -> tuple[list[Any], list[Any], list[Any]]:
    """The points, the lines and rings, and the polygons of a geometry."""
    kind = geometry["type"]
    if kind == "GeometryCollection":
        found = [parts(member) for member in geometry["geometries"]]
        return (
            [point for each in found for point in each[0]],
            [line for each in found for line in each[1]],
            [polygon for each in found for polygon in each[2]],
        )
    several = geometry["coordinates"] if kind.startswith("Multi") else [geometry["coordinates"]]
    if kind.endswith("Point"):
        return several, [], []
    if kind.endswith("LineString"):
        return [], several, []
    return [], [ring for rings in several for ring in rings], several


def dense(line: list[list[int]]) -> tuple[Any, Any]:
    """The points of a line on the grid and enough between."""
    xs, ys = [], []
    for (x0, y0, *_), (x1, y1, *_) in zip(line, line[1:]):
        count = int(max(abs(x1 - x0), abs(y1 - y0)) / CHORD) + 1
        part = numpy.arange(count) / count
        xs.append(x0 + (x1 - x0) * part)
        ys.append(y0 + (y1 - y0) * part)
    end = line[-1]
    return numpy.append(numpy.concatenate(xs), end[0]), numpy.append(numpy.concatenate(ys), end[1])


def overlaps(bounds: tuple[float, float, float, float], box: Box) -> bool:
    west, south, east, north = bounds
    return west <= box.east and east >= box.west and south <= box.north and north >= box.south


def within(points: Any, box: Box) -> Any:
    x, y = points[:, 0], points[:, 1]
    return (box.west <= x) & (x <= box.east) & (box.south <= y) & (y <= box.north)


def crossed(starts: Any, ends: Any, box: Box) -> Any:
    """Which chords meet the box (Liang and Barsky)."""
    first, last = numpy.zeros(len(starts)), numpy.ones(len(starts))
    possible = numpy.ones(len(starts), bool)
    for axis, low, high in ((0, box.west, box.east), (1, box.south, box.north)):
        start, change = starts[:, axis], ends[:, axis] - starts[:, axis]
        still = change == 0
        possible &= ~still | ((low <= start) & (start <= high))
        divisor = numpy.where(still, 1.0, change)
        one, other = (low - start) / divisor, (high - start) / divisor
        first = numpy.where(still, first, numpy.maximum(first, numpy.minimum(one, other)))
        last = numpy.where(still, last, numpy.minimum(last, numpy.maximum(one, other)))
    return possible & (first <= last)


def inside(rings: list[list[list[int]]], x: float, y: float) -> bool:
    """Whether a point of the grid is inside a polygon by the even-odd rule."""
    odd = False
    for ring in rings:
        for (x0, y0, *_), (x1, y1, *_) in zip(ring, ring[1:]):
            if (y0 > y) != (y1 > y) and x < x0 + (x1 - x0) * (y - y0) / (y1 - y0):
                odd = not odd
    return odd
