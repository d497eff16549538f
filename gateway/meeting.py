"""Whether features' geometries on the grid meet a region.

The rule is the server's: a point meets a part if it is within it, a line if one of its segments
meets it, and a polygon if an edge of one of its rings meets it or if a point of the part is inside
the polygon by the even-odd rule. So rings that cross themselves are decided as by the server.

A part is a rectangle in its own system, in which a straight segment of the grid is a curve.
Segments near a side are cut in four again and again, until the pieces are off a straight line there
by less than a hundredth of a millimetre.
"""

from collections.abc import Iterable, Sequence
from dataclasses import dataclass, field
from typing import Any

import numpy
from numpy.typing import NDArray

from .boxes import Part, Region
from .grid import Numbers
from .outlines import Rectangle

Geometry = dict[str, Any] | None
Indices = NDArray[numpy.int64]
Flags = NDArray[numpy.bool_]

# A segment that is off the straight line by less, in degrees, is taken as straight: 0.011 mm.
STRAIGHT = 1e-10
# More than the error of coordinates, which are computed in floating point.
NOISE = 1e-12
# The longest piece into which a segment is cut first, in steps: 100 km.
LONGEST_PIECE = 1e8
# After this number of cuts in four a piece is shorter than a hundredth of a millimetre.
CUTS = 17
QUARTERS = numpy.linspace(0, 1, 5)
# The owner of a path that bounds no polygon.
NO_POLYGON = -1


def meeting(geometries: Sequence[Geometry], region: Region) -> list[bool]:
    """Which of these geometries of the server meet a part of a region."""
    met = [False] * len(geometries)
    for part in region.parts:
        tested = Paths()
        for number, geometry in enumerate(geometries):
            if met[number] or geometry is None:
                continue
            if part.inner is not None and is_within(first_position(geometry), part.inner):
                met[number] = True
            else:
                tested.add(number, geometry)
        for number in Test(part, len(met)).met(tested):
            met[number] = True
    return met


def first_position(geometry: dict[str, Any]) -> list[int]:
    while geometry["type"] == "GeometryCollection":
        geometry = geometry["geometries"][0]
    found = geometry["coordinates"]
    while isinstance(found[0], list):
        found = found[0]
    return list(found)


def is_within(position: Sequence[float], rectangle: Rectangle) -> bool:
    x0, y0, x1, y1 = rectangle
    return x0 <= position[0] <= x1 and y0 <= position[1] <= y1


@dataclass
class Paths:
    """The points, lines and rings of geometries, one after the other. Each path has the number of
    its geometry and, if it bounds a polygon, that of the polygon."""

    positions: list[list[int]] = field(default_factory=list)
    lengths: list[int] = field(default_factory=list)
    owners: list[int] = field(default_factory=list)
    polygons: list[int] = field(default_factory=list)
    polygon_owners: list[int] = field(default_factory=list)

    def add(self, owner: int, geometry: dict[str, Any]) -> None:
        kind = geometry["type"]
        if kind == "GeometryCollection":
            for member in geometry["geometries"]:
                self.add(owner, member)
            return
        coordinates = geometry["coordinates"]
        each = coordinates if kind.startswith("Multi") else [coordinates]
        if kind.endswith("Point"):
            self.add_paths(owner, ([position] for position in each), NO_POLYGON)
        elif kind.endswith("LineString"):
            self.add_paths(owner, each, NO_POLYGON)
        else:
            for rings in each:
                self.polygon_owners.append(owner)
                self.add_paths(owner, rings, len(self.polygon_owners) - 1)

    def add_paths(self, owner: int, paths: Iterable[list[list[int]]], polygon: int) -> None:
        for path in paths:
            self.positions += path
            self.lengths.append(len(path))
            self.owners.append(owner)
            self.polygons.append(polygon)

    def points(self) -> Numbers:
        """All positions, a row each."""
        return numpy.array([(position[0], position[1]) for position in self.positions], float)

    def starts(self) -> Indices:
        """The places of positions with which a segment begins."""
        is_start = numpy.ones(len(self.positions), bool)
        is_start[numpy.cumsum(self.lengths) - 1] = False
        return numpy.flatnonzero(is_start)


@dataclass(frozen=True)
class Segments:
    """Straight segments of the grid, a row each, and the numbers of their geometries."""

    start: Numbers
    end: Numbers
    owner: Indices

    def chosen(self, which: Flags | Indices) -> "Segments":
        return Segments(self.start[which], self.end[which], self.owner[which])

    def lengths(self) -> Numbers:
        """The longer of width and height of each."""
        found: Numbers = numpy.abs(self.end - self.start).max(axis=1, initial=0)
        return found

    def quarters(self) -> Numbers:
        """The start of each, three points between, and its end."""
        start, end = self.start[:, None], self.end[:, None]
        found: Numbers = start + (end - start) * QUARTERS[:, None]
        found[:, -1] = self.end
        return found

    def pieces(self) -> "Segments":
        """The same, cut so that none is longer than the longest piece."""
        count = numpy.ceil(self.lengths() / LONGEST_PIECE).astype(int).clip(1)
        if not numpy.any(count > 1):
            return self
        row = numpy.repeat(numpy.arange(len(count)), count)
        place = numpy.arange(len(row)) - numpy.repeat(numpy.cumsum(count) - count, count)
        step = (self.end - self.start) / count[:, None]
        start = self.start[row] + step[row] * place[:, None]
        is_last = (place == count[row] - 1)[:, None]
        end = numpy.where(is_last, self.end[row], start + step[row])
        return Segments(start, end, self.owner[row])


class Test:
    """The test of geometries by one part of a region."""

    def __init__(self, part: Part, count: int) -> None:
        self.part = part
        self.low, self.high = numpy.array(part.rectangle[:2]), numpy.array(part.rectangle[2:])
        self.is_met = numpy.zeros(count, bool)

    def met(self, paths: Paths) -> list[int]:
        """The numbers of the geometries that meet the part."""
        if not paths.positions:
            return []
        points = paths.points()
        owner = numpy.repeat(paths.owners, paths.lengths)
        placed = self.placed(points)
        self.is_met[owner[self.has(placed)]] = True
        start = paths.starts()
        segments = Segments(points[start], points[start + 1], owner[start])
        near = self.near(segments, placed[start], placed[start + 1])
        if self.part.is_straight:
            meets = crosses(near.start, near.end, self.low, self.high)
            self.is_met[near.owner[meets]] = True
        else:
            self.cut(near.pieces())
        polygon = numpy.repeat(paths.polygons, paths.lengths)[start]
        self.enclose(segments, polygon, numpy.array(paths.polygon_owners, int))
        numbers: list[int] = numpy.flatnonzero(self.is_met).tolist()
        return numbers

    def placed(self, points: Numbers) -> Numbers:
        """Grid positions in the system of the part; infinite if they have no coordinates there."""
        x, y = self.part.place(points[..., 0].ravel(), points[..., 1].ravel())
        found: Numbers = numpy.stack([x, y], axis=-1).reshape(points.shape)
        return found

    def has(self, placed: Numbers) -> Flags:
        """Which positions lie in the rectangle."""
        found: Flags = ((self.low <= placed) & (placed <= self.high)).all(axis=-1)
        return found

    def near(self, segments: Segments, start: Numbers, end: Numbers) -> Segments:
        """The segments that may meet the rectangle, of geometries not yet met. A piece is off its
        chord by less than it is long."""
        with numpy.errstate(invalid="ignore"):
            size = numpy.abs(end - start).sum(axis=-1, keepdims=True) + NOISE
            is_beyond = (numpy.maximum(start, end) + size < self.low) | (
                numpy.minimum(start, end) - size > self.high
            )
        is_far = is_beyond.any(axis=-1) & (segments.lengths() <= LONGEST_PIECE)
        return segments.chosen(~is_far & ~self.is_met[segments.owner])

    def cut(self, segments: Segments) -> None:
        """Marks the geometries of segments that meet the rectangle. In each round each segment is
        cut in four. What is neither surely off the rectangle nor straight goes on."""
        for _ in range(CUTS):
            if not len(segments.owner):
                return
            points = segments.quarters()
            placed = self.placed(points)
            self.is_met[segments.owner[self.has(placed).any(axis=1)]] = True
            slack = deviation(placed)
            start, end = placed[:, :-1], placed[:, 1:]
            is_straight = (slack <= STRAIGHT).all(axis=-1)
            meets = crosses(start, end, self.low, self.high) & is_straight
            self.is_met[segments.owner[meets.any(axis=1)]] = True
            may_meet = crosses(start, end, self.low - slack, self.high + slack)
            row, place = numpy.nonzero(may_meet & ~is_straight)
            pieces = Segments(points[row, place], points[row, place + 1], segments.owner[row])
            segments = pieces.chosen(~self.is_met[pieces.owner])

    def enclose(self, segments: Segments, polygon: Indices, owners: Indices) -> None:
        """Marks the geometries of polygons that have the corner of the rectangle inside: a ray from
        it to the east crosses an odd number of edges."""
        x, y = self.part.corner
        which = (polygon != NO_POLYGON) & ~self.is_met[segments.owner]
        start, end = segments.start[which], segments.end[which]
        lower_first = (start[:, 1] <= end[:, 1])[:, None]
        lower, upper = numpy.where(lower_first, start, end), numpy.where(lower_first, end, start)
        spans = (lower[:, 1] <= y) & (y < upper[:, 1])
        across = (upper[:, 0] - lower[:, 0]) * (y - lower[:, 1])
        along = (upper[:, 1] - lower[:, 1]) * (x - lower[:, 0])
        crossed = polygon[which][spans & (across > along)]
        counts = numpy.bincount(crossed, minlength=len(owners))
        self.is_met[owners[counts % 2 == 1]] = True


def deviation(placed: Numbers) -> Numbers:
    """By how much curves may be off their four chords, for each axis: at most half of what the
    points between are off the whole chord, which is eight times what a parabola would be."""
    first, last = placed[:, :1], placed[:, -1:]
    with numpy.errstate(invalid="ignore"):
        chord = first + (last - first) * QUARTERS[:, None]
        off = numpy.abs(placed - chord).max(axis=1, keepdims=True)
    return numpy.where(numpy.isnan(off), numpy.inf, off / 2 + NOISE)


def crosses(start: Numbers, end: Numbers, low: Numbers, high: Numbers) -> Flags:
    """Which straight lines meet rectangles (Liang and Barsky). One with an end that is not placed
    may meet any; one with neither end placed meets none."""
    with numpy.errstate(invalid="ignore", over="ignore"):
        change = end - start
        is_still = change == 0
        divisor = numpy.where(is_still, 1.0, change)
        one, other = (low - start) / divisor, (high - start) / divisor
        enter = numpy.where(is_still, 0.0, numpy.minimum(one, other)).max(axis=-1)
        leave = numpy.where(is_still, 1.0, numpy.maximum(one, other)).min(axis=-1)
        is_beside = (is_still & ((start < low) | (high < start))).any(axis=-1)
        found: Flags = ~is_beside & (enter.clip(0) <= leave.clip(max=1))
    placed = numpy.isfinite(start).all(axis=-1), numpy.isfinite(end).all(axis=-1)
    return numpy.where(placed[0] & placed[1], found, placed[0] != placed[1])
