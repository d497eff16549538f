"""Boxes of requests, and what of them can select a feature of a collection.

The server answers exactly what meets a box of whole steps. A box in the office's system with such
bounds is one, and so is the extent of a collection if the box of a request covers it. Every other
box is cut to the extent. The server is requested the bounds of the rest, rounded outward, and each
feature of its answer is tested. The cost does not depend on the size of the box.
"""

import math
from abc import ABC, abstractmethod
from collections.abc import Callable, Iterator, Sequence
from dataclasses import dataclass
from decimal import Decimal
from functools import reduce

import numpy

from .grid import BOUND, Grid, Numbers
from .operation import Operation
from .outlines import Transformed, Rectangle, degrees_around, outline
from .problems import Problem
from .reach import Reach

# A box in degrees is grown by this on each side, up to 0.17 mm: more than coordinates are rounded
# by. So a feature that a client sees in its box is not lost.
GROWN = 1.5e-9
# More than the error of an extent in degrees, which is computed in floating point.
MARGIN_DEGREES = 1e-9

Bounds = tuple[int, int, int, int]
Place = Callable[[Numbers, Numbers], tuple[Numbers, Numbers]]


@dataclass(frozen=True)
class Part:
    """A part of a region: a closed rectangle in the system that `place` transforms grid positions
    to. `is_straight` says whether straight lines of the grid are straight there. On the grid it has
    a corner, and perhaps a rectangle that is within it."""

    rectangle: Rectangle
    place: Place
    is_straight: bool
    corner: tuple[float, float]
    inner: Rectangle | None


@dataclass(frozen=True)
class Region:
    """A box on the grid. `bounds` are those to request from the server, whose answer is exact if
    the region has no parts. No feature is selected without bounds."""

    bounds: Bounds | None
    parts: tuple[Part, ...] = ()

    @property
    def is_exact(self) -> bool:
        return not self.parts


NOWHERE = Region(None)


class Box(ABC):
    """A box of a request. `whole` are its bounds on the grid if these are whole steps."""

    whole: Bounds | None = None

    @abstractmethod
    def region(self, extent: Bounds) -> Region:
        """The part of the box that can select a feature of a collection with this extent."""


class OfficeBox(Box):
    """A box in the office's system: easting and northing, lower, then upper."""

    def __init__(self, grid: Grid, box: Sequence[Decimal]) -> None:
        x0, x1 = grid.easting_steps(box[0]), grid.easting_steps(box[2])
        y0, y1 = grid.northing_steps(box[1]), grid.northing_steps(box[3])
        self.bounds = [within_bounds(bound) for bound in (x0, y0, x1, y1)]
        if all(bound == int(bound) for bound in self.bounds):
            west, south, east, north = map(int, self.bounds)
            self.whole = west, south, east, north

    def region(self, extent: Bounds) -> Region:
        west, south, east, north = self.bounds
        if west <= extent[0] and south <= extent[1] and extent[2] <= east and extent[3] <= north:
            return Region(extent)
        rectangle = float(west), float(south), float(east), float(north)
        bounds = common(rounded_outward(rectangle), extent)
        part = Part(rectangle, lambda x, y: (x, y), True, rectangle[:2], rectangle)
        return NOWHERE if bounds is None else Region(bounds, (part,))


def within_bounds(steps: Decimal) -> Decimal:
    """A bound that the server takes. No feature lies between it and one that it does not take."""
    return min(max(steps, Decimal(-2 * BOUND)), Decimal(2 * BOUND))


def rounded_outward(rectangle: Rectangle) -> Bounds:
    """The bounds of a rectangle of the grid, grown by a step."""
    x0, y0, x1, y1 = rectangle
    return math.floor(x0) - 1, math.floor(y0) - 1, math.ceil(x1) + 1, math.ceil(y1) + 1


def common(one: Bounds, other: Bounds) -> Bounds | None:
    """What two bounds have in common, if they meet."""
    west, south = max(one[0], other[0]), max(one[1], other[1])
    east, north = min(one[2], other[2]), min(one[3], other[3])
    return (west, south, east, north) if west <= east and south <= north else None


def around_both(one: Bounds, other: Bounds) -> Bounds:
    """Bounds around two."""
    lower = min(one[0], other[0]), min(one[1], other[1])
    return (*lower, max(one[2], other[2]), max(one[3], other[3]))


@dataclass(frozen=True)
class World:
    """The surroundings of boxes in degrees: an operation, and the degrees within its reach."""

    operation: Operation
    reach: Reach

    @property
    def middle(self) -> float:
        return (self.reach.west + self.reach.east) / 2

    def degrees(self, x: Numbers, y: Numbers) -> tuple[Numbers, Numbers]:
        """Longitudes within half a turn of the middle of the reach, and latitudes."""
        longitude, latitude = self.operation.degrees(x, y)
        with numpy.errstate(invalid="ignore"):
            longitude = longitude + 360 * numpy.round((self.middle - longitude) / 360)
        return longitude, latitude

    def around(self, extent: Bounds) -> Rectangle | None:
        """A rectangle around an extent, in the longitudes of the reach; None if the extent goes
        around the world, or a part of it has no coordinates in degrees."""
        around = degrees_around(self.operation, extent)
        if around is None or around[2] - around[0] > 180:
            return None
        west, south, east, north = around
        turn = 360 * round((self.middle - (west + east) / 2) / 360)
        west, east = west + turn - MARGIN_DEGREES, east + turn + MARGIN_DEGREES
        return west, south - MARGIN_DEGREES, east, north + MARGIN_DEGREES


@dataclass(frozen=True)
class DegreeBox(Box):
    """A closed box of WGS 84. West above east is a box across the 180th meridian."""

    world: World
    west: float
    south: float
    east: float
    north: float

    def region(self, extent: Bounds) -> Region:
        around = self.world.around(extent)
        found: list[tuple[Bounds, Part]] = []
        for rectangle in self.rectangles():
            if around is not None and covers(rectangle, around):
                return Region(extent)
            cut = rectangle if around is None else overlap(rectangle, around)
            if cut[0] < cut[2] and cut[1] < cut[3]:
                bounds, part = self.part(cut)
                within = common(bounds, extent)
                found += [] if within is None else [(within, part)]
        if not found:
            return NOWHERE
        bounds = reduce(around_both, (bounds for bounds, _ in found))
        return Region(bounds, tuple(part for _, part in found))

    def rectangles(self) -> list[Rectangle]:
        """The parts of the grown box within reach, in the longitudes of the reach. No two meet."""
        reach = self.world.reach
        south, north = max(self.south - GROWN, reach.south), min(self.north + GROWN, reach.north)
        found: list[Rectangle] = []
        for west, east in sorted(span for half in self.halves() for span in self.shifted(*half)):
            if found and west <= found[-1][2]:
                west, east = found[-1][0], max(found.pop()[2], east)
            found.append((west, south, east, north))
        return found

    def halves(self) -> list[tuple[float, float]]:
        if self.west <= self.east:
            return [(self.west, self.east)]
        return [(self.west, 180), (-180, self.east)]

    def shifted(self, west: float, east: float) -> Iterator[tuple[float, float]]:
        """The parts of grown longitudes within reach, after shifts by turns of 360 degrees."""
        reach = self.world.reach
        first = math.floor((reach.west - east) / 360)
        last = math.ceil((reach.east - west) / 360)
        for turn in range(first, last + 1):
            start = max(west + 360 * turn - GROWN, reach.west)
            end = min(east + 360 * turn + GROWN, reach.east)
            if start < end:
                yield start, end

    def part(self, rectangle: Rectangle) -> tuple[Bounds, Part]:
        """The part of a rectangle in degrees, and bounds around it on the grid."""
        on_grid = Transformed(*self.world.operation.steps(*outline(rectangle)))
        if not on_grid.is_finite:
            raise Problem(400, "bad_bbox", "The box cannot be placed in the system of the server.")
        corner = float(on_grid.x[0]), float(on_grid.y[0])
        inner = self.inner(rectangle, on_grid.between())
        part = Part(rectangle, self.world.degrees, False, corner, inner)
        return rounded_outward(on_grid.around()), part

    def inner(self, rectangle: Rectangle, between: Rectangle) -> Rectangle | None:
        """The rectangle of the grid between the four sides, if it is within the box. No side goes
        through it, so it is within the box if its middle is."""
        x0, y0, x1, y1 = between
        if not (x0 < x1 and y0 < y1):
            return None
        middle = numpy.array([(x0 + x1) / 2]), numpy.array([(y0 + y1) / 2])
        (longitude,), (latitude,) = self.world.degrees(*middle)
        west, south, east, north = rectangle
        is_within = west <= longitude <= east and south <= latitude <= north
        return between if is_within else None


def covers(one: Rectangle, other: Rectangle) -> bool:
    """Whether the other rectangle lies within this one."""
    return overlap(one, other) == other


def overlap(one: Rectangle, other: Rectangle) -> Rectangle:
    """What two rectangles have in common; a lower bound is not below the upper one if they have no
    area in common."""
    return (
        max(one[0], other[0]),
        max(one[1], other[1]),
        min(one[2], other[2]),
        min(one[3], other[3]),
    )
