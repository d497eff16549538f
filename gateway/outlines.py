"""Outlines of rectangles: points along the four sides, and bounds of the transformed outline.

Pyproj has `transform_bounds`, whose bounds are those of such points alone. These bounds have the
curves between the points too, so that no feature is lost.
"""

from dataclasses import dataclass
from functools import cached_property, lru_cache

import numpy

from .grid import Numbers
from .operation import Operation

# The points of a side, its second corner not among them.
PIECES = 64
# The places of the points of each side with both its corners: the lower, right, upper, left one.
SIDES = (numpy.arange(4)[:, None] * PIECES + numpy.arange(PIECES + 1)) % (4 * PIECES)
LOWER, RIGHT, UPPER, LEFT = SIDES
# How far the points are along a rectangle's width, and up its height.
SIDE = numpy.arange(PIECES) / PIECES
START, END = numpy.zeros(PIECES), numpy.ones(PIECES)
ALONG = numpy.concatenate([SIDE, END, 1 - SIDE, START])
UP = numpy.concatenate([START, SIDE, END, 1 - SIDE])
# The extents whose surroundings in degrees are kept.
KEPT_EXTENTS = 1 << 10

# Two lower bounds, then two upper ones.
Rectangle = tuple[float, float, float, float]


def outline(rectangle: Rectangle) -> tuple[Numbers, Numbers]:
    """Points along the sides, counterclockwise from the lower left corner, the first not again."""
    x0, y0, x1, y1 = rectangle
    return x0 + (x1 - x0) * ALONG, y0 + (y1 - y0) * UP


@dataclass(frozen=True)
class Transformed:
    """The points of an outline, transformed to another system."""

    x: Numbers
    y: Numbers

    @property
    def is_finite(self) -> bool:
        return bool(numpy.isfinite(self.x).all() and numpy.isfinite(self.y).all())

    @cached_property
    def bends(self) -> tuple[float, float]:
        return bend(self.x), bend(self.y)

    def around(self) -> Rectangle:
        """A rectangle around all that the outline encloses."""
        bend_x, bend_y = self.bends
        return (
            float(self.x.min()) - bend_x,
            float(self.y.min()) - bend_y,
            float(self.x.max()) + bend_x,
            float(self.y.max()) + bend_y,
        )

    def between(self) -> Rectangle:
        """The rectangle between the innermost points of the four sides. It is empty, with a lower
        bound that is not below the upper one, if no point is between."""
        bend_x, bend_y = self.bends
        return (
            float(self.x[LEFT].max()) + bend_x,
            float(self.y[LOWER].max()) + bend_y,
            float(self.x[RIGHT].min()) - bend_x,
            float(self.y[UPPER].min()) - bend_y,
        )


def bend(values: Numbers) -> float:
    """How far a side goes beyond its points, at most: eight times the height of the curve between
    two neighbours."""
    sides = values[SIDES]
    return float(numpy.abs(sides[:, :-2] - 2 * sides[:, 1:-1] + sides[:, 2:]).max())


@lru_cache(KEPT_EXTENTS)
def degrees_around(operation: Operation, bounds: tuple[int, int, int, int]) -> Rectangle | None:
    """West, south, east and north around bounds of the grid; None if these have no
    coordinates in degrees, or have a pole within. West may be below -180, and east above 180."""
    longitude, latitude = operation.degrees(*outline(bounds))
    if not numpy.all(numpy.isfinite(longitude) & numpy.isfinite(latitude)):
        return None
    longitude = numpy.unwrap(longitude, period=360)
    if abs(longitude[-1] - longitude[0]) > 180:
        return None
    return Transformed(longitude, latitude).around()
