"""Geometries of filters, carried to the grid.

An edge is straight in the filter's own system, and a curve on the grid. So it is cut into pieces
which are off the curve by less than a step. A position of a filter becomes the nearest grid
position, as that of a feature that is sent; one in the office's system stays exact. A BBOX is what
it is as `bbox`: grown by what coordinates are rounded by, and cut to what can be placed.
"""

from collections.abc import Iterable, Iterator, Sequence
from dataclasses import dataclass
from decimal import Decimal

import numpy

from ..boxes import DegreeBox, Place
from ..grid import Numbers, nearest_steps
from ..outlines import Rectangle
from ..problems import Problem
from ..systems import DegreeSystem, OfficeSystem, System
from .filters import FilterFault, Position, Shape

# The most pieces of all edges of a geometry.
MOST_PIECES = 50_000
# What is farther is not on any grid.
FARTHEST = Decimal(10) ** 12

Path = list[tuple[float, float]]


@dataclass(frozen=True)
class GridShape:
    """A geometry on the grid: texts of WKT, of which a feature has to meet one, and bounds around
    all of them. Without a text no feature meets it."""

    texts: list[str]
    bounds: Rectangle | None


class Placing:
    """Carries geometries of one reference system to the grid."""

    def __init__(self, system: System) -> None:
        self.system = system
        self.pieces = 0

    def shape(self, shape: Shape) -> GridShape:
        """A geometry of a filter on the grid; a FilterFault if it cannot be placed there."""
        texts: list[str] = []
        found: Path = []
        for part in simple_parts(shape):
            for paths in self.areas(part):
                texts.append(wkt(part.kind, paths))
                found += [position for path in paths for position in path]
        return GridShape(texts, around(found) if found else None)

    def areas(self, part: Shape) -> Iterator[list[Path]]:
        """The paths of a simple geometry. A box is the rings of rectangles, or of none."""
        if part.kind != "BBOX":
            yield [self.path(part, path) for path in part.paths]
            return
        try:
            corners = [bounded(part, number) for corner in part.paths[0] for number in corner]
            box = self.system.box(corners)
        except Problem as problem:
            raise FilterFault(part.place, problem.detail) from problem
        if isinstance(box, DegreeBox):
            for rectangle in box.rectangles():
                yield [self.ring(part, rectangle)]
        else:
            (a0, b0), (a1, b1) = part.paths[0]
            yield [self.path(part, ((a0, b0), (a1, b0), (a1, b1), (a0, b1), (a0, b0)))]

    def path(self, part: Shape, positions: Sequence[Position]) -> Path:
        """Positions of a filter on the grid, and of its edges as many more as they need."""
        numbers = [[bounded(part, number) for number in position] for position in positions]
        if self.system.second_first:
            numbers = [[second, first] for first, second in numbers]
        if isinstance(self.system, OfficeSystem):
            grid = self.system.grid
            steps = [(grid.easting_steps(e), grid.northing_steps(n)) for e, n in numbers]
            return [(float(x), float(y)) for x, y in steps]
        assert isinstance(self.system, DegreeSystem)
        first = numpy.array([float(number[0]) for number in numbers])
        second = numpy.array([float(number[1]) for number in numbers])
        check_reach(self.system, part, *self.system.to_degrees(first, second))
        x, y = self.cut(part, self.place, first, second)
        return list(zip(map(float, nearest_steps(x)), map(float, nearest_steps(y))))

    def place(self, first: Numbers, second: Numbers) -> tuple[Numbers, Numbers]:
        """Coordinates of the system on the grid."""
        assert isinstance(self.system, DegreeSystem)
        return self.system.operation.steps(*self.system.to_degrees(first, second))

    def ring(self, part: Shape, rectangle: Rectangle) -> Path:
        """The outline of a rectangle in degrees."""
        west, south, east, north = rectangle
        assert isinstance(self.system, DegreeSystem)
        longitude = numpy.array([west, east, east, west, west])
        latitude = numpy.array([south, south, north, north, south])
        x, y = self.cut(part, self.system.operation.steps, longitude, latitude)
        return list(zip(x.tolist(), y.tolist()))

    def cut(
        self, part: Shape, place: Place, first: Numbers, second: Numbers
    ) -> tuple[Numbers, Numbers]:
        """Grid positions along the edges between coordinates. An edge is a curve there which is
        off its chord most in the middle, and a quarter as much if it is cut in two."""
        x, y = place(first, second)
        middle_x, middle_y = place(halves(first), halves(second))
        off = numpy.hypot(middle_x - halves(x), middle_y - halves(y))
        if not (numpy.isfinite(off).all() and numpy.isfinite(x).all()):
            raise FilterFault(part.place, "The geometry lies beyond what can be placed.")
        counts = numpy.ceil(numpy.sqrt(off)).clip(1)
        self.pieces += int(counts.sum())
        if self.pieces > MOST_PIECES:
            raise FilterFault(part.place, "The geometry is too large to be placed.")
        whole = counts.astype(int)
        row = numpy.repeat(numpy.arange(len(whole)), whole)
        along = (numpy.arange(len(row)) - numpy.repeat(numpy.cumsum(whole) - whole, whole)) / (
            whole[row]
        )
        pieces_x, pieces_y = (
            numpy.append(each[row] + (each[row + 1] - each[row]) * along, each[-1])
            for each in (first, second)
        )
        return place(pieces_x, pieces_y)


def simple_parts(shape: Shape) -> Iterator[Shape]:
    if not shape.parts:
        yield shape
    for part in shape.parts:
        yield from simple_parts(part)


def bounded(part: Shape, text: str) -> Decimal:
    number = Decimal(text)
    if abs(number) > FARTHEST:
        raise FilterFault(part.place, "A coordinate is too large.")
    return number


def check_reach(system: DegreeSystem, part: Shape, longitude: Numbers, latitude: Numbers) -> None:
    """Refuses positions that the operation does not lead to the grid and back."""
    reach = system.world.reach
    turned = longitude + 360 * numpy.round((system.world.middle - longitude) / 360)
    is_within = (reach.west <= turned) & (turned <= reach.east)
    is_within &= (reach.south <= latitude) & (latitude <= reach.north)
    if not is_within.all():
        raise FilterFault(part.place, "The geometry lies beyond what can be placed.")


def halves(values: Numbers) -> Numbers:
    """The middles between neighbours."""
    found: Numbers = (values[:-1] + values[1:]) / 2
    return found


def around(positions: Path) -> Rectangle:
    x, y = [position[0] for position in positions], [position[1] for position in positions]
    return min(x), min(y), max(x), max(y)


def wkt(kind: str, paths: Iterable[Path]) -> str:
    """A simple geometry as text: of whole and other steps the shortest that reads back."""
    texts = [",".join(f"{x!r} {y!r}" for x, y in path) for path in paths]
    if kind in ("POINT", "LINESTRING"):
        return f"{kind}({texts[0]})"
    return f"POLYGON({','.join(f'({text})' for text in texts)})"
