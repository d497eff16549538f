"""The reference systems that clients may request: names, axis order, and coordinates.

OGC API - Features Part 2 gives coordinates in the order of the system's own axes: latitude first
in EPSG:4326, longitude first in CRS84, northing first in systems as EPSG:31467.
"""

from abc import ABC, abstractmethod
from collections.abc import Iterable, Sequence
from dataclasses import dataclass
from decimal import Decimal
from typing import Any

import numpy
import pyproj
from pyproj.enums import TransformDirection
from pyproj.transformer import Transformer

from .boxes import Box, DegreeBox, OfficeBox, World
from .grid import PLACES, Grid, Numbers
from .grid import double_of, nearest_doubles, nearest_step, nearest_steps
from .operation import Operation, choose, read_system
from .problems import Problem, bad_query
from .reach import Reach, reach_of
from .settings import Settings

CRS84 = "http://www.opengis.net/def/crs/OGC/1.3/CRS84"
EPSG = "http://www.opengis.net/def/crs/EPSG/0/"
# Decimal places of coordinates that were computed: a tenth of a step, so each reads back.
DEGREE_PLACES, METRE_PLACES = 9, 4

# Bounds of a box in degrees are at most this far from zero: two turns.
FARTHEST_DEGREES = 720
TURNED_BOX = "The lower bounds of the box are above the upper ones."
NO_DEGREES = (
    "The box is beyond the world. Without bbox-crs its numbers are degrees of CRS84, longitude"
    " first. A box in metres needs a bbox-crs, the storageCrs of the collection say; ogr2ogr"
    " transforms the box of -spat if -spat_srs names its system."
)

# A position of the server: x, y and perhaps a height, in steps.
Position = Sequence[int]


class System(ABC):
    """A reference system. Its coordinates are easting and northing, or longitude and latitude,
    or the other way round if `second_first` is set."""

    def __init__(self, uri: str, second_first: bool) -> None:
        self.uri = uri
        self.second_first = second_first

    @abstractmethod
    def coordinates(self, positions: Sequence[Position]) -> Iterable[tuple[float, float]]:
        """The coordinates of positions, not yet in the order of the axes: doubles whose shortest
        text is the rounded decimal."""

    @abstractmethod
    def nearest(self, coordinates: Sequence[tuple[Decimal, Decimal]]) -> list[tuple[int, int]]:
        """The grid positions that are nearest, half away from zero."""

    @abstractmethod
    def own_box(self, bounds: Sequence[Decimal]) -> Box:
        """The box of both lower bounds, then both upper ones, not in axis order."""

    def transform(self, positions: Sequence[list[Any]]) -> None:
        """Transforms positions of the server, in place: in the order of the axes, heights
        last."""
        x, y = (1, 0) if self.second_first else (0, 1)
        for position, (first, second) in zip(positions, self.coordinates(positions)):
            position[x], position[y] = first, second
            if len(position) == 3:
                position[2] = double_of(position[2], PLACES)

    def to_grid(self, pairs: Sequence[tuple[Decimal, Decimal]]) -> list[tuple[int, int]]:
        """The nearest grid positions of pairs in the order of the axes."""
        return self.nearest([(b, a) for a, b in pairs] if self.second_first else pairs)

    def box(self, bounds: Sequence[Decimal]) -> Box:
        """The box of a request, whose numbers are in the order of the axes."""
        a0, b0, a1, b1 = bounds
        return self.own_box((b0, a0, b1, a1) if self.second_first else (a0, b0, a1, b1))


class OfficeSystem(System):
    """The office's own system, by whole numbers and decimals alone."""

    def __init__(self, uri: str, second_first: bool, grid: Grid) -> None:
        super().__init__(uri, second_first)
        self.grid = grid

    def coordinates(self, positions: Sequence[Position]) -> Iterable[tuple[float, float]]:
        return [self.grid.coordinates(position[0], position[1]) for position in positions]

    def nearest(self, coordinates: Sequence[tuple[Decimal, Decimal]]) -> list[tuple[int, int]]:
        easting, northing = self.grid.easting_steps, self.grid.northing_steps
        return [(nearest_step(easting(e)), nearest_step(northing(n))) for e, n in coordinates]

    def own_box(self, bounds: Sequence[Decimal]) -> Box:
        if bounds[0] > bounds[2] or bounds[1] > bounds[3]:
            raise bad_query("bad_bbox", TURNED_BOX)
        return OfficeBox(self.grid, bounds)


class DegreeSystem(System):
    """WGS 84: longitude and latitude."""

    places = DEGREE_PLACES

    def __init__(self, uri: str, second_first: bool, world: World) -> None:
        super().__init__(uri, second_first)
        self.world = world
        self.operation = world.operation

    def coordinates(self, positions: Sequence[Position]) -> Iterable[tuple[float, float]]:
        if not positions:
            return []
        x = numpy.array([position[0] for position in positions], float)
        y = numpy.array([position[1] for position in positions], float)
        placed = numpy.concatenate(self.of_degrees(*self.operation.degrees(x, y)))
        if not numpy.isfinite(placed).all():
            detail = "A feature lies where it has no coordinates in the system that was requested."
            raise Problem(500, "not_placed", detail)
        found = nearest_doubles(placed, self.places)
        return zip(found[: len(x)], found[len(x) :])

    def nearest(self, coordinates: Sequence[tuple[Decimal, Decimal]]) -> list[tuple[int, int]]:
        if not coordinates:
            return []
        first = numpy.array([float(pair[0]) for pair in coordinates])
        second = numpy.array([float(pair[1]) for pair in coordinates])
        x, y = self.operation.steps(*self.to_degrees(first, second))
        if not (numpy.isfinite(x).all() and numpy.isfinite(y).all()):
            detail = "A position has no coordinates in the system of the server."
            raise Problem(400, "not_placed", detail)
        return list(zip(nearest_steps(x), nearest_steps(y)))

    def own_box(self, bounds: Sequence[Decimal]) -> Box:
        first = numpy.array([float(bounds[0]), float(bounds[2])])
        second = numpy.array([float(bounds[1]), float(bounds[3])])
        (west, east), (south, north) = (each.tolist() for each in self.to_degrees(first, second))
        if not all(abs(bound) <= FARTHEST_DEGREES for bound in (west, south, east, north)):
            raise bad_query("bad_bbox", NO_DEGREES)
        if south > north:
            raise bad_query("bad_bbox", TURNED_BOX)
        return DegreeBox(self.world, west, south, east, north)

    def of_degrees(self, longitude: Numbers, latitude: Numbers) -> tuple[Numbers, Numbers]:
        return longitude, latitude

    def to_degrees(self, first: Numbers, second: Numbers) -> tuple[Numbers, Numbers]:
        return first, second


class MercatorSystem(DegreeSystem):
    """EPSG:3857. Its lines of constant easting and northing are meridians and parallels, so a box
    of it is one in degrees."""

    places = METRE_PLACES

    def __init__(self, uri: str, world: World) -> None:
        super().__init__(uri, False, world)
        self.mercator = Transformer.from_crs("OGC:CRS84", "EPSG:3857", always_xy=True)

    def of_degrees(self, longitude: Numbers, latitude: Numbers) -> tuple[Numbers, Numbers]:
        first, second = self.mercator.transform(longitude, latitude)
        return numpy.asarray(first, float), numpy.asarray(second, float)

    def to_degrees(self, first: Numbers, second: Numbers) -> tuple[Numbers, Numbers]:
        longitude, latitude = self.mercator.transform(
            first, second, direction=TransformDirection.INVERSE
        )
        return numpy.asarray(longitude, float), numpy.asarray(latitude, float)


@dataclass(frozen=True)
class Systems:
    """All systems that clients may name, by URI, the default first."""

    by_uri: dict[str, System]
    office: OfficeSystem
    operation: Operation
    reach: Reach

    def named(self, uri: str, code: str) -> System:
        """The system of a URI; for another text a refusal of this code."""
        if uri not in self.by_uri:
            raise bad_query(code, "The reference system is none of those that are listed.")
        return self.by_uri[uri]


def make_systems(settings: Settings) -> Systems:
    """The systems of an office; a SettingsFault if its own cannot be transformed to WGS 84."""
    crs = read_system(settings.system)
    grid = Grid.at(settings.system.easting, settings.system.northing)
    operation = Operation(choose(crs, settings.system.operation), grid)
    reach = reach_of(operation, crs)
    world = World(operation, reach)
    northing_first = crs.axis_info[0].direction == "north"
    office = OfficeSystem(f"{EPSG}{crs.to_epsg()}", northing_first, grid)
    others = [
        DegreeSystem(CRS84, False, world),
        DegreeSystem(f"{EPSG}4326", True, world),
        MercatorSystem(f"{EPSG}3857", world),
    ]
    by_uri = {system.uri: system for system in [*others, office]}
    return Systems(by_uri, office, operation, reach)
