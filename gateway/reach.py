"""The reach of an operation: bounds in degrees within which it leads to the grid and back.

Boxes are cut to it before they are transformed to the grid, so that a box of the whole world needs
no position that the operation does not have.
"""

from dataclasses import dataclass

import numpy
import pyproj

from .grid import BOUND, Numbers
from .operation import Operation
from .settings import SettingsFault

# The area of use is grown by the first of these degrees with which all of it can be placed.
GROWTHS = (5.0, 1.0, 0.1, 0.0)
RASTER = 33
SAMPLES = 257
MARGIN = 0.1
# The most error, in degrees, of a position that comes back from the grid.
CLOSE = 1e-9


@dataclass(frozen=True)
class Reach:
    """Bounds in degrees. East of the 180th meridian longitudes go on, so west < east always."""

    west: float
    south: float
    east: float
    north: float


def reach_of(operation: Operation, system: pyproj.CRS) -> Reach:
    """The area of use of the operation, or of the system, as far as the server's grid goes."""
    for area in (operation.transformer.area_of_use, system.area_of_use):
        if area is None:
            continue
        west, south, east, north = area.bounds
        for growth in GROWTHS:
            reach = grown((west, south, east if east > west else east + 360, north), growth)
            if is_placed(operation, reach):
                check_origin(operation, reach)
                operation.settle(*raster(reach))
                return within_grid(operation, reach)
    raise SettingsFault("the operation to WGS 84 does not lead back within its area of use")


def grown(bounds: tuple[float, float, float, float], growth: float) -> Reach:
    west, south, east, north = bounds
    west, east = west - growth, east + growth
    if east - west > 360:
        west, east = -180, 180
    return Reach(west, max(south - growth, -90), east, min(north + growth, 90))


def raster(reach: Reach) -> tuple[Numbers, Numbers]:
    longitude, latitude = numpy.meshgrid(
        numpy.linspace(reach.west, reach.east, RASTER),
        numpy.linspace(reach.south, reach.north, RASTER),
    )
    return longitude, latitude


def check_origin(operation: Operation, reach: Reach) -> None:
    """Refuses a false origin around which the grid has nothing of the area of use."""
    x, y = operation.steps(*raster(reach))
    if not numpy.any((abs(x) <= BOUND) & (abs(y) <= BOUND)):
        raise SettingsFault("the false origin is too far from the system's area of use")


def is_placed(operation: Operation, reach: Reach) -> bool:
    """Whether a raster of positions comes back from the grid."""
    longitude, latitude = raster(reach)
    back, beside = operation.degrees(*operation.steps(longitude, latitude))
    with numpy.errstate(invalid="ignore"):
        off = numpy.abs(back + 360 * numpy.round((longitude - back) / 360) - longitude)
        return bool(numpy.all(off < CLOSE) and numpy.all(numpy.abs(beside - latitude) < CLOSE))


def within_grid(operation: Operation, reach: Reach) -> Reach:
    """The part of a reach that the server's grid covers, if the whole outline of the grid has
    coordinates in degrees."""
    side = numpy.linspace(-BOUND, BOUND, SAMPLES)
    end = numpy.full(SAMPLES, float(BOUND))
    x = numpy.concatenate([side, end, side[::-1], -end])
    y = numpy.concatenate([-end, side, end, side[::-1]])
    longitude, latitude = operation.degrees(x, y)
    if not numpy.all(numpy.isfinite(longitude) & numpy.isfinite(latitude)):
        return reach
    back_x, back_y = operation.steps(longitude, latitude)
    with numpy.errstate(invalid="ignore"):
        if not numpy.all((abs(back_x - x) < 1) & (abs(back_y - y) < 1)):
            return reach
    longitude = numpy.unwrap(longitude, period=360)
    if abs(longitude[-1] - longitude[0]) > 180:
        return reach
    longitude += 360 * numpy.round(
        (reach.west + reach.east - longitude.min() - longitude.max()) / 720
    )
    return Reach(
        max(reach.west, longitude.min() - MARGIN),
        max(reach.south, latitude.min() - MARGIN),
        min(reach.east, longitude.max() + MARGIN),
        min(reach.north, latitude.max() + MARGIN),
    )
