"""Extents of collections in CRS84."""

from collections.abc import Sequence
from decimal import ROUND_CEILING, ROUND_FLOOR, Decimal

from .operation import Operation
from .outlines import degrees_around
from .systems import DEGREE_PLACES

UNIT = Decimal(1).scaleb(-DEGREE_PLACES)


def degree_extent(operation: Operation, bounds: Sequence[int]) -> list[Decimal] | None:
    """West, south, east and north of grid bounds, rounded outward; None if these have no
    coordinates in degrees. West is above east for an extent across the 180th meridian."""
    x0, y0, x1, y1 = bounds
    around = degrees_around(operation, (x0, y0, x1, y1))
    if around is None:
        return None
    west, south = (Decimal(bound).quantize(UNIT, ROUND_FLOOR) - UNIT for bound in around[:2])
    east, north = (Decimal(bound).quantize(UNIT, ROUND_CEILING) + UNIT for bound in around[2:])
    if east - west >= 360:
        return [Decimal(-180), south, Decimal(180), north]
    return [within_turn(west), max(south, Decimal(-90)), within_turn(east), min(north, Decimal(90))]


def within_turn(longitude: Decimal) -> Decimal:
    """The longitude between -180 and 180."""
    while longitude > 180:
        longitude -= 360
    while longitude < -180:
        longitude += 360
    return longitude
