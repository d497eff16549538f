"""The server's grid and the office's coordinates, one from the other by whole numbers and decimals.

A coordinate of the office's system is origin + grid / 1000. The false origin has at most three
decimal places, so each grid position has an exact coordinate of at most three.
"""

from dataclasses import dataclass
from decimal import ROUND_HALF_UP, Context, Decimal, InvalidOperation

import numpy
from numpy.typing import NDArray

Numbers = NDArray[numpy.float64]

# Grid steps in one unit of the office's system; three decimal places are the same.
STEPS = 1000
PLACES = 3
# The server's bound of a coordinate, in steps.
BOUND = 10**9
# The most characters of a number of a request, and the highest place of its first digit.
LONGEST_NUMBER = 38
FAR_PLACE = 500
# All digits of such a number, and of a double, fit.
EXACT = Context(prec=1200, rounding=ROUND_HALF_UP)
ONE = Decimal(1)
# A product of doubles is off by a 2^53rd of itself. Nearer to a half the exact value decides.
NEAR_HALF = 2.0**-50


@dataclass(frozen=True)
class Grid:
    """The false origin of the grid, in steps."""

    easting: int
    northing: int

    @classmethod
    def at(cls, easting: Decimal, northing: Decimal) -> "Grid":
        return cls(int(easting * STEPS), int(northing * STEPS))

    def coordinates(self, x: int, y: int) -> tuple[float, float]:
        """Easting and northing of a position."""
        return double_of(self.easting + x, PLACES), double_of(self.northing + y, PLACES)

    def easting_steps(self, easting: Decimal) -> Decimal:
        """The exact steps of an easting, whole or not."""
        return EXACT.subtract(EXACT.multiply(easting, Decimal(STEPS)), Decimal(self.easting))

    def northing_steps(self, northing: Decimal) -> Decimal:
        return EXACT.subtract(EXACT.multiply(northing, Decimal(STEPS)), Decimal(self.northing))


def double_of(units: int, places: int) -> float:
    """The double nearest to units / 10^places. Its shortest text, which JSON has, is that decimal
    again, since a double keeps 15 digits and units have fewer."""
    scale: int = 10**places
    return units / scale


def rounded(value: Decimal) -> int:
    """The nearest whole number, half away from zero."""
    return int(value.quantize(ONE, context=EXACT))


def nearest_doubles(values: Numbers, places: int) -> list[float]:
    """Values rounded to a number of decimal places, half away from zero: the doubles nearest to
    these decimals, as `double_of` makes them."""
    scaled = values * 10.0**places
    units = numpy.trunc(scaled + numpy.copysign(0.5, scaled))
    off = numpy.abs(numpy.abs(scaled - numpy.trunc(scaled)) - 0.5)
    for index in numpy.flatnonzero(off <= numpy.abs(scaled) * NEAR_HALF):
        units[index] = rounded(EXACT.scaleb(Decimal(float(values[index])), places))
    # A zero is added so that none is negative.
    found: list[float] = (units / 10.0**places + 0.0).tolist()
    return found


def nearest_step(steps: Decimal) -> int:
    """The nearest whole step, half away from zero. One beyond the grid stays beyond it, and the
    server refuses it."""
    if abs(steps) > BOUND + 1:
        return BOUND + 1 if steps > 0 else -BOUND - 1
    return rounded(steps)


def nearest_steps(values: Numbers) -> list[int]:
    """The nearest whole steps of doubles, all of which are finite, as of `nearest_step`."""
    whole = numpy.trunc(values)
    # What is left of a double is exact.
    steps = whole + numpy.where(numpy.abs(values - whole) >= 0.5, numpy.copysign(1, values), 0)
    found: list[int] = steps.clip(-BOUND - 1, BOUND + 1).astype(numpy.int64).tolist()
    return found


def decimal_of(text: str) -> Decimal | None:
    """The number of a JSON text, exactly; None if it has too many digits."""
    if len(text) > LONGEST_NUMBER:
        return None
    try:
        number = Decimal(text)
    except InvalidOperation:
        return None
    is_near = number.is_finite() and abs(number.adjusted()) <= FAR_PLACE
    return number if is_near else None
