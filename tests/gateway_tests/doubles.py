"""The texts of coordinates beside Python's fractions: halves, their neighbours and random ones."""

import json
import math
import random
import sys
from collections.abc import Iterator
from fractions import Fraction

import numpy
from gateway_tests.service import ROOT
from harness import Context

sys.path.append(str(ROOT))

from gateway.grid import PLACES, double_of, nearest_doubles  # noqa: E402
from gateway.systems import DEGREE_PLACES, METRE_PLACES  # noqa: E402

MANY, GREATEST_UNITS = 5_000, 10**13


def nearest(value: float, places: int) -> int:
    """The nearest whole number of units, half away from zero."""
    units = int(abs(Fraction(value)) * 10**places + Fraction(1, 2))
    return -units if value < 0 else units


def values(source: random.Random, places: int, most: float) -> Iterator[float]:
    """Numbers half way between two texts, those beside them, and any."""
    yield from (0.0, -0.0, 1e-300, -1e-300, most, -most)
    for _ in range(MANY):
        half = (2 * source.randrange(int(most)) + 1) / 2 ** (places + 1)
        near = (source.randrange(int(most * 10**places)) + 0.5) / 10**places
        for value in (half, near):
            yield from (value, -value, math.nextafter(value, 0), math.nextafter(value, math.inf))
        yield source.uniform(-most, most)


def check_doubles(context: Context) -> None:
    """What is written is the nearest decimal, and each decimal of the grid is written exactly."""
    source = random.Random(13)
    for places, most in ((DEGREE_PLACES, 360.0), (METRE_PLACES, 2.1e7)):
        given = list(values(source, places, most))
        texts = [json.dumps(each) for each in nearest_doubles(numpy.array(given), places)]
        pairs = zip(given, texts)
        wrong = [
            pair for pair in pairs if Fraction(pair[1]) * 10**places != nearest(pair[0], places)
        ]
        context.check(
            f"{len(given)} numbers at {places} places", (wrong, "-0.0" in texts), ([], False)
        )
    units = [source.randint(-GREATEST_UNITS, GREATEST_UNITS) for _ in range(MANY)]
    off = [each for each in units if Fraction(json.dumps(double_of(each, PLACES))) * 1000 != each]
    context.check("millimetres", off, [])
