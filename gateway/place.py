"""Writes map.json of the map page: a table that places the grid in WGS 84.

    python3 -m gateway.place gateway.toml > map.json

The table is one of polynomials over boxes of the grid. With u and v from -1 to 1 over a box,
longitude and latitude in degrees are the sums of c[i][j] u^i v^j. `error` is the largest distance
in metres from the operation of the gateway, at positions between those of the fit.
"""

import argparse
import asyncio
import json
import sys
from collections.abc import Iterator, Sequence
from pathlib import Path
from typing import Any

import numpy

from .client import ServerClient
from .gateway import Gateway
from .grid import BOUND, STEPS, Numbers
from .operation import Operation
from .problems import Problem
from .settings import SettingsFault, read_settings

DEGREE = 6
FITTED, TESTED = 17, 41
# A box whose table errs by more steps is cut in four, and how often at most.
GOOD, CUTS = 1.0, 5
# The steps that are added around the data, if no box is named.
AROUND = 1000 * STEPS

Bounds = Sequence[int]


class PlaceFault(Exception):
    """The table is missing; the text says why."""


def powers(u: Numbers, v: Numbers) -> Numbers:
    """The products u^i v^j, a row for each point."""
    columns = [u**i * v**j for i in range(DEGREE + 1) for j in range(DEGREE + 1)]
    return numpy.column_stack(columns)


def raster(box: Bounds, points: Numbers) -> tuple[Numbers, Numbers, Numbers, Numbers]:
    """u, v, x and y of a raster over a box."""
    u, v = (each.ravel() for each in numpy.meshgrid(points, points))
    x0, y0, x1, y1 = box
    return u, v, (x0 + x1 + u * (x1 - x0)) / 2, (y0 + y1 + v * (y1 - y0)) / 2


def fitted(operation: Operation, box: Bounds) -> tuple[dict[str, Any], float]:
    """The table of a box, and by how many steps it errs at most."""
    nodes = numpy.cos(numpy.pi * (numpy.arange(FITTED) + 0.5) / FITTED)
    u, v, x, y = raster(box, nodes)
    longitude, latitude = operation.degrees(x, y)
    if not numpy.all(numpy.isfinite(longitude) & numpy.isfinite(latitude)):
        raise PlaceFault("A part of the box cannot be placed.")
    longitude = longitude[0] + (longitude - longitude[0] + 180) % 360 - 180
    values = numpy.column_stack([longitude, latitude])
    found = numpy.linalg.lstsq(powers(u, v), values, rcond=None)[0]
    u, v, x, y = raster(box, numpy.linspace(-1, 1, TESTED))
    placed = powers(u, v) @ found
    back_x, back_y = operation.steps(placed[:, 0], placed[:, 1])
    error = float(numpy.max(numpy.hypot(back_x - x, back_y - y)))
    rows = found.T.reshape(2, DEGREE + 1, DEGREE + 1).tolist()
    return {"box": list(box), "longitude": rows[0], "latitude": rows[1]}, error


def patches(operation: Operation, box: Bounds, cuts: int) -> Iterator[tuple[dict[str, Any], float]]:
    """The tables of a box, which is cut in four if one is not good enough."""
    patch, error = fitted(operation, box)
    if error <= GOOD or cuts == 0:
        yield patch, error
        return
    x0, y0, x1, y1 = box
    x, y = (x0 + x1) // 2, (y0 + y1) // 2
    for part in ((x0, y0, x, y), (x, y0, x1, y), (x0, y, x, y1), (x, y, x1, y1)):
        yield from patches(operation, part, cuts - 1)


def table(operation: Operation, system: str, box: Bounds) -> dict[str, Any]:
    """The table of a box for the map page."""
    found = list(patches(operation, box, CUTS))
    error = max(error for _, error in found) / STEPS
    return {"place": {"system": system, "error": error, "patches": [each for each, _ in found]}}


async def data_box(client: ServerClient) -> Bounds:
    """The bounds of all collections, and some ground around."""
    found = await client.collections()
    await client.close()
    boxes = [each["extent"]["spatial"]["bbox"][0] for each in found if "extent" in each]
    if not boxes:
        raise PlaceFault("No collection has a feature with a geometry: name a box.")
    west, south = (min(box[i] for box in boxes) - AROUND for i in (0, 1))
    east, north = (max(box[i] for box in boxes) + AROUND for i in (2, 3))
    return (west, south, east, north)


def main() -> int:
    parser = argparse.ArgumentParser(description="Writes map.json of the map page.")
    parser.add_argument("settings", type=Path, help="the settings file, gateway.toml")
    what = "the box on the grid, in millimetres, in place of that of the data"
    parser.add_argument("--box", nargs=4, type=int, metavar=("X0", "Y0", "X1", "Y1"), help=what)
    given = parser.parse_args()
    try:
        gateway = Gateway.of(read_settings(given.settings))
        box = given.box or asyncio.run(data_box(gateway.client))
        if not (-2 * BOUND <= box[0] < box[2] <= 2 * BOUND and box[1] < box[3]):
            raise PlaceFault("The box has no area, or is beyond the grid.")
        written = table(gateway.systems.operation, gateway.settings.system.name, box)
    except (SettingsFault, PlaceFault, Problem) as fault:
        print(f"place: {fault}", file=sys.stderr)
        return 1
    print(json.dumps(written, separators=(",", ":")))
    return 0


if __name__ == "__main__":
    sys.exit(main())
