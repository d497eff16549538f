"""The one operation between the office's system and WGS 84, chosen at the start.

PROJ's network is off, so its results depend on the machine's files alone. If the best operation
needs a file that is not installed, the settings have to name the operation that is wanted.
"""

import warnings

import numpy
import pyproj
from pyproj.enums import TransformDirection
from pyproj.exceptions import CRSError
from pyproj.network import set_network_enabled
from pyproj.transformer import Transformer, TransformerGroup

from .grid import STEPS, Grid, Numbers
from .settings import Office, SettingsFault

# An error of fewer steps is not corrected.
CLOSE = 1e-4

set_network_enabled(False)


def read_system(office: Office) -> pyproj.CRS:
    """The office's system: one of EPSG, projected, eastings and northings in the named unit."""
    try:
        system = pyproj.CRS.from_user_input(office.name)
    except CRSError as fault:
        raise SettingsFault(f"system.name: {fault}") from fault
    directions = sorted(axis.direction for axis in system.axis_info)
    if not system.is_projected or directions != ["east", "north"]:
        raise SettingsFault("system.name is no projected system of eastings and northings")
    units = {axis.unit_name for axis in system.axis_info}
    if units != {office.unit}:
        raise SettingsFault(f"system.unit is not the system's: {', '.join(sorted(units))}")
    if system.to_epsg(min_confidence=100) is None:
        raise SettingsFault("system.name is no system of EPSG")
    return system


def choose(system: pyproj.CRS, name: str | None) -> Transformer:
    """The best operation to WGS 84, or the one that the settings name."""
    with warnings.catch_warnings():
        warnings.simplefilter("ignore", UserWarning)
        group = TransformerGroup(system, "OGC:CRS84", always_xy=True)
    there = {transformer.description: transformer for transformer in group.transformers}
    if name is not None:
        if name not in there:
            raise SettingsFault(f"system.operation is none of: {described(group)}")
        return there[name]
    if not group.best_available or not group.transformers:
        missing = "; ".join(f'"{each.name}"' for each in group.unavailable_operations[:1])
        raise SettingsFault(
            f"the best operation to WGS 84 is not there ({missing}): install its files, or name"
            f" one of these as system.operation: {described(group)}"
        )
    return group.transformers[0]


def described(group: TransformerGroup) -> str:
    """The operations that are there, each with its accuracy."""
    return "; ".join(f'"{each.description}" ({each.accuracy} m)' for each in group.transformers)


class Operation:
    """Grid positions, in steps, to longitudes and latitudes of WGS 84, and back. Floating point."""

    # The most corrections of a position of the grid.
    ROUNDS = 3

    def __init__(self, transformer: Transformer, grid: Grid) -> None:
        self.transformer = transformer
        self.grid = grid
        self.rounds = self.ROUNDS

    def degrees(self, x: Numbers, y: Numbers) -> tuple[Numbers, Numbers]:
        """Longitudes from -180 to 180 and latitudes; infinite if it has none."""
        easting, northing = (x + self.grid.easting) / STEPS, (y + self.grid.northing) / STEPS
        longitude, latitude = self.transformer.transform(easting, northing)
        return numpy.asarray(longitude, float), numpy.asarray(latitude, float)

    def steps(self, longitude: Numbers, latitude: Numbers) -> tuple[Numbers, Numbers]:
        """Grid positions, not rounded; infinite if it has none.

        PROJ's inverse of an operation that shifts the datum is off by up to a millimetre, since
        heights are dropped. So it is corrected until `degrees` leads back.
        """
        start_x, start_y = self.rough_steps(longitude, latitude)
        x, y = start_x, start_y
        with numpy.errstate(invalid="ignore"):
            for _ in range(self.rounds):
                back_x, back_y = self.rough_steps(*self.degrees(x, y))
                off_x, off_y = start_x - back_x, start_y - back_y
                if not numpy.any((abs(off_x) > CLOSE) | (abs(off_y) > CLOSE)):
                    break
                x, y = x + off_x, y + off_y
        there = numpy.isfinite(x) & numpy.isfinite(y)
        return numpy.where(there, x, numpy.inf), numpy.where(there, y, numpy.inf)

    def settle(self, longitude: Numbers, latitude: Numbers) -> None:
        """Leaves the corrections out from now on if none of these positions needs any."""
        x, y = self.rough_steps(longitude, latitude)
        back_x, back_y = self.rough_steps(*self.degrees(x, y))
        with numpy.errstate(invalid="ignore"):
            is_close = (abs(back_x - x) <= CLOSE) & (abs(back_y - y) <= CLOSE)
        self.rounds = 0 if numpy.all(is_close) else self.ROUNDS

    def rough_steps(self, longitude: Numbers, latitude: Numbers) -> tuple[Numbers, Numbers]:
        """PROJ's inverse as it is."""
        easting, northing = self.transformer.transform(
            longitude, latitude, direction=TransformDirection.INVERSE
        )
        x: Numbers = numpy.asarray(easting, float) * float(STEPS) - self.grid.easting
        y: Numbers = numpy.asarray(northing, float) * float(STEPS) - self.grid.northing
        return x, y
