"""The mirror of a gateway: pages, schemas, tiles, and whether it is the mirror of this office."""

import functools
from collections.abc import Callable
from typing import Any, TypeVar

import psycopg2
from psycopg2.sql import SQL

from ..kept import Kept
from ..problems import Problem
from ..settings import Mirror, SettingsFault
from ..systems import Systems
from . import tiles
from .catalogue import Catalogue, read_catalogue
from .clauses import MirrorSystem
from .database import Database, Reading
from .pages import MirrorPage, Paging
from .selection import Selection, check_serial

SYSTEM = "SELECT srid, easting, northing FROM streetmap_mirror"
# Tiles are kept as they were drawn, the last KEPT_BYTES of them, each with some bytes beside it.
KEPT_BYTES, ENTRY_BYTES = 1 << 25, 1 << 9
Value = TypeVar("Value")


class MirrorService:
    """What is answered from the mirror. It is compared with the settings before the first answer,
    and at the start if the database is there by then."""

    def __init__(self, settings: Mirror, systems: Systems) -> None:
        self.settings = settings
        self.systems = systems
        self.database = Database(settings)
        code = int(systems.office.uri.rpartition("/")[2])
        self.system = MirrorSystem(code, systems.office.grid)
        self.is_compared = False
        # Each tile with its serial.
        self.kept: Kept[tuple[str, tiles.TileAddress], tuple[int, tiles.Tile]] = Kept(KEPT_BYTES)

    @classmethod
    def of(cls, settings: Mirror | None, systems: Systems) -> "MirrorService | None":
        """The mirror of the settings, if they have one; a SettingsFault if it is another's."""
        if settings is None:
            return None
        found = cls(settings, systems)
        found.start()
        return found

    def start(self) -> None:
        """Refuses settings that are not the mirror's. One that is away is compared later."""
        try:
            self.database.read_now(self.compare)
        except Problem as problem:
            if problem.status != 503:
                raise SettingsFault(f"mirror: {problem.detail}") from problem

    def compare(self, reading: Reading) -> None:
        """Refuses a mirror whose coordinates are others than the gateway's."""
        if self.is_compared:
            return
        found = reading.row(SQL(SYSTEM))
        wanted = (self.system.srid, self.system.grid.easting, self.system.grid.northing)
        if found != wanted:
            detail = f"The mirror's system and origin are {found}, and the gateway's {wanted}."
            raise Problem(500, "other_system", detail)
        if self.settings.tiles:
            apart = tiles.distance(reading, self.system, self.systems)
            if not apart < tiles.CLOSE:
                detail = (
                    f"PostGIS and system.operation are {apart:.3f} m apart in EPSG:3857. If PROJ"
                    " was given another grid, restart the mirror's transport. With"
                    " mirror.tiles = false there are no tiles, and all else is right."
                )
                raise Problem(500, "other_operation", detail)
        self.is_compared = True

    async def read(self, work: Callable[[Reading], Value]) -> Value:
        """What is read of one state of the mirror."""

        def compared(reading: Reading) -> Value:
            self.compare(reading)
            return work(reading)

        return await self.database.read(compared)

    async def catalogue(self, collection: str) -> Catalogue:
        return await self.read(functools.partial(read_catalogue, collection=collection))

    async def page(self, collection: str, selection: Selection) -> MirrorPage:
        """The page of a selection; a refusal if the serial it names is not that of its state."""

        def page(reading: Reading) -> MirrorPage:
            catalogue = read_catalogue(reading, collection)
            check_serial(selection.serial, catalogue.changed, catalogue.serial)
            return Paging(reading, self.system, catalogue, selection).page()

        return await self.read(page)

    async def tile(
        self, collection: str, at: tiles.TileAddress, is_known: Callable[[int], bool]
    ) -> tuple[int, tiles.Tile | None]:
        """The serial of the last change in or near a tile, and the tile unless that serial is
        known. A tile is read or drawn once for each such serial."""
        kept = self.kept.get((collection, at))

        def tile(reading: Reading) -> tuple[int, tiles.Tile | None]:
            state = tiles.read_state(reading, collection, at)
            if is_known(state.serial):
                return state.serial, None
            if kept is not None and kept[0] == state.serial:
                return kept
            if state.is_drawn:
                return state.serial, tiles.read_drawn(reading, collection, at)
            drawn = tiles.draw(reading, self.system, self.systems, collection, at)
            return state.serial, drawn

        serial, drawn = await self.read(tile)
        if drawn is not None:
            size = len(drawn.body) + ENTRY_BYTES
            self.kept.put((collection, at), (serial, drawn), size)
        return serial, drawn

    async def close(self) -> None:
        self.database.close()
