"""The mirror of a journal in PostGIS: its collections and features, as they are after one serial.

The SQL in postgis/ makes the tables, and the functions by which each line that is put into
`streetmap_journal` acts in the same transaction (postgis/README.md). A line that the ledger would
refuse ends as the fault `refused SERIAL CODE PLACE`, and nothing of its transaction is kept.
"""

import argparse
import contextlib
import re
import time
from collections.abc import Sequence
from concurrent.futures import ThreadPoolExecutor
from dataclasses import dataclass
from decimal import Decimal, InvalidOperation
from pathlib import Path
from typing import Any

from journal_lines import Fault, Line, tell
from journal_table import LOCK, MIRRORED, JournalTable
from journal_tiles import TileMaker

FOLDER = Path(__file__).resolve().parent / "postgis"
# What makes the tables and functions, in this order; the indexes, which can wait until the
# mirror has come up to the journal's end; and what takes all of it away.
PARTS = ("names.sql", "tables.sql", "reading.sql", "tiles.sql", "acting.sql", "views.sql")
INDEXES, MEMORY = "indexes.sql", "SET LOCAL maintenance_work_mem = '256MB'"
DROPPING = ("names.sql", "dropping.sql")
SYSTEM = "SELECT srid, easting, northing FROM streetmap_mirror"
SET_SYSTEM = "INSERT INTO streetmap_mirror (srid, easting, northing) VALUES (%s, %s, %s)"
IS_SYSTEM = "SELECT EXISTS (SELECT FROM spatial_ref_sys WHERE srid = %s)"
ADD_GEOMETRY = "ALTER TABLE streetmap_features ADD COLUMN geometry geometry(Geometry, {})"
ACT, MAKE_VIEWS = "SELECT streetmap_act(%s)", "SELECT streetmap_make_due_views(%s)"
PLACE_AGAIN = "SELECT streetmap_place_again()"
# In one transaction at most: lines that act, and views that are made.
MOST_LINES, MOST_VIEWS = 100, 50
# In seconds: between two tries at a view that somebody reads.
AGAIN_SECONDS = 1.0
# Thousandths in one unit of the office's system, and the bound of a false origin, in units.
STEPS, FARTHEST = 1000, 10**9


@dataclass(frozen=True)
class OfficeSystem:
    """The office's reference system, by its number of EPSG, and where the grid's 0,0 is in it, in
    thousandths of its unit. Number 0 is none."""

    srid: int = 0
    easting: int = 0
    northing: int = 0


def system_of(text: str) -> int:
    """The number of a system that is written as `EPSG:25832`."""
    found = re.fullmatch(r"EPSG:([1-9][0-9]{0,5})", text)
    if found is None:
        raise argparse.ArgumentTypeError(f"{text} is no system as EPSG:25832")
    return int(found[1])


def shift_of(text: str) -> tuple[int, int]:
    """The thousandths of both numbers of a shift, such as `565000,5934000.125`."""
    try:
        numbers = [Decimal(it) for it in text.split(",")]
    except InvalidOperation:
        numbers = []
    is_exact = all(it.is_finite() and not it * STEPS % 1 and abs(it) <= FARTHEST for it in numbers)
    if len(numbers) != 2 or not is_exact:
        raise argparse.ArgumentTypeError(f"{text} is no easting,northing of 3 decimal places")
    return int(numbers[0] * STEPS), int(numbers[1] * STEPS)


class MirroredTable(JournalTable):
    """A journal's table with the mirror beside it. A system that is None is that of the mirror
    which is there, else none."""

    def __init__(
        self,
        dsn: str,
        name: str,
        system: OfficeSystem | None,
        town: str = "",
        has_tiles: bool = False,
    ) -> None:
        super().__init__(dsn, town)
        self.name = name
        self.town = town
        self.system = system
        self.is_indexed = False
        # When views that are due are to be made, by the monotonic clock; None if none is.
        self.views_at: float | None = 0.0
        self.tiles = TileMaker(name, JournalTable(dsn, town)) if has_tiles else None

    def make(self) -> None:
        """Makes the mirror if it is missing, and lets it come up to the table's last line."""
        self.make_table()
        with self.transaction() as cursor:
            # No two may install it at once, and no line may be put in meanwhile.
            cursor.execute(LOCK)
            for part in PARTS:
                cursor.execute((FOLDER / part).read_text())
            self.settle(cursor)
        # By itself: a new column has locked readers out until now.
        with self.transaction() as cursor:
            cursor.execute(LOCK)
            cursor.execute(PLACE_AGAIN)
        self.is_indexed, self.views_at = False, 0.0
        self.catch_up()

    def settle(self, cursor: Any) -> None:
        """Gives a new mirror its system, and compares that of one that is there."""
        cursor.execute(SYSTEM)
        if (found := cursor.fetchone()) is not None:
            if self.system is not None and OfficeSystem(*found) != self.system:
                raise Fault("other_system", *found)
            return
        system = self.system or OfficeSystem()
        cursor.execute(IS_SYSTEM, (system.srid,))
        if system.srid and not cursor.fetchone()[0]:
            raise Fault("no_system", system.srid)
        cursor.execute(SET_SYSTEM, (system.srid, system.easting, system.northing))
        cursor.execute(ADD_GEOMETRY.format(int(system.srid)))

    def take_out(self, serial: int) -> int:
        """Takes the mirror away too, whose system is kept in mind if none is given."""
        with self.transaction() as cursor:
            number = self.take_lines(cursor, serial)
            if self.system is None and self.has(cursor, "streetmap_mirror"):
                cursor.execute(SYSTEM)
                self.system = OfficeSystem(*cursor.fetchone())
            for part in DROPPING:
                cursor.execute((FOLDER / part).read_text())
        return number

    def catch_up(self) -> None:
        """Lets all lines of the table act that have not, some at a time."""
        last, serial = self.last(), self.ask_number(MIRRORED)
        if serial < last:
            tell(self.name, f"the mirror acts from serial {serial + 1} to {last}")
        while serial < last:
            serial = self.ask_number(ACT, MOST_LINES)

    def ask_number(self, query: str, *values: object) -> int:
        """The number that a query answers, in a transaction of its own."""
        with self.transaction() as cursor:
            cursor.execute(query, values)
            return int(cursor.fetchone()[0])

    def put(self, lines: Sequence[Line]) -> None:
        super().put(lines)
        self.make_views()
        if self.tiles is not None:
            self.tiles.due.set()

    def make_views(self) -> None:
        """Makes some of the views that are due; others, and one that is read just now, later."""
        due = self.ask_number(MAKE_VIEWS, MOST_VIEWS)
        self.views_at = time.monotonic() + AGAIN_SECONDS if due else None

    def make_index(self, statement: str) -> None:
        """Makes an index over a connection of its own."""
        table = JournalTable(self.dsn, self.town, self.connect_seconds)
        with contextlib.closing(table), table.transaction() as cursor:
            cursor.execute(MEMORY)
            cursor.execute(statement)

    def complete(self) -> None:
        """Makes the indexes and the views that are missing, once all lines are in."""
        if not self.is_indexed:
            statements = (FOLDER / INDEXES).read_text().split(";")[:-1]
            # All at the same time, since PostgreSQL makes each in one processor.
            with ThreadPoolExecutor(len(statements)) as threads:
                list(threads.map(self.make_index, statements))
            self.is_indexed = True
        if self.views_at is not None and time.monotonic() >= self.views_at:
            self.make_views()

    def rest(self) -> None:
        """Has tiles drawn ahead from now on."""
        if self.tiles is not None and not self.tiles.is_alive():
            self.tiles.start()
            self.tiles.due.set()
