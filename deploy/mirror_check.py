"""Compares the mirror of a journal in PostGIS with what the server keeps, byte for byte.

    python3 deploy/mirror_check.py DSN [J] [--town NAME] [--program PROGRAM] [--folder FOLDER]

DSN is that of a database with the mirror, or of a standby of it. In one transaction it reads the
serial of the mirror's state and all features. From the lines of J up to that serial, or without J
from those of the database's own table, PROGRAM (`streetmap`) makes a file of its own, whose exports
are then compared with those of the mirror. The file is in a temporary folder, or in FOLDER, where
the exports of the mirror stay too, as COLLECTION.json, and where the next check goes on with it.

It prints `the same at serial N: C collections, F features`, and has status 0. Status 1, and on
standard error one of these, is for a person to examine:

    differs COLLECTION             the export, the title or the time property is another one, or
                                   one of both has no such collection
    columns_differ COLLECTION ID   a column of the feature is not what its text says
    no_mirror                      the database has no mirror
    lines_missing FROM TO          the lines from serial 1 on are not all there
    program_failed COMMAND         PROGRAM is not there, or ended with a fault of its own
    bad_source CODE                the database refuses a query

`usage` has status 2, and a database that does not answer 3.
"""

import argparse
import contextlib
import filecmp
import sqlite3
import sys
import tempfile
from dataclasses import dataclass
from pathlib import Path
from typing import Any

from journal_files import JournalFiles
from journal_lines import Away, Fault, Source, end, not_empty, town_of
from journal_table import READ_ONLY, JournalTable, TableSource
from program import Program, lines_up_to

NAME = "mirror_check"
SERIAL = "SELECT serial FROM streetmap_mirror"
COLLECTIONS = "SELECT id, title, time FROM streetmap_collections"
BODIES = "SELECT body FROM streetmap_features WHERE collection = %s ORDER BY id"
# A feature whose columns are not those of its text.
OTHER_COLUMNS = """
SELECT kept.collection, kept.id
FROM streetmap_features AS kept
CROSS JOIN streetmap_mirror AS mirror
JOIN streetmap_collections AS opened ON opened.id = kept.collection
CROSS JOIN LATERAL json_to_record(streetmap_without_zeros(kept.body)::json)
    AS body (id text, geometry text, properties jsonb)
CROSS JOIN LATERAL (SELECT ST_SetSRID(ST_GeomFromGeoJSON(body.geometry), 0)) AS read (grid)
WHERE (kept.id, kept.properties, kept.time, kept.grid::bytea, kept.geometry::bytea,
        kept.mercator::bytea)
    IS DISTINCT FROM (body.id, body.properties, streetmap_time(body.properties -> opened.time),
        read.grid::bytea,
        streetmap_placed(read.grid, mirror.easting, mirror.northing, mirror.srid)::bytea,
        streetmap_mercator_or_null(
            read.grid, mirror.easting, mirror.northing, mirror.srid)::bytea)
LIMIT 1
"""
# Bodies that are read at once.
AT_ONCE = 1000

# Of each collection by its id: its title, and its time property.
Collections = dict[str, tuple[str, str | None]]


@dataclass(frozen=True)
class Mirrored:
    """What was read of the mirror: the serial, the collections, and the number of features. The
    exports are in a folder."""

    serial: int
    collections: Collections
    features: int


def export_path(folder: Path, collection: str) -> Path:
    return folder / f"{collection}.json"


def write_export(connection: Any, collection: str, path: Path) -> int:
    """Writes the export of a collection as `streetmap export` does; the number of its features."""
    count = 0
    with connection.cursor("bodies") as cursor, path.open("wb") as file:
        cursor.itersize = AT_ONCE
        cursor.execute(BODIES, (collection,))
        file.write(b'{"features":[')
        for (body,) in cursor:
            file.write(b"," * (count > 0) + body.encode())
            count += 1
        file.write(b'],"type":"FeatureCollection"}\n')
    return count


def read_mirror(table: JournalTable, folder: Path) -> Mirrored:
    """Reads the mirror in one transaction, whose state is that after one serial, whole."""
    with table.transaction() as cursor:
        cursor.execute(READ_ONLY)
        if not table.has(cursor, "streetmap_mirror"):
            raise Fault("no_mirror")
        cursor.execute(SERIAL)
        serial = int(cursor.fetchone()[0])
        cursor.execute(COLLECTIONS)
        collections: Collections = {name: (title, time) for name, title, time in cursor.fetchall()}
        features = sum(
            write_export(cursor.connection, name, export_path(folder, name)) for name in collections
        )
        cursor.execute(OTHER_COLUMNS)
        if (other := cursor.fetchone()) is not None:
            raise Fault("columns_differ", *other)
    return Mirrored(serial, collections, features)


@dataclass(frozen=True)
class Server(Program):
    """The program over a file of its own, which has the lines up to a serial."""

    def begin(self, serial: int) -> int:
        """The last serial of the file, which is made again if it is none or has more than these."""
        if self.file.exists() and (last := self.last()) <= serial:
            return last
        for path in self.file.parent.glob(f"{self.file.name}*"):
            path.unlink()
        self.run("create")
        return 0

    def collections(self) -> Collections:
        with contextlib.closing(sqlite3.connect(self.file)) as connection:
            rows = connection.execute("SELECT id, title, time FROM streetmap_collections")
            return {name: (title, time) for name, title, time in rows}

    def export(self, collection: str, path: Path) -> None:
        with path.open("wb") as file:
            self.run("export", "--collection", collection, stdout=file)


def compare(mirrored: Mirrored, server: Server, folder: Path) -> None:
    """Compares what the server's file has with what was read of the mirror."""
    there = server.collections()
    wanted = folder / ".export"
    for name in sorted(mirrored.collections | there):
        if mirrored.collections.get(name) != there.get(name):
            raise Fault("differs", name)
        server.export(name, wanted)
        if not filecmp.cmp(wanted, export_path(folder, name), shallow=False):
            raise Fault("differs", name)
    wanted.unlink(missing_ok=True)


def check(asked: argparse.Namespace, folder: Path) -> Mirrored:
    """Reads, makes and compares, in a folder that is there."""
    mirrored = read_mirror(JournalTable(asked.dsn, asked.town), folder)
    source: Source = TableSource(asked.dsn, asked.town)
    if asked.journal:
        source = JournalFiles(Path(asked.journal))
    server = Server(asked.program, folder / ".streetmap")
    # The last line that the file has is sent again: it acts once, or is seen to be another.
    last = max(0, server.begin(mirrored.serial) - 1)
    server.apply(lines_up_to(source, last, mirrored.serial))
    compare(mirrored, server, folder)
    return mirrored


def main() -> int:
    words = argparse.ArgumentParser(prog=NAME, description=(__doc__ or "").splitlines()[0])
    words.add_argument("dsn", type=not_empty, help="the database, as postgresql://..")
    words.add_argument("journal", nargs="?", help="the journal's path; else the database's table")
    words.add_argument("--town", type=town_of, default="", metavar="NAME", help="of several towns")
    words.add_argument("--program", default="streetmap", help="the server's program")
    words.add_argument("--folder", help="where the exports of the mirror are left")
    asked = words.parse_args()
    try:
        with tempfile.TemporaryDirectory(prefix="streetmap-mirror-") as temporary:
            folder = Path(asked.folder or temporary)
            folder.mkdir(parents=True, exist_ok=True)
            found = check(asked, folder)
    except Fault as fault:
        return end(NAME, fault)
    except Away as away:
        return end(NAME, Fault("away", away, status=3))
    numbers = f"{len(found.collections)} collections, {found.features} features"
    print(f"the same at serial {found.serial}: {numbers}")
    return 0


if __name__ == "__main__":
    sys.exit(main())
