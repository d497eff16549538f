"""Files of the program as SQLite itself sees them, by Python's sqlite3."""

import contextlib
import shutil
import sqlite3
from pathlib import Path
from typing import Any

Rows = list[tuple[Any, ...]]
# The columns that format 2 has and format 1 has not.
COLUMNS = "".join(f"{name} INTEGER, " for name in ("x0", "y0", "x1", "y1", "s0", "s1"))
FORMAT_OF = "SELECT * FROM streetmap_meta"
# All rows of the four tables.
KEPT = (
    "SELECT name, value FROM streetmap_meta",
    "SELECT * FROM streetmap_collections ORDER BY 1",
    "SELECT * FROM streetmap_batches ORDER BY 1",
    "SELECT * FROM streetmap_features ORDER BY 1, 2",
)


def beside(path: Path) -> Path:
    """The log that SQLite keeps beside a file."""
    return path.with_name(path.name + "-wal")


def forget(path: Path) -> None:
    path.unlink(missing_ok=True)
    beside(path).unlink(missing_ok=True)


def copy_file(source: Path, path: Path) -> Path:
    """Makes a file what another is, with its log."""
    forget(path)
    for source_part, part in ((source, path), (beside(source), beside(path))):
        if source_part.exists():
            shutil.copy(source_part, part)
    return path


def change(path: Path, script: str) -> None:
    with contextlib.closing(sqlite3.connect(path)) as db:
        db.executescript(script)


def rows(path: Path, query: str) -> Rows:
    with contextlib.closing(sqlite3.connect(f"file:{path}?mode=ro", uri=True)) as db:
        return db.execute(query).fetchall()


def kept_rows(path: Path) -> list[Rows]:
    """All rows of the four tables of a file."""
    return [rows(path, query) for query in KEPT]


def make_format_1(path: Path) -> None:
    """Makes a file of format 2 one of format 1, which keeps no extents and no seconds."""
    with contextlib.closing(sqlite3.connect(path)) as db:
        features = db.execute("SELECT collection, id, body FROM streetmap_features").fetchall()
        schema = "SELECT sql FROM sqlite_schema WHERE name = 'streetmap_features'"
        ((definition,),) = db.execute(schema).fetchall()
        if COLUMNS not in definition:
            raise ValueError(f"the file is not of format 2: {definition}")
        db.execute("DROP TABLE streetmap_features")
        db.execute(definition.replace(COLUMNS, ""))
        db.executemany("INSERT INTO streetmap_features VALUES (?, ?, ?)", features)
        db.execute("UPDATE streetmap_meta SET value = 1")
        db.commit()
