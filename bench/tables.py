"""Answers over a file of 100,000 features, beside the same statements by Python's sqlite3.

Batches of 1,000 inserts, pages of boxes and of all, a feature by its id, batches of one edit, and
an export. SQLite has the same synchronous level. Starting the program and opening the file count
for nothing.
"""

import json
import sqlite3
import time
from collections.abc import Iterator
from contextlib import closing
from pathlib import Path
from typing import Any

from measures import (
    CONFORMANCE,
    Batch,
    best,
    command,
    compact,
    create,
    fail,
    peak_behind,
    pipe,
    post_batch,
    report,
    seconds_each,
    seconds_of,
)
from messages import get, open_collection, put

FEATURES, BATCH = 100_000, 1_000
ROW = int(FEATURES**0.5)
ITEMS = "/collections/lamps/items"
FIRST = get(f"{ITEMS}?limit=1")
# A stride by which ids do not follow places.
STRIDE = 70_657
SOUTH_WEST = 1_500_000

PLAIN_TABLES = """
CREATE TABLE streetmap_collections (
    id TEXT PRIMARY KEY, title TEXT NOT NULL, time TEXT) STRICT;
CREATE TABLE streetmap_batches (
    key TEXT PRIMARY KEY, body TEXT NOT NULL, opened INTEGER NOT NULL, inserted INTEGER NOT NULL,
    replaced INTEGER NOT NULL, deleted INTEGER NOT NULL, serial INTEGER NOT NULL UNIQUE) STRICT;
CREATE TABLE streetmap_features (
    collection TEXT NOT NULL REFERENCES streetmap_collections(id), id TEXT NOT NULL,
    body TEXT NOT NULL, x0 INTEGER, y0 INTEGER, x1 INTEGER, y1 INTEGER, s0 INTEGER, s1 INTEGER,
    PRIMARY KEY (collection, id)) STRICT;
INSERT INTO streetmap_collections VALUES ('lamps', 'lamps', NULL);
"""
INSERT_FEATURE = "INSERT INTO streetmap_features VALUES ('lamps', ?, ?, ?, ?, ?, ?, NULL, NULL)"
INSERT_BATCH = f"INSERT INTO streetmap_batches VALUES (?, ?, 0, {BATCH}, 0, 0, ?)"
ALL = "FROM streetmap_features WHERE collection = 'lamps'"
IN_BOX = f"{ALL} AND x0 <= ? AND x1 >= ? AND y0 <= ? AND y1 >= ?"


def lamp(at: int, identity: str) -> dict[str, Any]:
    """One of the lamps of a town, which are in a square, 10 m apart."""
    place = [at % ROW * 10_000, at // ROW * 10_000]
    properties = {"height": at % 9000, "kind": "street lamp", "owner": "town"}
    geometry = {"coordinates": place, "type": "Point"}
    return {"geometry": geometry, "id": identity, "properties": properties, "type": "Feature"}


def batches(collection: str, stride: int) -> Iterator[Batch]:
    """The town in batches, under ids that follow places if the stride is 1."""
    for first in range(0, FEATURES, BATCH):
        numbers = range(first, first + BATCH)
        lamps = [lamp(at, f"lamp-{at * stride % FEATURES:06}") for at in numbers]
        edits = [put("insert", collection, it) for it in lamps]
        yield {"key": f"{collection}{first}", "edits": edits}


def insert_plainly(path: Path, texts: list[str]) -> float:
    """Seconds for each batch by plain SQLite."""
    with closing(sqlite3.connect(path, isolation_level=None)) as tables:
        tables.execute("PRAGMA journal_mode=WAL")
        tables.execute("PRAGMA synchronous=FULL")
        tables.executescript(PLAIN_TABLES)
        start = time.perf_counter()
        for serial, body in enumerate(texts):
            batch = json.loads(body)
            tables.execute("BEGIN")
            for edit in batch["edits"]:
                read = edit["feature"]
                x, y = read["geometry"]["coordinates"]
                tables.execute(INSERT_FEATURE, (read["id"], compact(read), x, y, x, y))
            tables.execute(INSERT_BATCH, (batch["key"], body, serial + 2))
            tables.execute("COMMIT")
        return (time.perf_counter() - start) / len(texts)


class PlainReader:
    """The program's file, read by plain SQLite."""

    def __init__(self, path: Path) -> None:
        self.tables = sqlite3.connect(path)
        self.tables.execute("PRAGMA wal_checkpoint")

    def seconds(self, statement: str, values: tuple[object, ...] = (), times: int = 5) -> float:
        def once() -> float:
            start = time.perf_counter()
            for _ in range(times):
                self.tables.execute(statement, values).fetchall()
            return (time.perf_counter() - start) / times

        return best(3, once)

    def boxed(self, reach: int) -> float:
        bounds = box_values(reach)
        return self.seconds(f"SELECT id, body {IN_BOX} ORDER BY id", bounds)

    def hundred_of(self, reach: int) -> float:
        """A hundred features of a box, and how many the box has."""
        bounds = box_values(reach)
        shown = self.seconds(f"SELECT id, body {IN_BOX} ORDER BY id LIMIT 100", bounds)
        return shown + self.seconds(f"SELECT count(*) {IN_BOX}", bounds)


def box_values(reach: int) -> tuple[int, int, int, int]:
    return SOUTH_WEST + reach, SOUTH_WEST, SOUTH_WEST + reach, SOUTH_WEST


def box(reach: int) -> str:
    return f"bbox={SOUTH_WEST},{SOUTH_WEST},{SOUTH_WEST + reach},{SOUTH_WEST + reach}"


def report_both(name: str, ours: float, plain: float, wanted: str) -> None:
    times = f"{plain / ours:.2f} of its speed ({wanted})"
    report(name, f"{ours * 1e6:,.0f} microseconds; plain SQLite {plain * 1e6:,.0f}: {times}")


def inserts(program: Path, file: Path, folder: Path) -> None:
    texts = [compact(batch) for batch in batches("lamps", 1)]
    stream = b"".join(post_batch(json.loads(text)) for text in texts)
    idle = best(3, lambda: pipe(program, file, CONFORMANCE)[0])
    took, answers = pipe(program, file, stream)
    if answers.count(b"HTTP/1.1 200 OK") != len(texts):
        fail("a batch was refused")
    plain = insert_plainly(folder / "plain", texts)
    report_both("a batch of 1,000 inserts", (took - idle) / len(texts), plain, "at least 0.3")


def pages(program: Path, file: Path) -> None:
    plain = PlainReader(file)
    every = plain.seconds(f"SELECT id, body {ALL} ORDER BY id", times=2)
    rows = (
        ("a page of a box of 20 m", box(20_000), 2_000, plain.boxed(20_000), "at least 60"),
        (
            "a page of 100 of a box of 900 m, and how many there are",
            f"{box(900_000)}&limit=100",
            500,
            plain.hundred_of(900_000),
            "at least 12",
        ),
        ("a page of 1,000 of all", "limit=1000", 60, every, "at least 3"),
    )
    one = plain.seconds(f"SELECT body {ALL} AND id = 'lamp-050000'", times=1000)
    # The program opens no file that another has open.
    plain.tables.close()
    for name, query, count, seconds, wanted in rows:
        ours = seconds_of(program, file, get(f"{ITEMS}?{query}"), count, FIRST)
        report_both(name, ours, seconds, wanted)
    ours = seconds_of(program, file, get(f"{ITEMS}/lamp-050000"), 20_000)
    report_both("a feature by its id", ours, one, "at most 50 microseconds")


def index(program: Path, file: Path) -> None:
    first = seconds_of(program, file, FIRST, 1)
    report("the first page, by which the index is learnt", f"{first * 1000:,.0f} ms (at most 500)")
    opened, known = (peak_behind(program, file, it) for it in (CONFORMANCE, FIRST))
    figures = f"{opened / 1e6:,.0f} MB, and once its index is learnt {known / 1e6:,.0f} MB"
    report("the most memory held once the file is opened", figures)
    plainly, followed = (edit_seconds(program, file, it) for it in (CONFORMANCE, FIRST))
    figures = f"{plainly * 1e6:,.0f} microseconds, with an index {followed * 1e6:,.0f}"
    times = f"{followed / plainly:.2f} times (at most 1.2)"
    report("a batch of one insert before all others", f"{figures}: {times}")


def edit_seconds(program: Path, file: Path, first: bytes) -> float:
    """Seconds for a batch of one insert, before all other ids, after the first request."""

    def once() -> float:
        named = f"a-{time.monotonic_ns()}"
        edits = [put("insert", "lamps", lamp(at, f"{named}-{at:03}")) for at in range(300)]
        sent = [post_batch({"key": f"{named}-{at}", "edits": [it]}) for at, it in enumerate(edits)]
        return seconds_each(program, file, sent, first)

    return best(3, once)


def apart(program: Path, file: Path) -> None:
    pipe(program, file, post_batch({"key": "apart", "edits": [open_collection("apart")]}))
    pipe(program, file, b"".join(map(post_batch, batches("apart", STRIDE))))
    items = "/collections/apart/items"
    request, first = get(f"{items}?{box(20_000)}"), get(f"{items}?limit=1")
    took = seconds_of(program, file, request, 500, first)
    what = "a page of a box of 20 m where ids do not follow places"
    report(what, f"{took * 1e6:,.0f} microseconds")


def export(program: Path, file: Path) -> None:
    took, peak, output = command([program, "export", file, "--collection", "lamps"])
    size = len(output) / 1e6
    figures = f"{size:,.0f} MB, {size / took:,.1f} MB a second (at least 5)"
    report("an export", f"{figures}, peak {peak / 2**20:,.0f} MiB")


def run(program: Path, folder: Path) -> None:
    opened = {"key": "open", "edits": [open_collection("lamps")]}
    file = create(program, folder / "town.streetmap", opened)
    inserts(program, file, folder)
    pages(program, file)
    index(program, file)
    export(program, file)
    apart(program, file)
    report("the file", f"{file.stat().st_size / 2**20:,.0f} MiB")
