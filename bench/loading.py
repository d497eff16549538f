"""`load`, `batches` and `apply` beside Python's sqlite3 and beside POST.

A load of 10^5 features, and with --slow of 10^6, in batches of 1,000: beside it the same rows by
Python's sqlite3 (WAL, synchronous=EXTRA, a transaction a batch, the rows of batches too), which
parses nothing. Then the texts of 100 batches of 1,000 by `batches`, and of 100,000 batches of one
edit beside a SELECT of Python's sqlite3; and `apply` of those texts beside POSTs of them.
"""

import io
import sqlite3
import subprocess
import time
from collections.abc import Iterator
from contextlib import closing
from dataclasses import dataclass
from pathlib import Path
from typing import Any

from measures import best, command, compact, create, fail, pipe, report
from messages import open_collection, post, put
from tables import PLAIN_TABLES, lamp

Word = str | Path
FEATURES, MANY, EACH = 100_000, 1_000_000, 1_000
LOAD_TURNS, LONG_TURNS = 5, 3
# Opening a file takes longer than its texts, so each is timed so often.
TURNS = 9
OPENING = open_collection("lamps")
TEXTS = "SELECT serial, body FROM streetmap_batches WHERE serial > 0 ORDER BY serial"
INSERT_FEATURE = "INSERT INTO streetmap_features VALUES ('lamps', ?, ?, ?, ?, ?, ?, NULL, NULL)"
INSERT_BATCH = "INSERT INTO streetmap_batches VALUES (?, ?, 0, ?, 0, 0, ?)"


def lamps(count: int) -> Iterator[dict[str, Any]]:
    """The lamps of a town, under ids that follow places."""
    return (lamp(at, f"lamp-{at:07}") for at in range(count))


def write_sequence(path: Path, count: int) -> Path:
    """A TEXT with a lamp a line."""
    with path.open("w") as text:
        text.writelines(f"{compact(it)}\n" for it in lamps(count))
    return path


@dataclass
class PlainBatch:
    """What Python's sqlite3 is given of a batch: rows, with all texts made."""

    key: str
    body: str
    features: list[tuple[Any, ...]]


def plain_batches(count: int, each: int) -> Iterator[PlainBatch]:
    """The batches of a load, the opening left out."""
    found: list[dict[str, Any]] = []
    for made in lamps(count):
        found.append(made)
        if len(found) == each:
            yield plain_batch(made["id"], found)
            found = []


def plain_batch(key: str, found: list[dict[str, Any]]) -> PlainBatch:
    edits = [put("insert", "lamps", it) for it in found]
    rows = [(it["id"], compact(it), *it["geometry"]["coordinates"] * 2) for it in found]
    return PlainBatch(key, compact({"edits": edits, "key": key}), rows)


def write_plainly(tables: sqlite3.Connection, made: PlainBatch, serial: int) -> None:
    tables.executemany(INSERT_FEATURE, made.features)
    tables.execute(INSERT_BATCH, (made.key, made.body, len(made.features), serial))


def plain_load(path: Path, count: int) -> float:
    """The seconds in which Python's sqlite3 writes and shuts the file: making the rows is not
    counted."""
    tables, took = sqlite3.connect(path, isolation_level=None), 0.0
    tables.execute("PRAGMA journal_mode=WAL")
    tables.execute("PRAGMA synchronous=EXTRA")
    tables.executescript(PLAIN_TABLES)
    for serial, made in enumerate(plain_batches(count, EACH), 1):
        start = time.perf_counter()
        tables.execute("BEGIN")
        write_plainly(tables, made, serial)
        tables.execute("COMMIT")
        took += time.perf_counter() - start
    start = time.perf_counter()
    tables.close()
    return took + time.perf_counter() - start


def small_batches(program: Path, file: Path) -> Path:
    """A file of batches of one edit each, which Python's sqlite3 writes at once."""
    create(program, file, {"key": "open", "edits": [OPENING]})
    with closing(sqlite3.connect(file)) as tables, tables:
        for serial, made in enumerate(plain_batches(FEATURES, 1), 2):
            write_plainly(tables, made, serial)
    counts = b"ok 1 %d %d\n" % (FEATURES, FEATURES + 1)
    if command([program, "check", file])[2] != counts:
        fail("the file of small batches is not sound")
    return file


def load_words(program: Path, file: Path, text: Path) -> list[Word]:
    return [program, "load", file, text, "--key", "k", "--collection", "lamps", "--open"]


@dataclass
class LoadTurn:
    """A load, and then the same rows by Python's sqlite3."""

    file: Path
    took: float
    peak: int
    plain: float


def load_turn(program: Path, folder: Path, text: Path, count: int, turn: int) -> LoadTurn:
    file = create(program, folder / f"load-{count}-{turn}.streetmap")
    took, peak, _ = command(load_words(program, file, text))
    beside = folder / f"plain-{count}-{turn}"
    plain = plain_load(beside, count)
    beside.unlink()
    return LoadTurn(file, took, peak, plain)


def load(program: Path, folder: Path, count: int, times: int) -> Path:
    """Loads beside Python's sqlite3, in turn, and the same load again. Returns the last file."""
    text = write_sequence(folder / "load.text", count)
    turns = [load_turn(program, folder, text, count, turn) for turn in range(times)]
    took, plain = min(it.took for it in turns), min(it.plain for it in turns)
    peak, file = max(it.peak for it in turns), turns[-1].file
    speed = f"{count / took:,.0f} features a second, peak {peak / 2**20:,.0f} MiB"
    each = ", ".join(f"{it.plain / it.took:.2f}" for it in turns)
    beside = f"plain SQLite {plain:,.2f} s: {plain / took:.2f} of its speed (at least 0.4; {each})"
    report(f"a load of {count:,} features", f"{took:,.2f} s, {speed}; {beside}")
    again, peak, _ = command(load_words(program, file, text))
    report("the same load again", f"{again:,.1f} s, peak {peak / 2**20:,.0f} MiB")
    checked, peak, _ = command([*load_words(program, file, text), "--check"])
    report("with --check", f"{checked:,.1f} s, peak {peak / 2**20:,.0f} MiB")
    return file


def batches(program: Path, file: Path, after: int = 0) -> tuple[float, int]:
    """The seconds of `batches` into a pipe, and how many bytes it writes."""
    took, _, output = command([program, "batches", file, "--after", str(after)])
    return took, len(output)


def behind_opening(program: Path, file: Path, count: int) -> tuple[float, int]:
    """The seconds of the texts of all batches, opening the file not counted, and their bytes."""
    idle = best(TURNS, lambda: batches(program, file, count)[0])
    size = batches(program, file)[1]
    return best(TURNS, lambda: batches(program, file)[0]) - idle, size


def plain_texts(file: Path) -> float:
    """The seconds in which Python's sqlite3 reads the texts and writes the same lines."""

    def once() -> float:
        with closing(sqlite3.connect(file)) as tables:
            start, written = time.perf_counter(), io.BytesIO()
            for serial, body in tables.execute(TEXTS):
                written.write(f"{serial}\t{body}\n".encode())
            return time.perf_counter() - start

    return best(3, once)


def texts(program: Path, folder: Path, file: Path) -> Path:
    """`batches` over large and over small batches. Returns the file of the small ones."""
    took, size = behind_opening(program, file, FEATURES)
    speed = f"{size / took / 1e6:,.0f} MB a second (at least 50)"
    report("the texts of 100 batches of 1,000", f"{size / 1e6:,.1f} MB, {speed}")
    small = small_batches(program, folder / "small.streetmap")
    took, size = behind_opening(program, small, 2 * FEATURES)
    plain = plain_texts(small)
    speed = f"{took:,.2f} s, {size / took / 1e6:,.0f} MB a second"
    beside = f"plain SQLite {plain:,.2f} s: {plain / took:.2f} of its speed (at least 0.5)"
    report(f"the texts of {FEATURES:,} batches of one edit", f"{speed}; {beside}")
    return small


def lines_of(program: Path, file: Path, most: int) -> list[bytes]:
    """The first lines of the journal of a file."""
    words = [str(program), "batches", str(file)]
    with subprocess.Popen(words, stdout=subprocess.PIPE) as process:
        assert process.stdout is not None
        found = [line for line, _ in zip(process.stdout, range(most))]
        process.kill()
    return found


def apply_beside_posts(program: Path, folder: Path, name: str, lines: list[bytes]) -> None:
    """The same batches by `apply` and by POST, each into a new file."""
    journal = folder / "journal"
    journal.write_bytes(b"".join(lines))
    posts = b"".join(post(line.split(b"\t", 1)[1].rstrip(b"\n")) for line in lines)
    applied, posted = (create(program, folder / f"{name}-{it}") for it in ("applied", "posted"))
    took, peak, output = command([program, "apply", applied, journal])
    if output.count(b"\n") != len(lines):
        fail("a line was not applied")
    posting, answers = pipe(program, posted, posts)
    if answers.count(b"HTTP/1.1 200 OK") != len(lines):
        fail("a batch was refused")
    speed = f"{len(lines) / took:,.0f} batches a second, peak {peak / 2**20:,.0f} MiB"
    beside = f"POST {len(lines) / posting:,.0f}: {posting / took:.2f} of its speed (about 1)"
    report(f"apply of {len(lines):,} {name}", f"{speed}; {beside}")


def applied(program: Path, folder: Path, large: Path, small: Path) -> None:
    for name, file, most in (("batches of 1,000", large, 100), ("batches of one", small, 10_000)):
        apply_beside_posts(program, folder, name, lines_of(program, file, most))


def run(program: Path, folder: Path) -> None:
    large = load(program, folder, FEATURES, LOAD_TURNS)
    small = texts(program, folder, large)
    applied(program, folder, large, small)


def run_slow(program: Path, folder: Path) -> None:
    run(program, folder)
    load(program, folder, MANY, LONG_TURNS)
