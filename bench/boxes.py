"""Times pages of boxes over HTTP, with ids that follow places and with shuffled ones.

    python3 bench/boxes.py PROGRAM [--features 100000 1000000] [--asked 200] [--beside OTHER]
        [--servers]

A town is a square with one line of up to 30 m for each 100 m2. Its features are posted in batches
of 1,000 to `streetmap serve` on 127.0.0.1, and each request goes over one connection. Each page is
compared with a scan of the same file by Python's sqlite3 and, if SQLite has it, an R*Tree in
memory.
`--beside` times a second program, such as an older build, on files of its own in the same run.
`--servers` times QGIS Server and MapServer too, if they are installed (`map_servers.py`).
Times are medians in milliseconds. If a C compiler is installed, the bytes of the heap that a
program holds for each feature are counted too, in a run of its own (`held.c`).
"""

from __future__ import annotations

import argparse
import http.client
import importlib
import json
import os
import random
import shutil
import socket
import sqlite3
import statistics
import subprocess
import sys
import tempfile
import time
from collections.abc import Callable, Iterator
from contextlib import contextmanager
from dataclasses import dataclass
from itertools import islice
from pathlib import Path
from typing import Any

BATCH = 1_000
# The most pages of a kind that are requested from QGIS Server and MapServer.
MOST_OF_SERVERS = 20
LONGEST = 30_000
SPACING = 10_000
ORDERS = ("follow", "shuffled")
Box = tuple[int, int, int, int]


@dataclass(frozen=True)
class Town:
    """A square town: how many features it has, and whether their ids follow places."""

    features: int
    order: str

    @property
    def side(self) -> int:
        """The number of features in a row."""
        return int(self.features**0.5)

    @property
    def width(self) -> int:
        """In millimetres."""
        return self.side * SPACING

    def feature(self, at: int, chance: random.Random) -> dict[str, Any]:
        """A line that begins in its own place, under an id that follows places or does not."""
        x, y = at % self.side * SPACING, at // self.side * SPACING
        end = [x + chance.randrange(LONGEST), y + chance.randrange(LONGEST)]
        number = at if self.order == "follow" else at * 2_654_435_761 % 2**32
        return {
            "geometry": {"coordinates": [[x, y], end], "type": "LineString"},
            "id": f"{number:010}-4c7d-9b1e-00d4a1f5",
            "properties": {"kind": "kerb", "owner": "town"},
            "type": "Feature",
        }

    def lines(self) -> Iterator[dict[str, Any]]:
        """All features, in order of their places."""
        chance = random.Random(7)
        for at in range(self.features):
            yield self.feature(at, chance)

    def batches(self) -> Iterator[dict[str, Any]]:
        """An opened collection and then its features, in batches of 1,000."""
        lines = self.lines()
        yield {"key": "open", "edits": [{"op": "open", "collection": "town"}]}
        for first in range(0, self.features, BATCH):
            edits = [
                {"op": "insert", "collection": "town", "feature": feature}
                for feature in islice(lines, BATCH)
            ]
            yield {"key": f"b{first}", "edits": edits}


class Server:
    """`streetmap serve` over a file, and one connection to it."""

    def __init__(self, program: Path, file: Path, given: dict[str, str]) -> None:
        with socket.socket() as free:
            free.bind(("127.0.0.1", 0))
            port = free.getsockname()[1]
        words = [str(program), "serve", str(file), "--port", str(port)]
        self.process = subprocess.Popen(
            words, stdout=subprocess.PIPE, text=True, env=os.environ | given
        )
        assert self.process.stdout is not None
        line = self.process.stdout.readline()
        if not line.startswith("listening"):
            sys.exit(f"{program} does not serve {file}: {line!r}")
        self.connection = http.client.HTTPConnection("127.0.0.1", port, timeout=600)

    def get(self, target: str) -> bytes:
        """The body of an answer."""
        return self.answer("GET", target, None)

    def post(self, batch: dict[str, Any]) -> bytes:
        """The reply to a batch."""
        return self.answer("POST", "/batches", json.dumps(batch, separators=(",", ":")))

    def answer(self, method: str, target: str, body: str | None) -> bytes:
        """The body of an answer with status 200."""
        self.connection.request(method, target, body)
        response = self.connection.getresponse()
        text = response.read()
        if response.status != 200:
            sys.exit(f"{method} {target}: {response.status} {text[:200]!r}")
        return text

    def close(self) -> None:
        """Ends the process."""
        self.connection.close()
        self.process.terminate()
        self.process.wait()


@contextmanager
def serving(program: Path, file: Path, given: dict[str, str] | None = None) -> Iterator[Server]:
    """A server that ends with the block, with these variables in its environment."""
    server = Server(program, file, given or {})
    try:
        yield server
    finally:
        server.close()


def milliseconds(work: Callable[[], object]) -> float:
    """How long a call takes."""
    start = time.perf_counter()
    work()
    return (time.perf_counter() - start) * 1000


def boxes(town: Town, width: int, count: int) -> list[Box]:
    """`count` square boxes within the town, the same ones in each run."""
    chance = random.Random(99)
    most = max(1, town.width - width)
    corners = [(chance.randrange(most), chance.randrange(most)) for _ in range(count)]
    return [(x, y, x + width, y + width) for x, y in corners]


def written(area: Box) -> str:
    """A box as a query has it."""
    return "bbox=" + ",".join(str(bound) for bound in area)


@dataclass(frozen=True)
class Question:
    """A page that is requested, and how often compared with a page of a small box."""

    name: str
    width: int | None
    limit: int
    share: float

    def queries(self, town: Town, asked: int) -> list[tuple[str, Box | None]]:
        """The pages' queries with their boxes."""
        count = max(3, int(asked * self.share))
        if self.width is None:
            return [(f"limit={self.limit}", None)] * count
        areas = boxes(town, self.width, count)
        return [(f"{written(area)}&limit={self.limit}", area) for area in areas]


QUESTIONS = (
    Question("20 m box", 20_000, 10, 1),
    Question("100 m box, limit 100", 100_000, 100, 0.5),
    Question("300 m box, limit 100", 300_000, 100, 0.25),
    Question("900 m box, limit 100", 900_000, 100, 0.25),
    Question("no box, limit 10", None, 10, 0.25),
    Question("no box, limit 1000", None, 1000, 0.05),
)


class Plain:
    """The same pages by Python's sqlite3 from the file, by a scan and by an R*Tree in memory."""

    SCAN = (
        "SELECT id, body FROM streetmap_features WHERE collection = 'town'"
        " AND x0 <= ? AND x1 >= ? AND y0 <= ? AND y1 >= ? ORDER BY id LIMIT ?"
    )
    ALL = "SELECT id, body FROM streetmap_features WHERE collection = 'town' ORDER BY id LIMIT ?"
    BY_TREE = (
        "SELECT id, body FROM streetmap_features WHERE rowid IN (SELECT id FROM outlines"
        " WHERE x0 <= ? AND x1 >= ? AND y0 <= ? AND y1 >= ?) ORDER BY id LIMIT ?"
    )
    COUNT = "SELECT count(*) FROM streetmap_features WHERE collection = 'town'"

    def __init__(self, file: Path) -> None:
        self.database = sqlite3.connect(f"file:{file}?mode=ro", uri=True)
        self.has_tree = True
        try:
            self.database.execute(
                "CREATE VIRTUAL TABLE temp.outlines USING rtree_i32(id, x0, x1, y0, y1)"
            )
            self.database.execute(
                "INSERT INTO temp.outlines SELECT rowid, x0, x1, y0, y1 FROM streetmap_features"
            )
        except sqlite3.OperationalError:
            self.has_tree = False

    def page(self, area: Box | None, limit: int, by_tree: bool) -> list[Any]:
        """The rows that a page shows, after counting those that it would match."""
        if area is None:
            self.database.execute(self.COUNT).fetchone()
            return self.database.execute(self.ALL, (limit,)).fetchall()
        x0, y0, x1, y1 = area
        bounds = (x1, x0, y1, y0)
        statement = self.BY_TREE if by_tree else self.SCAN
        return self.database.execute(statement, (*bounds, -1)).fetchall()[:limit]

    def median(self, queries: list[tuple[str, Box | None]], limit: int, by_tree: bool) -> float:
        """The median time of these pages, of which a scan requests the first five."""
        chosen = queries if by_tree else queries[:5]
        took = [milliseconds(lambda: self.page(area, limit, by_tree)) for _, area in chosen]
        return statistics.median(took)

    def close(self) -> None:
        """Closes the file."""
        self.database.close()


def median_of(server: Server, targets: list[str]) -> float:
    """The median time of these requests."""
    return statistics.median([milliseconds(lambda: server.get(target)) for target in targets])


def fill(program: Path, file: Path, town: Town) -> float:
    """Makes a file of the town; the seconds that its batches take."""
    subprocess.run([program, "create", file], check=True)
    start = time.perf_counter()
    with serving(program, file) as server:
        for batch in town.batches():
            server.post(batch)
    return time.perf_counter() - start


def edits(town: Town, turn: int) -> list[tuple[str, dict[str, Any]]]:
    """One insert, one replacement and one deletion of a feature, each in a batch of its own."""
    feature = town.feature(town.features // 2 + turn, random.Random(turn))
    feature["id"] = f"{turn:010}-new"
    moved = {**feature, "geometry": {"coordinates": [turn, turn], "type": "Point"}}
    told = [
        ("insert", {"feature": feature}),
        ("replace", {"feature": moved}),
        ("delete", {"id": feature["id"]}),
    ]
    return [
        (op, {"key": f"{op}{turn}", "edits": [{"op": op, "collection": "town", **rest}]})
        for op, rest in told
    ]


def time_edits(server: Server, town: Town, count: int) -> dict[str, float]:
    """The median time of a batch of each kind."""
    took: dict[str, list[float]] = {"insert": [], "replace": [], "delete": []}
    for turn in range(count):
        for op, batch in edits(town, turn):
            took[op].append(milliseconds(lambda: server.post(batch)))
    return {f"a batch of one {op}": statistics.median(times) for op, times in took.items()}


def first_look(town: Town) -> str:
    """The page that is first requested from a program."""
    return f"/collections/town/items?{written(boxes(town, 20_000, 1)[0])}"


def held_a_feature(program: Path, file: Path, town: Town, folder: Path) -> float | None:
    """How many bytes of the heap a program holds for each feature after the first page, in addition
    to those that it held before; none if no C compiler is installed."""
    if shutil.which("cc") is None:
        return None
    library, count = folder / "held.so", folder / "held"
    source = Path(__file__).with_name("held.c")
    subprocess.run(["cc", "-shared", "-fPIC", "-O2", "-o", library, source], check=True)
    count.write_bytes(bytes(8))
    with serving(program, file, {"LD_PRELOAD": str(library), "HELD": str(count)}) as server:
        server.get("/conformance")
        before = int.from_bytes(count.read_bytes(), sys.byteorder, signed=True)
        server.get(first_look(town))
        after = int.from_bytes(count.read_bytes(), sys.byteorder, signed=True)
    return (after - before) / town.features


def time_program(program: Path, file: Path, town: Town, asked: int) -> dict[str, float | None]:
    """What each kind of request takes, with an index that is learnt at the first page."""
    took: dict[str, float | None] = {}
    with serving(program, file) as server:
        server.get("/conformance")
        took["the first look"] = milliseconds(lambda: server.get(first_look(town)))
        for question in QUESTIONS:
            targets = [
                f"/collections/town/items?{query}" for query, _ in question.queries(town, asked)
            ]
            took[question.name] = median_of(server, targets)
        took["a collection"] = median_of(server, ["/collections/town"] * max(3, asked // 4))
        took["all collections"] = median_of(server, ["/collections"] * max(3, asked // 4))
        took.update(time_edits(server, town, max(3, asked // 4)))
    return took


def time_export(program: Path, file: Path) -> float:
    """Megabytes a second of an export."""
    words = [str(program), "export", str(file), "--collection", "town"]
    start = time.perf_counter()
    size = len(subprocess.run(words, stdout=subprocess.PIPE, check=True).stdout)
    return size / (time.perf_counter() - start) / 1e6


def time_plain(file: Path, town: Town, asked: int) -> dict[str, tuple[float, float | None]]:
    """What a scan and an R*Tree take for each page."""
    plain = Plain(file)
    took = {}
    for question in QUESTIONS:
        queries = question.queries(town, asked)
        scan = plain.median(queries, question.limit, by_tree=False)
        tree = None
        if plain.has_tree and question.width is not None:
            tree = plain.median(queries, question.limit, by_tree=True)
        took[question.name] = (scan, tree)
    plain.close()
    return took


def time_servers(town: Town, folder: Path, asked: int) -> dict[str, dict[str, float]]:
    """What QGIS Server and MapServer take for each page, by their names."""
    # What they are started by is of the other measures, and free ports of the test groups.
    sys.path.append(str(Path(__file__).resolve().parents[1] / "tests"))
    servers = importlib.import_module("map_servers")
    took: dict[str, dict[str, float]] = {}
    with servers.beside(town.lines(), town.width, folder) as services:
        for service in services:
            took[service.name] = {}
            for question in QUESTIONS:
                areas = [area for _, area in question.queries(town, asked)][:MOST_OF_SERVERS]
                took[service.name][question.name] = servers.median(service, areas, question.limit)
    return took


def shown(value: float | None) -> str:
    """A figure of a table, or a dash."""
    return "-" if value is None else f"{value:,.2f}"


def report(town: Town, programs: list[Path], folder: Path, asked: int, servers: bool) -> None:
    """Makes the town's files, times them and prints a table."""
    columns = []
    for number, program in enumerate(programs):
        file = folder / f"{town.order}{number}.streetmap"
        seconds = fill(program, file, town)
        took: dict[str, float | None] = {
            f"{BATCH} inserts in a batch": seconds * 1000 * BATCH / town.features
        }
        plain = time_plain(file, town, asked) if number == 0 else {}
        took["bytes held a feature"] = held_a_feature(program, file, town, folder)
        took.update(time_program(program, file, town, asked))
        took["export, MB a second"] = time_export(program, file)
        columns.append((took, plain))
    others = time_servers(town, folder, asked) if servers else {}
    ids = "that follow places" if town.order == "follow" else "shuffled"
    print(f"\n{town.features:,} features, ids {ids}:")
    names = [
        program.name if number == 0 else f"beside: {program.name}"
        for number, program in enumerate(programs)
    ]
    names += ["SQLite, scan", "SQLite, R*Tree", *others]
    print("| What | " + " | ".join(names) + " |")
    print("|---" * (len(names) + 1) + "|")
    for name in columns[0][0]:
        scan, tree = columns[0][1].get(name, (None, None))
        figures = [took.get(name) for took, _ in columns] + [scan, tree]
        figures += [took.get(name) for took in others.values()]
        print("| " + " | ".join([name, *(shown(figure) for figure in figures)]) + " |")


def main() -> None:
    """Reads the command line, and times each town."""
    reader = argparse.ArgumentParser(description=__doc__.partition("\n")[0])
    reader.add_argument("program", type=Path)
    reader.add_argument("--features", type=int, nargs="+", default=[100_000, 1_000_000])
    reader.add_argument("--asked", type=int, default=200, help="pages of a small box")
    reader.add_argument("--beside", type=Path, help="a second program to time in the same run")
    reader.add_argument("--servers", action="store_true", help="QGIS Server and MapServer too")
    words = reader.parse_args()
    programs = [words.program.resolve()]
    if words.beside:
        programs.append(words.beside.resolve())
    for features in words.features:
        for order in ORDERS:
            folder = Path(tempfile.mkdtemp(prefix="boxes"))
            try:
                report(Town(features, order), programs, folder, words.asked, words.servers)
            finally:
                shutil.rmtree(folder)


if __name__ == "__main__":
    main()
