"""What a file of N features costs its office: its size, opening it, memory, pages, a load.

Files of 10^4 and 10^5 features, and with --slow of 10^6 and 3 * 10^6, are made by `load` in batches
of 1,000 and served. Then batches of one edit go to a file, 10^4 of them and with --slow 10^5: the
most that the log beside it had, and the memory of the server. The output is Markdown.
"""

import http.client
import subprocess
import time
from contextlib import closing
from dataclasses import dataclass
from pathlib import Path
from types import TracebackType
from typing import Any

from harness import free_port
from loading import write_sequence
from measures import command, compact, fail, peak_of
from messages import put
from tables import ROW, lamp

SIZES, LARGE = (10_000, 100_000), (1_000_000, 3_000_000)
EDITS, MANY_EDITS = 10_000, 100_000
EACH, ASKED = 1_000, 100
MEBIBYTE = 1 << 20
HEADS = (
    "Features", "FILE and log, MB", "Load, s", "Open, s", "Memory, MB", "First look, s", "With it, MB",
    "Page of a 100 m box, ms", "Batch of 1,000, ms",
)  # fmt: skip


class Server:
    """`streetmap serve` over a file, with the seconds that it took until it listened."""

    def __init__(self, program: Path, file: Path) -> None:
        port, start = free_port(), time.perf_counter()
        words: list[str | Path] = [program, "serve", file, "--port", str(port)]
        self.process = subprocess.Popen(words, stdout=subprocess.PIPE, stderr=subprocess.DEVNULL)
        assert self.process.stdout is not None
        if not self.process.stdout.readline().startswith(b"listening"):
            fail(f"{file} is not served")
        self.opened = time.perf_counter() - start
        self.connection = http.client.HTTPConnection("127.0.0.1", port, timeout=600)

    def __enter__(self) -> "Server":
        return self

    def __exit__(
        self,
        kind: type[BaseException] | None,
        error: BaseException | None,
        trace: TracebackType | None,
    ) -> None:
        self.connection.close()
        self.process.kill()
        self.process.wait()

    @property
    def memory(self) -> float:
        """The most memory that it has held so far, in mebibytes."""
        return peak_of(self.process) / MEBIBYTE

    def ask(self, target: str, batch: dict[str, Any] | None = None) -> float:
        """The seconds of an answer with status 200."""
        body = None if batch is None else compact(batch)
        start = time.perf_counter()
        self.connection.request("GET" if batch is None else "POST", target, body)
        response = self.connection.getresponse()
        text = response.read()
        if response.status != 200:
            fail(f"{target} was answered {response.status} {text[:200]!r}")
        return time.perf_counter() - start


@dataclass(frozen=True)
class Sizes:
    """A row of the table, in the order of its heads."""

    features: int
    bytes: int
    load: float
    opened: float
    memory: float
    first: float
    known: float
    page: float
    batch: float

    def __str__(self) -> str:
        cells = [f"{self.features:,}", f"{self.bytes / 1e6:.1f}", f"{self.load:.1f}"]
        cells += [f"{self.opened:.2f}", f"{self.memory:.0f}", f"{self.first:.2f}"]
        cells += [f"{self.known:.0f}", f"{self.page * 1e3:.2f}", f"{self.batch * 1e3:.0f}"]
        return f"| {' | '.join(cells)} |"


def median(times: list[float]) -> float:
    return sorted(times)[len(times) // 2]


def page_at(number: int) -> str:
    """A page of a box of 100 m within the town."""
    x = y = number * 9_973 % (ROW - 10) * 10_000
    return f"/collections/lamps/items?bbox={x},{y},{x + 100_000},{y + 100_000}&limit=100"


def batch_of(number: int, edits: int) -> dict[str, Any]:
    """A batch that replaces `edits` features, or inserts them."""
    lamps = (lamp(at, f"new-{number}-{at:07}") for at in range(edits))
    found = [put("insert", "lamps", it) for it in lamps]
    return {"key": f"sizes-{number}", "edits": found}


def sizes_of(program: Path, folder: Path, features: int) -> Sizes:
    file, text = folder / f"{features}.streetmap", folder / f"{features}.geojsonl"
    command([program, "create", file])
    words: list[str | Path] = [program, "load", file, write_sequence(text, features)]
    words += ["--key", "s", "--collection", "lamps", "--open"]
    load = command(words)[0]
    text.unlink()
    with Server(program, file) as server:
        memory = server.memory
        first = server.ask("/collections/lamps")
        known = server.memory
        page = median([server.ask(page_at(it)) for it in range(ASKED)])
        batch = median([server.ask("/batches", batch_of(it, EACH)) for it in range(5)])
        opened = server.opened
    files = [file, file.with_name(file.name + "-wal")]
    taken = sum(it.stat().st_size for it in files)
    for it in files:
        it.unlink()
    return Sizes(features, taken, load, opened, memory, first, known, page, batch)


def log_of(program: Path, folder: Path, count: int) -> None:
    """`count` batches of one edit, one after the other: the log beside the file, and memory."""
    file, most = folder / "many.streetmap", 0
    command([program, "create", file])
    opened = {"key": "open", "edits": [{"op": "open", "collection": "lamps", "title": "Lamps"}]}
    with Server(program, file) as server, closing(server.connection):
        server.ask("/batches", opened)
        before, start = server.memory, time.perf_counter()
        for number in range(count):
            server.ask("/batches", batch_of(number, 1))
            most = max(most, file.with_name(file.name + "-wal").stat().st_size)
        took, after = time.perf_counter() - start, server.memory
    print(
        f"{count:,} batches of one edit: {took:.0f} s; the log had at most {most / 1e6:.1f} MB; "
        f"memory {before:.0f} MB before, {after:.0f} MB after",
        flush=True,
    )


def table(program: Path, folder: Path, sizes: tuple[int, ...]) -> None:
    print(f"| {' | '.join(HEADS)} |\n|{'---|' * len(HEADS)}", flush=True)
    for features in sizes:
        print(sizes_of(program, folder, features), flush=True)


def run(program: Path, folder: Path) -> None:
    table(program, folder, SIZES)
    log_of(program, folder, EDITS)


def run_slow(program: Path, folder: Path) -> None:
    table(program, folder, SIZES + LARGE)
    log_of(program, folder, MANY_EDITS)
