"""Batches a second over HTTP: `serve --journal` beside `serve`, which take turns.

Each round posts batches of one edit to a new file, one after the other over one connection. On a
disk most of the time is its synchronising, whose noise hides a journal. So a second table is of
files in memory (/dev/shm, if it exists), where nothing is synchronised and the journal's part
is the greatest that it can be.
"""

import socket
import statistics
import tempfile
import time
from pathlib import Path

from clients import serve
from measures import create, fail, post_batch, read_status, report
from messages import open_collection, put
from tables import lamp

BATCHES, ROUNDS = 500, 9
MEMORY = Path("/dev/shm")


def posts() -> list[bytes]:
    """The opening of a collection, and batches of one insert."""
    opening = {"key": "open", "edits": [open_collection("lamps")]}
    inserts = [put("insert", "lamps", lamp(at, f"lamp-{at:06}")) for at in range(BATCHES)]
    each = [{"key": f"b{at}", "edits": [edit]} for at, edit in enumerate(inserts)]
    return [post_batch(batch) for batch in (opening, *each)]


def rate(program: Path, folder: Path, sent: list[bytes], with_journal: bool) -> float:
    """Batches a second of a server of a new file."""
    file, journal = folder / "town.streetmap", folder / "town.journal"
    for path in folder.iterdir():
        path.unlink()
    create(program, file)
    words = ["--journal", str(journal)] if with_journal else []
    with serve(program, file, *words) as (_, port):
        with socket.create_connection(("127.0.0.1", port)) as stream, stream.makefile("rb") as came:
            start = time.perf_counter()
            for request in sent:
                stream.sendall(request)
                if read_status(came) != b"200":
                    fail("a batch was refused")
            took = time.perf_counter() - start
    if with_journal and journal.read_bytes().count(b"\n") != len(sent):
        fail("a batch is not in the journal")
    return len(sent) / took


def compare(program: Path, folder: Path, name: str) -> None:
    sent = posts()
    pairs = [
        (rate(program, folder, sent, True), rate(program, folder, sent, False))
        for _ in range(ROUNDS)
    ]
    journaled, plain = (statistics.median(side) for side in zip(*pairs))
    ratios = sorted(with_one / without for with_one, without in pairs)
    shown = f"{ratios[0]:.2f} to {ratios[-1]:.2f}, median {statistics.median(ratios):.2f}"
    speed = f"{journaled:,.0f} batches a second, without a journal {plain:,.0f}"
    report(name, f"{speed}; of its speed {shown} (at least 0.9)")


def run(program: Path, folder: Path) -> None:
    compare(program, folder, "on the disk")
    if MEMORY.is_dir():
        with tempfile.TemporaryDirectory(prefix="streetmap-journal-", dir=MEMORY) as held:
            compare(program, Path(held), "in memory")
