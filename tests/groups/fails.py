"""Reads of requests, and writes of answers and journals, that fail after counts of bytes.

The stream is two batches with a page between them, and a page after. The program writes the
prefix of the answers that it could, and ends with its fault; the file holds the state of a
prefix of the batches that has each one whose answer was begun. A server whose writes of a
journal fail answers all, and completes the journal. The short form fails after some counts of
bytes, the long one after each.
"""

import os
import subprocess
from collections import Counter
from dataclasses import dataclass
from pathlib import Path

from harness import Context
from messages import OPEN_LAMPS, batch, feature, get, point, put
from served_journal import check_failing_writes
from sqlite_file import copy_file

PACKAGES = ("gcc", "libc6-dev")
# The short form fails after every N-th count.
STRIDE = 13


def lamp(name: str, x: int) -> dict[str, object]:
    return put("insert", "lamps", feature(name, point(x, x)))


PAGE = get("/collections/lamps/items?bbox=0,0,9,9")
REQUESTS = [
    batch("b1", [OPEN_LAMPS, lamp("L1", 1)]),
    PAGE,
    batch("b2", [lamp("L2", 2), lamp("L3", 3)]),
    PAGE,
]
STREAM = b"".join(REQUESTS)


@dataclass
class Wanted:
    """What is written if nothing fails, and where the answers to the two batches begin."""

    written: bytes
    starts: tuple[int, int]
    states: list[bytes]

    def begun(self, written: bytes) -> int:
        """How many batches have an answer that was begun."""
        return sum(len(written) > start for start in self.starts)


def page(context: Context, file: Path) -> bytes:
    return context.run("pipe", file, sent=PAGE)


def without_failure(context: Context, first: Path, file: Path) -> Wanted:
    copy_file(first, file)
    starts, states = [0], [page(context, file)]
    for request in REQUESTS:
        starts.append(starts[-1] + len(context.run("pipe", file, sent=request)))
        states.append(page(context, file))
    copy_file(first, file)
    written = context.run("pipe", file, sent=STREAM)
    context.check("the length of all answers", len(written), starts[-1])
    wanted = Wanted(written, (starts[0], starts[2]), [states[0], states[1], states[3]])
    context.check("states that differ", len(set(wanted.states)), 3)
    return wanted


def check_failures(context: Context, first: Path, file: Path, wanted: Wanted, name: str) -> None:
    """Each READS or WRITES that fails after a number of bytes."""
    reads = name == "READS"
    most, fault = (len(STREAM), "read_failed") if reads else (len(wanted.written), "write_failed")
    library, counted = context.folder / "fail.so", Counter[str]()
    for count in range(0, most, 1 if context.slow else STRIDE):
        copy_file(first, file)
        environment = os.environ | {"LD_PRELOAD": str(library), name: str(count)}
        ended: subprocess.CompletedProcess[bytes]
        ended = context.start("pipe", file, sent=STREAM, env=environment)
        what = f"{name} that fail after {count} bytes"
        got = (ended.returncode, ended.stderr)
        context.check(f"{what}: the fault", got, (3, f"streetmap: {fault}\n".encode()))
        is_beginning = wanted.written.startswith(ended.stdout)
        context.check(f"{what}: a beginning of the answers", is_beginning, True)
        if not reads:
            context.check(f"{what}: all that could be written", len(ended.stdout), count)
        begun, found = wanted.begun(ended.stdout), page(context, file)
        allowed = wanted.states[begun : begun + (1 if reads else 2)]
        context.check(f"{what}: a state that may be", found in allowed, True)
        counted[f"{(wanted.states + [found]).index(found)} batches"] += 1
    print(f"  {fault}: {dict(counted)}")


def run(context: Context) -> None:
    context.shim("fail")
    first, file = context.new_file("first"), context.folder / "town"
    wanted = without_failure(context, first, file)
    for name in ("WRITES", "READS"):
        check_failures(context, first, file, wanted, name)
    words = ("--port", "1", "--journal", context.folder / "none.journal")
    if context.takes("serve", context.folder / "none", *words):
        check_failing_writes(context, context.new_file("sent", *REQUESTS[:1], *REQUESTS[2:3]))
