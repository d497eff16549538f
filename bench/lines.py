"""`streetmap lines` beside a plain Python program, on the same input and in the same run.

The input: ten batches of 10,000 inserts each, of every kind of geometry and with times, 100 pages
with a box and an interval, and one batch more. Each line is sent when the answer to the line before
it is there, so that each has a time of its own. Then the peak of memory beside the size of the
features' own texts, in batches of three sizes: a larger batch has more edits in memory at once.
"""

import json
import random
import subprocess
import sys
import time
from dataclasses import dataclass
from pathlib import Path
from typing import Any

from measures import bed, compact, fail, near, peak_of, report, square
from messages import feature, open_collection, put

FEATURES, BATCHES, PAGES = 100_000, 10, 100
PLAIN = Path(__file__).with_name("plain_lines.py")
Chance = random.Random


@dataclass(frozen=True)
class Run:
    """The seconds and the answer of each line, and the most memory that was held, in bytes."""

    seconds: list[float]
    answers: list[bytes]
    peak: int


def path(chance: Chance, x: int, y: int, count: int) -> list[list[int]]:
    return [near(chance, x, y) for _ in range(count)]


def geometry(kind: int, x: int, y: int, chance: Chance) -> dict[str, Any]:
    """A lamp, a kerb, a bed with a hole, trees, two kerbs, two beds, a lamp with a cable."""
    if kind == 6:
        members = [geometry(0, x, y, chance), geometry(1, x, y, chance)]
        return {"type": "GeometryCollection", "geometries": members}
    kinds: list[tuple[str, Any]] = [
        ("Point", [x, y]),
        ("LineString", path(chance, x, y, 4)),
        ("Polygon", bed(x, y)),
        ("MultiPoint", path(chance, x, y, 3)),
        ("MultiLineString", [path(chance, x, y, 3), path(chance, x, y, 3)]),
        ("MultiPolygon", [[square(x, y, 900)], [square(x + 1_000, y, 900)]]),
    ]
    return {"type": kinds[kind][0], "coordinates": kinds[kind][1]}


def when(chance: Chance) -> str | None:
    year, month, day = chance.randrange(10, 25), chance.randrange(1, 13), chance.randrange(1, 29)
    text = f"20{year}-{month:02}-{day:02}"
    clocks = ["", "T08:30:00Z", "T10:15:00.5+02:00", "T00:00:00Z/..", None]
    clock = clocks[chance.randrange(5)]
    return None if clock is None else text + clock


def batch_line(number: int, inserts: int, chance: Chance) -> str:
    edits = [open_collection("street", time="when")] if number == 0 else []
    for at in range(inserts - len(edits)):
        x, y = chance.randrange(10**7), chance.randrange(10**7)
        properties = {"owner": "town", "when": when(chance)}
        shape = geometry(at % 7, x, y, chance)
        named = feature(f"street-{number}-{at:05}", shape, properties)
        edits.append(put("insert", "street", named))
    return f"batch {compact({'key': f'b{number}', 'edits': edits})}"


def batch_lines(batches: int) -> list[str]:
    chance = Chance(7)
    return [batch_line(number, FEATURES // batches, chance) for number in range(batches)]


def features_size(lines: list[str]) -> int:
    """The bytes of the features' own texts."""
    edits = [edit for line in lines for edit in json.loads(line.partition(" ")[2])["edits"]]
    return sum(len(compact(edit["feature"])) for edit in edits if "feature" in edit)


def page_line(chance: Chance) -> str:
    x, y, year = (
        chance.randrange(9 * 10**6),
        chance.randrange(9 * 10**6),
        chance.randrange(2010, 2024),
    )
    interval = f"{year}-01-01T00:00:00Z/{year + 1}-06-30T12:00:00Z"
    return f"page street bbox={x},{y},{x + 10**6},{y + 10**6}&limit=1000&datetime={interval}"


def run_lines(command: list[str | Path], lines: list[str]) -> Run:
    process = subprocess.Popen(command, stdin=subprocess.PIPE, stdout=subprocess.PIPE)
    assert process.stdin is not None and process.stdout is not None
    seconds, answers = [], []
    for line in lines:
        start = time.perf_counter()
        process.stdin.write(line.encode() + b"\n")
        process.stdin.flush()
        answers.append(process.stdout.readline())
        seconds.append(time.perf_counter() - start)
    peak = peak_of(process)
    process.communicate()
    return Run(seconds, answers, peak)


def speeds(name: str, run: Run) -> tuple[float, float]:
    """Reports the speed on batches and on pages. Returns the seconds of each."""
    batches, pages = run.seconds[:BATCHES], run.seconds[BATCHES:-1]
    grows = f"a batch into {FEATURES} features {run.seconds[-1] / batches[0]:.2f} times the first"
    fast = f"{FEATURES / sum(batches):,.0f} features and {PAGES / sum(pages):,.1f} pages a second"
    report(name, f"{fast}, {grows}")
    return sum(batches), sum(pages)


def compare(program: Path) -> None:
    """Both programs answer the same input, and must answer alike."""
    chance = Chance(11)
    lines = batch_lines(BATCHES) + [page_line(chance) for _ in range(PAGES)]
    lines.append(batch_line(BATCHES, FEATURES // BATCHES, chance))
    ours = run_lines([program, "lines"], lines)
    plain = run_lines([sys.executable, PLAIN], lines)
    for line, answer, plain_answer in zip(lines, ours.answers, plain.answers, strict=True):
        if json.loads(answer) != json.loads(plain_answer):
            fail(f"two answers to {line[:80]}: {answer[:200]!r} {plain_answer[:200]!r}")
    our_batches, our_pages = speeds("streetmap", ours)
    plain_batches, plain_pages = speeds("Python", plain)
    on_pages = f"{plain_pages / our_pages:.1f} on pages"
    report(
        "the speed of streetmap by that of Python",
        f"{plain_batches / our_batches:.1f} times on batches, {on_pages}",
    )


def memory(program: Path) -> None:
    for count in (BATCHES, 100, 1_000):
        lines = batch_lines(count)
        peak, size = run_lines([program, "lines"], lines).peak, features_size(lines)
        texts = f"{peak / size:.2f} times the features' texts of {size / 2**20:.1f} MiB"
        report(f"in {count} batches", f"peak {peak / 2**20:.1f} MiB, {texts}")


def whole_pages(program: Path) -> None:
    """Pages over all 100,000 features, which show ten of them."""
    asked = {
        "neither box nor interval": "limit=10",
        "after the half": "limit=10&after=street-5-00000",
        "an interval": "limit=10&datetime=2015-01-01T00:00:00Z/2020-01-01T00:00:00Z",
        "the box of all": "limit=10&bbox=-100000,-100000,20000000,20000000",
    }
    lines = batch_lines(BATCHES) + [f"page street {query}" for query in asked.values()]
    run = run_lines([program, "lines"], lines)
    for name, took, answer in zip(asked, run.seconds[BATCHES:], run.answers[BATCHES:], strict=True):
        matched = json.loads(answer)["numberMatched"]
        report(f"a page of {name}", f"{took * 1000:.1f} ms, {matched} matched")


def run(program: Path, _folder: Path) -> None:
    compare(program)
    memory(program)
    whole_pages(program)
