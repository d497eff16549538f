"""Large polygons: an import, pages of boxes, and what a box costs for each edge.

A page whose box crosses the first edge of a polygon reads the polygon and tests one edge. A page
whose box lies inside tests each edge. The difference is the time of the tests.
"""

import json
import time
from pathlib import Path
from typing import Any

from measures import command, compact, create, read_status, report, started
from messages import feature, get, open_collection

# The edges of each side of a square of jagged sides. A feature has at most 100,000 positions.
SIDE = 24_999
EDGES = 4 * SIDE
FAR = SIDE * 40
ROUNDS = 30


def jagged() -> list[list[int]]:
    south = [[at * 40, -(at % 7)] for at in range(SIDE)]
    east = [[FAR + at % 7, at * 40] for at in range(SIDE)]
    north = [[(SIDE - at) * 40, FAR + at % 7] for at in range(SIDE)]
    west = [[-(at % 7), (SIDE - at) * 40] for at in range(SIDE)]
    return [*south, *east, *north, *west, [0, 0]]


def collection() -> dict[str, Any]:
    """Three of them, one in the other's place."""
    geometry = {"type": "Polygon", "coordinates": [jagged()]}
    features = [feature(f"square-{at}", geometry) for at in range(3)]
    return {"type": "FeatureCollection", "features": features}


def import_time(program: Path, file: Path, text: Path) -> None:
    words: list[str | Path] = [program, "import", file, text, "--key", "import"]
    took, peak, _ = command([*words, "--collection", "squares"])
    start = time.perf_counter()
    json.loads(text.read_bytes())
    plain = time.perf_counter() - start
    what = f"an import of three polygons of {EDGES:,} edges, {text.stat().st_size / 1e6:.1f} MB"
    figures = f"{took * 1e3:,.0f} ms, peak {peak / 2**20:,.0f} MiB"
    report(what, f"{figures}; json.loads alone {plain * 1e3:,.0f} ms")


def page_time(program: Path, file: Path, box: str) -> float:
    """The least seconds of a page that counts what meets the box and shows nothing."""
    request = get(f"/collections/squares/items?bbox={box}&after=z")
    process, answers = started(program, file, request)
    assert process.stdin is not None
    took = []
    for _ in range(ROUNDS):
        start = time.perf_counter()
        process.stdin.write(request)
        process.stdin.flush()
        read_status(answers)
        took.append(time.perf_counter() - start)
    process.communicate()
    return min(took)


def run(program: Path, folder: Path) -> None:
    opened = {"key": "open", "edits": [open_collection("squares")]}
    file = create(program, folder / "squares.streetmap", opened)
    text = folder / "squares.json"
    text.write_text(compact(collection()))
    import_time(program, file, text)
    around = page_time(program, file, f"-10,-10,{FAR + 10},{FAR + 10}")
    first = page_time(program, file, "-10,-10,10,10")
    inside = page_time(program, file, f"{FAR // 10},{FAR // 10},{FAR * 9 // 10},{FAR * 9 // 10}")
    report("a page of a box around them", f"{around * 1e3:.2f} ms")
    report("a page of a box at their first edge", f"{first * 1e3:.2f} ms")
    report("a page of a box inside, which meets no edge", f"{inside * 1e3:.2f} ms")
    each = (inside - first) / (3 * EDGES)
    report("a test of an edge, by the difference", f"{each * 1e9:.1f} ns")
