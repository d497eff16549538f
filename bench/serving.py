"""HTTP answers over a file, with no socket: fixed ones, pages of points and of boxes.

Beside them: what plain Python takes to write the same JSON.
"""

import time
from pathlib import Path
from typing import Any

from measures import CONFORMANCE, best, compact, create, pipe, report, seconds_of
from messages import feature, get, open_collection, point, put

FEATURES = 1_000
ITEMS = "/collections/lamps/items"


def lamp(number: int) -> dict[str, Any]:
    properties = {"owner": "town", "height": number % 9000, "kind": "street lamp", "no": number}
    return feature(f"lamp-{number:05}", point(number * 100, number * 7 % 5000), properties)


def measure(program: Path, file: Path, name: str, request: bytes, count: int) -> None:
    size = len(pipe(program, file, request)[1])
    took = seconds_of(program, file, request, count, request)
    figures = f"{took * 1e6:.1f} microseconds, {size} bytes, {size / took / 1e6:.0f} MB a second"
    report(name, figures)


def in_python() -> float:
    page = {"features": [lamp(at) for at in range(FEATURES)], "type": "FeatureCollection"}
    start = time.perf_counter()
    compact(page)
    return time.perf_counter() - start


def run(program: Path, folder: Path) -> None:
    inserts = [put("insert", "lamps", lamp(at)) for at in range(FEATURES)]
    batch = {"key": "first", "edits": [open_collection("lamps"), *inserts]}
    file = create(program, folder / "lamps.streetmap", batch)
    measure(program, file, "GET /conformance", CONFORMANCE, 20_000)
    measure(program, file, "a page of ten points", get(f"{ITEMS}?limit=10"), 2_000)
    boxed = get(f"{ITEMS}?limit=10&bbox=0,0,2000,5000")
    measure(program, file, "a page of ten points in a box", boxed, 2_000)
    measure(program, file, "a page of 1,000 points", get(f"{ITEMS}?limit=1000"), 50)
    took = best(20, in_python)
    report("the features of that page by Python's json.dumps", f"{took * 1e6:.0f} microseconds")
