"""An import and an export of a collection of 8 MB, their times and peaks of memory.

The collection has points, lines of 200 positions and polygons with a hole, with two properties
each. Beside them: Python's json, which reads and writes the text and checks nothing of it.
"""

import json
import random
import time
from pathlib import Path
from typing import Any

from measures import bed, command, compact, create, report
from messages import feature, open_collection

SIZE = 8_000_000
MOST_FEATURES = 10_000


def geometry(kind: int, chance: random.Random) -> dict[str, Any]:
    x, y = chance.randrange(10**7), chance.randrange(10**7)
    if kind == 0:
        return {"type": "Point", "coordinates": [x, y]}
    if kind == 1:
        line = [[x + 10 * at, y + chance.randrange(99)] for at in range(200)]
        return {"type": "LineString", "coordinates": line}
    return {"type": "Polygon", "coordinates": bed(x, y)}


def collection() -> tuple[str, int]:
    """The text, and how many features it has."""
    chance, size = random.Random(7), 0
    texts: list[str] = []
    while size < SIZE and len(texts) < MOST_FEATURES:
        properties = {"owner": "town", "height": chance.randrange(9_000)}
        named = feature(f"street-{len(texts):06}", geometry(len(texts) % 3, chance), properties)
        texts.append(compact(named))
        size += len(texts[-1]) + 1
    return f'{{"type":"FeatureCollection","features":[{",".join(texts)}]}}', len(texts)


def figures(size: int, took: float, peak: int) -> str:
    speed = f"{size / took / 1e6:.1f} MB a second"
    return f"{took * 1e3:,.0f} ms, {speed}, peak {peak / 2**20:,.0f} MiB"


def run(program: Path, folder: Path) -> None:
    opened = {"key": "open", "edits": [open_collection("street")]}
    file = create(program, folder / "street.streetmap", opened)
    text, count = collection()
    source = folder / "street.json"
    source.write_text(text)
    size = source.stat().st_size
    words: list[str | Path] = [program, "import", file, source, "--key", "i"]
    took, peak, _ = command([*words, "--collection", "street"])
    report(f"an import of {count:,} features, {size / 1e6:.1f} MB", figures(size, took, peak))
    took, peak, output = command([program, "export", file, "--collection", "street"])
    report("their export", figures(len(output), took, peak))
    start = time.perf_counter()
    value = json.loads(text)
    read = time.perf_counter() - start
    start = time.perf_counter()
    compact(value)
    written = time.perf_counter() - start
    report("json.loads and json.dumps", f"{read * 1e3:,.0f} and {written * 1e3:,.0f} ms")
