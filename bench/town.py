"""What the mirror's measures have beside lamps: features as far apart as a town has them, and a
journal to fill a mirror from.

Trees, kerbs and buildings, 10,000 of each, are in the square of the lamps. So a tile has as many as
in a town of 100,000 of them that is 10 km wide, and lamps are ten times as dense.
"""

import json
from collections.abc import Iterator
from pathlib import Path
from typing import Any

from measures import Batch
from messages import feature, open_collection, put

KINDS = ("trees", "kerbs", "buildings")
EACH, ROW, APART = 10_000, 100, 31_600
BATCH = 1_000
CORNERS = ((0, 0), (12_000, 500), (12_000, 6_000), (8_000, 6_200), (8_000, 10_000), (300, 10_100))


def shape(kind: str, x: int, y: int) -> dict[str, Any]:
    corners = [[x + east, y + north] for east, north in CORNERS]
    if kind == "trees":
        return {"type": "Point", "coordinates": corners[0]}
    if kind == "kerbs":
        return {"type": "LineString", "coordinates": corners[:4]}
    return {"type": "Polygon", "coordinates": [[*corners, corners[0]]]}


def asset(kind: str, at: int, row: int = ROW) -> dict[str, Any]:
    """One feature of a kind, with a handful of properties."""
    made = shape(kind, at % row * APART, at // row * APART)
    properties = {"kind": kind, "no": at, "street": f"S{at % 997}", "set": f"20{at % 25:02}-05-01"}
    return feature(f"F{at:07}", made, properties | {"power": at % 100})


def ordinary() -> Iterator[Batch]:
    """The batches of trees, kerbs and buildings."""
    yield {"key": "kinds", "edits": [open_collection(kind, title=kind) for kind in KINDS]}
    for kind in KINDS:
        for first in range(0, EACH, BATCH):
            numbers = range(first, first + BATCH)
            edits = [put("insert", kind, asset(kind, at)) for at in numbers]
            yield {"key": f"{kind}{first}", "edits": edits}


def batch_text(batch: Batch) -> str:
    """A batch as the server writes it: the members of each object in order of their names."""
    return json.dumps(batch, separators=(",", ":"), sort_keys=True)


def write_journal(path: Path, count: int) -> None:
    """A journal of N features of all kinds, in batches as `load` makes them."""
    opening = {"edits": [open_collection("assets", title="Assets", time="set")], "key": "open"}
    with path.open("w") as file:
        file.write(f"1\t{batch_text(opening)}\n")
        for serial, first in enumerate(range(0, count, BATCH), 2):
            numbers = range(first, first + BATCH)
            edits = [put("insert", "assets", asset(KINDS[at % 3], at, 1000)) for at in numbers]
            file.write(f"{serial}\t{batch_text({'edits': edits, 'key': f'k{serial}'})}\n")
