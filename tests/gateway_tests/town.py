"""A small made town for a picture: blocks between streets, a park, kerbs, lamps and trees.

    /usr/bin/python3 tests/gateway_tests/town.py PROGRAM PICTURE

serves it, and lets QGIS draw it through the gateway.
"""

import math
import random
import subprocess
import sys
import tempfile
from pathlib import Path
from typing import Any

sys.path.insert(0, str(Path(__file__).resolve().parents[1]))

from gateway_tests.data import batches, feature, shape  # noqa: E402
from gateway_tests.service import PYTHON, environment, gateway  # noqa: E402
from harness import Context  # noqa: E402
from messages import post  # noqa: E402

TURN = math.radians(14)
BLOCK, STREET, METRE = (118, 84), 16, 1000
ACROSS, ALONG = range(-4, 4), range(-4, 4)
PARK = (-1, 0)
# What is drawn, in EPSG:25832.
GROUND = "564640,5933780,565180,5934140"
Corner = tuple[float, float]


def turned(x: float, y: float) -> list[int]:
    """A place of the plan, in metres, on the grid."""
    east = x * math.cos(TURN) - y * math.sin(TURN)
    north = x * math.sin(TURN) + y * math.cos(TURN)
    return [round(east * METRE), round(north * METRE)]


def ring(west: float, south: float, east: float, north: float) -> list[list[int]]:
    corners = [(west, south), (east, south), (east, north), (west, north), (west, south)]
    return [turned(*corner) for corner in corners]


def block(column: int, row: int) -> tuple[float, float, float, float]:
    west, south = column * (BLOCK[0] + STREET), row * (BLOCK[1] + STREET)
    return west, south, west + BLOCK[0], south + BLOCK[1]


class Town:
    """Its collections, filled block by block."""

    def __init__(self) -> None:
        self.random = random.Random(11)
        names = ("buildings", "kerbs", "lamps", "parks", "trees")
        self.kept: dict[str, list[dict[str, Any]]] = {name: [] for name in names}
        for column in ACROSS:
            for row in ALONG:
                self.fill(block(column, row), (column, row) == PARK)

    def add(self, collection: str, kind: str, coordinates: Any) -> None:
        made = self.kept[collection]
        made.append(feature(f"{collection}-{len(made):04}", shape(kind, coordinates)))

    def fill(self, bounds: tuple[float, float, float, float], is_park: bool) -> None:
        west, south, east, north = bounds
        self.add("kerbs", "LineString", ring(*bounds))
        if is_park:
            self.fill_park(bounds)
        else:
            self.fill_houses(bounds)
        for x in range(int(west) + 12, int(east), 32):
            self.add("lamps", "Point", turned(x, south - 1.2))
        for y in range(int(south) + 20, int(north), 32):
            self.add("lamps", "Point", turned(west - 1.2, y))
        for x in range(int(west) + 24, int(east) - 6, 11):
            if self.random.random() < 0.6:
                self.add("trees", "Point", turned(x, north + 1.6))

    def fill_houses(self, bounds: tuple[float, float, float, float]) -> None:
        """Houses around a courtyard, cut where the plan says so by chance."""
        west, south, east, north = bounds
        cut = self.random.choice((0.0, 0.35, 0.5, 0.65))
        middle = west + (east - west) * cut
        parts = [(west, east)] if cut == 0 else [(west, middle - 3), (middle + 3, east)]
        for left, right in parts:
            outer = ring(left + 4, south + 4, right - 4, north - 4)
            deep = self.random.uniform(11, 15)
            inner = ring(left + 4 + deep, south + 4 + deep, right - 4 - deep, north - 4 - deep)
            is_wide = right - left > 2 * deep + 16
            self.add("buildings", "Polygon", [outer, inner[::-1]] if is_wide else [outer])

    def fill_park(self, bounds: tuple[float, float, float, float]) -> None:
        """Grass around a pond, with trees at its edge."""
        west, south, east, north = bounds
        x, y = (west + east) / 2, (south + north) / 2
        turns = [2 * math.pi * part / 40 for part in range(41)]
        pond = [turned(x + 30 * math.cos(t), y + 16 * math.sin(t)) for t in turns[:-1]]
        self.add(
            "parks",
            "Polygon",
            [ring(west + 3, south + 3, east - 3, north - 3), [*pond, pond[0]][::-1]],
        )
        for _ in range(160):
            at, far = self.random.uniform(0, 2 * math.pi), self.random.uniform(1.25, 1.7)
            tree = (x + 30 * far * math.cos(at), y + 20 * far * math.sin(at))
            if west + 6 < tree[0] < east - 6 and south + 6 < tree[1] < north - 6:
                self.add("trees", "Point", turned(*tree))


def main() -> None:
    program, picture = (Path(word).resolve() for word in sys.argv[1:])
    kept = Town().kept
    with tempfile.TemporaryDirectory() as folder:
        context = Context(program, Path(folder))
        file = context.new_file("town.streetmap", *map(post, batches(kept)))
        with context.serve(file, "--clients", "48") as server:
            with gateway(context, server.url) as asked:
                script = Path(__file__).with_name("qgis_layers.py")
                words = [PYTHON, str(script), asked.url, str(picture), GROUND, *kept]
                seen = environment() | {"QT_QPA_PLATFORM": "offscreen"}
                subprocess.run(words, env=seen, check=True, timeout=300)


if __name__ == "__main__":
    main()
