"""Boxes: random ones beside a plain exact test, exact ones, and ones across bounds."""

import math
import random
from collections import Counter
from collections.abc import Iterator
from concurrent.futures import ThreadPoolExecutor
from dataclasses import dataclass, field
from decimal import Decimal
from operator import itemgetter
from pathlib import Path
from typing import Any

import numpy
import pyproj
from gateway_tests.answers import positions
from gateway_tests.data import KILOMETRE, batches, collections, feature, shape
from gateway_tests.plain import Box, Plain, Shape
from gateway_tests.service import EPSG, OFFICE, Gateway, gateway
from harness import Context
from messages import post

MERCATOR = f"{EPSG}3857"
# In degrees: what the plain test itself may err by, and by how much a box may be too large.
SURE, EDGE = 3e-10, 3e-9
FEW, MANY = 400, 10_000
# Of this number of boxes one crosses the office system's bounds, and one is turned on its grid.
FAR_EACH, TURNED_EACH = 20, 10
# For each N random boxes of a collection one goes through vertices of its features.
TOUCHING_EACH = 20
# An office far from the middle of EPSG:3035 (LAEA Europe): parallels are turned by 20 degrees.
TURNED = 'name = "EPSG:3035"\neasting = 5600000\nnorthing = 4400000'
FIJI = 'name = "EPSG:3460"\neasting = 2000000\nnorthing = 4000000'


def random_box(source: random.Random, longitude: float = 9.98, latitude: float = 53.55) -> Box:
    """A box of some metres to some hundred kilometres near a place."""
    west, south = source.gauss(longitude, 0.5), source.gauss(latitude, 0.3)
    wide, high = (10 ** source.uniform(-4, 0.5) for _ in range(2))
    return Box(west, south, west + wide, south + high)


def touching_boxes(source: random.Random, shown: list[dict[str, Any]], count: int) -> Iterator[Box]:
    """Boxes whose sides go through vertices of features, and nearly through them. Among them are
    those at the sides of the extent."""
    spots = [place[:2] for each in shown for place in positions(each)]
    ends = [choose(spots, key=itemgetter(axis)) for choose in (min, max) for axis in (0, 1)]
    for number in range(count):
        one, other = (source.choice(ends if number % 2 else spots) for _ in range(2))
        (west, east), (south, north) = (sorted(pair) for pair in zip(one, other))
        by = source.choice((0, 1e-8, -1e-8, source.uniform(-1e-3, 1e-3)))
        if west - by <= east + by and south - by <= north + by:
            yield Box(west, south, east, north).grown(by)


def far_box(source: random.Random) -> Box:
    """A box with a corner near the office, and the one across from it beyond the bounds of the
    system's area of use, which is 6 to 12 degrees east."""
    near = source.gauss(9.98, 0.5), source.gauss(53.55, 0.3)
    far = source.choice((-60, -20, 1, 17, 40, 100)), source.choice((-85, 10, 40, 70, 89))
    (west, east), (south, north) = (sorted(pair) for pair in zip(near, far))
    return Box(west, south, east, north)


def text_of(box: Box) -> str:
    return f"{box.west!r},{box.south!r},{box.east!r},{box.north!r}"


@dataclass
class Judge:
    """Holds what the gateway has in boxes against the plain test, and counts."""

    context: Context
    asked: Gateway
    plain: Plain
    counted: Counter[str] = field(default_factory=Counter)

    def check(self, name: str, made: list[dict[str, Any]], boxes: list[Box]) -> None:
        """None lost, none too many, in these boxes of a collection."""
        shapes = {each["id"]: self.plain.shape(each) for each in made}
        with ThreadPoolExecutor(4) as pool:
            answers = pool.map(
                lambda box: self.asked.ids(name, bbox=text_of(box), limit=1000), boxes
            )
            for box, found in zip(boxes, answers):
                surely, perhaps = (self.met(shapes, box.grown(by)) for by in (-SURE, EDGE))
                lost, more = surely - set(found), set(found) - perhaps
                self.context.check(f"{name} {text_of(box)}", (lost, more), (set(), set()))
                self.counted.update(boxes=1, found=len(found), undecided=len(perhaps - surely))

    def met(self, shapes: dict[str, Shape | None], box: Box) -> set[str]:
        return {key for key, each in shapes.items() if self.plain.meets(each, box)}

    def end(self, what: str) -> None:
        """Nearly all features are surely in a box or out of it."""
        counts = self.counted
        shown = (
            f"{counts['boxes']} boxes, {counts['found']} found, {counts['undecided']} at an edge"
        )
        is_sharp = counts["undecided"] * 500 < counts["found"]
        self.context.check(f"few at an edge: {shown}", is_sharp, True)
        print(f"  {what}: {shown}")


def check_random_boxes(context: Context, asked: Gateway) -> None:
    """Random boxes over all collections, which have lines of 100 km. Some boxes go over the bounds
    of the system."""
    source, count = random.Random(5), MANY if context.slow else FEW
    boxes = [
        far_box(source) if number % FAR_EACH == 0 else random_box(source) for number in range(count)
    ]
    judge = Judge(context, asked, Plain("EPSG:25832", 565000, 5934000))
    for number, (name, made) in enumerate(collections().items()):
        judge.check(name, made, boxes[number :: len(collections())])
    judge.end("in CRS84")
    for name, made in collections().items():
        shown = asked.all_items(name, limit=1000)
        judge.check(name, made, list(touching_boxes(source, shown, count // TOUCHING_EACH)))


def check_turned_boxes(context: Context, server: str) -> None:
    """The same grid far from the middle of EPSG:3035, where each box in degrees is turned."""
    source, count = random.Random(10), (MANY if context.slow else FEW) // TURNED_EACH
    plain = Plain("EPSG:3035", 5600000, 4400000)
    places = plain.degrees(float_array(0, 1e6), float_array(0, 0))
    east, north = places[1] - places[0]
    turn = math.degrees(math.atan2(north, east * math.cos(math.radians(places[0][1]))))
    context.check(f"the grid is turned by {turn:.1f} degrees", abs(turn) > 10, True)
    boxes = [random_box(source, *places[0]) for _ in range(count)]
    with gateway(context, server, TURNED) as asked:
        judge = Judge(context, asked, plain)
        for number, name in enumerate(("kerbs", "parks")):
            judge.check(name, collections()[name], boxes[number::2])
        judge.end("turned")


def check_office_boxes(context: Context, asked: Gateway) -> None:
    """In the office's system: whole millimetres are the server's own answer, with numberMatched;
    others are tested, without it."""
    path = "/collections/kerbs/items"
    for number in range(60):
        source = random.Random(number)
        x, y = (source.randint(-60 * KILOMETRE, 60 * KILOMETRE) for _ in range(2))
        size = source.randint(0, 60 * KILOMETRE)
        whole = [x, y, x + size, y + size]
        exact = asked.ask(path, bbox=office_text(whole), bbox_crs=OFFICE, limit=1000).json()
        ids = [each["id"] for each in exact["features"]]
        context.check("numberMatched", exact.get("numberMatched"), len(ids))
        half = Decimal("0.5")
        outer = [x - half, y - half, x + size + half, y + size + half]
        tested = asked.ask(path, bbox=office_text(outer), bbox_crs=OFFICE, limit=1000).json()
        matched = (tested.get("numberMatched"), tested["numberReturned"])
        count = len(ids_of(tested))
        context.check("numberMatched of a whole page", matched, (count, count))
        more = ids_of(tested)
        context.check("a box around has the same", [key for key in more if key in ids], ids)
    beyond = asked.ask(path, bbox="-9e9,-9e9,-8e9,-8e9", bbox_crs=OFFICE).json()
    context.check("a box beyond the grid", beyond["numberMatched"], 0)
    everything = asked.ask(path, bbox="-9e9,-9e9,9e9,9e9", bbox_crs=OFFICE).json()
    context.check("a box around the grid", everything["numberMatched"], 60)


def ids_of(page: dict[str, Any]) -> list[str]:
    return [each["id"] for each in page["features"]]


def office_text(steps: list[Any]) -> str:
    origin = (565000000, 5934000000)
    return ",".join(str((origin[n % 2] + Decimal(step)) / 1000) for n, step in enumerate(steps))


def check_turned_orders(context: Context, asked: Gateway) -> None:
    """The same box in CRS84, in EPSG:4326 with latitude first, and in EPSG:3857."""
    mercator = pyproj.Transformer.from_crs("OGC:CRS84", "EPSG:3857", always_xy=True)
    source = random.Random(6)
    for _ in range(20):
        box = random_box(source)
        wanted = asked.ids("kerbs", bbox=text_of(box))
        turned = f"{box.south!r},{box.west!r},{box.north!r},{box.east!r}"
        got = asked.ids("kerbs", bbox=turned, bbox_crs=f"{EPSG}4326")
        context.check("EPSG:4326", got, wanted)
        high = f"{box.west!r},{box.south!r},9e9,{box.east!r},{box.north!r},-1"
        context.check("with heights", asked.ids("kerbs", bbox=high), wanted)
        (x0, y0), (x1, y1) = (
            mercator.transform(*corner) for corner in ((box.west, box.south), (box.east, box.north))
        )
        got = asked.ids("kerbs", bbox=f"{x0!r},{y0!r},{x1!r},{y1!r}", bbox_crs=MERCATOR)
        context.check("EPSG:3857", got, wanted)


def check_wide_boxes(context: Context, asked: Gateway) -> None:
    """Boxes across the bounds of the system, of the world, across the 180th meridian, and none."""
    for name, made in collections().items():
        placed = [each["id"] for each in made if each["geometry"] is not None]
        for box in (
            "-180,-90,180,90",
            "0,40,30,70",
            "-170,-89,170,89",
            "6,47,12.01,84",
            "-360,0,360,90",
        ):
            context.check(f"{name} in {box}", asked.ids(name, bbox=box, limit=1000), placed)
        for box in ("100,0,120,20", "-90,-60,-80,60", "9,-60,10,-50", "170,50,-170,60"):
            context.check(f"{name} in {box}", asked.ids(name, bbox=box, limit=1000), [])
        around = asked.ids(name, bbox="5,45,4,65", limit=1000)
        context.check(f"{name}: nearly around the world", around, placed)


def check_small_boxes(context: Context, asked: Gateway) -> None:
    """What a client sees in its box is there: boxes at the very coordinates that were answered,
    and none two millimetres beside them."""
    for shown in asked.all_items("lamps", limit=300)[:20]:
        x, y = shown["geometry"]["coordinates"][:2]
        for box in ((x, y, x, y), (x, y, x + 1e-7, y + 1e-7), (x - 1e-7, y - 1e-7, x, y)):
            text = text_of(Box(*box))
            context.check(f"a box at a lamp: {text}", asked.ids("lamps", bbox=text), [shown["id"]])
        text = text_of(Box(x + 3e-8, y, x + 3e-8, y))
        context.check("a box beside it", asked.ids("lamps", bbox=text), [])


def check_long_lines(context: Context, asked: Gateway) -> None:
    """A line of 100 km along the grid: a box at its middle, where the chord in degrees is 265 m
    off, has it, and a box on that chord has it not."""
    plain = Plain("EPSG:25832", 565000, 5934000)
    long = max((each for each in collections()["kerbs"]), key=length)
    (x0, y0), (x1, y1) = long["geometry"]["coordinates"]
    (middle,) = plain.degrees(*(float_array((a + b) / 2) for a, b in ((x0, x1), (y0, y1))))
    ends = plain.degrees(float_array(x0, x1), float_array(y0, y1))
    chord = ends.mean(axis=0)
    context.check("the chord is far off", float(math.dist(middle, chord)) > 1e-4, True)
    for point, wanted in ((middle, True), (chord, False)):
        box = Box(*(point - 1e-6), *(point + 1e-6))
        found = long["id"] in asked.ids("kerbs", bbox=text_of(box))
        context.check(f"the long line in {text_of(box)}", found, wanted)


def float_array(*values: float) -> Any:
    return numpy.array(values, float)


def length(made: dict[str, Any]) -> float:
    start, *_, end = made["geometry"]["coordinates"]
    is_straight = len(made["geometry"]["coordinates"]) == 2
    return math.dist(start, end) if is_straight else 0


def check_antimeridian(context: Context) -> None:
    """An office in Fiji, whose features lie on both sides of the 180th meridian."""
    source = random.Random(7)
    spots = [
        [source.randint(-200 * KILOMETRE, 300 * KILOMETRE) for _ in range(2)] for _ in range(200)
    ]
    made = [feature(f"F{n:03}", shape("Point", spot)) for n, spot in enumerate(spots)]
    made.append(feature("line", shape("LineString", [spots[0], [300 * KILOMETRE, 0]])))
    file: Path = context.new_file("fiji.streetmap", *map(post, batches({"islands": made})))
    with context.serve(file, "--clients", "32") as server:
        with gateway(context, server.url, FIJI) as asked:
            degrees = {
                each["id"]: each["geometry"]["coordinates"]
                for each in asked.all_items("islands", limit=1000)
            }
            extent = asked.ask("/collections/islands").json()["extent"]["spatial"]["bbox"][0]
            context.check("the extent goes over the meridian", extent[0] > extent[2], True)
            boxes = (179, -18, -179, -16), (-180, -20, -179.5, -10), (178, -18, 180, -16)
            for box in boxes:
                wanted = [key for key, value in degrees.items() if in_turned(value, box)]
                found = asked.ids("islands", bbox=",".join(map(str, box)), limit=1000)
                found = [key for key in found if key != "line"]
                context.check(f"islands in {box}", found, [key for key in wanted if key != "line"])
            both = asked.ids("islands", bbox="179.9,-90,-179.9,90", limit=1000)
            context.check("a line across it", "line" in both, True)


def in_turned(place: list[Any], box: tuple[float, float, float, float]) -> bool:
    """Whether a point is in a box, which may go over the meridian; a line is left out."""
    if isinstance(place[0], list):
        return False
    west, south, east, north = box
    is_across = west > east
    x, y = map(float, place[:2])
    along = (x >= west or x <= east) if is_across else west <= x <= east
    return along and south <= y <= north
