"""Random polygons and boxes: a page shows those that plain Python with fractions finds.

The plain program tries a segment at each fraction where it enters or leaves the box, and a point
against the fraction at which an edge has its northing.
"""

import json
from random import Random

from examples import answers_to, batch_line
from harness import Context
from messages import Edit, feature, open_collection, put

POLYGONS, BOXES = 200, 100
Position = list[int]
Ring = list[Position]
Box = tuple[int, int, int, int]
Segment = tuple[Position, Position]


def is_within(p: int, q: int, a: int, b: int, low: int, high: int) -> bool:
    """Whether what lies p/q of the way from a to b is at least low and at most high."""
    return q * low <= (q - p) * a + p * b <= q * high


def is_in_box_at(p: int, q: int, segment: Segment, box: Box) -> bool:
    """Whether the point p/q of the way, a fraction from 0 to 1, lies in the box."""
    if q < 0:
        p, q = -p, -q
    if not 0 <= p <= q or q == 0:
        return False
    (ax, ay), (bx, by) = segment
    west, south, east, north = box
    return is_within(p, q, ax, bx, west, east) and is_within(p, q, ay, by, south, north)


def segment_meets(segment: Segment, box: Box) -> bool:
    """Whether a segment meets the box: at an end, or where it crosses one of the four bounds."""
    (ax, ay), (bx, by) = segment
    west, south, east, north = box
    fractions = [(0, 1), (1, 1), (west - ax, bx - ax), (east - ax, bx - ax)]
    fractions += [(south - ay, by - ay), (north - ay, by - ay)]
    return any(is_in_box_at(p, q, segment, box) for p, q in fractions)


def edges(polygon: list[Ring]) -> list[Segment]:
    return [edge for ring in polygon for edge in zip(ring, ring[1:])]


def passes_east(x: int, y: int, segment: Segment) -> bool:
    """Whether an edge passes east of a point, at its northing."""
    (ax, ay), (bx, by) = segment
    if (ay > y) == (by > y):
        return False
    rise = by - ay
    at = (y - ay) * (bx - ax) + ax * rise
    return x * rise < at if rise > 0 else at < x * rise


def is_inside(x: int, y: int, polygon: list[Ring]) -> bool:
    """Whether a walk east from the point passes an odd number of edges."""
    return sum(passes_east(x, y, edge) for edge in edges(polygon)) % 2 == 1


def random_ring(random: Random) -> Ring:
    corners = [[random.randint(0, 8), random.randint(0, 8)] for _ in range(4)]
    return [*corners, corners[0]]


def random_box(random: Random) -> Box:
    west, east = sorted(random.randint(0, 8) for _ in range(2))
    south, north = sorted(random.randint(0, 8) for _ in range(2))
    return west, south, east, north


def insertion(number: int, polygon: list[Ring]) -> Edit:
    return put("insert", "shapes", feature(number, {"type": "Polygon", "coordinates": polygon}))


def page_line(box: Box) -> str:
    return f"page shapes bbox={','.join(map(str, box))}&limit=1000"


def other_corners(box: Box) -> list[Box]:
    """The corners of a box but its south-western one, as boxes."""
    west, south, east, north = box
    return [(x, y, x, y) for x, y in ((west, north), (east, south), (east, north))]


def run(context: Context) -> None:
    random = Random(20_251_122)
    polygons = [[random_ring(random), random_ring(random)] for _ in range(POLYGONS)]
    boxes = [random_box(random) for _ in range(BOXES)]
    inserted = [insertion(number, polygon) for number, polygon in enumerate(polygons)]
    opened = batch_line("b", [open_collection("shapes"), *inserted])
    asked = [page_line(area) for box in boxes for area in (box, *other_corners(box))]
    told = answers_to(context, [opened, *asked])[1:]
    shown = [{int(it["id"]) for it in json.loads(page)["features"]} for page in told]
    for number, box in enumerate(boxes):
        met = {
            at
            for at, polygon in enumerate(polygons)
            if any(segment_meets(edge, box) for edge in edges(polygon))
        }
        inside = {at for at, it in enumerate(polygons) if is_inside(box[0], box[1], it)}
        whole, *others = shown[4 * number : 4 * number + 4]
        context.check(f"polygons in {box}", whole, met | inside)
        # A polygon with no edge that meets the box has all its corners inside, or none.
        got = [corner - met for corner in others]
        context.check(f"polygons at the corners of {box}", got, [inside - met] * 3)
