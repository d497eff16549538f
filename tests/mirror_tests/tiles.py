"""Vector tiles of the gateway, decoded and compared with the features."""

import math
import subprocess
from collections.abc import Iterator
from itertools import pairwise
from typing import Any

import httpx
from gateway_tests.data import Feature, batch, feature, insert, shape
from gateway_tests.service import EPSG, json_of
from harness import Context
from mirror_tests.front import Front
from mirror_tests.vector_tile import Drawn, read_tile

SIDE, UNITS, MARGIN = 2 * 20037508.342789244, 4096, 64
# The tiles of each level that are compared are those around the middle of the data; lines and
# polygons by their positions from a level on.
LEVELS = (0, 6, 9, 10, 12, 14, 16)
WHOLE_LEVEL = 10
MIDDLE = 9.98, 53.55
MOST_FEATURES = 10_000
# A collection of more points than a tile has, put into the mirror by hand.
MANY = """
INSERT INTO streetmap_collections (id, title, serial, place, changed)
VALUES ('many', 'Many', 1, 1, 1);
INSERT INTO streetmap_features (collection, id, serial, body, properties, grid, geometry)
SELECT 'many', 'M' || (10000 + n), 1, '', '{}', ST_MakePoint(n, n),
    ST_SetSRID(ST_MakePoint(565000 + n / 1000.0, 5934000.125 + n / 1000.0), 25832)
FROM generate_series(1, 10001) AS n
"""
MVT = "application/vnd.mapbox-vector-tile"
KINDS = {"Point": 1, "MultiPoint": 1, "LineString": 2, "MultiLineString": 2, "Polygon": 3}
Place = tuple[float, float]


def tile_of(level: int) -> tuple[int, int]:
    """Row and column of the tile in the middle."""
    longitude, latitude = MIDDLE
    column = math.floor((longitude + 180) / 360 * 2**level)
    turn = math.asinh(math.tan(math.radians(latitude)))
    return math.floor((1 - turn / math.pi) / 2 * 2**level), column


def path_of(collection: str, level: int, row: int, column: int) -> str:
    return f"/collections/{collection}/tiles/WebMercatorQuad/{level}/{row}/{column}"


def in_units(position: list[float], level: int, row: int, column: int) -> Place:
    """A position of EPSG:3857 in units of a tile, whose rows go south."""
    side = SIDE / 2**level
    x = (position[0] + SIDE / 2) / side - column
    y = (SIDE / 2 - position[1]) / side - row
    return x * UNITS, y * UNITS


def positions(geometry: Any) -> Iterator[list[float]]:
    waiting = [geometry["coordinates"]]
    while waiting:
        value = waiting.pop()
        if isinstance(value[0], list):
            waiting += value
        else:
            yield value


def is_within(place: Place, around: float) -> bool:
    return all(-around <= each <= UNITS + around for each in place)


def distance(place: Place, path: list[tuple[int, int]]) -> float:
    """How far a place is from a path."""
    if len(path) == 1:
        return math.dist(place, path[0])
    found = math.inf
    for (x0, y0), (x1, y1) in pairwise(path):
        wide, high = x1 - x0, y1 - y0
        length = wide**2 + high**2
        along = 0.0
        if length:
            along = ((place[0] - x0) * wide + (place[1] - y0) * high) / length
        along = min(max(along, 0), 1)
        found = min(found, math.dist(place, (x0 + wide * along, y0 + high * along)))
    return found


def shown_properties(kept: Feature) -> dict[str, Any]:
    """What of the properties a tile can have, with the id."""
    kinds = (str, int, bool)
    found = {k: v for k, v in (kept["properties"] or {}).items() if isinstance(v, kinds)}
    return found | {"id": kept["id"]}


def check_tile(
    context: Context, front: Front, name: str, exact: list[Feature], at: tuple[int, int, int]
) -> int:
    """The features of a tile: which, their properties, and each position within it."""
    answer = front.asked.ask(path_of(name, *at))
    what = f"tile {name} {at}"
    found = answer.status_code, answer.headers["content-type"]
    context.check(what, found, (200, MVT))
    layers = read_tile(answer.content)
    units, drawn = layers.get(name, (UNITS, []))
    context.check(f"{what}: the extent", units, UNITS)
    by_id = {each.properties["id"]: each for each in drawn}
    context.check(f"{what}: each once", len(by_id), len(drawn))
    wrong = [it["id"] for it in exact if not is_right(it, by_id.get(it["id"]), at)]
    context.check(f"{what}: features", wrong, [])
    return len(drawn)


def is_right(kept: Feature, drawn: Drawn | None, at: tuple[int, int, int]) -> bool:
    """Whether a feature is drawn as it is, within a unit, or rightly not. Of lines and polygons
    that are few units wide PostGIS leaves out spikes and holes."""
    kind = KINDS[kept["geometry"]["type"]]
    places = [in_units(it, *at) for it in positions(kept["geometry"])]
    within = [it for it in places if is_within(it, MARGIN - 1)]
    if drawn is None:
        spread = max(math.dist(one, places[0]) for one in places)
        return not within or kind != 1 and spread < 2
    if kind != 1 and at[0] < WHOLE_LEVEL:
        within = []
    near = all(min(distance(it, path) for path in drawn.paths) < 1.5 for it in within)
    inside = all(is_within(it, MARGIN + 1) for path in drawn.paths for it in path)
    return drawn.kind == kind and near and inside and drawn.properties == shown_properties(kept)


def check_tiles(context: Context, front: Front) -> None:
    """Tiles of points, lines and polygons at several levels, their tags, and their metadata."""
    counts = {}
    for name in ("lamps", "kerbs", "parks"):
        exact = front.asked.all_items(name, filter="TRUE", crs=f"{EPSG}3857", limit=1000)
        tiles = [(level, *tile_of(level)) for level in LEVELS]
        counts[name] = [check_tile(context, front, name, exact, at) for at in tiles]
    context.check("lamps in a tile of the world", counts["lamps"][0], len(front.kept["lamps"]))
    context.check("tiles with features", all(sum(it) > 9 for it in counts.values()), True)
    check_tags(context, front)
    check_cut(context, front)
    check_kept(context, front)
    check_metadata(context, front)
    check_gdal(context, front)


def conditional(front: Front, path: str, tag: str) -> httpx.Response:
    """A GET unless the answer has this tag."""
    return front.asked.client.get(front.asked.url + path, headers={"If-None-Match": tag})


def check_tags(context: Context, front: Front) -> None:
    """The tag is the serial of the collection's last change."""
    path, other = path_of("lamps", 9, *tile_of(9)), path_of("kerbs", 9, *tile_of(9))
    first, second = front.asked.ask(path), front.asked.ask(other)
    for tag in (first.headers["etag"], f'"x", W/{first.headers["etag"]}', "*"):
        again = conditional(front, path, tag)
        context.check(f"a tile with the tag {tag}", (again.status_code, again.content), (304, b""))
    one = insert("lamps", feature("tile-1", shape("Point", [0, 0]), {"no": 1}))
    serial = front.post(batch("tile", [one]))
    front.wait(serial)
    again = conditional(front, path, first.headers["etag"])
    found = again.status_code, again.headers["etag"]
    context.check("after a change", found, (200, f'"{serial}"'))
    drawn = {it.properties["id"] for it in read_tile(again.content)["lamps"][1]}
    context.check("the new feature", "tile-1" in drawn, True)
    same = conditional(front, other, second.headers["etag"]).status_code
    context.check("a tile of another collection", same, 304)
    gone = {"op": "delete", "collection": "lamps", "id": "tile-1"}
    front.wait(front.post(batch("tile-gone", [gone])))


def check_cut(context: Context, front: Front) -> None:
    """A tile has the first features by id, and says so if it leaves others out."""
    front.database.ask(MANY)
    answer = front.asked.ask(path_of("many", 8, *tile_of(8)))
    ids = {it.properties["id"] for it in read_tile(answer.content)["many"][1]}
    context.check("features of a full tile", (len(ids), "M20001" in ids), (MOST_FEATURES, False))
    context.check("a full tile", answer.headers.get("streetmap-tile"), "cut")
    whole = front.asked.ask(path_of("lamps", 8, *tile_of(8)))
    context.check("a tile that is whole", "streetmap-tile" in whole.headers, False)


def check_kept(context: Context, front: Front) -> None:
    """A tile is drawn once for each serial of its collection's last change."""
    path = path_of("many", 8, *tile_of(8))
    first = front.asked.ask(path)
    front.database.ask("DELETE FROM streetmap_features WHERE id = 'M10001'")
    again = front.asked.ask(path)
    same = again.content == first.content, again.headers["etag"] == first.headers["etag"]
    context.check("a tile that is kept", same, (True, True))
    context.check("it is cut", again.headers.get("streetmap-tile"), "cut")
    front.database.ask("UPDATE streetmap_collections SET changed = 2 WHERE id = 'many'")
    drawn = front.asked.ask(path)
    ids = {it.properties["id"] for it in read_tile(drawn.content)["many"][1]}
    found = "M10001" in ids, "M20001" in ids, drawn.headers["etag"]
    context.check("a tile that is drawn again", found, (False, True, '"2"'))
    context.check("it is whole", "streetmap-tile" in drawn.headers, False)


def check_metadata(context: Context, front: Front) -> None:
    """Links lead from a collection to its tiles, and addresses without a tile are refused."""
    shown = json_of(front.asked.ask("/collections/lamps"))
    (link,) = (it for it in shown["links"] if it["rel"].endswith("/tilesets-vector"))
    listed = json_of(front.asked.client.get(link["href"]))["tilesets"][0]
    tileset = json_of(front.asked.client.get(listed["links"][0]["href"]))
    (item,) = (it for it in tileset["links"] if it["rel"] == "item")
    row, column = tile_of(10)
    names = {"tileMatrix": 10, "tileRow": row, "tileCol": column}
    target = item["href"].format(**names)
    context.check("the template", front.asked.client.get(target).status_code, 200)
    (scheme,) = (it for it in tileset["links"] if it["rel"].endswith("/tiling-scheme"))
    levels = json_of(front.asked.client.get(scheme["href"]))["tileMatrices"]
    sizes = [(it["id"], it["matrixWidth"]) for it in levels[:3]]
    context.check("the levels", (len(levels), sizes), (25, [("0", 1), ("1", 2), ("2", 4)]))
    for bad in ("25/0/0", "1/2/0", "1/0/2", "x/0/0", "-1/0/0", "1/0/0x", "01/0/٣"):
        answer = front.asked.ask(f"/collections/lamps/tiles/WebMercatorQuad/{bad}")
        context.check(f"tile {bad}", answer.status_code, 404)
    other = front.asked.ask("/collections/lamps/tiles/WorldCRS84Quad/1/0/0")
    context.check("another tile matrix set", other.status_code, 404)
    far = front.asked.ask(path_of("lamps", 4, 0, 0))
    context.check("a tile of nothing", (far.status_code, far.content), (200, b""))


def check_gdal(context: Context, front: Front) -> None:
    """GDAL reads a tile."""
    at = (9, *tile_of(9))
    body = front.asked.ask(path_of("lamps", *at)).content
    file = context.folder / "lamps.mvt"
    file.write_bytes(body)
    words = ["ogrinfo", "-ro", "-so", "-al", f"MVT:{file}"]
    ended = subprocess.run(words, capture_output=True, text=True, timeout=context.seconds)
    count = len(read_tile(body)["lamps"][1])
    context.check("features of a tile for GDAL", f"Feature Count: {count}" in ended.stdout, True)
