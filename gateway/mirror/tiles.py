"""Vector tiles (MVT 2.1) of collections, in the tile matrix set WebMercatorQuad (OGC 17-083r4, D.1;
OGC 20-057).

PostGIS draws them (deploy/postgis/tiles.sql), by its own operation from the office's system to
EPSG:3857. So the gateway compares that with its own operation first, and serves no tile if they
differ. The tag of a tile is the serial of the last change in or near it, and for those of low
levels that of its collection's.
"""

import math
from collections.abc import Sequence
from dataclasses import dataclass
from decimal import Decimal
from typing import Any

import numpy
from psycopg2.sql import SQL, Composable, Literal as Value

from ..grid import BOUND, STEPS, nearest_steps
from ..problems import Problem
from ..systems import CRS84, EPSG, Systems
from .catalogue import Catalogue, no_collection
from .clauses import MirrorSystem
from .database import Reading

MATRIX_SET = "WebMercatorQuad"
MATRIX_SET_URI = "http://www.opengis.net/def/tilematrixset/OGC/1.0/WebMercatorQuad"
MVT = "application/vnd.mapbox-vector-tile"
LEVELS = 25
# Half of the side of the whole square, in metres of EPSG:3857; units of a tile, and around it.
HALF, UNITS, MARGIN = Decimal("20037508.3427892480"), 4096, 64
# The cells of a side of a tile, and the metres of one on paper, in the definition of the set.
PIXELS, PAPER = 256, Decimal("0.00028")
# The mirror notes of which serial the last change in or near each tile of one level is. Above the
# widest level, whose tiles have many of those, the collection's last change counts.
NOTED, WIDEST = 14, 10
# A tile that is not noted is as new as its collection. One that was drawn ahead is in the mirror.
STATE = """
SELECT coalesce(near.changed, opened.changed), coalesce(near.is_drawn, false)
FROM streetmap_collections AS opened LEFT JOIN LATERAL (
    SELECT max(changed) AS changed, bool_and({level} = {noted} AND drawn >= changed) AS is_drawn
    FROM streetmap_tiles
    WHERE {level} >= {widest} AND collection = opened.id
        AND "column" BETWEEN {first_column} AND {last_column}
        AND "row" BETWEEN {first_row} AND {last_row}
) AS near ON true
WHERE opened.id = {collection}
"""
DRAWN = """
SELECT is_cut, body FROM streetmap_tiles
WHERE collection = {collection} AND "column" = {column} AND "row" = {row}
"""
# The tile has the first 10,000 features by id; the others are left out.
DRAW = """
SELECT is_cut, body FROM ST_MakeEnvelope({west}, {south}, {east}, {north}, {srid}) AS bounds
CROSS JOIN LATERAL streetmap_draw({collection}, bounds, {level}, {column}, {row})
"""
PLACED = """
SELECT ST_X(it.placed), ST_Y(it.placed) FROM (
    SELECT ST_Transform(ST_SetSRID(ST_MakePoint(x, y), {srid}), 3857) AS placed
    FROM unnest({x}, {y}) WITH ORDINALITY AS at (x, y, number) ORDER BY number
) AS it
"""
# How far what is kept of some features is from what PostGIS makes of them now.
KEPT_APART = """
SELECT coalesce(max(greatest(
    abs(ST_XMin(mercator) - ST_XMin(placed)), abs(ST_YMin(mercator) - ST_YMin(placed)))), 0)
FROM (
    SELECT mercator, ST_Transform(geometry, 3857) AS placed FROM streetmap_features
    WHERE mercator IS NOT NULL LIMIT 100 OFFSET 0
) AS kept
"""
# As PostgreSQL has it in its binary form.
TRUE = b"\1"
# Both operations agree if they are nearer than this, in metres of EPSG:3857, over a raster of
# positions.
CLOSE, RASTER = 0.001, 9


@dataclass(frozen=True)
class TileAddress:
    """The place of a tile: its level, and its row and column from the north-west."""

    level: int
    row: int
    column: int

    @classmethod
    def read(cls, level: str, row: str, column: str) -> "TileAddress":
        """The address that a path has; a refusal if it is none."""
        texts = (level, row, column)
        if not all(text.isascii() and text.isdecimal() and len(text) < 10 for text in texts):
            raise no_tile()
        found = cls(*map(int, texts))
        size = 1 << min(found.level, LEVELS)
        if found.level >= LEVELS or found.row >= size or found.column >= size:
            raise no_tile()
        return found

    def noted(self, place: int) -> tuple[int, int]:
        """The first and the last column, or row, of the noted level that a tile of this column, or
        row, is in, or that it and its margin meet."""
        if self.level >= NOTED:
            return place >> (self.level - NOTED), place >> (self.level - NOTED)
        each, around = 1 << (NOTED - self.level), MARGIN / UNITS
        return math.floor((place - around) * each), math.floor((place + 1 + around) * each)

    def bounds(self) -> list[Decimal]:
        """West, south, east and north of the tile and its margin, in degrees. West may be below
        -180, and east above 180."""
        size, around = 1 << self.level, MARGIN / UNITS
        columns = self.column - around, self.column + 1 + around
        rows = self.row + 1 + around, self.row - around
        west, east = (360 * column / size - 180 for column in columns)
        turns = (math.pi * (1 - 2 * row / size) for row in rows)
        south, north = (math.degrees(math.atan(math.sinh(turn))) for turn in turns)
        return [Decimal(bound) for bound in (west, south, east, north)]


def no_tile() -> Problem:
    return Problem(404, "no_tile", f"The tile matrix set {MATRIX_SET} has no such tile.")


@dataclass(frozen=True)
class Tile:
    """A tile, and whether features are left out of it."""

    body: bytes
    is_cut: bool


@dataclass(frozen=True)
class TileState:
    """The serial of the last change in or near a tile, and whether the mirror has it drawn."""

    serial: int
    is_drawn: bool


def read_state(reading: Reading, collection: str, at: TileAddress) -> TileState:
    """The state of a tile; a refusal if the mirror has no collection of this name."""
    first_column, last_column = at.noted(at.column)
    first_row, last_row = at.noted(at.row)
    asked = SQL(STATE).format(
        collection=Value(collection),
        level=Value(at.level),
        noted=Value(NOTED),
        widest=Value(WIDEST),
        first_column=Value(first_column),
        last_column=Value(last_column),
        first_row=Value(first_row),
        last_row=Value(last_row),
    )
    found = None if "\0" in collection else reading.row(asked)
    if found is None:
        raise no_collection()
    return TileState(*found)


def read_drawn(reading: Reading, collection: str, at: TileAddress) -> Tile:
    """The tile as the mirror has it."""
    asked = SQL(DRAWN).format(
        collection=Value(collection), column=Value(at.column), row=Value(at.row)
    )
    return tile_of(reading, asked)


def draw(
    reading: Reading, system: MirrorSystem, systems: Systems, collection: str, at: TileAddress
) -> Tile:
    """The tile of a collection in this state."""
    region = systems.by_uri[CRS84].box(at.bounds()).region((-BOUND, -BOUND, BOUND, BOUND))
    if region.bounds is None:
        return Tile(b"", False)
    west, south, east, north = system.bounds(region.bounds)
    asked = SQL(DRAW).format(
        collection=Value(collection),
        west=Value(west),
        south=Value(south),
        east=Value(east),
        north=Value(north),
        srid=Value(system.srid),
        level=Value(at.level),
        column=Value(at.column),
        row=Value(at.row),
    )
    return tile_of(reading, asked)


def tile_of(reading: Reading, query: Composable) -> Tile:
    """The tile of the one row of a query."""
    is_cut, body = reading.values(query)
    return Tile(body or b"", is_cut == TRUE)


def distance(reading: Reading, system: MirrorSystem, systems: Systems) -> float:
    """How far what PostGIS and the gateway make of grid positions is apart at most, and what the
    mirror keeps of features, in metres of EPSG:3857."""
    mercator = systems.by_uri[f"{EPSG}3857"]
    positions = placeable(systems)
    wanted = mercator.coordinates(positions)
    x = [(system.grid.easting + position[0]) / STEPS for position in positions]
    y = [(system.grid.northing + position[1]) / STEPS for position in positions]
    found = reading.rows(SQL(PLACED).format(srid=Value(system.srid), x=Value(x), y=Value(y)))
    pairs = zip(found, wanted, strict=True)
    apart = [float(abs(a - b)) for one, other in pairs for a, b in zip(one, other)]
    return max(*apart, *map(float, reading.rows(SQL(KEPT_APART))[0]))


def placeable(systems: Systems) -> Sequence[tuple[int, int]]:
    """Positions of the grid from a raster of the degrees that can be placed."""
    reach = systems.reach
    longitude, latitude = numpy.meshgrid(
        numpy.linspace(reach.west, reach.east, RASTER),
        numpy.linspace(reach.south, reach.north, RASTER),
    )
    x, y = systems.operation.steps(longitude.ravel(), latitude.ravel())
    is_on_grid = (abs(x) <= BOUND) & (abs(y) <= BOUND)
    return list(zip(nearest_steps(x[is_on_grid]), nearest_steps(y[is_on_grid])))


def tileset_members(
    catalogue: Catalogue, links: list[Any], layer: dict[str, Any] | None = None
) -> dict[str, Any]:
    """The metadata of a collection's tiles; with the schema of the layer's features, or none."""
    members: dict[str, Any] = {
        "title": catalogue.title,
        "dataType": "vector",
        "crs": f"{EPSG}3857",
        "tileMatrixSetURI": MATRIX_SET_URI,
        "links": links,
    }
    if layer is not None:
        made = {"id": catalogue.collection, "dataType": "vector", "propertiesSchema": layer}
        members["layers"] = [made]
    return members


def matrix_set_member(links: list[Any]) -> dict[str, Any]:
    """The tile matrix set in a list of such."""
    return {"id": MATRIX_SET, "title": MATRIX_SET, "uri": MATRIX_SET_URI, "links": links}


def matrix_set() -> dict[str, Any]:
    """The definition of the tile matrix set."""
    return {
        "id": MATRIX_SET,
        "title": MATRIX_SET,
        "uri": MATRIX_SET_URI,
        "crs": f"{EPSG}3857",
        "orderedAxes": ["E", "N"],
        "wellKnownScaleSet": "http://www.opengis.net/def/wkss/OGC/1.0/GoogleMapsCompatible",
        "tileMatrices": [matrix(level) for level in range(LEVELS)],
    }


def matrix(level: int) -> dict[str, Any]:
    """One level: its tiles count as 256 cells wide, each of which is 0.28 mm on paper."""
    cell = 2 * HALF / (PIXELS << level)
    return {
        "id": str(level),
        "scaleDenominator": float(cell / PAPER),
        "cellSize": float(cell),
        "pointOfOrigin": [float(-HALF), float(HALF)],
        "tileWidth": PIXELS,
        "tileHeight": PIXELS,
        "matrixWidth": 1 << level,
        "matrixHeight": 1 << level,
    }
