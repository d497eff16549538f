"""Features of the server: their geometries, and the rest of their texts as it is.

The server writes compact JSON with the members of each object in byte order of their names
(docs/API.md). So a feature is {"geometry":..,"id":..,"properties":..,"type":"Feature"}. Its
geometry is read, transformed and written. The text after it is passed on as it came.
"""

import json
import sys
from dataclasses import dataclass
from typing import Any, NamedTuple

from .geojson import compact, transform_geometries
from .kept import Kept
from .systems import System

FEATURES, GEOMETRY, ID, LINKS = '{"features":[', '{"geometry":', ',"id":', '],"links":['
# Separates texts of geometries, none of which has it.
BETWEEN = "|"
DECODER = json.JSONDecoder()
# Pages of at most PAGE_BYTES are kept as they were transformed, the last KEPT_BYTES of them. If the
# server answers the same bytes again, as to many clients that begin with the same page, they are
# not transformed again.
PAGE_BYTES, KEPT_BYTES = 1 << 18, 1 << 24
# The memory of a page that is kept, beside its texts.
ENTRY_BYTES = 1 << 10

Geometry = dict[str, Any] | None


class Feature(NamedTuple):
    """A geometry on the grid, and the text after `,"id":`, which begins with the id."""

    geometry: Geometry
    rest: str

    @property
    def id(self) -> str:
        found: str = DECODER.raw_decode(self.rest)[0]
        return found


@dataclass(frozen=True)
class Page:
    """A page of the server."""

    features: list[Feature]
    matched: int
    goes_on: bool


@dataclass(frozen=True)
class TransformedPage:
    """A page of the server in a reference system: the texts of its features, commas between."""

    text: str
    count: int
    last: str | None
    matched: int
    goes_on: bool


KEPT_PAGES: Kept[tuple[bytes, System], TransformedPage] = Kept(KEPT_BYTES)


def transformed_page(body: bytes, system: System) -> TransformedPage:
    """The page of an answer in a reference system; a ValueError if it is no page."""
    if len(body) > PAGE_BYTES:
        return made_page(body, system)
    page = KEPT_PAGES.get((body, system))
    if page is None:
        page = made_page(body, system)
        KEPT_PAGES.put((body, system), page, size_of(body, page))
    return page


def size_of(body: bytes, page: TransformedPage) -> int:
    """About how much memory a page takes."""
    return sys.getsizeof(body) + sys.getsizeof(page.text) + ENTRY_BYTES


def made_page(body: bytes, system: System) -> TransformedPage:
    """The page of an answer in a reference system, which is not kept; a ValueError if it is no
    page."""
    page = read_page(body)
    last = page.features[-1].id if page.features else None
    text = ",".join(transformed_texts(page.features, system))
    return TransformedPage(text, len(page.features), last, page.matched, page.goes_on)


def read_page(body: bytes) -> Page:
    """The page of an answer; a ValueError if it is no page."""
    text = body.decode()
    listed, mark, rest = text.rpartition(LINKS)
    pieces = listed.split(GEOMETRY)
    members = json.loads(f"{FEATURES}{mark}{rest}" if mark else text)
    # Each feature begins one piece. If more are found, properties have members `geometry`.
    if pieces[0] == FEATURES and len(pieces) == 1 + members["numberReturned"]:
        features = split_features(pieces[1:])
    else:
        features = [parsed_feature(each) for each in json.loads(text)["features"]]
    goes_on = any(link["rel"] == "next" for link in members["links"])
    return Page(features, members["numberMatched"], goes_on)


def split_features(pieces: list[str]) -> list[Feature]:
    """The features of texts, each of which begins with its geometry. All geometries are read at
    once."""
    halves = [piece.rstrip(",").partition(ID) for piece in pieces]
    geometries = json.loads(f"[{','.join(geometry for geometry, _, _ in halves)}]")
    return [
        Feature(geometry, rest) for geometry, (_, _, rest) in zip(geometries, halves, strict=True)
    ]


def parsed_feature(feature: dict[str, Any]) -> Feature:
    """A feature that was read as a whole."""
    geometry, identity = feature.pop("geometry"), feature.pop("id")
    return Feature(geometry, f"{compact(identity)},{compact(feature)[1:]}")


def transformed_texts(features: list[Feature], system: System) -> list[str]:
    """The texts of features in a reference system."""
    geometries = [feature.geometry for feature in features]
    transform_geometries(geometries, system)
    texts = geometry_texts(geometries)
    return [f"{GEOMETRY}{text}{ID}{each.rest}" for text, each in zip(texts, features)]


def geometry_texts(geometries: list[Geometry]) -> list[str]:
    """The texts of geometries. All are written at once, since each call of the writer takes
    time."""
    listed: list[Any] = [BETWEEN] * (2 * len(geometries) - 1)
    listed[::2] = geometries
    return compact(listed)[1:-1].split(f',"{BETWEEN}",')
