"""The paths that the mirror adds. Each function is the operation of its name in
openapi/mirror.json, or in openapi/tiles.json."""

from collections.abc import Callable
from typing import Any

from starlette.requests import Request
from starlette.responses import Response
from starlette.routing import BaseRoute, Route

from ..gateway import Gateway, gateway_of
from ..geojson import compact
from ..links import JSON, MATRIX_SET_PATH, MATRIX_SETS_PATH, RELATION, SCHEMA, collection_path
from ..links import tileset_path
from ..problems import bad_query, not_found
from ..query import read_parameters
from . import queryables as schemas
from .catalogue import Catalogue
from .service import MirrorService
from .tiles import MATRIX_SET, MVT, TileAddress, matrix_set, matrix_set_member, tileset_members

Describe = Callable[[Catalogue, str], dict[str, Any]]


def asked(request: Request, form: str = "json") -> tuple[Gateway, MirrorService, str]:
    """The gateway, its mirror, and the collection of a request, whose answer has one form."""
    gateway, found = gateway_of(request), read_parameters(request)
    if found.get("f", form) != form:
        raise bad_query("bad_f", f"The parameter f must be {form}.")
    assert gateway.mirror is not None
    return gateway, gateway.mirror, request.path_params.get("collectionId", "")


async def described(request: Request, name: str, describe: Describe) -> Response:
    gateway, mirror, collection = asked(request)
    catalogue = await mirror.catalogue(collection)
    address = f"{gateway.links.address}{collection_path(collection)}/{name}"
    return Response(compact(describe(catalogue, address)), media_type=SCHEMA)


async def queryables(request: Request) -> Response:
    return await described(request, "queryables", schemas.queryables)


async def sortables(request: Request) -> Response:
    return await described(request, "sortables", schemas.sortables)


async def schema(request: Request) -> Response:
    return await described(request, "schema", schemas.features)


async def tilesets(request: Request) -> Response:
    gateway, mirror, collection = asked(request)
    catalogue = await mirror.catalogue(collection)
    link = gateway.links.link
    own = link(f"{collection_path(collection)}/tiles", "self", JSON, "This document")
    listed = tileset_members(catalogue, [link(tileset_path(collection), "self", JSON, "It")])
    return json(JSON, {"links": [own], "tilesets": [listed]})


async def tileset(request: Request) -> Response:
    gateway, mirror, collection = asked(request)
    check_matrix_set(request)
    catalogue = await mirror.catalogue(collection)
    links, path = gateway.links, tileset_path(collection)
    tiles: dict[str, Any] = links.link(
        f"{path}/{{tileMatrix}}/{{tileRow}}/{{tileCol}}", "item", MVT, "Tiles"
    )
    listed = [
        links.link(path, "self", JSON, "This document"),
        links.link(MATRIX_SET_PATH, f"{RELATION}tiling-scheme", JSON, "The tile matrix set"),
        links.link(collection_path(collection), f"{RELATION}geodata", JSON, "The collection"),
        tiles | {"templated": True},
    ]
    layer = schemas.features(catalogue, f"{links.address}{collection_path(collection)}/schema")
    return json(JSON, tileset_members(catalogue, listed, layer))


async def tile(request: Request) -> Response:
    _, mirror, collection = asked(request, "mvt")
    check_matrix_set(request)
    texts = (request.path_params[name] for name in ("tileMatrix", "tileRow", "tileCol"))
    tags = {tag.strip().removeprefix("W/") for tag in listed(request, "if-none-match")}
    serial, drawn = await mirror.tile(
        collection, TileAddress.read(*texts), lambda serial: bool(tags & {"*", tag_of(serial)})
    )
    headers = {"ETag": tag_of(serial), "Cache-Control": "no-cache"}
    if drawn is None:
        return Response(status_code=304, headers=headers)
    if drawn.is_cut:
        headers["Streetmap-Tile"] = "cut"
    return Response(drawn.body, headers=headers, media_type=MVT)


async def tile_matrix_sets(request: Request) -> Response:
    gateway, _, _ = asked(request)
    link = gateway.links.link
    own = link(MATRIX_SETS_PATH, "self", JSON, "This document")
    member = matrix_set_member([link(MATRIX_SET_PATH, "self", JSON, "The tile matrix set")])
    return json(JSON, {"links": [own], "tileMatrixSets": [member]})


async def tile_matrix_set(request: Request) -> Response:
    asked(request)
    check_matrix_set(request)
    return json(JSON, matrix_set())


def tag_of(serial: int) -> str:
    return f'"{serial}"'


def listed(request: Request, name: str) -> list[str]:
    """The elements of a field that is a list."""
    return ",".join(request.headers.getlist(name)).split(",")


def check_matrix_set(request: Request) -> None:
    if request.path_params["tileMatrixSetId"] != MATRIX_SET:
        raise not_found()


def json(media_type: str, value: Any) -> Response:
    return Response(compact(value), media_type=media_type)


COLLECTION, MATRICES = "/collections/{collectionId}", "{tileMatrixSetId}"
FILTER_ROUTES: list[BaseRoute] = [
    Route(f"{COLLECTION}/queryables", queryables),
    Route(f"{COLLECTION}/sortables", sortables),
    Route(f"{COLLECTION}/schema", schema),
]
TILE_ROUTES: list[BaseRoute] = [
    Route(f"{COLLECTION}/tiles", tilesets),
    Route(f"{COLLECTION}/tiles/{MATRICES}", tileset),
    Route(f"{COLLECTION}/tiles/{MATRICES}/{{tileMatrix}}/{{tileRow}}/{{tileCol}}", tile),
    Route(MATRIX_SETS_PATH, tile_matrix_sets),
    Route(f"{MATRIX_SETS_PATH}/{MATRICES}", tile_matrix_set),
]
