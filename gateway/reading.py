"""The paths that are read. Each function is the operation of its name in openapi/reading.json."""

import json
from pathlib import Path

from starlette.requests import Request
from starlette.responses import Response
from starlette.routing import BaseRoute, Mount, Route
from starlette.staticfiles import StaticFiles

from . import resources
from .client import ServerReads, read_feature
from .forms import json_response, wants_html
from .gateway import Gateway, gateway_of
from .geojson import compact, transform_geometries
from .html import html_response
from .links import GEOJSON, JSON, OPENAPI, Link, collection_path, feature_path, items_path
from .mirror.selection import is_for_mirror, own_names, read_selection
from .pages import Filled, fill
from .query import read_items_query, read_parameters
from .representation import Representation
from .systems import CRS84, System
from .tags import own_text

# What HTML pages need beside themselves: the gateway's own files, and Debian's Leaflet. Without it
# they have no map.
STATIC = Path(__file__).parent / "static"
LEAFLET = Path("/usr/share/javascript/leaflet")
FEATURE = "This feature"


async def landing(request: Request) -> Response:
    gateway, found = gateway_of(request), read_parameters(request)
    is_html = wants_html(request, found)
    links = gateway.links.forms("/", found, JSON, "This document", is_html)
    shown = resources.landing(gateway.settings, links + gateway.links.landing())
    return html_response(request, "landing.html", shown) if is_html else json_response(shown)


async def api(request: Request) -> Response:
    gateway, found = gateway_of(request), read_parameters(request)
    is_html, document = wants_html(request, found), await gateway.document()
    if is_html:
        return html_response(request, "api.html", document)
    return json_response(document, OPENAPI)


async def api_page(request: Request) -> Response:
    gateway, _ = gateway_of(request), read_parameters(request)
    return html_response(request, "api.html", await gateway.document())


async def conformance(request: Request) -> Response:
    gateway, found = gateway_of(request), read_parameters(request)
    is_html = wants_html(request, found)
    links = gateway.links.forms("/conformance", found, JSON, "This document", is_html)
    shown = resources.conformance(gateway.settings, links, await gateway.client.gives_tags())
    return html_response(request, "conformance.html", shown) if is_html else json_response(shown)


async def collections(request: Request) -> Response:
    gateway, found = gateway_of(request), read_parameters(request)
    is_html = wants_html(request, found)
    asked = Representation.of(request, is_html)
    links = gateway.links.forms("/collections", found, JSON, "This document", is_html)
    kept = await asked.reads.collections()

    def build() -> Response:
        shown = resources.collections(kept, gateway.systems, gateway.links, links)
        if is_html:
            return html_response(request, "collections.html", shown)
        return json_response(shown)

    return asked.answer(asked.reads.tag, build)


async def collection(request: Request) -> Response:
    gateway, found = gateway_of(request), read_parameters(request)
    is_html = wants_html(request, found)
    asked = Representation.of(request, is_html)
    name = request.path_params["collectionId"]
    links = gateway.links.forms(collection_path(name), found, JSON, "This collection", is_html)
    kept = await asked.reads.collection(name)

    def build() -> Response:
        shown = resources.collection(kept, gateway.systems, links + gateway.links.items(name))
        return html_response(request, "collection.html", shown) if is_html else json_response(shown)

    return asked.answer(asked.reads.tag, build)


async def items(request: Request) -> Response:
    gateway = gateway_of(request)
    found = read_parameters(request, any_name=gateway.mirror is not None)
    is_html = wants_html(request, found)
    asked = Representation.of(request, is_html)
    name = request.path_params["collectionId"]
    filled = await filled_page(gateway, asked.reads, name, found)
    system = gateway.systems.named(found.get("crs", CRS84), "bad_crs")

    def build() -> Response:
        members = resources.page(filled, page_links(gateway, name, found, filled, is_html))
        if is_html:
            page = members | {"features": json.loads(f"[{filled.text}]")}
            return html_response(request, "items.html", page, collection=name, system=system.uri)
        text = f'{compact(members)[:-1]},"features":[{filled.text}]}}'
        return geojson_response(text, system)

    return asked.answer(asked.reads.tag, build)


def page_links(
    gateway: Gateway, collection: str, found: dict[str, str], filled: Filled, is_html: bool
) -> list[Link]:
    """The links of a page. One to the next page carries the serial of its state, if it has one."""
    links = gateway.links.forms(items_path(collection), found, GEOJSON, "This page", is_html)
    if filled.after is not None:
        following = found | ({} if filled.serial is None else {"serial": str(filled.serial)})
        links.append(gateway.links.following(collection, following, filled.after, is_html))
    return [*links, gateway.links.collection(collection)]


async def filled_page(
    gateway: Gateway, reads: ServerReads, collection: str, found: dict[str, str]
) -> Filled:
    """The page of the parameters, of the server or, if it cannot answer them, of the mirror."""
    query = read_items_query(found, gateway.systems)
    named = own_names(gateway.description.query_names["items"])
    if gateway.mirror is None or not is_for_mirror(found, named):
        return await fill(reads, collection, query)
    selection = read_selection(found, named, query, gateway.systems)
    page = await gateway.mirror.page(collection, selection)
    return Filled(page.text, page.count, page.after, page.matched, page.serial)


async def feature(request: Request) -> Response:
    gateway, found = gateway_of(request), read_parameters(request)
    is_html = wants_html(request, found)
    asked = Representation.of(request, is_html)
    name, identity = request.path_params["collectionId"], request.path_params["featureId"]
    system = gateway.systems.named(found.get("crs", CRS84), "bad_crs")
    text = own_text(await asked.reads.feature(name, identity))
    links = gateway.links.forms(feature_path(name, identity), found, GEOJSON, FEATURE, is_html)

    def build() -> Response:
        shown = read_feature(text)
        shown["links"] = [*links, gateway.links.collection(name)]
        transform_geometries([shown["geometry"]], system)
        if is_html:
            return html_response(request, "feature.html", shown, collection=name, system=system.uri)
        return geojson_response(compact(shown), system)

    return asked.answer(asked.feature_tag(text), build)


def geojson_response(text: str, system: System) -> Response:
    headers = {"Content-Crs": f"<{system.uri}>", "Vary": "Accept"}
    return Response(text, headers=headers, media_type=GEOJSON)


ROUTES: list[BaseRoute] = [
    Route("/", landing),
    Route("/api", api),
    Route("/api.html", api_page),
    Route("/conformance", conformance),
    Route("/collections", collections),
    Route("/collections/{collectionId}", collection),
    Route("/collections/{collectionId}/items", items),
    Route("/collections/{collectionId}/items/{featureId:path}", feature),
    Mount("/static", StaticFiles(directory=STATIC)),
]
if LEAFLET.is_dir():
    ROUTES.insert(0, Mount("/static/leaflet", StaticFiles(directory=LEAFLET)))
