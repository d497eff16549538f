"""The resources of OGC API - Features, as JSON values."""

from typing import Any

from .extents import degree_extent
from .links import JSON, Link, Links, collection_path
from .mirror.classes import classes as mirror_classes
from .pages import Filled
from .settings import Settings
from .systems import CRS84, Systems

PART1 = "http://www.opengis.net/spec/ogcapi-features-1/1.0/conf/"
PART2 = "http://www.opengis.net/spec/ogcapi-features-2/1.0/conf/"
# OGC 20-002r1, a draft.
PART4 = "http://www.opengis.net/spec/ogcapi-features-4/1.0/conf/"

Resource = dict[str, Any]


def landing(settings: Settings, links: list[Link]) -> Resource:
    return {"title": settings.title, "description": settings.description, "links": links}


def conformance(settings: Settings, links: list[Link], has_tags: bool) -> Resource:
    """The classes that the gateway meets, and the draft's if somebody may write. An edit is of the
    very feature that has a tag if the server gives tags."""
    names = ("core", "geojson", "html", "oas30")
    classes = [*(PART1 + name for name in names), f"{PART2}crs"]
    if settings.writers:
        classes.append(f"{PART4}create-replace-delete")
        classes += [f"{PART4}optimistic-locking-etags"] if has_tags else []
    classes += mirror_classes(settings.mirror)
    return {"links": links, "conformsTo": classes}


def collections(kept: list[Resource], systems: Systems, links: Links, own: list[Link]) -> Resource:
    """The collections of the server; `own` are the links of the list itself."""
    listed = []
    for each in kept:
        path = collection_path(each["id"])
        forms = links.forms(path, {}, JSON, "This collection", is_html=False)
        listed.append(collection(each, systems, forms + links.items(each["id"])))
    return {"links": own, "collections": listed}


def collection(kept: Resource, systems: Systems, links: list[Link]) -> Resource:
    """A collection of the server, with its extent in CRS84."""
    members = {
        "id": kept["id"],
        "title": kept["title"],
        "links": links,
        "itemType": "feature",
        "crs": list(systems.by_uri),
        "storageCrs": systems.office.uri,
    }
    if "extent" in kept:
        bounds = degree_extent(systems.operation, kept["extent"]["spatial"]["bbox"][0])
        if bounds is not None:
            box = [float(bound) for bound in bounds]
            members["extent"] = {"spatial": {"bbox": [box], "crs": CRS84}}
    return members


def page(filled: Filled, links: list[Link]) -> Resource:
    """A page without its features."""
    matched = {} if filled.matched is None else {"numberMatched": filled.matched}
    serial = {} if filled.serial is None else {"serial": filled.serial}
    return {
        "type": "FeatureCollection",
        "links": links,
        **matched,
        "numberReturned": filled.count,
        **serial,
    }
