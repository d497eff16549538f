"""Links of the gateway's answers. All begin with the address of the settings."""

from collections.abc import Mapping
from urllib.parse import quote, urlencode

from .settings import Mirror

JSON, GEOJSON, HTML = "application/json", "application/geo+json", "text/html"
OPENAPI = "application/vnd.oai.openapi+json;version=3.0"
SCHEMA = "application/schema+json"
# What OGC's relations of links begin with.
RELATION = "http://www.opengis.net/def/rel/ogc/1.0/"
MATRIX_SETS_PATH = "/tileMatrixSets"
MATRIX_SET_PATH = f"{MATRIX_SETS_PATH}/WebMercatorQuad"

Link = dict[str, str]
Query = Mapping[str, str]


class Links:
    """Makes links that begin with one address."""

    def __init__(self, address: str, mirror: Mirror | None = None) -> None:
        self.address = address
        self.mirror = mirror

    def link(self, path: str, rel: str, media_type: str, title: str) -> Link:
        return {"href": self.address + path, "rel": rel, "type": media_type, "title": title}

    def forms(
        self, path: str, query: Query, media_type: str, title: str, is_html: bool
    ) -> list[Link]:
        """The links of a resource to itself: `self` as it was requested, and `alternate` in its
        other form."""
        other, form = (media_type, "json") if is_html else (HTML, "html")
        return [
            self.link(with_query(path, query), "self", HTML if is_html else media_type, title),
            self.link(with_query(path, {**query, "f": form}), "alternate", other, title),
        ]

    def landing(self) -> list[Link]:
        """The links of the landing page to all else."""
        return [
            self.link("/api", "service-desc", OPENAPI, "The interface (OpenAPI 3.0)"),
            self.link("/api.html", "service-doc", HTML, "The interface, for people"),
            self.link("/conformance", "conformance", JSON, "Conformance classes"),
            self.link("/collections", "data", JSON, "The collections"),
            *self.matrix_sets(),
        ]

    def items(self, collection: str) -> list[Link]:
        """The links of a collection to its features."""
        path = items_path(collection)
        return [
            self.link(path, "items", GEOJSON, "Its features"),
            self.link(with_query(path, {"f": "html"}), "items", HTML, "Its features"),
            *self.mirrored(collection),
        ]

    def matrix_sets(self) -> list[Link]:
        """The links of the landing page that tiles need."""
        if self.mirror is None or not self.mirror.tiles:
            return []
        relation = f"{RELATION}tiling-schemes"
        return [self.link(MATRIX_SETS_PATH, relation, JSON, "The tile matrix sets")]

    def mirrored(self, collection: str) -> list[Link]:
        """The links of a collection to what a mirror adds."""
        if self.mirror is None:
            return []
        path = collection_path(collection)
        found = [
            self.link(f"{path}/queryables", f"{RELATION}queryables", SCHEMA, "For filters"),
            self.link(f"{path}/sortables", f"{RELATION}sortables", SCHEMA, "For sortby"),
            self.link(f"{path}/schema", f"{RELATION}schema", SCHEMA, "Of its features"),
        ]
        if self.mirror.tiles:
            relation = f"{RELATION}tilesets-vector"
            found.append(self.link(f"{path}/tiles", relation, JSON, "Its vector tiles"))
        return found

    def collection(self, collection: str) -> Link:
        """The link of a feature, or of a page of features, to its collection."""
        return self.link(collection_path(collection), "collection", JSON, "The collection")

    def following(self, collection: str, query: Query, after: str, is_html: bool) -> Link:
        """The link to the page that goes on after an id."""
        target = with_query(items_path(collection), {**query, "after": after})
        return self.link(target, "next", HTML if is_html else GEOJSON, "The next page")

    def location(self, collection: str, feature: str) -> str:
        return self.address + feature_path(collection, feature)


def with_query(path: str, query: Query) -> str:
    return f"{path}?{urlencode(query)}" if query else path


def collection_path(collection: str) -> str:
    return f"/collections/{quote(collection, safe='')}"


def tileset_path(collection: str) -> str:
    return f"{collection_path(collection)}/tiles/WebMercatorQuad"


def items_path(collection: str) -> str:
    return f"{collection_path(collection)}/items"


def feature_path(collection: str, feature: str) -> str:
    return f"{items_path(collection)}/{quote(feature, safe='')}"
