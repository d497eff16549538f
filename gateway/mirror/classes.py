"""The conformance classes that the mirror adds."""

from ..settings import Mirror

PART3 = "http://www.opengis.net/spec/ogcapi-features-3/1.0/conf/"
# OGC 23-058, a draft.
PART5 = "http://www.opengis.net/spec/ogcapi-features-5/1.0/conf/"
CQL2 = "http://www.opengis.net/spec/cql2/1.0/conf/"
TILES = "http://www.opengis.net/spec/ogcapi-tiles-1/1.0/conf/"
FILTERING = [
    *(PART3 + name for name in ("queryables", "queryables-query-parameters")),
    *(PART3 + name for name in ("filter", "features-filter")),
    *(CQL2 + name for name in ("cql2-text", "basic-cql2", "advanced-comparison-operators")),
    *(CQL2 + name for name in ("basic-spatial-functions", "basic-spatial-functions-plus")),
]
DESCRIBING = [
    PART5 + name for name in ("schemas", "returnables-and-receivables", "queryables", "sortables")
]
TILING = [TILES + it for it in ("core", "tileset", "tilesets-list", "geodata-tilesets", "mvt")]


def classes(settings: Mirror | None) -> list[str]:
    """The classes that hold with these settings."""
    if settings is None:
        return []
    return FILTERING + DESCRIBING + (TILING if settings.tiles else [])
