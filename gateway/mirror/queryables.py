"""What filters can be of a collection, what can be sorted by, and what its features have, as JSON
Schema (OGC 19-079r2, 6; the drafts of Part 5, OGC 23-058, and Part 8).

The mirror knows the kinds of values that properties have had, so these describe what exists, and
not what the office may still write.
"""

from typing import Any

from .catalogue import GEOMETRY, ID, ORDER, Catalogue, Property

DIALECT = "https://json-schema.org/draft/2020-12/schema"
# How the schema calls the kinds of values that were seen, and the types that the office sets.
SEEN_TYPES = {
    "string": "string",
    "number": "integer",
    "large": "integer",
    "boolean": "boolean",
    "array": "array",
    "object": "object",
}
SET_TYPES: dict[str, dict[str, Any]] = {
    "text": {"type": "string"},
    "bigint": {"type": "integer"},
    "numeric": {"type": "number"},
    "boolean": {"type": "boolean"},
    "date": {"type": "string", "format": "date"},
    "timestamptz": {"type": "string", "format": "date-time"},
    "jsonb": {},
}
SCALARS = ("string", "number", "large", "boolean")
OWN = {
    ID: {"title": "id", "type": "string", "x-ogc-role": "id"},
    GEOMETRY: {"x-ogc-role": "primary-geometry", "format": "geometry-any"},
}
Schema = dict[str, Any]


def compared(found: Property) -> Schema:
    """What a property is compared with: values of the type that is set, or of the kinds seen."""
    if found.set_type is not None:
        return {"title": found.name, **SET_TYPES[found.set_type]}
    return seen(found, SCALARS)


def seen(found: Property, kinds: tuple[str, ...] = tuple(SEEN_TYPES)) -> Schema:
    """What was seen in a property, of these kinds."""
    types = list(dict.fromkeys(SEEN_TYPES[kind] for kind in kinds if kind in found.seen))
    return {"title": found.name, "type": types[0] if len(types) == 1 else types}


def queryables(catalogue: Catalogue, address: str) -> Schema:
    """What filters can name."""
    found = {each.name: compared(each) for each in catalogue.scalars()}
    return schema(catalogue, address, found | OWN) | {"additionalProperties": False}


def sortables(catalogue: Catalogue, address: str) -> Schema:
    """What can be sorted by."""
    sorted_by = [it for it in catalogue.scalars() if it.kinds & set(ORDER)]
    found = {each.name: compared(each) for each in sorted_by}
    own = {ID: OWN[ID]}
    return schema(catalogue, address, found | own) | {"additionalProperties": False}


def features(catalogue: Catalogue, address: str) -> Schema:
    """What features have: their id, their geometry and each property that was seen. The type that
    the office has set changes no feature."""
    found = {each.name: seen(each) for each in catalogue.properties.values() if each.seen}
    return schema(catalogue, address, found | OWN)


def schema(catalogue: Catalogue, address: str, properties: Schema) -> Schema:
    return {
        "$schema": DIALECT,
        "$id": address,
        "title": catalogue.title,
        "type": "object",
        "properties": properties,
    }
