"""The schemas of collections (OGC 23-058): what filters and orders can name, what features have.

Each is a JSON Schema, says no more of the features than is true, and is what requests go by.
"""

import json
from typing import Any

from gateway_tests.data import Feature, feature, shape
from gateway_tests.service import json_of
from harness import Context
from jsonschema import Draft202012Validator
from mirror_tests.front import Front

DIALECT = "https://json-schema.org/draft/2020-12/schema"
MEDIA_TYPE = "application/schema+json"
RELATION = "http://www.opengis.net/def/rel/ogc/1.0/"
NAMES = ("queryables", "sortables", "schema")
TYPES = {"string", "number", "integer", "boolean", "array", "object"}
GEOMETRY = {"x-ogc-role": "primary-geometry", "format": "geometry-any"}
ITEMS = "/collections/assets/items"
QUERYABLES = {
    "id": "string",
    "no": "integer",
    "height": "integer",
    "name": "string",
    "lit": "boolean",
    "breite": "number",
    "geometry": None,
}
# Types that the office sets: one of another kind than the values, and one of a property that no
# feature has.
SET_TYPES = """
INSERT INTO streetmap_columns VALUES ('assets', 'tags', 'jsonb'), ('assets', 'later', 'jsonb')
"""
NOT_SET = "DELETE FROM streetmap_columns WHERE name IN ('tags', 'later')"

Schema = dict[str, Any]


def check_schemas(context: Context, front: Front) -> None:
    for collection in front.kept:
        check_collection(context, front, collection)
    found = {name: linked(context, front, "assets", name) for name in NAMES}
    check_queryables(context, front, found["queryables"])
    check_sortables(context, front, found["sortables"], found["schema"])
    check_received(context, front, found["schema"])
    front.database.ask(SET_TYPES)
    again = {name: linked(context, front, "assets", name) for name in NAMES}
    context.check("with types that are set", again, found)
    front.database.ask(NOT_SET)


def check_collection(context: Context, front: Front, collection: str) -> None:
    """The form of the three schemas, and that of the features is true of each of them."""
    schemas = {name: linked(context, front, collection, name) for name in NAMES}
    for name, schema in schemas.items():
        check_form(context, f"{collection}: {name}", schema)
    for kept in front.kept[collection]:
        check_returned(context, schemas["schema"], kept)


def linked(context: Context, front: Front, collection: str, name: str) -> Schema:
    """The schema that the link of a collection leads to."""
    links = json_of(front.asked.ask(f"/collections/{collection}"))["links"]
    (link,) = (it for it in links if it["rel"] == RELATION + name)
    answer = front.asked.client.get(link["href"])
    kinds = link["type"], answer.headers["content-type"]
    context.check(f"{collection}: the kind of {name}", kinds, (MEDIA_TYPE, MEDIA_TYPE))
    schema: Schema = json_of(answer)
    context.check(f"{collection}: the id of {name}", schema["$id"], link["href"])
    return schema


def check_form(context: Context, what: str, schema: Schema) -> None:
    """It is a JSON Schema of an object. Each property has a type, or is the geometry."""
    Draft202012Validator.check_schema(schema)
    context.check(what, (schema["$schema"], schema["type"]), (DIALECT, "object"))
    for name, found in schema["properties"].items():
        if name == "geometry":
            context.check(f"{what}: the geometry", found, GEOMETRY)
            continue
        types = found["type"] if isinstance(found["type"], list) else [found["type"]]
        context.check(f"{what}: types of {name!r}", bool(types) and set(types) <= TYPES, True)
        context.check(f"{what}: title of {name!r}", found["title"], name)
    roles = [it["x-ogc-role"] for it in schema["properties"].values() if "x-ogc-role" in it]
    wanted = ["id"] + ["primary-geometry"] * ("geometry" in schema["properties"])
    context.check(f"{what}: roles", roles, wanted)


def check_returned(context: Context, schema: Schema, kept: Feature) -> None:
    """A feature is as the schema says; a property that is null is one that is not there."""
    values = {k: v for k, v in (kept["properties"] or {}).items() if v is not None}
    context.check(f"{kept['id']}: names", values.keys() <= schema["properties"].keys(), True)
    plain = {name: it for name, it in schema["properties"].items() if name != "geometry"}
    faults = Draft202012Validator({"properties": plain}).iter_errors(values | {"id": kept["id"]})
    context.check(f"{kept['id']}: values", [it.message for it in faults], [])


def check_queryables(context: Context, front: Front, schema: Schema) -> None:
    """Filters take each queryable, also as a parameter, and no other name."""
    kinds = {name: it.get("type") for name, it in schema["properties"].items()}
    context.check("queryables", {name: kinds.get(name) for name in QUERYABLES}, QUERYABLES)
    context.check("what filters cannot name", "tags" in kinds, False)
    context.check("no others", schema["additionalProperties"], False)
    for name in [*schema["properties"], "tags", "none"]:
        quoted = name.replace('"', '""')
        answer = front.asked.ask(ITEMS, filter=f'"{quoted}" IS NULL', limit=1)
        wanted = 200 if name in schema["properties"] else 400
        context.check(f"a filter with {name!r}", answer.status_code, wanted)


def check_sortables(context: Context, front: Front, schema: Schema, features: Schema) -> None:
    """An order takes each sortable, and no other property."""
    context.check("no others", schema["additionalProperties"], False)
    for name in features["properties"]:
        answer = front.asked.ask(ITEMS, sortby=name, limit=1)
        wanted = 200 if name in schema["properties"] else 400
        context.check(f"an order by {name!r}", answer.status_code, wanted)
    context.check("sortables", {"no", "id"} <= schema["properties"].keys(), True)
    context.check("no order by", {"geometry", "tags"} & schema["properties"].keys(), set())


def check_received(context: Context, front: Front, schema: Schema) -> None:
    """A feature with the properties of the schema is taken."""
    context.check("the schema", schema["properties"]["tags"]["type"], "array")
    context.check("a property of many kinds", "mixed" in schema["properties"], True)
    context.check("only read", [it for it in schema["properties"].values() if "readOnly" in it], [])
    values = {"no": 1, "name": "new", "lit": True, "tags": ["c"], "mixed": "1"}
    context.check("their names", values.keys() <= schema["properties"].keys(), True)
    made = feature("taken", shape("Point", [9.98, 53.55]), values)
    answer = front.asked.send("POST", ITEMS, json.dumps(made).encode())
    context.check("a feature that is sent", answer.status_code, 201)
    shown = json_of(front.asked.ask(f"{ITEMS}/taken"))
    context.check("what is returned", (shown["id"], shown["properties"]), ("taken", values))
    gone = front.asked.send("DELETE", f"{ITEMS}/taken")
    context.check("it is taken out", gone.status_code, 204)
