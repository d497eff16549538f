"""The view of each collection: names and types of its columns, as values are seen and as they are
set; views that others read or depend on."""

import time

import psycopg2
from followers_tests.postgres import Database
from harness import Context
from messages import feature, open_collection, point, put
from mirror_tests.mirrors import Mirror
from model import Value

LONG = "c" * 64
COLUMNS = """
SELECT attname, format_type(atttypid, atttypmod) FROM pg_attribute
WHERE attrelid = to_regclass(%s) AND attnum > 0 AND NOT attisdropped ORDER BY attnum
"""
FIRST = [
    ("id", "text"),
    ("geometry", "geometry(Geometry,25832)"),
    ("serial", "bigint"),
    ("starts", "timestamp with time zone"),
    ("ends", "timestamp with time zone"),
]
# Of a property: two values, the type of the column, and what it shows of both.
SEEN: dict[str, tuple[object, object, str, object, object]] = {
    "number": (7, -(2**63), "bigint", 7, -(2**63)),
    "large": (7, 2**64 - 1, "numeric", 7, 2**64 - 1),
    "is": (True, None, "boolean", True, None),
    "text": ("7", "ü", "text", "7", "ü"),
    "mixed": ("a", 5, "text", "a", "5"),
    "list": ([1, {"a": 2}], 5, "jsonb", [1, {"a": 2}], 5),
    "n" * 63: (1, 2, "bigint", 1, 2),
}


def columns_of(mirror: Mirror, view: str) -> list[tuple[str, str]]:
    """The columns of a view, with their types."""
    return [(str(name), str(kind)) for name, kind in mirror.database.ask(COLUMNS, view)]


def item(identity: str, properties: Value) -> Value:
    return put("insert", "items", feature(identity, point(1, 2), properties))


def check_seen(mirror: Mirror) -> None:
    """Types that follow from the values."""
    one = {name: row[0] for name, row in SEEN.items()} | {"nothing": None, "x" * 64: 1}
    other = {name: row[1] for name, row in SEEN.items()}
    opened = open_collection("items", time="set")
    edits = [opened, item("1", one | {"set": "2024-05-01"}), item("2", other)]
    mirror.context.check("items act", mirror.put(mirror.accept("v1", edits)), None)
    wanted = {name: row[2] for name, row in SEEN.items()} | {"set": "text"}
    found = columns_of(mirror, "collections.items")
    mirror.context.check("first columns", found[:5], FIRST)
    mirror.context.check("columns of properties", dict(found[5:]), wanted)
    for name, (_, _, _, *shown) in SEEN.items():
        got = mirror.database.ask(f'SELECT "{name}" FROM collections.items ORDER BY id')
        mirror.context.check(f"the column {name}", [row[0] for row in got], shown)
    days = mirror.database.ask(
        "SELECT starts::text, ends::text FROM (SELECT set_config('timezone', 'UTC', false)) AS it"
        " CROSS JOIN collections.items ORDER BY id"
    )
    wanted_days = [("2024-05-01 00:00:00+00", "2024-05-02 00:00:00+00"), (None, None)]
    mirror.context.check("starts and ends", days, wanted_days)
    systems = mirror.database.ask(
        "SELECT srid, type FROM geometry_columns WHERE f_table_schema = 'collections'"
    )
    mirror.context.check("the geometry's system", systems, [(25832, "GEOMETRY")])


def check_names(mirror: Mirror) -> None:
    """Names that others have already, and the name of a view."""
    properties = {"id": 1, "ID": 2, "": 3, "a": 4, "A": 5, "property_3": 6, 'q"%s': 7}
    edits = [open_collection(LONG), put("insert", LONG, feature("1", None, properties))]
    mirror.context.check("names act", mirror.put(mirror.accept("v2", edits)), None)
    query = (
        "SELECT relname FROM pg_class WHERE relnamespace = 'collections'::regnamespace ORDER BY 1"
    )
    ((view,), *_) = mirror.database.ask(query)
    mirror.context.check("a long name", (len(str(view)), str(view)[:55]), (63, "c" * 54 + "_"))
    found = columns_of(mirror, f"collections.{view}")[5:]
    names = [str(name) for name, _ in found]
    mirror.context.check("each property has a column", len(names), len(properties))
    mirror.context.check("names differ", len({it.lower() for it in names}), len(names))
    listed = ", ".join(f'"{name.replace(chr(34), chr(34) * 2)}"' for name in names)
    (row,) = mirror.database.ask(f'SELECT {listed.replace("%", "%%")} FROM collections.{view}')
    mirror.context.check("their values", sorted(map(int, map(str, row))), list(range(1, 8)))


def check_settings(mirror: Mirror) -> None:
    """Types that an office sets; what is none of the type is NULL."""
    set_to = [("text", "numeric"), ("set", "date"), ("number", "text"), ("mixed", "bigint")]
    for name, kind in set_to:
        mirror.database.ask("INSERT INTO streetmap_columns VALUES ('items', %s, %s)", name, kind)
    mirror.database.ask("SELECT streetmap_make_views()")
    kinds = dict(columns_of(mirror, "collections.items"))
    got = [kinds[name] for name, _ in set_to]
    mirror.context.check("types that are set", got, [kind for _, kind in set_to])
    query = "SELECT text, set::text, number, mixed FROM collections.items ORDER BY id"
    wanted = [(7, "2024-05-01", "7", None), (None, None, str(-(2**63)), 5)]
    mirror.context.check("their values", mirror.database.ask(query), wanted)


def check_readers(mirror: Mirror) -> None:
    """A view that is read is made again later; one that another view is on stays as it was."""
    reading = psycopg2.connect(mirror.database.dsn)
    reading.cursor().execute("SELECT count(*) FROM collections.items")
    begun = time.monotonic()
    line = mirror.accept("v3", [item("3", {"is": "no"})])
    mirror.context.check("a line while a view is read", mirror.put(line), None)
    mirror.context.check("nobody waits long", time.monotonic() - begun < 5, True)
    kind = dict(columns_of(mirror, "collections.items"))["is"]
    mirror.context.check("the view that is read", kind, "boolean")
    reading.close()
    mirror.context.check("a later line", mirror.put(mirror.accept("v4", [])), None)
    kind = dict(columns_of(mirror, "collections.items"))["is"]
    mirror.context.check("the view is made again", kind, "text")
    mirror.database.ask('CREATE VIEW on_it AS SELECT "is" FROM collections.items')
    line = mirror.accept("v5", [item("4", {"is": [1], "new": 1})])
    mirror.context.check("a line with a view on a view", mirror.put(line), None)
    kinds = dict(columns_of(mirror, "collections.items"))
    mirror.context.check("the view stays", (kinds["is"], "new" in kinds), ("text", False))
    mirror.database.ask("DROP VIEW on_it; SELECT streetmap_make_views()")
    kinds = dict(columns_of(mirror, "collections.items"))
    mirror.context.check("the view, by hand", (kinds["is"], kinds.get("new")), ("jsonb", "bigint"))
    mirror.check("after all views")


def check_many(mirror: Mirror) -> None:
    """A batch that opens many collections; their views are made some at a time."""
    edits = [open_collection(f"many-{number}") for number in range(120)]
    mirror.context.check("many collections", mirror.put(mirror.accept("v6", edits)), None)
    for number in range(3):
        mirror.put(mirror.accept(f"v7-{number}", []))
    query = "SELECT count(*) FROM pg_views WHERE schemaname = 'collections'"
    mirror.context.check("their views", mirror.database.ask(query), [(122,)])
    mirror.check("many collections")


def check_indexes(mirror: Mirror) -> None:
    """A box and a property are found by indexes, through a view too."""
    box = "geometry && ST_MakeEnvelope(565000, 5934000, 565001, 5934001, 25832)"
    for name, where in (
        ("streetmap_features_geometry", box),
        ("streetmap_features_properties", """properties @> '{"number":7}'"""),
        ("streetmap_features_time", "time && '[2024-05-01,2024-05-02)'"),
    ):
        query = f"EXPLAIN SELECT id FROM streetmap_features WHERE {where.replace('%', '%%')}"
        plan = mirror.database.ask(f"SET enable_seqscan = off; SET enable_indexscan = on; {query}")
        mirror.context.check(f"by {name}", name in str(plan), True)
    plan = mirror.database.ask(
        f"SET enable_seqscan = off; EXPLAIN SELECT id, number FROM collections.items WHERE {box}"
    )
    found = "streetmap_features_geometry" in str(plan) or "streetmap_features_pkey" in str(plan)
    mirror.context.check("a box of a view by an index", found, True)


def check_views(context: Context, cluster: Database) -> None:
    mirror = Mirror.new(context, cluster, "mirror_views")
    check_seen(mirror)
    check_names(mirror)
    check_settings(mirror)
    check_readers(mirror)
    check_many(mirror)
    check_indexes(mirror)
