"""A file that the program wrote, read by SQLite; tables in another order; wrong rows."""

import json
from pathlib import Path
from typing import Any

from examples import EXAMPLES
from harness import Context
from messages import Answer, Edit, delete, feature, get, open_collection, point, post, put
from sqlite_file import FORMAT_OF, change, copy_file, rows

Reply = tuple[int, Any]
TABLES = {
    "streetmap_meta": [("name", "TEXT", 1, 1), ("value", "INTEGER", 1, 0)],
    "streetmap_collections": [
        ("id", "TEXT", 1, 1),
        ("title", "TEXT", 1, 0),
        ("time", "TEXT", 0, 0),
    ],
    "streetmap_features": [
        ("collection", "TEXT", 1, 1),
        ("id", "TEXT", 1, 2),
        ("body", "TEXT", 1, 0),
        *((name, "INTEGER", 0, 0) for name in ("x0", "y0", "x1", "y1", "s0", "s1")),
    ],
    "streetmap_batches": [
        ("key", "TEXT", 1, 1),
        ("body", "TEXT", 1, 0),
        *(
            (name, "INTEGER", 1, 0)
            for name in ("opened", "inserted", "replaced", "deleted", "serial")
        ),
    ],
}
LAMP = feature("L1", point(1000, 2000))
LINE = feature(
    "L2", {"coordinates": [[0, 9], [7, -3]], "type": "LineString"}, {"when": "2024-05-01T00:00:00Z"}
)
DAY = feature("L3", None, {"when": "2024-05-01"})
OPEN_END = feature("L4", point(5, 5), {"when": "2024-05-01T00:00:00Z/.."})
MOVED_LINE = {**LINE, "geometry": point(1, 1)}
WORKS = open_collection("works", time="when", title="Works")
BATCHES = {
    "b1": [open_collection("lamps"), put("insert", "lamps", LAMP)],
    "b2": [WORKS, *(put("insert", "works", it) for it in (LINE, DAY, OPEN_END, LAMP))],
    "b3": [delete("works", "L1"), put("replace", "works", MOVED_LINE)],
}
DAY_START = 1_714_521_600


def text(value: Any) -> str:
    """The compact text of a value, its members in order."""
    return json.dumps(value, separators=(",", ":"), sort_keys=True)


def batch_text(key: str, edits: list[Edit]) -> bytes:
    return post(text({"edits": edits, "key": key}))


def reply(key: str, serial: int, **counts: int) -> Reply:
    zeros = {"deleted": 0, "inserted": 0, "opened": 0, "replaced": 0}
    return 200, zeros | counts | {"key": key, "serial": serial}


def town_file(context: Context, name: str) -> Path:
    return context.new_file(name, *(batch_text(*it) for it in BATCHES.items()))


def replies(answers: list[Answer]) -> list[Reply]:
    return [(answer.status, answer.json()) for answer in answers]


def check_tables(context: Context, file: Path) -> None:
    """The tables that SQLite finds in the file of the town, and that they are sound."""

    def check(what: str, query: str, wanted: list[Any]) -> None:
        context.check(what, rows(file, query), wanted)

    check("integrity", "PRAGMA integrity_check", [("ok",)])
    check("references", "PRAGMA foreign_key_check", [])
    names = "SELECT name, strict FROM pragma_table_list WHERE name LIKE 'streetmap_%' ORDER BY 1"
    check("strict tables", names, [(name, 1) for name in sorted(TABLES)])
    for name, columns in TABLES.items():
        query = f"SELECT name, type, \"notnull\", pk FROM pragma_table_info('{name}') ORDER BY cid"
        check(f"columns of {name}", query, columns)


def definitions(file: Path) -> set[str]:
    """The definitions of tables, but for spaces."""
    found = rows(file, "SELECT sql FROM sqlite_schema WHERE type = 'table'")
    return {"".join(sql.split()) for (sql,) in found}


def check_new_tables(context: Context) -> None:
    """`create` makes the tables of examples/tables.sql, and they are those of a file."""
    new, other = context.new_file("new"), context.folder / "other"
    change(other, (EXAMPLES / "tables.sql").read_text())
    context.check("the tables of a new file", definitions(new), definitions(other))
    context.check("the rows of a new file", rows(new, FORMAT_OF), rows(other, FORMAT_OF))
    context.check("the file of those tables", context.run("check", other), b"ok 0 0 0\n")


def check_rows(context: Context, file: Path) -> None:
    """The rows that SQLite finds in the file of the town."""

    def check(what: str, query: str, wanted: list[Any]) -> None:
        context.check(what, rows(file, query), wanted)

    check("format", "SELECT * FROM streetmap_meta", [("format", 2)])
    collections = [("lamps", "lamps", None), ("works", "Works", "when")]
    check("collections", "SELECT * FROM streetmap_collections ORDER BY id", collections)
    no_extent, no_time = (None,) * 4, (None, None)
    features = [
        ("lamps", "L1", text(LAMP), 1000, 2000, 1000, 2000, *no_time),
        ("works", "L2", text(MOVED_LINE), 1, 1, 1, 1, DAY_START, DAY_START),
        ("works", "L3", text(DAY), *no_extent, DAY_START, DAY_START + 86_399),
        ("works", "L4", text(OPEN_END), 5, 5, 5, 5, DAY_START, 1_000_000_000_000),
    ]
    check("features", "SELECT * FROM streetmap_features ORDER BY collection, id", features)
    counts = "key, opened, inserted, replaced, deleted, serial"
    batches = [("b1", 1, 1, 0, 0, 1), ("b2", 1, 4, 0, 0, 2), ("b3", 0, 0, 1, 1, 3)]
    check("batches", f"SELECT {counts} FROM streetmap_batches ORDER BY serial", batches)
    bodies = rows(file, "SELECT body FROM streetmap_batches ORDER BY serial")
    kept = [[edit["op"] for edit in json.loads(body)["edits"]] for (body,) in bodies]
    sent = [[edit["op"] for edit in edits] for edits in BATCHES.values()]
    context.check("the edits in the texts of batches", kept, sent)


def check_written_file(context: Context) -> Path:
    """What SQLite reads; and what the program reads once SQLite folded the log into the file."""
    file = town_file(context, "town")
    check_tables(context, file)
    check_rows(context, file)
    change(file, "PRAGMA wal_checkpoint(TRUNCATE)")
    again = replies(context.pipe(file, batch_text("b1", BATCHES["b1"])))
    context.check("a repeat behind SQLite", again, [reply("b1", 1, opened=1, inserted=1)])
    check_tables(context, file)
    check_rows(context, file)
    return file


# Another table, which is first, and then ours in another order than `create` makes them in.
OTHER_ORDER = """
CREATE TABLE notes (id INTEGER PRIMARY KEY, text TEXT) STRICT;
INSERT INTO notes VALUES (1, 'a'), (2, 'b');
CREATE TABLE streetmap_batches (key TEXT PRIMARY KEY, body TEXT NOT NULL,
  opened INTEGER NOT NULL, inserted INTEGER NOT NULL, replaced INTEGER NOT NULL,
  deleted INTEGER NOT NULL, serial INTEGER NOT NULL UNIQUE) STRICT;
CREATE TABLE streetmap_collections (id TEXT PRIMARY KEY, title TEXT NOT NULL, time TEXT) STRICT;
CREATE TABLE streetmap_features (
  collection TEXT NOT NULL REFERENCES streetmap_collections(id), id TEXT NOT NULL,
  body TEXT NOT NULL, x0 INTEGER, y0 INTEGER, x1 INTEGER, y1 INTEGER, s0 INTEGER, s1 INTEGER,
  PRIMARY KEY (collection, id)) STRICT;
CREATE TABLE streetmap_meta (name TEXT PRIMARY KEY, value INTEGER NOT NULL) STRICT;
INSERT INTO streetmap_meta VALUES ('format', 2);
"""
EXTENT = "SELECT x0, y0, x1, y1, s0, s1 FROM streetmap_features"
COUNTS = (
    "SELECT (SELECT count(*) FROM streetmap_features), (SELECT count(*) FROM streetmap_batches)"
)


def check_other_order(context: Context) -> None:
    """Batches over tables that follow another table and in another order."""
    file = context.folder / "beside"
    change(file, OTHER_ORDER)

    def answer(key: str, *edits: Edit) -> Answer:
        (answer,) = context.pipe(file, batch_text(key, list(edits)))
        return answer

    def refusal(answer: Answer) -> Reply:
        return answer.status, {name: answer.json().get(name) for name in ("code", "place")}

    first = [open_collection("lamps"), put("insert", "lamps", LAMP)]
    spaced = post(json.dumps({"key": "b1", "edits": first}))
    told = replies(context.pipe(file, batch_text("b1", first), spaced))
    context.check("a batch and its repeat", told, [reply("b1", 1, opened=1, inserted=1)] * 2)
    used = refusal(answer("b1", delete("lamps", "L1")))
    context.check("a used key", used, (409, {"code": "key_used", "place": None}))
    seventh, again = (put("insert", "lamps", feature(name)) for name in ("L7", "L1"))
    refused = refusal(answer("b2", seventh, again))
    context.check("a refused batch", refused, (409, {"code": "feature_exists", "place": 2}))
    context.check("nothing of it is kept", rows(file, COUNTS), [(1, 1)])
    context.check("the extent", rows(file, EXTENT), [(1000, 2000, 1000, 2000, None, None)])
    moved = replies([answer("b2", put("replace", "lamps", feature("L1", point(5, 6))))])
    context.check("a replacement", moved, [reply("b2", 2, replaced=1)])
    context.check("the new extent", rows(file, EXTENT), [(5, 6, 5, 6, None, None)])
    deleted = replies([answer("b3", delete("lamps", "L1"))])
    context.check("a deletion", deleted, [reply("b3", 3, deleted=1)])
    context.check("no feature", rows(file, EXTENT), [])
    context.check("the other table", rows(file, "SELECT * FROM notes"), [(1, "a"), (2, "b")])
    context.check("the counts beside it", context.run("check", file), b"ok 1 0 3\n")


# One row made wrong, each in a copy of the file of the town.
WRONG_ROWS = (
    "UPDATE streetmap_features SET body = 'unreadable' WHERE id = 'L4'",
    "UPDATE streetmap_features SET body = replace(body, '{', '{ ') WHERE id = 'L4'",
    "UPDATE streetmap_features SET body = replace(body, 'L4', 'L5') WHERE id = 'L4'",
    "UPDATE streetmap_features SET x1 = x1 + 1 WHERE id = 'L4'",
    "UPDATE streetmap_features SET y0 = NULL WHERE id = 'L4'",
    "UPDATE streetmap_features SET x0 = 0, y0 = 0, x1 = 0, y1 = 0 WHERE id = 'L3'",
    "UPDATE streetmap_features SET s1 = s1 - 1 WHERE id = 'L3'",
    "UPDATE streetmap_features SET s0 = NULL, s1 = NULL WHERE id = 'L3'",
    "UPDATE streetmap_features SET s0 = 0, s1 = 0 WHERE collection = 'lamps'",
    "UPDATE streetmap_collections SET time = NULL WHERE id = 'works'",
    "UPDATE streetmap_collections SET title = 'a' || char(10) WHERE id = 'lamps'",
    "INSERT INTO streetmap_collections VALUES ('.', 'Dot', NULL)",
    "UPDATE streetmap_batches SET serial = 4 WHERE serial = 3",
    "UPDATE streetmap_batches SET inserted = 10001 WHERE serial = 3",
    "UPDATE streetmap_batches SET deleted = -1 WHERE serial = 3",
    "UPDATE streetmap_batches SET key = '' WHERE serial = 3",
    "DELETE FROM streetmap_batches WHERE serial = 1",
    "INSERT INTO streetmap_meta VALUES ('other', 1)",
    "DROP TABLE streetmap_features",
    "DROP TABLE streetmap_batches",
)
# What a file is not opened for: a feature that refers to no collection.
NOT_OPENED = ("UPDATE streetmap_features SET collection = 'none' WHERE id = 'L4'",)


def check_wrong_rows(context: Context, file: Path) -> None:
    """`check` counts what the program wrote, and reports each wrong row."""
    context.check("the counts", context.run("check", file), b"ok 2 4 3\n")
    for script in WRONG_ROWS + NOT_OPENED:
        wrong = copy_file(file, context.folder / "wrong")
        change(wrong, script)
        damaged = script in WRONG_ROWS
        wanted = (
            (3, b"", b"streetmap: damaged\n") if damaged else (1, b"", b"streetmap: not_ours\n")
        )
        ended = context.start("check", wrong)
        context.check(script, (ended.returncode, ended.stdout, ended.stderr), wanted)


def page_of(answer: Answer) -> tuple[list[str], int]:
    page = answer.json()
    return [it["id"] for it in page["features"]], page["numberMatched"]


MIXED = "/collections/mixed/items"
PAGES = {
    "limit=10": (["A", "B", "C"], 3),
    "bbox=0,6,3,9": (["B", "C"], 2),
    "bbox=0,6,3,9&limit=1": (["B"], 2),
    "after=B&bbox=0,6,3,9": (["C"], 2),
    "datetime=2024-05-01T00:00:00Z": (["B"], 1),
    "datetime=2024-05-01T00:00:00Z/..&bbox=2,8,3,9": (["C"], 1),
}


def mixed_file(context: Context) -> Path:
    """A file of two collections, whose pages and extents are those wanted."""
    features = [
        feature("C", point(2, 8), {"when": "2024-05-01T00:00:00.5Z"}),
        feature("A", {"coordinates": [[0, 0], [10, 10]], "type": "LineString"}),
        feature("B", point(1, 7), {"when": "2024-05-01T00:00:00Z"}),
    ]
    opened = [open_collection("trees", title="Trees"), open_collection("mixed", time="when")]
    edits = [*opened, *(put("insert", "mixed", it) for it in features)]
    file = context.new_file("damaged", batch_text("b1", edits))
    pages = context.pipe(file, *(get(f"{MIXED}?{query}") for query in PAGES))
    context.check("pages", list(map(page_of, pages)), list(PAGES.values()))
    (answer,) = context.pipe(file, get("/collections"))
    found = [
        (it["id"], it["title"], it.get("extent", {}).get("spatial", {}).get("bbox"))
        for it in answer.json()["collections"]
    ]
    wanted = [("mixed", "mixed", [[0, 0, 10, 10]]), ("trees", "Trees", None)]
    context.check("collections", found, wanted)
    return file


def check_unreadable_rows(context: Context) -> None:
    """A row that no answer needs spoils none; one that an answer needs is reported as a fault of
    the server, and the file is left."""
    file = mixed_file(context)

    def statuses(*targets: str) -> list[int]:
        return [answer.status for answer in context.pipe(file, *map(get, targets))]

    change(file, "UPDATE streetmap_features SET body = 'unreadable' WHERE id = 'C'")
    (page,) = context.pipe(file, get(f"{MIXED}?bbox=1,7,1,7"))
    context.check("a page beside it", page_of(page), (["B"], 1))
    context.check("a page that shows it", statuses(f"{MIXED}?bbox=2,8,2,8"), [500])
    context.check("the feature, and nothing behind it", statuses(f"{MIXED}/C", MIXED), [500])
    (other,) = context.pipe(file, get(f"{MIXED}/B"))
    context.check("another feature", other.json()["id"], "B")
    change(file, "UPDATE streetmap_features SET x0 = NULL WHERE id = 'C'")
    context.check("a bound that is missing", statuses("/collections/mixed"), [500])
    others = statuses("/collections/trees", "/collections/trees/items")
    context.check("another collection", others, [200, 200])
    ended = context.start("export", file, "--collection", "mixed")
    got = (ended.returncode, ended.stderr)
    context.check("its export", got, (3, b"streetmap: damaged\n"))


def run(context: Context) -> None:
    check_new_tables(context)
    file = check_written_file(context)
    check_wrong_rows(context, file)
    check_other_order(context)
    check_unreadable_rows(context)
