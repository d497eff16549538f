"""The serial of each collection's last change, by which a walk knows its state; and the geometries
in EPSG:3857, from which tiles are drawn."""

from typing import Any

from followers_tests.postgres import Database
from followers_tests.rows import LINES
from harness import Context
from messages import delete, feature, open_collection, point, put
from mirror_tests.mirrors import Mirror
from mirror_tests.rows import Journal

CHANGED = "SELECT id, changed FROM streetmap_collections ORDER BY id"
PLACED = """
SELECT id, ST_Distance(mercator, ST_Transform(geometry, 3857)) < 1e-7
FROM streetmap_features ORDER BY id
"""
PLACES = "SELECT count(geometry) > 0, count(mercator) FROM streetmap_features"
# No operation leads from there to EPSG:3857.
NOWHERE = ("--features", "--system", "EPSG:25832", "--shift", "50000000,1000000")


def edit(op: str, collection: str, identity: str) -> dict[str, Any]:
    if op == "delete":
        return delete(collection, identity)
    return put(op, collection, feature(identity, point(1, 1)))


def check_changes(context: Context, cluster: Database) -> None:
    """Insertions, replacements and deletions count, also several lines at once, and those of other
    collections do not. A mirror that was made without the serials is given that of its state."""
    mirror = Mirror.new(context, cluster, "mirror_changes")
    opened = [open_collection("lamps"), open_collection("trees")]
    states = [
        ("opened", [opened], 1, 1),
        ("inserted", [[edit("insert", "lamps", "L")]], 2, 1),
        ("another", [[edit("insert", "trees", "T")]], 2, 3),
        ("replaced", [[edit("replace", "lamps", "L")]], 4, 3),
        ("deleted", [[edit("delete", "trees", "T")]], 4, 5),
        ("together", [[edit("insert", "trees", it)] for it in "AB"], 4, 7),
    ]
    for what, batches, lamps, trees in states:
        lines = [mirror.accept(f"{what}-{at}", edits) for at, edits in enumerate(batches)]
        context.check(f"{what}: acts", mirror.put(*lines), None)
        wanted = [("lamps", lamps), ("trees", trees)]
        context.check(f"the last change, {what}", mirror.database.ask(CHANGED), wanted)
    mirror.database.ask("ALTER TABLE streetmap_collections DROP COLUMN changed")
    mirror.table().make()
    found = mirror.database.ask(CHANGED)
    context.check("of an earlier mirror", found, [("lamps", 7), ("trees", 7)])


def check_places(context: Context, cluster: Database) -> None:
    """Each geometry is also in EPSG:3857, of a mirror that was made without that or by another
    operation too. One that cannot be placed acts all the same."""
    mirror = Mirror.new(context, cluster, "mirror_places")
    edits = [edit("insert", "lamps", "L"), put("insert", "lamps", feature("N", None))]
    lines = [mirror.accept("places", [open_collection("lamps"), *edits])]
    lines += [mirror.accept("moved", [put("replace", "lamps", feature("L", point(7, 7)))])]
    wanted = [("L", True), ("N", None)]
    for line in lines:
        context.check("it acts", mirror.put(line), None)
        context.check("in EPSG:3857", mirror.database.ask(PLACED), wanted)
    for what in (
        "ALTER TABLE streetmap_features DROP COLUMN mercator",
        "UPDATE streetmap_features SET mercator = ST_Translate(mercator, 1, 0)",
    ):
        mirror.database.ask(what)
        mirror.table().make()
        context.check(f"made again: {what}", mirror.database.ask(PLACED), wanted)
    journal = Journal.new(context, cluster, "mirror_nowhere")
    journal.write(LINES)
    journal.row("nowhere", NOWHERE, None, len(LINES))
    context.check("no places", journal.database.ask(PLACES), [(True, 0)])
