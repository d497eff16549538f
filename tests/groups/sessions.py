"""Random sessions of batches, pages and lookups, to the byte, beside plain rules."""

import random
from pathlib import Path
from typing import Any

from harness import Context
from messages import delete, feature, open_collection, point, put
from model import Ledger, Request
from sqlite_file import forget

NAMES = ("c0", "c1", "c2")
IDS = ("f0", "f1", "f2", "f3", "f4", "f5")
KEYS = [key + identity for key in "klmn" for identity in IDS]
RUN_IDS = [f"r{it}" for it in range(900)]
SQUARE = [[5, 5], [5, 25], [25, 25], [25, 5], [5, 5]]
HOLE = [[10, 10], [20, 10], [20, 20], [10, 20], [10, 10]]
# Within a square of 40 mm.
GEOMETRIES = [
    None,
    point(7, 31),
    point(22, 15),
    point(39, 0),
    {"type": "LineString", "coordinates": [[0, 12], [33, 29]]},
    {"type": "LineString", "coordinates": [[18, 38], [26, 3]]},
    {"type": "MultiPoint", "coordinates": [[4, 4], [35, 36]]},
    {"type": "MultiPoint", "coordinates": [[12, 27], [13, 8]]},
    {"type": "Polygon", "coordinates": [SQUARE, HOLE]},
    {"type": "MultiLineString", "coordinates": [[[0, 0], [9, 3]], [[30, 1], [31, 39]]]},
]
# A day, a moment, an interval that is open, or none, and one that cannot be read.
PROPERTIES = [
    None,
    {"when": "2024-05-01"},
    {"when": "2024-05-02T10:00:00Z"},
    {"when": "2024-04-01T00:00:00Z/.."},
    {"when": "../2024-05-01T12:00:00Z", "height": 12},
    {"when": "soon"},
]
QUERIES = (
    "limit=2",
    "bbox=0,0,39,39&limit=2",
    "bbox=23,2,39,39&limit=2",
    "bbox=8,28,39,39&limit=2",
    "bbox=19,16,39,39&limit=2",
    "bbox=12,12,18,18",
    "datetime=2024-05-01T11:00:00Z/..",
    "bbox=0,0,14,28&datetime=../2024-05-01T00:00:00Z&limit=1",
    "bbox=0,0,29,13&datetime=2024-05-01T23:59:59.5Z&limit=1",
    "after=f1&limit=3",
    "datetime=2024-05-01&limit=3",
    "limit=0",
)
LOOKS = [Request("GET", f"/collections/{it}") for it in NAMES]
LOOKS += [Request("GET", "/collections")] * 2


def an_edit(chance: random.Random) -> dict[str, Any]:
    name, identity, kind = chance.choice(NAMES), chance.choice(IDS), chance.randrange(8)
    if kind == 0:
        return open_collection(name, time="when")
    if kind == 1:
        return open_collection(name, title="Lamps")
    if kind == 2:
        return delete(name, identity)
    geometry, properties = chance.choice(GEOMETRIES), chance.choice(PROPERTIES)
    operation = "replace" if kind < 5 else "insert"
    return put(operation, name, feature(identity, geometry, properties))


def a_batch(chance: random.Random) -> Request:
    """One or two edits under one of a few keys, so that keys come again."""
    edits = [an_edit(chance) for _ in range(chance.randint(1, 2))]
    return Request("POST", "/batches", {"key": chance.choice(KEYS), "edits": edits})


def an_insertion(chance: random.Random, name: str, identity: str) -> dict[str, Any]:
    geometry, properties = chance.choice(GEOMETRIES), chance.choice(PROPERTIES[:-1])
    return put("insert", name, feature(identity, geometry, properties))


def a_run(chance: random.Random, key: str) -> Request:
    """A batch that inserts features into one collection, which a file takes 25 by one statement:
    mostly one edit is another, or is refused if the time or the id of a feature is not taken."""
    name, ids = chance.choice(NAMES[:2]), chance.sample(RUN_IDS, chance.choice((7, 24, 25, 26, 51)))
    edits = [an_insertion(chance, name, it) for it in ids]
    others = [
        an_insertion(chance, NAMES[2], ids[0]),
        an_insertion(chance, name, ids[-1]),
        an_insertion(chance, name, chance.choice(RUN_IDS)),
        put("insert", name, feature("late", None, PROPERTIES[-1])),
        put("replace", name, feature(ids[0], chance.choice(GEOMETRIES), None)),
        delete(name, ids[0]),
    ]
    if chance.randrange(3):
        edits.insert(chance.randint(0, len(edits)), chance.choice(others))
    return Request("POST", "/batches", {"key": key, "edits": edits})


def runs(chance: random.Random) -> list[Request]:
    """Two collections, one of them with times, batches of many insertions, and reads."""
    opened = [open_collection(NAMES[0], time="when"), open_collection(NAMES[1])]
    session = [Request("POST", "/batches", {"key": "opened", "edits": opened})]
    for turn in range(12):
        session += [a_run(chance, f"run-{turn}"), *LOOKS[:3]]
    return session


def a_request(chance: random.Random) -> Request:
    kind, name = chance.randrange(5), chance.choice(NAMES)
    if kind == 0:
        return Request(chance.choice(("GET", "GET", "GET", "HEAD", "DELETE")), "/collections")
    if kind > 2:
        return a_batch(chance)
    items = f"/collections/{name}/items"
    targets = [f"/collections/{name}", items, f"{items}/{chance.choice(IDS)}"]
    targets += [f"{items}?{query}" for query in QUERIES]
    return Request("GET", chance.choice(targets))


def as_line(asked: Request) -> str | None:
    """The line that requests the same of a ledger in memory; none if no line does."""
    if asked.batch is not None:
        return f"batch {asked.text}"
    parts = asked.path.split("/")
    if len(parts) == 5:
        return f"feature {parts[2]} {parts[4]}"
    return f"page {parts[2]} {asked.query}" if len(parts) == 4 else None


def over_a_file(context: Context, file: Path, session: list[Request], cut: int) -> None:
    """The session over a file that is opened twice, and what the file then has."""
    ledger = Ledger()
    for part in (session[:cut], session[cut:]):
        wanted = b"".join(ledger.answer(asked) for asked in part)
        got = context.run("pipe", file, sent=b"".join(asked.sent for asked in part))
        context.check(f"{file.name}: {[asked.target for asked in part]}", got, wanted)
    context.check(f"{file.name}: the counts", context.run("check", file), ledger.counted())
    for name in ledger.collections:
        exported = context.run("export", file, "--collection", name)
        context.check(f"{file.name}: the export of {name}", exported, ledger.exported(name))


def in_memory(context: Context, what: str, session: list[Request]) -> None:
    ledger = Ledger()
    lines = [line for line in map(as_line, session) if line is not None]
    wanted = "".join(ledger.line(line) + "\n" for line in lines)
    got = context.run("lines", sent="".join(line + "\n" for line in lines).encode())
    context.check(f"{what}: lines", got.decode(), wanted)


def compare(context: Context, what: str, session: list[Request], cut: int) -> None:
    file = context.new_file(what)
    over_a_file(context, file, session, cut)
    forget(file)
    in_memory(context, what, session)


def run(context: Context) -> None:
    times = 10 if context.slow else 1
    for seed in range(300 * times):
        chance = random.Random(seed)
        session = [a_request(chance) for _ in range(14)]
        compare(context, f"session-{seed}", session, chance.randrange(14))
    for seed in range(60 * times):
        chance = random.Random(-1 - seed)
        session = [asked for _ in range(10) for asked in (a_batch(chance), *LOOKS)]
        compare(context, f"looks-{seed}", session, chance.randrange(60))
    for seed in range(60 * times):
        chance = random.Random(-1_000 - seed)
        session = runs(chance)
        compare(context, f"runs-{seed}", session, chance.randrange(len(session)))
