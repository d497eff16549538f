"""Pages by box, interval, limit and id of all kinds of features, beside plain rules."""

import random
from pathlib import Path
from typing import Any

from harness import Context
from messages import feature, get, open_collection, point, put
from model import Ledger, Request
from sqlite_file import change

TOWN = "/collections/town/items"
HEDGES = "/collections/hedges/items"
REACH = 400
# More than the index reads one by one for a page: the store then finds the page row by row.
HEDGE_COUNT = 2_400
WEST, EAST = -REACH - 9, REACH + 9
# A hedge that each page of hedges selects.
SPOILT = 7


def a_ring(chance: random.Random, x: int, y: int) -> list[list[int]]:
    """A ring of any direction, which may cross itself."""
    corners = [near(chance, x, y) for _ in range(chance.randint(3, 6))]
    return [*corners, corners[0]]


def near(chance: random.Random, x: int, y: int) -> list[int]:
    return [x + chance.randint(-40, 40), y + chance.randint(-40, 40)]


def a_geometry(chance: random.Random, kind: int) -> dict[str, Any] | None:
    x, y = chance.randint(-REACH, REACH), chance.randint(-REACH, REACH)

    def places(least: int) -> list[list[int]]:
        return [near(chance, x, y) for _ in range(chance.randint(least, 5))]

    def rings() -> list[list[list[int]]]:
        return [a_ring(chance, x, y) for _ in range(chance.randint(1, 3))]

    kinds: list[tuple[str, Any]] = [
        ("Point", [x, y]),
        ("MultiPoint", places(1)),
        ("LineString", places(2)),
        ("MultiLineString", [places(2), places(2)]),
        ("Polygon", rings()),
        ("MultiPolygon", [rings(), rings()]),
    ]
    if kind < len(kinds):
        return {"type": kinds[kind][0], "coordinates": kinds[kind][1]}
    members = [a_geometry(chance, chance.randrange(6)) for _ in range(chance.randint(1, 3))]
    return {"type": "GeometryCollection", "geometries": members} if kind == 6 else None


def a_time(chance: random.Random) -> str | None:
    day = f"2024-{chance.randint(1, 12):02}-{chance.randint(1, 28):02}"
    moment = f"{day}T{chance.randrange(24):02}:30:00"
    choices = [day, f"{moment}Z", f"{moment}.25+02:00", f"{moment}Z/..", f"../{moment}Z", None]
    return chance.choice([*choices, f"{day}T00:00:00Z/2024-12-31T23:59:59.999999999-05:00"])


def a_feature(chance: random.Random, identity: str) -> dict[str, Any]:
    return feature(identity, a_geometry(chance, chance.randrange(8)), {"when": a_time(chance)})


def a_query(chance: random.Random, ids: list[str]) -> str:
    parts = []
    if chance.random() < 0.7:
        size = chance.choice((0, 3, 30, 200, 2 * REACH))
        x, y = chance.randint(-REACH, REACH), chance.randint(-REACH, REACH)
        parts.append(f"bbox={x},{y},{x + chance.randint(0, size)},{y + size}")
    if chance.random() < 0.4:
        day = f"2024-{chance.randint(1, 12):02}-15"
        parts.append(f"datetime={day}T12:00:00Z{chance.choice(('', '/..'))}")
    if chance.random() < 0.5:
        parts.append(f"after={chance.choice(ids)}")
    chance.shuffle(parts)
    return "&".join([*parts, f"limit={chance.choice((1, 2, 10, 100, 1000))}"])


def edits_of(chance: random.Random, kept: set[str], turn: int) -> list[dict[str, Any]]:
    """Features that come, change and go, some of them twice in one batch."""
    added = [f"{chance.getrandbits(40):x}-{turn}" for _ in range(12)]
    edits = [put("insert", "town", a_feature(chance, it)) for it in added]
    kept |= set(added)
    for identity in chance.sample(sorted(kept), 10):
        edits.append(put("replace", "town", a_feature(chance, identity)))
    for identity in chance.sample(sorted(kept), 8):
        edits.append({"op": "delete", "collection": "town", "id": identity})
        kept.remove(identity)
    return edits


def a_town(chance: random.Random, size: int, turns: int) -> list[Request]:
    """A town of features of each kind, and pages of it between batches."""
    kept = {f"{chance.getrandbits(40):x}" for _ in range(size)}
    first = [open_collection("town", time="when")]
    first += [put("insert", "town", a_feature(chance, it)) for it in sorted(kept)]
    asked = [Request("POST", "/batches", {"key": "town", "edits": first})]
    for turn in range(turns):
        ids = chance.sample(sorted(kept), 5)
        asked += [Request("GET", f"{TOWN}?{a_query(chance, ids)}") for _ in range(8)]
        batch = {"key": f"turn-{turn}", "edits": edits_of(chance, kept, turn)}
        asked.append(Request("POST", "/batches", batch))
    return asked


def town(context: Context, seed: int) -> None:
    """Over a file, where pages are found by the index, and in memory."""
    asked = a_town(random.Random(seed), 600, 25)
    ledger = Ledger()
    wanted = [ledger.answer(it) for it in asked]
    file = context.new_file(f"town-{seed}")
    got = context.run("pipe", file, sent=b"".join(it.sent for it in asked))
    context.check(f"the pages of town {seed}", got, b"".join(wanted))
    lines = [line_of(it) for it in asked]
    ledger = Ledger()
    answers = context.run("lines", sent="".join(lines).encode()).decode().splitlines()
    for line, answer in zip(lines, answers, strict=True):
        context.check(line, answer, ledger.line(line.removesuffix("\n")))


def line_of(asked: Request) -> str:
    if asked.batch is not None:
        return f"batch {asked.text}\n"
    return f"page town {asked.query}\n"


def a_hedge(chance: random.Random, number: int) -> dict[str, Any]:
    """A line across the northing 0, or one far north of it."""
    x, y = chance.randint(-REACH, REACH), 0 if number < HEDGE_COUNT else 10_000
    line = {"type": "LineString", "coordinates": [[x - 2, y - 3], [x + 2, y + 3], [x, y + 9]]}
    when = "2024-12-31" if number == SPOILT else a_time(chance)
    return feature(f"hedge-{number:05}", line, {"when": when})


def hedges(context: Context) -> None:
    """Pages whose box enough lines cross, beyond two edges, that the store finds them row by
    row, also if a row that no answer needs cannot be read. Of those that cross one edge alone
    only what is shown is read."""
    chance, ledger = random.Random(9), Ledger()
    numbers = [*range(HEDGE_COUNT + 5)]
    chance.shuffle(numbers)
    edits = [open_collection("hedges", time="when")]
    edits += [put("insert", "hedges", a_hedge(chance, number)) for number in numbers]
    planted = Request("POST", "/batches", {"key": "hedges", "edits": edits})
    context.check("hedges are planted", ledger.answer(planted)[9:12], b"200")
    file = context.new_file("hedges", planted.sent)
    boxes = [f"bbox={WEST},{south},{EAST},{north}" for south, north in ((0, 2), (-2, 3), (1, 8))]
    queries = [f"{box}&limit={limit}" for box in boxes for limit in (1, 3, 1000)]
    queries += [f"{box}&after=hedge-01200&limit=5" for box in boxes]
    queries += [f"{box}&datetime=2024-06-01T00:00:00Z/..&limit=20" for box in boxes]
    pages = [Request("GET", f"{HEDGES}?{query}") for query in queries]
    across = f"bbox={WEST},-3,{EAST},3"
    ends = ("limit=3", "after=hedge-01200&limit=5", "datetime=2024-06-01T00:00:00Z/..&limit=20")
    counted = [Request("GET", f"{HEDGES}?{across}&{end}") for end in ends]
    wanted = b"".join(ledger.answer(it) for it in counted)
    got = context.run("pipe", file, sent=b"".join(it.sent for it in counted))
    context.check("pages of lines across one edge", got, wanted)
    for _ in range(2):
        wanted = b"".join(ledger.answer(it) for it in pages)
        got = context.run("pipe", file, sent=b"".join(it.sent for it in pages))
        context.check("pages that are found row by row", got, wanted)
        spoil(file, f"hedge-{HEDGE_COUNT:05}")
    spoil(file, f"hedge-{SPOILT:05}")
    for page in pages:
        (answer,) = context.pipe(file, page.sent)
        found = answer.status, answer.json()["code"]
        context.check(f"{page.query}: a row unread", found, (500, "damaged"))
    (answer,) = context.pipe(file, counted[0].sent)
    context.check("the first of these, a row unread", answer.json()["numberMatched"], HEDGE_COUNT)
    (answer,) = context.pipe(file, get(f"{HEDGES}?bbox={WEST},9990,{EAST},10010"))
    context.check("a page that shows the other row", answer.status, 500)
    (answer,) = context.pipe(file, get(f"{HEDGES}?bbox=9000,0,9001,1"))
    context.check("a page of nothing", answer.json()["numberMatched"], 0)


def spoil(file: Path, identity: str) -> None:
    """Makes the text of a feature unreadable."""
    change(file, f"UPDATE streetmap_features SET body = 'unreadable' WHERE id = '{identity}'")


def run(context: Context) -> None:
    for seed in range(20 if context.slow else 3):
        town(context, seed)
    hedges(context)
