"""Tiles that are kept, or drawn ahead, are those that would be drawn now; and only what is near a
tile changes its tag."""

import random
from dataclasses import dataclass, field
from typing import Any

from followers_tests.postgres import Database
from followers_tests.processes import Process, Script, running, wait_until
from gateway_tests.service import Gateway, gateway
from harness import Context, free_port
from messages import delete, feature, open_collection, point, put
from mirror_tests.front import SYSTEM, TRANSPORT, mirror_settings, reader_of
from mirror_tests.kills import SCRIPT
from mirror_tests.mirrors import SYSTEM as OFFICE
from mirror_tests.mirrors import Mirror
from mirror_tests.tiles import MIDDLE, path_of, tile_of
from model import Value

# Features are within some tiles of level 14; one in a while is longer than all of these.
FAR, LONG, LEVELS = 3_000_000, 200_000_000, (8, 10, 12, 13, 14, 14, 14, 15, 17)
DRAWN = """
SELECT body FROM ST_TileEnvelope({0}, {2}, {1}) AS tile
CROSS JOIN LATERAL ST_Segmentize(
    ST_Expand(tile, ST_Perimeter(tile) / 80), ST_Perimeter(tile) / 40) AS around
CROSS JOIN LATERAL streetmap_draw('lamps', ST_Transform(around, 25832), {0}, {2}, {1})
"""
MAKE = "SELECT streetmap_make_tile()"
DUE = "SELECT count(*) FROM streetmap_tiles WHERE drawn IS NULL OR drawn < changed"
# The middle of the tiles on the grid.
IN_MIDDLE = f"""
SELECT 1000 * ST_X(it) - {OFFICE.easting}, 1000 * ST_Y(it) - {OFFICE.northing}
FROM ST_Transform(ST_SetSRID(ST_MakePoint({MIDDLE[0]}, {MIDDLE[1]}), 4326), 25832) AS it
"""
NOTED = 'SELECT collection, "column", "row" FROM streetmap_tiles ORDER BY 1, 2, 3'


@dataclass
class Asked:
    """A mirror and a gateway over it; each tile by its tag, and the last tag of each."""

    mirror: Mirror
    gateway: Gateway
    chance: random.Random
    bodies: dict[tuple[str, str], bytes] = field(default_factory=dict)
    last: dict[str, tuple[str, int]] = field(default_factory=dict)
    same: int = 0

    def position(self) -> list[int]:
        return [self.chance.randint(-FAR, FAR) for _ in range(2)]

    def edit(self, there: set[str]) -> Value:
        identity = f"L{self.chance.randrange(40)}"
        if identity in there and self.chance.random() < 0.3:
            there.discard(identity)
            return delete("lamps", identity)
        x, y = self.position()
        shape = point(x, y)
        if self.chance.random() < 0.3:
            far = LONG if self.chance.random() < 0.2 else 700_000
            shape = {"type": "LineString", "coordinates": [[x, y], [x + far, y + far]]}
        op = "replace" if identity in there else "insert"
        there.add(identity)
        return put(op, "lamps", feature(identity, shape, {"no": self.chance.randrange(9)}))

    def check(self, at: tuple[int, int, int]) -> None:
        """A tile is what would be drawn now, and the same as long as its tag is the same."""
        check, path = self.mirror.context.check, path_of("lamps", *at)
        answer = self.gateway.ask(path)
        wanted: Any = self.mirror.database.ask(DRAWN.format(*at))[0][0]
        tag = answer.headers["etag"]
        check(f"tile {at} as it is now", answer.content, bytes(wanted or b""))
        kept = self.bodies.setdefault((path, tag), answer.content)
        check(f"tile {at} of {tag}", answer.content, kept)
        before = self.last.get(path, ("", 0))
        self.same += tag == before[0] and self.mirror.serial > before[1]
        self.last[path] = tag, self.mirror.serial

    def tile(self) -> tuple[int, int, int]:
        """A tile near the features."""
        level = self.chance.choice(LEVELS)
        row, column = tile_of(level)
        off = max(0, level - 13) + 1
        return level, row + self.chance.randint(-off, off), column + self.chance.randint(-off, off)


def check_random(asked: Asked, rounds: int) -> None:
    """Random changes, after each of which some tiles are drawn ahead and some requested."""
    there: set[str] = set()
    tiles: list[tuple[int, int, int]] = []
    for number in range(rounds):
        edits = [asked.edit(there) for _ in range(asked.chance.randrange(1, 4))]
        line = asked.mirror.accept(f"r{number}", edits)
        asked.mirror.context.check("it acts", asked.mirror.put(line), None)
        for _ in range(asked.chance.randrange(8)):
            asked.mirror.database.ask(MAKE)
        tiles += [asked.tile() for _ in range(3)]
        for at in asked.chance.sample(tiles, min(len(tiles), 6)):
            asked.check(at)
    asked.mirror.context.check("tags that stay", asked.same > 0, True)


def check_ahead(asked: Asked, reader: str) -> None:
    """The transport draws what is due, and that is what a gateway answers that was started later,
    until a feature in the tile changes."""
    mirror = asked.mirror
    check, database = mirror.context.check, mirror.database
    journal = mirror.context.folder / "drawn.journal"
    journal.write_bytes(database.journal())
    words = Script(mirror.context, SCRIPT).command(journal, database.dsn, *TRANSPORT, "--tiles")
    with running(Process(mirror.context, "drawn-transport", words)):
        wait_until("no tile is due", lambda: database.ask(DUE) == [(0,)], mirror.context.seconds)
    row, column = tile_of(14)
    path = path_of("lamps", 14, row, column)
    asked.check((14, row, column))
    database.ask(f"UPDATE streetmap_tiles SET body = 'x' WHERE \"row\" = {row}")
    with gateway(mirror.context, nowhere(), SYSTEM, mirror_settings(reader)) as later:
        check("a tile that was drawn ahead", later.ask(path).content, b"x")
        tags = []
        for name, off in (("near", 0), ("far", 5_000_000)):
            x, y = (round(float(str(it))) for it in database.ask(IN_MIDDLE)[0])
            one = put("insert", "lamps", feature(name, point(x + off, y)))
            mirror.put(mirror.accept(name, [one]))
            changed = later.ask(path)
            tags.append(changed.headers["etag"])
            check("it is drawn again", changed.content == b"x", False)
        check("its tag after both changes", tags, [f'"{mirror.serial - 1}"'] * 2)


def check_noted(asked: Asked) -> None:
    """A mirror that was made without notes of its tiles gets them."""
    database = asked.mirror.database
    before = set(database.ask(NOTED))
    database.ask("DROP TABLE streetmap_tiles")
    asked.mirror.table().make()
    after = set(database.ask(NOTED))
    asked.mirror.context.check(
        "tiles of an earlier mirror", (bool(after), after - before), (True, set())
    )
    for _ in range(10):
        asked.check(asked.tile())


def nowhere() -> str:
    """The address of a server that is away. No tile needs it."""
    return f"http://127.0.0.1:{free_port()}"


def check_drawn(context: Context, cluster: Database, rounds: int = 15) -> None:
    mirror = Mirror.new(context, cluster, "mirror_drawn")
    mirror.database.ask("ALTER ROLE streetmap_reader LOGIN")
    mirror.put(mirror.accept("open", [open_collection("lamps")]))
    reader = reader_of(mirror.database)
    with gateway(context, nowhere(), SYSTEM, mirror_settings(reader)) as made:
        asked = Asked(mirror, made, random.Random(rounds))
        check_random(asked, rounds)
        check_ahead(asked, reader)
        check_noted(asked)
