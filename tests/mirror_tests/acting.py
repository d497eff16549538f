"""Random batches, good and bad, in groups: the mirror acts and refuses as the model does."""

import copy
import random
from typing import Any

from followers_tests.postgres import Database
from harness import Context
from messages import delete, feature, open_collection, put
from mirror_tests.mirrors import Mirror, batch_text
from model import Refused, Value

NAMES = ("lamps", "Trees.x", "a-b_c")
IDS = ("1", "2", "L1", "way/12 ü", 'q"\\,"properties":', "\u20ac", "Z", "a")
TIMES = ("2024-05-01", "2024-05-01T10:00:00.1234567Z", "../2020-02-29T23:59:59+14:00", None)
BAD_TIMES = ("2023-02-29", "2024-05-01T24:00:00Z", 7, "x", "2024-05-02T00:00:00Z/2024-05-01T00:00Z")
TEXTS = ("", "ü", 'a"b\\', "\\u0000", "\0", "x\0\0y\\\0", "\ufffd", "\t\n\x7f", "\U0001f600", "/")


class Maker:
    """Makes edits by chance, of which some are refused."""

    def __init__(self, seed: int) -> None:
        self.random = random.Random(seed)

    def value(self, depth: int = 0) -> Any:
        chance = self.random
        kind = chance.randrange(8 if depth < 2 else 6)
        if kind == 6:
            return [self.value(depth + 1) for _ in range(chance.randrange(3))]
        if kind == 7:
            return self.properties(depth + 1)
        numbers = chance.choice((0, -5, 2**53 + 1, -(2**63), 2**64 - 1))
        return (None, True, False, numbers, chance.randrange(99), chance.choice(TEXTS))[kind]

    def properties(self, depth: int = 0) -> Value:
        names = self.random.sample(("a", "b", "ID", "id", "", "ü", "geometry", "x" * 70), 3)
        return {name: self.value(depth) for name in names}

    def position(self) -> list[int]:
        x, y = (self.random.randint(-(10**9), 10**9) for _ in range(2))
        return [x, y, self.random.randrange(-9, 9)] if self.random.random() < 0.2 else [x, y]

    def ring(self) -> list[list[int]]:
        ring = [self.position() for _ in range(3 + self.random.randrange(3))]
        return [*ring, ring[0]]

    def shape(self) -> Value:
        line = lambda: [self.position() for _ in range(2 + self.random.randrange(3))]
        polygon = lambda: [self.ring() for _ in range(1 + self.random.randrange(2))]
        kinds: dict[str, Any] = {
            "Point": self.position,
            "MultiPoint": line,
            "LineString": line,
            "MultiLineString": lambda: [line(), line()],
            "Polygon": polygon,
            "MultiPolygon": lambda: [polygon(), polygon()],
        }
        kind = self.random.choice(list(kinds))
        return {"type": kind, "coordinates": kinds[kind]()}

    def geometry(self) -> Value | None:
        kind = self.random.randrange(9)
        if kind == 0:
            return None
        if kind == 1:
            members = [self.shape() for _ in range(1 + self.random.randrange(3))]
            return {"type": "GeometryCollection", "geometries": members}
        return self.shape()

    def feature(self, identity: str) -> Value:
        properties = self.properties() if self.random.random() < 0.9 else None
        if properties is not None and self.random.random() < 0.6:
            times = BAD_TIMES if self.random.random() < 0.04 else TIMES
            properties["set"] = self.random.choice(times)
        return feature(identity, self.geometry(), properties)

    def edit(self, there: dict[str, set[str]]) -> Value:
        """An edit, as a rule one that the state allows."""
        chance = self.random
        name = chance.choice(NAMES)
        identity = chance.choice(IDS)
        if (name not in there) == (chance.random() < 0.97):
            more = {"time": "set"} if chance.random() < 0.7 else {}
            return open_collection(name, **more)
        is_there = identity in there.get(name, set())
        if chance.random() < 0.03:
            is_there = not is_there
        if not is_there:
            return put("insert", name, self.feature(identity))
        if chance.random() < 0.4:
            return delete(name, identity)
        return put("replace", name, self.feature(identity))

    def batch(self, mirror: Mirror, most: int) -> list[Value]:
        there = {name: set(it.features) for name, it in mirror.ledger.collections.items()}
        edits: list[Value] = []
        for _ in range(self.random.randrange(most + 1)):
            edit = self.edit(there)
            edits.append(edit)
            if edit["op"] == "open":
                there.setdefault(edit["collection"], set())
            elif edit["op"] == "insert":
                there.setdefault(edit["collection"], set()).add(edit["feature"]["id"])
            elif edit["op"] == "delete":
                there[edit["collection"]].discard(edit["id"])
        return edits


def check_refused(mirror: Mirror, lines: list[Any], edits: list[Value], refused: Refused) -> None:
    """A batch that the model refuses, as the next line after others: nothing of them is kept."""
    before = mirror.state()
    line = mirror.line(batch_text("refused", edits))
    place = f" {refused.body['place']}" if "place" in refused.body else ""
    wanted = f"refused {line.serial} {refused.body['code']}{place}"
    mirror.context.check("what is refused", mirror.put(*lines, line), wanted)
    mirror.context.check(f"nothing changes: {wanted}", mirror.state(), before)


def check_acting(context: Context, cluster: Database, rounds: int) -> None:
    """Groups of batches; each batch that is refused is tried after those of its group."""
    mirror, maker = Mirror.new(context, cluster, "acting"), Maker(rounds)
    number = 0
    for at in range(rounds):
        lines = []
        for _ in range(1 + maker.random.randrange(5)):
            edits = maker.batch(mirror, 8)
            number += 1
            try:
                lines.append(mirror.accept(f"k{number}", copy.deepcopy(edits)))
            except Refused as refused:
                check_refused(mirror, lines, edits, refused)
        if lines:
            context.check(f"group {at}", mirror.put(*lines), None)
        if at % 3 == 0:
            context.check(f"group {at}, again", mirror.put(*lines) if lines else None, None)
            mirror.check(f"after group {at}")
    mirror.check("at the end")
    print(f"  {mirror.serial} batches acted, {number - mirror.serial} were refused")
