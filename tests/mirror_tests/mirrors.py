"""A mirror in a database of its own, and the plain model that it has to be like."""

import json
import sys
from dataclasses import dataclass, field, replace
from typing import Any

from followers_tests.postgres import Database
from followers_tests.processes import DEPLOY
from harness import Context
from model import Feature, Geometry, Interval, Ledger, Position, Value, compact, edit_text, vertices

sys.path.insert(0, str(DEPLOY))

from journal_lines import Fault, Line  # noqa: E402
from journal_mirror import MirroredTable, OfficeSystem  # noqa: E402

SYSTEM = OfficeSystem(25832, 565_000_000, 5_934_000_125)
FEATURES = """
SELECT collection, id, serial, body, properties::text, ST_AsGeoJSON(grid, 0),
    ARRAY(SELECT ARRAY[ST_X(it.geom), ST_Y(it.geom)] FROM ST_DumpPoints(geometry) AS it),
    (1000000 * extract(epoch FROM lower(time)))::bigint,
    (1000000 * extract(epoch FROM upper(time)))::bigint, upper_inc(time)
FROM streetmap_features ORDER BY collection, id
"""
STATE = """
SELECT (SELECT serial FROM streetmap_mirror), (SELECT max(serial) FROM streetmap_journal),
    (SELECT md5(string_agg(it::text, '|' ORDER BY it.id)) FROM streetmap_collections AS it),
    (SELECT md5(string_agg(it::text, '|' ORDER BY it.collection, it.id))
     FROM streetmap_features AS it)
"""


def batch_text(key: str, edits: list[Value]) -> bytes:
    """The text by which a server knows a batch."""
    return compact({"edits": [edit_text(it) for it in edits], "key": key}).encode()


def filled(geometry: Geometry | None) -> Geometry | None:
    """A geometry as PostGIS has it: if some positions have a height, others have 0."""
    found = list(vertices(geometry))
    if geometry is None or not any(len(it) == 3 for it in found):
        return geometry
    whole: Geometry = raised(geometry)
    return whole


def raised(value: Any) -> Any:
    if isinstance(value, dict):
        return {name: raised(it) for name, it in value.items()}
    if isinstance(value, list):
        is_flat = len(value) == 2 and all(isinstance(it, int) for it in value)
        return [*value, 0] if is_flat else [raised(it) for it in value]
    return value


def without_zeros(value: Any) -> Any:
    """A value as jsonb has it, which takes no U+0000."""
    if isinstance(value, dict):
        return {without_zeros(name): without_zeros(it) for name, it in value.items()}
    if isinstance(value, list):
        return [without_zeros(it) for it in value]
    return value.replace("\0", "\ufffd") if isinstance(value, str) else value


def placed(found: list[Position]) -> list[list[float]]:
    """The positions in the office's system: the doubles nearest to the exact coordinates."""
    return [[(SYSTEM.easting + it[0]) / 1000, (SYSTEM.northing + it[1]) / 1000] for it in found]


def time_columns(time: Interval | None) -> tuple[int | None, int | None, bool | None]:
    """The least range of microseconds that holds a time: both ends, and whether it has the last."""
    if time is None:
        return None, None, None
    start = None if time.start is None else time.start // 1000
    if time.end is None:
        return start, None, False
    is_whole = time.end % 1000 == 0
    return start, time.end // 1000 + (not is_whole), is_whole


@dataclass
class Mirror:
    """A database with a mirror, the model's ledger, and of each feature the serial of its last
    change."""

    context: Context
    database: Database
    ledger: Ledger = field(default_factory=Ledger)
    serials: dict[tuple[str, str], int] = field(default_factory=dict)

    @classmethod
    def new(cls, context: Context, cluster: Database, name: str) -> "Mirror":
        """An empty mirror in a new database of a cluster."""
        cluster.ask_alone(f"CREATE DATABASE {name}")
        made = cls(context, replace(cluster, name=name))
        made.table().make()
        return made

    def table(self) -> MirroredTable:
        return MirroredTable(self.database.dsn, "mirror", SYSTEM)

    @property
    def serial(self) -> int:
        return len(self.ledger.accepted)

    def put(self, *lines: Line) -> str | None:
        """Puts lines in, as the transport does: the fault, or None."""
        table = self.table()
        try:
            table.put(lines)
            table.complete()
        except Fault as fault:
            return str(fault)
        finally:
            table.close()
        return None

    def line(self, text: bytes, serial: int | None = None) -> Line:
        """A text as the line of a serial; of the next one if none is given."""
        return Line(serial or self.serial + 1, text)

    def accept(self, key: str, edits: list[Value]) -> Line:
        """Lets the model accept a batch; its line."""
        text = batch_text(key, edits)
        serial = int(self.ledger.apply({"key": key, "edits": edits})["serial"])
        for edit in edits:
            if edit["op"] != "open":
                identity = edit["id"] if edit["op"] == "delete" else edit["feature"]["id"]
                self.serials[edit["collection"], str(identity)] = serial
        return Line(serial, text)

    def state(self) -> Any:
        """What shows that nothing has changed."""
        return self.database.ask(STATE)[0]

    def wanted(self, collection: str, feature: Feature) -> tuple[object, ...]:
        """The columns of a feature, by the model."""
        value = feature.value
        identity = value["id"]
        return (
            collection,
            identity,
            self.serials[collection, identity],
            compact(value),
            without_zeros(value["properties"]),
            filled(value["geometry"]),
            placed(list(vertices(value["geometry"]))),
            *time_columns(feature.time),
        )

    def check(self, what: str) -> None:
        """Compares the collections, and all columns of all features, with the model's."""
        check, ledger = self.context.check, self.ledger
        found = self.database.ask("SELECT id, title, time FROM streetmap_collections ORDER BY id")
        names = sorted(ledger.collections)
        kept = [(it, ledger.collections[it]) for it in names]
        check(f"{what}: collections", found, [(id, it.title, it.time_property) for id, it in kept])
        rows = [(*row[:4], *map(read, row[4:6]), *row[6:]) for row in self.database.ask(FEATURES)]
        wanted = [self.wanted(id, it) for id, kept_in in kept for it in kept_in.ordered()]
        check(f"{what}: number of features", len(rows), len(wanted))
        differing = [pair for pair in zip(rows, wanted) if pair[0] != pair[1]]
        check(f"{what}: features", differing[:1], [])
        serial = self.database.ask("SELECT serial FROM streetmap_mirror")
        check(f"{what}: serial", serial, [(self.serial,)])


def read(text: object) -> object:
    """The value of a JSON text; None for NULL."""
    return None if text is None else json.loads(str(text))
