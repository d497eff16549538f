"""What the mirror knows of a collection: its serials, and the kinds of values of its properties.

A property has the kinds that were seen in it. If the office has set a type for its column
(`streetmap_columns`), it has that type alone, as in the view of the collection.
"""

from collections.abc import Iterator
from dataclasses import dataclass

from psycopg2.sql import SQL, Literal

from ..problems import Problem
from .database import Reading, Row
from .filters import Kind

COLLECTION = """
SELECT mirror.serial, opened.title, opened.time, opened.changed
FROM streetmap_mirror AS mirror LEFT JOIN streetmap_collections AS opened ON opened.id = {}
"""
PROPERTIES = """
SELECT name, given.type, array_agg(noted.kind) FILTER (WHERE noted.kind IS NOT NULL)
FROM (SELECT * FROM streetmap_properties WHERE collection = {0}) AS noted
FULL JOIN (SELECT * FROM streetmap_columns WHERE collection = {0}) AS given USING (name)
GROUP BY name, given.type ORDER BY min(noted.seen), name
"""
SEEN = {"number": Kind.NUMBER, "large": Kind.NUMBER, "string": Kind.TEXT, "boolean": Kind.BOOLEAN}
SET = {
    "text": {Kind.TEXT},
    "bigint": {Kind.NUMBER},
    "numeric": {Kind.NUMBER},
    "boolean": {Kind.BOOLEAN},
    "date": {Kind.TEXT, Kind.TIME},
    "timestamptz": {Kind.TEXT, Kind.TIME},
    "jsonb": set[Kind](),
}
# Names that are the feature's own. A property of such a name is in answers alone.
ID, GEOMETRY = "id", "geometry"
# The order in which values of several kinds are sorted.
ORDER = (Kind.NUMBER, Kind.TEXT, Kind.BOOLEAN)


@dataclass(frozen=True)
class Property:
    """A property: the kinds of JSON values seen in it, the type that the office has set, and
    whether it is the collection's time."""

    name: str
    seen: frozenset[str] = frozenset()
    set_type: str | None = None
    is_time: bool = False

    @property
    def kinds(self) -> set[Kind]:
        """The kinds of values that it can be compared with. A text may be a time."""
        if self.set_type is not None:
            return SET[self.set_type]
        kinds = {SEEN[kind] for kind in self.seen if kind in SEEN}
        return kinds | {Kind.TIME} if Kind.TEXT in kinds else kinds


@dataclass(frozen=True)
class Catalogue:
    """A collection in one state: the serial of the state, that of the collection's last change, and
    the properties by their names, in the order in which they were first seen."""

    collection: str
    title: str
    serial: int
    changed: int
    properties: dict[str, Property]

    def scalars(self) -> Iterator[Property]:
        """The properties that filters can compare."""
        return (it for it in self.properties.values() if it.kinds and it.name != GEOMETRY)


IDENTITY = Property(ID, frozenset({"string"}), "text")


def no_collection() -> Problem:
    return Problem(404, "no_collection", "The mirror has no such collection.")


def read_opened(reading: Reading, collection: str) -> Row:
    """The serial of the state, and the collection's title, time and serial."""
    found = None
    if "\0" not in collection:
        found = reading.row(SQL(COLLECTION).format(Literal(collection)))
    if found is None or found[1] is None:
        raise no_collection()
    return found


def read_catalogue(reading: Reading, collection: str) -> Catalogue:
    """What the mirror knows of a collection; a refusal if it has none of this name."""
    serial, title, time, changed = read_opened(reading, collection)
    rows = reading.rows(SQL(PROPERTIES).format(Literal(collection)))
    made = [
        Property(name, frozenset(kinds or ()), set_type, name == time)
        for name, set_type, kinds in rows
        if name not in (ID, GEOMETRY)
    ]
    properties = {ID: IDENTITY} | {each.name: each for each in made}
    return Catalogue(collection, title, serial, changed, properties)
