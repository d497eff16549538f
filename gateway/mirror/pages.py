"""Pages of features from the mirror, each of one state.

A page follows a feature in the order of the page: by id, or by the values that `sortby` names and
then by id. So a walk over pages of one state shows each feature once. A page carries the serial of
its state, and a link to the next page has it. If the collection has changed since, that page is
refused: nothing of a walk is missed, or shown twice, in silence.
"""

import json
import re
from collections.abc import Iterable, Sequence
from dataclasses import dataclass
from functools import cache
from typing import Any

from psycopg2.sql import SQL, Composable, Literal as Value

from ..boxes import Region
from ..features import GEOMETRY as GEOMETRY_TEXT
from ..features import Feature, transformed_texts, split_features
from ..geojson import compact
from ..grid import BOUND, decimal_of
from ..meeting import meeting
from ..problems import bad_query
from .catalogue import GEOMETRY, ORDER, Catalogue, Property
from .clauses import Clauses, MirrorSystem, joined, value_of
from .database import Reading
from .filters import Comparison, FilterFault, Kind, Literal, Name, Node, Or
from .grammar import read_filter
from .problems import FilterProblem
from .selection import Selection, SortKey
from .shapes import Placing

PAGE = "SELECT id, body FROM streetmap_features WHERE {where} ORDER BY {order} {limit}"
KEYS = "SELECT {keys} FROM streetmap_features WHERE collection = {collection} AND id = {id}"
TIME = "SELECT nullif(streetmap_time(to_jsonb({}::text)), 'empty')::text"
ORDERED = {False: "{} NULLS LAST", True: "{} DESC NULLS LAST"}
WHOLE_GRID = (-BOUND, -BOUND, BOUND, BOUND)
# Rows that are read at once, first and then, as far as those before were short; how many are tested
# for a page, and the bytes that it takes, nearly, at most.
FIRST, AT_ONCE, MOST_TESTED, MOST_BYTES = 16, 250, 20_000, 1 << 25

NUMBER = re.compile(r"-?[0-9]+([.][0-9]+)?([eE][+-]?[0-9]{1,3})?")
# How the text of a feature without its geometry begins.
ID_TEXT = '{"id":'

# What is sorted by, and whether its largest values come first.
Key = tuple[Composable, bool]


@dataclass(frozen=True)
class MirrorPage:
    """A page: the texts of its features with commas between, how many they are, the id after which
    the next page begins, how many match in all, if that is known, and the serial of its state."""

    text: str
    count: int
    after: str | None
    matched: int | None
    serial: int


class Paging:
    """Makes the page of a selection."""

    def __init__(
        self, reading: Reading, system: MirrorSystem, catalogue: Catalogue, selection: Selection
    ) -> None:
        self.reading = reading
        self.system = system
        self.catalogue = catalogue
        self.selection = selection
        placing = Placing(selection.filter_system)
        self.clauses = Clauses(catalogue, system, cache(placing.shape))

    def page(self) -> MirrorPage:
        query = self.selection.query
        box = None if query.box is None else query.box_system.box(query.box)
        region = None if box is None else box.region(WHOLE_GRID)
        self.check_shown()
        keys = [key for each in self.selection.sort for key in self.keys(each)]
        where = [*self.selected(), *self.within(region), *self.following(keys)]
        found, last = self.found(where, keys, region)
        shown = found[: query.limit]
        after = shown[-1].id if len(found) > query.limit else last
        is_whole = query.after is None and after is None
        text = ",".join(transformed_texts([self.cut(each) for each in shown], query.system))
        matched = len(shown) if is_whole else None
        return MirrorPage(text, len(shown), after, matched, self.catalogue.serial)

    def check_shown(self) -> None:
        known = self.catalogue.properties.keys() | {GEOMETRY}
        for name in sorted((self.selection.shown or frozenset()) - known):
            raise bad_query("bad_properties", f"{name!r} is no property of this collection.")

    def selected(self) -> Iterable[Composable]:
        """What features have to be, but for box and order."""
        yield SQL("collection = {}").format(Value(self.catalogue.collection))
        if self.selection.filter is not None:
            try:
                yield from self.of_node(read_filter(self.selection.filter))
            except FilterFault as fault:
                raise FilterProblem(self.selection.filter, fault) from fault
        for name, value in self.selection.values.items():
            yield from self.of_node(self.equal(name, value))
        if self.selection.query.datetime is not None:
            time = self.time(self.selection.query.datetime)
            yield SQL("time && {}::tstzrange").format(Value(time))

    def of_node(self, node: Node) -> Iterable[Composable]:
        yield self.clauses.exact(node)
        hint = self.clauses.hint(node)
        if hint is not None:
            yield hint

    def equal(self, name: str, text: str) -> Node:
        """That a property has the value of a text: of each kind that the property has and that the
        text can be."""
        found = self.catalogue.properties.get(name)
        if found is None or not found.kinds:
            raise bad_query("unknown_parameter", f"The parameter {name} is not known here.")
        read = [Literal(0, kind, value) for kind, value in values_of(text) if kind in found.kinds]
        if not read:
            spoken = " or ".join(sorted(kind.value for kind in found.kinds - {Kind.TIME}))
            raise bad_query("bad_property_value", f"The value of {name} has to be {spoken}.")
        parts = tuple(Comparison(0, Name(0, name), "=", value) for value in read)
        return Or(0, parts)

    def time(self, text: str) -> str:
        """The range of a `datetime`, which the server reads as the mirror does."""
        found = None if "\0" in text else self.reading.row(SQL(TIME).format(Value(text)))
        if found is None or found[0] is None:
            raise bad_query("bad_datetime", "The datetime is neither a date-time nor an interval.")
        return str(found[0])

    def within(self, region: Region | None) -> Iterable[Composable]:
        """What surely holds of features that meet a region."""
        if region is None:
            return
        if region.bounds is None:
            yield SQL("false")
        yield SQL("grid IS NOT NULL")
        if region.parts and region.bounds is not None:
            west, south, east, north = region.bounds
            yield self.system.within((west, south, east, north))

    def keys(self, key: SortKey) -> Iterable[Key]:
        """What a property is sorted by: a value of each kind that it has, one after the other."""
        found = self.catalogue.properties.get(key.name)
        kinds = [] if found is None else [kind for kind in ORDER if kind in found.kinds]
        if found is None or not kinds:
            raise bad_query("bad_sortby", f"{key.name!r} cannot be sorted by.")
        return [(value_of(found, kind), key.is_descending) for kind in kinds]

    def following(self, keys: Sequence[Key]) -> Iterable[Composable]:
        """That a feature comes after the one with which the page before it has ended."""
        after = self.selection.query.after
        if after is None:
            return
        if "\0" in after:
            raise bad_query("bad_after", "There is no such id.")
        found = SQL("id > {}").format(Value(after))
        for (expression, is_descending), value in reversed(list(zip(keys, self.last(keys, after)))):
            parts = {"key": expression, "value": Value(value), "rest": found}
            if value is None:
                found = SQL("({key} IS NULL AND {rest})").format(**parts)
            else:
                beyond = "<" if is_descending else ">"
                text = f"({{key}} {beyond} {{value}} OR {{key}} IS NULL"
                found = SQL(f"{text} OR {{key}} = {{value}} AND {{rest}})").format(**parts)
        yield found

    def last(self, keys: Sequence[Key], after: str) -> Sequence[Any]:
        """The values of the feature with which the page before has ended."""
        if not keys:
            return ()
        asked = SQL(KEYS).format(
            keys=SQL(", ").join(expression for expression, _ in keys),
            collection=Value(self.catalogue.collection),
            id=Value(after),
        )
        found = self.reading.row(asked)
        if found is None:
            raise bad_query("bad_after", "The collection has no feature of this id.")
        return found

    def found(
        self, where: Iterable[Composable], keys: Sequence[Key], region: Region | None
    ) -> tuple[list[Feature], str | None]:
        """The first features, one more than are shown; and if others have to be tested that are not
        yet, the id of the last that was."""
        limit = self.selection.query.limit
        tests = region if region is not None and region.parts else None
        order = [SQL(ORDERED[is_descending]).format(key) for key, is_descending in keys]
        asked = SQL(PAGE).format(
            where=joined(where, "AND"),
            order=SQL(", ").join([*order, SQL("id")]),
            limit=SQL("" if tests is not None else f"LIMIT {limit + 1}"),
        )
        found: list[Feature] = []
        tested = size = 0
        with self.reading.stream(asked) as rows:
            count = FIRST
            while batch := rows.fetchmany(min(limit + 1, count)):
                features = split_features([body.removeprefix(GEOMETRY_TEXT) for _, body in batch])
                found += features if tests is None else those_that_meet(features, tests)
                tested, size = tested + len(batch), size + sum(len(body) for _, body in batch)
                if len(found) > limit:
                    return found, None
                if tested >= MOST_TESTED or size >= MOST_BYTES or self.reading.is_late:
                    return found, batch[-1][0]
                count = max(1, min(AT_ONCE, (MOST_BYTES - size) * tested // size))
        return found, None

    def cut(self, feature: Feature) -> Feature:
        """The feature with the requested properties."""
        shown = self.selection.shown
        if shown is None:
            return feature
        members = json.loads(ID_TEXT + feature.rest)
        if members["properties"] is not None:
            kept = {name: value for name, value in members["properties"].items() if name in shown}
            members["properties"] = kept
        return Feature(feature.geometry, compact(members).removeprefix(ID_TEXT))


def values_of(text: str) -> Iterable[tuple[Kind, str]]:
    """What a text of a query can be, as values of filters."""
    number = decimal_of(text) if NUMBER.fullmatch(text) else None
    if number is not None:
        yield Kind.NUMBER, str(number)
    if text in ("true", "false"):
        yield Kind.BOOLEAN, text
    if "\0" not in text:
        yield Kind.TEXT, text


def those_that_meet(features: list[Feature], region: Region) -> list[Feature]:
    is_met = meeting([feature.geometry for feature in features], region)
    return [feature for feature, meets in zip(features, is_met) if meets]
