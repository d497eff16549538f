"""SQL of filters. A request's texts are in it as values alone, quoted by psycopg2; names of tables
and columns, and operators, are those of this module.

A comparison is unknown if the feature has no value of that kind, and what is unknown selects
nothing. The values are compared as jsonb has them, whatever the view of the collection makes of
them. Beside the exact clause of a filter is one for what surely holds if it does, which
PostgreSQL's indexes can find.
"""

from collections.abc import Callable, Iterable
from dataclasses import dataclass
from functools import singledispatchmethod
from itertools import islice

from psycopg2.sql import SQL, Composable, Literal as Value

from ..geojson import compact
from ..grid import STEPS, Grid
from ..outlines import Rectangle
from .catalogue import GEOMETRY, ID, Catalogue, Property
from .filters import Among, And, Between, Comparison, Constant, FilterFault, Intersects, IsNull
from .filters import Kind, Like, Literal, Name, Node, Not, Or, Shape
from .shapes import GridShape

NUMBER_TEXT = "^-?[0-9]{1,40}([.][0-9]{1,40})?$"
WHOLE_TEXT = "^-?[0-9]{1,18}$"
# A value of a kind, or NULL.
SEEN_VALUE = {
    Kind.NUMBER: "CASE jsonb_typeof(properties -> {0})"
    " WHEN 'number' THEN (properties ->> {0})::numeric END",
    Kind.TEXT: "CASE jsonb_typeof(properties -> {0})"
    " WHEN 'string' THEN properties ->> {0} END COLLATE \"C\"",
    Kind.BOOLEAN: "CASE properties -> {0} WHEN 'true' THEN true WHEN 'false' THEN false END",
    Kind.TIME: "nullif(streetmap_time(properties -> {0}), 'empty')",
}
# The same if the office has set a type: texts of such values are values.
SET_VALUE = {
    "text": '(properties ->> {0}) COLLATE "C"',
    "numeric": "CASE WHEN properties ->> {0} ~ {1} THEN (properties ->> {0})::numeric END",
    "boolean": "CASE properties ->> {0} WHEN 'true' THEN true WHEN 'false' THEN false END",
}
# Times are ranges: one is before another as a whole, after it, or has a moment in common with it.
COMPARED = {
    "=": "{0} = {1}",
    "<>": "{0} <> {1}",
    "<": "{0} < {1}",
    ">": "{0} > {1}",
    "<=": "{0} <= {1}",
    ">=": "{0} >= {1}",
}
COMPARED_TIMES = {
    "=": "{0} && {1}",
    "<>": "NOT {0} && {1}",
    "<": "{0} << {1}",
    ">": "{0} >> {1}",
    "<=": "NOT {0} >> {1}",
    ">=": "NOT {0} << {1}",
}
# What a polygon whose rings cross themselves has inside by the even-odd rule.
VALID = "CASE WHEN ST_IsValid(grid) THEN grid ELSE ST_MakeValid(grid) END"
MEETS = "ST_Intersects({valid}, ST_MakeValid(ST_GeomFromText({text}, 0)))"
WITHIN = "geometry && ST_MakeEnvelope({}, {}, {}, {}, {})"
# The names that a refusal lists at most.
SHOWN_NAMES = 50


@dataclass(frozen=True)
class MirrorSystem:
    """The system of the mirror's column `geometry`, and the grid in it."""

    srid: int
    grid: Grid

    def bounds(self, bounds: Rectangle) -> Rectangle:
        """Bounds on the grid in the system, grown by a step."""
        x0, y0, x1, y1 = bounds
        return (
            (self.grid.easting + x0 - 1) / STEPS,
            (self.grid.northing + y0 - 1) / STEPS,
            (self.grid.easting + x1 + 1) / STEPS,
            (self.grid.northing + y1 + 1) / STEPS,
        )

    def within(self, bounds: Rectangle) -> Composable:
        """That a feature's extent meets bounds on the grid, which are grown by a step."""
        return SQL(WITHIN).format(*map(Value, (*self.bounds(bounds), self.srid)))


def joined(clauses: Iterable[Composable], word: str) -> Composable:
    """Clauses joined by AND or OR."""
    return SQL("({})").format(SQL(f" {word} ").join(clauses))


@dataclass(frozen=True)
class Clauses:
    """Makes the clauses of filters over a collection."""

    catalogue: Catalogue
    system: MirrorSystem
    place: Callable[[Shape], GridShape]

    def property(self, name: Name) -> Property:
        """The property of a name; a FilterFault if filters have none of it."""
        if name.name == GEOMETRY:
            raise FilterFault(name.place, "'geometry' is for S_INTERSECTS and IS NULL alone.")
        found = self.catalogue.properties.get(name.name)
        if found is None or not found.kinds:
            detail = f"{name.name!r} is no queryable of this collection."
            raise FilterFault(name.place, detail, tuple(self.names()))
        return found

    def names(self) -> Iterable[str]:
        """Some names that filters have."""
        return [*(each.name for each in islice(self.catalogue.scalars(), SHOWN_NAMES)), GEOMETRY]

    def compared(self, name: Name, value: Literal) -> tuple[Composable, Composable]:
        """What a comparison compares: values of the property, and that of the filter."""
        found = self.property(name)
        if value.kind not in found.kinds:
            spoken = sorted(kind.value for kind in found.kinds)
            detail = f"{name.name!r} cannot be compared with {value.kind.value}."
            raise FilterFault(value.place, detail, tuple(spoken))
        return value_of(found, value.kind), literal(value)

    @singledispatchmethod
    def exact(self, node: Node) -> Composable:
        """The clause of a node: true, false or NULL for each feature."""
        raise TypeError(type(node))

    @exact.register
    def _(self, node: Constant) -> Composable:
        return SQL("true") if node.value else SQL("false")

    @exact.register
    def _(self, node: And) -> Composable:
        return joined(map(self.exact, node.parts), "AND")

    @exact.register
    def _(self, node: Or) -> Composable:
        return joined(map(self.exact, node.parts), "OR")

    @exact.register
    def _(self, node: Not) -> Composable:
        return SQL("(NOT {})").format(self.exact(node.part))

    @exact.register
    def _(self, node: Comparison) -> Composable:
        operators = COMPARED_TIMES if node.value.kind == Kind.TIME else COMPARED
        left, right = self.compared(node.name, node.value)
        return SQL(f"({operators[node.operator]})").format(left, right)

    @exact.register
    def _(self, node: Like) -> Composable:
        left, right = self.compared(node.name, node.pattern)
        return SQL("({} LIKE {})").format(left, right)

    @exact.register
    def _(self, node: Between) -> Composable:
        bounds = (">=", node.lower), ("<=", node.upper)
        parts = [Comparison(node.place, node.name, *bound) for bound in bounds]
        return joined(map(self.exact, parts), "AND")

    @exact.register
    def _(self, node: Among) -> Composable:
        if node.values[0].kind == Kind.TIME:
            parts = [Comparison(node.place, node.name, "=", value) for value in node.values]
            return joined(map(self.exact, parts), "OR")
        pairs = [self.compared(node.name, value) for value in node.values]
        values = SQL(", ").join(right for _, right in pairs)
        return SQL("({} IN ({}))").format(pairs[0][0], values)

    @exact.register
    def _(self, node: IsNull) -> Composable:
        found = node.name.name
        if found in (ID, GEOMETRY):
            return SQL("(id IS NULL)" if found == ID else "(grid IS NULL)")
        self.property(node.name)
        return SQL("(coalesce(jsonb_typeof(properties -> {}), 'null') = 'null')").format(
            Value(found)
        )

    @exact.register
    def _(self, node: Intersects) -> Composable:
        if node.name.name != GEOMETRY:
            detail = f"{node.name.name!r} is no geometry."
            raise FilterFault(node.name.place, detail, (GEOMETRY,))
        shape = self.place(node.shape)
        if shape.bounds is None:
            return SQL("(grid IS NULL AND NULL)")
        valid = SQL(VALID)
        meets = [SQL(MEETS).format(valid=valid, text=Value(text)) for text in shape.texts]
        return joined([self.system.within(shape.bounds), joined(meets, "OR")], "AND")

    @singledispatchmethod
    def hint(self, node: Node) -> Composable | None:
        """What an index finds of what a node selects; None if it finds nothing less than all."""
        return None

    @hint.register
    def _(self, node: And) -> Composable | None:
        found = [each for each in map(self.hint, node.parts) if each is not None]
        return joined(found, "AND") if found else None

    @hint.register
    def _(self, node: Or) -> Composable | None:
        found = [self.hint(part) for part in node.parts]
        known = [each for each in found if each is not None]
        return joined(known, "OR") if len(known) == len(found) else None

    @hint.register
    def _(self, node: Comparison) -> Composable | None:
        found = self.property(node.name)
        is_equal = node.operator == "="
        if node.value.kind == Kind.TIME:
            times = {"=": "=", "<": "<", ">": ">"}
            if found.is_time and node.operator in times:
                return SQL(f"({COMPARED_TIMES[node.operator]})").format(
                    SQL("time"), literal(node.value)
                )
            return None
        if not is_equal or found.set_type is not None:
            return SQL("id = {}").format(Value(node.value.text)) if self.is_id(node) else None
        return contained(found.name, node.value)

    def is_id(self, node: Comparison) -> bool:
        return node.operator == "=" and node.name.name == ID

    @hint.register
    def _(self, node: Among) -> Composable | None:
        parts = tuple(Comparison(node.place, node.name, "=", value) for value in node.values)
        return self.hint(Or(node.place, parts))

    @hint.register
    def _(self, node: Intersects) -> Composable | None:
        bounds = self.place(node.shape).bounds
        return None if bounds is None else self.system.within(bounds)


def value_of(found: Property, kind: Kind) -> Composable:
    """The values of a property that are of a kind, as an expression; NULL for all others."""
    if found.name == ID:
        return SQL("id")
    name = Value(found.name)
    if kind == Kind.TIME:
        return SQL("time") if found.is_time else SQL(SEEN_VALUE[kind]).format(name)
    if found.set_type in ("bigint", "numeric"):
        digits = WHOLE_TEXT if found.set_type == "bigint" else NUMBER_TEXT
        return SQL(SET_VALUE["numeric"]).format(name, Value(digits))
    if found.set_type in SET_VALUE:
        return SQL(SET_VALUE[found.set_type]).format(name)
    return SQL(SEEN_VALUE[kind]).format(name)


def literal(value: Literal) -> Composable:
    """The value of a filter as an expression."""
    cast = {
        Kind.NUMBER: "{}::numeric",
        Kind.TEXT: "{}::text",
        Kind.BOOLEAN: "{}::boolean",
        # Of a constant, so that it is computed once and not for each feature.
        Kind.TIME: "streetmap_time({}::jsonb)",
    }
    text = compact(value.text) if value.kind == Kind.TIME else value.text
    return SQL(cast[value.kind]).format(Value(text))


def contained(name: str, value: Literal) -> Composable:
    """That the properties have this value, as the index of properties finds it."""
    text = compact(value.text) if value.kind == Kind.TEXT else value.text
    return SQL("properties @> {}::jsonb").format(Value(f"{{{compact(name)}:{text}}}"))
