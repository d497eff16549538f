"""What a filter says, as a tree, and the fault of a filter that says nothing.

Each part has its place in the text, so that a fault can name it.
"""

from dataclasses import dataclass, field
from enum import Enum

# What a filter may have at most: characters, levels of NOT, AND and OR, and terms: each comparison,
# each value of a list and each position of a geometry is one.
MOST_CHARACTERS, MOST_LEVELS, MOST_TERMS = 8192, 32, 2000


class FilterFault(Exception):
    """A filter that cannot be used: the place in its text, the first at 0, and what was expected
    there."""

    def __init__(self, place: int, detail: str, expected: tuple[str, ...] = ()) -> None:
        super().__init__(detail)
        self.place = place
        self.detail = detail
        self.expected = expected


class Kind(Enum):
    """The kind of a value."""

    NUMBER = "a number"
    TEXT = "a text"
    BOOLEAN = "true or false"
    TIME = "a date or timestamp"


@dataclass(frozen=True)
class Name:
    """A property, `id` or `geometry`."""

    place: int
    name: str


@dataclass(frozen=True)
class Literal:
    """A value: its text, that of a number as JSON has it, of a boolean `true` or `false`."""

    place: int
    kind: Kind
    text: str


@dataclass(frozen=True)
class Node:
    """A part of a filter that is true, false or unknown."""

    place: int

    @property
    def inner(self) -> tuple["Node", ...]:
        return ()

    @property
    def terms(self) -> int:
        return 1


@dataclass(frozen=True)
class Constant(Node):
    value: bool


@dataclass(frozen=True)
class Comparison(Node):
    """One of `=`, `<>`, `<`, `>`, `<=` and `>=`, the property on its left."""

    name: Name
    operator: str
    value: Literal


@dataclass(frozen=True)
class Like(Node):
    name: Name
    pattern: Literal


@dataclass(frozen=True)
class Between(Node):
    """Both bounds are included."""

    name: Name
    lower: Literal
    upper: Literal


@dataclass(frozen=True)
class Among(Node):
    """IN: the value is one of these, all of one kind."""

    name: Name
    values: tuple[Literal, ...]

    @property
    def terms(self) -> int:
        return len(self.values)


@dataclass(frozen=True)
class IsNull(Node):
    name: Name


Position = tuple[str, str]


@dataclass(frozen=True)
class Shape:
    """A geometry of a filter: its type as in WKT or BBOX, and its positions, the numbers as they
    were written and heights left out. A point has one path, a line one, a polygon its rings; parts
    are those of a geometry of several."""

    place: int
    kind: str
    paths: tuple[tuple[Position, ...], ...] = ()
    parts: tuple["Shape", ...] = ()

    @property
    def count(self) -> int:
        return sum(map(len, self.paths)) + sum(part.count for part in self.parts)


@dataclass(frozen=True)
class Intersects(Node):
    """S_INTERSECTS of the features' geometry and one of the filter."""

    name: Name
    shape: Shape

    @property
    def terms(self) -> int:
        return self.shape.count


@dataclass(frozen=True)
class Not(Node):
    part: Node

    @property
    def inner(self) -> tuple[Node, ...]:
        return (self.part,)

    @property
    def terms(self) -> int:
        return 0


@dataclass(frozen=True)
class Several(Node):
    """Nodes joined by one word."""

    parts: tuple[Node, ...] = field(default=())

    @property
    def inner(self) -> tuple[Node, ...]:
        return self.parts

    @property
    def terms(self) -> int:
        return 0


class And(Several):
    """All of them."""


class Or(Several):
    """Any of them."""


def check_size(node: Node) -> None:
    """Refuses a filter of too many levels or terms. It calls nothing again for what lies within."""
    waiting, terms = [(node, 1)], 0
    while waiting:
        found, level = waiting.pop()
        terms += found.terms
        if level > MOST_LEVELS:
            raise FilterFault(found.place, f"The filter has more than {MOST_LEVELS} levels.")
        if terms > MOST_TERMS:
            raise FilterFault(found.place, f"The filter has more than {MOST_TERMS} terms.")
        waiting += [(inner, level + 1) for inner in found.inner]
