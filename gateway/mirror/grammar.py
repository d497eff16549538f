"""The text form of CQL2 (OGC 21-065r2, annex B), as far as it is read here, by a grammar for lark.

Read are Basic CQL2, the advanced comparison operators, S_INTERSECTS with each geometry of WKT and
BBOX, DATE and TIMESTAMP. A comparison has a property on one side and a value on the other. Keywords
are read in either case. A name that is no identifier is in double quotes, one within doubled.
"""

import calendar
import re
from collections.abc import Sequence
from typing import Any

from lark import Lark, Token, Transformer, v_args
from lark.exceptions import UnexpectedInput, UnexpectedToken

from ..grid import decimal_of
from .filters import MOST_CHARACTERS, Among, And, Between, Comparison, Constant, FilterFault
from .filters import Intersects, IsNull, Kind, Like, Literal, Name, Node, Not, Or, Position, Shape
from .filters import check_size

GRAMMAR = r"""
?start: either
?either: both (_OR both)*
?both: factor (_AND factor)*
?factor: NOT factor -> negation
    | primary
?primary: "(" either ")"
    | TRUE -> constant
    | FALSE -> constant
    | name OPERATOR literal -> compared
    | literal OPERATOR name -> turned
    | name [NOT] LIKE text -> like
    | name [NOT] BETWEEN literal _AND literal -> between
    | name [NOT] IN "(" literal ("," literal)* ")" -> among
    | name _IS [NOT] NULL -> null
    | S_INTERSECTS "(" name "," shape ")" -> intersects
    | S_INTERSECTS "(" shape "," name ")" -> intersects

name: NAME | QUOTED
?literal: text
    | NUMBER -> number
    | TRUE -> boolean
    | FALSE -> boolean
    | DATE "(" TEXT ")" -> date
    | TIMESTAMP "(" TEXT ")" -> timestamp
text: TEXT

?shape: member
    | GEOMETRYCOLLECTION "(" member ("," member)* ")" -> collected
?member: POINT "(" position ")" -> single
    | LINESTRING path -> single
    | POLYGON rings -> single
    | MULTIPOINT "(" each_position ("," each_position)* ")" -> points
    | MULTILINESTRING "(" path ("," path)* ")" -> lines
    | MULTIPOLYGON "(" rings ("," rings)* ")" -> polygons
    | BBOX "(" NUMBER ("," NUMBER)* ")" -> box
?each_position: "(" position ")" | position
position: NUMBER NUMBER [NUMBER]
path: "(" position ("," position)* ")"
rings: "(" path ("," path)* ")"

_OR.3: /OR(?![\w:.])/i
_AND.3: /AND(?![\w:.])/i
NOT.3: /NOT(?![\w:.])/i
LIKE.3: /LIKE(?![\w:.])/i
BETWEEN.3: /BETWEEN(?![\w:.])/i
IN.3: /IN(?![\w:.])/i
_IS.3: /IS(?![\w:.])/i
NULL.3: /NULL(?![\w:.])/i
TRUE.3: /TRUE(?![\w:.])/i
FALSE.3: /FALSE(?![\w:.])/i
DATE.3: /DATE(?=\s*\()/i
TIMESTAMP.3: /TIMESTAMP(?=\s*\()/i
S_INTERSECTS.3: /S_INTERSECTS(?=\s*\()/i
POINT.3: /POINT(\s*Z)?(?=\s*\()/i
LINESTRING.3: /LINESTRING(\s*Z)?(?=\s*\()/i
POLYGON.3: /POLYGON(\s*Z)?(?=\s*\()/i
MULTIPOINT.3: /MULTIPOINT(\s*Z)?(?=\s*\()/i
MULTILINESTRING.3: /MULTILINESTRING(\s*Z)?(?=\s*\()/i
MULTIPOLYGON.3: /MULTIPOLYGON(\s*Z)?(?=\s*\()/i
GEOMETRYCOLLECTION.3: /GEOMETRYCOLLECTION(\s*Z)?(?=\s*\()/i
BBOX.3: /BBOX(?=\s*\()/i
NUMBER.2: /[+-]?([0-9]+([.][0-9]*)?|[.][0-9]+)([eE][+-]?[0-9]+)?/
OPERATOR: /<>|<=|>=|=|<|>/
NAME: /([^\W\d]|:)[\w:.]*/
QUOTED: /"([^"]|"")+"/
TEXT: /'(''|\\'|[^'\\]|\\(?!'))*'/
%ignore /[ \t\r\n]+/
"""
# What people call the tokens of the grammar.
SPOKEN = {
    "NAME": "a property",
    "QUOTED": "a property",
    "TEXT": "a text in '..'",
    "NUMBER": "a number",
    "OPERATOR": "a comparison operator",
    "$END": "the end",
    "LPAR": "(",
    "RPAR": ")",
    "COMMA": ",",
}
TURNED = {"=": "=", "<>": "<>", "<": ">", ">": "<", "<=": ">=", ">=": "<="}
DAY = re.compile(r"([0-9]{4})-([0-9]{2})-([0-9]{2})")
MOMENT = re.compile(
    DAY.pattern + r"[Tt]([01][0-9]|2[0-3]):[0-5][0-9]:[0-5][0-9]([.][0-9]{1,9})?"
    r"([Zz]|[-+]([01][0-9]|2[0-3]):[0-5][0-9])"
)
# The numbers of a box without heights, and with them.
FLAT_BOX, HIGH_BOX = 4, 6
# The characters of the place of a fault that are shown. What is expected at a place is not computed
# farther on, since that takes some time for each character before it.
SHOWN, NEAR = 20, 2000


def read_filter(text: str) -> Node:
    """What a filter says; a FilterFault names the place of what it does not."""
    if len(text) > MOST_CHARACTERS:
        detail = f"The filter has more than {MOST_CHARACTERS} characters."
        raise FilterFault(MOST_CHARACTERS, detail)
    try:
        node: Node = PARSER.parse(text)  # type: ignore[assignment]
    except UnexpectedInput as fault:
        raise unexpected(text, fault) from fault
    check_size(node)
    return node


def unexpected(text: str, fault: UnexpectedInput) -> FilterFault:
    """The fault of a text that leaves the grammar at some place."""
    is_end = isinstance(fault, UnexpectedToken) and fault.token.type == "$END"
    place = len(text) if is_end else int(fault.pos_in_stream or 0)
    found = "its end" if is_end else f"{text[place:place + SHOWN]!r}"
    expected = expected_after(text[:place]) if place <= NEAR else ()
    return FilterFault(place, f"The filter cannot be read at {found}.", expected)


def expected_after(text: str) -> tuple[str, ...]:
    """What may follow the first part of a filter, as people call it."""
    parser = PARSER.parse_interactive(text)
    parser.exhaust_lexer()
    names: set[str] = parser.accepts()  # type: ignore[no-untyped-call]
    return tuple(sorted({SPOKEN.get(name, name.strip("_")) for name in names}))


def negated(node: Node, word: Token | None) -> Node:
    return node if word is None else Not(node.place, node)


def check_day(place: int, year: str, month: str, day: str) -> None:
    """Refuses a day that is not in the Gregorian calendar."""
    is_month = 1 <= int(month) <= 12
    if not is_month or not 1 <= int(day) <= calendar.monthrange(int(year), int(month))[1]:
        raise FilterFault(place, "There is no such day.")


def text_of(token: Token) -> str:
    """The text in quotes. Within it a quote is doubled, or has a backslash before it."""
    text = re.sub(r"''|\\'", "'", token[1:-1])
    if "\0" in text:
        raise FilterFault(place_of(token), "A text cannot have U+0000.")
    return text


def place_of(token: Token) -> int:
    assert token.start_pos is not None
    return int(token.start_pos)


def number_of(token: Token) -> str:
    """The text of a number, as JSON has it."""
    number = decimal_of(token)
    if number is None:
        raise FilterFault(place_of(token), "A number has too many digits.")
    return str(number)


@v_args(inline=True)
class Reader(Transformer[Token, Any]):
    """Makes nodes of what the parser finds, from within to without, as it goes."""

    def either(self, *parts: Node) -> Node:
        return Or(parts[0].place, parts)

    def both(self, *parts: Node) -> Node:
        return And(parts[0].place, parts)

    def negation(self, word: Token, part: Node) -> Node:
        return Not(place_of(word), part)

    def constant(self, word: Token) -> Node:
        return Constant(place_of(word), word.upper() == "TRUE")

    def compared(self, name: Name, operator: Token, value: Literal) -> Node:
        return Comparison(name.place, name, str(operator), value)

    def turned(self, value: Literal, operator: Token, name: Name) -> Node:
        return Comparison(value.place, name, TURNED[operator], value)

    def like(self, name: Name, word: Token | None, _: Token, pattern: Literal) -> Node:
        escapes = len(pattern.text) - len(pattern.text.rstrip("\\"))
        if escapes % 2:
            raise FilterFault(pattern.place, "The pattern ends with an escape.")
        return negated(Like(name.place, name, pattern), word)

    def between(
        self, name: Name, word: Token | None, _: Token, lower: Literal, upper: Literal
    ) -> Node:
        check_one_kind((lower, upper))
        return negated(Between(name.place, name, lower, upper), word)

    def among(self, name: Name, word: Token | None, _: Token, *values: Literal) -> Node:
        check_one_kind(values)
        return negated(Among(name.place, name, values), word)

    def null(self, name: Name, word: Token | None, _: Token) -> Node:
        return negated(IsNull(name.place, name), word)

    def intersects(self, word: Token, one: Name | Shape, other: Name | Shape) -> Node:
        name, shape = (one, other) if isinstance(one, Name) else (other, one)
        assert isinstance(name, Name) and isinstance(shape, Shape)
        return Intersects(place_of(word), name, shape)

    def name(self, token: Token) -> Name:
        is_quoted = token.type == "QUOTED"
        found = token[1:-1].replace('""', '"') if is_quoted else str(token)
        return Name(place_of(token), found)

    def text(self, token: Token) -> Literal:
        return Literal(place_of(token), Kind.TEXT, text_of(token))

    def number(self, token: Token) -> Literal:
        return Literal(place_of(token), Kind.NUMBER, number_of(token))

    def boolean(self, token: Token) -> Literal:
        return Literal(place_of(token), Kind.BOOLEAN, token.lower())

    def date(self, word: Token, token: Token) -> Literal:
        text = text_of(token)
        found = DAY.fullmatch(text)
        if found is None:
            raise FilterFault(place_of(token), "A date is written as '2024-05-01'.")
        check_day(place_of(token), *found.groups())
        return Literal(place_of(word), Kind.TIME, text)

    def timestamp(self, word: Token, token: Token) -> Literal:
        text = text_of(token)
        found = MOMENT.fullmatch(text)
        if found is None:
            detail = "A timestamp is written as '2024-05-01T12:00:00Z'."
            raise FilterFault(place_of(token), detail)
        check_day(place_of(token), found[1], found[2], found[3])
        return Literal(place_of(word), Kind.TIME, text)

    def position(self, x: Token, y: Token, _height: Token | None) -> Position:
        return number_of(x), number_of(y)

    def path(self, *positions: Position) -> tuple[Position, ...]:
        return positions

    def rings(self, *paths: tuple[Position, ...]) -> tuple[tuple[Position, ...], ...]:
        return paths

    def single(self, word: Token, found: Any) -> Shape:
        kind = kind_of(word)
        paths = {"POINT": ((found,),), "LINESTRING": (found,), "POLYGON": found}[kind]
        return checked(Shape(place_of(word), kind, paths))

    def points(self, word: Token, *positions: Position) -> Shape:
        return several(word, "POINT", [((position,),) for position in positions])

    def lines(self, word: Token, *paths: tuple[Position, ...]) -> Shape:
        return several(word, "LINESTRING", [(path,) for path in paths])

    def polygons(self, word: Token, *rings: tuple[tuple[Position, ...], ...]) -> Shape:
        return several(word, "POLYGON", rings)

    def collected(self, word: Token, *members: Shape) -> Shape:
        return Shape(place_of(word), kind_of(word), parts=members)

    def box(self, word: Token, *numbers: Token) -> Shape:
        if len(numbers) not in (FLAT_BOX, HIGH_BOX):
            detail = "A box has four numbers, or six with heights."
            raise FilterFault(place_of(word), detail)
        half = len(numbers) // 2
        corners = tuple((number_of(at[0]), number_of(at[1])) for at in (numbers, numbers[half:]))
        return Shape(place_of(word), kind_of(word), (corners,))


def check_one_kind(values: Sequence[Literal]) -> None:
    for value in values:
        if value.kind != values[0].kind:
            detail = f"All values have to be of one kind, here {values[0].kind.value}."
            raise FilterFault(value.place, detail, (values[0].kind.value,))


def kind_of(word: Token) -> str:
    return word.upper().removesuffix("Z").strip()


def several(word: Token, kind: str, parts: Sequence[tuple[tuple[Position, ...], ...]]) -> Shape:
    """A geometry of parts of one type."""
    place = place_of(word)
    made = tuple(checked(Shape(place, kind, part)) for part in parts)
    return Shape(place, kind_of(word), parts=made)


def checked(shape: Shape) -> Shape:
    """Refuses a line of one position, and a ring that is not closed."""
    for path in shape.paths:
        if shape.kind == "LINESTRING" and len(path) < 2:
            raise FilterFault(shape.place, "A line has two positions or more.")
        if shape.kind == "POLYGON" and (len(path) < 4 or path[0] != path[-1]):
            detail = "A ring has four positions or more, and ends where it begins."
            raise FilterFault(shape.place, detail)
    return shape


PARSER = Lark(GRAMMAR, parser="lalr", maybe_placeholders=True, transformer=Reader())
