"""Filters as a plain model: what each is as text of CQL2, and whether it holds of a feature.

Written from the standard (OGC 21-065r2) and from docs/CLIENTS.md, and not from the gateway. What is
unknown is None, as in SQL: a comparison with a value that is not there, or is of another kind.
"""

import re
from collections.abc import Callable, Sequence
from dataclasses import dataclass
from decimal import Decimal
from typing import Any

from mirror_tests.crossing import Area, area_of, areas_meet
from model import Interval, read_time

Truth = bool | None
Feature = dict[str, Any]


@dataclass(frozen=True)
class Filter:
    """A filter: its text, and what it is of a feature."""

    text: str
    holds: Callable[[Feature], Truth]


def quoted(text: str) -> str:
    return "'" + text.replace("'", "''") + "'"


def name_of(name: str) -> str:
    is_plain = re.fullmatch(r"[^\W\d]\w*", name) is not None
    return name if is_plain else '"' + name.replace('"', '""') + '"'


def value_of(feature: Feature, name: str) -> Any:
    return feature["id"] if name == "id" else (feature["properties"] or {}).get(name)


def number_in(value: Any) -> Decimal | None:
    is_number = isinstance(value, int) and not isinstance(value, bool)
    return Decimal(value) if is_number else None


def set_number_in(value: Any) -> Decimal | None:
    """The number of a property whose column the office has set to numeric."""
    if isinstance(value, str) and re.fullmatch(r"-?[0-9]{1,40}(\.[0-9]{1,40})?", value):
        return Decimal(value)
    return number_in(value)


def text_in(value: Any) -> str | None:
    return value if isinstance(value, str) else None


def boolean_in(value: Any) -> bool | None:
    return value if isinstance(value, bool) else None


def time_in(value: Any) -> Interval | None:
    try:
        return read_time({"time": value}, "time")
    except ValueError:
        return None


def order(one: Any, other: Any) -> int:
    """Which of two values is less: by numbers, by code points, by time as a whole."""
    if isinstance(one, Interval):
        if one.meets(other):
            return 0
        is_before = one.end is not None and other.start is not None and one.end < other.start
        return -1 if is_before else 1
    return int(one > other) - int(one < other)


OPERATORS: dict[str, Callable[[int], bool]] = {
    "=": lambda found: found == 0,
    "<>": lambda found: found != 0,
    "<": lambda found: found < 0,
    ">": lambda found: found > 0,
    "<=": lambda found: found <= 0,
    ">=": lambda found: found >= 0,
}
Read = Callable[[Any], Any]


def compared(name: str, read: Read, operator: str, text: str, value: Any) -> Filter:
    def holds(feature: Feature) -> Truth:
        found = read(value_of(feature, name))
        return None if found is None else OPERATORS[operator](order(found, value))

    return Filter(f"{name_of(name)} {operator} {text}", holds)


def turned(made: Filter, name: str, operator: str, text: str) -> Filter:
    """The same comparison with its sides exchanged."""
    other = {"<": ">", ">": "<", "<=": ">=", ">=": "<="}.get(operator, operator)
    return Filter(f"{text} {other} {name_of(name)}", made.holds)


def conjunction(parts: Sequence[Filter]) -> Filter:
    def holds(feature: Feature) -> Truth:
        found = [part.holds(feature) for part in parts]
        return False if False in found else None if None in found else True

    return Filter("(" + " AND ".join(part.text for part in parts) + ")", holds)


def disjunction(parts: Sequence[Filter]) -> Filter:
    def holds(feature: Feature) -> Truth:
        found = [part.holds(feature) for part in parts]
        return True if True in found else None if None in found else False

    return Filter("(" + " OR ".join(part.text for part in parts) + ")", holds)


def negation(part: Filter) -> Filter:
    def holds(feature: Feature) -> Truth:
        found = part.holds(feature)
        return None if found is None else not found

    return Filter(f"NOT {part.text}" if part.text[0] == "(" else f"NOT ({part.text})", holds)


def is_null(name: str, word: str) -> Filter:
    def holds(feature: Feature) -> Truth:
        value = feature["geometry"] if name == "geometry" else value_of(feature, name)
        return (value is None) != bool(word)

    return Filter(f"{name_of(name)} IS {word}NULL", holds)


def denied(found: Truth, word: str) -> Truth:
    return found if found is None or not word else not found


def like(name: str, pattern: str, word: str) -> Filter:
    """`%` is any characters, `_` one, and a backslash takes its meaning from what follows it."""
    pieces = re.findall(r"\\(?s:.)|(?s:.)", pattern)
    wild = {"%": "(?s:.*)", "_": "(?s:.)"}
    expression = "".join(
        re.escape(it[1]) if len(it) == 2 else wild.get(it, re.escape(it)) for it in pieces
    )

    def holds(feature: Feature) -> Truth:
        found = text_in(value_of(feature, name))
        is_like = None if found is None else re.fullmatch(expression, found) is not None
        return denied(is_like, word)

    return Filter(f"{name_of(name)} {word}LIKE {quoted(pattern)}", holds)


def between(name: str, read: Read, bounds: Sequence[tuple[str, Any]], word: str) -> Filter:
    (lower_text, lower), (upper_text, upper) = bounds

    def holds(feature: Feature) -> Truth:
        found = read(value_of(feature, name))
        if found is None:
            return None
        return denied(order(found, lower) >= 0 and order(found, upper) <= 0, word)

    return Filter(f"{name_of(name)} {word}BETWEEN {lower_text} AND {upper_text}", holds)


def among(name: str, read: Read, values: Sequence[tuple[str, Any]], word: str) -> Filter:
    def holds(feature: Feature) -> Truth:
        found = read(value_of(feature, name))
        if found is None:
            return None
        return denied(any(order(found, value) == 0 for _, value in values), word)

    listed = ", ".join(text for text, _ in values)
    return Filter(f"{name_of(name)} {word}IN ({listed})", holds)


def intersects(text: str, area: Area) -> Filter:
    def holds(feature: Feature) -> Truth:
        found = area_of(feature["geometry"])
        return None if found is None else areas_meet(found, area)

    return Filter(f"S_INTERSECTS(geometry, {text})", holds)
