"""Geometries of the server and of requests: their positions, and their texts."""

import json
from collections.abc import Callable, Iterable, Iterator
from typing import Any

from .systems import System


class NumberText(str):
    """A number of a request that is not a whole number of 64 bits, as it was written."""


# Made once: json.dumps makes an encoder for each value. What comes out of JSON has no circles.
compact: Callable[[Any], str] = json.JSONEncoder(
    ensure_ascii=False, check_circular=False, separators=(",", ":")
).encode


def positions_of(geometry: dict[str, Any] | None) -> Iterator[list[Any]]:
    """The positions of a geometry: all its arrays of two or three numbers."""
    waiting: list[Any] = [geometry]
    while waiting:
        value = waiting.pop()
        if isinstance(value, dict):
            waiting += [value.get("geometries"), value.get("coordinates")]
        elif isinstance(value, list):
            if len(value) in (2, 3) and all(is_number(each) for each in value):
                yield value
            else:
                waiting += reversed(value)


def is_number(value: Any) -> bool:
    return isinstance(value, (int, NumberText)) and not isinstance(value, bool)


def transform_geometries(geometries: Iterable[dict[str, Any] | None], system: System) -> None:
    """Transforms geometries of the server to a reference system, in place: all positions at
    once."""
    found: list[list[Any]] = []
    for geometry in geometries:
        add_positions(geometry, found)
    system.transform(found)


def add_positions(geometry: dict[str, Any] | None, found: list[list[Any]]) -> None:
    """Adds all positions of a geometry of the server."""
    if geometry is None:
        return
    if geometry["type"] == "GeometryCollection":
        for member in geometry["geometries"]:
            add_positions(member, found)
    else:
        add_leaves(geometry["coordinates"], found)


def add_leaves(coordinates: list[Any], found: list[list[Any]]) -> None:
    """Adds the positions of a position, a line of positions, or lists of such."""
    first = coordinates[0]
    if not isinstance(first, list):
        found.append(coordinates)
    elif not isinstance(first[0], list):
        found += coordinates
    else:
        for each in coordinates:
            add_leaves(each, found)
