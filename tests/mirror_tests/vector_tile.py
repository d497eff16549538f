"""Reads vector tiles (Mapbox Vector Tile 2.1), as plainly as it goes."""

from collections.abc import Iterator
from dataclasses import dataclass
from typing import Any

Point = tuple[int, int]
MOVE, LINE, CLOSE = 1, 2, 7


@dataclass(frozen=True)
class Drawn:
    """A feature of a tile: its kind (1 points, 2 lines, 3 polygons), its properties, and its points
    or paths in units of the tile."""

    kind: int
    properties: dict[str, Any]
    paths: list[list[Point]]


def fields(body: bytes) -> Iterator[tuple[int, Any]]:
    """The fields of a message: numbers as they are, all else as bytes."""
    at = 0
    while at < len(body):
        key, at = varint(body, at)
        if key & 7 == 0:
            value: Any
            value, at = varint(body, at)
        else:
            size, at = {1: (8, at), 5: (4, at)}.get(key & 7) or varint(body, at)
            value, at = body[at : at + size], at + size
        yield key >> 3, value


def varint(body: bytes, at: int) -> tuple[int, int]:
    found = shift = 0
    while True:
        found |= (body[at] & 127) << shift
        at, shift = at + 1, shift + 7
        if not body[at - 1] & 128:
            return found, at


def varints(body: bytes) -> list[int]:
    at, found = 0, []
    while at < len(body):
        value, at = varint(body, at)
        found.append(value)
    return found


def signed(value: int) -> int:
    return (value >> 1) ^ -(value & 1)


def value_of(body: bytes) -> Any:
    """A value: text, a whole number, true or false. Floats are of no test."""
    ((number, value),) = fields(body)
    if number == 1:
        return value.decode()
    return signed(value) if number == 6 else bool(value) if number == 7 else value


def read_tile(body: bytes) -> dict[str, tuple[int, list[Drawn]]]:
    """The layers of a tile by name, each with its extent and its features."""
    layers = {}
    for number, layer in fields(body):
        assert number == 3
        parts: dict[int, list[Any]] = {}
        for key, value in fields(layer):
            parts.setdefault(key, []).append(value)
        keys = [each.decode() for each in parts.get(3, [])]
        values = [value_of(each) for each in parts.get(4, [])]
        found = [read_feature(each, keys, values) for each in parts.get(2, [])]
        layers[parts[1][0].decode()] = parts[5][0], found
    return layers


def read_feature(body: bytes, keys: list[str], values: list[Any]) -> Drawn:
    parts = dict(fields(body))
    tags = varints(parts.get(2, b""))
    properties = {keys[key]: values[value] for key, value in zip(tags[::2], tags[1::2])}
    return Drawn(parts[3], properties, list(paths_of(varints(parts[4]))))


def paths_of(commands: list[int]) -> Iterator[list[Point]]:
    x = y = at = 0
    path: list[Point] = []
    while at < len(commands):
        command, count = commands[at] & 7, commands[at] >> 3
        at += 1
        if command == CLOSE:
            path.append(path[0])
            continue
        for _ in range(count):
            x, y = x + signed(commands[at]), y + signed(commands[at + 1])
            at += 2
            if command == MOVE and path:
                yield path
                path = []
            path.append((x, y))
    yield path
