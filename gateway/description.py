"""The OpenAPI 3.0 description of a gateway: what it serves as such, and what it reads requests by.

Each part is a file below openapi/. An operation has the name of the function that answers it, and
takes the parameters that are described, and no other.
"""

import json
from collections.abc import Iterable
from pathlib import Path
from typing import Any

from .settings import Settings
from .systems import Systems

FOLDER = Path(__file__).parent / "openapi"
# The part that each gateway has, and those of a gateway with writers: its edits, and the one that
# needs entity tags of the server.
READING, EDITING, PATCHING = (
    FOLDER / f"{name}.json" for name in ("reading", "editing", "patching")
)
# What a mirror adds, and its tiles.
MIRROR, TILES = FOLDER / "mirror.json", FOLDER / "tiles.json"

Document = dict[str, Any]


class Description:
    """A description, and the parameters of its operations."""

    def __init__(self, document: Document) -> None:
        self.document = document
        self.query_names = dict(query_names(document))

    @classmethod
    def of(cls, parts: Iterable[Path], settings: Settings, systems: Systems) -> "Description":
        """The parts joined, for a gateway of these settings."""
        document: Document = {}
        for part in parts:
            document = joined(document, json.loads(part.read_text("utf-8")))
        info = {"title": settings.title, "description": settings.description}
        document["info"] |= info | ({"contact": settings.contact} if settings.contact else {})
        document["servers"] = [{"url": settings.address}]
        document["components"]["schemas"]["system"]["enum"] = list(systems.by_uri)
        return cls(document)


def joined(one: Any, other: Any) -> Any:
    """Both values in one: members of objects, and elements of arrays."""
    if isinstance(one, dict) and isinstance(other, dict):
        common = {name: joined(one[name], other[name]) for name in one.keys() & other.keys()}
        return one | other | common
    return one + other if isinstance(one, list) and isinstance(other, list) else other


def resolved(document: Document, value: Document) -> Document:
    """What a value is, or what its `$ref` names."""
    if "$ref" not in value:
        return value
    found: Any = document
    for step in value["$ref"].removeprefix("#/").split("/"):
        found = found[step]
    return resolved(document, found)


def query_names(document: Document) -> Iterable[tuple[str, frozenset[str]]]:
    """Each operation's name, and the names of its parameters in the query."""
    for path in document["paths"].values():
        for operation in path.values():
            if isinstance(operation, dict):
                listed = path.get("parameters", []) + operation.get("parameters", [])
                parameters = [resolved(document, each) for each in listed]
                names = [each["name"] for each in parameters if each["in"] == "query"]
                yield operation["operationId"], frozenset(names)
