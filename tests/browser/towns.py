"""Batches that fill a file for a test."""

import json
from pathlib import Path
from typing import Any

EXAMPLES = Path(__file__).resolve().parents[2] / "examples"
Edit = dict[str, Any]


def feature(identifier: str, geometry: Any, properties: Any = None) -> dict[str, Any]:
    return {"type": "Feature", "id": identifier, "geometry": geometry, "properties": properties}


def point(identifier: str, x: int, y: int, **properties: Any) -> dict[str, Any]:
    return feature(identifier, {"type": "Point", "coordinates": [x, y]}, properties or None)


def insert(collection: str, inserted: dict[str, Any]) -> Edit:
    return {"op": "insert", "collection": collection, "feature": inserted}


def replace(collection: str, replaced: dict[str, Any]) -> Edit:
    return {"op": "replace", "collection": collection, "feature": replaced}


def delete(collection: str, identifier: str) -> Edit:
    return {"op": "delete", "collection": collection, "id": identifier}


def opened(collection: str, title: str, time: str | None = None) -> Edit:
    edit = {"op": "open", "collection": collection, "title": title}
    return edit | ({"time": time} if time else {})


def town() -> dict[str, Any]:
    """The lamps of examples/town.json as a batch that opens their collection."""
    features = json.loads((EXAMPLES / "town.json").read_text())["features"]
    edits = [opened("lamps", "Lamps", "set"), *(insert("lamps", lamp) for lamp in features)]
    return {"key": "town", "edits": edits}


def quarter() -> dict[str, Any]:
    """The sample quarter."""
    batch: dict[str, Any] = json.loads((EXAMPLES / "quarter.json").read_text())
    return batch
