"""Merge patches of features (RFC 7396): properties are merged, and a geometry is replaced as a
whole, since parts of two geometries are none."""

from typing import Any

from .geojson import NumberText
from .problems import Problem


def merged(value: Any, patch: Any) -> Any:
    """A value after a patch of it (RFC 7396, 2)."""
    if not isinstance(patch, dict):
        return patch
    kept = dict(value) if isinstance(value, dict) else {}
    for name, member in patch.items():
        if member is None:
            kept.pop(name, None)
        else:
            kept[name] = merged(kept.get(name), member)
    return kept


def patched(feature: dict[str, Any], patch: Any) -> Any:
    """A feature after a patch, both on the grid. A patch that is no object takes its place, as RFC
    7396 has it, and the server refuses it."""
    if not isinstance(patch, dict):
        return patch
    if "id" in patch and not is_id(patch["id"], feature["id"]):
        raise Problem(400, "other_id", "A patch cannot change the id of its feature.")
    members = {name: patch[name] for name in ("geometry", "type") if name in patch}
    if "properties" in patch:
        members["properties"] = merged(feature["properties"], patch["properties"])
    return feature | members


def is_id(value: Any, identity: str) -> bool:
    """Whether a value is written for this id: its text, or the whole number of that text."""
    if isinstance(value, NumberText) or isinstance(value, bool):
        return False
    return isinstance(value, (str, int)) and str(value) == identity
