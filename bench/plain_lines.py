"""A plain Python program for the lines that bench/lines.py sends: inserts, and pages.

It reads and answers as `streetmap lines` does, with json and dicts, and proves nothing.
"""
import json
import sys
from collections.abc import Sequence
from datetime import datetime, timedelta, timezone
from typing import Any

Position = list[int]
Box = Sequence[int]
Interval = tuple[datetime | None, datetime | None]
Collections = dict[str, tuple[str | None, dict[str, Any]]]
Keys = dict[str, tuple[str, Any]]


def positions(geometry: Any) -> list[Position]:
    kind = geometry["type"]
    coordinates: list[Any] = geometry.get("coordinates")
    if kind == "Point":
        return [coordinates]
    if kind in ("LineString", "MultiPoint"):
        return coordinates
    if kind in ("Polygon", "MultiLineString"):
        return [position for line in coordinates for position in line]
    if kind == "MultiPolygon":
        return [position for polygon in coordinates for ring in polygon for position in ring]
    return [position for member in geometry["geometries"] for position in positions(member)]


def bounds(geometry: Any) -> Box:
    found = positions(geometry)
    for position in found:
        if not all(type(number) is int and abs(number) <= 10**9 for number in position):
            raise ValueError("bad_position")
    xs, ys = [p[0] for p in found], [p[1] for p in found]
    return min(xs), min(ys), max(xs), max(ys)


def overlap(one: Box, other: Box) -> bool:
    return one[0] <= other[2] and other[0] <= one[2] and one[1] <= other[3] and other[1] <= one[3]


def side(a: Position, b: Position, x: int, y: int) -> int:
    return (b[0] - a[0]) * (y - a[1]) - (x - a[0]) * (b[1] - a[1])


def edge_meets(a: Position, b: Position, box: Box) -> bool:
    if (
        max(a[0], b[0]) < box[0]
        or box[2] < min(a[0], b[0])
        or max(a[1], b[1]) < box[1]
        or box[3] < min(a[1], b[1])
    ):
        return False
    signs = [side(a, b, x, y) for x in (box[0], box[2]) for y in (box[1], box[3])]
    return max(signs) >= 0 >= min(signs)


def line_meets(line: list[Position], box: Box) -> bool:
    return any(edge_meets(a, b, box) for a, b in zip(line, line[1:]))


def is_inside(rings: list[list[Position]], x: int, y: int) -> bool:
    inside = False
    for ring in rings:
        for a, b in zip(ring, ring[1:]):
            if (a[1] > y) != (b[1] > y):
                low, high = (b, a) if a[1] > y else (a, b)
                if (high[0] - low[0]) * (y - low[1]) > (x - low[0]) * (high[1] - low[1]):
                    inside = not inside
    return inside


def polygon_meets(rings: list[list[Position]], box: Box) -> bool:
    return any(line_meets(ring, box) for ring in rings) or is_inside(rings, box[0], box[1])


def meets(geometry: Any, box: Box) -> bool:
    kind, coordinates = geometry["type"], geometry.get("coordinates")
    if kind == "Point":
        return edge_meets(coordinates, coordinates, box)
    if kind == "MultiPoint":
        return any(edge_meets(position, position, box) for position in coordinates)
    if kind == "LineString":
        return line_meets(coordinates, box)
    if kind == "MultiLineString":
        return any(line_meets(line, box) for line in coordinates)
    if kind == "Polygon":
        return polygon_meets(coordinates, box)
    if kind == "MultiPolygon":
        return any(polygon_meets(polygon, box) for polygon in coordinates)
    return any(meets(member, box) for member in geometry["geometries"])


def moment(text: str) -> datetime:
    return datetime.fromisoformat(text)


def interval(text: str | None) -> Interval | None:
    """The start and the end of a time; None if it is open."""
    if text is None:
        return None
    if "/" in text:
        start, end = text.split("/")
        return (None if start == ".." else moment(start)), (None if end == ".." else moment(end))
    if len(text) == 10:
        day = moment(text).replace(tzinfo=timezone.utc)
        return day, day + timedelta(days=1, microseconds=-1)
    return moment(text), moment(text)


def times_meet(one: Interval, other: Interval | None) -> bool:
    if other is None:
        return True
    return (one[0] is None or other[1] is None or one[0] <= other[1]) and (
        other[0] is None or one[1] is None or other[0] <= one[1]
    )


def apply(collections: Collections, keys: Keys, text: str) -> Any:
    batch = json.loads(text)
    key, edits = batch["key"], batch["edits"]
    kept = json.dumps(batch, separators=(",", ":"), sort_keys=True)
    if key in keys:
        if keys[key][0] == kept:
            return keys[key][1]
        return {"code": "key_used", "description": "The key was used for another batch."}
    counts = {"deleted": 0, "inserted": 0, "opened": 0, "replaced": 0}
    undo: list[tuple[str, str | None]] = []
    for place, edit in enumerate(edits, 1):
        name = edit["collection"]
        if edit["op"] == "open":
            if name in collections:
                break
            collections[name] = (edit.get("time"), {})
            undo.append((name, None))
            counts["opened"] += 1
            continue
        if name not in collections:
            break
        time_property, features = collections[name]
        feature = edit["feature"]
        if feature["id"] in features:
            break
        time = interval((feature["properties"] or {}).get(time_property))
        features[feature["id"]] = (feature, bounds(feature["geometry"]), time)
        undo.append((name, feature["id"]))
        counts["inserted"] += 1
    else:
        reply = dict(counts, key=key, serial=len(keys) + 1)
        keys[key] = (kept, reply)
        return reply
    for name, feature_id in reversed(undo):
        if feature_id is None:
            del collections[name]
        else:
            del collections[name][1][feature_id]
    return {
        "code": "feature_exists",
        "description": "The feature is there already.",
        "place": place,
    }


def page(collections: Collections, name: str, query: str) -> Any:
    parameters = dict(pair.split("=") for pair in query.split("&"))
    box = [int(bound) for bound in parameters["bbox"].split(",")]
    asked, limit = interval(parameters["datetime"]), int(parameters["limit"])
    found = [
        feature
        for feature, extent, time in collections[name][1].values()
        if overlap(extent, box)
        and time is not None
        and times_meet(time, asked)
        and meets(feature["geometry"], box)
    ]
    found.sort(key=lambda feature: str(feature["id"]).encode())
    shown = found[:limit]
    answer = {"features": shown, "numberMatched": len(found), "numberReturned": len(shown)}
    if len(found) > limit:
        answer["next"] = shown[-1]["id"]
    return answer


def main() -> None:
    collections: Collections = {}
    keys: Keys = {}
    for line in sys.stdin:
        word, _, rest = line.rstrip("\n").partition(" ")
        if word == "batch":
            answer = apply(collections, keys, rest)
        else:
            answer = page(collections, *rest.split(" "))
        print(json.dumps(answer, separators=(",", ":"), sort_keys=True), flush=True)


main()
