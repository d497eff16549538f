"""The rules of the server in plain Python: what it keeps, and what it answers.

The rules are those of docs/API.md, RFC 7946 and OGC 17-069. Nothing here was taken from an answer
of the program, so that a group can compare the two. The model reads batches that can be read, and
requests whose framing is sound; everything else is in rows (examples/).
"""

import json
import re
from collections.abc import Iterable, Iterator
from dataclasses import dataclass, field
from datetime import date
from fractions import Fraction
from itertools import pairwise
from typing import Any
from urllib.parse import parse_qsl, quote, quote_plus, unquote

from messages import request

Position = list[int]
Geometry = dict[str, Any]
Value = dict[str, Any]

BASE = "http://localhost"
SECOND = 10**9
DAY = 86_400 * SECOND
MOST_SHOWN = 1000
PLAIN, GEOGRAPHIC = "application/json", "application/geo+json"
REFERENCE_SYSTEM = "tag:streetmap.invalid,2024:crs/grid-mm"
PHRASES = {200: "OK", 400: "Bad Request", 404: "Not Found", 405: "Method Not Allowed"}
PHRASES |= {409: "Conflict", 500: "Internal Server Error", 503: "Service Unavailable"}
ERRORS = {
    "unknown_parameter": (400, "A parameter is not known here."),
    "repeated_parameter": (400, "A parameter stands twice."),
    "bad_limit": (400, "The limit must be a whole number from 1."),
    "bad_bbox": (400, "The box must be four whole numbers in order."),
    "bad_datetime": (400, "The date-time or interval cannot be read."),
    "bad_after": (400, "The value of after is no id."),
    "not_found": (404, "There is nothing at this path."),
    "method_not_allowed": (405, "The method is not allowed here."),
    "no_collection": (409, "The collection is not there."),
    "collection_exists": (409, "The collection is there already."),
    "feature_exists": (409, "The feature is there already."),
    "no_feature": (409, "The feature is not there."),
    "key_used": (409, "The key was used for another batch."),
    "bad_time": (409, "The time property of the feature cannot be read."),
    "device": (500, "The store failed and must be opened again."),
    "damaged": (500, "The store holds a row that cannot be read."),
    "reopen": (500, "The store is shut and must be opened again."),
    "memory": (503, "Memory was refused; the call may be made again."),
}


class Refused(Exception):
    """A request or a batch that is refused, by the code of the refusal."""

    def __init__(self, code: str, place: int | None = None) -> None:
        super().__init__(code)
        self.status, description = ERRORS[code]
        self.body: Value = {"code": code, "description": description}
        if place is not None:
            self.body["place"] = place


def compact(value: Any) -> str:
    """Compact JSON, the members of each object in byte order of their names."""
    return json.dumps(value, ensure_ascii=False, separators=(",", ":"), sort_keys=True)


# Geometries


@dataclass(frozen=True)
class Box:
    west: int
    south: int
    east: int
    north: int

    def holds(self, position: Position) -> bool:
        return self.west <= position[0] <= self.east and self.south <= position[1] <= self.north

    def overlaps(self, other: "Box") -> bool:
        return (
            self.west <= other.east
            and other.west <= self.east
            and self.south <= other.north
            and other.south <= self.north
        )


def positions(coordinates: Any) -> Iterator[Position]:
    if coordinates and not isinstance(coordinates[0], list):
        yield coordinates
    else:
        for part in coordinates:
            yield from positions(part)


def vertices(geometry: Geometry | None) -> Iterator[Position]:
    if geometry is not None:
        yield from positions(geometry.get("coordinates", []))
        for member in geometry.get("geometries", []):
            yield from vertices(member)


def box_of(found: Iterable[Position]) -> Box | None:
    """The least box that holds these positions."""
    placed = list(found)
    if not placed:
        return None
    eastings, northings = [it[0] for it in placed], [it[1] for it in placed]
    return Box(min(eastings), min(northings), max(eastings), max(northings))


def double_area(ring: list[Position]) -> int:
    return sum(a[0] * b[1] - b[0] * a[1] for a, b in pairwise(ring))


def oriented(rings: list[list[Position]]) -> list[list[Position]]:
    """The exterior ring counterclockwise, and holes clockwise (RFC 7946, section 3.1.6)."""
    signs = [1] + [-1] * (len(rings) - 1)
    return [
        ring[::-1] if sign * double_area(ring) < 0 else ring for ring, sign in zip(rings, signs)
    ]


def kept_geometry(geometry: Geometry | None) -> Geometry | None:
    """The geometry as it is kept: rings oriented, and what is empty left out."""
    if geometry is None:
        return None
    kind = geometry["type"]
    if kind == "GeometryCollection":
        members = [kept for it in geometry["geometries"] if (kept := kept_geometry(it)) is not None]
        return {"type": kind, "geometries": members} if members else None
    coordinates = geometry["coordinates"]
    if kind == "Polygon":
        coordinates = oriented(coordinates)
    elif kind == "MultiPolygon":
        coordinates = [oriented(polygon) for polygon in coordinates]
    return {"type": kind, "coordinates": coordinates} if coordinates else None


def segment_meets(start: Position, end: Position, box: Box) -> bool:
    """Whether some fraction of the way from start to end lies in the closed box."""
    first, last = Fraction(0), Fraction(1)
    for axis, low, high in ((0, box.west, box.east), (1, box.south, box.north)):
        origin, step = start[axis], end[axis] - start[axis]
        if step == 0:
            if not low <= origin <= high:
                return False
        else:
            ends = sorted((Fraction(low - origin, step), Fraction(high - origin, step)))
            first, last = max(first, ends[0]), min(last, ends[1])
    return first <= last


def line_meets(line: list[Position], box: Box) -> bool:
    return any(segment_meets(a, b, box) for a, b in pairwise(line))


def is_inside(x: int, y: int, rings: list[list[Position]]) -> bool:
    """Whether a walk east from the point crosses an odd number of edges of all rings."""
    crossed = 0
    for ring in rings:
        for a, b in pairwise(ring):
            if (a[1] > y) != (b[1] > y):
                crossed += a[0] + Fraction((b[0] - a[0]) * (y - a[1]), b[1] - a[1]) > x
    return crossed % 2 == 1


def polygon_meets(rings: list[list[Position]], box: Box) -> bool:
    return any(line_meets(ring, box) for ring in rings) or is_inside(box.west, box.south, rings)


def meets(geometry: Geometry, box: Box) -> bool:
    coordinates = geometry.get("coordinates", [])
    match geometry["type"]:
        case "Point":
            return box.holds(coordinates)
        case "MultiPoint":
            return any(box.holds(position) for position in coordinates)
        case "LineString":
            return line_meets(coordinates, box)
        case "MultiLineString":
            return any(line_meets(line, box) for line in coordinates)
        case "Polygon":
            return polygon_meets(coordinates, box)
        case "MultiPolygon":
            return any(polygon_meets(polygon, box) for polygon in coordinates)
    return any(meets(member, box) for member in geometry["geometries"])


# Times


@dataclass(frozen=True)
class Interval:
    """Nanoseconds since 1970, both ends included; an end that is None is open."""

    start: int | None
    end: int | None

    def meets(self, other: "Interval") -> bool:
        return precedes(self.start, other.end) and precedes(other.start, self.end)


def precedes(start: int | None, end: int | None) -> bool:
    return start is None or end is None or start <= end


MOMENT = re.compile(
    r"(\d{4}-\d\d-\d\d)[Tt]([01]\d|2[0-3]):([0-5]\d):([0-5]\d)(?:\.(\d{1,9}))?"
    r"(?:[Zz]|([-+ ])([01]\d|2[0-3]):([0-5]\d))",
    re.ASCII,
)
FULL_DATE = re.compile(r"\d{4}-\d\d-\d\d", re.ASCII)


def day_start(text: str) -> int:
    return (date.fromisoformat(text) - date(1970, 1, 1)).days * DAY


def read_moment(text: str) -> int:
    """The nanoseconds since 1970 of a date-time (RFC 3339, section 5.6)."""
    found = MOMENT.fullmatch(text)
    if found is None:
        raise ValueError(text)
    day, hours, minutes, seconds, part, sign, far, off = found.groups()
    clock = (int(hours) * 60 + int(minutes)) * 60 + int(seconds)
    if sign is not None:
        clock -= (int(far) * 60 + int(off)) * (-60 if sign == "-" else 60)
    return day_start(day) + clock * SECOND + int((part or "0").ljust(9, "0"))


def read_interval(text: str) -> Interval:
    """The interval of a `datetime` (OGC 17-069, 7.15.4)."""
    if "/" not in text:
        moment = read_moment(text)
        return Interval(moment, moment)
    start, end = (None if it in ("", "..") else read_moment(it) for it in text.split("/", 1))
    if start is end is None or not precedes(start, end):
        raise ValueError(text)
    return Interval(start, end)


def read_time(properties: Value | None, name: str | None) -> Interval | None:
    """The time of a feature in a collection with this time property."""
    text = None if name is None else (properties or {}).get(name)
    if text is None:
        return None
    if not isinstance(text, str):
        raise ValueError(text)
    if FULL_DATE.fullmatch(text):
        return Interval(day_start(text), day_start(text) + DAY - 1)
    return read_interval(text)


# Queries


@dataclass
class Query:
    limit: int = 10
    box: Box | None = None
    interval: Interval | None = None
    datetime: str = ""
    after: str | None = None

    def selects(self, feature: "Feature") -> bool:
        if self.box is not None:
            extent = box_of(vertices(feature.geometry))
            if extent is None or not extent.overlaps(self.box):
                return False
            if not meets(feature.value["geometry"], self.box):
                return False
        if self.interval is None:
            return True
        return feature.time is not None and self.interval.meets(feature.time)

    def text(self, after: str | None) -> str:
        """The query of a link, its members in their order."""
        pairs = [] if after is None else [("after", after)]
        if self.box is not None:
            box = self.box
            pairs.append(("bbox", f"{box.west},{box.south},{box.east},{box.north}"))
        if self.interval is not None:
            pairs.append(("datetime", self.datetime))
        pairs.append(("limit", str(self.limit)))
        return "&".join(f"{name}={form_value(value)}" for name, value in pairs)


def form_value(text: str) -> str:
    """A value as forms write it (URL Standard, section 5.2)."""
    return quote_plus(text, safe="*").replace("~", "%7E")


def read_limit(text: str) -> int:
    if not re.fullmatch(r"[0-9]+", text) or int(text) == 0:
        raise Refused("bad_limit")
    return min(int(text), MOST_SHOWN)


def read_box(text: str) -> Box:
    number = r"(-?[0-9]{1,19})(?:\.0+)?"
    found = re.fullmatch(",".join([number] * 4), text)
    bounds = [int(it) for it in found.groups()] if found else []
    if not bounds or any(abs(it) > 2 * 10**9 for it in bounds):
        raise Refused("bad_bbox")
    box = Box(*bounds)
    if box.west > box.east or box.south > box.north:
        raise Refused("bad_bbox")
    return box


def read_query(text: str) -> Query:
    """The query of a page, or its first fault from left to right."""
    query, seen = Query(), set()
    for name, value in parse_qsl(text, keep_blank_values=True, errors="replace"):
        if name not in ("limit", "bbox", "datetime", "after"):
            raise Refused("unknown_parameter")
        if name in seen:
            raise Refused("repeated_parameter")
        seen.add(name)
        if name == "limit":
            query.limit = read_limit(value)
        elif name == "bbox":
            query.box = read_box(value)
        elif name == "datetime":
            try:
                query.interval, query.datetime = read_interval(value), value
            except ValueError:
                raise Refused("bad_datetime") from None
        elif not 1 <= len(value.encode()) <= 128 or re.search(r"[\0-\x1f\x7f-\x9f]", value):
            raise Refused("bad_after")
        else:
            query.after = value
    return query


# The state


@dataclass(frozen=True)
class Feature:
    """A feature as it is written, and its time."""

    value: Value
    time: Interval | None

    @classmethod
    def read(cls, given: Value, time_property: str | None) -> "Feature":
        properties = given.get("properties")
        kept = {"type": "Feature", "id": str(given["id"]), "properties": properties}
        kept["geometry"] = kept_geometry(given.get("geometry"))
        return cls(kept, read_time(properties, time_property))

    @property
    def geometry(self) -> Geometry | None:
        kept: Geometry | None = self.value["geometry"]
        return kept


@dataclass
class Collection:
    title: str
    time_property: str | None
    features: dict[str, Feature] = field(default_factory=dict)

    def ordered(self) -> list[Feature]:
        """The features in byte order of their ids."""
        return [self.features[it] for it in sorted(self.features, key=str.encode)]


@dataclass(frozen=True)
class Page:
    features: list[Value]
    matched: int
    following: str | None


def edit_text(edit: Value) -> Value:
    """An edit as it is in the text by which a batch is known."""
    if edit["op"] == "open":
        return {"title": edit["collection"]} | edit
    if edit["op"] == "delete":
        return edit | {"id": str(edit["id"])}
    return edit | {"feature": Feature.read(edit["feature"], None).value}


def apply_edit(collections: dict[str, Collection], edit: Value, place: int) -> str:
    """Does an edit. Returns the name under which it is counted."""
    operation, name = edit["op"], edit["collection"]
    if operation == "open":
        if name in collections:
            raise Refused("collection_exists", place)
        collections[name] = Collection(edit.get("title", name), edit.get("time"))
        return "opened"
    if name not in collections:
        raise Refused("no_collection", place)
    collection = collections[name]
    identity = str(edit["id"] if operation == "delete" else edit["feature"]["id"])
    if (identity in collection.features) == (operation == "insert"):
        raise Refused("feature_exists" if operation == "insert" else "no_feature", place)
    if operation == "delete":
        del collection.features[identity]
        return "deleted"
    try:
        collection.features[identity] = Feature.read(edit["feature"], collection.time_property)
    except ValueError:
        raise Refused("bad_time", place) from None
    return "inserted" if operation == "insert" else "replaced"


@dataclass
class Ledger:
    """What is kept: the collections, and for each accepted key its batch and reply."""

    collections: dict[str, Collection] = field(default_factory=dict)
    accepted: dict[str, tuple[str, Value]] = field(default_factory=dict)

    def apply(self, batch: Value) -> Value:
        """The reply to a batch, which acts whole or not at all."""
        key, edits = batch["key"], batch["edits"]
        text = compact([edit_text(edit) for edit in edits])
        if key in self.accepted:
            before, reply = self.accepted[key]
            if before != text:
                raise Refused("key_used")
            return reply
        trial = {
            name: Collection(it.title, it.time_property, dict(it.features))
            for name, it in self.collections.items()
        }
        counts = {"opened": 0, "inserted": 0, "replaced": 0, "deleted": 0}
        for place, edit in enumerate(edits, 1):
            counts[apply_edit(trial, edit, place)] += 1
        reply = counts | {"key": key, "serial": len(self.accepted) + 1}
        self.collections = trial
        self.accepted[key] = text, reply
        return reply

    def find(self, name: str) -> Collection:
        if name not in self.collections:
            raise Refused("not_found")
        return self.collections[name]

    def feature(self, name: str, identity: str) -> Value:
        features = self.find(name).features
        if identity not in features:
            raise Refused("not_found")
        return features[identity].value

    def page(self, name: str, query: Query) -> Page:
        selected = [it.value for it in self.find(name).ordered() if query.selects(it)]
        after = (query.after or "").encode()
        behind = [it for it in selected if query.after is None or it["id"].encode() > after]
        shown = behind[: query.limit]
        following = shown[-1]["id"] if len(shown) < len(behind) else None
        return Page(shown, len(selected), following)

    def exported(self, name: str) -> bytes:
        """The text of `streetmap export`."""
        features = [it.value for it in self.find(name).ordered()]
        return f'{compact({"type": "FeatureCollection", "features": features})}\n'.encode()

    def counted(self) -> bytes:
        """The line of `streetmap check`."""
        features = sum(len(it.features) for it in self.collections.values())
        return f"ok {len(self.collections)} {features} {len(self.accepted)}\n".encode()

    def line(self, line: str) -> str:
        """The answer of `streetmap lines` to a line that is a command."""
        word, rest = line.split(" ", 1)
        try:
            if word == "batch":
                return compact(self.apply(json.loads(rest)))
            name, _, rest = rest.partition(" ")
            if word == "feature":
                return compact(self.feature(name, rest))
            page = self.page(name, read_query(rest))
        except Refused as refused:
            return compact(refused.body)
        body = {"features": page.features, "numberMatched": page.matched}
        body["numberReturned"] = len(page.features)
        return compact(body if page.following is None else body | {"next": page.following})

    def answer(self, asked: "Request") -> bytes:
        """The answer to a request, to the byte."""
        kind, allowed = PLAIN, ""
        try:
            allowed, kind, body = self.dispatch(asked)
            status = 200
        except Refused as refused:
            status, body = refused.status, refused.body
            if body["code"] == "method_not_allowed":
                allowed = "POST" if asked.path == "/batches" else "GET, HEAD"
        text = compact(body).encode()
        fields = [f"Content-Type: {kind}", f"Content-Length: {len(text)}"]
        fields += [f"Allow: {allowed}"] if status == 405 else []
        head = "\r\n".join([f"HTTP/1.1 {status} {PHRASES[status]}", *fields, "", ""])
        return head.encode() + (b"" if asked.method == "HEAD" else text)

    def dispatch(self, asked: "Request") -> tuple[str, str, Value]:
        """The methods that a path allows, the media type of its answer, and the body."""
        if asked.path == "/batches":
            asked.wants_method("POST")
            asked.wants_no_query()
            return "POST", PLAIN, self.apply(asked.batch or {})
        names = [unquote(it) for it in asked.path.split("/")[1:]]
        if names[0] != "collections" or len(names) > 4 or names[2:3] not in ([], ["items"]):
            raise Refused("not_found")
        asked.wants_method("GET", "HEAD")
        if len(names) == 3:
            query = read_query(asked.query)
            return "GET, HEAD", GEOGRAPHIC, page_body(names[1], query, self.page(names[1], query))
        asked.wants_no_query()
        if len(names) == 4:
            return "GET, HEAD", GEOGRAPHIC, feature_body(names[1], self.feature(names[1], names[3]))
        if len(names) == 2:
            return "GET, HEAD", PLAIN, collection_body(names[1], self.find(names[1]))
        return "GET, HEAD", PLAIN, self.collections_body()

    def collections_body(self) -> Value:
        found = [collection_body(name, self.collections[name]) for name in sorted(self.collections)]
        return {"collections": found, "links": [link("/collections", "self", PLAIN)]}


@dataclass(frozen=True)
class Request:
    method: str
    target: str
    batch: Value | None = None

    @property
    def path(self) -> str:
        return self.target.partition("?")[0]

    @property
    def query(self) -> str:
        return self.target.partition("?")[2]

    @property
    def text(self) -> str:
        return "" if self.batch is None else json.dumps(self.batch)

    @property
    def sent(self) -> bytes:
        return request(self.method, self.target, self.text.encode())

    def wants_method(self, *methods: str) -> None:
        if self.method not in methods:
            raise Refused("method_not_allowed")

    def wants_no_query(self) -> None:
        if parse_qsl(self.query, keep_blank_values=True):
            raise Refused("unknown_parameter")


# Bodies


def link(path: str, relation: str, kind: str) -> Value:
    return {"href": BASE + path, "rel": relation, "type": kind}


def collection_body(name: str, collection: Collection) -> Value:
    path = f"/collections/{name}"
    links = [link(path, "self", PLAIN), link(f"{path}/items", "items", GEOGRAPHIC)]
    body: Value = {"id": name, "title": collection.title, "links": links}
    body["crs"] = [REFERENCE_SYSTEM]
    extent = box_of(at for it in collection.features.values() for at in vertices(it.geometry))
    if extent is not None:
        bounds = [extent.west, extent.south, extent.east, extent.north]
        body["extent"] = {"spatial": {"bbox": [bounds], "crs": REFERENCE_SYSTEM}}
    return body


def page_body(name: str, query: Query, page: Page) -> Value:
    path = f"/collections/{name}/items?"
    links = [link(path + query.text(query.after), "self", GEOGRAPHIC)]
    if page.following is not None:
        links.append(link(path + query.text(page.following), "next", GEOGRAPHIC))
    body = {"type": "FeatureCollection", "features": page.features, "links": links}
    return body | {"numberMatched": page.matched, "numberReturned": len(page.features)}


def feature_body(name: str, feature: Value) -> Value:
    path = f"/collections/{name}"
    itself = f"{path}/items/{quote(feature['id'], safe='')}"
    links = [link(itself, "self", GEOGRAPHIC), link(path, "collection", PLAIN)]
    return feature | {"links": links}
