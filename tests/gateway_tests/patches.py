"""PATCH by merge patches (RFC 7396): what is kept, what is refused, and who may."""

import json
from typing import Any

from gateway_tests.answers import check_problem
from gateway_tests.data import feature, shape
from gateway_tests.service import EPSG, OFFICE, Gateway
from harness import Context

ITEMS = "/collections/lamps/items"
ITEM = f"{ITEMS}/patched"
MERGE = "application/merge-patch+json"
LINE = [[565000.001, 5934000.002], [565009.5, 5934001.0]]
# RFC 7396, appendix A, where both are objects that a feature's properties may be: a value, a patch,
# and the value after it.
CASES: list[tuple[Any, Any, Any]] = [
    ({"a": "b"}, {"a": "c"}, {"a": "c"}),
    ({"a": "b"}, {"b": "c"}, {"a": "b", "b": "c"}),
    ({"a": "b"}, {"a": None}, {}),
    ({"a": "b", "b": "c"}, {"a": None}, {"b": "c"}),
    ({"a": ["b"]}, {"a": "c"}, {"a": "c"}),
    ({"a": "c"}, {"a": ["b"]}, {"a": ["b"]}),
    ({"a": {"b": "c"}}, {"a": {"b": "d", "c": None}}, {"a": {"b": "d"}}),
    ({"a": [{"b": "c"}]}, {"a": [1]}, {"a": [1]}),
    ({"a": "foo"}, None, None),
    ({"e": None}, {"a": 1}, {"e": None, "a": 1}),
    ({}, {"a": {"bb": {"ccc": None}}}, {"a": {"bb": {}}}),
    (None, {"a": 1, "b": None}, {"a": 1}),
    (
        {"a": 2**63 + 1, "b": -(2**63)},
        {"c": 2**64 - 1},
        {"a": 2**63 + 1, "b": -(2**63), "c": 2**64 - 1},
    ),
    (
        {"a": 'ü"\\\n\u2028', "links": [1]},
        {"b": "\U0001f332"},
        {"a": 'ü"\\\n\u2028', "links": [1], "b": "\U0001f332"},
    ),
    ({"links": [{"properties": 1}]}, {"type": "x"}, {"links": [{"properties": 1}], "type": "x"}),
]
FAULTS: list[tuple[bytes, int, str, str | None]] = [
    (b"", 400, "not_json", None),
    (b"{", 400, "not_json", None),
    (b'{"a":NaN}', 400, "not_json", None),
    (b"[]", 400, "bad_feature", "wrong_type"),
    (b"7", 400, "bad_feature", "wrong_type"),
    (b'{"id":"other"}', 400, "other_id", None),
    (b'{"id":null}', 400, "other_id", None),
    (b'{"id":7.5}', 400, "other_id", None),
    (b'{"crs":null}', 400, "crs_member", None),
    (b'{"type":"Point"}', 400, "bad_feature", "wrong_type"),
    (b'{"type":null}', 400, "bad_feature", "wrong_type"),
    (b'{"properties":7}', 400, "bad_feature", "bad_properties"),
    (b'{"properties":{"a":0.5}}', 400, "bad_feature", "fraction"),
    (b'{"properties":{"set":7}}', 409, "bad_time", None),
    (b'{"geometry":7}', 400, "bad_feature", "bad_geometry"),
    (b'{"geometry":{"coordinates":[565000,5934000]}}', 400, "bad_feature", "bad_geometry"),
    (b'{"geometry":{"type":"Point","coordinates":[1e300,1]}}', 400, "bad_feature", "out_of_grid"),
    (b'{"properties":{"a":%b1%b}}' % (b'{"a":' * 70, b"}" * 70), 400, "bad_feature", "too_deep"),
]


def patch(asked: Gateway, change: Any, path: str = ITEM, **fields: str) -> Any:
    body = change if isinstance(change, bytes) else json.dumps(change).encode()
    return asked.send("PATCH", path, body, **{"Content_Type": MERGE, **fields})


def begin(asked: Gateway, properties: Any) -> None:
    """The feature of these rows, a line, with properties."""
    sent = feature("patched", shape("LineString", LINE), properties)
    asked.send("DELETE", ITEM)
    made = asked.send("POST", ITEMS, sent, Content_Crs=f"<{OFFICE}>")
    assert made.status_code == 201, made.text


def check_patches(context: Context, asked: Gateway) -> None:
    for value, change, wanted in CASES:
        begin(asked, value)
        before = asked.ask(ITEM, crs=OFFICE).json()
        answer = patch(asked, {"properties": change})
        context.check(f"{value} {change}", (answer.status_code, answer.content), (204, b""))
        shown = asked.ask(ITEM, crs=OFFICE).json()
        context.check(f"{value} {change}: after it", shown, before | {"properties": wanted})
    check_geometry(context, asked)
    check_refusals(context, asked)
    check_large(context, asked)


def check_geometry(context: Context, asked: Gateway) -> None:
    """A geometry is replaced as a whole, in the system of the patch; without one it stays, to the
    millimetre. A patch of nothing changes nothing."""
    begin(asked, {"a": 1})
    first = asked.ask(ITEM, crs=OFFICE).json()
    for change in ({}, {"id": "patched"}, {"type": "Feature"}, {"properties": {}}, {"links": []}):
        context.check(f"{change}", patch(asked, change).status_code, 204)
        context.check(f"{change}: as it was", asked.ask(ITEM, crs=OFFICE).json(), first)
    place = shape("Point", [565000.5, 5934000.25])
    sent = patch(asked, {"geometry": place, "bbox": [1]}, Content_Crs=f"<{OFFICE}>")
    shown = asked.ask(ITEM, crs=OFFICE).json()
    context.check("another kind", (sent.status_code, shown["geometry"]), (204, place))
    context.check("its properties", shown["properties"], {"a": 1})
    for uri in (f"{EPSG}4326", f"{EPSG}3857"):
        seen = asked.ask(ITEM, crs=uri).json()["geometry"]
        context.check(
            "sent back", patch(asked, {"geometry": seen}, Content_Crs=f"<{uri}>").status_code, 204
        )
        now = asked.ask(ITEM, crs=OFFICE).json()["geometry"]
        context.check(f"as it was, by {uri}", now, place)
    context.check("none", patch(asked, {"geometry": None}).status_code, 204)
    context.check("no geometry", asked.ask(ITEM).json()["geometry"], None)
    asked.send("POST", ITEMS, feature("7", None) | {"id": 7})
    for identity in (7, "7", 7.0):
        sent = patch(asked, {"id": identity, "properties": {"a": 1}}, f"{ITEMS}/7")
        context.check(f"the id {identity!r}", sent.status_code, 204)


def check_refusals(context: Context, asked: Gateway) -> None:
    """What is refused changes nothing."""
    begin(asked, {"a": 1})
    first = asked.ask(ITEM).text
    for body, status, code, cause in FAULTS:
        answer = patch(asked, body, Content_Crs=f"<{OFFICE}>")
        check_problem(context, answer, status, code)
        context.check(f"{body[:60]!r}: cause", answer.json().get("cause"), cause)
    for kind in ("application/json", "application/geo+json", "text/plain", ""):
        answer = patch(asked, {"properties": {"a": 2}}, Content_Type=kind)
        check_problem(context, answer, 415, "bad_content_type")
        context.check("Accept-Patch", answer.headers["accept-patch"], MERGE)
    check_problem(context, patch(asked, {}, f"{ITEMS}/no"), 404, "no_feature")
    check_problem(context, patch(asked, {}, "/collections/no/items/a"), 404, "no_feature")
    check_problem(context, patch(asked, {}, ITEMS), 405, "method_not_allowed")
    check_problem(context, patch(asked, {}, f"{ITEM}?a=1"), 400, "unknown_parameter")
    check_problem(context, patch(asked, {}, Content_Crs="<x>"), 400, "bad_content_crs")
    check_problem(context, patch(asked, b" " * 8_388_609), 413, "body_too_large")
    check_problem(context, patch(asked, {}, Authorization=""), 401, "no_access")
    foreign = patch(asked, {"properties": {"a": 2}}, Origin="https://evil.example")
    check_problem(context, foreign, 403, "other_origin")
    context.check("nothing is changed", asked.ask(ITEM).text, first)


def check_large(context: Context, asked: Gateway) -> None:
    """A small patch of a large feature, and a large patch, which processes beside the gateway
    read."""
    spots = [[565000 + at / 1000, 5934000 + at % 7] for at in range(1_500)]
    large = shape("LineString", spots)
    sent = patch(asked, {"geometry": large}, Content_Crs=f"<{OFFICE}>")
    context.check("a large patch", sent.status_code, 204)
    context.check("of a large feature", patch(asked, {"properties": {"b": "ü"}}).status_code, 204)
    shown = asked.ask(ITEM, crs=OFFICE).json()
    got = (shown["geometry"] == large, shown["properties"])
    context.check("what is kept", got, (True, {"a": 1, "b": "ü"}))
