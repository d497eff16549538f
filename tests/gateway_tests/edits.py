"""Edits by Part 4: create, replace, delete, each once under its key, and refusals."""

import base64
import hashlib
import json
import os
import re
import signal
import sqlite3
from decimal import ROUND_HALF_UP, Decimal
from pathlib import Path
from typing import Any

from gateway_tests import costs, writing
from gateway_tests.answers import check_problem
from gateway_tests.data import batches, feature, shape
from gateway_tests.service import CRS84, EPSG, OFFICE, WRITER, Gateway, gateway
from harness import Context
from messages import post

ITEMS = "/collections/lamps/items"
IN_OFFICE = {"Content_Crs": f"<{OFFICE}>"}
PASSWORD = "a password"


def password_entry() -> str:
    """A writer with a password, as the settings keep it."""
    made = hashlib.scrypt(PASSWORD.encode(), salt=b"salt", n=1 << 14, r=8, p=1).hex()
    return f'[[writers]]\nname = "office"\npassword = "scrypt:{b"salt".hex()}:{made}"\n'


def check_edits(context: Context) -> None:
    """All edits over a file of their own, whose batches are then read from its tables."""
    file = context.new_file("edits.streetmap", *map(post, batches({"lamps": []})))
    with context.serve(file, "--clients", "32") as server:
        with gateway(context, server.url, more=WRITER + password_entry()) as asked:
            check_life(context, asked)
            check_kept_pages(context, asked)
            check_nested(context, asked)
            check_keys(context, asked)
            check_rounding(context, asked)
            check_other_systems(context, asked)
            check_faults(context, asked)
            check_access(context, asked)
            writing.check_types(context, asked)
            writing.check_conditions(context, asked)
        with gateway(context, server.url, address=writing.ADDRESS) as asked:
            writing.check_origins(context, asked)
            costs.check_edits(context, asked)
            check_ended_worker(context, asked)
        with gateway(context, server.url, more='[edits]\nfractions = "text"\n' + WRITER) as asked:
            check_fractions(context, asked)
        with gateway(context, server.url, more="") as asked:
            answer = asked.send("POST", ITEMS, lamp("A"))
            check_problem(context, answer, 405, "method_not_allowed")
            classes = asked.ask("/conformance").json()["conformsTo"]
            context.check("no class of edits", any("features-4" in each for each in classes), False)
    check_batches(context, file)


def lamp(name: str | None = None, **properties: Any) -> dict[str, Any]:
    made = feature(name or "", shape("Point", [9.98, 53.55]), properties or None)
    if name is None:
        del made["id"]
    return made


def check_life(context: Context, asked: Gateway) -> None:
    """Created, read, replaced, deleted."""
    made = asked.send("POST", ITEMS, lamp("way/12 ü", no=1))
    place = f"{asked.url}{ITEMS}/way%2F12%20%C3%BC"
    context.check("created", (made.status_code, made.headers.get("location")), (201, place))
    path = place.removeprefix(asked.url)
    context.check("read", asked.ask(path).json()["properties"], {"no": 1})
    again = asked.send("POST", ITEMS, lamp("way/12 ü", no=1))
    check_problem(context, again, 409, "feature_exists")
    context.check("replaced", asked.send("PUT", path, lamp("way/12 ü", no=2)).status_code, 204)
    context.check("replaced without id", asked.send("PUT", path, lamp(None, no=3)).status_code, 204)
    context.check("read again", asked.ask(path).json()["properties"], {"no": 3})
    check_problem(context, asked.send("PUT", path, lamp("other")), 400, "other_id")
    context.check("deleted", asked.send("DELETE", path).status_code, 204)
    for method, body in (("DELETE", None), ("PUT", lamp(None))):
        check_problem(context, asked.send(method, path, body), 404, "no_feature")
    check_problem(context, asked.send("DELETE", f"{ITEMS}/%01"), 404, "not_found")
    for path in ("/collections/no/items", "/collections/no/items/a"):
        method = "PUT" if path.endswith("a") else "POST"
        check_problem(context, asked.send(method, path, lamp("a")), 404, "no_collection")
    number = asked.send("POST", ITEMS, lamp("7") | {"id": 7.0})
    context.check("a number as id", number.headers["location"], f"{asked.url}{ITEMS}/7")


def check_kept_pages(context: Context, asked: Gateway) -> None:
    """A page that the gateway has passed on before is not shown once the server's is another,
    nor in another system."""

    def shown(**query: Any) -> list[dict[str, Any]]:
        found = asked.all_items("lamps", limit=1000, **query)
        return [each for each in found if each["id"] == "kept"]

    asked.send("POST", ITEMS, lamp("kept", no=1))
    (first,) = shown()
    context.check("a page again", shown(), [first])
    (placed,) = shown(crs=OFFICE)
    context.check("a page in another system", placed["geometry"] == first["geometry"], False)
    asked.send("PUT", f"{ITEMS}/kept", lamp("kept", no=2))
    context.check("a page behind a change", [it["properties"] for it in shown()], [{"no": 2}])
    asked.send("DELETE", f"{ITEMS}/kept")
    context.check("a page behind a deletion", shown(), [])


def check_nested(context: Context, asked: Gateway) -> None:
    """Properties that resemble features stay as they are, alone and on a page."""
    inner = feature("inner", shape("Point", [1, 2]))
    sent = lamp("nested", like=[inner, {"features": [inner]}], text='"},{"geometry":null,"id":"a')
    context.check("nested", asked.send("POST", ITEMS, sent).status_code, 201)
    alone = asked.ask(f"{ITEMS}/nested").json()
    context.check("nested: alone", alone["properties"], sent["properties"])
    shown = {each["id"]: each for each in asked.all_items("lamps", limit=1000)}
    del alone["links"]
    context.check("nested: on a page", shown["nested"], alone)
    deep = b'{"type":"Feature","geometry":null,"properties":{"a":%b%b}}' % (b"[" * 62, b"]" * 62)
    context.check("64 levels", asked.send("POST", ITEMS, deep).status_code, 201)


def check_keys(context: Context, asked: Gateway) -> None:
    """With an Idempotency-Key a request acts once; without one each acts."""
    body = lamp(None, no=4)
    places = [asked.send("POST", ITEMS, body, Idempotency_Key="key 1") for _ in range(3)]
    context.check("one place", len({each.headers["location"] for each in places}), 1)
    other = asked.send("POST", ITEMS, lamp(None, no=5), Idempotency_Key="key 1")
    check_problem(context, other, 409, "key_used")
    loose = [asked.send("POST", ITEMS, lamp(None, no=6)) for _ in range(2)]
    context.check("two places", len({each.headers["location"] for each in loose}), 2)
    path = places[0].headers["location"].removeprefix(asked.url)
    for method, sent in (("PUT", lamp(None, no=7)), ("DELETE", None)):
        answers = [
            asked.send(method, path, sent, Idempotency_Key=f"key {method}") for _ in range(2)
        ]
        context.check(f"{method} twice", [each.status_code for each in answers], [204, 204])
    check_writers(context, asked)
    for key in ("", "x" * 256):
        answer = asked.send("POST", ITEMS, lamp(None), Idempotency_Key=key)
        check_problem(context, answer, 400, "bad_idempotency_key")


def check_writers(context: Context, asked: Gateway) -> None:
    """Two writers have the same Idempotency-Key, each for a request of its own."""
    office = basic("office", PASSWORD)
    one = asked.send("POST", ITEMS, lamp(None, no=8), Idempotency_Key="shared")
    for _ in range(2):
        other = asked.send(
            "POST", ITEMS, lamp(None, no=9), Idempotency_Key="shared", Authorization=office
        )
        context.check("another writer's", other.status_code, 201)
        place = other.headers["location"].removeprefix(asked.url)
        context.check("its feature", asked.ask(place).json()["properties"], {"no": 9})
    again = asked.send("POST", ITEMS, lamp(None, no=8), Idempotency_Key="shared")
    context.check("the same again", again.headers["location"], one.headers["location"])


def basic(name: str, password: str) -> str:
    return "Basic " + base64.b64encode(f"{name}:{password}".encode()).decode()


NUMBERS = (
    "565000.0005 564999.9995 565000.0004999999999999999 564999.9995000000000000001 565000.0015"
    " 5.65e5 565000 565000.000 565123.4565 564876.5435 565000.00049999999999999999999999"
    " 5650000000000000000000000000000000e-28 564000.9999 1564999.9995 -434999.9995"
).split()


def check_rounding(context: Context, asked: Gateway) -> None:
    """Coordinates in the office's system go to the nearest whole millimetre, half away from zero
    of the grid, by their decimals."""
    for number, text in enumerate(NUMBERS):
        name = f"round-{number}"
        body = (
            f'{{"type":"Feature","id":"{name}","properties":null,'
            f'"geometry":{{"type":"Point","coordinates":[{text},5934000,{number}.0005]}}}}'
        )
        made = asked.send("POST", ITEMS, body.encode(), **IN_OFFICE)
        context.check(f"{text}: created", (made.status_code, made.text), (201, ""))
        steps = ((Decimal(text) - 565000) * 1000).quantize(Decimal(1), ROUND_HALF_UP)
        shown = asked.ask(f"{ITEMS}/{name}", crs=OFFICE).text
        got = re.search(r'"coordinates":\[([^,]*),([^,]*),([^\]]*)\]', shown)
        wanted = [565000 + steps / 1000, Decimal(5934000), number + Decimal("0.001")]
        context.check(f"{text}: kept", got and [Decimal(each) for each in got.groups()], wanted)


def check_other_systems(context: Context, asked: Gateway) -> None:
    """What was read in any system is sent back as it is and changes nothing."""
    shapes = [
        shape("LineString", [[565000.001, 5934000.002], [665432.109, 5834000.0]]),
        shape(
            "Polygon",
            [[[565000, 5934000], [565009, 5934000], [565009, 5934007], [565000, 5934000]]],
        ),
    ]
    for number, geometry in enumerate(shapes):
        name = f"turn-{number}"
        asked.send("POST", ITEMS, feature(name, geometry), **IN_OFFICE)
        first = asked.ask(f"{ITEMS}/{name}", crs=OFFICE).json()["geometry"]
        context.check(f"{name}: kept", first, geometry)
        for uri in (CRS84, f"{EPSG}4326", f"{EPSG}3857", OFFICE):
            shown = asked.ask(f"{ITEMS}/{name}", crs=uri).json()
            sent = asked.send("PUT", f"{ITEMS}/{name}", shown, Content_Crs=f"<{uri}>")
            context.check(f"{name}: sent back in {uri}", sent.status_code, 204)
            now = asked.ask(f"{ITEMS}/{name}", crs=OFFICE).json()["geometry"]
            context.check(f"{name}: as it was, by {uri}", now, geometry)


def point_text(coordinates: str) -> bytes:
    point = f'{{"type":"Point","coordinates":{coordinates}}}'
    return f'{{"type":"Feature","id":"bad","geometry":{point},"properties":null}}'.encode()


DEEP = b'{"type":"Feature","id":"bad","geometry":null,"properties":{"a":%b1%b}}'
FAULTS: list[tuple[bytes, int, str, str | None]] = [
    (b"", 400, "not_json", None),
    (b"{", 400, "not_json", None),
    (b'{"a":NaN}', 400, "not_json", None),
    (b"\xff", 400, "not_json", None),
    (b"[" * 100_000, 400, "not_json", None),
    (b'{"type":"Feature","id":"\\ud800","geometry":null}', 400, "bad_feature", None),
    (DEEP % (b'{"a":' * 600, b"}" * 600), 400, "bad_feature", "too_deep"),
    (DEEP % (b"[" * 600, b"]" * 600), 400, "bad_feature", "too_deep"),
    (DEEP % (b"[" * 63, b"]" * 63), 400, "bad_feature", "too_deep"),
    (DEEP % (b"[" * 9_000, b"]" * 9_000), 400, "not_json", None),
    (b"[]", 400, "bad_feature", "wrong_type"),
    (b"7", 400, "bad_feature", "wrong_type"),
    (b'{"type":"Feature","id":null,"geometry":null}', 400, "bad_feature", "bad_id"),
    (b'{"type":"Feature","id":1.5,"geometry":null}', 400, "bad_feature", "fraction"),
    (b'{"type":"Feature","id":"bad","geometry":7}', 400, "bad_feature", "bad_geometry"),
    (b'{"type":"Feature","geometry":null,"properties":{"a":0.5}}', 400, "bad_feature", "fraction"),
    (b'{"type":"Feature","geometry":null,"properties":{"a":1e3}}', 400, "bad_feature", "fraction"),
    (b'{"type":"Feature","geometry":null,"properties":{"set":7}}', 409, "bad_time", None),
    (b'{"type":"Feature","crs":{},"geometry":null}', 400, "crs_member", None),
    (point_text("[565000]"), 400, "bad_feature", "bad_position"),
    (point_text("[565000,5934000,1,2]"), 400, "bad_feature", "bad_position"),
    (point_text('[565000,"5934000"]'), 400, "bad_feature", "bad_position"),
    (point_text("[[565000,5934000]]"), 400, "bad_feature", "bad_position"),
    (point_text("[1565000.001,5934000]"), 400, "bad_feature", "out_of_grid"),
    (point_text("[1e300,5934000]"), 400, "bad_feature", "out_of_grid"),
    (point_text("[1e999999999,5934000]"), 400, "too_many_digits", None),
    (point_text("[565000.0000000000000000000000000000000001,1]"), 400, "too_many_digits", None),
]


def check_faults(context: Context, asked: Gateway) -> None:
    """Faulty bodies are refused with the server's code, and nothing is kept."""
    before = asked.ask(ITEMS).json()["numberMatched"]
    for body, status, code, cause in FAULTS:
        answer = asked.send("POST", ITEMS, body, **IN_OFFICE)
        check_problem(context, answer, status, code)
        context.check(f"{body[:60]!r}: cause", answer.json().get("cause"), cause)
    for place in ([9.98, 95], [9.98, -91], [190, 1e9]):
        sent = asked.send("POST", ITEMS, feature("bad", shape("Point", place)))
        check_problem(context, sent, 400, "not_placed")
    large = b" " * 8_388_609
    check_problem(context, asked.send("POST", ITEMS, large), 413, "body_too_large")
    crs = asked.send("POST", ITEMS, lamp("bad"), Content_Crs="<EPSG:4326>")
    check_problem(context, crs, 400, "bad_content_crs")
    parameter = asked.send("POST", f"{ITEMS}?a=1", lamp("bad"))
    check_problem(context, parameter, 400, "unknown_parameter")
    context.check("nothing is kept", asked.ask(ITEMS).json()["numberMatched"], before)


def check_access(context: Context, asked: Gateway) -> None:
    """A wrong or missing token or password is refused, a right password is not."""
    wrong = ["", "Bearer", "Bearer x", "Basic x", "Basic ü".encode().decode("latin-1"), "Digest a"]
    wrong += [
        basic("office", "other"),
        basic("crew-7", PASSWORD),
        basic("", ""),
        basic("crew-7", ""),
    ]
    for field in wrong:
        for method, path in (("POST", ITEMS), ("PUT", f"{ITEMS}/7"), ("DELETE", f"{ITEMS}/7")):
            headers = {b"Authorization": field.encode("latin-1")}
            answer = asked.client.request(method, asked.url + path, headers=headers)
            check_problem(context, answer, 401, "no_access")
            context.check("a challenge", "Bearer" in answer.headers["www-authenticate"], True)
    right = asked.send("POST", ITEMS, lamp("by-office"), Authorization=basic("office", PASSWORD))
    context.check("by a password", right.status_code, 201)


def check_fractions(context: Context, asked: Gateway) -> None:
    """`fractions = "text"` keeps a number that is not whole as the text of its digits."""
    text = '{"a":0.50,"b":[1e3,-0.5E-7],"c":2.0,"d":7,"e":"0.5","f":99999999999999999999,"g":null}'
    body = f'{{"type":"Feature","id":"text","geometry":null,"properties":{text}}}'
    context.check("created", asked.send("POST", ITEMS, body.encode()).status_code, 201)
    wanted = {"a": "0.50", "b": ["1e3", "-0.5E-7"], "c": 2, "d": 7, "e": "0.5"}
    wanted |= {"f": "99999999999999999999", "g": None}
    context.check("as text", asked.ask(f"{ITEMS}/text").json()["properties"], wanted)
    for open_text, close_text in ((b'{"a":', b"}"), (b"[", b"]")):
        for levels in (600, 900):
            deep = DEEP % (open_text * levels, close_text * levels)
            answer = asked.send("POST", ITEMS, deep)
            check_problem(context, answer, 400, "bad_feature")
            context.check(f"{levels} levels", answer.json().get("cause"), "too_deep")


def digest(key: str) -> str:
    made = hashlib.sha256(key.encode()).digest()
    return base64.urlsafe_b64encode(made).rstrip(b"=").decode()


def check_ended_worker(context: Context, asked: Gateway) -> None:
    """A process that reads large bodies and is stopped is started again for a later one."""
    body = json.dumps(lamp("by-worker", text="x" * 10_000)).encode()
    check_problem(context, asked.send("PUT", f"{ITEMS}/by-worker", body), 404, "no_feature")
    statuses = []
    for path in (ITEMS, f"{ITEMS}/by-worker"):
        method = "POST" if path == ITEMS else "PUT"
        for children in Path(f"/proc/{asked.process.pid}/task").glob("*/children"):
            for worker in children.read_text().split():
                os.kill(int(worker), signal.SIGKILL)
        answers = [asked.send(method, path, body) for _ in range(2)]
        statuses.append([each.status_code for each in answers])
        context.check("asked again", answers[0].headers.get("retry-after", "").isdigit(), True)
    context.check("a stopped worker", statuses, [[503, 201], [503, 204]])


def check_batches(context: Context, file: Path) -> None:
    """The kept batches: one edit each, and keys that say who, and when or what the client said."""
    with sqlite3.connect(file) as tables:
        rows = tables.execute("SELECT key, body FROM streetmap_batches ORDER BY serial").fetchall()
    made = [(key, json.loads(body)["edits"]) for key, body in rows if not key.startswith("data-")]
    context.check("one edit each", {len(edits) for _, edits in made}, {1})
    hashed = [key for key, _ in made if re.fullmatch("[^:]+:[A-Za-z0-9_-]{43}", key)]
    wanted = {f"crew-7:{digest(f'key {end}')}" for end in ("1", "PUT", "DELETE")}
    wanted |= {f"{name}:{digest('shared')}" for name in ("crew-7", "office")}
    context.check("keys by Idempotency-Key", set(hashed), wanted)
    rest = [key for key, _ in made if key not in hashed]
    form = r"(crew-7|office):\d{8}T\d{6}Z:[0-9a-f]{20}"
    context.check("keys that say who", [key for key in rest if not re.fullmatch(form, key)], [])
    context.check("both wrote", {key.partition(":")[0] for key in rest}, {"crew-7", "office"})
