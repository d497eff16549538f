"""What may write: pages of which origin, bodies of which type, and under which conditions."""

import hashlib
import subprocess
from typing import Any

from gateway_tests.answers import check_problem
from gateway_tests.data import feature, shape
from gateway_tests.service import PYTHON, ROOT, TOKEN, Gateway, environment
from harness import Context

ITEMS = "/collections/lamps/items"
ITEM = f"{ITEMS}/guarded"
SECONDS = 120
PAGE = "https://maps.example"
# Where the gateway says that it is, which is not where the tests request it.
ADDRESS = "https://streets.example/town"
OTHER_ORIGINS: list[dict[str, str]] = [
    {"Sec-Fetch-Site": "cross-site"},
    {"Sec-Fetch-Site": "same-site"},
    {"Sec-Fetch-Site": "cross-site", "Origin": "https://streets.example"},
    {"Sec-Fetch-Site": "Same-Site"},
    {"Origin": PAGE},
    {"Origin": "null"},
    {"Origin": ""},
    {"Origin": "http://streets.example"},
    {"Origin": "https://streets.example:8443"},
    {"Origin": "https://streets.example.evil.example"},
    {"Origin": "https://streets.example:no"},
]
OWN_ORIGINS: list[dict[str, str]] = [
    {},
    {"Sec-Fetch-Site": "same-origin"},
    {"Sec-Fetch-Site": "same-origin", "Origin": PAGE},
    {"Sec-Fetch-Site": "none"},
    {"Origin": "https://streets.example"},
    {"Origin": "HTTPS://Streets.Example:443"},
]
OTHER_TYPES = (
    "text/plain",
    "text/plain;charset=UTF-8",
    "application/x-www-form-urlencoded",
    "multipart/form-data; boundary=a",
    "text/json",
    "application/xml",
    "application/merge-patch+json",
    "application/jsonp",
    "",
)
JSON_TYPES = (
    "application/geo+json",
    "application/json",
    "application/json; charset=utf-8",
    "Application/GEO+JSON;charset=UTF-8",
)


def guarded(number: int = 0) -> dict[str, Any]:
    return feature("guarded", shape("Point", [9.98, 53.55]), {"no": number})


def kept_number(asked: Gateway) -> Any:
    """The number of the feature that is kept; none if none is kept."""
    answer = asked.ask(ITEM)
    return answer.json()["properties"]["no"] if answer.status_code == 200 else None


def request(asked: Gateway, method: str, path: str, body: Any, fields: dict[str, str]) -> Any:
    headers = {"Authorization": f"Bearer {TOKEN}", **fields}
    return asked.client.request(method, asked.url + path, headers=headers, json=body)


def check_origins(context: Context, asked: Gateway) -> None:
    """A page of another origin writes nothing, with the right token too. What is no page writes,
    and so does a page of the gateway's own address, or of the address that it was requested at."""
    asked.send("POST", ITEMS, guarded())
    edits = (("POST", ITEMS), ("PUT", ITEM), ("DELETE", ITEM), ("PATCH", ITEM), ("POST", "/none"))
    for fields in OTHER_ORIGINS:
        for method, path in edits:
            answer = request(asked, method, path, guarded(1), fields)
            check_problem(context, answer, 403, "other_origin")
        context.check(f"{fields}: nothing is written", kept_number(asked), 0)
        read = asked.client.get(asked.url + ITEM, headers=fields)
        context.check(f"{fields}: reading", read.status_code, 200)
    for number, fields in enumerate([*OWN_ORIGINS, {"Origin": asked.url}], 2):
        answer = request(asked, "PUT", ITEM, guarded(number), fields)
        context.check(f"{fields}: written", (answer.status_code, kept_number(asked)), (204, number))
    form = {"Content-Type": "text/plain", "Origin": PAGE}
    check_problem(context, request(asked, "POST", ITEMS, guarded(), form), 403, "other_origin")
    context.check("deleted", asked.send("DELETE", ITEM).status_code, 204)


def check_types(context: Context, asked: Gateway) -> None:
    """A body is GeoJSON or JSON by its Content-Type, or is refused."""
    for given in OTHER_TYPES:
        fields = {"Content-Type": given}
        for method, path in (("POST", ITEMS), ("PUT", ITEM)):
            answer = request(asked, method, path, guarded(), fields)
            check_problem(context, answer, 415, "bad_content_type")
            taken = answer.headers.get("accept")
            context.check("what is taken", taken, "application/geo+json, application/json")
    untyped = asked.client.build_request("POST", asked.url + ITEMS, content=b"{}")
    untyped.headers["Authorization"] = f"Bearer {TOKEN}"
    check_problem(context, asked.client.send(untyped), 415, "bad_content_type")
    context.check("nothing is written", kept_number(asked), None)
    for given in JSON_TYPES:
        made = request(asked, "POST", ITEMS, guarded(), {"Content-Type": given})
        context.check(f"{given}: created", made.status_code, 201)
        put = request(asked, "PUT", ITEM, guarded(7), {"Content-Type": given})
        context.check(f"{given}: replaced", (put.status_code, kept_number(asked)), (204, 7))
        context.check("deleted", asked.send("DELETE", ITEM).status_code, 204)


TAGS = ('"stale"', 'W/"stale"', '"a", "b"', '"a,b",,"c"', "", ",")
NO_TAGS = ('"a", *', "stale", "**", '"a" "b"', '"a', "'a'", 'w/"a"', 'W/ "a"', '"a b"', '"a";q=1')


def check_conditions(context: Context, asked: Gateway) -> None:
    """The server gives no tags, so no feature has one that If-Match can name, also not the tag that
    it has, and nothing acts. `*` holds of what is there."""
    asked.send("POST", ITEMS, guarded())
    own = asked.ask(ITEM).headers["etag"]
    context.check("a weak tag", own[:3], 'W/"')
    rows = [(tag, 412, "condition_failed") for tag in (*TAGS, own, own[2:])]
    for tag, status, code in [*rows, *((tag, 400, "bad_condition") for tag in NO_TAGS)]:
        for method, path, body in (
            ("POST", ITEMS, feature("other", None)),
            ("PUT", ITEM, guarded(1)),
            ("DELETE", ITEM, None),
        ):
            answer = asked.send(method, path, body, If_Match=tag)
            check_problem(context, answer, status, code)
        context.check(f"{tag}: nothing acted", kept_number(asked), 0)
    two = [("If-Match", '"a"'), ("If-Match", "*"), ("Authorization", f"Bearer {TOKEN}")]
    answer = asked.client.request("DELETE", asked.url + ITEM, headers=two)
    check_problem(context, answer, 400, "bad_condition")
    context.check("nothing else", asked.ask(f"{ITEMS}/other").status_code, 404)
    put = asked.send("PUT", ITEM, guarded(2), If_Match="*")
    context.check("* of what is there", (put.status_code, kept_number(asked)), (204, 2))
    check_none_match(context, asked)
    context.check("* deletes", asked.send("DELETE", ITEM, If_Match="*").status_code, 204)
    for method, body in (("PUT", guarded()), ("DELETE", None)):
        answer = asked.send(method, ITEM, body, If_Match="*")
        check_problem(context, answer, 412, "condition_failed")
    made = asked.send("POST", "/collections/no/items", guarded(), If_Match="*")
    check_problem(context, made, 412, "condition_failed")


def check_none_match(context: Context, asked: Gateway) -> None:
    """`If-None-Match` breaks on what is there by `*`, and by its tag; another tag holds."""
    own = asked.ask(ITEM).headers["etag"]
    rows = [("*", 412, "condition_failed"), (own, 412, "condition_failed")]
    for text, status, code in (*rows, ('"a", *', 400, "bad_condition")):
        for method, path, body in (
            ("PUT", ITEM, guarded(3)),
            ("DELETE", ITEM, None),
            ("POST", ITEMS, feature("other", None)),
        ):
            if text == own and path == ITEMS:
                continue
            answer = asked.send(method, path, body, If_None_Match=text)
            check_problem(context, answer, status, code)
    context.check("nothing acted", kept_number(asked), 2)
    missing = asked.send("PUT", f"{ITEMS}/other", feature("other", None), If_None_Match="*")
    check_problem(context, missing, 404, "no_feature")
    put = asked.send("PUT", ITEM, guarded(4), If_None_Match='"stale"')
    context.check("a tag of nothing", (put.status_code, kept_number(asked)), (204, 4))


def check_token(context: Context) -> None:
    """What is pasted into the settings has the digest of a token and not the token."""
    ended = subprocess.run(
        [PYTHON, "-m", "gateway.access", "crew-9"],
        cwd=ROOT,
        env=environment(),
        capture_output=True,
        text=True,
        timeout=SECONDS,
    )
    lines = ended.stdout.splitlines()
    context.check("an entry", lines[:2], ["[[writers]]", 'name = "crew-9"'])
    context.check("lines", (ended.returncode, len(lines), ended.stderr.count("\n")), (0, 3, 1))
    token = ended.stderr.strip().rpartition(" ")[2]
    digest = hashlib.sha256(token.encode()).hexdigest()
    context.check("the digest alone", lines[2:], [f'token = "sha256:{digest}"'])
