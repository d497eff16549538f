"""Entity tags of what is read, over a server that gives tags of its states, and over one that gives
none: which answers have which tag, what leaves it, and 304."""

import asyncio
import sys
from collections.abc import Iterator, Sequence
from typing import Any

import httpx
from conditional import Watched, watched
from gateway_tests import guarded, patches, races
from gateway_tests.answers import check_description, check_problem
from gateway_tests.data import batches, feature, lamps, shape
from gateway_tests.service import EPSG, OFFICE, ROOT, SYSTEM, Gateway, gateway
from harness import Context
from messages import post

sys.path.append(str(ROOT))

from gateway.client import Answer, ServerClient  # noqa: E402
from gateway.conditions import EntityTag  # noqa: E402
from gateway.representation import StateReads, Unchanged  # noqa: E402

COLLECTION = "/collections/lamps"
ITEMS = f"{COLLECTION}/items"
ITEM, OTHER = f"{ITEMS}/tagged", f"{ITEMS}/other"
# Pages of one request to the server, and of several.
PAGES = (
    ITEMS,
    f"{ITEMS}?limit=5&crs={EPSG}4326",
    f"{ITEMS}?bbox=9.9,53.5,10,53.6",
    f"{ITEMS}?f=html",
)
STATES = ("/collections", COLLECTION, f"{COLLECTION}?f=html", *PAGES)
MOVED = SYSTEM.replace("565000.000", "565001.000")
NOWHERE = "bbox=100,10,101,11"


def lamp(name: str, number: int = 0) -> dict[str, Any]:
    return feature(name, shape("Point", [9.98, 53.55]), {"no": number})


def read(asked: Gateway, path: str, **fields: str) -> httpx.Response:
    """A GET with fields; in their names `_` represents `-`."""
    headers = {name.replace("_", "-"): value for name, value in fields.items()}
    return asked.client.get(asked.url + path, headers=headers)


def tag_of(asked: Gateway, path: str) -> str:
    """The tag of an answer; nothing if it has none."""
    return str(read(asked, path).headers.get("etag", ""))


def tags_of(asked: Gateway, paths: tuple[str, ...]) -> list[str]:
    return [tag_of(asked, path) for path in paths]


def check_tags(context: Context) -> None:
    """All of this over a file of its own, and conditional edits of it."""
    check_states(context)
    kept = {"lamps": lamps(30), "trees": [feature("T1", shape("Point", [1, 2]))]}
    file = context.new_file("tags.streetmap", *map(post, batches(kept)))
    with watched(context, file, "--clients", "48") as server:
        with gateway(context, server.url) as asked:
            check_resources(context, asked)
            check_not_modified(context, asked, server)
            check_features(context, asked)
            check_changes(context, asked)
            check_other_gateways(context, asked, server)
            guarded.check_conditions(context, asked)
            guarded.check_repeats(context, asked, file)
            guarded.check_meanwhile(context, asked, server)
            patches.check_patches(context, asked)
            with gateway(context, server.url, address=asked.url) as other:
                races.check_races(context, asked, other)
        guarded.check_required(context, server)
    file = context.new_file("untagged.streetmap", *map(post, batches(kept)))
    with context.serve(file, "--clients", "32") as plain, gateway(context, plain.url) as asked:
        check_untagged(context, asked)


class Scripted(ServerClient):
    """A client of a server whose state has these tags, request after request."""

    def __init__(self, *tags: str) -> None:
        super().__init__("http://localhost", 1)
        self.tags = [EntityTag(tag) if tag else None for tag in tags]
        self.named: list[list[str]] = []

    async def shown(
        self, target: str, known: Sequence[EntityTag] = (), method: str = "GET"
    ) -> Answer:
        self.named.append([tag.text for tag in known])
        tag = self.tags.pop(0)
        return Answer(304 if tag in known else 200, tag, b"{}")


def check_states(context: Context) -> None:
    """An answer of several requests has a tag if all of them showed one state. The first request
    alone names what the client has."""
    for tags, wanted in (
        (("1",), 'W/"1.form"'),
        (("1", "1"), 'W/"1.form"'),
        (("1", "2"), "None"),
        (("1", ""), "None"),
        (("",), "None"),
        (("7", "8"), 'W/"7.form" is known'),
        (("1", "7"), "None"),
    ):
        client, known = Scripted(*tags), [EntityTag("7")]
        reads = StateReads(client, "form", known)
        try:
            for _ in tags:
                asyncio.run(reads.get("/collections"))
            got = str(reads.tag)
        except Unchanged as unchanged:
            got = f"{unchanged.tag} is known"
        context.check(f"states {tags}", got, wanted)
        context.check(f"states {tags}: named", client.named[1:], [[]] * (len(client.named) - 1))


def check_resources(context: Context, asked: Gateway) -> None:
    """What depends on the state has a tag, weak but for the JSON of a feature; nothing else has.
    The description and the conformance classes say so."""
    asked.send("POST", ITEMS, lamp("tagged"))
    asked.send("POST", ITEMS, lamp("other"))
    found = tags_of(asked, STATES)
    context.check("weak tags", [tag[:3] for tag in found], ['W/"'] * len(STATES))
    context.check("each has its own", len(set(found)), len(STATES))
    for path in ("/", "/api", "/api.html", "/conformance"):
        context.check(f"{path} has none", tag_of(asked, path), "")
    for path in (*STATES, ITEM):
        kept = read(asked, path).headers["cache-control"]
        context.check(f"{path}: who keeps it asks again", kept, "no-cache")
    missing = read(asked, f"{ITEMS}/no")
    context.check("a 404 has none", (missing.status_code, "etag" in missing.headers), (404, False))
    described = asked.ask("/api").json()
    check_description(context, described)
    patch = described["paths"][f"{'/collections/{collectionId}/items'}/{{featureId}}"]["patch"]
    context.check("PATCH", patch["operationId"], "update")
    classes = [each.rpartition("/")[2] for each in asked.ask("/conformance").json()["conformsTo"]]
    context.check("the class", classes[-2:], ["create-replace-delete", "optimistic-locking-etags"])
    options = asked.send("OPTIONS", ITEM).headers
    wanted = ("DELETE, GET, HEAD, PATCH, PUT", "application/merge-patch+json")
    context.check("OPTIONS", (options["allow"], options["accept-patch"]), wanted)


def rows_of(tag: str) -> Iterator[tuple[str, int]]:
    """Fields of If-None-Match, and what is answered by them if the tag is that of what is there."""
    strong = tag.removeprefix("W/")
    for field in (tag, strong, f"W/{strong}", "*", f'"a", {tag}', f'W/"b" ,,\t{tag},'):
        yield field, 304
    for field in ("", ",", '"a"', f'"a{strong[1:]}', strong.lower(), '"a,b", W/"c"', '"\xff"'):
        yield field, 200
    for field in (
        f"{tag}, *",
        "*, *",
        "**",
        strong[1:-1],
        strong[:-1],
        f"{tag} {tag}",
        f"{tag};q=1",
    ):
        yield field, 400
    yield f"w/{strong}", 400
    yield '"a"' + " " * 30_000 + "b", 400


def check_not_modified(context: Context, asked: Gateway, server: Watched) -> None:
    """If-None-Match by RFC 9110, 13.1.2: by GET and by HEAD, of one field and of several. The
    server is not asked for a page again that has not changed."""
    for path in (*STATES, ITEM, f"{ITEM}?f=html"):
        tag = tag_of(asked, path)
        for field, status in rows_of(tag):
            for method in ("GET", "HEAD"):
                fields = {b"If-None-Match": field.encode("latin-1")}
                answer = asked.client.request(method, asked.url + path, headers=fields)
                what = f"{method} {path} {field[:60]!r}"
                context.check(what, answer.status_code, status)
                if status == 304:
                    got = (answer.headers["etag"], answer.content, answer.headers["vary"])
                    context.check(f"{what}: the 304", got, (tag, b"", "Accept"))
        two = [("If-None-Match", '"a"'), ("If-None-Match", tag)]
        answer = asked.client.get(asked.url + path, headers=two)
        context.check(f"{path}: two fields", answer.status_code, 304)
    for path in (f"{ITEMS}/no", "/collections/no", f"{ITEMS}?limit=0"):
        status = read(asked, path).status_code
        context.check(f"{path}: *", read(asked, path, If_None_Match="*").status_code, status)
    for path in STATES:
        tag = tag_of(asked, path)
        before = len(server.proxy.requests)
        read(asked, path, If_None_Match=tag)
        asked_for = [status for _, _, status in server.proxy.requests[before:]]
        context.check(f"{path}: the server's answers", asked_for, [304])


def check_features(context: Context, asked: Gateway) -> None:
    """The JSON of a feature has one strong tag in all systems, and HTML has another. If-Match
    chooses by the strong comparison (13.1.1)."""
    tag = tag_of(asked, ITEM)
    systems = {tag_of(asked, f"{ITEM}?crs={uri}") for uri in (OFFICE, f"{EPSG}4326")}
    context.check("one tag in all systems", (systems, tag[:1]), ({tag}, '"'))
    context.check("HTML has another", tag_of(asked, f"{ITEM}?f=html") in (tag, f"W/{tag}"), False)
    for field, status in ((tag, 200), (f'"a", {tag}', 200), ("*", 200), (f"W/{tag}", 412)):
        context.check(f"If-Match: {field}", read(asked, ITEM, If_Match=field).status_code, status)
    both = read(asked, ITEM, If_Match='"a"', If_None_Match=tag)
    check_problem(context, both, 412, "condition_failed")
    weak = tag_of(asked, ITEMS)
    check_problem(context, read(asked, ITEMS, If_Match=weak), 412, "condition_failed")
    check_problem(context, read(asked, ITEMS, If_Match="a"), 400, "bad_condition")


def check_changes(context: Context, asked: Gateway) -> None:
    """A change of another feature leaves a feature's tag, and no page's. Its own changes it, and
    back."""
    first, pages = tag_of(asked, ITEM), tags_of(asked, STATES)
    asked.send("PUT", OTHER, lamp("other", 1))
    context.check("another feature", tag_of(asked, ITEM), first)
    others = zip(STATES, pages, tags_of(asked, STATES))
    context.check("pages", [path for path, old, new in others if old == new], [])
    for path, tag in zip(STATES, pages):
        context.check(f"{path} again", read(asked, path, If_None_Match=tag).status_code, 200)
    asked.send("PUT", ITEM, lamp("tagged", 1))
    changed = read(asked, ITEM, If_None_Match=first)
    context.check("its own", (changed.status_code, changed.headers["etag"] == first), (200, False))
    asked.send("PUT", ITEM, lamp("tagged"))
    context.check("and back", tag_of(asked, ITEM), first)
    moved = shape("Point", [9.98001, 53.55])
    asked.send("PUT", ITEM, feature("tagged", moved, {"no": 0}))
    context.check("its geometry", tag_of(asked, ITEM) == first, False)
    asked.send("PUT", ITEM, lamp("tagged"))
    empty = f"{ITEMS}?{NOWHERE}"
    context.check("an empty page", read(asked, empty).headers["etag"][:3], 'W/"')


def check_other_gateways(context: Context, asked: Gateway, server: Watched) -> None:
    """A gateway of the same settings has the same tags; one at another address, or of another
    origin, has others, since its answers are others."""
    paths = (*STATES, ITEM)
    address = asked.url
    with gateway(context, server.url, address=address) as same:
        context.check("the same settings", tags_of(same, paths), tags_of(asked, paths))
    for system, at in ((SYSTEM, None), (MOVED, address)):
        with gateway(context, server.url, system, address=at) as other:
            pairs = zip(tags_of(other, paths), tags_of(asked, paths))
            context.check(f"{system} {at}", [mine for mine, its in pairs if mine == its], [])


def check_untagged(context: Context, asked: Gateway) -> None:
    """A server that gives no tags: pages have none, a feature has a weak one, which If-Match cannot
    name; there is no PATCH, and no class of locking."""
    asked.send("POST", ITEMS, lamp("tagged"))
    context.check("pages", set(tags_of(asked, STATES)), {""})
    tag = tag_of(asked, ITEM)
    context.check("a feature", tag[:3], 'W/"')
    context.check("again", read(asked, ITEM, If_None_Match=tag).status_code, 304)
    put = asked.send("PUT", ITEM, lamp("tagged", 1), If_Match=tag)
    check_problem(context, put, 412, "condition_failed")
    body, kind = b'{"properties":{"no":9}}', "application/merge-patch+json"
    answer = asked.send("PATCH", ITEM, body, Content_Type=kind)
    check_problem(context, answer, 405, "method_not_allowed")
    context.check("Allow", answer.headers["allow"], "DELETE, GET, HEAD, PUT")
    context.check("nothing acted", asked.ask(ITEM).json()["properties"], {"no": 0})
    for key in ("once", "once"):
        answer = asked.send("PUT", ITEM, lamp("tagged", 2), If_Match='"a"', Idempotency_Key=key)
        check_problem(context, answer, 412, "condition_failed")
    context.check("nothing acted twice", asked.ask(ITEM).json()["properties"], {"no": 0})
    classes = asked.ask("/conformance").json()["conformsTo"]
    context.check("no class", [it for it in classes if "locking" in it], [])
    path = "/collections/{collectionId}/items/{featureId}"
    context.check("no PATCH", "patch" in asked.ask("/api").json()["paths"][path], False)
