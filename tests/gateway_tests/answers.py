"""What the gateway answers: resources, reference systems, axis order, exact texts, refusals."""

import json
import re
import subprocess
from decimal import Decimal
from typing import Any

import httpx
import pyproj
from gateway_tests.data import collections
from gateway_tests.service import CRS84, EPSG, OFFICE, Gateway
from harness import Context

LAMPS = "/collections/lamps/items"
ORIGIN = (Decimal(565000), Decimal(5934000))


def check_resources(context: Context, gateway: Gateway) -> None:
    """Landing page, description, conformance and collections."""
    landing = gateway.ask("/").json()
    rels = {link["rel"]: link for link in landing["links"]}
    others = {"service-desc", "service-doc", "conformance", "data"}
    context.check("links", set(rels), {"self", "alternate"} | others)
    for link in rels.values():
        kind = gateway.client.get(link["href"]).headers["content-type"].partition(";")[0]
        context.check(f"{link['rel']} is there", kind, link["type"].partition(";")[0])
    described = gateway.ask("/api").json()
    context.check("OpenAPI", described["openapi"][:3], "3.0")
    paths = {path: {*each} - {"parameters"} for path, each in described["paths"].items()}
    items = "/collections/{collectionId}/items"
    context.check("methods of items", paths[items], {"get", "post"})
    context.check("methods of an item", paths[items + "/{featureId}"], {"get", "put", "delete"})
    page = described["paths"][items]["get"]
    names = [named(described, each["$ref"])["name"] for each in page["parameters"]]
    wanted = ["bbox", "bbox-crs", "crs", "datetime", "limit", "after", "f"]
    wanted += ["If-None-Match", "If-Match"]
    context.check("parameters of items", names, wanted)
    kinds = list(page["responses"]["200"]["content"])
    context.check("the kinds of a page", kinds, ["application/geo+json", "text/html"])
    for reference in set(re.findall(r'"\$ref": ?"([^"]*)"', json.dumps(described))):
        context.check(reference, isinstance(named(described, reference), dict), True)
    check_description(context, described)
    classes = gateway.ask("/conformance").json()["conformsTo"]
    short = [re.sub(r".*ogcapi-features-(\d)/1.0/conf/", r"\1 ", each) for each in classes]
    wanted = ["1 core", "1 geojson", "1 html", "1 oas30", "2 crs", "4 create-replace-delete"]
    context.check("conformance", short, wanted)
    other_hosts = re.findall(r'(?:src|href)="\w+:', gateway.ask("/api.html").text)
    context.check("the page for people asks no other host", other_hosts, [])
    check_collections(context, gateway)


# Prints each fault that Debian's JSON::Validator finds in the OpenAPI document of a file.
VALIDATE = """
use JSON::Validator;
my $schema = JSON::Validator->new->schema(shift)->schema;
print ref $schema, "\\n", map { "$_\\n" } @{$schema->errors};
"""


def check_description(context: Context, described: dict[str, Any]) -> None:
    """The document is one of OpenAPI 3. Each operation says what it answers, and how it refuses."""
    file = context.folder / "openapi.json"
    file.write_text(json.dumps(described))
    words = ["perl", "-e", VALIDATE, str(file)]
    found = subprocess.run(words, capture_output=True, text=True, timeout=240).stdout
    context.check("JSON::Validator", found, "JSON::Validator::Schema::OpenAPIv3\n")
    for path, methods in described["paths"].items():
        for method, operation in methods.items():
            if method == "parameters":
                continue
            statuses = set(operation["responses"])
            what = f"{method} {path} has {sorted(statuses)}"
            wanted = {"400", "401", "403", "415"} if method in ("post", "put") else {"400"}
            is_whole = wanted <= statuses and bool(statuses & {"200", "201", "204"})
            context.check(what, is_whole, True)


def named(described: dict[str, Any], reference: str) -> Any:
    """What a reference within a document names."""
    found: Any = described
    for step in reference.split("/")[1:]:
        found = found[step]
    return found


def check_collections(context: Context, gateway: Gateway) -> None:
    found = gateway.ask("/collections").json()["collections"]
    context.check("collections", [each["id"] for each in found], list(collections()))
    uris = [CRS84, f"{EPSG}4326", f"{EPSG}3857", OFFICE]
    for each in found:
        shown = (each["itemType"], each["crs"], each["storageCrs"])
        context.check(f"{each['id']} tells its systems", shown, ("feature", uris, OFFICE))
        context.check(f"{each['id']} alone", gateway.ask(f"/collections/{each['id']}").json(), each)
        west, south, east, north = each["extent"]["spatial"]["bbox"][0]
        for feature in gateway.all_items(each["id"], limit=1000):
            within = all(
                west <= x <= east and south <= y <= north for x, y, *_ in positions(feature)
            )
            context.check(f"{feature['id']} lies in the extent", within, True)


def positions(feature: dict[str, Any]) -> list[list[Any]]:
    """All positions of a feature, left to right."""
    found: list[list[Any]] = []

    def walk(value: Any) -> None:
        if value and isinstance(value[0], list):
            for each in value:
                walk(each)
        elif value:
            found.append(value)

    def members(geometry: dict[str, Any] | None) -> None:
        if geometry is not None:
            for member in geometry.get("geometries", []):
                members(member)
            walk(geometry.get("coordinates", []))

    members(feature["geometry"])
    return found


def check_systems(context: Context, gateway: Gateway) -> None:
    """Each feature in each system, beside pyproj and beside exact decimals."""
    kept = {feature["id"]: feature for made in collections().values() for feature in made}
    forward = pyproj.Transformer.from_crs("EPSG:25832", "OGC:CRS84", always_xy=True)
    mercator = pyproj.Transformer.from_crs("OGC:CRS84", "EPSG:3857", always_xy=True)
    for name in collections():
        answers = {}
        for uri in (CRS84, f"{EPSG}4326", f"{EPSG}3857", OFFICE):
            answer = gateway.ask(f"/collections/{name}/items", limit=1000, crs=uri)
            context.check(f"Content-Crs of {name}", answer.headers["content-crs"], f"<{uri}>")
            answers[uri] = parsed(answer)
        for number, shown in enumerate(answers[OFFICE]):
            own = kept[shown["id"]]
            context.check(f"{shown['id']}: properties", shown["properties"], own["properties"])
            check_exact(context, shown, own)
            check_degrees(
                context, own, [answers[uri][number] for uri in answers], forward, mercator
            )


def parsed(answer: httpx.Response) -> list[dict[str, Any]]:
    """The features of a page, their numbers as decimals."""
    found: list[dict[str, Any]] = json.loads(answer.text, parse_float=Decimal)["features"]
    return found


def check_exact(context: Context, shown: dict[str, Any], own: dict[str, Any]) -> None:
    """The office's coordinates are origin + grid / 1000, digit for digit."""
    wanted = [
        [
            ORIGIN[0] + Decimal(x) / 1000,
            ORIGIN[1] + Decimal(y) / 1000,
            *(Decimal(z) / 1000 for z in h),
        ]
        for x, y, *h in positions(own)
    ]
    context.check(f"{own['id']}: the office's coordinates", positions(shown), wanted)


def check_degrees(
    context: Context,
    own: dict[str, Any],
    shown: list[dict[str, Any]],
    forward: pyproj.Transformer,
    mercator: pyproj.Transformer,
) -> None:
    """Degrees to nine places, half away from zero; EPSG:4326 with latitude first; EPSG:3857."""
    degrees, turned, metres = (positions(each) for each in shown[:3])
    for position, a, b, c in zip(positions(own), degrees, turned, metres):
        easting, northing = (565000000 + position[0]) / 1000, (5934000000 + position[1]) / 1000
        exact = forward.transform(easting, northing)
        off = max(abs(Decimal(value) - got) for value, got in zip(exact, a[:2]))
        context.check(f"{own['id']}: degrees", off <= Decimal("0.5000001e-9"), True)
        context.check(f"{own['id']}: latitude first", b[:2], a[1::-1])
        exact = mercator.transform(*exact)
        off = max(abs(Decimal(value) - got) for value, got in zip(exact, c[:2]))
        context.check(f"{own['id']}: Mercator", off <= Decimal("0.5000001e-4"), True)


REFUSED = {
    "bad_limit": [{"limit": "0"}, {"limit": ""}, {"limit": "5.0"}, {"limit": "-1"}],
    "bad_bbox": [
        {"bbox": "1,2,3"},
        {"bbox": "1,2,3,4,5"},
        {"bbox": "1,2,3,4,5,6,7,8"},
        {"bbox": "1,2,x,3,4,5"},
        {"bbox": "1,2,,3,4,5"},
        {"bbox": "1,2,3,x"},
        {"bbox": "NaN,2,3,4"},
        {"bbox": "9,54,10,53"},
        {"bbox": "0,0,9999,1"},
        {"bbox": "5,0,1,9", "bbox_crs": OFFICE},
    ],
    "bad_bbox_crs": [{"bbox": "1,2,3,4", "bbox_crs": "EPSG:4326"}],
    "bad_crs": [{"crs": "EPSG:25832"}, {"crs": ""}, {"crs": f"{EPSG}31467"}],
    "bad_datetime": [
        {"datetime": "2024-02-30"},
        {"datetime": "2024-05"},
        {"datetime": "2024-05-02/2024-05-01"},
        {"datetime": "2024-05-01/2024-05-02/2024-05-03"},
        {"datetime": "../.."},
        {"datetime": ""},
    ],
    "unknown_parameter": [{"g": "json"}, {"BBOX": "1,2,3,4"}, {"offset": "1"}, {"next": "a"}],
    "bad_f": [{"f": "xml"}, {"f": ""}, {"f": "HTML"}],
    "bad_after": [{"after": ""}, {"after": "\x01"}, {"after": "x" * 129}],
}


def check_refusals(context: Context, gateway: Gateway) -> None:
    """Faulty queries, unknown paths and wrong methods are problem details."""
    for code, queries in REFUSED.items():
        for query in queries:
            check_problem(context, gateway.ask(LAMPS, **query), 400, code)
    for path in ("/", "/api", "/api.html", "/conformance", "/collections", "/collections/lamps"):
        check_problem(context, gateway.ask(path, g="json"), 400, "unknown_parameter")
    repeated = gateway.client.get(f"{gateway.url}{LAMPS}?limit=1&limit=1")
    check_problem(context, repeated, 400, "repeated_parameter")
    for path in ("/no", "/collections/no", "/collections/no/items", "/collections/a%20b/items"):
        check_problem(context, gateway.ask(path), 404, "not_found")
    for path in (f"{LAMPS}/no", f"{LAMPS}/%01", "/collections/no/items/a", f"{LAMPS}/"):
        check_problem(context, gateway.ask(path), 404, "not_found")
    for path, methods in ((LAMPS, "GET, HEAD, POST"), (f"{LAMPS}/L", "DELETE, GET, HEAD, PUT")):
        answer = gateway.send("PATCH", path)
        check_problem(context, answer, 405, "method_not_allowed")
        context.check("Allow", answer.headers["allow"], methods)
        asked = gateway.send("OPTIONS", path)
        context.check("OPTIONS", (asked.status_code, asked.headers["allow"]), (204, methods))
    head = gateway.client.head(gateway.url + LAMPS)
    context.check("HEAD", (head.status_code, head.content), (200, b""))


def check_problem(context: Context, answer: httpx.Response, status: int, code: str) -> None:
    """A problem of RFC 9457 with this status and code."""
    what = f"{answer.request.method} {answer.request.url.raw_path.decode()}"
    kind = answer.headers.get("content-type")
    context.check(what, (answer.status_code, kind), (status, "application/problem+json"))
    if kind == "application/problem+json":
        body = answer.json()
        context.check(f"{what}: problem", (body["status"], body["code"]), (status, code))
