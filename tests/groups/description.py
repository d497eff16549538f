"""docs/openapi.json is an OpenAPI document, and describes each request and answer of the rows.

The rows are those of examples/http.jsonl, those of examples/conditional.jsonl with tags, those of
examples/changes.jsonl with changes, and those of services that refuse batches or show their status. A request for one of
the paths, by a method that is described, has an answer whose status, media type, tag and body are
described. Any other has an error.
"""

import json
import re
from collections.abc import Iterator
from dataclasses import dataclass
from typing import Any

import jsonschema

from examples import rows_of
from harness import TESTS, Context

PACKAGES = ("python3-jsonschema",)
DOCUMENT = TESTS.parent / "docs" / "openapi.json"
METHODS = {"get", "head", "post", "put", "delete", "options", "patch", "trace"}
# Whether an answer has a tag, and whether it is described: without `--conditional` it has none.
TAGGED = ((False, False), (False, True), (True, True))
REQUEST_LINE = re.compile(r"([A-Z]+) (\S+) HTTP/1\.[01]")
PATHS = {
    "/",
    "/api",
    "/conformance",
    "/collections",
    "/collections/{collectionId}",
    "/collections/{collectionId}/items",
    "/collections/{collectionId}/items/{featureId}",
    "/batches",
    "/changes",
    "/status",
}
# The files of rows.
ROWS = (
    *("http.jsonl", "conditional.jsonl", "changes.jsonl", "fenced.jsonl", "follower.jsonl"),
    *("status.jsonl", "status_and_tags.jsonl"),
)


@dataclass(frozen=True)
class Exchange:
    """A request of a row, which has no parts if it has no request line, and its
    answer."""

    method: str
    path: str
    sent: str
    status: str
    fields: dict[str, str]
    body: str


def head_of(text: str) -> tuple[str, dict[str, str], str]:
    """The first line of a head, its fields by lower-case names, and what follows it."""
    head, *rest = re.split(r"\r?\n\r?\n", text, maxsplit=1)
    first, *lines = re.split(r"\r?\n", head)
    fields = dict(line.split(":", 1) for line in lines if ":" in line)
    return first, {name.lower(): it.strip() for name, it in fields.items()}, "".join(rest)


def size_in(fields: dict[str, str]) -> int:
    size = fields.get("content-length", "")
    return int(size) if size.isdigit() else 0


def exchanges(sent: str, written: str) -> Iterator[Exchange]:
    """The requests of a stream with their answers, up to the last answer."""
    while written:
        line, asked, sent = head_of(sent.lstrip("\r\n"))
        found = REQUEST_LINE.fullmatch(line)
        method, target = found.groups() if found else ("", "")
        status, fields, written = head_of(written)
        body, sent = sent[: size_in(asked)], sent[size_in(asked) :]
        size = 0 if method == "HEAD" else len(written.encode()[: size_in(fields)].decode())
        path = target.partition("?")[0]
        yield Exchange(method, path, body, status.split(" ")[1], fields, written[:size])
        written = written[size:]


def as_json_schema(part: Any) -> Any:
    """A part of the document as JSON Schema, which says of null what OpenAPI 3.0 does by
    `nullable`."""
    if isinstance(part, list):
        return [as_json_schema(each) for each in part]
    if not isinstance(part, dict):
        return part
    inner = {name: as_json_schema(each) for name, each in part.items() if name != "nullable"}
    return {"anyOf": [inner, {"type": "null"}]} if part.get("nullable") is True else inner


def references(part: Any) -> Iterator[str]:
    """All references of a part of the document."""
    if isinstance(part, list):
        for each in part:
            yield from references(each)
    elif isinstance(part, dict):
        if isinstance(part.get("$ref"), str):
            yield part["$ref"]
        for each in part.values():
            yield from references(each)


class Description:
    """The document, and what it says of a request and an answer."""

    def __init__(self, document: dict[str, Any]) -> None:
        self.document = document
        self.schemas = as_json_schema(document)

    def found(self, reference: str) -> Any:
        """What a reference within the document names; nothing if it names nothing."""
        part: Any = self.document
        for name in reference.removeprefix("#/").split("/"):
            part = part.get(name) if isinstance(part, dict) else None
        return part

    def resolved(self, part: dict[str, Any]) -> dict[str, Any]:
        named: dict[str, Any] = self.found(part["$ref"]) if "$ref" in part else part
        return named

    def template(self, path: str) -> str | None:
        """The described path that a path is one of."""
        for template in self.document["paths"]:
            if re.fullmatch(re.sub(r"\\{\w+\\}", "[^/]+", re.escape(template)), path):
                return str(template)
        return None

    def response(self, exchange: Exchange) -> dict[str, Any] | None:
        """What is described of an answer: that of its operation; a 405 if the path has another;
        else an error."""
        template = self.template(exchange.path)
        shared = self.document["components"]["responses"]
        if template is None:
            statuses = {"404": "NotFound", "431": "HeadTooLarge", "413": "TooLarge"}
            return dict(shared[statuses.get(exchange.status, "BadRequest")])
        operation = self.document["paths"][template].get(exchange.method.lower())
        if operation is None:
            return dict(shared["MethodNotAllowed"])
        found = operation["responses"].get(exchange.status)
        return self.resolved(found) if found else None

    def faults(self, schema: dict[str, Any], text: str) -> list[str]:
        """What of a JSON text is not as a schema has it."""
        whole = {**as_json_schema(schema), "components": self.schemas["components"]}
        found = jsonschema.Draft7Validator(whole).iter_errors(json.loads(text))
        return [f"{list(it.path)}: {it.message[:200]}" for it in found]


def check_document(context: Context, description: Description) -> None:
    """What OpenAPI 3.0 requires of each document, as far as this one has it."""
    document = description.document
    context.check("the version of OpenAPI", document["openapi"][:4], "3.0.")
    context.check("the paths", set(document["paths"]), PATHS)
    lost = [it for it in references(document) if description.found(it) is None]
    context.check("references that name nothing", lost, [])
    jsonschema.Draft7Validator.check_schema(description.schemas["components"]["schemas"])
    names: list[str] = []
    for path, item in document["paths"].items():
        context.check(f"the methods of {path}", set(item) <= METHODS, True)
        for method, operation in item.items():
            names.append(operation["operationId"])
            given = [description.resolved(it) for it in operation.get("parameters", [])]
            within = {it["name"] for it in given if it["in"] == "path" and it["required"]}
            what = f"{method} {path}"
            context.check(f"{what}: names in the path", within, set(re.findall(r"{(\w+)}", path)))
            texts = [
                description.resolved(it)["description"] for it in operation["responses"].values()
            ]
            context.check(f"{what}: described answers", all(texts) and len(texts) > 0, True)
    context.check("names of operations", len(names), len(set(names)))


def check_exchange(context: Context, description: Description, what: str, it: Exchange) -> None:
    what = f"{what}: {it.method} {it.path} {it.status}"
    response = description.response(it)
    context.check(f"{what} is described", response is not None, True)
    content = (response or {}).get("content", {})
    media = it.fields.get("content-type")
    if it.method != "HEAD":
        context.check(f"{what}: media type", [media] if media else [], list(content))
    has_tag, headers = "etag" in it.fields, (response or {}).get("headers", {})
    context.check(f"{what}: tag", (has_tag, "ETag" in headers) in TAGGED, True)
    if it.method != "HEAD" and media and media in content and media.endswith("json"):
        context.check(f"{what}: body", description.faults(content[media]["schema"], it.body), [])
    if it.status == "200" and it.method == "POST":
        schema = {"$ref": "#/components/schemas/Batch"}
        context.check(f"{what}: batch", description.faults(schema, it.sent), [])


def run(context: Context) -> None:
    description = Description(json.loads(DOCUMENT.read_text()))
    check_document(context, description)
    seen: set[str | None] = set()
    for row in (row for name in ROWS for row in rows_of(name)):
        for exchange in exchanges(row["sent"], row["written"]):
            check_exchange(context, description, row["what"], exchange)
            if exchange.status == "200":
                seen.add(description.template(exchange.path))
    context.check("paths of which a row has a 200", seen, PATHS)
