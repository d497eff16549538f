"""Create, replace and delete (OGC API - Features Part 4, draft 20-002r1): one batch each.

A batch's key begins with the name of the writer. With an `Idempotency-Key` the SHA-256 of that
field follows, so the same request sent again by the same writer acts once. Without one the key says
who and when: USER:TIME:RANDOM.
"""

import asyncio
import base64
import hashlib
import re
import secrets
from dataclasses import dataclass
from datetime import datetime, timezone

from starlette.concurrency import run_in_threadpool
from starlette.requests import ClientDisconnect, Request
from starlette.responses import Response
from starlette.routing import BaseRoute, Route

from .bodies import Batch, Sent, batch_text
from .conditions import Conditions, EntityTag, failed, read_conditions
from .exactly import NO_STATE, Current, Target, apply_exactly
from .gateway import Gateway, gateway_of
from .links import GEOJSON, JSON
from .problems import MERGE_PATCH, Problem, not_found
from .query import read_parameters
from .systems import CRS84, System, Systems

# The most bytes of a body, which are the server's, and the time within which they come.
LARGEST, BODY_SECONDS = 8_388_608, 300
BODY_TYPES = {"POST": (GEOJSON, JSON), "PUT": (GEOJSON, JSON), "PATCH": (MERGE_PATCH,)}
COLLECTION = re.compile(r"[A-Za-z0-9][A-Za-z0-9._-]{0,63}")
MADE_ID_DIGITS = 32


def idempotency_key(request: Request) -> bytes | None:
    """The field that makes a request act once, if it has one."""
    given = request.headers.getlist("idempotency-key")
    if not given:
        return None
    if len(given) > 1 or not 1 <= len(given[0]) <= 255:
        detail = "There must be one Idempotency-Key of 1 to 255 characters."
        raise Problem(400, "bad_idempotency_key", detail)
    return given[0].encode("latin-1")


def batch_key(writer: str, given: bytes | None) -> str:
    """The key of the batch that a request becomes: at most the 64 bytes that the server takes,
    since a writer's name has at most 20."""
    if given is None:
        now = datetime.now(timezone.utc).strftime("%Y%m%dT%H%M%SZ")
        return f"{writer}:{now}:{secrets.token_hex(10)}"
    digest = hashlib.sha256(given).digest()
    return f"{writer}:{base64.urlsafe_b64encode(digest).rstrip(b'=').decode()}"


def made_id(key: str) -> str:
    """The id of a feature that came without one: the same for the same batch key."""
    return hashlib.sha256(f"id {key}".encode()).hexdigest()[:MADE_ID_DIGITS]


def content_system(request: Request, systems: Systems) -> System:
    """The reference system of the body: that of Content-Crs, else CRS84."""
    given = request.headers.get("content-crs", f"<{CRS84}>").strip()
    return systems.named(given.removeprefix("<").removesuffix(">"), "bad_content_crs")


def check_content_type(request: Request) -> None:
    """Refuses a body that does not say that it is of a type that the method takes. A form of a page
    cannot say so, and a script of another origin only if the gateway agrees before."""
    taken = BODY_TYPES.get(request.method, ())
    given = [text.partition(";")[0] for text in request.headers.getlist("content-type")]
    if taken and (len(given) != 1 or given[0].strip().lower() not in taken):
        detail = f"The Content-Type of the body must be {' or '.join(taken)}."
        name = "Accept-Patch" if request.method == "PATCH" else "Accept"
        raise Problem(415, "bad_content_type", detail, headers={name: ", ".join(taken)})


async def body_of(request: Request) -> bytes:
    """The body; a Problem if it is too large, too slow, or cut."""
    body = bytearray()
    try:
        async with asyncio.timeout(BODY_SECONDS):
            async for piece in request.stream():
                body += piece
                if len(body) > LARGEST:
                    raise Problem(413, "body_too_large", "The body is too large.")
    except TimeoutError as fault:
        raise Problem(408, "body_too_slow", "The body takes too long.") from fault
    except ClientDisconnect as fault:
        raise Problem(400, "body_cut", "The body ends too soon.") from fault
    return bytes(body)


@dataclass(frozen=True)
class Edit:
    """An edit of one who may write: what it names, the field that makes it act once, and its
    conditions. An edit of a collection names no feature."""

    gateway: Gateway
    request: Request
    writer: str
    collection: str
    feature: str | None
    once: bytes | None
    conditions: Conditions

    @classmethod
    async def begin(cls, request: Request, collection: str, feature: str | None) -> "Edit":
        """The edit of a request; a Problem if it may not write, or has a parameter, or lacks a
        condition that the settings want."""
        gateway = gateway_of(request)
        writer = await run_in_threadpool(gateway.access.writer, request)
        request.state.writer = writer
        check_content_type(request)
        once = idempotency_key(request)
        read_parameters(request)
        if not COLLECTION.fullmatch(collection):
            raise not_found()
        if feature is not None and not is_feature_id(feature):
            raise not_found()
        conditions = read_conditions(request.headers)
        if gateway.settings.edits.require_if_match and feature and not conditions.match:
            raise Problem(428, "no_condition", "An edit of a feature needs If-Match here.")
        return cls(gateway, request, writer, collection, feature, once, conditions)

    async def sent(self, op: str) -> Sent:
        """The feature, or the patch, that the request sends."""
        system = content_system(self.request, self.gateway.systems)
        key = batch_key(self.writer, self.once)
        name = made_id(key) if self.feature is None else self.feature
        body = await body_of(self.request)
        return Sent(op, self.collection, name, key, system.uri, body)

    async def send(self, batch: bytes, under: EntityTag | None = None) -> bool:
        """Whether a batch has acted, now or before; it has not if the server's state has another
        tag. A feature or collection that is not there is a 404, or breaks the condition that it is
        there."""
        try:
            await self.gateway.client.apply(batch, under)
        except Problem as problem:
            if under is not None and problem.code == "changed":
                return False
            if problem.code in ("no_feature", "no_collection"):
                if self.conditions.match is not None:
                    raise failed("There is nothing at this path.") from problem
                problem.status = 404
            raise
        return True

    async def apply(self, batch: bytes) -> None:
        """Sends a batch that is the same whatever the feature is."""

        async def make(_current: Current) -> bytes:
            return batch

        async def has_acted() -> bool:
            return await self.is_tagged_once() and await self.send(batch, NO_STATE)

        conditions = self.conditions
        if self.feature is not None and (conditions.need_tag or conditions.none_match):
            target = Target(self.gateway, self.collection, self.feature, conditions)
            await apply_exactly(target, make, self.send, has_acted)
        else:
            await self.send(batch)

    async def is_tagged_once(self) -> bool:
        """Whether the request acts once, and the server can say that it has acted: one without
        tags would let it act again."""
        return self.once is not None and await self.gateway.client.gives_tags(now=True)


def is_feature_id(text: str) -> bool:
    """1 to 128 bytes without control characters."""
    has_control = any(ord(each) < 32 or 127 <= ord(each) < 160 for each in text)
    return 1 <= len(text.encode("utf-8", "surrogatepass")) <= 128 and not has_control


async def create(request: Request) -> Response:
    collection = request.path_params["collectionId"]
    edit = await Edit.begin(request, collection, None)
    await check_collection(edit)
    batch = await edit.gateway.workers.batch(await edit.sent("insert"))
    await edit.apply(batch.text)
    location = gateway_of(request).links.location(collection, batch.feature)
    return Response(status_code=201, headers={"Location": location})


async def check_collection(edit: Edit) -> None:
    """Refuses conditions that do not hold of the features of a collection, whose tag is weak: so no
    If-Match holds of it but `*`, which is judged by the batch."""
    conditions = edit.conditions
    if conditions.match is not None and not conditions.match.is_any:
        raise failed("The features of a collection have no entity tag that If-Match can name.")
    if conditions.none_match is not None and conditions.none_match.is_any:
        try:
            await edit.gateway.client.collection(edit.collection)
        except Problem as problem:
            if problem.status != 404:
                raise
        else:
            raise failed("There is something at this path.")


async def replace(request: Request) -> Response:
    edit = await Edit.begin(request, **named(request))
    batch = await edit.gateway.workers.batch(await edit.sent("replace"))
    await edit.apply(batch.text)
    return Response(status_code=204)


async def remove(request: Request) -> Response:
    edit = await Edit.begin(request, **named(request))
    await edit.apply(deletion(edit, batch_key(edit.writer, edit.once)))
    return Response(status_code=204)


def deletion(edit: Edit, key: str) -> bytes:
    """The batch that deletes the feature of an edit."""
    deleted = {"op": "delete", "collection": edit.collection, "id": edit.feature}
    return batch_text(key, deleted)


def named(request: Request) -> dict[str, str]:
    """The collection and the feature that a path names."""
    names = request.path_params
    return {"collection": names["collectionId"], "feature": names["featureId"]}


ROUTES: list[BaseRoute] = [
    Route("/collections/{collectionId}/items", create, methods=["POST"]),
    Route("/collections/{collectionId}/items/{featureId:path}", replace, methods=["PUT"]),
    Route("/collections/{collectionId}/items/{featureId:path}", remove, methods=["DELETE"]),
]
