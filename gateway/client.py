"""The server that the gateway reads and writes: pages, features, collections and batches over HTTP.

A request whose connection broke is made again: a `GET` changes nothing, and a batch acts once under
its key. The server closes connections that are idle for half a minute, or sooner if another client
waits. A server that gives entity tags (`serve --conditional`) has one for each state.
"""

import asyncio
import json
from abc import ABC, abstractmethod
from collections.abc import Callable, Mapping, Sequence
from dataclasses import dataclass
from functools import cached_property
from typing import Any, TypeVar
from urllib.parse import quote, urlencode

import aiohttp
from yarl import URL

from .conditions import MATCH, NONE_MATCH, EntityTag
from .features import Page, read_page
from .problems import Problem, not_found, server_away

TRIES = 3
# How long a request waits: for a connection, and for each part of an answer.
TIMEOUT = aiohttp.ClientTimeout(total=None, connect=135, sock_connect=15, sock_read=60)
# The server closes a connection that is idle for 30 seconds.
IDLE_SECONDS = 20
# What does not need the server waits for it no longer than this.
TAG_SECONDS = 2
# Fields that aiohttp would add; the server has no use for them.
UNSENT = ("Accept", "Accept-Encoding", "Content-Type", "User-Agent")
# No connection was made in time, or an answer did not come in time.
AWAY = (aiohttp.ClientConnectorError, aiohttp.ServerTimeoutError)
Value = TypeVar("Value")


@dataclass(frozen=True)
class Answer:
    """An answer of the server: its status, its entity tag if it has one, and its body."""

    status: int
    tag: EntityTag | None
    body: bytes


class ServerReads(ABC):
    """What can be read of the server."""

    @abstractmethod
    async def ask(self, read: Callable[[bytes], Value], target: str) -> Value:
        """What the server shows at a target, as `read` reads it; a Problem with the server's code
        if it refuses. A ValueError of `read` says that the answer is none."""

    async def collections(self) -> list[dict[str, Any]]:
        found: list[dict[str, Any]] = (await self.get("/collections"))["collections"]
        return found

    async def collection(self, collection: str) -> dict[str, Any]:
        return await self.get(collection_path(collection))

    async def feature(self, collection: str, feature: str) -> bytes:
        """A feature, as the server writes it."""
        return await self.ask(bytes, feature_path(collection, feature))

    async def page(self, collection: str, query: Mapping[str, str]) -> Page:
        return await self.page_by(read_page, collection, query)

    async def page_by(
        self, read: Callable[[bytes], Value], collection: str, query: Mapping[str, str]
    ) -> Value:
        """A page as `read` reads it."""
        return await self.ask(read, f"{collection_path(collection)}/items?{urlencode(query)}")

    async def get(self, target: str) -> dict[str, Any]:
        return await self.ask(json.loads, target)


class ServerClient(ServerReads):
    """A client of the server over a pool of connections, fewer than its `--clients`."""

    def __init__(self, address: str, connections: int) -> None:
        self.address = address.rstrip("/")
        self.most = connections
        # Whether the state had an entity tag when it was last shown; unknown before that.
        self.tagged: bool | None = None

    @cached_property
    def session(self) -> aiohttp.ClientSession:
        """The pool. It belongs to the event loop that makes the first request."""
        return aiohttp.ClientSession(
            connector=aiohttp.TCPConnector(limit=self.most, keepalive_timeout=IDLE_SECONDS),
            cookie_jar=aiohttp.DummyCookieJar(),
            timeout=TIMEOUT,
            skip_auto_headers=UNSENT,
            auto_decompress=False,
        )

    async def close(self) -> None:
        await self.session.close()

    async def gives_tags(self, now: bool = False) -> bool:
        """Whether the server gives entity tags: as its last answers say, or as it says `now`."""
        if self.tagged is None or now:
            try:
                async with asyncio.timeout(None if now else TAG_SECONDS):
                    await self.shown("/collections", method="HEAD")
            except (Problem, TimeoutError):
                if now:
                    raise
                return False
        return bool(self.tagged)

    async def ask(self, read: Callable[[bytes], Value], target: str) -> Value:
        return parsed(await self.shown(target), read)

    async def shown(
        self, target: str, known: Sequence[EntityTag] = (), method: str = "GET"
    ) -> Answer:
        """The answer to a request that reads the state; a Problem if the server refuses. It has the
        status 304 if the state has one of the `known` tags."""
        fields = {NONE_MATCH: ", ".join(map(str, known))} if known else {}
        answer = await self.answer(method, target, fields)
        if answer.status not in (200, 304):
            raise refusal(answer)
        self.tagged = answer.tag is not None
        return answer

    async def apply(self, batch: bytes, under: EntityTag | None = None) -> dict[str, Any]:
        """The reply of the server to a batch, which acts only on the state of a tag if one is
        given."""
        fields = {} if under is None else {MATCH: str(under)}
        answer = await self.answer("POST", "/batches", fields, batch)
        if answer.status != 200:
            raise refusal(answer)
        return parsed(answer, json.loads)

    async def answer(
        self, method: str, target: str, fields: Mapping[str, str], content: bytes = b""
    ) -> Answer:
        """An answer. A connection that broke is tried again: the request on it may have been read
        or not."""
        for _ in range(TRIES):
            try:
                return await self.answer_once(method, target, fields, content)
            except AWAY:
                break
            except aiohttp.ClientError:
                continue
        raise server_away("The server does not answer. What was sent may be sent again.")

    async def answer_once(
        self, method: str, target: str, fields: Mapping[str, str], content: bytes
    ) -> Answer:
        url = URL(self.address + target, encoded=True)
        given: dict[str, Any] = {"data": content or None, "headers": fields}
        async with self.session.request(method, url, allow_redirects=False, **given) as answer:
            return Answer(answer.status, tag_of(answer.headers), await answer.read())


def tag_of(headers: Mapping[str, str]) -> EntityTag | None:
    """The entity tag of an answer. A weak one, as a proxy between may have made it, says of no
    state that it is the same."""
    tag = EntityTag.of(headers.get("ETag", ""))
    return None if tag is None or tag.is_weak else tag


def read_feature(text: bytes) -> dict[str, Any]:
    """The members of a feature, as the server writes it."""
    try:
        found: dict[str, Any] = json.loads(text)
    except ValueError as fault:
        raise bad_answer() from fault
    return found


def parsed(answer: Answer, read: Callable[[bytes], Value]) -> Value:
    """What an answer shows, as `read` reads it."""
    try:
        return read(answer.body)
    except ValueError as fault:
        raise bad_answer() from fault


def collection_path(collection: str) -> str:
    return f"/collections/{escaped(collection)}"


def feature_path(collection: str, feature: str) -> str:
    return f"{collection_path(collection)}/items/{escaped(feature)}"


def escaped(segment: str) -> str:
    """A segment of a path. The server has none that is empty or of dots."""
    if segment in ("", ".", ".."):
        raise not_found()
    return quote(segment, safe="")


def refusal(answer: Answer) -> Problem:
    """The refusal of the server, with its code."""
    status = answer.status
    try:
        body = json.loads(answer.body)
        code, detail = str(body["code"]), str(body["description"])
    except (ValueError, KeyError, TypeError):
        return bad_answer()
    if status == 503:
        return server_away(detail)
    return Problem(502 if status >= 500 else status, code, detail, cause=body.get("cause"))


def bad_answer() -> Problem:
    return Problem(502, "bad_answer", "The server's answer cannot be read.")
