"""An answer that shows a part of the server's state: what is read for it, its entity tag, and
whether the client has it already."""

from collections.abc import Callable, Sequence
from dataclasses import dataclass
from itertools import islice
from typing import TypeVar

from starlette.requests import Request
from starlette.responses import Response

from .client import ServerClient, ServerReads, parsed
from .conditions import Conditions, EntityTag, failed, read_conditions
from .gateway import Gateway, gateway_of
from .tags import of_state, states_of

# The most tags of states that are passed on to the server, of those that a client names.
MOST_KNOWN = 8
# Whoever keeps an answer with a tag requests it again by that tag.
AGAIN = "no-cache"
Value = TypeVar("Value")


class Unchanged(Exception):
    """The client has what it requests, which has this tag, so nothing more is read for it."""

    def __init__(self, tag: EntityTag) -> None:
        super().__init__(str(tag))
        self.tag = tag


class StateReads(ServerReads):
    """The requests that make one answer of a form, and the tags of the states that they showed."""

    def __init__(self, client: ServerClient, form: str, known: Sequence[EntityTag]) -> None:
        self.client = client
        self.form = form
        self.known = known
        self.states: set[EntityTag | None] = set()

    async def ask(self, read: Callable[[bytes], Value], target: str) -> Value:
        """The first request alone names the known tags: what comes after it is of a state that has
        none of them, or of several states."""
        known = self.known if not self.states else ()
        answer = await self.client.shown(target, known)
        if answer.status == 304 and answer.tag is not None and answer.tag in known:
            raise Unchanged(of_state(answer.tag, self.form))
        self.states.add(answer.tag)
        return parsed(answer, read)

    @property
    def state(self) -> EntityTag | None:
        """The tag of the state, if all requests showed the same."""
        return next(iter(self.states)) if len(self.states) == 1 else None

    @property
    def tag(self) -> EntityTag | None:
        """The tag of what they showed in this form, if that is of one state."""
        return None if self.state is None else of_state(self.state, self.form)


@dataclass(frozen=True)
class Representation:
    """What a request wants: the form, what is read for it, and the conditions."""

    gateway: Gateway
    conditions: Conditions
    is_html: bool
    reads: StateReads

    @classmethod
    def of(cls, request: Request, is_html: bool) -> "Representation":
        """That of a request; a Problem if its conditions cannot be read."""
        gateway, conditions = gateway_of(request), read_conditions(request.headers)
        form = gateway.tags.form(request, is_html)
        named = None if conditions.match else conditions.none_match
        known = list(islice(states_of(named, form), MOST_KNOWN))
        return cls(gateway, conditions, is_html, StateReads(gateway.client, form, known))

    def feature_tag(self, text: bytes) -> EntityTag:
        """The tag of a feature with this text, which was read."""
        return self.gateway.tags.of_feature(text, self.reads.state, self.is_html)

    def answer(self, tag: EntityTag | None, build: Callable[[], Response]) -> Response:
        """The answer of a tag, which is not built if the client has it; a Problem if the client
        wants another."""
        if not self.conditions.is_matched(True, tag):
            raise failed("What is there has another entity tag.")
        if not self.conditions.is_new(True, tag):
            return not_modified(tag)
        built = build()
        built.headers.update(tag_fields(tag))
        return built


def tag_fields(tag: EntityTag | None) -> dict[str, str]:
    return {} if tag is None else {"ETag": str(tag), "Cache-Control": AGAIN}


def not_modified(tag: EntityTag | None) -> Response:
    """The 304 of a tag (RFC 9110, 15.4.5)."""
    return Response(status_code=304, headers=tag_fields(tag) | {"Vary": "Accept"})


async def answer_unchanged(_request: Request, fault: Exception) -> Response:
    """The answer to a client that has what it requests."""
    assert isinstance(fault, Unchanged)
    return not_modified(fault.tag)
