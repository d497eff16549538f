"""Edits of the very feature that their conditions are about, to the last moment.

The feature is read in a state S of the server, the conditions are judged of it, and the batch is
sent under `If-Match: S`. If another batch was accepted meanwhile, the server refuses this one
(`changed`), and all of it begins again. So no change is replaced that the client has not seen. If
the server gives no entity tags, the batch is sent right after the judgement, and another may come
between.
"""

import contextlib
from collections.abc import Awaitable, Callable
from dataclasses import dataclass

from .conditions import Conditions, EntityTag, failed
from .gateway import Gateway
from .problems import Problem
from .representation import StateReads
from .tags import own_text

# How often an edit is begun. From the second time on edits of this gateway take turns, so that they
# are not refused because of each other.
TURNS = 10
# The tag of no state. A batch under it is answered if its key was used before, and never acts.
NO_STATE = EntityTag("no-state")


@dataclass(frozen=True)
class Current:
    """A feature that is there: its own text, its tag, and that of the state, if it has one."""

    text: bytes
    tag: EntityTag
    state: EntityTag | None


@dataclass(frozen=True)
class Target:
    """The feature that an edit names, and the conditions of it."""

    gateway: Gateway
    collection: str
    feature: str
    conditions: Conditions

    async def current(self) -> Current | None:
        """The feature, if it is there."""
        reads = StateReads(self.gateway.client, "", ())
        try:
            text = own_text(await reads.feature(self.collection, self.feature))
        except Problem as problem:
            if problem.status != 404:
                raise
            return None
        return Current(text, self.gateway.tags.of_feature(text, reads.state), reads.state)

    def check(self, current: Current | None) -> Current:
        """The feature; a Problem if it is not there, or a condition does not hold of it."""
        if current is None:
            if self.conditions.match is not None:
                raise failed("There is nothing at this path.")
            raise Problem(404, "no_feature", "The feature is not there.")
        if not self.conditions.is_matched(True, current.tag):
            raise failed("The feature has another entity tag, or one that If-Match cannot name.")
        if not self.conditions.is_new(True, current.tag):
            raise failed("There is something at this path.")
        return current


async def apply_exactly(
    target: Target,
    make: Callable[[Current], Awaitable[bytes]],
    send: Callable[[bytes, EntityTag | None], Awaitable[bool]],
    has_acted: Callable[[], Awaitable[bool]],
) -> None:
    """Sends the batch that `make` makes of the feature. `send` says whether it has acted, or the
    state was another. Where a condition does not hold, `has_acted` says whether that is because the
    same request has acted before."""
    batch, made_of = b"", None
    for turn in range(TURNS):
        async with contextlib.AsyncExitStack() as stack:
            if turn:
                await stack.enter_async_context(target.gateway.turns)
            found = await target.current()
            try:
                current = target.check(found)
            except Problem:
                if await has_acted():
                    return
                raise
            if current.text != made_of:
                batch, made_of = await make(current), current.text
            if await send(batch, current.state):
                return
    detail = "Other edits were faster each time. What was sent may be sent again."
    raise Problem(503, "overtaken", detail, headers={"Retry-After": "1"})
