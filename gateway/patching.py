"""PATCH of a feature, by a merge patch (RFC 5789, RFC 7396): one batch that replaces it.

It is there only if the server gives entity tags: without them, what another changes between the
reading of the feature and the batch would be lost.
"""

import dataclasses
from dataclasses import dataclass

from starlette.exceptions import HTTPException
from starlette.requests import Request
from starlette.responses import Response
from starlette.routing import BaseRoute, Route

from .bodies import Sent
from .conditions import EntityTag
from .edits import Edit, batch_key, deletion, named
from .exactly import NO_STATE, Current, Target, apply_exactly
from .gateway import gateway_of
from .problems import Problem


async def update(request: Request) -> Response:
    if not await gateway_of(request).client.gives_tags():
        raise HTTPException(405)
    edit = await Edit.begin(request, **named(request))
    sent = await edit.sent("replace")
    await Patching(edit, sent_under(edit, sent)).apply()
    return Response(status_code=204)


def sent_under(edit: Edit, sent: Sent) -> Sent:
    """A patch under a key of its own. The key that the field alone would make is not enough: the
    batch is another if the feature is, so a key that was used has to say that it was this patch."""
    if edit.once is None:
        return sent
    parts = (edit.once, sent.collection.encode(), sent.feature.encode(), sent.system.encode())
    marked = b"".join(b"%d:" % len(part) + part for part in (b"PATCH", *parts, sent.body))
    return dataclasses.replace(sent, key=batch_key(edit.writer, marked))


@dataclass(frozen=True)
class Patching:
    """A patch, and the edit that it is of."""

    edit: Edit
    patch: Sent

    async def apply(self) -> None:
        edit, patch = self.edit, self.patch
        target = Target(edit.gateway, patch.collection, patch.feature, edit.conditions)
        await apply_exactly(target, self.make, self.send, self.has_acted)

    async def make(self, current: Current) -> bytes:
        """The batch that replaces a feature by what the patch makes of it."""
        if current.state is None:
            raise HTTPException(405)
        patch = dataclasses.replace(self.patch, patches=current.text)
        return (await self.edit.gateway.workers.batch(patch)).text

    async def send(self, batch: bytes, under: EntityTag | None) -> bool:
        """Whether a batch has acted. A key that was used is that of this patch, of a feature that
        was another then."""
        try:
            return await self.edit.send(batch, under)
        except Problem as problem:
            if problem.code != "key_used":
                raise
            return True

    async def has_acted(self) -> bool:
        """Whether the patch was accepted before; a batch that never acts shows it."""
        if not await self.edit.is_tagged_once():
            return False
        return await self.send(deletion(self.edit, self.patch.key), NO_STATE)


ROUTES: list[BaseRoute] = [
    Route("/collections/{collectionId}/items/{featureId:path}", update, methods=["PATCH"])
]
