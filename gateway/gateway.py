"""What all requests share: settings, reference systems, the pool to the server, and workers."""

import asyncio
from dataclasses import dataclass, field
from pathlib import Path
from typing import cast

from starlette.requests import Request

from .access import Access
from .client import ServerClient
from .description import EDITING, MIRROR, PATCHING, READING, TILES, Description, Document
from .links import Links
from .mirror.service import MirrorService
from .settings import Settings
from .systems import Systems, make_systems
from .tags import Tags
from .workers import Workers


@dataclass(frozen=True)
class Gateway:
    """The parts of a gateway."""

    settings: Settings
    systems: Systems
    description: Description
    untagged: Document
    tags: Tags
    client: ServerClient
    links: Links
    access: Access
    workers: Workers
    mirror: MirrorService | None
    # Edits under a condition that another edit was faster than are tried again one after the other.
    turns: asyncio.Lock = field(default_factory=asyncio.Lock)

    @classmethod
    def of(cls, settings: Settings) -> "Gateway":
        """The gateway of these settings; a SettingsFault if the office's system cannot be
        served."""
        systems = make_systems(settings)
        parts = parts_of(settings)
        untagged = [part for part in parts if part != PATCHING]
        description = Description.of(parts, settings, systems)
        return cls(
            settings=settings,
            systems=systems,
            description=description,
            untagged=Description.of(untagged, settings, systems).document,
            tags=Tags(settings, systems, description.document["info"]["version"]),
            client=ServerClient(settings.server.address, settings.server.connections),
            links=Links(settings.address, settings.mirror),
            access=Access(settings.writers),
            workers=Workers(settings, systems),
            mirror=MirrorService.of(settings.mirror, systems),
        )

    async def document(self) -> Document:
        """The description of what can be done now: no PATCH if the server gives no tags."""
        return self.description.document if await self.client.gives_tags() else self.untagged

    async def close(self) -> None:
        """Ends the connections to the server, and the processes of workers."""
        await self.client.close()
        await self.workers.close()
        if self.mirror is not None:
            await self.mirror.close()


def parts_of(settings: Settings) -> list[Path]:
    """The parts of the description that settings select."""
    parts = [READING]
    if settings.writers:
        parts += [EDITING, PATCHING]
    if settings.mirror is not None:
        parts += [MIRROR, TILES] if settings.mirror.tiles else [MIRROR]
    return parts


def gateway_of(request: Request) -> Gateway:
    """The gateway that a request came to."""
    return cast(Gateway, request.app.state.gateway)
