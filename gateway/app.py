"""The application: all paths of a gateway."""

import contextlib
from collections.abc import AsyncIterator

from starlette.applications import Starlette
from starlette.exceptions import HTTPException
from starlette.middleware import Middleware
from starlette.middleware.cors import CORSMiddleware
from starlette.routing import BaseRoute

from . import edits, patching, reading
from .access_log import AccessLog
from .gateway import Gateway
from .mirror.routes import FILTER_ROUTES, TILE_ROUTES
from .origins import OwnOrigin
from .problems import Problem, answer_failure, answer_http_fault, answer_problem
from .representation import Unchanged, answer_unchanged

# What a page of another origin may do, and the headers that it may read beside those of all pages.
READING = ["GET", "HEAD"]
EXPOSED = ["Content-Crs", "ETag", "Retry-After", "Streetmap-Tile"]


def make_app(gateway: Gateway) -> Starlette:
    """The paths of a gateway. Those that write are there if somebody may."""

    @contextlib.asynccontextmanager
    async def lifespan(_app: Starlette) -> AsyncIterator[None]:
        yield
        await gateway.close()

    app = Starlette(
        routes=routes_of(gateway),
        exception_handlers={
            Problem: answer_problem,
            Unchanged: answer_unchanged,
            HTTPException: answer_http_fault,
            Exception: answer_failure,
        },
        middleware=middleware(gateway),
        lifespan=lifespan,
    )
    app.router.redirect_slashes = False
    app.state.gateway = gateway
    return app


def routes_of(gateway: Gateway) -> list[BaseRoute]:
    """The paths that the settings select."""
    settings = gateway.settings
    found = reading.ROUTES + (edits.ROUTES + patching.ROUTES if settings.writers else [])
    if settings.mirror is not None:
        found = found + FILTER_ROUTES + (TILE_ROUTES if settings.mirror.tiles else [])
    return found


def middleware(gateway: Gateway) -> list[Middleware]:
    """What each request passes first, from the outermost on."""
    settings = gateway.settings
    found = [Middleware(OwnOrigin, address=settings.address)]
    if settings.cors.origins:
        cors = {"allow_origins": settings.cors.origins, "allow_methods": READING}
        found.insert(0, Middleware(CORSMiddleware, expose_headers=EXPOSED, **cors))
    if settings.listen.access_log:
        found.insert(0, Middleware(AccessLog))
    return found
