"""Pages of other origins write nothing.

A browser sends what it keeps of a password along with any form, whoever made the page. So a request
that writes is refused if its browser says that a page of another origin sent it: by
`Sec-Fetch-Site` (Fetch Metadata), or by `Origin` (RFC 6454) without that field. Clients that
are no browsers send neither.
"""

from urllib.parse import urlsplit

from starlette.datastructures import Headers
from starlette.types import ASGIApp, Receive, Scope, Send

from .problems import Problem

READING = ("GET", "HEAD", "OPTIONS", "TRACE")
# The page is of the gateway itself, or none: the user typed the address.
OWN_SITES = ("same-origin", "none")
PORTS = {"http": 80, "https": 443}

Origin = tuple[str, str | None, int | None]


class OwnOrigin:
    """Passes on what reads, and what writes unless a page of another origin sent it."""

    def __init__(self, app: ASGIApp, address: str) -> None:
        self.app = app
        self.address = address

    async def __call__(self, scope: Scope, receive: Receive, send: Send) -> None:
        if scope["type"] == "http" and scope["method"] not in READING:
            if not self.is_own(Headers(scope=scope), scope["scheme"]):
                detail = "A page of another origin cannot write."
                await Problem(403, "other_origin", detail).response()(scope, receive, send)
                return
        await self.app(scope, receive, send)

    def is_own(self, headers: Headers, scheme: str) -> bool:
        """Whether no page sent a request with these fields, or one of the gateway's own origin:
        that of the settings, or that which the request names."""
        sites, origins = headers.getlist("sec-fetch-site"), headers.getlist("origin")
        if sites:
            return all(site.strip().lower() in OWN_SITES for site in sites)
        own = {origin_of(self.address), origin_of(f"{scheme}://{headers.get('host', '')}")}
        return all(origin is not None and origin in own for origin in map(origin_of, origins))


def origin_of(url: str) -> Origin | None:
    """Scheme, host and port of a URL; none if it is none, as `null` is."""
    try:
        parts = urlsplit(url.strip())
        port = parts.port or PORTS.get(parts.scheme)
    except ValueError:
        return None
    return (parts.scheme, parts.hostname, port) if parts.hostname else None
