"""Refusals as problem details (RFC 9457)."""

import http
import json
from collections.abc import Mapping
from typing import Any

from starlette.requests import Request
from starlette.responses import Response
from starlette.exceptions import HTTPException
from starlette.routing import Match, Route

MEDIA_TYPE = "application/problem+json"
MERGE_PATCH = "application/merge-patch+json"
# After these seconds a client may send its request again, if the server was away.
RETRY_SECONDS = 5
FILE_METHODS = {"GET", "HEAD"}


class Problem(Exception):
    """A refusal: a status, a code for programs and a sentence for people."""

    def __init__(
        self,
        status: int,
        code: str,
        detail: str,
        cause: str | None = None,
        headers: Mapping[str, str] | None = None,
    ) -> None:
        super().__init__(detail)
        self.status = status
        self.code = code
        self.detail = detail
        self.cause = cause
        self.headers = dict(headers or {})

    def __reduce__(self) -> tuple[Any, ...]:
        """How a refusal is pickled, for another process."""
        return Problem, (self.status, self.code, self.detail, self.cause, self.headers)

    def members(self) -> dict[str, Any]:
        """The members of the answer's body."""
        members: dict[str, Any] = {
            "type": "about:blank",
            "title": http.HTTPStatus(self.status).phrase,
            "status": self.status,
            "detail": self.detail,
            "code": self.code,
        }
        if self.cause is not None:
            members["cause"] = self.cause
        return members

    def response(self) -> Response:
        content = json.dumps(self.members(), separators=(",", ":"))
        return Response(content, self.status, self.headers, MEDIA_TYPE)


def bad_query(code: str, detail: str) -> Problem:
    return Problem(400, code, detail)


def not_found() -> Problem:
    return Problem(404, "not_found", "There is nothing at this path.")


def server_away(detail: str) -> Problem:
    return Problem(503, "server_away", detail, headers={"Retry-After": str(RETRY_SECONDS)})


async def answer_problem(_request: Request, fault: Exception) -> Response:
    """The answer to a refusal of the gateway's own."""
    assert isinstance(fault, Problem)
    return fault.response()


async def answer_failure(_request: Request, _fault: Exception) -> Response:
    """The answer to a fault of the gateway itself, which Starlette raises again for the log."""
    return Problem(500, "failed", "The gateway has failed at this request.").response()


async def answer_http_fault(request: Request, fault: Exception) -> Response:
    """The answer to a refusal of the framework: an unknown path, a wrong method. `OPTIONS` is
    answered with the methods of its path (RFC 9110, 9.3.7): clients learn by it whether they can
    edit."""
    assert isinstance(fault, HTTPException)
    if fault.status_code == 405:
        headers = await allowed(request)
        if request.method == "OPTIONS":
            return Response(status_code=204, headers=headers)
        detail = "The method is not allowed here."
        return Problem(405, "method_not_allowed", detail, headers=headers).response()
    if fault.status_code == 404:
        return not_found().response()
    return Problem(fault.status_code, "bad_request", str(fault.detail)).response()


async def allowed(request: Request) -> dict[str, str]:
    """The methods of all routes of a path, and what PATCH takes. A path without a route of its own
    is a file's. There is no PATCH if the server gives no entity tags."""
    routes = (
        route
        for route in request.app.routes
        if isinstance(route, Route) and route.matches(request.scope)[0] != Match.NONE
    )
    methods = {method for route in routes for method in route.methods or ()} or FILE_METHODS
    if "PATCH" in methods and not await request.app.state.gateway.client.gives_tags():
        methods.remove("PATCH")
    patch = {"Accept-Patch": MERGE_PATCH} if "PATCH" in methods else {}
    return {"Allow": ", ".join(sorted(methods)), **patch}
