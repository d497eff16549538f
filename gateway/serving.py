"""How a gateway listens: uvicorn, with limits for clients that are slow, silent or too many."""

import asyncio
from collections import deque
from typing import Any

import uvicorn
from starlette.applications import Starlette
from uvicorn.protocols.http.httptools_impl import HttpToolsProtocol

from .settings import Listen

# A client has this long for the whole head of a request, from the connection or the last answer on.
HEAD_SECONDS = 15
# A connection may be idle for this long between an answer and the next request.
IDLE_SECONDS = 10
# A client that takes nothing of an answer for this long is cut off.
TAKING_SECONDS = 30
# More connections than these are closed at once.
MOST_CONNECTIONS = 1000
# Pages name only files of their own origin, and have no script and no style within HTML.
POLICY = (
    "default-src 'none'; script-src 'self'; style-src 'self'; img-src 'self'; connect-src 'self';"
    " base-uri 'none'; form-action 'none'; frame-ancestors 'none'"
)
HEADERS = [
    ("Content-Security-Policy", POLICY),
    ("Referrer-Policy", "same-origin"),
    ("X-Content-Type-Options", "nosniff"),
]


class Connection(HttpToolsProtocol):  # type: ignore[misc]
    """A connection of a client that has to send its heads, and to take its answers, in time."""

    head_timer: asyncio.TimerHandle | None = None
    taking_timer: asyncio.TimerHandle | None = None

    def connection_made(self, transport: Any) -> None:
        # Requests whose answers are not complete; uvicorn itself knows the last one alone.
        self.answering: deque[Any] = deque()
        super().connection_made(transport)
        if len(self.connections) > MOST_CONNECTIONS:
            transport.abort()
        else:
            self.await_head()

    def connection_lost(self, exc: Exception | None) -> None:
        cancel(self.head_timer)
        cancel(self.taking_timer)
        for cycle in self.answering:
            cycle.disconnected = True
            cycle.message_event.set()
        super().connection_lost(exc)

    def await_head(self) -> None:
        """Closes the connection unless a whole head comes in time."""
        cancel(self.head_timer)
        self.head_timer = self.loop.call_later(HEAD_SECONDS, self.transport.abort)

    def on_headers_complete(self) -> None:
        cancel(self.head_timer)
        before = self.cycle
        super().on_headers_complete()
        if self.cycle is not before:
            self.answering.append(self.cycle)

    def on_response_complete(self) -> None:
        has_next = bool(self.pipeline)
        self.answering.popleft()
        super().on_response_complete()
        if not has_next and not self.transport.is_closing():
            self.await_head()

    def pause_writing(self) -> None:
        super().pause_writing()
        self.await_taking(self.transport.get_write_buffer_size())

    def resume_writing(self) -> None:
        cancel(self.taking_timer)
        super().resume_writing()

    def await_taking(self, left: int) -> None:
        """Cuts the connection off unless the client takes something of what is left in time."""
        cancel(self.taking_timer)
        self.taking_timer = self.loop.call_later(TAKING_SECONDS, self.check_taking, left)

    def check_taking(self, left: int) -> None:
        now = self.transport.get_write_buffer_size()
        if now < left:
            self.await_taking(now)
        else:
            self.transport.abort()


def cancel(timer: asyncio.TimerHandle | None) -> None:
    if timer is not None:
        timer.cancel()


def serve(app: Starlette, listen: Listen) -> None:
    """Serves an application until the process gets a signal to end."""
    uvicorn.run(
        app,
        host=listen.host,
        port=listen.port,
        loop="uvloop",
        http=Connection,
        ws="none",
        # The address of a client, for the log, is what a proxy of this machine says.
        proxy_headers=True,
        forwarded_allow_ips="127.0.0.1",
        timeout_keep_alive=IDLE_SECONDS,
        # A request that is no HTTP is answered 400, and is nothing to report.
        log_level="error",
        access_log=False,
        server_header=False,
        headers=HEADERS,
    )
