"""The access log: a line on standard output for each answer, in the Common Log Format, with the
milliseconds that the answer took after it."""

import time
from datetime import datetime, timezone

from starlette.types import ASGIApp, Message, Receive, Scope, Send

# The status of an answer that a fault of the gateway has prevented.
FAILED = 500


class AccessLog:
    """Logs what passes."""

    def __init__(self, app: ASGIApp) -> None:
        self.app = app

    async def __call__(self, scope: Scope, receive: Receive, send: Send) -> None:
        if scope["type"] != "http":
            await self.app(scope, receive, send)
            return
        begun, status, sent = time.monotonic(), FAILED, 0

        async def counted(message: Message) -> None:
            nonlocal status, sent
            if message["type"] == "http.response.start":
                status = message["status"]
            else:
                sent += len(message.get("body", b""))
            await send(message)

        try:
            await self.app(scope, receive, counted)
        finally:
            took = round((time.monotonic() - begun) * 1000)
            print(line(scope, status, sent), f"{took} ms", flush=True)


def line(scope: Scope, status: int, sent: int) -> str:
    """A line without the time that was taken. What a client wrote is printable ASCII in it, and has
    no quotation mark."""
    # A proxy may say that the client is on this machine, which uvicorn takes for none.
    client = (scope["client"] or ("", 0))[0] or "-"
    writer = scope.get("state", {}).get("writer", "-")
    now = datetime.now(timezone.utc).strftime("%d/%b/%Y:%H:%M:%S %z")
    query = b"?" + scope["query_string"] if scope["query_string"] else b""
    target = printable((scope["raw_path"] + query).decode("latin-1"))
    request = f"{scope['method']} {target} HTTP/{scope['http_version']}"
    return f'{printable(client)} - {writer} [{now}] "{request}" {status} {sent}'


def printable(text: str) -> str:
    """A text with escapes in the place of what is not printable ASCII, and of quotation marks."""
    return "".join(
        each if " " < each <= "~" and each not in '"\\' else f"\\x{ord(each):02x}" for each in text
    )
