"""A proxy in front of a server: it keeps what was requested and how that was answered, lets another
client's batches come first, and can take tags away, as if the server gave none."""

import contextlib
import http.client
import threading
from collections.abc import Iterator
from dataclasses import dataclass, field
from http.server import BaseHTTPRequestHandler, ThreadingHTTPServer

CONDITIONS = ("if-match", "if-none-match")


@dataclass(frozen=True)
class Answer:
    """What is answered: a status, header fields, and a body."""

    status: int
    fields: dict[str, str]
    body: bytes = b""


@dataclass(kw_only=True)
class Proxy:
    """A proxy to the port of a server."""

    server: int
    gives_tags: bool = True
    # What another client sends right before the next batches, one before each.
    meanwhile: list[bytes] = field(default_factory=list)
    # Of each request its method and target, and the status of its answer.
    requests: list[tuple[str, str, int]] = field(default_factory=list)

    def ask(self, method: str, target: str, fields: dict[str, str], body: bytes | None) -> Answer:
        """What the server answers."""
        connection = http.client.HTTPConnection("127.0.0.1", self.server, timeout=60)
        with contextlib.closing(connection):
            connection.request(method, target, body, fields)
            answer = connection.getresponse()
            return Answer(answer.status, dict(answer.getheaders()), answer.read())

    def answer(self, request: "Handler", body: bytes | None) -> Answer:
        if request.is_batch and self.meanwhile:
            other = self.ask("POST", "/batches", {}, self.meanwhile.pop(0))
            assert other.status == 200, other
        left_out = () if self.gives_tags else CONDITIONS
        found = self.ask(request.command, request.path, request.fields(*left_out), body)
        shown = {it: value for it, value in found.fields.items() if it.lower() != "etag"}
        return found if self.gives_tags else Answer(found.status, shown, found.body)


class Handler(BaseHTTPRequestHandler):
    """A connection to a proxy. A server that is away cuts it, without an answer."""

    protocol_version = "HTTP/1.1"
    # Head and body are two writes, the second of which would wait 40 ms.
    disable_nagle_algorithm = True
    proxy: Proxy

    def log_message(self, *_words: object) -> None:
        """Nothing is logged."""

    @property
    def is_batch(self) -> bool:
        return self.command == "POST" and self.path == "/batches"

    def fields(self, *left_out: str) -> dict[str, str]:
        """The fields of the request but for these and those of its connection. Several of one name
        are one list (RFC 9110, 5.3)."""
        unsent = {"connection", "content-length", *left_out}
        names = {name.lower() for name in self.headers} - unsent
        return {name: ", ".join(self.headers.get_all(name) or []) for name in names}

    def handle_request(self) -> None:
        size = self.headers.get("Content-Length")
        body = None if size is None else self.rfile.read(int(size))
        try:
            answer = self.proxy.answer(self, body)
        except (OSError, http.client.HTTPException):
            self.close_connection = True
            return
        self.proxy.requests.append((self.command, self.path, answer.status))
        fields = {it: value for it, value in answer.fields.items() if it.lower() != "connection"}
        if answer.status != 304:
            fields = {"Content-Length": str(len(answer.body))} | fields
        self.send_response_only(answer.status)
        for name, value in fields.items():
            self.send_header(name, value)
        self.end_headers()
        if self.command != "HEAD":
            self.wfile.write(answer.body)

    do_GET = do_HEAD = do_POST = do_PUT = do_DELETE = do_OPTIONS = handle_request


class Listener(ThreadingHTTPServer):
    """Where a proxy listens."""

    daemon_threads = True
    request_queue_size = 128

    def handle_error(self, *_words: object) -> None:
        """A client that went away is nothing to report."""


@contextlib.contextmanager
def listening(proxy: Proxy) -> Iterator[int]:
    """The port at which a proxy listens."""
    bound = type("Bound", (Handler,), {"proxy": proxy})
    with Listener(("127.0.0.1", 0), bound) as listener:
        threading.Thread(target=listener.serve_forever, args=[0.05], daemon=True).start()
        try:
            yield listener.server_port
        finally:
            listener.shutdown()
