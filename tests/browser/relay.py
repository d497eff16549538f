"""A relay between nginx and the server, which remembers batches and can lose answers.

nginx sends one request over each connection and closes it, so the relay handles whole connections.
"""

import json
import socket
import threading
from collections import deque
from collections.abc import Callable
from typing import Any

SECONDS = 60
# What a request says that no follower may answer.
PRIMARY = b"streetmap-primary: yes"
# A batch that is refused in any case: with it the page checks whether a key was used.
QUESTION = b'"op":"delete","collection":"unknown-'


def read_request(stream: socket.socket) -> bytes:
    """The bytes of one request, head and body; none if the connection ends before."""
    data = b""
    while b"\r\n\r\n" not in data:
        received = stream.recv(65536)
        if not received:
            return b""
        data += received
    head, _, body = data.partition(b"\r\n\r\n")
    fields = (line.partition(b":") for line in head.split(b"\r\n")[1:])
    lengths = [int(value) for name, _, value in fields if name.lower() == b"content-length"]
    while lengths and len(body) < lengths[0]:
        received = stream.recv(65536)
        if not received:
            return b""
        body += received
    return head + b"\r\n\r\n" + body


def response(status: str, body: str, kind: str = "application/json", *fields: str) -> bytes:
    """A whole answer, as the server or nginx might give it."""
    head = [f"HTTP/1.1 {status}", f"Content-Type: {kind}", f"Content-Length: {len(body)}", *fields]
    return ("\r\n".join(head) + "\r\n\r\n" + body).encode()


def status_of(answer: bytes) -> int:
    """The status of an answer; 0 of none."""
    return int(answer.split(b" ", 2)[1]) if answer else 0


class Relay:
    """Listens on `port` and passes requests on to the port `server`, while that is not None."""

    def __init__(self) -> None:
        self.listener = socket.create_server(("127.0.0.1", 0))
        self.port: int = self.listener.getsockname()[1]
        self.server: int | None = None
        # The bodies of all batches that came, and each one's answer if it was passed on.
        self.batches: list[tuple[bytes, bytes]] = []
        # What is answered to the next batches in the server's place.
        self.canned: deque[bytes] = deque()
        # Called with each batch before it is passed on: others may come first.
        self.before: Callable[[bytes], None] = lambda _: None
        # Called with each batch that the server answered; the answer is lost where it returns True.
        self.loses: Callable[[], bool] = lambda: False
        # The port of an older copy of the town, which what only reads goes to if it is not None,
        # and whether a request may ask for the primary, as nginx-followers.conf has it.
        self.follower: int | None = None
        self.knows_primary = True
        # What only read: targets, and the statuses of their answers.
        self.reads: list[tuple[str, int]] = []
        # Whether other requests go on, and how many had to wait for that.
        self.open = threading.Event()
        self.open.set()
        self.held = 0
        threading.Thread(target=self._listen, daemon=True).start()

    def close(self) -> None:
        self.listener.close()

    def hold(self) -> None:
        """Has all requests but batches wait."""
        self.open.clear()

    def let_go(self) -> None:
        self.open.set()

    def keys(self) -> list[str]:
        """The keys of the batches that came, in order."""
        return [json.loads(body)["key"] for body, _ in self.batches]

    def accepted(self) -> list[dict[str, Any]]:
        """The replies of the batches that the server accepted, in order."""
        bodies = (answer.partition(b"\r\n\r\n")[2] for _, answer in self.batches)
        replies = [json.loads(body) for body in bodies if body.startswith(b"{")]
        return [reply for reply in replies if "serial" in reply]

    def _listen(self) -> None:
        while True:
            try:
                stream, _ = self.listener.accept()
            except OSError:
                return
            threading.Thread(target=self._serve, args=(stream,), daemon=True).start()

    def _serve(self, stream: socket.socket) -> None:
        with stream:
            stream.settimeout(SECONDS)
            try:
                request = read_request(stream)
                stream.sendall(self._answer(request) if request else b"")
            except OSError:
                return

    def _answer(self, request: bytes) -> bytes:
        body = request.partition(b"\r\n\r\n")[2]
        is_batch = request.startswith(b"POST ") and QUESTION not in body
        if is_batch and self.canned:
            self.batches.append((body, b""))
            return self.canned.popleft()
        if not is_batch and not self.open.is_set():
            self.held += 1
            self.open.wait(SECONDS)
        if is_batch:
            self.before(body)
        answer = self._pass_on(request)
        if is_batch:
            self.batches.append((body, answer))
            if self.loses():
                return b""
        elif request.startswith(b"GET "):
            self.reads.append((request.split(b" ")[1].decode(), status_of(answer)))
        return answer

    def _pass_on(self, request: bytes) -> bytes:
        is_exact = self.knows_primary and PRIMARY in request.lower()
        is_late = request.startswith(b"GET ") and not is_exact and self.follower is not None
        port = self.follower if is_late else self.server
        if port is None:
            return b""
        with socket.create_connection(("127.0.0.1", port), timeout=SECONDS) as server:
            server.sendall(request)
            parts = []
            while received := server.recv(65536):
                parts.append(received)
            return b"".join(parts)
