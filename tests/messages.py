"""Requests and answers of HTTP as bytes, and the edits of batches that many groups send."""

import json
import socket
from collections.abc import Mapping
from dataclasses import dataclass
from typing import Any

Edit = dict[str, Any]


@dataclass(frozen=True)
class Answer:
    """One answer of HTTP: its status, its header fields by lower-case names, and its body."""

    status: int
    fields: dict[str, str]
    body: bytes

    def json(self) -> Any:
        return json.loads(self.body)


def request(
    method: str,
    target: str,
    body: bytes = b"",
    close: bool = False,
    fields: Mapping[str, str] | None = None,
) -> bytes:
    head = [f"{method} {target} HTTP/1.1", "Host: localhost"]
    head += [f"{name}: {value}" for name, value in (fields or {}).items()]
    if method == "POST":
        head.append(f"Content-Length: {len(body)}")
    if close:
        head.append("Connection: close")
    return "\r\n".join([*head, "", ""]).encode() + body


def get(target: str) -> bytes:
    return request("GET", target)


def post(body: bytes | str) -> bytes:
    """A request that sends the text of a batch."""
    return request("POST", "/batches", body.encode() if isinstance(body, str) else body)


def batch(key: str, edits: list[Any], close: bool = False) -> bytes:
    body = json.dumps({"key": key, "edits": edits}).encode()
    return request("POST", "/batches", body, close)


def open_collection(collection: str, **members: str) -> Edit:
    return {"op": "open", "collection": collection, **members}


def feature(identity: Any, geometry: Any = None, properties: Any = None) -> Edit:
    return {"type": "Feature", "id": identity, "geometry": geometry, "properties": properties}


def point(x: int, y: int) -> Edit:
    return {"type": "Point", "coordinates": [x, y]}


def put(operation: str, collection: str, inserted: Edit) -> Edit:
    """An edit that inserts or replaces a feature."""
    return {"op": operation, "collection": collection, "feature": inserted}


def delete(collection: str, identity: str) -> Edit:
    return {"op": "delete", "collection": collection, "id": identity}


OPEN_LAMPS = open_collection("lamps")


def insert_lamp(number: int) -> Edit:
    return put("insert", "lamps", feature(f"L{number}", point(number, number)))


def replace_lamp(number: int) -> Edit:
    return put("replace", "lamps", feature(f"L{number}", point(-number, number)))


def delete_lamp(number: int) -> Edit:
    return delete("lamps", f"L{number}")


def first_answer(stream: bytes) -> tuple[Answer, bytes] | None:
    """The first answer of a stream and what follows it; none if it is not there as a whole."""
    head, end, rest = stream.partition(b"\r\n\r\n")
    if not end:
        return None
    status, *lines = head.decode().split("\r\n")
    fields = {name.lower(): value for name, value in (line.split(": ", 1) for line in lines)}
    size = int(fields["content-length"])
    if len(rest) < size:
        return None
    return Answer(int(status.split(" ")[1]), fields, rest[:size]), rest[size:]


def whole_answers(stream: bytes) -> list[Answer]:
    """The answers of a stream up to the first that is cut."""
    found = []
    while first := first_answer(stream):
        answer, stream = first
        found.append(answer)
    return found


def answers_in(stream: bytes) -> list[Answer]:
    """The answers of a stream that ends after one of them."""
    found = []
    while stream:
        first = first_answer(stream)
        if first is None:
            raise ValueError(f"the stream ends within an answer: {stream[:200]!r}")
        answer, stream = first
        found.append(answer)
    return found


def read_all(stream: socket.socket) -> bytes:
    parts = []
    while part := stream.recv(65536):
        parts.append(part)
    return b"".join(parts)


def read_answer(stream: socket.socket) -> Answer:
    """One answer of a connection that stays open, and on which no other answer is due."""
    came = b""
    while (first := first_answer(came)) is None:
        part = stream.recv(65536)
        if not part:
            raise ConnectionError(f"the connection ended within an answer: {came[:200]!r}")
        came += part
    return first[0]
