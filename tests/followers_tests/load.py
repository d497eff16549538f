"""Clients of a site of followers: writers, readers, and probes of how late the followers are."""

import http.client
import json
import random
import statistics
import threading
import time
from dataclasses import dataclass, field
from typing import Any

from harness import Context
from messages import delete, feature, open_collection, point, put
from model import compact

BROKEN = (OSError, http.client.HTTPException)
# In seconds: for one answer; between two tries; between two reads of a standby by a follower.
ANSWER_SECONDS, AGAIN_SECONDS, POLL_SECONDS = 30, 0.05, 0.5
# A client rests this many times as long as its answer took, so that a slow machine keeps up.
RESTS = 10


@dataclass
class Client:
    """A client at an address of this machine, with a connection that it makes again if it
    broke."""

    port: int
    address: str = "127.0.0.1"
    connection: http.client.HTTPConnection | None = None

    def ask(self, method: str, path: str, body: str | None = None) -> tuple[int, bytes]:
        """The status and body of an answer; status 0 if none came."""
        try:
            if self.connection is None:
                self.connection = http.client.HTTPConnection(
                    "127.0.0.1", self.port, ANSWER_SECONDS, source_address=(self.address, 0)
                )
            self.connection.request(method, path, body and body.encode())
            answer = self.connection.getresponse()
            return answer.status, answer.read()
        except BROKEN:
            self.close()
            return 0, b""

    def close(self) -> None:
        if self.connection is not None:
            self.connection.close()
        self.connection = None

    def post(self, text: str, stop: threading.Event | None = None) -> dict[str, Any]:
        """The reply to a batch, which is sent under its key until one comes. Nothing if it is
        stopped before."""
        while stop is None or not stop.is_set():
            status, body = self.ask("POST", "/batches", text)
            if status == 200:
                reply: dict[str, Any] = json.loads(body)
                return reply
            if 400 <= status < 500:
                raise ValueError(f"{text[:100]} is answered {status} {body[:200]!r}")
            time.sleep(AGAIN_SECONDS)
        return {}


def rest(begun: float) -> None:
    """Rests after an answer that was requested at a moment."""
    time.sleep(min(RESTS * (time.monotonic() - begun), ANSWER_SECONDS / RESTS))


def batch_text(key: str, *edits: dict[str, Any]) -> str:
    return compact({"edits": list(edits), "key": key})


class Writer(threading.Thread):
    """Sends batches to a collection of its own. One that grows only has inserts."""

    def __init__(self, port: int, name: str, stop: threading.Event, grows: bool) -> None:
        super().__init__(daemon=True)
        self.client, self.name, self.stop = Client(port), name, stop
        self.random, self.grows = random.Random(name), grows
        self.there: list[str] = []
        self.serials: dict[str, int] = {}

    def run(self) -> None:
        edit = open_collection(self.name, title=self.name)
        while not self.stop.is_set():
            key, begun = f"{self.name}-{len(self.serials)}", time.monotonic()
            if reply := self.client.post(batch_text(key, edit), self.stop):
                self.serials[key] = reply["serial"]
                edit = self.edit(len(self.serials))
                rest(begun)
        self.client.close()

    def edit(self, number: int) -> dict[str, Any]:
        kind = self.random.choice(("insert", "replace", "delete"))
        if self.grows or kind == "insert" or not self.there:
            self.there.append(f"F{number}")
            return put("insert", self.name, self.made(f"F{number}", number))
        at = self.random.randrange(len(self.there))
        if kind == "delete":
            return delete(self.name, self.there.pop(at))
        return put("replace", self.name, self.made(self.there[at], -number))

    def made(self, name: str, x: int) -> dict[str, Any]:
        text = "\u20ac" * self.random.randrange(40)
        return feature(name, point(x, self.random.randrange(9)), {"t": text})


class Reader(threading.Thread):
    """Requests pages of a collection that grows, and keeps the numbers of features that it was
    answered, and the statuses of other answers."""

    def __init__(self, port: int, address: str, collection: str, stop: threading.Event) -> None:
        super().__init__(daemon=True)
        self.client = Client(port, address)
        self.path = f"/collections/{collection}/items?limit=1"
        self.stop = stop
        self.numbers: list[int] = []
        self.others: set[int] = set()

    def run(self) -> None:
        while not self.stop.is_set():
            begun = time.monotonic()
            status, body = self.client.ask("GET", self.path)
            if status == 200:
                self.numbers.append(json.loads(body)["numberMatched"])
            else:
                self.others.add(status)
            rest(begun)
        self.client.close()


@dataclass
class Load:
    """Writers and readers at one address, up to the end of a `with` block. Each writer has one of
    the collections; the first of them grows, and readers request it."""

    port: int
    collections: list[str]
    readers: int
    stop: threading.Event = field(default_factory=threading.Event)
    running: list[threading.Thread] = field(default_factory=list)

    def __enter__(self) -> "Load":
        first = self.collections[0]
        self.running += [Writer(self.port, it, self.stop, it == first) for it in self.collections]
        for at in range(self.readers):
            self.running.append(Reader(self.port, f"127.0.1.{at + 1}", first, self.stop))
        for thread in self.running:
            thread.start()
        return self

    def __exit__(self, *_: object) -> None:
        self.stop.set()
        for thread in self.running:
            thread.join()

    def serials(self) -> dict[str, int]:
        """The serials of all batches that were acknowledged, by their keys."""
        found: dict[str, int] = {}
        for thread in self.running:
            found |= thread.serials if isinstance(thread, Writer) else {}
        return found

    def pages(self) -> list[Reader]:
        return [thread for thread in self.running if isinstance(thread, Reader)]


def delays(first: int, followers: list[int], name: str, count: int) -> list[list[float]]:
    """Of each follower, in milliseconds: how long after its acknowledgement by the first a batch
    is seen there, for `count` batches at random moments."""
    writer, readers, chance = (
        Client(first),
        [Client(port) for port in followers],
        random.Random(name),
    )
    writer.post(batch_text(f"{name}-open", open_collection(name, title=name)))
    found: list[list[float]] = [[] for _ in followers]
    for at in range(count):
        edit = put("insert", name, feature(f"P{at}", point(at, at)))
        writer.post(batch_text(f"{name}-{at}", edit))
        begun, waiting = time.monotonic(), set(range(len(followers)))
        while waiting:
            for number in sorted(waiting):
                status, _ = readers[number].ask("GET", f"/collections/{name}/items/P{at}")
                if status == 200:
                    found[number].append(1000 * (time.monotonic() - begun))
                    waiting.discard(number)
            time.sleep(0.001)
        time.sleep(chance.uniform(0, POLL_SECONDS))
    for client in (writer, *readers):
        client.close()
    return found


def tell_delays(context: Context, what: str, found: list[float]) -> None:
    """Prints how late a follower was, and checks that it was not later than a few seconds."""
    median, most = statistics.median(found), max(found)
    print(f"  late by, {what}: median {median:.0f} ms, most {most:.0f} ms, of {len(found)} batches")
    context.check(f"late, {what}", most < 1000 * context.seconds / 4, True)
