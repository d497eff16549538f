"""Many clients at once: idle, slow, silent and deaf ones, some that vanish, too many.

One sends a large batch for longer than any may be silent, and one sends a byte a second.

Some have a collection of their own, and are answered what they would be answered alone.
"""

import contextlib
import json
import re
import socket
import threading
import time
from pathlib import Path
from random import Random

from harness import Context, Server
from messages import (
    OPEN_LAMPS,
    answers_in,
    batch,
    delete_lamp,
    get,
    insert_lamp,
    open_collection,
    post,
    read_all,
    read_answer,
    replace_lamp,
)

ASKED = get("/conformance")
ITEMS = "/collections/lamps/items"
RESET = b"\1\0\0\0\0\0\0\0"
SERIAL = re.compile(rb'"serial":(\d+)')
CLIENTS, OWN_CLIENTS = 16, 24
# In seconds: how long a client may be silent, and what a busy machine may take beyond it.
PATIENCE, SLACK = 30, 60
# In seconds: how long a large batch is sent, and after how many a piece of it follows.
LONG, PAUSE = 36, 1.5
# In bytes: the body of a batch that is sent slowly, in the short form and in the long one.
LARGE, LARGEST = 2_000_000, 7_300_000
# In KiB: what a client that never reads may cost.
DEAF_MEMORY = 4096


def is_closed(stream: socket.socket) -> bool:
    """Whether nothing more comes of a connection."""
    try:
        return stream.recv(1) == b""
    except ConnectionResetError:
        return True
    except TimeoutError:
        return False


def reset(stream: socket.socket) -> None:
    stream.setsockopt(socket.SOL_SOCKET, socket.SO_LINGER, RESET)
    stream.close()


def check_idle_and_slow_clients(context: Context, server: Server) -> None:
    """200 idle clients and 20 slow ones beside one that sends a thousand requests."""
    idle = [server.connect() for _ in range(200)]
    slow = [server.connect() for _ in range(20)]
    with server.connect() as busy:
        for turn in range(1000):
            if turn < len(ASKED) - 1:
                for stream in slow:
                    stream.sendall(ASKED[turn : turn + 1])
            busy.sendall(ASKED)
            context.check("an answer beside idle clients", read_answer(busy).status, 200)
    for stream in slow:
        stream.sendall(ASKED[-1:])
        context.check("a slow client at last", read_answer(stream).status, 200)
    for stream in idle + slow:
        stream.close()


class OwnCollection(threading.Thread):
    """A client with a collection of its own: it changes it and requests pages of it, in pieces of
    any length, and keeps what came."""

    def __init__(self, server: Server, number: int) -> None:
        super().__init__(daemon=True)
        self.server, self.random, self.came = server, Random(number), b""
        self.name = f"c{number}"
        asked = [batch(f"{self.name}-open", [open_collection(self.name)])]
        for at in range(30):
            asked += self.turn(at)
        self.asked = b"".join(asked)

    def turn(self, at: int) -> list[bytes]:
        """A batch of one edit, a page, and what is said of a collection."""
        edit = self.random.choice((insert_lamp, replace_lamp, delete_lamp))
        edits = [edit(self.random.randrange(9)) | {"collection": self.name}]
        limit, after = self.random.randint(1, 5), self.random.randrange(3)
        other = self.random.choice((self.name, self.name + "x"))
        return [
            batch(f"{self.name}-{at}", edits),
            get(f"/collections/{self.name}/items?limit={limit}&after=L{after}"),
            get(f"/collections/{other}"),
        ]

    def run(self) -> None:
        with self.server.connect() as stream:
            reader = threading.Thread(target=self.read, args=(stream,))
            reader.start()
            left = self.asked
            while left:
                piece = self.random.choice((1, 7, 100, 700))
                stream.sendall(left[:piece])
                left = left[piece:]
            stream.shutdown(socket.SHUT_WR)
            reader.join()

    def read(self, stream: socket.socket) -> None:
        self.came = read_all(stream)


def but_for_serials(stream: bytes) -> list[tuple[int, bytes]]:
    return [(it.status, SERIAL.sub(b"", it.body)) for it in answers_in(stream)]


def check_own_collections(context: Context, server: Server) -> None:
    """Each of many clients is answered what it would be answered alone, to the byte, but for the
    serials, which number the batches of all."""
    clients = [OwnCollection(server, number) for number in range(OWN_CLIENTS)]
    for client in clients:
        client.start()
    serials = []
    for client in clients:
        client.join()
        alone = context.new_file(f"{client.name}.streetmap")
        base = f"http://localhost:{server.port}/"
        wanted = context.run("pipe", alone, "--base", base, sent=client.asked)
        got = but_for_serials(client.came)
        context.check(f"the answers of client {client.name}", got, but_for_serials(wanted))
        own = [int(found) for found in SERIAL.findall(client.came)]
        context.check(f"the serials of client {client.name} grow", own, sorted(own))
        serials += own
    whole = list(range(min(serials), min(serials) + len(serials)))
    context.check("the serials are those of one list", sorted(serials), whole)


def check_requests_cut_at_every_byte(context: Context, server: Server) -> None:
    """Two connections: the request of one is cut at each byte; the other sends one in between."""
    with server.connect() as cut, server.connect() as other:
        for at in range(len(batch("c000", [insert_lamp(0)]))):
            edit = insert_lamp(at % 10) | {"op": "insert" if at < 10 else "replace"}
            sent = batch(f"c{at:03}", [edit])
            cut.sendall(sent[:at])
            other.sendall(get(f"{ITEMS}?limit=1"))
            page = read_answer(other)
            got = (page.status, page.json()["numberMatched"])
            context.check("a page beside a cut request", got, (200, min(at, 10)))
            cut.sendall(sent[at:])
            context.check("a request cut at a byte", read_answer(cut).status, 200)


def check_clients_that_vanish(context: Context, server: Server) -> None:
    """Clients that are gone in mid-request or in mid-answer, and half closed."""
    for at in (0, 1, 20, 60):
        stream = server.connect()
        stream.sendall(batch("gone", [insert_lamp(77)])[:at])
        reset(stream)
    for _ in range(5):
        stream = server.connect()
        stream.sendall(get(f"{ITEMS}?limit=1000") * 100)
        stream.recv(10)
        reset(stream)
    statuses = [answer.status for answer in server.ask(ASKED * 50)]
    context.check("all answers of a half-closed client", statuses, [200] * 50)
    (found,) = server.ask(get(f"{ITEMS}/L77"))
    context.check("nothing of a cut batch is applied", found.status, 404)


def check_deaf_client(context: Context, server: Server) -> None:
    """What a client does not read is bounded, and the others are answered."""
    before = server.peak_memory()
    page = get(f"{ITEMS}?limit=1000")
    with server.connect() as deaf:
        deaf.setblocking(False)
        until = time.monotonic() + 2
        while time.monotonic() < until:
            try:
                deaf.send(page * 100)
            except BlockingIOError:
                time.sleep(0.05)
        (asked,) = server.ask(ASKED)
        context.check("an answer beside a deaf client", asked.status, 200)
        grown = server.peak_memory() - before
        context.check(f"{grown} KiB for a deaf client", grown < DEAF_MEMORY, True)


def check_connections_in_a_row(context: Context, server: Server) -> None:
    for _ in range(1000):
        (asked,) = server.ask(ASKED)
        context.check("one of a thousand connections", asked.status, 200)


def check_too_many_clients(context: Context, server: Server) -> None:
    """Ten clients more than there may be: each is answered, in place of one that was idle for a
    second."""
    streams = [server.connect() for _ in range(CLIENTS + 10)]
    for stream in streams:
        stream.sendall(ASKED)
    for number, stream in enumerate(streams):
        context.check(f"client {number} of too many", read_answer(stream).status, 200)
    closed = sum(is_closed(stream) for stream in streams[:10])
    context.check("clients that gave way", closed, 10)
    for stream in streams:
        stream.close()


class SilentClient(threading.Thread):
    """A client that sends a part of a request and no more. It notes when it is let go."""

    def __init__(self, server: Server) -> None:
        super().__init__(daemon=True)
        self.stream = server.connect(PATIENCE + SLACK)
        self.stream.sendall(ASKED[:10])
        self.begun = time.monotonic()
        self.waited: float | None = None
        self.start()

    def run(self) -> None:
        if is_closed(self.stream):
            self.waited = time.monotonic() - self.begun

    def check(self, context: Context) -> None:
        """It was let go once it was silent for half a minute, and not before."""
        self.join()
        self.stream.close()
        context.check("a silent client is let go", self.waited is not None, True)
        waited = self.waited or 0
        context.check(f"a silent client after {waited:.0f} s", waited >= PATIENCE - 1, True)


class SlowClient(threading.Thread):
    """A client that sends a large batch for longer than any may be silent. A piece of it that
    renews the server's patience comes every few seconds."""

    def __init__(self, server: Server, size: int) -> None:
        super().__init__(daemon=True)
        self.stream = server.connect(PATIENCE + SLACK)
        body = json.dumps({"key": "slow", "edits": [open_collection("slow")]})
        self.sent = post(body.ljust(size))
        self.status: int | None = None
        self.start()

    def run(self) -> None:
        turns = int(LONG / PAUSE)
        size = -(-len(self.sent) // turns)
        with contextlib.suppress(OSError):
            for turn in range(turns):
                self.stream.sendall(self.sent[turn * size : (turn + 1) * size])
                time.sleep(PAUSE)
            self.status = read_answer(self.stream).status

    def check(self, context: Context) -> None:
        self.join()
        self.stream.close()
        context.check("a large batch that comes slowly", self.status, 200)


class DrippingClient(threading.Thread):
    """A client that sends a byte of a batch each second. It notes when it is let go."""

    def __init__(self, server: Server) -> None:
        super().__init__(daemon=True)
        self.stream = server.connect()
        self.sent = batch("dripping", [insert_lamp(0)])
        self.begun = time.monotonic()
        self.waited: float | None = None
        self.start()

    def run(self) -> None:
        self.stream.settimeout(1)
        with contextlib.suppress(OSError):
            for at in range(PATIENCE + SLACK):
                self.stream.sendall(self.sent[at : at + 1])
                if is_closed(self.stream):
                    break
            else:
                return
        self.waited = time.monotonic() - self.begun

    def check(self, context: Context) -> None:
        """Single bytes did not renew the server's patience."""
        self.join()
        self.stream.close()
        waited = self.waited or 0
        what = f"a client of a byte a second after {waited:.0f} s"
        context.check(what, PATIENCE - 1 <= waited < PATIENCE + SLACK, True)


def opened_file(context: Context, name: str) -> Path:
    return context.new_file(name, batch("b1", [OPEN_LAMPS]))


def run(context: Context) -> None:
    many, few = opened_file(context, "many.streetmap"), opened_file(context, "few.streetmap")
    with context.serve(many, "--clients", "256") as server:
        silent, dripping = SilentClient(server), DrippingClient(server)
        slow = SlowClient(server, LARGEST if context.slow else LARGE)
        check_idle_and_slow_clients(context, server)
        check_own_collections(context, server)
        check_requests_cut_at_every_byte(context, server)
        check_clients_that_vanish(context, server)
        check_deaf_client(context, server)
        check_connections_in_a_row(context, server)
        with context.serve(few, "--clients", str(CLIENTS)) as small:
            check_too_many_clients(context, small)
        clients: tuple[SilentClient | DrippingClient | SlowClient, ...] = (silent, dripping, slow)
        for client in clients:
            client.check(context)
