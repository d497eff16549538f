"""A file over sockets: clients in turn and at once, long heads, --log, kills."""

import contextlib
import socket
import time
from collections.abc import Iterator
from pathlib import Path

from harness import Context, Server
from messages import OPEN_LAMPS, answers_in, batch, get, insert_lamp, read_all, read_answer, request

ITEMS = "/collections/lamps/items"
RESET = b"\1\0\0\0\0\0\0\0"
# How many seconds a client may be silent.
PATIENCE = 30


def cut_batch(server: Server) -> None:
    """A client that is reset within a batch."""
    with server.connect() as broken:
        broken.sendall(batch("cut", [insert_lamp(99)])[:-5])
        broken.setsockopt(socket.SOL_SOCKET, socket.SO_LINGER, RESET)


def statuses(server: Server, sent: bytes) -> list[int]:
    return [answer.status for answer in server.ask(sent)]


def check_connections_in_turn(context: Context) -> None:
    file = context.new_file("served.db")
    with context.serve(file, "--count", "5") as server:
        opened = statuses(server, batch("b1", [OPEN_LAMPS, insert_lamp(1)]))
        context.check("a batch over a socket", opened, [200])
        cut_batch(server)
        context.check("a request that is cut is not answered", server.ask(b"GET /conf"), [])
        context.check("rubbish is answered", statuses(server, b"rubbish\r\n\r\n"), [400])
        sent = get(ITEMS) + request("GET", "/nothing", close=True) + get("/")
        page, unknown = server.ask(sent)
        context.check("a page over a socket", page.json()["numberMatched"], 1)
        base = f'"http://localhost:{server.port}/collections/lamps'.encode()
        context.check("the base of the port", base in page.body, True)
        context.check("the last before the close", unknown.status, 404)
        server.ends()


def check_files_in_use(context: Context) -> None:
    file, other = context.folder / "served.db", context.new_file("other.db")
    with context.serve(file, "--count", "1") as server:
        context.run("pipe", file, status=3, code="device")
        files = (other, other.with_name(f"{other.name}-wal"))
        size = sum(path.stat().st_size for path in files if path.exists())
        ended = context.start("serve", other, "--port", str(server.port))
        said = f"streetmap: opening {other}, {size} bytes\nstreetmap: net\n".encode()
        context.check("a port in use", (ended.returncode, ended.stderr), (3, said))
        context.check("an answer after all", statuses(server, get("/conformance")), [200])
        server.ends()


def heads_at_their_limits() -> Iterator[tuple[bytes, int]]:
    """Heads of as many bytes and field lines as there may be, and of one more, and statuses."""
    line, end = b"GET /conformance HTTP/1.1\r\nHost: a\r\n", b"\r\n\r\n"
    for size, status in ((16_384, 200), (16_385, 431)):
        yield line + b"X: ".ljust(size - len(line) - len(end), b"x") + end, status
    for fields, status in ((64, 200), (65, 431)):
        yield line + b"X: y\r\n" * (fields - 1) + b"\r\n", status


def check_own_answers(context: Context, server: Server) -> None:
    """Clients that are open at once, each with a batch and the feature that it inserts."""
    streams = [server.connect() for _ in range(4)]
    for number, stream in enumerate(streams):
        inserted = batch(f"c{number}", [insert_lamp(10 + number)])
        stream.sendall(inserted + get(f"{ITEMS}/L{10 + number}"))
    for number, stream in enumerate(streams):
        stream.shutdown(socket.SHUT_WR)
        accepted, found = answers_in(read_all(stream))
        context.check("a batch of many clients", (accepted.status, found.status), (200, 200))
        context.check("its own answer", found.json()["id"], f"L{10 + number}")
        stream.close()


def check_clients_at_once(context: Context) -> None:
    """Idle and slow clients hold up nobody, and each client gets the answers to its requests."""
    file, asked = context.new_file("clients.db"), get("/conformance")
    with context.serve(file, "--clients", "8", "--count", "15") as server:
        idle, slow = server.connect(), server.connect()
        slow.sendall(asked[:20])
        opened = statuses(server, batch("b1", [OPEN_LAMPS, insert_lamp(1)]))
        context.check("a batch beside an idle client", opened, [200])
        check_own_answers(context, server)
        slow.sendall(asked[20:])
        context.check("the slow client at last", read_answer(slow).status, 200)
        cut_batch(server)
        context.check("rubbish is answered", statuses(server, b"rubbish\r\n\r\n"), [400])
        for head, status in heads_at_their_limits():
            context.check(f"a head of {len(head)} bytes", statuses(server, head), [status])
        (page,) = server.ask(get(ITEMS))
        context.check("the batches of all clients", page.json()["numberMatched"], 5)
        idle.close()
        slow.close()
        context.check("one more client", statuses(server, asked), [200])
        server.ends()


def check_warm(context: Context) -> None:
    """A server that has learnt its collections before it listens answers as any."""
    file = context.new_file("warm.db", batch("b1", [OPEN_LAMPS, insert_lamp(1)]))
    with context.serve(file, "--warm", "--count", "1") as server:
        (page,) = server.ask(get(ITEMS))
        context.check("a page of a warm server", page.json()["numberMatched"], 1)
        server.ends()


LOGGED = (
    b'"GET /conformance HTTP/1.1" 200 64\n'
    b'"GET /conformance HTTP/1.1" 200 64\n'
    b'"GET /nothing?a=%22 HTTP/1.1" 404 67\n'
    b'"-" 400 71\n'
)


def check_log(context: Context) -> None:
    """A line on standard error for each answer, also after empty lines."""
    file = context.new_file("logged.db")
    unreadable = b'GET /"\x1b HTTP/1.1\r\nHost: a\r\n\r\n'
    for words in ((), ("--clients", "4")):
        with context.serve(file, "--log", "--count", "1", *words) as server:
            asked = get("/conformance")
            server.ask(asked + b"\r\n\n" + asked + get("/nothing?a=%22") + unreadable)
            server.ends(written=LOGGED)


def check_default(context: Context) -> None:
    """With neither number many clients are served at once: one that is silent holds up nobody."""
    file = context.new_file("default.db")
    for words in ((), ("--log",)):
        with context.serve(file, *words) as server, contextlib.ExitStack() as opened:
            for _ in range(20):
                opened.enter_context(server.connect())
            begun = time.monotonic()
            asked = statuses(server, get("/conformance"))
            context.check("an answer beside silent clients", asked, [200])
            is_soon = time.monotonic() - begun < PATIENCE
            context.check("before the silent clients are let go", is_soon, True)


def kept_lamps(context: Context, file: Path) -> set[str]:
    (page,) = context.pipe(file, get(f"{ITEMS}?limit=1000"))
    return {feature["id"] for feature in page.json()["features"]}


def check_hard_stops(context: Context) -> None:
    """Batches on one connection until the server is killed: each that was acknowledged is there,
    and the one that was sent last may be."""
    file = context.new_file("stopped.db", batch("open", [OPEN_LAMPS]))
    count = 0
    for words in ((), ("--clients", "4"), ()):
        with context.serve(file, *words) as server, server.connect() as stream:
            for _ in range(20):
                count += 1
                stream.sendall(batch(f"k{count}", [insert_lamp(count)]))
                context.check("a batch is acknowledged", read_answer(stream).status, 200)
            stream.sendall(batch(f"k{count + 1}", [insert_lamp(count + 1)]))
            server.kill()
        acknowledged = {f"L{number}" for number in range(1, count + 1)}
        kept = kept_lamps(context, file)
        context.check("each acknowledged batch is kept", acknowledged - kept, set())
        context.check("and one more at most", kept - acknowledged <= {f"L{count + 1}"}, True)
        count = len(kept)


def run(context: Context) -> None:
    check_connections_in_turn(context)
    check_files_in_use(context)
    check_clients_at_once(context)
    check_warm(context)
    check_log(context)
    check_default(context)
    check_hard_stops(context)
