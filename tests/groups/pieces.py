"""Streams that come in pieces, are cut at each byte, or fail to be read or written there."""

import os
import socket
from collections.abc import Iterator
from pathlib import Path
from unittest.mock import patch

from harness import Context, Server
from messages import feature, get, open_collection, point, put, read_all, read_answer
from model import Ledger, Request
from sqlite_file import copy_file

PACKAGES = ("gcc", "libc6-dev")

LAMP = put("insert", "lamps", feature("L1", point(1000, 2000)))
BATCH = Request("POST", "/batches", {"key": "b1", "edits": [open_collection("lamps"), LAMP]})
ASKED = [
    BATCH,
    Request("GET", "/collections/lamps/items/L1"),
    Request("GET", "/collections/lamps"),
    Request("GET", "/collections/lamps/items?limit=1"),
]
KNOWN = b'{"code":"bad_command","description":"The command is not known."}\n'
# A line, a line feed and a carriage return, an empty line, and a last line without its end.
LINES = b"x\r\n\nyy\n\r\nz"
CLOSED = (
    b"HTTP/1.1 400 Bad Request\r\nContent-Type: application/json\r\nContent-Length: 72\r\n"
    b"Connection: close\r\n\r\n"
    b'{"code":"bad_length","description":"The content length cannot be read."}'
)


def stream() -> list[tuple[bytes, bytes]]:
    """Requests with empty lines before them and ends of lines of both kinds, and their answers. The
    last one breaks a rule, so that what follows it is not read."""
    ledger = Ledger()
    pairs = [(it.sent, ledger.answer(it)) for it in ASKED]
    pairs[1] = b"\r\n\n" + pairs[1][0], pairs[1][1]
    pairs[2] = pairs[2][0].replace(b"\r\n", b"\n"), pairs[2][1]
    return [*pairs, (b"POST / HTTP/1.1\r\nContent-Length: x\r\n\r\n", CLOSED)]


def answered(pairs: list[tuple[bytes, bytes]], size: int) -> tuple[bytes, int]:
    """What is answered to the first bytes of a stream, and how many requests these hold."""
    written, count = b"", 0
    for sent, answer in pairs:
        if size < len(sent):
            break
        size -= len(sent)
        written, count = written + answer, count + 1
    return written, count


class Copies:
    """Copies of an empty file, each for one run."""

    def __init__(self, context: Context) -> None:
        self.context = context
        self.empty = context.folder / "empty"
        if not self.empty.exists():
            context.run("create", self.empty)
        self.counts = [b"ok 0 0 0\n", b"ok 1 1 1\n"]

    def fresh(self) -> Path:
        return copy_file(self.empty, self.context.folder / "copy")

    def check_kept(self, what: str, file: Path, batches: int) -> None:
        self.context.check(what, self.context.run("check", file), self.counts[batches])


def with_library(library: Path, **numbers: int) -> dict[str, str]:
    """The environment of a run under a library that is loaded before the C library."""
    given = {name: str(number) for name, number in numbers.items()}
    return os.environ | given | {"LD_PRELOAD": str(library)}


def requests_cut_at_each_byte(context: Context) -> None:
    """The stream ends, or its next read fails, after each of its bytes: each whole request is
    answered, and of the next one nothing is applied."""
    pairs, copies, library = stream(), Copies(context), context.shim("fail")
    sent = b"".join(request for request, _ in pairs)
    for size in range(len(sent) + 1):
        wanted, count = answered(pairs, size)
        file = copies.fresh()
        context.check(f"{size} bytes", context.run("pipe", file, sent=sent[:size]), wanted)
        copies.check_kept(f"what is kept of {size} bytes", file, min(count, 1))
        if size == len(sent):
            continue
        file = copies.fresh()
        ended = context.start("pipe", file, sent=sent, env=with_library(library, READS=size))
        got = ended.stdout, ended.returncode, ended.stderr
        fault = (wanted, 3, b"streetmap: read_failed\n")
        context.check(f"a read that fails behind {size} bytes", got, fault)
        copies.check_kept(f"what is kept behind a read that fails at {size}", file, min(count, 1))


def requests_in_pieces(context: Context) -> None:
    """Reads and writes of a few bytes, each of which is interrupted first, change no answer."""
    pairs, copies, library = stream(), Copies(context), context.shim("pieces")
    sent, wanted = (b"".join(texts) for texts in zip(*pairs, strict=True))
    for piece in (1, 2, 3, 5, 8, 100):
        environment = with_library(library, PIECE=piece)
        ended = context.start("pipe", copies.fresh(), sent=sent, env=environment)
        got = ended.stdout, ended.returncode, ended.stderr
        context.check(f"requests in pieces of {piece}", got, (wanted, 0, b""))
        ended = context.start("lines", sent=LINES, env=environment)
        got = ended.stdout, ended.returncode, ended.stderr
        context.check(f"lines in pieces of {piece}", got, (KNOWN * 3, 0, b""))


def writes_that_stop(context: Context) -> None:
    """After each byte a writer of answers, lines or an export fails, or takes no more."""
    ledger = Ledger()
    ledger.answer(BATCH)
    filled = context.new_file("filled", BATCH.sent)
    export = ["export", str(filled), "--collection", "lamps"]
    commands = [(["lines"], LINES, KNOWN * 3), (export, b"", ledger.exported("lamps"))]
    for library, name in ((context.shim("fail"), "WRITES"), (context.shim("pieces"), "TAKES")):
        for words, given, wanted in commands:
            for room in range(len(wanted)):
                environment = with_library(library, **{name: room})
                check_written(context, words, given, wanted[:room], environment)
        answers_that_stop(context, library, name)


def answers_that_stop(context: Context, library: Path, name: str) -> None:
    """What is written is a prefix of the answers, and the batch is applied before its answer."""
    pairs, copies = stream(), Copies(context)
    sent, answers = (b"".join(texts) for texts in zip(*pairs, strict=True))
    for room in range(0, len(answers), 1 if name == "WRITES" or context.slow else 7):
        file = copies.fresh()
        environment = with_library(library, **{name: room})
        check_written(context, ["pipe", str(file)], sent, answers[:room], environment)
        copies.check_kept(f"what is kept where {room} bytes are written", file, 1)


def check_written(
    context: Context, words: list[str], sent: bytes, wanted: bytes, environment: dict[str, str]
) -> None:
    ended = context.start(*words, sent=sent, env=environment)
    got = ended.stdout, ended.returncode, ended.stderr
    what = f"{words[0]}, {len(wanted)} bytes written"
    context.check(what, got, (wanted, 3, b"streetmap: write_failed\n"))


def lines_cut_at_each_byte(context: Context) -> None:
    """Lines whose next read fails after each byte: those that ended are answered."""
    library = context.shim("fail")
    for size in range(len(LINES)):
        ended = context.start("lines", sent=LINES, env=with_library(library, READS=size))
        whole = [line for line in LINES[:size].split(b"\n")[:-1] if line.strip(b"\r")]
        got = ended.stdout, ended.returncode, ended.stderr
        wanted = KNOWN * len(whole), 3, b"streetmap: read_failed\n"
        context.check(f"lines whose read fails behind {size} bytes", got, wanted)


def pieces_of(sent: bytes, size: int) -> Iterator[bytes]:
    for at in range(0, len(sent), size):
        yield sent[at : at + size]


def a_client_in_pieces(context: Context) -> None:
    """A socket that gives and takes a few bytes a call, interrupted before each."""
    pairs, copies, library = stream(), Copies(context), context.shim("pieces")
    sent, wanted = (b"".join(texts) for texts in zip(*pairs, strict=True))
    words = ("--base", "http://localhost/")
    for piece in (1, 2, 3, 5, 8):
        with patch.dict(os.environ, {"LD_PRELOAD": str(library), "PIECE": str(piece)}):
            for more in ((), ("--clients", "4")):
                with context.serve(copies.fresh(), *words, *more) as server:
                    with server.connect() as client:
                        client.sendall(sent)
                        client.shutdown(socket.SHUT_WR)
                        what = f"a client in pieces of {piece} {more}"
                        context.check(what, read_all(client), wanted)


def a_client_a_byte_at_a_time(context: Context) -> None:
    """Each byte comes once the ones before were read; another client's request comes in between."""
    pairs, copies = stream(), Copies(context)
    with context.serve(copies.fresh(), "--clients", "4", "--base", "http://localhost/") as server:
        with server.connect() as client, server.connect() as other:
            client.setsockopt(socket.IPPROTO_TCP, socket.TCP_NODELAY, 1)
            for sent, wanted in pairs:
                for byte in pieces_of(sent, 1):
                    client.sendall(byte)
                    other.sendall(get("/conformance"))
                    context.check("the other client", read_answer(other).status, 200)
                context.check(
                    "a request a byte at a time", read_exactly(client, len(wanted)), wanted
                )
            context.check("the connection closes", client.recv(1), b"")


def read_exactly(client: socket.socket, size: int) -> bytes:
    came = b""
    while len(came) < size and (part := client.recv(size - len(came))):
        came += part
    return came


def a_slow_reader(context: Context) -> None:
    """A client that reads little at a time has more sent to it than its socket takes at once."""
    ledger = Ledger()
    lamps = [put("insert", "lamps", feature(f"L{at:04}", point(at, at))) for at in range(1000)]
    batch = {"key": "b1", "edits": [open_collection("lamps"), *lamps]}
    file = context.new_file("many", Request("POST", "/batches", batch).sent)
    ledger.apply(batch)
    page = Request("GET", "/collections/lamps/items?limit=1000")
    wanted = ledger.answer(page)
    with context.serve(file, "--clients", "4", "--base", "http://localhost/") as server:
        check_slowly(context, server, page.sent * 60, wanted * 60)


def check_slowly(context: Context, server: Server, sent: bytes, wanted: bytes) -> None:
    with socket.socket() as client:
        client.setsockopt(socket.SOL_SOCKET, socket.SO_RCVBUF, 4096)
        client.settimeout(60)
        client.connect(("127.0.0.1", server.port))
        client.sendall(sent)
        client.shutdown(socket.SHUT_WR)
        came = bytearray()
        while part := client.recv(3_001):
            came += part
        context.check("what a slow reader is sent", bytes(came) == wanted, True)
    other = server.ask(get("/conformance"))
    context.check("a client behind it", [it.status for it in other], [200])


def run(context: Context) -> None:
    requests_cut_at_each_byte(context)
    requests_in_pieces(context)
    lines_cut_at_each_byte(context)
    writes_that_stop(context)
    a_client_in_pieces(context)
    a_client_a_byte_at_a_time(context)
    a_slow_reader(context)
