"""Faults: a damaged row, a failed device, a shut store, failed allocations, their sentences."""

import contextlib
import functools
import json
import re
import resource
import socket
import subprocess
from collections.abc import Callable, Iterator
from pathlib import Path

from harness import Context, Server, Word, free_port
from messages import answers_in, feature, get, open_collection, point, post, put, read_all
from model import PHRASES, Ledger, Refused, Request, compact
from sqlite_file import Rows, change, make_format_1, rows

LINE = {"type": "LineString", "coordinates": [[9, -9], [0, 4]]}
SPAN = "1969-12-31T23:59:00Z/1970-01-01T00:01:00Z"
FIRST = Request(
    "POST",
    "/batches",
    {
        "key": "b1",
        "edits": [
            open_collection("lamps"),
            put("insert", "lamps", feature("L1", point(1000, 2000))),
            put("insert", "lamps", feature("L2", None, {"height": 12})),
            open_collection("works", time="when"),
            put("insert", "works", feature("K1", LINE, {"when": SPAN})),
        ],
    },
)
ITEMS = "/collections/works/items"
NO_COLLECTION = "FILE has no collection with this id."
# A text that is no feature, an id that is not that of its text, and a time that ends before it
# starts.
DAMAGES = (
    "UPDATE streetmap_features SET body = 'unreadable' WHERE id = 'K1'",
    "UPDATE streetmap_features SET id = 'L9' WHERE id = 'L1'",
    "UPDATE streetmap_features SET body = replace(body, '1970', '1960') WHERE id = 'K1'",
)
KEPT = (
    "SELECT * FROM streetmap_meta",
    "SELECT * FROM streetmap_features ORDER BY collection, id",
    "SELECT * FROM streetmap_batches",
)


def fault(code: str) -> bytes:
    """The answer to a request that fails by a fault of the server, which closes the connection."""
    refused = Refused(code)
    body = compact(refused.body).encode()
    head = [f"HTTP/1.1 {refused.status} {PHRASES[refused.status]}"]
    head += ["Content-Type: application/json", f"Content-Length: {len(body)}"]
    return "\r\n".join([*head, "Connection: close", "", ""]).encode() + body


def kept(file: Path) -> list[Rows]:
    return [rows(file, query) for query in KEPT]


def asked(server: Server, sent: bytes) -> bytes:
    with server.connect() as client:
        client.sendall(sent)
        return read_all(client)


def a_damaged_row(context: Context) -> None:
    """It shuts the store, which then refuses all that needs its state, and nothing else."""
    file = context.new_file("damaged", FIRST.sent)
    change(file, DAMAGES[0])
    for words in (("--count", "99"), ("--count", "99", "--clients", "4")):
        with context.serve(file, *words) as server:
            looked = asked(server, get(f"{ITEMS}?bbox=0,0,9,9") + get("/"))
            context.check("a damaged row", looked, fault("damaged"))
            for path in ("/collections", "/collections/lamps", ITEMS, f"{ITEMS}/K1"):
                context.check(f"{path} of a shut store", asked(server, get(path)), fault("reopen"))
            sent = Request("POST", "/batches", {"key": "b2", "edits": []}).sent
            context.check("a batch to a shut store", asked(server, sent), fault("reopen"))
            (answer,) = server.ask(get("/conformance"))
            context.check("what asks for no state", answer.status, 200)
            said = server.log.read_bytes().splitlines()[1:]
            context.check("its line, once", said, [b"streetmap: damaged"])
    export = ("export", file, "--collection")
    context.run(*export, "works", status=3, code="damaged")
    ledger = Ledger()
    ledger.answer(FIRST)
    context.check("another export", context.run(*export, "lamps"), ledger.exported("lamps"))


def a_row_of_format_1(context: Context) -> None:
    """A file of format 1 with a row that this product does not write is left as it is."""
    for number, statement in enumerate(DAMAGES):
        file = context.new_file(f"format-1-{number}", FIRST.sent)
        make_format_1(file)
        change(file, statement)
        before = kept(file)
        context.check("the format", before[0], [("format", 1)])
        context.run("pipe", file, sent=get("/collections"), status=3, code="damaged")
        context.run("check", file, status=3, code="damaged")
        context.check(f"what is left behind {statement}", kept(file), before)


def limits_file_size(size: int) -> Callable[[], None]:
    def limit() -> None:
        resource.setrlimit(resource.RLIMIT_FSIZE, (size, size))

    return limit


def a_failed_device(context: Context) -> None:
    """A file that may grow no more: a batch is refused, and the file opens again as it was."""
    lamps = [put("insert", "lamps", feature(f"M{at}", point(at, at))) for at in range(400)]
    batch = Request("POST", "/batches", {"key": "b2", "edits": lamps})
    for size in (30_000, 60_000, 90_000):
        file = context.new_file(f"full-{size}", FIRST.sent)
        sent = batch.sent + get("/collections")
        limit = limits_file_size(size)
        ended = context.start("pipe", file, sent=sent, preexec_fn=limit, restore_signals=False)
        got = ended.returncode, ended.stdout
        context.check(f"a batch beyond {size} bytes", got, (0, fault("device")))
        context.check("what is left of it", context.run("check", file), b"ok 2 3 1\n")
        (answer,) = context.pipe(file, batch.sent)
        context.check("the batch once there is room", answer.status, 200)


def large_town(context: Context) -> Path:
    """A file with a page of 12 MB, which no socket holds, and with a damaged row beside it."""
    file = context.new_file("large", FIRST.sent)
    for part in range(2):
        edits = [
            put("insert", "lamps", feature(f"N{part}{at:03}", None, {"text": "x" * 30_000}))
            for at in range(200)
        ]
        (answer,) = context.pipe(file, post(compact({"key": f"n{part}", "edits": edits})))
        context.check("a large batch", answer.status, 200)
    change(file, DAMAGES[0])
    return file


def a_server_whose_store_failed(context: Context) -> None:
    """It prints the fault once, sends the answers that it has begun, and ends with status 3."""
    file = large_town(context)
    with context.serve(file) as server, server.connect() as reader, server.connect() as idle:
        reader.sendall(get("/collections/lamps/items?limit=1000"))
        begun = reader.recv(1)
        context.check("the row", asked(server, get(f"{ITEMS}/K1")), fault("damaged"))
        idle.sendall(get("/conformance")[:9])
        (answer,) = answers_in(begun + read_all(reader))
        context.check("a page that was begun", len(json.loads(answer.body)["features"]), 402)
        server.ends(3, b"streetmap: damaged\n")
    limited = limits_file_size(60_000)
    file, port = context.new_file("full", FIRST.sent), free_port()
    given = [str(context.program), "serve", str(file), "--port", str(port)]
    lamps = [put("insert", "lamps", feature(f"M{at}", point(at, at))) for at in range(900)]
    with subprocess.Popen(
        given,
        preexec_fn=limited,
        restore_signals=False,
        stdout=subprocess.PIPE,
        stderr=subprocess.PIPE,
    ) as process:
        assert process.stdout is not None and process.stderr is not None
        process.stdout.readline()
        server = Server(context, port, process, context.folder / "none")
        sent = Request("POST", "/batches", {"key": "b2", "edits": lamps}).sent
        context.check("a batch on a full device", asked(server, sent), fault("device"))
        context.check("its status", process.wait(context.seconds), 3)
        said = process.stderr.read().splitlines()[1:]
        context.check("its line", said, [b"streetmap: device"])
    context.check("what is left", context.run("check", file), b"ok 2 3 1\n")


@contextlib.contextmanager
def short_of_memory(process: subprocess.Popen[bytes]) -> Iterator[None]:
    """A process has no more than half a megabyte beyond what it has."""
    status = Path(f"/proc/{process.pid}/status").read_text()
    found = re.search(r"VmSize:\s+(\d+) kB", status)
    assert found is not None
    before = resource.prlimit(process.pid, resource.RLIMIT_AS)
    least = int(found[1]) * 1024 + 500_000
    resource.prlimit(process.pid, resource.RLIMIT_AS, (least, before[1]))
    yield
    resource.prlimit(process.pid, resource.RLIMIT_AS, before)


def refused_memory(context: Context) -> None:
    """A client for whose body memory runs out is answered so, over a stream and over sockets, also
    while it still sends."""
    edits = [open_collection("large", title="x" * 200)]
    batch = Request("POST", "/batches", {"key": "large", "edits": edits})
    # More than the server may have free from before.
    body = batch.text.encode().ljust(8_000_000)
    head = b"POST /batches HTTP/1.1\r\nHost: localhost\r\nContent-Length: %d\r\n\r\n" % len(body)
    look, ledger = Request("GET", "/collections"), Ledger()
    file, words = context.new_file("memory"), ("--clients", "1", "--base", "http://localhost/")
    given = [str(context.program), "pipe", str(file)]
    with subprocess.Popen(given, stdin=subprocess.PIPE, stdout=subprocess.PIPE) as process:
        assert process.stdin is not None and process.stdout is not None
        process.stdin.write(look.sent)
        process.stdin.flush()
        looked = ledger.answer(look)
        context.check("a look before", process.stdout.read(len(looked)), looked)
        with short_of_memory(process):
            process.stdin.write(head)
            process.stdin.close()
            told = process.stdout.read()
        context.check("a body without memory", told, fault("memory"))
    with context.serve(file, *words) as server:
        with short_of_memory(server.process):
            half = head + body[: len(body) // 2]
            told = answer_while_sent(server, half)
            context.check("a client whose body has none", told, fault("memory"))
            told = answer_while_sent(server, head + body)
            context.check("while it sends", told, fault("memory"))
        context.check("nothing was applied", asked_once(server, look.sent), ledger.answer(look))
        context.check("the body again", asked_once(server, head + body), ledger.answer(batch))


def answer_while_sent(server: Server, sent: bytes) -> bytes:
    """What a client is sent that reads once it sent as much as the server takes."""
    with server.connect() as client:
        with contextlib.suppress(ConnectionError):
            client.sendall(sent)
        return read_all(client)


def asked_once(server: Server, sent: bytes) -> bytes:
    """What a client is sent that ends its side after its request."""
    with server.connect() as client:
        client.sendall(sent)
        client.shutdown(socket.SHUT_WR)
        return read_all(client)


def why_a_file_is_not_opened(context: Context) -> None:
    """The sentences on a file that is in use, in no folder, without rights, or damaged."""
    file = context.new_file("opened", FIRST.sent)
    explain = functools.partial(context.explain, status=3, code="device")
    with context.serve(file):
        explain("check", file, sentence="FILE is in use by another program.")
    folder = context.folder / "none"
    explain("create", folder / "town", sentence="The folder of FILE is not there.")
    rights = "FILE or its folder may not be read and written: look at their owner and rights."
    explain("create", "/proc/town", sentence=rights)
    damaged, page = context.folder / "no-page", bytearray(file.read_bytes())
    page[100] = 0x77
    damaged.write_bytes(page)
    explain("check", damaged, sentence="FILE is a damaged database: go on with a copy of it.")
    shown = context.on_terminal("create", folder / "town")
    wanted = b"streetmap: device\nThe folder of FILE is not there.\n"
    context.check("on a terminal", shown, (3, wanted))


def why_a_port_is_taken(context: Context) -> None:
    file = context.new_file("port")
    with socket.create_server(("127.0.0.1", 0)) as taken:
        port = taken.getsockname()[1]
        ended = context.start("serve", file, "--port", str(port), "--explain")
    said = ended.stderr.decode().splitlines()[1:]
    sentence = f"Port {port} is taken: another program listens there."
    context.check("a port that is taken", said, ["streetmap: net", sentence])


def sentences(context: Context) -> None:
    """What is wrong, and what to do, of faults of the other kinds."""
    file, text = context.new_file("sentences", FIRST.sent), context.folder / "features"
    none = context.folder / "no-such"
    explain = functools.partial(context.explain, status=1)
    missing = "FILE is not there: streetmap create FILE makes it."
    explain("check", none, code="no_file", sentence=missing)
    explain("create", file, code="exists", sentence="FILE is there already.")
    load: list[Word] = ["load", file, text, "--collection", "lamps"]
    explain(*load, "--key", "k", code="no_text", sentence="TEXT is not there.")
    text.write_text('{"type":"Feature","geometry":{"type":"Point","coordinates":[0.5,1]}}\n')
    fraction = "A number is not whole: see --scale, --round and --fractions of streetmap load."
    explain(*load, "--key", "k", code="bad_feature 1 fraction", sentence=fraction)
    key = "The key of a load has 1 to 44 letters, digits, '.', '_', '-' and ':'."
    explain(*load, "--key", "k k", code="bad_key", sentence=key)
    words = ("import", file, text, "--key", "k", "--collection")
    name = "A collection's id has 1 to 64 letters, digits, '.', '_' and '-'."
    explain(*words, "a b", code="bad_batch", sentence=name)
    explain("export", file, "--collection", "x", code="no_collection", sentence=NO_COLLECTION)
    base = "A base is an http or https address with the path / and nothing after it."
    explain("pipe", file, "--base", "x", code="bad_base", sentence=base)
    token = "T cannot be read, or its first line is no token of 16 to 128 visible ASCII characters."
    explain("pipe", file, "--follower", none, code="bad_token", sentence=token)


def run(context: Context) -> None:
    a_damaged_row(context)
    a_row_of_format_1(context)
    a_failed_device(context)
    a_server_whose_store_failed(context)
    refused_memory(context)
    why_a_file_is_not_opened(context)
    why_a_port_is_taken(context)
    sentences(context)
