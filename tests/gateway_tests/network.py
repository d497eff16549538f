"""The gateway on the network: nginx in front, pages of other origins, the access log, and clients
that are slow or wrong."""

import contextlib
import gzip
import json
import re
import socket
import subprocess
import sys
import tempfile
import threading
import time
from pathlib import Path
from types import TracebackType
from urllib.parse import quote

from gateway_tests.answers import check_problem
from gateway_tests.data import feature, shape
from gateway_tests.service import ROOT, TOKEN, WRITER, Gateway, gateway
from harness import Context, Server, free_port
from office_site import asked as ask
from office_site import office

sys.path.append(str(ROOT / "deploy"))

import serve_map  # noqa: E402

LAMPS = "/collections/lamps/items"
ORIGIN = "https://maps.example"
CORS = f'[cors]\norigins = ["{ORIGIN}"]\n'
ID = "way/12//ü?#%2F"
HEAD = b"GET /conformance HTTP/1.1\r\nHost: a\r\n"
# What a client sends at first and then again and again, and after how many seconds it is cut off.
SILENT: dict[str, tuple[bytes, bytes, int]] = {
    "nothing": (b"", b"", 15),
    "half a head": (b"GET /conformance HTTP/1.1\r\nHo", b"", 15),
    "a head byte by byte": (b"GET /conformance HTTP/1.1\r\nX: ", b"a", 15),
    "nothing after an answer": (HEAD + b"\r\n", b"", 10),
    "half a head after an answer": (HEAD + b"\r\nGET /con", b"", 10),
    "a body that nobody reads": (HEAD + b"Content-Length: 9999\r\n\r\n", b"x", 15),
    "half a body without a token": (
        b"POST /collections/lamps/items HTTP/1.1\r\nHost: a\r\nContent-Length: 9999\r\n\r\n",
        b"x",
        15,
    ),
}
SECONDS = 300
# Between two sends of a slow client, and how much later than it should be a connection may end.
PAUSE, LATE = 0.5, 30
END = b" HTTP/1.1\r\nHost: a\r\nConnection: close\r\n\r\n"
# Requests, and the status that each is answered.
WRONG: dict[bytes, int] = {
    b"GET /conformance?\xff\xfe=1" + END: 400,
    b"GET /conf\xff" + END: 400,
    b"GET /conf%ff" + END: 404,
    b"GET /\x1b[31m" + END: 400,
    b"GET /collections/..%2f.." + END: 404,
    b"GET //evil.example/%2e%2e" + END: 404,
    b"GET http://evil.example/conformance" + END: 200,
    b"CONNECT evil.example:80" + END: 400,
    b"OPTIONS *" + END: 404,
    b"GET /" + b"a" * 100_000 + END: 400,
    b"GET / HTTP/1.1\r\nX: " + b"a" * 100_000 + b"\r\n\r\n": 400,
    b"GET / HTTP/1.1\r\nTransfer-Encoding: chunked\r\nContent-Length: 5\r\n\r\n0\r\n\r\n": 400,
    b"GET / HTTP/1.1\r\nUpgrade: websocket\r\nConnection: Upgrade\r\n\r\n": 400,
    b"PRI * HTTP/2.0\r\n\r\nSM\r\n\r\n": 400,
    b"\x16\x03\x01\x02\x00\x01\x00\x01\xfc\x03\x03": 400,
    b"GET /conformance HTTP/1.1\r\nAccept: \xff;q=\xfe,;;q\r\nConnection: close\r\n\r\n": 200,
}
# Limits of a gateway for the test of limits.
TAKING, MOST, TIMES = 2, 20, 100
SHORT = f"""
import gateway.edits, gateway.serving
gateway.edits.BODY_SECONDS, gateway.serving.TAKING_SECONDS = 2, {TAKING}
gateway.serving.MOST_CONNECTIONS, gateway.serving.HEAD_SECONDS = {MOST}, 900
gateway.serving.IDLE_SECONDS = 900
"""
LARGE = b"GET /static/leaflet/leaflet.js HTTP/1.1\r\nHost: a\r\n\r\n"
SLOW_BODY = (
    b"POST /collections/lamps/items HTTP/1.1\r\nHost: a\r\nContent-Length: 99\r\n"
    b"Content-Type: application/json\r\nAuthorization: Bearer " + TOKEN.encode() + b"\r\n\r\n{"
)
LINE = re.compile(
    r'\S+ - \S+ \[\d\d/\w{3}/\d{4}:\d\d:\d\d:\d\d \+0000\] "[A-Z]+ [ -~]+ HTTP/1\.[01]"'
    r" \d{3} \d+ \d+ ms"
)


class Rude:
    """Clients that are silent or slow, from the beginning of the block; at its end they are to be
    cut off. Then come requests that are wrong."""

    def __init__(self, context: Context, asked: Gateway) -> None:
        self.context, self.asked = context, asked
        self.seconds: dict[str, float] = {}
        self.threads = [
            threading.Thread(target=self.wait, args=[what, *given])
            for what, given in SILENT.items()
        ]

    def __enter__(self) -> None:
        for thread in self.threads:
            thread.start()

    def __exit__(
        self,
        _kind: type[BaseException] | None,
        _fault: BaseException | None,
        _trace: TracebackType | None,
    ) -> None:
        for thread in self.threads:
            thread.join()
        for what, (_, _, wanted) in SILENT.items():
            took = self.seconds[what]
            is_timely = wanted - 1 <= took <= wanted + LATE
            self.context.check(f"{what} is cut off after {took:.1f} s", is_timely, True)
        for sent, status in WRONG.items():
            self.context.check(f"{sent[:60]!r}", status_of(self.asked, sent), status)
        check_log(self.context, self.asked)

    def wait(self, what: str, first: bytes, again: bytes, wanted: int) -> None:
        begun = time.monotonic()
        with connection(self.asked) as client, contextlib.suppress(ConnectionError):
            client.sendall(first)
            client.settimeout(PAUSE)
            while time.monotonic() - begun < wanted + LATE:
                with contextlib.suppress(TimeoutError):
                    if not client.recv(1 << 16):
                        break
                client.sendall(again)
        self.seconds[what] = time.monotonic() - begun


def check_patience(context: Context, server: Server) -> None:
    """Limits that are long, or large, are shown by a gateway for which they are not: a body that is
    slow, answers that nobody takes, and too many connections."""
    with gateway(context, server.url, patience=SHORT) as asked:
        with connection(asked) as client:
            client.sendall(SLOW_BODY)
            context.check("a slow body", client.recv(64).split(b" ")[1:2], [b"408"])
        with connection(asked) as client:
            client.setsockopt(socket.SOL_SOCKET, socket.SO_RCVBUF, 4096)
            client.sendall(LARGE * TIMES)
            time.sleep(3 * TAKING)
            context.check("answers that nobody takes", is_cut(client, asked), True)
        with contextlib.ExitStack() as opened:
            clients = [opened.enter_context(connection(asked)) for _ in range(MOST + 5)]
            ends = [ended(each) for each in clients[-3:]]
            context.check("too many connections", ends, [True] * 3)
            clients[0].sendall(HEAD + b"Connection: close\r\n\r\n")
            context.check("the first is answered", clients[0].recv(64)[9:12], b"200")


def is_cut(client: socket.socket, asked: Gateway) -> bool:
    """Whether a connection ends before all of its answers came."""
    whole, came = TIMES * len(asked.ask("/static/leaflet/leaflet.js").content), 0
    with contextlib.suppress(ConnectionError):
        while piece := client.recv(1 << 20):
            came += len(piece)
    return came < whole


def ended(client: socket.socket) -> bool:
    """Whether the other side has closed a connection."""
    client.settimeout(SECONDS)
    with contextlib.suppress(ConnectionError):
        return client.recv(1) == b""
    return True


def connection(asked: Gateway) -> socket.socket:
    port = int(asked.url.rpartition(":")[2])
    return socket.create_connection(("127.0.0.1", port), timeout=60)


def status_of(asked: Gateway, sent: bytes) -> int:
    """The status that is answered; 0 if nothing is."""
    with connection(asked) as client, contextlib.suppress(ConnectionError):
        client.sendall(sent)
        found = client.recv(64).split(b" ")
        return int(found[1]) if len(found) > 1 else 0
    return 0


def check_log(context: Context, asked: Gateway) -> None:
    """Each line of the access log is one, whatever clients sent; edits have their writer."""
    lines = asked.access.read_text("ascii").splitlines()
    context.check("lines of the log", [line for line in lines if not LINE.fullmatch(line)], [])
    context.check("a byte in the log", any(r"?\xff\xfe=1 HTTP" in line for line in lines), True)


def check_front(context: Context, server: Server) -> None:
    """The gateway below /ogc/ of deploy/nginx.conf: its links, ids with signs, edits by its own
    tokens, compression, CORS, and GDAL."""
    front = free_port()
    base = f"https://localhost:{front}/ogc"
    with gateway(context, server.url, more=CORS + WRITER, address=base) as asked:
        with tempfile.TemporaryDirectory() as name:
            port = int(asked.url.rpartition(":")[2])
            file, _ = office(Path(name), server.port, port, front)
            with serve_map.running(serve_map.nginx_command(Path(name), file), front):
                check_links(context, base)
                check_edits(context, asked, base)
                check_cors(context, asked, base)
                check_gdal(context, base)


def check_links(context: Context, base: str) -> None:
    status, fields, body = ask(f"{base}/", Accept_Encoding="gzip")
    links = [link["href"] for link in json.loads(body)["links"]]
    context.check("links", [link for link in links if not link.startswith(base)], [])
    context.check("all are there", {ask(link)[0] for link in links}, {200})
    _, fields, body = ask(f"{base}/api", Accept_Encoding="gzip")
    context.check("compressed", fields["Content-Encoding"], "gzip")
    context.check("OpenAPI", json.loads(gzip.decompress(body))["openapi"][:3], "3.0")
    for path, wanted in (("?f=html", "gzip"), ("/L00000?f=html", None)):
        _, fields, _ = ask(f"{base}{LAMPS}{path}", Accept_Encoding="gzip")
        context.check(f"compressed: {path}", fields["Content-Encoding"], wanted)
    for path in ("static/style.css", "static/leaflet/leaflet.js"):
        context.check(path, ask(f"{base}/{path}")[0], 200)
    _, fields, _ = ask(f"{base}/collections", Accept="text/html")
    context.check("HTML", fields["Content-Type"], "text/html; charset=utf-8")
    policies = fields.get_all("Content-Security-Policy") or []
    context.check("one policy", (len(policies), "default-src 'none'" in policies[0]), (1, True))
    context.check("without a slash", ask(base)[0], 200)


def check_edits(context: Context, asked: Gateway, base: str) -> None:
    """A token of the gateway writes, and nginx's password is not required; a page of another
    origin writes nothing. An id keeps its signs."""
    sent = json.dumps(feature(ID, shape("Point", [9.98, 53.55]))).encode()
    fields = {"Content_Type": "application/geo+json"}
    context.check("without a token", ask(f"{base}{LAMPS}", sent, **fields)[0], 401)
    fields["Authorization"] = f"Bearer {TOKEN}"
    foreign = {**fields, "Origin": "https://evil.example"}
    context.check("another origin", ask(f"{base}{LAMPS}", sent, **foreign)[0], 403)
    status, answered, _ = ask(f"{base}{LAMPS}", sent, **fields)
    place = f"{base}{LAMPS}/{quote(ID, safe='')}"
    context.check("created", (status, answered["Location"]), (201, place))
    context.check("read", json.loads(ask(place)[2])["id"], ID)
    log = asked.access.read_text()
    context.check("the writer in the log", "- - crew-7 [" in log, True)
    context.check("deleted", ask(place, None, "DELETE", **fields)[0], 204)


def check_cors(context: Context, asked: Gateway, base: str) -> None:
    """A page of a named origin reads, and one of another does not; neither writes."""
    for origin, wanted in ((ORIGIN, ORIGIN), ("https://evil.example", None)):
        for url in (f"{base}{LAMPS}", f"{base}/nothing"):
            _, fields, _ = ask(url, Origin=origin)
            context.check(f"{origin} at {url}", fields["Access-Control-Allow-Origin"], wanted)
    read, write = (
        ask(f"{base}{LAMPS}", None, "OPTIONS", Origin=ORIGIN, Access_Control_Request_Method=method)
        for method in ("GET", "POST")
    )
    context.check("asked before", (read[0], write[0]), (200, 400))
    answer = asked.send("POST", LAMPS, feature("a", None), Origin=ORIGIN)
    check_problem(context, answer, 403, "other_origin")


def check_gdal(context: Context, base: str) -> None:
    """`ogr2ogr` by nginx: a box in metres is refused with a sentence that says what is wrong, and
    is transformed if its system is named."""
    metres = ["-spat", "550000", "5920000", "580000", "5950000"]
    words = ["ogr2ogr", "-f", "GeoJSONSeq", "/vsistdout/", f"OAPIF:{base}/", "lamps", *metres]
    words += ["--config", "GDAL_HTTP_UNSAFESSL", "YES", "-oo", "PAGE_SIZE=1000"]
    placing = [*words, "-spat_srs", "EPSG:25832"]
    plain, placed = (
        subprocess.run(given, capture_output=True, text=True, timeout=SECONDS, check=False)
        for given in (words, placing)
    )
    told = "A box in metres needs a bbox-crs" in plain.stderr and "-spat_srs" in plain.stderr
    context.check("metres without a system", (plain.stdout, told), ("", True))
    context.check("metres of EPSG:25832", placed.stdout.count("\n"), 300)
