"""Faults between gateway and server: a server that is away, connections that break, a kill
between a batch and its answer, and more clients than connections."""

import contextlib
import http.client
import select
import socket
import threading
import time
from collections.abc import Callable, Iterator
from concurrent.futures import ThreadPoolExecutor

import httpx
from gateway_tests.answers import check_problem
from gateway_tests.data import batches, feature, lamps, shape
from gateway_tests.service import Gateway, gateway
from harness import Context, Server, free_port
from messages import post

ITEMS = "/collections/lamps/items"
CLIENTS, EACH = 200, 2
IDLE_SECONDS = 33


class Relay:
    """Passes connections on to a server. Once `armed`, the next answer to a `POST` is not passed
    on: its connections are cut, and the action is called before that."""

    def __init__(self, port: int) -> None:
        self.port = port
        self.listener = socket.create_server(("127.0.0.1", free_port()))
        self.action: Callable[[], None] | None = None
        self.batches = 0

    @property
    def url(self) -> str:
        return f"http://127.0.0.1:{self.listener.getsockname()[1]}"

    def run(self) -> None:
        with contextlib.suppress(OSError):
            while True:
                client, _ = self.listener.accept()
                threading.Thread(target=self.pass_on, args=[client], daemon=True).start()

    def pass_on(self, client: socket.socket) -> None:
        """Copies both ways until one side ends."""
        with client, contextlib.suppress(OSError):
            with socket.create_connection(("127.0.0.1", self.port)) as server:
                is_batch = False
                while True:
                    ready, _, _ = select.select([client, server], [], [], 60)
                    for source in ready:
                        data = source.recv(1 << 16)
                        if not data:
                            return
                        if source is client:
                            is_batch = is_batch or data.startswith(b"POST")
                            server.sendall(data)
                            continue
                        if is_batch and self.cut():
                            return
                        is_batch = False
                        client.sendall(data)

    def cut(self) -> bool:
        """Counts an answer to a batch; whether it is to be lost."""
        self.batches += 1
        action, self.action = self.action, None
        if action is not None:
            action()
        return action is not None


@contextlib.contextmanager
def relay(server: Server) -> Iterator[Relay]:
    made = Relay(server.port)
    threading.Thread(target=made.run, daemon=True).start()
    try:
        yield made
    finally:
        made.listener.close()


def lamp(name: str | None) -> dict[str, object]:
    made = feature(name or "", shape("Point", [9.98, 53.55]))
    return made if name else {key: value for key, value in made.items() if key != "id"}


def check_faults(context: Context) -> None:
    file = context.new_file("faults.streetmap", *map(post, batches({"lamps": lamps(50)})))
    with context.serve(file, "--clients", "32") as server:
        with relay(server) as between, gateway(context, between.url) as asked:
            check_lost_answer(context, asked, between)
            check_stop(context, asked, between, server)
            check_away(context, asked)
            with context.serve(file, "--clients", "32") as again:
                between.port = again.port
                check_again(context, asked)
                check_killed_gateway(context, between)
    check_cut_connections(context, file)


def check_lost_answer(context: Context, asked: Gateway, between: Relay) -> None:
    """The connection breaks between batch and answer: the gateway sends again, and it acts once."""
    before = asked.ask(ITEMS).json()["numberMatched"]
    for name, key in ((None, None), ("lost", None), (None, "key 1")):
        between.batches, between.action = 0, lambda: None
        fields = {"Idempotency_Key": key} if key else {}
        made = asked.send("POST", ITEMS, lamp(name), **fields)
        context.check("asked again", (made.status_code, between.batches), (201, 2))
    count = asked.ask(ITEMS).json()["numberMatched"]
    context.check("each acted once", count, before + 3)


def check_stop(context: Context, asked: Gateway, between: Relay, server: Server) -> None:
    """The server is killed between batch and answer: 503, to be sent again."""
    between.action = server.kill
    answer = asked.send("POST", ITEMS, lamp(None), Idempotency_Key="key 2")
    check_problem(context, answer, 503, "server_away")
    context.check("Retry-After", answer.headers.get("retry-after", "").isdigit(), True)


def check_away(context: Context, asked: Gateway) -> None:
    """Without a server: 503 for what needs it; the rest is answered."""
    for path in ("/collections", "/collections/lamps", ITEMS, f"{ITEMS}/L00000"):
        answer = asked.ask(path)
        check_problem(context, answer, 503, "server_away")
        context.check("Retry-After", answer.headers.get("retry-after", "").isdigit(), True)
    check_problem(context, asked.send("DELETE", f"{ITEMS}/L00000"), 503, "server_away")
    for path in ("/", "/api", "/conformance"):
        context.check(path, asked.ask(path).status_code, 200)


def check_again(context: Context, asked: Gateway) -> None:
    """The server is back: the same request under its key says 201, and one feature is kept."""
    before = asked.ask(ITEMS).json()["numberMatched"]
    context.check("the batch was applied", before, 54)
    answers = [asked.send("POST", ITEMS, lamp(None), Idempotency_Key="key 2") for _ in range(2)]
    context.check("sent again", [each.status_code for each in answers], [201, 201])
    context.check("once", asked.ask(ITEMS).json()["numberMatched"], before)


def check_killed_gateway(context: Context, between: Relay) -> None:
    """The gateway is killed between batch and answer: another one answers the same request
    under its key, and one feature is kept."""
    with gateway(context, between.url) as asked:
        before = asked.ask(ITEMS).json()["numberMatched"]
        between.action = asked.process.kill
        with contextlib.suppress(httpx.TransportError):
            asked.send("POST", ITEMS, lamp(None), Idempotency_Key="key 3")
            context.check("the gateway is killed", "an answer", "none")
    with gateway(context, between.url) as asked:
        count = asked.ask(ITEMS).json()["numberMatched"]
        context.check("the batch of the killed one", count, before + 1)
        answer = asked.send("POST", ITEMS, lamp(None), Idempotency_Key="key 3")
        context.check("sent to another", answer.status_code, 201)
        context.check("it acted once", asked.ask(ITEMS).json()["numberMatched"], count)


def check_cut_connections(context: Context, file: object) -> None:
    """The server cuts idle connections of the gateway, since others come, or since it is started
    again; with --slow also after half a minute. The gateway's next requests are answered."""
    with context.serve(str(file), "--clients", "2") as server:
        with gateway(context, server.url) as asked:
            for _ in range(3):
                context.check("before", asked.ask(ITEMS).status_code, 200)
                time.sleep(1.2)
                others = [server.connect() for _ in range(2)]
                time.sleep(0.3)
                for other in others:
                    other.close()
                context.check("cut for others", asked.ask(ITEMS).status_code, 200)
            if context.slow:
                time.sleep(IDLE_SECONDS)
                context.check("after half a minute", asked.ask(ITEMS).status_code, 200)
                made = asked.send("POST", ITEMS, lamp(None))
                context.check("an edit after that", made.status_code, 201)


def check_many(context: Context, asked: Gateway) -> None:
    """200 clients at once, each with connections of its own: all are answered."""
    barrier = threading.Barrier(CLIENTS)

    def client(number: int) -> list[int]:
        statuses = []
        port = int(asked.url.rpartition(":")[2])
        own = http.client.HTTPConnection("127.0.0.1", port, timeout=context.seconds)
        with contextlib.closing(own):
            barrier.wait(context.seconds)
            for turn in range(EACH):
                box = f"&bbox=9.9,53.5,{10 + number / 1000},{53.6 + turn / 100}" if turn % 2 else ""
                own.request("GET", f"{ITEMS}?limit=20{box}")
                answer = own.getresponse()
                answer.read()
                statuses.append(answer.status)
        return statuses

    begun = time.monotonic()
    with ThreadPoolExecutor(CLIENTS) as pool:
        statuses = [status for each in pool.map(client, range(CLIENTS)) for status in each]
    print(f"  {CLIENTS} clients, {len(statuses)} pages, {time.monotonic() - begun:.1f} s")
    context.check("all are answered", statuses, [200] * CLIENTS * EACH)
