"""Two clients add one to a number under If-Match while the server is killed: no change is lost."""

import json
import random
import socket
import time
from collections.abc import Iterator
from concurrent.futures import Future, ThreadPoolExecutor
from dataclasses import dataclass
from pathlib import Path

from harness import Context
from messages import Answer, batch, feature, get, open_collection, point, put, read_answer, request

# Of each client, in the short form and in the long one.
ROUNDS, SLOW_ROUNDS = 100, 1000
# The most further batches before the server is killed, and the most seconds after the last one.
MOST_BETWEEN, MOST_LATER = 6, 0.005
# In seconds: before a request is sent again that was not answered.
PAUSE = 0.01
ITEM = "/collections/lamps/items/L1"


def lamp(count: int) -> dict[str, object]:
    return feature("L1", point(1, 2), {"count": count})


@dataclass
class Town:
    """What is served, at another port after each kill."""

    port: int = 0

    def ask(self, sent: bytes) -> Answer | None:
        """What is answered to a request; None if the server was killed before it was."""
        try:
            with socket.create_connection(("127.0.0.1", self.port), timeout=60) as stream:
                stream.sendall(sent)
                return read_answer(stream)
        except OSError:
            return None


@dataclass
class Client:
    """Somebody who adds to the number: how many batches were sent and accepted."""

    town: Town
    name: str
    sent: int = 0
    accepted: int = 0

    def answered(self, sent: bytes) -> Answer:
        """Sends the same bytes until they are answered: a batch whose answer was lost is sent under
        its key and its condition again."""
        while (answer := self.town.ask(sent)) is None:
            time.sleep(PAUSE)
        return answer

    def add(self) -> None:
        """Reads the number, adds one, and sends that under the tag that was read. If another was
        faster, it begins again."""
        while True:
            shown = self.answered(get(ITEM))
            count = shown.json()["properties"]["count"] + 1
            self.sent += 1
            edits = [put("replace", "lamps", lamp(count))]
            body = json.dumps({"key": f"{self.name}:{self.sent}", "edits": edits}).encode()
            condition = {"If-Match": shown.fields["etag"]}
            answer = self.answered(request("POST", "/batches", body, fields=condition))
            if answer.status == 200:
                self.accepted += 1
                return
            assert (answer.status, answer.json()["code"]) == (412, "changed"), answer

    def add_often(self, rounds: int) -> None:
        for _ in range(rounds):
            self.add()


def kill_again(
    context: Context, file: Path, town: Town, clients: list[Client], adding: list[Future[None]]
) -> int:
    """Serves the town, and kills it after some batches, until the clients are done; how often."""
    kills = 0
    while not all(each.done() for each in adding):
        with context.serve(file, "--conditional", "--clients", "8") as server:
            town.port = server.port
            wanted = accepted_of(clients) + random.randint(1, MOST_BETWEEN)
            while accepted_of(clients) < wanted and not all(each.done() for each in adding):
                time.sleep(PAUSE / 10)
            time.sleep(random.uniform(0, MOST_LATER))
        kills += 1
    return kills


def accepted_of(clients: list[Client]) -> int:
    return sum(client.accepted for client in clients)


def counts_in(journal: bytes) -> Iterator[int]:
    """The number that each batch wrote, in the order in which they were accepted."""
    for line in journal.splitlines():
        (edit,) = json.loads(line.partition(b"\t")[2])["edits"]
        yield edit["feature"]["properties"]["count"]


def run(context: Context) -> None:
    opened = [open_collection("lamps"), put("insert", "lamps", lamp(0))]
    file = context.new_file("sums", batch("open", opened))
    rounds, town = SLOW_ROUNDS if context.slow else ROUNDS, Town()
    clients = [Client(town, name) for name in ("anna", "ben")]
    begun = time.monotonic()
    with ThreadPoolExecutor(len(clients)) as pool:
        adding = [pool.submit(client.add_often, rounds) for client in clients]
        kills = kill_again(context, file, town, clients, adding)
        for each in adding:
            each.result()
    seconds, total = time.monotonic() - begun, len(clients) * rounds
    again = sum(client.sent for client in clients) - total
    print(f"  {total} additions, {kills} kills, {again} begun again, {seconds:.1f} s")
    counts = list(counts_in(context.run("batches", file, "--after", "1")))
    context.check("each adds one to the one before", counts == list(range(1, total + 1)), True)
    (shown,) = context.pipe(file, get(ITEM))
    context.check("the sum", shown.json()["properties"]["count"], total)
    context.check("the server was killed", kills >= rounds // MOST_BETWEEN, True)
    context.check("they were in each other's way", again > 0, True)
