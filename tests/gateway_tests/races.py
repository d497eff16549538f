"""Clients that edit at the same time: what each adds is there at the end, whoever was faster."""

import json
import threading
import time
from collections.abc import Callable
from concurrent.futures import ThreadPoolExecutor
from typing import Any

import httpx
from gateway_tests.data import feature, shape
from gateway_tests.service import TOKEN, Gateway
from harness import Context

ITEMS = "/collections/lamps/items"
COUNTED = f"{ITEMS}/counted"
MERGE = "application/merge-patch+json"
# Of each of two clients, in the short form and in the long one.
ROUNDS, SLOW_ROUNDS = 100, 500
CROWD = 40


def send(client: httpx.Client, url: str, method: str, body: Any, **fields: str) -> httpx.Response:
    kind = MERGE if method == "PATCH" else "application/geo+json"
    headers = {"Authorization": f"Bearer {TOKEN}", "Content-Type": kind}
    headers |= {name.replace("_", "-"): value for name, value in fields.items()}
    return client.request(method, url, headers=headers, content=json.dumps(body).encode())


def add(client: httpx.Client, url: str, method: str) -> int:
    """Reads the feature, adds one, and sends it under the tag that was read, until that acts; how
    often another was faster."""
    tries = 0
    while True:
        shown = client.get(url)
        body = shown.json()
        body["properties"]["count"] += 1
        body = {"properties": body["properties"]} if method == "PATCH" else body
        answer = send(client, url, method, body, If_Match=shown.headers["etag"])
        if answer.status_code == 204:
            return tries
        assert answer.status_code in (412, 503), answer.text
        tries += 1


def together(tasks: list[Callable[[], Any]]) -> list[Any]:
    """What tasks give that begin at the same time."""
    barrier = threading.Barrier(len(tasks))

    def begin(task: Callable[[], Any]) -> Any:
        barrier.wait(60)
        return task()

    with ThreadPoolExecutor(len(tasks)) as pool:
        return list(pool.map(begin, tasks))


def check_races(context: Context, asked: Gateway, other: Gateway) -> None:
    """Two clients add one to a property of a feature, again and again: one by PUT, one by PATCH at
    another gateway of the same server. A third changes another property by patches without a
    condition, and loses none."""
    made = feature("counted", shape("Point", [9.98, 53.55]), {"count": 0, "free": 0})
    context.check("made", asked.send("POST", ITEMS, made).status_code, 201)
    rounds, url = SLOW_ROUNDS if context.slow else ROUNDS, asked.url + COUNTED

    def adding(at: Gateway, method: str) -> int:
        with httpx.Client(timeout=60) as client:
            return sum(add(client, at.url + COUNTED, method) for _ in range(rounds))

    def patching() -> int:
        with httpx.Client(timeout=60) as client:
            bodies = [{"properties": {"free": number}} for number in range(1, rounds // 4 + 1)]
            return sum(send(client, url, "PATCH", it).status_code == 204 for it in bodies)

    begun = time.monotonic()
    tries = together([lambda: adding(asked, "PUT"), lambda: adding(other, "PATCH"), patching])
    seconds = time.monotonic() - begun
    shown = asked.ask(COUNTED).json()["properties"]
    wanted = {"count": 2 * rounds, "free": rounds // 4}
    context.check("the sum", (shown, tries[2]), (wanted, rounds // 4))
    context.check("they were in each other's way", tries[0] + tries[1] > 0, True)
    print(f"  {2 * rounds} additions in {seconds:.1f} s, {tries[0] + tries[1]} sent again")
    check_crowd(context, asked)


def check_crowd(context: Context, asked: Gateway) -> None:
    """Many edit features of their own at the same time, each under its tag: all act, though each
    changes the state that the others have read."""
    paths = [f"{ITEMS}/crowd-{number}" for number in range(CROWD)]
    for path in paths:
        place = shape("Point", [9.98, 53.55])
        asked.send("POST", ITEMS, feature(path.rpartition("/")[2], place, {"count": 0}))

    def one(path: str) -> int:
        with httpx.Client(timeout=60) as client:
            return add(client, asked.url + path, "PATCH")

    tries = together([lambda path=path: one(path) for path in paths])  # type: ignore[misc]
    counts = [asked.ask(path).json()["properties"]["count"] for path in paths]
    context.check("all act, the first time", (counts, tries), ([1] * CROWD, [0] * CROWD))
