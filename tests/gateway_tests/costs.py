"""What requests cost: the processor and memory of boxes, and how long others wait for an edit."""

import json
import random
import statistics
import threading
import time
from collections.abc import Iterator
from dataclasses import dataclass
from pathlib import Path
from typing import Any

from gateway_tests.answers import check_problem
from gateway_tests.boxes import far_box, random_box, text_of
from gateway_tests.data import collections, feature, shape
from gateway_tests.plain import Box
from gateway_tests.service import Gateway
from harness import Context

BOXES, BOX_SECONDS, BOX_BYTES = 1000, 0.020, 50_000_000
# A box that takes longer is requested again, since others use the same caches of the machine.
TRIES = 4
WAIT_SECONDS = 0.1
ITEMS = "/collections/lamps/items"
POSITIONS, BODY = 100_000, 8_388_608


def processor_seconds(pid: int) -> float:
    """What a process has used of processors, by Linux's clock of it, whatever others use."""
    return time.clock_gettime((~pid << 3) | 2)


def memory_bytes(pid: int, name: str) -> int:
    """The memory that a process has (`VmRSS`), or has had at most (`VmHWM`)."""
    status = Path(f"/proc/{pid}/status").read_text()
    return int(status.partition(f"{name}:")[2].split()[0]) * 1024


def wide_box(source: random.Random) -> Box:
    """A box about the size of Europe, somewhere around it."""
    west, south = source.uniform(-30, 5), source.uniform(25, 50)
    return Box(west, south, west + source.uniform(20, 60), south + source.uniform(10, 35))


def different_boxes(count: int) -> Iterator[Box]:
    """Boxes of all sizes, from some metres to the world."""
    source = random.Random(16)
    for number in range(count):
        kind = number % 4
        if kind < 2:
            yield random_box(source)
        else:
            yield far_box(source).grown(source.uniform(0, 1)) if kind == 2 else wide_box(source)


def check_boxes(context: Context, asked: Gateway) -> None:
    """A thousand boxes, whatever their sizes, of a gateway that has answered none before."""
    pid, names = asked.process.pid, list(collections())
    asked.ask("/collections")
    begun, before = processor_seconds(pid), memory_bytes(pid, "VmRSS")
    slow = []
    for number, box in enumerate(different_boxes(BOXES)):
        name = names[number % len(names)]
        seconds = box_seconds(asked, name, box)
        if seconds > BOX_SECONDS:
            slow.append((seconds, name, box))
    each = (processor_seconds(pid) - begun) / BOXES
    more = memory_bytes(pid, "VmHWM") - before
    context.check(f"a box takes {each * 1000:.1f} ms", each <= BOX_SECONDS, True)
    context.check(f"boxes take {more} bytes", more <= BOX_BYTES, True)
    for first, name, box in slow[:TRIES]:
        best = min(first, *(box_seconds(asked, name, box) for _ in range(TRIES)))
        what = f"{name} in {text_of(box)}: {best * 1000:.1f} ms"
        context.check(what, best <= BOX_SECONDS, True)
    print(f"  {BOXES} boxes, {each * 1000:.1f} ms each, {len(slow)} over, {more >> 10} KiB more")


def box_seconds(asked: Gateway, name: str, box: Box) -> float:
    """What the first page of a box takes of a processor."""
    begun = processor_seconds(asked.process.pid)
    assert asked.ask(f"/collections/{name}/items", bbox=text_of(box), limit=100).is_success
    return processor_seconds(asked.process.pid) - begun


def long_line(count: int) -> bytes:
    """A line of `count` positions in degrees."""
    source = random.Random(count)
    spots = [[9.9 + source.random() / 10, 53.5 + source.random() / 10] for _ in range(count)]
    return json.dumps(feature("long", shape("LineString", spots))).encode()


def check_edits(context: Context, asked: Gateway) -> None:
    """While large bodies are read and placed, others do not wait for it: of each request within
    that time, the gateway takes at most 100 ms of a processor until it is answered. That is what
    the request waits for the gateway on a machine that does nothing else. The median of the time
    that passes is held to the same, since other tests use the same processors.

    A feature is sent to a path of another id, so that the gateway itself refuses it at the end."""
    positions = b",".join([b"[9.9,53.5]"] * (BODY // 11 - 20))
    line = b'{"type":"Feature","geometry":{"type":"LineString","coordinates":[%b]}}' % positions
    text = feature("long", None, {"text": "ü" * (BODY // 6 - 100)})
    for what, body, code, cause in (
        ("100,000 positions", long_line(POSITIONS), "other_id", None),
        ("100,001 positions", long_line(POSITIONS + 1), "bad_feature", "too_many_positions"),
        ("8 MiB of positions", line, "bad_feature", "too_many_positions"),
        ("8 MiB of text", json.dumps(text).encode(), "other_id", None),
    ):
        answer, waits = waits_of_others(asked, body)
        check_problem(context, answer, 400, code)
        context.check(f"{what}: cause", answer.json().get("cause"), cause)
        longest, median = max(each.processor for each in waits), middle(waits)
        shown = f"{longest * 1000:.0f} ms of a processor, in the middle {median * 1000:.0f} ms"
        is_short = max(longest, median) <= WAIT_SECONDS
        context.check(f"{what}: others wait {shown}", is_short, True)
        print(f"  {what}: {len(waits)} others wait {shown}")


@dataclass(frozen=True)
class Wait:
    """What a request waited: what the gateway used of a processor, and the time that passed."""

    processor: float
    passed: float


def middle(waits: list[Wait]) -> float:
    return statistics.median(each.passed for each in waits)


def waits_of_others(asked: Gateway, body: bytes) -> tuple[Any, list[Wait]]:
    """What an edit is answered, and what another client waited while it ran."""
    answers: list[Any] = []
    path = f"{ITEMS}/other"
    thread = threading.Thread(target=lambda: answers.append(asked.send("PUT", path, body)))
    thread.start()
    waits: list[Wait] = []
    while thread.is_alive() or not waits:
        processor, passed = processor_seconds(asked.process.pid), time.monotonic()
        assert asked.ask("/conformance").is_success
        processor = processor_seconds(asked.process.pid) - processor
        waits.append(Wait(processor, time.monotonic() - passed))
    thread.join()
    return answers[0], waits
