"""Pages of the mirror: order, properties, boxes and times, and walks while others write."""

import itertools
import random
import threading
from dataclasses import dataclass, field
from typing import Any

from gateway_tests.data import Feature, batch, feature, insert, opening, shape
from gateway_tests.service import Gateway, json_of, next_link
from harness import Context
from mirror_tests.evaluation import number_in, set_number_in, text_in
from mirror_tests.front import BOXES, SYSTEMS, Front

PAGE = "/collections/assets/items"
WRITES = 60


def check_pages(context: Context, front: Front) -> None:
    """Pages of the mirror are those of the server if both can answer."""
    asked = front.asked
    for name in front.kept:
        plain = asked.all_items(name, limit=1000)
        context.check(f"{name}: all", asked.all_items(name, filter="TRUE", limit=90), plain)
    for system, name in itertools.product(SYSTEMS, ("assets", "kerbs")):
        same = {"crs": system, "bbox": BOXES[system], "bbox_crs": system}
        plain = asked.all_items(name, **same, limit=1000)
        found = asked.all_items(name, filter="TRUE", **same, limit=50)
        context.check(f"{name} in a box of {system}", found, plain)
    for time in ("2010-01-01", "2010-01-01T12:00:00Z", "2011-01-01/..", "../2009-01-01T00:00:00Z"):
        ids = front.ids("assets", datetime=time, limit=1000)
        context.check(f"at {time}", front.ids("assets", filter="TRUE", datetime=time), ids)
    whole = "-180,-90,180,90"
    ids = front.ids("assets", bbox=whole, limit=1000)
    context.check("in the world", front.ids("assets", bbox=whole, filter="TRUE"), ids)
    beyond = asked.ask(PAGE, bbox="100,10,101,11", filter="TRUE").json()
    context.check("beyond all", (beyond["features"], beyond["numberMatched"]), ([], 0))


def check_values(context: Context, front: Front) -> None:
    """Parameters that are properties, and the properties that are shown."""
    kept = front.kept["assets"]
    for name, value, text in (
        ("no", 7, "7"),
        ("no", 7, "7.0"),
        ("name", "Linde", "Linde"),
        ("name", "", ""),
        ("lit", True, "true"),
        ("id", "A0007", "A0007"),
        ("height", 2**64 - 1, str(2**64 - 1)),
    ):
        wanted = [it["id"] for it in kept if is_value(it, name, value)]
        found = front.asked.client.get(front.asked.url + PAGE, params={name: text, "limit": 1000})
        ids = [it["id"] for it in json_of(found)["features"]]
        context.check(f"{name}={text}", ids, wanted)
    mixed = [it["id"] for it in kept if is_value(it, "mixed", 1) or is_value(it, "mixed", "1")]
    context.check("a property of two kinds", front.ids("assets", mixed="1", limit=90), mixed)
    breite = [it["id"] for it in kept if set_number_in((it["properties"] or {}).get("breite")) == 2]
    context.check("a type that is set", front.ids("assets", breite="2.0", limit=90), breite)
    both = front.ids("assets", lit="true", filter="no < 100", bbox="9,53,11,54", limit=90)
    wanted = [
        it["id"] for it in kept
        if it["geometry"] and is_value(it, "lit", True) and is_below(it, 100)
    ]  # fmt: skip
    context.check("values, a filter and a box", both, wanted)
    page = json_of(front.asked.ask(PAGE, properties="no,lit", limit=1000))
    shown = [
        it["properties"]
        and {name: it["properties"][name] for name in it["properties"] if name in ("no", "lit")}
        for it in kept
    ]
    context.check("chosen properties", [it["properties"] for it in page["features"]], shown)


def is_value(kept: Feature, name: str, value: Any) -> bool:
    found = kept["id"] if name == "id" else (kept["properties"] or {}).get(name)
    return found == value and isinstance(found, bool) == isinstance(value, bool)


def is_below(kept: Feature, bound: int) -> bool:
    number = number_in((kept["properties"] or {}).get("no"))
    return number is not None and number < bound


def sort_key(kept: Feature, name: str, sign: int) -> list[Any]:
    """How a feature is sorted by a property: numbers first, then texts, then true and false, each
    by itself in order, and what has none of these last."""
    value = kept["id"] if name == "id" else (kept["properties"] or {}).get(name)
    number = set_number_in(value) if name == "breite" else number_in(value)
    text = None if name == "breite" else text_in(value)
    truth = value if isinstance(value, bool) else None
    found: list[Any] = [number is None, sign * (number or 0), text is None]
    found += [tuple(sign * ord(it) for it in text or "") + ((1,) if sign < 0 else ())]
    return [*found, truth is None, sign * bool(truth)]


def check_orders(context: Context, front: Front) -> None:
    """Walks in orders of several keys, over pages of odd sizes."""
    kept = front.kept["assets"]
    for keys in (
        ["no"],
        ["-no"],
        ["-height", "name"],
        ["mixed", "-name"],
        ["-lit", "breite", "-id"],
    ):
        pairs = [(key.lstrip("-"), -1 if key.startswith("-") else 1) for key in keys]
        wanted = sorted(kept, key=lambda it: [sort_key(it, *pair) for pair in pairs])
        found = front.ids("assets", sortby=",".join(keys), limit=37)
        context.check(f"sorted by {keys}", found, [it["id"] for it in wanted])


@dataclass
class Writer(threading.Thread):
    """Inserts, replaces and deletes features of a collection, and keeps each state's values."""

    front: Front
    states: dict[int, dict[str, int]] = field(default_factory=dict)
    failed: list[Exception] = field(default_factory=list)

    def __post_init__(self) -> None:
        super().__init__(daemon=True)

    def __hash__(self) -> int:
        return id(self)

    def run(self) -> None:
        try:
            self.write()
        except Exception as fault:
            self.failed.append(fault)

    def write(self) -> None:
        chance, state = random.Random(7), dict(self.states[max(self.states)])
        pause = threading.Event()
        for number in range(WRITES):
            edits, name = [], f"W{chance.randint(0, 150):03}"
            if name in state and chance.random() < 0.5:
                edits.append({"op": "delete", "collection": "walked", "id": name})
                del state[name]
            else:
                op = "replace" if name in state else "insert"
                state[name] = chance.randint(0, 20)
                edits.append(edit(op, name, state[name]))
            self.states[self.front.post(batch(f"walk-{number}", edits))] = dict(state)
            pause.wait(0.03 if number % 12 else 0.6)


def edit(op: str, name: str, value: int) -> Feature:
    made = feature(name, shape("Point", [value, value]), {"rank": value})
    return {"op": op, "collection": "walked", "feature": made}


@dataclass(frozen=True)
class Walk:
    """Where a walk ended: the status of its last page, the serials of its pages, and what it
    showed."""

    status: int
    serials: list[int]
    shown: list[tuple[str, int]]


def walk(asked: Gateway, **parameters: Any) -> Walk:
    answer = asked.ask("/collections/walked/items", **parameters)
    serials, shown = [], []
    while answer.status_code == 200:
        page = answer.json()
        serials.append(page["serial"])
        shown += [(it["id"], it["properties"]["rank"]) for it in page["features"]]
        if (following := next_link(page)) is None:
            break
        answer = asked.client.get(following)
    return Walk(answer.status_code, serials, shown)


def check_walks(context: Context, front: Front) -> None:
    """While another writes, a walk shows one state whole, or is refused."""
    start = {f"W{number:03}": number % 20 for number in range(0, 150, 2)}
    edits = [opening("walked"), *(edit("insert", name, rank) for name, rank in start.items())]
    serial = front.post(batch("walk", edits))
    front.wait(serial)
    writer = Writer(front, {serial: start})
    writer.start()
    found: list[tuple[dict[str, str], Walk]] = []
    while writer.is_alive() or len(found) < 5:
        for parameters in ({"sortby": "-rank"}, {"filter": "rank >= 0"}):
            found.append((parameters, walk(front.asked, limit=20, **parameters)))
    writer.join()
    context.check("all writes", writer.failed, [])
    for parameters, made in found:
        if made.status == 200:
            states = writer.states[made.serials[0]]
            by_rank = sorted(states.items(), key=lambda it: (-it[1], it[0]))
            wanted = by_rank if "sortby" in parameters else sorted(states.items())
            context.check(f"a walk at serial {made.serials[0]}", made.shown, wanted)
        else:
            context.check("a walk that ends early", made.status, 410)
    ended = {made.status for _, made in found}
    context.check("walks that end, and walks that are refused", ended, {200, 410})
    check_serials(context, front)


def check_serials(context: Context, front: Front) -> None:
    """What a walk is answered, and that a write to another collection does not end it."""
    page = json_of(front.asked.ask("/collections/walked/items", sortby="rank", limit=20))
    following = next_link(page) or ""
    one = insert("lamps", feature("walk-1", None, {}))
    front.wait(front.post(batch("walk-other", [one])))
    other = front.asked.client.get(following)
    context.check("after a write elsewhere", other.status_code, 200)
    gone = {"op": "delete", "collection": "lamps", "id": "walk-1"}
    front.post(batch("walk-gone", [gone]))
    front.wait(front.post(batch("walk-own", [edit("insert", "Z", 5)])))
    moved = front.asked.client.get(following)
    found = moved.status_code, moved.json()["code"]
    context.check("after a write to it", found, (410, "state_moved_on"))
    serial = f"serial={page['serial']}"
    context.check("the serial of a page is in its link", serial in following, True)
    context.check(
        "without it", front.asked.client.get(following.replace(serial, "")).status_code, 200
    )
    later = front.asked.ask("/collections/walked/items", serial=str(10**9))
    refused = later.status_code, later.json()["code"], later.headers["retry-after"]
    context.check("a serial that is not there yet", refused, (503, "mirror_behind", "1"))
