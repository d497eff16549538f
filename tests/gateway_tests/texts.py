"""Texts of features beside a plain reader: what is no coordinate stays as the server wrote it."""

import copy
import json
import random
import sys
from collections.abc import Iterable, Sequence
from decimal import Decimal
from typing import Any

from gateway_tests.answers import positions
from gateway_tests.data import collections, feature, shape
from gateway_tests.service import ROOT
from harness import Context

sys.path.append(str(ROOT))

from gateway.boxes import Box  # noqa: E402
from gateway.features import transformed_texts, read_page  # noqa: E402
from gateway.systems import Position, System  # noqa: E402

SHIFT = (0.25, 1000.5)
PAGES = 300
# Texts and members that resemble parts of a page.
LURES = ('{"geometry":', ',"id":', '],"links":[', '{"features":[', '},"|",{', "\\", '"', "\n ü")
NESTED = {"geometry": {"coordinates": [1, 2], "type": "Point"}, "id": "x", "links": [], "type": 1}


class Shifted(System):
    """Adds to both coordinates."""

    def coordinates(self, positions: Sequence[Position]) -> Iterable[tuple[float, float]]:
        return [(x + SHIFT[0], y + SHIFT[1]) for x, y, *_ in positions]

    def nearest(self, coordinates: Sequence[tuple[Decimal, Decimal]]) -> list[tuple[int, int]]:
        raise NotImplementedError

    def own_box(self, bounds: Sequence[Decimal]) -> Box:
        raise NotImplementedError


def written(value: Any) -> str:
    """JSON as the server writes it."""
    return json.dumps(value, ensure_ascii=False, sort_keys=True, separators=(",", ":"))


def properties(source: random.Random) -> Any:
    """Properties that may hold what resembles a feature."""
    lures = {lure: lure * source.randrange(3) for lure in source.sample(LURES, 3)}
    nested = {"deep": [NESTED, {"features": [NESTED]}]} if source.random() < 0.1 else {}
    return source.choice((None, {}, lures, lures | nested, nested))


def made_page(source: random.Random) -> dict[str, Any]:
    """A page of features of all kinds, and of points with what resembles more."""
    kept = [each for made in collections().values() for each in made]
    kept.append(feature("line", shape("LineString", [[1, 2, 3], [4, 5, 6]])))
    shown = copy.deepcopy(source.sample(kept, source.randrange(8)))
    for each in shown:
        each["id"] += source.choice(("", *LURES))
        each["properties"] = properties(source)
    links = [{"href": "http://a/?b=c", "rel": source.choice(("self", "next"))}]
    counts = {"numberMatched": len(kept), "numberReturned": len(shown)}
    return {"features": shown, "links": links, "type": "FeatureCollection", **counts}


def check_texts(context: Context) -> None:
    """Pages as the server writes them, and with white space, which other servers may write."""
    source = random.Random(14)
    for number in range(PAGES):
        made = made_page(source)
        own = [written(each) for each in made["features"]]
        for text in (written(made), json.dumps(made)):
            page = read_page(text.encode())
            shown = (page.matched, page.goes_on, [each.id for each in page.features])
            goes_on = made["links"][0]["rel"] == "next"
            wanted = (made["numberMatched"], goes_on, [each["id"] for each in made["features"]])
            context.check(f"page {number}", shown, wanted)
            texts = transformed_texts(page.features, Shifted("", False))
            context.check(f"page {number}: texts", list(map(back, texts)), own)


def back(text: str) -> str:
    """The text with its positions shifted back. It has to be what the server would write."""
    read = json.loads(text)
    assert json.dumps(read, ensure_ascii=False, separators=(",", ":")) == text, text
    for position in positions(read):
        x, y, *heights = position
        place = [int(x - SHIFT[0]), int(y - SHIFT[1])]
        position[:] = place + [round(height * 1000) for height in heights]
    return written(read)
