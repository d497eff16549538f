"""How fast a pan is drawn: a town of 100,000 features, on a processor that is slowed four times.

The server is a stand-in that answers from memory, since the time is the page's, and a file of that
size takes too long to fill. The browser's own brake slows the page's thread, and the best of some
pans counts. The time is printed. The long form requires 0.3 s, on a machine with no other work; the
short one requires no more than that the features come.
"""

import contextlib
import json
import random
import tempfile
import threading
import time
from collections.abc import Iterator
from http.server import BaseHTTPRequestHandler, ThreadingHTTPServer
from pathlib import Path
from typing import Any
from urllib.parse import parse_qs, urlsplit

from harness import Context, free_port

from browser.browsers import browser
from browser.page import Page
from browser.site import serve_map, site
from browser.standing import drag_map
from browser.towns import delete, town

COUNT = 100_000
# The sides, in millimetres, of the town's square and of the cells of a lookup.
SIDE, CELL = 1_000_000, 20_000
KINDS = ("trees", "trees", "lamps", "kerbs", "parcels")
# The most seconds that a pan takes, and the number of pans.
MOST_SECONDS, PANS = 0.3, 5
SLOWED = 4
# Street level: the pixels of a metre, as a power of two.
ZOOM = 3
# Notes how long it takes from the end of each pan to the frame that has all features of the view.
WATCH = """
const { dataset } = document.getElementById("map");
window.pans = [];
let begun = 0;
const note = (from) => requestAnimationFrame(() => {
    const { port1, port2 } = new MessageChannel();
    port1.onmessage = () => window.pans.push((performance.now() - from) / 1000);
    port2.postMessage("");
});
new MutationObserver(() => {
    if (dataset.state === "asks") begun ||= performance.now();
    else if (begun) [begun] = [0, note(begun)];
}).observe(document.getElementById("map"), { attributeFilter: ["data-state"] });
"""


def geometry(kind: str, x: int, y: int) -> dict[str, Any]:
    """A tree, a lamp, a kerb of six positions, or a parcel."""
    if kind == "kerbs":
        line = [[x + 1500 * step, y + step % 3 * 200] for step in range(6)]
        return {"type": "LineString", "coordinates": line}
    if kind == "parcels":
        ring = [[x, y], [x + 3000, y], [x + 3000, y + 2500], [x, y + 2500], [x, y]]
        return {"type": "Polygon", "coordinates": [ring]}
    return {"type": "Point", "coordinates": [x, y]}


class Town:
    """The texts of the features, by collection and cell. A feature is in the cell where it begins,
    and boxes are taken a little larger."""

    def __init__(self) -> None:
        chance = random.Random(7)
        self.cells: dict[tuple[str, int, int], list[str]] = {}
        for number in range(COUNT):
            kind = KINDS[number % len(KINDS)]
            x, y = chance.randrange(SIDE), chance.randrange(SIDE)
            properties = {"street": f"Street {number % 97}", "height": number % 30}
            feature = {
                "type": "Feature",
                "id": f"{kind[0]}{number:06}",
                "geometry": geometry(kind, x, y),
                "properties": properties,
            }
            self.cells.setdefault((kind, x // CELL, y // CELL), []).append(json.dumps(feature))

    def within(self, kind: str, box: list[int]) -> list[str]:
        x0, y0, x1, y1 = (min(SIDE, max(0, value)) // CELL for value in box)
        found: list[str] = []
        for x in range(x0, x1 + 1):
            for y in range(y0, y1 + 1):
                found += self.cells.get((kind, x, y), [])
        return found

    def answer(self, target: str) -> str:
        """The body of an answer to a path and query."""
        parts = urlsplit(target)
        if parts.path == "/collections":
            extent = {"spatial": {"bbox": [[0, 0, SIDE, SIDE]]}}
            named = [{"id": it, "title": it.title(), "extent": extent} for it in set(KINDS)]
            return json.dumps({"collections": named})
        words = {name: values[0] for name, values in parse_qs(parts.query).items()}
        found = self.within(parts.path.split("/")[2], list(map(int, words["bbox"].split(","))))
        start, limit = int(words.get("start", 0)), int(words["limit"])
        shown, links = found[start : start + limit], []
        if start + limit < len(found):
            query = f"bbox={words['bbox']}&limit={limit}&start={start + limit}"
            links.append({"rel": "next", "href": f"{parts.path}?{query}"})
        head = f'{{"numberMatched":{len(found)},"links":{json.dumps(links)},"features":['
        return head + ",".join(shown) + "]}"


@contextlib.contextmanager
def stand_in(context: Context) -> Iterator[str]:
    """The address of the map over the town."""
    town = Town()

    class Handler(BaseHTTPRequestHandler):
        protocol_version = "HTTP/1.1"

        def do_GET(self) -> None:
            body = town.answer(self.path).encode()
            self.send_response(200)
            self.send_header("Content-Type", "application/json")
            self.send_header("Content-Length", str(len(body)))
            self.end_headers()
            self.wfile.write(body)

        def log_message(self, *_: Any) -> None:
            pass

    server = ThreadingHTTPServer(("127.0.0.1", 0), Handler)
    threading.Thread(target=server.serve_forever, daemon=True).start()
    port = free_port()
    try:
        with tempfile.TemporaryDirectory(dir=context.folder) as folder:
            with serve_map.front(Path(folder), port, server.server_port):
                yield f"http://localhost:{port}/map/"
    finally:
        server.shutdown()
        server.server_close()


def pans(page: Page, pixels: int) -> list[float]:
    """Drags the map several times on a processor that is slowed. Gives how long each took from its
    end to the frame that has all features of the view."""
    page.script(WATCH)
    page.driver.execute_cdp_cmd("Emulation.setCPUThrottlingRate", {"rate": SLOWED})
    for number in range(PANS):
        drag_map(page, pixels)
        page.wait("the pan", lambda: page.script("return pans.length") > number)
    page.driver.execute_cdp_cmd("Emulation.setCPUThrottlingRate", {"rate": 1})
    return list(map(float, page.script("return pans")))


def town_of_many(context: Context) -> None:
    """A pan at street level is drawn, at a desk and on a phone; in the long form in time."""
    with stand_in(context) as address:
        for size in ((1280, 800), (390, 844)):
            with browser(*size, phone=size[0] < 800) as page:
                page.open(f"{address}#x=500.000&y=500.000&z={ZOOM}")
                page.wait("the view", lambda: page.script(RESTS))
                best = min(pans(page, size[0] // 4))
                print(f"  {size[0]} pixels: a pan is drawn in {best:.3f} s at best")
                is_asked = context.slow
                context.check("a pan is drawn", not is_asked or best <= MOST_SECONDS, True)


RESTS = "return document.getElementById('map').dataset.state === 'rests'"


def beside(context: Context) -> None:
    """What lies beside the view stays painted, and goes once the view is there again without it."""
    with site(context, "beside", town()) as made, browser() as page:
        page.open(made.address)
        page.wait_shown("lamps", "12")
        page.look_at(36, 10, 4)
        paper, lamp = (page.script(COLOUR, name) for name in ("paper", "collection-1"))
        pair = (36, 4), (24, 16)
        seen = page.until([lamp] * 2, lambda: page.colours_at(*pair))
        context.check("both lamps", seen, [lamp] * 2)
        drag_and_rest(page, 420)
        made.edit("gone", delete("lamps", "L02"))
        context.check("one is beside the view", page.at(24, 16)[0] < page.script(LEFT), True)
        context.check("the other is not", page.colours_at((36, 4)), [lamp])
        drag_and_rest(page, -420)
        seen = page.until([lamp, paper], lambda: page.colours_at(*pair))
        context.check("what is gone is not painted", seen, [lamp, paper])


COLOUR = """
return getComputedStyle(document.documentElement).getPropertyValue(`--${arguments[0]}`).trim();
"""
LEFT = "return document.getElementById('map').getBoundingClientRect().left"


def drag_and_rest(page: Page, pixels: int) -> None:
    """Drags the map, lets it come to rest before the button is released, and waits for its
    features."""
    before = page.view()
    left, top = page.at(*before[:2])
    page.mouse("mouseMoved", left, top)
    page.mouse("mousePressed", left, top, 1)
    for step in (pixels // 80, pixels):
        page.mouse("mouseMoved", left - step, top, 1)
    time.sleep(0.1)
    page.mouse("mouseReleased", left - pixels, top, 1)
    page.wait("the drag", lambda: page.view() != before and page.script(RESTS))


PARTS = (town_of_many, beside)
