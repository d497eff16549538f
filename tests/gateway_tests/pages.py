"""Pages: all of a query page by page, short pages, and walks by plain links."""

import http.server
import json
import threading
import urllib.parse
from typing import Any

from gateway_tests.data import KILOMETRE, collections, feature, shape
from gateway_tests.service import CRS84, EPSG, OFFICE, Gateway, gateway, next_link
from harness import Context

KERBS = "/collections/kerbs/items"


def check_pages(context: Context, asked: Gateway) -> None:
    """Whatever the limit is, the pages of a query hold the same features in the same order."""
    queries: list[dict[str, Any]] = [
        {},
        {"bbox": "9.5,53.3,10.5,53.8"},
        {"bbox": "9.5,53.3,10.5,53.8", "crs": OFFICE},
        {"bbox": "560000,5930000,570000.0005,5940000", "bbox_crs": OFFICE},
    ]
    for name in collections():
        for query in queries:
            whole = asked.all_items(name, limit=1000, **query)
            for limit in (3, 40):
                parts = asked.all_items(name, limit=limit, **query)
                context.check(f"{name} {query} by {limit}", parts, whole)
    counted = asked.ask(KERBS, limit=5).json()
    shown = (counted["numberMatched"], counted["numberReturned"], len(counted["features"]))
    context.check("counts without a box", shown, (60, 5, 5))
    box = "9.5,53.3,10.5,53.8"
    boxed = asked.ask(KERBS, limit=5, bbox=box).json()
    context.check("counts with a box", "numberMatched" in boxed, False)
    last = asked.ask(KERBS, limit=1000, bbox=box, after="K000").json()
    context.check("counts of a last page", "numberMatched" in last, False)
    check_matched(context, asked)
    default = asked.ask(KERBS).json()["numberReturned"]
    most = asked.ask("/collections/lamps/items", limit=99999).json()["numberReturned"]
    context.check("limits", (default, most), (10, 300))


def check_matched(context: Context, asked: Gateway) -> None:
    """A box that covers the extent of a collection needs no test, and one beyond it has nothing:
    both say how many features match, in each system."""
    boxes = {
        CRS84: ("-180,-90,180,90", "170,50,-170,60"),
        f"{EPSG}4326": ("50,0,58,20", "0,100,20,120"),
        f"{EPSG}3857": ("-20000000,-20000000,20000000,20000000", "0,0,1,1"),
        OFFICE: ("1.0001,1.0001,1000000.0001,9000000.0001", "1.0001,1.0001,2.0001,2.0001"),
    }
    for name, made in collections().items():
        count = sum(each["geometry"] is not None for each in made)
        for system, (wide, beyond) in boxes.items():
            path = f"/collections/{name}/items"
            for box, wanted in ((wide, count), (beyond, 0)):
                page = asked.ask(path, limit=5, bbox=box, bbox_crs=system).json()
                shown = (page.get("numberMatched"), page["numberReturned"])
                context.check(f"{name} in {box}", shown, (wanted, min(5, wanted)))


def check_times(context: Context, asked: Gateway) -> None:
    """Intervals alone and with a box; a date is a whole day."""
    times = "2020-01-01T00:00:00Z/.. ../2004-12-31T00:00:00Z 2007-05-01T12:00:00Z 2007-05-01"
    dates = "2007-05-02 2020-05-01/.. ../2004-05-01 /2004-04-30 2006-05-02/2009-05-01"
    for interval in [*times.split(), *dates.split(), "2007-05-01/2009-05-01T00:00:00Z"]:
        wanted = [each["id"] for each in collections()["lamps"] if is_within(each, interval)]
        found = asked.ids("lamps", datetime=interval, limit=50)
        context.check(f"lamps of {interval}", found, wanted)
        boxed = asked.ids("lamps", datetime=interval, bbox="9,53,10.5,54", limit=50)
        context.check(f"lamps of {interval} in a box", boxed, wanted)


def is_within(lamp: dict[str, Any], interval: str) -> bool:
    """By the texts of days, which order as their times do."""
    first, _, last = interval.partition("/")
    day = lamp["properties"]["set"]
    if not last:
        return bool(day == first[:10])
    return (first in ("", "..") or day >= first[:10]) and (last == ".." or day <= last[:10])


def check_walk(context: Context, server: str) -> None:
    """A walk goes on with a link `next` at another gateway, which shares nothing with the one that
    made it, and after a new start. Each has the same pages, and the walk is the whole."""
    query = {"limit": 7, "bbox": "9,53,10.5,54", "crs": OFFICE}
    with gateway(context, server) as first:
        whole = first.ids("kerbs", limit=1000, bbox=query["bbox"])
        page = first.ask(KERBS, **query).json()
        found = [each["id"] for each in page["features"]]
        with gateway(context, server) as second:
            while link := next_link(page):
                target = link.partition(KERBS)[2]
                pages = [each.ask(KERBS + target) for each in (first, second)]
                shown = [each.json()["features"] for each in pages]
                context.check(f"both from {target}", shown[0], shown[1])
                context.check("the same system", pages[1].headers["content-crs"], f"<{OFFICE}>")
                found += [each["id"] for each in shown[1]]
                page = pages[1].json()
    context.check("the walk", found, whole)
    with gateway(context, server) as again:
        rest = [each["id"] for each in again.ask(KERBS, after=found[-2]).json()["features"]]
        context.check("after a new start", rest[:1], found[-1:])


class StandIn(http.server.BaseHTTPRequestHandler):
    """Answers as the server would over `COUNT` lines of 100 km, and a point after them."""

    COUNT = 18_000
    asked = 0

    def do_GET(self) -> None:
        path, _, query = self.path.partition("?")
        self.answer(self.page(query) if path.endswith("/items") else COLLECTION)

    def page(self, text: str) -> dict[str, Any]:
        query = dict(urllib.parse.parse_qsl(text))
        begin, limit = int(query.get("after", "0")), int(query["limit"])
        ends = range(begin + 1, min(begin + limit, self.COUNT) + 1)
        made = [feature(f"{number:05}", LONG if number < self.COUNT else NEAR) for number in ends]
        links = [{"rel": "next"}] if ends.stop <= self.COUNT else []
        StandIn.asked += 1
        return {"features": made, "links": links, "numberMatched": self.COUNT}

    def answer(self, members: dict[str, Any]) -> None:
        body = json.dumps(members).encode()
        self.send_response(200)
        self.send_header("Content-Length", str(len(body)))
        self.end_headers()
        self.wfile.write(body)

    def log_message(self, *_words: Any) -> None:
        """Nothing is logged."""


LONG = shape("LineString", [[-50 * KILOMETRE, 0], [50 * KILOMETRE, 50 * KILOMETRE]])
NEAR = shape("Point", [-49 * KILOMETRE, 49 * KILOMETRE])
BOUNDS = [-50 * KILOMETRE, 0, 50 * KILOMETRE, 50 * KILOMETRE]
COLLECTION = {"id": "lines", "title": "lines", "extent": {"spatial": {"bbox": [BOUNDS]}}}


def check_short_pages(context: Context) -> None:
    """After 21 pages of the server without a feature that meets the box comes a short page with
    a `next`. A stand-in for the server has lines of 100 km around a box in degrees that they
    miss."""
    with http.server.ThreadingHTTPServer(("127.0.0.1", 0), StandIn) as server:
        threading.Thread(target=server.serve_forever, daemon=True).start()
        with gateway(context, f"http://127.0.0.1:{server.server_port}") as asked:
            path, box = "/collections/lines/items", "9.2,53.97,9.25,54.0"
            page = asked.ask(path, bbox=box, limit=1).json()
            shown = (page["numberReturned"], next_link(page) is not None, StandIn.asked)
            context.check("a short page", shown, (0, True, 21))
            found = asked.ids("lines", bbox=box, limit=1)
            context.check("all pages", found, [f"{StandIn.COUNT:05}"])
        server.shutdown()
