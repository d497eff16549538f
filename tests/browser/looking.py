"""Viewing and requesting: what is drawn, pages of the view, switches, filter, search, address."""

import json
import statistics
from typing import Any
from urllib.parse import urlsplit

from harness import Context

from browser.browsers import browser
from browser.page import Page
from browser.site import Site, site
from browser.towns import feature, insert, opened, point, quarter, town

ORIGINS = """
const all = performance.getEntriesByType("resource").map((entry) => new URL(entry.name).origin);
return [...new Set(all)];
"""
STATE = """
const all = [...document.querySelectorAll("#panel-collections input")];
return all.map((field) => (field.type === "date" ? field.value : field.checked));
"""
DRAWN = """
return performance.getEntriesByName("page drawn").map((entry) => entry.duration / 1000);
"""
DROPPED = """
const loaded = performance.getEntriesByType("resource");
const asked = loaded.filter(({ name }) => name.includes("/items"));
return asked.filter((entry) => entry.responseStatus === 0).length;
"""
VERY_MANY = 100_000
EACH = 400
# So much of a processor's time a view takes at most.
MOST_SECONDS = 0.5


def drawn(context: Context) -> None:
    """The town and the quarter are drawn; the picture of the documents is made."""
    with site(context, "drawn", town()) as made, browser() as page:
        page.open(made.address)
        page.wait_shown("lamps", "12")
        page.look_at(36, 10, 4)
        page.wait_shown("lamps", "5")
        lamp = page.script(
            "return getComputedStyle(document.documentElement).getPropertyValue('--collection-1')"
        )
        wanted = [lamp.strip()] * 3
        seen = page.until(wanted, lambda: page.colours_at((24, 16), (36, 4), (48, 16)))
        context.check("the lamps are drawn", seen, wanted)
        page.click_at(24, 16)
        page.wait_text("#panel-feature h2", "L02")
        shown = page.text("#panel-feature")
        parts = ("Lamps", "kind", "lamp", "set: the day 2024-05-01, UTC", "24.000 16.000")
        context.check("what is known of it", [it in shown for it in parts], [True] * 5)
        context.check("nothing was refused by the browser", complaints(page), [])
        origins = page.script(ORIGINS)
        context.check("one origin", origins, [made.base])


def complaints(page: Page) -> list[str]:
    return [line for line in page.log() if "favicon" not in line]


def sample(context: Context) -> None:
    """The sample quarter: a hole, switches, filter, search, and the address that keeps them."""
    with site(context, "quarter", quarter()) as made, browser(1280, 880) as page:
        page.open(made.address)
        page.wait_shown("trees", "72")
        page.tab("collections")
        paper = page.script(
            "return getComputedStyle(document.documentElement).getPropertyValue('--paper')"
        )

        def park_and_pond() -> tuple[bool, str]:
            park, pond = page.colours_at((160, 160), (190, 130))
            return park != pond, pond

        wanted = True, paper.strip()
        context.check("the hole of the park", page.until(wanted, park_and_pond), wanted)
        page.click("li[data-id='parks'] input")
        page.wait("no park", lambda: page.colour_at(160, 160) == paper.strip())
        filtered(page, context)
        copied(page, context)
        address = page.driver.current_url
        with browser() as other:
            other.open(address)
            other.wait_text("#panel-feature h2", "L010")
            other.wait_shown("lamps", page.script(COUNT, "lamps"))
            state = other.script(STATE)
            context.check(
                "what was sent",
                state[:8],
                [True, True, False, True, True, True, "2020-01-01", "2024-12-31"],
            )
        moved_on(page, context, made)


COUNT = "return document.querySelector(`li[data-id='${arguments[0]}'] .count`).textContent"


def filtered(page: Page, context: Context) -> None:
    """The filter of days, and the search by id."""
    lamps = [
        it["feature"]
        for it in quarter()["edits"]
        if it.get("collection") == "lamps" and "feature" in it
    ]
    wanted = sum("2020-01-01" <= lamp["properties"]["set"] <= "2024-12-31" for lamp in lamps)
    set_day = "arguments[0].value = arguments[1]; arguments[0].dispatchEvent(new Event('change'))"
    page.script(set_day, page.one("#filter-from"), "2020-01-01")
    page.script(set_day, page.one("#filter-to"), "2024-12-31")
    page.wait_shown("lamps", str(wanted))
    page.wait_shown("streets", "0")
    page.choose("L010")
    context.check("found by id", "Street lamps" in page.text("#panel-feature"), True)
    page.tab("collections")
    page.fill("#search-id", "nothing")
    page.press("Find")
    page.wait_text("#message", "no feature with the id nothing")
    page.tab("feature")


def copied(page: Page, context: Context) -> None:
    """A feature is copied as GeoJSON."""
    grant = {"permissions": ["clipboardReadWrite", "clipboardSanitizedWrite"]}
    page.driver.execute_cdp_cmd("Browser.grantPermissions", grant)
    page.press("Copy as GeoJSON")
    page.wait_text("#message", "Copied")
    text = page.driver.execute_async_script("navigator.clipboard.readText().then(arguments[0])")
    wanted = next(
        it["feature"] for it in quarter()["edits"] if it.get("feature", {}).get("id") == "L010"
    )
    context.check("copied as GeoJSON", json.loads(text), wanted)


def kinds(context: Context) -> None:
    """All kinds of geometry are drawn, and described; HTML in texts is text."""
    html = "<img src=x onerror=\"document.title='struck'\"><b>bold</b>"
    line, other = [[0, 0], [9000, 9000]], [[20_000, 0], [29_000, 9000]]
    ring = [[40_000, 0], [49_000, 0], [49_000, 9000], [40_000, 0]]
    shapes: dict[str, Any] = {
        "MultiPoint": {"type": "MultiPoint", "coordinates": [[0, 20_000], [9000, 20_000]]},
        "LineString": {"type": "LineString", "coordinates": line},
        "MultiLineString": {"type": "MultiLineString", "coordinates": [line, other]},
        "MultiPolygon": {"type": "MultiPolygon", "coordinates": [[ring]]},
    }
    collection = {"type": "GeometryCollection", "geometries": list(shapes.values())}
    every = {**shapes, "GeometryCollection": collection}
    edits = [opened("kinds", html), insert("kinds", feature(html, None, {html: html}))]
    edits += [insert("kinds", feature(name, shape)) for name, shape in every.items()]
    with site(context, "kinds", {"key": "k", "edits": edits}) as made, browser() as page:
        page.open(made.address)
        page.wait_shown("kinds", "5")
        page.choose(html)
        shown = page.text("#panel-feature")
        context.check("HTML is text", shown.count(html), 4)
        context.check("no element came of it", len(page.all("img[src='x'], b")), 0)
        context.check("nothing ran", page.driver.title, "Street map")
        for name in every:
            page.choose(name)
            context.check(
                f"{name} is described", page.text("#panel-feature pre").startswith(name), True
            )
        context.check("no complaint", complaints(page), [])


def many(context: Context) -> None:
    """Of very many features of the program 5,000 are shown; a page of them is drawn within half a
    second. The short form has `panning` and `counting` for that."""
    if not context.slow:
        return
    count = VERY_MANY
    side = round(count**0.5) + 1
    batches = [{"key": "open", "edits": [opened("lamps", "Lamps")]}]
    for start in range(0, count, EACH):
        numbers = range(start, start + EACH)
        lamps = (point(f"{n:06}", n % side * 2000, n // side * 2000) for n in numbers)
        batches.append({"key": f"b{start}", "edits": [insert("lamps", lamp) for lamp in lamps]})
    with site(context, "many", *batches) as made, browser() as page:
        page.open(made.address)
        page.wait_text("#view-state", f"5,000 of {count:,} shown: zoom in")
        page.script("performance.clearMeasures()")
        times = [seconds_of_view(page, side * east, side * north) for east, north in VIEWS]
        drawn = page.wait("the pages", lambda: page.script(DRAWN))
        middle, most = statistics.median(drawn), max(times)
        print(f"  {len(drawn)} pages are drawn in {middle:.3f} s, a view in {most:.3f} s at most")
        context.check("the features of the view", page.text("#view-state"), "")
        # Of a busy machine's pages the middle one says most.
        context.check("the view moves", middle < MOST_SECONDS or drawn, True)


# As parts of the field of lamps, which has one each 2 m.
VIEWS = ((0.4, 0.4), (0.6, 1.2), (1.2, 0.6), (1.6, 1.6), (1.0, 1.0))


def seconds_of_view(page: Page, x: float, y: float) -> float:
    """How long the page's thread works to show the features of a view, by its processor's clock."""
    before = thread_seconds(page)
    page.look_at(round(x), round(y), 3)
    return thread_seconds(page) - before


def thread_seconds(page: Page) -> float:
    """The processor time that the page's thread has taken."""
    domain = {"timeDomain": "threadTicks"}
    page.driver.execute_cdp_cmd("Performance.enable", domain)
    metrics = page.driver.execute_cdp_cmd("Performance.getMetrics", {})["metrics"]
    return next(float(it["value"]) for it in metrics if it["name"] == "TaskDuration")


def moved_on(page: Page, context: Context, made: Site) -> None:
    """What was requested for a view that moved on is dropped."""
    page.go("about:blank")
    page.open(made.address)
    page.wait_shown("trees", "72")
    made.relay.hold()
    for step in range(1, 4):
        wanted = made.relay.held + 6
        page.script(f"location.hash = '#x={step * 1000}.000&y=300.000&z=1'")
        # One for each collection; the browser has no more at once.
        page.wait("requests", lambda: made.relay.held >= wanted)
    page.script("location.hash = '#x=210.000&y=140.000&z=1'")
    made.relay.let_go()
    page.wait_shown("trees", "72")
    dropped = page.until(True, lambda: int(page.script(DROPPED)) >= 18)
    context.check("requests that were dropped", dropped, True)


PARTS = (many, sample, drawn, kinds)
