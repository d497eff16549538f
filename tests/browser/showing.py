"""Labels and symbols by a property, their legend, and the search in what is kept on the device."""

import json
from pathlib import Path

from harness import Context

from browser.browsers import browser
from browser.looking import complaints
from browser.page import Page
from browser.site import Site, site
from browser.towns import insert, opened, point

RED, GREEN = "#c21e14", "#1e9c3c"
SYMBOLS = [
    {"value": "broken", "label": "Broken", "colour": RED, "shape": "square"},
    {"value": "good", "label": "<b>Good</b>", "colour": GREEN, "shape": "triangle"},
    {"value": 7, "label": "Seven", "colour": 3, "shape": "diamond"},
]
LABELS = "return Number(document.querySelector('canvas.labels').dataset.count ?? 0)"
# Whether something is drawn in a part of the canvas of labels, in pixels of the page.
INK = """
const [left, top, width, height] = arguments;
const canvas = document.querySelector("canvas.labels");
const ratio = devicePixelRatio;
if (canvas.width === 0) return false;
const box = document.getElementById("map").getBoundingClientRect();
const at = [left - box.left, top - box.top, width, height].map((it) => it * ratio);
return canvas.getContext("2d").getImageData(...at).data.some((it) => it > 0);
"""


def legends(context: Context) -> Path:
    described = {"label": "plate", "symbols": {"property": "state", "values": SYMBOLS}}
    place = context.folder / "legends.json"
    place.write_text(json.dumps({"collections": {"lamps": described}}))
    return place


def lamps(made: Site) -> None:
    """Three lamps 10 m apart, and one that has no symbol of its own."""
    states = {"A": "broken", "B": "good", "C": 7, "D": "other"}
    features = [
        point(name, 10_000 * place, 10_000, state=state, plate=f"plate {name}")
        for place, (name, state) in enumerate(states.items(), 1)
    ]
    made.edit("lamps", opened("lamps", "Lamps"), *(insert("lamps", it) for it in features))


def drawn(context: Context) -> None:
    """Each value has its symbol and each feature its label, at both sizes, from the first view."""
    with site(context, "symbols", place=legends(context)) as made:
        lamps(made)
        for size in ((390, 844), (1280, 800)):
            with browser(*size, phone=size[0] < 800) as page:
                page.open(made.address)
                page.wait_shown("lamps", "4")
                page.look_at(25, 10, 3)
                symbols(context, page)
                labels(context, page)
                legend(context, page)
                # The test itself reads the canvas.
                log = [line for line in complaints(page) if "willReadFrequently" not in line]
                context.check("nothing was refused by the browser", log, [])


def symbols(context: Context, page: Page) -> None:
    blue = "getComputedStyle(document.documentElement).getPropertyValue('--collection-3')"
    wanted = [RED, GREEN, str(page.script(f"return {blue}.trim()"))]
    places = ((10, 10), (20, 10), (30, 10))
    seen = page.until(wanted, lambda: page.colours_at(*places))
    context.check("the colours", seen, wanted)
    # A corner of the square, where a circle or a triangle has none.
    page.look_at(15, 10, 4)
    corners = [(x + 0.28, 10.28) for x, _ in places[:2]]
    paper = page.colour_at(13, 12)
    shapes = [False, True]
    shown = page.until(shapes, lambda: [it == paper for it in page.colours_at(*corners)])
    context.check("the shapes", shown, shapes)
    page.look_at(25, 10, 3)


def labels(context: Context, page: Page) -> None:
    page.wait("the labels", lambda: page.script(LABELS) == 4)
    left, top = page.at(10, 10)
    context.check("beside the point", page.script(INK, left + 9, top - 7, 30, 14), True)
    context.check("not before it", page.script(INK, left - 40, top - 7, 30, 14), False)
    page.look_at(25, 10, 0)
    context.check("none from afar", page.until(0, lambda: int(page.script(LABELS))), 0)


def legend(context: Context, page: Page) -> None:
    page.tab("collections")
    context.check("the legend", page.texts(".symbols li"), ["Broken", "<b>Good</b>", "Seven"])
    style = "return getComputedStyle(document.querySelector('.shape-square')).backgroundColor"
    context.check("its colour", page.script(style), "rgb(194, 30, 20)")


def found(context: Context) -> None:
    """Ids and properties of what is kept are searched, also with no network."""
    with site(context, "found") as made, browser() as page:
        lamps(made)
        page.open(made.address)
        page.wait_kept()
        page.wait_shown("lamps", "4")
        search(page, "PLATE")
        page.wait("all", lambda: len(page.all(".found li")) == 4)
        context.check("why", page.texts(".found li")[0], "A Lamps, plate: plate A")
        page.press("C", ".found")
        page.wait_text("#panel-feature h2", "C")
        page.network(False)
        made.stop()
        search(page, "broken")
        page.wait_text("#panel-feature h2", "A")
        search(page, "nothing like it")
        page.wait_text("#message", "There is no feature with")
        context.check("nothing", page.all(".found li"), [])


def search(page: Page, text: str) -> None:
    page.tab("collections")
    page.fill("#search-id", text)
    page.press("Find")


PARTS = (drawn, found)
