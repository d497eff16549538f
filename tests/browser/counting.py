"""A view with more than is drawn shows its density by cells; a sheet for the printer."""

from harness import Context

from browser.browsers import browser
from browser.page import Page
from browser.site import site
from browser.taking import MANY, dots

LABELS = """
const all = [...document.querySelectorAll(".density-labels span")];
return all.reduce((sum, it) => sum + Number(it.textContent.replace(/[^0-9]/g, "")), 0);
"""
# What the page is like when the browser is to print it.
PRINTING = """
window.print = () => {
    const { width, height } = document.getElementById("map").getBoundingClientRect();
    const text = document.getElementById("sheet").innerText;
    const bar = document.querySelector(".scale").checkVisibility();
    const panel = document.getElementById("panel").checkVisibility();
    const state = document.getElementById("map").dataset.state;
    window.printed = { width, height, text, bar, panel, state };
};
"""
# How many requests for counts alone a view makes at most.
MOST_ASKED = 48
ASKED = """
const all = performance.getEntriesByType("resource").map((entry) => entry.name);
return all.filter((name) => name.includes("limit=1&") || name.endsWith("limit=1")).length;
"""


def density(context: Context) -> None:
    """The counts of the cells add up to all features; near by no counts are shown."""
    with site(context, "density") as made:
        dots(made)
        for size, shown in (((390, 844), "2,000"), ((1280, 800), "5,000")):
            with browser(*size, phone=size[0] < 800) as page:
                page.open(made.address)
                page.wait_shown("dots", f"{shown} of 5,200")
                context.check("the sum", page.until(MANY, lambda: int(page.script(LABELS))), MANY)
                count = page.script(ASKED)
                context.check("requests", 0 < count <= MOST_ASKED or count, True)
                page.look_at(100, 0, 3)
                page.wait("few features", lambda: "shown" not in page.text("#view-state"))
                context.check("none near by", page.script(LABELS), 0)
                sheet(context, page)


def sheet(context: Context, page: Page) -> None:
    """The sheet has the map alone, its scale, and as of when it is; then all is as it was."""
    page.script(PRINTING)
    page.tab("collections")
    page.click("#print")
    printed = page.wait("the sheet", lambda: page.script("return window.printed ?? null"))
    got = {name: printed[name] for name in ("width", "height", "bar", "panel", "state")}
    wanted = {"width": 1040, "height": 640, "bar": True, "panel": False, "state": "rests"}
    context.check("the sheet", got, wanted)
    text = printed["text"]
    context.check(
        "what it says", [it in text for it in ("Dots. Shown as of", "printed")], [True] * 2
    )
    page.wait("the page", lambda: page.one("#panel").is_displayed())


PARTS = (density,)
