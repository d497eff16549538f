"""A phone of 390 by 844 pixels: the first view, the layout with a table, messages."""

import json

from harness import Context

from browser.browsers import browser
from browser.forms import LINES
from browser.page import SECONDS, Page
from browser.placing import degrees, table
from browser.sending import add_point
from browser.site import Site, site
from browser.towns import quarter

COUNTS = """
const rows = [...document.querySelectorAll("#panel-collections li[data-id]")];
const count = (it) => it.querySelector(".count").textContent;
return Object.fromEntries(rows.map((it) => [it.dataset.id, count(it)]));
"""
# The texts of what can be pressed, or lies on the map, and meets the first element.
MEETING = """
const box = document.querySelector(arguments[0]).getBoundingClientRect();
const meets = (it) => it.left < box.right && box.left < it.right && it.top < box.bottom
    && box.top < it.bottom;
return [...document.querySelectorAll(arguments[1])]
    .filter((it) => it.checkVisibility() && meets(it.getBoundingClientRect()))
    .map((it) => it.id || it.innerText || it.title);
"""
OUTSIDE = """
const all = [...document.querySelectorAll("#tools button, #place, #view-state, .leaflet-bar a")];
return all.filter((it) => {
    const { left, right } = it.getBoundingClientRect();
    return left < 0 || right > innerWidth || it.scrollWidth > it.clientWidth + 1;
}).map((it) => it.id || it.innerText);
"""
ROWS = """
const all = [...document.querySelectorAll("#tools button")].filter((it) => it.checkVisibility());
return new Set(all.map((it) => it.getBoundingClientRect().top)).size;
"""
# Takes the place of the device: the page's fixes come from the test.
DEVICE = "navigator.geolocation.watchPosition = (found) => { window.fix = found; return 1; }"
FIX = """
const [longitude, latitude, accuracy] = arguments;
fix({ coords: { longitude, latitude, accuracy } });
"""
PRESSED = "button, a, input, select, textarea"
# What is pressed where the message is: not the message.
UNDER = """
const { left, right, top, bottom } = document.getElementById("message").getBoundingClientRect();
return document.elementFromPoint((left + right) / 2, (top + bottom) / 2).closest("[id]").id;
"""
# The fields and buttons of the form that the screen's sides cut off.
CUT_OFF = """
return [...document.querySelectorAll("form.editor :is(input, select, button)")].filter((it) => {
    const { left, right } = it.getBoundingClientRect();
    return left < 0 || right > innerWidth;
}).map((it) => it.id || it.innerText || it.ariaLabel);
"""


def first_view(context: Context, page: Page) -> None:
    """The first view shows all features."""
    inserted = [it["collection"] for it in quarter()["edits"] if it["op"] == "insert"]
    wanted = {name: str(inserted.count(name)) for name in inserted}
    # A server that is busy may be silent at first: the page requests again.
    shown = page.until(wanted, lambda: dict(page.script(COUNTS)), SECONDS)
    context.check("the first view", shown, wanted)


def layout(context: Context, page: Page, made: Site) -> None:
    """With a table, nothing is cut off or covers another, also while the server is away."""
    page.wait("the button", lambda: page.one("#own-position").is_displayed())
    context.check("one row of buttons", page.script(ROWS), 1)
    page.look_at(200, 128, 1)
    port, made.relay.server = made.relay.server, None
    page.script("dispatchEvent(new Event('online'))")
    page.wait_text("#view-state", "Shown as of")
    on_map = "#tools button, .leaflet-bar a, #place"
    context.check("the view's state covers", page.script(MEETING, "#view-state", on_map), [])
    context.check("nothing is cut off", page.script(OUTSIDE), [])
    width = "return [document.documentElement.scrollWidth, innerWidth]"
    context.check("the width", page.script(width), [390, 390])
    made.relay.server = port
    page.script("dispatchEvent(new Event('online'))")
    page.wait("the server", lambda: page.text("#view-state") == "")


def position(context: Context, page: Page) -> None:
    """One's own position is announced once, and not with each fix."""
    where = [float(value) for value in degrees(200_000, 128_000)]
    page.script(DEVICE)
    page.one("#own-position").click()
    page.script(FIX, *where, 4)
    page.wait_text("#message", "good to 4 m")
    page.script("document.getElementById('message').textContent = ''")
    page.script(FIX, *where, 7)
    context.check("the next fix is silent", page.text("#message"), "")


def message(context: Context, page: Page, where: str) -> None:
    """A message covers nothing that can be pressed."""
    add_point(page, f"M-{where}")
    page.wait_text("#message", "is in the basket")
    for tab in ("basket", "queue", "collections"):
        page.tab(tab)
        covered = page.script(MEETING, "#message", PRESSED)
        context.check(f"the message covers, {where}, {tab}", covered, [])
    page.tab("basket")
    page.script("document.getElementById('message').textContent = 'word '.repeat(60)")
    context.check(f"a long one covers, {where}", page.script(MEETING, "#message", PRESSED), [])
    context.check(f"what is pressed under it, {where}", page.script(UNDER), "map")


def form(context: Context, page: Page) -> None:
    """The form fits; what it says over the map covers nothing, and goes with it."""
    page.press("Line", "#tools")
    page.wait_text("#message", "Press on the map")
    context.check("it covers, with the form", page.script(MEETING, "#message", PRESSED), [])
    page.press("Add a property")
    context.check("the form's sides", page.script(CUT_OFF), [])
    context.check("“Add” on a phone", page.script(LINES, page.one(".typed button")), 1)
    page.press("Cancel")
    context.check("it goes with the form", page.text("#message"), "")


def on_phone_and_desk(context: Context) -> None:
    place = context.folder / "phone.json"
    place.write_text(json.dumps(table()))
    with site(context, "phone", quarter(), place=place) as made:
        with browser(390, 844, phone=True) as page:
            page.open(made.address)
            first_view(context, page)
            layout(context, page, made)
            form(context, page)
            message(context, page, "phone")
            position(context, page)
        with browser() as page:
            page.open(made.address)
            message(context, page, "desk")


PARTS = (on_phone_and_desk,)
