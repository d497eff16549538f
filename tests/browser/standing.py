"""Here I am: the map follows, points are placed there or under the crosshair, accuracy is kept."""

import json
from pathlib import Path
from typing import Any

from harness import Context

from browser.browsers import browser
from browser.drawing import UNREACHED
from browser.editing import near, positions, put_in_basket, type_positions
from browser.page import Page
from browser.phone import MEETING, OUTSIDE
from browser.placing import degrees, table
from browser.site import Site, site
from browser.towns import quarter

FIELDS = [{"name": "accuracy", "label": "Accuracy", "type": "decimal", "from": "accuracy"}]
CROSSHAIR = """
const cross = document.getElementById("crosshair");
const middle = (it) => [it.left + it.width / 2, it.top + it.height / 2];
const [x, y] = middle(cross.getBoundingClientRect());
const [left, top] = middle(document.getElementById("map").getBoundingClientRect());
const near = Math.abs(x - left) < 1.5 && Math.abs(y - top) < 1.5;
return [getComputedStyle(cross).visibility, near];
"""


def placed(context: Context, name: str) -> Path:
    """A file map.json with the table that places the grid, and a field of the accuracy."""
    place = context.folder / f"{name}.json"
    place.write_text(json.dumps(table() | {"collections": {"trees": {"fields": FIELDS}}}))
    return place


def stand(page: Page, x: float, y: float, accuracy: float = 4) -> None:
    """The device is at a place of the map, in metres."""
    longitude, latitude = (float(value) for value in degrees(x * 1000, y * 1000))
    where = {"longitude": longitude, "latitude": latitude, "accuracy": accuracy}
    page.driver.execute_cdp_cmd("Emulation.setGeolocationOverride", where)


def is_at(page: Page, x: float, y: float) -> bool:
    middle_x, middle_y, _ = page.view()
    return abs(middle_x - x) < 0.05 and abs(middle_y - y) < 0.05


def opened_at(page: Page, made: Site, x: float, y: float) -> None:
    page.driver.execute_cdp_cmd("Browser.grantPermissions", {"permissions": ["geolocation"]})
    stand(page, x, y)
    page.open(made.address)
    page.wait("the button", lambda: page.one("#own-position").is_displayed())


def here(context: Context) -> None:
    place = placed(context, "here")
    with site(context, "here", quarter(), place=place) as made:
        with browser() as page:
            opened_at(page, made, 200, 128)
            follows(context, page)
            at_position(context, page, made, "desk")
        with browser(390, 844, phone=True) as page:
            opened_at(page, made, 240, 150)
            at_position(context, page, made, "phone")
            crosshair(context, page, made)
            outside(context, page)


def follows(context: Context, page: Page) -> None:
    """The map follows until it is dragged, and again on request."""
    page.one("#own-position").click()
    page.wait("the position", lambda: is_at(page, 200, 128))
    stand(page, 210, 130)
    context.check("it follows", page.until(True, lambda: is_at(page, 210, 130)), True)
    drag_map(page, 60)
    dragged = page.view()
    stand(page, 220, 131)
    page.wait("the drawn position", lambda: page.colours_at((220, 131))[0] == own_colour(page))
    context.check("it stays where it was dragged", page.view(), dragged)
    page.one("#own-position").click()
    context.check("it follows again", page.until(True, lambda: is_at(page, 220, 131)), True)
    page.one("#own-position").click()
    pressed = page.one("#own-position").get_attribute("aria-pressed")
    context.check("it is switched off", pressed, "false")


def own_colour(page: Page) -> str:
    style = "return getComputedStyle(document.documentElement).getPropertyValue('--own').trim()"
    return str(page.script(style))


def drag_map(page: Page, pixels: int) -> None:
    before = page.view()
    left, top = page.at(*before[:2])
    page.mouse("mouseMoved", left, top + 40)
    page.mouse("mousePressed", left, top + 40, 1)
    for step in (5, pixels):
        page.mouse("mouseMoved", left - step, top + 40, 1)
    page.mouse("mouseReleased", left - pixels, top + 40, 1)
    page.wait("the drag", lambda: page.view() != before)


def new_tree(page: Page, tool: str, name: str) -> None:
    """The form for a tree, which is the collection that was worked on last."""
    page.choose("T010")
    page.press(tool, "#tools")
    page.fill("#edit-id", name)


def at_position(context: Context, page: Page, made: Site, name: str) -> None:
    """A point is placed where one is. Its accuracy is shown and kept, until it is moved by hand."""
    stand(page, 205, 140, 3.21)
    new_tree(page, "Point", name)
    page.press("At my position")
    page.wait_text("#message", "Placed at your position, good to 4 m")
    context.check("its accuracy is shown", "good to 4 m" in page.text(".geometry .what"), True)
    put_in_basket(page)
    page.save()
    page.wait_sent()
    tree = made.ask(f"/collections/trees/items/{name}")
    context.check(f"its accuracy is kept, {name}", tree["properties"], {"accuracy": "3.3"})
    at = [value / 1000 for value in tree["geometry"]["coordinates"]]
    context.check(f"where one is, {name}", near(at, [205, 140]) or at, True)
    new_tree(page, "Point", f"{name}-moved")
    page.press("At my position")
    page.wait("the handle", lambda: page.all(".handle.vertex"))
    type_positions(page, "206")
    context.check("moved by hand", "good to" in page.text(".geometry .what"), False)
    put_in_basket(page)
    page.save()
    page.wait_sent()
    moved = made.ask(f"/collections/trees/items/{name}-moved")["properties"]
    context.check(f"no accuracy of a place by hand, {name}", moved, None)


def crosshair(context: Context, page: Page, made: Site) -> None:
    """On a phone the map is moved under a crosshair: a point, and a line."""
    new_tree(page, "Point", "crossed")
    page.look_at(150, 100, 3)
    context.check("the crosshair", page.script(CROSSHAIR), ["visible", True])
    context.check("each button can be pressed", page.script(UNREACHED), [])
    context.check("nothing is cut off", page.script(OUTSIDE), [])
    context.check("the message covers", page.script(MEETING, "#message", "main button"), [])
    page.press("Place here", "#placing")
    context.check("under it", near(positions(page), [150, 100]) or positions(page), True)
    context.check("it goes", page.script(CROSSHAIR)[0], "hidden")
    put_in_basket(page)
    new_tree(page, "Line", "crossed-line")
    places: tuple[Any, ...] = ((150, 100), (160, 105), (170, 100))
    for x, y in places:
        page.look_at(x, y, 3)
        page.press("Place here", "#placing")
    page.click("#undo")
    page.press("Finish", "#placing")
    context.check("a line", near(positions(page), [150, 100, 160, 105]) or positions(page), True)
    put_in_basket(page)
    page.save()
    page.wait_sent()
    kept = made.features("trees")["crossed-line"]["geometry"]["type"]
    context.check("a line is sent", kept, "LineString")


def outside(context: Context, page: Page) -> None:
    """Where the office's map does not reach, nothing is placed, and the page says so."""
    page.driver.execute_cdp_cmd(
        "Emulation.setGeolocationOverride", {"longitude": 0, "latitude": 0, "accuracy": 4}
    )
    new_tree(page, "Point", "nowhere")
    page.press("At my position")
    page.wait_text("#message", "You are outside of the office's map.")
    context.check("nothing was placed", page.all(".handle.vertex"), [])
    page.press("Cancel")


PARTS = (here,)
