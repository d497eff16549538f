"""While one draws: measures, vertices that are snapped to, undo and redo; and undo in the basket."""

import re

from harness import Context
from selenium.webdriver.common.action_chains import ActionChains
from selenium.webdriver.common.keys import Keys

from browser.browsers import browser
from browser.editing import near, positions, put_in_basket
from browser.page import Page
from browser.phone import OUTSIDE
from browser.site import Site, site
from browser.towns import town

# The buttons over the map that cannot be pressed in their middle: another covers them.
UNREACHED = """
const all = [...document.querySelectorAll("main button, main .leaflet-bar a")];
return all.filter((it) => it.checkVisibility() && !it.closest("[hidden]")).filter((it) => {
    const { left, right, top, bottom } = it.getBoundingClientRect();
    return !it.contains(document.elementFromPoint((left + right) / 2, (top + bottom) / 2));
}).map((it) => it.id || it.innerText || it.title);
"""
# What lies over the crosshair or meets it.
CROSSED = """
const box = document.getElementById("crosshair").getBoundingClientRect();
const all = [...document.querySelectorAll("#above button, #above p, #place, #message")];
return all.filter((it) => it.checkVisibility() && it.innerText !== "").filter((it) => {
    const { left, right, top, bottom } = it.getBoundingClientRect();
    return left < box.right && box.left < right && top < box.bottom && box.top < bottom;
}).map((it) => it.id || it.innerText);
"""
# A lamp of the town, in metres.
LAMP = (36.0, 4.0)


def chord(page: Page, *held_and_key: str) -> None:
    """Presses keys together: the last one while the others are held."""
    *held, key = held_and_key
    chain = ActionChains(page.driver)
    for one in held:
        chain.key_down(one)
    chain.send_keys(key)
    for one in held:
        chain.key_up(one)
    chain.perform()


def count(page: Page) -> int:
    """How many positions the form counts."""
    found = page.text("#panel-feature .geometry [role=status]").split()
    return int(found[0]) if found else 0


def at_desk(context: Context) -> None:
    """A line is measured while it is drawn; its steps go back and forth by keys and by buttons."""
    with site(context, "drawing", town()) as made, browser() as page:
        page.open(made.address)
        page.look_at(36, 10, 4)
        page.press("Line", "#tools")
        page.click_at(30, 20)
        page.click_at(34, 20)
        left, top = page.at(34, 23)
        page.mouse("mouseMoved", round(left), round(top))
        measures(context, page, "#measure", 7)
        measures(context, page, ".geometry [role=status]", 4)
        context.check("each button can be pressed", page.script(UNREACHED), [])
        steps(context, page)
        snaps(context, page)
        in_basket(context, page, made)


def measures(context: Context, page: Page, selector: str, wanted: float) -> None:
    """A text says how long the line is, in metres."""
    text = page.text(selector)
    found = re.search(r"([\d.]+) m long", text)
    length = float(found[1]) if found else 0
    context.check(f"the length in {selector}", abs(length - wanted) < 0.15 or text, True)


def steps(context: Context, page: Page) -> None:
    """Undo and redo while one draws, over the end of the sketch, and of what is moved."""
    chord(page, Keys.CONTROL, "z")
    context.check("undone by keys", count(page), 1)
    page.click("#undo")
    context.check("undone by the button", count(page), 0)
    disabled = "return document.getElementById(arguments[0]).disabled"
    context.check("no more to undo", page.script(disabled, "undo"), True)
    chord(page, Keys.CONTROL, "y")
    chord(page, Keys.CONTROL, Keys.SHIFT, "z")
    context.check("redone by keys", count(page), 2)
    page.press("Finish")
    page.wait("the handles", lambda: len(page.all(".handle.vertex")) == 2)
    page.drag((34, 20), (34, 25))
    page.wait("the drag", lambda: near(positions(page), [30, 20, 34, 25]))
    measures(context, page, ".geometry .what", 6.4)
    chord(page, Keys.CONTROL, "z")
    context.check("the drag is undone", near(positions(page), [30, 20, 34, 20]), True)
    chord(page, Keys.CONTROL, "z")
    context.check("the end is undone", (count(page), page.all(".handle.vertex")), (2, []))
    page.click("#redo")
    page.click("#redo")
    context.check("both are redone", near(positions(page), [30, 20, 34, 25]), True)


def snaps(context: Context, page: Page) -> None:
    """A corner that is dragged near a lamp goes to it; a press does too, unless it is off."""
    page.drag((30, 20), (LAMP[0] + 0.25, LAMP[1] - 0.25))
    page.wait("a corner on the lamp", lambda: positions(page)[:2] == [*LAMP])
    page.press("Cancel")
    for is_on in (True, False):
        page.press("Point", "#tools")
        pressed = page.one("#snap").get_attribute("aria-pressed")
        context.check("the button says so", pressed, str(is_on).lower())
        page.click_at(LAMP[0] + 0.5, LAMP[1])
        context.check(f"a point by the lamp, {is_on}", positions(page) == [*LAMP], is_on)
        page.click("#snap")
        page.press("Cancel")
    page.press("Point", "#tools")
    kept = page.one("#snap").get_attribute("aria-pressed")
    context.check("on again", kept, "true")
    page.press("Cancel")


def basket(page: Page) -> list[str]:
    return page.texts("#panel-basket li.edit .link")


def in_basket(context: Context, page: Page, made: Site) -> None:
    """Edits of the basket go back and forth by keys and by buttons, also after a reload, until they
    are saved."""
    for name in ("L01", "L02"):
        page.choose(name)
        page.press("Delete", "#panel-feature")
        page.wait("the basket", lambda: name in basket(page))
    page.script("document.activeElement.blur()")
    chord(page, Keys.CONTROL, "z")
    context.check("undone by keys", page.until(["L01"], lambda: basket(page)), ["L01"])
    context.check("it says so", "Undone: L02." in page.text("#message"), True)
    page.reload()
    page.tab("basket")
    page.click("#basket-undo")
    context.check("undone by the button", page.until(0, lambda: len(basket(page))), 0)
    page.click("#basket-redo")
    chord(page, Keys.CONTROL, "y")
    both = ["L01", "L02"]
    context.check("redone", page.until(both, lambda: basket(page)), both)
    page.press("Take out", "#panel-basket")
    context.check("taken out", page.until(["L02"], lambda: basket(page)), ["L02"])
    chord(page, Keys.CONTROL, "z")
    context.check("it is back", page.until(both, lambda: basket(page)), both)
    page.save()
    page.wait_sent()
    lamps = made.features("lamps")
    context.check("both are deleted", [name in lamps for name in both], [False, False])
    chord(page, Keys.CONTROL, "z")
    page.wait_text("#message", "There is nothing to undo.")


def on_phone(context: Context) -> None:
    """Under the crosshair: measures, vertices, undo and redo; each button can be pressed."""
    with site(context, "drawing-phone", town()) as made, browser(390, 844, phone=True) as page:
        page.open(made.address)
        page.look_at(36, 20, 4)
        page.press("Line", "#tools")
        page.press("Place here", "#placing")
        page.look_at(36, 24, 4)
        measures(context, page, "#measure", 4)
        page.look_at(LAMP[0] + 0.5, LAMP[1] - 0.5, 4)
        page.press("Place here", "#placing")
        page.script("document.getElementById('message').textContent = ''")
        context.check("each button can be pressed", page.script(UNREACHED), [])
        context.check("over the crosshair", page.script(CROSSED), [])
        context.check("cut off", page.script(OUTSIDE), [])
        page.click("#undo")
        page.click("#undo")
        page.click("#redo")
        context.check("one position", count(page), 1)
        page.click("#redo")
        page.press("Finish", "#placing")
        page.wait("the line", lambda: len(positions(page)) == 4)
        drawn = positions(page)
        context.check("where it begins", near(drawn[:2], [36, 20]) or drawn, True)
        context.check("it ends at the lamp's vertex", drawn[2:], [*LAMP])
        context.check("each button, drawn", page.script(UNREACHED), [])
        put_in_basket(page)
        page.tab("basket")
        page.click("#basket-undo")
        context.check("an empty basket", page.until("", lambda: page.text("#basket-count")), "")


PARTS = (at_desk, on_phone)
