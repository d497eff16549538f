"""Who reads it: names, roles, focus order, contrast, keyboard alone, a finger at 360 pixels."""

from collections.abc import Callable
from pathlib import Path
from typing import Any

from harness import Context
from selenium.webdriver.common.action_chains import ActionChains
from selenium.webdriver.common.keys import Keys

from browser.browsers import browser
from browser.page import Page
from browser.site import Site, site
from browser.towns import quarter

TABS = ("collections", "feature", "basket", "queue", "settings")
ROLES = (
    "application button checkbox combobox complementary Date dialog DisclosureTriangle group "
    "heading link option searchbox spinbutton switch tab tabpanel textbox"
).split()

# So long a tap is waited for.
TAP_SECONDS = 10
ASKED = Path(__file__).with_suffix(".js").read_text()


def asked(page: Page, function: str) -> Any:
    """What a function of reading.js answers."""
    return page.script(f"{ASKED}\nreturn {function}();")


def named(context: Context, page: Page, where: str) -> None:
    """All that takes the focus has a name and a role."""
    tree = page.driver.execute_cdp_cmd("Accessibility.getFullAXTree", {})["nodes"]
    nameless, roles = [], set()
    for node in tree:
        properties = {it["name"]: it["value"].get("value") for it in node.get("properties", [])}
        role = node.get("role", {}).get("value", "")
        if node.get("ignored") or not properties.get("focusable") or role == "RootWebArea":
            continue
        roles.add(role)
        if not node.get("name", {}).get("value", "").strip():
            nameless.append(role)
    context.check(f"names, {where}", nameless, [])
    context.check(f"roles, {where}", roles - set(ROLES), set())


def focus_order(context: Context, page: Page) -> None:
    """Tab goes the way of the document, through all that is there, and back to its start."""
    address = page.driver.current_url.partition("#")[0]
    page.driver.get("about:blank")
    page.open(address)
    page.wait_shown("trees", "72")
    seen: list[str] = []
    for _ in range(60):
        ActionChains(page.driver).send_keys(Keys.TAB).perform()
        name = asked(page, "focused")
        if name == "" or (seen and name == seen[0]):
            break
        seen.append(name)
    order = [
        "skip",
        "map",
        "Point",
        "Line",
        "Polygon",
        "tab-collections",
        "panel-collections",
        "filter-from",
        "filter-to",
        "search-id",
    ]
    places = [seen.index(name) if name in seen else -1 for name in order]
    context.check("focus order", (places == sorted(places) and -1 not in places) or seen, True)


def light_and_dark(context: Context) -> None:
    with site(context, "contrasts", quarter()) as made:
        for is_dark in (False, True):
            contrasts(context, made.address, is_dark)


def contrasts(context: Context, address: str, is_dark: bool) -> None:
    """Contrast is 4.5 to 1 for texts, 3 to 1 for symbols; names and roles in each tab."""
    theme = "dark" if is_dark else "light"
    with browser(dark=is_dark) as page:
        page.open(address)
        page.wait_shown("trees", "72")
        page.choose("P1")
        for tab in TABS:
            page.tab(tab)
            context.check(f"contrast, {theme}, {tab}", asked(page, "faintTexts"), [])
            if not is_dark:
                named(context, page, tab)
        page.tab("feature")
        page.press("Edit", "#panel-feature")
        context.check(f"contrast, {theme}, editor", asked(page, "faintTexts"), [])
        named(context, page, "editor")
        page.press("Cancel")
        page.press("Delete", "#panel-feature")
        page.tab("basket")
        page.one("#save").click()
        page.one("dialog #user")
        context.check(f"contrast, {theme}, dialog", asked(page, "faintTexts"), [])
        named(context, page, "dialog")
        page.press("Cancel", "dialog")
        context.check(f"contrast of symbols, {theme}", asked(page, "faintSymbols"), [])
        if not is_dark:
            focus_order(context, page)


def keys(page: Page, *pressed: str) -> None:
    for key in pressed:
        ActionChains(page.driver).send_keys(key).perform()


def keyboard_and_finger(context: Context) -> None:
    with site(context, "pointers", quarter()) as made:
        keyboard(context, made)
        finger(context, made)


def keyboard(context: Context, made: Site) -> None:
    """With the keyboard alone: a point is added, moved by a vertex, saved; a feature is chosen."""
    with browser() as page:
        page.open(made.address)
        page.wait_shown("trees", "72")
        page.look_at(50, 100, 4)
        page.script("document.querySelector('[data-add=Point]').focus()")
        keys(page, Keys.ENTER)
        context.check(
            "the map has the focus", page.script("return document.activeElement.id"), "map"
        )
        keys(page, Keys.ENTER)
        page.wait("the vertex", lambda: page.all(".handle.vertex"))
        page.script("document.querySelector('.handle.vertex').focus()")
        keys(page, Keys.ARROW_RIGHT, Keys.ARROW_UP, Keys.ARROW_UP)
        page.fill("#edit-id", "keys")
        keys(page, Keys.ENTER)
        page.wait("the basket", lambda: page.text("#basket-count") == "1")
        page.script("document.getElementById('save').focus()")
        keys(page, Keys.ENTER)
        page.one("dialog #user")
        keys(page, "Kim", Keys.ENTER)
        page.wait("the save", lambda: page.text("#basket-count") == "")
        page.wait_sent()
        sent = made.ask("/collections/kerbs/items/keys")["geometry"]["coordinates"]
        context.check("where it is", sent, [50_100, 100_200])
        page.script("document.getElementById('map').focus()")
        page.look_at(50.1, 100.2, 4)
        keys(page, Keys.ENTER)
        page.wait_text("#panel-feature h2", "keys")


def touch(page: Page, x: float, y: float, what: str, came: Callable[[], Any]) -> None:
    """A tap of a finger, in pixels of the window, and what comes of it. On a busy machine it may
    last too long for a tap: then another follows."""

    def touched() -> Any:
        send = page.driver.execute_cdp_cmd
        send("Input.dispatchTouchEvent", {"type": "touchStart", "touchPoints": [{"x": x, "y": y}]})
        send("Input.dispatchTouchEvent", {"type": "touchEnd", "touchPoints": []})
        return page.until(True, lambda: bool(came()), TAP_SECONDS)

    page.wait(what, touched)


def finger(context: Context, made: Site) -> None:
    """On a phone of 360 pixels: nothing is cut off, and a finger adds and chooses a point."""
    with browser(360, 740, phone=True) as page:
        page.open(made.address)
        page.wait(
            "the trees",
            lambda: page.script(
                "return document.querySelector(\"li[data-id='trees'] .count\").textContent"
            ),
        )
        width = "return [document.documentElement.scrollWidth, innerWidth]"
        for tab in TABS:
            page.tab(tab)
            context.check(f"width, {tab}", page.script(width), [360, 360])
            context.check(f"as large as a finger asks, {tab}", asked(page, "smallTargets"), [])
        page.look_at(50, 100, 4)
        page.press("Point", "#tools")
        touch(page, *page.at(51, 101), "the vertex", lambda: page.all(".handle.vertex"))
        page.fill("#edit-id", "finger")
        page.press("Put in basket")
        page.save("Kim")
        page.wait_sent()
        x, y = made.ask("/collections/kerbs/items/finger")["geometry"]["coordinates"]
        context.check("where it is", (abs(x - 51_000) < 200, abs(y - 101_000) < 200), (True, True))
        page.look_at(50, 100, 4)
        left, top = page.at(x / 1000, y / 1000)
        chosen = lambda: "finger" in page.text("#panel-feature h2")
        touch(page, left + 12, top, "the choice", chosen)


PARTS = (light_and_dark, keyboard_and_finger)
