"""The form and the dialogs: kinds of values, what is offered, two tabs, what is said and asked."""

from typing import Any

from harness import Context
from selenium.webdriver.common.by import By
from selenium.webdriver.common.keys import Keys
from selenium.webdriver.support.select import Select

from browser.browsers import browser
from browser.page import Page
from browser.sending import add_point
from browser.site import Site, site
from browser.towns import feature, insert, opened, point, quarter, town

OFFERED = "return [...document.querySelectorAll('#property-names option')].map(it => it.value)"
# Whether browsers, earlier ones too, would ask before the page is closed.
CLOSING = """
const event = document.createEvent("BeforeUnloadEvent");
event.initEvent("beforeunload", false, true);
dispatchEvent(event);
return event.defaultPrevented && event.returnValue !== "";
"""
SWATCHES = """
const rows = [...document.querySelectorAll("#panel-collections li[data-id]")];
const colour = (it) => getComputedStyle(it.querySelector(".swatch")).backgroundColor;
return Object.fromEntries(rows.map((it) => [it.dataset.id, colour(it)]));
"""
LINES = """
const range = document.createRange();
range.selectNodeContents(arguments[0]);
return range.getClientRects().length;
"""


def add_property(page: Page, name: str, value: str, kind: str | None = None) -> str:
    """Types a new property, and returns the kind that is shown for it."""
    page.press("Add a property")
    row = page.all(".properties tbody tr")[-1]
    row.find_element(By.CSS_SELECTOR, "td:nth-child(1) input").send_keys(name)
    field = row.find_element(By.CSS_SELECTOR, "td:nth-child(3) > *")
    field.send_keys(value)
    if field.tag_name == "input":
        field.send_keys(Keys.TAB)
    if kind is not None:
        Select(row.find_element(By.TAG_NAME, "select")).select_by_visible_text(kind)
    shown = Select(row.find_element(By.TAG_NAME, "select")).first_selected_option.text
    return str(shown)


def kinds(context: Context) -> None:
    """A new property has the kind that it has in other features, or else as it is typed."""
    lamp = point("K", 10_000, 10_000, height=5, lit=True)
    with site(context, "kinds-typed", town()) as made, browser() as page:
        made.edit("k", insert("lamps", lamp))
        page.open(made.address)
        page.wait_shown("lamps", "13")
        page.press("Point", "#tools")
        page.fill("#edit-id", "P")
        page.click_at(*page.view()[:2])
        typed = (
            ("height", "35", None, "number", 35),
            ("kind", "35", None, "text", "35"),
            ("lit", "no", None, "yes/no", False),
            ("count", "7", None, "number", 7),
            ("wet", "true", None, "yes/no", True),
            ("length", "3.5", None, "text", "3.5"),
            ("post", "01234", None, "text", "01234"),
            ("code", "35", "text", "text", "35"),
        )
        shown = [add_property(page, name, value, kind) for name, value, kind, _, _ in typed]
        context.check("the kinds are shown", shown, [kind for _, _, _, kind, _ in typed])
        page.press("Put in basket")
        page.wait("the basket", lambda: page.text("#basket-count") == "1")
        context.check("closing asks for a full basket", page.script(CLOSING), True)
        named(context, page, made)
        context.check("closing does not ask", page.script(CLOSING), False)
        sent = made.ask("/collections/lamps/items/P")["properties"]
        context.check("the values", sent, {name: value for name, _, _, _, value in typed})


def named(context: Context, page: Page, made: Site) -> None:
    """A name that keys cannot have: the dialog says what they can have, and stays."""
    page.tab("basket")
    page.click("#save")
    page.fill("dialog #user", "Анна")
    page.press("Save", "dialog")
    page.wait_text("dialog .problem", "Latin letters")
    page.fill("dialog #user", "Anna")
    page.press("Save", "dialog")
    page.wait("an empty basket", lambda: page.text("#basket-count") == "")
    page.wait_sent()
    context.check("the name in the key", made.relay.keys()[0][:5], "Anna:")


def offers(context: Context) -> None:
    """Names are those of the collection that is chosen, which is offered again the next time. A
    form with something in it is not left by itself."""
    with site(context, "offers", quarter()) as made, browser() as page:
        page.open(made.address)
        page.wait_shown("trees", "72")
        page.press("Line", "#tools")
        context.check("“Add” is one line", page.script(LINES, page.one(".typed button")), 1)
        page.choose("L010")
        page.press("Point", "#tools")
        Select(page.one("#edit-collection")).select_by_value("trees")
        trees = [it["feature"] for it in quarter()["edits"] if it["op"] == "insert"]
        names = {name for tree in trees if tree["id"][0] == "T" for name in tree["properties"]}
        context.check("the names of trees", set(page.script(OFFERED)), names)
        page.fill("#edit-id", "new-tree")
        stays(context, page, "typed")
        page.click_at(*page.view()[:2])
        page.wait("the vertex", lambda: page.all(".handle.vertex"))
        stays(context, page, "drawn")
        page.press("Put in basket")
        page.save()
        page.wait_sent()
        page.wait("the tree", lambda: made.ask("/collections/trees/items/new-tree")["id"])
        page.press("Point", "#tools")
        chosen = page.one("#edit-collection").get_attribute("value")
        context.check("the collection is offered again", chosen, "trees")


def stays(context: Context, page: Page, what: str) -> None:
    """“Find” leaves a form with something in it as it is, and says so."""
    page.script("document.getElementById('message').textContent = ''")
    page.tab("collections")
    page.fill("#search-id", "L010")
    page.press("Find")
    page.wait_text("#message", "Put the edit in the basket first")
    form = page.text("#panel-feature h2"), page.one("#edit-id").get_attribute("value")
    context.check(f"the form is there, {what}", form, ("New point", "new-tree"))


def vertices(context: Context) -> None:
    """If the positions are too many for handles, the form says so."""
    line = {"type": "LineString", "coordinates": [[n * 1000, n % 2 * 1000] for n in range(300)]}
    edits = [opened("ways", "Ways"), insert("ways", feature("W", line))]
    with site(context, "vertices", {"key": "w", "edits": edits}) as made, browser() as page:
        page.open(made.address)
        page.wait_shown("ways", "1")
        page.choose("W")
        page.press("Edit", "#panel-feature")
        page.wait_text("#panel-feature .geometry", "300 positions in view: zoom in")
        context.check("no handle", len(page.all(".handle.vertex")), 0)
        page.look_at(100, 0, 4)
        page.wait("handles", lambda: page.all(".handle.vertex"))
        context.check("no word", "zoom in" in page.text("#panel-feature .geometry"), False)


def two_forms(context: Context) -> None:
    """Two tabs have the form of one feature open: the later one is asked."""
    with site(context, "forms", town()) as made, browser() as page:
        page.open(made.address)
        page.driver.switch_to.new_window("tab")
        page.open(made.address)
        tabs = page.driver.window_handles
        for tab in tabs:
            page.driver.switch_to.window(tab)
            page.choose("L01")
            page.press("Edit", "#panel-feature")
        for tab, value in zip(tabs, ("first", "second")):
            page.driver.switch_to.window(tab)
            add_property(page, "note", value)
            page.press("Put in basket")
        page.wait_text("dialog", "Another tab of this page has edited it")
        parts = ("This form", "The other tab", "first", "second")
        shown = page.text("dialog")
        context.check("both are shown", [it in shown for it in parts], [True] * 4)
        page.press("Go on editing", "dialog")
        context.check("the form is there", page.text("#panel-feature h2"), "Edit L01")
        page.press("Put in basket")
        page.press("Take the other tab", "dialog")
        page.wait("no form", lambda: not page.all("form.editor"))
        page.save()
        page.wait_sent()
        sent = made.ask("/collections/lamps/items/L01")["properties"]
        context.check("the other tab's edit", sent["note"], "first")


def colours(context: Context) -> None:
    """A collection keeps its colour when others come; the first eight have different ones."""
    with site(context, "colours", town()) as made, browser() as page:
        page.open(made.address)
        page.wait_shown("lamps", "12")
        before = page.script(SWATCHES)["lamps"]
        names = ("arches", "benches", "cables", "drains", "hedges", "signs", "walls")
        made.edit("more", *(opened(name, name) for name in names))
        page.script("dispatchEvent(new Event('online'))")
        page.wait_shown("walls", "0")
        after: dict[str, Any] = page.script(SWATCHES)
        context.check("the same colour", after["lamps"], before)
        context.check("eight colours", len(set(after.values())), 8)
        add_point(page, "N")
        page.reload()
        page.wait_shown("walls", "0")
        context.check("after a reload", page.script(SWATCHES), after)


PARTS = (kinds, offers, vertices, two_forms, colours)
