"""Changes of others: merged by property, asked if both changed the same, and nothing else waits."""

from typing import Any

from harness import Context
from selenium.webdriver.common.by import By

from browser.browsers import browser
from browser.editing import positions, put_in_basket, type_positions
from browser.page import Page
from browser.phone import CUT_OFF
from browser.site import Site, site
from browser.towns import point, replace, town

FOCUSED = "return document.activeElement?.id ?? ''"
DIALOG_CUT_OFF = CUT_OFF.replace("form.editor", "dialog")


def change(page: Page, name: str, east: float = 0, **values: str) -> None:
    """Moves a lamp to the east, and gives properties other values; into the basket."""
    page.choose(name)
    page.press("Edit", "#panel-feature")
    if east:
        type_positions(page, str(positions(page)[0] + east))
    for row in page.all(".properties tbody tr"):
        cells = row.find_elements(By.CSS_SELECTOR, "input")
        value = values.get(cells[0].get_attribute("value"))
        if value is not None:
            cells[-1].clear()
            cells[-1].send_keys(value)
    put_in_basket(page)


def theirs(made: Site, name: str, **values: Any) -> Any:
    """Another client changes properties of a lamp where it is. Returns the lamp."""
    lamp = made.features("lamps")[name]
    x, y = lamp["geometry"]["coordinates"]
    changed = point(name, x, y, **(lamp["properties"] | values))
    made.edit(f"theirs-{name}", replace("lamps", changed))
    return changed


def merged(context: Context) -> None:
    """I move a lamp and another gives it a property: both hold, and nobody is asked."""
    with site(context, "merged", town()) as made, browser() as page:
        page.open(made.address)
        change(page, "L01", east=0.5)
        lamp = theirs(made, "L01", state="worn")
        page.save()
        page.wait_sent()
        x, y = lamp["geometry"]["coordinates"]
        wanted = point("L01", x + 500, y, **lamp["properties"])
        context.check("both changes", made.features("lamps")["L01"], wanted)
        change(page, "L02", kind="mast")
        theirs(made, "L02", kind="mast")
        page.save()
        page.wait_sent()
        context.check("nothing was sent twice", len(made.relay.accepted()), 1)
        page.tab("queue")
        page.wait_text("#panel-queue", "1 edit made by another already")


def asked(context: Context) -> None:
    """Two properties that both changed wait for the user, and hold up their own feature alone."""
    for size in ((390, 844), (1280, 800)):
        with site(context, f"asked-{size[0]}", town()) as made:
            with browser(*size, phone=size[0] < 800) as page:
                page.open(made.address)
                change(page, "L01", kind="mine", set="2024-01-01")
                theirs(made, "L01", kind="theirs", set="2025-05-05", state="worn")
                page.save()
                page.wait_text("#queue-state", "decide between two changes")
                passed(context, page, made)
                decide(context, page, made)


def passed(context: Context, page: Page, made: Site) -> None:
    """A batch that touches another feature is sent meanwhile, one that touches it is not."""
    change(page, "L03", kind="passed")
    page.save()
    page.wait("the other batch", lambda: len(made.relay.accepted()) == 1)
    change(page, "L01", east=1)
    page.save()
    page.tab("queue")
    page.wait_text("#panel-queue", "Waits for the batch before it")
    kind = made.features("lamps")["L03"]["properties"]["kind"]
    context.check("it passed the open one", kind, "passed")


def decide(context: Context, page: Page, made: Site) -> None:
    page.press("Decide")
    context.check("no answer has the focus", page.script(FOCUSED), "dialog-title")
    context.check("nothing is cut off", page.script(DIALOG_CUT_OFF), [])
    context.check("nothing is chosen", page.all("dialog input:checked"), [])
    legends = page.texts("dialog fieldset legend")
    context.check("what is asked", legends, ["kind", "set"])
    page.press("Take what I chose", "dialog")
    page.wait_text("dialog .problem", "Choose for “kind” first.")
    for index, side in enumerate(("mine", "theirs")):
        page.all("dialog fieldset")[index].find_element(
            By.CSS_SELECTOR, f"input[value={side}]"
        ).click()
    page.press("Take what I chose", "dialog")
    page.wait_sent()
    lamp = made.features("lamps")["L01"]
    wanted = {"kind": "mine", "set": "2025-05-05", "state": "worn"}
    context.check("as chosen, and merged", lamp["properties"], wanted)


PARTS = (merged, asked)
