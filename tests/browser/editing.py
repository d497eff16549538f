"""Adding, moving, changing and deleting, as the server has it then; others who write too."""

from collections.abc import Sequence
from typing import Any

from harness import Context
from selenium.webdriver.common.by import By
from selenium.webdriver.support.select import Select

from browser.browsers import browser
from browser.page import Page
from browser.site import Site, site
from browser.towns import delete, feature, insert, opened, point, replace, town

# A click lies on a pixel: at zoom 3 that is 125 mm wide.
PIXEL = 125


def put_in_basket(page: Page) -> None:
    page.press("Put in basket")
    page.wait("the basket", lambda: page.text("#basket-count") != "")


def positions(page: Page) -> list[float]:
    """The typed fields of the positions, in metres."""
    fields = page.all("#panel-feature .positions input")
    return [float(field.get_attribute("value")) for field in fields]


def type_positions(page: Page, *metres: str) -> None:
    """Types into the fields of the positions, one after the other."""
    for index, text in enumerate(metres):
        fields = page.all("#panel-feature .positions input")
        fields[index].clear()
        fields[index].send_keys(text, "\t")


def property_row(page: Page, kind: str, value: str, name: str | None = None) -> None:
    """Fills the last row of the table of properties."""
    row = page.all(".properties tbody tr")[-1]
    if name is not None:
        row.find_element(By.CSS_SELECTOR, "td:nth-child(1) input").send_keys(name)
    Select(row.find_element(By.TAG_NAME, "select")).select_by_visible_text(kind)
    field = row.find_element(By.CSS_SELECTOR, "td:nth-child(3) input")
    field.clear()
    field.send_keys(value)


def near(got: Sequence[float], wanted: Sequence[float]) -> bool:
    return len(got) == len(wanted) and all(
        abs(one - other) * 1000 <= 2 * PIXEL for one, other in zip(got, wanted)
    )


def points(context: Context) -> None:
    """A point is added, moved, changed and deleted."""
    with site(context, "points", town()) as made, browser() as page:
        page.open(made.address)
        page.look_at(60, 30, 3)
        page.press("Point", "#tools")
        page.click_at(60, 40)
        context.check("where it was pressed", near(positions(page), [60, 40]), True)
        type_positions(page, "60.001", "39,9")
        page.fill("#edit-id", "N1")
        page.press("Add a property")
        property_row(page, "text", "lamp", "kind")
        put_in_basket(page)
        context.check("the basket names the edit", "N1" in page.text("#panel-basket"), True)
        page.save()
        page.wait_sent()
        context.check("the name in the key", made.relay.keys()[-1][:11], "Anna-Wei:20")
        added = made.features("lamps")["N1"]
        context.check("a point that was added", added, point("N1", 60_001, 39_900, kind="lamp"))
        move_point(page, made)
        page.choose("N1")
        page.press("Delete", "#panel-feature")
        page.save()
        page.wait_sent()
        context.check("a point that was deleted", "N1" in made.features("lamps"), False)


def move_point(page: Page, made: Site) -> None:
    """Drags the point N1, and gives it a property."""
    check = made.context.check
    page.click_at(60, 39.9)
    page.wait_text("#panel-feature h2", "N1")
    page.press("Edit", "#panel-feature")
    page.one(".handle.vertex")
    page.drag((60, 39.9), (70, 45))
    dragged = positions(page)
    check("where it was dragged", near(dragged, [70, 45]) or dragged, True)
    page.press("As JSON")
    big = 2**63 - 1
    page.fill(
        "#panel-feature textarea", f'{{"kind": "lamp", "no": {big}, "on": [true, {{"a": null}}]}}'
    )
    page.press("As a table")
    check(
        "the table of raw JSON",
        [it.get_attribute("value") for it in page.all(".properties td:nth-child(3) input")],
        ["lamp", str(big), '[true,{"a":null}]'],
    )
    put_in_basket(page)
    check("what the edit does", "changed: moved, no, on" in page.text("#panel-basket"), True)
    page.save()
    page.wait_sent()
    x, y = (round(value * 1000) for value in dragged)
    wanted = point("N1", x, y, kind="lamp", no=big, on=[True, {"a": None}])
    check("a point that was moved", made.features("lamps")["N1"], wanted)


def shapes(context: Context) -> None:
    """A polygon with a hole and a line are drawn; a vertex is put in, one removed."""
    with site(context, "shapes", town()) as made, browser() as page:
        page.open(made.address)
        page.look_at(60, 30, 3)
        page.press("Polygon", "#tools")
        for corner in ((40, 25), (80, 25), (80, 55), (40, 55)):
            page.click_at(*corner)
        page.press("Finish")
        page.press("Add a hole")
        for corner in ((50, 30), (50, 45), (65, 45), (65, 30)):
            page.click_at(*corner)
        page.press("Finish")
        outer, hole = [40, 25, 80, 25, 80, 55, 40, 55], [50, 30, 50, 45, 65, 45, 65, 30]
        context.check("where it was drawn", near(positions(page), outer + hole), True)
        type_positions(page, *map(str, outer + hole))
        page.fill("#edit-id", "park")
        put_in_basket(page)
        page.save()
        page.wait_sent()
        rings = [[[x * 1000, y * 1000] for x, y in ring] for ring in (OUTER, HOLE)]
        wanted = feature("park", {"type": "Polygon", "coordinates": rings})
        context.check("a polygon with a hole", made.features("lamps")["park"], wanted)
        line(page, made)


OUTER = [(40, 25), (80, 25), (80, 55), (40, 55), (40, 25)]
HOLE = [(50, 30), (50, 45), (65, 45), (65, 30), (50, 30)]


def line(page: Page, made: Site) -> None:
    """A line is drawn by two presses and a double one; then its vertices change."""
    page.press("Line", "#tools")
    page.fill("#edit-id", "way")
    page.click_at(20, 20)
    page.click_at(30, 30)
    page.click_at(40, 20, times=2)
    page.wait("the handles", lambda: len(page.all(".handle.vertex")) == 3)
    type_positions(page, "20", "20", "30", "30", "40", "20")
    page.drag((35, 25), (36, 32))
    page.wait("a new vertex", lambda: len(page.all(".handle.vertex")) == 4)
    page.script("document.querySelector('.handle.vertex').focus()")
    page.driver.switch_to.active_element.send_keys("")
    page.driver.switch_to.active_element.send_keys("\ue017")
    page.wait("a removed vertex", lambda: len(page.all(".handle.vertex")) == 3)
    kept = positions(page)
    put_in_basket(page)
    page.save()
    page.wait_sent()
    sent = made.ask("/collections/lamps/items/way")["geometry"]
    flat = [value / 1000 for position in sent["coordinates"] for value in position]
    made.context.check("a line", (sent["type"], flat), ("LineString", kept))
    made.context.check("its vertices", near(kept, [30, 30, 36, 32, 40, 20]) or kept, True)


def others(context: Context) -> None:
    """Another client deletes or changes the features first: shown, and decided."""
    with site(context, "others", town()) as made, browser() as page:
        page.open(made.address)
        changed = {"kind": "lamp", "set": "2025-01-01"}
        for name, decision in (("L01", "Keep mine"), ("L02", "Take theirs")):
            conflict(
                page, made, name, replace("lamps", point(name, 5000, 5000, **changed)), decision
            )
        conflict(page, made, "L03", delete("lamps", "L03"), "Put mine back")
        conflict(page, made, "L04", delete("lamps", "L04"), "Leave it deleted")
        lamps = made.features("lamps")
        coordinates = {
            name: lamps[name]["geometry"]["coordinates"] for name in ("L01", "L02", "L03")
        }
        context.check("mine was kept", coordinates["L01"], [12_500, 4000])
        context.check("theirs was taken", lamps["L02"], point("L02", 5000, 5000, **changed))
        context.check("mine was put back", coordinates["L03"], [36_500, 4000])
        context.check("left deleted", "L04" in lamps, False)
        same_batch(page, made)


def conflict(page: Page, made: Site, name: str, edit: Any, decision: str) -> None:
    """Moves a feature by half a metre after another client edited it."""
    page.choose(name)
    page.press("Edit", "#panel-feature")
    east = positions(page)[0]
    type_positions(page, str(east + 0.5))
    put_in_basket(page)
    made.edit(f"other-{name}", edit)
    page.save()
    page.wait_text("#queue-state", "decide")
    page.tab("queue")
    page.press("Decide")
    shown = page.text("dialog")
    sides = {"It was": True, "Mine": True, "Theirs": True, f"{east + 0.5:.3f}": True}
    made.context.check(f"{name}: the sides", {text: text in shown for text in sides}, sides)
    page.press(decision, "dialog")
    page.wait_sent()


def same_batch(page: Page, made: Site) -> None:
    """Of a batch of two edits, the one that another went before is left out; the other is sent."""
    for name in ("L05", "L06"):
        page.choose(name)
        page.press("Delete", "#panel-feature")
    made.edit("other-L05", delete("lamps", "L05"))
    page.save()
    page.wait_text("#queue-state", "decide")
    page.tab("queue")
    page.press("Decide")
    page.press("Leave it deleted", "dialog")
    page.wait_sent()
    lamps = made.features("lamps")
    made.context.check("the rest of the batch", ["L05" in lamps, "L06" in lamps], [False, False])


def refusals(context: Context) -> None:
    """A refused batch stops the queue until it is changed, under a new key, or dropped."""
    with site(context, "refusals", town()) as made, browser() as page:
        page.open(made.address)
        for name in ("A", "B"):
            page.press("Point", "#tools")
            page.fill("#edit-id", name)
            x, y, _ = page.view()
            page.click_at(x + (5 if name == "B" else 0), y)
            page.press("Add a property")
            property_row(page, "text", "soon" if name == "A" else "2024-05-01", "set")
            put_in_basket(page)
            page.save()
        page.wait_text("#queue-state", "2 batches wait: one was refused")
        page.tab("queue")
        shown = page.text("#panel-queue li.refused")
        told = ("The time property of the feature cannot be read.", "bad_time", "(edit 1)")
        context.check("code, description, place", [it in shown for it in told], [True] * 3)
        context.check("its edit is marked", len(page.all("#panel-queue li.edit.mark-refused")), 1)
        context.check("nothing was sent behind it", len(made.relay.accepted()), 0)
        context.check("it is marked on the map", marked(page), True)
        page.press("Change", "#panel-queue li.refused")
        property_row(page, "text", "2024-05-02")
        page.press("Put in basket")
        page.wait_sent()
        keys = made.relay.keys()
        context.check("a new key", len(set(keys)), 3)
        context.check("in order", [it["serial"] for it in made.relay.accepted()], [2, 3])
        drop(page, made)


def marked(page: Page) -> bool:
    """Whether the middle of the view has the edge of a refused edit."""
    style = "return getComputedStyle(document.documentElement).getPropertyValue('--mark-refused')"
    red, blue = (int(page.script(style).strip()[at : at + 2], 16) for at in (1, 5))
    left, top = page.at(*page.view()[:2])
    row = [page.picture().getpixel((round(left) + step, round(top))) for step in range(4, 16)]
    return any(abs(pixel[0] - red) < 30 and abs(pixel[2] - blue) < 30 for pixel in row)


def drop(page: Page, made: Site) -> None:
    """A refused batch goes back to the basket; saved again and refused, it is dropped."""
    made.edit("gone", insert("lamps", point("C", 1, 1)))
    page.press("Point", "#tools")
    page.fill("#edit-id", "C")
    page.click_at(*page.view()[:2])
    put_in_basket(page)
    page.save()
    page.wait_text("#panel-queue", "feature_exists")
    page.tab("queue")
    page.press("Back to basket")
    page.wait("the basket", lambda: page.text("#basket-count") == "1")
    page.save()
    page.wait_text("#panel-queue", "feature_exists")
    page.tab("queue")
    page.press("Drop", "#panel-queue")
    page.press("Drop the batch", "dialog")
    page.wait_sent()
    made.context.check("dropped", "1 edit dropped" in page.text("#panel-queue"), True)
    made.context.check(
        "theirs stays", made.ask("/collections/lamps/items/C")["geometry"]["coordinates"], [1, 1]
    )


PARTS = (others, points, refusals, shapes)
