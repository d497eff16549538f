"""The form by the office's description: presses are counted, fields of each type, the last one."""

import json
from pathlib import Path
from typing import Any

from harness import Context
from selenium.webdriver.common.by import By

from browser.browsers import browser
from browser.page import Page
from browser.phone import CUT_OFF
from browser.site import Site, site
from browser.towns import insert, point, quarter, town

STREETS = ["Harbour Street", "Mill Lane", "Chapel Street", "Ropewalk", "Orchard Row"]
LAMPS = [
    {"name": "street", "label": "Street", "type": "choice", "choices": STREETS, "required": True},
    {"name": "set", "label": "Set up on", "type": "date", "required": True},
    {"name": "watts", "label": "Watts", "type": "choice", "choices": [28, 35, 52]},
    {"name": "led", "label": "LED", "type": "yes/no"},
]
HOSTILE = "<img src=x onerror=alert(1)>"
TYPED = [
    {"name": "kind", "label": HOSTILE, "required": True},
    {"name": "set", "label": "Set up on", "type": "date", "default": "today"},
    {"name": "watts", "label": "Watts", "type": "whole", "default": 35},
    {"name": "height", "label": "Height in metres", "type": "decimal"},
    {"name": "plate", "label": "Plate", "copied": False},
]
# Counts what a person presses: a button of the pointer, a finger, or a key.
COUNTER = """
window.presses = 0;
for (const kind of ["pointerdown", "keydown"]) {
    addEventListener(kind, ({ isTrusted }) => (presses += isTrusted ? 1 : 0), true);
}
"""
ABOVE = """
const top = (selector) => document.querySelector(selector).getBoundingClientRect().top;
return top(".all-properties") < top("form.editor .geometry");
"""
# A lamp of four properties takes at most this number of presses after the first one.
MOST_PRESSES = 8


def described(context: Context, name: str, collection: str, fields: Any) -> Path:
    """A file map.json with the fields of a collection."""
    place = context.folder / f"{name}.json"
    place.write_text(json.dumps({"collections": {collection: {"fields": fields}}}))
    return place


def name_oneself(page: Page) -> None:
    page.tab("settings")
    page.fill("#setting-user", "Anna")
    page.press("Keep")
    page.wait_text("#panel-settings", "Kept.")


def choose(page: Page, label: str, text: str) -> None:
    """Presses the button of a choice, or one beside a date."""
    find = """
        const rows = [...document.querySelectorAll(".described")];
        const title = (it) => it.querySelector("legend, label").innerText.replace(" (needed)", "");
        const row = rows.find((it) => title(it) === arguments[0]);
        const all = [...(row?.querySelectorAll(".chip, button") ?? [])];
        return all.find((it) => it.innerText.trim() === arguments[1]) ?? null;
    """

    def pressed() -> bool:
        found = page.script(find, label, text)
        if found is not None:
            found.click()
        return found is not None

    page.wait(f"{label}: {text}", pressed)


def put_and_save(page: Page) -> None:
    """Two presses, for a user who has a name."""
    page.press("Put in basket")
    page.wait("the basket", lambda: page.text("#basket-count") == "1")
    page.click("#save")
    page.wait("an empty basket", lambda: page.text("#basket-count") == "")
    page.wait_sent()


def presses(context: Context) -> None:
    """A lamp of four properties, from the tool to the server: few presses, none but visible ones."""
    place = described(context, "lamps", "lamps", LAMPS)
    with site(context, "presses", quarter(), place=place) as made:
        for size in ((390, 844), (1280, 800)):
            with browser(*size, phone=size[0] < 800) as page:
                page.open(made.address)
                page.wait_shown("trees", "72")
                name_oneself(page)
                page.script(COUNTER)
                one_lamp(context, page, made)
                like_the_last(context, page, made)


def one_lamp(context: Context, page: Page, made: Site) -> None:
    page.choose("L010")
    page.look_at(200, 220, 2)
    page.press("Point", "#tools")
    page.wait("the fields", lambda: len(page.all(".described")) == 4)
    width = page.script("return innerWidth")
    context.check(f"properties above geometry, {width}", page.script(ABOVE), width < 800)
    context.check(f"nothing is cut off, {width}", page.script(CUT_OFF), [])
    identifier = page.one("#edit-id").get_attribute("value")
    page.script("presses = 0")
    page.click_at(200, 220)
    for label, text in (("Street", "Ropewalk"), ("Watts", "52"), ("LED", "yes")):
        choose(page, label, text)
    choose(page, "Set up on", "Today")
    put_and_save(page)
    count = page.script("return presses")
    context.check(f"presses, {width}", count <= MOST_PRESSES or count, True)
    sent = made.ask(f"/collections/lamps/items/{identifier}")["properties"]
    today = page.script("return new Date().toLocaleDateString('sv')")
    wanted = {"street": "Ropewalk", "set": today, "watts": 52, "led": True}
    context.check(f"the lamp, {width}", sent, wanted)


def like_the_last(context: Context, page: Page, made: Site) -> None:
    """The next one has the same properties by one press."""
    page.press("Point", "#tools")
    identifier = page.one("#edit-id").get_attribute("value")
    page.click_at(210, 222)
    page.press("As the last one")
    choose(page, "Street", "Mill Lane")
    put_and_save(page)
    sent = made.ask(f"/collections/lamps/items/{identifier}")["properties"]
    today = page.script("return new Date().toLocaleDateString('sv')")
    wanted = {"street": "Mill Lane", "set": today, "watts": 52, "led": True}
    context.check("as the last one", sent, wanted)


def field(page: Page, label: str) -> Any:
    """The field with this label."""
    for row in page.all("p.described"):
        if row.find_element(By.TAG_NAME, "label").text.removesuffix(" (needed)") == label:
            return row.find_element(By.CSS_SELECTOR, "input, select")
    raise AssertionError(label)


def typed(context: Context) -> None:
    """Fields of each type: defaults, what is needed, what is refused, and values that are no
    field's."""
    place = described(context, "typed", "lamps", TYPED)
    with site(context, "typed", town(), place=place) as made, browser() as page:
        odd = point("odd", 10_000, 10_000, kind="lamp", watts="35 W", extra=[1])
        made.edit("odd", insert("lamps", odd))
        page.open(made.address)
        page.wait_shown("lamps", "13")
        page.press("Point", "#tools")
        page.wait("the fields", lambda: len(page.all(".described")) == 5)
        context.check("the default", field(page, "Watts").get_attribute("value"), "35")
        page.fill("#edit-id", "T1")
        page.click_at(*page.view()[:2])
        page.press("Put in basket")
        page.wait_text(".editor > .problem", f"“{HOSTILE}” is needed.")
        field(page, HOSTILE).send_keys("lamp")
        field(page, "Height in metres").send_keys("4,x")
        page.press("Put in basket")
        page.wait_text(".editor > .problem", "is no number")
        page.script("arguments[0].value = ''", field(page, "Height in metres"))
        field(page, "Height in metres").send_keys("4,25")
        field(page, "Plate").send_keys("A 7")
        page.press("Put in basket")
        page.save()
        page.wait_sent()
        today = page.script("return new Date().toLocaleDateString('sv')")
        wanted = {"kind": "lamp", "set": today, "watts": 35, "height": "4.25", "plate": "A 7"}
        got = made.ask("/collections/lamps/items/T1")["properties"]
        context.check("values by their types", got, wanted)
        not_copied(context, page)
        edited(context, page, made, odd)


def not_copied(context: Context, page: Page) -> None:
    """“As the last one” leaves out what the office says, and days of today."""
    page.press("Point", "#tools")
    page.press("As the last one")
    shown = [field(page, label).get_attribute("value") for label in (HOSTILE, "Plate")]
    context.check("what is copied", shown, ["lamp", ""])
    page.press("Cancel")


def edited(context: Context, page: Page, made: Site, odd: Any) -> None:
    """A value that is none of its field's stays as it is until it is changed."""
    page.choose("odd")
    page.press("Edit", "#panel-feature")
    names = [it.get_attribute("value") for it in page.all(".properties td:first-child input")]
    context.check("in the table", sorted(names), ["extra", "watts"])
    field(page, "Plate").send_keys("B 2")
    page.press("Put in basket")
    page.save()
    page.wait_sent()
    got = made.ask("/collections/lamps/items/odd")["properties"]
    context.check("the others stay", got, odd["properties"] | {"plate": "B 2"})


def wrong(context: Context) -> None:
    """A description of another form: the page says so, and works without it."""
    place = described(context, "wrong", "lamps", [{"name": "kind", "type": "lamp"}])
    with site(context, "wrong", town(), place=place) as made, browser() as page:
        page.open(made.address)
        page.tab("settings")
        page.wait_text("#panel-settings", "lamps: the field “kind” has no type of text")
        page.press("Point", "#tools")
        context.check("no field", page.all(".described"), [])
        page.wait("the table", lambda: page.all(".properties"))


PARTS = (presses, typed, wrong)
