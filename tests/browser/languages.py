"""The page in German: its table has all texts, and none that is shown is English."""

import html
import json
import re

from harness import Context

from browser.browsers import browser
from browser.page import Page
from browser.site import ROOT, site
from browser.towns import quarter

MAP = ROOT / "map"
STRING = r'"(?:[^"\\]|\\.)*"'
SAID = re.compile(rf"\bsay\(\s*((?:{STRING}(?:\s*\+\s*)?)+)")
# What a person reads or hears now: texts and names of what is shown.
SHOWN = """
const all = [...document.querySelectorAll("body, body *")].filter((it) => it.checkVisibility());
const own = (it) => [...it.childNodes].filter((part) => part.nodeType === Node.TEXT_NODE);
const texts = all.flatMap((it) => own(it).map((part) => part.data.trim().replace(/\\s+/g, " ")));
return [...texts, ...all.flatMap((it) => it.ariaLabel ?? [])].filter(Boolean);
"""


def said() -> set[str]:
    """The texts that the page has in English."""
    found = {
        "".join(json.loads(part) for part in re.findall(STRING, match[1]))
        for path in sorted((MAP / "modules").glob("*.js"))
        for match in SAID.finditer(path.read_text())
    }
    document = (MAP / "index.html").read_text()
    body = document[document.index("<title>") :]
    texts = [" ".join(html.unescape(text).split()) for text in re.findall(r">([^<]+)<", body)]
    return found | {text for text in texts if text} | set(re.findall(r'aria-label="([^"]+)"', body))


def parts(text: str) -> list[str]:
    return sorted(re.findall(r"\{\w+\}", text))


def table(context: Context) -> None:
    """The table has just the texts of the page, each with the same parts."""
    german = json.loads((MAP / "texts.json").read_text())["de"]
    context.check("texts without German", sorted(said() - set(german)), [])
    context.check("texts that nobody says", sorted(set(german) - said()), [])
    differ = [text for text, other in german.items() if parts(text) != parts(other)]
    context.check("texts with other parts", differ, [])


def speak(page: Page, language: str) -> None:
    """The browser's first language from now on."""
    agent = {"userAgent": page.script("return navigator.userAgent"), "acceptLanguage": language}
    page.driver.execute_cdp_cmd("Emulation.setUserAgentOverride", agent)


def english(page: Page) -> list[str]:
    """The texts that are shown and are in English."""
    german: dict[str, str] = json.loads((MAP / "texts.json").read_text())["de"]
    other = {text for text, said_so in german.items() if text != said_so} - set(german.values())
    return sorted(other & set(page.script(SHOWN)))


def in_german(context: Context) -> None:
    """From the form to the queue at both sizes, also from the copy on the device."""
    for size in ((390, 844), (1280, 800)):
        name = f"german-{size[0]}"
        with site(context, name, quarter()) as made:
            with browser(*size, phone=size[0] < 800) as page:
                speak(page, "de-DE")
                page.open(made.address)
                page.wait_kept()
                page.reload()
                walk(context, page)


def walk(context: Context, page: Page) -> None:
    shown = page.script("return [document.documentElement.lang, document.title]")
    context.check("language and title", shown, ["de", "Straßenkarte"])
    for tab in ("collections", "basket", "queue", "settings"):
        page.tab(tab)
        context.check(f"English, {tab}", english(page), [])
    page.press("Punkt", "#tools")
    page.fill("#edit-id", "Laterne")
    context.check("English, form", english(page), [])
    page.click_at(*page.view()[:2])
    page.press("Eigenschaft dazu")
    context.check("English, drawn", english(page), [])
    page.press("In den Korb")
    page.wait_text("#panel-basket", "1 Änderung")
    context.check("English, basket", english(page), [])
    page.click("#save")
    page.wait_text("dialog", "Ihr Name")
    context.check("English, dialog", english(page), [])
    page.press("Abbrechen", "dialog")


def others(context: Context) -> None:
    """Another language than the two is answered in English."""
    with site(context, "french", quarter()) as made, browser() as page:
        speak(page, "fr-FR")
        page.open(made.address)
        lang = page.script("return document.documentElement.lang")
        context.check("English", [lang, page.text("#tab-collections")], ["en", "Map"])


PARTS = (table, in_german, others)
