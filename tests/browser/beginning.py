"""An empty town is begun in the page; `serve_map.py` says how, and fills a file with a sample."""

import contextlib
import json
import subprocess
import sys
import urllib.request
from collections.abc import Iterator
from pathlib import Path

from harness import Context, free_port

from browser.browsers import browser
from browser.filling import name_oneself
from browser.page import Page
from browser.phone import CUT_OFF
from browser.site import ROOT, Site, site
from browser.towns import opened

DIALOG_CUT_OFF = CUT_OFF.replace("form.editor", "dialog")


def empty_town(context: Context) -> None:
    """A collection is opened, and gets its first feature."""
    for size in ((390, 844), (1280, 800)):
        name = f"empty-{size[0]}"
        with site(context, name) as made, browser(*size, phone=size[0] < 800) as page:
            page.open(made.address)
            name_oneself(page)
            page.tab("collections")
            page.wait_text("#panel-collections", "There is no collection yet")
            page.press("Open a collection")
            dialog(context, page)
            page.wait_shown("street-lamps", "0")
            first_lamp(context, page, made)


def dialog(context: Context, page: Page) -> None:
    """What the server would not take is said; the id follows the title."""
    context.check("nothing is cut off", page.script(DIALOG_CUT_OFF), [])
    page.press("Open it", "dialog")
    page.wait_text("dialog .problem", "A title is needed.")
    page.fill("#open-title", "Street lamps")
    context.check("the id", page.one("#open-id").get_attribute("value"), "street-lamps")
    page.fill("#open-time", "set")
    page.press("Open it", "dialog")
    page.wait_sent()


def first_lamp(context: Context, page: Page, made: Site) -> None:
    listed = made.ask("/collections")["collections"]
    context.check("it is open", [(it["id"], it["title"]) for it in listed], [LAMPS])
    sent = json.loads(made.relay.batches[0][0])["edits"]
    wanted = [{"op": "open", "collection": LAMPS[0], "title": LAMPS[1], "time": "set"}]
    context.check("what was sent", sent, wanted)
    page.press("Point", "#tools")
    page.fill("#edit-id", "first")
    page.click_at(*page.view()[:2])
    page.press("Put in basket")
    page.save()
    page.wait_sent()
    context.check("its first lamp", list(made.features("street-lamps")), ["first"])


LAMPS = ("street-lamps", "Street lamps")


def refused(context: Context) -> None:
    """One that another opened first is refused: it is in the queue, and can be dropped."""
    with site(context, "refused") as made, browser() as page:
        page.open(made.address)
        name_oneself(page)
        page.press("Point", "#tools")
        page.wait_text("dialog", "Open a collection")
        page.fill("#open-title", "Trees")
        made.edit("other", opened("trees", "Other trees"))
        page.press("Open it", "dialog")
        page.wait_text("#queue-state", "one was refused")
        page.tab("queue")
        shown = page.text("#panel-queue li.refused")
        context.check("which", [it in shown for it in ("Trees", "opened")], [True, True])
        buttons = page.texts("#panel-queue li.batch .buttons button")
        context.check("what can be done", buttons, ["Send again", "Drop"])
        page.press("Drop", "#panel-queue")
        page.press("Drop the batch", "dialog")
        page.wait_sent()


@contextlib.contextmanager
def serving(context: Context, file: Path, *words: str) -> Iterator[tuple[int, list[bytes]]]:
    """`serve_map.py` over a file, at a port; and the lines it prints before the first request."""
    port = free_port()
    script = ROOT / "deploy" / "serve_map.py"
    given = [sys.executable, str(script), str(context.program), str(file), "--port", str(port)]
    with subprocess.Popen([*given, *words], stdout=subprocess.PIPE) as process:
        assert process.stdout is not None
        count = 1 if words else 3
        lines = [process.stdout.readline() for _ in range(count)]
        try:
            yield port, lines
        finally:
            process.terminate()


def made_files(context: Context) -> None:
    """A file that it has made: it says how to begin. With a sample, the file is filled once."""
    with serving(context, context.folder / "new.streetmap") as (_, lines):
        how = b"".join(lines[1:])
        parts = (b"Open a collection", b"make map TOWN=quarter")
        context.check("it says how", [it in how for it in parts], [True, True])
    file = context.folder / "quarter.streetmap"
    for turn in ("filled", "filled once"):
        with serving(context, file, "--town", "quarter") as (port, _):
            address = f"http://localhost:{port}/collections/lamps/items?limit=1"
            with urllib.request.urlopen(address, timeout=60) as answer:
                context.check(turn, json.load(answer)["numberMatched"] > 0, True)


PARTS = (empty_town, refused, made_files)
