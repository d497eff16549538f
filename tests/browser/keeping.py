"""What a phone keeps: the page itself through updates, and the edits of each town for that town."""

import json
import os
import shutil
import signal
import subprocess
import sys
import urllib.request
from pathlib import Path
from typing import Any

from harness import Context, free_port

from browser.browsers import browser
from browser.page import Page
from browser.sending import add_point
from browser.site import ROOT, Site, site
from browser.towns import insert, point, town

ROUNDS = 5
# All open tabs load the page again at the same moment, and the page says when it is there.
SEVERAL = "new BroadcastChannel('reload').postMessage('now')"
RELOADS = "new BroadcastChannel('reload').onmessage = () => location.reload()"
LOADED = """
if (location.protocol === "chrome-error:") return "not there";
return document.documentElement.dataset.ready === "true" ? "there" : "";
"""
FILE_TEXT = "fetch(arguments[0]).then((it) => it.text()).then(arguments[1])"
# The database as an earlier version of the page left it, with a batch that was never sent.
EARLIER = """
const [batch, answers, done] = arguments;
const request = indexedDB.open("streetmap", 1);
request.onupgradeneeded = () => {
    const database = request.result;
    database.createObjectStore("collections", { keyPath: "id" });
    const features = database.createObjectStore("features", { keyPath: ["collection", "id"] });
    features.createIndex("collection", "collection");
    database.createObjectStore("basket", { keyPath: ["collection", "id"] });
    database.createObjectStore("queue", { keyPath: "number", autoIncrement: true });
    database.createObjectStore("answers", { keyPath: "number", autoIncrement: true });
    database.createObjectStore("settings");
};
request.onsuccess = () => {
    const transaction = request.result.transaction(["queue", "answers"], "readwrite");
    transaction.objectStore("queue").add(batch);
    for (const answer of answers) transaction.objectStore("answers").add(answer);
    transaction.oncomplete = () => { request.result.close(); done(); };
};
"""


def update(root: Path, version: int) -> None:
    """Puts another version of the page in place: its modules and its worker change."""
    original = ROOT / "map"
    for file in [*original.glob("modules/*.js"), original / "service-worker.js"]:
        changed = file.read_text() + f"// {version}\n"
        (root / "map" / file.relative_to(original)).write_text(changed)


def reloaded(page: Page, tabs: list[str]) -> None:
    """Loads the page again in all tabs at once."""
    for tab in tabs:
        page.driver.switch_to.window(tab)
        page.script(f"{RELOADS}; delete document.documentElement.dataset.ready")
    page.script(f"{SEVERAL}; setTimeout(() => location.reload(), 0)")
    for tab in tabs:
        page.driver.switch_to.window(tab)
        page.wait_ready()


def updates(context: Context) -> None:
    """After each update two tabs load the page at once; then, without a network, it loads."""
    root = context.folder / "installed"
    shutil.copytree(ROOT / "map", root / "map")
    with site(context, "updates", town(), root=root) as made, browser() as page:
        page.open(made.address)
        page.wait_kept()
        page.driver.switch_to.new_window("tab")
        page.open(made.address)
        tabs = page.driver.window_handles
        loaded = []
        for version in range(ROUNDS):
            update(root, version)
            reloaded(page, tabs)
            # In every other round the network goes while the copy is made.
            if version % 2 == 0:
                wait_newest(page, version)
            made.stop_nginx()
            loaded.append(loads(page))
            made.start_nginx()
            if not loaded[-1]:
                page.open(made.address)
        context.check("the page without network, after updates", loaded, [True] * ROUNDS)
        versions(context, page, root, tabs)


def loads(page: Page) -> bool:
    """Whether the page loads now."""
    page.driver.refresh()
    found = page.wait("the page, or the browser's own", lambda: page.script(LOADED))
    return bool(found == "there")


def versions(context: Context, page: Page, root: Path, tabs: list[str]) -> None:
    """An open page keeps the copy that it was loaded from, and old copies do not pile up."""

    def own() -> str:
        text = page.driver.execute_async_script(FILE_TEXT, "modules/view.js")
        return str(text).splitlines()[-1]

    page.driver.switch_to.window(tabs[1])
    page.reload()
    before = own()
    page.driver.switch_to.window(tabs[0])
    for version in (98, 99):
        update(root, version)
        page.reload()
        wait_newest(page, version)
    page.reload()
    context.check("the newest version", own(), "// 99")
    page.driver.switch_to.window(tabs[1])
    context.check("the version of an open page", own(), before)


def wait_newest(page: Page, version: int) -> None:
    """Waits for the copy of a version. A load while a copy is made checks no further: then
    the page is loaded again."""

    def came() -> bool:
        is_there = page.until(True, lambda: newest(page).endswith(f"// {version}\n"), 20)
        if not is_there:
            page.reload()
        return is_there

    page.wait(f"the version {version}", came)


def newest(page: Page) -> str:
    """A file of the newest copy."""
    text = """
        const done = arguments[0];
        caches.keys().then(async (names) => {
            const name = names.filter((it) => it.startsWith("version-")).sort().at(-1);
            if (!name) return done("");
            const copy = await caches.open(name);
            const isWhole = await copy.match(new URL("whole", location.href).href);
            const file = await copy.match(new URL("modules/view.js", location.href).href);
            done(isWhole && file ? await file.text() : "");
        });
    """
    return str(page.driver.execute_async_script(text))


def sent_ids(made: Site) -> list[str]:
    """The features of the batches that came."""
    edits = [edit for body, _ in made.relay.batches for edit in json.loads(body)["edits"]]
    return [edit["feature"]["id"] for edit in edits]


def second_town(context: Context, name: str) -> Path:
    """Another town: the same lamps but one, under another key."""
    batch = {
        **town(),
        "key": "second",
        "edits": [*town()["edits"], insert("lamps", point("Z", 1, 1))],
    }
    file = context.new_file(f"{name}.streetmap")
    (answer,) = context.pipe(file, posted(batch))
    context.check(f"the batch of {name}", answer.status, 200)
    return file


def posted(batch: Any) -> bytes:
    body = json.dumps(batch).encode()
    head = f"POST /batches HTTP/1.1\r\nHost: localhost\r\nContent-Length: {len(body)}\r\n\r\n"
    return head.encode() + body


def named_towns(context: Context) -> None:
    """Two towns with names at one address: what waits for one is sent to it alone."""
    place = context.folder / "named.json"
    place.write_text('{"town": "first"}')
    with site(context, "first", town(), place=place) as made, browser() as page:
        first, second = made.file, second_town(context, "second")
        page.open(made.address)
        made.stop()
        add_point(page, "F1")
        page.save()
        page.wait_text("#queue-state", "1 batch waits")
        place.write_text('{"town": "second"}')
        made.serve_other(second)
        page.reload()
        page.wait("the other town", lambda: page.text("#queue-state") == "")
        page.tab("queue")
        page.wait_text("#panel-queue", "1 edit for first")
        add_point(page, "S1")
        page.save()
        page.wait_sent()
        context.check("sent to the second", sent_ids(made), ["S1"])
        place.write_text('{"town": "first"}')
        made.serve_other(first)
        page.reload()
        page.wait("both", lambda: len(made.relay.accepted()) == 2)
        page.wait_sent()
        context.check("sent to the first", sent_ids(made), ["S1", "F1"])
        context.check("in the first", "F1" in made.features("lamps"), True)
        context.check("not in the first", "S1" in made.features("lamps"), False)


def open_page(context: Context) -> None:
    """A page that is open sends nothing to another town, and goes there when it checks again."""
    place = context.folder / "open.json"
    place.write_text('{"town": "first"}')
    with site(context, "open", town(), place=place) as made, browser() as page:
        second = second_town(context, "open-second")
        page.open(made.address)
        made.stop()
        add_point(page, "F1")
        page.save()
        place.write_text('{"town": "second"}')
        made.serve_other(second)
        page.wait_text("#panel-queue", "Another town is served at this address now.")
        page.script("dispatchEvent(new Event('online'))")
        page.wait("the other town", lambda: page.text("#queue-state") == "")
        context.check("nothing was sent", sent_ids(made), [])


def nameless_towns(context: Context) -> None:
    """Towns without names: if a server lacks the last accepted batch, the page asks the user."""
    check = context.check
    with site(context, "nameless", town()) as made, browser() as page:
        first, second = made.file, second_town(context, "nameless-second")
        page.open(made.address)
        add_point(page, "F1")
        page.save()
        page.wait_sent()
        made.serve_other(second)
        add_point(page, "F2")
        page.save()
        page.wait_text("#queue-state", "which town is it for?")
        page.tab("queue")
        check("it says why", "does not know the batch" in page.text("#panel-queue"), True)
        check("nothing was sent", sent_ids(made), ["F1"])
        page.press("Keep it for its town")
        page.wait("another queue", lambda: page.text("#queue-state") == "")
        page.wait_ready()
        add_point(page, "S1")
        page.save()
        page.wait_sent()
        made.serve_other(first)
        page.tab("queue")
        page.press("Open here")
        page.wait("both", lambda: len(made.relay.accepted()) == 3)
        check("sent to its town", "F2" in made.features("lamps"), True)
        check("in order", sent_ids(made), ["F1", "S1", "F2"])


def older_copy(context: Context) -> None:
    """The town comes back from an older backup: the user says so, and it goes on."""
    with site(context, "older", town()) as made, browser() as page:
        backup = context.folder / "backup.streetmap"
        made.stop()
        for file in context.folder.glob("older.streetmap*"):
            shutil.copy(file, backup.with_name(file.name.replace("older", "backup")))
        made.start()
        page.open(made.address)
        add_point(page, "B1")
        page.save()
        page.wait_sent()
        made.serve_other(backup)
        add_point(page, "B2")
        page.save()
        page.wait_text("#queue-state", "which town is it for?")
        page.tab("queue")
        page.press("Send it here")
        page.wait_sent()
        context.check("sent after the answer", "B2" in made.features("lamps"), True)


def earlier_version(context: Context) -> None:
    """What an earlier version of the page left is sent to the server that knows its last batch;
    without one, after a question."""
    with site(context, "earlier", town()) as made:
        accepted = {"key": "town", "edits": [], "time": 1, "outcome": "accepted", "serial": 1}
        for name, answers in (("E1", []), ("E2", [accepted])):
            with browser() as page:
                page.go(f"{made.address}icon.svg")
                page.driver.execute_async_script(EARLIER, earlier_batch(name), answers)
                page.open(made.address)
                if not answers:
                    page.wait_text("#queue-state", "1 batch waits: which town is it for?")
                    page.tab("queue")
                    page.press("Send it here")
                page.wait("the batch", lambda: name in made.relay.keys())
                page.wait_sent()
        context.check("it was kept, and sent", made.relay.keys(), ["E1", "E2"])


def earlier_batch(name: str) -> dict[str, Any]:
    """A batch that inserts a feature, as an earlier version of the page kept it."""
    inserted = {"op": "insert", "collection": "lamps", "feature": point(name, 20_000, 20_000)}
    return {
        "key": name,
        "body": json.dumps({"key": name, "edits": [inserted]}),
        "edits": [{**inserted, "id": name, "base": None}],
        "state": "waiting",
        "tries": 0,
        "unanswered": 0,
        "problem": "",
        "held": False,
        "saved": 1,
        "refusal": None,
        "differences": [],
    }


def served(context: Context) -> None:
    """`serve_map.py` names the town, and ends with its server."""
    file, port = context.new_file("served.streetmap"), free_port()
    script = ROOT / "deploy" / "serve_map.py"
    given = [sys.executable, str(script), str(context.program), str(file), "--port", str(port)]
    with subprocess.Popen(given, stdout=subprocess.PIPE, stderr=subprocess.PIPE) as process:
        assert process.stdout is not None
        context.check("it says where", process.stdout.readline()[:8], b"The map:")
        with urllib.request.urlopen(f"http://localhost:{port}/map/map.json", timeout=60) as answer:
            context.check("the town's name", json.load(answer), {"town": str(file.resolve())})
        children = Path(f"/proc/{process.pid}/task/{process.pid}/children").read_text().split()
        os.kill(int(children[0]), signal.SIGKILL)
        try:
            status = process.wait(context.seconds)
        except subprocess.TimeoutExpired:
            process.terminate()
            status = None
        context.check("it ends with its server", status, 128 + signal.SIGKILL)


PARTS = (updates, named_towns, open_page, nameless_towns, older_copy, earlier_version, served)
