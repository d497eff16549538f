"""The queue: no network, lost answers, kills, two tabs, and what nginx answers in between."""

import json
import time
from typing import Any

from harness import Context

from browser.looking import COUNT
from browser.browsers import browser
from browser.page import Page
from browser.relay import response
from browser.site import Site, site
from browser.towns import town


def add_point(page: Page, name: str) -> None:
    """Puts a new point into the basket, in the middle of the view."""
    page.press("Point", "#tools")
    page.fill("#edit-id", name)
    page.click_at(*page.view()[:2])
    page.press("Put in basket")
    page.wait("the basket", lambda: page.text("#basket-count") != "")


def counted(made: Site) -> tuple[int, int]:
    """The number of lamps, and of batches that were accepted: the serial of one more says
    it."""
    lamps = made.ask("/collections/lamps/items?limit=1")["numberMatched"]
    return lamps, made.edit(f"counted-{time.monotonic_ns()}")["serial"] - 1


def killed(context: Context) -> None:
    """The server is killed after the batch, before its answer: sent again, accepted once."""
    with site(context, "killed", town()) as made, browser() as page:
        page.open(made.address)
        add_point(page, "K1")

        def kill() -> bool:
            made.relay.loses = lambda: False
            made.relay.server = None
            assert made.server is not None
            made.server.kill()
            return True

        made.relay.loses = kill
        page.save()
        page.wait_text("#panel-queue", "Waits and is tried again")
        waits = page.text("#queue-state")
        context.check(
            "it waits", (waits, "(502)" in page.text("#panel-queue")), ("1 batch waits", True)
        )
        page.tab("queue")
        buttons = page.texts("#panel-queue li.batch .buttons button")
        context.check("it cannot change now", buttons, ["Try now", "Drop"])
        made.stop()
        made.start()
        page.wait_sent()
        bodies = [body for body, _ in made.relay.batches]
        context.check("the same bytes", (len(bodies) > 1, len(set(bodies))), (True, 1))
        context.check("one acceptance", counted(made), (13, 2))


def cut_off(context: Context) -> None:
    """No network: three saves, a reload, two tabs; the network back: three batches in order."""
    with site(context, "cut", town()) as made, browser() as page:
        page.open(made.address)
        page.wait_kept()
        page.wait_shown("lamps", "12")
        page.network(False)
        made.stop_nginx()
        for name in ("N1", "N2", "N3"):
            add_point(page, name)
            page.save()
        context.check("three wait", page.text("#queue-state"), "3 batches wait")
        page.reload()
        page.wait_text("#view-state", "Shown as of")
        context.check("what was seen", count_of(page), "12")
        first = page.driver.current_window_handle
        page.driver.switch_to.new_window("tab")
        page.network(False)
        page.open(made.address)
        page.wait_text("#queue-state", "3 batches wait")
        second = page.driver.current_window_handle
        made.start_nginx()
        for handle in (first, second):
            page.driver.switch_to.window(handle)
            page.network(True)
        for handle in (first, second):
            page.driver.switch_to.window(handle)
            page.wait_sent()
        check_three(made)


def check_three(made: Site) -> None:
    """The three batches came in order, each once."""
    ids = [json.loads(body)["edits"][0]["feature"]["id"] for body, _ in made.relay.batches]
    made.context.check("in order, each once", ids, ["N1", "N2", "N3"])
    serials = [reply["serial"] for reply in made.relay.accepted()]
    made.context.check("their serials", serials, [2, 3, 4])
    made.context.check("three acceptances", counted(made), (15, 4))


def count_of(page: Page) -> str:
    return str(page.script(COUNT, "lamps"))


def two_tabs_lost(context: Context) -> None:
    """Two tabs, and each first answer is lost: one sender, one acceptance of each batch."""
    with site(context, "tabs", town()) as made, browser() as page:
        page.open(made.address)
        page.driver.switch_to.new_window("tab")
        page.open(made.address)
        seen: set[Any] = set()

        def loses() -> bool:
            key = made.relay.keys()[-1]
            is_first = key not in seen
            seen.add(key)
            return is_first

        made.relay.loses = loses
        for name in ("T1", "T2"):
            add_point(page, name)
            page.save()
        page.wait_sent()
        keys = made.relay.keys()
        context.check(
            "each sent twice", (keys[0] == keys[1], keys[2] == keys[3], len(keys)), (True, True, 4)
        )
        context.check("two acceptances", counted(made), (14, 3))


STANDING_IN = {
    "502": response("502 Bad Gateway", "<html>502</html>", "text/html"),
    "504": response("504 Gateway Timeout", "<html>504</html>", "text/html"),
    "200": response("200 OK", "<html>Sign in to the train's network</html>", "text/html"),
    "not its key": response("200 OK", '{"key":"other","serial":9}'),
    "cut": response("200 OK", '{"key":"x","serial":1}')[:-4],
    "memory": response(
        "503 Service Unavailable", '{"code":"memory","description":"Memory was refused."}'
    ),
}


def stood_in(context: Context) -> None:
    """Answers that are none are passed over; 401 and 413 are shown and wait for the user."""
    with site(context, "stood-in", town()) as made, browser() as page:
        page.open(made.address)
        for name, answer in STANDING_IN.items():
            made.relay.canned.append(answer)
            add_point(page, f"S-{name}")
            page.save()
            page.wait(f"a try for {name}", lambda: not made.relay.canned)
            page.wait_sent()
        sent = made.relay.keys()
        pairs = list(zip(sent[::2], sent[1::2]))
        context.check("each sent twice", [one == other for one, other in pairs], [True] * 6)
        context.check("accepted once each", len(made.relay.accepted()), 6)
        made.relay.canned.append(response("401 Unauthorized", "<html>", "text/html"))
        add_point(page, "S-401")
        page.save()
        page.wait_text("#queue-state", "for name and password")
        context.check(
            "401 is shown", "(401)" in page.text("#panel-queue") or hidden_text(page), True
        )
        page.tab("queue")
        page.press("Send again")
        page.wait_sent()
        made.relay.canned.append(response("413 Payload Too Large", "<html>", "text/html"))
        add_point(page, "S-413")
        page.save()
        page.wait_text("#queue-state", "refused")
        page.tab("queue")
        context.check("413 is shown", "413" in page.text("#panel-queue li.refused .problem"), True)
        page.press("Send again")
        page.wait_sent()


def hidden_text(page: Page) -> bool:
    return "(401)" in page.script("return document.getElementById('panel-queue').textContent")


def basket_survives(context: Context) -> None:
    """The basket survives a reload, and is the same in two tabs."""
    with site(context, "basket", town()) as made, browser() as page:
        page.open(made.address)
        add_point(page, "B1")
        page.reload()
        context.check("after a reload", page.text("#basket-count"), "1")
        page.driver.switch_to.new_window("tab")
        page.open(made.address)
        add_point(page, "B2")
        page.driver.switch_to.window(page.driver.window_handles[0])
        page.wait("both edits", lambda: page.text("#basket-count") == "2")
        page.save()
        page.wait_sent()
        edits = json.loads(made.relay.batches[0][0])["edits"]
        context.check("one batch", [edit["feature"]["id"] for edit in edits], ["B1", "B2"])
        page.driver.switch_to.window(page.driver.window_handles[1])
        page.wait("an empty basket", lambda: page.text("#basket-count") == "")
        large_basket(context, page)


# Keeps the list of towns locked, which the panel of the queue reads last, until released.
LOCK = """
const done = arguments[0];
const request = indexedDB.open("streetmap-towns");
request.onsuccess = () => {
    const table = request.result.transaction(["towns"], "readwrite").objectStore("towns");
    const hold = () => {
        done();
        if (!window.letGo) table.get("").onsuccess = hold;
        else request.result.close();
    };
    hold();
};
"""
# Another tab changed the first batch. Reads come in order, so the page's own is over after some.
CHANGE = """
const done = arguments[0];
const request = indexedDB.open("streetmap");
request.onsuccess = () => {
    const names = ["queue", "basket"];
    const table = request.result.transaction(names, "readwrite").objectStore("queue");
    table.getAll().onsuccess = ({ target: { result: [batch] } }) => {
        const refusal = { ...batch.refusal, description: "Changed." };
        table.put({ ...batch, refusal }).onsuccess = () => read(50);
    };
    const read = (times) => {
        if (times === 50) new BroadcastChannel("streetmap").postMessage("queue");
        if (times === 0) return done();
        const one = request.result.transaction(names);
        one.objectStore("basket").count();
        one.oncomplete = () => setTimeout(() => read(times - 1), 10);
    };
};
"""


def shown_in_order(context: Context) -> None:
    """A change of the queue that is shown slowly does not hide a later one of the basket."""
    with site(context, "order", town()) as made, browser() as page:
        page.open(made.address)
        made.relay.canned.append(response("413 Payload Too Large", "<html>", "text/html"))
        add_point(page, "O1")
        page.save()
        page.wait_text("#queue-state", "refused")
        page.driver.execute_async_script(LOCK)
        page.driver.execute_async_script(CHANGE)
        page.press("Point", "#tools")
        page.click_at(*page.view()[:2])
        page.press("Put in basket")
        page.wait("the edit", lambda: page.stored("basket"))
        page.script("window.letGo = true")
        page.wait_text("#panel-queue", "Changed.")
        shown = page.until("1", lambda: page.text("#basket-count"), 10)
        context.check("the basket", shown, "1")


CUT = """(() => {
    const edit = (n) => ({op: "insert", collection: "lamps", id: `${n}`, base: null,
        feature: {type: "Feature", id: `${n}`, geometry: null, properties: {a: given[1]}}});
    return it.cut([...Array(given[0]).keys()].map(edit));
})()"""
LENGTHS = f"""{CUT}.map((part) => it.batchText("k".repeat(64), part))
    .map((text) => new TextEncoder().encode(text).length)"""


def large_basket(context: Context, page: Page) -> None:
    """A basket that is larger than a batch is cut; keys fit their rule."""
    check = context.check
    sizes = f"{CUT}.map((part) => part.length)"
    check("by edits", page.module("batch", sizes, 20_001, ""), [10_000, 10_000, 1])
    check("by bytes", page.module("batch", sizes, 20, "ß" * 400_000), [10, 10])
    lengths = page.module("batch", LENGTHS, 20, "ß" * 400_000)
    check("below the limit", [7_000_000 < it <= 8_388_608 for it in lengths], [True] * 2)
    name = "Łukasz Müller-Lüdenscheidt & Söhne (Außendienst)"
    key = page.module("batch", "it.newKey(it.userOf(given[0]))", name)
    is_plain = key.isascii() and set("/ &()").isdisjoint(key)
    check("a key", (len(key) <= 64, is_plain), (True, True))


PARTS = (stood_in, cut_off, killed, two_tabs_lost, basket_survives, shown_in_order)
