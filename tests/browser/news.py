"""What others changed comes by itself, if the server has the options for that; and two pages that
edit one lamp."""

import time
from collections.abc import Callable
from typing import Any

from conditional import BOTH, NONE, TAGS, Options
from harness import Context

from browser.browsers import browser
from browser.merging import change, theirs
from browser.page import Page
from browser.site import Site, site
from browser.towns import delete, feature, insert, opened, point, town

WAYS = (("by changes", BOTH), ("by tags", TAGS), ("without", NONE))
# The page looks again within this number of seconds, and some more on a busy machine.
LOOKS = 20
SIZES = ((1280, 800), (390, 844))
HIDDEN = "return document.getElementById('last-counts')?.checkVisibility() ?? false"


def asked(made: Site, since: int) -> set[tuple[str, int]]:
    """What was read since, without its query, and how it was answered."""
    return {(target.partition("?")[0], status) for target, status in made.relay.reads[since:]}


def kinds(asked_for: set[tuple[str, int]]) -> list[str]:
    return sorted({path.rpartition("/")[2] for path, _ in asked_for})


def look(page: Page) -> None:
    """Has the page look at once, as it does when a person comes back to it."""
    page.script("document.dispatchEvent(new Event('visibilitychange'))")


def quiet(context: Context, page: Page, made: Site, way: str, options: Options) -> None:
    """While nothing changes, what is requested is answered 304; without tags nothing is."""
    if options == TAGS:
        # The first look learns that the server does not give changes.
        look(page)
        page.wait("a look", lambda: ("/changes", 404) in asked(made, 0))
        page.wait("its end", lambda: made.relay.reads[-1][1] == 304)
    since = len(made.relay.reads)
    if options == NONE:
        time.sleep(LOOKS)
    else:
        page.wait("a look by itself", lambda: len(made.relay.reads) > since)
    path = "/changes" if options.changes else "/collections"
    wanted = set() if options == NONE else {(path, 304)}
    context.check(f"{way}: nothing new", asked(made, since), wanted)


def news(context: Context) -> None:
    """Another adds, changes and deletes: the map, the panel and what is kept have it."""
    for way, options in WAYS:
        name = way.replace(" ", "-")
        with site(context, f"news-{name}", town(), options=options) as made, browser() as page:
            page.open(made.address)
            page.wait_shown("lamps", "12")
            quiet(context, page, made, way, options)
            page.choose("L01")
            since = len(made.relay.reads)
            made.edit("one", insert("lamps", point("N1", 36_000, 10_000)), delete("lamps", "L12"))
            made.edit("two", insert("lamps", point("N2", 37_000, 10_000)))
            theirs(made, "L01", kind="mast")
            if options == NONE:
                page.tab("collections")
                page.press("Ask again")
            elif options == TAGS:
                look(page)
            page.wait_shown("lamps", "13")
            page.wait_text("#panel-feature", "mast")
            read = kinds(asked(made, since))
            wanted = {BOTH: ["changes"], TAGS: ["collections", "items"], NONE: ["items"]}
            context.check(f"{way}: what was requested", read, wanted[options])
            page.tab("settings")
            context.check(f"{way}: the last counts", page.script(HIDDEN), options == NONE)
            kept(context, page, made, way)


def kept(context: Context, page: Page, made: Site, way: str) -> None:
    """Without a network the page shows what came."""

    def ids() -> list[str]:
        return sorted(row["id"] for row in page.stored("features"))

    wanted = sorted(made.features("lamps"))
    context.check(f"{way}: what is kept", page.until(wanted, ids), wanted)


def unsure(context: Context) -> None:
    """A line that may reach into the view: the server says whether it does. And a collection."""
    with site(context, "unsure", town(), options=BOTH) as made, browser() as page:
        page.open(made.address)
        page.wait_shown("lamps", "12")
        since = len(made.relay.reads)
        beside = [[-900_000, 40_000], [40_000, -900_000]]
        line = feature("X1", {"type": "LineString", "coordinates": beside})
        made.edit("line", insert("lamps", line))
        look(page)
        page.wait("the view", lambda: "items" in kinds(asked(made, since)))
        context.check("the view is read", kinds(asked(made, since)), ["changes", "items"])
        page.wait_shown("lamps", "12")
        made.edit("opened", opened("trees", "Trees"), insert("trees", point("T1", 36_000, 12_000)))
        look(page)
        page.wait_shown("trees", "1")


def opened_early(context: Context) -> None:
    """The server does not answer a page that knows nothing: it asks again by itself."""
    with site(context, "early", town()) as made, browser() as page:
        port, made.relay.server = made.relay.server, None
        page.open(made.address)
        made.relay.server = port
        page.wait_shown("lamps", "12")


def two_pages(context: Context, keep: Callable[[str, Page], Any] = lambda name, page: None) -> None:
    """Two pages edit one lamp: what each changed is merged, what both changed is asked, and each
    shows at last what the other did. Who wants to see that is given the pages to keep pictures."""
    for size in SIZES:
        width, is_phone = size[0], size[0] < 800
        with site(context, f"two-{width}", town(), options=BOTH) as made:
            with browser(*size, phone=is_phone) as one, browser(*size, phone=is_phone) as other:
                for page in (one, other):
                    page.open(made.address)
                    page.wait_shown("lamps", "12")
                other_properties(context, made, one, other)
                one_property(context, made, one, other, lambda *it: keep(f"{width}-{it[0]}", it[1]))


def other_properties(context: Context, made: Site, one: Page, other: Page) -> None:
    change(one, "L01", kind="mast")
    change(other, "L01", set="2025-05-05")
    for page, name in ((one, "Anna"), (other, "Ben")):
        page.save(name)
        page.wait_sent()
    lamp = made.features("lamps")["L01"]["properties"]
    context.check("both are kept", lamp, {"kind": "mast", "set": "2025-05-05"})


def one_property(
    context: Context, made: Site, one: Page, other: Page, keep: Callable[[str, Page], Any]
) -> None:
    for page, kind in ((one, "globe"), (other, "lantern")):
        change(page, "L02", kind=kind)
    one.save()
    one.wait_sent()
    other.save()
    other.wait_text("#queue-state", "decide between two changes")
    kind = made.features("lamps")["L02"]["properties"]["kind"]
    context.check("the first is not overwritten", kind, "globe")
    other.tab("queue")
    keep("queue", other)
    other.press("Decide")
    keep("asked", other)
    other.press("Keep mine", "dialog")
    other.wait_sent()
    one.choose("L02")
    one.wait_text("#panel-feature", "lantern")
    keep("seen", one)
    kind = made.features("lamps")["L02"]["properties"]["kind"]
    context.check("as was decided", kind, "lantern")


PARTS = (news, two_pages, unsure, opened_early)
