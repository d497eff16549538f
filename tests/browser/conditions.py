"""What others write between a comparison and its batch, and while answers are lost: with tags
nobody is overwritten unseen. Without them somebody is, as the documents say."""

import contextlib
import shutil
from collections.abc import Iterator
from typing import Any

from conditional import NONE, TAGS, Options
from harness import Context

from browser.browsers import browser
from browser.merging import change, theirs
from browser.page import NOT_YET, Page
from browser.relay import response
from browser.site import Site, site
from browser.towns import town

# Each scenario runs over both: without tags it shows what is lost today.
BOTH_WAYS = (("with tags", TAGS), ("without", NONE))
WORN = {"state": "worn"}


@contextlib.contextmanager
def lamp_site(
    context: Context, name: str, options: Options, size: tuple[int, int] = (1280, 800)
) -> Iterator[tuple[Site, Page]]:
    """The lamps, and a page that shows them."""
    kind = "tags" if options.tags else "none"
    with site(context, f"{name}-{kind}", town(), options=options) as made:
        with browser(*size, phone=size[0] < 800) as page:
            page.open(made.address)
            page.wait_shown("lamps", "12")
            yield made, page


def kept(made: Site, name: str = "L01") -> Any:
    return made.features("lamps")[name]["properties"]


def once(made: Site, name: str, **values: Any) -> None:
    """Right before the page's next batch is passed on, another client changes a lamp."""

    def come_first(_: bytes) -> None:
        made.relay.before = lambda _: None
        theirs(made, name, **values)

    made.relay.before = come_first


def statuses(made: Site) -> list[int]:
    """What the page's batches were answered, in order; 0 where the answer was lost or is none."""
    return [int(answer.split(b" ", 2)[1]) if answer else 0 for _, answer in made.relay.batches]


def between(context: Context) -> None:
    """Another writes between the comparison and the batch: another property is merged."""
    for way, options in BOTH_WAYS:
        with lamp_site(context, "between", options) as (made, page):
            change(page, "L01", kind="mine")
            once(made, "L01", **WORN)
            page.save()
            page.wait_sent()
            wanted = {"kind": "mine", "set": kept(made, "L01")["set"]}
            if options.tags:
                wanted |= WORN
            context.check(f"{way}: what is kept", kept(made), wanted)
            keys = made.relay.keys()
            if options.tags:
                context.check("the first one was too late", statuses(made), [412, 200])
                context.check("the merged one has its own key", len(set(keys)), 2)
            else:
                context.check("one batch", statuses(made), [200])


def same_property(context: Context) -> None:
    """Another writes the same property between the comparison and the batch: I am asked."""
    for way, options in BOTH_WAYS:
        with lamp_site(context, "same", options) as (made, page):
            change(page, "L01", kind="mine")
            once(made, "L01", kind="theirs")
            page.save()
            if options.tags:
                page.wait_text("#queue-state", "decide between two changes")
                context.check(f"{way}: theirs is kept", kept(made)["kind"], "theirs")
                page.tab("queue")
                page.press("Decide")
                page.press("Take theirs", "dialog")
            page.wait_sent()
            wanted = "theirs" if options.tags else "mine"
            context.check(f"{way}: at last", kept(made)["kind"], wanted)


def lost_before(context: Context) -> None:
    """A try is lost before the server has it, and another writes before it is repeated."""
    for way, options in BOTH_WAYS:
        with lamp_site(context, "lost", options) as (made, page):
            change(page, "L01", kind="mine")
            made.relay.canned.append(response("502 Bad Gateway", "<html>502</html>", "text/html"))
            once(made, "L01", **WORN)
            page.save()
            page.wait_sent()
            keys = made.relay.keys()
            context.check(f"{way}: the same key again", keys[0] == keys[1], True)
            context.check(f"{way}: what is kept", kept(made).get("state"), worn_if(options))
            wanted = [0, 412, 200] if options.tags else [0, 200]
            context.check(f"{way}: the tries", statuses(made), wanted)


def worn_if(options: Options) -> str | None:
    return WORN["state"] if options.tags else None


def lost_after(context: Context) -> None:
    """A try acts and its answer is lost, and another writes: its repetition is answered as ever."""
    for way, options in BOTH_WAYS:
        with lamp_site(context, "acted", options) as (made, page):
            change(page, "L01", kind="mine")

            def loses() -> bool:
                made.relay.loses = lambda: False
                theirs(made, "L01", **WORN)
                return True

            made.relay.loses = loses
            page.save()
            page.wait_sent()
            keys = made.relay.keys()
            context.check(f"{way}: the same key again", (len(keys), len(set(keys))), (2, 1))
            lamp = kept(made)
            context.check(f"{way}: both", (lamp["kind"], lamp["state"]), ("mine", "worn"))
            serials = [reply["serial"] for reply in made.relay.accepted()]
            context.check(f"{way}: one acceptance", serials, [2, 2])


def from_primary(context: Context) -> None:
    """A follower is late: what is compared comes from the primary, with tags and without."""
    for way, options in BOTH_WAYS:
        with lamp_site(context, "primary", options) as (made, page):
            behind(context, made, page)
            lamp = kept(made)
            got = lamp["kind"], lamp.get("state")
            context.check(f"{way}: what is kept", got, ("mine", "worn"))


def from_follower(context: Context) -> None:
    """nginx does not know that yet: the batch waits until the follower has caught up. Without tags
    what it did not have is lost."""
    for way, options in BOTH_WAYS:
        with lamp_site(context, "follower", options) as (made, page):
            made.relay.knows_primary = False
            behind(context, made, page)
            lamp = kept(made)
            got = lamp["kind"], lamp.get("state")
            context.check(f"{way}: what is kept", got, ("mine", worn_if(options)))


def behind(context: Context, made: Site, page: Page) -> None:
    """I change a lamp that another has changed, which the follower does not know."""
    with contextlib.ExitStack() as running:
        made.relay.follower = follower_of(made, running)
        theirs(made, "L01", **WORN)
        change(page, "L01", kind="mine")
        page.save()
        if made.options.tags and not made.relay.knows_primary:
            page.wait("two tries", lambda: len(made.relay.batches) >= 2)
            context.check("nothing was acted on", kept(made)["kind"], "lamp")
            made.relay.follower = None
        page.wait_sent()
        made.relay.follower = None


def follower_of(made: Site, running: contextlib.ExitStack) -> int:
    """Serves a copy of the town as it is now. Returns its port."""
    made.stop()
    copy = made.file.with_name(f"copy-{made.file.name}")
    for file in made.file.parent.glob(f"{made.file.stem}.*"):
        shutil.copy(file, copy.parent / file.name.replace(made.file.stem, copy.stem))
    made.start()
    return made.serve(running, copy)[1]


def crowded(context: Context) -> None:
    """Others come first each time: the page goes on, and says so after a few times."""
    with lamp_site(context, "crowded", TAGS) as (made, page):
        change(page, "L01", kind="mine")
        made.relay.before = lambda _: void(made.edit(f"other-{len(made.relay.batches)}"))
        page.save()
        page.wait_text("#queue-state", "others are quicker again and again")
        page.tab("queue")
        page.wait_text("#panel-queue", "times another batch was accepted")
        context.check("it was not acted on", kept(made)["kind"], "lamp")
        # During a try it is not.
        wanted = ["Try now", "Back to basket", "Drop"]
        found = page.until(wanted, lambda: page.texts("#panel-queue li.batch .buttons button"))
        context.check("it is free", found, wanted)
        made.relay.before = lambda _: None
        # The page may have begun a try by itself meanwhile.
        with contextlib.suppress(*NOT_YET):
            page.press_if_there("Try now")
        page.wait_sent(120)
        context.check("at last", kept(made)["kind"], "mine")
        context.check("under one key", len(set(made.relay.keys())), 1)


def void(_: Any) -> None:
    """Nothing."""


def reloaded(context: Context) -> None:
    """The page is closed after a try that was lost: the next one has the same condition."""
    with lamp_site(context, "reloaded", TAGS) as (made, page):
        change(page, "L01", kind="mine")
        made.relay.before = lambda _: setattr(made.relay, "server", None)
        page.save()
        page.wait_text("#queue-state", "1 batch waits")
        page.wait("a try", lambda: len(made.relay.batches) >= 1)
        made.relay.before = lambda _: None
        page.go("about:blank")
        made.stop()
        made.start()
        theirs(made, "L01", **WORN)
        page.open(made.address)
        page.wait_sent()
        lamp = kept(made)
        context.check("both", (lamp["kind"], lamp.get("state")), ("mine", "worn"))
        context.check("the repetition was too late", 412 in statuses(made), True)


SLOWEST = (from_follower, from_primary, crowded)
PARTS = (*SLOWEST, between, same_property, lost_before, lost_after, reloaded)
