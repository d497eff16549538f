"""An area is taken along: progress, size and age; it goes on after a cut, and stays."""

from typing import Any

from harness import Context

from browser.browsers import browser
from browser.looking import COUNT
from browser.page import Page
from browser.site import Site, site
from browser.towns import insert, opened, point, town

# More than the page shows of a view, so that the area has what was never viewed.
MANY = 5_200
EACH = 1_300


def dots(made: Site) -> None:
    """Points along a line, a metre apart, in several batches."""
    made.edit("dots", opened("dots", "Dots"))
    for start in range(0, MANY, EACH):
        features = [point(f"D{n:05}", n * 1000, 0, n=n) for n in range(start, start + EACH)]
        made.edit(f"dots-{start}", *(insert("dots", it) for it in features))


def cut_after(made: Site, pages: int) -> list[bytes]:
    """Lets `pages` further pages pass, and then none. Returns the requests that passed."""
    passed: list[bytes] = []
    pass_on = made.relay._pass_on

    def lossy(request: bytes) -> bytes:
        # Not a request for a count, but for a page.
        if b"limit=1000" not in request.partition(b"\r\n")[0]:
            return pass_on(request)
        if len(passed) >= pages:
            return b""
        passed.append(request.partition(b"\r\n")[0])
        return pass_on(request)

    made.relay.__dict__["_pass_on"] = lossy
    return passed


def heal(made: Site) -> list[bytes]:
    """Lets all pass again."""
    del made.relay.__dict__["_pass_on"]
    return cut_after(made, 10**9)


def area(page: Page) -> str:
    return page.text(".area .what")


def cut(context: Context) -> None:
    """The walk is cut, the page loaded again, and it goes on there; then the network is gone."""
    with site(context, "taken") as made, browser() as page:
        dots(made)
        page.open(made.address)
        page.wait_kept()
        page.wait_shown("dots", "5,000 of 5,200")
        passed = cut_after(made, 3)
        page.click("#take-along")
        page.wait_text(".area .problem", "It goes on later")
        context.check("how far", area(page).startswith("3,000 of 5,200 features, "), True)
        bar = "const it = document.querySelector('.area progress'); return it.value / it.max"
        context.check("the bar", round(page.script(bar), 2), round(3000 / MANY, 2))
        page.reload()
        page.wait_text(".area .what", "3,000 of 5,200 features, ")
        context.check("three pages", len(passed), 3)
        # It may have gone on by itself.
        healed = heal(made)
        page.wait("the rest", lambda: gone_on(page))
        context.check("it went on there", walked(healed), [b"D02999", b"D03999", b"D04999"])
        offline(context, page, made)


def gone_on(page: Page) -> bool:
    """Presses “Go on” while something is left to go on with."""
    if not area(page).startswith("5,200 features, "):
        page.script("document.querySelector('.area.begun button:nth-of-type(2)')?.click()")
    return area(page).startswith("5,200 features, ")


def walked(requests: list[bytes]) -> list[Any]:
    """After which ids the walk went on; the pages of the view begin without one."""
    wanted = (b"D02999", b"D03999", b"D04999")
    after = [request.partition(b"after=")[2][:6] for request in requests]
    return [name for name in wanted if name in after]


def offline(context: Context, page: Page, made: Site) -> None:
    """What was never viewed is there without a network; the area is let go of."""
    text = area(page)
    context.check("its size and age", ("kB" in text or "MB" in text, "as of" in text), (True, True))
    page.network(False)
    made.stop()
    page.reload()
    page.look_at(5_190, 0, 4)
    shown = page.until(True, lambda: int(page.script(COUNT, "dots") or 0) > 10)
    context.check("what was never looked at", shown, True)
    page.press("Remove", ".area")
    page.wait("no area", lambda: not page.all(".area"))


def sizes(context: Context) -> None:
    """At both sizes: a small area is taken at once, renewed, and kept when it is edited."""
    for size in ((390, 844), (1280, 800)):
        with site(context, f"area-{size[0]}", town()) as made:
            with browser(*size, phone=size[0] < 800) as page:
                page.open(made.address)
                page.wait_shown("lamps", "12")
                page.tab("collections")
                page.click("#take-along")
                page.wait_text(".area .what", "as of")
                context.check("all are kept", kept(page), 12)
                page.press("Renew", ".area")
                page.wait_text(".area .what", "as of")
                context.check("it is one area", len(page.all(".area")), 1)
                edited(context, page)


def kept(page: Page) -> int:
    return sum(row.get("kept") is True for row in page.stored("features"))


def edited(context: Context, page: Page) -> None:
    page.choose("L01")
    page.press("Edit", "#panel-feature")
    page.press("Add a property")
    page.all(".properties input")[-2].send_keys("note")
    page.all(".properties input")[-1].send_keys("x")
    page.press("Put in basket")
    page.wait("the basket", lambda: page.text("#basket-count") == "1")
    page.save()
    page.wait_sent()
    context.check("an edited one is kept", page.until(12, lambda: kept(page)), 12)


PARTS = (cut, sizes)
