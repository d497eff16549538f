"""The map page in a headless Chromium, as a person has it: pressed, typed at and read."""

import contextlib
import io
import json
import threading
import time
from collections.abc import Callable
from typing import Any, TypeVar
from urllib.parse import parse_qs, urlsplit

from PIL import Image
from selenium import webdriver
from selenium.common.exceptions import (
    ElementClickInterceptedException,
    ElementNotInteractableException,
    StaleElementReferenceException,
)
from selenium.webdriver.common.action_chains import ActionChains
from selenium.webdriver.common.by import By
from selenium.webdriver.common.keys import Keys
from selenium.webdriver.remote.webelement import WebElement

Value = TypeVar("Value")
# The page does within this number of seconds what it has to, however busy the machine is.
SECONDS = 180
# What an element is that is drawn again, not shown yet, or covered while the page moves.
NOT_YET = (
    StaleElementReferenceException,
    ElementNotInteractableException,
    ElementClickInterceptedException,
)
# Set once the group takes too long: nothing is waited for any more.
GIVEN_UP = threading.Event()
# Whether the map shows a place, to a pixel, with all features of its view.
RESTS = """
const [x, y, zoom] = arguments;
const { dataset } = document.getElementById("map");
const miss = Math.max(Math.abs(dataset.x - x), Math.abs(dataset.y - y));
return dataset.state === "rests" && Number(dataset.zoom) === zoom && miss <= 2 ** -zoom;
"""
# The corner that is dragged lies at a place of the window, to a few pixels.
DRAGGED = """
const [x, y] = arguments;
const box = document.querySelector(".leaflet-drag-target")?.getBoundingClientRect();
const near = (from, to, at) => from - 4 <= at && at <= to + 4;
return Boolean(box) && near(box.left, box.right, x) && near(box.top, box.bottom, y);
"""
MAP_BOX = """
const { x, y, width, height } = document.getElementById("map").getBoundingClientRect();
return [x, y, width, height];
"""
OFFLINE = {"offline": True, "latency": 0, "downloadThroughput": 0, "uploadThroughput": 0}
ONLINE = {"offline": False, "latency": 0, "downloadThroughput": -1, "uploadThroughput": -1}


class Page:
    """One tab with the map."""

    def __init__(self, driver: webdriver.Chrome) -> None:
        self.driver = driver
        # The origins that may have kept something in this browser.
        self.origins: set[str] = set()

    # What is there.

    def script(self, text: str, *arguments: Any) -> Any:
        return self.driver.execute_script(text, *arguments)

    def wait(self, what: str, found: Callable[[], Any], seconds: float = SECONDS) -> Any:
        """Waits until something is true, and returns it."""
        end = time.monotonic() + seconds
        while True:
            with contextlib.suppress(*NOT_YET):
                if value := found():
                    return value
            if GIVEN_UP.is_set() or time.monotonic() > end:
                raise TimeoutError(f"{what} did not come: {self.text('body')[:600]!r}")
            time.sleep(0.05)

    def until(self, wanted: Value, found: Callable[[], Value], seconds: float = 60) -> Value:
        """What is found once it is what is wanted, or at last."""
        end = time.monotonic() + seconds
        while True:
            value = found()
            if value == wanted or GIVEN_UP.is_set() or time.monotonic() > end:
                return value
            time.sleep(0.05)

    def all(self, selector: str) -> list[WebElement]:
        return self.driver.find_elements(By.CSS_SELECTOR, selector)

    def one(self, selector: str) -> WebElement:
        found: WebElement = self.wait(selector, lambda: next(iter(self.all(selector)), None))
        return found

    def text(self, selector: str) -> str:
        text = "return document.querySelector(arguments[0])?.innerText ?? ''"
        return str(self.script(text, selector))

    def texts(self, selector: str) -> list[str]:
        """The texts of all such elements as they are now."""
        text = "return [...document.querySelectorAll(arguments[0])].map((it) => it.innerText)"
        found: list[str] = self.script(text, selector)
        return found

    def wait_text(self, selector: str, part: str, seconds: float = SECONDS) -> None:
        self.wait(f"{part!r} in {selector}", lambda: part in self.text(selector), seconds)

    def log(self) -> list[str]:
        """What the browser complained of since the last call."""
        return [entry["message"] for entry in self.driver.get_log("browser")]

    # The page and its tabs.

    def go(self, address: str) -> None:
        """Opens an address, which need not be the map's."""
        if address.startswith("http"):
            self.origins.add("{0.scheme}://{0.netloc}".format(urlsplit(address)))
        self.driver.get(address)

    def open(self, address: str) -> None:
        self.go(address)
        self.wait_ready()

    def reload(self) -> None:
        self.driver.refresh()
        self.wait_ready()

    def wait_ready(self) -> None:
        ready = "return document.documentElement.dataset.ready === 'true'"
        self.wait("the page", lambda: self.script(ready))

    def wait_kept(self) -> None:
        """Waits until the page itself is kept on the device."""
        self.wait(
            "the service worker", lambda: self.script("return !!navigator.serviceWorker.controller")
        )

    def tab(self, name: str) -> None:
        button = self.one(f"#tab-{name}")
        if button.get_attribute("aria-selected") != "true" or self.script(
            "return document.body.matches('.closed')"
        ):
            button.click()

    def press(self, text: str, within: str = "body") -> None:
        """Presses the button with this text."""
        self.wait(f"the button {text!r}", lambda: self.press_if_there(text, within))

    def press_if_there(self, text: str, within: str = "body") -> bool:
        """Presses the button with this text, if it is there now. Returns whether it was."""
        match = (
            "return [...document.querySelectorAll(`${arguments[0]} button`)].find(it =>"
            " it.innerText.trim() === arguments[1] && it.checkVisibility()) ?? null"
        )
        button = self.script(match, within, text)
        if button is not None:
            button.click()
        return button is not None

    def click(self, selector: str) -> None:
        """Presses an element, also if it is drawn again meanwhile or not shown yet."""

        def pressed() -> bool:
            self.one(selector).click()
            return True

        self.wait(selector, pressed)

    def fill(self, selector: str, text: str) -> None:
        field = self.one(selector)
        field.send_keys(Keys.CONTROL, "a")
        field.send_keys(text or Keys.DELETE)

    def network(self, is_there: bool) -> None:
        """Cuts this tab off, or connects it again."""
        conditions = ONLINE if is_there else OFFLINE
        self.driver.execute_cdp_cmd("Network.enable", {})
        self.driver.execute_cdp_cmd("Network.emulateNetworkConditions", conditions)

    # The map.

    def view(self) -> tuple[float, float, float]:
        """The middle in metres, and the zoom, as the address says."""
        words = parse_qs(urlsplit(self.driver.current_url).fragment)
        return float(words["x"][0]), float(words["y"][0]), float(words["z"][0])

    def look_at(self, x: float, y: float, zoom: float = 4) -> None:
        """Moves the view, in metres, and waits until its features are there."""
        self.script(f"location.hash = '#x={x:.3f}&y={y:.3f}&z={zoom}'")
        self.wait("the view", lambda: self.script(RESTS, x, y, zoom))

    def at(self, x: float, y: float) -> tuple[float, float]:
        """The position in the window of a place in metres."""
        middle_x, middle_y, zoom = self.view()
        box = self.script(MAP_BOX)
        scale = 2**zoom
        return (
            box[0] + box[2] / 2 + (x - middle_x) * scale,
            box[1] + box[3] / 2 - (y - middle_y) * scale,
        )

    def mouse(self, kind: str, left: float, top: float, count: int = 0) -> None:
        """An event of the mouse, in pixels of the window; its button is pressed so often."""
        event = {"type": kind, "x": left, "y": top, "clickCount": count}
        button = {"button": "left" if count else "none"}
        self.driver.execute_cdp_cmd("Input.dispatchMouseEvent", event | button)

    def click_at(self, x: float, y: float, times: int = 1) -> None:
        """Presses a place of the map, in metres."""
        left, top = (round(value) for value in self.at(x, y))
        self.mouse("mouseMoved", left, top)
        for count in range(times):
            self.mouse("mousePressed", left, top, count + 1)
            self.mouse("mouseReleased", left, top, count + 1)

    def drag(self, start: tuple[float, float], end: tuple[float, float]) -> None:
        """Drags a corner from one place of the map to another, in metres."""
        pointer = ActionChains(self.driver, duration=100)
        action = pointer.w3c_actions.pointer_action
        (x0, y0), (x1, y1) = self.at(*start), self.at(*end)
        # Leaflet takes the first few pixels for a start, and moves by what comes after them.
        action.move_to_location(round(x0), round(y0)).pointer_down()
        action.move_to_location(round(x0) + 4, round(y0))
        action.move_to_location(round(x1) + 4, round(y1))
        pointer.perform()
        # It follows the pointer a frame later.
        self.wait("the corner", lambda: self.script(DRAGGED, x1, y1))
        ActionChains(self.driver).release().perform()

    def picture(self) -> Image.Image:
        return Image.open(io.BytesIO(self.driver.get_screenshot_as_png())).convert("RGB")

    def colour_at(self, x: float, y: float) -> str:
        """The colour of the picture at a place of the map, as #rrggbb."""
        return self.colours_at((x, y))[0]

    def colours_at(self, *places: tuple[float, float]) -> list[str]:
        """The colours of one picture at places of the map, as #rrggbb."""
        ratio = self.script("return devicePixelRatio")
        at = [self.at(*place) for place in places]
        picture = self.picture()
        pixels = [picture.getpixel((round(left * ratio), round(top * ratio))) for left, top in at]
        return ["#{:02x}{:02x}{:02x}".format(*pixel) for pixel in pixels]

    def wait_shown(self, collection: str, count: str) -> None:
        """Waits until `count` features of a collection are shown."""
        selector = f"#panel-collections li[data-id='{collection}'] .count"
        text = "return document.querySelector(arguments[0])?.textContent"
        self.wait(f"{count} of {collection}", lambda: self.script(text, selector) == count)

    # The basket and the queue.

    def save(self, name: str = "Anna Weiß") -> None:
        """Saves the basket; types the name if the page asks for it."""

        def is_shown() -> bool:
            # On a phone the tab that is shown closes the panel, and the page opens it by itself.
            self.tab("basket")
            return bool(self.one("#save").is_displayed())

        self.wait("the basket", is_shown)
        self.click("#save")
        self.wait("the save", lambda: self.all("dialog #user") or not self.text("#basket-count"))
        if self.all("dialog #user"):
            self.fill("dialog #user", name)
            self.press("Save", "dialog")
        self.wait("an empty basket", lambda: self.text("#basket-count") == "")

    def wait_sent(self, seconds: float = SECONDS) -> None:
        """Waits until the queue is empty."""
        self.wait(
            "an empty queue",
            lambda: self.text("#queue-count") == "" and self.text("#queue-state") == "",
            seconds,
        )

    def choose(self, identifier: str) -> None:
        """Searches a feature by its id."""
        self.tab("collections")
        self.fill("#search-id", identifier)
        self.press("Find")
        self.wait_text("#panel-feature h2", identifier)

    def stored(self, table: str) -> list[Any]:
        """The rows of a table of IndexedDB."""
        text = """
            const [table, done] = arguments;
            const request = indexedDB.open("streetmap");
            request.onsuccess = () => {
                const all = request.result.transaction([table]).objectStore(table).getAll();
                all.onsuccess = () => { request.result.close(); done(JSON.stringify(all.result)); };
            };
        """
        rows: list[Any] = json.loads(self.driver.execute_async_script(text, table))
        return rows

    def module(self, name: str, expression: str, *arguments: Any) -> Any:
        """The value of an expression over the exports `it` of a module."""
        text = f"""
            const done = arguments[arguments.length - 1];
            const given = [...arguments].slice(0, -1);
            import("/map/modules/{name}.js")
                .then(async (it) => done({{value: await ({expression})}}))
                .catch((fault) => done({{fault: String(fault)}}));
        """
        answer = self.driver.execute_async_script(text, *arguments)
        if "fault" in answer:
            raise AssertionError(answer["fault"])
        return answer["value"]
