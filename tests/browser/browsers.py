"""Browsers without anything kept. A thread starts one, and uses it again for its next part."""

import contextlib
import threading
from collections.abc import Iterator

from selenium import webdriver
from selenium.common.exceptions import WebDriverException
from selenium.webdriver.chrome.options import Options
from selenium.webdriver.chrome.service import Service
from selenium.webdriver.remote.remote_connection import RemoteConnection

from browser.page import SECONDS, Page

WORDS = (
    "--headless=new",
    "--no-sandbox",
    "--disable-dev-shm-usage",
    "--hide-scrollbars",
    # Tabs that are covered by another go on as they do for a short while.
    "--disable-background-timer-throttling",
    "--disable-renderer-backgrounding",
)


class Idle(threading.local):
    """The browsers of a thread that no part uses; None while the thread keeps none."""

    drivers: list[webdriver.Chrome] | None = None


IDLE = Idle()


def started() -> webdriver.Chrome:
    """A new browser. A command that it does not answer fails, and does not hang."""
    options = Options()
    options.binary_location = "/usr/bin/chromium"
    for word in WORDS:
        options.add_argument(word)
    options.accept_insecure_certs = True
    options.set_capability("goog:loggingPrefs", {"browser": "ALL"})
    RemoteConnection.set_timeout(SECONDS + 60)
    driver = webdriver.Chrome(service=Service("/usr/bin/chromedriver"), options=options)
    driver.set_script_timeout(SECONDS)
    driver.set_page_load_timeout(SECONDS)
    return driver


def quit_quietly(driver: webdriver.Chrome) -> None:
    with contextlib.suppress(WebDriverException, OSError):
        driver.quit()


@contextlib.contextmanager
def kept_browsers() -> Iterator[None]:
    """Within the block this thread keeps its browsers for the next part."""
    IDLE.drivers = []
    try:
        yield
    finally:
        for driver in IDLE.drivers:
            quit_quietly(driver)
        IDLE.drivers = None


def cleared(page: Page) -> bool:
    """Leaves one new tab, and nothing of what the page's origins kept. Gives whether that went."""
    driver = page.driver
    try:
        before = driver.window_handles
        driver.switch_to.new_window("tab")
        fresh = driver.current_window_handle
        for handle in before:
            driver.switch_to.window(handle)
            driver.close()
        driver.switch_to.window(fresh)
        for origin in page.origins:
            kept = {"origin": origin, "storageTypes": "all"}
            driver.execute_cdp_cmd("Storage.clearDataForOrigin", kept)
        driver.execute_cdp_cmd("Browser.resetPermissions", {})
        driver.get_log("browser")
        return bool(page.until([fresh], lambda: driver.window_handles) == [fresh])
    except WebDriverException:
        return False


def prepare(driver: webdriver.Chrome, size: tuple[int, int], dark: bool, phone: bool) -> None:
    """Gives the first tab the screen and the colours of a device."""
    width, height = size
    driver.set_window_size(width, height)
    if dark:
        feature = {"name": "prefers-color-scheme", "value": "dark"}
        driver.execute_cdp_cmd("Emulation.setEmulatedMedia", {"features": [feature]})
    if phone:
        metrics = {"width": width, "height": height, "deviceScaleFactor": 2, "mobile": True}
        driver.execute_cdp_cmd("Emulation.setDeviceMetricsOverride", metrics)
        driver.execute_cdp_cmd("Emulation.setTouchEmulationEnabled", {"enabled": True})


@contextlib.contextmanager
def browser(
    width: int = 1280, height: int = 800, dark: bool = False, phone: bool = False
) -> Iterator[Page]:
    """A browser, without anything that another kept. After a fault it is not used again."""
    idle = IDLE.drivers
    driver = idle.pop() if idle else started()
    is_fresh = False
    try:
        prepare(driver, (width, height), dark, phone)
        page = Page(driver)
        yield page
        is_fresh = idle is not None and cleared(page)
    finally:
        if idle is not None and is_fresh:
            idle.append(driver)
        else:
            quit_quietly(driver)
