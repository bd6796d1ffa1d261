"""One browser for all tests, and the page in it as a person handles it."""

from __future__ import annotations

import subprocess
import time
import unittest
from pathlib import Path
from typing import Any, Callable

from selenium import webdriver
from selenium.webdriver.chrome.options import Options
from selenium.webdriver.chrome.service import Service
from selenium.webdriver.chrome.webdriver import WebDriver
from selenium.webdriver.common.action_chains import ActionChains
from selenium.webdriver.remote.webelement import WebElement

TOP = Path(__file__).resolve().parents[2]

#: Where the tests leave files and pictures.
OUT = TOP / "target" / "web"
DOWNLOADS = OUT / "downloads"
PAGE = OUT / "page.html"

_driver: WebDriver | None = None

#: Whether the present card and summary are those of a whole working, which the page's own state has no part in.
RIGHT = """
const p = gearcardPage.present();
const card = gearcard.work(p.vehicle, p.speeds, p.holds);
return card.length === p.card.length && card.every((byte, k) => byte === p.card[k])
  && JSON.stringify(gearcard.summary(p.speeds, card)) === JSON.stringify(p.summary);
"""

PRESENT = """
const p = gearcardPage.present();
return {...p, speeds: Array.from(p.speeds), holds: Array.from(p.holds), card: Array.from(p.card)};
"""


def gearcard(*words: str | Path) -> subprocess.CompletedProcess[str]:
    """A word of ./gearcard."""
    return subprocess.run([str(TOP / "gearcard"), *map(str, words)], capture_output=True, text=True, stdin=subprocess.DEVNULL)


def long_job() -> Path:
    """A job of the longest trace: the Class 3 cycle nine times, as durability benches join them, and rest to 16,384 seconds."""
    from gearcard import read, write

    path = OUT / "longest.job"
    job = read((TOP / "examples" / "class-3.job").read_bytes())
    speeds = [*(9 * list(job.speeds)), *(16384 - 9 * len(job.speeds)) * [0]]
    path.write_bytes(write(job.vehicle, speeds))
    return path


def untyped(part: Any) -> Any:
    """A part of Selenium, for those of its calls that it gives no types."""
    return part


def options(*more: str) -> Options:
    """How the browser is started."""
    found = Options()
    found.binary_location = "/usr/bin/chromium"
    for word in ("--headless=new", "--no-sandbox", "--hide-scrollbars", "--window-size=1280,900", "--disable-dev-shm-usage", *more):
        untyped(found).add_argument(word)
    # Two files are saved at once, which a person is asked for once.
    settings = {"download.default_directory": str(DOWNLOADS), "download.prompt_for_download": False}
    settings["profile.default_content_setting_values.automatic_downloads"] = 1
    found.add_experimental_option("prefs", settings)
    found.set_capability("goog:loggingPrefs", {"browser": "ALL"})
    return found


def driver() -> WebDriver:
    """The browser, started with the first test, and the page, made with it."""
    global _driver
    if _driver is None:
        DOWNLOADS.mkdir(parents=True, exist_ok=True)
        done = gearcard("page", "-o", PAGE)
        if done.returncode != 0:
            raise RuntimeError(done.stderr)
        _driver = webdriver.Chrome(options=options(), service=Service("/usr/bin/chromedriver"))
        _driver.set_script_timeout(300)
    return _driver


def end() -> None:
    if _driver is not None:
        _driver.quit()


def until(what: str, found: Callable[[], Any], seconds: float = 20) -> Any:
    """Waits for what must come true."""
    limit = time.monotonic() + seconds
    while True:
        value = found()
        if value:
            return value
        if time.monotonic() > limit:
            raise AssertionError(f"it did not come true: {what}")
        time.sleep(0.01)


class PageTest(unittest.TestCase):
    """A test on a page freshly opened. It fails too where the browser's log has a word: an error, or something that the policy did not allow."""

    page = PAGE
    size = (1280, 800)

    def setUp(self) -> None:
        self.browser = driver()
        self.open()

    def tearDown(self) -> None:
        said = self.logged()
        self.close_others()
        self.assertEqual(said, [], "the browser's log")

    def open(self, page: Path | None = None) -> None:
        self.resize(*self.size)
        self.load(page or self.page)
        # The record that a test before left is not this one's.
        if self.js("const found = localStorage.length > 0; localStorage.clear(); return found"):
            self.load(page or self.page)

    def load(self, page: Path) -> None:
        self.browser.get(page.as_uri())
        until("the page is ready", lambda: self.js("return document.documentElement.dataset.ready !== undefined"))

    def logged(self) -> list[str]:
        """What the browser's log has had since it was last asked for."""
        return [entry["message"] for entry in untyped(self.browser).get_log("browser")]

    def close_others(self) -> None:
        main, *others = self.browser.window_handles
        for other in others:
            self.browser.switch_to.window(other)
            self.browser.close()
        self.browser.switch_to.window(main)

    def resize(self, width: int, height: int) -> None:
        self.cdp("Emulation.setDeviceMetricsOverride", width=width, height=height, deviceScaleFactor=1, mobile=False)

    def cdp(self, word: str, **values: Any) -> Any:
        return self.browser.execute_cdp_cmd(word, values)

    def js(self, script: str, *values: Any) -> Any:
        return untyped(self.browser).execute_script(script, *values)

    def element(self, name: str) -> WebElement:
        return self.browser.find_element("id", name)

    def text(self, name: str) -> str:
        text: str = self.js("return document.getElementById(arguments[0]).textContent", name)
        return text

    def click(self, name: str) -> None:
        self.element(name).click()

    def actions(self) -> Any:
        """What hands do next, as Selenium takes it."""
        return untyped(ActionChains)(self.browser, duration=0)

    def keys(self, *words: str) -> None:
        """Keys for whatever has the focus."""
        self.actions().send_keys(*words).perform()

    def chord(self, *words: str) -> None:
        *held, last = words
        chain = self.actions()
        for word in held:
            chain.key_down(word)
        chain.send_keys(last)
        for word in held:
            chain.key_up(word)
        chain.perform()

    def write(self, name: str, text: str) -> None:
        field = self.element(name)
        field.clear()
        field.send_keys(text)

    def choose(self, first: int, last: int | None = None) -> None:
        """Seconds by the two fields, and the focus on the picture."""
        self.write("from", str(first))
        self.write("to", str(first if last is None else last))
        self.js("document.getElementById('range').requestSubmit(); document.getElementById('chart').focus()")

    def mend(self, text: str) -> None:
        self.write("speed", text)
        self.js("document.getElementById('mend').requestSubmit(); document.getElementById('chart').focus()")

    def present(self) -> dict[str, Any]:
        state: dict[str, Any] = self.js(PRESENT)
        return state

    def alert(self) -> str:
        """The line that says what was refused; empty where there is none."""
        words: str = self.js("const line = document.getElementById('alert'); return line.hidden ? '' : line.textContent")
        return words

    def take(self, path: Path) -> None:
        """Opens a file by the dialog's field."""
        self.element("file").send_keys(str(path))

    def take_longest(self) -> None:
        self.take(long_job())
        until("the longest job is open", lambda: self.present()["name"] == "longest.job")

    def assertRight(self) -> None:
        self.assertTrue(self.js(RIGHT), "the present state is what a whole working gives")
