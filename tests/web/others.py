"""Browsers of other engines, each started once: WebKit by Debian's WebKitWebDriver and Selenium, Firefox by its own Marionette, over a socket."""

from __future__ import annotations

import base64
import glob
import json
import os
import shutil
import signal
import socket
import subprocess
import tempfile
import time
from pathlib import Path
from typing import Any

from selenium import webdriver
from selenium.webdriver.webkitgtk.options import Options

from .browser import until, untyped

#: The key of an element in what the drivers say.
ELEMENT = "element-6066-11e4-a52e-4f735466cecf"


def free_port() -> int:
    with socket.socket() as found:
        found.bind(("127.0.0.1", 0))
        port: int = found.getsockname()[1]
        return port


def ended(process: subprocess.Popen[bytes]) -> None:
    """A process and what it has started, which is a session of its own."""
    os.killpg(process.pid, signal.SIGTERM)
    try:
        process.wait(10)
    except subprocess.TimeoutExpired:
        os.killpg(process.pid, signal.SIGKILL)
        process.wait()


class WebKit:
    """On a screen that nobody sees."""

    def __init__(self) -> None:
        self.screen, display = self.opened()
        port = free_port()
        environment = {**os.environ, "DISPLAY": f":{display}", "WEBKIT_DISABLE_SANDBOX_THIS_IS_DANGEROUS": "1", "LIBGL_ALWAYS_SOFTWARE": "1"}
        words = ["WebKitWebDriver", f"--port={port}"]
        self.service = subprocess.Popen(words, env=environment, stdout=subprocess.DEVNULL, stderr=subprocess.DEVNULL, start_new_session=True)
        until("the driver listens", lambda: self.listens(port))
        options = Options()
        options.binary_location = sorted(glob.glob("/usr/lib/*/webkit2gtk-4.*/MiniBrowser"))[-1]
        untyped(options).add_argument("--automation")
        self.driver = webdriver.Remote(f"http://127.0.0.1:{port}", options=options)
        self.driver.set_script_timeout(300)

    @staticmethod
    def opened() -> tuple[subprocess.Popen[bytes], str]:
        """A screen, and its number."""
        reading, writing = os.pipe()
        words = ["Xvfb", "-displayfd", str(writing), "-screen", "0", "1920x1080x24", "-nolisten", "tcp"]
        screen = subprocess.Popen(words, pass_fds=[writing], stderr=subprocess.DEVNULL, start_new_session=True)
        os.close(writing)
        with os.fdopen(reading) as said:
            return screen, said.readline().strip()

    @staticmethod
    def listens(port: int) -> bool:
        with socket.socket() as tried:
            return tried.connect_ex(("127.0.0.1", port)) == 0

    def end(self) -> None:
        self.driver.quit()
        ended(self.service)
        ended(self.screen)

    def get(self, url: str) -> None:
        self.driver.get(url)

    def reload(self) -> None:
        self.driver.refresh()

    def js(self, script: str, *values: Any) -> Any:
        return untyped(self.driver).execute_script(script, *values)

    def later(self, script: str, *values: Any) -> Any:
        return self.driver.execute_async_script(script, *values)

    def click(self, name: str) -> None:
        self.driver.find_element("id", name).click()

    def type(self, name: str, text: str) -> None:
        self.driver.find_element("id", name).send_keys(text)

    def resize(self, width: int, height: int) -> None:
        self.driver.set_window_rect(0, 0, width, height)

    def picture(self, path: Path) -> None:
        self.driver.save_screenshot(str(path))

    def windows(self) -> list[str]:
        return self.driver.window_handles

    def window(self) -> str:
        return self.driver.current_window_handle

    def switch(self, window: str) -> None:
        self.driver.switch_to.window(window)

    def close(self) -> None:
        self.driver.close()


class Firefox:
    """Without a driver: it takes the same words by itself."""

    def __init__(self) -> None:
        self.profile = Path(tempfile.mkdtemp())
        settings = {"marionette.port": 0, "dom.disable_open_during_load": False, "toolkit.startup.max_resumed_crashes": -1}
        (self.profile / "user.js").write_text("".join(f"user_pref({json.dumps(key)}, {json.dumps(value)});\n" for key, value in settings.items()))
        words = ["firefox-esr", "--headless", "--marionette", "--no-remote", "--profile", str(self.profile)]
        environment = {**os.environ, "HOME": str(self.profile), "MOZ_HEADLESS_WIDTH": "1280", "MOZ_HEADLESS_HEIGHT": "900"}
        self.process = subprocess.Popen(words, env=environment, stdout=subprocess.DEVNULL, stderr=subprocess.DEVNULL, start_new_session=True)
        port = until("it listens", self.port, 120)
        self.socket = socket.create_connection(("127.0.0.1", port), 330)
        self.count = 0
        self.heard()
        self.ask("WebDriver:NewSession", {})
        self.ask("WebDriver:SetTimeouts", {"script": 300000})

    def port(self) -> int:
        file = self.profile / "MarionetteActivePort"
        text = file.read_text() if file.exists() else ""
        return int(text) if text.isdigit() else 0

    def heard(self) -> Any:
        length = b""
        while not length.endswith(b":"):
            length += self.socket.recv(1)
        data = b""
        while len(data) < int(length[:-1]):
            data += self.socket.recv(int(length[:-1]) - len(data))
        return json.loads(data)

    def ask(self, word: str, values: dict[str, Any]) -> Any:
        self.count += 1
        data = json.dumps([0, self.count, word, values]).encode()
        self.socket.sendall(b"%d:%s" % (len(data), data))
        _, _, wrong, found = self.heard()
        if wrong is not None:
            raise RuntimeError(f"{wrong['error']}: {wrong['message']}")
        return found["value"] if isinstance(found, dict) and list(found) == ["value"] else found

    def end(self) -> None:
        self.socket.close()
        ended(self.process)
        shutil.rmtree(self.profile, ignore_errors=True)

    def get(self, url: str) -> None:
        self.ask("WebDriver:Navigate", {"url": url})

    def reload(self) -> None:
        self.ask("WebDriver:Refresh", {})

    def js(self, script: str, *values: Any) -> Any:
        return self.ask("WebDriver:ExecuteScript", {"script": script, "args": list(values)})

    def later(self, script: str, *values: Any) -> Any:
        return self.ask("WebDriver:ExecuteAsyncScript", {"script": script, "args": list(values)})

    def found(self, name: str) -> str:
        element: str = self.ask("WebDriver:FindElement", {"using": "css selector", "value": f"#{name}"})[ELEMENT]
        return element

    def click(self, name: str) -> None:
        self.ask("WebDriver:ElementClick", {"id": self.found(name)})

    def type(self, name: str, text: str) -> None:
        self.ask("WebDriver:ElementSendKeys", {"id": self.found(name), "text": text})

    def resize(self, width: int, height: int) -> None:
        self.ask("WebDriver:SetWindowRect", {"width": width, "height": height})

    def picture(self, path: Path) -> None:
        path.write_bytes(base64.b64decode(self.ask("WebDriver:TakeScreenshot", {"full": False})))

    def windows(self) -> list[str]:
        handles: list[str] = self.ask("WebDriver:GetWindowHandles", {})
        return handles

    def window(self) -> str:
        handle: str = self.ask("WebDriver:GetWindowHandle", {})
        return handle

    def switch(self, window: str) -> None:
        self.ask("WebDriver:SwitchToWindow", {"handle": window})

    def close(self) -> None:
        self.ask("WebDriver:CloseWindow", {})


_started: dict[type, WebKit | Firefox] = {}


def started(kind: type[WebKit] | type[Firefox]) -> WebKit | Firefox:
    if kind not in _started:
        begun = time.monotonic()
        _started[kind] = kind()
        print(f"web: {kind.__name__} was there after {time.monotonic() - begun:.1f} s")
    return _started[kind]


def end() -> None:
    for each in _started.values():
        each.end()
