"""A browser without a window, driven over WebDriver (a W3C recommendation): Debian's chromium with chromium-driver. For tests and pictures."""

from __future__ import annotations

import base64
import json
import os
import re
import select
import shutil
import subprocess
import time
import urllib.error
import urllib.request
from typing import Any, Callable

ELEMENT = "element-6066-11e4-a52e-4f735466cecf"
PATIENCE = 3600
"""How many seconds something is waited for that is there at once on a machine with nothing else to do. A test has a limit of its own."""
ANSWER = 600
"""How many seconds the driver may take for an answer."""
FAREWELL = 30
"""How many seconds it may take to end the browser, which is killed else."""
TRIES = 3
"""How often a browser is started whose driver says that it did not begin, as on a very busy machine."""
SAYS_PORT = re.compile(rb"started successfully on port (\d+)")
KEYS = {
    "Tab": "\ue004", "Enter": "\ue007", "Escape": "\ue00c", "Space": " ", "ArrowLeft": "\ue012", "ArrowUp": "\ue013",
    "ArrowRight": "\ue014", "ArrowDown": "\ue015", "Shift": "\ue008", "Control": "\ue009", "End": "\ue010", "Home": "\ue011",
}


class NoBrowser(Exception):
    """There is no browser to drive on this machine."""


class BrowserFault(Exception):
    """The browser did not do what it was told."""


def find_browser() -> tuple[str, str]:
    """The paths of the browser and of its driver."""
    browser, driver = shutil.which("chromium"), shutil.which("chromedriver")
    if not browser or not driver:
        raise NoBrowser("chromium and chromium-driver are not installed")
    return browser, driver


class Browser:
    """A browser with one window or several. It is for `with`, which ends it. Raises NoBrowser where there is none."""

    def __init__(self, width: int = 1280, height: int = 800, is_dark: bool = False) -> None:
        browser, driver = find_browser()
        options = [
            "--headless=new", "--no-sandbox", "--disable-gpu", "--disable-dev-shm-usage", "--hide-scrollbars", "--force-color-profile=srgb",
            f"--window-size={width},{height}", *(["--force-dark-mode"] if is_dark else []),
        ]
        self._begin_driver(driver)
        try:
            self.session = self._begun({"binary": browser, "args": options})
            self._attend()
            self.resize(width, height)
        except BaseException:
            self._end_driver()
            raise

    def _begin_driver(self, path):
        """Starts the driver on a port that it chooses itself and then names."""
        self.driver = subprocess.Popen([path, "--port=0"], stdout=subprocess.PIPE, stderr=subprocess.DEVNULL)
        said, deadline = b"", time.monotonic() + PATIENCE
        while not SAYS_PORT.search(said):
            ready, _, _ = select.select([self.driver.stdout], [], [], max(0.0, deadline - time.monotonic()))
            piece = os.read(self.driver.stdout.fileno(), 1 << 12) if ready else b""
            if not piece:
                self._end_driver()
                raise BrowserFault("the driver of the browser did not begin")
            said += piece
        self.base = f"http://127.0.0.1:{int(SAYS_PORT.search(said)[1])}"

    def _end_driver(self):
        self.driver.kill()
        self.driver.wait()
        self.driver.stdout.close()

    def _begun(self, chrome):
        """A session with a browser. No script and no page is given up before a test is."""
        limits = {"script": 1000 * ANSWER, "pageLoad": 1000 * ANSWER, "implicit": 0}
        wanted = {"goog:chromeOptions": chrome, "goog:loggingPrefs": {"browser": "ALL"}, "timeouts": limits}
        for turn in range(TRIES):
            try:
                return self._call("POST", "/session", {"capabilities": {"alwaysMatch": wanted}})["sessionId"]
            except BrowserFault:
                if turn == TRIES - 1:
                    raise

    def __enter__(self) -> Browser:
        return self

    def __exit__(self, *_: object) -> None:
        try:
            self._call("DELETE", f"/session/{self.session}", None, FAREWELL)
        except (BrowserFault, OSError):
            pass
        self._end_driver()

    def _call(self, method, path, body, seconds=ANSWER):
        data = None if body is None else json.dumps(body).encode()
        request = urllib.request.Request(self.base + path, data, {"Content-Type": "application/json"}, method=method)
        try:
            with urllib.request.urlopen(request, timeout=seconds) as said:
                return json.load(said)["value"]
        except urllib.error.HTTPError as why:
            raise BrowserFault(json.load(why)["value"]["message"].split("\n")[0]) from None

    def _do(self, method, path, body=None):
        return self._call(method, f"/session/{self.session}{path}", {} if method == "POST" and body is None else body)

    def resize(self, width: int, height: int) -> None:
        """Gives the page this size."""
        self.devtools("Emulation.setDeviceMetricsOverride", {"width": width, "height": height, "deviceScaleFactor": 1, "mobile": False})

    def prefer(self, scheme: str) -> None:
        """Makes the page light or dark."""
        self.devtools("Emulation.setEmulatedMedia", {"features": [{"name": "prefers-color-scheme", "value": scheme}]})

    def devtools(self, command: str, given: dict[str, Any]) -> Any:
        """A command of the browser's own protocol."""
        return self._do("POST", "/goog/cdp/execute", {"cmd": command, "params": given})

    def _attend(self):
        """Lets the window in use have the focus for as long as it is there, whatever is done in others."""
        self.devtools("Emulation.setFocusEmulationEnabled", {"enabled": True})

    def open(self, url: str) -> None:
        """Goes to a page."""
        self._do("POST", "/url", {"url": url})

    def new_window(self) -> str:
        """Opens a window, and returns its name. The one that was used stays the one in use."""
        here, made = self.window, self._do("POST", "/window/new", {"type": "window"})["handle"]
        self.use(made)
        self._attend()
        self.use(here)
        return made

    @property
    def windows(self) -> list[str]:
        """The names of all windows."""
        return self._do("GET", "/window/handles")

    def close_others(self) -> None:
        """Closes all windows but the one in use, or but the first one where that was closed."""
        windows = self.windows
        try:
            here = self.window
        except BrowserFault:
            here = windows[0]
        for it in windows:
            if it != here:
                self.use(it)
                self._do("DELETE", "/window")
        self.use(here)

    @property
    def window(self) -> str:
        """The name of the window in use."""
        return self._do("GET", "/window")

    def use(self, window: str) -> None:
        """Uses another window."""
        self._do("POST", "/window", {"handle": window})

    def run(self, script: str, *given: Any) -> Any:
        """Runs JavaScript in the page and returns what it returns. What is given is `arguments`."""
        return self._do("POST", "/execute/sync", {"script": script, "args": list(given)})

    def wait_for(self, script: str, *given: Any) -> Any:
        """Runs JavaScript in the page, and returns what it calls its last argument with."""
        return self._do("POST", "/execute/async", {"script": script, "args": list(given)})

    def find(self, selector: str) -> Any:
        """The first element of a selector, once it is there."""
        return self.until(lambda: self._found(selector), f"there is no {selector}")

    def _found(self, selector):
        found = self._do("POST", "/elements", {"using": "css selector", "value": selector})
        return found[0] if found else None

    def click(self, selector: str) -> None:
        """Clicks on an element. One that the page draws anew meanwhile is looked for again."""
        self.until(lambda: self._is_clicked(selector), f"{selector} is drawn anew again and again")

    def _is_clicked(self, selector):
        try:
            self._do("POST", f"/element/{self.find(selector)[ELEMENT]}/click")
        except BrowserFault as why:
            if "stale element" not in str(why):
                raise
            return False
        return True

    def type(self, selector: str, text: str) -> None:
        """Types into an element, behind what is there."""
        self._do("POST", f"/element/{self.find(selector)[ELEMENT]}/value", {"text": text})

    def press(self, *keys: str) -> None:
        """Presses keys one after another, where the focus is: names of KEYS, or characters. Those with a + are held together."""
        actions = []
        for key in keys:
            parts = [KEYS.get(it, it) for it in key.split("+")] if len(key) > 1 else [key]
            actions += [{"type": "keyDown", "value": it} for it in parts] + [{"type": "keyUp", "value": it} for it in reversed(parts)]
        self._do("POST", "/actions", {"actions": [{"type": "key", "id": "keys", "actions": actions}]})

    def drag(self, selector: str, target: str) -> None:
        """Drags an element onto another one with the mouse."""
        there = [self.find(it) for it in (selector, target)]
        moves = [{"type": "pointerMove", "duration": 60, "x": 0, "y": 0, "origin": it} for it in there]
        actions = [moves[0], {"type": "pointerDown", "button": 0}, moves[1], {"type": "pause", "duration": 30}, {"type": "pointerUp", "button": 0}]
        self._do("POST", "/actions", {"actions": [{"type": "pointer", "id": "mouse", "parameters": {"pointerType": "mouse"}, "actions": actions}]})

    def point(self, selector: str) -> None:
        """Moves the mouse over an element."""
        move = {"type": "pointerMove", "duration": 10, "x": 0, "y": 0, "origin": self.find(selector)}
        self._do("POST", "/actions", {"actions": [{"type": "pointer", "id": "mouse", "parameters": {"pointerType": "mouse"}, "actions": [move]}]})

    def picture(self) -> bytes:
        """A picture of the page as it is seen, as PNG."""
        return base64.b64decode(self._do("GET", "/screenshot"))

    def complaints(self) -> list[str]:
        """The faults that the page wrote to the browser's log since the last call."""
        return [it["message"] for it in self._do("POST", "/se/log", {"type": "browser"}) if it["level"] == "SEVERE"]

    @staticmethod
    def until(call: Callable[[], Any], why: str | Callable[[], str], seconds: float = PATIENCE) -> Any:
        """What a call returns, once that is something. Raises BrowserFault after some seconds, with a text or with what a call says then."""
        deadline = time.monotonic() + seconds
        while True:
            found = call()
            if found:
                return found
            if time.monotonic() > deadline:
                raise BrowserFault(why() if callable(why) else why)
            time.sleep(0.03)
