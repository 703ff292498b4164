"""Chromium without a window, driven over a pipe by its DevTools protocol, with the standard library alone."""
from __future__ import annotations

import base64
import contextlib
import json
import os
import selectors
import shlex
import shutil
import subprocess
import tempfile
import time
from typing import Any

NAMES = ("chromium", "chromium-browser", "google-chrome")
# Seconds for one answer of the browser.
PATIENCE = 60.0


def browser_path() -> str | None:
    """Where a browser is, or None."""
    for name in NAMES:
        path = shutil.which(name)
        if path is not None:
            return path
    return None


class BrowserError(Exception):
    """What a page or the browser said went wrong."""


class Browser:
    """A browser with one page. `errors` has what the page wrote to its console as a warning or an error, and what it threw."""

    def __init__(self, width: int = 1280, height: int = 800) -> None:
        path = browser_path()
        if path is None:
            raise BrowserError("no browser is installed")
        self.folder = tempfile.TemporaryDirectory(prefix="tilt-browser-", ignore_cleanup_errors=True)
        theirs_in, self.send_end = os.pipe()
        self.receive_end, theirs_out = os.pipe()
        options = ["--headless=new", "--remote-debugging-pipe", "--no-first-run", "--disable-gpu", "--disable-dev-shm-usage"]
        options += ["--disable-background-networking", "--disable-component-update", "--disable-extensions", "--hide-scrollbars"]
        options += [f"--user-data-dir={self.folder.name}", f"--window-size={width},{height}"]
        options += ["--no-sandbox"] if os.geteuid() == 0 else []
        # The browser reads from 3 and writes to 4.
        line = f"exec {shlex.join([path, *options, 'about:blank'])} 3<&{theirs_in} 4>&{theirs_out}"
        self.process = subprocess.Popen(
            ["bash", "-c", line],
            pass_fds=(theirs_in, theirs_out),
            stdin=subprocess.DEVNULL,
            stdout=subprocess.DEVNULL,
            stderr=subprocess.DEVNULL,
        )
        os.close(theirs_in)
        os.close(theirs_out)
        self.selector = selectors.DefaultSelector()
        self.selector.register(self.receive_end, selectors.EVENT_READ)
        self.held = b""
        self.number = 0
        self.session: str | None = None
        self.errors: list[str] = []
        self.loaded = False
        self.requests: list[str] = []
        try:
            target = self.call("Target.createTarget", url="about:blank")["targetId"]
            self.session = self.call("Target.attachToTarget", targetId=target, flatten=True)["sessionId"]
            for domain in ("Page", "Runtime", "Log", "Network"):
                self.call(f"{domain}.enable")
            self.size(width, height)
        except BaseException:
            self.close()
            raise

    def __enter__(self) -> Browser:
        return self

    def __exit__(self, *_: object) -> None:
        self.close()

    def close(self) -> None:
        if self.process.poll() is None:
            self.session = None
            with contextlib.suppress(BrowserError, OSError):
                self.call("Browser.close")
            try:
                self.process.wait(10)
            except subprocess.TimeoutExpired:
                self.process.kill()
                self.process.wait()
        self.selector.close()
        for end in (self.send_end, self.receive_end):
            os.close(end)
        self.folder.cleanup()

    def call(self, method: str, **parameters: Any) -> Any:
        """Calls a method of the protocol, and returns its result."""
        self.number += 1
        message = {"id": self.number, "method": method, "params": parameters}
        if self.session is not None:
            message["sessionId"] = self.session
        data = json.dumps(message).encode() + b"\0"
        while data:
            data = data[os.write(self.send_end, data) :]
        until = time.monotonic() + PATIENCE
        while True:
            found = self.receive(until)
            if found.get("id") == self.number:
                if "error" in found:
                    raise BrowserError(f"{method}: {found['error'].get('message')}")
                return found["result"]

    def receive(self, until: float) -> dict[str, Any]:
        """The next message. An event is noted."""
        while b"\0" not in self.held:
            if not self.selector.select(max(0.0, until - time.monotonic())):
                raise BrowserError("the browser doesn't answer")
            data = os.read(self.receive_end, 1 << 20)
            if not data:
                raise BrowserError("the browser has ended")
            self.held += data
        text, _, self.held = self.held.partition(b"\0")
        message: dict[str, Any] = json.loads(text)
        self.note(message.get("method"), message.get("params", {}))
        return message

    def note(self, method: str | None, parameters: dict[str, Any]) -> None:
        if method == "Runtime.exceptionThrown":
            details = parameters["exceptionDetails"]
            self.errors.append(details.get("exception", {}).get("description") or details["text"])
        elif method == "Log.entryAdded" and parameters["entry"]["level"] in ("warning", "error"):
            self.errors.append(parameters["entry"]["text"])
        elif method == "Runtime.consoleAPICalled" and parameters["type"] in ("warning", "error", "assert"):
            self.errors.append(str(parameters["args"]))
        elif method == "Network.requestWillBeSent":
            self.requests.append(parameters["request"]["url"])
        elif method == "Page.loadEventFired":
            self.loaded = True

    def open(self, path: str, place: str = "") -> None:
        """Opens a file, and waits until it is loaded. An empty page comes between, so that another place in the same file is loaded too."""
        self.go("about:blank")
        self.go(f"file://{os.path.abspath(path)}{place}")

    def go(self, url: str) -> None:
        """Goes to an address, and waits until it is loaded. `requests` has what was asked for since then."""
        self.loaded, self.requests = False, []
        self.call("Page.navigate", url=url)
        until = time.monotonic() + PATIENCE
        while not self.loaded:
            self.receive(until)

    def value(self, expression: str) -> Any:
        """The value of an expression of JavaScript, or of its promise."""
        found = self.call("Runtime.evaluate", expression=expression, awaitPromise=True, returnByValue=True)
        if "exceptionDetails" in found:
            raise BrowserError(str(found["exceptionDetails"].get("exception", {}).get("description")))
        return found["result"].get("value")

    def press(self, key: str, shift: bool = False) -> None:
        """Presses a key and lets it go."""
        text = {"text": key} if len(key) == 1 else {"text": "\r"} if key == "Enter" else {}
        codes = {"Tab": 9, "Enter": 13, "Escape": 27, "Home": 36, "ArrowLeft": 37, "ArrowUp": 38, "ArrowRight": 39, "ArrowDown": 40}
        code = codes.get(key, ord(key[0].upper()))
        for kind in ("keyDown", "keyUp"):
            self.call(
                "Input.dispatchKeyEvent",
                type=kind,
                key=key,
                code=key,
                windowsVirtualKeyCode=code,
                modifiers=8 * shift,
                **(text if kind == "keyDown" else {}),
            )

    def mouse(self, kind: str, x: float, y: float, **others: Any) -> None:
        """An event of the mouse: mouseMoved, mousePressed, mouseReleased or mouseWheel."""
        self.call("Input.dispatchMouseEvent", type=kind, x=x, y=y, **others)

    def click(self, x: float, y: float) -> None:
        for kind in ("mouseMoved", "mousePressed", "mouseReleased"):
            self.mouse(kind, x, y, button="none" if kind == "mouseMoved" else "left", clickCount=1)

    def size(self, width: int, height: int, ratio: float = 1) -> None:
        self.call("Emulation.setDeviceMetricsOverride", width=width, height=height, deviceScaleFactor=ratio, mobile=False)

    def prefer(self, scheme: str) -> None:
        """Asks for the light or the dark scheme."""
        self.call("Emulation.setEmulatedMedia", features=[{"name": "prefers-color-scheme", "value": scheme}])

    def screenshot(self, path: str) -> None:
        with open(path, "wb") as file:
            file.write(base64.b64decode(self.call("Page.captureScreenshot", format="png")["data"]))
