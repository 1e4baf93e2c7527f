"""A headless Chromium, driven by its DevTools protocol over two pipes: nobody else can reach it, and no port is taken."""

from __future__ import annotations

import base64
import json
import os
import select
import subprocess
import tempfile
import time
from typing import Any, Dict, List, Optional

KEYS = {"Tab": 9, "Enter": 13, "Escape": 27, " ": 32, "ArrowLeft": 37, "ArrowUp": 38, "ArrowRight": 39, "ArrowDown": 40}


class Browser:
    """The browser, with a folder of its own. `page` opens a page that shares no password with another."""

    def __init__(self, program: str) -> None:
        self._folder = tempfile.TemporaryDirectory(ignore_cleanup_errors=True)
        theirs_in, self._out = os.pipe()
        self._in, theirs_out = os.pipe()
        words = [program, "--headless=new", "--remote-debugging-pipe", f"--user-data-dir={self._folder.name}"]
        words += ["--no-first-run", "--disable-gpu", "--disable-dev-shm-usage", "--ignore-certificate-errors", "--hide-scrollbars"]
        words += ["--disable-background-networking", "--disable-component-update", "--lang=en", "about:blank"]
        if os.getuid() == 0:
            words.insert(1, "--no-sandbox")
        # The protocol is spoken over the descriptors 3 and 4.
        shell = ["bash", "-c", f'exec "$@" 3<&{theirs_in} 4>&{theirs_out}', "browser", *words]
        self._process = subprocess.Popen(
            shell, pass_fds=(theirs_in, theirs_out), stdout=subprocess.DEVNULL, stderr=subprocess.DEVNULL, start_new_session=True
        )
        os.close(theirs_in)
        os.close(theirs_out)
        self._buffer = b""
        self._number = 0
        self._answers: Dict[int, Dict[str, Any]] = {}
        self.pages: Dict[str, Page] = {}

    def ask(self, method: str, session: Optional[str] = None, timeout: float = 60, **parameters: Any) -> Dict[str, Any]:
        """Calls a method of the protocol, and gives its result."""
        self._number += 1
        number = self._number
        message: Dict[str, Any] = {"id": number, "method": method, "params": parameters}
        if session:
            message["sessionId"] = session
        os.write(self._out, json.dumps(message).encode() + b"\0")
        until = time.monotonic() + timeout
        while number not in self._answers:
            self.read(until - time.monotonic(), method)
        answer = self._answers.pop(number)
        if "error" in answer:
            raise RuntimeError(f"{method}: {answer['error']['message']}")
        result: Dict[str, Any] = answer["result"]
        return result

    def read(self, seconds: float, what: str) -> None:
        """Takes the messages that come within some seconds, at least one."""
        if seconds <= 0 or not select.select([self._in], [], [], seconds)[0]:
            raise TimeoutError(f"the browser did not answer: {what}")
        piece = os.read(self._in, 1 << 20)
        if not piece:
            raise RuntimeError("the browser ended")
        *messages, self._buffer = (self._buffer + piece).split(b"\0")
        for message in map(json.loads, messages):
            if "id" in message:
                self._answers[message["id"]] = message
            elif message.get("sessionId") in self.pages:
                self.pages[message["sessionId"]].take(message["method"], message["params"])

    def page(self) -> Page:
        context = self.ask("Target.createBrowserContext")["browserContextId"]
        target = self.ask("Target.createTarget", url="about:blank", browserContextId=context)["targetId"]
        session = self.ask("Target.attachToTarget", targetId=target, flatten=True)["sessionId"]
        page = self.pages[session] = Page(self, session)
        for domain in ("Page", "Runtime", "Network", "Log", "Accessibility"):
            page.ask(f"{domain}.enable")
        page.resize(1280, 900)
        return page

    def close(self) -> None:
        """Ends the browser and all that it started."""
        try:
            os.killpg(self._process.pid, 15)
            self._process.wait(10)
        except (ProcessLookupError, subprocess.TimeoutExpired):
            pass
        try:
            os.killpg(self._process.pid, 9)
        except ProcessLookupError:
            pass
        self._process.wait(10)
        os.close(self._in)
        os.close(self._out)
        self._folder.cleanup()


class Page:
    """A page, with the requests that it made and what the browser complained of."""

    def __init__(self, browser: Browser, session: str) -> None:
        self._browser = browser
        self._session = session
        self.requests: List[str] = []
        self.complaints: List[str] = []

    def ask(self, method: str, **parameters: Any) -> Dict[str, Any]:
        return self._browser.ask(method, self._session, **parameters)

    def take(self, method: str, parameters: Dict[str, Any]) -> None:
        """An event of the page."""
        if method == "Network.requestWillBeSent":
            request = parameters["request"]
            self.requests.append(f"{request['method']} {request['url']}")
        elif method == "Runtime.exceptionThrown":
            self.complaints.append(json.dumps(parameters["exceptionDetails"])[:500])
        elif method == "Log.entryAdded" and parameters["entry"]["source"] != "network":
            self.complaints.append(f"{parameters['entry']['source']}: {parameters['entry']['text']}")

    def resize(self, width: int, height: int, scale: int = 1) -> None:
        """A window of so many CSS pixels. A scale of 2 with half the width is a zoom of 200 %."""
        self.ask("Emulation.setDeviceMetricsOverride", width=width, height=height, deviceScaleFactor=scale, mobile=False)

    def go(self, url: str) -> None:
        self.ask("Page.navigate", url=url)

    def run(self, script: str) -> Any:
        """The value of an expression in the page."""
        answer = self.ask("Runtime.evaluate", expression=script, returnByValue=True, awaitPromise=True)
        if "exceptionDetails" in answer:
            raise RuntimeError(f"{script}: {answer['exceptionDetails'].get('exception', {}).get('description')}")
        return answer["result"].get("value")

    def wait(self, script: str, seconds: float = 30) -> Any:
        """The value of an expression once it is true; after some seconds, the value that it has."""
        until = time.monotonic() + seconds
        while True:
            try:
                value = self.run(script)
            except RuntimeError:
                # The page is being replaced by another.
                value = None
            if value or time.monotonic() > until:
                return value
            time.sleep(0.02)

    def click(self, selector: str) -> None:
        """Presses and lets go the mouse on the middle of an element."""
        x, y = self.middle(selector)
        for kind in ("mousePressed", "mouseReleased"):
            self.ask("Input.dispatchMouseEvent", type=kind, x=x, y=y, button="left", clickCount=1)

    def point(self, selector: str) -> None:
        x, y = self.middle(selector)
        self.ask("Input.dispatchMouseEvent", type="mouseMoved", x=x, y=y)

    def middle(self, selector: str) -> List[float]:
        found = self.run(
            f"(() => {{ const it = document.querySelector({json.dumps(selector)}); if (!it) return null;"
            " it.scrollIntoView({block: 'center'}); const box = it.getBoundingClientRect();"
            " return [box.x + box.width / 2, box.y + box.height / 2]; })()"
        )
        if not found:
            raise RuntimeError(f"there is no {selector}")
        place: List[float] = found
        return place

    def key(self, key: str, modifiers: int = 0) -> None:
        """Presses and lets go a key."""
        about: Dict[str, Any] = {"key": key, "modifiers": modifiers}
        about["windowsVirtualKeyCode"] = KEYS.get(key, ord(key[0].upper()))
        self.ask("Input.dispatchKeyEvent", type="keyDown", **about, **({"text": key} if len(key) == 1 else {}))
        self.ask("Input.dispatchKeyEvent", type="keyUp", **about)

    def choose(self, selector: str, value: str) -> None:
        """Chooses a value of a list."""
        self.run(
            f"(() => {{ const it = document.querySelector({json.dumps(selector)}); it.value = {json.dumps(value)};"
            " it.dispatchEvent(new Event('change', {bubbles: true})); })()"
        )

    def picture(self, file: str) -> None:
        data = self.ask("Page.captureScreenshot", format="png")["data"]
        with open(file, "wb") as to:
            to.write(base64.b64decode(data))

    def unnamed(self) -> List[str]:
        """What a reader of the screen is told no name of: controls and headings that are shown."""
        roles = ("button", "link", "combobox", "checkbox", "heading", "region", "table")
        found = []
        for node in self.ask("Accessibility.getFullAXTree")["nodes"]:
            role = node.get("role", {}).get("value")
            if role in roles and not node.get("ignored") and not node.get("name", {}).get("value"):
                found.append(role)
        return found
