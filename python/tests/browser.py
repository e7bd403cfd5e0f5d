"""A headless Chromium that tests drive over a pipe, by the DevTools protocol."""
from __future__ import annotations

import base64
import json
import os
import shutil
import subprocess
import tempfile
import time
from contextlib import suppress
from pathlib import Path
from typing import Any, Dict, List, Optional

NAME = "chromium"
WORDS = ["--headless", "--remote-debugging-pipe", "--no-first-run", "--disable-gpu"]
WORDS += ["--disable-extensions", "--hide-scrollbars", "--disable-dev-shm-usage"]
LONGEST = 20.0  # seconds that something is waited for


def is_there() -> bool:
    """Whether there is a browser."""
    return shutil.which(NAME) is not None


class Browser:
    """A browser with one page. `said` has what its console and its policies say, and each address
    that is asked for elsewhere than on this machine."""

    def __init__(self) -> None:
        self.number, self.front, self.session = 0, b"", ""
        self.said: List[str] = []
        self.home = tempfile.mkdtemp()
        theirs_in, self.down = os.pipe()
        self.up, theirs_out = os.pipe()

        def wire() -> None:
            """Puts the pipes where the browser looks for them."""
            high, higher = os.dup(theirs_in) + 50, os.dup(theirs_out) + 60
            os.dup2(theirs_in, high)
            os.dup2(theirs_out, higher)
            os.dup2(high, 3)
            os.dup2(higher, 4)

        words = [NAME, *WORDS, f"--user-data-dir={self.home}"]
        words.append("--no-sandbox")  # Only pages of our own are shown, perhaps to root.
        quiet = subprocess.DEVNULL
        self.process = subprocess.Popen(
            [*words, "about:blank"], close_fds=False, preexec_fn=wire, stdout=quiet, stderr=quiet
        )
        os.close(theirs_in)
        os.close(theirs_out)
        self.attach()

    def attach(self) -> None:
        """Takes the page that the browser begins with."""
        targets = self.call("Target.getTargets")["targetInfos"]
        page = next(each["targetId"] for each in targets if each["type"] == "page")
        found = self.call("Target.attachToTarget", targetId=page, flatten=True)
        self.session = found["sessionId"]
        for domain in ("Page", "Runtime", "Log", "Network"):
            self.call(f"{domain}.enable")
        self.call("Emulation.setFocusEmulationEnabled", enabled=True)

    # ---- messages

    def message(self) -> Dict[str, Any]:
        """The next message of the browser."""
        while b"\0" not in self.front:
            piece = os.read(self.up, 1 << 20)
            if not piece:
                raise EOFError("the browser has ended")
            self.front += piece
        text, _, self.front = self.front.partition(b"\0")
        found: Dict[str, Any] = json.loads(text)
        return found

    def call(self, method: str, **words: Any) -> Dict[str, Any]:
        """What a method of the protocol gives."""
        self.number += 1
        own = self.number
        sent: Dict[str, Any] = {"id": own, "method": method, "params": words}
        if self.session:
            sent["sessionId"] = self.session
        os.write(self.down, json.dumps(sent).encode() + b"\0")
        while True:
            found = self.message()
            if found.get("id") != own:
                self.note(found)
                continue
            if "error" in found:
                raise RuntimeError(f"{method}: {found['error']}")
            result: Dict[str, Any] = found["result"]
            return result

    def note(self, found: Dict[str, Any]) -> None:
        """Keeps what the browser says by itself."""
        method, words = found.get("method"), found.get("params", {})
        if method == "Runtime.exceptionThrown":
            self.said.append(f"exception: {words['exceptionDetails']}")
        elif method == "Log.entryAdded":
            entry = words["entry"]
            self.said.append(f"{entry['level']}: {entry['text']} {entry.get('url', '')}")
        elif method == "Runtime.consoleAPICalled":
            self.said.append(f"console: {[each.get('value') for each in words['args']]}")
        elif method == "Network.requestWillBeSent":
            url = words["request"]["url"]
            if not url.startswith(("http://127.0.0.1:", "data:", "about:")):
                self.said.append(f"asks elsewhere: {url}")

    # ---- the page

    def run(self, text: str) -> Any:
        """The value of an expression in the page."""
        found = self.call(
            "Runtime.evaluate", expression=text, awaitPromise=True, returnByValue=True
        )
        if "exceptionDetails" in found:
            raise RuntimeError(f"{text}: {found['exceptionDetails']}")
        return found["result"].get("value")

    def open(self, address: str) -> None:
        """Opens an address."""
        self.call("Page.navigate", url="about:blank")
        self.until("location.href === 'about:blank'")
        self.call("Page.navigate", url=address)

    def until(self, text: str, seconds: float = LONGEST) -> Any:
        """Waits until an expression is true, and gives its value."""
        end, found = time.monotonic() + seconds, None
        while not found:
            if time.monotonic() > end:
                raise AssertionError(f"this was waited for in vain: {text}")
            time.sleep(0.03)
            with suppress(RuntimeError):  # The page is on its way.
                found = self.run(text)
        return found

    def press(self, key: str) -> None:
        """Presses a key."""
        text = {"Enter": "\r", "Space": " "}.get(key)
        code = {"Enter": 13, "Space": 32, "Tab": 9}[key]
        words = {"key": " " if key == "Space" else key, "code": key}
        words.update({"windowsVirtualKeyCode": code})  # type: ignore[dict-item]
        more = {"text": text} if text else {}
        self.call("Input.dispatchKeyEvent", type="keyDown", **words, **more)
        self.call("Input.dispatchKeyEvent", type="keyUp", **words)

    def size(self, width: int, height: int, scheme: str = "light") -> None:
        """Gives the window a size, and says which colours are preferred."""
        metrics = {"width": width, "height": height, "deviceScaleFactor": 1, "mobile": False}
        self.call("Emulation.setDeviceMetricsOverride", **metrics)
        feature = {"name": "prefers-color-scheme", "value": scheme}
        self.call("Emulation.setEmulatedMedia", features=[feature])

    def picture(self, path: Path, height: Optional[int] = None, width: int = 1280) -> None:
        """Takes a picture of the page, of the window or of so much of it."""
        clip: Dict[str, Any] = {}
        if height:
            box = {"x": 0, "y": 0, "width": width, "height": height, "scale": 1}
            clip = {"clip": box, "captureBeyondViewport": True}
        data = self.call("Page.captureScreenshot", format="png", **clip)["data"]
        path.write_bytes(base64.b64decode(data))

    def end(self) -> None:
        """Ends the browser."""
        self.session = ""
        try:
            self.call("Browser.close")
        except (EOFError, OSError, RuntimeError):
            self.process.kill()
        self.process.wait(LONGEST)
        os.close(self.down)
        os.close(self.up)
        shutil.rmtree(self.home, ignore_errors=True)
