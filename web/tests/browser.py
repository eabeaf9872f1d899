"""A browser without a window, by Chromium's own protocol over two pipes."""
from __future__ import annotations

import base64
import json
import os
import select
import shutil
import signal
import subprocess
import tempfile
import time
from pathlib import Path
from typing import Any

NAMES = ("chromium", "chromium-browser", "google-chrome", "google-chrome-stable")
PART = 1 << 20
PAUSE = 0.05


class Failure(Exception):
    """What the browser did not do."""


def path_of_browser() -> str | None:
    return next((path for name in NAMES if (path := shutil.which(name))), None)


class Pipes:
    """Messages, each of which ends with a zero byte."""

    def __init__(self, reads: int, writes: int) -> None:
        self.reads = reads
        self.writes = writes
        self.begun = b""

    def send(self, message: dict[str, Any]) -> None:
        data = json.dumps(message).encode() + b"\0"
        while data:
            data = data[os.write(self.writes, data) :]

    def receive(self, until: float) -> dict[str, Any]:
        while b"\0" not in self.begun:
            left = until - time.monotonic()
            if left <= 0 or not select.select([self.reads], [], [], left)[0]:
                raise Failure("the browser does not answer in time")
            part = os.read(self.reads, PART)
            if not part:
                raise Failure("the browser ended")
            self.begun += part
        whole, self.begun = self.begun.split(b"\0", 1)
        found: dict[str, Any] = json.loads(whole)
        return found


class Browser:
    """A browser with its own folder of settings. It ends with `close`."""

    def __init__(self, path: str, *, width: int = 1280, height: int = 800) -> None:
        self.folder = tempfile.mkdtemp()
        ours, theirs = os.pipe(), os.pipe()
        self.errors: list[str] = []
        self.number = 0
        self.session = ""
        words = [
            path, "--headless=new", "--no-sandbox", "--disable-gpu", "--remote-debugging-pipe", "--no-first-run", "--disable-dev-shm-usage",
            "--autoplay-policy=no-user-gesture-required", f"--window-size={width},{height}", f"--user-data-dir={self.folder}", "about:blank",
        ]
        # The browser reads from its descriptor 3 and writes to 4.
        shell = ["sh", "-c", f'exec "$@" 3<&{theirs[0]} 4>&{ours[1]}', "sh", *words]
        self.process = subprocess.Popen(
            shell, stdin=subprocess.DEVNULL, stdout=subprocess.DEVNULL, stderr=subprocess.DEVNULL, pass_fds=[theirs[0], ours[1]],
            start_new_session=True,
        )
        os.close(theirs[0])
        os.close(ours[1])
        self.pipes = Pipes(ours[0], theirs[1])

    def close(self) -> None:
        os.killpg(self.process.pid, signal.SIGKILL)
        self.process.wait()
        os.close(self.pipes.reads)
        os.close(self.pipes.writes)
        shutil.rmtree(self.folder, ignore_errors=True)

    def call(self, method: str, seconds: float = 60, **values: Any) -> dict[str, Any]:
        self.number += 1
        number = self.number
        message: dict[str, Any] = {"id": number, "method": method, "params": values}
        if self.session:
            message["sessionId"] = self.session
        self.pipes.send(message)
        until = time.monotonic() + seconds
        while True:
            answer = self.pipes.receive(until)
            self.note(answer)
            if answer.get("id") == number:
                if "error" in answer:
                    raise Failure(f"{method}: {answer['error']['message']}")
                result: dict[str, Any] = answer["result"]
                return result

    def note(self, message: dict[str, Any]) -> None:
        """Notes what goes wrong in the page."""
        method, values = message.get("method"), message.get("params", {})
        if method == "Runtime.exceptionThrown":
            details = values["exceptionDetails"]
            self.errors.append(str(details.get("exception", {}).get("description", details["text"])))
        if method == "Log.entryAdded" and values["entry"]["level"] == "error":
            self.errors.append(values["entry"]["text"])

    def open(self, url: str) -> None:
        """Opens a page in a new tab."""
        self.session = ""
        target = self.call("Target.createTarget", url="about:blank")["targetId"]
        self.session = self.call("Target.attachToTarget", targetId=target, flatten=True)["sessionId"]
        for domain in ("Runtime", "Log", "Page"):
            self.call(f"{domain}.enable")
        self.go(url)

    def go(self, url: str) -> None:
        self.call("Page.navigate", url=url)
        self.wait("document.documentElement.dataset.ready || !document.getElementById('notice')?.hidden")

    def reload(self) -> None:
        self.evaluate("document.documentElement.dataset.ready = ''")
        self.call("Page.reload")
        self.wait("document.documentElement.dataset.ready")

    def evaluate(self, code: str) -> Any:
        answer = self.call("Runtime.evaluate", expression=code, awaitPromise=True, returnByValue=True, userGesture=True)
        if "exceptionDetails" in answer:
            details = answer["exceptionDetails"]
            raise Failure(f"{code}: {details.get('exception', {}).get('description', details['text'])}")
        return answer["result"].get("value")

    def wait(self, code: str, seconds: float = 60) -> None:
        """Waits until an expression is true."""
        until = time.monotonic() + seconds
        while True:
            try:
                if self.evaluate(code):
                    return
            except Failure:
                if time.monotonic() > until:
                    raise
            if time.monotonic() > until:
                raise Failure(f"never true: {code}")
            time.sleep(PAUSE)

    def type(self, text: str) -> None:
        self.call("Input.insertText", text=text)

    def press(self, key: str, code: int = 0, text: str = "", modifiers: int = 0) -> None:
        values = {"key": key, "code": key, "windowsVirtualKeyCode": code, "modifiers": modifiers}
        self.call("Input.dispatchKeyEvent", type="keyDown" if text else "rawKeyDown", **values, **({"text": text} if text else {}))
        self.call("Input.dispatchKeyEvent", type="keyUp", **values)

    def click(self, x: float, y: float) -> None:
        for kind in ("mousePressed", "mouseReleased"):
            self.call("Input.dispatchMouseEvent", type=kind, x=x, y=y, button="left", clickCount=1)

    def size(self, width: int, height: int, scale: float = 1, *, dark: bool = False) -> None:
        self.call("Emulation.setDeviceMetricsOverride", width=width, height=height, deviceScaleFactor=scale, mobile=width < 600)
        features = [{"name": "prefers-color-scheme", "value": "dark" if dark else "light"}]
        self.call("Emulation.setEmulatedMedia", features=features)

    def picture(self, path: Path) -> None:
        path.write_bytes(base64.b64decode(self.call("Page.captureScreenshot", captureBeyondViewport=False)["data"]))
