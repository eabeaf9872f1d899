"""Firefox without a window, by its own protocol (Marionette): messages of JSON over a connection of this machine."""
from __future__ import annotations

import json
import os
import re
import shutil
import signal
import socket
import subprocess
import tempfile
import time
from pathlib import Path
from typing import Any

from browser import Failure

NAMES = ("firefox-esr", "firefox")
PAUSE = 0.1
START_SECONDS = 90.0
PORT_FILE = "MarionetteActivePort"
SETTINGS = """user_pref("marionette.port", 0);
user_pref("browser.shell.checkDefaultBrowser", false);
user_pref("datareporting.policy.dataSubmissionEnabled", false);
user_pref("media.autoplay.default", 0);
"""
# Waits for what the code gives.
SCRIPT = """const done = arguments[arguments.length - 1];
(async () => {{ {} }})().then((value) => done([true, value]), (error) => done([false, String(error)]));"""


def path_of_firefox() -> str | None:
    return next((path for name in NAMES if (path := shutil.which(name))), None)


class Firefox:
    """A Firefox with its own folder of settings. It ends with `close`."""

    def __init__(self, path: str) -> None:
        self.folder = Path(tempfile.mkdtemp())
        (self.folder / "user.js").write_text(SETTINGS, encoding="utf-8")
        words = [path, "--headless", "--no-remote", "--marionette", "--profile", str(self.folder), "about:blank"]
        environment = {**os.environ, "HOME": str(self.folder), "MOZ_CRASHREPORTER_DISABLE": "1"}
        self.process = subprocess.Popen(
            words, stdin=subprocess.DEVNULL, stdout=subprocess.DEVNULL, stderr=subprocess.DEVNULL, env=environment, start_new_session=True
        )
        self.errors: list[str] = []
        self.number = 0
        self.connection = self.connect()
        self.begun = b""
        self.receive()
        self.call("WebDriver:NewSession", capabilities={"alwaysMatch": {"acceptInsecureCerts": False}})
        self.call("WebDriver:SetTimeouts", script=120_000, pageLoad=120_000)

    def connect(self) -> socket.socket:
        until = time.monotonic() + START_SECONDS
        place = self.folder / PORT_FILE
        while time.monotonic() < until:
            if place.exists() and place.read_text().strip():
                return socket.create_connection(("127.0.0.1", int(place.read_text())), timeout=150)
            time.sleep(PAUSE)
        raise Failure("Firefox does not answer in time")

    def close(self) -> None:
        self.connection.close()
        os.killpg(self.process.pid, signal.SIGKILL)
        self.process.wait()
        shutil.rmtree(self.folder, ignore_errors=True)

    def receive(self) -> Any:
        """A message: its length, a colon, and JSON."""
        while b":" not in self.begun or len(self.begun.split(b":", 1)[1]) < int(self.begun.split(b":", 1)[0]):
            part = self.connection.recv(1 << 20)
            if not part:
                raise Failure("Firefox ended")
            self.begun += part
        size, rest = self.begun.split(b":", 1)
        self.begun = rest[int(size) :]
        return json.loads(rest[: int(size)])

    def call(self, command: str, **values: Any) -> Any:
        self.number += 1
        data = json.dumps([0, self.number, command, values]).encode()
        self.connection.sendall(b"%d:%s" % (len(data), data))
        _, _, fault, result = self.receive()
        if fault:
            raise Failure(f"{command}: {fault['message']}")
        return result

    def open(self, url: str) -> None:
        self.call("WebDriver:Navigate", url=url)
        self.wait("document.documentElement.dataset.ready || !document.getElementById('notice')?.hidden")

    def reload(self) -> None:
        self.call("WebDriver:Refresh")
        self.wait("document.documentElement.dataset.ready")

    def evaluate(self, code: str) -> Any:
        body = code if re.search(r";\s", code) and not code.lstrip().startswith("(") else f"return ({code});"
        answer = self.call("WebDriver:ExecuteAsyncScript", script=SCRIPT.format(body), args=[], newSandbox=False, sandbox=None)
        is_right, value = answer["value"]
        if not is_right:
            raise Failure(f"{code}: {value}")
        return value

    def wait(self, code: str, seconds: float = 90) -> None:
        """Waits until an expression is true."""
        until = time.monotonic() + seconds
        while True:
            try:
                if self.evaluate(code):
                    return
            except Failure:
                if time.monotonic() > until:
                    raise
            if time.monotonic() > until:
                raise Failure(f"never true: {code}")
            time.sleep(PAUSE)

    def perform(self, kind: str, actions: list[dict[str, Any]], **values: Any) -> None:
        self.call("WebDriver:PerformActions", actions=[{"type": kind, "id": kind, "actions": actions, **values}])

    def type(self, text: str) -> None:
        self.perform("key", [{"type": kind, "value": sign} for sign in text for kind in ("keyDown", "keyUp")])

    def press(self, key: str, _code: int = 0, _text: str = "") -> None:
        self.type(key)

    def click(self, x: float, y: float) -> None:
        moves = [{"type": "pointerMove", "x": round(x), "y": round(y), "duration": 0}]
        presses = [{"type": kind, "button": 0} for kind in ("pointerDown", "pointerUp")]
        self.perform("pointer", moves + presses, parameters={"pointerType": "mouse"})
