"""A client of the language server: it starts the server, sends messages, and keeps what comes back."""
from __future__ import annotations

import json
import queue
import subprocess
import threading
import time
from typing import Any

Json = dict[str, Any]


class Client:
    """A session with a server. `slowest` is the longest time between a request and its answer, in seconds."""

    def __init__(self, words: list[str], folder: str, environment: dict[str, str]) -> None:
        self.server = subprocess.Popen(
            words, cwd=folder, env=environment, stdin=subprocess.PIPE, stdout=subprocess.PIPE, stderr=subprocess.PIPE
        )
        self.folder = folder
        self.count = 0
        self.slowest = 0.0
        self.complaints = b""
        self.notified: list[Json] = []
        self._came: queue.Queue[Json | None] = queue.Queue()
        threading.Thread(target=self._read, daemon=True).start()

    def _read(self) -> None:
        stream = self.server.stdout
        assert stream
        while True:
            length = 0
            while line := stream.readline().strip():
                name, _, value = line.partition(b":")
                length = int(value) if name.lower() == b"content-length" else length
            if not length:
                self._came.put(None)
                return
            self._came.put(json.loads(stream.read(length)))

    def uri(self, name: str) -> str:
        return f"file://{self.folder}/{name}"

    def send_bytes(self, data: bytes) -> None:
        assert self.server.stdin
        self.server.stdin.write(data)
        self.server.stdin.flush()

    def send(self, message: Json | list[Any]) -> None:
        data = json.dumps(message).encode()
        self.send_bytes(b"Content-Length: %d\r\n\r\n" % len(data) + data)

    def notify(self, method: str, **params: Any) -> None:
        self.send({"jsonrpc": "2.0", "method": method, "params": params})

    def next(self, seconds: float = 60) -> Json:
        message = self._came.get(timeout=seconds)
        if message is None:
            raise EOFError("the server ended")
        return message

    def ask(self, method: str, **params: Any) -> Json:
        """Sends a request, and answers the whole answer; what comes before it is kept."""
        self.count += 1
        begun = time.monotonic()
        self.send({"jsonrpc": "2.0", "id": self.count, "method": method, "params": params})
        while (message := self.next()).get("id") != self.count or "method" in message:
            self.notified.append(message)
        self.slowest = max(self.slowest, time.monotonic() - begun)
        return message

    def result(self, method: str, **params: Any) -> Any:
        answer = self.ask(method, **params)
        assert "error" not in answer, answer
        return answer["result"]

    def initialize(self, **capabilities: Any) -> Json:
        result: Json = self.result(
            "initialize", processId=None, rootUri=f"file://{self.folder}", capabilities=capabilities
        )
        self.notify("initialized")
        return result

    def open(self, name: str, text: str, version: int = 1) -> None:
        self.notify(
            "textDocument/didOpen",
            textDocument={"uri": self.uri(name), "languageId": "uxntal", "version": version, "text": text},
        )

    def change(self, name: str, version: int, *changes: Json) -> None:
        self.notify(
            "textDocument/didChange",
            textDocument={"uri": self.uri(name), "version": version},
            contentChanges=list(changes),
        )

    def diagnostics(self, name: str, version: int | None = None) -> list[Json]:
        """The next diagnostics of a file, of a version of it where one is named."""
        end = time.monotonic() + 60
        while True:
            for at, message in enumerate(self.notified):
                params = message.get("params", {})
                is_of_file = message.get("method") == "textDocument/publishDiagnostics" and params["uri"] == self.uri(
                    name
                )
                if is_of_file and version in (None, params.get("version")):
                    del self.notified[at]
                    return list(params["diagnostics"])
            self.notified.append(self.next(max(end - time.monotonic(), 0.1)))

    def at(self, name: str, line: int, character: int) -> Json:
        """The parameters of a request about a place, from 0."""
        return {"textDocument": {"uri": self.uri(name)}, "position": {"line": line, "character": character}}

    def shut_down(self) -> int:
        self.result("shutdown")
        self.notify("exit")
        return self.close()

    def close(self) -> int:
        """Closes the input, waits for the end, and answers the status. What the server complained of stays in
        `complaints`."""
        assert self.server.stdin and self.server.stderr
        self.server.stdin.close()
        try:
            status = self.server.wait(timeout=30)
            if not self.server.stderr.closed:
                self.complaints = self.server.stderr.read()
            return status
        finally:
            self.server.kill()
            self.server.stderr.close()
