"""Messages of the Language Server Protocol: JSON behind a head with its length, on two streams of bytes."""
from __future__ import annotations

import json
import threading
from typing import Any, BinaryIO

Json = dict[str, Any]

PARSE_ERROR, INVALID_REQUEST, METHOD_NOT_FOUND, INVALID_PARAMS, INTERNAL_ERROR = -32700, -32600, -32601, -32602, -32603
NOT_INITIALIZED, REQUEST_FAILED = -32002, -32803
LONGEST = 1 << 25
# What is read at the end of the input; `null` is a message.
END: Any = object()


class Refusal(Exception):
    """The error with which a request is answered."""

    def __init__(self, code: int, message: str) -> None:
        super().__init__(message)
        self.code, self.message = code, message


class Broken(Exception):
    """The input is no message, and nobody knows where the next one begins."""


class Channel:
    """The two streams. Messages may be sent by several threads."""

    def __init__(self, given: BinaryIO, taken: BinaryIO) -> None:
        self._given, self._taken = given, taken
        self._lock = threading.Lock()

    def read(self) -> Any:
        """The next message, or END."""
        length = None
        while True:
            line = self._given.readline(1 << 16)
            if not line:
                return END
            if line.strip() == b"":
                break
            name, _, value = line.partition(b":")
            if name.strip().lower() == b"content-length":
                length = int(value) if value.strip().isdigit() and len(value) < 20 else None
        if length is None or length > LONGEST:
            raise Broken("a message has no Content-Length")
        data = self._given.read(length)
        if len(data) < length:
            return END
        try:
            return json.loads(data)
        except (ValueError, RecursionError):
            raise Refusal(PARSE_ERROR, "the message is no JSON") from None

    def write(self, message: Json) -> None:
        data = json.dumps(message, separators=(",", ":")).encode("utf-8", "surrogatepass")
        with self._lock:
            self._taken.write(b"Content-Length: %d\r\n\r\n" % len(data) + data)
            self._taken.flush()

    def answer(self, number: object, result: object) -> None:
        self.write({"jsonrpc": "2.0", "id": number, "result": result})

    def refuse(self, number: object, refusal: Refusal) -> None:
        self.write({"jsonrpc": "2.0", "id": number, "error": {"code": refusal.code, "message": refusal.message}})

    def notify(self, method: str, params: Json) -> None:
        self.write({"jsonrpc": "2.0", "method": method, "params": params})
