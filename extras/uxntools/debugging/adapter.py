"""The Debug Adapter Protocol over a session of the debugger: requests in, answers and events out."""
from __future__ import annotations

import base64
import os
from collections.abc import Callable

from uxntools import places
from uxntools.cli import Failure, line_of
from uxntools.debugging.session import Session
from uxntools.lsp.protocol import END, Broken, Channel, Json, Refusal
from uxntools.moments import Stack, State
from uxntools.target import Target

CAPABILITIES = {
    "supportsConfigurationDoneRequest": True,
    "supportsStepBack": True,
    "supportsSteppingGranularity": True,
    "supportsEvaluateForHovers": True,
    "supportsReadMemoryRequest": True,
    "supportsTerminateRequest": True,
}
THREAD = 1
# The groups of variables, by their numbers in the protocol.
WORKING, RETURNING, ZERO_PAGE, PORTS = range(1, 5)
SCOPES = {WORKING: "Working stack", RETURNING: "Return stack", ZERO_PAGE: "Zero page", PORTS: "Ports"}
# How many instructions a step of a line goes at most.
MOST_OF_LINE = 10_000
# How many bytes of a label of the zero page are shown.
MOST_BYTES = 8
OPTIONS = ("script", "root", "budget", "symbols")


class Adapter:
    """Answers an editor until it disconnects. `launch` names the program by `program`, the folder in which it runs by
    `cwd`, and the options of `uxn play`: `rom`, `script`, `root`, `budget`, `symbols`."""

    def __init__(self, channel: Channel) -> None:
        self.channel = channel
        self.session: Session | None = None
        self.folder = ""
        self.stops_at_entry = True
        self.is_over = False
        self.said_output = False
        self._count = 0
        self._breaks: dict[str, list[int]] = {}
        self.requests: dict[str, Callable[[Json], Json | None]] = {
            "initialize": lambda _: CAPABILITIES,
            "launch": self._launch,
            "setBreakpoints": self._set_breakpoints,
            "setExceptionBreakpoints": lambda _: {"breakpoints": []},
            "configurationDone": self._begin,
            "threads": lambda _: {"threads": [{"id": THREAD, "name": "uxn"}]},
            "stackTrace": self._stack_trace,
            "scopes": self._scopes,
            "variables": self._variables,
            "evaluate": self._evaluate,
            "readMemory": self._read_memory,
            "continue": lambda _: self._stop(self._open().run(), "breakpoint"),
            "reverseContinue": self._reverse,
            "next": lambda given: self._step(given, self._open().next),
            "stepIn": lambda given: self._step(given, self._open().step),
            "stepBack": lambda given: self._step(given, self._back),
            "stepOut": lambda _: self._stop(self._open().finish()[1], "step"),
            "pause": lambda _: self._stop(self._open().here, "pause"),
            "disconnect": self._end,
            "terminate": self._end,
        }

    def run(self) -> int:
        try:
            while not self.is_over:
                try:
                    message = self.channel.read()
                except Refusal:
                    continue
                if message is END:
                    return 1
                if isinstance(message, dict) and message.get("type") == "request":
                    self._take(message)
            return 0
        except Broken as broken:
            raise Failure(str(broken)) from None
        finally:
            if self.session:
                self.session.close()

    def _take(self, request: Json) -> None:
        command = request.get("command")
        answer: Json = {"type": "response", "request_seq": request.get("seq"), "command": command}
        self._events: list[tuple[str, Json]] = []
        try:
            handler = self.requests.get(str(command))
            if handler is None:
                raise Failure(f"there is no request {command}")
            body = handler(request.get("arguments") or {})
            answer |= {"success": True, "body": body or {}}
        except Failure as failure:
            answer |= {"success": False, "message": failure.line}
        except OSError as error:
            answer |= {"success": False, "message": line_of(error)}
        except (KeyError, TypeError, ValueError) as error:
            answer |= {"success": False, "message": f"{command}: {error!r}"}
        self._write(answer)
        for name, body in self._events:
            self._write({"type": "event", "event": name, "body": body})

    def _write(self, message: Json) -> None:
        self._count += 1
        self.channel.write({"seq": self._count, **message})

    def _event(self, name: str, **body: object) -> None:
        """Says something behind the answer of the present request."""
        self._events.append((name, dict(body)))

    def _open(self) -> Session:
        if self.session is None:
            raise Failure("launch has to come first")
        return self.session

    # The session

    def _launch(self, given: Json) -> None:
        path = os.path.abspath(given["program"])
        self.folder = os.path.abspath(given.get("cwd") or os.path.dirname(path))
        source = os.path.relpath(path, self.folder)
        if source.startswith("../"):
            self.folder, source = os.path.split(path)
        options: Json = {name: None if given.get(name) is None else str(given[name]) for name in OPTIONS}
        is_rom = bool(given.get("rom", path.endswith(".rom")))
        self.stops_at_entry = bool(given.get("stopOnEntry", True))
        self.session = Session(Target(source, is_rom, folder=self.folder, **options), self._note)
        self._event("initialized")

    def _note(self, text: str) -> None:
        self._event("output", category="console", output=f"{text}\n")

    def _begin(self, _: Json) -> None:
        session = self._open()
        if self.stops_at_entry:
            self._stop(session.here, "entry")
        else:
            self._stop(session.run(), "breakpoint")

    def _end(self, _: Json) -> None:
        self.is_over = True
        self._event("terminated")

    def _stop(self, state: State, reason: str) -> None:
        """Says where the session stands after a move. At the end of the run it can still go back."""
        if state.is_end:
            if not self.said_output:
                self.said_output = True
                done = self._open().workspace.output()
                for name, data in (("stdout", done.out), ("stderr", done.err)):
                    if data:
                        self._event("output", category=name, output=data.decode(errors="replace"))
            self._note(f"the run ends after {state.count} instructions")
            reason = "pause"
        self._event("stopped", reason=reason, threadId=THREAD, allThreadsStopped=True)

    def _step(self, given: Json, move: Callable[[], State]) -> None:
        """A step of one instruction, or to another line of the source."""
        session = self._open()
        before = places.line_of(session.program, session.here.address)
        state = move()
        for _ in range(MOST_OF_LINE):
            is_there = given.get("granularity") == "instruction" or state.is_end or state.address in session.breaks
            if is_there or not state.count or places.line_of(session.program, state.address) not in (before, None):
                break
            state = move()
        self._stop(state, "step")

    def _back(self) -> State:
        return self._open().back(1)

    def _reverse(self, _: Json) -> None:
        session = self._open()
        self._stop(session.reverse_run() if session.breaks else session.go_to(0), "breakpoint")

    # Breakpoints

    def _set_breakpoints(self, given: Json) -> Json:
        session = self._open()
        path = os.path.relpath(os.path.abspath(given["source"]["path"]), self.folder)
        for address in self._breaks.pop(path, []):
            if address in session.breaks:
                session.delete(f"{address:04x}")
        return {"breakpoints": [self._set_break(session, path, int(one["line"])) for one in given.get("breakpoints") or []]}

    def _set_break(self, session: Session, path: str, line: int) -> Json:
        try:
            address = session.set_break(f"{path}:{line}")
        except Failure as failure:
            return {"verified": False, "line": line, "message": failure.line}
        self._breaks.setdefault(path, []).append(address)
        at = places.line_of(session.program, address)
        return {"verified": True, "line": at[1] if at else line}

    # Looks

    def _frame(self, number: int, address: int | None) -> Json:
        session = self._open()
        at = places.line_of(session.program, address)
        name = places.of_address(session.program, address) if address is not None else "the end"
        frame: Json = {"id": number, "name": name or f"{address:04x}", "line": at[1] if at else 0, "column": 1}
        if address is not None:
            frame["instructionPointerReference"] = f"0x{address:04x}"
        if at:
            frame["source"] = {"name": os.path.basename(at[0]), "path": os.path.join(self.folder, at[0])}
        return frame

    def _stack_trace(self, given: Json) -> Json:
        session = self._open()
        addresses = [session.here.address]
        if not session.here.is_end:
            addresses += [frame.address for frame in session.frames()]
        found = [self._frame(number, address) for number, address in enumerate(addresses, 1)]
        first = int(given.get("startFrame") or 0)
        count = int(given.get("levels") or len(found))
        return {"stackFrames": found[first : first + count], "totalFrames": len(found)}

    def _scopes(self, _: Json) -> Json:
        scopes = [{"name": name, "variablesReference": number, "expensive": number > RETURNING} for number, name in SCOPES.items()]
        return {"scopes": scopes}

    def _variables(self, given: Json) -> Json:
        session, group = self._open(), int(given["variablesReference"])
        if group in (WORKING, RETURNING):
            found = _of_stack(session.here.working if group == WORKING else session.here.returning)
        elif group == PORTS:
            data = session.ports()
            found = [(f"{at:02x}", data[at : at + 16].hex(" ")) for at in range(0, 0x100, 16)]
        else:
            found = self._zero_page(session)
        return {"variables": [{"name": name, "value": value, "variablesReference": 0} for name, value in found]}

    def _zero_page(self, session: Session) -> list[tuple[str, str]]:
        """The labels of the zero page that are no ports, with their bytes."""
        labels = [(label.address, label.name) for label in session.program.labels.all if label.address < 0x100]
        found = [(at, name) for at, name in labels if not places.is_port(session.program, at)]
        lengths = [min(session.length_at(at), MOST_BYTES, 0x100 - at) for at, _ in found]
        return [(name, session.memory(name, at, length).hex(" ")) for (at, name), length in zip(found, lengths)]

    def _evaluate(self, given: Json) -> Json:
        """The bytes of a label, of an address, or of a line; a rune before a label does not count."""
        session, text = self._open(), str(given["expression"]).strip().lstrip(";.,_-=!?@")
        address = session.address(text)
        data = session.memory(text, address, session.length_at(address))
        number = f" = {int.from_bytes(data, 'big')}" if len(data) <= 2 else ""
        said = f"{address:04x}: {data.hex(' ')}{number}"
        return {"result": said, "variablesReference": 0, "memoryReference": f"0x{address:04x}"}

    def _read_memory(self, given: Json) -> Json:
        start = int(str(given["memoryReference"]), 16) + int(given.get("offset") or 0)
        count = int(given["count"])
        if not 0 <= start < 0x10000:
            return {"address": f"0x{max(start, 0):04x}", "unreadableBytes": count}
        length = min(count, 0x10000 - start)
        data = self._open().memory(f"{start:04x}", start, length) if length > 0 else b""
        said = {"address": f"0x{start:04x}", "data": base64.b64encode(data).decode()}
        return {**said, "unreadableBytes": count - length} if length < count else said


def _of_stack(stack: Stack) -> list[tuple[str, str]]:
    """The depth of a stack, and its topmost bytes from the top on."""
    found = [("depth", str(stack.depth))]
    return found + [(f"top-{at}" if at else "top", f"{byte:02x} = {byte}") for at, byte in enumerate(reversed(stack.top))]
