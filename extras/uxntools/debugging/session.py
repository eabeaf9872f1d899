"""A session of the debugger: where in the run it stands, its breaks, and what it can do. Each look begins the run
anew, which is the same each time; so the session holds nothing of the program but the number of a moment."""
from __future__ import annotations

import os
from collections.abc import Callable
from dataclasses import dataclass, replace

from uxntools import events, opcodes, places, program
from uxntools.cli import Failure
from uxntools.debugging import backwards, frames
from uxntools.debugging.backwards import FarStores, Near, Unsure
from uxntools.debugging.frames import Frame
from uxntools.debugging.known import Known
from uxntools.events import Place
from uxntools.facts import STOPPED_EARLY
from uxntools.horizon import Horizon
from uxntools.moments import State
from uxntools.stores import MOST_SHOWN, Change, Stores, Watched
from uxntools.target import Target, Workspace

# How many calls are shown, and how many moments are followed back for them.
MOST_FRAMES, WINDOW = 64, 30_000
# How many bytes of a label are shown, and of one without a label behind it.
MOST_PRINTED, MOST_OF_LAST = 64, 16
# The address that a ROM is loaded at.
START = 0x0100


@dataclass(frozen=True)
class Record:
    """What the session did: a move (to a state), or a look; with the command of `uxn debug` that says the same, if
    there is one."""

    kind: str
    moment: int
    command: str = ""


class Session:
    """A session over a program. `note` is given what a user should know beside the answer."""

    def __init__(self, target: Target, note: Callable[[str], None]) -> None:
        self.target = target
        self.note = note
        self.breaks: dict[int, str] = {}
        self.records: list[Record] = []
        # What looks for stores, and before which moment.
        self._stores: Stores | None = None
        self._stores_to = 0
        self._open()

    def _open(self) -> None:
        workspace = Workspace(self.target)
        try:
            loaded, rom = workspace.program(), workspace.rom()
            horizon = self._followed(workspace)
            known = Known(workspace, horizon)
            here = known.at(0)
        except BaseException:
            workspace.close()
            raise
        self.workspace, self.program, self.rom = workspace, loaded, rom
        self.horizon, self.known, self.here = horizon, known, here

    def _followed(self, workspace: Workspace) -> Horizon:
        """The run, without the event in which it ends early."""
        done, made = workspace.try_play(workspace.script(), "report")
        if done.status in STOPPED_EARLY:
            self._shorten(workspace, done.status)
            return Horizon(workspace)
        program.accepted(done)
        return Horizon(workspace, made["report"])

    def close(self) -> None:
        self.workspace.close()

    def reload(self) -> None:
        """Reads the files anew, and goes to the first moment. Breaks stay at their labels."""
        old = self.workspace
        self._open()
        old.close()
        self._stores = None
        self.records = []
        names, self.breaks = list(self.breaks.values()), {}
        for name in names:
            try:
                self.set_break(name)
            except Failure as failure:
                self.note(f"break {name}: {failure.line}")

    def _shorten(self, workspace: Workspace, status: int) -> None:
        """Leaves out the events from the one on in which the run ends early, since a log is only written at the end
        of a run."""
        script = workspace.script()
        least, most = -1, events.count(script)
        while most - least > 1:
            middle = (least + most) // 2
            done, _ = workspace.try_play(events.prefix(script, middle))
            if done.status in STOPPED_EARLY:
                most = middle
            else:
                least = middle
        if least < 0:
            raise Failure(f"the run ends early with {status}, before the first event (docs/ended.md says why)", status)
        workspace.shortened = events.prefix(script, least)
        self.note(
            f"the run ends early with {status}, in event {most} of its script; this session ends behind event {least}"
        )

    # Moves

    def _move(self, state: State, command: str = "") -> State:
        self.here = state
        self.records.append(Record("move", state.count, command))
        return state

    def set_break(self, where: str) -> int:
        address = self.address(where)
        self.breaks[address] = where
        self.records.append(Record("break", self.here.count, f"break {self._named(where, address)}"))
        return address

    def delete(self, where: str) -> int:
        address = self.address(where)
        if address not in self.breaks:
            raise Failure(f"there is no break at {where}")
        name = self.breaks.pop(address)
        self.records.append(Record("break", self.here.count, f"delete {self._named(name, address)}"))
        return address

    def _named(self, where: str, address: int) -> str:
        """An address as a command names it: by the label, if it is one."""
        name = os.fsencode(where.removeprefix("@")).decode("latin-1")
        return f"@{name}" if name in self.program.labels.by_name else f"{address:04x}"

    def address(self, where: str) -> int:
        """The address that a text names: a place, or `.` for the present one."""
        if where == ".":
            return self.here.address or 0
        at = places.line_of(self.program, self.here.address)
        return places.address_of(self.program, where, at[0] if at else self.target.source)

    def run(self) -> State:
        """Goes on to the next moment at a break, or to the end."""
        return self._move(self.known.next_hit(self.here.count, frozenset(self.breaks)), "run")

    def step(self, count: int = 1) -> State:
        return self._move(self.known.at(self.here.count + count), f"step {count}")

    def back(self, count: int = 1) -> State:
        if count > self.here.count:
            raise Failure(f"there are only {self.here.count} moments before this one")
        return self.go_to(self.here.count - count)

    def go_to(self, moment: int) -> State:
        state = self._move(self.known.at(moment))
        if state.count < moment:
            self.note(f"the run ends after {state.count} instructions")
        return state

    @property
    def place(self) -> Place:
        """The event of the present moment."""
        return events.place_of(self.horizon.script, self.horizon.event_of(self.here.count))

    def go_to_event(self, event: int) -> State:
        """To the first moment of an event; 0 is the start."""
        return self.go_to(self.horizon.end(event - 1) if event > 0 else 0)

    def go_to_frame(self, frame: int) -> State:
        """To the first moment of a frame."""
        event = events.of_frame(self.horizon.script, frame) if frame > 0 else None
        if event is None:
            raise Failure(f"the script has no frame {frame}")
        return self.go_to_event(event)

    def go_to_line(self, line: int) -> State:
        """To the first moment of the events of a line of the script, or of the next one that has any."""
        return self.go_to_event(events.before(self.horizon.script, line) + 1)

    def next_frame(self) -> State:
        return self.go_to_frame(self.place.frames + 1)

    def back_frame(self) -> State:
        """To the first moment of the present frame; from there, or from another event after it, to that of the frame
        before."""
        frame, moment = self.place.frames, self.here.count
        if frame and self.go_to_frame(frame).count < moment:
            return self.here
        return self.go_to_frame(frame - 1) if frame > 1 else self.go_to(0)

    def next(self) -> State:
        """One instruction, or to the return of the subroutine that it calls."""
        here = self.here
        if here.address is None or not frames.is_call(here.name) or self._is_lambda(here.address):
            return self.step()
        return self._returned(self._first_return(frames.return_address(here.name, here.address), here.returning.depth))

    def finish(self) -> tuple[Frame, State]:
        """To the return of the subroutine that the session stands in."""
        frame = self._innermost()
        return frame, self._returned(self._first_return(frame.returns_to, frame.depth))

    def _innermost(self) -> Frame:
        """The innermost call. Most return addresses are on the top of the stack: where a run is needed to find the
        call, it goes on to there."""
        here, stack = self.here.count, self.here.returning
        guess = Frame(None, 0, int.from_bytes(stack.top[-2:], "big"), stack.depth - 2)
        if not self.known.has_trail_to(here, WINDOW):
            self.horizon.reach_behind(here, 0)
            self.known.look(here, sorted({*self.breaks, guess.returns_to}))
        found, is_all = self._frames(1)
        if not found and is_all:
            raise Failure("this is no subroutine: no call of this vector is on the return stack")
        return found[0] if found else self._far_frame(guess)

    def _frames(self, most: int) -> tuple[list[Frame], bool]:
        return frames.frames(self.known.trail_to(self.here.count, WINDOW), self.here, most, self._is_lambda)

    def _far_frame(self, guess: Frame) -> Frame:
        """The call of a subroutine that has run for long: the one before the address on top of the return stack."""
        for name, size in (("JSI", 3), ("JSR2", 1), ("JSR", 1)):
            address = (guess.returns_to - size) & 0xFFFF
            if guess.depth >= 0 and self._instruction_at(address) == name and not self._is_lambda(address):
                self.note("its call is far back; the address on top of the return stack is taken")
                return replace(guess, address=address)
        raise Failure(f"no call of the last {WINDOW} instructions is on the return stack")

    def _instruction_at(self, address: int) -> str:
        """The name of the instruction at an address of the program as it is loaded."""
        byte = self.rom[address - START : address - START + 1] if address >= START else b""
        return opcodes.of_byte(byte[0]).name if byte else ""

    def _returned(self, state: State) -> State:
        if state.is_end:
            self.note("it does not return")
        return self._move(state)

    def frames(self) -> list[Frame]:
        """The calls that did not return yet, the innermost first."""
        found, is_all = self._frames(MOST_FRAMES)
        if not found and is_all:
            self.note("no call of this vector is on the return stack")
        elif not is_all:
            self.note(f"those of the last {WINDOW} instructions, or the innermost {MOST_FRAMES}:")
        return found

    def _is_lambda(self, address: int) -> bool:
        """Whether a call is that of a lambda, whose return address is what stands in its braces."""
        row = self.program.by_address.get(address)
        return row is not None and row.word == b"{"

    def _first_return(self, address: int, depth: int) -> State:
        """The first moment at an address with a return stack of at most this depth, or an earlier one at a break."""
        stops = frozenset({*self.breaks, address})
        state = self.known.next_hit(self.here.count, stops)
        while not (state.is_end or state.address in self.breaks or state.returning.depth <= depth):
            state = self.known.next_hit(state.count, stops)
        return state

    def reverse_run(self) -> State:
        """Back to the last earlier moment at a break, or to the first moment."""
        if not self.breaks:
            raise Failure("there is no break")
        if not self.here.count:
            raise Failure("this is the first moment")
        found = self.known.last_hit(self.here.count, frozenset(self.breaks))
        if found is None:
            self.note("no earlier moment is at a break: this is the first one")
            found = self.known.at(0)
        return self._move(found)

    # Looks

    def memory(self, where: str, address: int, length: int) -> bytes:
        """Bytes of memory at the present moment."""
        commands = Watched(address, length).commands()
        name = self._named(where, address) if length <= MOST_SHOWN else ""
        self.records += [
            Record("look", self.here.count, f"mem {name} {length}" if name else command) for command in commands
        ]
        return self.known.memory(self.here.count, Watched(address, length))

    def length_at(self, address: int) -> int:
        """How many bytes are those of a label: up to the next one, but not too many. The last one ends with the ROM,
        with the page of the ports before it, or with the memory behind it."""
        later = [at for at in self.program.labels.addresses if at > address and self._ends(at, address)]
        if later:
            return min(later[0] - address, MOST_PRINTED)
        ends = (START, START + len(self.rom), 0x10000)
        return min(next(end for end in ends if address < end) - address, MOST_OF_LAST)

    def _ends(self, label: int, address: int) -> bool:
        """Whether the label at an address ends what stands at an earlier one: a device's label ends no variable."""
        return not places.is_port(self.program, label) or places.is_port(self.program, address)

    def ports(self) -> bytes:
        """What the ports read at the present moment."""
        self.look("ports")
        return self.known.ports(self.here.count)

    def look(self, command: str) -> None:
        """Keeps a look that the session has the answer of."""
        self.records.append(Record("look", self.here.count, command))

    def last_store(self, watched: Watched) -> tuple[Change, State] | None:
        """The last store before the present moment that changed some bytes, and the state before it."""
        self.horizon.reach(self.here.count)
        near = backwards.near_store(self.workspace, watched, self.here.count)
        if near.change:
            return near.change, near.state or self.known.at(near.change.place.count)
        if not near.first:
            return None
        self.note(f"none in the last {self.here.count - near.first} instructions; all stores before them are looked at")
        return self._far_store(watched, near)

    def _far_store(self, watched: Watched, near: Near) -> tuple[Change, State] | None:
        try:
            change = FarStores(self.workspace, self.horizon, self.rom).last(watched, near)
        except Unsure:
            change = self._any_store(watched, near.first)
        return (change, self.known.at(change.place.count)) if change else None

    def _any_store(self, watched: Watched, last: int) -> Change | None:
        """The same of a program that changes its instructions, or whose memory devices change."""
        if self._stores is None or self._stores_to <= last:
            self._stores, self._stores_to = Stores(self.workspace, self.rom), self.horizon.known_to
        changes = self._stores.changes(watched, 0, last - 1)
        return changes[-1] if changes else None
