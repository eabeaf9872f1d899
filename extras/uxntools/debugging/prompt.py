"""The commands of the debugger at the terminal."""
from __future__ import annotations

import cmd
import os
import re
import sys
from collections.abc import Callable

from uxntools import files, log, pictures, places
from uxntools.cli import Failure
from uxntools.debugging import saving
from uxntools.debugging.frames import Frame
from uxntools.debugging.session import Session
from uxntools.debugging.shots import Camera
from uxntools.moments import State
from uxntools.stores import MOST_BYTES, Watched

Action = Callable[["Prompt", list[str]], None]
AROUND = 5
MOST_LABELS = 200
MOST_MOMENT = 2**63


class Wrong(Exception):
    """A command that is not understood."""


def number(text: str, least: int, most: int = MOST_MOMENT) -> int:
    if not re.fullmatch(r"[0-9]{1,19}", text) or not least <= int(text) <= most:
        raise Wrong(
            f"'{text}' is no number from {least} on"
            if most == MOST_MOMENT
            else f"'{text}' is no number from {least} to {most}"
        )
    return int(text)


class Prompt(cmd.Cmd):
    """Reads commands, line by line, and prints what they show. An empty line does the last command again, and one
    that begins with # nothing."""

    prompt = "(uxn) "

    def __init__(self, session: Session) -> None:
        super().__init__()
        self.session = session
        self.listed = 0
        self.camera: Camera | None = None
        if not sys.stdin.isatty():
            self.prompt = ""
            self.use_rawinput = False

    # The loop

    def onecmd(self, line: str) -> bool:
        words = line.split()
        if words and words[0] == "EOF" and line == "EOF":
            if self.prompt:
                print()
            return True
        if not words:
            return self.emptyline()
        if words[0].startswith("#"):
            return False
        self.lastcmd = line
        try:
            name = self.command_of(words[0])
            if name == "quit":
                return True
            COMMANDS[name].action(self, words[1:])
        except Wrong as wrong:
            print(f"{wrong} (see help)")
        except Failure as failure:
            print(failure.line)
        except OSError as error:
            print(f"{error.filename or ''}: {error.strerror}".removeprefix(": "))
        except KeyboardInterrupt:
            print("\ninterrupted: the session stands where it was")
        return False

    def command_of(self, word: str) -> str:
        """The command that a word means: its name, a short one, or the beginning of one name alone."""
        if word in COMMANDS:
            return word
        short = [name for name, command in COMMANDS.items() if word in command.short]
        found = short or [name for name in COMMANDS if name.startswith(word)]
        if len(found) != 1:
            raise Wrong(f"{word} may be {', '.join(found)}" if found else f"there is no command {word}")
        return found[0]

    def emptyline(self) -> bool:
        if self.lastcmd and self.lastcmd.split()[0] not in ("save", "quit"):
            return self.onecmd(self.lastcmd)
        return False

    def completenames(self, *given: str) -> list[str]:
        text = given[0]
        return [name for name in COMMANDS if name.startswith(text)]

    def completedefault(self, *given: str) -> list[str]:
        """Labels that begin as the word does."""
        text = given[0]
        mark, name = ("@", text[1:]) if text.startswith("@") else ("", text)
        names = {log.readable(label.name) for label in self.session.program.labels.all}
        return [mark + found for found in sorted(names) if found.startswith(name)]

    # What is shown

    def show(self, state: State) -> None:
        self.listed = 0
        self.show_place(state)
        self.show_stacks(state)

    def show_place(self, state: State) -> None:
        if state.is_end:
            print(f"moment {state.count}: the end of the run")
            return
        print(f"moment {state.count}: {state.address:04x} {state.name}  {log.readable(state.label)}".rstrip())
        line = places.source_line(self.session.program, state.address)
        print(line or "(no word of the source gave this byte)")

    @staticmethod
    def show_stacks(state: State) -> None:
        print(f"WST {state.working}")
        print(f"RST {state.returning}")

    # Commands

    def do_break(self, words: list[str]) -> None:
        if not words:
            for address, name in sorted(self.session.breaks.items()):
                print(f"{address:04x} {name}  {places.source_line(self.session.program, address)}".rstrip())
            if not self.session.breaks:
                print("there is no break")
            return
        address = self.session.set_break(one(words))
        print(f"break at {address:04x}  {places.source_line(self.session.program, address)}".rstrip())

    def do_delete(self, words: list[str]) -> None:
        print(f"no break any more at {self.session.delete(one(words)):04x}")

    def do_run(self, words: list[str]) -> None:
        none(words)
        self.show(self.session.run())

    def do_step(self, words: list[str]) -> None:
        self.show(self.session.step(number(one(words or ["1"]), 1)))

    def do_next(self, words: list[str]) -> None:
        none(words)
        self.show(self.session.next())

    def do_finish(self, words: list[str]) -> None:
        none(words)
        frame, state = self.session.finish()
        print(f"from the call {self.call_of(frame)}")
        self.show(state)

    def do_back(self, words: list[str]) -> None:
        self.show(self.session.back(number(one(words or ["1"]), 1)))

    def do_reverse_run(self, words: list[str]) -> None:
        none(words)
        self.show(self.session.reverse_run())

    def do_goto(self, words: list[str]) -> None:
        if len(words) == 2 and words[0] == "frame":
            self.show(self.session.go_to_frame(number(words[1], 1)))
            return
        line = places.LINE.fullmatch(one(words))
        if line is None:
            self.show(self.session.go_to(number(one(words), 0)))
            return
        if line["path"] not in (self.session.target.script, os.path.basename(self.session.target.script or "")):
            raise Failure(f"{line['path']} is not the script of this run")
        self.show(self.session.go_to_line(number(line["line"], 1)))

    def do_next_frame(self, words: list[str]) -> None:
        none(words)
        self.show(self.session.next_frame())

    def do_back_frame(self, words: list[str]) -> None:
        none(words)
        self.show(self.session.back_frame())

    def do_watch(self, words: list[str]) -> None:
        address, length, name = self.span(words, 1)
        places.refuse_port(self.session.program, name, address)
        found = self.session.last_store(Watched(address, length))
        if found is None:
            print(f"nothing changed {address:04x} before this moment{places.note_of_ports(address)}")
            return
        change, state = found
        print(f"{address:04x} was {change.before.hex(' ')}, became {change.after.hex(' ')} by")
        self.show_place(state)
        self.show_stacks(state)

    def do_where(self, words: list[str]) -> None:
        none(words)
        self.session.look("where")
        self.show_place(self.session.here)
        self.show_event()

    def show_event(self) -> None:
        """The frame and the line of the script of the present moment."""
        if self.session.here.is_end:
            return
        place = self.session.place
        name = self.session.target.script or "the script"
        at = f"in event {place.event}, {name}:{place.line}" if place.event else "before the first event"
        print(f"frame {place.frames}, {at}" if place.frames else at)

    def do_calls(self, words: list[str]) -> None:
        none(words)
        for frame in self.session.frames():
            print(f"{self.call_of(frame)}  {places.source_line(self.session.program, frame.address)}".rstrip())

    def call_of(self, frame: Frame) -> str:
        label = places.of_address(self.session.program, frame.address)
        moment = f"at moment {frame.moment}: " if frame.moment is not None else "at "
        return f"{moment}{frame.address:04x} {label}".rstrip()

    def do_list(self, words: list[str]) -> None:
        program = self.session.program
        address = self.session.address(one(words)) if words else self.session.here.address
        at = places.line_of(program, address)
        if at is None:
            raise Failure(
                "no word of the source gave this byte" if address is not None else "the run has ended: list WHERE"
            )
        path, middle = at
        first = max(1, middle - AROUND) if words or not self.listed else self.listed
        last = min(first + 2 * AROUND, len(program.files[path]))
        if first > last:
            raise Failure(f"{path} ends here")
        here = places.line_of(program, self.session.here.address)
        breaks = {places.line_of(program, address) for address in self.session.breaks}
        print(path)
        for line in range(first, last + 1):
            mark = ("*" if (path, line) in breaks else " ") + (">" if (path, line) == here else " ")
            print(f"{mark}{line:5} {program.text(path, line)}".rstrip())
        self.listed = last + 1 if not words else 0

    def do_stacks(self, words: list[str]) -> None:
        none(words)
        self.session.look("stacks")
        self.show_stacks(self.session.here)

    def do_mem(self, words: list[str]) -> None:
        address, length, name = self.span(words, 16)
        data = self.session.memory(name, address, length)
        for at in range(0, len(data), 16):
            row = data[at : at + 16]
            text = "".join(chr(byte) if 0x20 <= byte < 0x7F else "." for byte in row)
            print(f"{(address + at) & 0xffff:04x} {row.hex(' '):47}  {text}")

    def do_ports(self, words: list[str]) -> None:
        none(words)
        data = self.session.ports()
        for at in range(0, 256, 16):
            print(f"{at:02x} {data[at:at + 16].hex(' ')}")

    def do_print(self, words: list[str]) -> None:
        name = one(words)
        address = self.session.address(name)
        length = self.session.length_at(address)
        data = self.session.memory(name, address, length)
        line = f"{address:04x} {data.hex(' ')}"
        if length <= 2:
            line += f"  = {int.from_bytes(data, 'big')}"
        text = data.rstrip(b"\0")
        if len(text) > 2 and all(0x20 <= byte < 0x7F or byte in b"\t\n" for byte in text):
            line += f"  {text.decode()!r}"
        print(line)
        if places.is_port(self.session.program, address):
            page = self.session.ports()
            print(f"port {address:02x} {page[address:address + length].hex(' ')}")

    def do_labels(self, words: list[str]) -> None:
        wanted = words[0].removeprefix("@").lower() if words else ""
        names = sorted({(label.address, log.readable(label.name)) for label in self.session.program.labels.all})
        found = [(address, name) for address, name in names if wanted in name.lower()]
        for address, name in found[:MOST_LABELS]:
            at = places.line_of(self.session.program, address)
            print(f"{address:04x} {name}  {f'{at[0]}:{at[1]}' if at else ''}".rstrip())
        if len(found) > MOST_LABELS:
            print(f"and {len(found) - MOST_LABELS} more")
        if not found:
            print(f"no label has {words[0]} in its name" if words else "there are no labels")

    def do_shot(self, words: list[str]) -> None:
        moment = self.session.here.count
        name = one(words or [f"shot-{moment}.png"]).removesuffix(".png")
        if self.camera is None or self.camera.workspace is not self.session.workspace:
            self.camera = Camera(self.session.horizon)
        found = self.camera.shots(moment)
        if not found:
            raise Failure("there is no picture: the program ends its run in the first event")
        paths = [f"{name}.png"] if len(found) == 1 else [f"{name}-before.png", f"{name}-after.png"]
        for path, shot in zip(paths, found):
            files.write(path, pictures.png(shot.picture))
            print(f"{path}: the screen {shot.shows}")

    def do_output(self, words: list[str]) -> None:
        none(words)
        done = self.session.workspace.output()
        sys.stdout.flush()
        for data in (done.out, done.err):
            sys.stdout.buffer.write(data)
            sys.stdout.buffer.flush()
        counts = f"{len(done.out)} bytes of the whole run, {len(done.err)} on its error output"
        print(f"({counts}, and the status {done.status})")

    def do_save(self, words: list[str]) -> None:
        save(self.session, one(words))

    def do_reload(self, words: list[str]) -> None:
        none(words)
        self.session.reload()
        self.show(self.session.here)

    def do_help(self, arg: str | list[str]) -> None:
        words = arg.split() if isinstance(arg, str) else arg
        names = [self.command_of(word) for word in words] or list(COMMANDS)
        for name in names:
            command = COMMANDS[name]
            head = ", ".join([f"{name} {command.form}".rstrip(), *command.short])
            print(f"{head:24} {command.says}")
        if not words:
            print("A WHERE is a label (main, main/loop, main+000a), four hexadecimal digits, FILE:LINE, :LINE, or .")

    def span(self, words: list[str], length: int) -> tuple[int, int, str]:
        """A place and a length."""
        if not 1 <= len(words) <= 2:
            raise Wrong("WHERE, and perhaps a length, are wanted")
        return self.session.address(words[0]), number(words[1], 1, MOST_BYTES) if len(words) == 2 else length, words[0]


def one(words: list[str]) -> str:
    if len(words) != 1:
        raise Wrong("one word is wanted behind this command" if words else "a word is wanted behind this command")
    return words[0]


def none(words: list[str]) -> None:
    if words:
        raise Wrong(f"nothing is wanted behind this command: {words[0]}")


def save(session: Session, name: str) -> None:
    """Writes the commands of a session and their log, and beside them the script and the files that it ran with."""
    commands, shown = saving.saved(session)
    files.make_folder(os.path.dirname(name) or ".")
    written = {f"{name}.commands": commands, f"{name}.log": shown}
    target = session.target
    if target.script is not None and target.script != f"{name}.script":
        written[f"{name}.script"] = files.read(session.workspace.path(target.script), files.SCRIPT)
    for path, data in written.items():
        files.write(path, data)
    print(f"written: {', '.join(written)}")
    if (
        target.root is not None
        and os.path.isdir(session.workspace.path(target.root))
        and not os.path.lexists(f"{name}.root")
    ):
        files.copy_root(session.workspace.path(target.root), f"{name}.root")
        print(f"written: {name}.root")
    recorded = saving.record_outputs(name)
    if recorded:
        print(f"written: {', '.join(recorded)}")


class Command:
    """A command: what it does, the form of what follows it, what help says, and its short names."""

    def __init__(self, action: Action, form: str, says: str, *short: str) -> None:
        self.action, self.form, self.says, self.short = action, form, says, short


COMMANDS = {
    "break": Command(Prompt.do_break, "[WHERE]", "sets a break; without WHERE lists the breaks", "b"),
    "delete": Command(Prompt.do_delete, "WHERE", "takes a break away", "d"),
    "run": Command(Prompt.do_run, "", "goes on to the next moment at a break, or to the end", "r", "c", "continue"),
    "step": Command(Prompt.do_step, "[N]", "goes N instructions on", "s"),
    "next": Command(
        Prompt.do_next, "", "goes one instruction on, and over a subroutine that it calls, or to a break before", "n"
    ),
    "finish": Command(Prompt.do_finish, "", "goes on to where this subroutine returns, or to a break before", "f"),
    "back": Command(Prompt.do_back, "[N]", "goes N instructions back"),
    "reverse-run": Command(Prompt.do_reverse_run, "", "goes back to the last earlier moment at a break", "rr"),
    "goto": Command(Prompt.do_goto, "WHEN", "goes to a moment, to `frame N`, or to SCRIPT:LINE", "g"),
    "next-frame": Command(Prompt.do_next_frame, "", "goes to where the next frame begins", "nf"),
    "back-frame": Command(Prompt.do_back_frame, "", "goes back to where this frame, or the one before, begins", "bf"),
    "watch": Command(
        Prompt.do_watch, "WHERE [LENGTH]", "shows the last store to memory so far that changed these bytes", "w"
    ),
    "where": Command(Prompt.do_where, "", "shows the moment, the instruction, and the line of the source"),
    "calls": Command(Prompt.do_calls, "", "shows the calls that did not return yet, the innermost first", "bt"),
    "list": Command(
        Prompt.do_list, "[WHERE]", "shows the source around the present line or WHERE; again, what follows", "l"
    ),
    "stacks": Command(Prompt.do_stacks, "", "shows both stacks: the depth and up to eight topmost bytes"),
    "mem": Command(Prompt.do_mem, "WHERE [LENGTH]", "shows memory (16 bytes)", "m", "x"),
    "ports": Command(Prompt.do_ports, "", "shows what the 256 ports read"),
    "print": Command(Prompt.do_print, "WHERE", "shows the bytes up to the next label, or to the end of the ROM", "p"),
    "labels": Command(Prompt.do_labels, "[TEXT]", "lists the labels that have TEXT in their names"),
    "shot": Command(Prompt.do_shot, "[FILE]", "writes the screen at this moment as a PNG file"),
    "output": Command(Prompt.do_output, "", "shows what the whole run prints"),
    "save": Command(Prompt.do_save, "NAME", "writes the breaks, moves and looks so far as NAME.commands and NAME.log"),
    "reload": Command(Prompt.do_reload, "", "reads the program anew, and begins at the first moment"),
    "help": Command(Prompt.do_help, "[COMMAND]", "says what the commands do", "h", "?"),
    "quit": Command(Prompt.do_help, "", "ends the session", "q", "exit"),
}
