"""Effects of routines on the working stack: what a comment like `( a b* -- c )` says, and whether the routine does
it."""
from __future__ import annotations

from collections.abc import Iterator
from typing import NamedTuple

from uxntools import opcodes
from uxntools.analysis import Analysis, Kind, Label, Placed, full_name, lambdas, shape

# How many words are followed in one routine, and in all of a source.
MOST_STEPS, MOST_OF_ALL = 20_000, 2_000_000
# The ports that move the pointers of the stacks.
POINTERS = (0x04, 0x05)


class Effect(NamedTuple):
    """How many bytes a routine takes, how many it leaves (one of several numbers where it says `|`), and whether it
    returns: a vector, which says `->`, does not."""

    before: int
    after: frozenset[int]
    returns: bool


class Mistake(NamedTuple):
    """A routine whose code does not do what its comment says, and what it does."""

    label: Label
    message: str


def effect_of(comment: bytes) -> Effect | None:
    """What a comment says: names of bytes, and of shorts with a star, before and behind `--` or `->`. None for any
    other comment."""
    words = comment.split()
    if len(words) < 3 or words[0] != b"(" or words[-1] != b")":
        return None
    words = words[1:-1]
    arrows = [word for word in words if word in (b"--", b"->")]
    if len(arrows) != 1 or any(word[0] in b"([{/.?" or word.endswith(b"..") for word in words):
        return None
    at = words.index(arrows[0])
    sides = [_bytes_of(side) for side in _sides(words[at + 1 :])]
    return None if b"|" in words[:at] else Effect(_bytes_of(words[:at]), frozenset(sides), arrows[0] == b"--")


def _sides(words: list[bytes]) -> Iterator[list[bytes]]:
    side: list[bytes] = []
    for word in words:
        if word == b"|":
            yield side
            side = []
        else:
            side.append(word)
    yield side


def _bytes_of(names: list[bytes]) -> int:
    return sum(1 + name.endswith(b"*") for name in names)


class State(NamedTuple):
    """A place in the code, and how many bytes the routine has on the working stack and, above its return address, on
    the other."""

    at: int
    working: int
    returning: int


class _Unclear(Exception):
    """The code is not straight enough to say what it does."""


class _Less(Exception):
    """The code takes more than the routine has."""

    def __init__(self, placed: Placed, bytes_missing: int) -> None:
        super().__init__()
        self.placed, self.bytes_missing = placed, bytes_missing


class _PathEnds(Exception):
    """The path ends, or nobody knows where it goes on."""


class Routines:
    """The routines of an expanded source, with what their comments say."""

    def __init__(self, found: Analysis) -> None:
        self.found = found
        self.code = [placed for placed in found.expanded if shape(placed.word.text).kind is not Kind.BRACKET]
        self.pairs = lambdas(self.code)
        self.starts: dict[bytes, int] = {}
        for at, placed in enumerate(self.code):
            form = shape(placed.word.text)
            if form.kind in (Kind.LABEL, Kind.SUBLABEL):
                name = placed.scope + b"/" + form.name if form.kind is Kind.SUBLABEL else form.name
                self.starts.setdefault(name, at)
        called = {
            self._target(placed) for placed in self.code if shape(placed.word.text)[0::3] == (Kind.REFERENCE, b"")
        }
        self.steps_left = MOST_OF_ALL
        self.effects: dict[bytes, Effect] = {}
        for label in found.labels.values():
            is_sublabel = label.word.text[:1] == b"&"
            effect = effect_of(found.comment_behind(label.word))
            if effect and (not is_sublabel or label.name in called):
                self.effects[label.name] = effect

    def _target(self, placed: Placed) -> bytes:
        return full_name(placed.scope, shape(placed.word.text).name)

    def mistakes(self) -> Iterator[Mistake]:
        for name, effect in self.effects.items():
            if effect.returns and name in self.starts:
                message = _Run(self, name, effect).message()
                if message:
                    yield Mistake(self.found.labels[name], message)


class _Run:
    """All paths through one routine, as far as they are clear."""

    def __init__(self, all_routines: Routines, name: bytes, effect: Effect) -> None:
        self.all, self.name, self.effect = all_routines, name, effect
        self.code = all_routines.code
        self.waiting = [State(all_routines.starts[name] + 1, effect.before, 0)]
        self.seen: dict[int, State] = {}
        self.wrong: str = ""

    def message(self) -> str:
        """What the routine does in place of what it says; empty where it is right or not straight enough."""
        try:
            for _ in range(min(MOST_STEPS, self.all.steps_left)):
                if not self.waiting:
                    return self.wrong
                self.all.steps_left -= 1
                self._go_on(self.waiting.pop())
        except _Unclear:
            pass
        except _Less as less:
            word = less.placed.origin
            return f"takes {_counted(less.bytes_missing)} more than it says, at {word.line}:{word.column}"
        return ""

    def _go_on(self, state: State) -> None:
        if state.at >= len(self.code):
            return
        before = self.seen.setdefault(state.at, state)
        if before is not state:
            if before != state:
                raise _Unclear
            return
        try:
            self.waiting.extend(self._step(self.code[state.at], state))
        except _PathEnds:
            pass

    def _step(self, placed: Placed, state: State) -> list[State]:
        form = shape(placed.word.text)
        at, working, returning = state
        if form.kind is Kind.LITERAL:
            return [State(at + 1, working + form.size - 1, returning)]
        if form.kind is Kind.OPCODE:
            return self._instruction(placed, state)
        if form.kind is Kind.REFERENCE:
            return self._reference(placed, state)
        if form.kind is Kind.OPENER:
            return self._opener(placed, state)
        if form.kind is Kind.LABEL and form.name in self.all.effects:
            return self._leave(placed, state, form.name)
        if form.kind in (Kind.LABEL, Kind.SUBLABEL, Kind.CLOSER):
            return [State(at + 1, working, returning)]
        raise _PathEnds

    def _take(self, placed: Placed, state: State, count: int) -> None:
        if state.working < count:
            raise _Less(placed, count - state.working)

    def _instruction(self, placed: Placed, state: State) -> list[State]:
        at, working, returning = state
        what = opcodes.instruction(placed.word.text.decode())
        assert what
        name = what.operation.name
        if name == "LIT":
            return [self._after_operand(state, 1 + what.is_short, what.in_return_mode)]
        if name in ("JMP", "JCN", "JSR"):
            return self._jump(placed, state, what)
        if name in opcodes.IMMEDIATE:
            raise _PathEnds
        if name == "DEO" and self._number_before(at) in POINTERS:
            raise _Unclear
        if what.in_return_mode:
            if returning < what.taken:
                raise _Unclear
            return [State(at + 1, working + what.other_growth, returning + what.growth)]
        self._take(placed, state, what.taken)
        return [State(at + 1, working + what.growth, returning + what.other_growth)]

    def _after_operand(self, state: State, count: int, in_return_mode: bool) -> State:
        """The state behind a LIT and the words that are its operand."""
        at, left = state.at + 1, count
        while left > 0 and at < len(self.code):
            left -= shape(self.code[at].word.text).size
            at += 1
        if left:
            raise _PathEnds
        return State(at, state.working + count * (not in_return_mode), state.returning + count * in_return_mode)

    def _literal_before(self, at: int) -> bytes:
        """The label whose address the word before pushes; empty if it does not."""
        form = shape(self.code[at - 1].word.text)
        is_address = form.kind is Kind.REFERENCE and form.rune in (b";", b",", b".")
        return full_name(self.code[at - 1].scope, form.name) if is_address else b""

    def _number_before(self, at: int) -> int | None:
        """The number that the word before pushes: a literal, or the address of a label."""
        form = shape(self.code[at - 1].word.text)
        if form.kind is Kind.LITERAL:
            return int(form.name, 16)
        label = self.all.found.labels.get(self._literal_before(at))
        return label.address if label else None

    def _jump(self, placed: Placed, state: State, what: opcodes.Instruction) -> list[State]:
        at, working, returning = state
        if what.operation.name == "JMP" and what.is_short and what.in_return_mode:
            return self._return(placed, state)
        target = self._literal_before(at)
        if what.in_return_mode or what.keeps or not target:
            raise _PathEnds
        self._take(placed, state, what.taken)
        after = State(at + 1, working + what.growth, returning)
        if what.operation.name == "JSR":
            return self._call(placed, after, target)
        onward = self._leave(placed, after, target)
        return onward + [after] if what.operation.name == "JCN" else onward

    def _reference(self, placed: Placed, state: State) -> list[State]:
        at, working, returning = state
        form = shape(placed.word.text)
        target = full_name(placed.scope, form.name)
        if form.rune in (b",", b".", b";"):
            return [State(at + 1, working + form.size - 1, returning)]
        if form.rune == b"!":
            return self._leave(placed, state, target)
        if form.rune == b"?":
            self._take(placed, state, 1)
            after = State(at + 1, working - 1, returning)
            return [after, *self._leave(placed, after, target)]
        if form.rune:
            raise _PathEnds
        return self._call(placed, State(at + 1, working, returning), target)

    def _opener(self, placed: Placed, state: State) -> list[State]:
        at, working, returning = state
        rune = shape(placed.word.text).rune
        if at not in self.all.pairs:
            raise _PathEnds
        behind = self.all.pairs[at] + 1
        if rune == b"?":
            self._take(placed, state, 1)
            return [State(at + 1, working - 1, returning), State(behind, working - 1, returning)]
        if rune == b"":
            return [State(behind, working, returning + 2)]
        if rune == b"!":
            return [State(behind, working, returning)]
        raise _PathEnds

    def _call(self, placed: Placed, after: State, target: bytes) -> list[State]:
        effect = self.all.effects.get(target)
        if effect is None or not effect.returns:
            raise _PathEnds
        self._take(placed, after, effect.before)
        return [State(after.at, after.working - effect.before + more, after.returning) for more in sorted(effect.after)]

    def _leave(self, placed: Placed, state: State, target: bytes) -> list[State]:
        """A jump: within the routine, or to another one, which then returns in its place."""
        effect = self.all.effects.get(target)
        if target != self.name and effect:
            if not effect.returns:
                return []
            self._take(placed, state, effect.before)
            for more in sorted(effect.after):
                self._return(placed, State(state.at, state.working - effect.before + more, state.returning))
            return []
        start = self.all.starts.get(target)
        return [] if start is None else [State(start, state.working, state.returning)]

    def _return(self, placed: Placed, state: State) -> list[State]:
        if state.returning:
            raise _Unclear
        if state.working not in self.effect.after and not self.wrong:
            word = placed.origin
            said = " or ".join(map(str, sorted(self.effect.after)))
            self.wrong = f"leaves {_counted(state.working)} and not {said}, at {word.line}:{word.column}"
        return []


def _counted(count: int) -> str:
    return "1 byte" if count == 1 else f"{count} bytes"
