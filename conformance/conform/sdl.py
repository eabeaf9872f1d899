"""The events of a test in the order and words of SDL: a line each, for an emulator that takes its events from SDL."""
from __future__ import annotations

from conform.tests import Event

# The keys of the buttons of player 1, as emulators with SDL have them. The other players have no keys.
KEYS = {
    "a": "SDLK_LCTRL",
    "b": "SDLK_LALT",
    "select": "SDLK_LSHIFT",
    "start": "SDLK_HOME",
    "up": "SDLK_UP",
    "down": "SDLK_DOWN",
    "left": "SDLK_LEFT",
    "right": "SDLK_RIGHT",
}


def line_of(event: Event) -> str:
    """A line: a word of SDL with its numbers, or `frame`, `stdin`, `clock`, `shot` for what SDL has no event for."""
    name, words = event[0], [str(word) for word in event[1:]]
    if name in ("down", "up"):
        player = int(words[1]) if len(words) > 1 else 1
        kind = "SDL_KEYDOWN" if name == "down" else "SDL_KEYUP"
        if player == 1:
            return f"{kind} {KEYS[words[0]]}"
        kind = "SDL_CONTROLLERBUTTONDOWN" if name == "down" else "SDL_CONTROLLERBUTTONUP"
        return f"{kind} {player - 1} {words[0]}"
    names = {
        "key": "SDL_TEXTINPUT",
        "mouse": "SDL_MOUSEMOTION",
        "press": "SDL_MOUSEBUTTONDOWN",
        "release": "SDL_MOUSEBUTTONUP",
        "scroll": "SDL_MOUSEWHEEL",
        "input": "stdin",
        "end": "stdin end",
    }
    return " ".join([names.get(name, name), *words])


def lines_of(events: list[Event]) -> str:
    return "".join(line_of(event) + "\n" for event in events) + "SDL_QUIT\n"
