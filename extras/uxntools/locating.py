"""Where `uxn` is: what `$UXN` names, or `uxn` of the PATH."""
from __future__ import annotations

import os


def uxn() -> str | None:
    """The program by an absolute path, so that it can be called in any folder."""
    name = os.environ.get("UXN", "uxn")
    folders = [""] if os.path.dirname(name) else os.environ.get("PATH", os.defpath).split(os.pathsep)
    for folder in folders:
        path = os.path.join(folder, name)
        if name and os.path.isfile(path) and os.access(path, os.X_OK):
            return past_wrapper(os.path.abspath(path))
    return None


def missing() -> str:
    return f"there is no program {os.environ.get('UXN', 'uxn')}: put uxn into PATH, or its path into UXN"


def past_wrapper(path: str) -> str:
    """The program that an installed `uxn` runs, which is a short script; another one is the program itself."""
    beside = os.path.join(os.path.dirname(os.path.realpath(path)), "..", "lib", "uxn", "uxn")
    return os.path.realpath(beside) if os.access(beside, os.X_OK) else path
