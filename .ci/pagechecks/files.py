"""The files of the repository: those that git lists, or, without git, all that no build or test leaves."""
from __future__ import annotations

import os
import subprocess
from collections.abc import Iterator

# Folders that builds and tests leave, as .gitignore has them.
LEFT = {".git", "out", "__pycache__", ".uxn-test"}


def walked(folder: str) -> Iterator[str]:
    for place, folders, names in os.walk(folder):
        folders[:] = sorted(set(folders) - LEFT)
        yield from (os.path.relpath(os.path.join(place, name), folder) for name in sorted(names))


def listed() -> list[str]:
    """The files beneath the current folder, which is the top of the repository."""
    words = ["git", "ls-files", "--cached", "--others", "--exclude-standard"]
    try:
        done = subprocess.run(words, capture_output=True, text=True, check=False)
    except OSError:
        return sorted(walked("."))
    names = done.stdout.split("\n") if done.returncode == 0 else walked(".")
    return sorted({name for name in names if os.path.exists(name)} - {""})
