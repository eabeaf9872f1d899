"""The folder of a project in which runs write, and results and failed tests are kept."""
from __future__ import annotations

import os
import stat

from uxntools import files

KEPT = ".uxn-test"


def kept_folder(folder: str) -> str:
    """The folder of a project in which all of this is written; it tells git to leave it alone."""
    path = os.path.join(folder, KEPT)
    try:
        if stat.S_ISDIR(os.lstat(path).st_mode):
            return path
    except FileNotFoundError:
        pass
    files.make_folder(KEPT, folder)
    files.write(os.path.join(KEPT, ".gitignore"), b"*\n", folder)
    return path
