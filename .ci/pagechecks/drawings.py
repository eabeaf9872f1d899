"""The pictures of docs/pictures: each is what the script beside it prints."""
from __future__ import annotations

import os
import re
import subprocess
import sys
import zlib

from pagechecks.console import Report
from pagechecks.names import Repository

FOLDER = "docs/pictures"


def meaning(data: bytes) -> bytes:
    """A picture without what a version of zlib decides: of a PNG its head and its rows."""
    if not data.startswith(b"\x89PNG"):
        return data
    at, rows = 8, b""
    while at < len(data):
        length = int.from_bytes(data[at:at + 4], "big")
        if data[at + 4:at + 8] == b"IDAT":
            rows += data[at + 8:at + 8 + length]
        at += 12 + length
    return data[16:29] + zlib.decompress(rows)


def fault_of(picture: str, program: str) -> str:
    script = os.path.splitext(picture)[0] + ".py"
    if not os.path.isfile(script):
        return f"{picture}: there is no {script}"
    words = [sys.executable, "-B", os.path.basename(script)]
    made = subprocess.run(words, cwd=FOLDER, env={**os.environ, "UXN": program}, capture_output=True, check=False)
    with open(picture, "rb") as file:
        stored = file.read()
    if made.returncode or meaning(made.stdout) != meaning(stored):
        return f"{picture}: it is not what {script} prints {made.stderr.decode(errors='replace')[-200:]}"
    return ""


def check(there: Repository, program: str) -> Report:
    pictures = [file for file in there.files if re.fullmatch(rf"{FOLDER}/\w+\.(svg|png)", file)]
    faults = [fault for picture in pictures if (fault := fault_of(picture, program))]
    return Report(len(pictures) - len(faults), faults, [])
