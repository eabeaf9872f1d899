#!/usr/bin/env python3
"""The two pictures of walk.tal of docs/start.md over its script, four times as large; $UXN is the program, or `uxn`."""
import os
import re
import subprocess
import tempfile

import examples

with open(os.path.join(examples.TOP, "docs", "start.md"), encoding="utf-8") as page:
    FILES = re.findall(r"(?ms)^```\w+ (walk\.\w+)\n(.*?)^```", page.read())
with tempfile.TemporaryDirectory() as folder:
    for name, text in FILES:
        with open(os.path.join(folder, name), "w", encoding="utf-8") as file:
            file.write(text)
    words = [os.environ.get("UXN", "uxn"), "play", "walk.tal", "--script", "walk.script", "--frames", "p"]
    subprocess.run(words, cwd=folder, check=True)
    with open(os.path.join(folder, "p"), "rb") as frames:
        films = examples.pictures.read(frames.read())
examples.show(films, 4, 12)
