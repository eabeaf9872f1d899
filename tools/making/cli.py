"""The command line of the tools: a wrong call gets one line and status 2."""
from __future__ import annotations

import argparse
import sys
from typing import NoReturn


class Parser(argparse.ArgumentParser):
    def __init__(self, about: str | None) -> None:
        super().__init__(description=about, formatter_class=argparse.RawDescriptionHelpFormatter, allow_abbrev=False)

    def error(self, message: str) -> NoReturn:
        print(f"tools/{self.prog}: {message} (see tools/{self.prog} --help)", file=sys.stderr)
        raise SystemExit(2)
