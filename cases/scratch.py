"""Where tests make their folders, and how many of them run side by side."""
from __future__ import annotations

import os

MEMORY = "/dev/shm"
# The room that the tests may need at one time.
NEEDED = 1 << 30
JOBS = "UXN_JOBS"


def jobs() -> int:
    """How many runs may go side by side: what $UXN_JOBS says, which ./test sets, or one for each processor."""
    said = os.environ.get(JOBS, "")
    return int(said) if said.isascii() and said.isdigit() and int(said) else len(os.sched_getaffinity(0))


def has_room(place: str) -> bool:
    """Whether a folder can be written to, has room, and lets programs run."""
    try:
        found = os.statvfs(place)
    except OSError:
        return False
    can_run = not found.f_flag & os.ST_NOEXEC
    return can_run and found.f_bavail * found.f_frsize >= NEEDED and os.access(place, os.W_OK | os.X_OK)


def use_memory() -> None:
    """Lets temporary folders be made in memory, where such a place is there and $TMPDIR names no other."""
    if "TMPDIR" not in os.environ and has_room(MEMORY):
        os.environ["TMPDIR"] = MEMORY
