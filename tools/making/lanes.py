"""How many proofs fit on this machine side by side."""
from __future__ import annotations

import os
from collections.abc import Iterator
from pathlib import Path

# What the proof of a crate may need, in kilobytes.
NEEDED = 3_000_000
MEMORY = Path("/proc/meminfo")
GROUP = Path("/sys/fs/cgroup/memory.max")


def memory_limits(memory: Path, group: Path) -> Iterator[int]:
    """The free memory in kilobytes: what the system has, and what the control group allows, as far as they are known."""
    if memory.is_file():
        for line in memory.read_text().splitlines():
            if line.startswith("MemAvailable:"):
                yield int(line.split()[1])
    if group.is_file() and (text := group.read_text().strip()).isdigit():
        yield int(text) // 1024


def count(processors: int | None = None, memory: Path = MEMORY, group: Path = GROUP) -> int:
    """One for each processor and for each 3 GB of free memory, and at least one."""
    if processors is None:
        processors = len(os.sched_getaffinity(0)) if hasattr(os, "sched_getaffinity") else os.cpu_count() or 1
    fitting = min(memory_limits(memory, group), default=0) // NEEDED
    return max(1, min(processors, fitting))
