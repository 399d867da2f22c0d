"""Reads how much memory is free."""

import re

# What a control group may use, and what it uses that can't be given back, in both versions of the groups.
GROUPS = (
    ("/sys/fs/cgroup/memory.max", "/sys/fs/cgroup/memory.stat", r"^anon (\d+)"),
    ("/sys/fs/cgroup/memory/memory.limit_in_bytes", "/sys/fs/cgroup/memory/memory.stat", r"^total_rss (\d+)"),
)


def number_in(path, pattern):
    try:
        with open(path, encoding="utf-8") as it:
            found = re.search(pattern, it.read(), re.MULTILINE)
    except OSError:
        return None
    return int(found[1]) if found else None


def free_memory():
    """The bytes that are free, on the machine and in this process's control group."""
    free = [1024 * (number_in("/proc/meminfo", r"^MemAvailable:\s+(\d+)") or 0)]
    for limit, used, pattern in GROUPS:
        most, taken = number_in(limit, r"(\d+)"), number_in(used, pattern)
        if most is not None and taken is not None:
            free.append(most - taken)
    return min(free)
