"""What this process may use of the machine: cores, and memory."""
import contextlib
import os
import re

GROUP = "/sys/fs/cgroup"
# Where a control group, in each of its two versions, says how much memory it may hold, and what it
# holds that cannot be given back.
MEMORY = [
    (("memory.max", r"^(\d+)$"), ("memory.stat", r"^anon (\d+)")),
    (("memory/memory.limit_in_bytes", r"^(\d+)$"), ("memory/memory.stat", r"^total_rss (\d+)")),
]
# Its quota of processor time, and the period in which it may use that.
QUOTAS = [
    (("cpu.max", r"^(\d+)"), ("cpu.max", r" (\d+)$")),
    (("cpu/cpu.cfs_quota_us", r"^(\d+)"), ("cpu/cpu.cfs_period_us", r"^(\d+)")),
]


def number_in(path, pattern):
    """The number at a pattern in a file of the system, or None."""
    with contextlib.suppress(OSError), open(path, encoding="ascii", errors="replace") as it:
        found = re.search(pattern, it.read(), re.M)
        return int(found[1]) if found else None
    return None


def pairs(files):
    """Both numbers, where the control group has both."""
    found = [[number_in(f"{GROUP}/{name}", pattern) for name, pattern in pair] for pair in files]
    return [pair for pair in found if None not in pair]


def cores():
    """How many cores there are for this process."""
    mine = os.sched_getaffinity(0)
    # The first number of the list is the same for all threads of a core.
    firsts = {
        number_in(f"/sys/devices/system/cpu/cpu{it}/topology/thread_siblings_list", r"^(\d+)")
        for it in mine
    }
    whole = len(mine if None in firsts else firsts)
    return min([whole, *(max(quota // period, 1) for quota, period in pairs(QUOTAS))])


def free_memory():
    """How many bytes of memory are free."""
    whole = number_in("/proc/meminfo", r"^MemAvailable: *(\d+)") or 0
    return min([1024 * whole, *(limit - held for limit, held in pairs(MEMORY))])
