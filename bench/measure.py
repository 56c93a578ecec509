"""Runs programs one at a time: their least processor time, their peak memory, and their
instructions."""

import ctypes
import glob
import os
import re
import shlex
import subprocess
import sys
import tempfile

RUNS = 15
CORE = max(os.sched_getaffinity(0))
# A program is started by a small shell and inherited by this process, so that its peak memory is
# its own and not that of this process.
ctypes.CDLL(None).prctl(36, 1, 0, 0, 0)


class Cost:
    """Seconds of processor, user and system together, and bytes of memory at the peak."""

    def __init__(self, seconds, memory):
        self.seconds, self.memory = seconds, memory


def run_once(words, stdin, folder, output="out.txt", wanted=0):
    """One run of a program on one core, which ends with the wanted status; its output goes to files
    of the folder, or elsewhere."""
    # The shell ends at once: if it did anything more, it might wait for a short program itself.
    command = "exec taskset -c %d %s < %s > %s 2> err.txt &" % (
        CORE,
        shlex.join(words),
        shlex.quote(stdin),
        output,
    )
    subprocess.run(["/bin/sh", "-c", command], cwd=folder, check=True)
    _, status, used = os.wait4(-1, 0)
    if os.waitstatus_to_exitcode(status) != wanted:
        tail = "".join(
            open(os.path.join(folder, name), errors="replace").read()[-500:]
            for name in ("err.txt", output)
        )
        sys.exit("%s: status %s\n%s" % (shlex.join(words), os.waitstatus_to_exitcode(status), tail))
    return Cost(used.ru_utime + used.ru_stime, used.ru_maxrss * 1024)


def in_turn(runs, folder, turns=RUNS, output="out.txt"):
    """Runs programs in turn, several times each, and returns the least of each.
    A run is the words of a program, its standard input and its status."""
    costs = [[] for _ in runs]
    for _ in range(turns):
        for (words, stdin, status), found in zip(runs, costs):
            found.append(run_once(words, stdin, folder, output, status))
    return [
        Cost(min(it.seconds for it in found), min(it.memory for it in found)) for found in costs
    ]


# Caches of a size that many processors have, so that counts of misses are the same on each machine.
CACHES = "--cache-sim=yes --I1=32768,8,64 --D1=32768,8,64 --LL=8388608,16,64".split()


class Counted:
    """The instructions of a run, its misses of the first cache of data, its output, and the file
    that it wrote."""

    def __init__(self, instructions, misses, status, answers, written):
        self.instructions, self.misses, self.status, self.answers, self.written = (
            instructions,
            misses,
            status,
            answers,
            written,
        )


def events(path):
    """What callgrind counted in a process, by the names of its events."""
    with open(path) as file:
        text = file.read()
    names, numbers = (
        re.search(pattern, text, re.M)
        for pattern in (r"^events: (.*)$", r"^(?:summary|totals): ([\d ]+)")
    )
    return dict(zip(names[1].split(), map(int, numbers[1].split()))) if names and numbers else {}


def count(words, stdin, folder, out=None):
    """A run under callgrind, with all processes that it starts: it counts the same numbers each
    time. It works in a folder of its own, with links to the inputs in `folder`, so that several can
    run at once. `out` is the file that it writes."""
    with tempfile.TemporaryDirectory() as own:
        for name in set(os.listdir(folder)) - {out}:
            os.symlink(os.path.join(folder, name), os.path.join(own, name))
        command = [
            "valgrind",
            "--tool=callgrind",
            "--trace-children=yes",
            "--callgrind-out-file=%s/callgrind.%%p" % own,
            *CACHES,
            *words,
        ]
        with open(os.path.join(folder, stdin), "rb") as file:
            done = subprocess.run(
                command, cwd=own, stdin=file, stdout=subprocess.PIPE, stderr=subprocess.PIPE
            )
        found = [events(it) for it in glob.glob(os.path.join(own, "callgrind.*"))]
        if not any(found):
            raise OSError(done.stderr.decode(errors="replace")[-1000:])
        instructions, *misses = (
            sum(it.get(name, 0) for it in found) for name in ("Ir", "D1mr", "D1mw")
        )
        path = out and os.path.join(own, out)
        written = open(path, "rb").read() if path and os.path.exists(path) else b""
        return Counted(instructions, sum(misses), done.returncode, done.stdout, written)
