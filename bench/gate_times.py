#!/usr/bin/env python3
"""Runs a command, as `rt ci --anew`, and prints the seconds of processor that the prover took:
bench/gate_times.py [--every SECONDS] [--write FILE] COMMAND..

For each crate: its proof, its tests, its edits with the second proof that they begin with, and the
dearest edit. It reads /proc a few times a second, so what a process did after its last sample is
missing. What else the command runs (compilers, programs) is in the total alone. With --write the
times by crate go into a table too, as docs/internal/gate.tsv."""

import argparse
import os
import re
import resource
import subprocess
import time
from collections import defaultdict, namedtuple

TICKS = os.sysconf("SC_CLK_TCK")


def read(path):
    """The bytes of a file of /proc, or none if its process has ended."""
    try:
        with open(path, "rb") as file:
            return file.read()
    except OSError:
        return b""


def processes():
    """Each process by its number: its parent's number, and the seconds of processor that it and its
    ended children took."""
    found = {}
    for name in os.listdir("/proc"):
        fields = read("/proc/%s/stat" % name).rpartition(b")")[2].split() if name.isdigit() else []
        if fields:
            found[int(name)] = int(fields[1]), sum(map(int, fields[11:15])) / TICKS
    return found


def task(number):
    """What a process of the prover checks: the crate, and the proof, tests, seed or the number of
    an edit. None for another process."""
    words = read("/proc/%d/cmdline" % number).decode(errors="replace").split("\0")
    if not words[0].endswith("/rattle") or "--crate-name" not in words:
        return None
    crate = words[words.index("--crate-name") + 1]
    over = words[words.index("--incremental") + 1] if "--incremental" in words else ""
    of_edit = re.search(r"/rt-edits-[^/]*/(seed|\d+)$", over)
    if of_edit:
        return crate, of_edit[1]
    if "/rt-edit-" in os.path.realpath("/proc/%d/cwd" % number):
        return crate, "only edit"
    return crate, "tests" if "--test" in words else "proof"


def is_below(number, root, now):
    """Whether a process was started by another one, or by a process that this one started."""
    while number in now and number != root:
        number = now[number][0]
    return number == root


class Samples:
    """The greatest time that was seen of each process that the prover was started as, with those
    that it started."""

    def __init__(self, root):
        self.root, self.seconds, self.tasks = root, {}, {}

    def take(self):
        now = processes()
        times = defaultdict(float)
        tasks = {
            number: self.tasks.get(number) or task(number)
            for number in now
            if is_below(number, self.root, now)
        }
        for number, what in tasks.items():
            if what:
                top = number
                while tasks.get(now[top][0]) == what:
                    top = now[top][0]
                times[top, what] += now[number][1]
        self.tasks = tasks
        for key, spent in times.items():
            self.seconds[key] = max(self.seconds.get(key, 0), spent)

    def by_task(self):
        total = defaultdict(float)
        for (_, what), spent in self.seconds.items():
            total[what] += spent
        return total


# The seconds of a crate: of its proof, its tests, and its edits with the second proof, and its
# dearest edit, as "39 some_name.edit".
Row = namedtuple("Row", "crate proof tests edits dearest")


def rows(samples, root):
    """A row for each crate, in the order of crates.txt."""
    spent = samples.by_task()
    with open(os.path.join(root, "crates.txt")) as file:
        crates = [
            line.split()[0].rstrip(":")
            for line in file
            if line.strip() and not line.startswith("#")
        ]
    for crate in crates:
        folder = os.path.join(root, "crates", crate, "must-fail")
        names = (
            sorted(name for name in os.listdir(folder) if name.endswith(".edit"))
            if os.path.isdir(folder)
            else []
        )
        edits = {
            what: it
            for (name, what), it in spent.items()
            if name == crate and what not in ("proof", "tests")
        }
        each = {what: it for what, it in edits.items() if what != "seed"}
        dearest = max(each, key=each.get, default=None)
        name = "" if dearest is None else names[int(dearest)] if dearest.isdigit() else names[0]
        yield Row(
            crate,
            spent.get((crate, "proof"), 0),
            spent.get((crate, "tests"), 0),
            sum(edits.values()),
            "%.0f %s" % (each[dearest], name) if each else "",
        )


def show(table):
    """Prints a line for each crate, and the sums."""
    for row in table:
        print(
            "%-17s proof %4.0f  tests %4.0f  edits %4.0f%s"
            % (*row[:4], "  dearest " + row.dearest if row.dearest else "")
        )
    print(
        "; ".join(
            "%s %.0f minutes" % (what, sum(it) / 60)
            for what, it in zip(("proofs", "tests", "edits"), list(zip(*table))[1:4])
        )
    )


def write(path, table, command):
    """Writes the table of a run, with its day, its commit and its command."""
    commit = subprocess.run(
        ["git", "rev-parse", "--short=8", "HEAD"], capture_output=True, text=True
    ).stdout.strip()
    with open(path, "w", encoding="utf-8") as it:
        it.write(
            "# seconds of processor of the prover, by bench/gate_times.py: %s, %s, %s, %d cores\n"
            % (" ".join(command), time.strftime("%d %B %Y"), commit, len(os.sched_getaffinity(0)))
        )
        it.write(
            "crate\tproof\ttests\tedits\tdearest edit\n"
            + "".join("%s\t%.0f\t%.0f\t%.0f\t%s\n" % row for row in table)
        )


def main():
    words = argparse.ArgumentParser(
        description=__doc__, formatter_class=argparse.RawDescriptionHelpFormatter
    )
    words.add_argument("--every", type=float, default=0.25)
    words.add_argument("--write", metavar="FILE")
    words.add_argument("command", nargs=argparse.REMAINDER)
    asked = words.parse_args()
    begun = time.time()
    running = subprocess.Popen(asked.command)
    samples = Samples(running.pid)
    # What the command ends with is the gate's answer: a table that cannot be made does not change
    # it.
    try:
        while running.poll() is None:
            samples.take()
            time.sleep(asked.every)
        table = list(rows(samples, os.getcwd()))
        show(table)
        if asked.write:
            write(asked.write, table, asked.command)
    except (KeyError, IndexError, ValueError, OSError) as error:
        print("no table of times: %r" % error)
    running.wait()
    used = resource.getrusage(resource.RUSAGE_CHILDREN)
    print(
        "%.1f minutes, %.0f of processor, status %d"
        % ((time.time() - begun) / 60, (used.ru_utime + used.ru_stime) / 60, running.returncode)
    )
    raise SystemExit(running.returncode)


if __name__ == "__main__":
    main()
