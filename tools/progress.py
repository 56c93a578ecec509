"""How far `rt all check` has come, and how long it goes on."""
import os
import re
import time

from tools.crates import crates_below

# About how long the proofs of a crate take, in seconds: this, and so much for each of its lines.
# Fitted to docs/internal/gate.tsv.
CRATE, LINE = 72, 0.011
# About how long `rt all check` first reads what it will prove, for each crate that no other uses.
READING = 80
# What takes no longer was not proved anew.
SHORT = 10
# For how many seconds of proofs it trusts these numbers more than what it has seen. The first
# crates were under way before `rt` told of it.
TRUSTED = 600


def sections(text):
    """What `rt all check` has printed of each crate that has ended."""
    parts = re.split(r"^== (\w+)\n", text, flags=re.M)
    return dict(zip(parts[1::2], parts[2::2]))


def count_lines(folder):
    """How many lines the files below a folder have."""
    count = 0
    for place, _, names in os.walk(folder):
        for name in names:
            with open(f"{place}/{name}", "rb") as it:
                count += it.read().count(b"\n")
    return count


class Progress:
    """How far `rt all check` has come in a tree. It proves at most `jobs` crates at a time."""

    def __init__(self, tree, uses, jobs):
        self.tree, self.jobs, self.began = tree, jobs, time.monotonic()
        self.below = {it: crates_below(uses, uses[it]) for it in uses}
        self.used = {below for it in uses for below in uses[it]}
        # `rt all` hands out the crates in this order.
        self.order = sorted(crates_below(uses, sorted(uses)), key=lambda it: len(self.below[it]))
        self.cost = {
            it: CRATE
            + LINE
            * sum(count_lines(f"{tree}/crates/{it}/{part}") for part in ("src", "specs", "proofs"))
            for it in uses
        }
        # Whether all is read, when each crate began that is under way, and the seconds of each that
        # has ended.
        self.is_read, self.since, self.took = False, {}, {}

    def update(self, text):
        """Takes all that was printed so far, and returns the crates that have ended since the last
        call."""
        now, ended = time.monotonic(), [
            it for it in sections(text) if it in self.below and it not in self.took
        ]
        for crate in ended:
            self.took[crate] = now - self.since.pop(crate, now)
        readings = len(re.findall(r"^only=", text, flags=re.M))
        self.is_read = bool(self.took) or readings == len(self.below) - len(self.used)
        for crate in self.under_way():
            self.since.setdefault(crate, now)
        return ended

    def under_way(self):
        """The crates that are being proved. Each worker of `rt all` has a crate, and waits for
        those below it."""
        taken = (
            [it for it in self.order if it not in self.took][: self.jobs] if self.is_read else []
        )
        return [it for it in taken if self.took.keys() >= {*self.below[it]}]

    def has_library(self, crate):
        """Whether there is a library of a crate. `rt` removes one that does not fit before it
        proves the crate, and writes the stamp at the end."""
        return os.path.exists(f"{self.tree}/crates/{crate}/out/rlib/stamp")

    def is_kept(self, crate):
        """Whether a crate need not be proved, as far as one can tell: a library does not fit where
        one below it is new."""
        return self.has_library(crate) and not any(
            it in self.since or self.took.get(it, 0) > SHORT for it in self.below[crate]
        )

    def failed(self):
        """The crates that others use and that are not proved, of those that have ended."""
        return [it for it in self.took if it in self.used and not self.has_library(it)]

    def seconds_left(self):
        """About how long it goes on: the rest in the order of `rt all`, where all takes as much
        longer than its lines say as it did so far."""
        now, anew = time.monotonic(), [it for it, took in self.took.items() if took > SHORT]
        pace = (TRUSTED + sum(map(self.took.get, anew))) / (TRUSTED + sum(map(self.cost.get, anew)))
        ends, workers = dict.fromkeys(self.took, 0), [0] * self.jobs
        for crate in [it for it in self.order if it not in self.took]:
            seconds = (
                0
                if self.is_kept(crate)
                else max(pace * self.cost[crate] - now + self.since.get(crate, now), 1)
            )
            workers.sort()
            workers[0] = ends[crate] = (
                max([workers[0], *map(ends.get, self.below[crate])]) + seconds
            )
        reading = (
            0
            if self.is_read
            else max(READING * (len(self.below) - len(self.used)) - now + self.began, 0)
        )
        return reading + max(ends.values())

    def text(self):
        """How many crates are left, and for about how long."""
        left = len(self.order) - len(self.took)
        return f"{left} of {len(self.order)} left" + (
            f", about {max(round(self.seconds_left() / 60), 1)} min" if left else ""
        )
