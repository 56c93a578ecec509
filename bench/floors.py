#!/usr/bin/env python3
"""Compares the programs of bench/floor with boxglue: bench/floors.py [--boxglue PROGRAM].

A floor is a program in C that knows the input of one item and writes the same bytes as boxglue: a
limit of what the work needs, without refusals, ranges and general lists. Each is built by cc
without a warning and run on the item's input. Printed are the instructions and D1 misses of both
(callgrind), in millions, and boxglue's divided by the floor's. The status is 1 where answers or
files differ.
bench/run.py measures the floors as peers."""

import argparse
import os
import sys
import tempfile

from items import HERE, Case, Work
from measure import count


def is_equal(work: Work, case: Case) -> bool:
    """Counts a case and its floor, prints both, and says whether they write the same bytes."""
    floor = next(it for it in case.peers if it.name == "floor")
    runs = ([work.program, *case.words], case.stdin), (floor.words, "/dev/null")
    ours, least = (count(words, stdin, work.folder, case.out) for words, stdin in runs)
    counts = [
        "%s %7.1f %6.3f" % (name, it.instructions / 1e6, it.misses / 1e6)
        for name, it in (("boxglue", ours), ("floor", least))
    ]
    print(
        "%-16s" % case.name,
        *counts,
        "%.2f %.2f" % (ours.instructions / least.instructions, ours.misses / least.misses),
        flush=True,
    )
    return (ours.answers, ours.written) == (least.answers, least.written)


def main() -> None:
    parser = argparse.ArgumentParser(
        description=__doc__, formatter_class=argparse.RawDescriptionHelpFormatter
    )
    parser.add_argument(
        "--boxglue",
        default=os.environ.get("BOXGLUE", os.path.join(HERE, "../crates/boxglue/out/boxglue")),
    )
    words = parser.parse_args()
    with tempfile.TemporaryDirectory() as folder:
        work = Work(words.boxglue, folder, ["floor"])
        differ = [
            case.name
            for item in (work.paragraphs, work.list)
            for case in item()
            if not is_equal(work, case)
        ]
    print(
        "these write other bytes: %s" % ", ".join(differ)
        if differ
        else "answers and files are equal"
    )
    sys.exit(bool(differ))


if __name__ == "__main__":
    main()
