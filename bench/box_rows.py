#!/usr/bin/env python3
"""Counts the instructions of boxglue_job_items: bench/box_rows.py ARCHIVE METRICS, where ARCHIVE is
the library for C, and METRICS a metric file such as examples/plain.tfm.

It prints the number of rows of a galley of 100 paragraphs, and the instructions for each row. Two
runs under valgrind differ only in that the second lists the galley two more times."""
import os
import re
import subprocess
import sys
import tempfile

ROOT = os.path.dirname(os.path.dirname(os.path.abspath(__file__)))
CALLS = 2
VALGRIND = ["valgrind", "--tool=callgrind", "--callgrind-out-file=/dev/null"]


def counted(program, metrics, calls):
    """The rows, and the instructions of a run with so many calls."""
    ran = subprocess.run(
        [*VALGRIND, program, metrics, str(calls)], capture_output=True, text=True, check=True
    )
    return int(ran.stdout), int(re.search(r"Collected : (\d+)", ran.stderr)[1])


def main(archive, metrics):
    """Builds the program, and prints both numbers."""
    kit = os.path.dirname(
        subprocess.run(["rt", "doc"], capture_output=True, text=True, check=True).stdout.strip()
    )
    with tempfile.TemporaryDirectory(prefix="boxglue-items-") as room:
        words = [
            "cc",
            "-O2",
            f"-I{ROOT}/include",
            "-o",
            f"{room}/items",
            f"{ROOT}/bench/items/items.c",
            archive,
            f"{kit}/c/liblibc_c.a",
        ]
        subprocess.run(words, check=True)
        (rows, before), (_, after) = (
            counted(f"{room}/items", metrics, calls) for calls in (0, CALLS)
        )
    print(f"{rows} rows, {(after - before) / CALLS / rows:.1f} instructions a row")


if __name__ == "__main__":
    main(*sys.argv[1:])
