#!/usr/bin/env python3
"""Counts the instructions of programs on the bench's work, and their D1 misses, by callgrind:
bench/count.py PROGRAM [OTHER] [--items ITEM ..].

A D1 miss is a reading or writing that the first cache of data does not have; measure.py fixes the
size of this cache.
With OTHER it counts those of both, and says where the files or answers of the two differ; its
status is then 1.
A count of instructions is the same each time for the same program, work and machine, whatever else
runs on the machine."""

import argparse
import hashlib
import os
import sys
import tempfile
from concurrent.futures import ThreadPoolExecutor

from items import CMR10, ITEMS, Work
from measure import count


def counted(program, case, folder):
    """Millions of instructions and of D1 misses of a run, and a checksum over its status, its
    answers and the file that it wrote."""
    found = count([program, *case.words], case.stdin, folder, case.out)
    checksum = hashlib.sha256(b"%d\n" % found.status + found.answers)
    checksum.update(found.written)
    return found.instructions / 1e6, found.misses / 1e6, checksum.hexdigest()


def words_of():
    """Reads the command line."""
    layout = argparse.RawDescriptionHelpFormatter
    parser = argparse.ArgumentParser(description=__doc__, formatter_class=layout)
    parser.add_argument("programs", nargs="+", metavar="PROGRAM")
    begin = "cases whose names begin so, as places_345pt_100_1000"
    parser.add_argument("--items", nargs="+", metavar="ITEM", default=[""], help=begin)
    at_once = "N runs at once; the counts are the same"
    parser.add_argument("--jobs", type=int, default=1, metavar="N", help=at_once)
    return parser.parse_args()


def cases_of(work, begins):
    """The cases whose names begin with one of these texts."""
    for item in ITEMS:
        if any(item.startswith(it) or it.startswith(item) for it in begins):
            for case in getattr(work, item)():
                if any(case.name.startswith(it) for it in begins):
                    yield case


def main():
    words = words_of()
    programs, differ = [os.path.abspath(it) for it in words.programs], []
    if not os.path.exists(CMR10):
        sys.exit("%s is not there: Debian's package texlive-base" % CMR10)
    with tempfile.TemporaryDirectory() as folder:
        cases = [*cases_of(Work(programs[0], folder), words.items)]
        count_in = lambda case: (case, *(counted(it, case, folder) for it in programs))
        with ThreadPoolExecutor(words.jobs) as pool:
            for case, *found in pool.map(count_in, cases):
                instructions = "".join("%10.2f" % it[0] for it in found)
                misses = "".join("%10.3f" % it[1] for it in found)
                print("%-24s %s  %s" % (case.name, instructions, misses), flush=True)
                if len({it[2] for it in found}) > 1:
                    differ.append(case.name)
                    print("  the files or answers differ", flush=True)
    print(
        "millions of instructions, then of D1 misses"
        + ("; the files and answers are equal" if len(programs) > 1 and not differ else "")
    )
    sys.exit(1 if differ else 0)


main()
