#!/usr/bin/env python3
"""Measures how long all marks of a DVI file take to come into Python: as an array, by `marks` of
bindings/python, and as tuples of a listing that is parsed by split and int.

    bench/marks.py [--library LIBBOXGLUE_SO] [--font CMR10_TFM]

The file is that of the item `paragraphs` at tolerance 200: 280 pages in cmr10, 1,371,324 bytes.
Both ways are run five times in turn, and the least time of each counts. Both give the same marks,
which is tested. The shared object is made by bindings/build."""

import argparse
import os
import sys
import time

import inputs
from items import CMR10

ROOT = os.path.dirname(os.path.dirname(os.path.abspath(__file__)))
RUNS, GOAL = 5, 10


def parsed(listing):
    """The pages of a listing, each a list of tuples: ("glyph", font, character, h, v) and so on."""
    pages = []
    for line in listing.splitlines():
        kind, *words = line.split()
        if kind == "page":
            pages.append([])
        else:
            pages[-1].append((kind, *map(int, words)))
    return pages


def from_rows(document):
    """The same of the array, whose kind 1 is a glyph and 2 a rule. The file has no special."""
    kinds = {1: lambda it: ("glyph", *it[1:5]), 2: lambda it: ("rule", *it[3:7])}
    return [[kinds[it[0]](it) for it in page.marks.tuples()] for page in document.pages]


def least(calls):
    """The least time of each call, in seconds; they run in turn."""
    times = [[] for _ in calls]
    for _ in range(RUNS):
        for call, found in zip(calls, times):
            began = time.perf_counter()
            kept = call()
            found.append(time.perf_counter() - began)
            del kept
    return [min(it) for it in times]


def main():
    parser = argparse.ArgumentParser(
        description=__doc__, formatter_class=argparse.RawDescriptionHelpFormatter
    )
    parser.add_argument(
        "--library", default=f"{ROOT}/crates/boxglue_c/out/libboxglue.so", help="the shared object"
    )
    parser.add_argument(
        "--font", default=CMR10, help="the metric file of cmr10 (Debian's package texlive-base)"
    )
    words = parser.parse_args()
    for path in (words.library, words.font):
        if not os.path.isfile(path):
            sys.exit(f"there is no {path}")
    os.environ["BOXGLUE_LIBRARY"] = words.library
    sys.path.insert(0, f"{ROOT}/bindings/python")
    import boxglue

    with open(words.font, "rb") as it:
        fonts = {"cmr10": it.read()}
    dvi = boxglue.run(inputs.book(200)[0], fonts).check().dvi
    document = boxglue.marks(dvi, fonts)
    print(f"{len(dvi)} bytes, {len(document.pages)} pages, {len(document.marks)} marks")
    if from_rows(document) != parsed(boxglue.listing(dvi, fonts)):
        sys.exit("the marks are not those of the listing")
    array, tuples = least(
        [lambda: boxglue.marks(dvi, fonts).marks.rows, lambda: parsed(boxglue.listing(dvi, fonts))]
    )
    print(
        f"as an array {array:.3f} s, as a listing that is parsed {tuples:.3f} s: {tuples / array:.1f} times, and {GOAL} are wanted"
    )
    return int(tuples < GOAL * array)


if __name__ == "__main__":
    sys.exit(main())
