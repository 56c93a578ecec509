#!/usr/bin/env python3
"""Measures boxglue beside tex, dvitype and dvipng: bench/run.py [--boxglue PROGRAM]
[--instructions] [--large] [--data FILE] [ITEM ..], all items if none is named.

`paragraphs` and `list` also run pdftex, luatex, groff and the programs of bench/floor; those that
do not run here are left out, and named. The large items, whose cases are run once, are not among
these: name them, or take all of them by --large.
Each case says user + system time (the least of five runs on one core), peak memory, with
--instructions also the instructions and D1 misses (by callgrind, on all cores before the times are
taken), and the ratios to each peer. --data writes all figures of the run into a file, from which
bench/charts.py draws. docs/SPEED.md has the results."""

import argparse
import datetime
import math
import os
import platform
import shutil
import subprocess
import sys
import tempfile
from concurrent.futures import ThreadPoolExecutor

from items import CMR10, ITEMS, LARGE, PACKAGES, WORST, Work
from measure import count, in_turn

HERE = os.path.dirname(os.path.abspath(__file__))
COLUMNS = "case program seconds memory instructions misses unit units".split()
PEERS = {
    "paragraphs": "tex",
    "places": "tex",
    "many_fonts": "tex",
    "list": "dvitype",
    "paint": "dvipng",
    "large_pages": "tex",
    "large_list": "dvitype",
}
NEED_CMR10 = ("paragraphs", "places", "list", "large_list")
# Runs of the peers that may be absent: each ends with the status 0 where the peer is whole.
PROBES = {
    "pdftex": ("pdftex", "-output-format=dvi", "\\end"),
    "luatex": ("luatex", "--output-format=dvi", "\\end"),
    "groff": ("groff", "-Tdvi", "/dev/null"),
    "floor": ("cc", "--version"),
}


class Row:
    """The figures of one program in one case."""

    def __init__(self, case, program, cost, counts):
        self.case, self.program, self.cost = case, program, cost
        self.instructions, self.misses = counts or (None, None)

    def shown(self):
        text = "  %-8s %9.3f s %9.1f MB" % (self.program, self.cost.seconds, self.cost.memory / 1e6)
        if self.instructions is not None:
            text += " %10.1f million, %.3f million D1 misses" % (
                self.instructions / 1e6,
                self.misses / 1e6,
            )
        if self.case.unit:
            text += "   a %s: %.3f us" % (self.case.unit, self.cost.seconds / self.case.units * 1e6)
            if self.instructions is not None:
                text += ", %.0f instructions" % (self.instructions / self.case.units)
        return text

    def data(self):
        known = ["" if it is None else it for it in (self.instructions, self.misses)]
        figures = ("%.4f" % self.cost.seconds, self.cost.memory, *known)
        return "\t".join(
            map(
                str, (self.case.name, self.program, *figures, self.case.unit or "", self.case.units)
            )
        )


def runs_of(work, case):
    """The words, the standard input and the status of boxglue and of its peers in a case."""
    return [([work.program, *case.words], case.stdin, case.status)] + [
        (it.words, "/dev/null", 0) for it in case.peers
    ]


def counted(work, cases):
    """The instructions and D1 misses of each run of each case, by its name. A floor has to write
    what boxglue writes."""

    def of_case(case):
        found = [
            count(words, stdin, work.folder, case.out) for words, stdin, _ in runs_of(work, case)
        ]
        for peer, it in zip(case.peers, found[1:]):
            if peer.name == "floor" and (it.answers, it.written) != (
                found[0].answers,
                found[0].written,
            ):
                raise OSError("%s: the floor writes other bytes than boxglue" % case.name)
        return case.name, [(it.instructions, it.misses) for it in found]

    with ThreadPoolExecutor(len(os.sched_getaffinity(0))) as pool:
        return dict(pool.map(of_case, cases))


def measured(work, case, counts):
    """The rows of a case: boxglue's and its peers'."""
    runs = runs_of(work, case)
    turns = 1 if case.large else 100 if case.name == "start" else 5
    costs = in_turn(runs, work.folder, turns, "/dev/null" if case.large else "out.txt")
    return [
        Row(case, name, *it)
        for name, *it in zip(
            ["boxglue", *(it.name for it in case.peers)], costs, counts or [None] * len(runs)
        )
    ]


def ratio(ours, theirs):
    text = "  ratio to %s: time %.2f, memory %.2f" % (
        theirs.program,
        ours.cost.seconds / theirs.cost.seconds,
        ours.cost.memory / theirs.cost.memory,
    )
    if ours.instructions is None:
        return text
    return text + ", instructions %.2f, D1 misses %.2f" % (
        ours.instructions / theirs.instructions,
        ours.misses / theirs.misses,
    )


def growth(first, last):
    """The cost of each further unit, from one case to a larger one."""
    units = last.case.units - first.case.units
    return "  from %s to %s: %.3f us and %.0f bytes a %s" % (
        first.case.name,
        last.case.name,
        (last.cost.seconds - first.cost.seconds) / units * 1e6,
        (last.cost.memory - first.cost.memory) / units,
        last.case.unit,
    )


def power(first, last):
    """The power of the units in which the time or the instructions grow, from one case to a larger
    one: 1 is linear."""
    costs = [it.instructions or it.cost.seconds for it in (first, last)]
    grown = math.log(costs[1] / costs[0]) / math.log(last.case.units / first.case.units)
    return "  from %s to %s: units to the power %.2f" % (first.case.name, last.case.name, grown)


GROWTHS = (
    ("short_lines_100000", "short_lines_1000000"),
    ("small_pages_ship_6000", "small_pages_ship_60000"),
    ("small_pages_void_6000", "small_pages_void_60000"),
    ("fonts_1", "fonts_201"),
    ("large_pages_2_10000", "large_pages_2_60000"),
    ("large_pages_256_10000", "large_pages_256_60000"),
    ("large_script_100000", "large_script_1000000"),
    ("large_script_1000000", "large_script_10000000"),
    ("large_list_1", "large_list_14"),
    ("large_list_14", "large_list_140"),
)


def head(words):
    """The subject, time and machine of the measurement, as lines of a data file."""
    model = [
        line.split(":")[1].strip()
        for line in open("/proc/cpuinfo")
        if line.startswith("model name")
    ][:1]
    yield "# bench/run.py, %s, %s, %s, %d cores, load %.1f at the start" % (
        datetime.date.today(),
        platform.system(),
        " ".join(model),
        os.cpu_count(),
        os.getloadavg()[0],
    )
    for peer in sorted({*PEERS.values(), *PROBES} - {"floor"}):
        if shutil.which(peer):
            first = (
                subprocess.run(
                    [peer, "--version"],
                    stdout=subprocess.PIPE,
                    stderr=subprocess.STDOUT,
                    stdin=subprocess.DEVNULL,
                )
                .stdout.decode(errors="replace")
                .splitlines()
            )
            yield "# %s: %s" % (peer, first[0] if first else "")
    if words.note:
        yield "# " + words.note
    yield "\t".join(COLUMNS)


def more_peers():
    """Those of the peers that may be absent that run here."""
    with tempfile.TemporaryDirectory() as folder:
        quiet = {
            "cwd": folder,
            "stdin": subprocess.DEVNULL,
            "stdout": subprocess.DEVNULL,
            "stderr": subprocess.DEVNULL,
        }
        return [
            name
            for name, words in PROBES.items()
            if shutil.which(words[0]) and subprocess.run(words, **quiet).returncode == 0
        ]


def missing(program, items):
    """The programs and files that these items lack."""
    if not os.access(program, os.X_OK):
        yield "%s is not there: (cd crates/boxglue && rt run < ../../examples/one_rule_page.box), or --boxglue PROGRAM" % program
    for peer in sorted({PEERS[item] for item in items if item in PEERS}):
        if shutil.which(peer) is None:
            yield "%s is not there: Debian's package %s" % (peer, PACKAGES[peer])
    if set(items) & set(NEED_CMR10) and not os.path.exists(CMR10):
        yield "%s is not there: Debian's package texlive-base" % CMR10


def words_of():
    """Reads the command line."""
    layout = argparse.RawDescriptionHelpFormatter
    parser = argparse.ArgumentParser(description=__doc__, formatter_class=layout)
    built = os.path.join(HERE, "../crates/boxglue/out/boxglue")
    parser.add_argument("--boxglue", default=os.environ.get("BOXGLUE", built))
    parser.add_argument("--instructions", action="store_true", help="count instructions too")
    parser.add_argument("--large", action="store_true", help=", ".join(LARGE))
    parser.add_argument("--data", metavar="FILE", help="where the figures go")
    note = "a line for the head of the file of data: which build this is"
    parser.add_argument("--note", help=note)
    parser.add_argument("items", nargs="*", metavar="ITEM", help=", ".join(ITEMS))
    words = parser.parse_args()
    words.items = words.items or list(LARGE if words.large else ITEMS)
    if not set(words.items) <= set(ITEMS + LARGE):
        parser.error("the items are " + ", ".join(ITEMS + LARGE))
    lacks = list(missing(words.boxglue, words.items))
    if words.instructions and not shutil.which("valgrind"):
        lacks.append("valgrind is not there")
    if lacks:
        sys.exit("\n".join(lacks))
    return words


def main():
    words, more = words_of(), more_peers()
    lines, found, items = list(head(words)), {}, words.items
    for peer in sorted(PROBES.keys() - more):
        print("%s does not run here and is left out: Debian's package %s" % (peer, PACKAGES[peer]))
    with tempfile.TemporaryDirectory() as folder:
        work = Work(words.boxglue, folder, more)
        cases = {item: list(getattr(work, item)()) for item in items}
        counts = counted(work, sum(cases.values(), [])) if words.instructions else {}
        for item in items:
            print("%s: %s" % (item, getattr(work, item).__doc__), flush=True)
            for case in cases[item]:
                rows = measured(work, case, counts.get(case.name))
                shown = [row.shown() for row in rows] + [ratio(rows[0], it) for it in rows[1:]]
                print("\n".join([" " + case.name, *shown]), flush=True)
                lines += [row.data() for row in rows]
                found[case.name] = rows[0]
            of_item = [found[case.name] for case in cases[item]]
            for first, last in zip(of_item, of_item[1:]) if item in (*WORST, "large_worst") else ():
                if first.case.units < last.case.units and first.case.unit == last.case.unit:
                    print(power(first, last))
    for first, last in GROWTHS:
        if first in found and last in found:
            print(growth(found[first], found[last]))
    if words.data:
        with open(words.data, "w") as file:
            file.write("\n".join(lines) + "\n")


main()
