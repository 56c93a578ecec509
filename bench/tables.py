#!/usr/bin/env python3
"""Writes the figures of runs into the tables of docs/SPEED.md: bench/tables.py [DATA ..] [--page
FILE], by default docs/speed.tsv, docs/speed_large.tsv and docs/SPEED.md.

The table of programs is made anew, with a row for each that the data has.
In each other table a row is found by its first cell, and by the number of its cells.
docs/internal/MEASURING.md has the goals: read there which of them are still met."""

import argparse
import math
import os
import re

from charts import DOCS, KNOWN, Figures

# How the head of the table of programs begins; its columns, each with the figure in the data and
# how it is written; and its cases.
PROGRAMS = "| case | program |"
COSTS = {
    "seconds": ("seconds", lambda value: f"{value:.3f}"),
    "million instructions": ("instructions", lambda value: f"{value / 1e6:,.0f}"),
    "million cache misses": ("misses", lambda value: f"{value / 1e6:.2f}"),
    "MB": ("memory", lambda value: f"{value / 1e6:.1f}"),
}
BESIDE = {
    "`paragraphs`, tolerance 200": "paragraphs_200",
    "`paragraphs`, tolerance 10000": "paragraphs_10000",
    "`list`": "list",
    "`paint`": "paint",
    "`many_fonts`, 2 loaded": "many_fonts_2",
    "`many_fonts`, 256 loaded": "many_fonts_256",
}
# The rows of worst inputs: their case, and the one of half the size.
WORST = {
    "`first_lines`, 2,000 places": ("first_lines_2000", "first_lines_1000"),
    "`splits`, 4,000, falling widths": ("splits_falling_4000", "splits_falling_2000"),
    "`long_text`, 4 MB": ("long_text_4", "long_text_2"),
    "`many_glyphs`, 4,000,000": ("many_glyphs_4", "many_glyphs_2"),
    "`many_numbers`, 10,000": ("many_numbers_10000", "many_numbers_5000"),
}
# The rows of large inputs, whose cases have run once: their case.
LARGE = {
    "`large_script`, 10,000,000 lines": "large_script_10000000",
    "`large_pages`, 60,000 pages, 2 fonts": "large_pages_2_60000",
    "`large_pages`, 60,000 pages, 256 fonts": "large_pages_256_60000",
    "`large_list`, 140 MB": "large_list_140",
}
# The rows of what one unit more takes: the two cases that differ in it.
MORE = {
    "`short_lines`, each line more": ("short_lines_100000", "short_lines_1000000"),
    "`fonts`, each reading more": ("fonts_1", "fonts_201"),
    "`small_pages`, each box more that is shipped": (
        "small_pages_ship_6000",
        "small_pages_ship_60000",
    ),
    "`small_pages`, each box more that is made void": (
        "small_pages_void_6000",
        "small_pages_void_60000",
    ),
}


def millions(count):
    """A count of instructions in words, with a part where it is below a million."""
    return f"{count / 1e6:,.{0 if count >= 1e6 else 1}f} million"


def totals(row):
    """The seconds, instructions and megabytes of a row."""
    return f"{float(row['seconds']):.3f} s, {millions(int(row['instructions']))}, {int(row['memory']) / 1e6:.1f} MB"


def cost_cell(figures, case, program, column):
    """The cell of a figure of a program: the figure, and in parentheses boxglue's divided by it."""
    what, written = COSTS[column]
    known = figures.rows[case][program].get(what)
    ratio = figures.ratio(case, what, program)
    return (
        ""
        if not known
        else written(float(known))
        if ratio is None
        else f"{written(float(known))} ({ratio:.2f})"
    )


def programs_table(figures):
    """The lines of the table of programs. A column without a figure is left out."""
    columns = [
        it
        for it, (what, _) in COSTS.items()
        if any(row.get(what) for case in BESIDE.values() for row in figures.rows[case].values())
    ]
    yield line_of(["case", "program", *columns])
    yield "|---" * (2 + len(columns)) + "|"
    for name, case in BESIDE.items():
        for program in figures.rows[case]:
            yield line_of(
                [
                    name if program == "boxglue" else "",
                    program,
                    *(cost_cell(figures, case, program, it) for it in columns),
                ]
            )


def line_of(cells):
    """A line of a table."""
    return f"| {' | '.join(cells)} |".replace("|  |", "| |").replace("|  |", "| |")


def worst_cells(figures, name):
    """The cells of a worst input: what it takes, and the power of its size in which the
    instructions grow."""
    case, half = (figures.rows[it]["boxglue"] for it in WORST[name])
    power, units = (math.log(float(case[it]) / float(half[it])) for it in ("instructions", "units"))
    return [totals(case), f"{power / units:.2f}"]


def once(row):
    """The seconds, with two digits that count, and the megabytes of a case that has run once."""
    seconds, memory = float(row["seconds"]), int(row["memory"]) / 1e6
    return f"{seconds:.{max(0, 1 - math.floor(math.log10(seconds)))}f} s, {memory:.{0 if memory >= 100 else 1}f} MB"


def large_cells(figures, case):
    """The cells of a case of a large input."""
    rows, peer = figures.rows[case], figures.peer(case)
    return [once(rows["boxglue"]), f"{peer['program']}: {once(peer)}" if peer else ""]


def more(figures, case):
    """What one unit more takes: microseconds, instructions, and bytes of memory."""
    few, many = (figures.rows[it]["boxglue"] for it in MORE[case])
    units = int(many["units"]) - int(few["units"])
    return [
        (float(many[it]) - float(few[it])) / units for it in ("seconds", "instructions", "memory")
    ]


def more_cells(figures, case):
    """The cells of a row of what one unit more takes."""
    seconds, instructions, memory = more(figures, case)
    if case.startswith("`short_lines`"):
        return [f"{memory:.0f} bytes"]
    if case.startswith("`fonts`"):
        return [f"{seconds * 1e3:.2f} ms, {instructions / 1e6:.2f} million, {memory:,.0f} bytes"]
    return [f"{seconds * 1e6:.2f} us, {instructions:,.0f} instructions, {memory:.0f} bytes"]


def lines_cells(figures, count):
    """The cells of a row of so many short lines."""
    case = f"short_lines_{count.replace(',', '')}"
    return [
        f"{totals(figures.rows[case]['boxglue'])}: {figures.each(case, 'boxglue', 'seconds') * 1e6:.2f} us a line"
    ]


def start_cells(figures):
    """The cells of the row of an empty script."""
    row = figures.rows["start"]["boxglue"]
    return [
        f"{float(row['seconds']) * 1e3:.1f} ms, {millions(int(row['instructions']))}, {int(row['memory']) / 1e6:.1f} MB"
    ]


def place_cells(figures, width, tolerance, places):
    """The cells of a row of what a place takes."""
    case = f"places_{width}_{tolerance}_{places.replace(',', '')}"
    each = [
        f"{figures.each(case, it, 'seconds') * 1e6:.2f} us, {figures.each(case, it, 'instructions'):,.0f}"
        for it in ("boxglue", "tex")
    ]
    return [*each, *[f"{figures.ratio(case, it):.2f}" for it in ("seconds", "instructions")]]


def cells_of(figures, cells):
    """The cells of a row after its name, or None where the row has no figures."""
    name = cells[0]
    lines = re.fullmatch(r"`short_lines`, ([\d,]+) lines", name)
    place = re.fullmatch(r"(\d+pt), (-?\d+)", name)
    if name in WORST:
        return worst_cells(figures, name) if set(WORST[name]) <= figures.rows.keys() else None
    if name in LARGE:
        return large_cells(figures, LARGE[name])
    if name in MORE:
        return more_cells(figures, name)
    if lines:
        return lines_cells(figures, lines[1])
    if name == "`start`" and len(cells) == 2:
        return start_cells(figures)
    if place:
        return [cells[1], *place_cells(figures, place[1], place[2], cells[1])]
    return None


def changed(figures, line):
    """A line of the page with these figures."""
    if not line.startswith("| "):
        return line
    cells = [it.strip() for it in line.strip().strip("|").split("|")]
    found = cells_of(figures, cells)
    return line_of([cells[0], *found]) if found else line


def page_of(figures, lines):
    """The lines of the page with these figures."""
    is_inside = False
    for line in lines:
        begins = line.startswith(PROGRAMS)
        is_inside = begins or (is_inside and line.startswith("|"))
        if begins:
            yield from programs_table(figures)
        elif not is_inside:
            yield changed(figures, line)


def main():
    """Reads the figures and writes the page."""
    parser = argparse.ArgumentParser(
        description=__doc__, formatter_class=argparse.RawDescriptionHelpFormatter
    )
    parser.add_argument("data", nargs="*", default=KNOWN, metavar="DATA")
    parser.add_argument("--page", default=os.path.join(DOCS, "SPEED.md"))
    given = parser.parse_args()
    figures = Figures(given.data)
    with open(given.page) as page:
        lines = page.read().split("\n")
    with open(given.page, "w") as page:
        page.write("\n".join(page_of(figures, lines)))


if __name__ == "__main__":
    main()
