#!/usr/bin/env python3
"""Sets a table whose columns are as wide as their widest cells, and under it a text in balanced
columns.

    examples/layout/columns.py $cmr10 out/columns.dvi"""
import sys

from boxglue import pt
from document import document

WIDTH, GAP, COLUMNS, LINE, FILL = pt(320), pt(16), 2, pt(12), (1, "fil")
# The registers of the text, and of the columns from the last one up.
TEXT, REST, COLUMN = 1, 2, 10
STRUT = (0, pt("8.5"), pt("3.5"))
TABLE = [
    ["box", "what it is", "how it stretches"],
    ["hbox", "a line of boxes and glue", "to its width"],
    ["vbox", "a list of lines", "to its height"],
    ["vtop", "the same on its first baseline", "to its height"],
]
STORY = """Columns are balanced where the last is as high as the first, or as nearly as the lines allow. Nobody can say beforehand how high that is, since a line belongs to
one column as a whole. So the height is asked for: the list is split at a height, and if something is left after the last column, it is split again, a little higher. The copy
of a list costs nothing that a reader would see, and the answers of the splits tell all that has to be known."""


def cell_width(job, text):
    """The natural width of a cell."""
    with job.hbox(into=0) as box:
        job.text(text)
    return box.width


def row(job, cells, widths):
    """A row: each cell in a box of the width of its column."""
    with job.hbox():
        job.rule(*STRUT)
        for cell, width in zip(cells, widths):
            with job.hbox(to=width):
                job.text(cell), job.glue(0, FILL)
            job.kern(GAP)


def table(job):
    """The table, with a rule under its head."""
    widths = [max(cell_width(job, cell) for cell in column) for column in zip(*TABLE)]
    for number, cells in enumerate(TABLE):
        if number == 1:
            job.rule(sum(widths) + (len(widths) - 1) * GAP, pt("0.4"), 0)
        row(job, cells, widths)


def has_room(job, height):
    """Splits a copy of the text into columns of this height. Returns whether nothing is left."""
    with job.vbox(into=REST):
        job.unvcopy(TEXT)
    return not [job.vsplit(REST, to=height, into=COLUMN + it).rest for it in range(COLUMNS)][-1]


def balance(job):
    """Finds the least height, in steps of a point, at which the text has room in the columns."""
    with job.vbox(into=TEXT) as box:
        # What is cut off before the text is split into columns, so that splittopskip is above the
        # first of them too.
        job.rule(0, 0, 0), job.penalty(-10_000)
        with job.par():
            job.text(" ".join(STORY.split()))
    job.vsplit(TEXT, to=0, into=REST)
    height = box.height // COLUMNS
    while not has_room(job, height):
        height += pt(1)


def columns(job):
    """A line with the columns. A vtop that begins with a kern has its top on the baseline of the
    line, so their tops are level."""
    with job.hbox():
        for number in range(COLUMNS):
            with job.vtop():
                job.kern(0), job.unvbox(COLUMN + number)
            job.kern(GAP)


with document(*sys.argv[1:]) as job:
    job.set(tolerance=3000, hsize=(WIDTH - (COLUMNS - 1) * GAP) // COLUMNS, splittopskip=STRUT[1])
    balance(job)
    with job.vbox(into=0):
        table(job), job.glue(LINE), columns(job)
    job.ship(0)
