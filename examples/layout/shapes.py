#!/usr/bin/env python3
"""Sets paragraphs of other shapes than the plain one: ragged, centred, hanging, quoted, and beside
a picture on the left and on the right.

    examples/layout/shapes.py $cmr10 out/shapes.dvi

A line has no skips beside it. What it shall have at its ends stands between the words: a break
drops the glue, kerns and penalties that follow it, up to the next box, and keeps what stands before
it. So each gap between two words is some items that are together as wide as a space where the line
goes on, and are the ends of two lines where it is broken."""
import sys
from contextlib import contextmanager

from boxglue import Glue, pt
from document import document

WIDTH, LINE, FILL, NEVER = pt(240), pt(12), (1, "fil"), 10_000
# The space of cmr10. A line that may be much longer or shorter needs no other.
SPACE, STRETCH = pt("3.33333"), pt(30)
TEXT = """Who breaks a text into lines looks at all of it before the first line is set. Each line costs something, and the list of breaks that costs least is taken;
so a line may be a little loose in order that the next one need not be very loose, and no line is set by itself."""


def gaps(job):
    """Sends the words of the text, and comes back for each gap between two."""
    first, *others = TEXT.split()
    job.text(first)
    for word in others:
        yield
        job.text(word)


def ragged(job):
    """Lines that are filled by glue before the break. Behind the break this glue is taken back."""
    for _ in gaps(job):
        job.penalty(NEVER), job.glue(0, STRETCH), job.penalty(0), job.glue(SPACE, -STRETCH)


def centred(job):
    """The same with glue at both ends of a line. It wants a parfillskip of 0pt. An empty box keeps
    what follows it at the beginning of a line."""
    job.hbox().end(), job.glue(0, STRETCH)
    for _ in gaps(job):
        job.penalty(NEVER), job.glue(0, STRETCH), job.penalty(0), job.glue(
            SPACE, -2 * STRETCH
        ), job.hbox().end(), job.penalty(NEVER), job.glue(0, STRETCH)
    job.penalty(NEVER), job.glue(0, STRETCH), job.hbox().end()


def indented(job, first, others):
    """Lines that begin with a kern, the first one with a kern of its own. They may be cut into
    columns and pages as plain ones."""
    job.hbox().end(), job.kern(first)
    for _ in gaps(job):
        job.glue(SPACE, pt("1.66666"), pt("1.11111")), job.kern(
            -others
        ), job.hbox().end(), job.kern(others)


def heading(job, text):
    """A line in the middle."""
    with job.hbox(to=WIDTH):
        job.glue(0, FILL), job.text(text), job.glue(0, FILL)
    job.glue(pt(2))


@contextmanager
def paragraph(job, name, width=WIDTH, fill=Glue(0, FILL)):
    """A paragraph under its heading."""
    heading(job, name), job.set(hsize=width, parfillskip=fill)
    with job.par():
        yield
    job.glue(pt(10))


def frame(job, width, height):
    """A frame in the place of a picture, its top as high as a letter above the baseline."""
    with job.vtop():
        job.kern(pt(-7)), job.rule(width, pt("0.4"), 0)
        with job.hbox(to=width):
            job.rule(pt("0.4"), height, 0), job.glue(0, FILL), job.rule(pt("0.4"), None, 0)
        job.rule(width, pt("0.4"), 0)


def beside(job, left, lines=4, size=pt(50), gap=pt(8)):
    """A picture beside the first lines of a paragraph, which are shorter: they are cut off. With
    the picture they are one hbox, 3pt deeper than the last baseline in it."""
    job.set(
        hsize=WIDTH,
        parfillskip=Glue(0, FILL),
        firstlines=lines,
        firstsize=WIDTH - size - gap,
        splittopskip=LINE - pt(3),
    )
    with job.vbox(into=0), job.par():
        job.text(" ".join(TEXT.split()))
    job.set(firstlines=0), job.vsplit(0, to=LINE * lines - pt(4), into=1)
    with job.hbox():
        job.rule(0, 0, LINE * (lines - 1) + pt(3))
        if left:
            frame(job, size, LINE * (lines - 1) + pt(6)), job.kern(gap)
        with job.vtop():
            job.unvbox(1)
        if not left:
            job.kern(gap), frame(job, size, LINE * (lines - 1) + pt(6))
    job.unvbox(0)


with document(*sys.argv[1:]) as job:
    job.set(tolerance=3000)
    with job.vbox(into=9):
        with paragraph(job, "ragged"):
            ragged(job)
        with paragraph(job, "centred", fill=0):
            centred(job)
        with paragraph(job, "hanging"):
            indented(job, 0, pt(20))
        with paragraph(job, "quoted", WIDTH - pt(20)):
            indented(job, pt(20), pt(20))
        for side in (True, False):
            heading(job, "beside a picture"), beside(job, side), job.glue(pt(10))
    job.ship(9)
