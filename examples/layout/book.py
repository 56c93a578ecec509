#!/usr/bin/env python3
"""Sets a book: a table of contents, chapters with running heads, footnotes, and references to
pages.

    examples/layout/book.py $cmr10 out/book.dvi < examples/layout/book.txt

`# TITLE` begins a chapter, and each other line is a paragraph, in which `^[TEXT]` is a footnote,
and `@[TITLE]` the number of the page where a chapter begins. The book is set until the numbers of
its pages are those that it was set with, and then once more to ship its pages."""
import re
import sys

from boxglue import pt
from document import document

WIDTH, HEIGHT, LINE, FILL = pt(240), pt(140), pt(12), (1, "fil")
# What is in which register. Footnote n is in register NOTE + n.
PAGE, FOOT, PARAGRAPH, ROW, FINISHED, NOTE = range(6)
# All rows of a page are as high and as deep, so no glue is needed between them.
STRUT, NOTE_STRUT = (0, pt("8.5"), pt("3.5")), (0, pt(7), pt(3))
# A line that is n scaled points deeper than this has the footnotes up to the n-th. No letter is as
# deep, and the strut is deeper.
MARK = pt(3)
# The rule above the footnotes and the glue below it are as high as this.
NOTES_ROOM = pt(4)
PARTS = re.compile(r"([@^])\[(.*?)\]|([^@^]+|[@^])")


class Book:
    """A setting of a book, over the numbers of pages that an earlier setting found."""

    def __init__(self, job, numbers, ships):
        self.job, self.numbers, self.ships = job, numbers, ships
        self.found, self.title, self.page = {}, "", 0
        self.note_sizes, self.shown = [], 0
        self.empty()

    def empty(self):
        """Begins a page."""
        self.job.void(PAGE), self.job.void(FOOT)
        self.used, self.has_notes = 0, False

    def line(self, left, right):
        """A line with a text at each end."""
        with self.job.hbox(to=WIDTH):
            self.job.rule(*STRUT), self.job.text(left), self.job.glue(0, FILL), self.job.text(
                str(right)
            )

    def finish(self):
        """Ends a page: its head, its rows, and its footnotes at its foot."""
        self.page += 1
        with self.job.vbox(to=HEIGHT + 2 * LINE, into=FINISHED):
            self.line(self.title, self.page)
            self.job.glue(LINE), self.job.unvbox(PAGE), self.job.glue(0, FILL)
            if self.has_notes:
                self.job.rule(WIDTH // 4, pt("0.4"), 0), self.job.glue(pt("3.6")), self.job.unvbox(
                    FOOT
                )
        self.job.count(0, self.page)
        (self.job.ship if self.ships else self.job.void)(FINISHED)
        self.empty()

    def row(self, last=0):
        """Puts the box in ROW on the page, with the footnotes up to this one, or on the next page
        if there is no room."""
        notes = range(self.shown + 1, last + 1)
        needed = LINE + sum(self.note_sizes[it - 1] for it in notes)
        if self.used + needed + NOTES_ROOM > HEIGHT:
            self.finish()
        self.used += needed + (NOTES_ROOM if notes and not self.has_notes else 0)
        with self.job.vbox(into=PAGE):
            self.job.unvbox(PAGE)
            with self.job.hbox(to=WIDTH):
                self.job.rule(*STRUT), self.job.box(ROW)
        for number in notes:
            with self.job.vbox(into=FOOT):
                self.job.unvbox(FOOT), self.job.unvbox(NOTE + number)
            self.shown, self.has_notes = number, True

    def note(self, text):
        """Sets a footnote. Returns its number."""
        number = len(self.note_sizes) + 1
        with self.job.vbox(into=NOTE + number) as box, self.job.par():
            self.job.rule(*NOTE_STRUT), self.job.text(f"({number}) {text}"), self.job.rule(
                *NOTE_STRUT
            )
        self.note_sizes.append(box.height + box.depth)
        return number

    def paragraph(self, text):
        """Sets a paragraph, and takes its lines off one by one: a split to no height takes one
        line, and tells its depth."""
        with self.job.vbox(into=PARAGRAPH), self.job.par() as par:
            for sign, inner, plain in PARTS.findall(text):
                if sign == "^":  # a footnote leaves a mark in its line
                    number = self.note(inner)
                    self.job.text(f"({number})"), self.job.rule(0, 0, MARK + number)
                else:
                    self.job.text(str(self.numbers[inner]) if sign else plain)
        for _ in range(par.lines):
            depth = self.job.vsplit(PARAGRAPH, to=0, into=FINISHED).front.depth
            with self.job.vbox(into=FINISHED):
                self.job.unvbox(FINISHED), self.job.lastbox(ROW)
            self.row(max(0, depth - MARK))

    def chapter(self, title):
        """Begins a chapter on a new page."""
        self.finish()
        self.title, self.found[title] = title, self.page + 1
        for text in (title, ""):
            with self.job.hbox(into=ROW):
                self.job.text(text)
            self.row()

    def set(self, lines):
        """Sets all. Returns the numbers of the pages where chapters begin."""
        self.title = "Contents"
        for title, page in self.numbers.items():
            with self.job.hbox(into=ROW):
                self.line(title, page)
            self.row()
        for line in lines:
            self.chapter(line[2:]) if line.startswith("# ") else self.paragraph(line)
        self.finish()
        return self.found


lines = [it.strip() for it in sys.stdin if it.strip()]
known, found = None, {it[2:]: 0 for it in lines if it.startswith("# ")}
with document(*sys.argv[1:]) as job:
    job.set(hsize=WIDTH, tolerance=10_000, baselineskip=pt(10))
    while known != found:
        known, found = found, Book(job, found, False).set(lines)
    Book(job, found, True).set(lines)
