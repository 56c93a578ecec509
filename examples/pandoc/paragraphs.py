"""Paragraphs: tokens become lines, each in a register, by the breaks that boxglue chooses."""

import sys
from collections.abc import Callable, Iterable, Sequence
from dataclasses import dataclass, field
from functools import partial
from typing import Any, NamedTuple

import boxglue
from boxglue import layout, pdf
from boxglue.families import Fonts, Run, Style
from boxglue.hyphenation import Rule

PT = boxglue.pt(1)
# Registers that this program uses by their numbers: for a box that is used at once, and for
# paragraphs. All others are chosen by the job.
SCRATCH, GALLEY = 0, 1
# The penalty that forbids a break; and what is added to a note's number, so that it is found.
NEVER, NOTE = 10_000, 20_000
FIL: Any = (1, "fil")
say = partial(print, file=sys.stderr)
BOX = partial(boxglue.Batch.rule, width=0, height=0, depth=0)
# The stretch before lines, which end with a fil.
ALIGNS: dict[str, Any] = {"center": FIL, "right": (1, "fill")}
# The special after the first one of a link, and those that end it.
BLUE, LINK_END = "color push rgb 0 0 0.6", ["color pop", pdf.LINK_END]
BODY = Style()
# The level of a heading, its text, and its place.
Heading = tuple[int, str, str]


@dataclass
class Before:
    """What is before a row: space, what it costs to end a page there, a heading, the places that
    the row has, and labels with the places where they end."""

    gap: int = 0
    cost: int = 0
    heading: Heading | None = None
    places: list[str] = field(default_factory=list)
    labels: list[tuple[str, int]] = field(default_factory=list)


@dataclass
class Row:
    """A line, or another box that no page cuts, its size, and the number of the document's block.
    A fault is by how much the line is overfull, and its text."""

    box: boxglue.Register
    size: int
    indent: int = 0
    origin: int = 0
    before: Before = field(default_factory=Before)
    notes: list["Row"] = field(default_factory=list)
    faults: list[tuple[int, str]] = field(default_factory=list)


class Token(NamedTuple):
    """A part of a paragraph in a style: a text, or a function that adds something else."""

    data: str | partial[None]
    style: Style


def stack(it: boxglue.Batch, rows: Iterable[Row]) -> None:
    """Adds rows to a vertical list."""
    for its in rows:
        it.box(its.box, shift=its.indent)
        its.box.release()


def send_specials(it: boxglue.Batch, specials: Iterable[str]) -> None:
    """Adds specials."""
    for special in specials:
        it.special(special)


def mark(it: boxglue.Batch, fonts: Fonts, number: int, runs: list[Run], rise: int) -> None:
    """Adds the mark of a note, behind a penalty by which its line is found. A box is before it."""
    BOX(it)
    it.penalty(NOTE + number)
    fonts.send(it, runs, rise=rise)


class Paragraphs:
    """Sets paragraphs. `note` returns the rows of the note with a number."""

    def __init__(self, fonts: Fonts, hyphens: Rule | None) -> None:
        self.fonts, self.hyphens, self.count, self.lines = fonts, hyphens, 0, 0
        self.note: Callable[[int], list[Row]] = lambda number: []

    def set(self, tokens: Sequence[Token], width: int, line: int, align: str) -> list[Row]:
        """Sets a paragraph, and returns its lines."""
        if not tokens:
            return []
        job, pieces = self.fonts.job, self.fonts.pieces(tokens, ragged=align != "justified")
        job.set(hsize=width)
        with job.vbox(into=GALLEY):
            done = job.paragraph([BOX, *pieces], hyphens=self.hyphens, encoding=self.fonts.encoding)
        high, deep, left = line * 7 // 10, line * 3 // 10, boxglue.Glue(0, ALIGNS.get(align, 0))
        rows = list[Row]()
        for it in layout.take_lines(job, GALLEY, width, height=high, depth=deep, left=left):
            rows.append(Row(it.register, it.size))
            for item in it.box.items:
                if isinstance(item, boxglue.PenaltyItem) and item.penalty >= NOTE:
                    rows[-1].notes += self.note(item.penalty - NOTE)
            if done.deciding_pass == 3 and it.box.badness > 1000:
                rows[-1].faults.append((it.box.overhang, self.fonts.text_of(it.box)))
        self.count, self.lines = self.count + 1, self.lines + len(rows)
        return rows
