"""Lines, pages, columns and contents, for documents that are made line by line, with footnotes and
links that know their line.

    from boxglue import layout

    with job.vbox(into=0):
        job.paragraph("A text of some lines.", hyphens=english)
    rows = layout.take_lines(job, 0, pt(300), height=pt(8), depth=pt(4))
    end, size = layout.page_end([layout.Measures(it.size) for it in rows], pt(500))
    with job.vbox(into=0):
        for line in rows[:end]:
            job.box(line.register)
            line.register.release()

A footnote leaves a mark in its line: a rule of no width that is deeper than any letter, and no
deeper than the `depth` of the lines, which would else be farther apart. Add it by a piece such as
`lambda batch: batch.rule(0, 0, pt(3) + number)`, and find it in the line:

    rules = [it for it in line.box.items if isinstance(it, boxglue.RuleItem)]
    numbers = [it.depth - pt(3) for it in rules if it.width == 0 and it.depth > pt(3)]
    layout.Measures(line.size, notes=sum(heights[it] for it in numbers))
"""

from __future__ import annotations

from collections.abc import Callable, Iterable, Sequence
from typing import NamedTuple, SupportsIndex

from ._batches import Batch
from ._boxes import Box, SpecialItem
from ._dimensions import pt
from ._job import Job
from ._lists import Register
from ._scripts import Glue, Stretch
from .pdf import end_of, left_open

__all__ = ["Line", "Measures", "column_widths", "entry", "page_end", "take_lines"]

# The cost that forbids an end of a page; a page that is lower than it may be by LOW costs LOW_COST.
FORBIDDEN, LOW, LOW_COST = 10_000, pt(60), 100
FIL: Stretch = (1, "fil")


class Line(NamedTuple):
    """A line of a paragraph.

    Attributes:
        register: The register that has it. Release it when a page has its box.
        size: Its height and depth together, in scaled points.
        box: The line as it was in the paragraph: its items, its badness, and by how much it is
            overfull.
    """

    register: Register
    size: int
    box: Box


def take_lines(
    job: Job,
    register: SupportsIndex,
    width: int,
    *,
    height: int = 0,
    depth: int = 0,
    left: Glue = Glue(0),
) -> list[Line]:
    """Takes the lines of paragraphs from a vertical box, which becomes void. What is between them
    is dropped. A link or a colour that is open at the end of a line ends there, and begins again in
    the next one.

    Args:
        job: The job.
        register: The register of the box.
        width: The width of the lines in scaled points, as hsize was.
        height: The least height of a line.
        depth: The least depth of a line.
        left: Glue at the left of each line, such as Glue(0, (1, "fil")) if the lines end with such
            glue and stand in the middle.

    Returns:
        The lines.

    Raises:
        Refused: A command is refused.
    """
    galley, found, is_open = job.inspect(register), list[Line](), list[bytes]()
    with job.register() as rest, job.batch() as it:
        for box in galley.lines() if galley else []:
            high, deep = max(height, box.height), max(depth, box.depth)
            found.append(Line(it.register(), high + deep, box))
            it.vsplit(register, to=0, into=rest)
            with it.vbox(into=rest):
                it.unvbox(rest)
                it.lastbox(found[-1].register)
            with it.hbox(to=width, into=found[-1].register):
                it.rule(0, high, deep)
                it.glue(*left)
                for special in is_open:
                    it.special(special)
                it.unhbox(found[-1].register)
                specials = [item.text for item in box.items if isinstance(item, SpecialItem)]
                is_open = left_open(specials, is_open)
                for special in reversed(is_open):
                    it.special(end_of(special) or "")
        it.void(register)
    return found


class Measures(NamedTuple):
    """What the end of a page depends on.

    Attributes:
        size: The height and depth of a line together, in scaled points.
        gap: The space before it, which is dropped at the top of a page.
        cost: What it costs to end a page before it; 10,000 forbids it.
        notes: The height of its footnotes.
    """

    size: int
    gap: int = 0
    cost: int = 0
    notes: int = 0


def page_end(rows: Iterable[Measures], height: int, *, space: int = 0) -> tuple[int, int]:
    """Finds where the first page of lines ends: at the last of the cheapest places at which they
    fit. A page that is too low by a part of 60pt costs the cube of this part times 100. If the
    lines do not fit up to the first place that is allowed, the page ends there.

    Args:
        rows: The lines.
        height: The height of the page in scaled points.
        space: The space above footnotes.

    Returns:
        How many lines the page has, and how high they are with their footnotes.
    """
    used, notes, best, found = 0, 0, 0, (0, 0)
    for at, row in enumerate([*rows, Measures(0, 0, -FORBIDDEN)]):
        if at and row.cost < FORBIDDEN:
            whole = used + notes + space * bool(notes)
            low = LOW_COST * max(0, (height - whole) / LOW) ** 3
            cost = row.cost + int(min(FORBIDDEN, low))
            if not found[0] or whole <= height and cost <= best:
                best, found = cost, (at, whole)
            if whole > height:
                break
        used, notes = used + row.gap * bool(at) + row.size, notes + row.notes
    return found


def column_widths(
    least: Sequence[int], whole: Sequence[int], width: int, *, shares: Sequence[float] = ()
) -> list[int]:
    """Finds the widths of a table's columns. They are as the shares say if these are given and no
    column is then too narrow; otherwise as wide as their cells if all cells fit in one line;
    otherwise each column has its least width, and of what is left a share by what it lacks.

    Args:
        least: The width that each column has at least, such as its widest word.
        whole: The width of each column if no cell has two lines.
        width: The width of all columns together, in scaled points.
        shares: The share of the width that each column should have.

    Returns:
        The widths. If the least widths do not fit, none is more than an equal part of the width.
    """
    if shares:
        widths = [int(width * it / max(1.0, sum(shares))) for it in shares]
        if all(has >= needs for has, needs in zip(widths, least)):
            return widths
    elif sum(whole) <= width:
        return [*whole]
    most = width // max(1, len(least)) if sum(least) > width else width
    widths = [min(it, most) for it in least]
    lacks = [it - has for it, has in zip(whole, widths)]
    left = max(0, width - sum(widths))
    return [has + left * it // max(1, sum(lacks)) for has, it in zip(widths, lacks)]


def entry(
    job: Job,
    register: SupportsIndex,
    width: int,
    dot: Callable[[Batch], object],
    number: Callable[[Batch], object],
    *,
    step: int = pt(5),
    space: int = pt(30),
) -> None:
    """Makes a line into an entry of a table of contents. Dots follow its text, aligned with the
    dots of other entries, and a page's number stands at the right.

    Args:
        job: The job.
        register: The register of the line, which gets the entry. Glue of the order fil is at its
            end.
        width: The width of the entry in scaled points.
        dot: A function that adds a dot by the calls of the batch that it is given.
        number: A function that adds the number.
        step: How far apart the dots are.
        space: The space for the number.

    Raises:
        Refused: A command is refused.
    """
    with job.register() as one:
        with job.batch() as it, it.hbox(into=one) as text:
            it.unhcopy(register)
        with job.batch() as it:
            with it.hbox(to=step, into=one):
                it.glue(0, FIL)
                dot(it)
            with it.hbox(to=width, into=register):
                it.unhbox(register)
                for _ in range((width - text.width - space - step) // step):
                    it.copy(one)
                with it.hbox(to=space):
                    it.glue(0, FIL)
                    number(it)
