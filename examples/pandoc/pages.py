"""Pages: where they end, and their footnotes, heads and numbers; contents and bookmarks."""

import sys
from collections import Counter
from collections.abc import Sequence
from dataclasses import replace
from functools import partial

import boxglue
from blocks import Blocks, Frame
from boxglue import layout, pdf
from paragraphs import BODY, FIL, NEVER, PT, Heading, Row, Token, say, send_specials, stack

PAGE = 3
PAPER = boxglue.mm(210), boxglue.mm(297)
HEAD = replace(BODY, size=8 * PT)
# The height of the rule above footnotes and what is around it.
NOTES = 6 * PT
NUMBER, DEEPEST = 30 * PT, 3
# What a job answers that takes no more pages.
FULL = "TooMuchSpecial", "TooMuchShipped", "TooManyPages"
# The rows of a page, those of its footnotes, and how high both are.
Page = tuple[list[Row], list[Row], int]


class Full(Exception):
    """The job takes no more pages."""


def high(rows: Sequence[Row]) -> int:
    """The height of rows."""
    return sum(it.size for it in rows)


def cut(rows: list[Row], height: int) -> Page:
    """The first page of rows."""
    its = [layout.Measures(it.size, it.before.gap, it.before.cost, high(it.notes)) for it in rows]
    end, size = layout.page_end(its, height, space=NOTES)
    return rows[:end], [it for row in rows[:end] for it in row.notes], size


class Pages:
    """Ships pages, and knows on which page each heading is. `passed` rows were shipped by the job
    before, and are passed over; `shipped` counts them by their origins, `faults` layout."""

    def __init__(self, blocks: Blocks, height: int, most_pages: int) -> None:
        self.blocks, self.fonts, self.most_pages = blocks, blocks.fonts, most_pages
        self.width, self.height = blocks.frame.width, height
        self.places = blocks.inlines.places
        self.files, self.headings = list[bytes](), list[tuple[Heading, int]]()
        self.head, self.number, self.level, self.in_job, self.passed = "", 0, 0, 0, 0
        self.shipped, self.faults = Counter[int](), Counter[str]()

    def begin(self) -> None:
        """Begins a job."""
        job, inch = self.fonts.begin(), boxglue.inch(1)
        job.set(baselineskip=0, lineskip=0, splittopskip=0, clubpenalty=0, widowpenalty=0)
        job.set(hoffset=(PAPER[0] - self.width) // 2 - inch, parfillskip=boxglue.Glue(0, FIL))
        job.set(voffset=(PAPER[1] - self.height) // 2 - inch - 20 * PT)
        self.in_job = 0

    def end(self) -> bytes:
        """Ends a job, and returns its file."""
        self.fonts.job.finish().check()
        return self.fonts.job.take()

    def take(self, rows: list[Row], is_all: bool = False) -> None:
        """Ships the pages that rows fill, except the last two unless these are all rows."""
        passed = min(self.passed, len(rows))
        self.passed -= passed
        del rows[:passed]
        while high(rows) > (0 if is_all else 2 * self.height) or is_all and not self.number:
            page = cut(rows, self.height)
            self.body_page(page)
            del rows[: len(page[0])]

    def body_page(self, page: Page) -> None:
        """Ships a page of the document."""
        headings = [it.before.heading for it in page[0] if it.before.heading]
        number, level, outline = self.number + 1, self.level, list[str]()
        for depth, text, place in headings:
            level = min(depth, level + 1)
            outline.append(pdf.bookmark(level, text, self.places[place] if place else None))
        heads = [self.head, *[text for depth, text, _ in headings if depth <= 2]]
        if self.in_job == self.most_pages:
            raise Full
        try:
            self.ship(page, heads[min(1, len(heads) - 1)], number, outline)
        except boxglue.Refused as refused:
            if refused.name in FULL and self.in_job:
                raise Full from refused
            raise
        self.number, self.level, self.in_job, self.head = number, level, self.in_job + 1, heads[-1]
        self.headings += [(it, number) for it in headings]
        self.shipped.update(it.origin for it in page[0])

    def report(self, page: Page, label: str) -> None:
        """Says which lines are overfull, and whether the page is too high."""
        for overhang, text in [it for row in page[0] + page[1] for it in row.faults]:
            self.faults["overfull" if overhang else "loose"] += 1
            if overhang:
                say(f"page {label}: overfull by {boxglue.points(overhang)}: {text}")
        if page[2] > self.height:
            say(f"page {label}: too high by {boxglue.points(page[2] - self.height)}")
        if sys.stderr.isatty():
            say(f"page {label}", end="\r")

    def ship(self, page: Page, head: str, number: int, specials: Sequence[str] = ()) -> None:
        """Packs and ships a page."""
        while self.fonts.measure(head, HEAD) > self.width - 2 * NUMBER:
            head = head[:-8] + "..."
        left = self.fonts.runs(head, replace(HEAD, italic=True))
        label = str(number) if number > 0 else ""
        right = self.fonts.runs(label, HEAD)
        with self.fonts.job.batch() as it:
            it.count(0, number)
            with it.vbox(into=PAGE):
                it.special(pdf.paper(*PAPER))
                with it.hbox(to=self.width):
                    self.fonts.send(it, left)
                    it.glue(0, FIL)
                    self.fonts.send(it, right)
                it.kern(3 * PT)
                it.rule(self.width, PT * 3 // 10, 0)
                it.kern(12 * PT)
                send_specials(it, specials)
                with it.vbox(to=self.height):
                    for row in page[0]:
                        it.kern(row.before.gap if row is not page[0][0] else 0)
                        send_specials(it, [pdf.place(self.places[p]) for p in row.before.places])
                        stack(it, [row])
                    it.glue(0, FIL)
                    if page[1]:
                        it.rule(self.width // 3, PT * 4 // 10, 0)
                        it.kern(NOTES - PT * 4 // 10)
                        stack(it, page[1])
                        it.kern(0)  # so that the page ends below the last line
            it.ship(PAGE)
        self.report(page, label)

    def front(self, frame: Frame) -> bytes:
        """Adds the contents to rows, ships these in a job of their own, and returns its file."""
        self.blocks.heading(1, "", [{"t": "Str", "c": "Contents"}], frame)
        for (level, text, place), number in self.headings:
            if level <= DEEPEST:
                inner = frame.inner((level - 1) * 14 * PT, 2 * NUMBER)
                tokens = [Token(text, replace(BODY, bold=level == 1))]
                rows = self.blocks.paragraphs.set(tokens, inner.width, 12 * PT, "left")
                self.entry(rows[-1], place, str(number), inner.width + 2 * NUMBER)
                self.blocks.add(rows, inner, NEVER)
        rows, number = frame.flow.rows, 0
        while rows:
            page, number = cut(rows, self.height), number - 1
            self.ship(page, "", number)
            del rows[: len(page[0])]
        return self.end()

    def entry(self, row: Row, place: str, number: str, width: int) -> None:
        """Makes the last line of a title a link, and adds dots and the number of its page."""
        link = [pdf.link_to(self.places[place])] if place else []
        its = [partial(self.fonts.send, runs=self.fonts.runs(it, BODY)) for it in (".", number)]
        layout.entry(self.fonts.job, row.box, width, *its, space=NUMBER)
        with self.fonts.job.batch() as it, it.hbox(into=row.box):
            send_specials(it, link)
            it.box(row.box)
            send_specials(it, [pdf.LINK_END] if link else [])
