"""Pandoc's blocks as rows: texts, lists, code, tables and figures."""

from collections.abc import Callable
from dataclasses import dataclass, field, replace
from functools import partial
from typing import Any, NamedTuple

from boxglue import layout
from boxglue.families import Run, Style
from inlines import Element, Inlines, title_of
from paragraphs import BODY, NEVER, PT, Before, Paragraphs, Row, stack

# Of each level of headings: the size, and the space above and below it.
HEADINGS = [(14, 20, 14), (12, 14, 11), (10, 11, 10), (10, 9, 9), (10, 8, 8)]
# The space around kinds of blocks.
GAPS = {"Para": 6, "Plain": 1, "BlockQuote": 4, "HorizontalRule": 6, "CodeBlock": 5, "LineBlock": 6}
GAPS |= {"Figure": 8, "Table": 8}
SPACE = 10 * PT
TABLE_ALIGNS = {"AlignRight": "right", "AlignCenter": "center", "AlignLeft": "left"}
# The first column of a cell, how many columns it spans, its alignment, its style and its blocks.
Cell = tuple[int, int, str, Style, list[Element]]
SMALL, NOTE = replace(BODY, size=9 * PT), replace(BODY, size=8 * PT)
# When more rows wait, pages are cut from them, even within a list. A paragraph whose elements have
# more characters is set in parts, since its list would be too long.
WAITING, LONGEST = 250, 50_000
# Labels of ordered lists: by their styles, others than numbers; and what is around them.
LETTERS = {"LowerAlpha": ord("a"), "UpperAlpha": ord("A")}
AROUND = {"OneParen": "{})", "TwoParens": "({})"}


@dataclass
class Flow:
    """Rows one below the other, and what the next one has before it."""

    rows: list[Row] = field(default_factory=list)
    next: Before = field(default_factory=Before)


class Frame(NamedTuple):
    """Where blocks stand and how: in a flow, with an indent and a width; and in how many lists."""

    flow: Flow
    left: int
    width: int
    style: Style = BODY
    align: str = "justified"
    depth: int = 0

    def inner(self, left: int, right: int = 0) -> "Frame":
        """The frame of what is within it."""
        width = self.width - left - right
        return self._replace(left=self.left + left, width=width, depth=self.depth + 1)

    def gap(self, points: float) -> None:
        """Adds space. Where two meet, the larger one counts."""
        self.flow.next.gap = max(self.flow.next.gap, round(points * PT))


def cells_of(rows: list[Element], aligns: list[str], style: Style) -> list[list[Cell]]:
    """The cells of rows that are not empty. One that spans rows stands in the first of them."""
    taken, found = [0] * (len(aligns) + 1), []
    for _, cells in rows:
        column, row = 0, list[Cell]()
        for _, align, down, span, blocks in cells:
            while taken[column]:
                column += 1
            span = min(span, len(aligns) - column)
            if span > 0:
                its = TABLE_ALIGNS.get(align["t"], aligns[column]), style, blocks
                row.append((column, span, *its))
                taken[column : column + span] = [down] * span
                column += span
        taken = [max(0, it - 1) for it in taken]
        found += [row] if any(cell[-1] for cell in row) else []
    return found


class Blocks:
    """Sets blocks into rows. `origin` is the number of the block of the document, and `take` ships
    pages of rows of the document."""

    def __init__(self, inlines: Inlines, lines: Paragraphs, width: int, notes: Element) -> None:
        self.inlines, self.paragraphs, self.fonts = inlines, lines, inlines.fonts
        self.origin, self.frame, self.notes = 0, Frame(Flow(), 0, width), notes
        self.paragraphs.note = self.note
        self.take: Callable[[list[Row]], None] = lambda rows: None

    def add(self, rows: list[Row], frame: Frame, inside: int = 0) -> None:
        """Adds rows, with a cost between them that keeps the outer ones together. The first one
        gets the labels that wait, each where its list is."""
        for number, its in enumerate(rows):
            its.indent, its.origin = its.indent + frame.left, self.origin
            ends = (number == 1) + (number == len(rows) - 1)
            its.before = Before(cost=max(inside, 3000 * ends))
        for row in rows[:1]:
            row.before, frame.flow.next = frame.flow.next, Before()
            for text, end in row.before.labels:
                back = row.indent - end + 5 * PT
                runs, wide = self.fonts.runs(text, BODY), self.fonts.measure(text, BODY)
                with self.fonts.job.batch() as it, it.hbox(into=row.box):
                    it.kern(-wide - back)
                    self.fonts.send(it, runs)
                    it.kern(back)
                    it.box(row.box)
        frame.flow.rows += rows

    def row(self, line: int, runs: list[Run], width: int = 0, high: int = 0) -> Row:
        """A row of runs and a rule."""
        register = self.fonts.job.register()
        with self.fonts.job.batch() as it, it.hbox(into=register) as box:
            it.rule(0, line * 7 // 10, line * 3 // 10)
            self.fonts.send(it, runs)
            it.rule(width, high, 0)
        return Row(register, box.height + box.depth)

    def text(self, inlines: list[Element], frame: Frame, inside: int = 0) -> str:
        """Adds a paragraph, and returns its text."""
        tokens, line = self.inlines.tokens(inlines, frame.style), frame.style.size * 12 // 10
        self.add(self.paragraphs.set(tokens, frame.width, line, frame.align), frame, inside)
        return title_of(tokens)

    def note(self, number: int) -> list[Row]:
        """The rows of a note, which begins with its number."""
        mark = {"t": "Superscript", "c": [{"t": "Str", "c": str(number)}]}
        first, *rest = self.notes[number - 1] or [{"t": "Null"}]
        text = first["c"] if first["t"] in ("Para", "Plain") else []
        blocks = [{"t": "Para", "c": [mark, *text]}, *([] if text else [first]), *rest]
        return self.collect(blocks, self.frame._replace(style=NOTE))

    def collect(self, blocks: list[Element], frame: Frame) -> list[Row]:
        """The rows of blocks in a flow of their own."""
        flow = Flow()
        self.blocks(blocks, frame._replace(flow=flow, left=0, depth=0))
        return flow.rows

    def blocks(self, blocks: list[Element], frame: Frame) -> None:
        """Adds blocks, with their places and the space around them."""
        for it in blocks:
            match it:
                case {"t": "Para", "c": [{"t": "Image", "c": [_, inner, [_, title]]} as image]}:
                    caption = {"t": "Plain", "c": inner * title.startswith("fig:")}
                    it = {
                        "t": "Figure",
                        "c": ["", [None, [caption]], [{"t": "Plain", "c": [image]}]],
                    }
                case {"c": [[str(), [*_], [*_]] as its, *_] | [int(), [str(), *_] as its, *_]}:
                    frame.flow.next.places += its[:1] if its[0] else []
            frame.gap(GAPS.get(it["t"], 0))
            self.block(it, frame)
            frame.gap(GAPS.get(it["t"], 0))
            if frame.flow is self.frame.flow and len(frame.flow.rows) > WAITING:
                self.take(frame.flow.rows)

    def block(self, block: Element, frame: Frame) -> None:
        """Adds a block."""
        match block:
            case {"t": "Para" | "Plain", "c": [{"t": "Span", "c": [[place, *_], []]}]}:
                frame.flow.next.places.append(place)  # a paragraph of a place is no line
            case {"t": "Para" | "Plain", "c": inlines}:
                step = len(inlines) * LONGEST // max(LONGEST, len(str(inlines))) or 1
                for at in range(0, len(inlines), step):
                    self.text(inlines[at : at + step], frame)
            case {"t": "LineBlock", "c": lines}:
                broken = [it for line in lines for it in [*line, {"t": "LineBreak"}]][:-1]
                self.text(broken, frame._replace(align="left"))
            case {"t": "Header", "c": [level, [place, *_], inlines]}:
                self.heading(min(level, len(HEADINGS)), place, inlines, frame)
            case {"t": "Div", "c": [_, blocks]}:
                self.blocks(blocks, frame)
            case {"t": "BlockQuote", "c": blocks}:
                self.blocks(blocks, frame.inner(18 * PT, 18 * PT))
            case {"t": "Figure", "c": [_, [_, caption], blocks]}:
                inner = frame._replace(style=SMALL, align="center")
                self.add(self.collect([*blocks, *caption], inner), frame, NEVER)
            case {"t": "HorizontalRule"}:
                its = self.row(6 * PT, [], frame.width // 2, PT * 4 // 10)
                self.add([its], frame.inner(frame.width // 4))
            case {"t": "CodeBlock", "c": [_, text]}:
                self.code(text.expandtabs(8).rstrip("\n").split("\n"), frame)
            case {"t": "Table", "c": table}:
                self.table(table, frame)
            case _:
                self.lists(block, frame)

    def heading(self, level: int, place: str, inlines: list[Element], frame: Frame) -> None:
        """Adds a heading, which no page ends with."""
        size, above, below = HEADINGS[level - 1]
        style = replace(BODY, size=size * PT, bold=level < 5, italic=level == 5)
        frame.gap(above)
        before = frame.flow.next
        before.cost = before.cost or -30 * max(0, 4 - level)
        title = self.text(inlines, frame._replace(style=style, align="left"), NEVER)
        before.heading = level, title, place
        frame.flow.next.cost = NEVER
        frame.gap(below)

    def code(self, lines: list[str], frame: Frame) -> None:
        """Adds code line by line, smaller if it is wide, and cut if it is still too wide."""
        fits = frame.width // max(1, max(map(len, lines)) * 525 * PT // 1000)
        size = max(7, min(9, fits)) if frame.flow is self.frame.flow else 8
        style = Style("tt", size=size * PT)
        most = max(10, frame.width // self.fonts.measure("x", style))
        cut = [it[at : at + most] for it in lines for at in range(0, max(1, len(it)), most)]
        rows = [self.row(size * PT * 11 // 10, self.fonts.runs(it, style)) for it in cut]
        self.add(rows, frame, 20)

    def lists(self, block: Element, frame: Frame) -> None:
        """Adds a list; what is for another format is left out."""
        match block:
            case {"t": "BulletList", "c": items}:
                self.labelled(["•–∗"[min(frame.depth, 2)]] * len(items), items, frame)
            case {"t": "OrderedList", "c": [[start, {"t": style}, {"t": delimiter}], items]}:
                a, around = LETTERS.get(style), AROUND.get(delimiter, "{}.")
                names = [chr(a + (n - 1) % 26) if a else n for n, _ in enumerate(items, start)]
                self.labelled([around.format(it) for it in names], items, frame)
            case {"t": "DefinitionList", "c": items}:
                bold = frame._replace(style=replace(frame.style, bold=True), align="left")
                for term, definitions in items:
                    frame.gap(4)
                    self.text(term, bold, NEVER)
                    frame.flow.next.cost = NEVER
                    for blocks in definitions:
                        self.blocks(blocks, frame.inner(22 * PT))
                frame.gap(6)
            case {"t": kind} if kind != "Null":
                self.inlines.left_out[kind] += 1

    def labelled(self, labels: list[str], items: list[list[Element]], frame: Frame) -> None:
        """Adds items with labels, which are all as far indented as the widest label needs."""
        is_tight = all(not it or it[0]["t"] != "Para" for it in items)
        wide = max([self.fonts.measure(it, BODY) for it in labels], default=0)
        inner = frame.inner(max(18 * PT, wide + 5 * PT))
        frame.gap(2 if is_tight else 5)
        for label, blocks in zip(labels, items):
            before = frame.flow.next
            before.labels.append((label, inner.left))
            self.blocks(blocks or [{"t": "Plain", "c": [{"t": "Space"}]}], inner)
            if before is frame.flow.next:  # the item has no rows
                before.labels.pop()
            frame.gap(1 if is_tight else 4)
        frame.gap(2 if is_tight else 5)

    # Tables: columns as wide as a first setting of their cells, and rows of boxes.

    def table(self, table: Element, frame: Frame) -> None:
        """Adds a table: its caption, and its rows between rules."""
        _, (_, caption), specs, (_, heads), bodies, (_, feet) = table
        aligns = [TABLE_ALIGNS.get(it[0]["t"], "left") for it in specs]
        rows = cells_of(heads, aligns, replace(SMALL, bold=True))
        inner, count = [row for body in bodies for row in body[2] + body[3]], len(rows)
        rows += cells_of(inner + feet, aligns, SMALL)
        widths = self.column_widths([it[1].get("c") for it in specs], rows, frame.width)
        whole = sum(widths) + SPACE * (len(widths) - 1)
        if caption:
            self.add(self.collect(caption, frame._replace(style=SMALL, align="left")), frame, NEVER)
            frame.flow.next.cost = NEVER
            frame.gap(3)
        self.add([self.row(0, [], whole, PT * 8 // 10)], frame)
        for number, cells in enumerate(rows, 1):
            frame.flow.next.cost = 0 if 1 < number < len(rows) else NEVER
            frame.gap(2)
            self.add([self.table_row(cells, widths, frame)], frame)
            if number in (count, len(rows)):
                frame.flow.next.cost = NEVER
                frame.gap(2)
                thick = PT * (8 if number == len(rows) else 4) // 10
                self.add([self.row(0, [], whole, thick)], frame)

    def table_row(self, cells: list[Cell], widths: list[int], frame: Frame) -> Row:
        """A row of cells."""
        placed = list[tuple[int, list[Row]]]()
        for column, span, align, style, blocks in cells:
            width = sum(widths[column : column + span]) + SPACE * (span - 1)
            inner = frame._replace(width=width, style=style, align=align)
            placed.append((sum(widths[:column]) + SPACE * column, self.collect(blocks, inner)))
        found = Row(self.fonts.job.register(), 0)
        with self.fonts.job.batch() as it, it.hbox(into=found.box) as box:
            for left, rows in placed:
                with it.hbox(to=0):
                    it.kern(left)
                    with it.vtop():
                        stack(it, rows)
        found.size = box.height + box.depth
        for its in (row for _, rows in placed for row in rows):
            found.notes += its.notes
            found.faults += its.faults
            frame.flow.next.places += its.before.places
        return found

    def sizes(self, blocks: list[Element], style: Style) -> tuple[int, int]:
        """The width of a cell in one line, and of its widest word."""
        if any(it["t"] not in ("Para", "Plain") for it in blocks):
            return self.frame.width, self.frame.width // 4
        tokens = [token for it in blocks for token in self.inlines.tokens(it["c"], style)]
        boxes = [it.data.keywords.get("wide", 0) for it in tokens if isinstance(it.data, partial)]
        texts = [(it.data, it.style) for it in tokens if isinstance(it.data, str)]
        whole = sum(boxes) + sum(self.fonts.measure(*it) for it in texts)
        least = max([PT, *boxes, *(self.fonts.widest(*it) for it in texts)])
        return whole + PT // 8, least + PT // 8

    def column_widths(self, given: list[Any], rows: list[list[Cell]], width: int) -> list[int]:
        """The widths of columns: those given, or by a first setting of their cells."""
        whole, least, room = [PT] * len(given), [PT] * len(given), width - SPACE * (len(given) - 1)
        for at, span, _, style, blocks in (cell for cells in rows for cell in cells):
            sizes = self.sizes(blocks, style) if span == 1 else (0, 0)
            whole[at], least[at] = max(whole[at], sizes[0]), max(least[at], sizes[1])
        shares = [it or 1 / len(given) for it in given] if any(given) else []
        return layout.column_widths(least, whole, room, shares=shares)
