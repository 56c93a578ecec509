"""The pages of a DVI file and their marks. Places and sizes are in DVI units: scaled points in
boxglue's own files."""
from __future__ import annotations

import ctypes
import enum
import struct
from collections.abc import Iterator
from ctypes import byref
from dataclasses import dataclass
from fractions import Fraction
from typing import Any

from ._files import file_words, refusal_of_file
from ._library import Data, Fonts, MarkRow, MarkSizes, PageRow, data_of, library, new_buffer
from ._public import public
from ._status import Status, fail
from ._tables import Table, new_table, part_of

# No page has fewer bytes, and no refusal's line has more.
_SHORTEST_PAGE, _TEXT_ROOM = 46, 64
# The first room of a table is at most this, so that a great file asks for no great table that it
# does not fill.
_MOST_ROOM = 1 << 24
# A scaled point is 25400000 / 473628672 times 10^-7 m.
_POINTS_NUM, _POINTS_DEN = 25400000, 473628672


@public
class MarkKind(enum.IntEnum):
    """The kind of a mark in a row of `Marks.rows`."""

    GLYPH = 1
    RULE = 2
    SPECIAL = 3


@public
@dataclass(frozen=True, slots=True)
class Glyph:
    """A character of a font, with its reference point at (h, v), and its width by the metric
    file."""

    h: int
    v: int
    font: int
    code: int
    width: int


@public
@dataclass(frozen=True, slots=True)
class Rule:
    """A black rectangle, with its lower left corner at (h, v)."""

    h: int
    v: int
    height: int
    width: int


@public
@dataclass(frozen=True, slots=True)
class Special:
    """A special at (h, v), and its text."""

    h: int
    v: int
    text: bytes


Mark = Glyph | Rule | Special


@public
@dataclass(frozen=True, slots=True)
class Units:
    """The units of a file: one is num / den times 10^-7 m, enlarged by mag / 1000."""

    num: int
    den: int
    mag: int

    @property
    def scaled_points(self) -> Fraction:
        """How many scaled points a unit is: 1 in boxglue's own files."""
        return Fraction(self.num * self.mag * _POINTS_DEN, self.den * 1000 * _POINTS_NUM)


@public
class Marks(Table[Mark]):
    """Marks in order. Each is made when you ask for it, as a Glyph, a Rule or a Special.

    `rows` is the table itself as a memoryview, with a row of nine numbers for each mark: kind (a
    MarkKind), font, code, h, v, height, width, text_size, and text_start, the place of a text in
    the bytes of the file. A number that a mark does not have is 0. `numpy.asarray(marks.rows)` has
    columns of these names, and copies nothing.
    """

    def __init__(self, rows: Any, dvi: bytes) -> None:
        super().__init__(rows, dvi)
        self._dvi = dvi

    def _item(self, row: Any) -> Mark:
        kind = row.kind
        if kind == MarkKind.GLYPH:
            return Glyph(row.h, row.v, row.font, row.code, row.width)
        if kind == MarkKind.RULE:
            return Rule(row.h, row.v, row.height, row.width)
        return Special(row.h, row.v, self._dvi[row.text_start : row.text_start + row.text_size])

    def tuples(self) -> Iterator[tuple[int, ...]]:
        """Walks over the rows as tuples of nine numbers, which is quicker than over marks.

        Returns:
            An iterator.
        """
        return struct.iter_unpack("=I6iIQ", self._rows)


@public
@dataclass(frozen=True, slots=True)
class Page:
    """A page: its ten counts, and its marks."""

    counts: tuple[int, ...]
    marks: Marks


@public
class Pages(Table[Page]):
    """The pages of a DVI file in order. Each is made when you ask for it."""

    def __init__(self, rows: Any, marks: Marks) -> None:
        super().__init__(rows, marks)
        self._marks = marks

    def _item(self, row: Any) -> Page:
        return Page(tuple(row.counts), self._marks[row.first_mark : row.first_mark + row.marks])


@public
@dataclass(frozen=True, slots=True)
class Document:
    """The pages of a DVI file, all marks of all pages, one page after the other, and the units."""

    pages: Pages
    marks: Marks
    units: Units


@public
def marks(dvi: Data, fonts: Fonts = ()) -> Document:
    """Reads the pages of a DVI file and their marks: glyphs, rules and specials.

    Args:
        dvi: The bytes of the file.
        fonts: The fonts that its pages may select: a mapping from names to the bytes of metric
            files, a `FontFolder`, or pairs of both.

    Returns:
        The pages, all their marks, and the units.

    Raises:
        Refused: The file is bad (BadDvi), a font is missing (NoFont), or its metric file is bad
            (BadTfm) or too large (DimensionTooLarge).
        OutOfMemory: The system refused memory.
        BadFontName: The name of a font does not have 1 to 255 bytes.
    """
    data, sizes = data_of(dvi, "a DVI file"), MarkSizes()
    words = file_words(data, fonts)
    # A mark has at least a byte of the file, so that these rooms suffice for files of up to 16 MiB,
    # and one call is enough.
    rooms = min(len(data) // _SHORTEST_PAGE, _MOST_ROOM), min(len(data), _MOST_ROOM), _TEXT_ROOM
    while True:
        pages, rows, text = (
            new_table(PageRow, rooms[0]),
            new_table(MarkRow, rooms[1]),
            new_buffer(rooms[2]),
        )
        status = library().boxglue_marks(
            *words, pages, rooms[0], rows, rooms[1], text, rooms[2], byref(sizes)
        )
        if status != Status.BUFFER_TOO_SMALL:
            break
        rooms = sizes.pages, sizes.marks, sizes.text
    if status > Status.REFUSED:
        fail(status)
    if status == Status.REFUSED:
        raise refusal_of_file(ctypes.string_at(text, sizes.text), words)
    found = Marks(part_of(rows, 0, sizes.marks), data)
    return Document(
        Pages(part_of(pages, 0, sizes.pages), found), found, Units(sizes.num, sizes.den, sizes.mag)
    )
