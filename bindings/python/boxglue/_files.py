"""DVI files: their fonts, the listing of their marks, and bitmaps of their rules."""
from __future__ import annotations

import ctypes
import operator
import re
from collections.abc import Callable
from ctypes import byref
from dataclasses import dataclass
from typing import Any

from ._fonts import FontFolder
from ._library import (
    DVI_ROOM,
    FONT_ROOM,
    TEXT_ROOM,
    Data,
    DviFontRow,
    FaultRow,
    Fonts,
    FontSizes,
    data_of,
    given_fonts,
    library,
    new_buffer,
    one_output,
    sized,
)
from ._public import public
from ._replies import _DVI_CAUSES, _METRIC_CAUSES, _REFUSALS
from ._status import BoxglueError, Refused, Status, fail

# The most bytes that the name of a font in a DVI file has.
NAME_ROOM = 255
_REFUSAL = re.compile(r"refused (\d+) (\w+)(?: (.*))?\n")


@public
@dataclass(frozen=True, slots=True)
class DviFont:
    """A font that a DVI file defines: its number, its name, its size and design size in DVI units
    (scaled points in boxglue's own files), and its check sum."""

    number: int
    name: str
    size: int
    design_size: int
    check_sum: int


@public
@dataclass(frozen=True, slots=True)
class Bitmap:
    """A bitmap as plain PBM."""

    pbm: str

    def __repr__(self) -> str:
        return f"<a bitmap of {' by '.join(map(str, self.size))} pixels>"

    @property
    def size(self) -> tuple[int, int]:
        """Its width and its height in pixels."""
        width, height = map(int, self.pbm.split(maxsplit=3)[1:3])
        return width, height

    @property
    def rows(self) -> list[str]:
        """The rows from the top, each with a "1" for a black pixel and a "0" for a white one."""
        (width, _), pixels = self.size, "".join(
            self.pbm.split()[3:]
        )  # a wide row has several lines
        return [pixels[at : at + width] for at in range(0, len(pixels), width)]


@public
@dataclass(frozen=True, slots=True)
class Fault:
    """Why a DVI file is refused, in numbers and names (docs/REFUSALS.md).

    `name` and `number` name the refusal, such as "BadDvi" and 20. `cause` is the name of the broken
    rule, such as "Trailer", and `place` the number of bytes before it in the file. `missing` is the
    name of the font that is missing. `font` is the number by which the file selects the font whose
    metric file is refused. Each is None if the refusal does not have it.
    """

    name: str
    number: int
    cause: str | None = None
    place: int | None = None
    missing: str | None = None
    font: int | None = None


def refusal_in(line: bytes) -> Refused:
    """The refusal of a file, in the line that a call writes for it."""
    found = _REFUSAL.fullmatch(line.decode("ascii"))
    if not found:
        raise BoxglueError(f"no refusal: {line!r}")
    return Refused(found[2], int(found[1]), None, found[3] or "")


def refusal_of_file(line: bytes, words: tuple[Any, ...]) -> Refused:
    """The refusal of a file in the line that a call with these words writes for it, with the name
    of a font that is missing."""
    refused = refusal_in(line)
    fault = _fault_of(words)[1] if refused.name == "NoFont" else None
    return (
        refused.of_command(None, None, (), f"no metric file for {fault.missing!r}")
        if fault
        else refused
    )


def _text(
    call: Callable[..., int], words: tuple[Any, ...], more: tuple[int, ...], room: int
) -> str:
    """The text of a call with these words, and one buffer. A refusal is raised."""
    status, output = one_output(lambda *buffer: call(*words, *more, *buffer), room)
    if status == Status.REFUSED:
        raise refusal_of_file(output, words)
    return output.decode("ascii")


def file_words(dvi: bytes, given: Fonts) -> tuple[Any, ...]:
    """A DVI file and fonts as a call takes them. Of a folder those are given that the file names;
    where it is refused, none, as the call refuses it too."""
    if isinstance(given, FontFolder):
        try:
            given = given.choose(dict.fromkeys(it.name for it in fonts(dvi)))
        except Refused:
            given = {}
    return (*sized(dvi), *given_fonts(given))


@public
def listing(dvi: Data, fonts: Fonts = ()) -> str:
    """Lists the marks of all pages of a DVI file.

    Args:
        dvi: The bytes of the file.
        fonts: The fonts that its pages may select: a mapping from names to the bytes of metric
            files, a `FontFolder`, or pairs of both.

    Returns:
        The text of `boxglue list` (docs/FORMATS.md, section 4).

    Raises:
        Refused: The file is bad (BadDvi), a font is missing (NoFont), or its metric file is bad
            (BadTfm) or too large (DimensionTooLarge).
        OutOfMemory: The system refused memory.
        BadFontName: The name of a font does not have 1 to 255 bytes.
    """
    words = file_words(data_of(dvi, "a DVI file"), fonts)
    return _text(library().boxglue_list, words, (), DVI_ROOM)


@public
def check(dvi: Data, fonts: Fonts = ()) -> Fault | None:
    """Checks a DVI file as `listing` does.

    Args:
        dvi: The bytes of the file.
        fonts: The fonts that its pages may select: a mapping from names to the bytes of metric
            files, a `FontFolder`, or pairs of both.

    Returns:
        Why the file is refused; None if it is accepted.

    Raises:
        OutOfMemory: The system refused memory.
        BadFontName: The name of a font does not have 1 to 255 bytes.
    """
    status, fault = _fault_of(file_words(data_of(dvi, "a DVI file"), fonts))
    if status > Status.REFUSED:
        fail(status)
    return fault


def _fault_of(words: tuple[Any, ...]) -> tuple[int, Fault | None]:
    """The status of the check of a file, and the fault if it is refused."""
    fault, name = FaultRow(), new_buffer(NAME_ROOM)
    status: int = library().boxglue_check(*words, byref(fault), name, NAME_ROOM)
    return (
        status,
        _fault(fault, ctypes.string_at(name, fault.name_size))
        if status == Status.REFUSED
        else None,
    )


def _fault(row: FaultRow, name: bytes) -> Fault:
    """A fault of its row, with the name of a missing font."""
    named = _REFUSALS[row.number]
    causes = {"BadDvi": _DVI_CAUSES, "BadTfm": _METRIC_CAUSES}.get(named)
    return Fault(
        named,
        row.number,
        causes[row.cause] if causes else None,
        row.place if named == "BadDvi" else None,
        name.decode("utf-8", "surrogateescape") if named == "NoFont" else None,
        row.font if named in ("BadTfm", "DimensionTooLarge") else None,
    )


@public
def paint(
    dvi: Data,
    fonts: Fonts = (),
    *,
    page: int = 1,
    dpi: int = 100,
    width: int = 850,
    height: int = 1100,
) -> Bitmap:
    """Paints the rules of a page of a DVI file.

    Args:
        dvi: The bytes of the file.
        fonts: The fonts that its pages may select: a mapping from names to the bytes of metric
            files, a `FontFolder`, or pairs of both.
        page: The page, counted from 1.
        dpi: Pixels an inch, 1 to 10,000.
        width: The width of the bitmap in pixels, 1 to 10,000.
        height: The height of the bitmap in pixels, 1 to 10,000.

    Returns:
        The bitmap. It shows no glyphs.

    Raises:
        Refused: The file is bad (BadDvi), a font is missing (NoFont), or its metric file is bad
            (BadTfm) or too large (DimensionTooLarge).
        NoSuchPage: The file is good, and does not have this page.
        OutOfRange: A number is out of its range.
        OutOfMemory: The system refused memory.
        BadFontName: The name of a font does not have 1 to 255 bytes.
    """
    numbers = [operator.index(it) for it in (page, dpi, width, height)]
    if not all(0 <= it < 1 << 32 for it in numbers):
        fail(Status.OUT_OF_RANGE)  # ctypes would cut it to 32 bits
    words = file_words(data_of(dvi, "a DVI file"), fonts)
    room = (
        len(f"P1\n{width} {height}\n") + (width + -(-width // 70)) * height
        if max(width, height) <= 10_000
        else 0
    )
    return Bitmap(_text(library().boxglue_paint, words, (*numbers,), max(room, TEXT_ROOM)))


@public
def fonts(dvi: Data) -> list[DviFont]:
    """Reads the fonts that a DVI file defines after its pages. Their names are those that the other
    calls need.

    Args:
        dvi: The bytes of the file.

    Returns:
        The fonts in the order of the file.

    Raises:
        Refused: The file is bad (BadDvi). The call reads no page.
        OutOfMemory: The system refused memory.
    """
    given, sizes, rooms = sized(data_of(dvi, "a DVI file")), FontSizes(), (FONT_ROOM, TEXT_ROOM)
    while True:
        rows, text = (DviFontRow * max(rooms[0], 1))(), new_buffer(rooms[1])
        status = library().boxglue_fonts(*given, rows, rooms[0], text, rooms[1], byref(sizes))
        if status != Status.BUFFER_TOO_SMALL:
            break
        rooms = sizes.fonts, sizes.text
    if status > Status.REFUSED:
        fail(status)
    names = ctypes.string_at(text, sizes.text)
    if status == Status.REFUSED:
        raise refusal_in(names)
    return [
        DviFont(it.number, _name(names, it), it.size, it.design_size, it.check_sum)
        for it in rows[: sizes.fonts]
    ]


def _name(names: bytes, row: DviFontRow) -> str:
    """The name of a font."""
    return names[row.name_start : row.name_start + row.name_size].decode("utf-8", "surrogateescape")
