"""Specials that dvipdfmx understands: links, their places, bookmarks, pictures, and what a PDF file
says of itself.

    from boxglue import pdf

    job.special(pdf.link("https://ctan.org"))
    job.text("CTAN")
    job.special(pdf.LINK_END)

Names of places, addresses and titles may have any characters. A picture is a special in a box of
its size:

    picture = pdf.picture("figure.png", pt(345), pt(400))
    with job.hbox(to=picture.width):
        job.special(picture.special)
        job.rule(0, picture.height, 0)

A link or a colour ends with its line and its page. `left_open` says which specials have to be sent
again.
"""

from __future__ import annotations

import os
import struct
from collections.abc import Iterable
from typing import NamedTuple
from urllib.parse import quote

from ._dimensions import bp, points

__all__ = [
    "LINK_END",
    "Picture",
    "bookmark",
    "end_of",
    "information",
    "left_open",
    "link",
    "link_to",
    "paper",
    "picture",
    "place",
]

LINK_END = "pdf:eann"
# The characters that a text of PDF in parentheses, and a script, can have as they are.
_SAFE = "!\"#$%&'*+,/:;<=>?@[]^`{|}~"
# What begins with the first is ended by the second.
_ENDS = {b"pdf:bann": LINK_END, b"color push": "color pop", b"html:<a ": "html:</a>"}
# Pictures have so many pixels to a big point: 96 to an inch.
_PIXELS, _POINTS = 4, 3
# The first bytes of a PNG file and of a JPEG file, and which of its segments have no size.
_PNG, _JPEG, _SIZELESS = b"\x89PNG\r\n\x1a\n", b"\xff\xd8", (0xC4, 0xC8, 0xCC)


def paper(width: int, height: int) -> str:
    """Returns the special that gives the size of the paper, on the first page.

    Args:
        width: The width in scaled points.
        height: The height.

    Returns:
        The special.
    """
    return f"papersize={points(width)},{points(height)}"


def link(address: str) -> str:
    """Returns the special that begins a link to an address. LINK_END ends it.

    Args:
        address: The address.

    Returns:
        The special.
    """
    return _link(f"<</S/URI/URI({_quoted(address)})>>")


def link_to(name: str) -> str:
    """Returns the special that begins a link to a place. LINK_END ends it.

    Args:
        name: The name of the place.

    Returns:
        The special.
    """
    return _link(_go_to(name))


def place(name: str) -> str:
    """Returns the special that makes a place for links.

    Args:
        name: The name of the place.

    Returns:
        The special.
    """
    return f"pdf:dest ({_quoted(name)}) [@thispage /XYZ @xpos @ypos null]"


def bookmark(level: int, title: str, name: str | None = None) -> str:
    """Returns the special of a bookmark, which shows the deeper bookmarks after it.

    Args:
        level: Its level, from 1, at most one more than the previous bookmark's level.
        title: Its title.
        name: The name of the place to which it leads; None leads nowhere.

    Returns:
        The special.
    """
    action = f"/A{_go_to(name)}" if name is not None else ""
    return f"pdf:outline {level} <</Title{_text(title)}{action}>>"


def information(**fields: str) -> str:
    """Returns the special that says what a PDF file is.

    Args:
        fields: The fields by their names in PDF, such as Title and Author.

    Returns:
        The special.
    """
    return f"pdf:docinfo <<{''.join(f'/{name}{_text(it)}' for name, it in fields.items())}>>"


class Picture(NamedTuple):
    """A picture, and the special that shows it.

    Attributes:
        width: Its width in scaled points.
        height: Its height.
        special: The special, in whose place the lower left corner is.
    """

    width: int
    height: int
    special: str


def picture(path: str | os.PathLike[str], width: int, height: int) -> Picture | None:
    """Reads the size of a PNG or JPEG file. Its picture has 96 pixels to an inch, or is smaller if
    it would be larger than there is space.

    Args:
        path: The file.
        width: The most width in scaled points.
        height: The most height.

    Returns:
        The picture. None if the file does not exist, or a special cannot have its name.

    Raises:
        OSError: The file cannot be read.
    """
    name = os.fspath(path)
    is_plain = name.isascii() and name.isprintable() and not {*"()\\"} & {*name}
    pixels = _pixels(name) if is_plain else None
    if pixels is None or 0 in pixels:
        return None
    sizes = [it * bp(1) * _POINTS // _PIXELS for it in pixels]
    least = min(1, *(most / it for most, it in zip((width, height), sizes)))
    wide, high = (int(it * least) for it in sizes)
    special = f"pdf:image width {points(wide)} height {points(high)} ({name})"
    return Picture(wide, high, special)


def left_open(specials: Iterable[bytes], before: Iterable[bytes] = ()) -> list[bytes]:
    """Returns the links and colours that are still open after the specials of a line or a page.
    End each by `end_of`, the last one first, and send them again after the end of the line.

    Args:
        specials: The specials, in order.
        before: Those that were open before them.

    Returns:
        The specials that began them, the outer ones first.
    """
    found = [*before]
    for it in specials:
        if end_of(it) is not None:
            found.append(it)
        elif found and it == (end_of(found[-1]) or "").encode():
            found.pop()
    return found


def end_of(special: bytes) -> str | None:
    """Returns the special that ends a link or a colour.

    Args:
        special: The special that begins it.

    Returns:
        The special; None if it begins nothing.
    """
    return next((end for begin, end in _ENDS.items() if special.startswith(begin)), None)


def _link(action: str) -> str:
    return f"pdf:bann <</Type/Annot/Subtype/Link/Border[0 0 0]/A{action}>>"


def _go_to(name: str) -> str:
    return f"<</S/GoTo/D({_quoted(name)})>>"


def _quoted(text: str) -> str:
    """A text in parentheses, in which other characters are as in addresses."""
    return quote(text, _SAFE)


def _text(text: str) -> str:
    """A text of PDF in hexadecimal digits."""
    marked = "\ufeff" + text
    return f"<{marked.encode('utf-16-be', 'replace').hex()}>"


def _pixels(name: str) -> tuple[int, int] | None:
    """The width and the height of a picture in pixels; None if it is another file, or none."""
    if not os.path.isfile(name):
        return None
    with open(name, "rb") as it:
        data = it.read()
    if data.startswith(_PNG) and len(data) >= 24:
        width, height = struct.unpack(">II", data[16:24])
        return width, height
    at = len(_JPEG)
    while data.startswith(_JPEG) and at + 9 < len(data):
        kind, size, height, width = struct.unpack(">xBHxHH", data[at : at + 9])
        if kind in range(0xC0, 0xCF) and kind not in _SIZELESS:
            return width, height
        at += 2 + size
    return None
