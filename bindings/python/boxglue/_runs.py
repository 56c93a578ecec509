"""Runs of scripts."""
from __future__ import annotations

import ctypes
import functools
from ctypes import byref
from dataclasses import dataclass, field
from typing import TypeVar

from ._fonts import FontFolder, names_in_script
from ._library import (
    DVI_ROOM,
    Fonts,
    ReplyRow,
    ReplySizes,
    Text,
    given_fonts,
    library,
    new_buffer,
    sized,
    text_of,
)
from ._opened import Piece
from ._public import public
from ._replies import Replies
from ._status import Refused, Status, fail
from ._tables import new_table, part_of

HAS_RUN = Status.ACCEPTED, Status.REFUSED, Status.REFUSED_MEMORY


class _Answered:
    """What has replies."""

    replies: Replies
    accepted: bool

    @functools.cached_property
    def answers_text(self) -> str:
        """The replies as texts, a line each (docs/FORMATS.md, section 3). They are made when they
        are asked for."""
        return self.replies.answers_text

    @property
    def answers(self) -> str:
        """The same as `answers_text`: its name in version 1.1."""
        return self.answers_text

    @property
    def refusals(self) -> list[Refused]:
        """The refusals among the replies, in order."""
        return self.replies.refusals

    def check(self: _Given) -> _Given:
        """Returns this, or raises the first refusal.

        Returns:
            This.

        Raises:
            Refused: A command, the script or the end was refused.
        """
        if not self.accepted:
            raise self.refusals[0]
        return self


_Given = TypeVar("_Given", bound=_Answered)


@public
@dataclass(frozen=True)
class Run(_Answered):
    """A run of a script: the replies to its commands and to its end, the bytes of the DVI file, and
    whether everything was accepted.

    If no page was shipped, `dvi` is empty. If the end was refused, `dvi` is not a whole file. A
    script with a bad line has one reply, and its `dvi` is empty.
    """

    replies: Replies
    dvi: bytes = field(repr=False)
    accepted: bool


@public
@dataclass(frozen=True)
class Answers(_Answered):
    """The replies to the commands of a piece, or to the end of a job, and whether everything was
    accepted."""

    replies: Replies
    accepted: bool


@public
def run(script: Text, fonts: Fonts = ()) -> Run:
    """Runs a script with these fonts.

    Args:
        script: The script. A `str` is handed over as UTF-8.
        fonts: The fonts that it may load: a mapping from names to the bytes of metric files, a
            `FontFolder`, or pairs of both.

    Returns:
        The replies and the DVI file. A refusal is a reply, and `run(..).check()` raises it.

    Raises:
        OutOfMemory: The system refused memory.
        BadFontName: The name of a font does not have 1 to 255 bytes.
    """
    text, sizes = text_of(script, "a script"), ReplySizes()
    given = given_fonts(
        fonts.choose(names_in_script(text)) if isinstance(fonts, FontFolder) else fonts
    )
    # A reply to each line and one to the end. The file is rarely longer than two times the script;
    # where it is, the script is run again.
    rooms = text.count(b"\n") + 2, max(DVI_ROOM, 2 * len(text))
    while True:
        rows, dvi = new_table(ReplyRow, rooms[0]), new_buffer(rooms[1])
        status = library().boxglue_run_replies(
            *sized(text), *given, rows, rooms[0], dvi, rooms[1], byref(sizes)
        )
        if status != Status.BUFFER_TOO_SMALL:
            break
        rooms = sizes.replies, sizes.dvi
    if status not in HAS_RUN:
        fail(status)
    piece = Piece(text)
    piece.follow(part_of(rows, 0, sizes.replies))
    return Run(
        replies_of(rows, sizes.replies, piece),
        ctypes.string_at(dvi, sizes.dvi),
        status == Status.ACCEPTED,
    )


def replies_of(table: ctypes.Array[ReplyRow], count: int, piece: Piece) -> Replies:
    """The first rows of a table, which are the replies to this piece."""
    return Replies(part_of(table, 0, count), piece)
