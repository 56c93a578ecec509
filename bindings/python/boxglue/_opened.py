"""Which lists are open, as the replies to the commands of a script say, and the commands that were
refused."""
from __future__ import annotations

import ctypes
import functools
import re
from bisect import bisect_left
from collections.abc import Sequence
from ctypes import c_uint64
from typing import TYPE_CHECKING, Any, NamedTuple, TypeAlias

from ._library import ReplyRow
from ._status import Form, ListOpening, Refused

if TYPE_CHECKING:
    from types import CodeType

    Caller: TypeAlias = tuple[CodeType, int]

# The numbers in boxglue.h of the replies that open or end a list, and of a refused command.
_OK, _REFUSED, _PACKED, _PARAGRAPH = 0, 1, 3, 8
# Open lists explain these refusals: WrongMode, and VoidBox, because a box without its `end` is not
# in its register yet.
BY_OPEN_LISTS = 8, 21
# How many names of fonts a message shows.
_SHOWN_FONTS = 8
# A line that opens or ends a list, and the commands that open one.
_LIST_LINE = re.compile(rb"\n *(hbox|vbox|vtop|par|end)\b")
_FORMS: dict[bytes, Form] = {b"hbox": "hbox", b"vbox": "vbox", b"vtop": "vtop", b"par": "par"}
_ROW = ctypes.sizeof(ReplyRow)


def line_of(code: CodeType, place: int) -> tuple[str, int]:
    """The file and the line of an instruction."""
    lines = (
        line for first, end, line in code.co_lines() if first <= place < end and line is not None
    )
    return code.co_filename, next(lines, code.co_firstlineno)


class Opened(NamedTuple):
    """An open list: its form, the number of its line, and the instruction of the typed call that
    opened it."""

    form: Form
    line: int
    caller: Caller | None

    def shown(self) -> ListOpening:
        """The same as users see it."""
        return ListOpening(self.form, self.line, line_of(*self.caller) if self.caller else None)


class Calls:
    """What a batch knows of its commands: the instruction of each one's call, as the code and the
    place in it; and the lines that open a list, with its form, or end one, with None."""

    __slots__ = "codes", "places", "lists"

    def __init__(self) -> None:
        # No list of pairs, each of which would have to be made and freed.
        self.codes: list[CodeType] = []
        self.places: list[int] = []
        self.lists: dict[int, Form | None] = {}

    def caller(self, at: int) -> Caller:
        """The instruction of a command's call."""
        return self.codes[at], self.places[at]


class Piece:
    """A piece of a script that was run: whole lines, of which the first has a number, the lists
    that were open before, and the typed calls that it came from."""

    def __init__(
        self,
        text: bytes,
        first: int = 1,
        before: Sequence[Opened] = (),
        calls: Calls | None = None,
        fonts: tuple[str, ...] | None = None,
    ) -> None:
        self._text, self._first, self._before, self._calls, self._fonts = (
            text,
            first,
            before,
            calls,
            fonts,
        )
        self._rows: Any = (ReplyRow * 0)()

    @functools.cached_property
    def _lines(self) -> list[bytes]:
        """Its lines."""
        return self._text.split(b"\n")

    @functools.cached_property
    def _lists(self) -> dict[int, Form | None]:
        """The lines that open a list, with its form, or end one, with None."""
        if self._calls:
            return self._calls.lists
        text, at, end, lists = b"\n" + self._text, 0, 0, dict[int, Form | None]()
        for found in _LIST_LINE.finditer(text):
            at, end = at + text.count(b"\n", end, found.start()), found.start()
            lists[at] = _FORMS.get(found[1])
        return lists

    def _caller(self, at: int) -> Caller | None:
        """The instruction of the typed call of a line."""
        return self._calls.caller(at) if self._calls else None

    def follow(self, rows: Any) -> list[Opened]:
        """Takes the replies to its commands. Returns the lists that are open after it."""
        self._rows = rows
        return self._walk([])[1]

    def _walk(self, asked: list[int]) -> tuple[dict[int, list[Opened]], list[Opened]]:
        """The lists that are open before each of these lines, in rising order, and those that are
        open at the end."""
        first, opened = self._first, [*self._before]
        found, waiting = dict[int, list[Opened]](), asked[::-1]
        for index, form in self._lists.items():
            while waiting and waiting[-1] <= first + index:
                found[waiting.pop()] = [*opened]
            kind = self._kind(index)
            if kind == _OK and form:
                opened.append(Opened(form, first + index, self._caller(index)))
            elif kind in (_PACKED, _PARAGRAPH) and opened:
                opened.pop()
        return {**found, **dict.fromkeys(waiting, opened)}, opened

    def _kind(self, at: int) -> int:
        """The kind of the reply to a line. Replies are looked for if lines before this one have
        none."""
        rows, line = self._rows, self._first + at
        if at >= len(rows) or rows[at].line != line:
            at = bisect_left(self._numbers, line)
        kind: int = rows[at].kind if at < len(rows) else _REFUSED
        return kind

    @functools.cached_property
    def _numbers(self) -> list[int]:
        """The lines of the replies."""
        words = _ROW // 8
        numbers: list[int] = (
            (c_uint64 * (len(self._rows) * words)).from_buffer(self._rows)[::words]
            if self._rows
            else []
        )
        return numbers

    @functools.cached_property
    def _at_refusals(self) -> dict[int, list[Opened]]:
        """The lists that were open when a command was refused because of them, by the line of that
        command."""
        return self._walk(
            [
                row.line
                for row in self._rows
                if row.kind == _REFUSED and row.refusal in BY_OPEN_LISTS
            ]
        )[0]

    def explain(self, refused: Refused) -> Refused:
        """The refusal with its command, and with the open lists where they are the reason."""
        if refused.name == "ListsOpen":
            return refused.of_command(None, None, tuple(it.shown() for it in self._walk([])[1]))
        line = refused.line
        if line is None or not 0 <= line - self._first < len(self._lines):
            return refused
        lists = self._at_refusals.get(line, []) if refused.number in BY_OPEN_LISTS else []
        command = self._lines[line - self._first].strip(b" \r").decode("latin-1")
        caller = self._caller(line - self._first)
        where = line_of(*caller) if caller else None
        return refused.of_command(
            command,
            where,
            tuple(it.shown() for it in lists),
            hint_of(refused, command, self._fonts),
        )

    def __reduce__(self) -> tuple[Any, ...]:
        return _piece_of, (
            self._text,
            self._first,
            [it.shown() for it in self._before],
            bytes(self._rows),
            self._fonts,
        )


def hint_of(refused: Refused, command: str, fonts: tuple[str, ...] | None) -> str:
    """Which font is missing: the current one, or else the names of the job's fonts, if they are
    known and a command names a font that the job does not have."""
    if refused.name == "NoFont" and command.startswith(("text ", "char ")):
        return "no font is current: `use` chooses one"
    if fonts is None or refused.name != "NoFont" or not command.startswith("font "):
        return ""
    if not fonts:
        return "the job has no fonts"
    more = f" and {len(fonts) - _SHOWN_FONTS} more" if len(fonts) > _SHOWN_FONTS else ""
    return f"the job's fonts: {', '.join(fonts[:_SHOWN_FONTS])}{more}"


def _piece_of(
    text: bytes,
    first: int,
    before: Sequence[ListOpening],
    rows: bytes,
    fonts: tuple[str, ...] | None,
) -> Piece:
    """A piece that was copied or pickled, without the instructions of typed calls."""
    piece = Piece(text, first, [Opened(it.form, it.line, None) for it in before], None, fonts)
    piece.follow((ReplyRow * (len(rows) // _ROW)).from_buffer_copy(rows))
    return piece
