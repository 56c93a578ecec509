"""Replies to commands: what a command did, in numbers, or why it was refused. Dimensions are scaled
points."""
import enum
from collections.abc import Callable
from dataclasses import dataclass
from typing import Any, Literal

from ._dimensions import points
from ._opened import Piece
from ._public import public
from ._status import Refused
from ._tables import Table

_BOX_KINDS: tuple[Literal["hbox"], Literal["vbox"]] = "hbox", "vbox"
# The names of refusals and of their causes by their numbers (docs/REFUSALS.md; docs/FORMATS.md,
# sections 7, 9 and 2).
_REFUSALS = {
    1: "OutOfMemory",
    2: "BadScript",
    3: "DimensionTooLarge",
    4: "NoFont",
    5: "BadTfm",
    6: "SlotTaken",
    7: "NoOpenList",
    8: "WrongMode",
    9: "WrongKind",
    10: "ListTooLong",
    11: "TooDeep",
    12: "InfiniteShrink",
    13: "TooManyBreaks",
    14: "HugePage",
    15: "TooManyPages",
    16: "TooMuchShipped",
    17: "ListsOpen",
    18: "Device",
    19: "JobOver",
    20: "BadDvi",
    21: "VoidBox",
    22: "TooMuchSpecial",
}
_DVI_CAUSES = (
    "",
    "Trailer",
    "Version",
    "Opcode",
    "Pointer",
    "Count",
    "Preamble",
    "Truncated",
    "Stack",
    "Font",
    "Glyph",
    "Range",
)
_METRIC_CAUSES = "", "TooShort", "Counts", "DesignSize", "CharInfo", "FixWord", "LigKern"
_LINE_CAUSES = "", "Byte", "Word", "Missing", "Extra", "Number", "Dimension", "Name"


@public
class ReplyKind(enum.IntEnum):
    """The kind of a reply in a row of `Replies.rows`."""

    OK = 0
    REFUSED = 1
    BAD_LINE = 2
    PACKED = 3
    MEASURED = 4
    MEASURED_VOID = 5
    SHAPED = 6
    ADDED = 7
    PARAGRAPH = 8
    SPLIT = 9
    SPLIT_VOID = 10
    SHIPPED = 11
    END = 12


@public
@dataclass(frozen=True, slots=True)
class Sizes:
    """The sizes of a box."""

    width: int
    height: int
    depth: int

    def __str__(self) -> str:
        return f"{points(self.width)} {points(self.height)} {points(self.depth)}"


@public
@dataclass(frozen=True, slots=True)
class Ok:
    """The command was done, and has nothing to report."""

    line: int

    def __str__(self) -> str:
        return f"{self.line}: ok"


@public
@dataclass(frozen=True, slots=True)
class Packed:
    """A list was packed into a box. Its badness is 0 to 10,000, or 1,000,000 if it is overfull."""

    line: int
    width: int
    height: int
    depth: int
    badness: int

    def __str__(self) -> str:
        return f"{self.line}: packed {Sizes(self.width, self.height, self.depth)} badness {self.badness}"


@public
@dataclass(frozen=True, slots=True)
class Measured:
    """A box was measured: an "hbox", or a "vbox", which may be a vtop. If the register is "void",
    all sizes are 0."""

    line: int
    kind: Literal["hbox", "vbox", "void"]
    width: int
    height: int
    depth: int

    def __str__(self) -> str:
        sizes = "" if self.kind == "void" else f" {Sizes(self.width, self.height, self.depth)}"
        return f"{self.line}: measured {self.kind}{sizes}"


@public
@dataclass(frozen=True, slots=True)
class Added:
    """Items were added to the list. `missing` counts the characters of a text that the font lacks,
    up to 2^32 - 1; it is None for other items."""

    line: int
    items: int
    missing: int | None = None

    def __str__(self) -> str:
        return f"{self.line}: added {self.items}" + (
            "" if self.missing is None else f" missing {self.missing}"
        )


@public
@dataclass(frozen=True, slots=True)
class Paragraph:
    """A paragraph was broken into lines, by one of the passes 1 to 3. `overhang` is by how much
    they are overfull. An empty paragraph has 0 four times."""

    line: int
    lines: int
    deciding_pass: int
    overhang: int
    demerits: int

    def __str__(self) -> str:
        return f"{self.line}: paragraph lines {self.lines} pass {self.deciding_pass} overhang {self.overhang} demerits {self.demerits}"


@public
@dataclass(frozen=True, slots=True)
class Split:
    """A vertical box was split. `badness` is the front's. `rest` is None if nothing is left, and
    `front` is None if the register was void."""

    line: int
    front: Sizes | None
    badness: int
    rest: Sizes | None

    def __str__(self) -> str:
        if self.front is None:
            return f"{self.line}: split void"
        return f"{self.line}: split {self.front} badness {self.badness} rest {'void' if self.rest is None else self.rest}"


@public
@dataclass(frozen=True, slots=True)
class Shipped:
    """A page was shipped. `pages` is the number of pages so far."""

    line: int
    pages: int

    def __str__(self) -> str:
        return f"{self.line}: shipped {self.pages}"


@public
@dataclass(frozen=True, slots=True)
class End:
    """The job was ended. Its file has so many pages and bytes."""

    pages: int
    bytes: int

    def __str__(self) -> str:
        return f"end: pages {self.pages} bytes {self.bytes}"


Reply = Ok | Packed | Measured | Added | Paragraph | Split | Shipped | End | Refused


def _sizes(row: Any) -> tuple[int, int, int]:
    return row.width, row.height, row.depth


def _refused(row: Any) -> Refused:
    return Refused(_REFUSALS[row.refusal], row.refusal, row.line or None, _METRIC_CAUSES[row.cause])


def _bad_line(row: Any) -> Refused:
    return Refused(
        _REFUSALS[row.refusal], row.refusal, None, f"{row.line} {_LINE_CAUSES[row.cause]}"
    )


def _split(row: Any) -> Split:
    return Split(
        row.line,
        Sizes(*_sizes(row.box)),
        row.badness,
        Sizes(*_sizes(row.rest)) if row.has_rest else None,
    )


def reply_of(row: Any) -> Reply:
    """The reply that a row has."""
    return _REPLIES[row.kind](row)


_REFUSED: dict[int, Callable[[Any], Refused]] = {
    ReplyKind.REFUSED: _refused,
    ReplyKind.BAD_LINE: _bad_line,
}
_REPLIES: dict[int, Callable[[Any], Reply]] = {
    **_REFUSED,
    ReplyKind.OK: lambda row: Ok(row.line),
    ReplyKind.PACKED: lambda row: Packed(row.line, *_sizes(row.box), row.badness),
    ReplyKind.MEASURED: lambda row: Measured(row.line, _BOX_KINDS[row.box_kind], *_sizes(row.box)),
    ReplyKind.MEASURED_VOID: lambda row: Measured(row.line, "void", 0, 0, 0),
    ReplyKind.SHAPED: lambda row: Added(row.line, row.count, row.missing),
    ReplyKind.ADDED: lambda row: Added(row.line, row.count),
    ReplyKind.PARAGRAPH: lambda row: Paragraph(
        row.line, row.count, row.pass_, row.overhang, row.demerits
    ),
    ReplyKind.SPLIT: _split,
    ReplyKind.SPLIT_VOID: lambda row: Split(row.line, None, 0, None),
    ReplyKind.SHIPPED: lambda row: Shipped(row.line, row.count),
    ReplyKind.END: lambda row: End(row.count, row.bytes),
}


def _answer(reply: Reply) -> str:
    """The line of a reply as an answer (docs/FORMATS.md, section 3)."""
    if not isinstance(reply, Refused):
        return str(reply)
    said = f"refused {reply.number} {reply.name} {reply.detail}".rstrip()
    return (
        said
        if reply.name == "BadScript"
        else f"{'end' if reply.line is None else reply.line}: {said}"
    )


@public
class Replies(Table[Reply]):
    """The replies to commands, in order. Each is made when you ask for it, as an Ok, Packed,
    Measured, Added, Paragraph, Split, Shipped or End, or as the exception Refused, which is not
    raised here.

    `rows` is the table itself as a memoryview, a struct boxglue_reply for each reply, whose kinds
    are numbers of ReplyKind.
    """

    def __init__(self, rows: Any, piece: Piece) -> None:
        super().__init__(rows, piece)
        self._piece = piece

    def _item(self, row: Any) -> Reply:
        reply = reply_of(row)
        return self._piece.explain(reply) if isinstance(reply, Refused) else reply

    @property
    def refusals(self) -> list[Refused]:
        """The refusals among them, in order, each with its command."""
        return [
            self._piece.explain(_REFUSED[row.kind](row))
            for row in self._rows
            if row.kind in _REFUSED
        ]

    @property
    def answers_text(self) -> str:
        """The replies as texts, a line each (docs/FORMATS.md, section 3)."""
        return "".join(f"{_answer(it)}\n" for it in self)
