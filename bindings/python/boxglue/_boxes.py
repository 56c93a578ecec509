"""The box of a register as a tree. The library lists all its items in one call, and an object of an
item is made when it is visited."""
from __future__ import annotations

import ctypes
import enum
from collections.abc import Callable, Iterator, Sequence
from dataclasses import dataclass
from fractions import Fraction
from typing import Any, Literal, TypeAlias, overload

from ._dimensions import POINT, points
from ._library import ItemRow
from ._public import public
from ._tables import part_of

Order: TypeAlias = Literal["normal", "fil", "fill", "filll"]
Size: TypeAlias = Literal["width", "height", "depth"]
_ORDERS: tuple[Order, Order, Order, Order] = "normal", "fil", "fill", "filll"
_SIZES: tuple[Size, Size, Size] = "width", "height", "depth"
# The sign of a setting by its number in a row, and the greatest ratio that TeX shows as it is.
_SIGNS: tuple[Literal[-1, 0, 1], ...] = 0, 1, -1
_MOST_RATIO = 20_000
OVERFULL, WORST = 1_000_000, 10_000


@public
class ItemKind(enum.IntEnum):
    """The kind of an item in a row of `Box.rows`."""

    GLYPH = 1
    FONT_KERN = 2
    KERN = 3
    GLUE = 4
    PENALTY = 5
    RULE = 6
    SPECIAL = 7
    HBOX = 8
    VBOX = 9


@public
@dataclass(frozen=True, slots=True)
class GlyphItem:
    """A character of a font, with its reference point at (x, y). `font` is the number of the font's
    slot."""

    x: int
    y: int
    width: int
    height: int
    depth: int
    font: int
    code: int

    def __str__(self) -> str:
        return f"\\font{self.font} {_shown_byte(self.code)}"


@public
@dataclass(frozen=True, slots=True)
class KernItem:
    """A kern that starts at (x, y). `width` is its amount, even in a vertical list. The font put it
    between two characters if `is_from_font`; else a command did."""

    x: int
    y: int
    width: int
    is_from_font: bool

    def __str__(self) -> str:
        return f"\\kern{'' if self.is_from_font else ' '}{_shown(self.width)}"


@public
@dataclass(frozen=True, slots=True)
class GlueItem:
    """Glue that starts at (x, y). `width` is its natural width, even in a vertical list, and
    `set_width` the distance to the next item.

    If the order of a stretch or shrink is "normal", its unit is a scaled point; otherwise it is
    1/65536 of a fil, fill or filll.
    """

    x: int
    y: int
    width: int
    stretch: int
    stretch_order: Order
    shrink: int
    shrink_order: Order
    set_width: int

    def __str__(self) -> str:
        plus = f" plus {_shown(self.stretch, self.stretch_order)}" if self.stretch else ""
        minus = f" minus {_shown(self.shrink, self.shrink_order)}" if self.shrink else ""
        return f"\\glue {_shown(self.width)}{plus}{minus}"


@public
@dataclass(frozen=True, slots=True)
class PenaltyItem:
    """A penalty at (x, y)."""

    x: int
    y: int
    penalty: int

    def __str__(self) -> str:
        return f"\\penalty {self.penalty}"


@public
@dataclass(frozen=True, slots=True)
class RuleItem:
    """A rule, with its lower left corner at (x, y). `running` names its running sizes, such as
    ("height", "depth"), which come from its box."""

    x: int
    y: int
    width: int
    height: int
    depth: int
    running: tuple[Size, ...]

    def __str__(self) -> str:
        width, height, depth = (
            "*" if name in self.running else _shown(getattr(self, name)) for name in _SIZES
        )
        return f"\\rule({height}+{depth})x{width}"


@public
@dataclass(frozen=True, slots=True)
class SpecialItem:
    """A special at (x, y), and its text."""

    x: int
    y: int
    text: bytes

    def __str__(self) -> str:
        return f"\\special{{{''.join(map(_shown_byte, self.text))}}}"


@public
@dataclass(frozen=True, slots=True)
class GlueSetting:
    """How the glue of a box is set. `sign` is 1 if glue of this order stretches, -1 if it shrinks,
    by the ratio of its stretch or shrink; 0 if no glue does."""

    sign: Literal[-1, 0, 1]
    order: Order
    ratio: Fraction


@public
class Box:
    """A box, with its reference point at (x, y). `Job.inspect` makes one, which stays as it is when
    the register gets another box.

    Places and sizes are whole numbers of scaled points. x grows to the right and y downward, from
    the reference point of the box that was inspected. `str` shows the box as TeX's \\showbox does.
    """

    __slots__ = "_table", "_at", "_row", "_items"

    def __init__(self, table: ItemTable, at: int) -> None:
        self._table, self._at, self._row = table, at, table.rows[at]
        self._items: Items | None = None

    @property
    def kind(self) -> Literal["hbox", "vbox"]:
        """The kind of the box. A vtop is a vbox."""
        return "hbox" if self._row.kind == ItemKind.HBOX else "vbox"

    @property
    def x(self) -> int:
        """How far the reference point is to the right."""
        return _wide(self._row.right)

    @property
    def y(self) -> int:
        """How far the reference point is down."""
        return _wide(self._row.down)

    @property
    def width(self) -> int:
        """The width of the box."""
        return int(self._row.width)

    @property
    def height(self) -> int:
        """The height of the box."""
        return int(self._row.height)

    @property
    def depth(self) -> int:
        """The depth of the box."""
        return int(self._row.depth)

    @property
    def shift(self) -> int:
        """How far the box is moved: down in a horizontal list, to the right in a vertical one. It
        is part of the place."""
        return int(self._row.shift)

    @property
    def setting(self) -> GlueSetting:
        """How its glue is set."""
        row = self._row
        return GlueSetting(
            _SIGNS[row.setting], _ORDERS[row.setting_order], Fraction(row.ratio_num, row.ratio_den)
        )

    @property
    def items(self) -> Items:
        """The items of its list."""
        if self._items is None:
            self._items = Items(self._table, self._table.places_in(self._at))
        return self._items

    def lines(self) -> list[Box]:
        """Lists the hboxes in the list of a vbox, such as the lines of a paragraph.

        Returns:
            The hboxes in order. An hbox has none.
        """
        table = self._table
        if self.kind == "hbox":
            return []
        return [
            Box(table, at)
            for at in table.places_in(self._at)
            if table.rows[at].kind == ItemKind.HBOX
        ]

    def walk(self) -> Iterator[Item]:
        """Walks over all items in the box, each inner box before the items in it.

        Returns:
            An iterator.
        """
        return map(self._table.item, range(self._at + 1, self._table.ends[self._at]))

    @property
    def rows(self) -> memoryview:
        """The rows of the box and of all that is in it, in the order of `walk`, as `struct
        boxglue_item` of boxglue.h has them. `level` counts from the box that was inspected.
        `numpy.asarray(box.rows)` copies nothing.
        """
        return memoryview(
            part_of(self._table.rows, self._at, self._table.ends[self._at] - self._at)
        ).toreadonly()

    @property
    def natural_size(self) -> int:
        """The width that an hbox has if no glue stretches or shrinks; of a vbox, height and depth
        together."""
        return self._totals().advance

    @property
    def badness(self) -> int:
        """The badness of its glue: 0 to 10,000, or 1,000,000 if the box is overfull
        (docs/COMMANDS.md, section 4)."""
        totals = self._totals()
        excess = self._excess(totals)
        total, *infinite = totals.stretch if excess >= 0 else totals.shrink
        if not self.items or any(infinite):
            return 0
        return OVERFULL if excess < 0 and total < -excess else badness(abs(excess), total)

    @property
    def overhang(self) -> int:
        """By how much the box is overfull, after its glue has shrunk as far as it can; 0 if it is
        not overfull."""
        totals = self._totals()
        excess = self._excess(totals)
        total, *infinite = totals.shrink
        return 0 if excess >= 0 or any(infinite) else max(0, -excess - total)

    def _excess(self, totals: _Totals) -> int:
        """How much larger the box is than its items."""
        return (self.width if self.kind == "hbox" else self.height + self.depth) - totals.advance

    def _totals(self) -> _Totals:
        """The totals of its items."""
        rows, is_horizontal, found = (
            self._table.rows,
            self.kind == "hbox",
            _Totals(0, [0] * 4, [0] * 4),
        )
        for at in self._table.places_in(self._at):
            found.add(rows[at], is_horizontal)
        return found

    def show(self, *, depth: int | None = None, breadth: int | None = None) -> str:
        """Shows the box as TeX's \\showbox does.

        Fonts are shown by their slots, as \\font0. Glue is shown without the name of a parameter,
        and specials whole.

        Args:
            depth: How many boxes deep, as \\showboxdepth; None is all.
            breadth: How many items of a list, as \\showboxbreadth; None is all.

        Returns:
            The lines, the last one without a line feed.
        """
        lines: list[str] = []
        _show(self, "", depth, breadth, lines)
        return "\n".join(lines)

    def __str__(self) -> str:
        return self.show()

    def __repr__(self) -> str:
        return f"<boxglue.Box {_box_line(self)[1:]}>"

    def __eq__(self, other: object) -> bool:
        return isinstance(other, Box) and self._table == other._table and self._at == other._at

    def __hash__(self) -> int:
        return hash((self._table, self._at))

    def __reduce__(self) -> tuple[type[Box], tuple[ItemTable, int]]:
        return Box, (self._table, self._at)


Item = Box | GlyphItem | KernItem | GlueItem | PenaltyItem | RuleItem | SpecialItem


@public
class Items(Sequence[Item]):
    """The items of a list, in order. Each is made when you ask for it."""

    def __init__(self, table: ItemTable, places: Sequence[int]) -> None:
        self._table, self._places = table, places

    def __len__(self) -> int:
        return len(self._places)

    @overload
    def __getitem__(self, index: int) -> Item:
        ...

    @overload
    def __getitem__(self, index: slice) -> Items:
        ...

    def __getitem__(self, index: int | slice) -> Item | Items:
        if isinstance(index, slice):
            return Items(self._table, self._places[index])
        return self._table.item(self._places[index])

    def __iter__(self) -> Iterator[Item]:
        return map(self._table.item, self._places)

    def __eq__(self, other: object) -> bool:
        return isinstance(other, Items) and [*self] == [*other]

    def __hash__(self) -> int:
        return hash(tuple(self))

    def __repr__(self) -> str:
        return f"<Items: {len(self)}>"


class ItemTable:
    """The rows of a box and of all that is in it, and the texts of its specials."""

    def __init__(self, rows: Any, texts: bytes) -> None:
        self.rows, self.texts = rows, texts
        self._ends: list[int] | None = None

    @property
    def ends(self) -> list[int]:
        """For each row the number of the first one after it that is not in its box."""
        if self._ends is None:
            self._ends = _ends_of(self.rows)
        return self._ends

    def places_in(self, at: int) -> list[int]:
        """The numbers of the rows of a box's own items."""
        ends = self.ends
        found, place, end = [], at + 1, ends[at]
        while place < end:
            found.append(place)
            place = ends[place]
        return found

    def item(self, at: int) -> Item:
        """The item of a row."""
        return _MAKERS[self.rows[at].kind](self, at)

    def __eq__(self, other: object) -> bool:
        return isinstance(other, ItemTable) and self._parts() == other._parts()

    def __hash__(self) -> int:
        return hash(self._parts())

    def _parts(self) -> tuple[bytes, bytes]:
        return bytes(self.rows), self.texts

    def __reduce__(self) -> tuple[Callable[[bytes, bytes], ItemTable], tuple[bytes, bytes]]:
        return _table_of, self._parts()  # an array cannot be pickled: its type has no name


def _table_of(rows: bytes, texts: bytes) -> ItemTable:
    """The table with the bytes of its rows."""
    return ItemTable(
        (ItemRow * (len(rows) // ctypes.sizeof(ItemRow))).from_buffer_copy(rows), texts
    )


def levels_of(rows: Any) -> list[int]:
    """The level of each row, which is its first word."""
    words = memoryview(rows).cast("B").cast("I")
    return words[:: len(words) // len(rows)].tolist()


def _ends_of(rows: Any) -> list[int]:
    """For each row the number of the first one after it that is not in its box."""
    ends, within = [len(rows)] * len(rows), list[int]()
    for at, level in enumerate(levels_of(rows)):
        while len(within) > level:
            ends[within.pop()] = at
        within.append(at)
    return ends


@dataclass(slots=True)
class _Totals:
    """The totals of a list: of the sizes of its items, and of the stretch and the shrink of each
    order."""

    advance: int
    stretch: list[int]
    shrink: list[int]

    def add(self, row: Any, is_horizontal: bool) -> None:
        """Adds an item. A running size along the list is 0 in its row."""
        kind = row.kind
        if kind == ItemKind.GLUE:
            self.stretch[row.stretch_order] += row.stretch
            self.shrink[row.shrink_order] += row.shrink
        is_amount = kind in (ItemKind.GLUE, ItemKind.KERN)
        self.advance += row.width if is_horizontal or is_amount else row.height + row.depth


def badness(amount: int, total: int) -> int:
    """The badness of an amount of stretching or shrinking to a total that can be (docs/COMMANDS.md,
    section 4; TeX: The Program, section 108)."""
    if amount == 0:
        return 0
    if total <= 0:
        return WORST
    if amount <= 7_230_584:
        ratio = amount * 297 // total
    else:
        ratio = amount // (total // 297) if total >= 1_663_497 else amount
    return WORST if ratio > 1290 else (ratio**3 + (1 << 17)) >> 18


def _wide(words: Any) -> int:
    """A number of two words."""
    return int(words.low + (words.high << 64))


def _place(row: Any) -> tuple[int, int]:
    return _wide(row.right), _wide(row.down)


def _sizes(row: Any) -> tuple[int, int, int]:
    return row.width, row.height, row.depth


def _glyph(table: ItemTable, at: int) -> Item:
    row = table.rows[at]
    return GlyphItem(*_place(row), *_sizes(row), row.slot, row.code)


def _kern(table: ItemTable, at: int) -> Item:
    row = table.rows[at]
    return KernItem(*_place(row), row.width, row.kind == ItemKind.FONT_KERN)


def _glue(table: ItemTable, at: int) -> Item:
    row = table.rows[at]
    return GlueItem(
        *_place(row),
        row.width,
        row.stretch,
        _ORDERS[row.stretch_order],
        row.shrink,
        _ORDERS[row.shrink_order],
        _wide(row.set_width),
    )


def _penalty(table: ItemTable, at: int) -> Item:
    row = table.rows[at]
    return PenaltyItem(*_place(row), row.penalty)


def _rule(table: ItemTable, at: int) -> Item:
    row = table.rows[at]
    return RuleItem(
        *_place(row),
        *_sizes(row),
        tuple(name for bit, name in enumerate(_SIZES) if row.running >> bit & 1),
    )


def _special(table: ItemTable, at: int) -> Item:
    row = table.rows[at]
    return SpecialItem(*_place(row), table.texts[row.text_start : row.text_start + row.text_size])


_MAKERS: dict[int, Callable[[ItemTable, int], Item]] = {
    ItemKind.GLYPH: _glyph,
    ItemKind.FONT_KERN: _kern,
    ItemKind.KERN: _kern,
    ItemKind.GLUE: _glue,
    ItemKind.PENALTY: _penalty,
    ItemKind.RULE: _rule,
    ItemKind.SPECIAL: _special,
    ItemKind.HBOX: Box,
    ItemKind.VBOX: Box,
}


def _shown(amount: int, order: Order = "normal") -> str:
    """An amount as TeX prints it, without a unit (TeX: The Program, sections 103 and 177)."""
    return points(amount)[:-2] + ("" if order == "normal" else order)


def _shown_byte(code: int) -> str:
    """A character as TeX prints it (TeX: The Program, section 48)."""
    if 32 <= code < 127:
        return chr(code)
    if code < 128:
        return f"^^{chr(code ^ 64)}"
    return f"^^{code:02x}"


def _shown_setting(setting: GlueSetting) -> str:
    """How the glue of a box is set, as TeX shows it (TeX: The Program, section 186)."""
    ratio = setting.ratio
    if not setting.sign or not ratio:
        return ""
    sign = "- " if setting.sign < 0 else ""
    if abs(ratio) > _MOST_RATIO:
        return f", glue set {sign}{'>' if ratio > 0 else '< -'}{_shown(_MOST_RATIO * POINT, setting.order)}"
    rounded = (2 * POINT * abs(ratio.numerator) + ratio.denominator) // (2 * ratio.denominator)
    return f", glue set {sign}{_shown(rounded if ratio > 0 else -rounded, setting.order)}"


def _box_line(box: Box) -> str:
    """The line of a box (TeX: The Program, section 184)."""
    shift = f", shifted {_shown(box.shift)}" if box.shift else ""
    return f"\\{box.kind}({_shown(box.height)}+{_shown(box.depth)})x{_shown(box.width)}{_shown_setting(box.setting)}{shift}"


def _show(box: Box, dots: str, depth: int | None, breadth: int | None, lines: list[str]) -> None:
    """Appends the lines of a box and its items (TeX: The Program, section 182)."""
    lines.append(dots + _box_line(box))
    dots += "."
    if depth is not None and len(dots) > depth:
        lines[-1] += " []" if box.items else ""
        return
    for count, item in enumerate(box.items, 1):
        if breadth is not None and count > breadth:
            lines.append(f"{dots}etc.")
            break
        if isinstance(item, Box):
            _show(item, dots, depth, breadth, lines)
        else:
            lines.append(f"{dots}{item}")
