"""A small writer of DVI files, independent of the product: from docs/FORMATS.md, sections 5 and 8,
alone.

A body is a list of moves, of bytes and of groups:

  right(AMOUNT), down(AMOUNT)   a movement
  bytes                         an instruction: set_rule(..), put_rule(..), set_char(..),
                                special(..), select(..)
  a list                        a group: push, the body in it, pop"""
from collections import Counter
from dataclasses import dataclass

UNITS = (25400000).to_bytes(4, "big") + (473628672).to_bytes(4, "big") + (1000).to_bytes(4, "big")
NO_PAGE = b"\xff\xff\xff\xff"


@dataclass(frozen=True)
class Move:
    """A movement in one of the two directions."""

    direction: str
    amount: int


@dataclass(frozen=True)
class Codes:
    """The codes of the movements of a direction: without a register, and for each register that of
    w0 (x0, y0, z0)."""

    plain: int
    registers: tuple


CODES = {"right": Codes(143, (147, 152)), "down": Codes(157, (161, 166))}


@dataclass(frozen=True)
class Font:
    """A font as the file defines it. Sizes are in scaled points."""

    number: int
    name: bytes
    size: int = 655360
    design_size: int = 655360
    check_sum: int = 0
    area: bytes = b""


@dataclass(frozen=True)
class Page:
    """A page: its body, its ten counts, and the fonts that are defined before it."""

    body: list
    counts: tuple = (0,) * 10
    new_fonts: tuple = ()


@dataclass(frozen=True)
class DviFile:
    """The bytes of a file, the place after the eop of each page, and the place of post."""

    data: bytes
    page_ends: tuple
    post: int


def right(amount):
    """A movement to the right."""
    return Move("right", amount)


def down(amount):
    """A movement downward."""
    return Move("down", amount)


def number(value, size):
    """A number of `size` bytes, the highest first, signed if it is below 0."""
    return value.to_bytes(size, "big", signed=value < 0)


def signed(value):
    """The fewest bytes that hold a signed number."""
    size = next(it for it in (1, 2, 3, 4) if -(1 << (8 * it - 1)) <= value < 1 << (8 * it - 1))
    return value.to_bytes(size, "big", signed=True)


def unsigned(value):
    """The fewest bytes, at least one, that hold an unsigned number."""
    return value.to_bytes(max(1, (value.bit_length() + 7) // 8), "big")


def set_rule(height, width):
    """set_rule: a rule; h grows by its width."""
    return b"\x84" + number(height, 4) + number(width, 4)


def put_rule(height, width):
    """put_rule: a rule; h does not change."""
    return b"\x89" + number(height, 4) + number(width, 4)


def set_char(code):
    """set_char or set1: a glyph."""
    return bytes([code]) if code < 128 else bytes([128, code])


def xxx(text, size):
    """xxx1 to xxx4: a special, whose length takes `size` bytes."""
    return bytes([238 + size]) + number(len(text), size) + text


def special(text):
    """A special as the product writes it: xxx1 for up to 255 bytes, xxx4 for more."""
    return xxx(text, 1 if len(text) < 256 else 4)


def select(font):
    """fnt_num, or fnt1 to fnt4: selects a font by its number."""
    if font < 64:
        return bytes([171 + font])
    operand = unsigned(font)
    return bytes([234 + len(operand)]) + operand


def definition(font):
    """fnt_def1 to fnt_def4."""
    operand = unsigned(font.number)
    sizes = number(font.check_sum, 4) + number(font.size, 4) + number(font.design_size, 4)
    return (
        bytes([242 + len(operand)])
        + operand
        + sizes
        + bytes([len(font.area), len(font.name)])
        + font.area
        + font.name
    )


def pruned(body):
    """A body without its groups that hold nothing, or only such groups."""
    parts = (pruned(it) if isinstance(it, list) else it for it in body)
    return [it for it in parts if it != []]


def depth(body):
    """The greatest number of pushes that are open at the same time."""
    return max((1 + depth(it) for it in body if isinstance(it, list)), default=0)


class Registers:
    """The known values of the two registers of each direction, and which one was used last."""

    def __init__(self, known=None, last=None):
        self.known = known or {"right": [None, None], "down": [None, None]}
        self.last = last or {"right": 1, "down": 1}

    def copy(self):
        """A copy: the changes of a group are lost after the group."""
        return Registers({name: list(it) for name, it in self.known.items()}, dict(self.last))

    def spell(self, move, comes_again):
        """The bytes of a movement, which is put into a register if its amount comes again."""
        codes, known = CODES[move.direction], self.known[move.direction]
        if move.amount in known:
            register = known.index(move.amount)
            self.last[move.direction] = register
            return bytes([codes.registers[register]])
        operand = signed(move.amount)
        if not comes_again:
            return bytes([codes.plain - 1 + len(operand)]) + operand
        register = 1 - self.last[move.direction]
        known[register], self.last[move.direction] = move.amount, register
        return bytes([codes.registers[register] + len(operand)]) + operand


def spelled(body, registers):
    """The bytes of a body that has no group without contents."""
    left = Counter(it for it in body if isinstance(it, Move))
    spelling = []
    for it in body:
        if isinstance(it, list):
            spelling.append(b"\x8d" + spelled(it, registers.copy()) + b"\x8e")
        elif isinstance(it, Move):
            left[it] -= 1
            spelling.append(registers.spell(it, left[it] > 0))
        else:
            spelling.append(it)
    return b"".join(spelling)


def page_bytes(page, last_bop):
    """The bytes of a page from its bop to its eop."""
    counts = b"".join(number(it, 4) for it in page.counts)
    pointer = NO_PAGE if last_bop is None else number(last_bop, 4)
    return b"\x8b" + counts + pointer + spelled(pruned(page.body), Registers()) + b"\x8c"


def dvi_file(pages, height, width):
    """The file of these pages. `height` and `width` are the greatest sizes of a page."""
    data, ends, bop = bytearray(b"\xf7\x02" + UNITS + b"\x00"), [], None
    for page in pages:
        data += b"".join(definition(it) for it in page.new_fonts)
        place = len(data)
        data += page_bytes(page, bop)
        bop = place
        ends.append(len(data))
    post = len(data)
    fonts = sorted((it for page in pages for it in page.new_fonts), key=lambda it: it.number)
    pushes = max(depth(pruned(page.body)) for page in pages)
    sizes = number(height, 4) + number(width, 4) + number(pushes, 2) + number(len(pages) % 65536, 2)
    data += b"\xf8" + number(bop, 4) + UNITS + sizes + b"".join(definition(it) for it in fonts)
    data += b"\xf9" + number(post, 4) + b"\x02"
    data += b"\xdf" * (4 + -len(data) % 4)
    return DviFile(bytes(data), tuple(ends), post)


def page_file(body, height=0, width=0, fonts=()):
    """The file of one page of these sizes, with the fonts that are defined before it."""
    return dvi_file([Page(body, new_fonts=tuple(fonts))], height, width)


def changed(data, at, bytes_there):
    """The bytes of a file, with some replaced at a place."""
    return data[:at] + bytes_there + data[at + len(bytes_there) :]
