"""A DVI file of one page with every kind of instruction that a page may have, each number in all
the sizes that it may take. From docs/FORMATS.md, sections 5 and 7, by the tests' own writer."""
from models.dvi_writer import NO_PAGE, UNITS, number, put_rule, set_rule, xxx

SMALL, LARGE = 10, -2  # The numbers of two fonts, both of the metric file `tiny`.
NOP, PUSH, POP, EOP = b"\x8a", b"\x8d", b"\x8e", b"\x8c"
SIZES = (1, 2, 3, 4)


def each_size(code, values):
    """The instructions of four codes, the one of this code with a number of one byte."""
    return b"".join(
        bytes([code + size - 1]) + number(value, size) for size, value in zip(SIZES, values)
    )


def definition(font, size, area=b""):
    """fnt_def1 to fnt_def4, by the bytes that the number takes. The larger font has 20pt, the other
    one 10pt."""
    points = 20 if font == LARGE else 10
    sizes = number(7, 4) + number(points << 16, 4) + number(10 << 16, 4)
    return bytes([242 + size]) + number(font, size) + sizes + bytes([len(area), 4]) + area + b"tiny"


def body():
    """Glyphs, movements with all registers, rules, specials, and the selections of both fonts. The
    amounts in each register differ from those in others."""
    glyphs = (
        bytes([171 + SMALL, 97])
        + each_size(128, (98, 99, 100, 101))
        + each_size(133, (101, 97, 98, 99))
    )
    plain = each_size(143, (100, -300, 70000, 1 << 24)) + each_size(
        157, (-1, 1000, -70000, 1 << 25)
    )
    registers = b"".join(
        each_size(zero + 1, (zero - 150, 999, -99999, zero << 16)) + bytes([zero])
        for zero in (147, 152, 161, 166)
    )
    groups = PUSH + registers + PUSH + b"\x93\xa1" + set_rule(5, 6) + POP + put_rule(7, 8) + POP
    specials = (
        xxx(b"", 1) + xxx(b"a\\", 1) + xxx(b"b", 2) + xxx(b"", 3) + xxx(bytes([0, 32, 255]), 4)
    )
    selected = b"".join(
        bytes([234 + size]) + number(LARGE if size == 4 else SMALL, size) + b"b" for size in SIZES
    )
    return glyphs + plain + groups + specials + NOP + definition(SMALL, 3, b"x") + selected


def every_instruction():
    """The bytes of the file. The definitions after post have other sizes than those before it; post
    allows one push more than there are."""
    front = (
        b"\xf7\x02" + UNITS + b"\x02hi" + NOP + definition(SMALL, 2, b"x") + definition(LARGE, 4)
    )
    counts = b"".join(number(it, 4) for it in (1, -2, 0, 0, 0, 0, 0, 0, 0, 9))
    pages = front + b"\x8b" + counts + NO_PAGE + body() + EOP
    post = (
        b"\xf8"
        + number(len(front), 4)
        + UNITS
        + number(0, 4)
        + number(0, 4)
        + number(3, 2)
        + number(1, 2)
    )
    after = definition(LARGE, 4) + NOP + definition(SMALL, 1, b"x")
    data = pages + post + after + b"\xf9" + number(len(pages), 4) + b"\x02"
    return data + b"\xdf" * (4 + -len(data) % 4)
