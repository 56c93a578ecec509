"""All that is random in the trials, from a seed and the same everywhere: numbers, changes of bytes,
the words and amounts of scripts, metric files, DVI files and bitmaps.

What compares two programs, what compares with TeX, and what is hostile take it from here; each has
a second number of its own in its seeds."""

import os
import struct
import sys

sys.path.insert(
    1, os.path.join(os.path.dirname(os.path.dirname(os.path.abspath(__file__))), "tests")
)
from inputs import OFTEN, WORDS  # noqa: E402
from models.dvi_writer import Font, Page, definition, dvi_file  # noqa: E402

# The second number of a seed, for each use.
HOSTILE_SEEDS, DOCUMENT_SEEDS, TEX_SEEDS, FONT_SEEDS, DAMAGE_SEEDS, SHEET_SEEDS, FILE_SEEDS = range(
    1, 8
)


class Chance:
    """xorshift64*, from a seed of two numbers."""

    def __init__(self, first, second):
        self.state = (
            first * 0x9E3779B97F4A7C15 + second * 0xD1342543DE82EF95 + 0x2545F4914F6CDD1D
        ) % 2**64 or 1
        for _ in range(4):
            self.next()

    def next(self):
        it = self.state
        it ^= it >> 12
        it ^= it << 25 & 0xFFFFFFFFFFFFFFFF
        it ^= it >> 27
        self.state = it
        return it * 0x2545F4914F6CDD1D % 2**64 >> 31

    def below(self, bound):
        return self.next() % bound

    def pick(self, values):
        return values[self.below(len(values))]

    def sample(self, values, count):
        """So many of the values, each at most once."""
        left = list(values)
        return [left.pop(self.below(len(left))) for _ in range(min(count, len(left)))]

    def one_in(self, count):
        return self.below(count) == 0

    def part(self, part):
        """True in this part of the cases."""
        return self.next() < part * 2**33

    def between(self, low, high):
        """A number with a fraction."""
        return low + (high - low) * self.next() / 2**33

    def bytes(self, count):
        return b"".join(self.next().to_bytes(5, "big")[1:] for _ in range(count // 4 + 1))[:count]


# Changes of bytes


def other_bytes(chance, data, count, within=None):
    """Other bytes at this many places, which are among the first ones where it is said how many
    these are."""
    data = bytearray(data)
    for _ in range(count if data else 0):
        data[chance.below(min(within or len(data), len(data)))] ^= 1 + chance.below(255)
    return bytes(data)


def cut(chance, data):
    return data[: chance.below(len(data) + 1)]


def spliced(chance, data, other):
    """A beginning of one and an end of the other, or a piece of the other inside."""
    first, last = chance.below(len(data) + 1), chance.below(len(other) + 1)
    if chance.one_in(2):
        return data[:first] + other[last:]
    return data[:first] + other[last : last + chance.below(64)] + data[first:]


def lengthened(chance, data):
    """With more bytes inside or after it: random ones, bytes 223, or a piece of it again."""
    place, way = chance.below(len(data) + 1), chance.below(4)
    if way == 0:
        return data[:place] + chance.bytes(1 + chance.below(40)) + data[place:]
    if way == 1:
        return data + b"\xdf" * (1 + chance.below(300))
    if way == 2:
        return data + chance.bytes(1 + chance.below(300))
    piece = data[place : place + 1 + chance.below(60)]
    return data[:place] + piece * (1 + chance.below(20)) + data[place:]


def changed(chance, data, other):
    """One of these changes, and its name."""
    way = chance.pick(("one byte", "two bytes", "cut", "spliced", "lengthened"))
    if way == "cut":
        return way, cut(chance, data)
    if way == "spliced":
        return way, spliced(chance, data, other)
    if way == "lengthened":
        return way, lengthened(chance, data)
    return way, other_bytes(chance, data, 1 if way == "one byte" else 2)


# Words and amounts of scripts

# Words with kerns and ligatures, beside those of prose.
JOINED = "AV Wafer office fluffy xylophone fi ff ffl AVAWAY Toyota".split()
UNITS = (("pt", 1),) * 3 + (
    ("pc", 12),
    ("in", 72.27),
    ("bp", 1.00375),
    ("cm", 28.45276),
    ("mm", 2.845276),
    ("dd", 1.07),
    ("cc", 12.84),
    ("sp", 1 / 65536),
)
# The values of each number: common ones, with which TeX does the same, and odd ones.
NUMBERS = {
    "pretolerance": ((-1, 50, 100, 100, 1000), (0, 10000)),
    "tolerance": ((200, 500, 2000, 5000, 10000), (0, 50, 9999, 20000, -5)),
    "linepenalty": ((0, 10, 10, 150, -20), (100, -20000)),
    "adjdemerits": ((0, 10000, 10000, -5000, 400000), (-10000,)),
    "clubpenalty": ((0, 150, -70), (-30,)),
    "widowpenalty": ((0, 150, 9000), (10000,)),
    "interlinepenalty": ((0, 0, 33), (7,)),
}
PARAMETERS = {
    "dimension": "hsize firstsize lineskiplimit boxmaxdepth splitmaxdepth hoffset voffset".split(),
    "glue": "baselineskip lineskip parfillskip splittopskip".split(),
    "number": list(NUMBERS),
}


def words(chance, most):
    """At least one word and at most so many."""
    return " ".join(
        chance.pick(chance.pick((OFTEN.split(), WORDS.split(), JOINED)))
        for _ in range(1 + chance.below(most))
    )


def dimension(chance, low, high):
    """A dimension between two numbers of points, in some unit, with some digits."""
    points = chance.between(low, high)
    unit, size = chance.pick(UNITS)
    return "%.*f%s" % (0 if unit == "sp" else chance.pick((0, 1, 2, 5, 9)), points / size, unit)


def stretch(chance, infinite, low, high):
    """Stretch or shrink: in the part `infinite` of an infinite order, else between two numbers of
    points."""
    if chance.part(infinite):
        return "%.*f%s" % (
            chance.pick((0, 1, 5)),
            chance.between(-1, 3),
            chance.pick(("fil", "fil", "fill", "filll")),
        )
    return dimension(chance, low, high)


def glue(chance, width, stretched, shrunk):
    """Glue of this width; two functions make its stretch and its shrink, each of which may be
    missing."""
    return (
        width
        + (" plus " + stretched() if chance.part(0.7) else "")
        + (" minus " + shrunk() if chance.part(0.5) else "")
    )


# Metric files

WORDS_OF_16 = (0, 1, 2, 3, 255, 256, 257, 32767, 32768, 65535, 65534, 6, 12, 29)


def other_lengths(chance, data):
    """A metric file with other numbers at its beginning; in half of the cases its length is right
    again, and it has as many bytes."""
    data = bytearray(data)
    for _ in range(1 + chance.below(3)):
        at = 2 * chance.below(12)
        value = (
            chance.pick(WORDS_OF_16)
            if chance.one_in(2)
            else int.from_bytes(data[at : at + 2], "big") + chance.below(5) - 2
        )
        data[at : at + 2] = (value % 65536).to_bytes(2, "big")
    if chance.one_in(2):
        lf, lh, bc, ec, *tables = struct.unpack(">12H", data[:24])
        length = 6 + lh + ec - bc + 1 + sum(tables)
        if 0 < length < 33000:
            data[:2] = length.to_bytes(2, "big")
            data = data + (bytes(4 * length) if chance.one_in(2) else chance.bytes(4 * length))
    return bytes(data)


def changed_metrics(chance, data, other):
    """A metric file with one change, and the name of this."""
    return (
        ("lengths", other_lengths(chance, data))
        if chance.one_in(3)
        else changed(chance, data, other)
    )


# DVI files

EDGES = (0, 1, -1, 2**31 - 1, -(2**31), 65536, 2**30, -(2**30), 2**24, 127, 128, 255, 256)


def operand(chance, size):
    """The bytes of a number, an extreme one in half of the cases."""
    return ((chance.pick(EDGES) if chance.one_in(2) else chance.next()) % 256**size).to_bytes(
        size, "big"
    )


def movement(chance):
    size = 1 + chance.below(4 if chance.one_in(3) else 2)
    return bytes([chance.pick((142, 147, 152, 156, 161, 166)) + size]) + operand(chance, size)


def calm_instruction(chance):
    """An instruction that may come anywhere in a page, though a movement may leave the range."""
    way = chance.below(10)
    if way < 3:
        return bytes([chance.pick(b"abcde")])
    if way == 3:
        return (
            bytes([chance.pick((132, 137))])
            + operand(chance, 4)
            + operand(chance, 3).rjust(4, b"\0")
        )
    if way < 6:
        return movement(chance)
    if way == 6:
        return bytes([chance.pick((147, 152, 161, 166, 138, 171, 172))])
    if way == 7:
        return b"\x8d" + calm_instruction(chance) + calm_instruction(chance) + b"\x8e"
    if way == 8:
        words = chance.bytes(chance.below(20))
        return bytes([239, len(words)]) + words
    size = 1 + chance.below(4)
    return bytes([chance.pick((127, 132)) + size]) + chance.pick(b"abcde").to_bytes(size, "big")


def wild_instruction(chance):
    """An instruction that is often wrong at its place."""
    way = chance.below(6)
    if way == 0:
        return chance.pick((b"\x8d", b"\x8e", b"\x8d" * chance.below(40), b"\x8e\x8d"))
    if way == 1:
        size = 1 + chance.below(4)
        return bytes([chance.pick((127, 132, 234, 238)) + size]) + operand(chance, size)
    if way == 2:
        return definition(
            Font(
                chance.below(3),
                chance.pick((b"tiny", b"tiny", b"absent")),
                chance.pick((655360, 655360, 1, 134217727)),
            )
        )
    if way == 3:
        return bytes([chance.below(256)])
    return calm_instruction(chance)


def framed(chance):
    """A file with a right frame, and random instructions in its pages: calm ones alone in half of
    the files."""
    fonts = (Font(0, b"tiny"), Font(1, b"tiny", chance.pick((655360, 1, 2**27 - 1, 2**23 + 1))))
    pages, wild = [], chance.one_in(2)
    for at in range(1 + chance.below(3)):
        count = chance.below(12 if chance.one_in(2) else 40)
        body = b"".join(
            wild_instruction(chance) if wild and chance.one_in(8) else calm_instruction(chance)
            for _ in range(count)
        )
        pages.append(
            Page(
                [(b"" if chance.one_in(20) else b"\xab") + body],
                tuple(chance.pick(EDGES[:9]) for _ in range(10)),
                fonts if at == 0 else (),
            )
        )
    made = dvi_file(pages, 0, 0)
    depth = chance.pick((100, 1024, 65535, 1)).to_bytes(2, "big")
    return made.data[: made.post + 25] + depth + made.data[made.post + 27 :]


# Bitmaps


def sheet(chance):
    """The numbers of a bitmap, small ones in most."""
    dpi, page = chance.pick((1, 72, 300, 600, 10000, 1 + chance.below(10000))), 1 + chance.below(2)
    width, height = 1 + chance.below(200), 1 + chance.below(100)
    if chance.one_in(100):
        width, height = chance.pick(((10000, 30), (1, 10000), (70, 70), (10000, 1000)))
    return [str(it) for it in (page, dpi, width, height)]
