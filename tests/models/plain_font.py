"""A metric file (TFM) of plain width: all 256 characters have the same sizes, without kerns and
ligatures."""
import struct

DESIGN_SIZE = 10 << 20  # 10pt


def fix_word(of_size):
    """A part of the size as a word of 20 fractional bits."""
    return struct.pack(">i", round(of_size * 2**20))


def metric_bytes(first, last, tables):
    """A metric file for the characters with codes from one to another one, of its ten tables, each
    a list of words: header, characters, widths, .., parameters."""
    counts = [6 + sum(map(len, tables)), len(tables[0]), first, last, *map(len, tables[2:])]
    return struct.pack(">12H", *counts) + b"".join(sum(tables, []))


def metric_file(width=0.5, height=0.7, depth=0.2, space=(1 / 3, 1 / 6, 1 / 9)):
    """The bytes of the file. The space has a width, a stretch and a shrink; all are parts of the
    size."""
    header = [bytes(4), struct.pack(">i", DESIGN_SIZE)]
    characters = [bytes([1, 0x11, 0, 0])] * 256
    widths, heights, depths = ([bytes(4), fix_word(it)] for it in (width, height, depth))
    parameters = [bytes(4), *map(fix_word, space)]
    return metric_bytes(
        0, 255, [header, characters, widths, heights, depths, [bytes(4)], [], [], [], parameters]
    )
