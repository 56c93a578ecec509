"""Joins the DVI files of several jobs, in which each font has one number, into one file."""

import struct
from collections.abc import Iterable, Iterator

FNT_DEF, POST, POST_POST, FILL, VERSION = 243, 248, 249, 223, 2
# The place of the page before stands after a bop and its ten counts.
BACK = slice(41, 45)
POSTAMBLE = struct.Struct(">BI12sIIHH")


def definitions(dvi: bytes, at: int) -> Iterator[bytes]:
    """The definitions of fonts that begin at a place."""
    while dvi[at] == FNT_DEF:
        end = at + 16 + dvi[at + 14] + dvi[at + 15]
        yield dvi[at:end]
        at = end


def pages_of(dvi: bytes, fonts: Iterable[bytes], count: int, at: int, end: int) -> list[bytes]:
    """The pages up to the last one, without definitions behind them, which do not end in eop."""
    pages = list[bytes]()
    for _ in range(count):
        page = dvi[at:end]
        while last := next((it for it in fonts if page.endswith(it)), b""):
            page = page[: -len(last)]
        pages.insert(0, page)
        at, end = int.from_bytes(page[BACK], "big"), at
    return pages


def join(dvis: Iterable[bytes]) -> bytes:
    """One file with the pages of all files, in their order.

    Raises:
        ValueError: A number stands for two fonts, or the files differ in their units.
    """
    joined, last, total, most = bytearray(), -1, 0, [0, 0, 0]
    fonts, scales = dict[int, bytes](), set[bytes]()
    for dvi in filter(None, dvis):
        post = int.from_bytes(dvi.rstrip(bytes([FILL]))[-5:-1], "big")
        _, at, units, *sizes, count = POSTAMBLE.unpack_from(dvi, post)
        found = {it[1]: it for it in definitions(dvi, post + POSTAMBLE.size)}
        scales.add(units)
        if len(scales) > 1 or any(fonts.get(it, its) != its for it, its in found.items()):
            raise ValueError("the files have other units, or another font of one number")
        joined += b"" if joined else dvi[: 15 + dvi[14]]
        joined += b"".join(its for it, its in found.items() if it not in fonts)
        fonts.update(found)
        for page in pages_of(dvi, found.values(), count, at, post):
            place, back = len(joined), last.to_bytes(4, "big", signed=True)
            joined += page[: BACK.start] + back + page[BACK.stop :]
            last = place
        most, total = [max(its) for its in zip(most, sizes)], total + count
    post = len(joined)
    joined += POSTAMBLE.pack(POST, last, *scales, *most, total)
    joined += b"".join(fonts[it] for it in sorted(fonts))
    joined += struct.pack(">BIB", POST_POST, post, VERSION)
    return bytes(joined) + bytes([FILL]) * (4 + -len(joined) % 4)
