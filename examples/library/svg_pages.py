#!/usr/bin/env python3
"""A driver: writes each page of a DVI file as an SVG, with a box and its letter for each glyph,
through bindings/python.

    examples/library/svg_pages.py out/page.dvi out/page cmr10=$cmr10

It writes out/page-1.svg, out/page-2.svg, and so on. A glyph is as wide as its metric file says; how
high it is no mark tells, so its box is as high as an x would be."""
import os
import sys
from xml.sax.saxutils import escape

sys.path.append(f"{os.path.dirname(os.path.abspath(__file__))}/../../bindings/python")
import boxglue  # noqa: E402 (it is in no folder of Python's)

# A page of DVI has its origin an inch from the left and the top of the paper. Sizes are in TeX's
# points, 72.27 to an inch.
INCH, PAPER = 72.27, (614.3, 794.97)
BOX = '<rect x="{x:.3f}" y="{y:.3f}" width="{width:.3f}" height="{height:.3f}" {paint}/>'
LETTER = (
    '<text x="{x:.3f}" y="{y:.3f}" font-size="{size:.3f}" textLength="{width:.3f}">{letter}</text>'
)


class Drawing:
    """The shapes of a page."""

    def __init__(self, document, sizes):
        self.unit = float(document.units.scaled_points) / 65536
        self.sizes = sizes

    def place(self, mark):
        """Where a mark is on the paper."""
        return {"x": INCH + mark.h * self.unit, "y": INCH + mark.v * self.unit}

    def rectangle(self, mark, height, paint):
        """A rectangle that stands on the place of a mark."""
        place = self.place(mark)
        return BOX.format(
            x=place["x"],
            y=place["y"] - height,
            width=mark.width * self.unit,
            height=height,
            paint=paint,
        )

    def shapes(self, mark):
        """The shapes of a mark. A special has none."""
        if isinstance(mark, boxglue.Rule):
            yield self.rectangle(mark, mark.height * self.unit, "")
        elif isinstance(mark, boxglue.Glyph):
            size = self.sizes[mark.font] * self.unit
            yield self.rectangle(mark, 0.43 * size, 'fill="none" stroke="#bbb" stroke-width="0.2"')
            if 33 <= mark.code < 127:
                yield LETTER.format(
                    **self.place(mark),
                    size=size,
                    width=mark.width * self.unit,
                    letter=escape(chr(mark.code)),
                )

    def page(self, page):
        """A page as SVG."""
        shapes = "\n".join(it for mark in page.marks for it in self.shapes(mark))
        return '<svg xmlns="http://www.w3.org/2000/svg" width="{0}pt" height="{1}pt" viewBox="0 0 {0} {1}">\n{2}\n</svg>\n'.format(
            *PAPER, shapes
        )


def main(dvi_path, out, *given):
    with open(dvi_path, "rb") as it:
        dvi = it.read()
    fonts = []
    for name, _, path in (it.partition("=") for it in given):
        with open(path, "rb") as it:
            fonts.append((name, it.read()))
    document = boxglue.marks(dvi, fonts)
    drawing = Drawing(document, {it.number: it.size for it in boxglue.fonts(dvi)})
    for number, page in enumerate(document.pages, 1):
        with open(f"{out}-{number}.svg", "w", encoding="utf-8") as it:
            it.write(drawing.page(page))


if __name__ == "__main__":
    main(*sys.argv[1:])
