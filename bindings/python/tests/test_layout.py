"""Tests of lines, pages, columns and contents."""

import unittest

import boxglue
from boxglue import layout, pdf, pt
from boxglue.layout import Measures

from .samples import plain

FIL = (1, "fil")
LINK, BLUE = pdf.link("https://example.org"), "color push rgb 0 0 1"


def specials_of(box):
    """The specials of a line."""
    return [it.text.decode() for it in box.walk() if isinstance(it, boxglue.SpecialItem)]


def lines_at(size, count, **more):
    """Lines of one size."""
    return [Measures(pt(size), **more) for _ in range(count)]


class Lines(unittest.TestCase):
    """Tests with a job in the font of plain width, whose characters are 5.25pt wide at 10pt."""

    def setUp(self):
        self.job = boxglue.Job(plain())
        self.addCleanup(self.job.close)
        self.job.use(self.job.load("plain", at=pt(10)))
        self.job.set(hsize=pt(40), parfillskip=boxglue.Glue(0, FIL), tolerance=10_000)
        self.job.set(baselineskip=pt(12), clubpenalty=150, widowpenalty=150)

    def paragraph(self, *parts):
        """Sets a paragraph of texts and specials in register 0."""
        with self.job.vbox(into=0), self.job.par():
            for it in parts:
                (
                    self.job.special
                    if it in (LINK, BLUE) or ":" in it or "pop" in it
                    else self.job.text
                )(it)

    def taken(self, **words):
        """The lines, and what is in their registers."""
        found = layout.take_lines(self.job, 0, pt(40), **words)
        return found, [self.job.inspect(it.register) for it in found]

    def test_lines(self):
        """Each line is in a box of its own, as wide as the paragraph, and set as in it."""
        self.paragraph("aaaa bb cccc dd e")
        before = self.job.inspect(0).lines()
        found, boxes = self.taken()
        self.assertEqual([it.box for it in found], before)
        self.assertEqual(len(found), 3)
        for line, box in zip(before, boxes):
            glyphs = [
                [(it.x - its.x, it.code) for it in its.walk() if isinstance(it, boxglue.GlyphItem)]
                for its in (line, box)
            ]
            self.assertEqual(*glyphs)
            self.assertEqual(box.width, pt(40))
        self.assertIsNone(self.job.inspect(0))

    def test_sizes(self):
        """A line is at least as high and as deep as it has to be."""
        self.paragraph("a")
        found, (box,) = self.taken(height=pt(20), depth=pt(9))
        self.assertEqual((box.height, box.depth, found[0].size), (pt(20), pt(9), pt(29)))
        self.paragraph("a")
        found, (box,) = self.taken(height=1)
        self.assertEqual((box.height, box.depth), (found[0].box.height, found[0].box.depth))

    def test_left(self):
        """Glue at the left and the right puts a line into the middle."""
        self.paragraph("a")
        _, (box,) = self.taken(left=boxglue.Glue(0, FIL))
        glyph = next(it for it in box.walk() if isinstance(it, boxglue.GlyphItem))
        self.assertAlmostEqual(glyph.x, (pt(40) - glyph.width) / 2, delta=1)

    def test_links(self):
        """A link ends with its line, and begins again in the next one."""
        self.paragraph("aaaa ", LINK, BLUE, "bb cccc dd", "color pop", "pdf:eann", " eeee ffff")
        _, boxes = self.taken()
        whole = [LINK, BLUE, "color pop", "pdf:eann"]
        self.assertEqual([specials_of(it) for it in boxes], [whole, whole, [], []])

    def test_none(self):
        self.assertEqual(self.taken(), ([], []))

    def test_entry(self):
        """The dots of entries stand one below the other, and the numbers end at the right."""
        dots, ends = [], []
        for text, number in (("aa", "7"), ("bbbb", "12")):
            self.job.set(hsize=pt(200))
            self.paragraph(text)
            (line,), _ = self.taken()
            dot, digits = (lambda it, its=its: it.text(its) for its in (".", number))
            layout.entry(self.job, line.register, pt(200), dot, digits)
            box = self.job.inspect(line.register)
            glyphs = [it for it in box.walk() if isinstance(it, boxglue.GlyphItem)]
            shown = "".join(chr(it.code) for it in glyphs)
            self.assertRegex(shown, rf"^{text}\.+{number}$")
            dots.append({it.x % pt(5) for it in glyphs if chr(it.code) == "."})
            ends.append(glyphs[-1].x + glyphs[-1].width)
        self.assertEqual(dots[0], dots[1])
        self.assertEqual((len(dots[0]), ends), (1, [pt(200)] * 2))


class Pages(unittest.TestCase):
    """Tests of ends of pages."""

    def end(self, rows, height=pt(100), **words):
        return layout.page_end(rows, height, **words)

    def test_full_pages(self):
        self.assertEqual(self.end(lines_at(10, 25)), (10, pt(100)))
        self.assertEqual(self.end(lines_at(10, 3)), (3, pt(30)))
        self.assertEqual(self.end([]), (0, 0))

    def test_gaps(self):
        """Space at the top is dropped; space between lines counts."""
        self.assertEqual(self.end(lines_at(10, 25, gap=pt(10))), (5, pt(90)))

    def test_costs(self):
        """A place that costs too much is not taken, and one that is forbidden never is."""
        dear = [*lines_at(10, 10), Measures(pt(10), cost=3000), *lines_at(10, 9)]
        self.assertEqual(self.end(dear)[0], 9)
        self.assertEqual(self.end([*lines_at(10, 10), Measures(pt(10), cost=10_000)])[0], 9)
        cheap = [*lines_at(10, 9), Measures(pt(10), cost=-90), *lines_at(10, 10)]
        self.assertEqual(self.end(cheap)[0], 9)

    def test_footnotes(self):
        """A page has the footnotes of its lines, and the space above them."""
        rows = [*lines_at(10, 5), Measures(pt(10), notes=pt(25)), *lines_at(10, 9)]
        self.assertEqual(self.end(rows), (7, pt(95)))
        self.assertEqual(self.end(rows, space=pt(6)), (6, pt(91)))
        self.assertEqual(self.end([*lines_at(10, 7), *rows[5:]])[0], 7)

    def test_high_lines(self):
        """A line that is too high has a page of its own."""
        self.assertEqual(self.end(lines_at(150, 2)), (1, pt(150)))
        kept = [Measures(pt(60)), Measures(pt(60), cost=10_000), Measures(pt(10))]
        self.assertEqual(self.end(kept), (2, pt(120)))


class Columns(unittest.TestCase):
    """Tests of widths of columns."""

    def test_whole_cells(self):
        self.assertEqual(layout.column_widths([1, 1], [30, 40], 100), [30, 40])
        self.assertEqual(layout.column_widths([], [], 100), [])

    def test_shares(self):
        """Shares count if no column is too narrow then."""
        self.assertEqual(layout.column_widths([5, 5], [9, 9], 100, shares=[0.2, 0.3]), [20, 30])
        self.assertEqual(layout.column_widths([5, 5], [9, 9], 100, shares=[1, 3]), [25, 75])
        self.assertEqual(layout.column_widths([30, 5], [50, 65], 100, shares=[0.2, 0.8]), [46, 53])

    def test_narrow_columns(self):
        """Each has its widest word, and of the rest a share by what it lacks."""
        self.assertEqual(layout.column_widths([20, 10], [20, 200], 100), [20, 80])
        self.assertEqual(layout.column_widths([10, 10], [50, 90], 100), [36, 63])

    def test_too_wide_words(self):
        widths = layout.column_widths([90, 20], [90, 50], 100)
        self.assertEqual(widths, [67, 32])
        self.assertLessEqual(sum(widths), 100)


if __name__ == "__main__":
    unittest.main()
