"""Tests of the pages of DVI files and their marks, against the listing."""
import copy
import gc
import pickle
import sys
import unittest
from fractions import Fraction
from unittest import mock

import boxglue
from boxglue import Glyph, MarkKind, Rule, Special, Units, _marks

from .samples import RULE, TEXT, examples, listing_of, plain, refusal_of

PT = 65536
# The characters of the font `plain` at 10pt: 550498 * 2^-20 of the size, cut to scaled points.
WIDTH = 550498 * 10 * PT >> 20
SPECIALS = (
    "hbox into 0\nspecial one\nkern 1pt\nspecial\nrule 1pt 2pt 0pt\nspecial "
    + "x" * 300
    + "\nend\nship 0\ncount 3 -7\nhbox into 0\nspecial one\nend\nship 0\n"
)


class Documents(unittest.TestCase):
    def test_all_examples(self):
        for name, script, fonts in examples():
            dvi = boxglue.run(script, fonts).dvi
            self.assertEqual(
                listing_of(boxglue.marks(dvi, fonts)), boxglue.listing(dvi, fonts), name
            )

    def test_page_of_one_rule(self):
        document = boxglue.marks(boxglue.run(RULE).dvi)
        self.assertEqual(
            ([*document.marks], document.units, document.units.scaled_points),
            ([Rule(0, PT, PT, PT)], Units(25400000, 473628672, 1000), Fraction(1)),
        )
        self.assertEqual(
            [(it.counts, [*it.marks]) for it in document.pages],
            [((0,) * 10, [Rule(0, PT, PT, PT)])],
        )

    def test_widths(self):
        glyphs = [
            it
            for it in boxglue.marks(boxglue.run(TEXT, plain()).dvi, plain()).marks
            if isinstance(it, Glyph)
        ]
        self.assertEqual(
            [(it.font, chr(it.code), it.width) for it in glyphs],
            [(0, "a", WIDTH), (0, "b", WIDTH), (7, "c", WIDTH // 2)],
        )

    def test_specials(self):
        document = boxglue.marks(boxglue.run(SPECIALS).check().dvi)
        self.assertEqual(
            [(it.h, it.text) for it in document.marks if isinstance(it, Special)],
            [(0, b"one"), (PT, b""), (2 * PT, b"x" * 300), (0, b"one")],
        )
        self.assertEqual(document.pages[1].counts, (0, 0, 0, -7, 0, 0, 0, 0, 0, 0))

    def test_units(self):
        dvi = bytearray(boxglue.run(RULE).dvi)
        for place in (10, 87):  # the magnification in pre and post (docs/FORMATS.md, section 8)
            dvi[place : place + 4] = (2000).to_bytes(4, "big")
        self.assertEqual(boxglue.marks(dvi).units.scaled_points, Fraction(2))

    def test_refused_file(self):
        refused = refusal_of(boxglue.marks, boxglue.run(RULE).dvi[:74])
        self.assertEqual((refused.name, refused.place, refused.cause), ("BadDvi", 74, "Trailer"))
        self.assertEqual(refusal_of(boxglue.marks, b"").cause, "Trailer")
        self.assertEqual(refusal_of(boxglue.marks, boxglue.run(TEXT, plain()).dvi).name, "NoFont")
        self.assertRaises(boxglue.BadFontName, boxglue.marks, b"", {"": b""})
        self.assertRaises(TypeError, boxglue.marks, "page.dvi")

    def test_file_without_pages(self):
        """A file of pre, post and post_post: boxglue writes none, and reads it."""
        units = bytes.fromhex("018392c01c3b0000000003e8")
        dvi = (
            b"\xf7\2"
            + units
            + b"\0"
            + b"\xf8\xff\xff\xff\xff"
            + units
            + bytes(12)
            + b"\xf9\0\0\0\x0f\2"
            + b"\xdf" * 4
        )
        document = boxglue.marks(dvi)
        self.assertEqual(
            ([*document.pages], [*document.marks], document.marks.rows.nbytes), ([], [], 0)
        )


class Sequences(unittest.TestCase):
    def setUp(self):
        self.script = (
            "".join(RULE.replace("1pt 0pt", f"{it}pt 0pt") for it in range(1, 501)) + SPECIALS
        )
        self.document = boxglue.marks(boxglue.run(self.script).check().dvi)
        gc.collect()

    def test_pages(self):
        pages = self.document.pages
        self.assertEqual((len(pages), repr(pages)), (502, "<Pages: 502>"))
        self.assertEqual(
            ([*pages[6].marks], pages[6].marks[0]),
            ([Rule(0, 7 * PT, 7 * PT, PT)], Rule(0, 7 * PT, 7 * PT, PT)),
        )
        self.assertEqual(
            [[*it.marks] for it in pages[5:8]], [[*pages[at].marks] for at in (5, 6, 7)]
        )
        self.assertEqual([*pages[-1].marks], [Special(0, 0, b"one")])
        self.assertRaises(IndexError, lambda: pages[502])

    def test_marks(self):
        marks = self.document.marks
        self.assertEqual(
            (len(marks), repr(marks), marks[6]), (505, "<Marks: 505>", Rule(0, 7 * PT, 7 * PT, PT))
        )
        for part in (
            slice(5, 8),
            slice(None, 20),
            slice(500, None),
            slice(None, None, -1),
            slice(3, 400, 7),
            slice(9, 9),
        ):
            self.assertEqual([*marks[part]], [*marks][part])
            self.assertEqual(marks[part].rows.tobytes(), marks.rows[part].tobytes())
        self.assertEqual(
            ([*marks], [*reversed(marks)]),
            ([marks[at] for at in range(505)], [marks[at] for at in range(504, -1, -1)]),
        )
        self.assertEqual([*marks.tuples()][6], (2, 0, 0, 0, 7 * PT, 7 * PT, PT, 0, 0))
        self.assertRaises(IndexError, lambda: self.document.pages[0].marks[1])

    def test_rows(self):
        rows = self.document.marks.rows
        self.assertEqual((rows.shape, rows.itemsize, rows.readonly), ((505,), 40, True))
        self.assertEqual(self.document.pages[6].marks.rows.tobytes(), rows[6:7].tobytes())
        marks = self.document.marks
        view = (
            memoryview(marks) if sys.version_info >= (3, 12) else marks.__buffer__(0)
        )  # Python before 3.12 does not ask classes
        self.assertEqual(
            (view.shape, view.readonly, view.tobytes()), ((505,), True, rows.tobytes())
        )

    def test_kinds(self):
        marks = boxglue.marks(boxglue.run(TEXT + SPECIALS, plain()).dvi, plain()).marks
        names = {MarkKind.GLYPH: Glyph, MarkKind.RULE: Rule, MarkKind.SPECIAL: Special}
        self.assertEqual([names[row[0]] for row in marks.tuples()], [type(it) for it in marks])
        self.assertEqual({type(it) for it in marks}, {Glyph, Rule, Special})

    def test_marks_cannot_be_changed(self):
        for mark in (
            self.document.marks[0],
            self.document.marks[-1],
            Glyph(0, 0, 0, 97, 0),
            self.document.units,
        ):
            self.assertRaises(AttributeError, setattr, mark, mark.__match_args__[0], 7)
            self.assertRaises((AttributeError, TypeError), setattr, mark, "other", 7)
        self.assertRaises(TypeError, self.document.marks.rows.cast("B").__setitem__, 0, 7)

    def test_copies(self):
        document = self.document
        for other in (pickle.loads(pickle.dumps(document)), copy.deepcopy(document)):
            self.assertEqual(other, document)
            self.assertEqual(
                (listing_of(other), other.units), (listing_of(document), document.units)
            )
            self.assertEqual(hash(other), hash(document))
        for part in (
            document.pages,
            document.pages[7],
            document.pages[3:5],
            document.marks,
            document.marks[::2],
        ):
            self.assertEqual(pickle.loads(pickle.dumps(part)), part)
        self.assertNotEqual(document.pages[7].marks, document.pages[8].marks)
        self.assertLess(len(pickle.dumps(document)), 200_000)

    def test_second_call(self):
        """A table that is too small at first is made again with what it needs."""
        with mock.patch.object(_marks, "_MOST_ROOM", 100), mock.patch.object(
            _marks, "_TEXT_ROOM", 1
        ):
            document = boxglue.marks(boxglue.run(self.script).dvi)
            self.assertEqual(refusal_of(boxglue.marks, b"").cause, "Trailer")
        self.assertEqual(document, self.document)

    def test_no_memory_for_a_table(self):
        with mock.patch("mmap.mmap", side_effect=OSError):
            self.assertRaises(MemoryError, boxglue.marks, boxglue.run(self.script).dvi)

    def test_numpy(self):
        try:
            import numpy
        except ImportError:
            self.skipTest("there is no numpy")
        table = numpy.asarray(self.document.marks.rows)
        self.assertTrue(
            numpy.shares_memory(table, numpy.asarray(self.document.pages[6].marks.rows))
        )
        self.assertFalse(table.flags.writeable)
        self.assertEqual(
            table.dtype.names,
            ("kind", "font", "code", "h", "v", "height", "width", "text_size", "text_start"),
        )
        self.assertEqual(table["v"][:500].tolist(), [it * PT for it in range(1, 501)])
        self.assertEqual([tuple(it) for it in table.tolist()], [*self.document.marks.tuples()])

    def test_table_outlives_the_document(self):
        rows = boxglue.marks(boxglue.run(self.script).dvi).marks.rows
        gc.collect()
        self.assertEqual(rows.tobytes(), self.document.marks.rows.tobytes())


if __name__ == "__main__":
    unittest.main()
