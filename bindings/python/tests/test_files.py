"""Tests of DVI files that are listed, painted and asked for their fonts."""
import struct
import unittest

import boxglue

from .samples import RULE, TEXT, plain


def metrics_of_width(width):
    """A metric file of one character, `a`, of this width in 2^20ths of the design size."""
    counts = 14, 2, 97, 97, 2, 1, 1, 1, 0, 0, 0, 0
    return struct.pack(">12H8I", *counts, 0, 10 << 20, 1 << 24, 0, width, 0, 0, 0)


class Pages(unittest.TestCase):
    def setUp(self):
        self.dvi = boxglue.run(RULE).dvi

    def test_listing(self):
        self.assertEqual(
            boxglue.listing(self.dvi),
            "page 1 counts 0 0 0 0 0 0 0 0 0 0\nrule 0 65536 65536 65536\n",
        )

    def test_bad_file(self):
        for call in (boxglue.listing, boxglue.paint, boxglue.fonts):
            with self.assertRaises(boxglue.Refused) as caught:
                call(self.dvi[:74])
            self.assertEqual(
                (caught.exception.name, caught.exception.number, caught.exception.detail),
                ("BadDvi", 20, "74 Trailer"),
            )

    def test_missing_metrics(self):
        dvi = boxglue.run(TEXT, plain()).dvi
        for call in (boxglue.listing, boxglue.paint):
            with self.assertRaises(boxglue.Refused) as caught:
                call(dvi)
            self.assertEqual(caught.exception.name, "NoFont")

    def test_check(self):
        dvi = boxglue.run(TEXT, plain()).dvi
        cut = plain()["plain"][:8]
        self.assertIsNone(boxglue.check(self.dvi))
        self.assertIsNone(boxglue.check(dvi, plain()))
        self.assertEqual(
            boxglue.check(self.dvi[:74]), boxglue.Fault("BadDvi", 20, cause="Trailer", place=74)
        )
        self.assertEqual(boxglue.check(dvi), boxglue.Fault("NoFont", 4, missing="plain"))
        self.assertEqual(
            boxglue.check(dvi, {"plain": cut}), boxglue.Fault("BadTfm", 5, cause="TooShort", font=0)
        )
        self.assertEqual(
            boxglue.check(
                dvi.replace(b"\xf3\x00", b"\xf3\x09").replace(b"\xab", b"\xb4"), {"plain": cut}
            ).font,
            9,
        )
        self.assertRaises(boxglue.BadFontName, boxglue.check, dvi, {"": b""})

    def test_check_of_a_large_font(self):
        """A metric file that is too large at the size of its font."""
        script = "font 9 a at 2047pt\nuse 9\nhbox into 0\nchar 97\nend\nship 0\n"
        dvi = boxglue.run(script, {"a": metrics_of_width(1 << 19)}).check().dvi
        found = boxglue.check(dvi, {"a": metrics_of_width((1 << 24) - 1)})
        self.assertEqual(found, boxglue.Fault("DimensionTooLarge", 3, font=9))

    def test_check_of_a_long_name(self):
        """The longest name that a font may have is given whole."""
        name = "n" * 255
        script = f"font 0 {name}\nuse 0\nhbox into 0\nchar 97\nend\nship 0\n"
        dvi = boxglue.run(script, {name: metrics_of_width(1 << 19)}).check().dvi
        self.assertEqual(boxglue.check(dvi), boxglue.Fault("NoFont", 4, missing=name))

    def test_bitmap(self):
        bitmap = boxglue.paint(self.dvi, width=4, height=3)
        self.assertEqual(
            (bitmap.pbm, bitmap.rows), ("P1\n4 3\n1100\n1100\n0000\n", ["1100", "1100", "0000"])
        )
        self.assertEqual((bitmap.size, repr(bitmap)), ((4, 3), "<a bitmap of 4 by 3 pixels>"))
        wide = boxglue.paint(self.dvi, width=150, height=2)
        self.assertEqual([len(it) for it in wide.rows], [150, 150])
        self.assertEqual(len(boxglue.paint(self.dvi).rows), 1100)

    def test_missing_page(self):
        self.assertRaises(boxglue.NoSuchPage, boxglue.paint, self.dvi, page=2)

    def test_numbers_out_of_range(self):
        for words in (
            {"page": 0},
            {"page": -1},
            {"page": (1 << 32) + 1},
            {"dpi": 10_001},
            {"dpi": -1},
            {"width": 0},
            {"width": 10_001},
            {"height": (1 << 32) + 1},
        ):
            self.assertRaises(boxglue.OutOfRange, boxglue.paint, self.dvi, **words)


if __name__ == "__main__":
    unittest.main()
