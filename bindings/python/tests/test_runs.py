"""Tests of runs of scripts, and of the fonts that are handed in."""
import gc
import threading
import unittest

import boxglue

from .samples import ANSWERS, RULE, TEXT, plain


class Runs(unittest.TestCase):
    def test_page_of_one_rule(self):
        ran = boxglue.run(RULE)
        self.assertEqual((ran.answers_text, len(ran.dvi), ran.accepted), (ANSWERS, 116, True))
        self.assertIs(ran.check(), ran)
        self.assertEqual(repr(ran), "Run(replies=<Replies: 5>, accepted=True)")

    def test_types_of_scripts(self):
        for script in (RULE.encode(), bytearray(RULE, "ascii"), memoryview(RULE.encode())):
            self.assertEqual(boxglue.run(script), boxglue.run(RULE))

    def test_empty_script(self):
        ran = boxglue.run("")
        self.assertEqual(
            ([*ran.replies], ran.answers_text, ran.dvi, ran.accepted),
            ([boxglue.End(0, 0)], "end: pages 0 bytes 0\n", b"", True),
        )

    def test_refused_command(self):
        ran = boxglue.run("ship 3\nend\n" + RULE)
        self.assertFalse(ran.accepted)
        self.assertEqual(
            [(it.line, it.number, it.name) for it in ran.refusals],
            [(1, 21, "VoidBox"), (2, 7, "NoOpenList")],
        )
        self.assertEqual(len(ran.dvi), 116)
        with self.assertRaises(boxglue.Refused) as caught:
            ran.check()
        self.assertEqual(
            (caught.exception.name, str(caught.exception)),
            ("VoidBox", "line 1: refused 21 VoidBox: 'ship 3'"),
        )

    def test_bad_script(self):
        (refused,) = boxglue.run("hbox into 0\nkern x\n").refusals
        self.assertEqual(
            (refused.line, refused.number, refused.name, refused.cause),
            (2, 2, "BadScript", "Dimension"),
        )

    def test_characters_beyond_ascii(self):
        self.assertEqual(boxglue.run("text ä\n").refusals[0].detail, "1 Byte")

    def test_open_list_at_the_end(self):
        (refused,) = boxglue.run("hbox into 0\n").refusals
        self.assertEqual((refused.line, refused.name), (None, "ListsOpen"))

    def test_outputs_that_need_larger_buffers(self):
        ran = boxglue.run(
            RULE
            + "copy 0\nmeasure 1\n" * 5000
            + "".join(RULE.replace("1pt 0pt", f"{it}pt 0pt") for it in range(1, 2001))
        )
        self.assertEqual(ran.answers_text.count("\n"), 4 + 10_000 + 8000 + 1)
        self.assertEqual(ran.answers_text.splitlines()[-1], f"end: pages 2001 bytes {len(ran.dvi)}")
        self.assertEqual(boxglue.listing(ran.dvi).count("\nrule"), 2001)

    def test_many_runs_in_threads(self):
        found = []
        threads = [
            threading.Thread(target=lambda: found.extend(boxglue.run(RULE) for _ in range(200)))
            for _ in range(4)
        ]
        for it in threads:
            it.start()
        for it in threads:
            it.join()
        self.assertEqual(found, [boxglue.run(RULE)] * 800)

    def test_version(self):
        more = (
            "" if boxglue.__version__ == boxglue.version() else ".dev0+unproved"
        )  # as in the wheel of a library that is not proved
        self.assertEqual(boxglue.__version__, boxglue.version() + more)
        self.assertFalse(more and boxglue.proved())


class Fonts(unittest.TestCase):
    def test_first_font_of_a_name_counts(self):
        good, bad = plain()["plain"], b"bad"
        self.assertTrue(boxglue.run(TEXT, [("plain", good), ("plain", bad)]).accepted)
        self.assertEqual(
            boxglue.run(TEXT, [("plain", bad), ("plain", good)]).refusals[0].name, "BadTfm"
        )
        self.assertEqual(boxglue.run(TEXT).refusals[0].name, "NoFont")

    def test_fonts_that_nothing_else_keeps(self):
        pairs = (("".join(it), bytes(plain()["plain"])) for it in ("plain", "other"))
        self.assertTrue(boxglue.run(TEXT, pairs).accepted)
        gc.collect()

    def test_fonts_that_are_no_pairs(self):
        for wrong in (["plain"], [7], [("plain",)]):
            self.assertRaisesRegex(TypeError, "a font must be a pair", boxglue.run, TEXT, wrong)

    def test_bad_names(self):
        for name in ("", "n" * 256):
            for call in (boxglue.run, boxglue.listing, boxglue.paint):
                self.assertRaises(boxglue.BadFontName, call, RULE.encode(), {name: b""})

    def test_fonts_of_a_file(self):
        dvi, check_sum = boxglue.run(TEXT, plain()).check().dvi, int.from_bytes(
            plain()["plain"][24:28], "big"
        )
        self.assertEqual(
            boxglue.fonts(dvi),
            [
                boxglue.DviFont(0, "plain", 10 << 16, 10 << 16, check_sum),
                boxglue.DviFont(7, "plain", 5 << 16, 10 << 16, check_sum),
            ],
        )
        self.assertEqual(boxglue.fonts(boxglue.run(RULE).dvi), [])
        with self.assertRaises(boxglue.Refused) as caught:
            boxglue.fonts(dvi[:100])
        self.assertEqual(caught.exception.name, "BadDvi")

    def test_fonts_that_need_larger_buffers(self):
        uses = "".join(f"font {it} plain at {it + 1}pt\nuse {it}\ntext a\n" for it in range(200))
        dvi = boxglue.run(f"hbox into 0\n{uses}end\nship 0\n", plain()).check().dvi
        self.assertEqual([it.number for it in boxglue.fonts(dvi)], [*range(200)])


if __name__ == "__main__":
    unittest.main()
