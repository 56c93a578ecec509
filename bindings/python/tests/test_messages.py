"""Tests of what exceptions say after a usual mistake: the way out, and that it works."""

import unittest

import boxglue
from boxglue import BadCharacter, BoxglueError, NeedsRecovery, Refused, pt

from .samples import TEXT, plain


class Messages(unittest.TestCase):
    def setUp(self):
        self.job = boxglue.Job({**plain(), "other": plain()["plain"]})
        self.addCleanup(self.job.close)
        self.job.use(self.job.load("plain"))

    def said(self, kind, call, *words, **named):
        """The text of the exception that a call raises."""
        with self.assertRaises(kind) as caught:
            call(*words, **named)
        return str(caught.exception)


class OfLists(Messages):
    def test_exception_in_a_with(self):
        """The calls that the message names, as they stand there, make the job go on."""
        with self.assertRaises(KeyError):
            with self.job.vbox(into=0), self.job.hbox():
                raise KeyError
        said = self.said(NeedsRecovery, self.job.kern, 1)
        self.assertEqual(
            said,
            "an exception left lists open (typed calls opened: vbox, hbox): end each by "
            'job.commands("end\\n"), then call job.recover(); or give recover() those that go on',
        )
        for call in ('job.commands("end\\n")', 'job.commands("end\\n")', "job.recover()"):
            self.assertIn(call, said)
            eval(call, {"job": self.job})
        with self.job.hbox(into=1) as box:
            self.job.kern(1)
        self.assertEqual((box.width, self.job.finish().accepted), (1, True))

    def test_end_that_is_forgotten(self):
        """A void register is often that of a box whose list is still open."""
        self.job.hbox(into=0)
        said = self.said(Refused, self.job.ship, 0)
        self.assertRegex(said, r"VoidBox: 'ship 0', called at .*; open lists: hbox \(line 3, ")
        (refused,) = self.job.commands("ship 0\n").refusals
        self.assertEqual([(it.form, it.line) for it in refused.open_lists], [("hbox", 3)])
        (refused, last) = boxglue.run("vbox into 0\nship 0\n").refusals
        self.assertEqual(str(refused), f"{refused_line(2, 'ship 0')}; open lists: vbox (line 1)")
        self.assertEqual(refused.open_lists, last.open_lists)
        (refused,) = boxglue.run("ship 0\n").refusals
        self.assertEqual(str(refused), refused_line(1, "ship 0"))

    def test_sizes_before_the_end(self):
        with self.job.vbox(into=0) as box:
            said = "this vbox is open: read its sizes after its `with` or `end`"
            self.assertEqual(self.said(BoxglueError, lambda: box.width), said)
            with self.job.par() as par:
                said = "this par is open: read its lines after its `with` or `end`"
                self.assertEqual(self.said(BoxglueError, lambda: par.lines), said)
        self.assertEqual((box.width, par.lines), (0, 0))
        box = self.job.hbox(into=0)
        self.job.commands("end\n")
        self.job.recover()
        self.assertIn("typed calls did not end it", self.said(BoxglueError, lambda: box.width))


def refused_line(line, command):
    """What a refusal of a void register says."""
    return f"line {line}: refused 21 VoidBox: {command!r}"


class OfTexts(Messages):
    def why(self, text, **words):
        """Why a character of a text is refused."""
        return self.said(BadCharacter, self.job.text, text, **words).partition(": ")[2]

    def test_letters(self):
        said = self.why("café")
        self.assertEqual(
            said,
            "scripts have only the characters 32 to 126; `text` and `paragraph` take others by "
            "encoding=boxglue.T1, with a font that has them",
        )
        with self.job.hbox(into=0):
            self.assertEqual(self.job.text("café", encoding=boxglue.T1).missing, 1)

    def test_lines(self):
        """The way out makes one line of the text."""
        text = "one\ntwo"
        for words in ({}, {"encoding": boxglue.T1}):
            said = self.why(text, **words)
            self.assertTrue(
                said.endswith('; a text is one line: send " ".join(text.split())'), said
            )
        with self.job.hbox(into=0):
            self.assertEqual(self.job.text(" ".join(text.split())).items, 7)

    def test_other_characters(self):
        """A character that no encoding has, and that is not white space, has no advice."""
        self.assertEqual(self.why("\0"), "scripts have only the characters 32 to 126")

    def test_characters_that_the_encoding_lacks(self):
        """T1 is named for what it has."""
        lacks = "the encoding lacks it: use a font and an encoding that have it"
        for text in "<é":
            said = f"{lacks}, such as boxglue.T1"
            self.assertEqual(
                (self.why(text, encoding=boxglue.OT1), text in boxglue.T1), (said, True)
            )
        self.assertEqual(self.why("漢", encoding=boxglue.OT1), lacks)
        self.assertEqual(self.why("漢", encoding=boxglue.T1), lacks)

    def test_name_of_an_encoding(self):
        said = "an encoding must be a mapping such as boxglue.T1, not 'T1'"
        for call in (self.job.text, self.job.paragraph):
            for text in ("", "a"):
                self.assertEqual(self.said(TypeError, call, text, encoding="T1"), said)

    def test_file_of_hyphens(self):
        self.assertEqual(
            self.said(TypeError, self.job.paragraph, "a", hyphens="hyphen.tex"),
            "hyphens must be a function from a word to places, such as "
            "hyphenation.Patterns.read(path), not 'hyphen.tex'",
        )

    def test_piece_of_another_kind(self):
        with self.job.vbox(into=0):
            said = self.said(TypeError, self.job.paragraph, ["a", 3])
        self.assertEqual(
            said,
            "a piece of a paragraph must be a text, a font of load(), a Glue, a Discretionary or a "
            "function, not 3",
        )


class OfFonts(Messages):
    def test_text_without_a_font(self):
        job = boxglue.Job(plain())
        with job.hbox(into=0):
            for call, given in ((job.text, "a"), (job.char, 65)):
                self.assertRegex(
                    self.said(Refused, call, given), "; no font is current: `use` chooses one$"
                )
            self.assertNotIn("current", self.said(Refused, job.use, 7))

    def test_font_that_the_job_does_not_have(self):
        said = self.said(Refused, self.job.load, "cmr11")
        self.assertRegex(
            said, r"NoFont: 'font 1 cmr11', called at .*; the job's fonts: plain, other$"
        )
        with self.assertRaisesRegex(Refused, "; the job's fonts: plain, other$"):
            with self.job.batch() as it:
                it.load("cmr11")
        (refused,) = self.job.commands("font 9 x\n").refusals
        self.assertEqual(refused.hint, "the job's fonts: plain, other")
        self.assertEqual(self.said(Refused, self.job.use, 7).count("fonts"), 0)
        self.assertTrue(
            self.said(Refused, boxglue.Job().load, "a").endswith("; the job has no fonts")
        )
        many = boxglue.Job({f"f{it}": b"" for it in range(20)})
        said = self.said(Refused, many.load, "a")
        self.assertTrue(
            said.endswith("; the job's fonts: f0, f1, f2, f3, f4, f5, f6, f7 and 12 more")
        )

    def test_font_that_a_file_needs(self):
        dvi = boxglue.run(TEXT, plain()).dvi
        for call in (boxglue.marks, boxglue.listing, boxglue.paint):
            for fonts in ((), {"other": plain()["plain"]}):
                said = "refused 4 NoFont; no metric file for 'plain'"
                self.assertEqual(self.said(Refused, call, dvi, fonts), said)

    def test_path_of_a_metric_file(self):
        said = 'a metric file must be bytes, such as Path("cmr10.tfm").read_bytes(), not str'
        self.assertEqual(self.said(TypeError, boxglue.metrics, "cmr10.tfm"), said)
        for call in (boxglue.Job, lambda fonts: boxglue.run("", fonts)):
            self.assertEqual(self.said(TypeError, call, {"cmr10": "cmr10.tfm"}), said)


class OfNumbers(Messages):
    def test_stretch(self):
        for words, what in ((("1fil",), "a stretch"), ((0, "1fil"), "a shrink")):
            said = f"{what} must be scaled points, or an amount and an order such as (1, \"fil\"), not '1fil'"
            self.assertEqual(self.said(TypeError, self.job.glue, 0, *words), said)
        self.assertIn("must be scaled points", self.said(TypeError, self.job.glue, 0, 1.5))

    def test_units(self):
        """The first way out is right for the call's own unit, and the second for all."""
        said = "'12pt' is not a number: leave out the unit, or call scaled_points('12pt')"
        for call in (pt, boxglue.inch):
            self.assertEqual(self.said(ValueError, call, "12pt"), said)
        self.assertEqual((boxglue.scaled_points("12pt"), pt("12")), (786432, 786432))
        for text in ("1,5", "1em"):
            self.assertEqual(self.said(ValueError, pt, text), f"{text!r} is not a number")
        self.assertEqual(
            self.said(ValueError, boxglue.scaled_points, "1em"),
            "'1em' is not a dimension: write a number and a unit, such as 12.5pt, without em or ex",
        )

    def test_large_lengths(self):
        most = "is too large: a dimension is at most 16383.99998pt"
        self.assertEqual(self.said(ValueError, pt, 20000), f"20000pt {most}")
        self.assertEqual(self.said(ValueError, boxglue.inch, "-300.5"), f"-300.5in {most}")
        for text in ("16384pt", "1073741824sp"):
            self.assertEqual(self.said(ValueError, boxglue.scaled_points, text), f"{text} {most}")
        self.assertEqual(
            self.said(ValueError, self.job.glue, 0, (20000, "fil")),
            "20000 is too large: an infinite stretch or shrink is at most 16383.99998",
        )
        self.assertEqual(boxglue.points((1 << 30) - 1), "16383.99998pt")

    def test_no_other_exception_before(self):
        """The exception is shown by itself."""
        with self.assertRaises(TypeError) as caught:
            self.job.penalty("high")
        self.assertTrue(caught.exception.__suppress_context__)


if __name__ == "__main__":
    unittest.main()
