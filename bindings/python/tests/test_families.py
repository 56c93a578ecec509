"""Tests of families of fonts. Fonts of plain width have all characters 5pt wide at 10pt, and spaces
of 5.25pt, as examples/plain-metrics makes them; those of letters have ligatures and kerns."""

import os
import struct
import tempfile
import unittest

import boxglue
from boxglue import pt
from boxglue.families import COMPUTER_MODERN, LATIN_MODERN, Fonts, Style

from .samples import plain
from .test_hyphenation import letters

# The fonts that the folder has: the mathematical ones have the metrics of plain width, too.
PLAIN = "cmr10 cmr7 cmbx10 cmti10 cmtt10 cmcsc10 cmsy10 cmmi10".split()
BODY = Style()


def texts(runs):
    """The names of the fonts of runs, and their texts."""
    return [(font.loaded.name, text) for font, text in runs]


def shown(job, register):
    """The characters of a box, with the number of their font."""
    return [
        (it.font, chr(it.code))
        for it in job.inspect(register).walk()
        if isinstance(it, boxglue.GlyphItem)
    ]


def slanted():
    """A metric file of `a` and `f`, whose italic corrections are an eighth and a quarter of the
    design size."""
    counts = 21, 2, 97, 102, 2, 1, 1, 3, 0, 0, 0, 0
    letters_there = 1 << 24 | 1 << 10, 0, 0, 0, 0, 1 << 24 | 2 << 10
    tables = 0, 1 << 19, 0, 0, 0, 1 << 17, 1 << 18
    return struct.pack(">12H15I", *counts, 0, 10 << 20, *letters_there, *tables)


class Folder(unittest.TestCase):
    """A folder of fonts that are called as TeX's."""

    def setUp(self):
        room = tempfile.TemporaryDirectory()
        self.addCleanup(room.cleanup)
        self.room = room.name
        self.fonts = self.fonts_of(dict.fromkeys(PLAIN, plain()["plain"]))

    def fonts_of(self, files, family=COMPUTER_MODERN, **words):
        """The fonts of these metric files."""
        for name, data in files.items():
            with open(os.path.join(self.room, f"{name}.tfm"), "wb") as it:
                it.write(data)
        found = Fonts(boxglue.FontFolder(self.room), family, **words)
        self.addCleanup(lambda: found.job.close())
        return found


class Families(Folder):
    """Tests of runs and their widths."""

    def test_faces(self):
        """Each style has its face, and the greatest design size that is not above its size."""
        sizes = Style(size=pt(8)), Style(size=pt(6)), Style(size=pt(30)), Style(size=pt(4))
        names = [LATIN_MODERN.designs("lmr"), LATIN_MODERN.designs("lmcsc")]
        self.assertEqual(names, [[5, 6, 7, 8, 9, 10, 12, 17], [10]])
        found = self.fonts_of({f"cmr{it}": plain()["plain"] for it in (5, 6, 8, 17)})
        faces = ["cmr8", "cmr6", "cmr17", "cmr5"]
        self.assertEqual([found.of(it)[0].loaded.name for it in sizes], faces)
        styles = {"cmbx10": Style(bold=True), "cmti10": Style(italic=True)}
        styles |= {"cmtt10": Style("tt"), "cmcsc10": Style("sc", bold=True)}
        for name, style in styles.items():
            self.assertEqual(self.fonts.of(style)[0].loaded.name, name)
        self.assertEqual(found.of(sizes[0])[0].loaded.size, pt(8))

    def test_names(self):
        self.assertIn("ec-lmri12", LATIN_MODERN.names())
        self.assertIn("ts1-lmtt8", LATIN_MODERN.names())
        self.assertIn("lmsy10", LATIN_MODERN.names())

    def test_missing_fonts(self):
        """A face without a metric file is said; a missing design size has another one."""
        self.assertEqual(self.fonts.of(Style(size=pt(9)))[0].loaded.name, "cmr7")
        with self.assertRaisesRegex(LookupError, "^no metric files for cmitt$"):
            self.fonts.of(Style("tt", italic=True))
        with self.assertRaisesRegex(LookupError, "^no metric files for lmr$"):
            Fonts(boxglue.FontFolder(self.room), LATIN_MODERN)

    def test_runs(self):
        """A character is in the first font that has it; the first font has the spaces."""
        self.assertEqual(texts(self.fonts.runs("a b", BODY)), [("cmr10", "a b")])
        mixed = [("cmr10", "a "), ("cmsy10", "∇"), ("cmr10", " "), ("cmmi10", "<"), ("cmr10", "b")]
        self.assertEqual(texts(self.fonts.runs("a ∇ <b", BODY)), mixed)

    def test_spelled_characters(self):
        self.assertEqual(texts(self.fonts.runs("a\xa0b…\xad", BODY)), [("cmr10", "a b...")])
        own = self.fonts_of({}, spelled={"→": "->"})
        self.assertEqual(texts(own.runs("→", BODY)), [("cmr10", "-"), ("cmmi10", ">")])

    def test_lost_characters(self):
        """What no font has is counted, and set without its accents, or as a question mark."""
        self.assertEqual(texts(self.fonts.runs("é語é", BODY)), [("cmr10", "e?e")])
        self.assertEqual(self.fonts.lost, {"é": 2, "語": 1})

    def test_measure(self):
        """A text is as wide as the box that the job makes of it."""
        fonts = self.fonts_of(dict.fromkeys(PLAIN, letters()["letters"]))
        for text in ("", "a", "office AVA", "two  spaces ", "--", "''Wafers''", "a ∇ b", " "):
            runs = fonts.runs(text, BODY)
            with fonts.job.batch() as it, it.hbox(into=0) as box:
                fonts.send(it, runs)
            self.assertEqual(fonts.measure(text, BODY), box.width, text)
        its = boxglue.metrics(plain()["plain"], pt(10))
        self.assertEqual(self.fonts.measure("ab c", BODY), 3 * its.width(97) + its.space)

    def test_widest(self):
        one = boxglue.metrics(plain()["plain"], pt(10)).width(97)
        self.assertEqual(self.fonts.widest("a bcd ef", BODY), 3 * one)
        self.assertEqual(self.fonts.widest("", BODY), 0)
        self.assertEqual(self.fonts.widest("abcd/efgh/ijkl", Style("tt")), 5 * one)

    def test_send(self):
        """Two hyphens stay two, and several spaces stay several."""
        fonts = self.fonts_of(dict.fromkeys(PLAIN, letters()["letters"]))
        with fonts.job.hbox(into=0):
            fonts.send(fonts.job, fonts.runs("a--ff  b", BODY))
        slot = fonts.of(BODY)[0].loaded.slot
        self.assertEqual(shown(fonts.job, 0), [(slot, it) for it in "a--\x0bb"])
        self.assertEqual(fonts.text_of(fonts.job.inspect(0)), "a--ﬀ  b")

    def test_raised(self):
        with self.fonts.job.hbox(into=0):
            self.fonts.send(self.fonts.job, self.fonts.runs("2", BODY), rise=pt(3))
        self.assertEqual(self.fonts.job.inspect(0).items[0].shift, -pt(3))

    def test_italic_correction(self):
        """It is what the metric file has for the last letter."""
        fonts = self.fonts_of({"cmti10": slanted()})
        for text, wanted in (("fa", "1.25"), ("af", "2.5"), ("", 0)):
            self.assertEqual(fonts.italic_correction(text, Style(italic=True)), pt(wanted))

    def test_slots_of_jobs(self):
        """A font has its slot in the next job, in whatever order it is used."""
        slots = {it: self.fonts.of(it)[0].loaded.slot for it in (BODY, Style("tt"), Style("sc"))}
        first, second = self.fonts.job, self.fonts.begin()
        self.assertTrue(first.closed and not second.closed)
        for it in (Style("sc"), BODY, Style("tt")):
            self.assertEqual(self.fonts.of(it)[0].loaded.slot, slots[it])
            with second.hbox(into=0):
                self.fonts.send(second, self.fonts.runs("a", it))
            self.assertEqual(shown(second, 0), [(slots[it], "a")])


class Pieces(Folder):
    """Tests of paragraphs of texts in styles."""

    def lines(self, parts, width=16000, hyphens=None, ragged=False):
        """The texts of the lines of a paragraph."""
        job = self.fonts.job
        job.set(hsize=pt(width), tolerance=10_000, parfillskip=boxglue.Glue(0, (1, "fil")))
        pieces = [*self.fonts.pieces(parts, ragged=ragged)]
        with job.vbox(into=0):
            job.paragraph(pieces, hyphens=hyphens, encoding=self.fonts.encoding)
        lines = job.inspect(0).lines()
        return [self.fonts.text_of(it).strip() for it in lines], lines

    def test_styles(self):
        parts = [("one ", BODY), ("two", Style(bold=True)), (" three ∇", BODY)]
        self.assertEqual(self.lines(parts)[0], ["one two three ∇"])

    def test_functions(self):
        """What is no text is sent as it is."""
        parts = [("one", BODY), (lambda it: it.special("between"), BODY), ("two", BODY)]
        texts_of_lines, lines = self.lines(parts)
        specials = [it.text for it in lines[0].items if isinstance(it, boxglue.SpecialItem)]
        self.assertEqual((texts_of_lines, specials), (["onetwo"], [b"between"]))

    def test_ends_of_lines(self):
        for ragged in (False, True):
            self.assertEqual(self.lines([("one\ntwo", BODY)], ragged=ragged)[0], ["one", "two"])

    def test_ragged(self):
        """Spaces of a ragged line have their own width."""
        parts, one = [("aaaa bb cccc dddd", BODY)], self.fonts.measure(" ", BODY)
        found, lines = self.lines(parts, width=45, ragged=True)
        self.assertEqual(found, ["aaaa bb", "cccc", "dddd"])
        spaces = [it for it in lines[0].items if isinstance(it, boxglue.GlueItem) and it.width]
        self.assertEqual(sum(it.set_width for it in spaces if it.width > 0), one)

    def test_hyphens(self):
        """Words get hyphens, and paths and code get none, but end lines elsewhere."""
        rule = {"aaaaaaaa": [4]}.get
        parts = [("b aaaaaaaa", BODY)]
        self.assertEqual(self.lines(parts, 40, lambda it: rule(it, []))[0], ["b aaaa-", "aaaa"])
        path = [("aaa/bbb/ccc", Style("tt"))]
        self.assertEqual(self.lines(path, 42, lambda it: [1])[0], ["aaa/bbb/", "ccc"])

    def test_italic_corrections(self):
        """One is between slanted and upright, and none before a period."""
        self.fonts = self.fonts_of({"cmti10": letters()["letters"]})
        slanted = ("T", Style(italic=True))
        kerns = {}
        for after in ("a", ".", ""):
            parts = [slanted, (after, BODY)] if after else [slanted]
            items = self.lines(parts)[1][0].items
            kerns[after] = len([it for it in items if isinstance(it, boxglue.KernItem)])
        self.assertEqual(kerns, {"a": 1, ".": 0, "": 1})


if __name__ == "__main__":
    unittest.main()
