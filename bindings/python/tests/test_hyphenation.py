"""Tests of paragraphs with hyphens. Words and their places are TeX's (TeX: The Program, §891 to
931); the lines of 600 paragraphs are compared in tests/run."""
import os
import sys
import tempfile
import unittest
import warnings
from unittest import mock

import boxglue
from boxglue import BoxglueError, Glue, NeedsRecovery, Refused, hyphenation, pt
from boxglue.hyphenation import Discretionary, HyphenatedParagraph, HyphenPlace, Patterns

from .samples import EXAMPLES, plain

WIDE, FORCED = pt(16000), -10000
LIGATURES = {11: "ff", 12: "fi", 13: "fl", 14: "ffi", 15: "ffl", 123: "--", 124: "---"}


def letters():
    """The font of letters, with ligatures and kerns, which examples/plain-metrics makes."""
    with open(f"{EXAMPLES}/letters.tfm", "rb") as it:
        return {"letters": it.read()}


def everywhere(word):
    """A rule by which each place of a word is one."""
    return range(1, len(word))


def after(*parts):
    """A rule for words that begin with one of these parts: it ends the place."""
    return lambda word: [len(it) for it in parts if word.startswith(it) and word != it]


def text_of(line):
    """The characters of a line, with a space for glue."""
    found = [
        " " if isinstance(it, boxglue.GlueItem) else LIGATURES.get(it.code, chr(it.code))
        for it in line.walk()
        if isinstance(it, (boxglue.GlueItem, boxglue.GlyphItem))
    ]
    return "".join(found)


class Paragraphs(unittest.TestCase):
    """Tests with a job in the font of letters."""

    def setUp(self):
        self.job = boxglue.Job({**letters(), **plain()})
        self.addCleanup(self.job.close)
        self.job.use(self.job.load("letters"))
        self.job.set(hsize=WIDE, pretolerance=-1, tolerance=10000)

    def lines(self, pieces, hyphenpenalty=FORCED, exhyphenpenalty=FORCED, **words):
        """The texts of the lines of a paragraph, which is broken at each place within words that is
        offered, and by its width at no other."""
        with self.job.vbox(into=0):
            self.done = self.job.paragraph(
                pieces, hyphenpenalty=hyphenpenalty, exhyphenpenalty=exhyphenpenalty, **words
            )
        return [text_of(line).strip() for line in self.job.inspect(0).lines()]

    def words(self, text, rule=everywhere, **words):
        """A text with a hyphen at each place that is offered."""
        return "".join(self.lines(text, hyphens=rule, **words))


class Rules(unittest.TestCase):
    def test_module(self):
        """It is loaded when it is first used."""
        self.assertIs(boxglue.hyphenation, hyphenation)
        self.assertTrue(
            all(
                getattr(hyphenation, it).__doc__
                for it in hyphenation.__all__
                if it not in ("Piece", "Rule")
            )
        )

    def parts(self, patterns, word):
        """A word with a hyphen at each place."""
        ends = [0, *patterns(word), len(word)]
        return "-".join(word[a:b] for a, b in zip(ends, ends[1:]))

    def test_values(self):
        """The greatest value counts, and an odd one is a place (Appendix H of The TeXbook, whose
        example this is)."""
        patterns = Patterns("hy3ph he2n hena4 hen5at 1na n2at 1tio 2io o2n".split())
        self.assertEqual(self.parts(patterns, "hyphenation"), "hy-phen-ation")
        self.assertEqual(self.parts(patterns, "Hyphenation"), "Hy-phen-ation")
        self.assertEqual(Patterns(["a1b", "a2bc"])("xabcxx"), ())
        self.assertEqual(Patterns(["a1b", "a2bc", "a3bcd"])("xabcdx"), (2,))

    def test_edges(self):
        """A period is the edge of a word."""
        patterns = Patterns([".ab1", "1yz."], left=1, right=1)
        self.assertEqual([patterns(it) for it in ("abyz", "xabyz", "abyzx")], [(2,), (3,), (2,)])

    def test_least_letters(self):
        every = {
            it: Patterns(["1a"], left=it[0], right=it[1])
            for it in ((1, 1), (2, 3), (0, 0), (3, 2), (100, 1))
        }
        found = {it: rule("aaaaaa") for it, rule in every.items()}
        self.assertEqual(
            found,
            {
                (1, 1): (1, 2, 3, 4, 5),
                (2, 3): (2, 3),
                (0, 0): (1, 2, 3, 4, 5),
                (3, 2): (3, 4),
                (100, 1): (),
            },
        )

    def test_exceptions(self):
        """They come before the patterns, and before them the least numbers of letters."""
        patterns = Patterns(["1e"], ["re-cord", "project", "a-re-na-s"])
        self.assertEqual(
            [
                self.parts(patterns, it)
                for it in ("record", "Record", "project", "arenas", "beheld")
            ],
            ["re-cord", "Re-cord", "project", "are-nas", "beh-eld"],
        )

    def test_letter_for_letter(self):
        """What has two characters in lower case stays one."""
        self.assertEqual(Patterns(["1a"])("İİaaaa"), (2, 3))
        self.assertEqual(Patterns(["1é"])("NÉÉÉÉN"), (2, 3))

    def test_files(self):
        """The form of hyphen.tex, and that of hyph-de-1996.tex with the least numbers of letters in
        its comments."""
        with tempfile.TemporaryDirectory() as folder:
            path = f"{folder}/hyph-xx.tex"
            with open(path, "w", encoding="utf-8") as it:
                it.write(
                    "% hyphenmins:\n%     typesetting:\n%         left: 1\n%         right: 4\n\\message{a}\n\\patterns{ % 1b\n1ä ta1\n1'\n}\n\\hyphenation{\nta-ble as-so-ciate}\n"
                )
            patterns = Patterns.read(path)
            self.assertEqual(
                (
                    [patterns(it) for it in ("tätäää", "associate", "table", "taäbbbb")],
                    patterns.letters,
                    patterns.left,
                    patterns.right,
                ),
                ([(1,), (2, 4), (), (2,)], {"'"}, 1, 4),
            )
            self.assertEqual(
                Patterns.read(path, exceptions=["tab-le"], left=2, right=2)("table"), (3,)
            )
            with open(path, "w", encoding="utf-8") as it:
                it.write("% \\patterns{1a}\n")
            self.assertRaisesRegex(ValueError, "has no", Patterns.read, path)
        self.assertRaises(OSError, Patterns.read, path)
        self.assertRaisesRegex(ValueError, "no letters", Patterns, ["12"])
        self.assertEqual(
            repr(Patterns(["1ab"], ["ta-ble"])),
            "<boxglue.hyphenation.Patterns: 2 keys, 1 exceptions, 2 and 3 letters>",
        )

    def test_examples(self):
        patterns = (
            Patterns.read(f"{EXAMPLES}/layout/patterns.tex")
            if os.path.isdir(f"{EXAMPLES}/layout")
            else self.skipTest("a source distribution")
        )
        self.assertEqual(
            [self.parts(patterns, it) for it in ("difficult", "neighbourhood", "table")],
            ["dif-fi-cult", "neigh-bour-hood", "ta-ble"],
        )


class Words(Paragraphs):
    def test_first_words(self):
        """A word is hyphenated after glue."""
        self.assertEqual(self.words("ab cd"), "ab c-d")
        self.assertEqual(self.words("ab cd", first_word=True), "a-b c-d")
        self.assertEqual(self.words(" ab cd"), "a-b c-d")
        self.assertEqual(self.words([Glue(0), "ab"]), "a-b")
        self.assertEqual(self.words([lambda it: it.glue(1), "ab"]), "a-b")
        self.assertEqual(self.words([lambda it: it.kern(1), "ab"]), "ab")

    def test_letters(self):
        """The first letters after other characters are hyphenated; no other characters are."""
        self.assertEqual(self.words("a (bcd)"), "a (b-c-d)")
        self.assertEqual(self.words("a `bc'de"), "a `b-c'de")
        self.assertEqual(self.words("a b1cd efg2"), "a b1cd e-f-g2")
        self.assertEqual(self.words("a 1234 Bcd"), "a 1234 B-c-d")
        self.assertEqual(
            self.words("a " + "b" * 65, after("b" * 62, "b" * 63)), f"a {'b' * 62}-bbb"
        )
        rule = Patterns(["1b", "'1"], left=1, right=1)
        self.assertEqual((rule.letters, self.words("a ab'bb", rule)), ({"'"}, "a a-b'-b-b"))

    def test_explicit_hyphens(self):
        """They are places, except before glue; a word with one is not hyphenated."""
        self.assertEqual(
            self.lines("ab-cd ef--gh---ij kl- mn-", hyphens=everywhere),
            ["ab-", "cd ef--", "gh---", "ij kl- mn-"],
        )
        self.assertEqual(self.lines("a -bc d-", hyphens=everywhere), ["a -", "bc d-"])
        self.assertEqual(self.lines(["a bc-", lambda it: it.special("x"), "de"]), ["a bc-", "de"])
        self.assertEqual(self.lines("ab-cd", exhyphenpenalty=10000), ["ab-cd"])
        self.assertEqual(self.done.places, ())

    def test_neighbours_of_words(self):
        """Kerns, penalties, specials and glue let the word before them be hyphenated, and specials
        stand before one; boxes, rules and discretionaries do not (§896, §899)."""
        allowed = (
            lambda it: it.kern(1),
            lambda it: it.penalty(10000),
            lambda it: it.special("x"),
            lambda it: it.glue(1),
        )
        for piece in allowed:
            self.assertEqual(self.words(["x ab", piece]), "x a-b")
        for piece, shown in (
            (lambda it: it.rule(1, 1, 1), ""),
            (lambda it: it.hbox().end(), ""),
            (lambda it: it.char(33), "!"),
            (Discretionary("", "", "y", 10000), "y"),
        ):
            self.assertEqual(self.words(["x ab", piece]), f"x ab{shown}")
        self.assertEqual(self.words(["x ", allowed[2], "ab"]), "x a-b")
        self.assertEqual(self.words(["x ", allowed[0], "ab"]), "x ab")
        self.assertEqual(self.words(["x ", "a", "b"]), "x a-b")
        self.assertEqual(self.words(["x ab", allowed[2], "cd-e"]), "x a-bcd-e")
        self.assertEqual(self.words(["x ab", self.job.load("letters", at=pt(5)), "-e"]), "x ab-e")

    def test_fonts(self):
        """The letters of one font are a word; the next font's are none, as they follow no glue."""
        other = self.job.load("letters", at=pt(5))
        self.assertEqual(self.words(["x ab", other, "cd"]), "x a-bcd")
        self.assertEqual((self.job._state.current, self.words("x ab")), (other, "x a-b"))
        self.assertEqual(self.words(["x ", self.job.load("letters"), "(", other, "ab)"]), "x (a-b)")
        sizes = {
            it.font
            for line in self.job.inspect(0).lines()
            for it in line.items
            if isinstance(it, boxglue.GlyphItem)
        }
        self.assertEqual(sizes, {other.slot, 0})
        self.assertEqual(self.words(["x ab", lambda it: it.use(0), "cd"]), "x a-bcd")
        self.assertEqual(self.job._state.current.slot, 0)

    def test_missing_characters(self):
        """A word with a character that the font lacks is not hyphenated. The font plain has no
        ligatures, and letters no braces but dashes."""
        self.assertEqual(self.words("x ab~cd"), "x abcd")

    def test_encodings(self):
        """A text is in characters, and the font in codes: here é is a ligature of f and i, by its
        code, and the rule sees é."""
        encoding = {**boxglue.OT1, "é": 12}
        self.assertEqual(
            self.words("x aéb cé", after("aé", "c"), encoding=encoding), "x afi-b c-fi"
        )
        self.assertEqual(self.words("x ab", encoding=encoding), "x a-b")
        self.assertRaises(boxglue.BadCharacter, self.job.paragraph, "x aé")
        self.assertRaises(boxglue.BadCharacter, self.job.paragraph, "x aü", encoding=encoding)


class Ligatures(Paragraphs):
    def places(self, word, *places):
        """A word with those of its places that are offered."""
        return self.words(f"x {word}", lambda its: places if its == word else ())[2:]

    def test_one_place_of_a_ligature(self):
        """TeX offers the first of two places within one ligature (§914)."""
        self.assertEqual(self.places("office", 2, 3), "of-fice")
        self.assertEqual(self.places("office", 2, 4), "of-fi-ce")
        self.assertEqual(self.places("office", 3, 4), "off-i-ce")
        self.assertEqual(self.places("affa", 1, 2), "a-f-fa")

    def test_widths(self):
        """Parts and hyphens have the widths of the font: ligatures, kerns, and kerns with a
        hyphen."""
        for word, at in (
            ("office", 2),
            ("waver", 2),
            ("toying", 2),
            ("art", 2),
            ("eighteen", 6),
            ("affect", 2),
        ):
            (line, _), whole = self.boxes(word, at), self.width(word)
            self.assertEqual(line, self.width(word[:at] + "-"), word)
            trial = self.job.inspect(0)
            self.assertEqual(trial.lines()[0].natural_size, whole, word)

    def boxes(self, word, at):
        """The widths of the lines of a word that is broken, and in register 0 the word that is
        not."""
        with self.job.vbox(into=1):
            self.job.paragraph(word, hyphens=lambda _: [at], first_word=True, hyphenpenalty=FORCED)
        found = [it.natural_size for it in self.job.inspect(1).lines()]
        with self.job.vbox(into=0):
            done = self.job.paragraph(word, hyphens=lambda _: [at], first_word=True)
        self.assertEqual((len(found), done.places), (2, ()), word)
        return found

    def width(self, text):
        """The width of a text."""
        with self.job.hbox(into=9) as box:
            self.job.text(text)
        return box.width

    def test_kern_after_a_hyphen(self):
        """It stays at the beginning of the line, as in TeX (§879). The font has one between - and
        T."""
        with self.job.vbox(into=0):
            self.job.paragraph("a-To", exhyphenpenalty=FORCED)
        kern = self.width("-T") - self.width("-") - self.width("T")
        self.assertEqual(
            [it.natural_size for it in self.job.inspect(0).lines()],
            [self.width("a-"), kern + self.width("To")],
        )
        self.assertNotEqual(kern, 0)


class Discretionaries(Paragraphs):
    def test_three_parts(self):
        pieces = ["Dru", Discretionary("k-", "k", "ck"), "er"]
        self.assertEqual(self.lines(pieces), ["Druk-", "ker"])
        self.assertEqual(self.done.places, (HyphenPlace(1, "k-", "k"),))
        self.assertEqual((self.lines(pieces, hyphenpenalty=0), self.done.places), (["Drucker"], ()))

    def test_no_ligatures_across(self):
        """A discretionary is apart from the letters beside it, broken or not."""
        self.assertEqual(self.lines(["f", Discretionary(), "i"], hyphenpenalty=0), ["fi"])
        self.assertEqual(
            [
                it.code
                for it in self.job.inspect(0).lines()[0].items
                if isinstance(it, boxglue.GlyphItem)
            ],
            [102, 105],
        )

    def test_where_it_stands(self):
        """After glue, before it, beside another one, and alone. Before glue one needs a part for
        the next line."""
        self.assertEqual(self.lines(["a ", Discretionary("b-", "c", "d"), "e"]), ["a b-", "ce"])
        self.assertEqual(self.lines(["a", Discretionary(), " b"]), ["a b"])
        self.assertEqual(self.lines(["a", Discretionary("", "c", "d"), " b"]), ["a", "c b"])
        self.assertEqual(
            self.lines(["a", Discretionary("-", "", ""), Discretionary("+", "", ""), "b"]),
            ["a-", "+", "b"],
        )
        self.assertEqual(self.lines([Discretionary("x", "y", "z")]), ["x", "y"])

    def test_at_the_beginning_of_a_line(self):
        """What follows a break at glue is unbroken."""
        self.job.set(hsize=pt(12))
        self.assertEqual(
            self.lines(["aa ", Discretionary("b-", "c", "dd"), " ee"], hyphenpenalty=5000),
            ["aa", "dd", "ee"],
        )

    def test_penalties(self):
        """The square of its penalty is in the demerits: one of its own, or as it has a part before
        the break or not."""
        for piece, penalty in (
            (Discretionary(), 40),
            (Discretionary(""), 30),
            (Discretionary(penalty=20), 20),
        ):
            self.job.set(hsize=pt(6))
            self.lines(["a", piece, "b"], hyphenpenalty=40, exhyphenpenalty=30)
            at = self.done.demerits
            self.lines(["a", piece.__class__(piece.before, penalty=0), "b"])
            self.assertEqual((len(self.done.places), at - self.done.demerits), (1, penalty**2))
        self.assertEqual(self.lines(["a", Discretionary(penalty=10000), "b"]), ["ab"])
        self.assertRaises(ValueError, self.lines, ["a", Discretionary(penalty=10**9), "b"])


class Jobs(Paragraphs):
    TEXT = "We wondered at the difficult affairs of government, and at its efficient officials."

    def test_result(self):
        """The numbers are those of the trial, and pretolerance is as before."""
        self.job.set(hsize=pt(100), pretolerance=17, tolerance=9000)
        rule = after("af", "dif", "of", "ef", "offi", "won", "gov")
        with self.job.vbox(into=0):
            done = self.job.paragraph(self.TEXT, hyphens=rule)
            with self.job.par() as par:
                self.job.text(self.TEXT)
        self.assertIsInstance(done, HyphenatedParagraph)
        self.assertEqual((done.deciding_pass, self.job._state.pretolerance), (2, 17))
        self.assertTrue(done.places and all(it.before.endswith("-") for it in done.places))
        self.assertEqual(len(self.job.inspect(0).lines()), done.lines + par.lines)

    def test_first_pass(self):
        """Where the first pass decides, no place of the rule is tried, even if it would cost
        less."""
        self.job.set(hsize=pt(62), pretolerance=10000)
        lines = self.lines("aaaa bbbbbb cccc dddd", hyphens=everywhere)
        self.assertEqual(
            (self.done.deciding_pass, self.done.places, "".join(lines)),
            (1, (), "aaaa bbbbbbcccc dddd"),
        )

    def test_pretolerance_of_scripts(self):
        self.job.commands("set pretolerance 33\nset pretolerance -7\n special set pretolerance 5\n")
        self.assertEqual(self.job._state.pretolerance, -7)
        self.job.commands("set pretolerance 33\nset pretolerance x\n")
        self.assertEqual(self.job._state.pretolerance, -7)
        with self.job.batch() as it:
            it.set(pretolerance=41)
        self.assertEqual(self.job._state.pretolerance, 41)
        self.lines("ab-cd ef", hyphens=everywhere)
        self.assertEqual(self.job._state.pretolerance, 41)

    def test_empty(self):
        self.assertEqual((self.lines(""), self.done), ([], HyphenatedParagraph(0, 0, 0, 0, ())))
        self.assertEqual(self.lines([]), [])
        self.assertEqual(self.lines(" "), [""])

    def test_many_places(self):
        """8,192 legal places are allowed, the end among them. Above, no place of the rule is
        offered."""
        text = "a " + "bc " * 4095 + "d"
        with warnings.catch_warnings():
            warnings.simplefilter("error")
            self.lines(text, hyphens=everywhere, hyphenpenalty=50)
        with self.assertWarnsRegex(UserWarning, "8,193 places for breaks") as caught:
            self.lines(text[:-1] + "de", hyphens=everywhere, hyphenpenalty=50)
        self.assertEqual((caught.filename, self.done.places), (__file__, ()))

    def test_many_items(self):
        """The marks of places count as items. If the list becomes too long, no place of the rule is
        offered."""
        word = "b" * 30
        with self.assertWarnsRegex(UserWarning, "too many items"):
            self.lines(
                "a " + f"{word} " * 1600, hyphens=lambda _: (5, 10, 15, 20), hyphenpenalty=50
            )
        self.assertEqual(self.done.places, ())

    def test_boxes(self):
        """A function adds items at each setting."""
        with self.job.hbox(into=7):
            self.job.text("box")

        def framed(it):
            with it.hbox():
                it.text("in")

        self.assertEqual(
            self.lines(["a ", lambda it: it.copy(7), "c-d ", framed, " b"]), ["a boxc-", "d in b"]
        )

    def test_functions_that_are_wrong(self):
        for piece in (
            lambda it: it.vbox(into=3),
            lambda it: it.load("plain"),
            lambda it: it.commands("kern 1pt"),
        ):
            with self.job.vbox(into=1):
                self.assertRaises((BoxglueError, AttributeError), self.job.paragraph, ["a", piece])
            self.assertEqual(self.lines("a b"), ["a b"])

    def test_without_a_list(self):
        with self.assertRaises(Refused) as caught:
            self.job.paragraph("a bc", hyphens=everywhere)
        self.assertEqual(
            (caught.exception.name, caught.exception.command, caught.exception.caller[0]),
            ("NoOpenList", "par", __file__),
        )
        with self.job.hbox(into=1):
            self.assertRaises(Refused, self.job.paragraph, "a bc", hyphens=everywhere)
        self.assertEqual(self.lines("a b"), ["a b"])

    def test_refused_items(self):
        """Nothing is added where an item is refused; if the end of a list is, its job has to be
        recovered."""
        with self.job.vbox(into=1) as box:
            with self.assertRaises(Refused) as caught:
                self.job.paragraph(
                    ["a ", lambda it: it.unvbox(3), lambda it: it.rule(None, 1, 1), " b"]
                )
            self.assertEqual(
                (caught.exception.command, caught.exception.caller[0]), ("unvbox 3", __file__)
            )
        self.assertEqual((box.height, self.lines("a b")), (0, ["a b"]))
        with self.assertRaises(NeedsRecovery), self.job.vbox(into=1):
            self.assertRaises(Refused, self.job.paragraph, ["a", Glue(0, 0, (1, "fil")), "b"])
            self.job.paragraph("a")

    def test_without_metrics(self):
        with boxglue.Job(letters()) as job:
            job.commands("font 0 letters\nuse 0\n").check()
            self.assertRaisesRegex(BoxglueError, "metrics", job.paragraph, "a")

    def test_first_piece_that_is_a_font(self):
        """No other font has to be current, and after the paragraph it is the current one, as after
        `use`."""
        for text in ("a-b fi", "Wafer"):
            found = []
            for is_piece in (False, True):
                with boxglue.Job({**letters(), **plain()}) as job:
                    fonts = job.load("plain"), job.load("letters")
                    job.set(hsize=pt(20), tolerance=10000)
                    if not is_piece:
                        job.use(fonts[1])
                    with job.vbox(into=0):
                        pieces = [fonts[1], text] if is_piece else text
                        done = job.paragraph(pieces, hyphens=everywhere)
                    with job.hbox(into=1) as box:
                        job.text(text)
                    found.append((done, str(job.inspect(0)), box.width))
            self.assertEqual(*found)
        with boxglue.Job(letters()) as job, job.vbox(into=0):
            self.assertEqual(job.paragraph(iter([job.load("letters")])).lines, 0)
            self.assertRaisesRegex(BoxglueError, "as the first piece$", boxglue.Job().paragraph, [])

    def test_font_of_another_job(self):
        """It is refused, as a piece and by `use` in a piece."""
        with boxglue.Job({"other": plain()["plain"], **plain()}) as other, self.job.vbox(into=0):
            for strange in (other.load("plain"), other.load("other")):
                for pieces in ([strange, "a"], ["a", strange], [lambda it: it.use(strange)]):
                    self.assertRaisesRegex(
                        BoxglueError, "not a font of this job", self.job.paragraph, pieces
                    )

    def test_characters_that_are_refused(self):
        """No other exception stands before that of the character."""
        with self.job.vbox(into=0), self.assertRaises(boxglue.BadCharacter) as caught:
            self.job.paragraph("pap\u00e9", encoding=boxglue.OT1)
        self.assertEqual((caught.exception.place, caught.exception.__context__), (3, None))

    def test_in_a_batch(self):
        with self.job.batch():
            self.assertRaises(BoxglueError, self.job.paragraph, "a")

    def test_words_that_are_kept(self):
        """Not for ever: of the last fonts and styles alone."""
        for penalty in range(50):
            self.lines("a bc", hyphens=everywhere, hyphenpenalty=penalty)
        self.assertLessEqual(len(self.job._state.words), 16)


class Pyphen(unittest.TestCase):
    def test_changed_letters(self):
        """A place with other letters is left out: pyphen gives it a number with data."""

        class Place(int):
            data = "sz-", 0, 1

        class Dictionary:
            def __init__(self, lang, left, right):
                self.words = lang, left, right

            def positions(self, word):
                return [2, Place(3), len(word) - 1]

        with mock.patch.dict(sys.modules, {"pyphen": mock.Mock(Pyphen=Dictionary)}):
            self.assertEqual(hyphenation.by_pyphen("hu_HU")("asszonnyal"), [2, 9])

    def test_places(self):
        """Those of the dictionary's own way to show a word."""
        try:
            import pyphen
        except ImportError:
            self.skipTest("there is no pyphen")
        rule = hyphenation.by_pyphen("en_US")
        for word in ("hyphenation", "Difficulties", "table"):
            ends = [0, *rule(word), len(word)]
            self.assertEqual(
                "-".join(word[a:b] for a, b in zip(ends, ends[1:])),
                pyphen.Pyphen(lang="en_US").inserted(word),
            )
        self.assertRaises(KeyError, hyphenation.by_pyphen, "xx_XX")


class LongWords(unittest.TestCase):
    """Tests of words without hyphens, and of where a line may end in them."""

    def parts(self, text, **words):
        """The parts of a text, with their penalties."""
        return [*hyphenation.breakable(text, **words)]

    def test_words_without_hyphens(self):
        """Paths, options, long words, and those with what a font joins are at odd places."""
        path, option, long = "/usr/share/doc", "-x", "a" * 41
        text = f"see {path} and {option} or {long}, a--b, well-known"
        found = hyphenation.without_hyphens(text)
        self.assertEqual(found[1::2], [path, option, f"{long},", "a--b,"])
        self.assertEqual("".join(found), text)
        self.assertEqual(hyphenation.without_hyphens("plain"), ["plain"])

    def test_paths(self):
        """A line may end after the slashes of a path, which is longer than 25 letters."""
        path = "/usr/share/texmf/fonts/tfm/public"
        names = ["/", "usr/", "share/", "texmf/", "fonts/", "tfm/"]
        self.assertEqual(self.parts(path), [*((it, 150) for it in names), ("public", 0)])
        self.assertEqual(self.parts("/usr/share"), [("/usr/", 50), ("share", 0)])
        code = [("/", 150), ("usr/", 150), ("share", 0)]
        self.assertEqual(self.parts("/usr/share", code=True), code)

    def test_names(self):
        name = "boxglue_JOB_INSPECT"
        self.assertEqual(self.parts(name), [("boxglue_", 150), ("JOB_", 150), ("INSPECT", 0)])
        camel = "camelCaseName"
        words = [("camel", 150), ("Case", 150), ("Name", 0)]
        self.assertEqual(self.parts(camel, code=True), words)
        self.assertEqual(self.parts(camel), [(camel, 0)])

    def test_dashes(self):
        self.assertEqual(self.parts("one—two"), [("one—", 50), ("two", 0)])
        self.assertEqual(self.parts("well-known"), [("well-", 50), ("known", 0)])

    def test_forbidden_breaks(self):
        """A space that forbids a break has its penalty before it."""
        self.assertEqual(self.parts("page\xa04"), [("page", 10_000), ("\xa04", 0)])

    def test_very_long_words(self):
        """A word of more than 40 letters may end anywhere after them, at a high cost."""
        found = self.parts("a" * 42)
        self.assertEqual(found, [("a" * 40, 1000), ("a", 1000), ("a", 0)])

    def test_texts(self):
        self.assertEqual(self.parts("a text"), [("a text", 0)])
        self.assertEqual(self.parts(""), [("", 0)])


if __name__ == "__main__":
    unittest.main()
