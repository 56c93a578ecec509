"""Tests of what is refused, and of what is raised for it."""
import array
import copy
import mmap
import multiprocessing
import pickle
import sys
import unittest

import boxglue

from .samples import RULE, TEXT, plain, refusal_of


def refused_in_a_worker(script):
    """What a worker of a pool does: `check` raises there, and the refusal goes to the other
    process."""
    boxglue.run(script).check()


class Refusals(unittest.TestCase):
    def test_fields(self):
        dvi = boxglue.run(TEXT, plain()).dvi
        cases = [
            (boxglue.run("\nkern 12px\n").refusals[0], ("BadScript", 2, None, "Dimension")),
            (refusal_of(boxglue.fonts, dvi[:74]), ("BadDvi", None, 74, "Trailer")),
            (
                refusal_of(boxglue.listing, dvi, {"plain": b"no metric file"}),
                ("BadTfm", None, None, "TooShort"),
            ),
            (
                boxglue.run("font 0 plain\n", {"plain": b""}).refusals[0],
                ("BadTfm", 1, None, "TooShort"),
            ),
            (boxglue.run("end\n").refusals[0], ("NoOpenList", 1, None, None)),
            (boxglue.run("hbox into 0\n").refusals[0], ("ListsOpen", None, None, None)),
        ]
        for error, wanted in cases:
            self.assertEqual((error.name, error.line, error.place, error.cause), wanted)

    def test_copies(self):
        for script in ("kern 12px\n", "end\n", "hbox into 0\n", "font 0 plain\n"):
            error = boxglue.run(script, {"plain": b""}).refusals[0]
            for other in (
                pickle.loads(pickle.dumps(error)),
                copy.copy(error),
                copy.deepcopy(error),
            ):
                self.assertEqual((str(other), vars(other), other), (str(error), vars(error), error))
                self.assertEqual(hash(other), hash(error))
            self.assertNotIn(error, [*boxglue.run("ship 9\n").refusals, None])

    def test_process_pool(self):
        """A worker that raises a refusal does not hang the pool."""
        with multiprocessing.get_context("spawn").Pool(1) as pool:
            self.assertEqual(
                refusal_of(pool.apply_async(refused_in_a_worker, ("kern 12px\n",)).get, 60).cause,
                "Dimension",
            )
            self.assertIsNone(pool.apply(refused_in_a_worker, (RULE,)))


class OpenLists(unittest.TestCase):
    """The commands of refusals, and the lists that are open after WrongMode and ListsOpen."""

    def lists(self, refused):
        return [(it.form, it.line) for it in refused.open_lists]

    def test_scripts(self):
        script = "% a comment\n\nvbox into 0\n  hbox \nrule * 1pt 1pt\nend\nunhbox 9\nhbox\npar\nfont 0 x\nend\nvbox  to 1pt\npar\nrule * 1pt 1pt\n"
        ran = boxglue.run(script)
        found = [(it.name, it.line, it.command, self.lists(it)) for it in ran.refusals]
        self.assertEqual(
            found,
            [
                ("WrongMode", 5, "rule * 1pt 1pt", [("vbox", 3), ("hbox", 4)]),
                ("WrongMode", 7, "unhbox 9", [("vbox", 3)]),
                ("WrongMode", 9, "par", [("vbox", 3), ("hbox", 8)]),
                ("NoFont", 10, "font 0 x", []),
                ("WrongMode", 14, "rule * 1pt 1pt", [("vbox", 3), ("vbox", 12), ("par", 13)]),
                ("ListsOpen", None, None, [("vbox", 3), ("vbox", 12), ("par", 13)]),
            ],
        )
        self.assertEqual(
            str(ran.refusals[1]),
            "line 7: refused 8 WrongMode: 'unhbox 9'; open lists: vbox (line 3)",
        )
        self.assertEqual([*ran.replies[-2:]][0].open_lists, ran.refusals[-2].open_lists)
        copied = pickle.loads(pickle.dumps(ran.replies))
        self.assertEqual(
            [(it.command, it.open_lists) for it in copied.refusals],
            [(it.command, it.open_lists) for it in ran.refusals],
        )
        (bad,) = boxglue.run("kern 1pt\n kern 12px \n").refusals
        self.assertEqual((bad.line, bad.command), (2, "kern 12px"))

    def test_refused_openings_and_ends(self):
        """What is refused opens and ends nothing: a par without a list, a hbox too deep, and an end
        that is refused."""
        script = (
            "par\nhbox\nend\n"
            + "hbox into 0\n" * 64
            + "hbox into 0\nunvbox 1\n"
            + "end\n" * 64
            + "hbox into 0\nkern 16383pt\nkern 16383pt\nend\nunvbox 1\n"
        )
        deep, last = [it for it in boxglue.run(script).refusals if it.name == "WrongMode"]
        self.assertEqual(self.lists(deep), [("hbox", line) for line in range(4, 68)])
        self.assertEqual(self.lists(last), [("hbox", 134)])

    def test_jobs(self):
        """Pieces and typed calls on one job: lines are counted on, bad pieces do not count, and
        what a batch opens has its callers."""
        with boxglue.Job() as job:
            job.commands("% a\nvbox into 3\r\n").check()
            self.assertFalse(job.commands("hbox\nfoo\n").accepted)
            page = job.hbox()
            line = this_line() - 1
            with self.assertRaises(boxglue.Refused) as caught:
                job.unvbox(9)
            opened = caught.exception.open_lists
            self.assertEqual(
                opened,
                (boxglue.ListOpening("vbox", 2), boxglue.ListOpening("hbox", 3, (__file__, line))),
            )
            self.assertEqual(caught.exception.command, "unvbox 9")
            ended = job.finish()
            self.assertEqual(ended.refusals[0].open_lists, opened)
            page.end()
            with self.assertRaises(boxglue.Refused) as caught, job.batch() as it:
                with it.hbox():
                    line = this_line() - 1
                    it.unvbox(9)
            self.assertEqual(
                [(one.form, one.line) for one in caught.exception.open_lists],
                [("vbox", 2), ("hbox", 6)],
            )
            self.assertEqual(caught.exception.open_lists[1].caller, (__file__, line))
            self.assertEqual(self.lists(job.commands("text a\nend").refusals[0]), [("vbox", 2)])
            self.assertTrue(job.finish().accepted)


def this_line():
    """The line of the call of this."""
    return sys._getframe(1).f_lineno


class Inputs(unittest.TestCase):
    def test_other_types(self):
        job = boxglue.Job()
        self.addCleanup(job.close)
        for call in (boxglue.run, job.commands):
            for script in (7, [1, 2], None, 1.5, object()):
                self.assertRaises(TypeError, call, script)
        dvi = boxglue.run(RULE).dvi
        for call in (boxglue.listing, boxglue.fonts, boxglue.paint):
            for given in ("page.dvi", 7, None, [0]):
                self.assertRaises(TypeError, call, given)
        for fonts in (
            {"cmr10": "cmr10.tfm"},
            {"cmr10": 5},
            {"cmr10": None},
            {7: b""},
            "cmr10",
            b"cmr10",
            7,
        ):
            for call in (boxglue.run, boxglue.listing, boxglue.Job):
                self.assertRaises(
                    TypeError, *(call,) if call is boxglue.Job else (call, dvi), fonts
                )
        self.assertEqual(job.commands(RULE[:12]).answers_text, "1: ok\n")
        self.assertRaisesRegex(
            TypeError, "^a script must be str or bytes, not list$", boxglue.run, [1]
        )
        self.assertRaisesRegex(
            TypeError, "^a DVI file must be bytes, not str$", boxglue.marks, "page.dvi"
        )
        for words in ({"page": 1.5}, {"dpi": "100"}, {"width": None}):
            self.assertRaises(TypeError, boxglue.paint, dvi, **words)
        for dimension in (1.5, "1pt", None):
            self.assertRaises(TypeError, boxglue.points, dimension)

    def test_types_of_bytes(self):
        dvi = boxglue.run(RULE).dvi
        room = mmap.mmap(-1, len(dvi))
        room.write(dvi)
        for given in (bytearray(dvi), memoryview(dvi), array.array("B", dvi), room):
            self.assertEqual(boxglue.listing(given), boxglue.listing(dvi))
        every_second = memoryview(bytes(it for byte in dvi for it in (byte, 0)))[::2]
        self.assertEqual(boxglue.listing(every_second), boxglue.listing(dvi))


if __name__ == "__main__":
    unittest.main()
