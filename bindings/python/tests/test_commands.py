"""Tests of the typed calls of a job. What is wanted is from docs/COMMANDS.md and docs/FORMATS.md,
or what the same script gives."""
import re
import shutil
import struct
import subprocess
import threading
import traceback
import unittest
import weakref
from decimal import Decimal
from fractions import Fraction
from unittest import mock

import boxglue
from boxglue import (
    Added,
    BadCharacter,
    Glue,
    Measured,
    NeedsRecovery,
    Ok,
    Packed,
    Paragraph,
    Refused,
    Shipped,
    Sizes,
    Split,
    pt,
)
from boxglue import _metrics
from boxglue import FontStep as Step

from .samples import RULE, plain
from .test_replies import WIDTH

PT = 65536


def job_of(test, fonts=()):
    """A job that the test closes."""
    job = boxglue.Job(fonts)
    test.addCleanup(job.close)
    return job


class Units(unittest.TestCase):
    def test_exact(self):
        """The values of docs/FORMATS.md, section 1."""
        cases = (
            (boxglue.inch, 1, 4736286),
            (boxglue.inch, "6.5", 30785863),
            (boxglue.cm, 1, 1864679),
            (boxglue.mm, Decimal("-2.5"), -466169),
            (pt, "0.1", 6554),
            (boxglue.bp, 1, 65781),
            (boxglue.dd, 1, 70124),
            (boxglue.cc, 1, 841489),
            (pt, "5.", 327680),
            (pt, "+007", 458752),
            (pt, "-0.00001", -1),
            (pt, Fraction(1, 10), 6554),
            (boxglue.pc, 1, 12 * PT),
            (pt, 0.5, PT // 2),
            (boxglue.mm, -2.5, -466169),
            (pt, Decimal("16383.99999"), 1073741823),
        )
        for unit, amount, wanted in cases:
            self.assertEqual(unit(amount), wanted, (unit, amount))

    def test_floats_that_are_not_exact(self):
        for unit in (
            pt,
            boxglue.pc,
            boxglue.inch,
            boxglue.bp,
            boxglue.cm,
            boxglue.mm,
            boxglue.dd,
            boxglue.cc,
        ):
            for amount in (0.1, 1 / 3, 2.0**-17, 12.34, float("inf"), float("nan")):
                self.assertRaises(ValueError, unit, amount)

    def test_no_amounts(self):
        for amount in (
            "1pt",
            "",
            "1,5",
            "--1",
            " 1",
            "\u0661",
            Decimal("NaN"),
            Decimal("Infinity"),
            16384,
            "16383.999999",
            -(10**400),
        ):
            self.assertRaises(ValueError, pt, amount)
        for amount in (None, [], b"1", 1j):
            self.assertRaises(TypeError, pt, amount)

    def test_as_a_script_reads(self):
        """Texts and Decimals of all units, against the width of a kern."""
        units = {
            "pt": pt,
            "pc": boxglue.pc,
            "in": boxglue.inch,
            "bp": boxglue.bp,
            "cm": boxglue.cm,
            "mm": boxglue.mm,
            "dd": boxglue.dd,
            "cc": boxglue.cc,
        }
        amounts = [
            f"{sign}{3 * it}.{it ** 5 % 10 ** 9:09}{it % 7}5"
            for it in range(1, 60)
            for sign in ("", "-")
        ]
        texts = [(it, unit) for it in amounts for unit in units]
        ran = boxglue.run(
            "".join(f"hbox into 0\nkern {it}{unit}\nend\n" for it, unit in texts)
        ).check()
        widths = [it.width for it in ran.replies if isinstance(it, Packed)]
        self.assertEqual([units[unit](it) for it, unit in texts], widths)
        self.assertEqual([units[unit](Decimal(it)) for it, unit in texts], widths)
        self.assertEqual([units[unit](Fraction(it)) for it, unit in texts], widths)


# What the lists lack, and letters and signs of which Unicode has two.
SYMBOLS = {
    "mho": "℧",
    "ohm": "\u03a9",
    "permyriad": "‱",
    "baht": "฿",
    "servicemark": "℠",
    "copyleft": "🄯",
    "published": "℗",
    "one.superior": "¹",
    "two.superior": "²",
    "three.superior": "³",
    "circlecopyrt": "◯",
    "mapsto": "↦",
    "bardbl": "‖",
    "Delta": "\u0394",
    "Omega": "\u03a9",
    "phi": "ϕ",
    "phi1": "φ",
    "o": "\u03bf",
}
FIL, HALF = (1, "fil"), (Fraction(-1, 2), "filll")
# The line of a script that each call sends.
CALLS = {
    "rule * 2sp 3sp": lambda it: it.rule(None, 2, 3),
    "rule 1sp * *": lambda it: it.rule(1, None, None),
    "kern -5sp": lambda it: it.kern(-5),
    "glue 1sp plus 1.0fil minus -0.5filll": lambda it: it.glue(1, FIL, HALF),
    "glue 1sp minus 2sp": lambda it: it.glue(1, minus=2),
    "glue 0sp": lambda it: it.glue(0),
    "penalty -10000": lambda it: it.penalty(-10_000),
    "special x y ": lambda it: it.special(b"x y "),
    "text  a  ": lambda it: it.text(" a  "),
    "text ": lambda it: it.text(""),
    "char 255": lambda it: it.char(255),
    "box 7 shift -2sp": lambda it: it.box(7, shift=-2),
    "copy 7": lambda it: it.copy(7),
    "unhbox 1": lambda it: it.unhbox(1),
    "unhcopy 2": lambda it: it.unhcopy(2),
    "unvbox 3": lambda it: it.unvbox(3),
    "unvcopy 4": lambda it: it.unvcopy(4),
    "lastbox 5": lambda it: it.lastbox(5),
    "vsplit 1 to 2sp into 3": lambda it: it.vsplit(1, to=2, into=3),
    "measure 32767": lambda it: it.measure(32767),
    "void 0": lambda it: it.void(0),
    "count 9 -2147483648": lambda it: it.count(9, -1 << 31),
    "ship 3": lambda it: it.ship(3),
    "use 255": lambda it: it.use(255),
    "par": lambda it: it.par(),
    "hbox": lambda it: it.hbox(),
    "vbox to 7sp": lambda it: it.vbox(to=7),
    "vtop spread -7sp into 9": lambda it: it.vtop(spread=-7, into=9),
    "hbox into 0": lambda it: it.hbox(into=0),
    "font 0 a.b-c_D at 655360sp": lambda it: it.load("a.b-c_D", at=pt(10)),
    "font 255 x": lambda it: it.load("x", slot=255),
    "set parfillskip 1sp plus 1.0fil": lambda it: it.set(parfillskip=Glue(1, FIL)),
    "set baselineskip 3sp": lambda it: it.set(baselineskip=3),
    "set firstlines 32": lambda it: it.set(firstlines=32),
    "set widowpenalty -500000000": lambda it: it.set(widowpenalty=-500_000_000),
}


class EachCommand(unittest.TestCase):
    def test_replies(self):
        """Each call, with its own type of reply."""
        job = job_of(self, plain())
        font = job.load("plain", at=pt(10))
        self.assertEqual(
            (font.slot, font.name, font.size, job.use(font)), (0, "plain", 10 * PT, Ok(2))
        )
        height = 11 * PT * 10 // 16
        with job.hbox(into=0) as box:
            self.assertEqual((job.text("ab"), job.char(127)), (Added(4, 2, 0), Added(5, 0, 1)))
        self.assertEqual(box.reply, Packed(6, WIDTH, height, 0, 0))
        self.assertEqual((box.width, box.height, box.depth, box.badness), (WIDTH, height, 0, 0))
        self.assertEqual(job.measure(0), Measured(7, "hbox", WIDTH, height, 0))
        with job.vbox(to=pt("23.875"), into=1) as box:
            self.assertEqual(
                (job.copy(0), job.box(9), job.rule(PT, PT, 0)), (Added(9, 1), Added(10, 0), Ok(11))
            )
            self.assertEqual(
                (job.glue(10 * PT, plus=5 * PT), job.rule(PT, PT, 0)), (Ok(12), Ok(13))
            )
            with job.par() as par:
                pass
        self.assertEqual(
            (par.reply, box.reply), (Paragraph(15, 0, 0, 0, 0), Packed(16, WIDTH, 1564672, 0, 100))
        )
        self.assertEqual((par.lines, par.deciding_pass, par.overhang, par.demerits), (0, 0, 0, 0))
        self.assertEqual((job.count(0, 7), job.ship(1)), (Ok(17), Shipped(18, 1)))
        with job.vbox(into=2):
            job.rule(10 * PT, 5 * PT, 0), job.penalty(10000), job.special("a")
            job.glue(2 * PT), job.rule(10 * PT, 5 * PT, 0)
        split = Split(26, Sizes(10 * PT, 5 * PT, 0), 0, Sizes(10 * PT, 10 * PT, 0))
        self.assertEqual(job.vsplit(2, to=5 * PT, into=3), split)
        self.assertEqual(
            (job.vsplit(9, to=0, into=9), job.measure(9), job.void(2)),
            (Split(27, None, 0, None), Measured(28, "void", 0, 0, 0), Ok(29)),
        )
        self.assertEqual(job.set(hsize=pt(100)), [Ok(30)])
        self.assertEqual((job.finish().check().replies[0].pages, len(job.take()) % 4), (1, 0))

    def test_texts(self):
        """The script of each call."""
        for text, call in CALLS.items():
            batch = job_of(self).batch()
            batch.__enter__()
            call(batch)
            self.assertEqual(batch._lines, [f"{text}\n"])

    def test_wrong_numbers(self):
        """What is out of the range of scripts is refused before anything is sent."""
        job = job_of(self)
        big = 1 << 30
        for call in (
            lambda: job.kern(big),
            lambda: job.kern(-big),
            lambda: job.rule(big, 0, 0),
            lambda: job.rule(0, big, 0),
            lambda: job.rule(0, 0, big),
            lambda: job.rule(-big, 0, 0),
            lambda: job.glue(0, plus=big),
            lambda: job.glue(0, (16384, "fil")),
            lambda: job.glue(0, ("1e3", "fil")),
            lambda: job.glue(0, (1, "fi")),
            lambda: job.glue(0, (0.1, "fil")),
            lambda: job.penalty(500_000_001),
            lambda: job.char(256),
            lambda: job.char(-1),
            lambda: job.count(10, 0),
            lambda: job.count(0, 1 << 31),
            lambda: job.box(32768),
            lambda: job.ship(-1),
            lambda: job.use(256),
            lambda: job.hbox(to=big),
            lambda: job.vsplit(0, to=big, into=1),
            lambda: job.vsplit(0, to=0, into=-1),
            lambda: job.load("x", at=0),
            lambda: job.load("x", at=1 << 27),
            lambda: job.load("x", slot=256),
            lambda: job.load("a b"),
            lambda: job.load(""),
            lambda: job.load("x" * 256),
            lambda: job.load("x\n"),
            lambda: job.set(firstlines=33),
            lambda: job.set(tolerance=1 << 29),
            lambda: job.set(hsize=big),
        ):
            self.assertRaises(ValueError, call)
        self.assertEqual(job.void(0), Ok(1))

    def test_last_numbers(self):
        """The last numbers of each range are sent."""
        job, most = job_of(self), (1 << 30) - 1
        for call in (
            lambda: job.use(255),
            lambda: job.load("x" * 255, at=(1 << 27) - 1, slot=255),
            lambda: job.load("x", at=1),
        ):
            self.assertRaisesRegex(boxglue.Refused, "NoFont", call)
        job.set(firstlines=32, tolerance=500_000_000, pretolerance=-500_000_000, hsize=most)
        job.count(9, -1 << 31)
        job.count(0, (1 << 31) - 1)
        with job.hbox(to=most, into=32_767) as box:
            for kern in (most, -most):
                job.kern(kern)
            for penalty in (500_000_000, -500_000_000):
                job.penalty(penalty)
            job.glue(most, (Fraction(most, PT), "filll"), -most)
            job.rule(-most, most, -most)
            self.assertRaisesRegex(boxglue.Refused, "NoFont: 'char 255'", job.char, 255)
        self.assertEqual((box.width, job.measure(32_767).height), (most, most))

    def test_wrong_types(self):
        """A float is not a dimension, even where it is whole; a text is none either."""
        job = job_of(self)
        for wrong in (1.0, "1pt", None, 1.5, Decimal(1), [1], b"1"):
            for call in (
                lambda: job.kern(wrong),
                lambda: job.penalty(wrong),
                lambda: job.char(wrong),
                lambda: job.box(wrong),
                lambda: job.count(0, wrong),
                lambda: job.glue(wrong),
                lambda: job.vsplit(0, to=wrong, into=1),
                lambda: job.use(wrong),
            ):
                self.assertRaises(TypeError, call)
        for call in (
            lambda: job.rule(1.0, 0, 0),
            lambda: job.hbox(to=1.5),
            lambda: job.hbox(to=1, spread=1),
            lambda: job.load(b"x"),
            lambda: job.set(hsize=Glue(1)),
            lambda: job.set(foo=1),
        ):
            self.assertRaises(TypeError, call)
        self.assertEqual(job.void(True), Ok(1))

    def test_characters_that_scripts_cannot_have(self):
        """A line feed in a text, a special or a name ships no page."""
        job = job_of(self, plain())
        job.use(job.load("plain"))
        with job.hbox(into=0):
            for text, place in (
                ("a\nend\nship 0", 1),
                ("tab\there", 3),
                ("naïve", 2),
                ("\x7f", 0),
                ("\r", 0),
                ("a\u2028b", 1),
                ("\0", 0),
                ("\udc80", 0),
            ):
                for call in (job.text, job.special, boxglue.quote):
                    with self.assertRaises(BadCharacter) as caught:
                        call(text)
                    self.assertEqual((caught.exception.place, caught.exception.text), (place, text))
            self.assertRaises(BadCharacter, job.special, b"\xc3\xa9")
        self.assertEqual([*job.finish().replies], [boxglue.End(0, 0)])
        self.assertEqual((boxglue.quote("a % b "), boxglue.quote(b"ab")), ("a % b ", "ab"))
        self.assertIn("U+000A) at 1", str(BadCharacter("a\nb", 1, "")))

    def test_wrong_mode(self):
        job = job_of(self)
        with job.hbox(into=0):
            for call, name in (
                (job.par, "WrongMode"),
                (lambda: job.rule(None, 0, 0), "WrongMode"),
                (lambda: job.ship(9), "VoidBox"),
            ):
                with self.assertRaises(Refused) as caught:
                    call()
                self.assertEqual(caught.exception.name, name)
        with self.assertRaises(Refused) as caught:
            job.kern(1)
        self.assertEqual(
            (caught.exception.name, caught.exception.command), ("NoOpenList", "kern 1sp")
        )

    def test_refusal_with_its_command_and_its_call(self):
        job = job_of(self)
        try:
            job.use(7)
        except Refused as refused:
            line = traceback.extract_tb(refused.__traceback__)[0].lineno
            self.assertEqual(
                (refused.line, refused.command, refused.caller), (1, "use 7", (__file__, line))
            )
            self.assertEqual(
                str(refused), f"line 1: refused 4 NoFont: 'use 7', called at {__file__}:{line}"
            )

    def test_closed(self):
        job = boxglue.Job()
        job.close()
        for call in (lambda: job.kern(1), job.hbox, lambda: job.batch().__enter__(), job.register):
            self.assertRaises(boxglue.NoJob, call)

    def test_job_that_is_dropped(self):
        job = boxglue.Job(plain())
        with job.register() as page, job.hbox(into=page):
            pass
        with job.batch() as it:
            it.void(0)
        freed = weakref.ref(job)
        del job, it
        self.assertIsNone(freed())


class Fonts(unittest.TestCase):
    def test_slots(self):
        job = job_of(self, {**plain(), "other": plain()["plain"]})
        first, second = job.load("plain"), job.load("plain", at=pt(5))
        self.assertEqual(
            (
                first.slot,
                second.slot,
                job.load("plain") is first,
                job.load("plain", at=pt(5)) is second,
            ),
            (0, 1, True, True),
        )
        self.assertEqual((job.load("other", slot=7).slot, job.load("other").slot), (7, 7))
        job.commands("font 2 other at 7pt\n").check()
        self.assertRaises(Refused, job.load, "other", at=pt(9))  # the slot is taken by a script
        self.assertEqual(job.load("other", at=pt(9)).slot, 3)
        self.assertRaisesRegex(Refused, "NoFont", job.load, "none")
        self.assertEqual(job.load("other", at=pt(10)).slot, 4)

    def test_slots_of_a_batch(self):
        job = job_of(self, plain())
        with self.assertRaises(Refused):
            with job.batch() as it:
                good, bad = it.load("plain"), it.load("none")
                it.use(good)
        self.assertEqual((good.slot, bad.slot, job.load("plain", at=1).slot), (0, 1, 1))

    def test_font_of_another_job(self):
        """It would set the texts in the font that this job has in the slot."""
        fonts = {**plain(), "other": plain()["plain"]}
        job, second = job_of(self, fonts), job_of(self, fonts)
        strange, same = second.load("other"), second.load("plain", at=pt(5))
        self.assertRaisesRegex(
            boxglue.BoxglueError,
            "is not a font of this job: load it in this job$",
            job.use,
            strange,
        )
        own = job.load("plain")
        self.assertRaisesRegex(
            boxglue.BoxglueError, r"^LoadedFont\(0, 'other', None\) is not a font", job.use, strange
        )
        with self.assertRaises(boxglue.BoxglueError), job.batch() as it:
            it.use(strange)
        self.assertEqual(job.load("plain", at=pt(5)).slot, 1)
        self.assertEqual(
            [job.use(it) for it in (own, 0, same)], [Ok(3), Ok(4), Ok(5)]
        )  # the last is the same font in both

    def test_font_that_is_loaded_before_a_batch_is_entered(self):
        job = job_of(self, plain())
        batch = job.batch()
        font = job.load("plain")
        with self.assertRaises(KeyError), batch:
            raise KeyError
        self.assertEqual(job.use(font), Ok(2))

    def test_name_in_place_of_a_font(self):
        self.assertRaisesRegex(
            TypeError, r"job\.use\(job\.load\('cmr10'\)\)$", job_of(self).use, "cmr10"
        )

    def test_no_slot(self):
        job = job_of(self, plain())
        with job.batch() as it:
            for size in range(1, 257):
                it.load("plain", at=size)
        self.assertRaisesRegex(boxglue.BoxglueError, "all 256 slots", job.load, "plain")


class Registers(unittest.TestCase):
    def test_chosen_and_given_back(self):
        job = job_of(self)
        with job.register() as first:
            second = job.register()
            self.assertEqual((first.number, second.number), (32767, 32766))
            with job.hbox(into=first):
                job.kern(7)
        self.assertRaises(boxglue.BoxglueError, job.measure, first)
        third = job.register()  # the same one, which is void again
        self.assertEqual((third.number, job.measure(third).kind), (32767, "void"))
        second.release(), second.release()
        self.assertEqual([job.register().number for _ in range(2)], [32766, 32765])

    def test_a_thousand_at_a_time(self):
        job = job_of(self)
        numbers = {job.register().number for _ in range(32768)}
        self.assertEqual(len(numbers), 32768)
        self.assertRaisesRegex(boxglue.BoxglueError, "all registers", job.register)

    def test_given_back_in_a_batch(self):
        job = job_of(self)
        with job.batch() as it:
            with it.register() as first:
                with it.hbox(into=first):
                    it.kern(7)
            again = it.register()
            kind = it.measure(again)
        self.assertEqual((again.number, kind.reply.kind), (32767, "void"))


class Exceptions(unittest.TestCase):
    """An exception in each kind of list: no `end` is sent, and typed calls raise until
    `recover`."""

    def broken(self, open_list):
        job = job_of(self)
        outer = job.vbox(into=0)
        with self.assertRaises(KeyError):
            with outer, open_list(job) as inner:
                raise KeyError
        return job, outer, inner

    def test_each_kind_of_list(self):
        for form in ("hbox", "vbox", "vtop", "par"):
            job, outer, inner = self.broken(lambda it: getattr(it, form)())
            self.assertTrue(outer.is_open and inner.is_open)
            for call in (
                lambda: job.kern(1),
                lambda: job.hbox(),
                lambda: job.batch().__enter__(),
                outer.end,
                inner.end,
                lambda: job.register(),
            ):
                self.assertRaisesRegex(NeedsRecovery, f"vbox, {form}", call)
            self.assertEqual([it.name for it in job.finish().refusals], ["ListsOpen"])
            job.commands("end\n").check()
            job.recover(outer)
            job.kern(3)
            outer.end()
            self.assertEqual(outer.height, 3)
            self.assertRaises(boxglue.BoxglueError, lambda: inner.reply)
            self.assertTrue(job.finish().accepted)

    def test_recover_with_all_lists(self):
        job, outer, inner = self.broken(lambda it: it.hbox())
        self.assertRaises(ValueError, job.recover, boxglue.Job().hbox(into=0))
        job.recover(inner, outer)
        self.assertRaisesRegex(boxglue.BoxglueError, "the innermost list", outer.end)
        inner.end(), outer.end()
        self.assertRaises(boxglue.BoxglueError, outer.end)

    def test_recover_with_no_list(self):
        job, _, _ = self.broken(lambda it: it.par())
        job.commands("end\nend\n").check()
        job.recover()
        self.assertRaisesRegex(Refused, "NoOpenList", job.kern, 1)

    def test_end_that_is_refused(self):
        """The list stays open, so the lists around it are not ended."""
        job = job_of(self)
        box = job.hbox(into=0)
        with self.assertRaisesRegex(Refused, "DimensionTooLarge"):
            with box:
                job.kern((1 << 30) - 1), job.kern(1)
        self.assertTrue(box.is_open)
        self.assertRaises(NeedsRecovery, job.kern, -1)
        job.recover(box)
        job.kern(-1)
        box.end()
        self.assertEqual(box.width, (1 << 30) - 1)

    def test_exception_after_the_end(self):
        job = job_of(self)
        with self.assertRaises(KeyError):
            with job.hbox(into=0) as box:
                box.end()
                raise KeyError
        self.assertEqual(job.void(0), Ok(3))

    def test_refusal_within_a_list_that_is_caught(self):
        job = job_of(self)
        with job.hbox(into=0) as box:
            job.kern(5)
            self.assertRaises(Refused, job.use, 3)
        self.assertEqual(box.width, 5)

    def test_interrupt_of_an_opening(self):
        """Where the call is cut off, the list may be open."""
        job = job_of(self)
        with mock.patch.object(boxglue.Job, "_reply", side_effect=KeyboardInterrupt):
            self.assertRaises(KeyboardInterrupt, job.hbox)
        self.assertRaises(NeedsRecovery, job.kern, 1)


class Batches(unittest.TestCase):
    def test_replies(self):
        job = job_of(self, plain())
        with job.batch() as it:
            it.use(it.load("plain"))
            with it.hbox(into=0) as box:
                text = it.text("ab")
                self.assertRaisesRegex(boxglue.BoxglueError, "has not ended", lambda: text.reply)
                self.assertRaises(boxglue.BoxglueError, lambda: box.reply)
            size, page = it.measure(0), it.ship(0)
        self.assertEqual(
            (text.reply, size.reply, page.reply),
            (Added(4, 2, 0), Measured(6, "hbox", WIDTH, 11 * PT * 10 // 16, 0), Shipped(7, 1)),
        )
        self.assertEqual(
            (box.width, box.reply, repr(text), repr(it)),
            (
                WIDTH,
                Packed(5, WIDTH, 11 * PT * 10 // 16, 0, 0),
                "<Handle of 'text ab'>",
                "<boxglue.Batch: 7, ended>",
            ),
        )
        self.assertRaisesRegex(boxglue.BoxglueError, "within its `with`", it.kern, 1)

    def test_one_call(self):
        job = job_of(self)
        with mock.patch.object(job, "_commands", wraps=job._commands) as commands:
            with job.batch() as it:
                for _ in range(100):
                    with it.hbox(into=0):
                        it.kern(1)
        self.assertEqual(commands.call_count, 1)
        with job.batch() as it:
            pass

    def test_refusals(self):
        """The commands after a refusal are run, and the first refusal raises at the end."""
        job = job_of(self)
        with self.assertRaises(Refused) as caught:
            with job.batch() as it:
                with it.hbox(into=0) as box:
                    it.kern(5)
                    first, second = it.use(7), it.ship(9)
                    last = it.kern(6)
        line = self.test_refusals.__code__.co_firstlineno + 7
        self.assertEqual(
            (caught.exception.command, caught.exception.name, caught.exception.caller),
            ("use 7", "NoFont", (__file__, line)),
        )
        self.assertEqual(
            (first.refusal, second.refusal.name, last.refusal, last.reply, box.width),
            (caught.exception, "VoidBox", None, Ok(5), 11),
        )
        self.assertRaisesRegex(Refused, "ship 9", lambda: second.reply)
        self.assertEqual(job.void(0), Ok(7))

    def test_refused_opening(self):
        """The lists are not those that the calls opened, so nothing goes on before `recover`."""
        job = job_of(self)
        with self.assertRaisesRegex(Refused, "NoOpenList.*'hbox', called at"):
            with job.batch() as it, it.hbox():
                it.kern(1)
        self.assertRaises(NeedsRecovery, job.kern, 1)
        job.recover()
        self.assertEqual(job.void(0), Ok(4))

    def test_exception(self):
        """Nothing is sent, and the job is as it was."""
        job = job_of(self)
        with job.vbox(into=0) as box:
            with self.assertRaises(KeyError):
                with job.batch() as it:
                    handle = it.kern(7)
                    box.end()
                    with it.hbox(into=1):
                        raise KeyError
            self.assertRaisesRegex(boxglue.BoxglueError, "was not run", lambda: handle.reply)
            self.assertTrue(box.is_open)
            self.assertEqual(job.kern(3), Ok(2))
        self.assertEqual(box.height, 3)

    def test_exception_that_is_caught_within(self):
        job = job_of(self)
        with self.assertRaises(NeedsRecovery):
            with job.batch() as it:
                try:
                    with it.hbox(into=0):
                        raise KeyError
                except KeyError:
                    pass
        self.assertEqual(job.void(0), Ok(1))

    def test_calls_of_the_job_meanwhile(self):
        job = job_of(self)
        with job.batch() as it:
            self.assertRaisesRegex(boxglue.BoxglueError, "a batch is open", job.kern, 1)
            self.assertRaisesRegex(boxglue.BoxglueError, "a batch is open", job.batch().__enter__)
            it.void(0)
        self.assertEqual(job.void(0), Ok(2))

    def test_list_that_ends_later(self):
        job = job_of(self)
        with job.batch() as it:
            box = it.hbox(into=0)
        job.kern(4)
        with job.batch() as it:
            box.end()
            size = it.measure(0)
        self.assertEqual((box.width, size.reply.width), (4, 4))

    def test_memory(self):
        job = job_of(self)
        with self.assertRaises(boxglue.OutOfMemory):
            with mock.patch.object(
                job, "_commands", side_effect=boxglue.OutOfMemory
            ), job.batch() as it:
                box = it.hbox(into=0)
        self.assertFalse(box.is_open)
        self.assertEqual(job.void(0), Ok(1))

    def test_calls_of_several_threads(self):
        """Each has a job and a batch of its own: nothing is shared."""
        wrong = []

        def work(number):
            with boxglue.Job() as job:
                for _ in range(20):
                    with job.batch() as it, it.hbox(into=0) as box:
                        for _ in range(number):
                            it.kern(number)
                    if box.width != number * number:
                        wrong.append(number)

        threads = [threading.Thread(target=work, args=(it,)) for it in range(1, 9)]
        for it in threads:
            it.start()
        for it in threads:
            it.join()
        self.assertEqual(wrong, [])


class Steps:
    """Metrics of a font that lacks some characters, with these steps."""

    def __init__(self, steps, lacks=()):
        self.steps, self.lacks = steps, lacks

    def has(self, code):
        return code not in self.lacks

    def step(self, left, right):
        return self.steps.get((left, right))


class Encodings(unittest.TestCase):
    def test_metrics_of_a_file(self):
        """A metric file of two characters, `a` and `b`, of half and a quarter of the design size,
        with a kern of -1/8 between them (TFtoPL, 8 to 13)."""
        counts = struct.pack(">12H", 18, 2, 97, 98, 3, 1, 1, 1, 1, 1, 0, 0)
        words = (0, 10 << 20, 0x01000100, 0x02000000, 0, 1 << 19, 1 << 18, 0, 0, 0, 0x80628000)
        metrics = (
            counts
            + b"".join(it.to_bytes(4, "big") for it in words)
            + (-(1 << 17)).to_bytes(4, "big", signed=True)
        )
        found = _metrics.metrics_of(metrics, 65_536 * 5)
        self.assertEqual((found.has(97), found.has(98), found.has(99)), (True, True, False))
        self.assertEqual(
            (found.step(97, 98), found.step(98, 97)), (Step(False, -65_536 * 5 // 8), None)
        )
        self.assertIsNone(_metrics.metrics_of(metrics[:8], None))
        self.assertRaises(ValueError, _metrics.metrics_of, metrics, -1)
        with boxglue.Job({"two": metrics}) as job:
            job.use(job.load("two"))
            with job.hbox(into=0) as box:
                self.assertRaises(boxglue.BadCharacter, job.text, "abc", missing="raise")
                self.assertEqual(job.text("ab", missing="raise").items, 3)
            self.assertEqual(box.width, 65_536 * (5 + 2.5 - 1.25))

    def lines(self, text, encoding=boxglue.T1, metrics=None, **words):
        """The commands of a text."""
        with mock.patch.object(_metrics, "metrics_of", lambda *_: metrics):
            job = job_of(self, plain())
            batch = job.batch()
            batch.__enter__()
            batch.use(batch.load("plain"))
            batch.text(text, encoding=encoding, **words)
        return "".join(batch._lines[2:])

    def test_parts(self):
        cases = {
            "": "text \n",
            "abc d ": "text abc d \n",
            "Müller": "text M\nchar 252\ntext ller\n",
            "é": "char 233\n",
            "“ß”": "char 16\nchar 255\nchar 17\n",
            " ö ": "text  \nchar 246\ntext  \n",
            "a␣b": "text a\nchar 32\ntext b\n",
            '~^_\\{|}<>"': 'text ~^_\\{|}<>"\n',
            "‘’'`": "text `''`\n",
            "n–m—k": "text n\nchar 21\ntext m\nchar 22\ntext k\n",
        }
        for text, wanted in cases.items():
            self.assertEqual(self.lines(text), wanted, text)
        self.assertEqual(
            self.lines("“ﬁ” – ı", boxglue.OT1), 'text \\\nchar 12\ntext " { \nchar 16\n'
        )
        self.assertEqual(self.lines("aβ", {"a": 98, "β": 200}), "text b\nchar 200\n")

    def test_characters_that_the_encoding_lacks(self):
        for text, encoding, place in (
            ("aé", boxglue.OT1, 1),
            ("<", boxglue.OT1, 0),
            ("漢", boxglue.T1, 0),
            ("ab\n", boxglue.T1, 2),
            ("x", {"x": 256}, 0),
            ("x", {"x": -2}, 0),
        ):
            with self.assertRaises(BadCharacter) as caught:
                self.lines(text, encoding)
            self.assertEqual(caught.exception.place, place)

    def test_kerns_between_parts(self):
        """By docs/FORMATS.md, section 10: V and é have a kern, f and i a ligature, that and ü a
        kern, and ü and a hyphen a ligature."""
        metrics = Steps(
            {
                (86, 233): Step(False, -7),
                (233, 86): Step(False, -8),
                (102, 105): Step(True, 28),
                (28, 252): Step(False, 9),
                (252, 45): Step(True, 200),
                (86, 86): Step(False, 1),
            }
        )
        cases = {
            "Vé": "text V\nkern -7sp\nchar 233\n",
            "éV": "char 233\nkern -8sp\ntext V\n",
            "VV": "text VV\n",
            "V é": "text V \nchar 233\n",
            "fiü": "text fi\nkern 9sp\nchar 252\n",
            "aü-b": "text a\nchar 200\ntext b\n",
            "éé": "char 233\nchar 233\n",
            "VVé": "text VV\nkern -7sp\nchar 233\n",
        }
        for text, wanted in cases.items():
            self.assertEqual(self.lines(text, metrics=metrics), wanted, text)

    def test_kern_before_a_missing_character(self):
        """There is none, though the font has one: `text` sets none there either."""
        metrics = Steps({(86, 233): Step(False, -7)}, {233})
        self.assertEqual(self.lines("Vé", metrics=metrics), "text V\nchar 233\n")

    def test_missing(self):
        with self.assertRaises(BadCharacter) as caught:
            self.lines("abé", metrics=Steps({}, {233}), missing="raise")
        self.assertEqual(
            (
                caught.exception.place,
                str(caught.exception).endswith("the font lacks its character 233"),
            ),
            (2, True),
        )
        self.assertRaises(BadCharacter, self.lines, "ab", None, Steps({}, {98}), missing="raise")
        self.assertEqual(self.lines("ab", None, Steps({}), missing="raise"), "text ab\n")
        self.assertRaisesRegex(boxglue.BoxglueError, "metrics", self.lines, "a", missing="raise")

    def test_reply(self):
        """One reply for all parts. The font has the letters, the space and no ü."""
        job = job_of(self, plain())
        job.use(job.load("plain"))
        with job.hbox(into=0):
            self.assertEqual(job.text("a ü b", encoding=boxglue.T1), Added(4, 4, 1))
        with job.batch() as it, it.hbox(into=0):
            handle = it.text("a ü b", encoding=boxglue.T1)
        self.assertEqual((handle.reply, handle.refusal), (Added(9, 4, 1), None))
        with self.assertRaises(Refused):
            with job.batch() as it:
                handle = it.text("aü", encoding=boxglue.T1)
        self.assertEqual(handle.refusal.name, "NoOpenList")
        self.assertRaises(Refused, lambda: handle.reply)

    @unittest.skipUnless(shutil.which("kpsewhich"), "there is no TeX")
    def test_tables(self):
        """Against the encodings of TeX Live and Adobe's list of glyphs."""
        names = {}
        for line in self.texmf("glyphlist.txt").splitlines():
            name, _, codes = line.strip().partition(";")
            names.setdefault(
                name, "".join(chr(int(it, 16)) for it in codes.split() if not line.startswith("#"))
            )
        # The list names some characters in its own way: TeX's letters, an accent that is not a
        # quote here, and characters that Unicode's table does not name.
        names |= {
            "Delta": "Δ",
            "Omega": "Ω",
            "dotlessj": "ȷ",
            "grave": "ˋ",
            "visiblespace": "␣",
            "Germandbls": "ẞ",
        }
        for file, encoding, others in (
            ("7t.enc", boxglue.OT1, {"'": "quoteright", "`": "quoteleft", '"': "quotedblright"}),
            ("ec.enc", boxglue.T1, {"'": "quoteright", "`": "quoteleft", "Đ": "Eth"}),
        ):
            text = re.sub(r"%.*", "", self.texmf(file))
            glyphs = re.findall(r"/(\S+)", text[text.index("[") : text.index("]")])
            for character, code in encoding.items():
                self.assertEqual(
                    others.get(character)
                    or next(it for it in (glyphs[code],) if names[it] == character),
                    glyphs[code],
                    character,
                )
            self.assertEqual(
                {*range(256)}
                - {*encoding.values()}
                - {at for at, it in enumerate(glyphs) if it == ".notdef"},
                {"7t.enc": {32}, "ec.enc": {23, 24, 127}}[file],
            )

    @unittest.skipUnless(shutil.which("kpsewhich"), "there is no TeX")
    def test_tables_of_symbols(self):
        """Against the encodings of Latin Modern, and the lists of Adobe and TeX."""
        names = {}
        for file, form in (
            ("glyphlist.txt", r"(?m)^(\w+);([0-9A-F ]+)"),
            ("texglyphlist.txt", r"(?m)^(\w+);([0-9A-F ]+)"),
            ("glyphtounicode.tex", r"\\pdfglyphtounicode\{(\S+)\}\{([0-9A-F ]+)\}"),
        ):
            for name, codes in re.findall(form, self.texmf(file)):
                names.setdefault(name, "".join(chr(int(it, 16)) for it in codes.split()))
        names |= SYMBOLS
        for file, encoding, others in (
            ("lm-ts1.enc", boxglue.TS1, {}),
            ("lm-mathsy.enc", boxglue.OMS, {"openbullet": "∘"}),
            ("lm-mathit.enc", boxglue.OML, {"mu": "\u03bc"}),
        ):
            text = re.sub(r"%.*", "", self.texmf(file))
            glyphs = re.findall(r"/(\S+)", text[text.index("[") : text.index("]")])
            for character, code in encoding.items():
                name = glyphs[code]
                self.assertEqual(
                    others.get(name) or names.get(name) or names[name.removesuffix(".ts1")],
                    character,
                    name,
                )

    def texmf(self, name):
        """The text of a file of TeX Live."""
        found = subprocess.run(
            ["kpsewhich", name], stdout=subprocess.PIPE, text=True, timeout=60
        ).stdout.strip()
        if not found:
            self.skipTest(f"there is no {name}")
        with open(found, encoding="latin-1") as it:
            return it.read()


class Documents(unittest.TestCase):
    def test_as_the_script(self):
        """The examples' scripts and typed calls have the same pages."""
        with boxglue.Job(plain()) as job:
            first, second = job.load("plain"), job.load("plain", at=pt(5))
            job.use(first)
            with job.hbox(into=0):
                job.text("a b")
                job.use(second)
                job.text("c")
            job.ship(0)
            with job.hbox(into=0):
                job.rule(PT, PT, 0)
            job.ship(0)
            job.finish().check()
            dvi = job.take()
        script = (
            "font 0 plain\nfont 1 plain at 5pt\nuse 0\nhbox into 0\ntext a b\nuse 1\ntext c\nend\nship 0\n"
            + RULE
        )
        self.assertEqual(dvi, boxglue.run(script, plain()).check().dvi)


if __name__ == "__main__":
    unittest.main()
