"""The types of the package, checked by mypy where it is there."""
import os
import resource
import re
import shutil
import subprocess
import sys
import tempfile
import typing
import unittest

import boxglue

# What a checker of types has to find in a program.
CLIENT = """from array import array
from fractions import Fraction
from mmap import mmap
from typing import assert_type
import boxglue
ran = boxglue.run(b"end", {"cmr10": bytearray()})
assert_type(ran.check(), boxglue.Run)
assert_type(ran.replies[0], boxglue.Reply)
assert_type(ran.replies[1:], boxglue.Replies)
assert_type(ran.refusals, list[boxglue.Refused])
document = boxglue.marks(ran.dvi)
assert_type(document.pages[0].counts, tuple[int, ...])
assert_type(document.marks[::2], boxglue.Marks)
for mark in document.marks:
    assert_type(mark, boxglue.Mark)
    if isinstance(mark, boxglue.Special):
        assert_type(mark.text, bytes)
boxglue.listing(array("B"), {"cmr10": mmap(-1, 1)})
with boxglue.Job([("cmr10", b"")]) as job:
    assert_type(job.commands("end").check(), boxglue.Answers)
    assert_type(job.use(job.load("cmr10", at=boxglue.pt(Fraction(1, 3)))), boxglue.Ok)
    with job.register() as page, job.vbox(into=page, to=boxglue.inch("6.5")) as box, job.par() as par:
        assert_type(job.text("a", encoding=boxglue.T1), boxglue.Added)
        assert_type(job.glue(1, plus=(1, "fil")), boxglue.Ok)
        assert_type(job.rule(None, 1, 1), boxglue.Ok)
    pieces: list[boxglue.hyphenation.Piece] = ["a", job.load("cmr10"), boxglue.Glue(1), boxglue.hyphenation.Discretionary(), lambda it: it.copy(7)]
    assert_type(job.paragraph(pieces, hyphens=lambda word: [2], encoding=boxglue.T1), boxglue.hyphenation.HyphenatedParagraph)
    assert_type(job.paragraph("a", hyphens=boxglue.hyphenation.Patterns.read("hyphen.tex")).places[0].line, int)
    fonts = boxglue.families.Fonts(boxglue.FontFolder("."), boxglue.families.COMPUTER_MODERN)
    parts: list[boxglue.families.Part] = [("a", boxglue.families.Style()), (lambda it: it.copy(7), boxglue.families.Style(bold=True))]
    job.paragraph(fonts.pieces(parts), encoding=fonts.encoding)
    assert_type(boxglue.layout.take_lines(job, 0, 1)[0].register, boxglue.Register)
    assert_type(boxglue.layout.page_end([boxglue.layout.Measures(1)], 1), tuple[int, int])
    assert_type(boxglue.pdf.picture("a.png", 1, 1), boxglue.pdf.Picture | None)
    assert_type(box.reply, boxglue.Packed)
    assert_type(par.reply, boxglue.Paragraph)
    assert_type(job.measure(page).width, int)
    assert_type(job.vsplit(page, to=1, into=2).rest, boxglue.Sizes | None)
    seen = job.inspect(page)
    assert_type(seen, boxglue.Box | None)
    if seen:
        assert_type(seen.lines()[0].setting.ratio, Fraction)
        assert_type(seen.items[1:], boxglue.Items)
        for item in seen.items:
            assert_type(item, boxglue.Item)
            if isinstance(item, boxglue.GlueItem):
                assert_type(item.set_width, int)
    assert_type(job.ship(page).pages, int)
    with job.batch() as it:
        size = it.measure(page)
        assert_type(size, boxglue.Handle[boxglue.Measured])
        assert_type(it.set(hsize=1, parfillskip=boxglue.Glue(0, (1, "fil"))), list[boxglue.Handle[boxglue.Ok]])
        with it.hbox(into=0) as other:
            it.text("a")
    assert_type(size.reply, boxglue.Measured)
    assert_type(other.width, int)
"""
# What a checker of types has to refuse, a line each.
WRONG = """import boxglue
job = boxglue.Job()
job.kern(1.5)
job.kern("1pt")
job.glue(1, plus=(1, "fi"))
job.text(b"a")
job.hbox(to="1in")
job.set(foo=1)
job.ship(None)
job.batch().ship(1).pages
"""


class Types(unittest.TestCase):
    @unittest.skipUnless(shutil.which("mypy"), "mypy is not on the path")
    def test_package_and_client(self):
        done = self.checked(CLIENT, [os.path.dirname(boxglue.__file__)])
        self.assertEqual(done.returncode, 0, done.stdout)

    @unittest.skipUnless(shutil.which("mypy"), "mypy is not on the path")
    def test_wrong_client(self):
        lines = {
            int(it) for it in re.findall(r"client\.py:(\d+): error", self.checked(WRONG).stdout)
        }
        self.assertEqual(lines, {*range(3, 11)})

    def checked(self, client, more=()):
        """What mypy says of a program."""
        folder = os.path.dirname(os.path.dirname(boxglue.__file__))
        with tempfile.TemporaryDirectory(prefix="boxglue-types-") as room:
            with open(f"{room}/client.py", "w", encoding="ascii") as it:
                it.write(client)
            words = [
                "mypy",
                "--strict",
                "--python-version",
                "3.11",
                "--cache-dir",
                os.devnull,
                *more,
                f"{room}/client.py",
            ]
            return subprocess.run(
                words,
                env={**os.environ, "MYPYPATH": folder},
                stdout=subprocess.PIPE,
                text=True,
                timeout=300,
            )

    def test_marked_as_typed(self):
        self.assertTrue(os.path.exists(f"{os.path.dirname(boxglue.__file__)}/py.typed"))

    def test_module_of_names(self):
        """Users see `boxglue.Job`, and no module below."""
        for name in {*boxglue.__all__} - {
            "Item",
            "Mark",
            "Reply",
            "OML",
            "OMS",
            "OT1",
            "T1",
            "TS1",
        }:
            self.assertEqual(getattr(boxglue, name).__module__, "boxglue", name)
        self.assertEqual(repr(boxglue.Job), "<class 'boxglue.Job'>")
        self.assertTrue({*boxglue.__all__} <= {*dir(boxglue)})
        self.assertRaisesRegex(
            AttributeError, "^module 'boxglue' has no attribute 'foo'$", getattr, boxglue, "foo"
        )
        for kind in (
            boxglue.Packed,
            boxglue.Split,
            boxglue.Measured,
            boxglue.Glyph,
            boxglue.Bitmap,
            boxglue.DviFont,
            boxglue.Units,
        ):
            self.assertTrue(typing.get_type_hints(kind))

    def test_time_of_the_import(self):
        """The import takes at most 0.4 of the processor's time that Python itself took to start
        before it: the least of some runs of each. Both are measured within one process, since what
        a loaded machine adds to two whole runs is more than the import."""
        code = "import time; start = time.process_time(); import boxglue; print(start, time.process_time() - start)"
        with tempfile.TemporaryDirectory(prefix="boxglue-types-") as room:
            env = {
                **os.environ,
                "PYTHONPATH": os.path.dirname(os.path.dirname(boxglue.__file__)),
                "PYTHONPYCACHEPREFIX": room,
                "PYTHONDONTWRITEBYTECODE": "",
            }
            printed = [
                subprocess.run(
                    [sys.executable, "-c", code],
                    env=env,
                    check=True,
                    stdout=subprocess.PIPE,
                    text=True,
                    timeout=60,
                ).stdout
                for _ in range(21)
            ]
        start, whole = (
            min(times) for times in zip(*(map(float, it.split()) for it in printed[1:]))
        )  # the first run compiles
        self.assertLess(whole, 0.4 * start)

    def test_modules_of_the_import(self):
        """The import loads no other module than the package itself, and what Python is started with
        has not."""
        code = "import sys; before = {*sys.modules}; import boxglue; print(*sorted({*sys.modules} - before))"
        env = {**os.environ, "PYTHONPATH": os.path.dirname(os.path.dirname(boxglue.__file__))}
        done = subprocess.run(
            [sys.executable, "-c", code],
            env=env,
            check=True,
            stdout=subprocess.PIPE,
            text=True,
            timeout=60,
        )
        self.assertEqual(done.stdout, "__future__ boxglue\n")

    def test_all_names(self):
        self.assertEqual(
            boxglue.__all__, sorted(boxglue.__all__, key=lambda it: (it[0].islower(), it))
        )
        for name in {*boxglue.__all__} - {"Item", "Mark", "Reply"}:  # these are unions
            self.assertTrue(getattr(boxglue, name).__doc__, name)


if __name__ == "__main__":
    unittest.main()
