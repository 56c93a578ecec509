"""Tests of folders of metric files."""
import os
import pathlib
import tempfile
import unittest

import boxglue

from .samples import TEXT, plain, refusal_of

# A stand-in for TeX's program: it knows two fonts, and writes down the names that it is asked for,
# a line each time.
KPSEWHICH = """#!/bin/sh
echo "$@" >> "$(dirname "$0")/asked"
for it; do case "$it" in far.tfm | farther.tfm) echo "$(dirname "$0")/other/$it" ;; esac; done
"""


class Folders(unittest.TestCase):
    def setUp(self):
        room = tempfile.TemporaryDirectory()
        self.addCleanup(room.cleanup)
        self.room, self.metrics = pathlib.Path(room.name), plain()["plain"]
        for name in (
            "one/plain",
            "one/both",
            "two/both",
            "two/second",
            "other/far",
            "other/farther",
        ):
            path = self.room / f"{name}.tfm"
            path.parent.mkdir(exist_ok=True)
            path.write_bytes(self.metrics if name != "two/both" else b"")
        (self.room / "one" / "plain.pfb").write_bytes(b"")
        (self.room / "kpsewhich").write_text(KPSEWHICH)
        (self.room / "kpsewhich").chmod(0o755)
        self.folder = boxglue.FontFolder(self.room / "one", str(self.room / "two"))

    def with_kpsewhich(self):
        path = os.environ["PATH"]
        self.addCleanup(os.environ.__setitem__, "PATH", path)
        os.environ["PATH"] = f"{self.room}:{path}"
        return boxglue.FontFolder(self.room / "one", kpsewhich=True)

    def test_mapping(self):
        self.assertEqual([*self.folder], ["both", "plain", "second"])
        self.assertEqual(
            (
                len(self.folder),
                self.folder["both"],
                "plain" in self.folder,
                self.folder.get("third"),
            ),
            (3, self.metrics, True, None),
        )
        self.assertRaises(KeyError, self.folder.__getitem__, "far")

    def test_names_that_are_no_names(self):
        for name in ("../one/plain", "/etc/passwd", "", "-plain", "plain\0", "a b", 7, None):
            self.assertNotIn(name, self.folder)

    def test_run_takes_what_the_script_names(self):
        ran = boxglue.run(TEXT, self.folder)
        self.assertEqual(ran, boxglue.run(TEXT, plain()))
        self.assertEqual(self.folder._files.keys(), {"plain"})

    def test_files_have_what_they_name(self):
        dvi = boxglue.run(TEXT, plain()).check().dvi
        self.assertEqual(boxglue.listing(dvi, self.folder), boxglue.listing(dvi, plain()))
        self.assertEqual(boxglue.paint(dvi, self.folder), boxglue.paint(dvi, plain()))
        self.assertEqual(
            [*boxglue.marks(dvi, self.folder).marks], [*boxglue.marks(dvi, plain()).marks]
        )
        self.assertEqual(self.folder._files.keys(), {"plain"})

    def test_refused_files(self):
        """A file is refused as without the folder, also where its fonts alone are refused
        otherwise: here for a page, and else for a definition after it."""
        dvi = bytearray(boxglue.run(TEXT, plain()).check().dvi)
        dvi[dvi.index(b"\xf8") + 29] = dvi[dvi.index(b"\x8b") + 45] = 250
        self.assertNotEqual(
            refusal_of(boxglue.fonts, dvi), refusal_of(boxglue.listing, dvi, plain())
        )
        for given in (dvi, dvi[:50]):
            self.assertEqual(
                refusal_of(boxglue.listing, given, self.folder),
                refusal_of(boxglue.listing, given, plain()),
            )

    def test_font_that_there_is_not(self):
        self.assertEqual(boxglue.run("font 0 third\n", self.folder).refusals[0].name, "NoFont")

    def test_job(self):
        with boxglue.Job(self.folder) as job, boxglue.Job(
            self.folder.choose(["plain", "third"])
        ) as other:
            self.assertEqual(job.commands(TEXT).check(), other.commands(TEXT))
            self.assertTrue(job.commands("font 9 both\n").accepted)
            self.assertFalse(other.commands("font 9 both\n").accepted)

    def test_kpsewhich(self):
        folder = self.with_kpsewhich()
        self.assertEqual(
            [folder.get(it) for it in ("plain", "far", "far", "near", "near", "../x")],
            [self.metrics] * 3 + [None] * 3,
        )
        self.assertEqual((self.room / "asked").read_text(), "far.tfm\nnear.tfm\n")
        self.assertTrue(boxglue.run("font 0 far\n", folder).accepted)

    def test_kpsewhich_is_called_once(self):
        folder = self.with_kpsewhich()
        names = ["near", "far", "plain", "farther", "../x", "far"]
        self.assertEqual([*folder.choose(names)], ["far", "plain", "farther"])
        self.assertEqual((self.room / "asked").read_text(), "near.tfm far.tfm farther.tfm\n")
        folder = self.with_kpsewhich()
        self.assertTrue(boxglue.run("font 0 far\nfont 1 farther\nfont 2 plain\n", folder).accepted)
        self.assertEqual(
            (self.room / "asked").read_text(), "near.tfm far.tfm farther.tfm\nfar.tfm farther.tfm\n"
        )


if __name__ == "__main__":
    unittest.main()
