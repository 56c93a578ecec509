"""Tests of how the library is found, of its version, and of the texts of its statuses."""
import os
import types
import unittest
from unittest import mock

import boxglue
from boxglue import _library


class Versions(unittest.TestCase):
    """What is said of a library that is not the one of this package: a stand-in with its version,
    and without any other call."""

    def message(self, number, named="lib.so"):
        stand_in = types.SimpleNamespace(**({"boxglue_version": lambda: number} if number else {}))
        with mock.patch.dict(os.environ, BOXGLUE_LIBRARY=named), mock.patch(
            "ctypes.CDLL", lambda _: stand_in
        ), self.assertRaises(boxglue.BoxglueError) as caught:
            _library.library.__wrapped__()
        return str(caught.exception)

    def test_other_version(self):
        self.assertIn("has version 2.3.4, and this package is for 1.x", self.message(20304))

    def test_older_version(self):
        self.assertRegex(
            self.message(10000),
            r"has version 1\.0\.0, and lacks boxglue_\w+: it is older than this package",
        )

    def test_variable(self):
        """A message says that the variable names the library, if it does."""
        names = f"BOXGLUE_LIBRARY names {os.path.abspath('lib.so')}, which "
        for number, why in ((20304, "has"), (10000, "has"), (None, "is not a library of boxglue")):
            self.assertIn(names + why, self.message(number))
            self.assertNotIn("BOXGLUE_LIBRARY", self.message(number, ""))

    def test_other_library(self):
        with mock.patch.dict(os.environ, BOXGLUE_LIBRARY=__file__):
            self.assertRaisesRegex(
                boxglue.BoxglueError, "is not a library of boxglue", _library.library.__wrapped__
            )

    def test_place(self):
        """BOXGLUE_LIBRARY comes first, then the package's file, then the system's."""
        with mock.patch.dict(os.environ, BOXGLUE_LIBRARY="no such file"):
            self.assertEqual(_library.library_path(), os.path.abspath("no such file"))
        with mock.patch.dict(os.environ, BOXGLUE_LIBRARY=""):
            for is_there, place in (
                (True, f"{os.path.dirname(_library.__file__)}/libboxglue.so"),
                (False, "libboxglue.so.1"),
            ):
                with mock.patch("os.path.exists", lambda _: is_there):
                    self.assertEqual(_library.library_path(), place)

    def test_no_library(self):
        absent = mock.patch("ctypes.CDLL", side_effect=OSError("no file"))
        with mock.patch.dict(os.environ, BOXGLUE_LIBRARY=""), mock.patch(
            "os.path.exists", lambda _: False
        ), absent:
            self.assertRaisesRegex(
                boxglue.BoxglueError,
                "boxglue found no library in this package or the system",
                _library.library.__wrapped__,
            )


class Proofs(unittest.TestCase):
    def test_proved(self):
        """The library is asked each time. One that was built without proofs has a symbol, too."""
        self.assertEqual(boxglue.proved(), not hasattr(_library.library(), "boxglue_unproved"))
        for answer in (0, 1):
            with mock.patch.object(
                _library, "library", lambda: types.SimpleNamespace(boxglue_proved=lambda: answer)
            ):
                self.assertIs(boxglue.proved(), bool(answer))


class Texts(unittest.TestCase):
    def test_statuses(self):
        self.assertEqual([int(it) for it in boxglue.Status], [*range(11)])
        self.assertEqual(boxglue.Status(2).text, "out of memory")
        self.assertEqual(len({it.text for it in boxglue.Status}), 11)

    def test_errors_have_them(self):
        with self.assertRaisesRegex(boxglue.BadFontName, boxglue.Status.BAD_FONT_NAME.text):
            boxglue.run("", {"": b""})


if __name__ == "__main__":
    unittest.main()
