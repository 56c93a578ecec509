"""Tests of the replies to commands."""
import copy
import os
import pickle
import re
import types
import unittest
from unittest import mock

import boxglue
from boxglue import (
    Added,
    End,
    Measured,
    Ok,
    Packed,
    Paragraph,
    Refused,
    ReplyKind,
    Shipped,
    Sizes,
    Split,
    _replies,
    _runs,
)

from .samples import EXAMPLES, plain

PT = 65536
WIDTH = 2 * (550498 * 10 * PT >> 20)
# A script with each kind of reply: its lines, and for each its reply and the text of that, from
# docs/COMMANDS.md, sections 3 and 4, and docs/FORMATS.md. The characters `a` and `b` of the font
# `plain` are 550498 * 2^-20 of its size wide, cut to scaled points, and `b` is 11/16 of it high.
LINES = [
    ("font 0 plain at 10pt", Ok(1), "ok"),
    ("use 0", Ok(2), "ok"),
    ("hbox into 0", Ok(3), "ok"),
    ("text ab", Added(4, 2, 0), "added 2 missing 0"),
    ("char 127", Added(5, 0, 1), "added 0 missing 1"),
    (
        "end",
        Packed(6, WIDTH, 11 * PT * 10 // 16, 0, 0),
        "packed 10.49991pt 6.875pt 0.0pt badness 0",
    ),
    (
        "measure 0",
        Measured(7, "hbox", WIDTH, 11 * PT * 10 // 16, 0),
        "measured hbox 10.49991pt 6.875pt 0.0pt",
    ),
    # 6.875, 1, 10 and 1 are 18.875, so the glue stretches by all its 5.
    ("vbox to 23.875pt into 1", Ok(8), "ok"),
    ("copy 0", Added(9, 1), "added 1"),
    ("box 9", Added(10, 0), "added 0"),
    ("rule 1pt 1pt 0pt", Ok(11), "ok"),
    ("glue 10pt plus 5pt", Ok(12), "ok"),
    ("rule 1pt 1pt 0pt", Ok(13), "ok"),
    ("par", Ok(14), "ok"),
    ("end", Paragraph(15, 0, 0, 0, 0), "paragraph lines 0 pass 0 overhang 0 demerits 0"),
    ("end", Packed(16, WIDTH, 1564672, 0, 100), "packed 10.49991pt 23.875pt 0.0pt badness 100"),
    ("ship 1", Shipped(17, 1), "shipped 1"),
    ("vbox into 2", Ok(18), "ok"),
    ("rule 10pt 5pt 0pt", Ok(19), "ok"),
    ("penalty 10000", Ok(20), "ok"),
    ("special a", Ok(21), "ok"),
    ("glue 2pt", Ok(22), "ok"),
    ("rule 10pt 5pt 0pt", Ok(23), "ok"),
    ("end", Packed(24, 10 * PT, 12 * PT, 0, 0), "packed 10.0pt 12.0pt 0.0pt badness 0"),
    (
        "vsplit 2 to 5pt into 3",
        Split(25, Sizes(10 * PT, 5 * PT, 0), 0, Sizes(10 * PT, 10 * PT, 0)),
        "split 10.0pt 5.0pt 0.0pt badness 0 rest 10.0pt 10.0pt 0.0pt",
    ),
    (
        "vsplit 3 to 5pt into 4",
        Split(26, Sizes(10 * PT, 5 * PT, 0), 0, None),
        "split 10.0pt 5.0pt 0.0pt badness 0 rest void",
    ),
    ("vsplit 9 to 5pt into 9", Split(27, None, 0, None), "split void"),
    ("measure 9", Measured(28, "void", 0, 0, 0), "measured void"),
    ("measure 2", Measured(29, "vbox", 10 * PT, 10 * PT, 0), "measured vbox 10.0pt 10.0pt 0.0pt"),
    ("ship 9", Refused("VoidBox", 21, 30), "refused 21 VoidBox"),
    ("font 1 empty", Refused("BadTfm", 5, 31, "TooShort"), "refused 5 BadTfm TooShort"),
]


class EachKind(unittest.TestCase):
    def setUp(self):
        self.ran = boxglue.run("".join(f"{it}\n" for it, _, _ in LINES), {**plain(), "empty": b""})

    def test_replies(self):
        for (line, wanted, _), found in zip(LINES, self.ran.replies):
            self.assertEqual(found, wanted, line)
        self.assertEqual(self.ran.replies[-1], End(1, len(self.ran.dvi)))

    def test_texts(self):
        texts = self.ran.answers_text.splitlines()
        for number, (line, _, wanted) in enumerate(LINES, 1):
            self.assertEqual(texts[number - 1], f"{number}: {wanted}", line)
        self.assertEqual(texts[-1], f"end: pages 1 bytes {len(self.ran.dvi)}")

    def test_refusals(self):
        self.assertEqual(
            [(it.line, it.name, it.cause) for it in self.ran.refusals],
            [(30, "VoidBox", None), (31, "BadTfm", "TooShort")],
        )
        self.assertRaisesRegex(Refused, "^line 30: refused 21 VoidBox: 'ship 9'$", self.ran.check)


class Numbers(unittest.TestCase):
    def test_paragraph(self):
        """A rule of 20pt in lines of 10pt: one line, which the third pass takes, 10pt overfull."""
        reply = (
            boxglue.run(
                "set hsize 10pt\nset parfillskip 0pt\nvbox into 0\npar\nrule 20pt 1pt 0pt\nend\nend\n"
            )
            .check()
            .replies[5]
        )
        self.assertEqual(
            (reply.line, reply.lines, reply.deciding_pass, reply.overhang), (6, 1, 3, 10 * PT)
        )
        self.assertEqual(
            str(reply), f"6: paragraph lines 1 pass 3 overhang {10 * PT} demerits {reply.demerits}"
        )

    def test_refused_memory(self):
        """A run in which memory was refused to a command, by a library that says so."""

        def call(*words):
            words[4][0].line, words[4][0].kind, words[4][0].refusal, words[-1]._obj.replies = (
                1,
                1,
                1,
                1,
            )
            return boxglue.Status.REFUSED_MEMORY

        with mock.patch.object(
            _runs, "library", lambda: types.SimpleNamespace(boxglue_run_replies=call)
        ):
            ran = boxglue.run("hbox into 0\n")
        self.assertEqual((ran.answers_text, ran.accepted), ("1: refused 1 OutOfMemory\n", False))

    def test_memory_for_nothing(self):
        for status, error in ((2, boxglue.OutOfMemory), (3, boxglue.BadFontName)):
            with mock.patch.object(
                _runs,
                "library",
                lambda: types.SimpleNamespace(boxglue_run_replies=lambda *_: status),
            ):
                self.assertRaises(error, boxglue.run, "")


class Names(unittest.TestCase):
    """The names of refusals and causes are those of the documents, in their order."""

    def document(self, name):
        """The text of a document."""
        path = f"{EXAMPLES}/../docs/{name}.md"
        if not os.path.exists(path):
            self.skipTest("there are no documents beside the package")
        with open(path, encoding="utf-8") as it:
            return it.read()

    def rows(self, document, above):
        """The first two cells of the rows of the first table after a text."""
        table = re.search(r"^\|(?:.*\n\|)*.*$", self.document(document).partition(above)[2], re.M)[
            0
        ]
        return [[cell.strip() for cell in line.split("|")[1:3]] for line in table.splitlines()[2:]]

    def test_refusals(self):
        named = {
            int(number): name
            for number, name in re.findall(r"^## (\d+) (\w+)$", self.document("REFUSALS"), re.M)
        }
        self.assertEqual(named, {**_replies._REFUSALS, 20: "BadDvi"})

    def test_causes(self):
        self.assertEqual(
            [it[0] for it in self.rows("FORMATS", "### Bad scripts\n")],
            [*_replies._LINE_CAUSES[1:]],
        )
        self.assertEqual(
            [it[0] for it in self.rows("FORMATS", "| nh, nd |")], [*_replies._METRIC_CAUSES[1:]]
        )


class Sequences(unittest.TestCase):
    def setUp(self):
        self.replies = boxglue.run("hbox into 0\nend\nship 3\n").replies

    def test_items(self):
        replies = self.replies
        self.assertEqual([replies[it] for it in (0, -1)], [Ok(1), End(0, 0)])
        self.assertEqual([*replies[1:3]], [Packed(2, 0, 0, 0, 0), Refused("VoidBox", 21, 3)])
        self.assertEqual(
            (len(replies), [*reversed(replies)][0], Ok(1) in replies, repr(replies)),
            (4, End(0, 0), True, "<Replies: 4>"),
        )
        self.assertRaises(IndexError, lambda: replies[4])

    def test_copies(self):
        for other in (
            copy.deepcopy(self.replies),
            pickle.loads(pickle.dumps(self.replies)),
            self.replies[:],
        ):
            self.assertEqual((other, hash(other)), (self.replies, hash(self.replies)))
        self.assertNotEqual(self.replies, self.replies[1:])

    def test_rows(self):
        rows = self.replies.rows
        self.assertEqual((rows.shape, rows.itemsize, rows.readonly), ((4,), 96, True))
        self.assertEqual(
            [int.from_bytes(rows[at : at + 1].tobytes()[8:12], "little") for at in range(4)],
            [ReplyKind.OK, ReplyKind.PACKED, ReplyKind.REFUSED, ReplyKind.END],
        )

    def test_replies_cannot_be_changed(self):
        for reply in (*self.replies[:2], self.replies[3], Sizes(1, 2, 3)):
            self.assertRaises(AttributeError, setattr, reply, reply.__match_args__[0], 7)
            self.assertRaises((AttributeError, TypeError), setattr, reply, "other", 7)
            self.assertEqual((pickle.loads(pickle.dumps(reply)), copy.copy(reply)), (reply, reply))

    def test_runs_are_compared_and_copied(self):
        ran = boxglue.run("ship 3\n")
        self.assertEqual(pickle.loads(pickle.dumps(ran)), boxglue.run("ship 3\n"))
        self.assertNotEqual(ran, boxglue.run("ship 4\n\nship 4\n"))
        self.assertIs(ran.answers_text, ran.answers_text)
        self.assertIs(ran.answers, ran.answers_text)  # the name of version 1.1
        self.assertEqual(
            (pickle.loads(pickle.dumps(ran)), hash(ran)), (ran, hash(boxglue.run("ship 3\n")))
        )


class Refusals(unittest.TestCase):
    def test_end(self):
        ran = boxglue.run("hbox into 0\n")
        self.assertEqual(
            ([*ran.replies][1:], ran.answers_text),
            ([Refused("ListsOpen", 17)], "1: ok\nend: refused 17 ListsOpen\n"),
        )

    def test_bad_lines(self):
        """A line for each cause, from docs/FORMATS.md, section 2."""
        lines = {
            "text \t": "Byte",
            "texta": "Word",
            "hbox to": "Missing",
            "end text a": "Extra",
            "penalty 1pt": "Number",
            "kern 1": "Dimension",
            "font 0 a/b": "Name",
        }
        for line, cause in lines.items():
            ran = boxglue.run(f"hbox into 0\n\n{line}\n")
            self.assertEqual(
                ([*ran.replies], ran.answers_text),
                ([Refused("BadScript", 2, None, f"3 {cause}")], f"refused 2 BadScript 3 {cause}\n"),
            )
            with boxglue.Job() as job:
                job.commands("hbox into 0\n")
                self.assertEqual([*job.commands(f"\n{line}").replies], [*ran.replies])

    def test_metric_files(self):
        good = plain()["plain"]
        # A byte of the number of header words, of the design size, of the first character, and of
        # the last parameter but three.
        causes = {
            "Counts": (3, 1),
            "DesignSize": (28, 128),
            "CharInfo": (32, 255),
            "FixWord": (len(good) - 16, 1),
        }
        for cause, (place, byte) in causes.items():
            data = bytearray(good)
            data[place] = byte
            self.assertEqual(
                [*boxglue.run("font 0 it\n", {"it": bytes(data)}).replies][0],
                Refused("BadTfm", 5, 1, cause),
            )


if __name__ == "__main__":
    unittest.main()
