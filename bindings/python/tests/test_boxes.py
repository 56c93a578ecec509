"""Tests of the tree of a box."""
import copy
import pickle
import random
import re
import unittest
from fractions import Fraction

import boxglue
from boxglue import pt

from .samples import HERE, examples, plain

CASE = re.compile(
    r"case (.*)\n(?s:(.*?))\nbadness (\d+) natural (\S+)pt overhang (\S+)pt\n(?s:(.*?))(?=\ncase |\Z)"
)


def shown_cases():
    """The boxes that TeX shows: the font with kerns, and for each box what tests/shown-boxes
    printed."""
    with open(f"{HERE}/shown_boxes.txt", encoding="ascii") as it:
        head, _, rest = it.read().rstrip("\n").partition("\n")
    return bytes.fromhex(head.split()[2]), CASE.findall(rest)


def inspected(script, register=0, fonts=()):
    """The box of a register after a script."""
    with boxglue.Job(fonts) as job:
        job.commands(script).check()
        return job.inspect(register)


class Trees(unittest.TestCase):
    def test_items(self):
        script = (
            "font 3 plain\nuse 3\nvbox to 30pt into 5\nrule * 1pt 0.5pt\nglue 2pt plus 1fill minus 3pt\nhbox into 6\nchar 65\n"
            "kern 3pt\nspecial a b\npenalty -7\nrule 1pt * 2pt\nend\nbox 6 shift 4pt\nend\n"
        )
        box = inspected(script, 5, plain())
        rule, glue, inner = box.items
        glyph, kern, special, penalty, thin = inner.items
        tall = pt(10) * 22 // 32  # of A, by examples/plain-metrics
        total = pt(30)
        self.assertEqual((box.kind, box.x, box.y, box.shift), ("vbox", 0, 0, 0))
        self.assertEqual((box.height, box.depth), (total, pt(2)))
        self.assertEqual(
            rule, boxglue.RuleItem(0, pt("1.5") - total, box.width, pt(1), pt("0.5"), ("width",))
        )
        self.assertEqual((glue.x, glue.y, glue.width), (0, pt("1.5") - total, pt(2)))
        self.assertEqual(
            (glue.stretch, glue.stretch_order, glue.shrink, glue.shrink_order),
            (65536, "fill", pt(3), "normal"),
        )
        self.assertEqual(glue.set_width, total - pt("1.5") - tall)
        self.assertEqual(
            box.setting, boxglue.GlueSetting(1, "fill", Fraction(glue.set_width - pt(2), 65536))
        )
        self.assertEqual((inner.x, inner.y, inner.shift, inner.kind), (pt(4), 0, pt(4), "hbox"))
        self.assertEqual(inner.setting, boxglue.GlueSetting(0, "normal", Fraction(0)))
        self.assertEqual(
            (glyph.x, glyph.y, glyph.height, glyph.depth, glyph.font, glyph.code),
            (pt(4), 0, tall, 0, 3, 65),
        )
        after = pt(4) + glyph.width
        self.assertEqual(kern, boxglue.KernItem(after, 0, pt(3), False))
        self.assertEqual(special, boxglue.SpecialItem(after + pt(3), 0, b"a b"))
        self.assertEqual(penalty, boxglue.PenaltyItem(after + pt(3), 0, -7))
        self.assertEqual(
            thin, boxglue.RuleItem(after + pt(3), pt(2), pt(1), tall, pt(2), ("height",))
        )
        self.assertEqual([*box.walk()], [rule, glue, inner, *inner.items])

    def test_void(self):
        with boxglue.Job() as job:
            self.assertIsNone(job.inspect(7))
            with job.register() as page:
                self.assertIsNone(job.inspect(page))

    def test_what_is_refused(self):
        job = boxglue.Job()
        self.assertRaises(ValueError, job.inspect, 32_768)
        self.assertRaises(ValueError, job.inspect, -1)
        self.assertRaises(TypeError, job.inspect, "0")
        with job.batch():
            self.assertRaisesRegex(boxglue.BoxglueError, "a batch is open", job.inspect, 0)
        job.close()
        self.assertRaises(boxglue.NoJob, job.inspect, 0)

    def test_snapshot(self):
        """A tree stays as it is, and looking changes nothing, even while a list is left."""
        with boxglue.Job() as job:
            with job.hbox(into=0):
                job.kern(pt(1))
            first = job.inspect(0)
            with self.assertRaises(ZeroDivisionError), job.hbox(into=0):
                raise ZeroDivisionError
            self.assertEqual(job.inspect(0), first)
            self.assertRaises(boxglue.NeedsRecovery, job.kern, 1)
            job.commands("end\n").check()
            self.assertEqual([*job.inspect(0).items], [])
            self.assertEqual(first.items[0].width, pt(1))

    def test_copies(self):
        for name, script, fonts in examples():
            box = inspected(re.sub("(?m)^ship.*", "", script), fonts=fonts)
            if box is None:
                continue
            for other in (pickle.loads(pickle.dumps(box)), copy.deepcopy(box)):
                self.assertEqual((other, str(other), hash(other)), (box, str(box), hash(box)), name)
            self.assertNotEqual(
                box, next((it for it in box.walk() if isinstance(it, boxglue.Box)), None)
            )

    def test_rows(self):
        box = inspected("vbox into 0\nhbox\nkern 1pt\nend\nhbox\nkern 2pt\nspecial a\nend\nend\n")
        self.assertEqual(len(box.rows), 7)
        second = box.lines()[1]
        self.assertEqual([second.items[0].width, second.items[1].text], [pt(2), b"a"])
        self.assertEqual(len(second.rows), 3)
        self.assertEqual(bytes(second.rows), bytes(box.rows)[-len(bytes(second.rows)) :])
        self.assertEqual(second.lines(), [])
        self.assertEqual(
            [it.kind for it in box.items if isinstance(it, boxglue.Box)], ["hbox", "hbox"]
        )
        self.assertEqual([*box.items[::-1]], [*box.items][::-1])
        self.assertEqual(box.items[1:], box.items[-2:])

    def test_many_items(self):
        """More than the first room, and a text longer than the first one."""
        text = "x" * 60_000
        box = inspected("hbox into 0\n" + "kern 1sp\n" * 1000 + f"special {text}\nend\n")
        self.assertEqual(
            (len(box.items), box.width, box.items[-1].text), (1001, 1000, text.encode())
        )

    def test_places_beyond_64_bits(self):
        """Glue that balances but for one scaled point: each scaled point of stretch is set to the
        width of the box."""
        amount, count, size = pt(16383), 3000, pt(1000)
        script = (
            f"hbox to {size}sp into 0\n"
            + f"glue 0pt plus {amount}sp\n" * count
            + "glue 0pt plus 1sp\n"
            + f"glue 0pt plus -{amount}sp\n" * count
            + "end\n"
        )
        items = inspected(script).items
        self.assertEqual(
            [items[at].x for at in (0, 1, count, count + 1, -1)],
            [
                0,
                size * amount,
                count * size * amount,
                (count * amount + 1) * size,
                (amount + 1) * size,
            ],
        )
        self.assertEqual(items[-1].set_width, -size * amount)
        self.assertGreater(items[count].x, 1 << 63)


class Sizes(unittest.TestCase):
    def test_what_tex_says(self):
        """The boxes that tex shows, by its \\showbox, \\badness, natural sizes and warnings."""
        kerned, cases = shown_cases()
        self.assertGreater(len(cases), 40)
        for name, script, badness, natural, overhang, shown in cases:
            box = inspected(
                f"font 0 plain\nfont 7 kerned\nuse 0\n{script}\n",
                fonts={**plain(), "kerned": kerned},
            )
            self.assertEqual(str(box), shown, name)
            self.assertEqual(
                (str(box.badness), boxglue.points(box.natural_size)),
                (badness, f"{natural}pt"),
                name,
            )
            self.assertEqual(boxglue.points(box.overhang), f"{overhang}pt", name)

    def test_depth_and_breadth(self):
        """As \\showboxdepth and \\showboxbreadth of TeX: what is too deep is `[]`, and what is too
        much is `etc.`."""
        box = inspected("vbox into 0\nhbox\nkern 1pt\nkern 2pt\nkern 3pt\nend\nhbox\nend\nend\n")
        self.assertEqual(box.show(depth=0), "\\vbox(12.0+0.0)x6.0 []")
        lines = [
            "\\vbox(12.0+0.0)x6.0",
            ".\\hbox(0.0+0.0)x6.0 []",
            ".\\glue 12.0",
            ".\\hbox(0.0+0.0)x0.0",
        ]
        self.assertEqual(box.show(depth=1).splitlines(), lines)
        self.assertEqual(box.show(depth=1, breadth=2).splitlines(), [*lines[:3], ".etc."])
        self.assertEqual(
            box.show(breadth=1).splitlines(),
            [lines[0], ".\\hbox(0.0+0.0)x6.0", "..\\kern 1.0", "..etc.", ".etc."],
        )

    def test_badness_of_replies(self):
        """The badness of random boxes is the one in the reply to their end."""
        numbers = random.Random(86)
        for _ in range(300):
            with boxglue.Job() as job:
                form, size = numbers.choice([job.hbox, job.vbox, job.vtop]), numbers.randrange(
                    pt(60)
                )
                with form(to=size, into=0) as made:
                    for _ in range(numbers.randrange(5)):
                        elastic = [
                            numbers.randrange(-pt(2), pt(9)),
                            numbers.choice([(0, "fil"), 9, 0, (1, "fill")]),
                        ]
                        numbers.shuffle(elastic)
                        job.glue(numbers.randrange(pt(20)), *elastic)
                        job.rule(pt(1), numbers.randrange(pt(3)), numbers.randrange(pt(1)))
                box = job.inspect(0)
                self.assertEqual(
                    (box.badness, box.width, box.height, box.depth),
                    (made.badness, made.width, made.height, made.depth),
                )
                self.assertEqual(box.overhang > 0, made.badness == 1_000_000)


class Paragraphs(unittest.TestCase):
    def test_ends_of_lines(self):
        """The ends of all lines of a paragraph of 4,000 words, from one call, are those that the
        marks of the page show."""
        numbers = random.Random(4000)
        words = [
            "".join(chr(numbers.randrange(97, 123)) for _ in range(numbers.randrange(1, 11)))
            for _ in range(4000)
        ]
        with boxglue.Job(plain()) as job:
            job.use(job.load("plain"))
            job.set(hsize=pt(300), firstsize=pt(300))
            with job.vbox(into=0) as page, job.par() as paragraph:
                for at, word in enumerate(words):
                    job.text(f"{' ' * (at > 0)}{word}")
            box = job.inspect(0)
            job.ship(0)
            job.finish().check()
            document = boxglue.marks(job.take(), plain())
        lines = box.lines()
        self.assertEqual(len(lines), paragraph.lines)
        self.assertEqual(sum(it.overhang for it in lines), paragraph.overhang)
        rows = {}
        for mark in document.marks:
            rows.setdefault(mark.v - page.height, []).append(mark)
        ends = [
            (
                it.y,
                [one.x + one.width for one in it.items if isinstance(one, boxglue.GlyphItem)][-1],
            )
            for it in lines
        ]
        self.assertEqual(ends, [(v, its[-1].h + its[-1].width) for v, its in rows.items()])
        texts = [
            "".join(chr(one.code) for one in it.items if isinstance(one, boxglue.GlyphItem))
            for it in lines
        ]
        self.assertEqual(texts, ["".join(chr(one.code) for one in its) for its in rows.values()])
        self.assertEqual("".join(texts), "".join(words))


if __name__ == "__main__":
    unittest.main()
