"""Random documents, always the same ones: paragraphs in cmr10 with all kinds of items, under common
and odd parameters, in boxes that are split into pages."""

import generator
from generator import DOCUMENT_SEEDS, NUMBERS, Chance, dimension, words
from hostile_inputs import Input

FIRST_LINES = (0, 0, 0, 0, 1, 2, 3, 32)
PENALTIES = (0, 50, -50, 10000, 9999, -10000, -10001, 300)
SIDES = ("hbox", "vbox", "vtop")


class Document:
    """A script that is being made. Its glue and kerns may be negative in a third of the documents,
    and half have no narrow lines."""

    def __init__(self, chance):
        self.chance, self.lowest, self.narrowest = (
            chance,
            -1 if chance.one_in(3) else 0,
            chance.pick((20, 120)),
        )
        self.lines = ["font 0 cmr10", "font 1 cmr10 at " + dimension(chance, 4, 14), "use 0"]

    def add(self, *lines):
        self.lines += lines

    def glue(self):
        it, low = self.chance, self.lowest
        return "glue " + generator.glue(
            it,
            dimension(it, 4 * low, 9),
            lambda: generator.stretch(it, 0.3, 3 * low, 6),
            lambda: generator.stretch(it, 0.02, low, 3),
        )

    def text(self):
        it = self.chance
        return "text " + it.pick(("", " ")) + words(it, 12) + it.pick(("", " "))

    def box(self, depth=0):
        """A small box of its own, with a change of the font in it, and now and then a box in
        that."""
        it = self.chance
        side = it.pick(SIDES)
        self.add(side + it.pick(("", "", " to 30pt", " spread 3pt")))
        if side == "hbox":
            self.add(
                it.pick(("text in", "use 1", "special in a box")),
                "char 65",
                "glue 2pt plus 1fil",
                it.pick(("kern 1pt", "use 0", "rule 2pt * *")),
            )
        else:
            self.add(
                "rule %s 2pt 1pt" % dimension(it, 0, 9),
                it.pick(("rule * 2pt 1pt", "kern 2pt", "glue 1pt plus 1fill")),
            )
        if depth < 3 and it.one_in(3):
            self.box(depth + 1)
        self.add("end")

    def item(self):
        """An item of a paragraph, or a few of them."""
        it = self.chance
        way = it.below(100)
        if way < 60:
            self.add(self.text())
        elif way < 71:
            self.add(self.glue())
        elif way < 77:
            self.add("penalty %d" % it.pick(PENALTIES))
        elif way < 83:
            self.add("kern " + dimension(it, 5 * self.lowest, 5))
        elif way < 87:
            self.add(
                "rule %s %s %s"
                % (dimension(it, 3 * self.lowest, 20), dimension(it, 0, 8), dimension(it, 0, 3))
            )
        elif way < 90:
            self.box()
        elif way < 92:
            self.add("special text %d" % it.below(10))
        elif way < 95:
            self.add("use %d" % it.below(2))
        elif way < 97:
            self.add("char %d" % it.pick((65, 200, 32, 10, 127)))
        else:
            self.add(
                *it.pick(
                    (("copy 7", "lastbox 5"), ("unhcopy 5",), ("unhbox 5",), ("box 6 shift 1pt",))
                )
            )

    def parameters(self):
        it = self.chance
        for name, (common, odd) in NUMBERS.items():
            if it.one_in(2):
                self.add("set %s %d" % (name, it.pick(common + odd)))
        if it.one_in(2):
            self.add("set firstlines %d" % it.pick(FIRST_LINES))
        for name, low, high in (
            ("hsize", self.narrowest, 400),
            ("firstsize", self.narrowest, 400),
            ("boxmaxdepth", 0, 9),
        ):
            if it.one_in(2):
                self.add("set %s %s" % (name, dimension(it, low, high)))
        if it.one_in(2):
            self.add("set baselineskip " + dimension(it, 8, 14) + it.pick(("", " plus 1pt")))
        if it.one_in(6):
            self.add(
                "set parfillskip "
                + it.pick(("0pt", "0pt plus 300pt", "20pt plus 60pt minus 20pt", "0pt plus 1fil"))
            )
        if it.one_in(6):
            self.add("set voffset " + it.pick(("16200pt", "3pt", "-2pt", "0pt")))

    def paragraph(self):
        it = self.chance
        self.add("par")
        for _ in range(it.pick((0, 1, 3, 8, 20, 40))):
            self.item()
        self.add("end")
        if it.one_in(5):
            self.add(
                it.pick(
                    (
                        "penalty 100",
                        "kern 5pt",
                        self.glue(),
                        "unvcopy 7",
                        "lastbox 5",
                        "box 5 shift 2pt",
                        "special between",
                    )
                )
            )

    def chapter(self):
        """Paragraphs in a box, which is split into pages, and the rest of it."""
        it = self.chance
        self.parameters()
        register = it.pick((0, 0, 0, 7))
        self.add("%s into %d" % (it.pick(("vbox", "vbox", "vtop")), register))
        for _ in range(1 + it.below(4)):
            if it.one_in(5):
                self.add("special a mark")
            if it.one_in(5):
                self.box()
            self.paragraph()
        self.add("end")
        for _ in range(it.below(4)):
            self.add(
                "vsplit %d to %s into 1" % (register, dimension(it, 20, 300)),
                "count 0 %d" % it.below(99),
                "ship 1",
            )
        self.add("measure %d" % register, "measure 7", "ship %d" % register)

    def script(self):
        return ("\n".join(self.lines) + "\n").encode()


def document_of(number, metrics):
    """The document of this number."""
    document = Document(Chance(number, DOCUMENT_SEEDS))
    for _ in range(1 + document.chance.below(4)):
        document.chapter()
    script = document.script()
    return Input(
        "document",
        "document",
        ["typeset", "out.dvi", "cmr10=cmr10.tfm"],
        script,
        {"cmr10.tfm": metrics},
        script,
        "out.dvi",
    )
