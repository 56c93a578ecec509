"""Random work that boxglue and TeX do alike: a script and a text of TeX, line beside line, from
fixed seeds."""

import generator
from generator import NUMBERS, TEX_SEEDS, Chance

# The fonts of the scripts: slot, name, and size where it is not the design size; and their letters
# in TeX.
FONTS = ((0, "cmr10", None), (1, "cmr10", "7.3pt"), (2, "cmbx12", None), (3, "cmti10", "11.5bp"))
LETTERS = "abcd"
LARGEST = "1073741823sp"

# Plain TeX with the first parameters of boxglue; no hyphens, no indentation, all space factors
# 1000, and no rule for what is too full. Each answer of boxglue that is compared is written by TeX
# into a file, in the same words.
TEX_HEAD = r"""\batchmode \count255=0
\loop \sfcode\count255=1000 \advance\count255 by 1 \ifnum\count255<256 \repeat
\newwrite\answers \immediate\openout\answers=\jobname.out
\def\say#1{\immediate\write\answers{#1}}
\def\sizes#1{\the\wd#1 \space\the\ht#1 \space\the\dp#1 }
\def\saybox#1{\say{packed \sizes{#1} badness \the\badness}}
\def\saysplit#1#2{\say{split \ifvoid#2void\else\sizes{#2} badness \the\badness\space rest \ifvoid#1void\else\sizes{#1}\fi\fi}}
\def\saymeasure#1{\say{measured \ifvoid#1void\else\ifhbox#1hbox\else vbox\fi\space\sizes{#1}\fi}}
\parindent0pt \parskip0pt \boxmaxdepth\maxdimen \splitmaxdepth\maxdimen \overfullrule0pt
\hbadness10000 \vbadness10000 \hfuzz\maxdimen \vfuzz\maxdimen \count0=0
\pretolerance100 \tolerance200 \linepenalty10 \adjdemerits10000 \clubpenalty150 \widowpenalty150 \interlinepenalty0
\baselineskip12pt \lineskip1pt \lineskiplimit0pt \splittopskip10pt \parfillskip0pt plus 1fil \emergencystretch0pt \hsize6.5in
"""


class Pair:
    """A script and a text that say the same. `expected` has, for each answer that TeX gives too,
    the line of the script and the paragraph on which it depends, if any; `paragraphs` the line of
    the answer to each paragraph, with its parameters; `kinds` the registers with boxes, and whether
    they are horizontal.
    """

    def __init__(self, seed):
        self.chance, self.used, self.slot, self.hsize = Chance(seed, TEX_SEEDS), {}, 0, None
        self.box, self.tex, self.expected, self.paragraphs = [], [TEX_HEAD], [], []
        self.kinds = {}
        for slot, name, size in FONTS:
            its = name + (" at " + size if size else "")
            font = "\\font\\f%s=%s \\hyphenchar\\f%s=-1 " % (LETTERS[slot], its, LETTERS[slot])
            self.add("font %d %s" % (slot, its), font)
        self.font(0)

    def add(self, box, tex):
        self.box.append(box)
        self.tex.append(tex + "%")

    def asked(self, box, tex, paragraph=None):
        """A command whose answer is compared."""
        self.add(box, tex)
        self.expected.append((len(self.box), paragraph))

    # Amounts.

    def dimen(self, low, high):
        return generator.dimension(self.chance, low, high)

    def glue(self, low=-2, high=12, infinite=0.1, infinite_shrink=0.05):
        it, least = self.chance, -2 if self.chance.part(0.1) else 0
        stretch = lambda: generator.stretch(it, infinite, least, 12)
        shrink = lambda: generator.stretch(it, infinite_shrink, least, 4)
        return generator.glue(it, self.dimen(low, high), stretch, shrink)

    def depth(self, part=0.5):
        """A greatest depth, in this part of the cases a small one."""
        return self.dimen(0, 6) if self.chance.part(part) else LARGEST

    def words(self, most):
        return generator.words(self.chance, most)

    # Items.

    def set(self, name, value):
        self.add("set %s %s" % (name, value), "\\%s=%s\\relax" % (name, value))

    def font(self, slot):
        self.add("use %d" % slot, "\\f%s" % LETTERS[slot])
        self.slot = slot

    def text(self, text):
        # The braces keep a step of TeX from looking past the text, and a space from being passed
        # over.
        self.add("text " + text, "{}%s{}" % text)

    def special(self):
        it = self.chance
        word = it.pick(("color push", "papersize", "html", "src"))
        text = "%s %d" % (word, it.below(10 ** it.pick((1, 5, 9))))
        text += it.pick(("", "x" * it.pick((30, 300))))
        self.add("special " + text, "\\special{%s}" % text)

    def kern(self, low=-3, high=9):
        amount = self.dimen(low, high)
        self.add("kern " + amount, "\\kern %s\\relax" % amount)

    def skip(self, horizontal, *more):
        glue = self.glue(*more)
        self.add("glue " + glue, "\\%sskip %s\\relax" % ("h" if horizontal else "v", glue))

    def penalty(self, numbers):
        number = self.chance.pick(numbers)
        self.add("penalty %d" % number, "\\penalty%d\\relax" % number)

    def rule(self, horizontal, most=30):
        sizes = [self.dimen(-1 if self.chance.part(0.1) else 0, most) for _ in range(3)]
        for i in (1, 2) if horizontal else (0,):
            if self.chance.part(0.2):
                sizes[i] = "*"
        pairs = [it for it in zip(("width", "height", "depth"), sizes) if it[1] != "*"]
        named = "%srule %s" % ("v" if horizontal else "h", " ".join(map(" ".join, pairs)))
        self.add("rule %s %s %s" % tuple(sizes), "\\%s\\relax" % named)

    def register(self, horizontal):
        """A box of a register, or its items, is appended."""
        number = self.chance.pick(sorted(self.kinds))
        copies = self.chance.part(0.7)
        # Items go into a list of their own kind only.
        if self.chance.part(0.4) and self.kinds[number] == horizontal:
            word = ("unh" if horizontal else "unv") + ("copy" if copies else "box")
            self.add("%s %d" % (word, number), "\\%s%d" % (word, number))
            return
        word = "copy" if copies else "box"
        box, tex = "%s %d" % (word, number), "\\%s%d" % (word, number)
        if self.chance.part(0.5):
            amount = self.dimen(-9, 9)
            way = "lower" if horizontal else "moveright"
            box, tex = "%s shift %s" % (box, amount), "\\%s %s%s" % (way, amount, tex)
        self.add(box, tex)

    # Boxes.

    def opening(self):
        form = self.chance.pick(("hbox", "hbox", "vbox", "vbox", "vtop"))
        sizes = " ", " ", " to " + self.dimen(0, 250), " spread " + self.dimen(-9, 25)
        return form, self.chance.pick(sizes)

    def inner_box(self, depth):
        form, size = self.opening()
        slot = self.slot
        self.add(form + size, "{\\setbox0=\\%s%s{" % (form, size))
        self.items(form == "hbox", depth + 1)
        self.asked("end", "}\\saybox0\\box0}")
        # TeX goes back to the font before the group.
        if self.slot != slot:
            self.box.append("use %d" % slot)
            self.slot = slot

    def make(self, makers, kind):
        """Appends what this kind stands for: a method and its arguments."""
        if kind in makers:
            name, *given = makers[kind]
            getattr(self, name)(*given)

    def items(self, horizontal, depth):
        makers = {
            "rule": ("rule", horizontal),
            "kern": ("kern",),
            "skip": ("skip", horizontal),
            "penalty": ("penalty", (-10000, -50, 0, 100, 10000, 500000000)),
            "special": ("special",),
            "last": ("last_box",),
        }
        makers |= {"box": ("inner_box", depth)} if depth < 4 else {}
        makers |= {"register": ("register", horizontal)} if self.kinds else {}
        makers |= {"words": ("any_words", 4)} if horizontal else {}
        for _ in range(self.chance.pick((0, 1, 3, 6, 10, 15))):
            self.make(makers, self.chance.pick(IN_BOXES))

    def any_words(self, most):
        """Words in any font."""
        self.font(self.chance.below(len(FONTS)))
        self.text(self.words(most))

    def last_box(self):
        # Register 9 is for this alone.
        if self.chance.part(0.3):
            self.add("lastbox 9", "\\global\\setbox9=\\lastbox")
            self.asked("measure 9", "\\saymeasure9")

    def line(self, name, *given):
        """A horizontal box of what a method makes."""
        self.add("hbox", "\\hbox{")
        getattr(self, name)(*given)
        self.add("end", "}")

    def named_box(self, register):
        """A box of random items goes into a register, with random parameters of vertical lists."""
        self.set("baselineskip", self.glue(0, 15, 0, 0))
        self.set("lineskip", self.glue(0, 3, 0.05))
        self.set("lineskiplimit", self.dimen(-2, 2))
        self.set("boxmaxdepth", self.depth())
        form, size = self.opening()
        self.begin(form, size, register)
        self.items(form == "hbox", 0)
        self.asked("end", "}\\saybox{%d}" % register)
        self.kinds[register] = form == "hbox"

    def begin(self, form="vbox", size="", register=1):
        """Opens a box that goes into a register."""
        tex = "\\setbox%d=\\%s%s{" % (register, form, size)
        self.add("%s%s into %d" % (form, size, register), tex)

    def end(self, paragraph=None):
        """Ends the box that goes into register 1."""
        self.asked("end", "}\\saybox1", paragraph)

    def ship(self, register, page):
        self.add("count 0 %d" % page, "\\count0=%d\\relax" % page)
        self.add("ship %d" % register, "\\shipout\\box%d" % register)

    # Paragraphs.

    def paragraph_parameters(self):
        self.hsize, self.used = self.dimen(90, 420), {}
        self.set("hsize", self.hsize)
        for name, (common, _) in NUMBERS.items():
            self.used[name] = self.chance.pick(common)
            self.set(name, self.used[name])
        self.set("parfillskip", self.chance.pick(LAST_GLUES))

    def wide(self, hsize, **used):
        """Lines of this width, and a tolerance that takes every line that is not overfull."""
        self.hsize, self.used = hsize, {**used, "tolerance": 10000}
        self.set("hsize", hsize)
        self.set("tolerance", 10000)

    def first_lines(self):
        """Some first lines get a width of their own, or none does."""
        lines = self.chance.pick((0, 0, 1, 2, 3, 5))
        width = self.dimen(90, 420)
        sizes = lines + 1, "0pt %s " % width * lines, self.hsize
        shape = "\\parshape%d %s 0pt %s\\relax" % sizes if lines else ""
        self.add("set firstlines %d" % lines, shape)
        self.box.append("set firstsize " + width)

    def sentence(self):
        space, words = self.chance.pick(("", " ")), self.words(12).capitalize()
        self.text(space + words + self.chance.pick((". ", ", ", " ", "")))

    def paragraph(self, number, pieces, kinds):
        """A paragraph in the open vertical list. TeX says in its log which one it was and how many
        lines it has; its trace is before that. It is `loose` where a line may have no items:
        between a place and a later one are glue, kerns and penalties alone.
        """
        self.add("par", "\\noindent")
        chosen = [self.chance.pick(kinds) for _ in range(pieces)]
        for kind in chosen:
            self.make(IN_PARAGRAPHS, kind)
        dropped = [it in ("skip", "kern", "penalty") for it in chosen] + [True]
        places = [
            it == "penalty" or (it, after) == ("kern", "skip")
            for it, after in zip(chosen, chosen[1:] + ["end"])
        ] + [True]
        is_loose = [all((*dropped[at - 1 : at + 1], places[at])) for at in range(1, len(chosen))]
        self.used["loose"] = any(is_loose) or len(chosen) > 1 and all(dropped[-3:])
        says = "@paragraph %d \\the\\count250" % number
        self.add("end", "\\par\\count250=\\prevgraf\\immediate\\write-1{%s}" % says)
        self.paragraphs.append((number, len(self.box), dict(self.used)))

    # Lists that are split.

    def pages(self, number, height, paragraph=None):
        """Splits register 1 into four pages of heights that a function gives, and a last one."""
        for page in range(4):
            size = height()
            tex = "\\setbox2=\\vsplit1 to %s\\relax\\saysplit12" % size
            self.asked("vsplit 1 to %s into 2" % size, tex, paragraph)
            self.ship(2, 10 * number + page)
        self.ship(1, 10 * number + 9)

    def script(self):
        return "\n".join(self.box) + "\n", "\n".join(self.tex) + "\n\\end\n"


# What the kinds of items stand for, and how often each comes.
IN_BOXES = "rule rule kern skip skip penalty special box register words words last".split()
IN_LISTS = {
    "rule": ("rule", False, 20),
    "hbox": ("line", "rule", True, 12),
    "text": ("line", "any_words", 5),
    "skip": ("skip", False, -2, 12, 0.05, 0),
    "kern": ("kern",),
    "penalty": ("penalty", (-10000, -300, -50, 0, 50, 300, 5000, 10000)),
    "special": ("special",),
    "vbox": ("inner_box", 4),
}
LISTED = "rule hbox hbox text skip skip skip kern penalty special vbox".split()
IN_PARAGRAPHS = {
    "text": ("sentence",),
    "rule": ("rule", True, 40),
    "skip": ("skip", True, 2, 9, 0.03, 0),
    "kern": ("kern", 0, 6),
    "penalty": ("penalty", (-10000, -500, -50, 50, 500, 5000, 10000)),
    "special": ("special",),
    "box": ("inner_box", 4),
}
OF_RULES = "rule rule rule skip skip skip skip kern penalty special box".split()
OF_TEXT = ("text",) * 12 + ("skip", "penalty", "special", "rule", "kern", "box")
LAST_GLUES = ["0pt plus 1fil"] * 3 + ["20pt plus 60pt minus 20pt", "0pt plus 300pt"]
TRACING = "\\tracingparagraphs1 "


def boxes(seed, count):
    """Random boxes, each a page: the box of a register itself, or a box around a copy, which leaves
    it for later boxes."""
    pair = Pair(seed)
    for number in range(count):
        register = 10 + pair.chance.below(6)
        pair.named_box(register)
        pair.set("hoffset", pair.dimen(-20, 20))
        pair.set("voffset", pair.dimen(-20, 20))
        if pair.chance.part(0.7):
            pair.begin("hbox")
            pair.add("copy %d" % register, "\\copy%d" % register)
            pair.end()
            register = 1
        pair.ship(register, number)
    return pair


def paragraphs(seed, count):
    """Paragraphs with random parameters and first lines, each a page of its own, of rules or of
    text."""
    pair = Pair(seed)
    pair.tex.append(TRACING)
    for number in range(count):
        pair.paragraph_parameters()
        pair.font(pair.chance.pick((0, 0, 0, 1)))
        pair.begin()
        pair.first_lines()
        pieces = pair.chance.pick((1, 2, 5, 10, 20))
        pair.paragraph(number, pieces * (1 + seed % 2), OF_RULES if seed % 2 else OF_TEXT)
        pair.end(number)
        pair.ship(1, number)
    return pair


def long_paragraphs(seed, count):
    """Paragraphs of hundreds and thousands of places, each a page of its own. Lines are so wide
    that the height of the box fits.
    There is no box, and the tolerance takes every line that is not overfull, so that few are in
    pass 3.
    """
    pair = Pair(seed)
    pair.tex.append(TRACING)
    for number in range(count):
        pair.paragraph_parameters()
        pair.wide(pair.dimen(260, 900), **pair.used)
        pair.begin()
        pair.first_lines()
        pair.paragraph(number, pair.chance.pick((100, 300, 800, 1600)), OF_TEXT[:-1])
        pair.end(number)
        pair.ship(1, number)
    return pair


def splits(seed, count):
    """Random vertical lists, each split until a few pages are made, and a page of the rest."""
    pair = Pair(seed)
    for number in range(count):
        pair.set("splittopskip", pair.glue(0, 15, 0.05, 0))
        pair.set("splitmaxdepth", pair.depth())
        pair.set("boxmaxdepth", pair.depth(0.3))
        pair.begin()
        for _ in range(pair.chance.pick((3, 10, 30, 60))):
            pair.make(IN_LISTS, pair.chance.pick(LISTED))
        pair.end()
        pair.pages(number, lambda: pair.dimen(5, 150))
    return pair


def pages(seed, count):
    """Text of many paragraphs with specials, split into pages."""
    pair = Pair(seed)
    pair.wide("345pt", linepenalty=10, adjdemerits=10000)
    pair.tex.append(TRACING)
    for number in range(count):
        pair.begin()
        pair.font(0)
        for place in range(30):
            pair.first_lines()
            pair.paragraph(100 * number + place, 8, ("text",) * 3 + ("special",))
        pair.end(number)
        pair.pages(number, lambda: "550pt", number)
    return pair
