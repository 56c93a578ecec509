"""The inputs of the measurements, always the same: scripts of boxglue, the texts of tex beside
them, and a metric file."""

import os
import struct
import sys

sys.path.insert(
    1, os.path.join(os.path.dirname(os.path.dirname(os.path.abspath(__file__))), "tests")
)
from models.plain_font import metric_bytes  # noqa: E402 (after the path)

# Words of running prose: frequent ones, and others.
OFTEN = "the of and to in a that is was it for with as his on be at by had not are but from which have they one were their there would when what about"
WORDS = (
    "other into first after before people through between another without thought different country question morning evening office difficult himself nothing "
    "something government afternoon always against certain general history important interest language mountain necessary particular possible purpose remember "
    "several sufficient together understand whether written workshop printer paragraph figure reflection affair village weather journey kitchen yesterday "
    "everything conversation experience considerable opportunity neighbourhood circumstances approximately fifteen fjord garden letters answered believed "
    "children carefully followed wondered company railway library station voyage avenue wavering quickly explained"
)

# The settings with which boxglue and tex do the same work: no hyphenation, no indentation, and the
# first parameters of boxglue, except the tolerance.
TEX_HEAD = r"""\batchmode \frenchspacing \hyphenchar\tenrm=-1 \tenrm \parindent0pt \parskip0pt \hsize%s
\baselineskip12pt \lineskip1pt \lineskiplimit0pt \splittopskip10pt \maxdepth16383pt \splitmaxdepth16383pt \boxmaxdepth16383pt
\parfillskip0pt plus 1fil \pretolerance100 \tolerance%d \linepenalty10 \adjdemerits10000 \clubpenalty150 \widowpenalty150 \interlinepenalty0
\emergencystretch0pt \hbadness10000 \vbadness10000 \hfuzz16383pt \vfuzz16383pt
"""
BOX_HEAD = "font 0 cmr10\nuse 0\nset hsize %s\nset tolerance %d\n"

CHAPTERS, PARAGRAPHS, WORDS_EACH, SPLITS, PAGE = 20, 100, 80, 13, "550pt"


class Prose:
    """Words in an order that a linear congruence fixes."""

    def __init__(self, seed):
        self.state = seed
        self.words = OFTEN.split() * 2 + OFTEN.split()[:10] * 4 + WORDS.split()

    def number(self, below):
        self.state = (self.state * 6364136223846793005 + 1442695040888963407) % 2**64
        return (self.state >> 33) % below

    def paragraph(self, count):
        """This many words, in sentences of 5 to 20 words with some commas."""
        words, left = [], 0
        for place in range(count):
            word = self.words[self.number(len(self.words))]
            if left == 0:
                word, left = word.capitalize(), 5 + self.number(16)
            left -= 1
            if left == 0 or place == count - 1:
                word += "."
            elif self.number(12) == 0:
                word += ","
            words.append(word)
        return words


def rows(words):
    """Words in rows of at most 76 characters."""
    row = ""
    for word in words:
        if row and len(row) + 1 + len(word) > 76:
            yield row
            row = ""
        row = row + " " + word if row else word
    yield row


def box_paragraph(words):
    texts = list(rows(words))
    return "par\ntext " + "\ntext  ".join(texts) + "\nend\n"


def tex_paragraph(words):
    return "\n".join(rows(words)) + "\\par\n"


def chapters():
    """The paragraphs of each chapter."""
    prose = Prose(1)
    for _ in range(CHAPTERS):
        yield [prose.paragraph(WORDS_EACH) for _ in range(PARAGRAPHS)]


def book(tolerance):
    """Chapters of paragraphs, each a box that is split into pages; the last page of a chapter is
    the rest of it."""
    box, tex = [BOX_HEAD % ("345pt", tolerance)], [TEX_HEAD % ("345pt", tolerance)]
    words = letters = 0
    for paragraphs in chapters():
        words += sum(map(len, paragraphs))
        letters += sum(len(word) for paragraph in paragraphs for word in paragraph)
        box.append("vbox into 0\n" + "".join(map(box_paragraph, paragraphs)) + "end\n")
        box.append(("vsplit 0 to %s into 1\nship 1\n" % PAGE) * SPLITS + "ship 0\n")
        tex.append("\\setbox0\\vbox{" + "".join(map(tex_paragraph, paragraphs)) + "}\n")
        tex.append(
            ("\\setbox1\\vsplit0 to %s \\shipout\\box1\n" % PAGE) * SPLITS + "\\shipout\\box0\n"
        )
    tex.append("\\end\n")
    return "".join(box), "".join(tex), words, letters


def troff_book():
    """The same chapters for groff, which fills line after line without a tolerance. Its own page
    length ends a page."""
    parts = [
        ".pl %s\n.po 0\n.ll 345p\n.ps 10\n.vs 12p\n.ss 12 0\n.ad b\n.nh\n" % PAGE.replace("pt", "p")
    ]
    for paragraphs in chapters():
        parts += ["\n".join(rows(words)) + "\n.br\n" for words in paragraphs]
        parts.append(".bp\n")
    return "".join(parts)


def places(count, width, total, tolerance, pretolerance):
    """Paragraphs of a number of legal places each, with about this many places in all: a word is a
    place."""
    prose = Prose(2)
    box, tex = [BOX_HEAD % (width, tolerance)], [TEX_HEAD % (width, tolerance)]
    box.append("set pretolerance %d\n" % pretolerance)
    tex.append("\\pretolerance%d\n" % pretolerance)
    for _ in range(total // count):
        words = prose.paragraph(count)
        box.append("vbox into 0\n" + box_paragraph(words) + "end\n")
        tex.append("\\setbox0\\vbox{" + tex_paragraph(words) + "}\n")
    tex.append("\\end\n")
    return "".join(box), "".join(tex)


def many_rules(count):
    """A page of a number of rules in rows of forty, each at an irregular place."""
    prose = Prose(3)
    script = ["vbox into 0\n"]
    for row in range(count // 40):
        script.append("hbox\n")
        for _ in range(40):
            script.append(
                "rule %d.%dpt %d.%dpt 0pt\nkern %d.%dpt\n"
                % tuple(prose.number(n) for n in (9, 10, 7, 10, 4, 10))
            )
        script.append("end\n")
    return "".join(script) + "end\nship 0\n"


def small_boxes(lines):
    """This many lines of short boxes with two rules each."""
    prose = Prose(4)
    script = []
    for number in range(lines // 4):
        script.append(
            "hbox into %d\nrule %d.%dpt 2pt 1pt\nrule %dpt * 0pt\nend\n"
            % (number % 256, prose.number(90), prose.number(100), prose.number(40))
        )
    return "".join(script)


def small_pages(pages, last):
    """This many boxes of one rule, each shipped as a page or made void."""
    return ("hbox into 0\nrule 1pt 1pt 0pt\nend\n%s 0\n" % last) * pages


def metric_file():
    """A metric file of 40,000 bytes: 256 characters of their own widths, each with a program of
    steps for kerns."""
    fixed = lambda value: struct.pack(">i", value)
    length, programs, steps_each = 10000, 128, 60
    characters = [bytes((code % 255 + 1, 0x11, 1, code)) for code in range(256)]
    # The first 256 steps send each character to its program.
    steps = [struct.pack(">BBH", 254, 0, 256 + code // 2 * steps_each) for code in range(256)]
    for program in range(programs):
        for step in range(steps_each):
            steps.append(
                struct.pack(
                    ">BBH",
                    128 if step == steps_each - 1 else 0,
                    64 + step,
                    32768 + (program * 7 + step) % 900,
                )
            )
    widths = [fixed(1000 * code) for code in range(256)]
    heights, depths, italics = [fixed(0), fixed(600000)], [fixed(0), fixed(200000)], [fixed(0)]
    header, parameters = [fixed(0), fixed(10 << 20)], [
        fixed(0),
        fixed(349526),
        fixed(174763),
        fixed(116508),
    ]
    parts = [header, characters, widths, heights, depths, italics, steps, [], [], parameters]
    parts[7] = [fixed(-20000 + kern) for kern in range(length - 6 - sum(map(len, parts)))]
    return metric_bytes(0, 255, parts)


def font_name(number):
    """The name of one of many fonts."""
    return "face%03d" % number


def small_metric_file(number):
    """A metric file in which each of the characters 32 to 126 has one width, which differs from
    file to file; no kerns and no ligatures."""
    fixed = lambda parts: struct.pack(">i", parts << 15)
    characters = [bytes([1, 0x11, 0, 0])] * 95
    widths, heights, depths, italics = (
        [fixed(0), fixed(10 + number % 23)],
        [fixed(0), fixed(22)],
        [fixed(0), fixed(6)],
        [fixed(0)],
    )
    header, parameters = [struct.pack(">I", 1 + number), struct.pack(">i", 10 << 20)], [
        fixed(it) for it in (0, 16, 8, 5, 14, 32, 0)
    ]
    parts = [header, characters, widths, heights, depths, italics, [], [], [], parameters]
    return metric_bytes(32, 126, parts)


def pages_of_fonts(pages, loaded):
    """This many pages of one line, each in two of the loaded fonts."""
    prose = Prose(5)
    box = ["font %d %s\n" % (slot, font_name(slot)) for slot in range(loaded)]
    tex = [r"\batchmode \frenchspacing \maxdepth16383pt \hbadness10000 \hfuzz16383pt" + "\n"]
    tex += [
        "\\expandafter\\font\\csname f%d\\endcsname=%s\n" % (slot, font_name(slot))
        for slot in range(loaded)
    ]
    for page in range(pages):
        box.append("hbox into 0\n")
        tex.append("\\setbox0\\hbox{")
        for slot in (page * 7 % loaded, (page * 7 + 3) % loaded):
            words = " ".join(prose.paragraph(8))
            box.append("use %d\ntext %s\n" % (slot, words))
            tex.append("\\csname f%d\\endcsname %s%%\n" % (slot, words))
        box.append("end\nship 0\n")
        tex.append("}\\shipout\\box0\n")
    tex.append("\\end\n")
    return "".join(box), "".join(tex)


def repeated_pages(dvi, times):
    """A DVI file with all pages of another and, so many times more, those that come after its first
    one. A font has to be defined on the first page."""
    number = lambda place: int.from_bytes(dvi[place : place + 4], "big", signed=True)
    end = len(dvi.rstrip(b"\xdf"))
    post = number(end - 5)
    starts, start = [], number(post + 1)
    while start >= 0:
        starts.insert(0, start)
        start = number(start + 41)
    pages = [dvi[start:after] for start, after in zip(starts, starts[1:] + [post])]
    parts, place, before = [dvi[: starts[0]]], starts[0], -1
    for page in pages[:1] + pages[1:] * (1 + times):
        parts.append(page[:41] + struct.pack(">i", before) + page[45:])
        place, before = place + len(page), place
    count = 1 + (len(pages) - 1) * (1 + times)
    parts.append(
        dvi[post : post + 1]
        + struct.pack(">i", before)
        + dvi[post + 5 : post + 27]
        + struct.pack(">H", count)
        + dvi[post + 29 : end - 6]
    )
    last = struct.pack(">Bi", dvi[end - 6], place) + dvi[end - 1 : end]
    size = sum(map(len, parts)) + len(last)
    return b"".join(parts) + last + b"\xdf" * (4 + -size % 4)


def first_lines(count):
    """A paragraph of this many places that would fit into one line, in which lines up to the 32nd
    are counted.
    Each place ends lines from all places before it."""
    head = "set hsize 16383pt\nset firstsize 16383pt\nset firstlines 32\nset pretolerance 10000\n"
    return (
        head + "vbox into 0\npar\n" + "rule 1pt 1pt 0pt\nglue 1pt plus 1pt\n" * count + "end\nend\n"
    )


def splits(count, falls):
    """A box of this many rules, which is split as many times; the widths of the rules stay the same
    or fall."""
    rules = ("rule %dsp 1pt 0pt\nglue 0pt\n" % (count - it if falls else 1) for it in range(count))
    return (
        "set splittopskip 0pt\nvbox into 0\n"
        + "".join(rules)
        + "end\n"
        + "vsplit 0 to 1pt into 1\n" * count
    )


def long_text(count):
    """A line of text of this many bytes, which has more characters than a list may."""
    return "font 0 face\nuse 0\nhbox into 0\ntext " + "a" * count + "\nend\n"


def flat_metric_file():
    """A metric file in which each of the characters 32 to 126 has the width 0, so that any number
    of them fits on a line."""
    fixed = lambda value: struct.pack(">i", value)
    zeros = [fixed(0), fixed(0)]
    parts = [
        [fixed(0), fixed(10 << 20)],
        [bytes([1, 0x11, 0, 0])] * 95,
        zeros,
        zeros,
        zeros,
        zeros[:1],
        [],
        [],
        [],
        [],
    ]
    return metric_bytes(32, 126, parts)


def font_definition(number):
    """The definition of the font of `flat_metric_file` under a number."""
    return struct.pack(">BIIIIBB", 246, number, 0, 10 << 16, 10 << 16, 0, 4) + b"face"


def one_page(body, definitions):
    """A DVI file of one page, whose postamble has these definitions of fonts."""
    sizes = struct.pack(">III", 25400000, 473628672, 1000)
    page = struct.pack(">B10ii", 139, *[0] * 10, -1) + body + b"\x8c"
    head = b"\xf7\x02" + sizes + b"\x00"
    post = len(head) + len(page)
    tail = (
        struct.pack(">Bi", 248, len(head))
        + sizes
        + struct.pack(">iiHH", 0, 0, 0, 1)
        + definitions
        + struct.pack(">BiB", 249, post, 2)
    )
    return head + page + tail + b"\xdf" * (4 + -(post + len(tail)) % 4)


def many_glyphs(count):
    """A DVI file with a page of this many glyphs."""
    definition = font_definition(0)
    return one_page(definition + b"\xab" + b"a" * count, definition)


def many_numbers(count):
    """A DVI file with a page that defines one font under this many numbers, and sets a glyph by
    each."""
    definitions = [font_definition(number) for number in range(count)]
    return one_page(
        b"".join(
            it + struct.pack(">BIB", 238, number, 97) for number, it in enumerate(definitions)
        ),
        b"".join(definitions),
    )
