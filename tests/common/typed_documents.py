"""Random documents, each as a script and as the calls that it stands for: what drivers in Python,
Rust and C make of both has to be the same.

bench/compare_documents.py makes the scripts: paragraphs with all kinds of items in boxes that are
split into pages. The calls are read from the script here, without the library: a line each, with
numbers in place of dimensions, as `glue 65536 1 2 0 0` for `glue 1pt plus 0.00002fill`."""
import functools
import itertools
import math
import re
import sys
from fractions import Fraction

# The types of the calls in Rust can say 2,000 of them, and so can a batch in Python: those in which
# the end of no list is refused.
COUNT, SAID = 2150, 2000
UNITS = {
    "pt": (1, 1),
    "pc": (12, 1),
    "in": (7227, 100),
    "bp": (7227, 7200),
    "cm": (7227, 254),
    "mm": (7227, 2540),
    "dd": (1238, 1157),
    "cc": (14856, 1157),
    "sp": (1, 65536),
}
ORDERS = "", "fil", "fill", "filll"
DIMENSIONS = "boxmaxdepth splitmaxdepth lineskiplimit hsize firstsize hoffset voffset".split()
GLUES = "splittopskip baselineskip lineskip parfillskip".split()


def dimension(text):
    """The scaled points of a dimension (docs/FORMATS.md, section 1)."""
    sign, number, unit = re.fullmatch(r"([+-]?)([\d.]+)([a-z]+)", text).groups()
    num, den = UNITS["pt" if unit in ORDERS else unit]
    if unit == "sp":
        return int(f"{sign}{number.partition('.')[0] or 0}")
    points = math.floor(65536 * Fraction(number) + Fraction(1, 2))
    return (-1 if sign == "-" else 1) * (points * num // den)


def glue(words):
    """The width of a glue, its stretch and its shrink, each of the two with its order."""
    parts = {"width": words[0], **dict(zip(words[1::2], words[2::2]))}
    amounts = [
        (parts.get(it, "0pt"), re.search("[a-z]+$", parts.get(it, "0pt"))[0])
        for it in ("plus", "minus")
    ]
    return [
        dimension(words[0]),
        *(
            it
            for amount, unit in amounts
            for it in (dimension(amount), ORDERS.index(unit) if unit in ORDERS else 0)
        ),
    ]


def opening(words):
    """The size of a box that is opened, and its register; a dash for what there is not."""
    given = dict(zip(words[::2], words[1::2]))
    size = next(
        ((it, dimension(given[it])) for it in ("to", "spread") if it in given), ("natural", 0)
    )
    return [*size, given.get("into", "-")]


def call_of(line):
    """The call that a line stands for."""
    word, _, rest = line.partition(" ")
    if word in ("text", "special"):
        return f"{word} {rest}"
    words = rest.split()
    if word == "font":
        given = [words[0], words[1], dimension(words[3]) if words[2:] else "-"]
    elif word in ("hbox", "vbox", "vtop"):
        given = opening(words)
    elif word == "glue":
        given = glue(words)
    elif word == "set":
        given = [
            words[0],
            *(
                glue(words[1:])
                if words[0] in GLUES
                else [dimension(words[1])]
                if words[0] in DIMENSIONS
                else [words[1]]
            ),
        ]
    elif word == "vsplit":
        given = [words[0], dimension(words[2]), words[4]]
    elif word in ("box", "copy"):
        given = [words[0], dimension(words[2]) if words[1:] else 0]
    else:
        given = [dimension(it) if re.search("[a-z]$", it) else it for it in words]
    return " ".join(map(str, [word, *given]))


def scripts(root):
    """The scripts of random documents that are not bad ones."""
    sys.path[:0] = [f"{root}/bench", f"{root}/bench/trials"]
    try:
        from compare_documents import document_of
    finally:
        del sys.path[:2]
    made = (document_of(number, b"").script for number in itertools.count())
    sizes = re.compile(r"(?m)^font .* at (\S+)$")
    return (
        it for it in made if all(map(dimension, sizes.findall(it.decode("ascii"))))
    )  # no font has the size 0


@functools.lru_cache(None)
def documents(root):
    """A text of all documents: of each the line `document SIZE`, its script of this size, and its
    calls."""
    made = []
    for script in itertools.islice(scripts(root), COUNT):
        calls = "".join(f"{call_of(it)}\n" for it in script.decode("ascii").splitlines())
        made.append(b"document %d\n" % len(script) + script + calls.encode("ascii"))
    return b"".join(made)
