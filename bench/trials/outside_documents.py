"""Documents that tex and latex make into DVI files: those of TeX Live, and others with math, rules,
pictures, colours, links, and fonts of several kinds.

documents.txt has them, each after its name and its program, `article` for latex with these
packages. `<prose SEED COUNT BETWEEN>` stands for paragraphs, `<times COUNT TEXT>` and `<each FIRST
LAST TEXT>` for a text several times, and `<plain>` for the text below."""

import os
import re

from inputs import Prose

LATEX = "\\documentclass{article}\n%s\n\\begin{document}\n%s\n\\end{document}\n"
MATH = r"""$$\int_0^\infty {x^2\over 1+\sqrt{x^3}}\,dx=\sum_{n=1}^{N}\left({a_n\over b_n}\right)\qquad \widehat{xyz}\;\overline{AB}\;\underbrace{a+\cdots+z}$$
Inline $a^{2^{b}}+\left\{\matrix{1&2\cr 3&4\cr}\right\}$ and $\root 3\of{x+y}\leq\bigcup_i A_i$. """
NOTE = r"\footnote*{" + "note " * 20 + "}"


def prose(seed, paragraphs, between=""):
    """Paragraphs of words, with a text after each."""
    source = Prose(seed)
    return "\n".join(
        " ".join(source.paragraph(60 + 20 * (i % 4))) + between + "\n" for i in range(paragraphs)
    )


PLAIN = (
    prose(11, 4)
    + MATH * 3
    + r"""
\hrule \smallskip \halign{\vrule#&\strut\quad#\hfil&\vrule#&\quad\hfil$#$\quad\vrule\cr\noalign{\hrule}&one&&1\cr&two&&22\cr\noalign{\hrule}}
\special{color push rgb 1 0 0} red \special{color pop} \hbox to \hsize{left\leaders\hrule\hfil middle\dotfill right}
{\bf bold \it italic \sl slanted \tt typewriter} \font\large=cmr17 scaled 2074 \large Large \font\small=cmr5 at 4.1pt \small small
\vfill\eject \pageno=-3 \count7=12 """
    + prose(12, 12, NOTE)
    + r"\bye"
)


def each(it):
    """A text with numbers for each of a range."""
    numbers = (
        {"i": i, "wide": 997 * i, "more": 4 + i, "slope": 1 + i % 3, "rise": i % 2 * 5 + 1}
        for i in range(int(it[1]), int(it[2]))
    )
    return "".join(it[3] % its for its in numbers)


def expanded(text):
    """A text of documents.txt without its abbreviations."""
    text = re.sub(r"<each (\d+) (\d+) ([^>]*)>", each, text)
    text = re.sub(r"<times (\d+) (.*?)>(?=$|<prose)", lambda it: it[2] * int(it[1]), text)
    text = re.sub(
        r"[<[]prose (\d+) (\d+) ([^]>]*)[]>]", lambda it: prose(int(it[1]), int(it[2]), it[3]), text
    )
    return text.replace("<plain>", PLAIN)


def documents_of(path):
    """The documents of a file: the program and the text of each, by its name."""
    with open(path, encoding="ascii") as file:
        blocks = re.findall(r"(?m)^== (\w+) (\w+) ?(.*)\n(.*)$", file.read())
    return {
        name: ("latex", LATEX % (packages, expanded(text)))
        if kind == "article"
        else (kind, expanded(text))
        for name, kind, packages, text in blocks
    }


DOCUMENTS = documents_of(os.path.join(os.path.dirname(os.path.abspath(__file__)), "documents.txt"))
