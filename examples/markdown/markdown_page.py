#!/usr/bin/env python3
"""Sets a small Markdown as the pages of a DVI file, through bindings/python: headings, paragraphs,
rules, emphasis, code words and lists.

    examples/markdown/markdown_page.py --text=cmr10.tfm --bold=cmbx10.tfm --italic=cmti10.tfm \
        --code=cmtt10.tfm page.md page.dvi

No width is computed here: a job measures the labels of lists first, and its replies say how high
the list of blocks is, and when the pages have taken all of it."""
import argparse
import os
import re
import sys
from collections import namedtuple

sys.path.append(f"{os.path.dirname(os.path.abspath(__file__))}/../../bindings/python")
import boxglue  # noqa: E402 (it is in no folder of Python's)
from boxglue import OT1, pt  # noqa: E402

TEXT, BOLD, ITALIC, CODE = FACES = "text", "bold", "italic", "code"
# The size of the font and of a line, by the level of a heading.
SIZES = (pt(10), pt(12)), (pt("17.28"), pt(22)), (pt(12), pt(15)), (pt(10), pt(12))
WIDTH, HEIGHT, INDENT, LABEL_GAP = pt(300), pt(500), pt(20), pt(5)
TYPEWRITER = {chr(code): code for code in range(33, 127)}  # the encoding of cmtt10
BLOCK_GAP, ITEM_GAP, HEADING_GAP = (pt(6), pt(2)), (pt(2), pt(1)), (pt(12), pt(4), pt(2))
PIECES = re.compile(r"\\([^\w\s])|(\*\*)|([*_])|`([^`]*)`|([^\\*_`]+|.)")
LINES = re.compile(
    r"(?P<level>#{1,3}) +(?P<title>.*?) *#*|(?P<rule> *([-*_]) *(?:\4 *){2,})|"
    r"(?P<depth> *)(?:[-*+]|(?P<number>\d+)[.)]) +(?P<item>.*)"
)
Block = namedtuple("Block", "kind text level label", defaults=("", 0, ""))


def read_blocks(text):
    """The blocks of a text: headings (of a level), paragraphs, rules, and items of lists (with a
    label, at a depth)."""
    blocks, goes_on = [], False
    for line in text.splitlines():
        begun = LINES.fullmatch(line)
        if begun and begun["level"]:
            blocks.append(Block("heading", begun["title"], len(begun["level"])))
        elif begun and begun["rule"]:
            blocks.append(Block("rule"))
        elif begun:
            label = f"{begun['number']}." if begun["number"] else ""
            blocks.append(Block("item", begun["item"], len(begun["depth"]) // 2, label))
        elif line.strip() and goes_on:
            blocks[-1] = blocks[-1]._replace(text=f"{blocks[-1].text} {line.strip()}")
        elif line.strip():
            blocks.append(Block("paragraph", line.strip()))
        goes_on = bool(line.strip()) and blocks[-1].kind in ("item", "paragraph")
    return blocks


def spans(text, face):
    """The pieces of a text, each with the face of its font."""
    bold = italic = False
    for escaped, strong, emphasis, code, plain in PIECES.findall(text.replace("\xa0", " ")):
        bold, italic = bold ^ bool(strong), italic ^ bool(emphasis)
        if not strong and not emphasis:
            own = BOLD if bold else ITALIC if italic else CODE if code else face
            yield own, escaped or code or plain


class Galley:
    """A list of blocks in register 0, from whose top pages are cut. A box may be 16,383pt high, so
    a
    long text never lies in one."""

    def __init__(self, job, names):
        self.job, self.pages, self.missing, self.texts = job, 0, 0, []
        self.fonts = {
            (face, level): job.load(name, at=size)
            for face, name in names.items()
            for level, (size, _) in enumerate(SIZES)
        }

    def text(self, it, text, level=0, face=TEXT):
        """A text in a list. What a font lacks is a question mark."""
        for its, piece in spans(text, face):
            it.use(self.fonts[its, level])
            encoding = TYPEWRITER if its == CODE else OT1
            known = "".join(one if one == " " or one in encoding else "?" for one in piece)
            self.texts.append(it.text(known, encoding=encoding))

    def paragraph(self, it, text, width, level=0, face=TEXT):
        """A paragraph of this width, with struts: lines are as far apart between blocks as in
        one."""
        line = SIZES[level][1]
        strut = 0, line * 7 // 10, line * 3 // 10
        it.set(hsize=width, baselineskip=line)
        with it.par():
            it.rule(*strut), self.text(it, text, level, face), it.rule(*strut)

    def item(self, it, block, left):
        """An item: its label in a box that ends at the indent, and its text in a vtop, so that
        their
        first baselines are one."""
        with it.hbox():
            with it.hbox(to=left):
                it.glue(0, plus=(1, "fil"))
                self.text(it, block.label) if block.label else it.rule(pt(3), pt("4.5"), pt("-1.5"))
                it.kern(LABEL_GAP)
            with it.vtop():
                self.paragraph(it, block.text, WIDTH - left)

    def block(self, block, before, indent):
        """Puts a block at the end of the list. Pages are shipped while it is higher than two, so
        that
        breaks are chosen among all places of a page."""
        with self.job.batch() as it, it.vbox(into=0) as box:
            it.unvbox(0)
            if before and before.kind != "heading":
                is_list = block.kind == before.kind == "item"
                gap = ITEM_GAP if is_list else BLOCK_GAP
                it.glue(*(HEADING_GAP if block.kind == "heading" else gap))
            if block.kind == "rule":
                it.rule(None, pt("0.4"), 0)
            elif block.kind == "item":
                self.item(it, block, indent * (block.level + 1))
            elif block.kind == "heading":
                self.paragraph(it, block.text, WIDTH, block.level, BOLD)
                it.penalty(10_000), it.glue(pt(4))
            else:
                self.paragraph(it, block.text, WIDTH)
        self.missing, self.texts = self.missing + sum(text.reply.missing for text in self.texts), []
        if box.height >= 2 * HEIGHT:
            self.ship(2 * HEIGHT)

    def ship(self, least):
        """Ships pages until the list is less high than this."""
        rest = boxglue.Sizes(0, least, 0)
        while rest and rest.height >= least:
            self.pages += 1
            self.job.count(0, self.pages)
            rest = self.job.vsplit(0, to=HEIGHT, into=1).rest
            self.job.ship(1)


def main(words):
    """Reads the files, sets the text, and writes the DVI file."""
    names = {face: os.path.basename(getattr(words, face)).removesuffix(".tfm") for face in FACES}
    fonts = {name: open(getattr(words, face), "rb").read() for face, name in names.items()}
    blocks = read_blocks(open(words.input, encoding="utf-8").read())
    with boxglue.Job(fonts) as job:
        galley, widths = Galley(job, names), [INDENT]
        job.set(tolerance=800, lineskip=0)
        for label in {it.label for it in blocks}:
            with job.hbox(into=1) as box:
                galley.text(job, label), job.kern(LABEL_GAP)
            widths.append(box.width)
        galley.texts = []
        for before, block in zip([None, *blocks], blocks):
            galley.block(block, before, max(widths))
        with job.vbox(into=0):
            job.unvbox(0), job.glue(0, plus=(1, "fil"))
        galley.ship(0)
        job.finish().check()
        open(words.output, "wb").write(job.take())
    if galley.missing:
        print(f"{galley.missing} characters are not in their fonts", file=sys.stderr)


if __name__ == "__main__":
    layout = argparse.RawDescriptionHelpFormatter
    parser = argparse.ArgumentParser(description=__doc__, formatter_class=layout)
    parser.add_argument("input"), parser.add_argument("output")
    for face in FACES:
        parser.add_argument(f"--{face}", metavar="TFM", required=True)
    main(parser.parse_args())
