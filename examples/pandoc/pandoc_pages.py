#!/usr/bin/env python3
"""Sets a document of pandoc's JSON as the pages of a DVI file, by boxglue:

    pandoc -t json FILE | examples/pandoc/pandoc_pages.py OUT.dvi
    dvipdfmx OUT.dvi
"""

import argparse
import json
from collections.abc import Iterator
from dataclasses import replace

import boxglue
from blocks import Blocks, Flow, Frame
from boxglue.families import COMPUTER_MODERN, LATIN_MODERN, Fonts
from boxglue.hyphenation import Patterns
from inlines import Element, Inlines
from joining import join
from pages import Full, Pages
from paragraphs import BODY, NEVER, PT, Before, Paragraphs, say


def walk(element: Element) -> Iterator[Element]:
    """An element and all that is in it."""
    yield element
    inner = element.values() if isinstance(element, dict) else element
    for it in inner if isinstance(element, (dict, list)) else ():
        yield from walk(it)


def prepare(document: Element) -> tuple[dict[str, str], list[Element], bool]:
    """Numbers the places of a document and its notes. Returns them, and if it has headings."""
    names, notes, has_headings = list[str](), list[Element](), False
    for it in walk(document["blocks"]):
        match it:
            case [str(name), [*_], _]:
                names.append(name)
            case {"t": "Note", "c": blocks}:
                notes.append(blocks)
                it["number"] = len(notes)
            case {"t": "Header"}:
                has_headings = True
    return {it: f"p{number}" for number, it in enumerate(names)}, notes, has_headings


def title(blocks: Blocks, meta: Element, frame: Frame) -> None:
    """Adds the title of a document."""
    text = meta.get("title", {}).get("c", [])
    inlines = text if isinstance(text, list) else [{"t": "Str", "c": text}]
    blocks.text(inlines, frame._replace(style=replace(BODY, size=17 * PT), align="center"), NEVER)
    frame.gap(8)


def body(blocks: Blocks, document: list[Element], pages: Pages) -> None:
    """Sets a document, and ships its pages as soon as enough waits. A full job is followed by one
    that sets the block again whose rows were not all shipped."""
    at, flow = 0, blocks.frame.flow
    while at <= len(document):
        try:
            blocks.origin = blocks.origin if flow.next.places else at
            blocks.blocks(document[at : at + 1], blocks.frame)
            pages.take(flow.rows, at == len(document))
            at += 1
        except Full:
            at = flow.rows[0].origin
            pages.files.append(pages.end())
            pages.begin()
            pages.passed, flow.next = pages.shipped[at], Before()
            flow.rows.clear()
    pages.files.append(pages.end())


def convert(document: Element, blocks: Blocks, pages: Pages, has_headings: bool) -> bytes:
    """The DVI file of a document. Its title stands before the contents, if there are any."""
    pages.begin()
    if not has_headings:
        title(blocks, document.get("meta", {}), blocks.frame)
    body(blocks, document["blocks"], pages)
    if has_headings:
        pages.begin()
        front = blocks.frame._replace(flow=Flow())
        title(blocks, document.get("meta", {}), front)
        pages.files.insert(0, pages.front(front))
    return join(pages.files)


def arguments() -> argparse.Namespace:
    """The command line."""
    parser = argparse.ArgumentParser(description="Sets pandoc's JSON as the pages of a DVI file.")
    add = parser.add_argument
    add("out", help="the DVI file")
    add("json", nargs="?", default=0, help="the document; by default standard input")
    add("--fonts", metavar="FOLDER", help="metric files; by default kpsewhich finds them")
    add("--family", choices=["lm", "cm"], default="lm", help="Latin or Computer Modern")
    add("--hyphens", metavar="FILE", help="TeX's patterns, such as hyphen.tex")
    add("--width", default="345pt", help="of the text")
    add("--height", default="598pt", help="of the text on a page")
    add("--pictures", metavar="FOLDER", default="", help="where pictures are")
    add("--job-pages", type=int, default=65_535, help="the most pages of a job")
    return parser.parse_args()


def main() -> None:
    """Runs the command line."""
    words = arguments()
    with open(words.json, encoding="utf-8") as file:
        document = json.load(file)
    places, notes, has_headings = prepare(document)
    width, height = map(boxglue.scaled_points, [words.width, words.height])
    folder = boxglue.FontFolder(words.fonts or ".", kpsewhich=not words.fonts)
    try:
        fonts = Fonts(folder, LATIN_MODERN if words.family == "lm" else COMPUTER_MODERN)
    except LookupError as error:
        raise SystemExit(str(error)) from error
    hyphens = Patterns.read(words.hyphens) if words.hyphens else None
    paragraphs = Paragraphs(fonts, hyphens)
    inlines = Inlines(fonts, places, words.pictures, [width, height * 2 // 3])
    blocks = Blocks(inlines, paragraphs, width, notes)
    pages = Pages(blocks, height, words.job_pages)
    blocks.take = pages.take
    with open(words.out, "wb") as out:
        out.write(convert(document, blocks, pages, has_headings))
    for it, count in inlines.left_out.items():
        say(f"left out: {it} ({count} times)")
    for it, count in fonts.lost.items():
        say(f"no font has {it} ({count} times)")
    overfull, loose = pages.faults["overfull"], pages.faults["loose"]
    say(
        f"{pages.number} pages, {paragraphs.count} paragraphs, {paragraphs.lines} lines, "
        f"{overfull} of them overfull, {loose} with a badness above 1000"
    )


if __name__ == "__main__":
    main()
