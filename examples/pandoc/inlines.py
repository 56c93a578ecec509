"""Pandoc's inlines as tokens of a paragraph."""

import re
from collections import Counter
from collections.abc import Callable, Iterable
from dataclasses import replace
from functools import partial
from pathlib import Path
from typing import Any

import boxglue
from boxglue import pdf
from boxglue.families import Fonts, Style
from paragraphs import BLUE, BODY, LINK_END, PT, SCRATCH, Token, mark, send_specials

# Elements of pandoc's JSON.
Element = Any
QUOTES = {"SingleQuote": "‘’", "DoubleQuote": "“”"}
SPACES = {"Space": " ", "SoftBreak": " ", "LineBreak": "\n"}
# How kinds of inlines change the style of what is in them.
CHANGES: dict[str, Callable[[Style], Style]] = {
    "Emph": lambda style: replace(style, italic=not style.italic),
    "Underline": lambda style: replace(style, italic=not style.italic),
    "Strong": lambda style: replace(style, bold=True),
    "SmallCaps": lambda style: replace(style, family="sc"),
    "Superscript": lambda style: raised(style, 36),
    "Subscript": lambda style: raised(style, -20),
    "Strikeout": lambda style: style,
}


def raised(style: Style, rise: int) -> Style:
    """The smaller style of what is raised, by hundredths of the size."""
    return replace(style, size=max(6 * PT, style.size * 7 // 10), rise=style.size * rise // 100)


def title_of(tokens: Iterable[Token]) -> str:
    """The text of tokens, without the marks of notes."""
    return "".join(it.data for it in tokens if isinstance(it.data, str)).replace("\n", " ")


def boxed(it: boxglue.Batch, text: str, wide: int = 0, high: int = 0, rise: int = 0) -> None:
    """Adds a special in a box."""
    with it.hbox(to=wide, into=SCRATCH):
        it.special(text)
        it.rule(0, high, 0)
    it.box(SCRATCH, shift=-rise)


class Inlines:
    """Makes tokens of inlines. `places` has the document's places by what they are in the PDF
    file, and `left_out` counts what was left out or set as something else."""

    def __init__(self, fonts: Fonts, places: dict[str, str], folder: str, most: list[int]) -> None:
        self.fonts, self.places, self.folder, self.most = fonts, places, Path(folder), most
        self.left_out = Counter[str]()

    def tokens(self, inlines: Iterable[Element], style: Style = BODY) -> list[Token]:
        """The tokens of inlines. Texts in one style are one token."""
        found: list[Token] = []
        for data, its in (token for it in inlines for token in self.inline(it, style)):
            last = found[-1].data if found else "\n"
            if isinstance(data, str) and isinstance(last, str):
                data = data.lstrip(" ") if last.endswith("\n") else data
                data = str(found.pop().data) + data if found and found[-1].style == its else data
            found.append(Token(data, its))
        return found

    def inline(self, it: Element, style: Style) -> list[Token]:
        """The tokens of an inline."""
        match it:
            case {"t": "Str", "c": text}:
                return [Token(text, style)]
            case {"t": kind} if kind in SPACES:
                return [Token(SPACES[kind], style)]
            case {"t": kind, "c": inner} if kind in CHANGES:
                return self.tokens(inner, CHANGES[kind](style))
            case {"t": "Quoted", "c": [{"t": kind}, inner]}:
                left, right = (Token(it, style) for it in QUOTES[kind])
                return [left, *self.tokens(inner, style), right]
            case {"t": "Code", "c": [_, text]}:
                return [Token(re.sub("[\t\n]", " ", text), replace(style, family="tt"))]
            case {"t": "Math", "c": [{"t": kind}, text]}:
                self.left_out["mathematics, set as its source"] += 1
                around = [Token("\n", style)] * (kind == "DisplayMath")
                return [*around, *self.inline({"t": "Code", "c": ["", text]}, style), *around]
            case {"t": "Cite", "c": [_, inner]} | {"t": "Span", "c": [["", *_], inner]}:
                return self.tokens(inner, style)
            case {"t": "Span", "c": [[place, *_], inner]}:
                text = pdf.place(self.places[place])
                its = Token(partial(boxed, text=text, rise=9 * PT), style)
                return [its, *self.tokens(inner, style)]
            case {"t": "Link", "c": [_, inner, [target, _]]}:
                return self.link(target, self.tokens(inner, style), style)
            case {"t": "Note", "number": number}:
                of_mark = raised(replace(BODY, size=style.size), 36)
                its = {"runs": self.fonts.runs(str(number), of_mark), "rise": of_mark.rise}
                return [Token(partial(mark, fonts=self.fonts, number=number, **its), style)]
            case {"t": "Image", "c": [_, inner, [target, _]]}:
                return [self.image(inner, target, style)]
        self.left_out[it["t"]] += 1
        return []

    def link(self, target: str, text: list[Token], style: Style) -> list[Token]:
        """The tokens of a link; its text alone if it leads nowhere."""
        place = self.places.get(target[1:]) if target.startswith("#") else ""
        if place is None:
            self.left_out[f"the link to {target}, which is no place"] += 1
        if place is None or not text or not target:
            return text
        ends = [pdf.link_to(place) if place else pdf.link(target), BLUE], LINK_END
        first, last = (Token(partial(send_specials, specials=it), style) for it in ends)
        return [first, *text, last]

    def image(self, text: list[Element], target: str, style: Style) -> Token:
        """The token of a picture, or the text in its place."""
        found = pdf.picture(self.folder / target, *self.most)
        if not found:
            self.left_out[f"the picture {target}"] += 1
            return Token(f"[{title_of(self.tokens(text)) or Path(target).name}]", style)
        return Token(partial(boxed, text=found.special, wide=found.width, high=found.height), style)
