"""Families of fonts: a text of Unicode in a style becomes runs, each in the first font that has its
characters.

    from boxglue import families

    fonts = families.Fonts(boxglue.FontFolder(kpsewhich=True), families.LATIN_MODERN)
    plain, strong = families.Style(), families.Style(bold=True)
    with fonts.job as job:
        with job.hbox(into=0):
            fonts.send(job, fonts.runs("a café → 10 €", plain))
        with job.vbox(into=1):
            pieces = fonts.pieces([("a naïve ", plain), ("text", strong)])
            job.paragraph(pieces, encoding=fonts.encoding)
    print(fonts.lost)  # the characters that no font has

A style names a face by its family, "r" for roman, "tt" for typewriter or "sc" for small capitals,
and by whether it is bold and italic. A `Family` says which fonts a face has; `LATIN_MODERN` and
`COMPUTER_MODERN` name TeX's own fonts.
"""

from __future__ import annotations

import re
import unicodedata
from collections import Counter
from collections.abc import Callable, Iterable, Iterator, Mapping, Sequence
from dataclasses import dataclass
from functools import partial
from typing import TYPE_CHECKING, NamedTuple, TypeAlias

from ._batches import Batch
from ._boxes import Box, GlueItem, GlyphItem
from ._dimensions import pt
from ._encoded import shaped
from ._encodings import OML, OMS, OT1, T1, TS1
from ._job import Job
from ._metrics import FontMetrics, metrics
from ._scripts import Glue
from .hyphenation import breakable, without_hyphens

if TYPE_CHECKING:
    from ._fonts import FontFolder
    from ._lists import LoadedFont
    from .hyphenation import Piece

__all__ = [
    "COMPUTER_MODERN",
    "Family",
    "Font",
    "Fonts",
    "LATIN_MODERN",
    "Part",
    "Run",
    "SPELLED",
    "Style",
]

# The design size of faces of which a family does not know the design sizes, in points.
DESIGN_SIZE = 10
# Characters that are spelled by others, before a font is looked for.
SPELLED: Mapping[str, str] = {
    **dict.fromkeys("\xa0\u2002\u2003\u2009\u202f", " "),
    **dict.fromkeys("‐‑─⁃", "-"),
    **dict.fromkeys("\u200b\u200c\u200d\ufeff\xad\u2060", ""),
    **{"―": "—", "ʼ": "’", "′": "'", "…": "...", "∣": "|", "│": "|", "└": "+", "├": "+"},
    **{"☐": "[ ]", "☒": "[x]", "✓": "√"},
}
# Between two characters of which a font may make one, and between spaces, of which a text makes
# one.
_LITERAL = re.compile("|".join(f"(?<={it})(?={it})" for it in "-<>,' ") + "|(?<=[`!?])(?=`)")
_TYPEWRITER = {chr(it): it for it in range(33, 127)} | {"'": 13, "`": 18, "’": 39, "‘": 96}
# The faces of both families by their keys, and the design sizes of those that have several.
_KEYS = "r rb ri rbi tt ttb tti ttbi sc".split()
_SIZES = {"r": [5, 6, 7, 8, 9, 10, 12, 17], "bx": [5, 6, 7, 8, 9, 10, 12], "tt": [8, 9, 10, 12]}
_SIZES |= {"ri": [7, 8, 9, 10, 12], "ti": [7, 8, 9, 10, 12]}
# What is on both sides of a space of a ragged line, and the end of a line.
_NO_BREAK, _BREAK = (partial(Batch.penalty, penalty=it) for it in (10_000, 0))
_BOX = partial(Batch.rule, width=0, height=0, depth=0)
_RAGGED: tuple[list[Piece], list[Piece]] = (
    [_NO_BREAK, Glue(0, (1, "fil")), _BREAK],
    [Glue(0, (-1, "fil"))],
)
_END: list[Piece] = [Glue(0, (1, "fil")), partial(Batch.penalty, penalty=-10_000), _BOX]


@dataclass(frozen=True)
class Style:
    """How a text is set.

    Attributes:
        family: "r" for roman, "tt" for typewriter or "sc" for small capitals.
        bold: Whether it is bold.
        italic: Whether it is italic.
        size: The size of its fonts in scaled points.
        rise: How far it stands above the line, in scaled points.
    """

    family: str = "r"
    bold: bool = False
    italic: bool = False
    size: int = pt(10)
    rise: int = 0


@dataclass(frozen=True)
class Family:
    """The fonts of a family.

    Attributes:
        faces: The names of its faces by the families of styles, with "b" behind if it is bold and
            "i" if it is italic: "r", "rb", "ri", "rbi", "tt" and so on.
        encodings: The names of the fonts of a face with their encodings, "{}" for the face with its
            design size. A character is in the first font that has it.
        sizes: The design sizes of faces in points, if there are other ones than 10.
    """

    faces: Mapping[str, str]
    encodings: Mapping[str, Mapping[str, int]]
    sizes: Mapping[str, Sequence[int]]

    def names(self) -> list[str]:
        """Returns the names of the fonts.

        Returns:
            The names, some of which may be of fonts that nobody has.
        """
        faces = [f"{it}{size}" for it in self.faces.values() for size in self.designs(it)]
        return [form.format(it) for form in self.encodings for it in faces]

    def designs(self, face: str) -> Sequence[int]:
        """Returns the design sizes of a face.

        Args:
            face: Its name.

        Returns:
            The design sizes in points, the least one first.
        """
        return self.sizes.get(face, [DESIGN_SIZE])


def _family(faces: str, encodings: Mapping[str, Mapping[str, int]]) -> Family:
    """A family of faces whose names have the family before the kind."""
    names = faces.split()
    sizes = {it: _SIZES[it[2:]] for it in names if it[2:] in _SIZES}
    return Family(dict(zip(_KEYS, names)), encodings, sizes)


LATIN_MODERN = _family(
    "lmr lmbx lmri lmbxi lmtt lmtk lmtti lmtk lmcsc",
    {"ec-{}": T1, "ts1-{}": TS1, "lmsy10": OMS, "lmmi10": OML},
)
COMPUTER_MODERN = _family(
    "cmr cmbx cmti cmbxti cmtt cmtt cmitt cmitt cmcsc",
    {"{}": OT1, "cmsy10": OMS, "cmmi10": OML, "cmtt10": _TYPEWRITER},
)


class Font(NamedTuple):
    """A font at a size.

    Attributes:
        loaded: The font as a job has it. It has the same slot in all jobs of `Fonts`.
        codes: The codes of the characters that it has.
        metrics: Its metrics at this size.
    """

    loaded: LoadedFont
    codes: Mapping[str, int]
    metrics: FontMetrics


# A part of a text, and the font that has its characters. The first font has the spaces.
Run = tuple[Font, str]
# A text of a paragraph, or a function that adds something else, and its style.
Part: TypeAlias = "tuple[str | Callable[[Batch], object], Style]"


class Fonts:
    """The fonts of a document, which may need several jobs: each font has one slot in all of them.
    `of`, `runs`, `pieces` and `measure` load fonts that are needed for the first time, so call them
    outside a batch.

    Attributes:
        job: The job that has the fonts.
        encoding: The encoding of the texts of `pieces`, for `Job.paragraph`.
        lost: How often each character was met that no font has.

    Args:
        folder: Where the metric files are.
        family: The family.
        spelled: Characters that are spelled by others.

    Raises:
        LookupError: No metric file was given for roman letters, the current font of each job.
        Refused: A metric file is bad.
    """

    def __init__(
        self,
        folder: FontFolder,
        family: Family = LATIN_MODERN,
        spelled: Mapping[str, str] = SPELLED,
    ) -> None:
        self._family, self._spelled = family, spelled
        self._files = folder.choose(family.names())
        self.encoding = next(iter(family.encodings.values()))
        self.lost = Counter[str]()
        self._known = dict[tuple[str, int], Font]()
        self._of = dict[tuple[str, int], list[Font]]()
        self._shown = dict[tuple[int, int], str]()
        self.job = Job()
        self.begin()

    def begin(self) -> Job:
        """Begins another job, in which each font has the slot that it had in the job before, and
        closes that one.

        Returns:
            The job.

        Raises:
            LookupError: No metric file was given for roman letters.
            Refused: A metric file is bad.
        """
        self.job.close()
        self.job = Job(self._files)
        self._raised = self.job.register()
        for it, _, _ in self._known.values():
            self.job.load(it.name, at=it.size, slot=it.slot)
        self.job.use(self.of(Style())[0].loaded)
        return self.job

    def of(self, style: Style) -> list[Font]:
        """Returns the fonts of a style.

        Args:
            style: The style.

        Returns:
            The fonts: a character is in the first one that has it.

        Raises:
            LookupError: No metric file was given for it.
            Refused: A metric file is bad, or a number does not fit at this size.
        """
        key = "sc" if style.family == "sc" else style.family + "b" * style.bold + "i" * style.italic
        face, size = self._family.faces[key], style.size
        if (face, size) not in self._of:
            main = next(iter(self._family.encodings))
            sizes = self._family.designs(face)
            sizes = [it for it in sizes if main.format(f"{face}{it}") in self._files]
            if not sizes:
                raise LookupError(f"no metric files for {face}")
            name = f"{face}{max([it for it in sizes if pt(it) <= size], default=sizes[0])}"
            encodings = self._family.encodings.items()
            found = [(form.format(name), encoding) for form, encoding in encodings]
            self._of[face, size] = [
                self._font(name, encoding, size) for name, encoding in found if name in self._files
            ]
        return self._of[face, size]

    def _font(self, name: str, encoding: Mapping[str, int], size: int) -> Font:
        """A font at a size."""
        if (name, size) not in self._known:
            measured = metrics(self._files[name], size)
            # The straight quotes of a typewriter are in another font.
            bent = "'`" if "tt" in name and encoding is T1 else ""
            codes = {it: at for it, at in encoding.items() if measured.has(at) and it not in bent}
            loaded = self.job.load(name, at=size, slot=len(self._known))
            self._known[name, size] = Font(loaded, codes, measured)
            self._shown |= {(loaded.slot, at): it for it, at in codes.items()}
        return self._known[name, size]

    def runs(self, text: str, style: Style) -> list[Run]:
        """Divides a text into runs. A character that no font has is counted, and becomes its letter
        without accents, or a question mark.

        Args:
            text: The text.
            style: Its style.

        Returns:
            The runs.

        Raises:
            LookupError: No metric file was given for the style.
        """
        fonts, found = self.of(style), list[Run]()
        if fonts[0].codes.keys() >= {*text} - {" "}:
            return [(fonts[0], text)]
        for it in "".join(self._spelled.get(it, it) for it in text):
            fits = fonts[:1] if it == " " else [font for font in fonts if it in font.codes]
            if not fits:
                self.lost[it] += 1
                it, fits = unicodedata.normalize("NFKD", it)[0], fonts[:1]
                it = it if it in fonts[0].codes else "?"
            before = found.pop()[1] if found and found[-1][0] is fits[0] else ""
            found.append((fits[0], before + it))
        return found

    def send(self, it: Batch | Job, runs: Iterable[Run], *, rise: int = 0) -> None:
        """Adds runs to the horizontal list that is open. What a font would join, such as two
        hyphens, and several spaces stay as they are.

        Args:
            it: The job, or a batch of it.
            runs: The runs.
            rise: How far they stand above the line, in scaled points. If it is not 0, no line ends
                within them.

        Raises:
            Refused: A command is refused.
        """
        if rise:
            with it.hbox(into=self._raised):
                self.send(it, runs)
            it.box(self._raised, shift=-rise)
            return
        for font, text in runs:
            it.use(font.loaded)
            for part in _LITERAL.split(text):
                it.text(part, encoding=font.codes)

    def measure(self, text: str, style: Style) -> int:
        """Measures a text in one line, without running a command.

        Args:
            text: The text.
            style: Its style.

        Returns:
            Its width in scaled points.

        Raises:
            LookupError: No metric file was given for the style.
        """
        width = 0
        for font, run in self.runs(text, style):
            its, words = font.metrics, [it for part in _LITERAL.split(run) for it in part.split()]
            codes = ([font.codes[it] for it in word] for word in words)
            glyphs = (glyph for word in codes for glyph in shaped(word, its))
            width += sum(its.width(code) + kern for _, code, kern in glyphs)
            width += run.count(" ") * its.space
        return width

    def widest(self, text: str, style: Style) -> int:
        """Measures the widest part of a text that has no place for a break, by which a column of a
        table is wide enough.

        Args:
            text: The text.
            style: Its style.

        Returns:
            The width in scaled points. Hyphens that a rule finds do not count as places.

        Raises:
            LookupError: No metric file was given for the style.
        """
        parts = (part for part, _ in breakable(text, code=style.family == "tt"))
        words = (word for part in parts for word in part.split())
        return max([self.measure(it, style) for it in words], default=0)

    def italic_correction(self, text: str, style: Style) -> int:
        """Returns how far the last letter of a slanted text leans over what follows, as TeX's \\/
        adds it.

        Args:
            text: The text.
            style: Its style.

        Returns:
            The width of a kern, in scaled points.

        Raises:
            LookupError: No metric file was given for the style.
        """
        font, last = [(self.of(style)[0], ""), *self.runs(text[-1:], style)][-1]
        sizes = font.metrics.characters.get(font.codes.get(last, -1))
        return sizes.italic or 0 if sizes else 0

    def text_of(self, box: Box) -> str:
        """Returns the text of a box, such as a line that `inspect` shows, for messages.

        Args:
            box: The box.

        Returns:
            Its characters, with a space for each glue that has a width.
        """
        found = ""
        for it in box.walk():
            found += " " * (isinstance(it, GlueItem) and it.width > 0)
            if isinstance(it, GlyphItem):
                found += self._shown.get((it.font, it.code), "")
        return found

    def pieces(self, parts: Iterable[Part], *, ragged: bool = False) -> Iterator[Piece]:
        """Yields the pieces of texts for `Job.paragraph`: words that may get hyphens, and what gets
        none, as `boxglue.hyphenation.without_hyphens` has it. What is in typewriter or raised gets
        none either. Between a slanted text and an upright one is the italic correction, but for one
        before a period or a comma.

        Args:
            parts: Texts with their styles, in which a line feed ends a line, and functions that add
                something else by the batch that they are given.
            ragged: Whether spaces stay as they are and lines end with space instead.

        Returns:
            The pieces.

        Raises:
            LookupError: No metric file was given for a style.
        """
        whole = [*parts]
        for (data, style), after in zip(whole, [*whole[1:], None]):
            if not isinstance(data, str):
                yield data
                continue
            yield from self._pieces(data, style, ragged)
            is_upright = after is None or not after[1].italic and str(after[0])[:1] not in ".,"
            if style.italic and style.family == "r" and data[-1:].strip() and is_upright:
                yield partial(Batch.kern, amount=self.italic_correction(data, style))

    def _pieces(self, text: str, style: Style, is_ragged: bool) -> Iterator[Piece]:
        """The pieces of a text."""
        first, is_as_is = self.of(style)[0], style.family == "tt" or style.rise != 0
        is_split, (before, after) = is_ragged or style.rise != 0, _RAGGED if is_ragged else ([], [])
        for part in re.split("([ \n])" if is_split else "(\n)", text):
            if part == "\n" or part == " " and is_split:
                space: list[Piece] = [*before, first.loaded, " ", *after]
                yield from _END if part == "\n" else space
                continue
            for place, words in enumerate(["", part] if is_as_is else without_hyphens(part)):
                if place % 2:
                    yield partial(self._send_as_is, text=words, style=style)
                    continue
                for font, found in self.runs(words, style) if words else []:
                    plain: list[Piece] = [font.loaded, found]
                    other: list[Piece] = [partial(self.send, runs=[(font, found)])]
                    yield from plain if font is first else other

    def _send_as_is(self, it: Batch, text: str, style: Style) -> None:
        """Adds a text without hyphens, in parts behind which a line may end."""
        for part, penalty in breakable(text, code=style.family == "tt"):
            self.send(it, self.runs(part, style), rise=style.rise)
            if penalty:
                it.penalty(penalty)
