"""Texts by the encoding of their font: as the commands `text`, `char` and `kern`."""
from __future__ import annotations

from collections.abc import Iterator, Sequence
from typing import TYPE_CHECKING

from ._encodings import T1, Encoding
from ._scripts import CHARACTERS, one_line
from ._status import BadCharacter

if TYPE_CHECKING:
    from ._metrics import Metrics

# A space of a text is glue. The character 32 of a font is another thing, and comes by `char`.
SPACE, _LACKED = -1, -2


def codes_of(text: str, encoding: Encoding) -> list[int]:
    """The codes of the characters of a text."""
    if not hasattr(encoding, "get"):
        raise TypeError(f"an encoding must be a mapping such as boxglue.T1, not {encoding!r:.40}")
    codes = [SPACE if it == " " else encoding.get(it, _LACKED) for it in text]
    if _LACKED in codes:
        place = codes.index(_LACKED)
        example = ", such as boxglue.T1" if text[place] in T1 else ""
        raise BadCharacter(
            text,
            place,
            f"the encoding lacks it{one_line(text[place]) or f': use a font and an encoding that have it{example}'}",
        )
    wrong = next(
        (place for place, it in enumerate(codes) if it != SPACE and not 0 <= it < CHARACTERS), None
    )
    if wrong is not None:
        raise BadCharacter(
            text, wrong, f"the encoding has the code {codes[wrong]}, and codes are 0 to 255"
        )
    return codes


def refuse_missing(text: str, codes: Sequence[int], metrics: Metrics) -> None:
    """Raises BadCharacter for the first character that the font lacks."""
    for place, code in enumerate(codes):
        if code != SPACE and not metrics.has(code):
            raise BadCharacter(text, place, f"the font lacks its character {code}")


def shaped(word: Sequence[int], metrics: Metrics | None) -> Iterator[tuple[list[int], int, int]]:
    """The glyphs of a word (docs/FORMATS.md, section 10): of each the characters that it stands
    for, its code, and the kern after it. Steps to characters that the font lacks do not count."""
    sources, code = [word[0]], word[0]
    for following in word[1:]:
        step = metrics.step(code, following) if metrics and metrics.has(following) else None
        if step and step.is_ligature:
            sources, code = [*sources, following], step.value
        else:
            yield sources, code, step.value if step else 0
            sources, code = [following], following
    yield sources, code, 0


def _words(codes: Sequence[int]) -> Iterator[Sequence[int]]:
    """The words and the spaces of a text, each space by itself."""
    first = 0
    for at, code in enumerate(codes):
        if code == SPACE:
            if first < at:
                yield codes[first:at]
            yield [SPACE]
            first = at + 1
    if first < len(codes):
        yield codes[first:]


def _plain(sources: Sequence[int]) -> str | None:
    """The characters of a text that a command `text` can have; None if one is another."""
    made = "".join([" " if it == SPACE else chr(it) if 32 < it < 127 else "\n" for it in sources])
    return None if "\n" in made else made


def encoded(codes: Sequence[int], metrics: Metrics | None) -> list[str]:
    """The commands of a text.

    What scripts can write is in `text`, which looks for the font's steps itself. Kerns on the two
    sides of a `char` are commands of their own, and a ligature with such a character is the `char`
    of that.
    """
    whole = _plain(codes)
    if whole is not None:
        return [f"text {whole}\n"]
    lines: list[str] = []
    text, kern, was_plain = "", 0, False
    for sources, code, next_kern in (
        glyph for word in _words(codes) for glyph in shaped(word, metrics)
    ):
        plain = _plain(sources)
        if text and plain is None:
            lines.append(f"text {text}\n")
            text = ""
        if kern and not (was_plain and plain):
            lines.append(f"kern {kern}sp\n")
        if plain is None:
            lines.append(f"char {code}\n")
        else:
            text += plain
        kern, was_plain = next_kern, plain is not None
    return [*lines, f"text {text}\n"] if text else lines
