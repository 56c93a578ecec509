"""The metrics of fonts."""
from __future__ import annotations

import functools
from collections.abc import Mapping
from ctypes import byref, c_size_t
from dataclasses import dataclass, field
from fractions import Fraction
from types import MappingProxyType
from typing import Any, NamedTuple, Protocol, SupportsIndex

from ._library import (
    Data,
    FaultRow,
    FontParameters,
    GlyphTable,
    StepRow,
    library,
    metrics_data,
    sized,
)
from ._public import public
from ._replies import _METRIC_CAUSES, _REFUSALS
from ._scripts import LARGEST_FONT, number
from ._status import Refused, Status, fail

# The kind of a step that is a ligature: BOXGLUE_STEP_LIGATURE of the header.
LIGATURE = 2
_KEPT = 256
_RATIO = 1 << 20


@public
class FontStep(NamedTuple):
    """The step of a font between two characters: a kern of so many scaled points, or a ligature,
    which is a character in the place of both."""

    is_ligature: bool
    value: int


@public
@dataclass(frozen=True, slots=True)
class CharacterMetrics:
    """The sizes of a character, and its italic correction, in scaled points. An italic correction
    that is too large for the size is None."""

    width: int
    height: int
    depth: int
    italic: int | None


class Metrics(Protocol):
    """What typed calls ask of the metrics of a font."""

    def has(self, code: int) -> bool:
        """Whether the font has this character."""

    def step(self, left: int, right: int) -> FontStep | None:
        """The first step that the font has for these two characters."""

    def width(self, code: int) -> int:
        """The width of a character, 0 if the font lacks it."""


@public
@dataclass(frozen=True, eq=False)
class FontMetrics:
    """The metrics of a font at a size, in scaled points. They are kept, so they cannot be changed.

    Attributes:
        size: The size at which the font was measured.
        design_size: The design size in the metric file.
        check_sum: The check sum in the metric file.
        slant: By how much characters lean, a ratio that does not depend on the size.
        space: The width of a space; `stretch` and `shrink` are by how much it stretches and
            shrinks.
        x_height: The height of an x; None if it is too large for the size, as for the other two.
        quad: The width of an em.
        extra_space: The space that is added at the end of a sentence.
        characters: The characters that the font has, by their codes.
        steps: The kerns and ligatures, by the codes of two characters.
    """

    size: int
    design_size: int
    check_sum: int
    slant: Fraction
    space: int
    stretch: int
    shrink: int
    x_height: int | None
    quad: int | None
    extra_space: int | None
    characters: Mapping[int, CharacterMetrics] = field(repr=False)
    steps: Mapping[tuple[int, int], FontStep] = field(repr=False)

    def has(self, code: int) -> bool:
        """Tells whether the font has a character.

        Args:
            code: Its number.

        Returns:
            Whether the font has it.
        """
        return code in self.characters

    def step(self, left: int, right: int) -> FontStep | None:
        """Returns the first step that the font has for two characters.

        Args:
            left: The first character.
            right: The character after it.

        Returns:
            The kern or the ligature; None if there is none.
        """
        return self.steps.get((left, right))

    @property
    def kerns(self) -> dict[tuple[int, int], int]:
        """The kerns between two characters, by their codes."""
        return {pair: it.value for pair, it in self.steps.items() if not it.is_ligature}

    @property
    def ligatures(self) -> dict[tuple[int, int], int]:
        """The characters that stand for two others, by the codes of these."""
        return {pair: it.value for pair, it in self.steps.items() if it.is_ligature}

    def __reduce__(self) -> tuple[Any, ...]:
        values = {**vars(self), "characters": {**self.characters}, "steps": {**self.steps}}
        return _metrics_of_parts, (values,)

    def width(self, code: int) -> int:
        """Returns the width of a character.

        Args:
            code: Its number.

        Returns:
            The width in scaled points, 0 if the font lacks the character.
        """
        found = self.characters.get(code)
        return found.width if found else 0


@public
def metrics(tfm: Data, size: SupportsIndex = 0) -> FontMetrics:
    """Reads the metrics of a font. All sizes are those with which a job sets text. The package
    keeps the metrics of the last 256 fonts.

        fonts = boxglue.FontFolder("/usr/share/texlive/texmf-dist/fonts/tfm/public/cm")
        found = boxglue.metrics(fonts["cmr10"], boxglue.pt(12))
        print(found.characters[ord("x")].width, found.quad, found.kerns[ord("A"), ord("V")])

    Args:
        tfm: The bytes of a metric file.
        size: The size in scaled points; 0 is the design size.

    Returns:
        The metrics.

    Raises:
        Refused: The metric file is bad (BadTfm), or a number does not fit at this size
            (DimensionTooLarge).
        ValueError: No font has this size.
        OutOfMemory: The system refused memory.
    """
    return _found(metrics_data(tfm), number(size, 0, LARGEST_FONT, "the size of a font"))


def metrics_of(tfm: Data, size: int | None) -> Metrics | None:
    """The metrics of a font as typed calls need them: None if the metric file is refused, as the
    job refuses it, too. The size None is the design size."""
    try:
        return metrics(tfm, size or 0)
    except Refused:
        return None


@functools.lru_cache(_KEPT)
def _found(tfm: bytes, size: int) -> FontMetrics:
    """The metrics of a font."""
    glyphs, given, count, fault, room = GlyphTable(), FontParameters(), c_size_t(), FaultRow(), 0
    while True:
        rows = (StepRow * max(room, 1))()
        status = library().boxglue_metrics(
            *sized(tfm), size, byref(glyphs), byref(given), rows, room, byref(count), byref(fault)
        )
        if status != Status.BUFFER_TOO_SMALL:
            break
        room = count.value
    if status == Status.REFUSED:
        raise Refused(_REFUSALS[fault.number], fault.number, None, _METRIC_CAUSES[fault.cause])
    if status != Status.ACCEPTED:
        fail(status)
    return FontMetrics(
        given.size,
        given.design_size,
        given.check_sum,
        Fraction(given.slant, _RATIO),
        given.space,
        given.stretch,
        given.shrink,
        _fit(given.x_height),
        _fit(given.quad),
        _fit(given.extra_space),
        MappingProxyType({code: _sizes(it) for code, it in enumerate(glyphs.rows) if it.is_there}),
        MappingProxyType({(it.character, it.following): _step(it) for it in rows[: count.value]}),
    )


def _metrics_of_parts(values: dict[str, Any]) -> FontMetrics:
    """The metrics that were copied or pickled."""
    parts = {name: MappingProxyType(values[name]) for name in ("characters", "steps")}
    return FontMetrics(**{**values, **parts})


def _fit(measure: Any) -> int | None:
    """A number, or None for one that is too large."""
    return None if measure.is_unfit else measure.value


def _sizes(row: Any) -> CharacterMetrics:
    return CharacterMetrics(row.width, row.height, row.depth, _fit(row.italic))


def _step(row: Any) -> FontStep:
    is_ligature = row.kind == LIGATURE
    return FontStep(is_ligature, row.ligature if is_ligature else row.kern)
