"""The texts of commands (docs/FORMATS.md, section 2). All that a script cannot have is refused
here, before anything is sent."""
from __future__ import annotations

import re
from operator import index
from typing import Literal, NamedTuple, NoReturn, SupportsIndex, TypeAlias

from ._dimensions import GREATEST, Amount, points, scaled
from ._public import public
from ._status import BadCharacter

# Stretch or shrink: scaled points, or an amount of an infinite order.
Stretch: TypeAlias = "SupportsIndex | tuple[Amount, Literal['fil', 'fill', 'filll']]"
ORDERS = "fil", "fill", "filll"
REGISTERS, SLOTS, COUNTS, CHARACTERS = 32_768, 256, 10, 256
MOST_PENALTY, LARGEST_FONT, MOST_FIRST_LINES = 500_000_000, (1 << 27) - 1, 32
_NAME = re.compile(r"[A-Za-z0-9_.-]{1,255}", re.ASCII)
_NO_CHARACTER = re.compile(r"[^ -~]")


@public
class Glue(NamedTuple):
    """Glue, as a value of a parameter: its width, stretch and shrink. Stretch and shrink are scaled
    points, or an amount and an order, such as (1, "fil")."""

    width: SupportsIndex
    plus: Stretch = 0
    minus: Stretch = 0


@public
def quote(text: str | bytes) -> str:
    """Tests whether a script can have a text, in a line of `text` or `special`. Scripts have no
    escapes, so the text stays as it is.

    Args:
        text: A str, or bytes of ASCII.

    Returns:
        The text.

    Raises:
        BadCharacter: It has a character that scripts cannot have, such as a line feed or an
            accented letter. The exception has its place.

    Example:
        script = f"special {boxglue.quote(address)}\\n"
    """
    found = text if isinstance(text, str) else text.decode("latin-1")
    if not (found.isascii() and found.isprintable()):
        bad = _NO_CHARACTER.search(found)
        if bad:
            raise BadCharacter(
                found, bad.start(), f"scripts have only the characters 32 to 126{_remedy(bad[0])}"
            )
    return found


def one_line(character: str) -> str:
    """What a message adds for white space that is not a space."""
    return '; a text is one line: send " ".join(text.split())' if character.isspace() else ""


def _remedy(character: str) -> str:
    """What a message adds for a character that scripts cannot have."""
    letters = (
        "; `text` and `paragraph` take others by encoding=boxglue.T1, with a font that has them"
        if character.isprintable()
        else ""
    )
    return one_line(character) or letters


def _fail_number(given: object, least: int, most: int, what: str) -> NoReturn:
    """Raises what is wrong with a number. A float is refused even where it is whole: what computes
    it may be a little off elsewhere."""
    if not hasattr(given, "__index__"):
        raise TypeError(f"{what} must be a whole number, not {given!r:.40}") from None
    raise ValueError(f"{what} must be {least:,} to {most:,}, not {given}")


def number(given: SupportsIndex, least: int, most: int, what: str) -> int:
    """A whole number in a range."""
    if type(given) is int and least <= given <= most:
        return given
    try:
        found = int(index(given))
    except TypeError:
        _fail_number(given, least, most, what)
    if least <= found <= most:
        return found
    _fail_number(given, least, most, what)


def dimension(given: SupportsIndex) -> int:
    """A dimension that fits."""
    if (
        type(given) is int and -1_073_741_823 <= given <= 1_073_741_823
    ):  # as for GREATEST below, and quicker
        return given
    try:
        found = int(index(given))
    except TypeError:
        raise TypeError(
            f"a dimension must be a whole number of scaled points, as boxglue.pt gives it, not {given!r:.40}"
        ) from None
    if -GREATEST <= found <= GREATEST:
        return found
    raise ValueError(f"too large for a dimension: {found:,} scaled points")


def length(given: SupportsIndex) -> str:
    """A dimension that fits, as scripts have it."""
    return f"{dimension(given)}sp"


def sizes_of_rule(
    width: SupportsIndex | None, height: SupportsIndex | None, depth: SupportsIndex | None
) -> str:
    """The sizes of a rule. None is a running size."""
    return " ".join(["*" if it is None else length(it) for it in (width, height, depth)])


def register(given: SupportsIndex) -> int:
    """The number of a register."""
    if type(given) is int and 0 <= given < REGISTERS:
        return given
    return number(given, 0, REGISTERS - 1, "a register")


def _stretch(given: Stretch, what: str) -> str:
    """A stretch or a shrink."""
    if not isinstance(given, tuple):
        if not hasattr(given, "__index__"):
            raise TypeError(
                f'{what} must be scaled points, or an amount and an order such as (1, "fil"), not {given!r:.40}'
            )
        return f"{dimension(given)}sp"
    amount, order = given
    if order not in ORDERS:
        raise ValueError(f"an order must be fil, fill or filll, not {order!r:.40}")
    return f"{points(scaled(amount))[:-2]}{order}"


def glue(width: SupportsIndex, plus: Stretch, minus: Stretch) -> str:
    """Glue, as after `glue` and `set`. What is 0 is left out."""
    text = f"{dimension(width)}sp"
    if plus:
        text += f" plus {_stretch(plus, 'a stretch')}"
    if minus:
        text += f" minus {_stretch(minus, 'a shrink')}"
    return text


def glue_parameter(given: Glue | SupportsIndex) -> str:
    """Glue that is a parameter. A number without stretch and shrink is a width."""
    return glue(*given) if isinstance(given, Glue) else glue(given, 0, 0)


def name_of_font(given: str) -> str:
    """The name of a font in a script."""
    if not isinstance(given, str):
        raise TypeError(f"the name of a font must be str, not {type(given).__name__}")
    if not _NAME.fullmatch(given):
        raise ValueError(
            f"the name of a font in a script must be 1 to 255 letters, digits, -, _ and ., not {given!r:.300}"
        )
    return given


def target(
    to: SupportsIndex | None, spread: SupportsIndex | None, into: SupportsIndex | None
) -> str:
    """What follows the form of a box that is opened."""
    if to is not None and spread is not None:
        raise TypeError("a box has the size `to` or `spread`, not both")
    text = "" if to is None else f" to {dimension(to)}sp"
    if spread is not None:
        text = f" spread {dimension(spread)}sp"
    return text if into is None else f"{text} into {register(into)}"
