"""Dimensions as scripts and answers have them (docs/FORMATS.md, section 1). In Python a dimension
is a whole number of scaled points (sp)."""
from __future__ import annotations

import operator
import re
from typing import TYPE_CHECKING, Any, SupportsIndex, TypeAlias

from ._public import public

if TYPE_CHECKING:
    from decimal import Decimal
    from fractions import Fraction

# What the calls of units take. A float is taken where it is exact.
Amount: TypeAlias = "SupportsIndex | Fraction | Decimal | float | str"
POINT = 65536
GREATEST = (1 << 30) - 1
_NUMBER = r"([+-]?)(\d+(?:\.\d*)?|\.\d+)"
_DIMENSION = re.compile(_NUMBER + "([a-z]{2})", re.ASCII)
_AMOUNT = re.compile(_NUMBER, re.ASCII)
_UNITS = {
    "pt": (1, 1),
    "pc": (12, 1),
    "in": (7227, 100),
    "bp": (7227, 7200),
    "cm": (7227, 254),
    "mm": (7227, 2540),
    "dd": (1238, 1157),
    "cc": (14856, 1157),
}


@public
def scaled_points(text: str) -> int:
    """Reads a dimension as a script does.

    Args:
        text: Such as "12.5pt", "-2.5mm" or "65536sp".

    Returns:
        Its scaled points.

    Raises:
        ValueError: The text is another one, or does not fit: its absolute value is above
            1,073,741,823.
    """
    found = _DIMENSION.fullmatch(text)
    if not found or found[3] not in (*_UNITS, "sp"):
        raise ValueError(
            f"{text!r} is not a dimension: write a number and a unit, such as 12.5pt, without em or ex"
        )
    if found[3] == "sp":
        return _signed(int(found[2].partition(".")[0] or "0"), found[1] == "-", text, "")
    return _in_unit(found[1] + found[2], found[3])


@public
def points(dimension: int) -> str:
    """Writes a dimension in points.

    Args:
        dimension: Scaled points, such as 819,200.

    Returns:
        Its text, such as "12.5pt": the fewest digits that `scaled_points` reads as the same number.

    Raises:
        TypeError: The dimension is not a whole number.
    """
    dimension = operator.index(dimension)
    rest, delta, digits = 10 * (abs(dimension) % POINT) + 5, 10, ""
    while True:
        if delta > POINT:
            rest -= 17232  # rounds the fifth digit
        digits += str(rest // POINT)
        rest, delta = 10 * (rest % POINT), 10 * delta
        if rest <= delta:
            return f"{'-' if dimension < 0 else ''}{abs(dimension) // POINT}.{digits}pt"


def _signed(
    size: int,
    is_negative: bool,
    given: object,
    unit: str,
    most: str = "a dimension is at most 16383.99998pt",
) -> int:
    """A dimension of this absolute value, which has to fit."""
    if size > GREATEST:
        raise ValueError(f"{given!s:.40}{unit} is too large: {most}")
    return -size if is_negative else size


def _no_number(amount: object) -> ValueError:
    """What is raised for an amount that is not a number."""
    found = _DIMENSION.fullmatch(amount) if isinstance(amount, str) else None
    advice = (
        f": leave out the unit, or call scaled_points({amount!r})"
        if found and found[3] in (*_UNITS, "sp")
        else ""
    )
    return ValueError(f"{amount!r:.40} is not a number{advice}")


def _ratio(amount: Any) -> tuple[int, int]:
    """An amount as an exact fraction."""
    if isinstance(amount, str):
        found = _AMOUNT.fullmatch(amount)
        if not found:
            raise _no_number(amount)
        whole, _, digits = found[2].partition(".")
        digits = digits[:17]  # more of them do not change the nearest number of 65536ths
        return int(f"{found[1]}{whole}{digits}"), 10 ** len(digits)
    if not hasattr(amount, "as_integer_ratio"):
        return operator.index(amount), 1  # what is like an int, as an int64 of numpy
    try:
        top, bottom = amount.as_integer_ratio()
    except (OverflowError, ValueError):  # an infinity, or what is not a number
        raise _no_number(amount) from None
    return top, bottom


def _size(amount: Amount, unit: str) -> tuple[int, bool]:
    """The scaled points of an amount of a unit, by the steps of a text (docs/FORMATS.md): the
    nearest number of 65536ths of the unit, halves upward; that number in points, rounded down.
    Whether the amount is negative stands beside them."""
    (top, bottom), (num, den) = _ratio(amount), _UNITS[unit]
    if isinstance(amount, float) and POINT * top % bottom:
        raise ValueError(
            f'{amount!r} is not exact: give {unit} a text, a Fraction or a Decimal, such as "{amount!r}"'
        )
    fraction = (2 * POINT * abs(top) + bottom) // (2 * bottom)
    return fraction * num // den, top < 0


def _in_unit(amount: Amount, unit: str) -> int:
    """The scaled points of an amount of a unit."""
    return _signed(*_size(amount, unit), amount, unit)


def scaled(amount: Amount) -> int:
    """An amount of stretch or shrink of an infinite order in 65536ths, as a script reads it."""
    return _signed(
        *_size(amount, "pt"), amount, "", "an infinite stretch or shrink is at most 16383.99998"
    )


@public
def pt(amount: Amount) -> int:
    """Converts points (pt), of which 72.27 are an inch.

    The value is the one that a script reads from the same text. This holds for all calls of units.

    Args:
        amount: An int, a Fraction, a Decimal or a text such as "12.5"; or a float that is a whole
            number of 65536ths, such as 0.5.

    Returns:
        The scaled points: 65,536 for each point.

    Raises:
        ValueError: The float is not exact, such as 0.1; the text is not a number; or the dimension
            does not fit.
        TypeError: The amount is none of these.
    """
    return _in_unit(amount, "pt")


@public
def pc(amount: Amount) -> int:
    """Converts picas (pc), of 12 points each, as `pt` converts points.

    Args:
        amount: As for `pt`.

    Returns:
        The scaled points.

    Raises:
        ValueError, TypeError: As for `pt`.
    """
    return _in_unit(amount, "pc")


@public
def inch(amount: Amount) -> int:
    """Converts inches (in), as `pt` converts points.

    Args:
        amount: As for `pt`.

    Returns:
        The scaled points.

    Raises:
        ValueError, TypeError: As for `pt`.
    """
    return _in_unit(amount, "in")


@public
def bp(amount: Amount) -> int:
    """Converts big points (bp), of which 72 are an inch, as `pt` converts points.

    Args:
        amount: As for `pt`.

    Returns:
        The scaled points.

    Raises:
        ValueError, TypeError: As for `pt`.
    """
    return _in_unit(amount, "bp")


@public
def cm(amount: Amount) -> int:
    """Converts centimetres (cm), as `pt` converts points.

    Args:
        amount: As for `pt`.

    Returns:
        The scaled points.

    Raises:
        ValueError, TypeError: As for `pt`.
    """
    return _in_unit(amount, "cm")


@public
def mm(amount: Amount) -> int:
    """Converts millimetres (mm), as `pt` converts points.

    Args:
        amount: As for `pt`.

    Returns:
        The scaled points.

    Raises:
        ValueError, TypeError: As for `pt`.
    """
    return _in_unit(amount, "mm")


@public
def dd(amount: Amount) -> int:
    """Converts Didot points (dd), as `pt` converts points.

    Args:
        amount: As for `pt`.

    Returns:
        The scaled points.

    Raises:
        ValueError, TypeError: As for `pt`.
    """
    return _in_unit(amount, "dd")


@public
def cc(amount: Amount) -> int:
    """Converts ciceros (cc), of 12 Didot points each, as `pt` converts points.

    Args:
        amount: As for `pt`.

    Returns:
        The scaled points.

    Raises:
        ValueError, TypeError: As for `pt`.
    """
    return _in_unit(amount, "cc")
