"""The documents of many_documents.py, and what typesets one. Each is a job of its own, so any
engine may run them, in any order and anywhere."""
from __future__ import annotations

from dataclasses import dataclass
from typing import Mapping, Optional

import boxglue

WORDS = "a box and its glue make a line and the lines make a page".split()
# This document ships a register that is void, and is refused: the others go on.
VOID = 500


@dataclass(frozen=True)
class Outcome:
    """What came of a document: the bytes of its DVI file, or the line of its first refusal."""

    number: int
    dvi: Optional[bytes]
    refusal: Optional[str]


def script(number: int) -> str:
    """The script of a document: a paragraph whose words depend on the number, on a page that the
    number counts."""
    text = " ".join(WORDS[(number * step + step) % len(WORDS)] for step in range(1, 40))
    page = [
        "font 0 cmtt10",
        "use 0",
        f"set hsize {100 + number % 50}pt",
        "set tolerance 10000",
        "vbox into 0",
        "par",
        f"text {text}",
        "end",
        "end",
    ]
    shipped = 1 if number == VOID else 0
    return "\n".join([*page, f"count 0 {number}", f"ship {shipped}", ""])


def typeset(number: int, fonts: Mapping[str, bytes]) -> Outcome:
    """Runs the script of a document in this process."""
    ran = boxglue.run(script(number), fonts)
    if ran.accepted:
        return Outcome(number, ran.dvi, None)
    return Outcome(number, None, str(ran.refusals[0]))
