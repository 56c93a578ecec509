"""Sets the paragraphs of tests/models/hyphen_texts.py by examples/layout/hyphens.py in a session:
session_lines.py ROWS OUT.

ROWS is as tests/cases/hyphens/lines.txt, and the file OUT gets the pages; `boxglue` is on the path.
Prints what differs from TeX's lines, and how many settings agree."""
import os
import sys

ROOT = os.path.dirname(os.path.dirname(os.path.dirname(os.path.dirname(os.path.abspath(__file__)))))
sys.path[1:1] = [f"{ROOT}/tests", f"{ROOT}/examples/session", f"{ROOT}/examples/layout"]

from asking import Session  # noqa: E402 (after the path)
from hyphens import Hyphens  # noqa: E402
from models.hyphen_lines import decided_by_tex, difference, rows_of, shown_lines  # noqa: E402
from models.hyphen_texts import glue_first, paragraphs  # noqa: E402


def set_row(session, hyphens, text, row):
    """Sets and ships a paragraph. Returns the pass that decided and the demerits."""
    name, width, tolerance = row[:3]
    session.ask(f"set hsize {width}pt", f"set tolerance {tolerance}")
    answer, commands = hyphens.paragraph(text, glue_first(name))
    session.ask("vbox into 0", *commands, "end", "ship 0")
    return int(answer[4]), int(answer[8])


def main(path, out):
    """Compares all rows."""
    with open(path, encoding="ascii") as it:
        rows = rows_of(it.read())
    session, texts = Session(out, [f"letters={ROOT}/examples/letters.tfm"]), paragraphs()
    with open(f"{ROOT}/examples/layout/patterns.tex", encoding="utf-8") as it:
        hyphens = Hyphens(session, it.read())
    session.ask("font 0 letters", "use 0")
    found = [set_row(session, hyphens, texts[row[0]], row) for row in rows]
    session.end()
    with open(out, "rb") as it:
        pages = shown_lines(it.read())
    wrong = [
        (" ".join(row[:3]), why)
        for row, its, lines in zip(rows, found, pages)
        if (why := difference(row, *its, lines))
    ]
    print("".join(f"{name}: {why}\n" for name, why in wrong), end="")
    print(f"{len(rows)} settings, {decided_by_tex(rows)} decided by TeX, {len(wrong)} differ")


if __name__ == "__main__":
    main(*sys.argv[1:])
