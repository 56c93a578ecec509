"""Sets the paragraphs of tests/models/hyphen_texts.py by the typed calls of bindings/python:
library_lines.py ROWS.

ROWS is as tests/cases/hyphens/lines.txt. The settings that TeX decides must have TeX's lines and
demerits, and the demerits of the last setting must be those of the first, less the squares of the
penalties at the places that were taken. Prints what differs, and how many settings agree."""
import os
import sys

ROOT = os.path.dirname(os.path.dirname(os.path.dirname(os.path.dirname(os.path.abspath(__file__)))))
sys.path.insert(1, f"{ROOT}/tests")

import boxglue  # noqa: E402 (after the path)
from boxglue import hyphenation  # noqa: E402
from models.hyphen_lines import decided_by_tex, difference, rows_of, shown_lines  # noqa: E402
from models.hyphen_texts import glue_first, paragraphs, parts  # noqa: E402

PENALTY = 50


class Seen(boxglue.Job):
    """A job that keeps the reply to the end of the last paragraph."""

    def commands(self, script):
        """Runs a piece of a script."""
        answers = super().commands(script)
        self.last = next(
            (it for it in answers.replies[-3:] if isinstance(it, boxglue.Paragraph)), None
        )
        return answers


def pieces_of(text):
    """The pieces of a paragraph."""
    return [it if isinstance(it, str) else hyphenation.Discretionary(*it) for it in parts(text)]


def set_row(job, pieces, row, patterns):
    """Sets a paragraph in a box. Returns what came of it."""
    name, width, tolerance = row[:3]
    job.set(hsize=boxglue.pt(width), tolerance=int(tolerance))
    with job.vbox(into=0):
        return job.paragraph(pieces, hyphens=patterns, first_word=glue_first(name))


def wrong_of(done, last, row, lines):
    """What differs from a row of TeX, or None."""
    forced = len(done.places) * PENALTY**2
    if (last.lines, last.overhang, last.demerits) != (
        done.lines,
        done.overhang,
        done.demerits - forced,
    ):
        return f"the settings give {done} and {last}"
    return difference(row, done.deciding_pass, done.demerits, lines)


def main(path):
    """Compares all rows."""
    with open(path, encoding="ascii") as it:
        rows = rows_of(it.read())
    with open(f"{ROOT}/examples/letters.tfm", "rb") as it:
        fonts = {"letters": it.read()}
    patterns, texts = hyphenation.Patterns.read(f"{ROOT}/examples/layout/patterns.tex"), {
        name: pieces_of(text) for name, text in paragraphs().items()
    }
    with Seen(fonts) as job:
        job.use(job.load("letters"))
        found = []
        for row in rows:
            found.append((set_row(job, texts[row[0]], row, patterns), job.last))
            job.ship(0)
        job.finish().check()
        pages = shown_lines(job.take())
    wrong = [
        (" ".join(row[:3]), why)
        for (done, last), row, lines in zip(found, rows, pages)
        if (why := wrong_of(done, last, row, lines))
    ]
    print("".join(f"{name}: {why}\n" for name, why in wrong), end="")
    places = sum(len(done.places) for done, _ in found)
    print(
        f"{len(rows)} settings, {decided_by_tex(rows)} decided by TeX, {len(wrong)} differ, {places} places"
    )


if __name__ == "__main__":
    main(*sys.argv[1:])
