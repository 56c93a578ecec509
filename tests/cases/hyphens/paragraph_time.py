"""Prints how many milliseconds of the processor a paragraph of 400 words takes in Python, without
the library's calls, in a job that never saw the words, and in one that did; and how many a loop of
Python takes, which tells how quick the processor is. Each is the least of several."""
import os
import sys
import time

ROOT = os.path.dirname(os.path.dirname(os.path.dirname(os.path.dirname(os.path.abspath(__file__)))))
sys.path.insert(1, f"{ROOT}/tests")

import boxglue  # noqa: E402 (after the path)
from boxglue import _library, hyphenation  # noqa: E402
from models.hyphen_texts import FREQUENT, WORDS, Numbers  # noqa: E402

WORDS_EACH, TIMES, LOOP = 400, 15, 100_000


class Clock:
    """The calls of a library, and the time that was spent in them."""

    def __init__(self, library):
        self._library, self.spent = library, 0

    def __getattr__(self, name):
        call = getattr(self._library, name)

        def timed(*words):
            began = time.process_time_ns()
            try:
                return call(*words)
            finally:
                self.spent += time.process_time_ns() - began

        return timed


def text_of(seed):
    """A text of 400 words."""
    numbers = Numbers(seed)
    return " ".join(
        numbers.pick(FREQUENT if numbers.below(9) < 4 else WORDS) for _ in range(WORDS_EACH)
    )


def spent(clock, job, text, rule):
    """The time of a paragraph without that of the library."""
    with job.vbox(into=0):
        began, before = time.process_time_ns(), clock.spent
        job.paragraph(text, hyphens=rule)
        return (time.process_time_ns() - began) - (clock.spent - before)


def main():
    """Measures."""
    clock = Clock(_library.library())
    for module in [
        it
        for name, it in sys.modules.items()
        if name.startswith("boxglue.") and hasattr(it, "library")
    ]:
        module.library = lambda: clock
    with open(f"{ROOT}/examples/letters.tfm", "rb") as it:
        fonts = {"letters": it.read()}
    rule = hyphenation.Patterns.read(f"{ROOT}/examples/layout/patterns.tex")
    first, later, loops = [], [], []
    for _ in range(TIMES):
        with boxglue.Job(fonts) as job:
            job.use(job.load("letters"))
            job.set(hsize=boxglue.pt(250))
            with job.vbox(into=1):
                job.paragraph("of", hyphens=rule)  # asks for the metrics of the font
            for found in (first, later):
                found.append(spent(clock, job, text_of(7), rule) / 1e6)
        began = time.process_time_ns()
        sum(range(LOOP))
        loops.append((time.process_time_ns() - began) / 1e6)
    print(f"{min(first):.2f} {min(later):.2f} {min(loops):.2f}")


if __name__ == "__main__":
    main()
