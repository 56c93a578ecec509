"""Where the comparison with TeX's programs works, and how it runs them."""

import os
import re

from common.files import content, write
from outside_pages import by_boxglue, said_by

# Lines of a log are not cut.
LONG_LINES = dict(os.environ, max_print_line="1000000", SOURCE_DATE_EPOCH="0")


def answers_in(text):
    """The answers of a run, by the numbers of their lines."""
    return {int(number): answer for number, answer in re.findall(r"(?m)^(\d+): (.*)$", text)}


class Work:
    """A folder for inputs and outputs, and how programs are run there."""

    def __init__(self, program, folder, notes, most_seeds):
        self.program, self.folder, self.notes = program, folder, notes
        self.most_seeds = most_seeds

    def path(self, name):
        return os.path.join(self.folder, name)

    def put(self, name, data):
        """Writes a text or bytes."""
        write(self.path(name), data)

    def text(self, name):
        return content(self.path(name)).decode("latin-1")

    def run(self, *words, given=""):
        """Status and all output of a run."""
        return said_by(*words, cwd=self.folder, env=LONG_LINES, input=given.encode())

    def fonts(self, names):
        """The words NAME=TFM for these fonts, as TeX finds them."""
        found = self.run("kpsewhich", *[name + ".tfm" for name in names])[1].split("\n")
        return ["%s=%s" % (os.path.basename(path)[:-4], path) for path in found if path]

    def typeset(self, name, script, fonts):
        """The answers to a script by their lines; the pages go to a file."""
        self.put(name + ".box", script)
        text = self.run(self.program, "typeset", name + ".ours.dvi", *fonts, given=script)[1]
        return answers_in(text)

    def listing(self, path, fonts):
        """The pages of a DVI file."""
        return by_boxglue(self.program, path, self.folder, fonts)

    def bitmap(self, path, page, dots, side):
        """The rows of the bitmap of a page, a square of so many pixels, as numbers whose bits are 1
        where it is black."""
        words = f"paint --page {page} --dpi {dots} --width {side} --height {side}".split()
        text = self.run(self.program, *words, path)[1]
        digits = text.split("\n", 2)[2].replace("\n", "")
        return [int(digits[i * side : (i + 1) * side], 2) for i in range(side)]

    def units_and_fonts(self, path):
        """The units of a DVI file (numerator, denominator, magnification), and its fonts: number,
        name, size, design size and check sum of each."""
        units, *lines = map(str.split, self.run(self.program, "fonts", path)[1].splitlines())
        fonts = [(int(it[1]), it[2], int(it[3]), int(it[4]), int(it[5], 16)) for it in lines]
        return tuple(map(int, units[1:])), fonts

    def tex(self, name, text, program="tex"):
        """What TeX wrote into the file of its answers, line by line, if it made one."""
        self.put(name + ".tex", text)
        self.run(program, "-interaction=batchmode", name + ".tex")
        answers = self.path(name + ".out")
        return self.text(name + ".out").split("\n")[:-1] if os.path.exists(answers) else []

    def seeds(self, count):
        """The seeds of a part: 1 up to this number, or fewer where the command line says so."""
        return range(1, min(count, self.most_seeds or count) + 1)

    def show(self, line, causes, notes):
        """Prints what came out of a part: the line, the causes that are known, and the first
        notes."""
        print(line, flush=True)
        for cause, count in sorted(causes.items()):
            print("    %d: %s" % (count, cause))
        for note in notes[: self.notes]:
            print("    " + note[:300])
        if len(notes) > self.notes:
            print("    and %d more" % (len(notes) - self.notes))
