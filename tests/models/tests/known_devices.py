"""The cases of crates/rows_scripts on devices that may fail: their texts in its file stdout,
against a model of these devices and the bytes of the tests' own writer. It runs no program.

A `ship` sends the bytes of its page in one text, which the device takes piece by piece; the end of
the file is another text."""
import os
import re
from dataclasses import dataclass
from functools import partial

from common.case_folder import read
from common.texts import blocks, first_difference
from models.dvi_writer import DviFile, Font, Page, down, dvi_file, select, set_char, set_rule
from models.growth_kinds import FAILED, OVER
from models.large_inputs import PT, ended, hexadecimal, rows_of, summary

TITLE = "the cases of rows_scripts on devices that fail, by a model of the devices and the tests' own DVI writer"


@dataclass(frozen=True)
class Script:
    """A script: pairs of a command and its answer, and the file that it makes."""

    rows: list
    file: DviFile


def page_rows(item, answer, width, height, number):
    """The commands that ship a box of one item as this page, and their answers."""
    shipped = ("ship 0", f"shipped {number}")
    return rows_of("hbox into 0", (item, answer), ended(width * PT, height * PT), shipped)


def rule_page(width, height):
    """The page of a rule."""
    return Page([down(height * PT), set_rule(height * PT, width * PT)])


def glyph_page(*new_fonts):
    """The page of a glyph that is 5pt wide and high."""
    return Page([down(5 * PT), select(0), set_char(97)], new_fonts=new_fonts)


ONE_RULE = page_rows("rule 1pt 1pt 0pt", "ok", 1, 1, 1)
FONT = rows_of("font 0 tiny; use 0")
GLYPHS = [page_rows("char 97", "added 1 missing 0", 5, 5, number) for number in (1, 3)]
SCRIPTS = (
    Script(ONE_RULE, dvi_file([rule_page(1, 1)], PT, PT)),
    Script(
        [*ONE_RULE, *page_rows("rule 2pt 3pt 0pt", "ok", 2, 3, 2)],
        dvi_file([rule_page(1, 1), rule_page(2, 3)], 3 * PT, 2 * PT),
    ),
    Script(
        [*FONT, *GLYPHS[0], *page_rows("rule 1pt 1pt 0pt", "ok", 1, 1, 2), *GLYPHS[1]],
        dvi_file([glyph_page(Font(0, b"tiny")), rule_page(1, 1), glyph_page()], 5 * PT, 5 * PT),
    ),
)


class Fuse:
    """A device that takes at most `most` bytes a call, and fails at call `at`."""

    def __init__(self, most, at):
        self.most, self.at, self.calls, self.failures, self.data = most, at, 0, 0, b""

    def write(self, piece):
        """Takes a beginning of a piece. Returns how many bytes it took; 0 if it fails."""
        self.calls += 1
        if self.calls == self.at:
            self.failures += 1
            return 0
        self.data += piece[: self.most]
        return min(self.most, len(piece))


class Rest:
    """A device around one that got these bytes before."""

    def __init__(self, inner, sent):
        self.inner, self.left = inner, sent

    def write(self, piece):
        """Compares a piece with the rest of those bytes; passes it on if none are left."""
        if not self.left:
            return self.inner.write(piece)
        same = len(os.path.commonprefix([self.left, piece]))
        self.left = self.left[same:]
        return same


def is_sent(device, data):
    """Sends bytes piece by piece, and returns whether the device took all."""
    while data:
        count = device.write(data)
        if not count:
            return False
        data = data[count:]
    return True


def run(script, device):
    """Runs a script. Returns its answers, and whether all was accepted."""
    places, lines, is_over = [0, *script.file.page_ends, len(script.file.data)], [], False
    sends = [script.file.data[at:end] for at, end in zip(places, places[1:])]
    for number, (command, answer) in enumerate(script.rows, 1):
        fails = command == "ship 0" and not is_over and not is_sent(device, sends.pop(0))
        lines.append(f"{number}: {OVER if is_over else FAILED if fails else answer}\n")
        is_over = is_over or fails
    whole = summary(len(script.file.page_ends), script.file)
    end = OVER if is_over else whole if is_sent(device, sends.pop(0)) else FAILED
    return "".join([*lines, f"end: {end}\n"]), not end.startswith("refused")


def verdict(accepted):
    """The word for a run."""
    return "accepted" if accepted else "refused"


def run_text(script, device, fuse):
    """The output for a run on a device, of which `fuse` is the inner one."""
    answers, accepted = run(script, device)
    data = hexadecimal(fuse.data).decode()
    return f"{answers}{data}failures {fuse.failures}\n{verdict(accepted)}\n"


def rerun_text(script, fuse, words):
    """The output for a run over the rest of a file, and its inner device."""
    sent = bytearray(fuse.data)
    if words[:1] == ["fuse"]:
        fuse = Fuse(*map(int, words[1:]))
        assert is_sent(fuse, bytes(sent))
    elif words:
        sent[int(words[0])] = int(words[1], 16)
    return run_text(script, Rest(fuse, bytes(sent)), fuse), fuse


def call_text(script, most, at):
    """The line of a call that fails."""
    fuse = Fuse(most, at)
    first, before = run(script, fuse)[1], len(fuse.data)
    second = run(script, Rest(fuse, fuse.data))[1]
    file = "whole" if fuse.data == script.file.data else "not whole"
    return f"call {at}: {before} bytes, {verdict(first)}; resumed: {file}, {verdict(second)}\n"


def case_text(text):
    """The expected output of a case, by its text in the file of cases."""
    lines = [line for line in text.decode().splitlines() if line and line[0] != "%"]
    commands = tuple(it[1:] for it in lines if it[0] == "|")
    script = next(it for it in SCRIPTS if commands == tuple(command for command, _ in it.rows))
    (device, most, at, *calls), *reruns = [
        it.split()[1:] for it in lines if it[0] != "|" and not it.startswith("font ")
    ]
    assert device == "fuse"
    if at == "each":
        fuse = Fuse(int(most), 0)
        return run_text(script, fuse, fuse) + "".join(
            call_text(script, int(most), it) for it in range(1, int(calls[0]) + 1)
        )
    fuse = Fuse(int(most), int(at))
    parts = [run_text(script, fuse, fuse)]
    for words in reruns:
        part, fuse = rerun_text(script, fuse, words)
        parts.append(part)
    return "".join(parts)


def outcome(printed, text):
    """Returns how the output of a case differs from the expected one, or None."""
    return first_difference("the text", printed, case_text(text).encode())


def cases(programs, root):
    """The cases on such devices, by the order of the file."""
    folder = f"{root}/crates/rows_scripts"
    printed = blocks(read(folder, "stdout"))
    for name, text in re.findall(rb"^case (.*)\n((?:(?!case ).*\n)*)", read(folder, "stdin"), re.M):
        if b"\ndevice fuse " in b"\n" + text:
            yield name.decode(), partial(outcome, printed[name], text)
