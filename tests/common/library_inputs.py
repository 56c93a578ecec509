"""What the library for C is called on: the scripts of examples/, and cases of
crates/rows_scripts."""
import functools
import glob
import os
import re
import tempfile
from dataclasses import dataclass, field, replace
from typing import Optional

from common.case_folder import read
from common.files import write
from common.running import finished
from common.texts import blocks
from models.plain_font import metric_file
from parts.examples import commands

SHEET = ["--page", "1", "--dpi", "72", "--width", "40", "--height", "30"]
CASES = """one_rule_page empty_script huge_page list_left_open bad_script glyph_page fonts_in_nested_boxes two_boxes_with_lineskip a_page_of_two_splits_of_a_paragraph
    fonts_are_defined_in_rising_order pages_of_texts_kern long_numbers_slot_255 three_amounts_twice a_font_of_two_pages a_list_left_open_after_a_page counts_of_pages
    text_in_three_lines texts_of_specials specials_that_are_copied_and_unboxed files_that_are_damaged_lig_kern""".split()
HEX_LINE = re.compile(rb"(?:[0-9a-f]{2}){1,16}")


@dataclass(frozen=True)
class Printed:
    """What is wanted of a call: its status, its text, and the bytes of a DVI file."""

    status: int
    text: bytes
    dvi: bytes = b""


@dataclass(frozen=True)
class Input:
    """A script with its fonts, and what is written for it, where a file has that."""

    name: str
    script: bytes
    fonts: dict = field(default_factory=dict)
    wanted: Optional[Printed] = None


def example_inputs(root):
    """The scripts of examples/, each with a metric file of plain width for its fonts."""
    for path in sorted(glob.glob(f"{root}/examples/*.box")):
        script = read(*os.path.split(path))
        names = {
            words[2] for words in commands(script.decode("ascii")).values() if words[0] == "font"
        }
        yield Input(os.path.basename(path), script, dict.fromkeys(sorted(names), metric_file()))


def case_fonts(lines, files):
    """The font files of a case."""
    fonts = {}
    for _, name, *change in (it.split(b" ") for it in lines if it.startswith(b"font ")):
        data = bytearray(files[name])
        if change:
            data[int(change[0])] = int(change[1], 16)
        fonts.setdefault(name.decode(), bytes(data))
    return fonts


def unrolled(lines):
    """The lines of a case, those between `repeat N` and `again` N times."""
    found, block, count = [], None, 0
    for it in lines:
        if it.startswith(b"repeat "):
            count, block = int(it.split()[1]), []
        elif it == b"again":
            found, block = found + block * count, None
        else:
            (found if block is None else block).append(it)
    return found


def case_script(lines):
    """The script of a case."""
    return b"".join(
        it[1:] + (b"\n" if it[:1] == b"|" else b"") for it in lines if it[:1] in (b"|", b"\\")
    )


def font_files(text):
    """The font files of a file of cases."""
    found = re.findall(rb"^file (\S+)\n((?:bytes \S+\n)+)", text, flags=re.M)
    return {name: bytes.fromhex(rows.replace(b"bytes ", b"").decode()) for name, rows in found}


def case_wanted(block):
    """What the file of answers has for a case: the answers, the bytes as digits, and whether all
    was accepted."""
    *lines, accepted = block.splitlines()
    ends = next((at for at, it in enumerate(lines, 1) if it.startswith(b"end: ")), len(lines))
    digits = b"".join(it for it in lines[ends:] if HEX_LINE.fullmatch(it))
    return Printed(
        int(accepted != b"accepted"),
        b"".join(it + b"\n" for it in lines[:ends]),
        bytes.fromhex(digits.decode()),
    )


@functools.lru_cache(None)
def rows(root):
    """The file of cases of crates/rows_scripts: its font files, and the lines of each case by its
    name."""
    text = read(f"{root}/crates/rows_scripts", "stdin")
    pieces = re.split(rb"^case (.*)\n", text, flags=re.M)
    return font_files(text), {
        name: unrolled(body.split(b"\n")) for name, body in zip(pieces[1::2], pieces[2::2])
    }


@functools.lru_cache(None)
def row_answers(root):
    """What the file of answers has for each case."""
    return blocks(read(f"{root}/crates/rows_scripts", "stdout"))


def case_input(root, name):
    """A case, without what is wanted of it."""
    files, bodies = rows(root)
    return Input(name.decode(), case_script(bodies[name]), case_fonts(bodies[name], files))


def case_inputs(root):
    """The cases of crates/rows_scripts that are run."""
    for name in CASES:
        yield replace(
            case_input(root, name.encode()), wanted=case_wanted(row_answers(root)[name.encode()])
        )


def all_case_inputs(root):
    """All cases whose lines are one script."""
    return (case_input(root, name) for name, body in rows(root)[1].items() if b"each" not in body)


def answers_to_each(root):
    """The cases each of whose lines is a script: their lines, with the cause of each that is
    bad."""
    for name, body in rows(root)[1].items():
        if b"each" in body:
            found = re.split(rb"^[|\\](.*)\n", row_answers(root)[name], flags=re.M)
            causes = (re.match(rb"refused 2 BadScript 1 (\w+)\n", it) for it in found[2::2])
            yield name.decode(), [
                (line, cause and cause[1]) for line, cause in zip(found[1::2], causes)
            ]


def all_inputs(root):
    """All of them."""
    return [*example_inputs(root), *case_inputs(root)]


class Room:
    """A folder with the files of an input."""

    def __init__(self, path, given):
        self.path, self.fonts = path, [f"{name}={name}.tfm" for name in given.fonts]
        self.write("script", given.script)
        for name, data in given.fonts.items():
            self.write(f"{name}.tfm", data)

    def write(self, name, data):
        write(f"{self.path}/{name}", data)

    def run(self, words, given=b"", env=None):
        """Runs a command in the folder."""
        return finished(words, input=given, cwd=self.path, env={} if env is None else env)


@functools.lru_cache(None)
def printed_by(program, root, name):
    """What a built program gives for an input: for its run, and for the listing and a bitmap of its
    file where it has one."""
    given = next(it for it in all_inputs(root) if it.name == name)
    with tempfile.TemporaryDirectory(prefix="boxglue-library-") as path:
        room = Room(path, given)
        ran = room.run([program, "typeset", "out.dvi", *room.fonts], given.script)
        dvi = read(path, "out.dvi")
        found = {"run": Printed(ran.returncode, ran.stdout, dvi)}
        if dvi:
            for words in (["list"], ["paint", *SHEET]):
                read_back = room.run([program, *words, "out.dvi", *room.fonts])
                found[words[0]] = Printed(read_back.returncode, read_back.stdout)
    return found
