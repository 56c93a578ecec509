"""Why DVI files are refused, in numbers, by the program of bindings/c: on each file of
tests/cases/program that `list` reads, the status and the line that is made from the numbers are
those that the case has for `list`. Names of missing fonts and numbers of refused ones come from the
bytes of the files. The buffer for the name is exact, too small, and for the longest name; each
growth of memory is refused in turn."""
import glob
import os
import tempfile
from functools import partial

from common.case_folder import files_in, read, words_of
from common.library_inputs import Input, Room
from common.texts import first_difference
from parts.library_growths import count_wrong, run_calls

TITLE = "the library for C: why DVI files are refused, in numbers"
PROGRAM = "library"
NEEDS_PROGRAM = True
CASES = "tests/cases/program"
ACCEPTED = b'0 0 ""\n'
# What the first line has of each refusal that names a font, besides those of a broken rule: the
# number, and the name.
FONTS = {
    "list_a_definition_of_another_name_before_its_selection": b'0 "uiny"',
    "list_fonts_that_are_not_given": b'0 "tiny"',
    "list_a_font_that_is_too_wide": b'0 ""',
    "list_a_font_with_a_bad_fix_word": b'0 ""',
}
NUMBERED = "list_a_font_that_is_too_wide", "list_a_font_with_a_bad_fix_word"


def reads_a_file(case):
    """Whether a case lists a file that is there, with metric files that are there."""
    words, files = [it.decode("utf-8", "surrogateescape") for it in words_of(case)], files_in(
        f"{case}/files"
    )
    return (
        len(words) >= 2
        and words[0] == "list"
        and words[1] in files
        and all(it.partition("=")[2] in files for it in words[2:])
        and read(case, "status", b"0").strip() in (b"0", b"1")
    )


def wanted(name, stdout):
    """What a check prints for a case."""
    return (
        b"1 " + FONTS.get(name, b'0 ""') + b"\n" + stdout
        if stdout.startswith(b"refused")
        else ACCEPTED
    )


def printed(root, archive, case, change=lambda data: data, refuse=()):
    """What a check prints for the files of a case, the DVI file changed."""
    words = [it.decode("utf-8", "surrogateescape") for it in words_of(case)]
    with tempfile.TemporaryDirectory(prefix="boxglue-library-") as path:
        room = Room(path, Input("", b""))
        for name in files_in(f"{case}/files"):
            data = read(f"{case}/files", name)
            room.write(name, change(data) if name == words[1] else data)
        return run_calls(root, archive, room, [*refuse, "check", *words[1:]])


def check(name, root, archive=None):
    """Checks the file of a case."""
    case = f"{root}/{CASES}/{name}"
    return first_difference(
        "the fault", printed(root, archive, case), wanted(name, read(case, "stdout"))
    )


def numbered(name, root, archive=None):
    """Checks the file of a case whose font has the number 7 in place of 0: in both definitions and
    where it is selected."""
    case = f"{root}/{CASES}/{name}"
    found = printed(
        root,
        archive,
        case,
        lambda data: data.replace(b"\xf3\x00", b"\xf3\x07").replace(b"\xab", b"\xb2"),
    )
    return first_difference(
        "the fault", found, wanted(name, read(case, "stdout")).replace(b"1 0", b"1 7", 1)
    )


def growths(name, root, archive=None):
    """Refuses each growth of a check."""
    return count_wrong(printed(root, archive, f"{root}/{CASES}/{name}", refuse=["--refuse"]))


def cases(programs, root):
    """The cases of tests/cases/program that list a file, files with another number of a font, and
    refused growths."""
    names = sorted(
        os.path.basename(it) for it in glob.glob(f"{root}/{CASES}/list_*") if reads_a_file(it)
    )
    for name in names:
        yield name, partial(check, name, root, *programs[:1])
    for name in NUMBERED:
        yield f"{name}_of_number_7", partial(numbered, name, root, *programs[:1])
    for name in ("list_a_special_and_a_rule", *NUMBERED, "list_fonts_that_are_not_given"):
        yield f"growths_of_{name}", partial(growths, name, root, *programs[:1])
