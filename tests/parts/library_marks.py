"""The marks of DVI files as structs, by the program of bindings/c, on the files of all examples and
of cases of crates/rows_scripts: they are those of the program's listing, each glyph has the width
that its metric file gives, and each text of a special stands in the file. The rooms are exact, too
small, and those that always suffice; each growth of memory is refused in turn."""
import re
import tempfile
from functools import partial

from common.library_inputs import Room, all_inputs, printed_by
from common.part import in_turn
from common.texts import first_difference
from models.metric_reader import read_metrics, widths_at
from parts.library_growths import count_wrong, run_calls, write_dvi

TITLE = "the library for C: the marks of DVI files as structs"
PROGRAM = "library"
NEEDS_PROGRAM = True
SPLIT = in_turn(4)
UNITS = b"0 25400000 473628672 1000\n"
REFUSED = b"1 0 0 0\n"
GLYPH = re.compile(r"^(glyph (-?\d+) (-?\d+) -?\d+ -?\d+) width (-?\d+)$", re.M)


def fonts_of(output):
    """The fonts that a call printed, by their numbers: size and name."""
    rows = (line.split(" ") for line in output.decode().splitlines()[1:])
    return {int(number): (int(size), name) for number, size, name, *_ in rows}


def width_wrong(printed, fonts, files):
    """What is wrong with the widths of glyphs."""
    for _, font, code, width in GLYPH.findall(printed):
        size, name = fonts[int(font)]
        wanted = widths_at(read_metrics(files[name]), size)[int(code)]
        if int(width) != wanted:
            return f"character {code} of font {font} has the width {width} and not {wanted}"
    return None


def marks_wrong(room, given, listing, run):
    """What is wrong with the marks of a file."""
    printed = run(["marks", "out.dvi", *room.fonts]).decode()
    if listing.startswith(b"refused"):
        return first_difference("the refusal", printed.encode(), REFUSED + listing)
    fonts = fonts_of(run(["fonts", "out.dvi"]))
    return first_difference(
        "the marks", GLYPH.sub(r"\1", printed).encode(), UNITS + listing
    ) or width_wrong(printed, fonts, given.fonts)


def outcome(given, root, archive=None, *programs):
    """Reads the marks of the file of an input, if it has one."""
    with tempfile.TemporaryDirectory(prefix="boxglue-library-") as path:
        room = Room(path, given)
        run = partial(run_calls, root, archive, room)
        if not write_dvi(root, archive, room):
            return None
        listing = (
            printed_by(programs[0], root, given.name)["list"].text
            if programs
            else run(["list", "out.dvi", *room.fonts]).partition(b"\n")[2]
        )
        return marks_wrong(room, given, listing, run) or count_wrong(
            run(["--refuse", "marks", "out.dvi", *room.fonts])
        )


def damaged(root, archive):
    """A file without its end is refused by one line, in a text of 64 bytes."""
    with tempfile.TemporaryDirectory(prefix="boxglue-library-") as path:
        room = Room(path, all_inputs(root)[0])
        room.write("cut.dvi", b"\xf7\x02")
        printed = run_calls(root, archive, room, ["marks", "cut.dvi"])
    return first_difference("the refusal", printed, REFUSED + b"refused 20 BadDvi 2 Trailer\n")


def cases(programs, root):
    """The inputs, and a damaged file."""
    for given in all_inputs(root):
        yield given.name, partial(outcome, given, root, *programs)
    yield "a_file_without_its_end", partial(damaged, root, *programs[:1])
