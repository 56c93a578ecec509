"""The bitmaps of pages as bits, by the program of bindings/c, on the files of all examples and of
cases of crates/rows_scripts: they are the rules of the listing that the tests' own reader gives, in
bitmaps of whole bytes and not; or the line of a refusal. Each growth of memory is refused in
turn."""
import re
import tempfile
from functools import partial
from itertools import product

from common.files import content
from common.library_inputs import Input, Room, all_inputs
from common.part import in_turn
from common.texts import same
from models.dvi_reader import list_file
from models.dvi_writer import Page, down, dvi_file, put_rule
from models.large_inputs import PT, bitmap, painted_rows
from parts.library_calls import ONE_SHEET
from parts.library_growths import count_wrong, run_calls, write_dvi

TITLE = "the library for C: bitmaps of pages as bits"
PROGRAM = "library"
NEEDS_PROGRAM = True
SPLIT = in_turn(4)
# Pixels an inch, width and height: rows of less than a byte, of whole bytes, and of one pixel more
# or less; words and one pixel more.
SHEETS = (
    (72, 1, 1),
    (72, 7, 9),
    (72, 8, 20),
    (100, 9, 40),
    (300, 64, 33),
    (300, 65, 120),
    (37, 131, 50),
    (1000, 257, 300),
)
# A page of A4 at 300 dots an inch: its bitmap has 1,087,480 bytes.
LARGE_SHEETS, LARGE_INPUT = ((300, 2480, 3508),), "ruled_table.box"
RULE = re.compile(r"^rule (-?\d+) (-?\d+) (\d+) (\d+)$", re.M)
NO_PAGE = b"5 0 0\n"


def bits_of(rules, dpi, width, height):
    """The bytes of a bitmap: of each row the digits in groups of eight, the last one filled up with
    0. Rules are (h, v, height, width)."""
    size = -(-width // 8)
    for row in painted_rows(rules, dpi, width, height):
        yield int(row.ljust(8 * size, b"0"), 2).to_bytes(size, "big")


def wanted(data, fonts, sheet, page=1):
    """What is printed for a page of a file."""
    listing, accepted = list_file(data, {name.encode(): its for name, its in fonts.items()})
    if not accepted:
        return b"1 %d 0\n" % len(listing) + listing
    pages = listing.decode().split("page ")[1:]
    if not pages[page - 1 :]:
        return NO_PAGE
    rules = [tuple(map(int, it)) for it in RULE.findall(pages[page - 1])]
    bits = b"".join(bits_of(rules, *sheet))
    return b"0 %d 0\n" % len(bits) + bits


def bits_wrong(sheets, room, given, data, run):
    """What is wrong with the bitmaps of a file on these sheets."""
    for sheet in sheets:
        printed = run(["paint_bits", "1", *map(str, sheet), "out.dvi", *room.fonts])
        what = "{1} by {2} pixels at {0} dpi".format(*sheet)
        same(what, printed, wanted(data, given.fonts, sheet))
    printed = run(["paint_bits", "2", *map(str, SHEETS[-1]), "out.dvi", *room.fonts])
    same("page 2", printed, wanted(data, given.fonts, SHEETS[-1], 2))
    return count_wrong(run(["--refuse", "paint_bits", *ONE_SHEET, "out.dvi", *room.fonts]))


def outcome(sheets, change, given, root, archive=None, *_programs):
    """Paints the file of an input on these sheets, if it has one."""
    with tempfile.TemporaryDirectory(prefix="boxglue-library-") as path:
        room = Room(path, given)
        run = partial(run_calls, root, archive, room)
        if not write_dvi(root, archive, room):
            return None
        data = change(content(f"{path}/out.dvi"))
        room.write("out.dvi", data)
        return bits_wrong(sheets, room, given, data, run)


def large_file(root, archive=None, *_programs):
    """A file above 64 KiB, whose second page has a rule."""
    page = [down(PT), put_rule(PT, PT)]
    data = dvi_file([Page(page * 8000), Page(page)], 8000 * PT, PT).data
    assert len(data) > 1 << 16
    with tempfile.TemporaryDirectory(prefix="boxglue-library-") as path:
        room = Room(path, Input("", b""))
        room.write("out.dvi", data)
        for number, sheet in product((1, 2), SHEETS[-2:]):
            words = [str(number), *map(str, sheet), "out.dvi"]
            printed = run_calls(root, archive, room, ["paint_bits", *words])
            same(f"page {number}", printed, wanted(data, {}, sheet, number))
            rules = [(0, at * PT, PT, PT) for at in range(1, 8001 if number == 1 else 2)]
            text = b"".join(bitmap(rules, *sheet))
            printed = run_calls(root, archive, room, ["paint", *words])
            same(f"page {number} as text", printed, b"0 %d 0\n" % len(text) + text)
    return None


def limits(root, archive=None, *_programs):
    """Bitmaps of 10,000 pixels in one direction, and at the most pixels an inch."""
    data = dvi_file([Page([down(PT), put_rule(PT, PT)])], PT, PT).data
    with tempfile.TemporaryDirectory(prefix="boxglue-library-") as path:
        room = Room(path, Input("", b""))
        room.write("out.dvi", data)
        for sheet in ((72, 10000, 1), (72, 1, 10000), (10000, 150, 300)):
            printed = run_calls(
                root, archive, room, ["paint_bits", "1", *map(str, sheet), "out.dvi"]
            )
            same("{1} by {2} pixels at {0} dpi".format(*sheet), printed, wanted(data, {}, sheet))
    return None


def numbers(root, archive=None, *_programs):
    """Numbers out of their range, and a page that is not there."""
    with tempfile.TemporaryDirectory(prefix="boxglue-library-") as path:
        room = Room(path, next(it for it in all_inputs(root) if it.name == "one_rule_page.box"))
        write_dvi(root, archive, room)
        for words, status in (
            ("0 72 1 1", 6),
            ("1 0 1 1", 6),
            ("1 10001 1 1", 6),
            ("1 72 0 1", 6),
            ("1 72 1 10001", 6),
            ("2 72 1 1", 5),
        ):
            call = ["paint_bits", *words.split(), "out.dvi"]
            same(words, run_calls(root, archive, room, call), b"%d 0 0\n" % status)
    return None


def cases(programs, root):
    """The inputs, one of them on a large sheet, a file without its end, a large file, and numbers
    at their limits and beyond."""
    inputs = {given.name: given for given in all_inputs(root)}
    for name, given in inputs.items():
        yield name, partial(outcome, SHEETS, bytes, given, root, *programs)
    large = partial(outcome, LARGE_SHEETS, bytes, inputs[LARGE_INPUT], root, *programs)
    yield f"{LARGE_INPUT}_on_a_large_sheet", large
    first, cut_off = next(iter(inputs.values())), lambda data: data[:-9]
    yield "a_file_without_its_end", partial(outcome, SHEETS, cut_off, first, root, *programs)
    yield "a_file_above_64_KiB", partial(large_file, root, *programs)
    yield "limits", partial(limits, root, *programs)
    yield "numbers", partial(numbers, root, *programs)
