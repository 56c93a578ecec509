"""The scripts of tests/cases/growths, and their answers if no growth is refused.

NAME.box is the script. NAME.answers are the answers, written by hand; long scripts are made here.
The pages below follow from docs/FORMATS.md, section 8; their bytes are made by the writer of the
tests."""
from dataclasses import dataclass

from common.files import content, read
from models.dvi_writer import Font, Page, down, dvi_file, page_file, put_rule, right, select
from models.dvi_writer import set_char, set_rule, special
from models.large_inputs import PT, SHIPPED, TINY, ended, listed, rows_of, summary, talk

RULE = set_rule(PT, PT)
A, B, C, D, E = (set_char(code) for code in range(97, 102))
AT_10PT, AT_20PT = Font(0, b"tiny"), Font(1, b"tiny", 20 * PT)
ONE_RULE = [down(PT), RULE]
NESTED_BOXES = [down(10 * PT), select(0), C, [select(1), B], right(10 * PT), C]
SPECIALS = [down(PT), special(b"a"), RULE, [special(b"bb")], special(b"")]


def line_of(height, *parts):
    """A line or a page of text in font 0, whose baseline is this far below the top."""
    return [down(height * PT), select(0), *parts]


def column(*heights):
    """Rules 10pt wide at the left edge: pairs of the distance of its corner below that of the rule
    before, and its height."""
    pairs = [(down(below * PT), put_rule(height * PT, 10 * PT)) for below, height in heights]
    return [part for pair in pairs for part in pair]


# The pages of lig_and_kern_words, and the lines of least_demerits_paragraph and of
# columns_of_characters.
WORDS = [
    Page(line_of(5, E), new_fonts=(AT_10PT,)),
    *(Page(line_of(5, *it)) for it in ((A, right(-40960), C), (A, C), (D, A, B))),
]
LINES = [
    [down(PT), set_rule(PT, 10 * PT), right(20 * PT), set_rule(PT, 10 * PT)],
    [down(13 * PT), set_rule(PT, 10 * PT), right(5 * PT), set_rule(PT, 25 * PT)],
    [down(25 * PT), set_rule(PT, 30 * PT)],
]
CHARACTERS = [line_of(5, A, B), *([down(it * PT // 2), A, B] for it in (38, 53, 81))]
HEIGHTS = (((5, 5), (7, 5)), ((10, 5),), ((5, 5), (6, 5)), ((10, 5),), ((30, 30),), ((30, 30),))
INNER = [[[[down(PT), put_rule(PT, 2 * PT)]]]]
# By script: its pages, and their greatest height plus depth and width in points.
PAGES = {
    "one_rule_page": ([Page(ONE_RULE), Page(ONE_RULE, (7, *[0] * 9))], 1, 1),
    "lig_and_kern_words": (WORDS, 7.5, 20),
    "least_demerits_paragraph": ([Page(LINES)], 25, 40),
    "a_line_too_large": (
        [Page([[down((1 + 12 * at) * PT), set_rule(PT, 10 * PT)] for at in range(61)])],
        721,
        10,
    ),
    "fonts_in_nested_boxes": (
        [
            Page(NESTED_BOXES, new_fonts=(AT_10PT, AT_20PT)),
            Page([NESTED_BOXES, right(25 * PT), *NESTED_BOXES]),
        ],
        15,
        50,
    ),
    "refusals_leave_the_job": ([Page([INNER, right(2 * PT), down(PT), RULE])], 1, 3),
    "splits": ([Page(column(*it)) for it in HEIGHTS], 30, 10),
    "specials": (
        [
            Page([SPECIALS, right(PT), *SPECIALS, special(b"c")]),
            Page([special(b"d"), SPECIALS, down(PT), special(b"e")]),
            Page([special(b"f"), down(10 * PT), put_rule(PT, PT)]),
        ],
        10,
        2,
    ),
    "columns_of_characters": ([Page(CHARACTERS, new_fonts=(AT_10PT,))], 43, 10),
    "many_lines": ([Page(ONE_RULE), Page(ONE_RULE)], 1, 1),
    "a_long_line": ([Page([down(PT), special(b"s" * 65535), RULE])], 1, 1),
}
FONTS = ("tiny=tiny.tfm",)
WITH_FONTS = ("lig_and_kern_words", "fonts_in_nested_boxes", "columns_of_characters")
# Scripts that are made here, by pairs of a command and its answer: so many lines that they are kept
# in two blocks, and a line of two readings of a session.
RULE_ROWS, LONG = rows_of("rule 1pt 1pt 0pt", ended(PT, PT)), "special " + "s" * 65535
ONE_PAGE, VOIDS = rows_of("hbox into 0", *RULE_ROWS), rows_of("void 1") * 8192
MADE = {
    "many_lines": [*ONE_PAGE, SHIPPED, *VOIDS, *ONE_PAGE, ("ship 0", "shipped 2")],
    "a_long_line": rows_of("hbox into 0", LONG, *RULE_ROWS, SHIPPED),
}
# The files that are read: those of the shorter scripts of the same names, without the pages after
# the first.
ONE_RULE_FILE = page_file(ONE_RULE, PT, PT).data
NESTED_BOXES_FILE = page_file(NESTED_BOXES, 15 * PT, 25 * PT, (AT_10PT, AT_20PT)).data
PAINT = ("paint", "--page", "1", "--dpi", "72", "--width", "3", "--height", "3", "f.dvi")
BLANK, BLACK = b"P1\n3 3\n000\n000\n000\n", b"P1\n3 3\n000\n100\n000\n"
LISTING = b"page 1 counts 0 0 0 0 0 0 0 0 0 0\nglyph 0 99 0 655360\nglyph 1 98 327680 655360\nglyph 1 99 983040 655360\n"
# A file of some pieces of what is read, and a listing of some pieces of what is printed.
STEPS = [put_rule(PT, PT), right(3 * PT), down(3 * PT)] * 3000
COUNTS = [(number, *[0] * 9) for number in (1, 2)]
RULES_FILE = dvi_file([Page([down(PT), *STEPS], it) for it in COUNTS], PT, PT).data
MARKS = [f"rule {3 * PT * at} {PT + 3 * PT * at} {PT} {PT}" for at in range(3000)]
RULES = listed([(" ".join(map(str, it)), MARKS) for it in COUNTS])
SHEET = ("paint", "--page", "1", "--dpi", "72", "--width", "300", "--height", "300", "f.dvi")
WHITE_SHEET = b"P1\n300 300\n" + (4 * (b"0" * 70 + b"\n") + b"0" * 20 + b"\n") * 300
NESTED_FONTS = b"units 25400000 473628672 1000\nfont 0 tiny 655360 655360 00000000\nfont 1 tiny 1310720 655360 00000000\n"
# By name: the words, the DVI file, and the output.
READINGS = {
    "list_one_rule_page": (
        ("list", "f.dvi"),
        ONE_RULE_FILE,
        b"page 1 counts 0 0 0 0 0 0 0 0 0 0\nrule 0 65536 65536 65536\n",
    ),
    "paint_one_rule_page": (PAINT, ONE_RULE_FILE, BLACK),
    "list_fonts_in_nested_boxes": (("list", "f.dvi", *FONTS), NESTED_BOXES_FILE, LISTING),
    "fonts_in_nested_boxes_by_name": (("fonts", "f.dvi"), NESTED_BOXES_FILE, NESTED_FONTS),
    "paint_fonts_in_nested_boxes": ((*PAINT, *FONTS), NESTED_BOXES_FILE, BLANK),
    "list_pages_of_rules": (("list", "f.dvi"), RULES_FILE, RULES),
    "paint_a_wide_sheet": ((*SHEET, *FONTS), NESTED_BOXES_FILE, WHITE_SHEET),
}
# Commands of many growths, by script and line: copies that run out halfway. Each must have met more
# than one refused growth.
HALFWAY = {
    "fonts_in_nested_boxes": {14: "copy 0", 15: "unhcopy 0"},
    "specials": {10: "copy 0", 11: "unhcopy 0"},
    "columns_of_characters": {13: "unvcopy 1"},
}


@dataclass(frozen=True)
class Script:
    """A script: its words, its lines, its answers, its status, and the file that it writes, with
    the place after each page."""

    name: str
    words: tuple
    lines: tuple
    answers: bytes
    status: int
    file: bytes
    page_ends: tuple


def read_script(name, root, task):
    """A script of tests/cases/growths, or one that is made here, which is run to a file by
    `typeset` or `session`, or without a task on a device in memory."""
    pages, height, width = PAGES[name]
    file = dvi_file(pages, int(height * PT), width * PT)
    if name in MADE:
        lines = tuple(command for command, _ in MADE[name])
        answers = talk(MADE[name], summary(len(pages), file))[1]
    else:
        lines = tuple(read(f"{root}/tests/cases/growths/{name}.box").splitlines())
        answers = content(f"{root}/tests/cases/growths/{name}.answers")
    words = (task, "out.dvi", *(FONTS if name in WITH_FONTS else ())) if task else ()
    status = int(b": refused " in answers)
    return Script(name, words, lines, answers, status, file.data, file.page_ends)


FILES = {"tiny.tfm": TINY}
