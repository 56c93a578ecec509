"""The DVI writer of the tests, compared with files and bodies whose bytes are known, as those of
docs/FORMATS.md, section 8. It runs no program."""
import re

from models.dvi_writer import Font, Page, Registers, down, dvi_file, pruned, put_rule, right, select
from models.dvi_writer import set_char, set_rule, special, spelled

TITLE = "the tests' own DVI writer, on files whose bytes are known"

PT = 65536
RULE = set_rule(PT, PT)
ONE_RULE = [down(PT), RULE]
C, B = set_char(99), set_char(98)
AT_10PT, AT_20PT = Font(0, b"tiny"), Font(1, b"tiny", 20 * PT)
GLYPH = Page([down(5 * PT), select(0), C], new_fonts=(AT_10PT,))
NESTED = [down(10 * PT), select(0), C, [select(1), B], right(10 * PT), C]
NESTED_PAGE = Page(NESTED, new_fonts=(AT_10PT, AT_20PT))
LOW_RULE = put_rule(5 * PT, 10 * PT)
LOW_RULES = [down(5 * PT), LOW_RULE, down(15 * PT), LOW_RULE]
KERNS = [down(PT), RULE, *[right(2 * PT), RULE] * 3]
SPECIALS = [special(bytes(255)), special(bytes(256))]
SHIFTED = [[down(3 * PT), RULE], [], right(4 * PT), *ONE_RULE]
THREE_LINES = [
    [down((5 + 12 * at) * PT), *[select(0)] * (at == 0), C, right(amount), C]
    for at, amount in enumerate((0x3C000, 0x3C000, 0x32000))
]
# For a file: its pages, the greatest height plus depth and width, the place of post, its length.
FILES = {
    "one_rule": ([Page(ONE_RULE)], PT, PT, 74, 116),
    "four_rules_with_kerns": ([Page(KERNS)], PT, 10 * PT, 107, 148),
    "two_pages": ([Page(ONE_RULE), Page(ONE_RULE, (7, *[0] * 9))], PT, PT, 133, 172),
    "two_rules_in_a_vbox": ([Page(LOW_RULES)], 20 * PT, 10 * PT, 87, 128),
    "one_glyph": ([GLYPH], 5 * PT, 5 * PT, 87, 148),
    "fonts_in_nested_boxes": ([NESTED_PAGE], 15 * PT, 25 * PT, 116, 196),
    "a_box_that_shows_nothing": ([Page([[], right(PT), *ONE_RULE])], PT, 2 * PT, 78, 120),
    "an_offset": ([Page([right(2 * PT), down(4 * PT), RULE])], 4 * PT, 3 * PT, 78, 120),
    "a_special_and_a_rule": ([Page([down(PT), special(b"hi"), RULE])], PT, PT, 78, 120),
    "specials_of_255_and_256_bytes": ([Page(SPECIALS)], 0, 0, 60 + 257 + 261 + 1, 620),
    "shifted_boxes": ([Page(SHIFTED)], 3 * PT, 5 * PT, 93, 132),
    "three_lines": ([Page(THREE_LINES, new_fonts=(AT_10PT,))], 29 * PT, 901120, 118, 180),
}
# The expected bytes of these files, by their places.
BYTES = """
    one_rule 0: f7 02 018392c0 1c3b0000 000003e8 00
    one_rule 15: 8b00000000000000000000000000000000000000000000000000000000000000000000000000000000ffffffff 9f010000 84 00010000 00010000 8c
    one_rule 74: f8 0000000f 018392c0 1c3b0000 000003e8 00010000 00010000 0000 0001 f9 0000004a 02 dfdfdfdfdfdfdf
    four_rules_with_kerns 60: 9f010000 840001000000010000 96020000 840001000000010000 93 840001000000010000 93 840001000000010000 8c
    two_pages 74: 8b 000000070000000000000000000000000000000000000000000000000000000000000000000000000000000f 9f010000
    two_pages 133: f8 0000004a
    two_pages 160: 0002
    two_rules_in_a_vbox 60: 9f 050000 89 00050000 000a0000 9f 0f0000 89 00050000 000a0000 8c
    two_rules_in_a_vbox 104: 00140000 000a0000
    one_glyph 15: f3 00 00000000 000a0000 000a0000 00 04 74696e79 8b00000000000000000000000000000000000000000000000000000000000000000000000000000000ffffffff 9f 050000 ab 63 8c
    one_glyph 87: f8 00000023 018392c0 1c3b0000 000003e8 00050000 00050000 0000 0001 f3 00 00000000 000a0000 000a0000 00 04 74696e79 f9 00000057 02 dfdfdfdfdfdf
    fonts_in_nested_boxes 100: 9f0a0000 ab 63 8d ac 62 8e 910a0000 63 8c
    fonts_in_nested_boxes 141: 0001
    a_box_that_shows_nothing 60: 91010000 9f010000 840001000000010000 8c
    a_box_that_shows_nothing 103: 0000
    an_offset 60: 91020000 9f040000 840001000000010000 8c
    an_offset 95: 00040000 00030000
    a_special_and_a_rule 60: 9f010000 ef02 6869 840001000000010000 8c f8 0000000f
    a_special_and_a_rule 103: 0000 0001 f9 0000004e 02 dfdfdfdfdfdfdf
    specials_of_255_and_256_bytes 60: efff
    specials_of_255_and_256_bytes 317: f2 00000100
    shifted_boxes 60: 8d 9f030000 840001000000010000 8e 91040000 9f010000 840001000000010000 8c
    three_lines 80: 8d 9f050000 ab 63 9103c000 63 8e 8d 9f110000 63 9103c000 63 8e 8d 9f1d0000 63 91032000 63 8e 8c"""


def moves(text):
    """A body from a text: a digit is a movement to the right, `c` a glyph, and parentheses are a
    group."""
    stack = [[]]
    for it in text:
        if it == "(":
            stack.append([])
        elif it == ")":
            group = stack.pop()
            stack[-1].append(group)
        else:
            stack[-1].append(C if it == "c" else right(int(it)))
    return stack[0]


BODIES = {
    "registers_in_and_after_a_group": (
        "5c5c(5c7c7c)5c7c",
        "94 05 63 93 63 8d 93 63 99 07 63 98 63 8e 93 63 8f 07 63",
    ),
    "a_register_that_is_set_again": (
        "5c7c9c5c7c9c",
        "94 05 63 99 07 63 94 09 63 8f 05 63 98 63 93 63",
    ),
    "groups_that_hold_nothing": ("(())5c5c", "94 05 63 93 63"),
}


def file_wrong(name, pages, height, width, post, length):
    """Returns how a file differs from the expected one, or None."""
    file = dvi_file(pages, height, width)
    if (file.post, len(file.data)) != (post, length):
        return f"post at {file.post} and not {post}, {len(file.data)} bytes and not {length}"
    known = re.findall(rf"(?m)^    {name} (\d+): (.*)$", BYTES)
    for at, text in known:
        must_be = bytes.fromhex(text)
        found = file.data[int(at) : int(at) + len(must_be)]
        if found != must_be:
            return f"at {at} is {found.hex()} and not {must_be.hex()}"
    return None if known else "none of its bytes are known"


def body_wrong(text, must_be):
    """Returns how the bytes of a body differ from the expected ones, or None."""
    found = spelled(pruned(moves(text)), Registers())
    if found == bytes.fromhex(must_be):
        return None
    return f"the bytes are {found.hex(' ')} and not {must_be}"


def cases(programs, root):
    """The files and the bodies, by name."""
    files = [(name, lambda name=name, it=it: file_wrong(name, *it)) for name, it in FILES.items()]
    return files + [(name, lambda it=it: body_wrong(*it)) for name, it in BODIES.items()]
