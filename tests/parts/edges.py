"""DVI files at the edges of their numbers. Each is made by arithmetic from docs/FORMATS.md, section
7, which also has the expected answers."""
from common.long_runs import Run, Work
from common.part import in_turn
from models.dvi_writer import Font, Page, changed, definition, down, dvi_file, number, page_file
from models.dvi_writer import put_rule, right, select, xxx
from models.large_inputs import C, PT, TINY, ZERO_COUNTS, listed, listed_page, rule_mark
from models.large_inputs import special_mark
from parts.sizes import call_of

TITLE = "DVI files at the edges of their numbers: lengths, names, pointers, sizes and places"
NEEDS_PROGRAM = True
SPLIT = in_turn(4)

# The place of a first bop without a definition before it; the place of the pointer in a bop.
BOP, POINTER = 15, 41
BODY, POST_SIZE = BOP + 45, 29
GREATEST, LEAST = (1 << 31) - 1, -(1 << 31)
TINY_10PT = Font(0, b"tiny")
DEFINITION = len(definition(TINY_10PT))


def refused(data, place, cause):
    """A file, and the line of its refusal."""
    return data, f"refused 20 BadDvi {place} {cause}\n".encode()


def accepted(file, marks):
    """A file of one page, and its listing."""
    return file.data, listed_page(marks)


def work(*files):
    """Lists files with the metric file `tiny`. Each has the expected output."""
    names, runs = {f"{at}.dvi": it for at, it in enumerate(files, 1)}, []
    for name, (_, printed) in names.items():
        status = int(printed.startswith(b"refused"))
        runs.append(Run(("list", name, "tiny=tiny.tfm"), stdout=(printed,), status=status))
    return Work({"tiny.tfm": TINY, **{name: data for name, (data, _) in names.items()}}, runs)


def each_special():
    """xxx1 to xxx4, each with those lengths of a list up to 70,000 that it can have; the texts have
    all bytes in turn. A special moves nothing. And one of three bytes whose line was worked out by
    hand."""
    lengths = (0, 1, 255, 256, 70000)
    by_hand = page_file([bytes.fromhex("ef03615c00")])
    assert by_hand.data[BOP] == 0x8B
    assert by_hand.data[BODY : BODY + 6] == bytes.fromhex("ef03615c008c")
    files = [accepted(by_hand, ["special 0 0 a\\5c\\00"])]
    for size, count in ((1, 3), (2, 4), (3, 5), (4, 5)):
        for length in lengths[:count]:
            text = bytes(it % 256 for it in range(length))
            marks = [special_mark(0, 0, text), rule_mark(0, 0, 1, 1)]
            files.append(accepted(page_file([xxx(text, size), put_rule(1, 1)]), marks))
    return work(*files)


def specials_in_groups():
    """A special after movements to the right and down, in a group; one after the group, whose place
    is that of the push; and two on another page."""
    first = [right(7), [down(3), xxx(b"a\\b", 1), right(-9), xxx(b" ", 2)], xxx(b"", 1)]
    second = [xxx(bytes([10, 13, 32, 126, 127, 255]), 1), xxx(b"z", 4)]
    marks = ["special 7 3 a\\5cb", "special -2 3  ", "special 7 0 "]
    more = ["special 0 0 \\0a\\0d ~\\7f\\ff", "special 0 0 z"]
    file = dvi_file([Page(first), Page(second)], 0, 0)
    return work((file.data, listed([(ZERO_COUNTS, marks), (ZERO_COUNTS, more)])))


def specials_between_pages():
    """A special of 18 bytes between two pages, in the place of a definition of 20 bytes."""
    file = dvi_file([Page([]), Page([], new_fonts=(TINY_10PT,))], 0, 0)
    place = file.page_ends[0]
    assert file.data[place : place + DEFINITION] == definition(TINY_10PT) and DEFINITION == 20
    return work(refused(changed(file.data, place, xxx(bytes(18), 1)), place, "Opcode"))


def painted_specials():
    """A page of a rule that is one pixel, and the same page with specials: one bitmap."""
    rule = put_rule(1, 1)
    specials = [xxx(bytes(70000), 3), [down(PT), xxx(b"", 1)]]
    pages = [[rule], [xxx(b"black", 1), rule, right(PT), *specials]]
    files = {f"{at}.dvi": page_file(body).data for at, body in enumerate(pages, 1)}
    words = ("paint", "--page", "1", "--dpi", "72", "--width", "3", "--height", "2")
    return Work(files, [Run((*words, name), stdout=(b"P1\n3 2\n100\n000\n",)) for name in files])


def long_specials():
    """xxx4 with lengths of 2^31 and more: the special reaches past post."""
    lengths = (1 << 31, (1 << 31) + 1, (1 << 32) - 1)
    files = [page_file([b"\xf2" + number(it, 4)]) for it in lengths]
    return work(*[refused(it.data, BODY, "Truncated") for it in files])


def cut_names():
    """Definitions whose length of the name, the byte before it, is too large. In a page the longer
    name takes the eop, or more bytes than there are before post; after post there are fewer before
    post_post, and a font that a page selects is then not defined there.
    """
    in_page = page_file([definition(TINY_10PT)])
    length = BODY + DEFINITION - 5
    unused, used = page_file([], fonts=[TINY_10PT]), page_file([select(0), C], fonts=[TINY_10PT])
    last = POST_SIZE + DEFINITION - 5
    cut_off = [changed(it.data, it.post + last, b"\5") for it in (unused, used)]
    return work(
        accepted(in_page, []),
        refused(changed(in_page.data, length, b"\5"), in_page.post, "Opcode"),
        refused(changed(in_page.data, length, b"\6"), BODY, "Truncated"),
        accepted(unused, []),
        refused(cut_off[0], unused.post + POST_SIZE, "Truncated"),
        accepted(used, ["glyph 0 99 0 0"]),
        refused(cut_off[1], BODY + DEFINITION, "Font"),
    )


def definitions_behind_a_bad_instruction():
    """An eop after post, before the definition of the one font. A page that selects the font is
    refused at the selection, since the definition counts as missing; otherwise the eop is what is
    wrong."""
    files = [page_file(body, fonts=[TINY_10PT]) for body in ([select(0), C], [])]
    after = [it.post + POST_SIZE for it in files]
    used, unused = (it.data[:at] + b"\x8c" + it.data[at:] for it, at in zip(files, after))
    return work(refused(used, BODY + DEFINITION, "Font"), refused(unused, after[1], "Opcode"))


def negative_pointers():
    """-2 in the place of each pointer: of the bops, of post and of post_post. No place is below -1,
    which is that of no page."""
    file = dvi_file([Page([]), Page([])], 0, 0)
    second = file.page_ends[0]
    places = (BOP + POINTER, second + POINTER, file.post + 1, file.post + 30)
    return work(*[refused(changed(file.data, at, number(-2, 4)), at, "Pointer") for at in places])


def pages_that_overlap():
    """Two bops of which the first one has the second among its counts. Each page is right alone:
    the first has a special of 15 bytes, whose length is the second one's pointer. And two bops
    without a byte between, which the chain of pages allows: there the second is in the first one's
    page.
    """
    second = BODY + 1 - POINTER
    count, touching = (
        page_file([start + number(BOP, 4) + rest])
        for start, rest in ((b"\xf2", bytes(BOP)), (b"\x8b" + bytes(40), b""))
    )
    inner = changed(count.data, second, b"\x8b")
    both, two = (
        changed(changed(data, post + 1, number(last_bop, 4)), post + 27, number(2, 2))
        for data, post, last_bop in (
            (inner, count.post, second),
            (touching.data, touching.post, BODY),
        )
    )
    value = int.from_bytes(inner[BOP + 1 + 4 : BOP + 1 + 8], "big")
    assert inner[second] == 0x8B
    assert inner[second + POINTER : second + POINTER + 4] == number(BOP, 4)
    counts = f"0 {value - (1 << 32)} 0 0 0 0 0 0 0 0"
    return work(
        (inner, listed([(counts, [special_mark(0, 0, bytes(BOP))])])),
        refused(both, second + POINTER, "Pointer"),
        refused(two, BODY, "Opcode"),
    )


def greatest_font_size():
    """A font at 2^27 - 1. TeX halves this size four times, to 2^23 - 1, and a `c` is 8/16 wide: 8 *
    (2^23 - 1)."""
    file = page_file([select(0), C, C], fonts=[Font(0, b"tiny", (1 << 27) - 1)])
    beyond = page_file([select(0), C], fonts=[Font(0, b"tiny", 1 << 27)])
    marks = ["glyph 0 99 0 0", f"glyph 0 99 {8 * ((1 << 23) - 1)} 0"]
    return work(accepted(file, marks), refused(beyond.data, BOP, "Font"))


def furthest_places():
    """h and v of -2^31 and of 2^31 - 1, where rules are; and h of 2^31 - 1 after a glyph, which is
    5pt wide, and one more."""
    places = ((GREATEST, 0), (LEAST, 0), (0, GREATEST), (0, LEAST))
    moves = [right(h) if h else down(v) for h, v in places]
    rules = page_file([[it, put_rule(1, 1)] for it in moves])
    last = GREATEST - 5 * PT
    wide = [right(last), select(0), C]
    beyond = page_file([*wide, right(1)], fonts=[TINY_10PT])
    return work(
        accepted(rules, [rule_mark(*it, 1, 1) for it in places]),
        accepted(page_file(wide, fonts=[TINY_10PT]), [f"glyph 0 99 {last} 0"]),
        refused(beyond.data, BODY + DEFINITION + 5 + 1 + 1, "Range"),
    )


WORKS = {
    "specials_of_each_length": each_special,
    "specials_in_groups": specials_in_groups,
    "specials_between_pages": specials_between_pages,
    "painted_specials": painted_specials,
    "specials_of_two_gibibytes_and_more": long_specials,
    "definitions_cut_in_their_names": cut_names,
    "definitions_behind_a_bad_instruction": definitions_behind_a_bad_instruction,
    "pointers_of_minus_2": negative_pointers,
    "pages_that_overlap": pages_that_overlap,
    "fonts_at_the_greatest_size": greatest_font_size,
    "places_at_the_ends_of_32_bits": furthest_places,
}


def cases(programs, root):
    """The cases, by name."""
    return [(name, call_of(make, programs)) for name, make in WORKS.items()]
