"""Scripts with specials: each is typeset, its file is compared with that of the writer of the
tests, and the file is listed. The expected answers follow from docs/COMMANDS.md and docs/FORMATS.md
alone; nothing large is in the repository."""
from common.long_runs import Run, Work
from models.dvi_writer import Page, down, dvi_file, page_file, right, set_rule, special
from models.large_inputs import NO_PAGES, PT, SHIPPED, ZERO_COUNTS, ended, listed, measured, packed
from models.large_inputs import rows_of, special_mark, talk, typeset, typeset_and_list
from parts.sizes import call_of

TITLE = "specials: scripts, files and listings, and the limits of their texts"
NEEDS_PROGRAM = True

LONGEST, MOST = 65535, 1048576
TOO_MUCH = "refused 22 TooMuchSpecial"
END = ("end", packed(0, 0, 0))


def text_of(length):
    """A text of this length with the bytes 32 to 126 in turn, one of which is a backslash."""
    return "".join(chr(32 + at % 95) for at in range(length))


def refused_run(rows, bodies):
    """A run of a script to a file of pages of size 0, in which something is refused."""
    file = dvi_file([Page(it) for it in bodies], 0, 0)
    return typeset(rows, file, len(bodies), status=1)


def special_and_rule():
    """A special and a rule. The body and the places were worked out by hand."""
    rows = rows_of("hbox into 0; special hi; rule 1pt 1pt 0pt", ended(PT, PT), SHIPPED)
    file = page_file([down(PT), special(b"hi"), set_rule(PT, PT)], PT, PT)
    assert file.data[60:79] == bytes.fromhex("9f010000ef0268698400010000000100008cf8")
    assert (file.post, len(file.data), file.data[-8:]) == (78, 120, b"\2" + b"\xdf" * 7)
    marks = ["special 0 65536 hi", "rule 0 65536 65536 65536"]
    return Work({}, typeset_and_list(rows, file, marks))


def each_length():
    """Texts of 0, 1, 255, 256, 65,534 and 65,535 bytes, with 1pt between: xxx1 up to 255 bytes,
    xxx4 from 256 on."""
    texts = [text_of(it) for it in (0, 1, 255, 256, LONGEST - 1, LONGEST)]
    lines, width = [f"special {it}; kern 1pt" for it in texts], len(texts) * PT
    rows = rows_of("hbox into 0", *lines, ended(width, 0), SHIPPED)
    body = [part for it in texts for part in (right(PT), special(it.encode()))]
    file = page_file(body[1:], 0, width)
    assert b"\xf2\0\0\1\0" + texts[3].encode() in file.data
    assert b"\xef\xff" + texts[2].encode() in file.data
    marks = [special_mark(at * PT, 0, it.encode()) for at, it in enumerate(texts)]
    return Work({}, typeset_and_list(rows, file, marks))


# The lengths of 17 texts that have 1,048,576 bytes together.
LENGTHS = [LONGEST] * 16 + [16]
FULL_PAGE = rows_of("hbox into 0", *[f"special {'a' * it}" for it in LENGTHS], END)
FULL_BODY = [special(b"a" * it) for it in LENGTHS]


def longest_texts():
    """A text of 65,536 bytes is too long: after `no list is open`, and before `the list would be
    too long`."""
    too_long, fits = f"special {'a' * (LONGEST + 1)}", f"special {'a' * LONGEST}"
    most, no_list = (f"special {'a' * MOST}", TOO_MUCH), (too_long, "refused 7 NoOpenList")
    full = [(it, "refused 10 ListTooLong") for it in ("special", fits)]
    rows = rows_of(no_list, "hbox into 0", (too_long, TOO_MUCH), most, fits, END, SHIPPED)
    rows += rows_of("vbox into 0", *["kern 0pt"] * 65535, "special", *full, (too_long, TOO_MUCH))
    rows += [END, ("ship 0", "shipped 2")]
    return Work({}, [refused_run(rows, [[special(b"a" * LONGEST)], [special(b"")]])])


def most_text():
    """1,048,576 bytes of texts are shipped, and no more: 16 texts of 65,535 bytes and one of 16.
    Then a text of one byte is refused, before a huge page, and its box stays; an empty one is
    accepted."""
    too_much, huge = [(f"ship {it}", TOO_MUCH) for it in (1, 3)], ended(1073741823, 0)
    rows = [*FULL_PAGE, ("copy 0", "refused 7 NoOpenList"), SHIPPED]
    rows += rows_of("hbox into 1; special a", END, too_much[0], measured(1, 0, 0))
    rows += rows_of("hbox into 3", ("copy 1", "added 1"), "kern 16383.99999pt", huge)
    rows += rows_of("set hoffset 1pt", too_much[1], "void 1; hbox into 2; special", END)
    rows += rows_of("set hoffset 0pt", ("ship 2", "shipped 2"), too_much[1])
    rows += rows_of(("ship 1", "refused 21 VoidBox"), "hbox into 1", END, ("ship 1", "shipped 3"))
    marks = [[special_mark(0, 0, b"a" * it) for it in LENGTHS], [special_mark(0, 0, b"")], ()]
    listing = listed([(ZERO_COUNTS, it) for it in marks])
    run = refused_run(rows, [FULL_BODY, [special(b"")], []])
    return Work({}, [run, Run(("list", "out.dvi"), stdout=(listing,))])


def one_page_of_too_much_text():
    """1,048,577 bytes of texts on one page are refused, and the page is shipped without the last of
    them."""
    too_much = [(f"ship {it}", TOO_MUCH) for it in (0, 1)]
    rows = [*FULL_PAGE, *rows_of("hbox into 1", ("copy 0", "added 1"), "special b", END)]
    rows += rows_of(too_much[1], "hbox into 1", ("unhcopy 0", "added 17"), END)
    rows += [("ship 1", "shipped 1"), too_much[0], measured(0, 0, 0)]
    return Work({}, [refused_run(rows, [FULL_BODY])])


def most_pages_and_text():
    """65,535 pages are shipped, of which the first has all bytes of texts: a page with one byte
    more is refused for the number of pages."""
    page = rows_of("hbox into 1", END)
    rows = [*FULL_PAGE, SHIPPED]
    rows += [it for at in range(2, 65536) for it in (*page, ("ship 1", f"shipped {at}"))]
    rows += rows_of("hbox into 1; special a", END, ("ship 1", "refused 15 TooManyPages"))
    return Work({}, [refused_run(rows, [FULL_BODY] + [[]] * 65534)])


def most_nodes_and_text():
    """16,777,216 nodes are shipped: a box of 17 specials, which have all bytes of texts, and 256
    boxes that make up the rest. A box with a special is then too much by its nodes and by its text,
    and is refused for its nodes."""
    count = 65535  # The kerns of each of the 255 full boxes. The last box has the rest.
    left = (1 << 24) - 18 - 255 * (count + 1) - 1
    full = rows_of("hbox into 1", ("unhcopy 0", f"added {count}"), END)
    assert 0 < left < 65536 and 18 + 255 * (count + 1) + left + 1 == 1 << 24
    rows = rows_of("hbox into 3", *FULL_PAGE[1:], ("ship 3", "shipped 1"))
    rows += rows_of("hbox into 0", *["kern 0pt"] * count, END)
    rows += [it for at in range(2, 257) for it in (*full, ("ship 1", f"shipped {at}"))]
    rows += rows_of("hbox into 2", *["kern 0pt"] * left, END, ("ship 2", "shipped 257"))
    rows += rows_of("hbox into 1; special a", END, ("ship 1", "refused 16 TooMuchShipped"))
    return Work({}, [refused_run(rows, [FULL_BODY] + [[]] * 256)])


def all_registers():
    """Each of the 32,768 registers gets a box of a width of its own, and is measured."""
    numbers = range(32768)
    rows = [row for at in numbers for row in rows_of(f"hbox into {at}; kern {at}sp", ended(at, 0))]
    text, printed = talk(rows + [measured(at, at, 0) for at in numbers], NO_PAGES)
    return Work({}, [Run((), text, stdout=(printed,))])


WORKS = {
    "a_special_and_a_rule": special_and_rule,
    "texts_of_each_length": each_length,
    "texts_that_are_too_long": longest_texts,
    "a_job_of_1048576_bytes_of_texts": most_text,
    "a_page_of_1048577_bytes_of_texts": one_page_of_too_much_text,
    "too_many_pages_before_too_much_text": most_pages_and_text,
    "too_many_nodes_before_too_much_text": most_nodes_and_text,
    "32768_registers": all_registers,
}


def cases(programs, root):
    """The cases, by name."""
    return [(name, call_of(make, programs)) for name, make in WORKS.items()]
