"""Makes large inputs and the expected answers: by arithmetic from docs/COMMANDS.md and
docs/FORMATS.md, never by the program.

Each function returns a `Work`: files, and runs over them. The rows of a script are pairs of a line
and its answer. The lengths 80,104 and 230,341 are asserted, since they were worked out by hand."""
from collections import defaultdict
from dataclasses import replace
from functools import lru_cache

from common.long_runs import Run, Sparse, Work
from models.dvi_writer import Font, Page, definition, down, dvi_file, page_file, put_rule, right
from models.dvi_writer import select, set_char, set_rule, special

PT = 65536
READ_LIMIT = 268435456
LONGEST_LIST = 65536
# The metric file of FORMATS.md, section 9: at 10pt `c` is 5pt wide and 5pt high.
TINY = bytes.fromhex(
    "001d000200610065000300020002000100030001000000040000000000a00000"
    "0110010001110000011000000210010202100000000000000008000000100000"
    "0000000000080000000000000004000000000000006100648063800080620065"
    "ffff000000000000000500000002000000010000"
)
C = set_char(99)
ZERO_COUNTS = " ".join("0" for _ in range(10))
NO_PAGES = "pages 0 bytes 0"
SHIPPED = ("ship 0", "shipped 1")


def points(size):
    """A dimension as answers print it (FORMATS.md, section 1)."""
    sign, size = "-" if size < 0 else "", abs(size)
    digits, s, delta = "", 10 * (size % PT) + 5, 10
    while True:
        if delta > PT:
            s -= 17232
        digits += str(s // PT)
        s, delta = 10 * (s % PT), 10 * delta
        if s <= delta:
            return f"{sign}{size // PT}.{digits}pt"


def sizes(width, height, depth):
    """Three dimensions with a space between them."""
    return f"{points(width)} {points(height)} {points(depth)}"


def packed(width, height, depth):
    """The answer to the `end` of a box of badness 0."""
    return f"packed {sizes(width, height, depth)} badness 0"


def ended(width, height):
    """The row of the end of a box of badness 0 without depth."""
    return "end", packed(width, height, 0)


def measured(number, width, height, kind="hbox"):
    """The row that measures the box of a register, which has no depth."""
    return f"measure {number}", f"measured {kind} {sizes(width, height, 0)}"


def rows_of(*parts):
    """The rows of a script. A text has lines, with `; ` between them, that are answered `ok`."""
    rows = []
    for it in parts:
        rows += [(line, "ok") for line in it.split("; ")] if isinstance(it, str) else [it]
    return rows


def talk(rows, end):
    """The script of these rows, and its answers with this end. A comment has the answer None."""
    printed = [f"{at}: {answer}\n" for at, (_, answer) in enumerate(rows, 1) if answer]
    text = "".join(f"{line}\n" for line, _ in rows)
    return text.encode(), f"{''.join(printed)}end: {end}\n".encode()


def summary(pages, file):
    """The end of a job that wrote a file."""
    return f"pages {pages} bytes {len(file.data)}"


def hexadecimal(data):
    """Bytes as the program without words prints them: sixteen a line."""
    return b"".join(f"{data[at:at + 16].hex()}\n".encode() for at in range(0, len(data), 16))


def listed(pages):
    """The listing of pages, of each its counts and the lines of its marks."""
    lines = []
    for at, (counts, marks) in enumerate(pages, 1):
        lines += [f"page {at} counts {counts}", *marks]
    return "".join(f"{it}\n" for it in lines).encode()


def listed_page(marks):
    """The listing of one page."""
    return listed([(ZERO_COUNTS, marks)])


def rule_mark(h, v, height, width):
    """The line of a rule in a listing."""
    return f"rule {h} {v} {height} {width}"


def special_mark(h, v, text):
    """The line of a special: a byte that is not printable, and a backslash, is a backslash and two
    hexadecimal digits."""
    return f"special {h} {v} " + "".join(
        chr(it) if 32 <= it < 127 and it != 92 else f"\\{it:02x}" for it in text
    )


def typeset(rows, file, pages=1, fonts=(), **how):
    """The run of a script that makes a file of so many pages."""
    text, printed = talk(rows, summary(pages, file))
    words, made = ("typeset", "out.dvi", *fonts), {"out.dvi": file.data}
    return Run(words, text, stdout=(printed,), made=made, **how)


def typeset_and_list(rows, file, marks, fonts=()):
    """The runs of a script of one page: its file is typeset and listed."""
    listing = Run(("list", "out.dvi", *fonts), stdout=(listed_page(marks),))
    return [typeset(rows, file, fonts=fonts), listing]


def refusal(words, line):
    """A run that prints a refusal."""
    return Run(words, stdout=(f"refused {line}\n".encode(),), status=1)


def long_script(feed=None):
    """A script of 307,200 bytes: 15,000 kerns of 1sp, a comment after each tenth of them, and a
    rule. A reading gets a large piece of it from a file, or through a pipe a line or a byte."""
    others = len("hbox into 0\nrule 1pt 1pt 0pt\nend\nship 0\n") + 15000 * len("kern 1sp\n")
    each, more = divmod(307200 - others, 1500)
    comments = [("%" * (each - 1 + (at < more)), None) for at in range(1500)]
    kerns = [row for it in comments for row in (*rows_of("kern 1sp") * 10, it)]
    size = PT + 15000, PT
    rows = rows_of("hbox into 0", *kerns, "rule 1pt 1pt 0pt", ended(*size), SHIPPED)
    file = page_file([right(15000), down(PT), set_rule(PT, PT)], *size[::-1])
    text, printed = talk(rows, summary(1, file))
    assert len(text) == 307200
    return Work({}, [Run((), text, feed=feed, stdout=(printed, hexadecimal(file.data)))])


def rules_file(*fonts):
    """The file of a page of 8,000 rules below each other: 80,104 bytes, or more with fonts."""
    file = page_file([down(PT), put_rule(PT, PT)] * 8000, 8000 * PT, PT, fonts)
    assert file.post > 1 << 16 and (fonts or len(file.data) == 80104)
    return file


def rules_rows():
    """The script of this page."""
    rules = ["rule 1pt 1pt 0pt"] * 8000
    return rows_of("vbox into 0", *rules, ended(PT, 8000 * PT), SHIPPED)


def rules_marks():
    """The marks of this page."""
    return [rule_mark(0, at * PT, PT, PT) for at in range(1, 8001)]


def pixels(length, dpi):
    """A length of DVI units in pixels, as numerator and denominator (FORMATS.md, section 11, with
    the units of section 8)."""
    return length * 25400000 * 1000 * dpi, 254000 * 473628672 * 1000


def rounded(length, dpi):
    """A place: the nearest pixel, halves away from zero."""
    count, parts = pixels(abs(length), dpi)
    nearest = (2 * count + parts) // (2 * parts)
    return nearest if length >= 0 else -nearest


def rounded_up(length, dpi):
    """A size, rounded up."""
    count, parts = pixels(length, dpi)
    return -(-count // parts)


@lru_cache(None)
def painted_row(spans, width):
    """The digits of a row in which these columns are black, each pair a first one and an end."""
    row = bytearray(b"0" * width)
    for first, end in spans:
        first, end = max(first, 0), min(end, width)
        row[first:end] = b"1" * max(end - first, 0)
    return bytes(row)


@lru_cache(None)
def row_text(row):
    """The text of a row: a line feed after each 70 digits and at its end."""
    return b"".join(row[at : at + 70] + b"\n" for at in range(0, len(row), 70))


def painted_rows(rules, dpi, width, height):
    """The digits of each row of a bitmap. Rules are (h, v, height, width)."""
    spans = defaultdict(set)
    for h, v, rule_height, rule_width in rules:
        bottom, left = rounded(v, dpi), rounded(h, dpi)
        for row in range(bottom - rounded_up(rule_height, dpi) + 1, bottom + 1):
            spans[row].add((left, left + rounded_up(rule_width, dpi)))
    return [painted_row(frozenset(spans[at]), width) for at in range(height)]


def bitmap(rules, dpi, width, height):
    """The text of a bitmap of these rules, in blocks: the head, and each row."""
    rows = painted_rows(rules, dpi, width, height)
    return [f"P1\n{width} {height}\n".encode(), *map(row_text, rows)]


def paint_words(page, dpi, width, height, *names):
    """The words of `paint`."""
    return (*f"paint --page {page} --dpi {dpi} --width {width} --height {height}".split(), *names)


def page_of_rules():
    """A page of 8,000 rules, typeset without words and to a file, listed and painted."""
    rows, file, listing = rules_rows(), rules_file(), listed_page(rules_marks())
    text, printed = talk(rows, summary(1, file))
    assert len(listing) == 230341
    black = bitmap([(0, at * PT, PT, PT) for at in range(1, 8001)], 72, 72, 8000)
    runs = [
        Run((), text, stdout=(printed, hexadecimal(file.data))),
        typeset(rows, file),
        Run(("list", "out.dvi"), stdout=(listing,)),
        Run(paint_words(1, 72, 72, 8000, "out.dvi"), stdout=black),
    ]
    return Work({}, runs)


def long_answers():
    """40,000 answers of the longest sizes: more than 2 MiB."""
    box = sizes(*[1073741823] * 3)
    rule = "rule 16383.99999pt 16383.99999pt 16383.99999pt"
    answers = [("measure 0", f"measured hbox {box}")] * 40000
    rows = rows_of("hbox into 0", rule, ("end", f"packed {box} badness 0"), *answers)
    text, printed = talk(rows, NO_PAGES)
    assert len(printed) > 2 << 20
    made = {"out.dvi": None}
    to_file = Run(("typeset", "out.dvi"), text, stdout=(printed,), made=made)
    return Work({}, [Run((), text, stdout=(printed,)), to_file])


def page_of_instructions():
    """A page whose body has 160,005 instructions and 80,000 marks, more than 65,535: two vboxes of
    40,000 rules side by side, in an hbox. Painted at 10,000 dots an inch, they are 138 and 139
    columns wide, and the upper 85 rows of the sheet."""
    count = 40000
    boxes = ["hbox into 0", ("copy 1", "added 1"), ("box 1", "added 1"), ended(2 * PT, count)]
    rules = ["rule 1pt 1sp 0sp"] * count
    rows = rows_of("vbox into 1", *rules, ended(PT, count), *boxes, SHIPPED)
    column = [down(1), put_rule(1, PT)] * count
    file = page_file([column, [right(PT), *column]], count, 2 * PT)
    places = [(h, v, 1, PT) for h in (0, PT) for v in range(1, count + 1)]
    runs = typeset_and_list(rows, file, [rule_mark(*it) for it in places])
    words, black = paint_words(1, 10000, 280, 90, "out.dvi"), bitmap(places, 10000, 280, 90)
    return Work({}, [*runs, Run(words, stdout=black)])


RULES_OF_A_WORD = (9362, 9362, 9362, 9362, 9362, 9362, 9364)  # Together 1pt.
WORDS = [RULES_OF_A_WORD] * 8191 + [(*RULES_OF_A_WORD, 1)]


def paragraph_file():
    """The file of a paragraph of 8,192 words 1pt wide with glue of 0pt plus 1pt between: baselines
    are 12pt apart. 40 words fill a line of 40pt: no line has more, so there are at least 205 lines,
    and each costs at least 100, by the 10 of linepenalty. Of the lists that cost 20,500 the one
    with later places wins.
    """
    lines = [[it for word in WORDS[at : at + 40] for it in word] for at in range(0, 8192, 40)]
    rules = [[set_rule(PT, width) for width in widths] for widths in lines]
    body = [[down(PT + 12 * PT * at), *its] for at, its in enumerate(rules)]
    return page_file(body, (205 + 204 * 11) * PT, 40 * PT)


def long_paragraph():
    """A paragraph of 65,536 items, which takes no more, with the most places that one may have."""
    glue = rows_of("glue 0pt plus 1pt")
    words = [rows_of(*(f"rule {it}sp 1pt 0pt" for it in word)) + glue for word in WORDS]
    items = [row for word in words for row in word][:-1]
    assert len(items) == LONGEST_LIST
    head = "set hsize 40pt; set pretolerance -1; set tolerance 10000; vbox into 0; par"
    too_long = ("rule 1sp 1sp 0sp", "refused 10 ListTooLong")
    lines = ("end", "paragraph lines 205 pass 2 overhang 0 demerits 20500")
    box = ended(40 * PT, (205 + 204 * 11) * PT)
    rows = rows_of(head, *items, too_long, lines, box, SHIPPED)
    return Work({}, [typeset(rows, paragraph_file(), status=1)])


MOST_PLACES = 8192


def most_lines():
    """A paragraph of 8,192 lines, as many as it may have places: after each rule but the last is a
    forced place. The glue between lines is 1pt, and 16,383pt is the greatest height of whole
    points. A line fits exactly, so it costs 100, by the 10 of linepenalty.
    """
    size = PT, (2 * MOST_PLACES - 1) * PT
    rules = "; penalty -10000; ".join(["rule 1pt 1pt 0pt"] * MOST_PLACES)
    head = "set hsize 1pt; set baselineskip 2pt; vbox into 0; par"
    cost = f"paragraph lines {MOST_PLACES} pass 1 overhang 0 demerits {100 * MOST_PLACES}"
    rows = rows_of(head, rules, ("end", cost), ended(*size), SHIPPED)
    places = [PT + 2 * PT * at for at in range(MOST_PLACES)]
    file = page_file([[down(it), set_rule(PT, PT)] for it in places], *size[::-1])
    return Work({}, typeset_and_list(rows, file, [rule_mark(0, it, PT, PT) for it in places]))


def split_rows(height, front, rest):
    """The rows of a `vsplit` to a height without badness, of a `measure` of its front and of one of
    its rest, from their widths and heights."""
    answer = f"split {sizes(*front, 0)} badness 0 rest {sizes(*rest, 0)}"
    line = f"vsplit 0 to {height} into 1"
    return [(line, answer), measured(1, *front, "vbox"), measured(0, *rest, "vbox")]


def split_halfway():
    """32,768 rules 1sp high with glue of 1sp after each, split to 32,767sp: the front of 16,384
    rules is exactly as high, and the next place is awful. In the rest the first glue is dropped,
    and splittopskip of 10pt less 1sp comes first."""
    split = split_rows("32767sp", (PT, 32767), (PT, 10 * PT - 1 + 32768))
    rules = ["rule 1pt 1sp 0sp; glue 1sp"] * 32768
    text, printed = talk(rows_of("vbox into 0", *rules, ended(PT, 65536), *split), NO_PAGES)
    return Run((), text, stdout=(printed,))


def split_at_the_start():
    """A forced place before 65,535 rules: the front is empty, and the rest has 65,536 items:
    splittopskip replaces the penalty."""
    rest = PT, 10 * PT - 1 + 65535
    rules = ["rule 1pt 1sp 0sp"] * 65535
    split = split_rows("1pt", (0, PT), rest)
    rows = rows_of("vbox into 0; penalty -10000", *rules, ended(PT, 65535), *split, SHIPPED)
    body = [down(10 * PT), put_rule(1, PT), *[down(1), put_rule(1, PT)] * 65534]
    return typeset(rows, page_file(body, *rest[::-1]))


def long_splits():
    """Two splits of a list of 65,536 items, each with a rest."""
    return Work({}, [split_halfway(), split_at_the_start()])


def large_bitmap():
    """10,000 by 10,000 pixels with rules in its corners, over its edges, over each other and beyond
    them."""
    inch = 4736286
    rules = [
        (0, inch // 2, inch // 2, inch // 3),
        (inch // 4, inch, inch // 3, inch // 7),
        (inch - 1000, 2 * inch // 3, inch // 5, 2 * inch),
        (-inch // 8, inch // 3, inch // 9, inch // 2),
        (inch // 5, inch + inch // 9, inch // 4, inch // 6),
        (2 * inch, inch // 2, inch // 2, inch // 2),
    ]
    body, h, v = [], 0, 0
    for left, bottom, height, width in rules:
        body += [right(left - h), down(bottom - v), put_rule(height, width)]
        h, v = left, bottom
    file = page_file([it for it in body if getattr(it, "amount", 1)], 2 * inch, 3 * inch)
    words, black = paint_words(1, *[10000] * 3, "f.dvi"), bitmap(rules, *[10000] * 3)
    return Work({"f.dvi": file.data}, [Run(words, stdout=black)])


def many_pages():
    """A DVI file of 131,072 pages, of which post says 0. The first count is the page; page 65,537
    and the last one have a rule."""
    count, body = 131072, [down(PT), set_rule(PT, PT)]
    counts = [(at, *[0] * 9) for at in range(1, count)] + [(-1, *[7] * 9)]
    bodies = {65537: body, count: body}
    file = dvi_file([Page(bodies.get(at, []), it) for at, it in enumerate(counts, 1)], PT, PT)
    assert file.data[file.post + 27 : file.post + 29] == b"\0\0"
    wrong = file.data[: file.post + 28] + b"\1" + file.data[file.post + 29 :]
    marks = {at: [rule_mark(0, PT, PT, PT)] for at in bodies}
    pages = [(" ".join(map(str, it)), marks.get(at, ())) for at, it in enumerate(counts, 1)]
    black, white = (f"P1\n3 3\n000\n{it}00\n000\n".encode() for it in (1, 0))
    paint = lambda page, **how: Run(paint_words(page, 72, 3, 3, "f.dvi"), **how)
    runs = [
        Run(("list", "f.dvi"), stdout=(listed(pages),)),
        *[paint(at, stdout=(it,)) for at, it in ((65536, white), (65537, black), (count, black))],
        paint(count + 1, stderr=b"boxglue: no such page\n", status=2),
        refusal(("list", "wrong.dvi"), f"20 BadDvi {file.post} Count"),
    ]
    return Work({"f.dvi": file.data, "wrong.dvi": wrong}, runs)


def most_pages():
    """65,535 pages are shipped, and no more."""
    shipped = [f"shipped {at}" for at in range(1, 65536)] + ["refused 15 TooManyPages"]
    page = rows_of("hbox into 0", ended(0, 0))
    rows = [row for it in shipped for row in (*page, ("ship 0", it))] + [measured(0, 0, 0)]
    return Work({}, [typeset(rows, dvi_file([Page([])] * 65535, 0, 0), 65535, status=1)])


def most_nodes():
    """256 boxes of 65,536 nodes are shipped, which are 16,777,216 nodes, and no more."""
    end = ended(0, 0)
    page = rows_of("hbox into 1", ("unhcopy 0", "added 65535"), end)
    rows = rows_of("hbox into 0", *["kern 0pt"] * 65535, end)
    rows += [it for at in range(1, 257) for it in (*page, ("ship 1", f"shipped {at}"))]
    rows += rows_of("hbox into 1", end, ("ship 1", "refused 16 TooMuchShipped"), measured(1, 0, 0))
    return Work({}, [typeset(rows, dvi_file([Page([])] * 256, 0, 0), 256, status=1)])


def high_font_numbers():
    """A DVI file with the fonts 255, 256, 65,535, 65,536 and 70,000: numbers of one, two and three
    bytes."""
    fonts = [Font(it, b"tiny") for it in (255, 256, 65535, 65536, 70000)]
    body = [piece for it in fonts for piece in (select(it.number), C)]
    file = page_file(body, 5 * PT, 25 * PT, fonts)
    marks = [f"glyph {it.number} 99 {5 * PT * at} 0" for at, it in enumerate(fonts)]
    listing = Run(("list", "f.dvi", "tiny=tiny.tfm"), stdout=(listed_page(marks),))
    runs = [listing, refusal(("list", "f.dvi"), "4 NoFont")]
    return Work({"f.dvi": file.data, "tiny.tfm": TINY}, runs)


def font_lines(fonts):
    """What `fonts` prints for a file with these definitions, whose names are words."""
    lines = [
        f"font {it.number} {it.name.decode()} {it.size} {it.design_size} {it.check_sum:08x}\n"
        for it in fonts
    ]
    return "".join(["units 25400000 473628672 1000\n", *lines]).encode()


def many_definitions():
    """A file with 1,000 definitions of fonts, which is shorter than 64 KiB."""
    fonts = [Font(at, b"f%d" % at, 1 + at, 1 + 2 * at, at) for at in range(1000)]
    file = page_file([], fonts=fonts)
    assert len(file.data) < 1 << 16
    return Work({"f.dvi": file.data}, [Run(("fonts", "f.dvi"), stdout=(font_lines(fonts),))])


FONTS_OF_RULES = (Font(0, b"tiny"), Font(70000, b"large", 20 * PT, 5 * PT, 0x01234567))


def with_bad_font(file):
    """The bytes of this file with the size 0 in the last definition after post, and the place of
    this definition."""
    font = FONTS_OF_RULES[1]
    place = file.data.rindex(definition(font))
    assert place > file.post
    before, after = file.data[:place], file.data[place + len(definition(font)) :]
    return before + definition(replace(font, size=0)) + after, place


def fonts_of_rules():
    """The fonts of a file above 64 KiB, and its refusal with a bad one."""
    file = rules_file(*FONTS_OF_RULES)
    wrong, place = with_bad_font(file)
    fonts = Run(("fonts", "f.dvi"), stdout=(font_lines(FONTS_OF_RULES),))
    runs = [fonts, refusal(("fonts", "wrong.dvi"), f"20 BadDvi {place} Font")]
    return Work({"f.dvi": file.data, "wrong.dvi": wrong}, runs)


def all_slots():
    """256 fonts are given and used, each in its slot at a size of its own: `c` is half as wide and
    as high."""
    sizes_at = [655360 + 2 * slot for slot in range(256)]
    given = [f"font {slot} f{slot} at {it}sp; use {slot}" for slot, it in enumerate(sizes_at)]
    used = [it for slot in range(256) for it in (f"use {slot}", ("text c", "added 1 missing 0"))]
    # The size loses no bit below 2^23, so a `c` of fix word 2^19 is half of it.
    width, height = sum(it // 2 for it in sizes_at), sizes_at[-1] // 2
    rows = rows_of(*given, "hbox into 0", *used, ended(width, height), SHIPPED)
    fonts = [Font(slot, f"f{slot}".encode(), size) for slot, size in enumerate(sizes_at)]
    body = [down(height), *[piece for slot in range(256) for piece in (select(slot), C)]]
    words = tuple(f"f{slot}=tiny.tfm" for slot in range(256))
    places = [sum(it // 2 for it in sizes_at[:slot]) for slot in range(256)]
    marks = [f"glyph {slot} 99 {h} {height}" for slot, h in enumerate(places)]
    file = page_file(body, height, width, fonts)
    return Work({"tiny.tfm": TINY}, typeset_and_list(rows, file, marks, words))


def many_words():
    """300 words on the command line: `typeset`, its file and 298 fonts, of which the first and the
    last are used."""
    words = tuple(f"n{at}=tiny.tfm" for at in range(298))
    assert len(words) + 2 == 300
    fonts, text = (Font(0, b"n0"), Font(1, b"n297")), ("text c", "added 1 missing 0")
    head, box = "font 0 n0; font 1 n297; hbox into 0", ended(10 * PT, 5 * PT)
    rows = rows_of(head, "use 0", text, "use 1", text, box, SHIPPED)
    file = page_file([down(5 * PT), select(0), C, select(1), C], 5 * PT, 10 * PT, fonts)
    marks = [f"glyph 0 99 0 {5 * PT}", f"glyph 1 99 {5 * PT} {5 * PT}"]
    return Work({"tiny.tfm": TINY}, typeset_and_list(rows, file, marks, words))


# A list of text at 100sp, where `c` is 50sp wide and high.
SMALL_TEXT, FONT_WORDS = "font 0 tiny at 100sp; use 0; hbox into 0", ("tiny=tiny.tfm",)
TOO_LONG = "refused 10 ListTooLong"


def text_of(count, answer=None):
    """The row of a text of `count` times `c`."""
    return f"text {'c' * count}", answer or f"added {count} missing 0"


def small_file(body, width):
    """The file of a page with this font at 100sp, 50sp high."""
    return page_file([down(50), select(0), *body], 50, width, [Font(0, b"tiny", 100)])


def long_texts():
    """A `text` that would make the list too long adds nothing, and one that fills it is shipped."""
    refused = [(it, TOO_LONG) for it in ("char 99", "kern 1sp")]
    box, too_long = ended(65536 * 50, 50), [text_of(it, TOO_LONG) for it in (7, 1, 65537, 1000000)]
    rows = rows_of(SMALL_TEXT, text_of(65530), too_long[0], text_of(6), too_long[1])
    rows += [("text", "added 0 missing 0"), ("text zz", "added 0 missing 2"), *refused, box]
    rows += rows_of("hbox into 1", *too_long[2:], text_of(65536), too_long[1], box)
    rows += [("ship 1", "shipped 1"), measured(0, 65536 * 50, 50)]
    file = small_file([C * 65536], 65536 * 50)
    return Work({"tiny.tfm": TINY}, [typeset(rows, file, fonts=FONT_WORDS, status=1)])


def longest_texts():
    """A `text` of 20 MB that would make the list too long adds nothing, and one of as many missing
    characters is looked through to its end: each with 100 MB of memory, at once and in a session.
    With 32 bytes for each character the first would take 640 MB.
    """
    size, file, runs = 20_000_000, small_file([C * 4], 4 * 50), []
    missing = (f"text {'z' * size}", f"added 0 missing {size}")
    for long, status in ((text_of(size, TOO_LONG), 1), (missing, 0)):
        box = ended(4 * 50, 50)
        rows = rows_of(SMALL_TEXT, text_of(3), long, text_of(1), box, SHIPPED)
        run = typeset(rows, file, fonts=FONT_WORDS, status=status, memory=100_000_000)
        runs += [run, replace(run, words=("session", *run.words[1:]))]
    return Work({"tiny.tfm": TINY}, runs)


def many_characters():
    """A page of 262,144 characters, in four boxes of 65,536, typeset, listed and painted: a bitmap
    shows no character."""
    width = 65536 * 50
    small = SMALL_TEXT.replace("into 0", "into 1")
    boxes = [ended(width, 50), "hbox into 0", *[("copy 1", "added 1")] * 4, ended(4 * width, 50)]
    rows = rows_of(small, text_of(65536), *boxes, SHIPPED)
    others = [[right(at * width), down(50), C * 65536] for at in range(1, 4)]
    fonts = (Font(0, b"tiny", 100),)
    file = page_file([[down(50), select(0), C * 65536], *others], 50, 4 * width, fonts)
    marks = [f"glyph 0 99 {50 * at} 50" for at in range(4 * 65536)]
    runs = typeset_and_list(rows, file, marks, FONT_WORDS)
    words = paint_words(1, 72, 2, 1, "out.dvi", *FONT_WORDS)
    return Work({"tiny.tfm": TINY}, [*runs, Run(words, stdout=(b"P1\n2 1\n00\n",))])


def long_listing():
    """The listing of 500,000 glyphs, 12 MB, in 8 MB beside the file: its pieces do not grow."""
    count = 500000
    fonts = (Font(0, b"tiny", 20),)
    file = page_file([down(PT), select(0), C * count], PT, 10 * count, fonts)
    listing = listed_page([f"glyph 0 99 {10 * at} {PT}" for at in range(count)])
    assert len(listing) > 12_000_000
    words, memory = ("list", "f.dvi", *FONT_WORDS), len(file.data) + 8_000_000
    run = Run(words, memory=memory, stdout=(listing,))
    return Work({"f.dvi": file.data, "tiny.tfm": TINY}, [run])


def glyphs_between_rules():
    """A page of 2,000,000 glyphs and a special between two rules is painted in 20 MB beside its
    file: no glyph is kept."""
    inch = 4736286
    glyphs = [special(b"between"), [select(0), C * 2000000], right(2 * inch)]
    body = [down(inch), put_rule(inch, inch), *glyphs, put_rule(inch // 2, inch)]
    file = page_file(body, inch, 3 * inch, [Font(0, b"tiny", 20)])
    shown = bitmap([(0, inch, inch, inch), (2 * inch, inch, inch // 2, inch)], 100, 400, 120)
    words = paint_words(1, 100, 400, 120, "f.dvi", *FONT_WORDS)
    run = Run(words, memory=len(file.data) + 20_000_000, stdout=shown)
    return Work({"f.dvi": file.data, "tiny.tfm": TINY}, [run])


STEPS, KERNS = 16203, 16000


def large_metric_file():
    """A metric file of 130,000 bytes, 32,500 words, most of them steps and kerns. Character 97 has
    a program whose first step names a later one as its beginning, and of this one the first 200
    steps are for other characters; the next one puts the last kern in front of character 98. A kern
    is its number times 16 in a fix word, so its number times 10 at 10pt."""
    parameters = 32500 - 6 - 2 - 2 - 2 - 1 - 1 - 1 - STEPS - KERNS
    head = [32500, 2, 97, 98, 2, 1, 1, 1, STEPS, KERNS, 0, parameters]
    beginning, last_kern = STEPS - 201, divmod(KERNS - 1, 256)
    steps = [bytes([255, 0, *divmod(beginning, 256)])] + [b"\x80\0\0\x61"] * (beginning - 1)
    steps += [b"\0\x63\x80\0"] * 200 + [bytes([128, 98, 128 + last_kern[0], last_kern[1]])]
    kerns = [(16 * at).to_bytes(4, "big") for at in range(KERNS)]
    words = b"\0\0\0\0" + (10 << 20).to_bytes(4, "big") + b"\1\0\1\0" + b"\1\0\0\0"
    words += b"\0\0\0\0" + (1 << 19).to_bytes(4, "big") + b"\0\0\0\0" * 3
    counts = b"".join(it.to_bytes(2, "big") for it in head)
    data = counts + words + b"".join(steps + kerns) + b"\0\0\0\0" * parameters
    assert len(data) == 130000 and len(steps) == STEPS
    return data


def metric_file_of_all_pairs():
    """A metric file of 256 characters that share a program of 256 steps, one for each character: so
    all 65,536 pairs have a kern. That of a pair is the number of its second character times 16 in a
    fix word."""
    head = [788, 2, 0, 255, 2, 1, 1, 1, 256, 256, 0, 7]
    characters = [b"\1\0\1\0"] * 256
    steps = [bytes([128 * (code == 255), code, 128, code]) for code in range(256)]
    kerns = [(16 * code).to_bytes(4, "big") for code in range(256)]
    words = b"\0\0\0\0" + (10 << 20).to_bytes(4, "big") + b"".join(characters)
    words += b"\0\0\0\0" + (1 << 19).to_bytes(4, "big") + b"\0\0\0\0" * 3
    counts = b"".join(it.to_bytes(2, "big") for it in head)
    data = counts + words + b"".join(steps + kerns) + b"\0\0\0\0" * 7
    assert len(data) == 4 * 788
    return data


def large_font():
    """A font file of 130 KB: kern 15,999 is between two characters that are 5pt wide."""
    kern = 10 * (KERNS - 1)
    texts = [("text ab", "added 3 missing 0"), ("text ba", "added 2 missing 0")]
    box = ended(20 * PT + kern, 0)
    rows = rows_of("font 0 large; use 0; hbox into 0", *texts, box, SHIPPED)
    body = [select(0), set_char(97), right(kern), set_char(98), set_char(98), set_char(97)]
    file = page_file(body, 0, 20 * PT + kern, [Font(0, b"large")])
    places = [(97, 0), (98, 5 * PT + kern), (98, 10 * PT + kern), (97, 15 * PT + kern)]
    marks = [f"glyph 0 {code} {h} 0" for code, h in places]
    runs = typeset_and_list(rows, file, marks, ("large=large.tfm",))
    return Work({"large.tfm": large_metric_file()}, runs)


def greatest_file():
    """A file of 268,435,456 bytes is read: as a DVI file the bytes 223 at its end are missing, as a
    script its first line has a byte 0."""
    as_script = Run((), "limit", stdout=(b"refused 2 BadScript 1 Byte\n",), status=1)
    as_file = refusal(("list", "limit"), f"20 BadDvi {READ_LIMIT} Trailer")
    return Work({"limit": Sparse(READ_LIMIT)}, [as_file, as_script])


def too_large_file():
    """A file with one more byte cannot be read."""
    as_file = Run(("list", "beyond"), stderr=b"boxglue: cannot read beyond\n", status=1)
    as_script = Run((), "beyond", stderr=b"boxglue: cannot read -\n", status=1)
    return Work({"beyond": Sparse(READ_LIMIT + 1)}, [as_file, as_script])


def slow_pipes():
    """A script comes in uneven pieces, and its answers, the bytes of its file and a listing go into
    a pipe of 4,096 bytes that is read slowly."""
    file, slow = rules_file(), {"feed": "uneven", "slowly": True}
    text, printed = talk(rules_rows(), summary(1, file))
    runs = [
        Run((), text, stdout=(printed, hexadecimal(file.data)), **slow),
        Run(("typeset", "/dev/stdout"), text, stdout=(file.data, printed), **slow),
        Run(("list", "/dev/stdin"), file.data, stdout=(listed_page(rules_marks()),), **slow),
    ]
    return Work({"f.dvi": file.data}, runs)
