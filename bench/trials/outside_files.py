"""DVI files: their units and fonts, each page of a book as a bitmap, and a listing of 140 MB;
beside dvitype, tftopl and dvipng."""

import functools
import hashlib
import re
import subprocess
from collections import Counter
from fractions import Fraction
from itertools import islice
from math import ceil

import inputs
from common.files import content
from common.running import finished
from generator import FILE_SEEDS, SHEET_SEEDS, Chance, dimension, framed
from models.large_inputs import TINY
from outside_pages import BY_DVITYPE, DOWN, RIGHT, RULE, Tally, black, by_dvitype, steps_of
from outside_pages import text_of_dvitype


# Units and fonts.


@functools.lru_cache(None)
def header(path):
    """Design size in scaled points, rounded down, and check sum of a metric file, as tftopl says
    them."""
    text = finished(["tftopl", path]).stdout.decode("latin-1")
    size = re.search(r"\(DESIGNSIZE R ([\d.]+)\)", text)
    check_sum = re.search(r"\(CHECKSUM O (\d+)\)", text)
    # The text has as many digits as the number of 32 bits needs.
    return round(Fraction(size[1]) * 2**20) // 16, int(check_sum[1], 8)


def other_fonts(work, name, theirs, fonts):
    """What `boxglue fonts` says of a file otherwise than dvitype and tftopl; the fonts are words
    NAME=TFM."""
    paths = dict(word.split("=", 1) for word in fonts)
    expected = [
        (number, font, size, *header(work.path(paths[font])))
        for number, (font, size) in theirs.fonts.items()
    ]
    pairs = zip(("units", "fonts"), work.units_and_fonts(name), (theirs.units, expected))
    return ["%s: %s %s and %s" % (name, *it) for it in pairs if it[1] != it[2]]


def fonts(work):
    """Pages in two of 256 fonts each: what tex makes of them, and units and fonts of both files."""
    names = [inputs.font_name(number) for number in range(256)]
    for number, name in enumerate(names):
        work.put(name + ".tfm", inputs.small_metric_file(number))
    box, tex = inputs.pages_of_fonts(600, len(names))
    words = ["%s=%s.tfm" % (name, name) for name in names]
    # Plain TeX begins with page 1.
    work.typeset("fonts", "count 0 1\n" + box, words)
    work.tex("fonts", tex)
    ours, theirs = by_dvitype("fonts.ours.dvi", work.folder), by_dvitype("fonts.dvi", work.folder)
    tally, listed = Tally(), Tally()
    tally.pages("fonts", ours.named(), theirs.named())
    listed.pages("fonts", work.listing("fonts.ours.dvi", words).pages, ours.pages)
    notes = ["fonts: dvitype: %s" % it for it in ours.complaints]
    for name, reading in (("fonts.ours.dvi", ours), ("fonts.dvi", theirs)):
        notes += other_fonts(work, name, reading, words)
    counts = len(ours.fonts), len(theirs.fonts), tally.shown(), listed.shown(), len(notes)
    form = "fonts: %d and %d fonts; TeX's pages: %s; `list` beside dvitype: %s; "
    form += "other units or fonts, and complaints: %d"
    work.show(form % counts, {}, notes + tally.notes + listed.notes)


# Bitmaps.


def nearest(amount):
    """The nearest whole number, halves away from zero."""
    return int(amount + Fraction(1, 2)) if amount >= 0 else -int(Fraction(1, 2) - amount)


def drawn(rules, side):
    """The rows of rules in pixels (column and row of the lower left one, height and width), as
    numbers whose bits are 1 where it is black."""
    rows = [0] * side
    for column, row, high, wide in rules:
        first, last = (min(max(it, 0), side) for it in (column, column + wide))
        for y in range(max(row - high + 1, 0), min(row + 1, side)):
            rows[y] |= (1 << side - first) - (1 << side - last)
    return rows


def pixel(dots):
    """A pixel in scaled points."""
    return Fraction(254000 * 473628672, 25400000 * dots)


def painted(rules, dots, side):
    """The rows of a page of rules in scaled points by the formula of docs/FORMATS.md."""
    unit, found = pixel(dots), []
    for it in rules:
        high, wide = (ceil(size / unit) for size in it.what)
        found.append((nearest(it.h / unit), nearest(it.v / unit), high, wide))
    return drawn(found, side)


def dvipng_rules(path, folder, dots):
    """The rules of each page in pixels, from the steps that dvitype says, as dvipng rounds: a pixel
    is four times a whole number of scaled points, and a rule in a line moves by its own width in
    pixels."""
    unit, pages, saved = 4 * nearest(pixel(dots) / 4), [], []
    for _, name, _, rest in steps_of(text_of_dvitype(path, folder)[0]):
        right, down = RIGHT.search(rest), DOWN.search(rest)
        if name == "beginning":
            column = row = 0
            pages.append([])
        elif name == "push":
            saved.append((column, row))
        elif name == "pop":
            column, row = saved.pop()
        elif name in ("setrule", "putrule"):
            high, wide = map(int, RULE.match(rest).groups())
            if min(high, wide) > 0:
                sizes = (ceil(Fraction(it, unit)) for it in (high, wide))
                pages[-1].append((column, row, *sizes))
            column += nearest(Fraction(wide, unit)) if name == "setrule" else 0
        elif right:
            column = nearest(Fraction(int(right[2]), unit))
        elif down:
            row = nearest(Fraction(int(down[1]), unit))
    return pages


def black_pixels(rows):
    return sum(bin(row).count("1") for row in rows)


def by_dvipng(work, name, dots, out):
    """Has dvipng paint the pages of a file, each 7 inches wide and high."""
    return work.run("dvipng", "-q", "-D", str(dots), "-T", "7in,7in", "-o", out, name)


def compare_page(work, name, number, page, rules, dots):
    """Compares the bitmap of a page with dvipng's, which is there, with its rules in pixels as
    dvipng rounds, and with its marks. Returns how many pixels of the three differ, and are black,
    and what is not as it has to be."""
    side, file = 7 * dots, work.path("%s-%d.png" % (name, number))
    ours, (width, theirs) = work.bitmap(name, number, dots, side), black(file)
    if (width, len(theirs)) != (side, side):
        return None, ["dvipng's page is %d by %d" % (width, len(theirs))]
    notes = ["not what FORMATS.md says"] * (painted(page.marks, dots, side) != ours)
    notes += ["dvipng rounds otherwise"] * (drawn(rules, side) != theirs)
    return [black_pixels(it) for it in (map(int.__xor__, ours, theirs), ours, theirs)], notes


def sheets_script(pages):
    """Pages of rules in rows, some of which are in part above or left of the page."""
    chance, script = Chance(0, SHEET_SEEDS), []
    for page in range(pages):
        script += ["set %s %s" % (it, dimension(chance, -30, 60)) for it in ("hoffset", "voffset")]
        script += ["count 0 %d" % page, "vbox into 0"]
        for _ in range(4 + chance.below(20)):
            script.append("hbox")
            for _ in range(1 + chance.below(25)):
                sizes = (dimension(chance, 0, most) for most in (40, 12, 5))
                script += ["rule %s %s %s" % (*sizes,), "kern " + dimension(chance, -3, 20)]
            script.append("end")
        script += ["end", "ship 0"]
    return "\n".join(script) + "\n"


def sheets(work):
    """Each page of a book of rules, by `paint`, by dvipng, and by the formula from the places that
    dvitype says."""
    dots, name, found, notes = 100, "sheets.ours.dvi", Counter(), []
    work.typeset("sheets", sheets_script(280), [])
    by_dvipng(work, name, dots, name + "-%d.png")
    read, rules = by_dvitype(name, work.folder).pages, dvipng_rules(name, work.folder, dots)
    for number, (page, its) in enumerate(zip(read, rules), 1):
        counts, wrong = compare_page(work, name, number, page, its, dots)
        notes += ["page %d: %s" % (number, it) for it in wrong]
        found.update(pages=1, rules=len(page.marks), differ=counts[0] if counts else 0)
    sizes = found["pages"], found["rules"], found["pages"] * (7 * dots) ** 2, found["differ"]
    form = (
        "sheets: %d pages, %d rules, %d pixels; that differ from dvipng's %d; pages that are not "
    )
    form += "what FORMATS.md says, or not what dvipng's rounding makes: %d"
    work.show(form % (*sizes, len(notes)), {}, notes)


DOTS = (72, 100, 144, 150, 300, 600)


def paint(work):
    """A page of 1,600 rules, by `paint` and by dvipng."""
    name, parts, notes = "paint.ours.dvi", [], []
    work.typeset("paint", inputs.many_rules(1600), [])
    page = by_dvitype(name, work.folder).pages[0]
    for dots in DOTS:
        by_dvipng(work, name, dots, name + "-1.png")
        rules = dvipng_rules(name, work.folder, dots)[0]
        counts, wrong = compare_page(work, name, 1, page, rules, dots)
        notes += ["%d dpi: %s" % (dots, it) for it in wrong]
        if counts:
            its = counts[0], (7 * dots) ** 2, dots, *counts[1:]
            parts.append("%d of %d at %d dpi (black %d and %d)" % its)
    work.show("paint: 1600 rules, pixels that differ from dvipng's: " + ", ".join(parts), {}, notes)


# Random files.


class Letters(Chance):
    """With letters in specials, since dvitype shows these as they are, lines and all."""

    def bytes(self, count):
        return bytes(97 + it % 26 for it in super().bytes(count))


NOT_SELECTED = "files that define a font, before a page alone or without its metric file, which no page selects"


def random_files(work):
    """DVI files of random instructions: whether boxglue and dvitype read them, and what both
    show."""
    tally, together, causes, notes = Tally(), Counter(), Counter(), []
    work.put("tiny.tfm", TINY)
    for number in work.seeds(1000):
        name = "random%d.dvi" % number
        work.put(name, framed(Letters(number, FILE_SEEDS)))
        ours, theirs = work.listing(name, ["tiny=tiny.tfm"]), by_dvitype(name, work.folder)
        verdict = "read" if ours.pages is not None else ours.complaints[0].split()[-1]
        together[verdict, bool(theirs.complaints)] += 1
        if ours.pages is not None and not theirs.complaints:
            tally.pages(name, ours.pages, theirs.pages)
        elif ours.pages is not None and all(" loaded" in it for it in theirs.complaints):
            causes[NOT_SELECTED] += 1
        elif (ours.pages is None) != bool(theirs.complaints):
            said = "; ".join(theirs.complaints[:2]) or "no complaint"
            notes.append("%s: boxglue: %s; dvitype: %s" % (name, verdict, said))
    table = ", ".join(
        "%d %s%s" % (count, verdict, ", dvitype complains" if complains else "")
        for (verdict, complains), count in sorted(together.items())
    )
    line = "random_files: %s; `list` beside dvitype: %s" % (table, tally.shown())
    work.show(line, causes, notes + tally.notes)


# A large file.


def listed(lines):
    """The listing that dvitype's lines at level 4 say, of a file that has characters in fonts below
    64 and movements alone."""
    page, font, place = 0, b"", {b"h": b"0", b"v": b"0"}
    for line in lines:
        number, _, step = line.partition(b": ")
        if line.startswith(b"level"):
            place[b"h"], place[b"v"] = (it.partition(b",")[0] for it in line.split(b"=", 3)[1:3])
        if not number.isdigit():
            continue
        name, _, rest = step.partition(b" ")
        if name == b"beginning":
            page, place = page + 1, {b"h": b"0", b"v": b"0"}
            yield b"page %d counts %b\n" % (page, rest.split()[2].replace(b".", b" "))
        elif name.startswith(b"setchar"):
            yield b"glyph %b %b %b %b\n" % (font, name[7:], place[b"h"], place[b"v"])
        elif name.startswith(b"fntnum"):
            font = name[6:]
        before, sign, sum_of = rest.partition(b":=")
        if sign:
            place[before[-1:]] = sum_of.split(b"=", 2)[1].partition(b",")[0]


def summed(pieces):
    """How many these bytes are, and their MD5 sum."""
    found, size = hashlib.md5(), 0
    while piece := b"".join(islice(pieces, 10000)):
        found.update(piece)
        size += len(piece)
    return size, found.hexdigest()


def large(work):
    """A listing of a file of 140 MB, beside dvitype, by their sums."""
    metrics = work.fonts(["cmr10"])
    work.typeset("book", inputs.book(200)[0], metrics)
    times = 101 if work.most_seeds is None else work.most_seeds - 1
    file = inputs.repeated_pages(content(work.path("book.ours.dvi")), times)
    work.put("large.dvi", file)
    by_boxglue, how = [work.program, "list", "large.dvi", *metrics], {"stdin": subprocess.DEVNULL}
    how |= {"cwd": work.folder, "stdout": subprocess.PIPE}
    with subprocess.Popen(by_boxglue, **how) as ran:
        ours = summed(ran.stdout)
    with subprocess.Popen([*BY_DVITYPE, "large.dvi"], **how) as ran:
        theirs = summed(listed(ran.stdout))
    form = "large: %d bytes of DVI; listing of %d bytes, md5 %s; of dvitype %d, %s"
    line = form % (len(file), *ours, *theirs)
    work.show(line, {}, ["the listing is another one"] * (ours != theirs))
