"""The pages of DVI files, as dvitype and `boxglue list` show them, and how two readings differ."""

import re
import struct
import subprocess
import zlib
from collections import Counter, namedtuple

from common.files import content
from common.running import finished

# A mark is a glyph (what: font and code), a rule (what: height and width) or a special (what: its
# text).
Mark = namedtuple("Mark", "kind what h v")
Page = namedtuple("Page", "counts marks")

STEP = re.compile(r"\d+: ([a-z]+)(\d*) ?(.*)")
RIGHT = re.compile(r"\bh:=-?\d+([+-]\d+)=(-?\d+)")
DOWN = re.compile(r"\bv:=-?\d+[+-]\d+=(-?\d+)")
SAVED = re.compile(r"level \d+:\(h=(-?\d+),v=(-?\d+),")
RULE = re.compile(r"height (-?\d+), width (-?\d+)")
FONT = re.compile(r"Font (\d+): (.+?)(?: scaled \d+)?---loaded at size (\d+) DVI units")
MOST_TEXT = 1 << 28
# With ten stars dvitype says all ten counts of a page.
BY_DVITYPE = ["dvitype", "-output-level=4", "-page-start=" + ".".join("*" * 10)]
UNITS = re.compile(r"numerator/denominator=(\d+)/(\d+)\nmagnification=(\d+);")
COMPLAINT = re.compile(r"!|invalid|not loaded|beware|Bad DVI")
# A mark outside the greatest sizes of post is no fault: a box may be wider than its width. dvitype
# says the same of TeX's file.
OUTSIDE = re.compile(r"warning: \|[hv]\|>\d+!")


class Reading:
    """The pages of a file, its fonts by their numbers (name and size), what the reader complained
    of, and the units (numerator, denominator, magnification) where it says them."""

    def __init__(self, pages, fonts, complaints, units=None):
        self.pages, self.fonts, self.complaints, self.units = pages, fonts, complaints, units

    def named(self):
        """The same pages with the name and the size of a font in the place of its number, since two
        writers number fonts differently."""

        def of(mark):
            if mark.kind != "glyph":
                return mark
            return mark._replace(what=(self.fonts[mark.what[0]], mark.what[1]))

        return [Page(page.counts, [of(mark) for mark in page.marks]) for page in self.pages]


def said_by(*words, **how):
    """The status and the text of a run, whose errors stand among its output, unless `how` says
    where they go."""
    streams = {"stdout": subprocess.PIPE, "stderr": subprocess.STDOUT}
    ran = finished(words, **{**streams, **how})
    return ran.returncode, ran.stdout.decode("latin-1")


def text_of_dvitype(path, folder):
    """What dvitype prints of a file at level 4, and its status."""
    how = {"cwd": folder, "stdin": subprocess.DEVNULL, "stderr": subprocess.STDOUT}
    with subprocess.Popen([*BY_DVITYPE, path], stdout=subprocess.PIPE, **how) as done:
        text = done.stdout.read(MOST_TEXT).decode("latin-1")
        # After the end of a file dvitype reads zeros, so a special may have as many as its length
        # says.
        if len(text) == MOST_TEXT:
            done.kill()
    return text, done.returncode


def steps_of(text):
    """Each line of such a text, and of a step its name, the number in that, and the rest. Lines in
    brackets repeat the letters of a line of text."""
    for line in text.split("\n"):
        if not line.startswith("["):
            step = STEP.match(line)
            yield line, *(step.groups() if step else (None, None, ""))


def is_complaint(name, line):
    """Whether dvitype complains in a line of this command."""
    if name == "xxx":
        return "string of negative length!" in line
    return COMPLAINT.search(OUTSIDE.sub("", line))


def moved(line, h, v):
    """The place after a line that says it, as a whole or by one of both."""
    saved, right, down = SAVED.match(line), RIGHT.search(line), DOWN.search(line)
    if saved:
        h, v = map(int, saved.groups())
    return int(right[2]) if right else h, int(down[1]) if down else v


def by_dvitype(path, folder):
    """A reading by dvitype, from its text at level 4. It says each new h and v, so nothing is added
    up here."""
    text, status = text_of_dvitype(path, folder)
    pages, fonts, complaints = [], {}, []
    h = v = 0
    font, marks = None, []
    for line, name, number, rest in steps_of(text):
        if is_complaint(name, line):
            complaints.append(line)
        if name == "beginning":
            counts = [int(it) for it in rest.split()[2].split(".")]
            h, v, font, marks = 0, 0, None, []
            pages.append(Page(tuple(counts + [0] * (10 - len(counts))), marks))
        elif name == "setchar":
            marks.append(Mark("glyph", (font, int(number)), h, v))
        elif name in ("set", "put") and number:
            marks.append(Mark("glyph", (font, int(rest.split()[0])), h, v))
        elif name in ("setrule", "putrule"):
            sizes = tuple(map(int, RULE.match(rest).groups()))
            if min(sizes) > 0:
                marks.append(Mark("rule", sizes, h, v))
        elif name == "xxx":
            marks.append(Mark("special", rest[1 : rest.rindex("'")], h, v))
        elif name == "fntnum":
            font = int(number)
        elif name == "fnt":
            font = int(rest.split()[0])
        elif not name and (found := FONT.match(line)):
            fonts[int(found[1])] = (found[2].split(":")[-1], int(found[3]))
        if name != "xxx":
            h, v = moved(line, h, v)
    if status:
        complaints.append("status %d" % status)
    units = UNITS.search(text)
    return Reading(pages, fonts, complaints, units and tuple(map(int, units.groups())))


def unescaped(text):
    return re.sub(r"\\([0-9a-f]{2})", lambda found: chr(int(found[1], 16)), text)


def by_boxglue(program, path, folder, fonts):
    """A reading by `boxglue list` with these words for the fonts; its pages are None where the file
    is refused."""
    status, text = said_by(program, "list", path, *fonts, cwd=folder)
    if status:
        return Reading(None, {}, [text.strip()])
    pages = []
    for line in text.split("\n")[:-1]:
        kind, rest = line.split(" ", 1)
        if kind == "page":
            pages.append(Page(tuple(map(int, rest.split()[2:])), []))
        elif kind == "glyph":
            font, code, h, v = map(int, rest.split())
            pages[-1].marks.append(Mark(kind, (font, code), h, v))
        elif kind == "rule":
            h, v, height, width = map(int, rest.split())
            pages[-1].marks.append(Mark(kind, (height, width), h, v))
        else:
            h, v, text = rest.split(" ", 2)
            pages[-1].marks.append(Mark(kind, unescaped(text), int(h), int(v)))
    return Reading(pages, {}, [])


class Tally:
    """What two readings of pages have in common, and where they differ."""

    def __init__(self):
        self.seen, self.near, self.far, self.notes = Counter(), Counter(), Counter(), []

    def note(self, text):
        self.notes.append(text)

    def page(self, name, ours, theirs):
        """Compares the marks of a page in their order, and says whether they are at the same places
        up to 1 sp."""
        self.seen["page"] += 1
        if ours.counts != theirs.counts:
            self.far["page"] += 1
            self.note("%s: counts %s and %s" % (name, ours.counts, theirs.counts))
        marks = [[mark[:2] for mark in page.marks] for page in (ours, theirs)]
        if marks[0] != marks[1]:
            self.far["page"] += 1
            differ = (at for at, (one, other) in enumerate(zip(*marks)) if one != other)
            at = next(differ, min(map(len, marks)))
            others = ours.marks[at : at + 1], theirs.marks[at : at + 1]
            self.note("%s: other marks from mark %d: %s and %s" % (name, at, *others))
            return False
        same = True
        for one, other in zip(ours.marks, theirs.marks):
            self.seen[one.kind] += 1
            away = max(abs(one.h - other.h), abs(one.v - other.v))
            self.near[one.kind] += away == 1
            if away > 1:
                if same:
                    self.note("%s: %s and %s" % (name, one, other))
                self.far[one.kind], same = self.far[one.kind] + 1, False
        return same

    def pages(self, name, ours, theirs):
        """Compares all pages of two files, in order."""
        if len(ours) != len(theirs):
            self.far["page"] += 1
            self.note("%s: %d and %d pages" % (name, len(ours), len(theirs)))
        for number, two in enumerate(zip(ours, theirs), 1):
            self.page("%s, page %d" % (name, number), *two)

    def add(self, other):
        for name, its in vars(other).items():
            setattr(self, name, getattr(self, name) + its)

    def shown(self):
        counts = [
            [
                "%d %s%s" % (counter[kind], kind, "s" * (counter[kind] != 1))
                for kind in ("page", "glyph", "rule", "special")
                if counter[kind]
            ]
            for counter in (self.seen, self.near, self.far)
        ]
        forms = tuple(", ".join(it) or "nothing" for it in counts)
        return "%s; 1 sp off: %s; otherwise: %s" % forms


def black(path):
    """The width of a picture of dvipng, whose pixels are places in a table of colours, and its rows
    as numbers whose bits are 1 where it is black."""
    data, parts, at = content(path), {}, 8
    while at < len(data):
        length, kind = struct.unpack(">I4s", data[at : at + 8])
        parts[kind] = parts.get(kind, b"") + data[at + 8 : at + 8 + length]
        at += length + 12
    width, height, depth = struct.unpack(">IIB", parts[b"IHDR"][:9])
    colours = [sum(it) < 384 for it in struct.iter_unpack("3B", parts[b"PLTE"])]
    colours += [False] * ((1 << depth) - len(colours))
    shown = [
        "".join(
            "01"[colours[value >> shift & (1 << depth) - 1]]
            for shift in range(8 - depth, -1, -depth)
        )
        for value in range(256)
    ]
    data, size, rows = zlib.decompress(parts[b"IDAT"]), -(-width * depth // 8), []
    above = bytes(size)
    for row in range(0, height * (size + 1), size + 1):
        above = unfiltered(data[row], bytearray(data[row + 1 : row + size + 1]), above)
        rows.append(int("".join(map(shown.__getitem__, above))[:width], 2))
    return width, rows


def unfiltered(kind, line, above):
    """A row of a picture, from its filter and what that made of the row, and the row above it."""
    for i in range(len(line) if kind else 0):
        left, up, corner = (line[i - 1] if i else 0), above[i], (above[i - 1] if i else 0)
        guess = left + up - corner
        nearest = min((left, up, corner), key=lambda it: abs(guess - it))
        line[i] = line[i] + (0, left, up, (left + up) // 2, nearest)[kind] & 255
    return line
