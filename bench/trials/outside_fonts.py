"""The metric files of TeX Live: whether boxglue, tftopl and tex read them, and what they say of
sizes and of ligatures and kerns."""

import glob
import os
import re
from collections import Counter
from concurrent.futures import ThreadPoolExecutor

from common.files import content
from common.running import finished
from generator import DAMAGE_SEEDS, FONT_SEEDS, Chance, other_bytes
from outside_inputs import TEX_HEAD
from outside_pages import Tally, by_dvitype

TREES = ("/usr/share/texlive", "/usr/share/texmf")
# dvitype has room for the widths of about a hundred fonts.
BATCH, CHARACTERS = 60, 20
WORDS = """office fluffier AVAWAY Toyota why ``quoted'' --- ?`Quien !` ff fi fl ffi ffl Wolf, P. y. r' f)
    (j [f]""".split()
JUNK = "There's some extra junk at the end of the TFM file"


STEP = re.compile(r"(?m)^   \((LABEL|[/>A-Z]*LIG[/>]*|KRN|STOP)(?: O (\d+))?")


class Listing:
    """What tftopl says of a file: its complaints, the characters, the pairs with a step, and
    whether there are operations other than kerns and plain ligatures."""

    def __init__(self, path):
        done = finished(["tftopl", "-charcode-format=octal", path])
        text, errors = done.stdout.decode("latin-1"), done.stderr.decode("latin-1")
        self.path, self.complaints = path, [it for it in errors.split("\n") if it.strip()]
        self.read = done.returncode == 0 and "CHECKSUM" in text
        self.codes = [int(code, 8) for code in re.findall(r"^\(CHARACTER O (\d+)", text, re.M)]
        self.pairs, self.others, lefts = [], set(), []
        for word, code in STEP.findall(text):
            if word == "LABEL":
                lefts += [int(code, 8)] if code else []
            elif word == "STOP":
                lefts = []
            elif code:
                self.pairs += [(left, int(code, 8)) for left in lefts]
                self.others |= {word} - {"LIG", "KRN"}

    def faults(self):
        """The complaints about the file, but for bytes after its end."""
        known = JUNK, "but I'll proceed as if it weren't there."
        return [it for it in self.complaints if not it.startswith(known)]


def live_files(pattern):
    """The files of TeX Live whose names are so."""
    paths = (it for tree in TREES for it in glob.glob(f"{tree}/**/{pattern}", recursive=True))
    return sorted({*map(os.path.realpath, paths)})


def metric_files():
    """The metric files of TeX Live, but for those of its documents."""
    return [it for it in live_files("*.tfm") if it.startswith(TREES)]


def listings_of(paths):
    """What tftopl says of files."""
    with ThreadPoolExecutor(2) as pool:
        return list(pool.map(Listing, paths))


def words_of(listing, chosen):
    """Words that have steps of this font, in bytes that a text may have, and some common ones."""
    after = {}
    for left, right in listing.pairs:
        if 33 <= left <= 126 and 33 <= right <= 126:
            after.setdefault(left, []).append(right)
    words = []
    for _ in range(10 if after else 0):
        word = [chosen.pick(sorted(after))]
        while len(word) < 6 and (len(word) < 2 or chosen.part(0.8)):
            word.append(chosen.pick(after.get(word[-1], sorted(after))))
        words.append(bytes(word).decode())
    return words + WORDS


def size_of(chosen):
    return "%.5fpt" % chosen.between(*chosen.pick(((0.5, 30), (0.5, 30), (100, 300), (1000, 2000))))


class Batch:
    """Some files, each in two slots: at its design size and at another one."""

    def __init__(self, first, listings):
        chosen = Chance(first, FONT_SEEDS)
        self.box, self.tex, self.keys = [], [TEX_HEAD], {}
        self.names = {"f%04d" % (first + i): listing.path for i, listing in enumerate(listings)}
        for i, listing in enumerate(listings):
            name = "f%04d" % (first + i)
            codes = chosen.sample(listing.codes, CHARACTERS) if listing.read else range(60, 80)
            for slot, size in ((i, ""), (BATCH + i, " at " + size_of(chosen))):
                self.font(first + i, slot, name, size)
                for code in codes:
                    self.character(slot, code)
            self.words(first + i, i, words_of(listing, chosen))

    def add(self, box, tex, key=None):
        self.box += box
        self.tex.append(tex + "%")
        if key:
            self.keys[len(self.keys)] = (key, len(self.box))

    def font(self, number, slot, name, size):
        tex = "\\font\\x=%s%s \\say{\\fontname\\x}" % (name, size)
        self.add(["font %d %s%s" % (slot, name, size)], tex, ("font", number, slot))

    def character(self, slot, code):
        box = ["hbox into 0", "use %d" % slot, "char %d" % code, "end"]
        tex = "\\setbox0=\\hbox{\\x\\noboundary\\char%d \\noboundary}\\saybox0" % code
        self.add(box, tex, ("size", slot, code))

    def words(self, number, slot, words):
        """A page of words. TeX has no boundary character on both sides, as boxglue."""
        tex = "\\font\\x=f%04d \\count0=%d\\setbox0=\\vbox{\\x" % (number, number)
        self.add(["count 0 %d" % number, "vbox into 0"], tex)
        for word in words:
            codes = "".join("\\char%d " % ord(letter) for letter in word)
            box = ["hbox", "use %d" % slot, "text " + word, "end"]
            self.add(box, "\\hbox{\\noboundary%s\\noboundary}" % codes)
        self.add(["end", "ship 0"], "}\\shipout\\box0")


# Why files and fonts differ, where the reason is known.
MORE_BYTES = (
    "files with bytes after their last word, of which tftopl warns; boxglue and tex read them"
)
NO_FIT = (
    "fonts with a width, height, depth or kern that does not fit at the other size, which boxglue "
    "refuses (FORMATS.md)"
)
KEPT = (
    "fonts whose words differ, all with ligatures that keep a character, which boxglue passes over"
)


class Readers:
    """What the three readers said of all files, and what differs."""

    def __init__(self):
        self.verdicts, self.causes, self.sizes, self.words = (Counter() for _ in range(4))
        self.notes, self.tally = [], Tally()

    def answers(self, part, batch, ours, theirs):
        """The answers to the fonts of a batch by their slots; compares the sizes of characters."""
        accepted = {}
        for place, (key, line) in batch.keys.items():
            both = ours[line], theirs[place]
            if key[0] == "font":
                accepted[key[2]] = both
            elif accepted[key[1]][0] == "ok" and accepted[key[1]][1] != "nullfont":
                self.sizes["unequal" if both[0] != both[1] else "equal"] += 1
                if both[0] != both[1]:
                    where = part[key[1] % BATCH].path, key[2]
                    self.notes.append("%s, character %d: %s and %s" % (*where, *both))
        return accepted

    def file(self, listing, answer, said, other_size):
        """Compares what boxglue, at two sizes, and tex say of a file, and tftopl's listing."""
        ours, tex = answer == "ok", said != "nullfont"
        lines = listing.complaints
        quiet = listing.read and not lines
        self.verdicts.update({"boxglue": ours, "tex": tex, "tftopl": quiet})
        if ours and tex and listing.read and lines and not listing.faults():
            self.causes[MORE_BYTES] += 1
        elif not ours == tex == quiet:
            by = answer, "read" if tex else "refused", "; ".join(lines[:3]) or "no complaint"
            self.notes.append("%s: boxglue: %s; tex: %s; tftopl: %s" % (listing.path, *by))
        if ours and other_size == "refused 3 DimensionTooLarge":
            self.causes[NO_FIT] += 1
        elif other_size != answer:
            self.notes.append("%s: at another size: %s" % (listing.path, other_size))

    def page(self, listing, ours, theirs):
        """Compares the pages of the words of a font."""
        self.words["with steps"] += bool(listing.pairs)
        one = Tally()
        if not one.page(listing.path, ours, theirs) and listing.others:
            self.causes[KEPT] += 1
        else:
            self.tally.add(one)

    def shown(self, count):
        """The line about all files."""
        by = [self.verdicts[it] for it in ("boxglue", "tex", "tftopl")]
        sizes = self.sizes["equal"], self.sizes["unequal"]
        form = (
            "metrics: %d files; accepted by boxglue %d, by tex %d, by tftopl without a word %d; "
            "sizes of characters: %d equal, %d unequal; words: fonts with steps %d, %s"
        )
        return form % (count, *by, *sizes, self.words["with steps"], self.tally.shown())


def metrics(work):
    """Every metric file of TeX Live."""
    paths, readers = metric_files(), Readers()
    listings = listings_of(paths)
    for first in range(0, len(paths), BATCH):
        part = listings[first : first + BATCH]
        batch, name = Batch(first, part), "metrics%d" % first
        for font, path in batch.names.items():
            if not os.path.lexists(work.path(font + ".tfm")):
                os.symlink(path, work.path(font + ".tfm"))
        fonts = ["%s=%s" % it for it in batch.names.items()]
        ours = work.typeset(name, "\n".join(batch.box) + "\n", fonts)
        theirs = work.tex(name, "\n".join(batch.tex) + "\n\\end\n")
        accepted = readers.answers(part, batch, ours, theirs)
        for i, listing in enumerate(part):
            readers.file(listing, *accepted[i], accepted[BATCH + i][0])
        read = [by_dvitype(name + end, work.folder).named() for end in (".ours.dvi", ".dvi")]
        one, other = ({page.counts[0]: page for page in its} for its in read)
        for number in sorted(set(one) & set(other)):
            readers.page(listings[number], one[number], other[number])
    work.show(readers.shown(len(paths)), readers.causes, readers.notes + readers.tally.notes)


def judge_damaged(work, first, batch, together, notes):
    """Gives damaged files, each with what was done to it and its listing, to boxglue and to tex,
    and counts who reads them."""
    names = [os.path.basename(listing.path)[:-4] for _, listing in batch]
    script = "".join("font %d %s\n" % it for it in enumerate(names))
    answers = work.typeset("damaged%d" % first, script, ["%s=%s.tfm" % (it, it) for it in names])
    says = "".join("\\font\\x=%s \\say{\\fontname\\x}%%\n" % it for it in names)
    theirs = work.tex("damaged%d" % first, TEX_HEAD + says + "\\end\n")
    for at, (what, listing) in enumerate(batch):
        ours, tex = answers[at + 1], "refused" if theirs[at] == "nullfont" else "read"
        faults = listing.faults()
        third = "refused" if not listing.read else "corrected" if faults else "read"
        together[("read" if ours == "ok" else "refused", tex, third)] += 1
        if (ours == "ok") != (tex == "read"):
            all_said = what, ours, tex, third, "; ".join(faults[:2])
            notes.append("%s: boxglue: %s; tex: %s; tftopl: %s, %s" % all_said)


def damaged(work):
    """Metric files of TeX Live with one byte changed, most of them in the tables that readers
    check: who reads them."""
    chosen, together, notes, cases = Chance(0, DAMAGE_SEEDS), Counter(), [], []
    small = [path for path in metric_files() if os.path.getsize(path) < 3000]
    for number in range(450):
        path = chosen.pick(small)
        good = content(path)
        data = other_bytes(chosen, good, 1, chosen.pick((24, 32, 200, len(good), len(good))))
        place = next(at for at, two in enumerate(zip(good, data)) if two[0] != two[1])
        work.put("d%03d.tfm" % number, data)
        cases.append("%s with byte %d set to %d" % (path, place, data[place]))
    listings = listings_of(work.path("d%03d.tfm" % number) for number in range(len(cases)))
    # TeX gives up after a hundred errors.
    for first in range(0, len(cases), 90):
        batch = list(zip(cases, listings))[first : first + 90]
        judge_damaged(work, first, batch, together, notes)
    table = ", ".join(
        "%d %s by boxglue, %s by tex, %s by tftopl" % (count, *key)
        for key, count in together.most_common()
    )
    work.show("damaged: %d files; %s" % (len(cases), table), {}, notes)
