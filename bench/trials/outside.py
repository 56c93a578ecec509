#!/usr/bin/env python3
"""Compares boxglue with TeX's programs: bench/trials/outside.py [--boxglue PROGRAM] [--by WAY]
[--folder FOLDER] [--notes N] [--seeds N] [PART ..], all parts if none is named.

Each part prints one line of counts and differences, and below it the causes that are known, and the
first N of the others; or which tools it lacks, and then the status is 1. With `--by session`
scripts are given to `boxglue session` line by line.
Everything random has a fixed seed. The inputs and outputs stay in FOLDER, if one is named. It needs
Debian's packages texlive-base, texlive-latex-base, dvipng, ghostscript and poppler-utils; with
texlive-fonts-recommended, texlive-latex-recommended, texlive-pictures and texlive-extra-utils it
has more metric files and documents. docs/internal/EVIDENCE.md has the results."""

import glob
import os
import re
import shutil
import sys
import tempfile
import time
from collections import Counter

from trial import ROOT, parser_of
from common.files import read
from outside_documents import DOCUMENTS
from outside_files import fonts, large, other_fonts, paint, random_files, sheets
from outside_fonts import damaged, live_files, metrics
from outside_pages import Tally, by_dvitype
from outside_random import boxes, long_paragraphs, long_script, pages, paragraphs, splits
from outside_ways import SessionWork
from outside_work import Work
import inputs


# Files of TeX.


def made_documents(work):
    """The names of DVI files by tex and latex, those of TeX Live, and copies by dvicopy, and of the
    documents that are not made here."""
    made, missing = [], []
    for name, (program, text) in DOCUMENTS.items():
        # References are those of the run before, so a second run makes the file the same in a used
        # folder too.
        for _ in range(2 if "\\tableofcontents" in text or "\\ref" in text else 1):
            work.tex("document_" + name, text, program)
        is_made = os.path.exists(work.path("document_%s.dvi" % name))
        (made if is_made else missing).append("document_%s.dvi" % name if is_made else name)
    for path in live_files("*.dvi"):
        made.append("live_" + os.path.basename(path))
        shutil.copy(path, work.path(made[-1]))
    for name in list(made):
        work.run("dvicopy", name, "copy_" + name)
        made += ["copy_" + name] * os.path.exists(work.path("copy_" + name))
    return made, missing


NOT_MADE = "documents that are not made here: "
NO_METRICS = "files with fonts whose metric files are not here: "


def documents(work):
    """DVI files by tex and latex, those of TeX Live, and copies by dvicopy, which has the fonts of
    virtual ones."""
    made, missing = made_documents(work)
    tally, notes, without_metrics, defined = Tally(), [], [], 0
    for name in made:
        theirs = by_dvitype(name, work.folder)
        names = {font for font, _ in theirs.fonts.values()}
        fonts = work.fonts(sorted(names))
        if len(fonts) < len(names):
            without_metrics.append(name)
            continue
        notes += ["%s: dvitype: %s" % (name, it) for it in theirs.complaints]
        ours = work.listing(name, fonts)
        if ours.pages is None:
            notes.append("%s: %s" % (name, ours.complaints[0]))
            continue
        tally.pages(name, ours.pages, theirs.pages)
        notes += other_fonts(work, name, theirs, fonts)
        defined += len(theirs.fonts)
    form = (
        "documents: %d files with %d fonts, not accepted, warned of, or with other units or fonts "
    )
    counts = len(made) - len(without_metrics), defined, len(notes), tally.shown()
    causes = Counter({NOT_MADE + ", ".join(missing): len(missing)})
    causes[NO_METRICS + ", ".join(without_metrics)] = len(without_metrics)
    work.show((form + "%d; %s") % counts, +causes, notes + tally.notes)


# Other readers.


def example_scripts():
    """The scripts of examples/, all in a font that has shapes, and a book of 280 pages."""
    for path in sorted(glob.glob(ROOT + "/examples/*.box")):
        script = re.sub(r"(?m)^(font .*)plain", r"\1cmr10", read(path))
        yield os.path.basename(path)[:-4], script
    yield "book", inputs.book(200)[0]


def said_by(words, text):
    """What a reader warns of."""
    if words[0] in ("gs", "pdftoppm"):
        return [text] if text.strip() else []
    bad = r"(?i)(?:%s)?[^\n]*(?:warning|error|missing|cannot|can't|unimplemented)[^\n]*"
    return re.findall(bad % words[0], text)


READERS = (
    "dvips -o FILE.ps FILE.dvi",
    "gs -q -dBATCH -dNOPAUSE -sDEVICE=nullpage FILE.ps",
    "dvipdfmx -o FILE.pdf FILE.dvi",
    "pdftoppm -r 30 -gray FILE.pdf FILE",
    "dvipng -D 110 -T tight -o FILE-%d.png FILE.dvi",
)


def readers(work):
    """dvitype, dvips with gs, dvipdfmx with pdftoppm, and dvipng on files of boxglue: each takes
    all pages and says nothing."""
    notes, causes, runs, total = [], Counter(), Counter(), 0
    for name, script in example_scripts():
        file = "reader_%s" % name
        answers = work.typeset(file, script, work.fonts(["cmr10"]))
        count = sum(answer.startswith("shipped") for answer in answers.values())
        os.replace(work.path(file + ".ours.dvi"), work.path(file + ".dvi"))
        total += count
        found = by_dvitype(file + ".dvi", work.folder)
        runs["dvitype"] += 1
        wrong = found.complaints + ["%d pages" % len(found.pages)] * (len(found.pages) != count)
        notes += ["%s: dvitype: %s" % (name, it) for it in wrong]
        for words in READERS:
            words = [it.replace("FILE", file) for it in words.split()]
            status, text = work.run(*words)
            runs[words[0]] += 1
            said = said_by(words, text)
            if words[0] == "dvipng" and said and all("special{html:" in it for it in said):
                causes["files with links, of which dvipng warns"] += 1
            elif status or said:
                notes.append("%s: %s: status %d, %s" % (name, words[0], status, " / ".join(said)))
        for made, pattern in (("dvipng", file + "-*.png"), ("pdftoppm", file + "-*.pgm")):
            painted = len(glob.glob(work.path(pattern)))
            if painted != count:
                notes.append("%s: %s made %d of %d pages" % (name, made, painted, count))
    shown = ", ".join("%s of %d files" % it for it in runs.items())
    form = "readers: %s; %d pages; warnings, errors or other numbers of pages: %d"
    work.show(form % (shown, total, len(notes)), causes, notes)


# Each part with the tools that it needs.
PARTS = {
    "metrics": (metrics, "tex tftopl dvitype"),
    "damaged": (damaged, "tex tftopl"),
    "boxes": (boxes, "tex dvitype kpsewhich"),
    "splits": (splits, "tex dvitype kpsewhich"),
    "paragraphs": (paragraphs, "tex dvitype kpsewhich"),
    "pages": (pages, "tex dvitype kpsewhich"),
    "long_script": (long_script, "tex dvitype kpsewhich"),
    "long_paragraphs": (long_paragraphs, "tex dvitype kpsewhich"),
    "fonts": (fonts, "tex dvitype tftopl"),
    "documents": (documents, "tex latex dvitype dvicopy tftopl kpsewhich"),
    "random_files": (random_files, "dvitype"),
    "readers": (readers, "dvitype dvips gs dvipdfmx pdftoppm dvipng kpsewhich"),
    "paint": (paint, "dvitype dvipng"),
    "sheets": (sheets, "dvitype dvipng"),
    "large": (large, "dvitype kpsewhich"),
}


def words_of():
    """Reads the command line."""
    parser = parser_of(__doc__)
    ways = {"choices": ("program", "session"), "default": "program", "metavar": "WAY"}
    number = {"type": int, "metavar": "N"}
    for name, how, about in (
        ("--by", ways, "program or session"),
        ("--folder", {}, "a folder for all inputs and outputs, else one that is removed"),
        ("--notes", {**number, "default": 5}, "how many differences of a part are shown"),
        ("--seeds", number, "of random work the first N seeds of a part alone"),
        ("parts", {"nargs": "*", "metavar": "PART"}, ", ".join(PARTS)),
    ):
        parser.add_argument(name, help=about, **how)
    words = parser.parse_args()
    words.parts = words.parts or list(PARTS)
    if not set(words.parts) <= set(PARTS):
        parser.error("the parts are " + ", ".join(PARTS))
    if not os.path.isfile(words.boxglue):
        sys.exit("%s is not there" % words.boxglue)
    return words


def main():
    words, left_out = words_of(), 0
    with tempfile.TemporaryDirectory() as room:
        folder = os.path.abspath(words.folder or room)
        os.makedirs(folder, exist_ok=True)
        kind = SessionWork if words.by == "session" else Work
        work = kind(words.boxglue, folder, words.notes, words.seeds)
        for part in words.parts:
            start, (compare, tools) = time.monotonic(), PARTS[part]
            lacks = [it for it in tools.split() if shutil.which(it) is None]
            if lacks:
                print("%s: not tried, not there: %s" % (part, ", ".join(lacks)), flush=True)
                left_out += 1
                continue
            compare(work)
            print("    %.0f s" % (time.monotonic() - start), flush=True)
    sys.exit(bool(left_out))


main()
