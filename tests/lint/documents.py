"""The documents: each crate has a README.md of the one form; links and the files that these name
are there; nothing is said twice, and all together are no longer than allowed. The tables and charts
of docs/SPEED.md are those that bench/ makes of its data, README.md and the manual page round the
same data, and docs/internal/EVIDENCE.md counts the edits. Hashes of commits stand in tables only.
No program is run but these scripts."""
import glob
import os
import re
import shutil
import sys
import tempfile
from collections import Counter
from functools import partial

from common.files import read
from common.running import finished

TITLE = "the documents: the README.md of each crate, links, lengths, figures, and no run of ten words that stands in two of them"
TRIES = False
DOCUMENTS = """
    README.md CHANGELOG.md SECURITY.md docs/*.md docs/internal/*.md crates/README.md
    crates/*/README.md tests/CASES.md bench/*/README.md examples/README.md
    examples/*/README.md bindings/python/README.md bindings/rust/*/README.md""".split()
RUN = 10
SECTIONS = ["Proved", "Only tested", "Limits"]
# The most words of single documents, and of docs/ and the crates' together.
MOST = {"docs/PROVED.md": 1800, "docs/internal/EVIDENCE.md": 1600, "docs/internal/GATE.md": 600}
MOST_OF_ALL = 38_000
# The most lines of README.md.
MOST_LINES = 100
# The file of a link.
LINK = re.compile(r"\]\(([^)#\s]+)(?:#[^)]*)?\)")
LINES, PROVED_WORDS = range(15, 41), 120
# The most edits in wrong-bodies/ of a crate: a reader keeps those that tell most.
MOST_EDITS = 10
# A commit by the first digits of its name, or by all. It has a digit and a letter, so no word and
# no number is taken for one.
HASH = re.compile(r"\b(?=\d*[a-f])(?=[a-f]*\d)(?:[0-9a-f]{7,10}|[0-9a-f]{40})\b")
# What README.md says beside TeX, in the sentence that links SPEED: a ratio, and of what.
RATIO = re.compile(r"(\d+\.\d+) of (?:TeX's|its) (time|instructions|memory)\b")
COLUMNS = {"time": "seconds", "instructions": "instructions", "memory": "memory"}
# How README.md says the milliseconds of `start`, of which four are the goal.
STARTS = {
    1: "a millisecond",
    2: "two milliseconds",
    3: "three milliseconds",
    4: "four milliseconds",
}
# The sentences of the manual page with figures: each has the units, the seconds and the megabytes
# of a case. A page takes what more pages of a case take more.
ON_MANUAL = (
    (
        r"\(2,000 paragraphs, ([\d,]+) words, 280 pages\) takes ([\d.]+) seconds and ([\d.]+) megabytes of memory\.",
        "paragraphs_200",
    ),
    (
        r"\(([\d,]+) lines that make boxes of rules\) takes ([\d.]+) seconds and ([\d.]+) megabytes\.",
        "short_lines_1000000",
    ),
)
# A figure that was measured, with its unit, and a link to a document that has such figures.
FIGURE = re.compile(r"\b(\d[\d,]*(?:\.\d+)?) (s|seconds|us|ms|minutes|MB|GB|bytes|million)\b")
UNITS = {"seconds": "s"}
SOURCE = re.compile(r"\]\(([^)#\s]*\b(?:SPEED|GATE)\.md)\)")
PAGE_ON_MANUAL = r"A page of one rule takes ([\d.]+) microseconds\."
PAGES = ("small_pages_ship_6000", "small_pages_ship_60000")
FENCED = re.compile(r"(?ms)^```.*?^```$")


def documents(root):
    """The paths of the documents."""
    found = {path for pattern in DOCUMENTS for path in glob.glob(f"{root}/{pattern}")}
    return sorted(os.path.relpath(it, root) for it in found)


def texts(root):
    """The documents by their paths."""
    return {path: read(f"{root}/{path}") for path in documents(root)}


def listed(what, wrong):
    """What is wrong, as one text, or None."""
    return f"{what} {', '.join(wrong)}" if wrong else None


def running_text(text):
    """The paragraphs of a document, without code, tables, headings and pictures: code inside of a
    line ends a run of words."""
    text = re.sub(r"(?m)^(?:    .*|\||\s*\|.*|#.*|!\[.*)$", "\n\n", FENCED.sub("\n\n", text))
    text = re.sub(r"(?m)^\|.*$", "\n\n", text)
    text = re.sub(r"\]\([^)]*\)", "]", text)
    paragraphs = re.split(r"\n\s*\n|^\s*- ", text, flags=re.M)
    return [part for paragraph in paragraphs for part in re.split(r"`[^`]*`", paragraph)]


def runs(text):
    """The runs of ten words of a document."""
    for part in running_text(text):
        words = re.findall(r"[^\W_]+(?:['-][^\W_]+)*", part.lower())
        yield from (" ".join(words[at : at + RUN]) for at in range(len(words) - RUN + 1))


def said_twice(root):
    """Runs of words that stand in two documents."""
    found = {}
    for path, text in texts(root).items():
        for run in runs(text):
            found.setdefault(run, {}).setdefault(path)
    twice = {}
    for run, paths in found.items():
        if len(paths) > 1:
            twice.setdefault(" and ".join(paths), run)
    return "; ".join(f"{paths}: {run!r}" for paths, run in twice.items()) or None


def links(root):
    """Links to files that are not there, and names of documents that are neither in docs/ nor
    beside the text. A link gives the path of any other document."""
    wrong = []
    for path, text in texts(root).items():
        text, folder = FENCED.sub("", text), os.path.dirname(path)
        places = {it: (f"{folder}/{it}",) for it in re.findall(LINK, text) if "://" not in it}
        for it in re.findall(r"(?<![\w/.])[A-Z]{2,}\.md\b", re.sub(LINK, "", text)):
            places.setdefault(it, (f"docs/{it}", f"{folder}/{it}", it))
        for it, its in places.items():
            if not any(os.path.exists(os.path.normpath(f"{root}/{place}")) for place in its):
                wrong.append(f"{path}: {it}")
    return listed("no file for", wrong)


def slugs(text):
    """The anchors of the headings of a document, as a browser of the repository makes them."""
    headings = re.findall(r"(?m)^#+ (.*)$", FENCED.sub("", text))
    plain = [re.sub(r"[^\w -]", "", re.sub(r"\]\([^)]*\)", "", it).lower()) for it in headings]
    return {it.strip().replace(" ", "-") for it in plain}


def anchors(root):
    """Links to headings that are not there."""
    wrong = []
    for path, text in texts(root).items():
        for file, anchor in re.findall(r"\]\(([^)#\s]*)#([^)\s]+)\)", text):
            whole = f"{root}/{os.path.dirname(path)}/{file}" if file else f"{root}/{path}"
            is_there = "://" not in file and os.path.exists(os.path.normpath(whole))
            if is_there and anchor not in slugs(read(os.path.normpath(whole))):
                wrong.append(f"{path}: {file}#{anchor}")
    return listed("no heading for", wrong)


def page_of_crate(root, crate):
    """What is wrong with the README.md of a crate."""
    path = f"crates/{crate}/README.md"
    if not os.path.exists(f"{root}/{path}"):
        return f"no {path}"
    text = read(f"{root}/{path}")
    sections = re.findall(r"(?m)^## (.*)$", text)
    proved = text.partition("\n## Proved\n")[2].partition("\n## ")[0]
    paths = re.findall(r"`((?:src|specs)/[\w/.]+)`", text)
    absent = [it for it in paths if not os.path.exists(f"{root}/crates/{crate}/{it}")]
    lines, words = len(text.splitlines()), len(proved.split())
    found = {
        "does not begin with its name": not text.startswith(f"# `{crate}`\n"),
        f"has the sections {sections}": [it for it in sections if it != "Calls"] != SECTIONS,
        f"has {lines} lines": lines not in LINES,
        f"has {words} words on what is proved": words > PROVED_WORDS,
        f"names {', '.join(absent)}": absent,
    }
    return listed(path, [it for it, is_wrong in found.items() if is_wrong])


def crates(root):
    """What is wrong with the crates' documents."""
    names = sorted(it.split("/")[-2] for it in glob.glob(f"{root}/crates/*/src"))
    return "; ".join(filter(None, (page_of_crate(root, it) for it in names))) or None


def lengths(root):
    """Documents that are longer than they may be."""
    words = {path: len(text.split()) for path, text in texts(root).items()}
    wrong = [f"{it} has {words[it]} words" for it, most in MOST.items() if words.get(it, 0) > most]
    counted = re.compile(r"docs/(?:\w+/)*\w+\.md|crates/\w+/README\.md")
    whole = sum(count for path, count in words.items() if counted.fullmatch(path))
    lines = len(read(f"{root}/README.md").splitlines())
    wrong += [f"all have {whole} words"] if whole > MOST_OF_ALL else []
    wrong += [f"README.md has {lines} lines"] if lines > MOST_LINES else []
    return "; ".join(wrong) or None


def hashes(root):
    """Hashes of commits that stand in running text."""
    left_out = re.compile(r"(?ms)^```.*?^```$|^(?:    |\s*\|).*?$")
    found = {path: HASH.findall(left_out.sub("", text)) for path, text in texts(root).items()}
    wrong = [f"{path}: {it}" for path, its in found.items() for it in its]
    return listed("hashes outside of tables:", wrong)


def speed(root):
    """What bench/ makes anew of docs/SPEED.md and its charts that is not as it stands."""
    with tempfile.TemporaryDirectory() as folder:
        shutil.copy(f"{root}/docs/SPEED.md", folder)
        for name, option, place in (("tables", "--page", "/SPEED.md"), ("charts", "--out", "")):
            words = ["-B", f"{root}/bench/{name}.py", option, f"{folder}{place}"]
            ran = finished([sys.executable, *words], text=True)
            if ran.returncode:
                return f"bench/{name}.py: {ran.stderr}"
        made = {it: read(f"{folder}/{it}") for it in sorted(os.listdir(folder))}
    other = [it for it, text in made.items() if text != read(f"{root}/docs/{it}")]
    return listed("another run of bench/tables.py and bench/charts.py gives another", other)


def measured(root):
    """The rows of docs/speed.tsv, by case and program."""
    lines = read(f"{root}/docs/speed.tsv").splitlines()
    head, *rows = [it.split("\t") for it in lines if not it.startswith("#")]
    return {(row[0], row[1]): dict(zip(head, row)) for row in rows}


def is_rounded(said, value):
    """Whether a number in a text is this value, rounded to its decimal places."""
    return said == f"{value:.{len(said.partition('.')[2])}f}"


def speed_of_readme(root):
    """What README.md says beside TeX, in the sentence that links docs/SPEED.md: two ratios or more
    of `paragraphs` at tolerance 200, to one decimal place, and its words."""
    ours, tex = (measured(root)["paragraphs_200", it] for it in ("boxglue", "tex"))
    given = [it for it in read(f"{root}/README.md").splitlines() if not it.startswith("|")]
    lines, wrong = [it for it in given if "](docs/SPEED.md)" in it], []
    said = [found for it in lines for found in RATIO.findall(it)]
    for number, what in said:
        ratio = float(ours[COLUMNS[what]]) / float(tex[COLUMNS[what]])
        if len(number.partition(".")[2]) != 1 or not is_rounded(number, ratio):
            wrong.append(f"{number} of {what}")
    words = f"{int(ours['units']):,} words"
    if len({what for _, what in said}) < 2 or not any(words in it for it in lines):
        return f"README.md has no sentence that links docs/SPEED.md, with two ratios to TeX for {words}"
    return f"README.md says {' and '.join(wrong)}, docs/speed.tsv another ratio" if wrong else None


def start_of_readme(root):
    """Whether README.md rounds what `start` takes to whole milliseconds."""
    seconds = float(measured(root)["start", "boxglue"]["seconds"])
    line = f"The program starts in {STARTS[round(1000 * seconds)]} "
    return None if line in read(f"{root}/README.md") else f"README.md does not say {line!r}"


def figures_of_manual(root):
    """What the manual page says of time and memory that is not docs/speed.tsv, rounded."""
    page, rows = read(f"{root}/docs/boxglue.1"), measured(root)
    few, many = (rows[it, "boxglue"] for it in PAGES)
    more = {it: float(many[it]) - float(few[it]) for it in ("seconds", "units")}
    scales = {"units": 1, "seconds": 1, "memory": 1e6}
    wanted = {PAGE_ON_MANUAL: [more["seconds"] / more["units"] * 1e6]}
    for pattern, case in ON_MANUAL:
        wanted[pattern] = [float(rows[case, "boxglue"][it]) / by for it, by in scales.items()]
    wrong = []
    for pattern, values in wanted.items():
        found = re.search(pattern, page)
        said = [it.replace(",", "") for it in found.groups()] if found else []
        if not found or not all(map(is_rounded, said, values)):
            wrong.append(pattern)
    what = "docs/boxglue.1 does not have the figures of docs/speed.tsv in"
    return f"{what} {' and '.join(wrong)}" if wrong else None


def figures(text):
    """The figures of a text."""
    return {f"{number} {UNITS.get(unit, unit)}" for number, unit in FIGURE.findall(text)}


def figures_with_source(root):
    """Figures of a paragraph that links SPEED or GATE, and that this document does not have."""
    wrong = []
    for path, text in texts(root).items():
        folder = f"{root}/{os.path.dirname(path)}"
        for paragraph in re.split(r"\n\s*\n", text):
            sources = [os.path.normpath(f"{folder}/{it}") for it in SOURCE.findall(paragraph)]
            known = {it for file in filter(os.path.exists, sources) for it in figures(read(file))}
            wrong += [f"{path}: {it}" for it in sorted(figures(paragraph) - known) if sources]
    return listed("figures that the linked document does not have:", wrong)


def edits(root):
    """Whether docs/internal/EVIDENCE.md counts the edits as they are, and no crate has too many of
    them in wrong-bodies/."""
    found = {
        folder: glob.glob(f"{root}/crates/*/{folder}/*.edit")
        for folder in ("must-fail", "wrong-bodies")
    }
    crates_of = Counter(it.split("/")[-3] for it in found["wrong-bodies"])
    many = sorted(it for it, count in crates_of.items() if count > MOST_EDITS)
    if many:
        return f"more than {MOST_EDITS} edits are in wrong-bodies/ of {', '.join(many)}"
    counts = [f"{len(its):,}" for its in found.values()]
    line = f"{counts[0]} edits are in `must-fail/`, {counts[1]} in `wrong-bodies/`."
    if line in read(f"{root}/docs/internal/EVIDENCE.md").splitlines():
        return None
    return f"docs/internal/EVIDENCE.md has no line {line!r}"


def fits(root, path):
    """Whether the pairs of an edit apply in turn: each old text stands once in its file."""
    texts_of, file, old, pairs = {}, "", "", 0
    for word, text in re.findall(r"(?m)^(file|old|new): ?(.*)$", read(path)):
        if word == "file":
            file = f"{root}/crates/{path.split('/')[-3]}/{text}"
            texts_of.setdefault(file, read(file))
        elif word == "old":
            old = text
        elif old and texts_of[file].count(old) == 1:
            texts_of[file] = texts_of[file].replace(old, text)
            old, pairs = "", pairs + 1
        else:
            return False
    return pairs > 0 and not old


def misfits(root):
    """Edits that cannot be applied. Only those of must-fail/ are tried in every gate."""
    found = sorted(glob.glob(f"{root}/crates/*/*/*.edit"))
    wrong = [os.path.relpath(it, root) for it in found if not fits(root, it)]
    return listed("edits that do not fit their files:", wrong)


def cases(_programs, root):
    """The cases, by name."""
    checks = {"README.md of each crate": crates, "links": links, "anchors": anchors}
    checks |= {"lengths": lengths, "nothing twice": said_twice, "hashes": hashes, "speed": speed}
    checks |= {
        "speed in README.md": speed_of_readme,
        "start in README.md": start_of_readme,
        "figures of the manual page": figures_of_manual,
    }
    checks |= {"figures with a source": figures_with_source}
    checks |= {"edits": edits, "edits that fit": misfits}
    for name, check in checks.items():
        yield name, partial(check, root)
