"""The commands of docs/AUTHORS.md, run in their order in a copy of examples/, with a metric file of
plain width for cmr10: none is refused anything. What the pages of its program in Python and of
examples/layout show follows from the texts that they were given. The script, the answers, the
listing, the bytes and the edit of docs/TOUR.md are those that there are. The two times of README.md
are those of docs/internal/GATE.md, rounded."""
import glob
import os
import re
import shutil
import sys
import tempfile
import textwrap
from functools import partial

from common.files import content, read, write
from common.library_build import python_words
from common.outcome import equal, on_each, require
from common.running import finished
from models.plain_font import metric_file
from parts.examples import run, shown_on_pages

TITLE = "docs/AUTHORS.md: its commands, its calls and the pages of examples/layout; the client of examples/session; docs/TOUR.md; the times of README.md"
PROGRAM = "library"
NEEDS_PROGRAM = True
# Long enough for a machine with much other work: it only ends what stands still.
LIMIT = 900
# What comes before and after the calls of the document: they are made so often that pages are cut
# off the galley.
TIMES = 200
# The distance of baselines of a new job, 12pt.
BASELINESKIP = 12 * 65536
CALLS = """
import boxglue
from boxglue import pt
with boxglue.Job({"cmr10": open("cmr10.tfm", "rb").read()}) as job, open("out/calls.dvi", "wb") as out:
    job.use(job.load("cmr10"))
    for _ in range(%d):
        exec(%r)
    while job.vsplit(0, to=pt(500), into=1).rest:
        job.ship(1)
    job.ship(1)
    job.finish().check()
    out.write(job.take())
"""
# The rows of GATE with the seconds of the first command, and with the minutes of the proofs.
MEASURED = (
    r"(?m)^\| README's first command \| four cores of [^|]* \| (\d+) s by the clock \|",
    r"(?m)^\| `bench/gate_times.py ./install --library` \| four cores of [^|]* \| (\d+) minutes,",
)
SMALL = {2: "two", 3: "three", 4: "four", 5: "five"}


def blocks(root, name="AUTHORS"):
    """The indented blocks of a document, without those in fences."""
    text = re.sub(r"^```.*?^```$", "", read(f"{root}/docs/{name}.md"), flags=re.M | re.S)
    return [textwrap.dedent(it) for it in re.findall(r"(?:^    .*\n)+", text, re.M)]


class Room:
    """A folder with the examples, a metric file for cmr10, and the program on the path; and the
    library for Python, where an archive is given."""

    def __init__(self, root, program, folder, archive=None):
        self.program, self.folder, self.root = program, folder, root
        _, self.env = python_words(root, archive, []) if archive else (None, os.environ)
        shutil.copytree(f"{root}/examples", f"{folder}/examples")
        os.mkdir(f"{folder}/bin")
        os.symlink(program, f"{folder}/bin/boxglue")
        write(f"{folder}/cmr10.tfm", metric_file())

    def shell(self, text):
        """Runs commands of the shell."""
        env = {**self.env, "PATH": f"{self.folder}/bin:{os.environ['PATH']}", "cmr10": "cmr10.tfm"}
        return self.run(["bash", "-euo", "pipefail", "-c", text], env, repr(text))

    def run(self, words, env, what):
        """Runs a command that has to succeed in silence, and returns what it prints."""
        ran = finished(words, cwd=self.folder, env=env, text=True, timeout=LIMIT)
        why = f"{what}: the status is {ran.returncode}; {(ran.stderr or ran.stdout)[-200:]!r}"
        require((ran.returncode, ran.stderr) == (0, ""), why)
        return ran.stdout

    def text(self, name):
        """The text of a file."""
        return read(f"{self.folder}/{name}")

    def pages(self, name):
        """What each page of a DVI file shows, as text without spaces."""
        return ["".join(map(chr, it)) for it in shown_on_pages(self.listing(name))]

    def listing(self, name):
        """The listing of a DVI file."""
        return run(self.program, self.folder, ["list", f"out/{name}.dvi", "cmr10=cmr10.tfm"])


def solid(text):
    """A text without spaces."""
    return re.sub(r"\s", "", text)


def steps_between_baselines(listing):
    """The distances of the lines on each page of a listing, each once."""
    pages, steps = listing.split("page ")[1:], set()
    for page in pages:
        lines = sorted({int(it) for it in re.findall(r"^glyph \d+ \d+ \S+ (\S+)$", page, re.M)})
        steps |= {lower - upper for upper, lower in zip(lines, lines[1:])}
    return steps


def check_calls(room):
    """The calls of the document, and splits until there is no rest: all are accepted, each
    paragraph is on a page, and the baselines of a page are 12pt apart."""
    text = read(f"{room.root}/docs/AUTHORS.md")
    (calls,) = re.findall(r"^```python\n(.*?)^```$", text, re.M | re.S)
    os.makedirs(f"{room.folder}/out", exist_ok=True)
    what = "the calls of the document"
    room.run([sys.executable, "-c", CALLS % (TIMES, calls)], room.env, what)
    pages = room.pages("calls")
    is_whole = len(pages) > 1 and "".join(pages) == "Anewparagraph." * TIMES
    require(is_whole, f"{what} make the pages {pages}")
    steps = steps_between_baselines(room.listing("calls"))
    require(steps == {BASELINESKIP}, f"the baselines of the document's calls are {steps} apart")


def check_shapes(room):
    """Each letter of the text in each shape, and of the headings."""
    source = room.text("examples/layout/shapes.py")
    (text,) = re.findall(r'^TEXT = """(.*?)"""', source, re.M | re.S)
    shapes = ["ragged", "centred", "hanging", "quoted", "besideapicture", "besideapicture"]
    wanted = "".join([*shapes, *[solid(text)] * len(shapes)])
    is_shown = sorted("".join(room.pages("shapes"))) == sorted(wanted)
    require(is_shown, "the page of shapes.py does not show its texts")


def check_contents(room):
    """The pages of the titles that are marked."""
    titles = "1 Of boxes\n2 Of glue\n2 Of pages\n"
    equal("out/contents.txt", room.text("out/contents.txt"), titles)


def check_book(room):
    """The contents have the pages where the chapters begin, a reference has its page, and each
    footnote is on the page of its mark, below it."""
    text, (contents, *pages) = room.text("examples/layout/book.txt"), room.pages("book")
    titles, notes = re.findall(r"^# (.*)$", text, re.M), re.findall(r"\^\[(.*?)\]", text)
    # The title stands in the head of the page, before the page's number, and once more below it.
    first = {}
    for title in map(solid, titles):
        begins = [it.startswith(f"{title}{at}{title}") for at, it in enumerate(pages, 2)]
        first[title] = 2 + begins.index(True)
    wanted = "Contents1" + "".join(f"{title}{number}" for title, number in first.items())
    equal("the contents", contents, wanted)
    for number, note in enumerate(notes, 1):
        where = [page for page in pages if f"({number}){solid(note)}" in page]
        is_there = len(where) == 1 and where[0].count(f"({number})") == 2
        require(is_there, f"footnote {number} is not on the page of its mark")
    given = re.sub(r"\^\[.*?\]", "", text.replace("# ", ""))
    given = re.sub(r"@\[(.*?)\]", lambda it: str(first[solid(it[1])]), given)
    shown = "".join(pages)
    for number, note in enumerate(notes, 1):
        shown = shown.replace(f"({number}){solid(note)}", "").replace(f"({number})", "")
    for number, page in enumerate(pages, 2):
        head = re.match(rf"({'|'.join(map(solid, titles))}){number}", page)
        require(head, f"page {number} has no head")
        shown = shown.replace(head[0], "", 1)
    require(shown == solid(given), "the pages do not show the text of the book")


def check_hyphens(room):
    """Each paragraph, and the same with more hyphens."""
    page, given = "".join(room.pages("hyphens")), solid(room.text("examples/layout/hyphens.txt"))
    hyphens = page.count("-") - 2 * given.count("-")
    is_shown = page.replace("-", "") == 2 * given.replace("-", "") and hyphens > 0
    why = f"the page of hyphens.py does not show its text twice, with {hyphens} more hyphens"
    require(is_shown, why)


def check_columns(room):
    """All cells and all words are there, and the columns are even."""
    (page,) = room.pages("columns")
    marks = re.findall(r"^glyph \d+ \d+ (\S+) (\S+)$", room.listing("columns"), re.M)
    places = [tuple(map(int, it)) for it in marks]
    edge = max(h for h, _ in places) // 2
    text = places[page.index("Columnsarebalanced") :]
    lines = [len({v for h, v in text if (h < edge) == left}) for left in (True, False)]
    require(lines[0] - lines[1] in (0, 1) and lines[1] > 1, f"the columns have {lines} lines")
    require(page.endswith("allthathastobeknown."), "the end of the text is not on the page")


CHECKS = {
    "out/shapes": check_shapes,
    "out/hyphens": check_hyphens,
    "out/book": check_book,
    "out/contents": check_contents,
    "out/columns": check_columns,
}


def check_bytes(drawing, dvi):
    """The bytes of a drawing, a line each, stand in the file in this order: two dots leave some
    out, and what follows two spaces tells what they are."""
    place = 0
    for line in drawing.splitlines():
        for part in line.split("  ")[0].split(" .. "):
            found = dvi.find(bytes.fromhex(part), place)
            is_there = found >= 0 and (found == place or " .. " in line)
            require(is_there, f"the file has no {part!r} at {place}")
            place = found + len(bytes.fromhex(part))
    require(place == len(dvi), f"the drawing ends at {place} of {len(dvi)} bytes")


def tour(room):
    """What docs/TOUR.md shows is so."""
    script, typeset, answers, _, listing, drawing, edit, tried = blocks(room.root, "TOUR")
    shown = re.search(r"^prints `(.*)` and `(.*)`\.$", read(f"{room.root}/docs/TOUR.md"), re.M)
    os.mkdir(f"{room.folder}/out")
    equal("the script", script, read(f"{room.root}/examples/one_rule_page.box"))
    equal("the answers", room.shell(typeset), answers)
    equal("the listing", room.shell(listing), "".join(f"{it}\n" for it in shown.groups()))
    check_bytes(drawing, content(f"{room.folder}/out/rule.dvi"))
    path = tried.split()[1].replace("/", "/must-fail/")
    equal("the edit", edit, read(f"{room.root}/crates/{path}.edit"))


def document(room):
    """Runs the document."""
    left = dict(CHECKS)
    check_calls(room)
    for text in blocks(room.root):
        if not text.startswith("cmr10="):
            room.shell(text)
        for name in [it for it in left if glob.glob(f"{room.folder}/{it}.[dt][vx][it]")]:
            left.pop(name)(room)
    require(not left, f"nothing made {', '.join(left)}")


# A client over asking.py: more commands than a pipe holds answers to, then a bad line.
CLIENT = """
import sys
sys.path.insert(0, "examples/session")
from asking import Session
session = Session("out/asking.dvi", [])
print(len(session.ask("hbox into 0", *["kern 0pt"] * 39999)), flush=True)
session.ask("end", "kern 1")
"""


def asking(room):
    """asking.py gives any number of commands, and ends at a bad line."""
    os.mkdir(f"{room.folder}/out")
    words, env = [sys.executable, "-c", CLIENT], {"PATH": f"{room.folder}/bin"}
    ran = finished(words, cwd=room.folder, env=env, text=True, timeout=LIMIT)
    wanted = 1, "40000\n", "kern 1: refused 2 BadScript 40002 Dimension\n"
    equal("a client", (ran.returncode, ran.stdout, ran.stderr), wanted)


def times(root):
    """README.md rounds to whole minutes how long its first command takes, and to whole hours how
    long the proofs do."""
    gate, readme = read(f"{root}/docs/internal/GATE.md"), read(f"{root}/README.md")
    minutes, hours = (round(int(re.search(it, gate)[1]) / 60) for it in MEASURED)
    said = (
        f"in {SMALL[minutes]} minutes on four cores",
        f"in {'an hour' if hours == 1 else f'{SMALL[hours]} hours'} on four cores",
    )
    lost = [it for it in said if it not in readme]
    return f"README.md does not say {' and '.join(lost)}" if lost else None


def in_rooms(call, root, archive, programs):
    """Does a call in a room of each program."""

    def of_program(program):
        with tempfile.TemporaryDirectory(prefix="boxglue-authors-") as folder:
            call(Room(root, program, folder, archive))

    return on_each(programs, of_program)


def outcome(call, has_library, root, archive=None, *programs):
    """Runs a case over the programs, and over the library if it needs that."""
    return in_rooms(call, root, archive if has_library else None, programs)


def cases(programs, root):
    """Each document as a whole."""
    yield "README.md", partial(times, root)
    yield "AUTHORS.md", partial(outcome, document, True, root, *programs)
    yield "TOUR.md", partial(outcome, tour, False, root, *programs)
    yield "asking.py", partial(outcome, asking, False, root, *programs)
