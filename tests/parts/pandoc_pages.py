"""examples/pandoc without pandoc and without TeX: two documents of pandoc's JSON, with metric files
of plain width. What their pages show follows from their texts: all that is in the first is there,
and each footnote of the second is on the page of its mark, each heading on the page that the
contents give. A document of several jobs has the pages of one. With mypy its types are checked;
with pandoc, TeX and dvipdfmx the manual page of pandoc becomes a PDF file."""
import json
import os
import re
import tempfile
from functools import partial

from common.files import content, read, write
from common.library_build import python_words
from common.outcome import need, require
from common.part import Part
from common.running import finished
from common.texts import last_lines
from models.plain_font import metric_file
from parts.examples import shown_on_pages

TITLE = "examples/pandoc over JSON and plain metrics: footnotes, contents, links, several jobs, all kinds of blocks"
MANUAL_TITLE = "examples/pandoc over pandoc's manual page, with TeX's fonts"
FACES = "cmr cmbx cmti cmbxti cmtt cmitt cmcsc cmsy cmmi".split()
FONTS = [f"{face}{size}" for face in FACES for size in (5, 6, 7, 8, 9, 10, 12, 17)]
# A document whose links have more bytes than a job ships.
LINKS, ADDRESS, MOST_SPECIAL = 100, 8_000, 1_048_576
SUMMARY = re.compile(
    r"^(\d+) pages, \d+ paragraphs, \d+ lines, (\d+) of them overfull, \d+ with a badness above 1000$",
    re.M,
)
# A list has at most 65,536 items, of which a word of four letters and its space are five.
LONG_WORDS = 14_000
# The least pages of pandoc's manual page.
MANUAL = 100


def convert(programs, root, out, document, *words):
    """Sets a document, and returns what is said."""
    program = f"{root}/examples/pandoc/pandoc_pages.py"
    given = [program, out, document, "--family", "cm", *words]
    command, env = python_words(root, programs[0], given)
    ran = finished(command, env=env, text=True)
    said = last_lines(ran.stderr.encode())
    require(ran.returncode == 0, f"the status is {ran.returncode}: {said}")
    require(SUMMARY.search(ran.stderr), f"there is no summary: {said}")
    return ran.stderr


class Room:
    """A folder with plain metric files, and what is made in it."""

    def __init__(self, programs, root, folder):
        self.programs, self.root, self.folder = programs, root, folder
        os.mkdir(f"{folder}/fonts")
        for name in FONTS:
            write(f"{folder}/fonts/{name}.tfm", metric_file())

    def made(self, name, document, *words):
        """Sets a document, and returns the path of its file and what is said."""
        out = f"{self.folder}/{name}.dvi"
        given = ["--fonts", f"{self.folder}/fonts", *words]
        return out, convert(self.programs, self.root, out, document, *given)

    def set(self, name, blocks, meta=None):
        """Sets blocks, and returns what is on the pages."""
        given = {"pandoc-api-version": [1, 22], "meta": meta or {}, "blocks": blocks}
        write(f"{self.folder}/{name}.json", json.dumps(given))
        return self.listing(self.made(name, f"{self.folder}/{name}.json")[0])

    def listing(self, dvi):
        """What `boxglue list` says of a file."""
        fonts = [f"{it}={self.folder}/fonts/{it}.tfm" for it in FONTS]
        ran = finished([self.programs[1], "list", dvi, *fonts], text=True)
        require(ran.returncode == 0, f"boxglue list says {ran.stdout[-200:]!r}")
        return ran.stdout


def pages_of(listing):
    """What each page shows: a text without spaces, by the codes of its glyphs."""
    return ["".join(map(chr, it)) for it in shown_on_pages(listing)]


def numbers(listing):
    """The first count of each page."""
    return [int(it) for it in re.findall(r"^page \d+ counts (-?\d+) ", listing, re.M)]


def document(root, name):
    """The path of a document."""
    return f"{root}/tests/cases/pandoc/{name}.json"


def texts_in(element):
    """All texts of a document, in order."""
    if isinstance(element, dict):
        if element.get("t") == "Str":
            yield element["c"]
        elif element.get("t") in ("Code", "CodeBlock"):
            yield element["c"][1]
        elif element.get("t") not in ("Image", "RawInline", "RawBlock"):
            for it in element.values():
                yield from texts_in(it)
    elif isinstance(element, list):
        for it in element:
            yield from texts_in(it)


def kinds(room):
    """All words of all kinds of blocks and inlines are there, and what is not set is said."""
    dvi, said = room.made("kinds", document(room.root, "kinds"))
    shown = "".join(pages_of(room.listing(dvi)))
    blocks = json.loads(read(document(room.root, "kinds")))["blocks"]
    words = {word for text in texts_in(blocks) for word in re.findall(r"[A-Za-z]+", text)}
    lost = [it for it in sorted(words) if it not in shown]
    require(not lost, f"no page shows {', '.join(lost[:5])}")
    unset = "#nowhere missing.png figure.jpg RawInline RawBlock mathematics".split()
    left = [it for it in unset if it not in said]
    require(not left, f"nothing is said of {', '.join(left)}")


def footnotes(shown, blocks):
    """Each footnote is on the page of its mark, and below it. Returns how many there are."""
    count = len(re.findall(r"\banchor\d+\b", " ".join(texts_in(blocks))))
    for number in range(1, count + 1):
        mark, foot = rf"anchor{number}{number}(?!\d)", rf"{number}Note{number}(?!\d)"
        marks, feet = (
            [at for at, page in enumerate(shown) if re.search(it, page)] for it in (mark, foot)
        )
        its = f"the mark of footnote {number} is on the pages {marks}, the footnote on {feet}"
        require(marks == feet and len(marks) == 1, its)
        page = shown[marks[0]]
        is_below = re.search(mark, page).end() <= re.search(foot, page).start()
        require(is_below, f"footnote {number} is above its mark")
        require(f"end{number}." in page, f"footnote {number} goes on elsewhere")
    return count


def contents(shown, counts, titles):
    """Each heading is on the page that the contents give, and does not end it."""
    listed = re.sub(r"\.{3,}", " ", "".join(page for page, it in zip(shown, counts) if it < 0))
    for title in titles:
        found = re.search(rf"{re.escape(title)} (\d+)", listed)
        is_there = found and title in shown[counts.index(int(found[1]))]
        require(is_there, f"the contents give {title} {found and found[1]}")
        after = shown[counts.index(int(found[1]))].rpartition(title)[2]
        require(after and not re.match(r"\d+Note", after), f"{title} ends its page")


def notes(room):
    """Each footnote is on the page of its mark, and below it; each heading is on the page that the
    contents give, in which a link leads to it."""
    dvi, said = room.made("notes", document(room.root, "notes"))
    require(SUMMARY.search(said)[2] == "0", "lines are overfull")
    listing = room.listing(dvi)
    shown, counts = pages_of(listing), numbers(listing)
    blocks = json.loads(read(document(room.root, "notes")))["blocks"]
    count = footnotes(shown, blocks)
    require(count > 20 and max(counts) > 5, "the document is too short")
    headings = [it["c"] for it in blocks if it["t"] == "Header"]
    titles = ["".join(texts_in(it[2])).replace(" ", "") for it in headings]
    contents(shown, counts, titles)
    places = {*re.findall(r"pdf:dest \((p\d+)\)", listing)}
    links = {*re.findall(r"/D\((p\d+)\)", listing)}
    is_led = len(places) == len(titles) and links == places
    require(is_led, f"links lead to {sorted(links ^ places)}")
    levels = re.findall(r"pdf:outline (\d)", listing)
    is_marked = levels == [str(it[0]) for it in headings]
    require(is_marked, f"the bookmarks have the levels {levels}")


def small(room):
    """A document without headings begins with its title, and an empty one has a page."""
    for text in ("text", ""):
        blocks = [{"t": "Para", "c": [{"t": "Str", "c": text}]}] if text else []
        title = {"title": {"t": "MetaString", "c": "Title"}}
        shown = pages_of(room.set(text or "empty", blocks, title))
        is_shown = len(shown) == 1 and shown[0].endswith("Title" + text)
        require(is_shown, f"the pages show {shown}")


def long_paragraph(room):
    """A paragraph whose list has more items than one may have shows all its words."""
    words = [{"t": "Str", "c": "word"}, {"t": "Space"}] * LONG_WORDS
    shown = "".join(pages_of(room.set("long", [{"t": "Para", "c": words}])))
    require(shown.count("word") == LONG_WORDS, f"the pages show {shown.count('word')} words")


def again(room):
    """The same bytes twice."""
    files = [room.made(f"again{it}", document(room.root, "notes"))[0] for it in range(2)]
    require(content(files[0]) == content(files[1]), "two runs make other bytes")


def several_jobs(room):
    """A document of several jobs has the pages of one, however many pages a job takes."""
    whole = room.listing(room.made("one", document(room.root, "notes"))[0])
    for most in (1, 3):
        words = ["--job-pages", str(most)]
        parts = room.listing(room.made(f"jobs{most}", document(room.root, "notes"), *words)[0])
        require(parts == whole, f"with {most} pages a job the pages are others")


def many_specials(room):
    """A document with more bytes of specials than a job ships has all its links, in order."""
    addresses = [f"https://example.org/{it}/{'a' * ADDRESS}" for it in range(LINKS)]
    require(2 * LINKS * ADDRESS > MOST_SPECIAL, "the links are too few")
    blocks = []
    for at, it in enumerate(addresses):
        link = [["", [], []], [{"t": "Str", "c": f"link{at}"}], [it, ""]]
        blocks += [{"t": "Para", "c": [{"t": "Link", "c": link}]}] * 2
    listing = room.set("links", blocks)
    wanted = [it for it in addresses for _ in range(2)]
    require(re.findall(r"/URI\((.*?)\)", listing) == wanted, "the links are others")
    shown = [text for page in pages_of(listing) for text in re.findall(r"link\d+", page)]
    require(shown == [f"link{at}" for at in range(LINKS) for _ in range(2)], "the texts are others")


def types(_programs, root):
    """The types of the example, with mypy."""
    need("mypy")
    with tempfile.TemporaryDirectory(prefix="boxglue-mypy-") as folder:
        words = ["mypy", "--strict", "--cache-dir", folder, "pandoc_pages.py"]
        env = {**os.environ, "MYPYPATH": f"{root}/bindings/python"}
        ran = finished(words, cwd=f"{root}/examples/pandoc", env=env)
    return None if ran.returncode == 0 else last_lines(ran.stdout)


def manual(programs, root):
    """Pandoc's own manual page, with TeX's fonts: a PDF file of more than a hundred pages, and no
    warning of dvipdfmx."""
    need("pandoc", "man", "tftopl", "dvipdfmx")
    with tempfile.TemporaryDirectory(prefix="boxglue-pandoc-") as folder:
        page = finished(["man", "-w", "pandoc"], text=True).stdout.strip()
        if not page:
            return "there is no manual page of pandoc"
        text = finished(["zcat", "-f", page], check=True).stdout
        words = ["pandoc", "-f", "man", "-t", "json", "-o", f"{folder}/it.json"]
        finished(words, input=text, check=True)
        said = convert(programs, root, f"{folder}/it.dvi", f"{folder}/it.json")
        made = finished(["dvipdfmx", "-q", "-o", f"{folder}/it.pdf", f"{folder}/it.dvi"])
        count = int(SUMMARY.search(said)[1])
        if made.returncode or made.stderr.strip():
            return f"dvipdfmx says {last_lines(made.stderr)}"
        if count > MANUAL and SUMMARY.search(said)[2] == "0":
            return None
        return f"{count} pages: {SUMMARY.search(said)[0]}"


def checked(check, programs, root):
    """Runs a check in a folder of its own."""
    with tempfile.TemporaryDirectory(prefix="boxglue-pandoc-") as folder:
        check(Room(programs, root, folder))


def cases_of(*checks):
    """The cases of a part."""

    def cases(programs, root):
        for check in checks:
            is_alone = check in (types, manual)
            yield check.__name__, partial(
                *[check] if is_alone else [checked, check], programs, root
            )

    return cases


def parts(_root):
    """The two parts."""
    pages = kinds, notes, small, long_paragraph, again, several_jobs, many_specials, types
    yield Part("pandoc_pages", TITLE, cases_of(*pages), "library", True)
    yield Part("pandoc_manual", MANUAL_TITLE, cases_of(manual), "library", True)
