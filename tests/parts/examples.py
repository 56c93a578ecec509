"""The scripts of examples/, each with a metric file of plain width for its fonts. The expected
results follow from the script's own text: each command is accepted and answered once, each `ship`
is a page, and the pages that are listed show the characters of its texts and its specials.
README.md there has a line for each script, with a picture of each page. The clients of
examples/session set an article: its pages show its text and their numbers."""
import glob
import os
import re
import shutil
import tempfile
from functools import partial

from common.files import content, read, write
from common.outcome import on_each, require
from common.running import finished
from models.plain_font import metric_file

TITLE = "the scripts of examples/: typeset, list and paint; the clients of session"
NEEDS_PROGRAM = True
# The most bytes of a picture.
PICTURE = 20_000
# Commands that may show a character or a special twice, or not at all.
COPIES = {"copy", "unhcopy", "unvcopy", "lastbox", "void"}


def fields(line):
    """The words of a command; the whole text of a `text` or a `special` is one word."""
    words = line.lstrip().split(" ", 1)
    return words if words[0] in ("text", "special") else line.split()


def commands(script):
    """The commands of a script, by the numbers of their lines."""
    return {
        number: fields(line)
        for number, line in enumerate(script.splitlines(), 1)
        if line and line[0] != "%"
    }


def characters(found):
    """The codes of the characters that a script shows, in order: spaces are glue."""
    codes = []
    for word, *more in found:
        if word == "char":
            codes.append(int(more[0]))
        elif word == "text" and more:
            codes += map(ord, more[0].replace(" ", ""))
    return codes


def specials(found):
    """The texts of the specials of a script, in order; no example has a backslash in one."""
    return ["".join(more) for word, *more in found if word == "special"]


def run(program, room, words, given=""):
    """Runs a program that has to accept all, and returns its output."""
    ran = finished([program, *words], input=given, cwd=room, env={}, text=True)
    require(
        ran.returncode == 0,
        f"{words[0]}: the status is {ran.returncode}; {(ran.stderr or ran.stdout)[-200:]!r}",
    )
    require(not ran.stderr, f"{words[0]}: standard error has {ran.stderr[:200]!r}")
    return ran.stdout


def check_answers(answers, found, size):
    """One answer to each command, in order, none of them a refusal, and the end."""
    *lines, end = answers.splitlines()
    require(
        [it.partition(": ")[0] for it in lines] == [*map(str, found)],
        "the answers are not one a command",
    )
    require(not re.search("refused|missing [1-9]", answers), "something is refused or missing")
    pages = sum(words[0] == "ship" for words in found.values())
    require(
        end == f"end: pages {pages} bytes {size}",
        f"the last answer is {end!r}; there are {pages} ships, and the file has {size} bytes",
    )


def check_listing(listing, found):
    """A page for each `ship`, and the glyphs of the script's characters and its specials, each in
    their order."""
    pages = [int(it) for it in re.findall(r"^page (\d+) ", listing, re.M)]
    ships = sum(words[0] == "ship" for words in found.values())
    require(pages == [*range(1, ships + 1)], f"the pages that are listed are {pages}")
    if not COPIES & {words[0] for words in found.values()}:
        shown = [int(it) for it in re.findall(r"^glyph \d+ (\d+) ", listing, re.M)]
        require(
            shown == characters(found.values()),
            "the glyphs that are listed are not the characters of the script",
        )
        texts = re.findall(r"^special \S+ \S+ (.*)$", listing, re.M)
        require(
            texts == specials(found.values()),
            "the specials that are listed are not those of the script",
        )


def check_bitmap(bitmap, width, height):
    """The form of a plain PBM of this size."""
    require(
        re.fullmatch(rf"P1\n{width} {height}\n([01]{{{width}}}\n){{{height}}}", bitmap),
        "paint gives no bitmap of this size",
    )


def check(program, script):
    """Runs the program on a script: typeset, list and paint. Returns the bytes of the file."""
    found = commands(script)
    fonts = sorted({words[2] for words in found.values() if words[0] == "font"})
    with tempfile.TemporaryDirectory(prefix="boxglue-example-") as room:
        write(f"{room}/plain.tfm", metric_file())
        given = [f"{name}=plain.tfm" for name in fonts]
        answers = run(program, room, ["typeset", "out.dvi", *given], script)
        made = content(f"{room}/out.dvi")
        check_answers(answers, found, len(made))
        check_listing(run(program, room, ["list", "out.dvi", *given]), found)
        size = ["--page", "1", "--dpi", "72", "--width", "40", "--height", "30"]
        check_bitmap(run(program, room, ["paint", *size, "out.dvi", *given]), 40, 30)
    return made


def outcome(programs, path):
    """Runs all programs on an example; their files have to be equal."""
    files = set()
    wrong = on_each(programs, lambda program: files.add(check(program, read(path))))
    return wrong or (None if len(files) == 1 else "the files of the programs differ")


def pictures_of(path):
    """The pictures of a script: one for each page."""
    pages = sum(words[0] == "ship" for words in commands(read(path)).values())
    return [
        f"pictures/{os.path.basename(path).removesuffix('.box')}-{page}.png"
        for page in range(1, pages + 1)
    ]


def check_table(folder, paths):
    """What is wrong with README.md, or with the pictures that it shows."""
    text = read(f"{folder}/README.md")
    rows = re.findall(r"^\| \[(\S+)\]\(\1\) \|", text, re.M)
    shown = re.findall(r"\]\((pictures/\S+)\)", text)
    wanted = [picture for path in paths for picture in pictures_of(path)]
    if sorted(rows) != [*map(os.path.basename, paths)] or sorted(shown) != wanted:
        return f"its scripts or pictures are not those of examples/: {set(map(os.path.basename, paths)) ^ {*rows} or set(wanted) ^ {*shown}}"
    large = [it for it in wanted if not 0 < os.path.getsize(f"{folder}/{it}") < PICTURE]
    return f"{large[0]} is empty, or has {PICTURE} bytes or more" if large else None


def shown_on_pages(listing):
    """The characters of each page that is listed."""
    pages = re.split(r"^page .*\n", listing, flags=re.M)[1:]
    return [[int(it) for it in re.findall(r"^glyph \d+ (\d+) ", page, re.M)] for page in pages]


def client_file(program, folder, client):
    """Runs a client of `session` on its article, and returns the file, whose pages have to show the
    article's text, and each its number at the end."""
    text = read(f"{folder}/article.txt")
    with tempfile.TemporaryDirectory(prefix="boxglue-client-") as room:
        os.symlink(program, f"{room}/boxglue")
        shutil.copy(f"{os.path.dirname(folder)}/plain.tfm", room)
        env = {"PATH": f"{room}:{os.environ['PATH']}", "PYTHONDONTWRITEBYTECODE": "1"}
        ran = finished(
            [f"{folder}/{client}", "out.dvi", "plain.tfm"], input=text, cwd=room, env=env, text=True
        )
        require(
            (ran.returncode, ran.stderr) == (0, ""),
            f"the status is {ran.returncode}; {ran.stderr[-200:]!r}",
        )
        made = content(f"{room}/out.dvi")
        pages = shown_on_pages(run(program, room, ["list", "out.dvi", "cmtt10=plain.tfm"]))
    require(
        len(pages) > 2 and ran.stdout == f"end: pages {len(pages)} bytes {len(made)}\n",
        f"the end is {ran.stdout!r}, and {len(pages)} pages are listed",
    )
    require(
        [it[-1:] for it in pages] == [[ord(str(number))] for number in range(1, len(pages) + 1)],
        "a page does not end in its number",
    )
    require(
        [code for page in pages for code in page[:-1]]
        == [ord(it) for it in text if not it.isspace()],
        "the pages do not show the article",
    )
    return made


def clients(folder, program):
    """Runs the clients in Python and in shell; their files have to be equal."""
    files = [client_file(program, folder, client) for client in ("article.py", "article.sh")]
    require(files[0] == files[1], "the files of the clients differ")


def cases(programs, root):
    """The scripts, by the order of their names, the table of them, and the clients of `session`."""
    paths = sorted(glob.glob(f"{root}/examples/*.box"))
    for path in paths:
        yield os.path.basename(path), partial(outcome, programs, path)
    yield "README.md", partial(check_table, f"{root}/examples", paths)
    yield "session", partial(on_each, programs, partial(clients, f"{root}/examples/session"))
