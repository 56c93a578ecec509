"""The commands of docs/QUICKSTART.md, run in their order in a fresh folder with a copy of examples/
and a fresh HOME: each succeeds and prints what the document shows, and the page has the text of the
script in the DVI file, the SVG and the table of marks, and its width in the picture.

Only the builds are replaced: `./install --unproved` is run as `install --program PATH`, and
`./install --library --unproved` as `install --library ARCHIVE --program PATH`, over the archive and
the first program that this part is given.
If that program is proved, `boxglue --version` must print a proved program's line; the document
shows the line of an unproved program."""
import functools
import importlib.util
import os
import re
import shlex
import shutil
import struct
import sys
import textwrap
import xml.etree.ElementTree as ElementTree
from dataclasses import dataclass, field
from functools import partial

from common.files import content, read, write
from common.library_build import python_words
from common.outcome import lacks, require, without
from common.running import finished
from common.shared import own_folder
from common.texts import last_lines
from parts.examples import characters, commands, run, shown_on_pages
from tools.unproved import SAYS

TITLE = "docs/QUICKSTART.md: its commands in a fresh folder and a fresh HOME, what they print, and the page; its times; the calls and the first commands of README.md"
PROGRAM = "library"
NEEDS_PROGRAM = True
# A fenced block after a line that says where to save it; a fenced output; and indented commands.
BLOCK = re.compile(
    r"(?m)^Save .* as `(?P<path>\S+)`:\n\n```\w+\n(?P<content>(?:.*\n)*?)```$|^```text\n(?P<output>(?:.*\n)*?)```$|(?P<commands>(?:^    .*\n)+)"
)
BUILD = re.compile(r"(?m)^\./install.*?(?= &&|$)")
BUILDS = {
    "./install --unproved": "{root}/install --program {program}",
    "./install --library --unproved": "{root}/install --library {archive} --program {program}",
}
SCRIPT, DVI, FONT = "out/hello.box", "out/hello.dvi", "cmtt10=examples/plain.tfm"
DRIVERS, VENV = ("dvipng", "dvipdfmx"), "out/venv"
# How the line of a proved program goes on.
PROVED = "(rattle logic "
# The resolution at which the document makes a picture, and the points of an inch.
DPI, INCH = 110, 72.27
# The times of docs/internal/GATE.md, and how the document says them.
INSTALL = r"(?m)^\| `bench/gate_times.py ./install --library` \|"
TIMES = {
    r"(?m)^\| README's first command \| four cores of [^|]* \| (\d+) s by the clock \|": "took {} seconds",
    rf"{INSTALL} four cores of [^|]* \| (\d+) minutes,": "took {} minutes on four cores",
    rf"{INSTALL} four quiet cores of a faster machine \| (\d+) minutes,": "and {} minutes on a faster machine",
}


@dataclass
class Step:
    """Commands, the files to save before them, and what they print, if the document shows it."""

    commands: str
    files: dict
    output: list = field(default_factory=list)


def document(root, name="docs/QUICKSTART.md"):
    """The text of the document, or of another one."""
    return read(f"{root}/{name}")


def steps(text):
    """The steps of the document."""
    found, files = [], {}
    for block in BLOCK.finditer(text):
        if block["path"]:
            files[block["path"]] = block["content"]
        elif block["commands"]:
            found.append(Step(textwrap.dedent(block["commands"]), files))
            files = {}
        else:
            found[-1].output.append(block["output"])
    return found


def pattern(output):
    """The pattern of an output: a line of two dots stands for any lines, and two dots inside of a
    line for any text."""
    return "".join(
        r"(?:.*\n)*" if line == ".." else ".*".join(map(re.escape, line.split(".."))) + r"\n"
        for line in output.splitlines()
    )


@dataclass(frozen=True)
class Room:
    """A fresh folder and a fresh HOME, and what is installed in place of a build."""

    root: str
    path: str
    archive: str
    program: str

    def shell(self, text):
        """Runs commands of the shell, and returns what they print."""
        for build in BUILD.findall(text):
            require(build in BUILDS, f"nothing replaces {build!r}")
            names = ("root", "archive", "program")
            paths = {name: shlex.quote(getattr(self, name)) for name in names}
            text = text.replace(build, BUILDS[build].format(**paths))
        # The Python that runs this is on the path, and not what chooses one by files in HOME.
        path = f"{os.path.dirname(sys.executable)}:{os.environ['PATH']}"
        env = {"PATH": path, "HOME": f"{self.path}/home"}
        ran = finished(["bash", "-euo", "pipefail", "-c", text], cwd=self.path, env=env)
        why = last_lines(ran.stderr or ran.stdout)
        require(ran.returncode == 0, f"the status is {ran.returncode}: {why}")
        return ran.stdout.decode()

    def save(self, files):
        """Saves files as the document asks for."""
        for path, text in files.items():
            write(f"{self.path}/{path}", text)

    def content(self, path):
        """The bytes of a file."""
        return content(f"{self.path}/{path}")

    def script(self):
        """The commands of the script of the document."""
        return commands(self.content(SCRIPT).decode())


@functools.lru_cache(None)
def room(root, archive, program):
    """The room of a program."""
    path = f"{own_folder()}/quickstart"
    left_out = shutil.ignore_patterns("__pycache__", "target")
    shutil.copytree(f"{root}/examples", f"{path}/examples", ignore=left_out)
    os.mkdir(f"{path}/home")
    return Room(root, path, archive, program)


def check_page(it):
    """The page has the letters of the script, in order."""
    listing = run(it.program, it.path, ["list", DVI, FONT])
    is_shown = shown_on_pages(listing) == [characters(it.script().values())]
    require(is_shown, "the page does not show the text of the script")


def picture_size(data):
    """The columns and rows of a PNG."""
    require(data.startswith(b"\x89PNG\r\n\x1a\n"), "a picture is not a PNG")
    return struct.unpack(">2I", data[16:24])


def check_picture(it):
    """The picture is as wide as the script's lines, and the one in the document is as large;
    drivers may differ by a pixel."""
    columns, rows = picture_size(it.content("out/hello.png"))
    shown_columns, shown_rows = picture_size(content(f"{it.root}/docs/quickstart.png"))
    lines = [words for words in it.script().values() if words[:2] == ["set", "hsize"]]
    (width,) = (int(words[2].removesuffix("pt")) for words in lines)
    require(abs(columns - width / INCH * DPI) < 4, f"the picture has {columns} columns")
    is_near = abs(columns - shown_columns) < 2 and abs(rows - shown_rows) < 2
    require(is_near, f"docs/quickstart.png is not {columns} by {rows} pixels")


def check_pdf(it):
    """The file is a whole PDF."""
    made = it.content("out/hello.pdf")
    is_whole = made.startswith(b"%PDF-") and made.rstrip().endswith(b"%%EOF")
    require(is_whole, "out/hello.pdf is not a PDF")


def check_marks(it):
    """The line about the marks of the document counts the letters of the script."""
    line = f"\n{len(characters(it.script().values()))} marks, "
    require(line in document(it.root), "the document shows another number of marks")


def check_svg(it):
    """The SVG has the letters of the script, in order."""
    tree = ElementTree.fromstring(it.content("out/hello-1.svg"))
    letters = [ord(one.text) for one in tree.iter("{http://www.w3.org/2000/svg}text")]
    is_shown = letters == characters(it.script().values())
    require(is_shown, "the SVG does not show the text of the script")


# What is checked after the commands with these words.
CHECKS = {
    f"boxglue typeset {DVI}": check_page,
    "dvipng ": check_picture,
    "dvipdfmx ": check_pdf,
    "out/hello.py": check_marks,
    "svg_pages.py": check_svg,
}


def lacks_tool(text):
    """The result of a step whose tool is not here, otherwise None."""
    for tool in DRIVERS:
        if re.search(rf"^{tool} ", text, re.M) and lacks(tool):
            return lacks(tool)
    # The module venv puts pip into a virtual environment by this one.
    return without("pip") if VENV in text and not importlib.util.find_spec("ensurepip") else None


def wanted_of(output, program):
    """The pattern of what a step has to print: a proved program has another version line than the
    document shows."""
    is_unproved = SAYS.encode() in content(program)
    return pattern(output if is_unproved else output.replace(SAYS, f"{PROVED}..)"))


def outcome(root, step, exports, archive=None, program=None, *_programs):
    """Runs a step after the lines that set variables before it. Returns what is wrong, or None."""
    missing = lacks_tool(step.commands)
    if missing:
        return missing
    it = room(root, archive, program)
    it.save(step.files)
    printed = it.shell(f"{exports}{step.commands}")
    for output in step.output:
        is_said = re.fullmatch(wanted_of(output, program), printed)
        require(is_said, f"it prints {printed[-300:]!r} and not {output!r}")
    for words, check in CHECKS.items():
        if words in step.commands:
            check(it)
    return None


def form(root):
    """Whether each fenced block is read, each build is replaced, and each check has its one
    step."""
    text = document(root)
    found = steps(text)
    fences = sum(len(it.files) + len(it.output) for it in found)
    builds = [build for it in found for build in BUILD.findall(it.commands)]
    checked = {words: sum(words in it.commands for it in found) for words in CHECKS}
    marks = text.count("```")
    wrong = {
        f"{marks} fences, of which {2 * fences} are read": marks != 2 * fences,
        f"the builds {builds}": builds != [*BUILDS],
        f"steps with the words {checked}": {*checked.values()} != {1},
        "two outputs after one step": any(len(it.output) > 1 for it in found),
    }
    return "; ".join(it for it, is_wrong in wrong.items() if is_wrong) or None


def times(root):
    """Whether the document has the times of docs/internal/GATE.md."""
    gate = read(f"{root}/docs/internal/GATE.md")
    said = [how.format(re.search(measured, gate)[1]) for measured, how in TIMES.items()]
    lost = [it for it in said if it not in document(root)]
    return f"docs/QUICKSTART.md does not say {' and '.join(lost)}" if lost else None


def first_page(root, archive=None, program=None, *_programs):
    """Whether README.md shows what its calls print, and begins with this document's line that
    builds and sets a page."""
    fence = re.compile(r"(?ms)^```python\n(.*?)^```$")
    readme = document(root, "README.md")
    calls = fence.search(readme)[1]
    found = re.findall(r"(?:^    +.*\n)+", fence.sub("", readme), re.M)
    answers, builds, *_ = map(textwrap.dedent, found)
    words, env = python_words(root, archive, ["-c", calls])
    printed = finished(words, cwd=root, env=env, text=True).stdout
    wrong = {
        f"its calls print {printed!r}": printed != answers,
        f"its first commands are {builds!r}": builds != steps(document(root))[0].commands,
    }
    return "; ".join(it for it, is_wrong in wrong.items() if is_wrong) or None


def cases(programs, root):
    """The form of the document, its times, its steps, and README.md's calls and first commands."""
    yield "form", partial(form, root)
    yield "times", partial(times, root)
    yield "README.md", partial(first_page, root, *programs)
    exports = ""
    for number, step in enumerate(steps(document(root)), 1):
        name = f"step {number}: {' '.join(step.commands.split()[:3])}"
        yield name, partial(outcome, root, step, exports, *programs)
        exports += "".join(re.findall(r"^export .*\n", step.commands, re.M))
