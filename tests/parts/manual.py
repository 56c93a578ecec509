"""The manual pages: the lines of docs/boxglue.1 for many scripts at once run 200 of them;
docs/boxglue.3 is what tools/library_page.py makes of the header, and has each of its calls; both
fit into 80 columns, and groff warns of nothing. refusals.py compares the table of refusals. doxygen
makes pages of the headers without a warning."""
import os
import re
import sys
import tempfile
from functools import partial

from common.files import content, read, write
from common.outcome import need
from common.running import finished
from models.dvi_writer import Page, down, dvi_file, set_rule
from models.plain_font import metric_file
from tools.exports import calls

TITLE = "the manual pages: the calls of the library, columns, and the lines for many scripts at once; the headers' pages by doxygen"
NEEDS_PROGRAM = True
SCRIPTS, PT = 200, 65536
# The widths of terminals at which groff warns of nothing; the page has to fit into the last one.
WIDTHS = 120, 90, 80


def plain(text):
    """A text of the manual page without its escapes."""
    for written, shown in (("\\-", "-"), ("\\e", "\\"), ("\\&", "")):
        text = text.replace(written, shown)
    return text


def blocks(page, before):
    """The unfilled texts of the page that come after a line with these words, each as its lines."""
    return plain(re.search(rf"{before}.*?\.nf\n(.*?)\.fi", page, re.S)[1])


def make_room(room, program):
    """A folder with the program, a metric file, and scripts of one rule each, each wider than the
    one before."""
    os.mkdir(f"{room}/bin")
    os.symlink(program, f"{room}/bin/boxglue")
    write(f"{room}/cmr10.tfm", metric_file())
    for number in range(SCRIPTS):
        write(f"{room}/{number}.box", f"hbox into 0\nrule {number + 1}pt 1pt 0pt\nend\nship 0\n")


def wrong_file(room):
    """What is wrong with the files that were made, or None."""
    for number in range(SCRIPTS):
        width = (number + 1) * PT
        file = dvi_file([Page([down(PT), set_rule(PT, width)])], PT, width)
        if content(f"{room}/{number}.dvi") != file.data:
            return f"the file of script {number} is wrong"
        answers = f"1: ok\n2: ok\n3: packed {number + 1}.0pt 1.0pt 0.0pt badness 0\n4: shipped 1\nend: pages 1 bytes {len(file.data)}\n"
        if read(f"{room}/{number}.txt") != answers:
            return f"the answers to script {number} are wrong"
    return None


def many(programs, root, tool, before):
    """The lines of the page with xargs, or with make and a Makefile, run all scripts. Then they run
    some, one of which is refused."""
    need(tool)
    page = read(f"{root}/docs/boxglue.1")
    line = blocks(page, before).removeprefix("$ ")
    for program in programs:
        with tempfile.TemporaryDirectory(prefix="boxglue-many-") as room:
            make_room(room, program)
            if tool == "make":
                write(f"{room}/Makefile", blocks(page, "a Makefile of four lines"))
            env = {"PATH": f"{room}/bin:{os.environ['PATH']}"}
            run = partial(finished, ["sh", "-c", line], cwd=room, env=env, text=True)
            ran = run()
            why = (
                f"the status is {ran.returncode}: {ran.stderr[-200:]!r}"
                if ran.returncode
                else wrong_file(room)
            )
            if why:
                return f"{os.path.basename(program)}: {why}"
            for number in range(20, SCRIPTS):
                os.remove(f"{room}/{number}.box")
            with open(f"{room}/7.box", "a", encoding="ascii") as it:
                it.write("ship 0\n")
            ran = run()
            if ran.returncode != {"xargs": 123, "make": 2}[tool] or not read(
                f"{room}/7.txt"
            ).endswith("5: refused 21 VoidBox\nend: pages 1 bytes 116\n"):
                return f"{os.path.basename(program)}: with a script that is refused the status is {ran.returncode}: {ran.stderr[-200:]!r}"
    return None


def columns(root, name, least):
    """Lines of a page that are longer than 80 columns if the terminal has so many, and groff's
    warnings."""
    need("man")
    env = {"PATH": os.environ["PATH"], "LC_ALL": "C.UTF-8"}
    for width in WIDTHS:
        shown = finished(
            ["man", "-l", "--warnings", f"{root}/docs/{name}"], env={**env, "MANWIDTH": str(width)}
        )
        if shown.stderr:
            return f"groff warns at {width} columns: {shown.stderr.decode()[:200]!r}"
    lines = re.sub(r".\x08|\x1b\[[\d;]*m", "", shown.stdout.decode()).splitlines()
    long_ones = [it for it in lines if len(it) > 80]
    return (
        f"{len(long_ones)} of {len(lines)} lines are longer, as {long_ones[0]!r}"
        if long_ones
        else None
        if len(lines) > least
        else f"the page has {len(lines)} lines"
    )


def library(root):
    """The page of the library is made of the header, and has a section for each call."""
    here, there = {
        *re.findall(r"^\.SS (boxglue_\w+)\(\)$", read(f"{root}/docs/boxglue.3"), re.M)
    }, {*calls(root)}
    if here != there or not here:
        return f"these are not in both: {sorted(here ^ there)}"
    ran = finished([sys.executable, "-B", f"{root}/tools/library_page.py", "--check"], text=True)
    if ran.returncode == 0:
        return None
    return f"tools/library_page.py writes another page: {ran.stderr[-200:]}"


def typed_calls(root):
    """The calls of include/boxglue_typed.h."""
    return re.findall(
        r"\b(boxglue_(?:do_\w+|typed_\w+|quote))\((?:struct boxglue_typed|const void) \*",
        read(f"{root}/include/boxglue_typed.h"),
    )


def doxygen(root):
    """What doxygen says of the headers."""
    need("doxygen")
    with tempfile.TemporaryDirectory(prefix="boxglue-doxygen-") as room:
        told = f"\nINPUT={root}/include\nSTRIP_FROM_PATH={root}\nOUTPUT_DIRECTORY={room}\n"
        ran = finished(
            ["doxygen", "-"], input=read(f"{root}/docs/Doxyfile") + told, cwd=room, text=True
        )
        if ran.returncode or ran.stderr:
            return f"doxygen ends with {ran.returncode}: {ran.stderr[:300]!r}"
        pages = read(f"{room}/html/boxglue_8h.html") + read(f"{room}/html/boxglue__typed_8h.html")
        absent = [it for it in [*calls(root), *typed_calls(root)] if f">{it}</a>" not in pages]
        return f"no page has {', '.join(absent)}" if absent else None


def cases(programs, root):
    """The cases, by name."""
    yield "calls of the library", partial(library, root)
    yield "doxygen", partial(doxygen, root)
    yield "80 columns of boxglue(1)", partial(columns, root, "boxglue.1", 300)
    yield "80 columns of boxglue(3)", partial(columns, root, "boxglue.3", 900)
    yield "200 scripts by xargs", partial(
        many, programs, root, "xargs", "For all scripts of a folder"
    )
    yield "200 scripts by make", partial(many, programs, root, "make", "begins with a tab.*?\\.fi")
