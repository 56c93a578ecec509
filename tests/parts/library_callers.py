"""Callers of the library for C: those of docs/LIBRARY.md, in C, Python and Rust, and of
examples/library compile and give the page of one rule; the examples of docs/boxglue.3, of
include/boxglue_typed.h and of the packages' README.md run; the tests of the binding for Python
pass; the client of examples/markdown makes a page, and a book; the driver of examples/library draws
a page; and through the header a pointer with the size 0 may be null, in C and C++."""
import os
import re
import tempfile
from functools import partial
from xml.etree import ElementTree

from common.files import content, read, write
from common.library_build import build_shared, compile_c, heap_archive, object_words, python_words
from common.library_build import run_build, rust_client
from common.outcome import lacks, need, without
from common.part import in_turn
from common.running import finished
from common.texts import last_lines
from models.plain_font import metric_file

TITLE = "callers of the library for C: docs/LIBRARY.md, docs/boxglue.3, boxglue_typed.h, examples/library, bindings/python, README.md of the packages, examples/markdown"
PROGRAM = "library"
NEEDS_PROGRAM = True
SPLIT = in_turn(4)
# Long enough for a machine with much other work: it only ends what stands still.
LIMIT = 900
FILE_SIZE = 116
# The compilers of the tests of the header, and the warnings that a program may ask for.
LANGUAGES = {
    "C99": ["cc", "-std=c99"],
    "C11": ["cc", "-std=c11"],
    "C++98": ["c++", "-x", "c++", "-std=c++98", "-Wno-long-long"],
    "C++17": ["c++", "-x", "c++", "-std=c++17"],
}
WARNINGS = "-Wall -Wextra -Wpedantic -Wconversion -Wshadow -Wcast-qual -Wcast-align -Wundef -Werror".split()
SYMBOLS = "run run_replies list paint fonts marks job_new job_commands job_run job_answers job_take".split()
# The empty script is answered by "end: pages 0 bytes 0", and the empty file by "refused 20 BadDvi 0
# Trailer".
NULL_CALLS = b"""run 4 86 116: a buffer is too small: the sizes say what is needed
run_replies 4 5 116: a buffer is too small: the sizes say what is needed
run 4 21 0: a buffer is too small: the sizes say what is needed
run_replies 4 1 0: a buffer is too small: the sizes say what is needed
list 4 28 0: a buffer is too small: the sizes say what is needed
list by a pointer 4 28 0: a buffer is too small: the sizes say what is needed
paint 4 28 0: a buffer is too small: the sizes say what is needed
fonts 4 0 28: a buffer is too small: the sizes say what is needed
marks 4 0 28: a buffer is too small: the sizes say what is needed
new 0 0 0: accepted
commands 0 0 0: accepted
job_run 0 0 0: accepted
answers 0 0 0: accepted
finish 0 0 0: accepted
take 0 0 0: accepted
"""
WANTED = (
    b"1: ok\n2: ok\n3: packed 1.0pt 1.0pt 0.0pt badness 0\n4: shipped 1\nend: pages 1 bytes 116\n"
)


def text_of(root, name):
    """The text of a caller: the one block of docs/LIBRARY.md in a language, or a file of
    examples/library."""
    if "." in name:
        return read(f"{root}/examples/library/{name}")
    (found,) = re.findall(
        rf"^```{name}\n(.*?)^```$", read(f"{root}/docs/LIBRARY.md"), flags=re.M | re.S
    )
    return found


def readme_of(root, package, language):
    """The one block in a language of a package's README.md."""
    text = read(f"{root}/bindings/{package}/README.md")
    (found,) = re.findall(rf"(?ms)^```{language}\n(.*?)^```$", text)
    return found


def example_of_manual(root):
    """The program of docs/boxglue.3, without the escapes of roff."""
    text = read(f"{root}/docs/boxglue.3").partition("\n.SH EXAMPLES\n")[2]
    (found,) = re.findall(r"(?ms)^\.nf\n(.*?)^\.fi$", text)
    return found.replace("\\e", "\\").replace("\\-", "-")


def example_of_header(root):
    """A program of the lines in the first comment of include/boxglue_typed.h."""
    comment = read(f"{root}/include/boxglue_typed.h").partition("*/")[0]
    lines = re.findall(r"(?m)^ \*     (.*)$", comment)
    head = ['#include "boxglue_typed.h"', "#include <stdio.h>", "int main(void) {"]
    return "\n".join([*head, *lines, "return (int)status;", "}", ""])


def run_wrong(words, env=None, wanted=WANTED, folder=None, given=b""):
    """Runs a command, and says what is wrong, or returns None."""
    ran = finished(words, env=env, cwd=folder, input=given, timeout=LIMIT)
    if ran.returncode:
        return f"the status is {ran.returncode}: {last_lines(ran.stderr)}"
    return None if wanted is None or ran.stdout == wanted else f"it prints {ran.stdout[:200]!r}"


def file_wrong(folder):
    """What is wrong with the file of a caller that writes one, or None."""
    size = os.path.getsize(f"{folder}/page.dvi")
    return None if size == FILE_SIZE else f"page.dvi has {size} bytes"


def compiled_in_c(text, root, archive, folder, wanted=WANTED):
    """Runs a caller in C, and says what is wrong, or returns None."""
    write(f"{folder}/caller.c", text)
    return compile_c(root, archive, [f"{folder}/caller.c"], f"{folder}/caller", []) or run_wrong(
        [f"{folder}/caller"], folder=folder, wanted=wanted
    )


def example_in_c(text, wanted, root, archive, folder):
    return compiled_in_c(text(root), root, archive, folder, wanted)


def caller_in_c(name, wanted, root, archive, folder):
    return compiled_in_c(text_of(root, name), root, archive, folder, wanted) or file_wrong(folder)


def refused_in_c(name, line, others, root, archive, folder):
    """The same caller over a script with a bad line, and with a refused command: its status is 1,
    and it writes no file."""
    text = text_of(root, name)
    for other in others:
        write(f"{folder}/caller.c", text.replace(line, other))
        wrong = compile_c(root, archive, [f"{folder}/caller.c"], f"{folder}/caller", [])
        if wrong or line not in text:
            return wrong or f"no {line!r} is in the caller"
        status = finished([f"{folder}/caller"], cwd=folder, timeout=LIMIT).returncode
        is_there = "there" if os.path.exists(f"{folder}/page.dvi") else "not there"
        if (status, is_there) != (1, "not there"):
            return f"with {other!r} the status is {status}, and page.dvi is {is_there}"
    return None


def caller_in_python(root, archive, folder):
    write(f"{folder}/caller.py", text_of(root, "python"))
    words, env = python_words(root, archive, [f"{folder}/caller.py"])
    wanted = b"65536 2.0pt\n0 Rule(h=0, v=131072, height=131072, width=65536)\n"
    return run_wrong(words, env, wanted, folder)


def run_in_rust(text, wanted, root, archive, folder):
    need("cargo")
    words = rust_client(folder, f"{root}/bindings/rust/boxglue", text)
    env = {**os.environ, "BOXGLUE_LIB_DIR": folder, "CARGO_TARGET_DIR": f"{folder}/target"}
    build = [f"{root}/bindings/build", "--static", archive, f"{folder}/libboxglue.a"]
    return run_build(build) or run_wrong(words, env, wanted, folder)


def caller_in_rust(root, *words):
    return run_in_rust(text_of(root, "rs"), b"1.0pt\nend: pages 1 bytes 116\n", root, *words)


def readme_in_python(root, archive, folder):
    """The example of the package for Python, over plain metrics. Its five letters are 6pt wide; its
    space is a third of 12pt, and 1 sp less as the file has it."""
    write(f"{folder}/cmr10.tfm", metric_file())
    write(f"{folder}/caller.py", readme_of(root, "python", "python"))
    words, env = python_words(root, archive, [f"{folder}/caller.py"])
    wanted = b"2228223\n0 Glyph(h=0, v=550502, font=0, code=65, width=393216)\n"
    return run_wrong(words, env, wanted, folder)


def readme_in_rust(root, archive, folder):
    """The example of the crate, over the same metrics, makes a page. Its line depends on the
    library, which may be proved or not."""
    write(f"{folder}/cmr10.tfm", metric_file())
    wrong = run_in_rust(readme_of(root, "rust/boxglue", "rust"), None, root, archive, folder)
    if wrong:
        return wrong
    pages = pages_of(f"{folder}/page.dvi")
    return None if pages == 1 else f"the file has {pages} pages"


def null_pointers(language, root, archive, folder):
    """Calls with null pointers, by symbols of the library that refuse them."""
    compiler, *flags = LANGUAGES[language]
    need(compiler)
    steps = f"{root}/tests/clients"
    wraps = [f"-Wl,--wrap=boxglue_{it}" for it in SYMBOLS]
    objects, out = [f"{folder}/null_{it}.o" for it in ("pointers", "symbols")], f"{folder}/calls"
    compilers = {"pointers": [compiler, *flags], "symbols": ["cc", "-std=c11"]}
    for name, words in compilers.items():
        source = object_words(root, f"{steps}/null_{name}.c", folder)
        wrong = run_build([*words, *WARNINGS, *source])
        if wrong:
            return wrong
    link = [compiler, "-o", out, *objects, archive, heap_archive(), *wraps]
    return run_build(link) or run_wrong([out], wanted=NULL_CALLS)


def binding(tests, root, archive, folder):
    """Runs tests of the binding."""
    top = f"{root}/bindings/python"
    given = ["-m", "unittest", "discover", "-q", "-s", f"{top}/tests", "-t", top, "-p", tests]
    words, env = python_words(root, archive, given)
    return run_wrong(words, env, wanted=b"", folder=folder)


def types_of_binding(root, archive, folder):
    """The types of the binding, which one of its tests checks where there is mypy."""
    return lacks("mypy") or binding("test_types.py", root, archive, folder)


def marks_in_numpy(root, archive, folder):
    """Runs the tests of marks by a Python that has numpy: this one, or the system's."""
    words, env = python_words(root, archive, ["-m", "unittest", "-q", "tests.test_marks"])
    for python in (words[0], "/usr/bin/python3"):
        if not run_wrong([python, "-c", "import numpy"], wanted=None):
            return run_wrong([python, *words[1:]], env, b"", f"{root}/bindings/python")
    return without("numpy")


def pages_of(path):
    """The number of pages that the postamble of a DVI file gives."""
    dvi = content(path)
    post_post = dvi.rstrip(b"\xdf")[:-1]
    post = int.from_bytes(post_post[-4:], "big")
    return int.from_bytes(dvi[post + 27 : post + 29], "big")


def client(text, least, root, archive, folder):
    """The client for Markdown sets a text in at least so many pages."""
    write(f"{folder}/plain.tfm", metric_file())
    write(f"{folder}/text.md", text(root))
    fonts = [f"--{name}={folder}/plain.tfm" for name in ("text", "bold", "italic", "code")]
    program = f"{root}/examples/markdown/markdown_page.py"
    files = [f"{folder}/text.md", f"{folder}/text.dvi"]
    words, env = python_words(root, archive, [program, *fonts, *files])
    wrong = run_wrong(words, env, wanted=b"")
    if wrong:
        return wrong
    pages = pages_of(f"{folder}/text.dvi")
    return None if pages >= least else f"the text has {pages} pages"


def driver(root, archive, folder):
    """The driver for SVG draws each letter and each rule of a page."""
    write(f"{folder}/plain.tfm", metric_file())
    script = read(f"{root}/examples/first_page.box")
    write(
        f"{folder}/page.py",
        "import sys, boxglue\nopen('page.dvi', 'wb').write(boxglue.run(sys.stdin.read(), {'cmtt10': open('plain.tfm', 'rb').read()}).dvi)\n",
    )
    words, env = python_words(root, archive, [f"{folder}/page.py"])
    wrong = run_wrong(words, env, wanted=b"", folder=folder, given=script.encode())
    given = [f"{root}/examples/library/svg_pages.py", "page.dvi", "page", "cmtt10=plain.tfm"]
    words, env = python_words(root, archive, given)
    wrong = wrong or run_wrong(words, env, wanted=b"", folder=folder)
    if wrong:
        return wrong
    drawing = ElementTree.parse(f"{folder}/page-1.svg").getroot()
    letters = "".join(it.text for it in drawing.iter("{http://www.w3.org/2000/svg}text"))
    wanted = "".join(re.sub(r"\s", "", it) for it in re.findall(r"^text (.*)$", script, re.M))
    return None if letters == wanted else f"the page shows {letters[:60]!r}"


def size_of_client(most, root, _archive, _folder):
    """The client for Markdown has at most so many lines. They were 140 of at most 150 columns
    before black wrote them in 100."""
    count = len(read(f"{root}/examples/markdown/markdown_page.py").splitlines())
    return None if count <= most else f"it has {count} lines"


def page_of_markdown(root):
    """The text of the example."""
    return read(f"{root}/examples/markdown/page.md")


def book_of_markdown(root):
    """The text of the example so often that it does not fit into one box."""
    return page_of_markdown(root) * 1400


def outcome(call, root, archive=None, *_programs):
    """Runs a case in a folder of its own."""
    build_shared(root, archive)
    with tempfile.TemporaryDirectory(prefix="boxglue-library-") as folder:
        return call(root, archive, folder)


def cases(programs, root):
    """The callers."""
    bad_ship = "c", "ship(&page, 0)", ["ship(&page, 7)"]
    scripts = "rule 1pt 1pt 0pt", ("rule 1em 1pt 0pt", "penalty 0\\nunhbox 7\\npar")
    calls = {
        "LIBRARY.md in C": partial(caller_in_c, "c", b"65536 sp wide\n"),
        "LIBRARY.md in C, refused": partial(refused_in_c, *bad_ship),
        "examples/library/job.c": partial(caller_in_c, "job.c", WANTED),
        "examples/library/job.c, refused": partial(refused_in_c, "job.c", *scripts),
        "LIBRARY.md in Python": caller_in_python,
        "LIBRARY.md in Rust": caller_in_rust,
        "boxglue(3)": partial(example_in_c, example_of_manual, WANTED + b"116 bytes\n"),
        "boxglue_typed.h": partial(example_in_c, example_of_header, b"65536 sp wide\n"),
        "README.md in Python": readme_in_python,
        "README.md in Rust": readme_in_rust,
        "tests of bindings/python": partial(binding, "test_*.py"),
        "types of bindings/python": types_of_binding,
        "marks of bindings/python in numpy": marks_in_numpy,
        "examples/markdown": partial(client, page_of_markdown, 1),
        "examples/library/svg_pages.py": driver,
        "examples/markdown in 1,000 pages": partial(client, book_of_markdown, 1000),
        "lines of examples/markdown": partial(size_of_client, 170),
    }
    calls |= {f"null pointers in {it}": partial(null_pointers, it) for it in LANGUAGES}
    return [(name, partial(outcome, call, root, *programs)) for name, call in calls.items()]
