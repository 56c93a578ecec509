"""The lines of "To begin" in docs/LIBRARY.md, run in a folder that has nothing but crates/,
crates.txt and HANDLES: the program that they make runs, and prints what the document says. A
template with a BUILD.bazel, as kit 13b has it, does no harm."""
import os
import re
import shutil
import tempfile

from common.files import read, write
from common.running import finished
from common.texts import last_lines
from common.trying import run_tried

TITLE = "docs/LIBRARY.md, To begin: its lines, in an empty folder, make a program that runs"
PROGRAM = None
TRIES = False
WEIGHT = 3
BUILD = 'load("@rattle//:rattle.bzl", "rattle_binary")\nrattle_binary(name = "my_pages")\n'
ANSWERS = (
    "1: ok\n2: ok\n3: packed 1.0pt 1.0pt 0.0pt badness 0\n4: shipped 1\nend: pages 1 bytes 116\n"
)


def said(root):
    """The lines of the shell, the program, the command that runs it, and what it prints last."""
    text = read(f"{root}/docs/LIBRARY.md").partition("**To begin**")[2].partition("\n### ")[0]
    (program,) = re.findall(r"(?ms)^```rattle\n(.*?)^```$", text)
    made, tried = [
        "".join(line[4:] for line in it.splitlines(keepends=True))
        for it in re.findall(r"(?:^    .*\n)+", text.replace(program, ""), re.M)
    ]
    return made, program, tried, re.search(r"^It prints the answers and `(.*)`\.$", text, re.M)[1]


def copied(root, folder):
    """Copies what the lines need: the crates, without what was made of them."""
    shutil.copytree(
        f"{root}/crates",
        f"{folder}/crates",
        ignore=shutil.ignore_patterns("out", "must-fail", "wrong-bodies"),
    )
    for name in ("crates.txt", "HANDLES"):
        shutil.copy(f"{root}/{name}", folder)


def outcome(root):
    """Follows the lines."""
    made, program, tried, last = said(root)
    with tempfile.TemporaryDirectory(prefix="boxglue-first-") as folder:
        copied(root, folder)
        for line in made.splitlines():
            ran = finished(["bash", "-euc", line], cwd=folder)
            if ran.returncode:
                return f"{line!r}: the status is {ran.returncode}: {last_lines(ran.stderr)}"
            path = f"{folder}/crates/my_pages/BUILD.bazel"
            if line.startswith("rt new") and not os.path.exists(path):
                write(path, BUILD)
        write(f"{folder}/crates/my_pages/src/main.rt", program)
        status, output, errors = run_tried(["bash", "-euc", tried], folder)
        wanted = f"{ANSWERS}{last}\n"
        if (status, wanted in output.decode(errors="replace")) == (0, True):
            return None
        return f"the status is {status}: {last_lines(errors)}; it prints {output[-200:]!r}"


def cases(_programs, root):
    """The one case."""
    yield "To begin", lambda: outcome(root)
