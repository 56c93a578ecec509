"""Paragraphs with hyphens: 600 paragraphs, each in four widths and at two tolerances, by
bindings/python and by examples/layout/hyphens.py in a session. They have the lines and the demerits
that tests/cases/hyphens/lines.txt has of TeX, wherever TeX decides in its first or its second pass;
where TeX is there, it makes this file again. Ties, in which TeX takes other lines at the same
demerits, are listed in hyphen_lines.py."""
import os
import re
import sys
import tempfile
from functools import partial

from common.files import content
from common.library_build import build_shared, python_words
from common.outcome import need, without
from common.part import in_turn
from common.running import finished
from common.texts import first_difference, last_lines

TITLE = "paragraphs with TeX's hyphens by bindings/python and in a session: the lines of tex in 4,800 settings, TeX's places in words, their time"
PROGRAM = "library"
NEEDS_PROGRAM = True
SPLIT = in_turn(4)
LIMIT = 900
ROWS = "tests/cases/hyphens/lines.txt"
SETTINGS, DECIDED = 4800, 3248
# The most that a paragraph of 400 words takes in Python, in milliseconds of a processor that counts
# in SPIN milliseconds; and how often it is tried.
MOST, SPIN, TRIES = 10, 1.5, 5


def output(words, env=None, folder=None):
    """The output of a command that must pass, or what is wrong."""
    ran = finished(words, text=True, env=env, cwd=folder, timeout=LIMIT)
    return (
        ran.stdout,
        f"the status is {ran.returncode}: {last_lines(ran.stderr.encode())}"
        if ran.returncode
        else None,
    )


def agreement(said, wanted):
    """What is wrong with the last line of a comparison, or with those before it."""
    *others, last = said.splitlines()
    return "; ".join(others[:3]) or (None if re.match(wanted, last) else f"it says {last!r}")


def by_library(root, archive, _program, _folder):
    words, env = python_words(
        root, archive, ["-B", f"{root}/tests/cases/hyphens/library_lines.py", f"{root}/{ROWS}"]
    )
    said, wrong = output(words, env)
    return wrong or agreement(
        said, rf"{SETTINGS} settings, {DECIDED} decided by TeX, 0 differ, \d+ places$"
    )


def by_session(root, _archive, program, folder):
    os.symlink(program, f"{folder}/boxglue")
    env = {**os.environ, "PATH": f"{folder}:{os.environ['PATH']}"}
    said, wrong = output(
        [
            sys.executable,
            "-B",
            f"{root}/tests/cases/hyphens/session_lines.py",
            f"{root}/{ROWS}",
            f"{folder}/out.dvi",
        ],
        env,
    )
    if said.startswith("end: "):
        said = said.partition("\n")[2]
    return wrong or agreement(said, rf"{SETTINGS} settings, {DECIDED} decided by TeX, 0 differ$")


def by_tex(root, _archive, _program, _folder):
    """TeX makes the same rows."""
    need("tex")
    said, wrong = output([sys.executable, "-B", f"{root}/tests/cases/hyphens/make-lines"])
    return wrong or first_difference("the rows", said.encode(), content(f"{root}/{ROWS}"))


def words_of_tex(root, archive, _program, _folder):
    """TeX's hyphen.tex by \\showhyphens of TeX, and by the package."""
    need("tex")
    words, env = python_words(root, archive, ["-B", f"{root}/tests/cases/hyphens/words_of_tex.py"])
    said, wrong = output(words, env)
    return wrong or agreement(said, r"\d{3} words, 0 differ$")


def metrics(root, _archive, _program, _folder):
    """Both metric files of examples/ are what plain-metrics prints."""
    for name, words in (("plain", []), ("letters", ["--letters"])):
        made = finished(
            [sys.executable, "-B", f"{root}/examples/plain-metrics", *words],
            timeout=LIMIT,
            check=True,
        ).stdout
        if made != content(f"{root}/examples/{name}.tfm"):
            return f"examples/{name}.tfm is another"
    return None


def pyphen(root, archive, _program, _folder):
    """The tests of pyphen's dictionaries, by a Python that has them: this one, or the system's."""
    words, env = python_words(
        root, archive, ["-W", "error", "-m", "unittest", "-q", "tests.test_hyphenation.Pyphen"]
    )
    for python in (words[0], "/usr/bin/python3"):
        if not output([python, "-c", "import pyphen"])[1]:
            return output([python, *words[1:]], env, f"{root}/bindings/python")[1]
    return without("pyphen")


def time(root, archive, _program, _folder):
    """A paragraph of 400 words, of which none was seen before."""
    words, env = python_words(
        root, archive, ["-B", f"{root}/tests/cases/hyphens/paragraph_time.py"]
    )
    for _ in range(TRIES):
        said, wrong = output(words, env)
        first, _, spin = [0, 0, 1] if wrong else map(float, said.split())
        if wrong or first <= MOST * max(1, spin / SPIN):
            return wrong
    return f"a paragraph takes {first} ms where counting takes {spin} ms"


def example_size(root, _archive, _program, _folder):
    """The example in a session has at most 120 lines."""
    count = content(f"{root}/examples/layout/hyphens.py").count(b"\n")
    return None if count <= 120 else f"it has {count} lines"


def outcome(call, root, archive=None, program=None, *_others):
    """Runs a case in a folder of its own."""
    build_shared(root, archive)
    with tempfile.TemporaryDirectory(prefix="boxglue-hyphens-") as folder:
        return call(root, archive, program, folder)


def cases(programs, root):
    """The cases, by name."""
    calls = {
        "TeX's lines by Python": by_library,
        "TeX's lines in a session": by_session,
        "TeX makes the lines again": by_tex,
        "TeX's places in words": words_of_tex,
        "metric files": metrics,
        "pyphen": pyphen,
        "time": time,
        "lines of the example": example_size,
    }
    return [(name, partial(outcome, call, root, *programs)) for name, call in calls.items()]
