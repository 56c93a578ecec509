"""Writes that take a part of what they are given: a small library that shortens each `write`, and
counts them, is put before a built program by LD_PRELOAD. Either those to the file of the pages are
shortened, or those to standard output; all bytes arrive."""
import functools
import tempfile
from dataclasses import replace

from common import preloads
from common.outcome import on_each
from common.case_folder import read
from common.long_runs import place
from common.running import finished
from common.texts import first_difference
from models.large_inputs import page_of_rules

TITLE = "writes of the program that take half of their bytes: to the file of the pages, and to standard output"
NEEDS_PROGRAM = True
MADE = "out.dvi"
# What the library is told of the writes that it shortens.
TO_FILES, TO_OUTPUT = "0", "1"


def runs():
    """The runs of a page of 8,000 rules, by their tasks. A session answers as `typeset`, and makes
    the same file."""
    found = {it.words[0] if it.words else "memory": it for it in page_of_rules().runs}
    return {**found, "session": replace(found["typeset"], words=("session", MADE))}


def ended(program, run, which, folder):
    """A run in which writes are shortened. From a file its input comes in large pieces."""
    env = {
        "LANG": "C.UTF-8",
        "LD_PRELOAD": preloads.built("shorten_writes"),
        "SHORTEN_WRITES": which,
    }
    with tempfile.TemporaryFile() as given:
        given.write(run.stdin)
        given.seek(0)
        return finished([program, *run.words], stdin=given, cwd=folder, env=env)


def wrong_in(task, which, program):
    """Says what is wrong with a run, or returns None."""
    all_runs = runs()
    run, file = all_runs[task], all_runs["typeset"].made[MADE]
    with tempfile.TemporaryDirectory(prefix="boxglue-short-") as folder:
        place({} if run.made else {MADE: file}, folder)
        ran = ended(program, run, which, folder)
        made = read(folder, MADE, b"")
    if ran.returncode != run.status or not ran.stderr.strip().isdigit() or not int(ran.stderr):
        return f"the status is {ran.returncode}, and standard error {ran.stderr[:200]!r} is no number of shortened writes"
    return first_difference(
        "standard output", ran.stdout, b"".join(run.stdout)
    ) or first_difference("the file", made, file)


def cases(programs, root):
    """The tasks that make a file, with their writes to it shortened; and all tasks, with those to
    standard output."""
    words = {f"the file of {it}": (it, TO_FILES) for it in ("typeset", "session")} | {
        f"the output of {it}": (it, TO_OUTPUT) for it in runs()
    }
    return [
        (name, functools.partial(on_each, programs, functools.partial(wrong_in, *it)))
        for name, it in words.items()
    ]
