"""Readings that do not come to an end: a small library that interrupts each `read`, and counts
them, is put before a built program by LD_PRELOAD. No smaller limit is in between: the program makes
as many calls as it may, and then cannot read. A run takes some seconds of processor."""
import functools
import os
import tempfile

from common import preloads
from common.files import write
from common.outcome import on_each
from common.part import in_turn
from common.running import finished
from models.large_inputs import READ_LIMIT

TITLE = "readings of the program that are always interrupted: 268,435,456 calls, and no more"
NEEDS_PROGRAM = True
WEIGHT = 1
SPLIT = in_turn(3)
# By the name of a case: its words, what it prints, and the name that cannot be read.
RUNS = {
    "a_script": ((), "", "-"),
    "a_session": (("session", "out.dvi"), "", "-"),
    "a_file": (("fonts", "f.dvi"), "", "f.dvi"),
}


def wrong_in(words, printed, named, program):
    """Says what is wrong with a run, or returns None."""
    with tempfile.TemporaryDirectory(prefix="boxglue-interrupted-") as folder:
        write(f"{folder}/f.dvi", b"\xf7")
        env = {"LANG": "C.UTF-8", "LD_PRELOAD": preloads.built("interrupt_reads")}
        ran = finished([program, *words], text=True, cwd=folder, env=env)
        made = sorted(set(os.listdir(folder)) - {"f.dvi"})
    expected = (1, printed, f"boxglue: cannot read {named}\n{READ_LIMIT}\n", [])
    found = (ran.returncode, ran.stdout, ran.stderr, made)
    if found == expected:
        return None
    return (
        f"status, output, errors with the number of calls, and files are {found} and not {expected}"
    )


def cases(programs, root):
    """The runs."""
    return [
        (name, functools.partial(on_each, programs, functools.partial(wrong_in, *run)))
        for name, run in RUNS.items()
    ]
