"""The program and the library for C as tools/unproved.py builds them, without proofs and with
run-time checks: both say so, and the library has each call of the header. Parts that need a program
or an archive, and are given none, run over these."""
import re
from functools import partial

from common.library_build import build_unproved
from common.outcome import need
from common.running import finished
from tools.exports import calls, read
from tools.unproved import SAYS

TITLE = "the program and the library, built without proofs, say so"
PROGRAM = None
TRIES = False
WEIGHT = 4
# The name of a global symbol is after its kind: T for code, R for data that is not written.
SYMBOL = re.compile(r"^[0-9a-f]+ [TRDB] (\w+)$", re.M)


def program_wrong(root):
    """What is wrong with the line that the program prints for its version."""
    ran = finished([build_unproved(root, "program"), "--version"], text=True)
    line = re.search(
        r'VERSION_LINE: &str = "(boxglue \S+) ', read(f"{root}/crates/boxglue_words/src/task.rt")
    )[1]
    if (ran.returncode, ran.stdout) == (0, f"{line} {SAYS}\n"):
        return None
    return f"the status is {ran.returncode}, and it prints {ran.stdout!r}"


def library_wrong(root):
    """What is wrong with the global symbols of the library."""
    archive = build_unproved(root, "library")
    need("nm")
    ran = finished(["nm", "--defined-only", archive], text=True, check=True)
    found, wanted = {*SYMBOL.findall(ran.stdout)}, {*calls(root), "boxglue_unproved"}
    if found == wanted:
        return None
    return f"these names are in the library or the header alone: {sorted(found ^ wanted)}"


def cases(_programs, root):
    """The library, which other parts wait for, and the program."""
    yield "library", partial(library_wrong, root)
    yield "program", partial(program_wrong, root)
