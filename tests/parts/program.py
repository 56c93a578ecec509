"""The cases of tests/cases/program: over built programs, or all that can run in one build by `rt
try --cases`."""
import functools
import os

from common import case_folder
from common.outcome import on_each
from common.try_cases import Batch

TITLE = "runs of the program, on the case folders of tests/cases/program"
WEIGHT = 3


def checked(case, call):
    """Runs a case, if its folder has the right form."""
    return case_folder.unknown_files(case) or call()


def cases(programs, root):
    """The case folders, by the order of their names."""
    folder = f"{root}/tests/cases/program"
    names = sorted(os.listdir(folder))
    batch = Batch(root, [f"{folder}/{it}" for it in names])
    for name in names:
        case = f"{folder}/{name}"
        call = (
            functools.partial(on_each, programs, functools.partial(case_folder.differs, case, root))
            if programs
            else functools.partial(batch.outcome, case)
        )
        yield name, functools.partial(checked, case, call)
