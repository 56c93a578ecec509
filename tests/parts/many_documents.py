"""examples/many: a thousand documents through a pool of processes and through a Dask cluster make
the files that one process makes, and those of the program."""
import filecmp
import functools
import os
import sys
from functools import partial

from common.files import read
from common.library_build import build_shared
from common.outcome import without
from common.running import finished
from common.shared import own_folder
from common.texts import last_lines

TITLE = "examples/many: the same files from one process, a pool and a cluster, one document of a thousand refused"
PROGRAM = "library"
NEEDS_PROGRAM = True
COUNT, REFUSED = 1000, 500
# The files of these documents are compared with those of the program.
BY_PROGRAM = (0, 1, 999)


def environment(root, archive):
    """The environment of a process that uses the binding."""
    return {
        **os.environ,
        "BOXGLUE_LIBRARY": build_shared(root, archive),
        "PYTHONPATH": f"{root}/bindings/python",
        "PYTHONDONTWRITEBYTECODE": "1",
    }


@functools.lru_cache(None)
def python_with_dask():
    """A Python that has Dask, as Debian's has with the package python3-distributed; or None."""
    for python in (sys.executable, "/usr/bin/python3"):
        if os.path.exists(python) and not finished([python, "-c", "import distributed"]).returncode:
            return python
    return None


def run_engine(root, archive, engine, python):
    """The folder with what an engine made, and what is wrong, or None."""
    out = f"{own_folder()}/many-{engine}"
    words = [
        python,
        f"{root}/examples/many/many_documents.py",
        engine,
        f"{root}/examples/plain.tfm",
        out,
        "--count",
        str(COUNT),
    ]
    ran = finished(words, env=environment(root, archive))
    if ran.returncode != 1 or not ran.stderr.decode().endswith(f"{COUNT} of {COUNT}, 1 refused\n"):
        return (
            out,
            f"{engine}: the status is {ran.returncode}, 1 is wanted: {last_lines(ran.stderr)}",
        )
    return out, None


@functools.lru_cache(None)
def by_one(root, archive):
    """What one process made, which each other engine has to make too."""
    return run_engine(root, archive, "one", sys.executable)


def one_wrong(programs, root):
    """What is wrong with the files of one process, or None."""
    out, wrong = by_one(root, programs[0])
    wanted = sorted([f"{it}.dvi" for it in range(COUNT) if it != REFUSED] + [f"{REFUSED}.refused"])
    if wrong or sorted(os.listdir(out)) != wanted:
        return wrong or f"{out} has other files than a DVI file for each document but {REFUSED}"
    said = read(f"{out}/{REFUSED}.refused")
    if said == "line 11: refused 21 VoidBox: 'ship 1'\n":
        return None
    return f"document {REFUSED}: {said!r}"


def engine_wrong(programs, root, engine):
    """What is wrong with the files of an engine, or None."""
    python = sys.executable if engine == "pool" else python_with_dask()
    if not python:
        return without("dask")
    out, wrong = run_engine(root, programs[0], engine, python)
    whole, whole_wrong = by_one(root, programs[0])
    if wrong or whole_wrong:
        return wrong or whole_wrong
    names = sorted(os.listdir(whole))
    _, differ, errors = filecmp.cmpfiles(whole, out, names, shallow=False)
    if sorted(os.listdir(out)) != names or differ or errors:
        return f"{engine}: other files than one process makes: {', '.join([*differ, *errors][:3]) or 'their names'}"
    return None


def program_wrong(programs, root):
    """What is wrong with documents of one process, beside the files that the program makes of their
    scripts; or None."""
    out, wrong = by_one(root, programs[0])
    if wrong:
        return wrong
    for program in programs[1:]:
        for number in BY_PROGRAM:
            shows = f"import documents; print(documents.script({number}), end='')"
            env = {
                **environment(root, programs[0]),
                "PYTHONPATH": f"{root}/bindings/python:{root}/examples/many",
            }
            script = finished([sys.executable, "-c", shows], env=env, check=True).stdout
            made = f"{own_folder()}/many-{number}.dvi"
            finished(
                [program, "typeset", made, f"cmtt10={root}/examples/plain.tfm"],
                input=script,
                check=True,
            )
            if not filecmp.cmp(made, f"{out}/{number}.dvi", shallow=False):
                return f"{os.path.basename(program)}: document {number} is another file"
    return None


def cases(programs, root):
    """The cases of this part."""

    def checked(wrong, *words):
        return wrong(programs, root, *words)

    yield "one_process", partial(checked, one_wrong)
    yield "a_pool", partial(checked, engine_wrong, "pool")
    yield "a_cluster", partial(checked, engine_wrong, "dask")
    yield "the_program", partial(checked, program_wrong)
