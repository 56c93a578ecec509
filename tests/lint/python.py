"""All Python of the tree: its layout by black, and its columns. What pyflakes and mypy say of the
Python of the tests and of bench/. Files without a suffix are Python where their first line says so.
"""
import ast
import glob
import os
from functools import partial

from common.files import read
from common.outcome import need
from common.running import finished
from common.shared import own_folder
from common.texts import last_lines

TITLE = (
    "all Python is laid out by black in 100 columns; "
    "the Python of tests/ and bench/: no fault by pyflakes, none by mypy"
)
TRIES = False
FOLDERS = {
    "tests": """tests tests/cases/hyphens tests/common tests/models tests/models/tests tests/lint
        tests/parts tests/clients""".split(),
    "bench": "bench bench/trials".split(),
}
# Where the modules are that they import, by their names without a folder.
PATH = "tests . bench bench/trials bindings/python examples/session examples/layout".split()
# Black parts no text, so a line may be longer for one that needs more columns than these.
MOST_COLUMNS, LONG_TEXT = 100, 60


def is_python(path):
    """Whether a file is Python."""
    if path.endswith(".py") or "." in os.path.basename(path) or not os.path.isfile(path):
        return path.endswith(".py")
    with open(path, "rb") as it:
        return b"python" in it.readline()


def files(root, folders):
    """The paths of the Python files of folders, below the root."""
    paths = [path for folder in folders for path in sorted(glob.glob(f"{root}/{folder}/*"))]
    return [os.path.relpath(path, root) for path in paths if is_python(path)]


def tracked(root):
    """The paths of all Python that git tracks."""
    paths = finished(["git", "ls-files", "-z"], cwd=root, text=True, check=True).stdout
    return [it for it in paths.split("\0") if is_python(f"{root}/{it}")]


def layout(root):
    """The files that black would write anew."""
    need("black")
    ran = finished(["black", "--check", "-l", str(MOST_COLUMNS), *tracked(root)], cwd=root)
    return last_lines(ran.stderr, 5) if ran.returncode else None


def lines_of_texts(tree):
    """The numbers of the lines with a long text or one of several lines, but for docstrings."""
    bare = {it.value for it in ast.walk(tree) if isinstance(it, ast.Expr)}
    for it in ast.walk(tree):
        if isinstance(it, (ast.Constant, ast.JoinedStr)) and it not in bare:
            if it.lineno < it.end_lineno or it.end_col_offset - it.col_offset > LONG_TEXT:
                yield from range(it.lineno, it.end_lineno + 1)


def columns(root):
    """Lines above 100 columns, but for those with a long text."""
    wrong = []
    for path in tracked(root):
        text = read(f"{root}/{path}")
        long = {n for n, it in enumerate(text.split("\n"), 1) if len(it) > MOST_COLUMNS}
        if long:
            wrong += [f"{path}:{n}" for n in sorted(long - {*lines_of_texts(ast.parse(text))})]
    return f"lines above {MOST_COLUMNS} columns: {', '.join(wrong)}" if wrong else None


def faults(root, folders):
    """What pyflakes says."""
    need("pyflakes3")
    ran = finished(["pyflakes3", *files(root, folders)], cwd=root)
    return last_lines(ran.stdout + ran.stderr) if ran.returncode else None


def types(root, folders):
    """What mypy says."""
    need("mypy")
    words = """--scripts-are-modules --explicit-package-bases --ignore-missing-imports
        --follow-imports=silent""".split()
    ran = finished(
        ["mypy", f"--cache-dir={own_folder()}/mypy", *words, *files(root, folders)],
        cwd=root,
        env={**os.environ, "MYPYPATH": ":".join(f"{root}/{it}" for it in PATH)},
    )
    return last_lines(ran.stdout + ran.stderr, 5) if ran.returncode else None


def cases(_programs, root):
    """The cases, and one for each tool and folder."""
    yield "layout", partial(layout, root)
    yield "columns", partial(columns, root)
    for name, folders in FOLDERS.items():
        yield f"faults of {name}", partial(faults, root, folders)
        yield f"types of {name}", partial(types, root, folders)
