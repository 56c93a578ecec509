"""A case of tests/cases/program: a folder with the command line of a run, and its expected results.
tests/CASES.md has its files."""
import os
import shutil
import subprocess
import tempfile

from common.files import content
from common.texts import first_difference

NAMES = {
    *"words stdin stdin-from closed-stdin closed-stdout full-stdout files made stdout stderr status".split()
}
LIMIT = 60


def has(case, name):
    """Whether a case has this file or folder."""
    return os.path.exists(f"{case}/{name}")


def read(case, name, otherwise=b""):
    """The bytes of a case's file."""
    if not has(case, name):
        return otherwise
    return content(f"{case}/{name}")


def words_of(case):
    """The words of the command line, as bytes."""
    text = read(case, "words")
    return text.removesuffix(b"\n").split(b"\n") if text else []


def input_of(case, root):
    """The bytes of standard input."""
    if has(case, "stdin-from"):
        return read(root, read(case, "stdin-from").decode().strip())
    return read(case, "stdin")


def files_in(folder):
    """The names of the files of a folder; none if it is absent."""
    return sorted(os.listdir(folder)) if os.path.isdir(folder) else []


def unknown_files(case):
    """What is wrong if a case has a file without a meaning, otherwise None."""
    others = sorted({*os.listdir(case)} - NAMES)
    return f"a case has no file {others[0]}" if others else None


def command(case, program):
    """The words that start the program. A shell closes the streams that are to be closed."""
    closing = [
        sign
        for name, sign in (("closed-stdin", "<&-"), ("closed-stdout", ">&-"))
        if has(case, name)
    ]
    shell = ["sh", "-c", f'exec "$@" {" ".join(closing)}', "sh"] if closing else []
    return [*shell, program, *words_of(case)]


def run(case, program, root):
    """Runs the program on a case. Returns its status, its standard output, its standard error, and
    the first file of made/
    that is wrong, if one is."""
    how = {
        "input": input_of(case, root),
        "stderr": subprocess.PIPE,
        "env": {"LANG": "C.UTF-8"},
        "timeout": LIMIT,
    }
    with tempfile.TemporaryDirectory(prefix="boxglue-case-") as room, open(
        "/dev/full", "wb"
    ) as full:
        if has(case, "files"):
            shutil.copytree(f"{case}/files", room, dirs_exist_ok=True)
        output = full if has(case, "full-stdout") else subprocess.PIPE
        ran = subprocess.run(command(case, program), cwd=room, stdout=output, **how)
        wrong = [
            name
            for name in files_in(f"{case}/made")
            if read(room, name, None) != read(f"{case}/made", name)
        ]
    status = ran.returncode if ran.returncode >= 0 else 128 - ran.returncode
    return status, ran.stdout or b"", ran.stderr, wrong[:1]


def differs(case, root, program):
    """Returns how the program's results on a case differ from the expected ones, or None."""
    status, output, errors, wrong = run(case, program, root)
    wanted = int(read(case, "status", b"0"))
    if status != wanted:
        return f"the status is {status} and not {wanted}; standard error: {errors[:300]!r}"
    if wrong:
        return f"the file {wrong[0]} is not that of made/"
    return first_difference("standard output", output, read(case, "stdout")) or first_difference(
        "standard error", errors, read(case, "stderr")
    )
