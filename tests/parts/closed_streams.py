"""Standard streams that are closed, where folders cannot be opened: a small library that opens no
file of some paths is put before a built program by LD_PRELOAD. The next file that is opened has the
number of a closed stream; where that is the file of the pages, answers go into it."""
import functools
import itertools
import tempfile

from common import preloads
from common.outcome import on_each
from common.case_folder import read
from common.running import finished

TITLE = "standard streams that are closed, where folders cannot be opened"
NEEDS_PROGRAM = True
STREAMS = {"input": "<&-", "output": ">&-", "errors": "2>&-"}
# By what a case says of them: the paths that cannot be opened.
REFUSED = {"no root": ("/",), "no folder": ("/", ".")}
FOLDERS = ("/", ".")
TASKS = {"memory": (), "typeset": ("typeset", "out.dvi"), "session": ("session", "out.dvi")}


def expected(case, words, closed):
    """The status, both outputs and the file of a run: without its input nothing is written, and
    without its output the file is whole."""
    made, pages = read(case, "made/out.dvi"), b""
    if not words:
        # The pages are printed in lines of sixteen bytes.
        made, pages = None, b"".join(
            b"%s\n" % made[at : at + 16].hex().encode() for at in range(0, len(made), 16)
        )
    if "input" in closed:
        return 1, b"", b"" if "errors" in closed else b"boxglue: cannot read -\n", None
    if "output" in closed:
        return 1, b"", b"", made
    return 0, read(case, "stdout") + pages, b"", made


def run(words, paths, closed, folder, stdin=b""):
    """A run in a folder where these paths cannot be opened and these streams are closed."""
    # The library is for the program alone: the shell closes the streams.
    shell = f'LD_PRELOAD="$0" exec "$@" {" ".join(STREAMS[it] for it in closed)}'
    env = {"LANG": "C.UTF-8", "REFUSE_OPEN": "".join(f" {it} " for it in paths)}
    started = ["/bin/sh", "-c", shell, preloads.built("refuse_open"), *words]
    return finished(started, input=stdin, cwd=folder, env=env)


def wrong_in(case, words, paths, closed, program):
    """Says what is wrong with a run, or returns None."""
    with tempfile.TemporaryDirectory(prefix="boxglue-closed-") as folder:
        ran = run([program, *words], paths, closed, folder, read(case, "stdin"))
        made = read(folder, "out.dvi", None)
    found, wanted = (ran.returncode, ran.stdout, ran.stderr, made), expected(case, words, closed)
    return None if found == wanted else f"status, outputs and file are {found} and not {wanted}"


def wrong_refusals(paths):
    """Says which folders a shell opens although it must not, or does not open although it may; or
    returns None."""
    with tempfile.TemporaryDirectory(prefix="boxglue-closed-") as folder:
        opened = {
            it
            for it in FOLDERS
            if run(["/bin/sh", "-c", 'exec 3< "$0"', it], paths, (), folder).returncode == 0
        }
    wanted = set(FOLDERS) - set(paths)
    return None if opened == wanted else f"a shell opens {sorted(opened)} and not {sorted(wanted)}"


def cases(programs, root):
    """The folders that a shell can open, so that a library that refuses nothing is seen; then each
    task with each set of closed streams."""
    for what, paths in REFUSED.items():
        yield f"a shell, {what}", functools.partial(wrong_refusals, paths)
    case = f"{root}/tests/cases/program/typeset_a_page_to_its_file"
    sets = [it for size in range(1, 4) for it in itertools.combinations(STREAMS, size)]
    for (task, words), (what, paths), closed in itertools.product(
        TASKS.items(), REFUSED.items(), sets
    ):
        call = functools.partial(wrong_in, case, words, paths, closed)
        yield f"{task}, {what}, closed: {', '.join(closed)}", functools.partial(
            on_each, programs, call
        )
