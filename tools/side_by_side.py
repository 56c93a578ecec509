"""Proves crates side by side.

Two runs of `rt` in one work tree wait for each other where they share a crate below. So one `rt all
check --jobs N` proves the crates, in a tree of its own with no other crates: out/proved at the top
of the clone. It has copies of their sources. What earlier checks kept of them is moved there, and
back at the end, whatever the end is, and the tree is removed: `rt ci` refuses a clone with a second
crates.txt. After a kill the next run does both."""
import contextlib
import fcntl
import os
import re
import shutil
import tempfile

from tools.commands import Failed, end_running, is_quiet, run, say, text_of
from tools.crates import crates_below, libraries
from tools.machine import cores, free_memory
from tools.progress import Progress, sections

PARTS, KEPT = ("src", "specs", "proofs"), ("incremental", "rlib")
# The memory that a proof has to have, in bytes.
MEMORY = 2_500_000_000


def jobs_that_fit():
    """How many proofs may run at a time: one a core, and fewer where memory is short."""
    return max(min(cores(), free_memory() // MEMORY), 1)


def uses_of(root, names):
    """The crates that these are built of, and they themselves, the lowest first: each with the
    crates of the repository that it names."""
    found = libraries(root)
    return {
        crate: [it for it in found[crate] if it in found] for crate in crates_below(found, names)
    }


def move_kept(crates, source, target):
    """Moves what is kept of crates to another tree, in place of what is kept there."""
    for path in [f"crates/{crate}/out/{kept}" for crate in crates for kept in KEPT]:
        if os.path.isdir(f"{source}/{path}"):
            shutil.rmtree(f"{target}/{path}", ignore_errors=True)
            os.makedirs(os.path.dirname(f"{target}/{path}"), exist_ok=True)
            shutil.move(f"{source}/{path}", f"{target}/{path}")


def write_lists(root, tree, crates):
    """Writes what `rt` has to know of a tree of these crates."""
    shutil.copyfile(f"{root}/HANDLES", f"{tree}/HANDLES")
    with open(f"{root}/crates.txt", encoding="ascii") as lines, open(
        f"{tree}/crates.txt", "w", encoding="ascii"
    ) as it:
        it.writelines(line for line in lines if re.match(r"\w*", line)[0] in crates)


def make_tree(root, tree, crates):
    """Makes a tree of these crates alone."""
    for path in [f"crates/{crate}/{part}" for crate in crates for part in PARTS]:
        if os.path.isdir(f"{root}/{path}"):
            shutil.copytree(f"{root}/{path}", f"{tree}/{path}")
    write_lists(root, tree, crates)


@contextlib.contextmanager
def tree_of(root, crates):
    """The tree of these crates, with what is kept of them. It is there as long as the `with`, for
    one process at a time."""
    tree = f"{root}/out/proved"
    os.makedirs(f"{tree}/crates", exist_ok=True)
    with open(f"{root}/out/proved.lock", "w", encoding="ascii") as lock:
        try:
            fcntl.flock(lock, fcntl.LOCK_EX | fcntl.LOCK_NB)
        except BlockingIOError as error:
            raise Failed("another ./install is proving in this clone") from error
        # A run that was killed left its tree.
        move_kept(os.listdir(f"{tree}/crates"), tree, root)
        shutil.rmtree(tree)
        try:
            move_kept(crates, root, tree)
            make_tree(root, tree, crates)
            yield tree
        finally:
            move_kept(crates, tree, root)
            shutil.rmtree(tree, ignore_errors=True)


def show(progress, text):
    """Prints a line where crates have ended, and one in ten seconds. A crate that is not proved
    ends all."""
    # It is a second since it was seen, so that all is there that `rt` prints of it.
    if progress.failed():
        end_running()
    ended = progress.update(text)
    proved = [it for it in ended if it not in progress.failed()]
    if proved:
        say(f"{', '.join(proved)}: proved; {progress.text()}")
    if is_quiet():
        say(
            f"{'proving ' + ', '.join(progress.under_way()) if progress.is_read else 'reading all'}; {progress.text()}"
        )


def why_not(progress, text):
    """What to say where not all is proved."""
    said, of_all = sections(text), re.findall(r"^(\w+): failed", text, flags=re.M)
    for crate in [*progress.failed(), *of_all]:
        return f"{crate} is not proved\n{said.get(crate, text)[-3000:]}"
    return f"not all is proved\n{text[-3000:]}"


def prove(root, names, jobs):
    """Proves crates and those that they are built of, at most so many at a time."""
    uses = uses_of(root, names)
    with tree_of(root, uses) as tree, tempfile.TemporaryFile() as log:
        progress = Progress(tree, uses, jobs)
        say(f"{len(uses)} crates, {jobs} at a time: {progress.text()}")
        status = run(
            ["rt", "all", "check", "--jobs", str(jobs)],
            tree,
            log,
            lambda: show(progress, text_of(log)),
        )
        show(progress, text_of(log))
        if status:
            raise Failed(why_not(progress, text_of(log)))
