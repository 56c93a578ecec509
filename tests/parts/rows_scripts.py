"""The cases of crates/rows_scripts/stdin: all in one run of the program `rows_scripts`, built or by
`rt try`, compared with its file stdout."""
import functools
import os
import re
import subprocess

from common.case_folder import read
from common.running import finished
from common.texts import blocks, first_difference, last_lines
from common.trying import rt_try

TITLE = "scripts and their answers, on the case file of crates/rows_scripts"
PROGRAM = "rows_scripts"
WEIGHT = 3
LIMIT = 300


def run_built(program, given):
    """Runs a built program. Returns its output, and what is wrong with the run, if anything is."""
    try:
        ran = finished([program], input=given, env={})
    except (OSError, subprocess.TimeoutExpired) as error:
        return b"", f"{error}"
    return (
        ran.stdout,
        f"the status is {ran.returncode}: {last_lines(ran.stderr)}" if ran.returncode else None,
    )


def run_tried(root, given):
    """Runs the program by `rt try`, and returns the same."""
    # The interpreter of `rt try` cannot run it. Compiled, it takes more than the usual 60 seconds
    # on a busy machine.
    status, output, errors = rt_try(
        root, "rows_scripts", ["--steps", "1", "--seconds", str(LIMIT)], given
    )
    return output, f"rt try: {last_lines(errors)}" if status else None


def compare(name, wanted, found, why):
    """What is wrong with the run, or with its output for one case."""
    if why or name not in found:
        return why or "nothing is printed for this case"
    if [*found] != [*wanted] or found[b""] != wanted[b""]:
        return "the cases that are printed are not those of the file stdout"
    return first_difference("the text", found[name], wanted[name])


def cases(programs, root):
    """The cases of the file, by their order."""
    folder = f"{root}/crates/rows_scripts"
    given, wanted = read(folder, "stdin"), blocks(read(folder, "stdout"))

    @functools.lru_cache(None)
    def runs():
        found = {os.path.basename(it): run_built(it, given) for it in programs} or {
            "rows_scripts": run_tried(root, given)
        }
        return {build: (blocks(output), why) for build, (output, why) in found.items()}

    def outcome(name):
        found = {build: compare(name, wanted, *run) for build, run in runs().items()}
        return "; ".join(f"{build}: {why}" for build, why in found.items() if why) or None

    for name in re.findall(rb"^case (.*)$", given, re.M):
        yield name.decode(), functools.partial(outcome, name)
