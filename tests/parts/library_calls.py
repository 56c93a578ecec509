"""The library for C, called from C and from Python on all examples and on cases of
crates/rows_scripts: the bytes are those of the program, or of the case file. A script is run at
once, and on a kept job in pieces of up to as many lines as LINES says."""
import json
import re
import subprocess
import tempfile
from functools import partial

from common.library_build import build_calls, python_words
from common.library_inputs import SHEET, Printed, Room, all_inputs, printed_by
from common.outcome import Skipped
from common.part import Part, in_turn
from common.texts import first_difference, last_lines

TITLE = "the library for C, called from C and Python, against the program"
ONE_SHEET = [it for it in SHEET if it.isdigit()]
LINES = 1, 4, 20
BAD_SCRIPT = b"refused 2 BadScript"
# The first line of what a call prints.
SIZES = re.compile(rb"\d+ \d+ \d+")


def made_in_c(root, archive, room, calls):
    """Makes calls from C, each in a process of its own, and gives how each ended."""
    return (room.run([build_calls(root, archive), *words]) for words in calls)


def made_in_python(root, archive, room, calls):
    """Makes calls from Python, in one process until one fails, and gives the same."""
    words, env = python_words(root, archive, [f"{root}/tests/clients/python_calls.py"])
    ran = room.run(words, json.dumps(calls).encode(), env)
    left = ran.stdout
    for call in calls:
        line = left.partition(b"\n")[0]
        size = (
            len(line) + 1 + sum(map(int, line.split()[1:])) if SIZES.fullmatch(line) else len(left)
        )
        yield subprocess.CompletedProcess(
            call, 0 if size < len(left) else ran.returncode, left[:size], ran.stderr
        )
        left = left[size:]


# The calls on scripts, each with that on a job, and those that give a listing.
KINDS = {
    made_in_c: ([("run", "job"), ("run_replies", "job_replies")], ["list"]),
    made_in_python: ([("run", "job")], ["list", "marks"]),
}


def printed(ran):
    """What a call printed, or what is wrong with it."""
    line, _, rest = ran.stdout.partition(b"\n")
    if ran.returncode or not SIZES.fullmatch(line):
        return f"the status is {ran.returncode}: {last_lines(ran.stderr)}"
    status, first, second = map(int, line.split())
    return (
        Printed(status, rest[:first], rest[first:])
        if len(rest) == first + second
        else f"{len(rest)} bytes are printed, and not {first} and {second}"
    )


def differs(call, found, wanted):
    """What is wrong with a call, or None."""
    if isinstance(found, str):
        return f"{call}: {found}"
    if found.status != wanted.status:
        return f"{call}: the status is {found.status} and not {wanted.status}"
    return first_difference(f"{call}: the text", found.text, wanted.text) or first_difference(
        f"{call}: the file", found.dvi, wanted.dvi
    )


def calls_of(room, wanted, kinds, listings):
    """The calls that are made, each with its words and with what it has to give. Replies that come
    as numbers are printed as the texts of the answers, and in Python marks as a listing."""
    script = wanted["run"]
    for run, job in kinds:
        yield run, [run, "script", *room.fonts], script
        if not script.text.startswith(
            BAD_SCRIPT
        ):  # a bad piece is refused, and not the whole script
            for most in LINES:
                yield f"{job}, pieces of up to {most}", [
                    job,
                    str(most),
                    "script",
                    *room.fonts,
                ], script
    if "list" in wanted:
        room.write("out.dvi", script.dvi)
        for call in listings:
            yield call, [call, "out.dvi", *room.fonts], wanted["list"]
        yield "paint", ["paint", *ONE_SHEET, "out.dvi", *room.fonts], wanted["paint"]


def outcome(make, given, root, archive=None, *programs):
    """Makes all calls on an input."""
    wanted = printed_by(programs[0], root, given.name) if programs else {"run": given.wanted}
    if not wanted["run"]:
        return Skipped("it compares with a built program: --program")
    if given.wanted not in (None, wanted["run"]):
        return "the program does not give what the case file has"
    with tempfile.TemporaryDirectory(prefix="boxglue-library-") as path:
        room = Room(path, given)
        names, calls, texts = zip(*calls_of(room, wanted, *KINDS[make]))
        made = make(root, archive, room, calls)
        return next(
            filter(
                None,
                (
                    differs(name, printed(ran), its)
                    for name, ran, its in zip(names, made, texts, strict=True)
                ),
            ),
            None,
        )


def cases(make, programs, root):
    """The inputs. The first of the programs is the archive, and those of boxglue come after it."""
    for given in all_inputs(root):
        yield given.name, partial(outcome, make, given, root, *programs)


def parts(_root):
    """A part for each language."""
    for name, language, make in (
        ("library_c", "C", made_in_c),
        ("library_python", "Python", made_in_python),
    ):
        yield Part(
            name,
            f"the library called from {language}, on examples/ and cases of rows_scripts",
            partial(cases, make),
            "library",
            True,
            split=in_turn(4),
        )
