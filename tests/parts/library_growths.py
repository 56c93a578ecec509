"""The library for C where memory is refused, and where its inputs are no good ones, by the program
of bindings/c.
Each growth of a call is refused in turn: the buffers are as they were at status 2, a refused
command is in the answers at 7, the device failed at 1, and all that was taken is freed. Random
bytes as scripts, DVI files and metric files give a status.
On a kept job the same: a call with status 2 is made again and the rest is as without it, at 10
answers alone are lost, and all is freed with the job. Random pieces give what one run of those
gives that are not bad. Jobs are freed after each line of a script, and no block of one is left: a
heap that counts says so."""
import re
import tempfile
from functools import partial

from common.library_build import build_calls
from common.library_inputs import Room, all_inputs
from common.part import in_turn
from common.texts import last_lines
from parts.library_calls import ONE_SHEET

TITLE = "the library for C: each growth refused, random bytes as inputs, random pieces on jobs"
PROGRAM = "library"
NEEDS_PROGRAM = True
SPLIT = in_turn(4)
SCRIPTS = """one_rule_page.box two_boxes.box text.box page_of_text.box ruled_table.box nested_lists.box fonts_in_nested_boxes a_font_of_two_pages bad_script
    specials_that_are_copied_and_unboxed""".split()
LINES = 3
RANDOM, RANDOM_PIECES = "page_of_text.box", "text.box"
STRINGS = 1000
COUNTED = re.compile(
    r"growths (\d+): nothing done (\d+), a command refused (\d+), the device failed (\d+), no difference (\d+)\n"
)
COUNTED_JOB = re.compile(
    r"growths (\d+): made again (\d+), a command refused (\d+), the device failed (\d+), answers lost (\d+), no difference (\d+)\n"
)
PIECES = re.compile(
    r"pieces %d: accepted \d+, some refused \d+, bad \d+; jobs \d+, with a file [1-9]\d*\n"
    % STRINGS
)
FREED = re.compile(r"freed (\d+) jobs of up to (\d+) blocks\n")
TRIED = re.compile(r"(?:(?:script|dvi|tfm) %d:(?: status \d+ \d+)+\n){3}" % STRINGS)


def given_of(root, name):
    """An input by its name."""
    return next(it for it in all_inputs(root) if it.name == name)


def run_calls(root, archive, room, words):
    """Runs the program. Returns what it prints, or raises what is wrong."""
    ran = room.run([build_calls(root, archive), *words])
    if ran.returncode:
        raise ValueError(
            f"{' '.join(words[:2])}: the status is {ran.returncode}: {last_lines(ran.stderr)}"
        )
    return ran.stdout


def outputs_of(printed):
    """The two outputs of a call, whose sizes are in its first line."""
    line, _, rest = printed.partition(b"\n")
    first = int(line.split()[1])
    return rest[:first], rest[first:]


def write_dvi(root, archive, room):
    """Runs the script of a folder, and writes its DVI file as out.dvi. Returns whether there is
    one."""
    dvi = outputs_of(run_calls(root, archive, room, ["run", "script", *room.fonts]))[1]
    room.write("out.dvi", dvi)
    return bool(dvi)


def count_wrong(output, counted=COUNTED):
    """What is wrong with the counts of refused growths: each call ended in one way."""
    found = counted.fullmatch(output.decode())
    if not found:
        return f"the program printed {output[:200]!r}"
    growths, *ways = map(int, found.groups())
    if growths and sum(ways) == growths:
        return None
    return f"{growths} growths were refused, and {sum(ways)} calls ended"


def growths_wrong(root, archive, name):
    """Refuses each growth of the calls on a script and on its file."""
    with tempfile.TemporaryDirectory(prefix="boxglue-library-") as path:
        given = given_of(root, name)
        room = Room(path, given)
        calls = [("run", "script", *room.fonts), ("run_replies", "script", *room.fonts)]
        if write_dvi(root, archive, room):
            calls += [
                ("list", "out.dvi", *room.fonts),
                ("paint", *ONE_SHEET, "out.dvi", *room.fonts),
                ("fonts", "out.dvi"),
            ]
        for words in calls:
            wrong = count_wrong(run_calls(root, archive, room, ["--refuse", *words]))
            if wrong:
                return f"{words[0]}: {wrong}"
    return None


def job_growths_wrong(root, archive, name):
    """Refuses each growth of the calls on a job that runs a script in pieces."""
    with tempfile.TemporaryDirectory(prefix="boxglue-library-") as path:
        room = Room(path, given_of(root, name))
        for call in ("job", "job_replies"):
            wrong = count_wrong(
                run_calls(
                    root, archive, room, ["--refuse", call, str(LINES), "script", *room.fonts]
                ),
                COUNTED_JOB,
            )
            if wrong:
                return f"{call}: {wrong}"
        return None


def frees_wrong(root, archive, name):
    """Frees jobs after each line of a script, with and without an end."""
    with tempfile.TemporaryDirectory(prefix="boxglue-library-") as path:
        given = given_of(root, name)
        room = Room(path, given)
        output = run_calls(root, archive, room, ["frees", "script", *room.fonts]).decode()
    found = FREED.fullmatch(output)
    jobs = 2 * (given.script.count(b"\n") + 1)
    if found and int(found[1]) == jobs and int(found[2]) > 1:
        return None
    return f"the program printed {output[:200]!r}, and {jobs} jobs are wanted"


def handles_wrong(root, archive):
    """Makes the calls of a job on handles without one, and on a handle that has one."""
    with tempfile.TemporaryDirectory(prefix="boxglue-library-") as path:
        output = run_calls(root, archive, Room(path, given_of(root, RANDOM)), ["handles"])
    return f"the program printed {output[:200]!r}" if output else None


def pieces_wrong(root, archive):
    """Gives jobs random pieces."""
    with tempfile.TemporaryDirectory(prefix="boxglue-library-") as path:
        room = Room(path, given_of(root, RANDOM_PIECES))
        output = run_calls(root, archive, room, ["pieces", str(STRINGS), "script", room.fonts[0]])
    return None if PIECES.fullmatch(output.decode()) else f"the program printed {output[:200]!r}"


def random_wrong(root, archive):
    """Gives the library random bytes."""
    with tempfile.TemporaryDirectory(prefix="boxglue-library-") as path:
        room = Room(path, given_of(root, RANDOM))
        write_dvi(root, archive, room)
        output = run_calls(
            root, archive, room, ["random", str(STRINGS), "script", "out.dvi", room.fonts[0]]
        )
    return None if TRIED.fullmatch(output.decode()) else f"the program printed {output[:200]!r}"


def outcome(call, root, programs):
    """Runs a case, where something can be built."""
    return call(root, programs[0])


def cases(programs, root):
    """The scripts whose growths are refused, at once and in pieces, and whose jobs are freed;
    random bytes; random pieces; and handles."""
    calls = {
        name: partial(lambda name, *words: growths_wrong(*words, name), name) for name in SCRIPTS
    }
    calls |= {
        f"job of {name}": partial(lambda name, *words: job_growths_wrong(*words, name), name)
        for name in SCRIPTS
    }
    calls |= {
        f"freed after each line of {name}": partial(
            lambda name, *words: frees_wrong(*words, name), name
        )
        for name in SCRIPTS
    }
    calls |= {"random bytes": random_wrong, "random pieces": pieces_wrong, "handles": handles_wrong}
    return [(name, partial(outcome, call, root, programs)) for name, call in calls.items()]
