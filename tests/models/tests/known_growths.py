"""The kinds of runs with a refused growth (growth_kinds.py), on answers that are written here, each
with its kind or none. It runs no program."""
from functools import partial

from models.growth_kinds import ALONE, FAILED, OVER, WANTS_MEMORY, Answered, Ended, Wrong, kind_of
from models.growth_scripts import Script
from models.large_inputs import hexadecimal

TITLE = "the kinds of runs with a refused growth, on answers that are written by hand"

FILE = bytes(range(100))
LINES = ("hbox into 0", "rule 1pt 1pt 0pt", "end", "copy 0", "ship 0", "measure 0", "ship 1")
REPLIES = {
    1: "ok",
    2: "ok",
    3: "packed",
    4: "added 1",
    5: "shipped 1",
    6: "measured void",
    7: "shipped 2",
}
END = "pages 2 bytes 100"
SCRIPT = Script("", (), LINES, b"", 0, FILE, (40, 80))
WHOLE = Answered(REPLIES, END, FILE)
WITHOUT_COPY = Answered(
    {**{at: it for at, it in REPLIES.items() if at != 4}, 7: "refused 21 VoidBox"},
    "pages 1 bytes 60",
    FILE[:60],
)
COPY_REFUSED = {**WITHOUT_COPY.replies, 4: WANTS_MEMORY}


def run(replies, end, data=b"", status=1, errors=b""):
    """A run with these answers on a device in memory."""
    text = "".join(f"{at}: {it}\n" for at, it in sorted(replies.items())) + f"end: {end}\n"
    return Ended(status, text.encode() + hexadecimal(data), errors, b"")


def over_from(line):
    """The replies if the device fails in a line."""
    return {at: it if at < line else FAILED if at == line else OVER for at, it in REPLIES.items()}


# By name: a run, and the letter of its kind, or None if it is none.
RUNS = {
    "nothing_was_run": (Ended(1, ALONE, b"", b""), "n"),
    "only_the_texts_lack": (Ended(1, ALONE, b"", FILE), "t"),
    "a_part_of_the_file_without_answers": (Ended(1, ALONE, b"", FILE[:40]), None),
    "out_of_memory_with_status_0": (Ended(0, ALONE, b"", b""), None),
    "a_signal": (Ended(-11, b"", b"", b""), None),
    "no_output": (Ended(1, b"", b"", b""), None),
    "something_on_standard_error": (Ended(1, ALONE, b"x", b""), None),
    "all_as_always": (run(REPLIES, END, FILE, 0), "w"),
    "all_as_always_with_status_1": (run(REPLIES, END, FILE), None),
    "a_reply_changed": (run({**REPLIES, 3: "packed too"}, END, FILE), None),
    "a_byte_changed": (run(REPLIES, END, FILE[:-1] + b"x", 0), None),
    "a_command": (run(COPY_REFUSED, "pages 1 bytes 60", FILE[:60]), "c"),
    "a_command_that_left_a_part": (
        run({**COPY_REFUSED, 7: "shipped 2"}, "pages 1 bytes 60", FILE[:60]),
        None,
    ),
    "a_command_and_other_bytes": (run(COPY_REFUSED, "pages 1 bytes 60", FILE[:61]), None),
    "a_command_with_status_0": (run(COPY_REFUSED, "pages 1 bytes 60", FILE[:60], 0), None),
    "two_commands": (run({**COPY_REFUSED, 2: WANTS_MEMORY}, "pages 1 bytes 60", FILE[:60]), None),
    "a_command_that_takes_no_memory": (run({**REPLIES, 6: WANTS_MEMORY}, END, FILE), None),
    "an_end_into_a_register": (run({**REPLIES, 3: WANTS_MEMORY}, END, FILE), None),
    "the_device_at_the_first_page": (run(over_from(5), OVER), "d"),
    "the_device_at_the_second_page": (run(over_from(7), OVER, FILE[:40]), "d"),
    "the_device_with_half_a_page": (run(over_from(7), OVER, FILE[:41]), None),
    "the_device_and_the_job_goes_on": (run({**over_from(5), 6: REPLIES[6]}, OVER), None),
    "the_device_where_nothing_is_shipped": (run(over_from(2), OVER), None),
    "the_end": (run(REPLIES, WANTS_MEMORY, FILE[:80]), "e"),
    "the_end_half_written": (run(REPLIES, WANTS_MEMORY, FILE[:90]), None),
    "the_device_at_the_end": (run(REPLIES, FAILED, FILE[:80]), "f"),
    "another_refusal_of_the_end": (run(REPLIES, "refused 17 ListsOpen", FILE[:80]), None),
}


def without(line):
    """The answers of the script without a line; only those without the copy may be asked for."""
    return WITHOUT_COPY if line == 4 else WHOLE


def wrong_kind(ended, letter):
    """Returns what is wrong with the kind that was found for a run, or None."""
    try:
        found = kind_of(SCRIPT, ended, WHOLE, without).letter
    except Wrong:
        found = None
    return None if found == letter else f"the kind is {found} and not {letter}"


def cases(programs, root):
    """The runs, by name."""
    return [(name, partial(wrong_kind, *it)) for name, it in RUNS.items()]
