"""The possible results of a run in which one growth of memory is refused, and their order from the
first growth to the last.

  n   `refused 1 OutOfMemory` alone, and no file: for the words, the input, the commands, the slots,
  the registers or the room for the replies; in a
      run on a device in memory, whose bytes are printed, also for the texts at the end
  w   as without a refusal: a later growth replaces room that is asked for in advance; or a `ship`
  is refused HugePage, or a paragraph DimensionTooLarge
      for one of its lines, which is found without memory after a refused growth
  c   a command answers OutOfMemory; all other answers, the status and the bytes are those of the
  script without this command
  d   the growth was one of the device in memory, so it failed in a `ship`: Device, then JobOver,
  and only the pages before it are in the file e   `end: refused 1 OutOfMemory`: all pages are in
  the file, and no end
  f   `end: refused 18 Device`: the same
  t   `refused 1 OutOfMemory` alone, for the texts of the answers: the whole file is written
  s   a session stops: its last line is `refused 1 OutOfMemory` after the answers of the lines
  before, whose pages are in the file, and no end"""
import re
from dataclasses import dataclass

from common.outcome import Wrong

ALONE = b"refused 1 OutOfMemory\n"
WANTS_MEMORY, FAILED, OVER = "refused 1 OutOfMemory", "refused 18 Device", "refused 19 JobOver"
MAY_TAKE_MEMORY = {
    *"font hbox vbox vtop par end text char rule kern glue penalty special ship box copy unhbox unhcopy unvbox unvcopy vsplit".split()
}
NOTHING, WHOLE, COMMAND, DEVICE, END, END_DEVICE, TEXTS, STOPPED = list("nwcdefts")
# Only the room for the words, if there are any, is replaced later. The device grows only when its
# room is used up. A line is answered as soon as it was run, so the texts grow between the commands;
# a run on a device in memory shows no difference between such a growth and one before the run. Each
# answer takes room for the longest one, so the texts at the end may find room.
# A `ship` of a huge page takes up to three pieces before it is refused: for its characters, for the
# other instructions, and for their places. Where the last line of 61 does not fit, neither the
# growth for the plan of all lines nor those for the boxes of the 60 lines before hide this.
WHOLE_RUNS = {"a_line_too_large": "w{61}", "refusals_leave_the_job": "w{0,3}"}
# The room for the answers of a session is there from the start; each line takes some for its
# command.
ORDER_OF_A_READING = re.compile("n+w?n+")


def order_of(name, task):
    """The order of the kinds in runs of a script by a task, or in memory."""
    whole = WHOLE_RUNS.get(name, "w?")
    return re.compile(
        {
            None: f"n+[cdn]*{whole}[cdn]*c[cdn]*d[cdn]*e+f?n*",
            "typeset": f"n+w?n+[ct]*{whole}[ct]*c[ct]*e+t*",
            "session": f"n+w?n+[cs]*{whole}[cs]*c[cs]*e+",
        }[task]
    )


@dataclass(frozen=True)
class Ended:
    """The result of a run: its status, its output, and the file that it wrote, which is empty if
    there is none."""

    status: int
    output: bytes
    errors: bytes
    made: bytes


@dataclass(frozen=True)
class Answered:
    """A run by its answers: the reply of each line with a command, the end, and the bytes that the
    device took."""

    replies: dict
    end: str
    data: bytes


@dataclass(frozen=True)
class Kind:
    """The letter of a kind, and the line of the command that met the refused growth, if one did."""

    letter: str
    line: int = 0


def answered(ended):
    """The answers of a run that was answered whole. The lines of digits after them are the bytes of
    a device in memory."""
    head, found, digits = ended.output.partition(b"end: ")
    if not found:
        raise Wrong(f"there is no end: {ended.output[-200:]!r}")
    end, _, digits = digits.partition(b"\n")
    replies = (line.split(": ", 1) for line in head.decode().splitlines())
    return Answered(
        {int(number): reply for number, reply in replies},
        end.decode(),
        ended.made + bytes.fromhex(digits.decode()),
    )


def boxes_into_registers(script):
    """The lines of the commands `end` that put their box into a register: these take no memory. A
    refused one leaves its list open."""
    refused = {
        int(line.partition(b":")[0])
        for line in script.answers.splitlines()
        if re.match(rb"\d+: refused ", line)
    }
    opened, found = [], set()
    for at, line in enumerate(script.lines, 1):
        word = line.split()[0]
        if word in ("hbox", "vbox", "vtop", "par"):
            opened.append("into" in line)
        elif word == "end" and opened:
            if opened[-1]:
                found.add(at)
            if at not in refused:
                opened.pop()
    return found


def of_command(script, line, run, without):
    """A command ran out of memory: all else is as in the script without it."""
    command = script.lines[line - 1]
    if command.split()[0] not in MAY_TAKE_MEMORY or line in boxes_into_registers(script):
        raise Wrong(f"line {line}, {command}, takes no memory")
    others = {at: reply for at, reply in run.replies.items() if at != line}
    if Answered(others, run.end, run.data) != without(line):
        raise Wrong(f"line {line}, {command}, wanted memory, and all else is not as without it")
    return Kind(COMMAND, line)


def front(script, pages):
    """The bytes of the first pages of a script."""
    return script.file[: script.page_ends[pages - 1]] if pages else b""


def of_device(script, line, run, whole):
    """The device failed in a `ship`: all before it is as usual, and all after it is JobOver."""
    shipped = re.fullmatch(r"shipped (\d+)", whole.replies[line])
    if not shipped:
        raise Wrong(f"the device failed in line {line}, which ships nothing")
    replies = {at: reply if at < line else OVER for at, reply in whole.replies.items()}
    if run != Answered({**replies, line: FAILED}, OVER, front(script, int(shipped.group(1)) - 1)):
        raise Wrong(
            f"the device failed in line {line}, and the rest is not that of a job that is over"
        )
    return Kind(DEVICE, line)


def of_end(script, run, whole):
    """The finish was refused: the commands are answered as usual, and all pages are in the file."""
    letter = {WANTS_MEMORY: END, FAILED: END_DEVICE}.get(run.end)
    if not letter or run != Answered(whole.replies, run.end, front(script, len(script.page_ends))):
        raise Wrong(f"the answers are none of those after a refused growth, with the end {run.end}")
    return Kind(letter)


def of_no_answers(ended, whole):
    """Memory was refused before the script was run, or for the texts after it: then its file is
    whole."""
    if ended.made not in (b"", whole.data):
        raise Wrong(f"nothing was answered, and the file has {len(ended.made)} bytes")
    return Kind(TEXTS if ended.made else NOTHING)


def of_stopped(script, ended):
    """A session stopped for memory: the answers before are those of a beginning of the script, and
    the file has their pages."""
    said = ended.output.removesuffix(ALONE)
    if (
        not script.answers.startswith(said)
        or said[-1:] not in (b"", b"\n")
        or ended.made != front(script, said.count(b": shipped "))
    ):
        raise Wrong(
            f"a session stopped after {said[-100:]!r}, and its file has {len(ended.made)} bytes"
        )
    return Kind(STOPPED if said else NOTHING)


def kind_of(script, ended, whole, without):
    """The kind of a run in which one growth was refused. `whole` are the answers without a refusal,
    `without` those without the command of a line."""
    if ended.status not in (0, 1) or ended.errors:
        raise Wrong(f"the status is {ended.status}, standard error {ended.errors[:200]!r}")
    if (
        script.words[:1] == ("session",)
        and ended.output.endswith(ALONE)
        and ended.status == 1
        and b"end: " not in ended.output
    ):
        return of_stopped(script, ended)
    if ended.output == ALONE and ended.status == 1:
        return of_no_answers(ended, whole)
    run = answered(ended)
    if ended.status != (script.status if run == whole else 1):
        raise Wrong(f"the status is {ended.status}, with the end {run.end}")
    if run == whole:
        return Kind(WHOLE)
    refused = [at for at, reply in run.replies.items() if reply == WANTS_MEMORY]
    failed = [at for at, reply in run.replies.items() if reply == FAILED]
    if refused:
        return of_command(script, refused[0], run, without)
    return of_device(script, failed[0], run, whole) if failed else of_end(script, run, whole)


def order_wrong(kinds, order):
    """Returns what is wrong with the order of the kinds, or None."""
    letters = "".join(it.letter for it in kinds)
    lines = [it.line for it in kinds if it.line]
    if not order.fullmatch(letters):
        return f"the kinds come in the order {letters}"
    return None if lines == sorted(lines) else f"the commands come in the order {lines}"
