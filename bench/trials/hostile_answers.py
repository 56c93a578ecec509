"""What the program may answer by docs/COMMANDS.md, docs/FORMATS.md and the manual page: the form of
every line, and which refusals each command has."""

import re
from typing import NamedTuple, Optional

from common.outcome import require

NAMES = """
    OutOfMemory BadScript DimensionTooLarge NoFont BadTfm SlotTaken NoOpenList WrongMode WrongKind ListTooLong TooDeep InfiniteShrink TooManyBreaks
    HugePage TooManyPages TooMuchShipped ListsOpen Device JobOver BadDvi VoidBox TooMuchSpecial""".split()
FONT_CAUSES = "TooShort|Counts|DesignSize|CharInfo|FixWord|LigKern"
SCRIPT_CAUSES = "Byte|Word|Missing|Extra|Number|Dimension|Name"
FILE_CAUSES = "Trailer|Version|Opcode|Pointer|Count|Preamble|Truncated|Stack|Glyph|Range|Font"
D, N = r"-?\d+\.\d{1,5}pt", r"\d+"
SIZES = "%s %s %s" % (D, D, D)
PACKED = "packed %s badness %s" % (SIZES, N)
PARAGRAPH = "paragraph lines %s pass [0-3] overhang %s demerits -?%s" % (N, N, N)
SPLIT = "split (?:void|%s badness %s rest (?:void|%s))" % (SIZES, N, SIZES)
# The commands with one answer, which is named below, and the numbers of their refusals.
ANSWERED = """
    font ok 6 4 5 3 1; use ok 4; hbox vbox vtop ok 7 11 1; par ok 7 8 11 1; end ended 7 3 11 10 12 13 1; text char shaped 7 8 4 10 1
    rule ok 7 8 10 1; kern glue penalty ok 7 10 1; special ok 7 22 10 1; box copy put 7 3 10 1; unhbox unhcopy unvbox unvcopy put 7 8 9 10 1
    lastbox ok 7; vsplit split 9 12 3 1; measure measured; void set count ok; ship shipped 21 15 16 22 14 1 18"""
ANSWERS = {
    "ok": "ok",
    "ended": "%s|%s" % (PACKED, PARAGRAPH),
    "shaped": "added %s missing %s" % (N, N),
    "put": "added %s" % N,
    "split": SPLIT,
}
ANSWERS |= {"measured": "measured (?:void|[hv]box %s)" % SIZES, "shipped": "shipped %s" % N}


def commands():
    """Each command with the pattern of its answer and the numbers of its refusals."""
    for row in ANSWERED.replace("\n", ";").split(";"):
        words = row.split()
        at = next((at for at, it in enumerate(words) if it in ANSWERS), 0)
        for command in words[:at]:
            yield command, ANSWERS[words[at]], [*map(int, words[at + 1 :])]


def refusal_pattern(numbers):
    """The refusals of these numbers, and JobOver, which a device that failed leads to."""
    causes = {5: f" (?:{FONT_CAUSES})"}
    known = [f"{it} {NAMES[it - 1]}{causes.get(it, '')}" for it in (*numbers, 19)]
    return f"refused (?:{'|'.join(known)})"


REPLIES = {
    word: re.compile(f"(?:{answer}|{refusal_pattern(numbers)})")
    for word, answer, numbers in commands()
}
END = re.compile(r"end: (?:pages (\d+) bytes (\d+)|%s)" % refusal_pattern((17, 1, 18)))
BAD_LINE = re.compile(r"refused 2 BadScript (\d+) (%s)" % SCRIPT_CAUSES)
BAD_SCRIPT = re.compile(r"refused 2 BadScript (\d+) (?:%s)\n" % SCRIPT_CAUSES)
READING_REFUSED = re.compile(
    r"refused (?:1 OutOfMemory|20 BadDvi (\d+) (?:%s)|4 NoFont|5 BadTfm (?:%s)|3 DimensionTooLarge)\n"
    % (FILE_CAUSES, FONT_CAUSES)
)
MARK = re.compile(
    rb"glyph -?\d+ -?\d+ -?\d+ -?\d+|rule -?\d+ -?\d+ [1-9]\d* [1-9]\d*|special -?\d+ -?\d+ (?:[ -\[\]-~]|\\[0-9a-f][0-9a-f])*"
)
PAGE = re.compile(rb"page (\d+) counts(?: -?\d+){10}")
FONTS = re.compile(
    rb"units [1-9]\d* [1-9]\d* [1-9]\d*\n(?:font -?\d+ (?:[!-\[\]-~]|\\(?:[0-9a-f]{2})?)+ [1-9]\d* -?\d+ [0-9a-f]{8}(?: (?:[!-\[\]-~]|\\[0-9a-f]{2})+)?\n)*"
)
HEX = re.compile(rb"(?:(?:[0-9a-f]{32}\n)*(?:(?:[0-9a-f]{2}){1,15}\n)?)")
ONE_MESSAGE = re.compile(
    rb"boxglue: (?:(cannot (?:read|write)) |not NAME=TFM: |name given twice: |no such page)[^\0]*\n",
    re.S,
)
HELP = re.compile(rb"(?:error: |[^\n]*\n\nUsage: boxglue)", re.S)
VERSION = re.compile(
    rb"boxglue \d+\.\d+\.\d+ (?:\(rattle logic [0-9a-f]+\)|UNPROVED, with(?:out)? run-time checks)\n"
)


class Ran(NamedTuple):
    """The end of a run: its status, both outputs, the file that it wrote or None, its seconds of
    processor, and its greatest memory in bytes."""

    status: int
    output: bytes
    errors: bytes
    made: Optional[bytes] = None
    seconds: float = 0.0
    memory: int = 0

    def same(self, other):
        """Whether another run has the same results."""
        return self[:4] == other[:4]


def command_lines(script):
    """The numbers and commands of the lines that are not passed over."""
    lines = script.split(b"\n")
    for number, line in enumerate(lines, 1):
        if number < len(lines):
            line = line.removesuffix(b"\r")
        if line and not line.startswith(b"%"):
            yield number, line.split()[0].decode("latin-1") if line.split() else ""


def check_replies(script, replies):
    """Each command has one reply, and it is one that this command has; a bad line of a session has
    its refusal."""
    commands = list(command_lines(script))
    require(len(commands) == len(replies), f"{len(commands)} commands have {len(replies)} replies")
    shipped = 0
    for (number, word), reply in zip(commands, replies):
        bad = BAD_LINE.fullmatch(reply)
        at, _, text = reply.partition(": ")
        is_right = at == str(number) and word in REPLIES and REPLIES[word].fullmatch(text)
        is_right = int(bad[1]) == number if bad else is_right
        require(is_right, f"line {number}, {word}, is answered {reply!r}")
        if text.startswith("shipped"):
            shipped += 1
            require(text == f"shipped {shipped}", f"page {shipped} is answered {reply!r}")
    return shipped


def check_run(script, output, is_session=False):
    """Checks the answers to a script, of a session also those to bad lines. Returns what came of
    it: bad, refused, accepted; the pages and bytes that the end says, or None; and what comes after
    the answers."""
    bad = None if is_session else BAD_SCRIPT.fullmatch(output.decode("latin-1"))
    if bad:
        require(1 <= int(bad[1]) <= script.count(b"\n") + 1, f"the bad line is {bad[1]}")
        return "bad", None, b""
    if output == b"refused 1 OutOfMemory\n":
        return "no memory", None, b""
    head, found, rest = (b"\n" + output).rpartition(b"\nend: ")
    require(found, f"there is no end: {output[-200:]!r}")
    end, _, rest = rest.partition(b"\n")
    said = END.fullmatch("end: " + end.decode("latin-1"))
    require(said, f"the end is {end!r}")
    replies = head.decode("latin-1").split("\n")[1:]
    shipped = check_replies(script, replies)
    is_script = is_session or not any(map(BAD_LINE.fullmatch, replies))
    require(is_script, f"one line alone is bad: {output[:200]!r}")
    is_counted = not said[1] or int(said[1]) == shipped
    require(is_counted, f"{shipped} pages were shipped, and the end says {end!r}")
    counts = (int(said[1]), int(said[2])) if said[1] else None
    return "refused" if b"refused " in output else "accepted", counts, rest


def check_listing(output):
    """Checks a listing, and returns how many pages it has."""
    pages, (*lines, last) = 0, output.split(b"\n")
    for line in lines:
        page = PAGE.fullmatch(line)
        pages += bool(page)
        is_right = int(page[1]) == pages if page else pages and MARK.fullmatch(line)
        require(is_right, f"{line!r} is listed")
    require(not last, f"the listing ends with {last[-20:]!r}")
    return pages


def check_bitmap(output):
    """Checks the form of a bitmap."""
    head = re.match(rb"P1\n(\d+) (\d+)\n", output)
    require(head, f"{output[:50]!r} is painted")
    width, height = map(int, head.groups())
    row = b"".join(b"0" * min(70, width - at) + b"\n" for at in range(0, width, 70))
    is_size = 1 <= width <= 10000 and 1 <= height <= 10000
    is_drawn = is_size and output[head.end() :].replace(b"1", b"0") == row * height
    require(is_drawn, f"a bitmap of {width} by {height} has {len(output)} bytes")


def check_fonts(output):
    """Checks the form of what `fonts` prints."""
    require(FONTS.fullmatch(output), f"the fonts are {output[:200]!r}")


CHECKS = {b"list": check_listing, b"paint": check_bitmap, b"fonts": check_fonts}


def check_reading(ran, length, command):
    """Checks a `list`, a `paint` or a `fonts` of a file of this length, or of any. Returns what
    came of it."""
    refused = READING_REFUSED.fullmatch(ran.output.decode("latin-1"))
    if refused:
        is_right = ran.status == 1 and not ran.errors
        require(is_right, f"refused with status {ran.status}, {ran.errors[:200]!r}")
        is_inside = not refused[1] or length is None or int(refused[1]) <= length
        require(is_inside, f"the place is {refused[1]} of {length}")
        return ran.output.split()[2].decode()
    if ran.errors == b"boxglue: no such page\n":
        is_right = command == b"paint" and ran.status == 2 and not ran.output
        require(is_right, f"no such page, with status {ran.status} and {ran.output[:200]!r}")
        return "no such page"
    require(ran.status == 0 and not ran.errors, f"status {ran.status}, {ran.errors[:200]!r}")
    CHECKS[command](ran.output)
    return "accepted"


def check_streams(ran):
    """Checks what holds for every run: a documented status, and a text where one is promised.
    Returns the message on standard error, or b""."""
    message = ONE_MESSAGE.fullmatch(ran.errors)
    is_about_a_file = message and message[1]
    is_right = {
        0: not ran.errors,
        1: is_about_a_file or not ran.errors and b"refused " in ran.output,
        2: (HELP.match(ran.errors) or message and not is_about_a_file) and not ran.output,
    }
    said = f"status {ran.status}, {ran.output[:200]!r}, {ran.errors[-300:]!r}"
    require(is_right.get(ran.status), said)
    return message[1] or b"words" if message else b""
