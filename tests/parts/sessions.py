"""`boxglue session`, by pipes: lines that come one by one, in pieces and all at once; readings and
writings that fail; and the scripts of other tests, which have here the answers and the file of
`typeset`. The answers to the talk below are those of rows of crates/rows_scripts, by the numbers of
its lines."""
import os
import re
import select
import signal
import socket
import struct
import subprocess
import tempfile
import time
from functools import partial

from common.case_folder import read
from common.files import write
from common.library_inputs import all_case_inputs, answers_to_each, example_inputs
from common.outcome import Wrong, on_each
from common.part import in_turn
from common.running import finished
from common.texts import blocks, first_difference, same

TITLE = "sessions by pipes"
NEEDS_PROGRAM = True
SPLIT = in_turn(4)
LIMIT = 60
# How long a client waits to see that no answer comes.
MOMENT = 0.05
OUT = "page.dvi"
# Lines, and their answers. The page is that of the row one_rule_page.
TALK = (
    (b"hbox into 0\n", b"1: ok\n"),
    (b"% a comment\n", b""),
    (b"\n", b""),
    (b"kern 12px\n", b"refused 2 BadScript 4 Dimension\n"),
    (b"rule 1pt 1pt 0pt\n", b"5: ok\n"),
    (b"end\n", b"6: packed 1.0pt 1.0pt 0.0pt badness 0\n"),
    (b"ship 7\n", b"7: refused 21 VoidBox\n"),
    (b"ship 0\n", b"8: shipped 1\n"),
)
TEXT = b"".join(line for line, _ in TALK)
ANSWERS = b"".join(answer for _, answer in TALK)
END = b"end: pages 1 bytes 116\n"
UNREAD = b"boxglue: cannot read -\n"
PAGE = b"hbox into 0\nrule 1pt 1pt 0pt\nend\nship 0\n"
EOP = 140
MIB = 1 << 20


def page_file(root):
    """The bytes of the file: those of the row."""
    rows = blocks(read(f"{root}/crates/rows_scripts", "stdout"))[b"one_rule_page"].splitlines()
    return bytes.fromhex(
        b"".join(it for it in rows if re.fullmatch(rb"[0-9a-f]{1,32}", it)).decode()
    )


def before_post(data):
    """The pages of a file: what comes before its postamble, whose place it has near its end."""
    place = data.rstrip(b"\xdf")[-5:-1]
    return data[: int.from_bytes(place, "big")]


class Session:
    """A session in a folder of its own, with pipes."""

    def __init__(self, program, words=(), **streams):
        self.room = tempfile.TemporaryDirectory(prefix="boxglue-session-")
        given = {
            "stdin": subprocess.PIPE,
            "stdout": subprocess.PIPE,
            "stderr": subprocess.PIPE,
            **streams,
        }
        self.started = subprocess.Popen(
            [program, "session", OUT, *words], cwd=self.room.name, env={}, bufsize=0, **given
        )

    def __enter__(self):
        return self

    def __exit__(self, *_):
        self.started.kill()
        self.started.wait()
        for stream in (self.started.stdin, self.started.stdout, self.started.stderr):
            if stream:
                stream.close()
        self.room.cleanup()

    def file(self):
        """The bytes of its file; none if there is none."""
        return read(self.room.name, OUT)

    def say(self, text):
        """Writes to its input."""
        self.started.stdin.write(text)

    def hear(self, wanted):
        """Waits for an answer of this length, which has to be this one."""
        found = b""
        while len(found) < len(wanted):
            ready = select.select([self.started.stdout], [], [], LIMIT)[0]
            piece = self.started.stdout.read(1 << 16) if ready else b""
            if not piece:
                break
            found += piece
        same("the answer", found, wanted)

    def is_silent(self):
        """Nothing may be heard for a moment."""
        if select.select([self.started.stdout], [], [], MOMENT)[0]:
            raise Wrong("there is an answer to a line that is not whole")

    def ends(self, answers, status, file, errors=b""):
        """Ends the input, unless it was given, and compares what is left of the answers, the
        errors, the status and the file."""
        output, said = self.started.communicate(timeout=LIMIT)
        same("the end of the answers", output or b"", answers)
        same("standard error", said or b"", errors)
        if self.started.returncode != status:
            raise Wrong(f"the status is {self.started.returncode}")
        same("the file", self.file(), file)


def one_by_one(file, program):
    """Each line is written when the answers before it were read; the page is in the file when its
    `ship` is answered."""
    with Session(program) as it:
        for line, answer in TALK:
            it.say(line)
            it.hear(answer)
        same("the file after ship", it.file(), before_post(file))
        it.ends(END, 1, file)


def at_once(file, program):
    """The whole text is written at once."""
    with Session(program) as it:
        it.say(TEXT)
        it.ends(ANSWERS + END, 1, file)


def in_halves(file, program):
    """Each line is written in two pieces; there is no answer before the second."""
    with Session(program) as it:
        for line, answer in TALK:
            half = len(line) // 2
            it.say(line[:half])
            it.is_silent()
            it.say(line[half:])
            it.hear(answer)
        it.ends(END, 1, file)


def byte_by_byte(file, program):
    """Each byte is written by itself."""
    with Session(program) as it:
        for byte in TEXT:
            it.say(bytes([byte]))
            time.sleep(0.001)
        it.ends(ANSWERS + END, 1, file)


def carriage_returns(file, program):
    """A carriage return before a line feed is dropped, also where the one comes with another
    reading than the other; without a line feed it is a bad byte."""
    with Session(program) as it:
        for line, answer in TALK:
            it.say(line[:-1] + b"\r")
            it.is_silent()
            it.say(b"\n")
            it.hear(answer)
        it.say(b"void 0\r")
        it.ends(b"refused 2 BadScript 9 Byte\n" + END, 1, file)


def last_line(file, program):
    """A last line without a line feed is run at the end of the input."""
    with Session(program) as it:
        it.say(PAGE[:-1])
        it.hear(b"1: ok\n2: ok\n3: packed 1.0pt 1.0pt 0.0pt badness 0\n")
        it.is_silent()
        it.ends(b"4: shipped 1\n" + END, 0, file)


def long_lines(file, program):
    """Lines of a mebibyte: a comment, a bad line, and a command between spaces."""
    with Session(program) as it:
        it.say(
            b"%" * MIB + b"\n" + b"x" * MIB + b"\n" + b" " * MIB + b"void 0" + b" " * MIB + b"\n"
        )
        it.hear(b"refused 2 BadScript 2 Word\n3: ok\n")
        it.say(PAGE)
        it.ends(
            b"4: ok\n5: ok\n6: packed 1.0pt 1.0pt 0.0pt badness 0\n7: shipped 1\n" + END, 1, file
        )


def no_lines(_, program):
    """An input without a line, and one of comments: there is no page, so no file."""
    for text in (b"", b"%\n\n% end"):
        with Session(program) as it:
            it.say(text)
            it.ends(b"end: pages 0 bytes 0\n", 0, b"")


def many_answers(_, program):
    """More answers than a pipe holds: the client writes all, and reads then."""
    count = 5_000
    with Session(program) as it:
        it.say(b"void 0\n" * count)
        time.sleep(MOMENT)
        it.ends(
            b"".join(b"%d: ok\n" % number for number in range(1, count + 1))
            + b"end: pages 0 bytes 0\n",
            0,
            b"",
        )


def many_lines(_, program):
    """More than 65,536 lines, from a client that reads while it writes."""
    count = 70_000
    with Session(program) as it:
        output, errors = it.started.communicate(b"void 0\n" * count, timeout=LIMIT)
    answers = b"".join(b"%d: ok\n" % number for number in range(1, count + 1))
    same("the answers", output, answers + b"end: pages 0 bytes 0\n")
    same("standard error", errors, b"")


def client_that_closes(file, program):
    """A client that reads no longer: the script goes on, and its file is whole."""
    with Session(program) as it:
        it.say(TALK[0][0])
        it.hear(TALK[0][1])
        it.started.stdout.close()
        it.started.stdout = None
        it.say(b"".join(line for line, _ in TALK[1:]))
        it.ends(b"", 1, file)


def output_that_is_full(file, program):
    """An output that takes nothing: the script is run, and its file is whole."""
    with open("/dev/full", "wb") as full, Session(program, stdout=full) as it:
        it.say(PAGE)
        it.ends(b"", 1, file)


def input_that_never_waits(file, program):
    """An input that is set not to wait: its lines come late, and it is waited for."""
    reading, writing = os.pipe()
    os.set_blocking(reading, False)
    with os.fdopen(writing, "wb", buffering=0) as client, Session(program, stdin=reading) as it:
        os.close(reading)
        for line, answer in TALK:
            time.sleep(MOMENT / 5)
            client.write(line)
            it.hear(answer)
        client.close()
        it.ends(END, 1, file)


def input_that_fails(file, program):
    """A connection that is reset after the lines were answered: that is no end of the job, whose
    file has its page and no more. A command that was cut off before its line feed is not run, even
    if it would be whole."""
    with socket.create_server(("127.0.0.1", 0)) as server, socket.create_connection(
        server.getsockname()
    ) as ours:
        theirs, _ = server.accept()
        with theirs, Session(program, stdin=theirs) as it:
            theirs.close()
            ours.sendall(TEXT + b"void 0")
            it.hear(ANSWERS)
            ours.setsockopt(socket.SOL_SOCKET, socket.SO_LINGER, struct.pack("ii", 1, 0))
            ours.close()
            it.ends(b"", 1, before_post(file), UNREAD)


def input_that_is_a_folder(_, program):
    """A folder cannot be read."""
    folder = os.open("/", os.O_RDONLY)
    try:
        with Session(program, stdin=folder) as it:
            it.ends(b"", 1, b"", UNREAD)
    finally:
        os.close(folder)


def font_that_is_missing(_, program):
    """A metric file that cannot be read: it is read before the first line, and nothing is run."""
    with Session(program, ["a=absent.tfm"]) as it:
        it.ends(b"", 1, b"", b"boxglue: cannot read absent.tfm\n")


def file_that_cannot_be_made(_, program):
    """OUT is in a folder that does not exist: the page is refused, and the job is over."""
    with tempfile.TemporaryDirectory(prefix="boxglue-session-") as room:
        ran = finished([program, "session", "absent/page.dvi"], input=PAGE, cwd=room, env={})
    answers = b"1: ok\n2: ok\n3: packed 1.0pt 1.0pt 0.0pt badness 0\n4: refused 18 Device\nend: refused 19 JobOver\n"
    same("the answers", ran.stdout, answers)
    same("standard error", ran.stderr, b"boxglue: cannot write absent/page.dvi\n")
    return None if ran.returncode == 1 else f"the status is {ran.returncode}"


def ended_by_a_signal(file, program):
    """After SIGTERM the file has whole pages, up to the last `ship` that was answered."""
    with Session(program) as it:
        it.say(PAGE)
        it.hear(b"1: ok\n2: ok\n3: packed 1.0pt 1.0pt 0.0pt badness 0\n4: shipped 1\n")
        it.say(b"hbox into 0\nrule 2pt 2pt 0pt\nend\n")
        it.hear(b"5: ok\n6: ok\n7: packed 2.0pt 2.0pt 0.0pt badness 0\n")
        it.started.send_signal(signal.SIGTERM)
        found = before_post(file)
        if found[-1] != EOP:
            raise Wrong("the pages of the row do not end in eop")
        it.ends(b"", -signal.SIGTERM, found)


def runs_of(program, given):
    """What `typeset` and `session` give for an input: the status, the answers, the errors and the
    file."""
    for task in ("typeset", "session"):
        with tempfile.TemporaryDirectory(prefix="boxglue-session-") as room:
            for name, data in given.fonts.items():
                write(f"{room}/{name}.tfm", data)
            words = [program, task, "--", OUT, *(f"{name}={name}.tfm" for name in given.fonts)]
            ran = finished(words, input=given.script, cwd=room, env={})
            yield ran.returncode, ran.stdout, ran.stderr, read(room, OUT)


def like_typeset(inputs, program):
    """Good scripts have the answers and the file of `typeset`; in a bad one the first refusal of a
    line is that of `typeset`."""
    for given in inputs:
        typeset, session = runs_of(program, given)
        if typeset[1].startswith(b"refused 2 "):
            refusals = re.findall(rb"^refused 2 .*\n", session[1], flags=re.M)
            if refusals[:1] != [typeset[1]] or session[0] != 1:
                raise Wrong(
                    f"{given.name}: the refusals are {refusals[:3]}, and typeset says {typeset[1]}"
                )
        elif typeset != session:
            raise Wrong(
                f"{given.name}: {first_difference('the answers', session[1], typeset[1]) or 'the status, the errors or the file is another'}"
            )


def bad_lines(each, program):
    """Bad lines are answered one by one, each by its cause, and the job goes on."""
    for name, pairs in each:
        # A carriage return at the end of a line would be dropped with its line feed.
        lines = [it for it in pairs if not it[0].endswith(b"\r")]
        with Session(program) as it:
            it.say(b"".join(line + b"\n" for line, _ in lines))
            output, _ = it.started.communicate(timeout=LIMIT)
        wanted = {number: cause for number, (_, cause) in enumerate(lines, 1) if cause}
        found = {
            int(number): cause
            for number, cause in re.findall(
                rb"^refused 2 BadScript (\d+) (\w+)$", output, flags=re.M
            )
        }
        if found != wanted or not output.splitlines()[-1].startswith(b"end: "):
            raise Wrong(f"{name}: the refusals are {found}, and not {wanted}")


CASES = {
    "one line at a time": one_by_one,
    "all lines at once": at_once,
    "lines in halves": in_halves,
    "single bytes": byte_by_byte,
    "a carriage return and its line feed apart": carriage_returns,
    "a last line without a line feed": last_line,
    "lines of a mebibyte": long_lines,
    "no lines": no_lines,
    "more answers than a pipe holds": many_answers,
    "more lines than 65,536": many_lines,
    "a client that closes": client_that_closes,
    "an output that is full": output_that_is_full,
    "an input that never waits": input_that_never_waits,
    "an input that fails": input_that_fails,
    "an input that is a folder": input_that_is_a_folder,
    "a font that is missing": font_that_is_missing,
    "a file that cannot be made": file_that_cannot_be_made,
    "ended by a signal": ended_by_a_signal,
}


def cases(programs, root):
    """The cases, by name."""
    file = page_file(root)
    for name, call in CASES.items():
        yield name, partial(on_each, programs, partial(call, file))
    yield "like typeset: the scripts of examples/", partial(
        on_each, programs, partial(like_typeset, [*example_inputs(root)])
    )
    yield "like typeset: the scripts of rows_scripts", partial(
        on_each, programs, partial(like_typeset, [*all_case_inputs(root)])
    )
    yield "bad lines: those of rows_scripts", partial(
        on_each, programs, partial(bad_lines, [*answers_to_each(root)])
    )
