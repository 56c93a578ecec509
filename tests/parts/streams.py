"""How the program is started and how it writes: the path that it is started by, the calls that
write a message, and an output that does not wait."""
import os
import select
import shutil
import socket
import subprocess
import tempfile
import time
from functools import partial

from common.outcome import on_each
from common.running import finished

TITLE = "the path that the program is started by, one write for a message, and an output that does not wait"
NEEDS_PROGRAM = True
LIMIT = 60
EMPTY = b"end: pages 0 bytes 0\n"
NO_TEXT = b"error: invalid UTF-8 was detected in one or more arguments\n"
PAIR = "a=a.tfm"
# Command lines with a message on standard error, and its whole text or its beginning.
MESSAGES = {
    "a file that cannot be read": (["list", "absent"], b"boxglue: cannot read absent\n"),
    "a file that cannot be written": (
        ["typeset", "absent/page.dvi"],
        b"boxglue: cannot write absent/page.dvi\n",
    ),
    "a word that is no pair": (["list", "page.dvi", "a"], b"boxglue: not NAME=TFM: a\n"),
    "a long word that is no pair": (
        ["list", "page.dvi", "a" * 100_000],
        b"boxglue: not NAME=TFM: " + b"a" * 100_000 + b"\n",
    ),
    "a name given twice": (["list", "page.dvi", PAIR, PAIR], b"boxglue: name given twice: a\n"),
    "help": (["--help"], b"typesets scripts of boxes and glue into DVI files"),
    "a word that is no text": ([b"\xff"], NO_TEXT),
}
PAGE = b"hbox into 0\nrule 1pt 1pt 0pt\nend\nship 0\n"


def started_by_no_text(program):
    """The path of the program need not be UTF-8, and is no word; a word that is not UTF-8 is
    refused."""
    with tempfile.TemporaryDirectory(prefix="boxglue-streams-") as room:
        path = room.encode() + b"/\xff\xfe boxglue"
        shutil.copy(program, path)
        for words, wanted in (
            ([], (0, EMPTY, b"")),
            (["list", "absent"], (1, b"", MESSAGES["a file that cannot be read"][1])),
        ):
            ran = finished([path, *words], cwd=room, env={})
            if (ran.returncode, ran.stdout, ran.stderr) != wanted:
                return f"the words {words} give {ran.returncode}, {ran.stdout[:99]!r}, {ran.stderr[:99]!r}"
        ran = finished([path, b"\xff"], env={})
        if ran.returncode != 2 or ran.stdout or not ran.stderr.startswith(NO_TEXT):
            return f"a word that is not UTF-8 gives {ran.returncode}, {ran.stderr[:99]!r}"
    return None


def writes_of(program, words, room):
    """The status, and the bytes of each call that wrote to standard error: a socket of this kind
    keeps them apart."""
    ours, theirs = socket.socketpair(socket.AF_UNIX, socket.SOCK_SEQPACKET)
    with ours:
        ours.settimeout(LIMIT)
        with theirs:
            theirs.setsockopt(socket.SOL_SOCKET, socket.SO_SNDBUF, 1 << 20)
            ran = subprocess.run(
                [program, *words],
                cwd=room,
                input=PAGE,
                stdout=subprocess.PIPE,
                stderr=theirs,
                env={},
                timeout=LIMIT,
            )
        writes = []
        while piece := ours.recv(1 << 20):
            writes.append(piece)
    return ran.returncode, writes


def one_write(words, text, program):
    """A message is written by one call."""
    with tempfile.TemporaryDirectory(prefix="boxglue-streams-") as room:
        status, writes = writes_of(program, words, room)
    if len(writes) != 1 or not writes[0].startswith(text):
        return f"{len(writes)} calls write {b''.join(writes)[:99]!r}, with status {status}"
    return None


def script_of_lines(count):
    """A script of this many lines, and its answers, which are more than a pipe holds."""
    answers = "".join(f"{number}: ok\n" for number in range(1, count + 1))
    return b"void 0\n" * count, f"{answers}end: pages 0 bytes 0\n".encode()


def output_that_does_not_wait(program):
    """Standard output is a pipe that is set not to wait, and is read late and slowly. All answers
    arrive."""
    script, answers = script_of_lines(30_000)
    reading, writing = os.pipe()
    os.set_blocking(writing, False)
    with tempfile.TemporaryFile() as given:
        given.write(script)
        given.seek(0)
        with subprocess.Popen(
            [program], stdin=given, stdout=writing, stderr=subprocess.PIPE, env={}
        ) as started:
            os.close(writing)
            time.sleep(0.5)
            found = b""
            while select.select([reading], [], [], LIMIT)[0] and (
                piece := os.read(reading, 20_000)
            ):
                found += piece
                time.sleep(0.001)
            os.close(reading)
            errors = started.communicate(timeout=LIMIT)[1]
    if (started.returncode, errors) == (0, b"") and found == answers:
        return None
    return f"the status is {started.returncode}, and {len(found)} of {len(answers)} bytes came"


def cases(programs, root):
    """The cases, by name."""
    yield "a path that is no text", partial(on_each, programs, started_by_no_text)
    for name, (words, text) in MESSAGES.items():
        yield f"one write: {name}", partial(on_each, programs, partial(one_write, words, text))
    yield "an output that does not wait", partial(on_each, programs, output_that_does_not_wait)
