"""Runs of a program with inputs and outputs of any size: fed from a file or a pipe, in pieces; the
output is read as it comes."""
import fcntl
import os
import resource
import select
import signal
import subprocess
import sys
import tempfile
import time
from dataclasses import dataclass, field

from common.files import content

SET_PIPE_SIZE = 1031  # F_SETPIPE_SZ, which Python has from 3.10 on
SMALLEST_PIPE = 4096
LIMIT = 60
FEEDER = os.path.join(os.path.dirname(os.path.abspath(__file__)), "feeder.py")


@dataclass(frozen=True)
class Sparse:
    """A file of `size` bytes 0, which takes no space on the disk."""

    size: int


@dataclass(frozen=True)
class Run:
    """A run of the program, and its expected results.

    stdin    the bytes of standard input, or the name of a file in the folder
    feed     the pieces in which these bytes are written into a pipe, a name of feeder.py; by
    default standard input is a file
    slowly   standard output is a small pipe that is read slowly, by a reader that stops the program
    now and then
    stdout   the blocks of the expected output
    made     the files that must then be in the folder, by name; None if there must be none with
    this name
    memory   the most bytes of addresses that the program may have; None for any number"""

    words: tuple = ()
    stdin: object = b""
    feed: object = None
    slowly: bool = False
    stdout: object = ()
    stderr: bytes = b""
    status: int = 0
    made: dict = field(default_factory=dict)
    memory: object = None

    def __post_init__(self):
        if iter(self.stdout) is self.stdout:
            raise TypeError(
                "stdout gives its blocks once, and a run is compared with each of the programs"
            )


@dataclass(frozen=True)
class Work:
    """Files, and runs over them, in order, in the same folder."""

    files: dict
    runs: list


class Comparison:
    """Compares bytes with blocks of expected ones, as they come."""

    def __init__(self, blocks):
        self.blocks, self.block, self.place, self.wrong = iter(blocks), memoryview(b""), 0, None

    def next_block(self):
        """Makes the next expected bytes those of the block, and returns whether there are any."""
        while not self.block:
            block = next(self.blocks, None)
            if block is None:
                return False
            self.block = memoryview(block)
        return True

    def take(self, piece):
        """Compares a piece with the expected bytes that come next."""
        piece = memoryview(piece)
        while piece and not self.wrong:
            if not self.next_block():
                self.wrong = f"has {bytes(piece[:60])!r} after its end, at byte {self.place}"
                return
            size = min(len(piece), len(self.block))
            if piece[:size] != self.block[:size]:
                at = len(os.path.commonprefix([bytes(piece[:size]), bytes(self.block[:size])]))
                self.wrong = f"from byte {self.place + at} on is {bytes(piece[at:at + 60])!r} and not {bytes(self.block[at:at + 60])!r}"
                return
            piece, self.block, self.place = piece[size:], self.block[size:], self.place + size

    def end(self):
        """Returns what is wrong at the end of the output, or None."""
        if not self.wrong and self.next_block():
            self.wrong = f"ends after {self.place} bytes, before {bytes(self.block[:60])!r}"
        return self.wrong


def fed(data, how):
    """The reading end of a pipe into which a process writes pieces of bytes, and the process. The
    pipe keeps them apart: each read gets one."""
    output, end = os.pipe2(os.O_CLOEXEC | os.O_DIRECT)
    try:
        with tempfile.TemporaryFile() as it:
            it.write(data)
            it.seek(0)
            feeder = subprocess.Popen([sys.executable, "-B", FEEDER, how], stdin=it, stdout=end)
    finally:
        os.close(end)
    return output, feeder


def stopped_and_continued(process):
    """Stops a program and continues it: a call in which it waits is interrupted, and a write that
    has taken a part returns the size of that part."""
    try:
        os.kill(process.pid, signal.SIGSTOP)
        os.waitid(os.P_PID, process.pid, os.WSTOPPED | os.WEXITED | os.WNOWAIT)
        os.kill(process.pid, signal.SIGCONT)
    except ProcessLookupError:
        pass


def pieces_of(output, slowly, process, until):
    """The output of a pipe, piece by piece, up to its end, or up to a point in time at which the
    program is killed."""
    count = 0
    while select.select([output], [], [], max(0, until - time.monotonic()))[0]:
        piece = os.read(output, 1500 if slowly else 1 << 20)
        if not piece:
            return
        yield piece
        count += 1
        if slowly:
            time.sleep(0.0002)
        if slowly and count % 16 == 0:
            stopped_and_continued(process)
    process.kill()


def opened_input(run, folder):
    """Standard input of a run as a file descriptor, and the process that feeds it, if one does."""
    if run.feed:
        return fed(run.stdin, run.feed)
    if isinstance(run.stdin, str):
        return os.open(f"{folder}/{run.stdin}", os.O_RDONLY), None
    with tempfile.TemporaryFile() as it:
        it.write(run.stdin)
        it.seek(0)
        return os.dup(it.fileno()), None


def compared(run, process, output):
    """Compares the output of a program with the expected one. Returns what is wrong, or None."""
    comparison = Comparison(run.stdout)
    for piece in pieces_of(output, run.slowly, process, time.monotonic() + LIMIT):
        comparison.take(piece)
        if comparison.wrong:
            process.kill()
            break
    return comparison.end()


def started(program, run, folder, errors):
    """Starts a program. Returns its process, the reading end of its standard output, and the
    process that feeds it, if one does."""
    source, feeder = opened_input(run, folder)
    output, end = os.pipe2(os.O_CLOEXEC)
    if run.slowly:
        fcntl.fcntl(end, SET_PIPE_SIZE, SMALLEST_PIPE)
    try:
        how = {
            "stdin": source,
            "stdout": end,
            "stderr": errors,
            "cwd": folder,
            "env": {"LANG": "C.UTF-8"},
        }
        if run.memory:
            how["preexec_fn"] = lambda: resource.setrlimit(
                resource.RLIMIT_AS, (run.memory, run.memory)
            )
        process = subprocess.Popen([program, *run.words], **how)
    finally:
        os.close(source)
        os.close(end)
    return process, output, feeder


def ended(program, run, folder):
    """Runs a program, and returns its status, what is wrong with its output, and its standard
    error."""
    with tempfile.TemporaryFile() as errors:
        process, output, feeder = started(program, run, folder, errors)
        try:
            wrong = compared(run, process, output)
            os.close(output)
            status = process.wait(LIMIT)
        finally:
            process.kill()
            process.wait()
            if feeder:
                feeder.kill()
                feeder.wait()
        errors.seek(0)
        return status, wrong, errors.read()


def made_wrong(run, folder):
    """Returns which file is wrong, or None."""
    for name, must_be in run.made.items():
        path = f"{folder}/{name}"
        if must_be is None and os.path.exists(path):
            return f"{name} was made"
        if must_be is None:
            continue
        if not os.path.exists(path):
            return f"{name} was not made"
        comparison = Comparison([must_be])
        comparison.take(content(path))
        if comparison.end():
            return f"{name} {comparison.wrong}"
    return None


def wrong_in(program, run, folder):
    """Returns what is wrong with a run, or None."""
    status, wrong, errors = ended(program, run, folder)
    if wrong:
        return f"standard output {wrong} (status {status}, standard error {errors[:200]!r})"
    if errors != run.stderr:
        return f"standard error is {errors[:200]!r} and not {run.stderr[:200]!r}"
    if status != run.status:
        return f"the status is {status} and not {run.status}"
    return made_wrong(run, folder)


def place(files, folder):
    """Writes files into a folder."""
    for name, contents in files.items():
        with open(f"{folder}/{name}", "wb") as it:
            if isinstance(contents, Sparse):
                it.truncate(contents.size)
            else:
                it.write(contents)


def wrong_with(program, work):
    """Runs a work with a program. Returns what is wrong with its first wrong run, or None."""
    with tempfile.TemporaryDirectory(prefix="boxglue-sizes-") as folder:
        place(work.files, folder)
        for run in work.runs:
            wrong = wrong_in(program, run, folder)
            if wrong:
                words = " ".join(run.words[:4]) or "without words"
                return f"{os.path.basename(program)}: {words}: {wrong}"
    return None


def done(programs, work):
    """Runs a work with each program. Returns what is wrong, or None."""
    found = [wrong_with(it, work) for it in programs]
    return "; ".join(it for it in found if it) or None
