#!/usr/bin/env python3
"""Runs boxglue on hostile inputs: bench/trials/hostile.py [--boxglue PROGRAM] [--count N] [--first
N] [--keep FOLDER].

The inputs are scripts, sessions by pipes, DVI files, metric files and command lines, the same in
every run (hostile_inputs.py). Each is run in a process of its own. What it prints, writes and
returns has to be of a documented form (hostile_answers.py), that of a session as `typeset` has it
(hostile_sessions.py); its file is absent or one that `list` reads, no other file is made or
changed, and one input in fifty is run a second time.
Printed are the inputs by kind and by what came of them, the slowest, the greatest memory, and all
that is wrong; the status is 1 where something is. SIGTERM ends it early. The memory of a run that
takes less than this process is known of one input in ten alone."""

import copy
import ctypes
import os
import resource
import shutil
import signal
import sys
import time
from collections import Counter, defaultdict

from trial import fast_folder, in_words, parser_of
from common.files import content, write
from common.outcome import Wrong, require
from hostile_answers import CHECKS, HEX, VERSION, Ran, check_listing, check_reading, check_run
from hostile_answers import check_streams
from hostile_inputs import Good, font_paths, font_words, input_of
from hostile_sessions import SIGNALS, check_session, made_file
from models.dvi_reader import fonts_of_file, list_file
from models.metric_reader import Refused, read_metrics, signed, widths_at

# A process that lost its parent becomes a child of this one.
ctypes.CDLL(None).prctl(36, 1, 0, 0, 0)
SECONDS, MEMORY, AGAIN, SHOWN = 60, 2 << 30, 50, 100
# A shell's background, and nohup, ignore some of these.
DEFAULT_SIGNALS = (signal.SIGPIPE, signal.SIGXFSZ, *(it for it in SIGNALS if it != signal.SIGKILL))
STREAMS, ENVIRONMENT = ("given", "output", "errors"), {"LANG": "C.UTF-8"}
# The shell gives a program in the background another standard input, where none is named. It ends
# at once, so it cannot wait for the program itself.
START = '"$@" <&3 3<&- &'
COMMANDS = (b"typeset", b"session", b"list", b"fonts", b"paint")
# Where these are written, the answers and the file may be in one place.
ODD_OUTS = ("/dev/stdout", "/dev/stderr", "/dev/stdin", "script")


class Room:
    """Runs the program in a folder, whose files are those of one input."""

    def __init__(self, program, folder):
        self.program, self.streams, self.folder = program, folder + "/streams", folder + "/files"
        os.mkdir(self.streams)
        os.mkdir(self.folder)
        os.chdir(self.folder)
        signal.signal(signal.SIGALRM, self.stop)

    @staticmethod
    def stop(*_):
        for pid in content("/proc/thread-self/children").split():
            os.kill(int(pid), signal.SIGKILL)

    def fill(self, files):
        """Makes the folder anew. Beside the files it has a folder, a link to nothing, and a file
        that cannot be a folder."""
        for it in [*os.scandir(".")]:
            (shutil.rmtree if it.is_dir(follow_symlinks=False) else os.remove)(it)
        os.mkdir("folder")
        os.symlink("loop", "loop")
        for name, data in files.items():
            write(name, data)

    def other(self, program):
        """A room in the same folder for another program."""
        room = copy.copy(self)
        room.program = program
        return room

    def run(self, words, given=b"", out=None, small=False):
        """One run. The peak memory of what this process starts is at least that of this process, so
        for `small` a small shell starts the program and leaves it to this process. The program gets
        the signals back that this process, or who started it, ignores."""
        paths = [f"{self.streams}/{it}" for it in STREAMS]
        write(paths[0], given)
        actions = [
            (os.POSIX_SPAWN_OPEN, at, it, os.O_RDWR | os.O_CREAT | os.O_TRUNC * (at > 0), 0o600)
            for at, it in enumerate(paths)
        ]
        command = [self.program, *words]
        if small:
            command = ["/bin/sh", "-c", START, "sh", *command]
            actions.append((os.POSIX_SPAWN_DUP2, 0, 3))
        started = self.spawn(command, actions)
        if small:
            os.waitpid(started, 0)
        status, seconds, memory = self.end(-1, small)
        return Ran(status, content(paths[1]), content(paths[2]), made_file(out), seconds, memory)

    @staticmethod
    def spawn(command, actions):
        """Starts a program, whose streams these actions set. `end` has to follow."""
        signal.setitimer(signal.ITIMER_REAL, SECONDS)
        return os.posix_spawn(
            command[0], command, ENVIRONMENT, file_actions=actions, setsigdef=DEFAULT_SIGNALS
        )

    @staticmethod
    def end(started, small=False):
        """Waits for a process. Returns its status, its seconds and its memory."""
        _, status, used = os.wait4(started, 0)
        signal.setitimer(signal.ITIMER_REAL, 0)
        is_known = small or used.ru_maxrss > resource.getrusage(resource.RUSAGE_SELF).ru_maxrss
        memory = used.ru_maxrss * 1024 * is_known
        return os.waitstatus_to_exitcode(status), used.ru_utime + used.ru_stime, memory

    def typeset(self, script, fonts):
        """The file of a good script, or None."""
        self.fill(font_paths(fonts))
        return self.run(["typeset", "out.dvi", *font_words(fonts)], script, "out.dvi").made


def check_made(room, data, end, pairs, before=None):
    """A file is whole, and as the end of the answers says; or it is as it was before the run; or
    the end was refused, and it is a beginning that `list` refuses."""
    size, said = len(data or b""), f"and the end says {end!r}"
    if end and not end[0]:
        is_untouched = data == before and not end[1]
        require(is_untouched, f"no page was shipped, and there is a file of {size} bytes")
    # Where a file is written over its like, both are the same.
    elif data == before and not (end and data and size == end[1]):
        require(not end, f"there is no file, {said}")
    else:
        write("made.dvi", data)
        listed = room.run(["list", "made.dvi", *pairs])
        came = check_reading(listed, size, b"list")
        is_whole = came == "accepted" and end == (check_listing(listed.output), size)
        require(
            is_whole if end else came == "BadDvi", f"the file of {size} bytes is {came}, {said}"
        )


def check_script(room, it, ran):
    """Checks the run of a script. Returns what came of it."""
    require(ran.status < 2 and not ran.errors, f"status {ran.status}, {ran.errors[:200]!r}")
    came, end, rest = check_run(it.script, ran.output)
    require(ran.status == int(came != "accepted"), f"{came} with status {ran.status}")
    is_right = not rest if it.words else HEX.fullmatch(rest)
    require(is_right, f"after the answers come {rest[:100]!r}")
    data = ran.made if it.words else bytes.fromhex(rest.decode()) or None
    if came in ("bad", "no memory"):
        require(data is None or came != "bad", "the script is bad, and there is a file")
    else:
        check_made(room, data, end, it.words[2:])
    return came


def check_words(room, it, ran):
    """Checks the run of a command line. Returns what came of it."""
    message, before = check_streams(ran), it.files.get(it.out)
    command = next((word for word in map(bytes, it.words) if word in COMMANDS), b"")
    if ran.status == 2 or message == b"cannot read":
        said = f"words are refused, and {ran.output[:100]!r} is printed, or there is another file"
        require(not ran.output and ran.made == before, said)
        return message.decode() or "words"
    if VERSION.fullmatch(ran.output):
        return "version"
    if command in CHECKS:
        return check_reading(ran, None, command)
    if it.out in ODD_OUTS:
        return "odd output"
    came, end, rest = check_run(it.script, ran.output, command == b"session")
    is_right = message or ran.status == int(came != "accepted")
    require(is_right, f"{came} with status {ran.status}")
    if command and not message and it.out and not it.out.startswith("/dev") and end and end[0]:
        # Where the file is in the place of a metric file, `list` reads that one again.
        if before is not None:
            write(it.out, before)
        check_made(room, ran.made, end, [word for word in it.words if word != b"--"][2:], before)
    is_right = not rest or not command and HEX.fullmatch(rest)
    require(is_right, f"after the answers come {rest[:100]!r}")
    return message.decode() or came


def check_file(it, ran):
    """Checks what `list`, `paint` or `fonts` says of a file, beside the reader of the tests.
    Returns what came of it."""
    data, command = it.files["f.dvi"], it.words[0].encode()
    came = check_reading(ran, len(data), command)
    fonts = {name.removesuffix(".tfm").encode(): font for name, font in it.files.items()}
    text, accepted = fonts_of_file(data) if command == b"fonts" else list_file(data, fonts)
    is_right = command == b"paint" and accepted or ran.output == text
    said = f"{ran.output[:200]!r} is printed, and the reader of the tests has {text[:200]!r}"
    require(is_right, said)
    return came


def check_metrics(it, ran):
    """Checks the answer to the first command, which loads a metric file, beside the reader of the
    tests."""
    try:
        metrics = read_metrics(it.files["f.tfm"])
        widths_at(metrics, signed(it.files["f.tfm"][28:32]) // 16)
        wanted = b"1: ok\n"
    except Refused as refusal:
        wanted = b"1: refused %s\n" % str(refusal).encode()
    said = f"the metric file is answered {ran.output[:40]!r}, and the reader of the tests has {wanted!r}"
    require(ran.output.startswith(wanted), said)


def check_folder(it):
    """No file is left behind, and none is changed but that of the run."""
    left = sorted(set(os.listdir(".")) - {"folder", "loop", it.out, *it.files})
    left += [f"folder/{name}" for name in os.listdir("folder")]
    changed = [
        name for name, data in it.files.items() if name != it.out and made_file(name) != data
    ]
    said = f"files that are left behind: {left!r}; that are changed: {sorted(changed)!r}"
    require(not left and not changed, said)


def checked(room, it, number):
    """Runs an input, again where its number says so, and checks it. Returns the run and what came
    of it."""
    if it.kind == "session":
        ran, came = check_session(room, it)
        check_folder(it)
        return ran, came
    room.fill(it.files)
    ran = room.run(it.words, it.given, it.out, it.way == "large" or number // 20 % 10 == 0)
    check_folder(it)
    # Over the time each of the twenty places of a kind is run again.
    if number % AGAIN == AGAIN - 1 - number // AGAIN % 20:
        room.fill(it.files)
        require(ran.same(room.run(it.words, it.given, it.out)), "the second run differs")
    if b"OutOfMemory" in ran.output or b"18 Device" in ran.output and not ran.errors:
        print(f"input {number}: memory was refused", flush=True)
    check_streams(ran)
    if it.kind == "words":
        return ran, check_words(room, it, ran)
    if it.script is None:
        return ran, check_file(it, ran)
    if it.kind == "metrics":
        check_metrics(it, ran)
    return ran, check_script(room, it, ran)


class Table:
    """What came of the inputs, by kind, and the numbers of those that are wrong."""

    def __init__(self):
        self.came, self.runs, self.wrong = defaultdict(Counter), defaultdict(list), []

    def add(self, number, it, ran, came):
        self.came[it.kind, it.way][came] += 1
        self.runs[it.kind].append((ran.status, ran.seconds, ran.memory, number))

    def show(self):
        for kind, runs in self.runs.items():
            statuses = Counter(it[0] for it in runs)
            shown = ", ".join(f"status {it[0]}: {it[1]}" for it in sorted(statuses.items()))
            print(f"{kind}: {len(runs)} inputs, {shown}")
            for (_, way), came in sorted(it for it in self.came.items() if it[0][0] == kind):
                print(f"  {way} {sum(came.values())}: {in_words(came)}")
            (seconds, slowest), (memory, largest) = (
                max((it[at], it[3]) for it in runs) for at in (1, 2)
            )
            print(
                f"  slowest {seconds:.2f} s (input {slowest}), "
                f"greatest memory {memory / 1e6:.1f} MB (input {largest})",
                flush=True,
            )


def keep(folder, number, it):
    """Writes an input that went wrong."""
    words = b"\n".join(map(os.fsencode, it.words))
    for name, data in {**it.files, "STDIN": it.given, "WORDS": words}.items():
        write(f"{folder}/{number}/{name}", data)


def try_all(room, good, numbers, kept):
    """Tries the inputs of these numbers."""
    table, start, stopped = Table(), time.monotonic(), []
    signal.signal(signal.SIGTERM, lambda *_: stopped.append(True))
    for number in numbers:
        if stopped:
            print(f"stopped before input {number}")
            break
        it = input_of(number, good)
        try:
            table.add(number, it, *checked(room, it, number))
        except Wrong as wrong:
            table.wrong.append(number)
            if len(table.wrong) <= SHOWN:
                print(f"input {number}, {it.kind}, {it.way}: {wrong}", flush=True)
            if kept:
                keep(kept, number, it)
        if (number + 1) % 10_000 == 0:
            print(f"{number + 1} after {time.monotonic() - start:.0f} s", flush=True)
    return table


def main():
    parser = parser_of(__doc__, True)
    about = "where the inputs go that went wrong; with --count 1 also one that went right"
    parser.add_argument("--keep", metavar="FOLDER", type=os.path.abspath, help=about)
    words = parser.parse_args()
    resource.setrlimit(resource.RLIMIT_AS, (MEMORY, MEMORY))
    resource.setrlimit(resource.RLIMIT_CORE, (0, 0))
    with fast_folder() as folder:
        room = Room(words.boxglue, folder)
        good = Good(room.typeset)
        counts = len(good.scripts), len(good.files), len(good.metrics)
        print("%d good scripts, %d good files, %d metric files" % counts, flush=True)
        numbers = range(words.first, words.first + words.count)
        table = try_all(room, good, numbers, words.keep)
        if words.keep and words.count == 1:
            keep(words.keep, words.first, input_of(words.first, good))
        os.chdir("/")
    table.show()
    print(f"{len(table.wrong)} inputs are wrong")
    sys.exit(bool(table.wrong))


if __name__ == "__main__":
    main()
