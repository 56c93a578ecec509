#!/usr/bin/env python3
"""Fails each system call of a run in turn: bench/trials/failed_calls.py [--boxglue PROGRAM]
[--closed] [TASK ..]. It needs strace, which makes a call give an error.

Each task runs a script or reads its file, with --closed also once for each set of standard streams
that are closed. Whatever fails, no signal ends it, status 0 is that of a run like the one without a
failure, and 1 comes with a message, a refusal or an output that failed. Answers differ in refusals
alone, and the file is a beginning of the whole one. An interrupted reading or writing, and an
output that has no room yet, change nothing; where an output fails, the file is whole all the same.
Printed are the runs by task and by what failed; the status is 1 where something is wrong."""

import itertools
import os
import re
import sys
from collections import Counter

from trial import ROOT, fast_folder, parser_of
from common.files import content, write
from common.outcome import Wrong, require
from common.running import finished
from hostile_answers import ONE_MESSAGE
from hostile_sessions import made_file
from models.plain_font import metric_file

LIMIT = 60
FONT = "cmr10=plain.tfm"
SCRIPT = "page_of_text.box"
TASKS = {
    "typeset": ["typeset", "out.dvi", FONT],
    "session": ["session", "out.dvi", FONT],
    "memory": [],
    "list": ["list", "page.dvi", FONT],
    "fonts": ["fonts", "page.dvi"],
    "paint": [*"paint --page 1 --dpi 72 --width 300 --height 300 page.dvi".split(), FONT],
}
# A brk that fails returns the old end of the heap, and no error; the C library compares it with the
# end that it asked for.
ERRORS = {
    "read": "EIO EINTR EAGAIN EISDIR EBADF",
    "write": "EIO ENOSPC EINTR EAGAIN EPIPE EFBIG EBADF",
    "openat": "EACCES EMFILE EINTR ENOENT ENOSPC EROFS",
    "close": "EIO EINTR ENOSPC",
    "brk": "0",
    "mmap": "ENOMEM",
    "munmap": "ENOMEM",
    "exit_group": "",
}
OTHER_ERRORS = "EINVAL ENOSYS"
CALL = re.compile(r"(\w+)\((-?\w+)?")
# The program's own calls begin with this one; those before are of the shell and of the loader.
FIRST = "rt_sigaction(SIGPIPE"
LINE = re.compile(rb"(?:(\d+|end): )?(.*)\n")
REFUSALS = "1 OutOfMemory|18 Device|19 JobOver|21 VoidBox|4 NoFont|7 NoOpenList|8 WrongMode"
REFUSED = re.compile(f"refused (?:{REFUSALS}|17 ListsOpen)".encode())


class Traced:
    """A program whose calls fail, in a folder."""

    def __init__(self, program, folder):
        self.program, self.folder = program, folder

    def run(self, task, closed, fails=None):
        """A run: its status, both outputs and its file, and the lines of its trace."""
        made, log = f"{self.folder}/out.dvi", f"{self.folder}/trace"
        if os.path.exists(made):
            os.remove(made)
        words = ["strace", "-o", log]
        if fails:
            name, error, number = fails
            gives = "retval" if error.isdigit() else "error"
            words += ["-e", f"inject={name}:{gives}={error}:when={number}"]
        shell = 'exec "$@" ' + " ".join(f"{it}>&-" if it else "<&-" for it in closed)
        words += ["/bin/sh", "-c", shell, "sh", self.program, *TASKS[task]]
        how = {"cwd": self.folder, "env": {"LANG": "C.UTF-8"}, "timeout": LIMIT}
        with open(f"{self.folder}/script", "rb") as given:
            ran = finished(words, stdin=given, **how)
        lines = content(log).decode("latin-1").splitlines()
        return (ran.returncode, ran.stdout, ran.stderr, made_file(made)), lines


def calls_of(lines):
    """The program's own calls: the name, the first argument, and which call of this name it is,
    from 1."""
    counts, begun = Counter(), False
    for line in lines:
        found = CALL.match(line)
        if not found:
            continue
        counts[found[1]] += 1
        begun = begun or line.startswith(FIRST)
        if begun:
            yield found[1], found[2], counts[found[1]]


def same_answers(output, whole):
    """Whether answers are those of the whole run, but for refusals; or a beginning of them; or
    memory was refused for all."""
    lines, wholes = LINE.findall(output), LINE.findall(whole)
    return all(
        number == other and (text == its or REFUSED.match(text))
        for (number, text), (other, its) in zip(lines, wholes)
    ) or lines[-1:] == [(b"", b"refused 1 OutOfMemory")]


def check(task, closed, failed, ran, whole):
    """Checks a run in which a call failed."""
    (status, output, errors, made), (name, first, _), error = ran, failed[:3], failed[3]
    message = ONE_MESSAGE.fullmatch(errors)
    runs, is_output = task in ("typeset", "session", "memory"), name == "write" and first == "1"
    require(status in (0, 1), f"the status is {status}, {errors[-200:]!r}")
    require(status or ran == whole, "the status is 0, and the run is another")
    is_told = b"refused" in output or is_output or (name, first) == ("write", "2")
    is_told = is_told or 1 in closed or 2 in closed
    says_why = message and message[1] or not errors and is_told
    require(not status or says_why, f"status 1, {output[-100:]!r}, {errors!r}")
    require((whole[3] or b"").startswith(made or b""), "the file is no beginning")
    is_refused = output == b"refused 1 OutOfMemory\n"
    is_right = same_answers(output, whole[1]) if runs else is_refused
    require(whole[1].startswith(output) or is_right, f"the answers are {output[-300:]!r}")
    is_interrupted = name in ("read", "write") and error == "EINTR"
    waits = error == "EAGAIN" and (is_output or (task, name, first) == ("session", "read", "0"))
    if is_interrupted or waits:
        said = f"it is interrupted or has to wait, and the run is another: {status}, {errors!r}"
        require(ran == whole, said)
    elif is_output:
        said = f"the output fails with status {status}, and the file is another"
        require(status == 1 and made == whole[3], said)


def try_task(traced, task, closed, counts):
    """Fails each call of a task. Returns what is wrong."""
    wrong = []
    whole, lines = traced.run(task, closed)
    for name, first, number in calls_of(lines):
        for error in ERRORS.get(name, OTHER_ERRORS).split():
            ran, _ = traced.run(task, closed, (name, error, number))
            counts[task, name, ran[0], ran == whole] += 1
            try:
                check(task, closed, (name, first, number, error), ran, whole)
            except Wrong as why:
                where = f"{task}, closed {list(closed)}, call {number} of {name}({first})"
                wrong.append(f"{where} gives {error}: {why}")
                print(wrong[-1], flush=True)
    return wrong


def main():
    parser = parser_of(__doc__)
    about = "also with each set of standard streams closed"
    parser.add_argument("--closed", action="store_true", help=about)
    parser.add_argument("tasks", nargs="*", metavar="TASK", help=", ".join(TASKS))
    words = parser.parse_args()
    counts, wrong, sizes = Counter(), [], range(4 if words.closed else 1)
    sets = [it for size in sizes for it in itertools.combinations(range(3), size)]
    with fast_folder() as folder:
        write(f"{folder}/script", content(f"{ROOT}/examples/{SCRIPT}"))
        write(f"{folder}/plain.tfm", metric_file())
        traced = Traced(words.boxglue, folder)
        (_, _, _, made), _ = traced.run("typeset", ())
        write(f"{folder}/page.dvi", made)
        for task, closed in itertools.product(words.tasks or TASKS, sets):
            wrong += try_task(traced, task, closed, counts)
    for (task, name, status, is_whole), count in sorted(counts.items()):
        more = ", as without" * is_whole
        print(f"{task}: {name} failed {count} times, status {status}{more}")
    print(f"{sum(counts.values())} runs, {len(wrong)} are wrong")
    sys.exit(bool(wrong))


if __name__ == "__main__":
    main()
