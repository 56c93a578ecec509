"""Case folders in one build, by `rt try --cases`. It gives each run its words, its standard input
and copies of files that all runs share, and prints the output of each run and its status. The word
{} names a copy of standard input, so that a run gets a file of its own."""
import os
import re
import tempfile
from collections import Counter
from functools import cached_property

from common import case_folder
from common.outcome import Skipped
from common.texts import blocks, first_difference, last_lines
from common.trying import rt_try

STREAMS = {"closed-stdin", "closed-stdout", "full-stdout"}
# Seconds for each run: much more than it takes, for busy machines.
LIMIT = 300
LINE = re.compile(rb"^case=(\S+) run=(\S+)(?: status=(\d+))?.* proved=no\n", re.M)


def is_text(words):
    """Whether the words are UTF-8; `rt try` passes no others."""
    return all(it.decode(errors="replace").encode() == it for it in words)


def write(path, content):
    """Writes a file."""
    with open(path, "wb") as it:
        it.write(content)


def shared_files(cases):
    """The files that all runs get, by their names: for each name the content that most cases
    have."""
    found = {}
    for case in cases:
        for name in case_folder.files_in(f"{case}/files"):
            found.setdefault(name, Counter())[case_folder.read(case, f"files/{name}")] += 1
    return {name: counts.most_common(1)[0][0] for name, counts in found.items()}


def judge(case, line, errors, output):
    """What is wrong with a run: its line, its standard error and its standard output."""
    if line[2] != b"ended":
        return f"run={line[2].decode()}: {last_lines(errors)}"
    status, wanted = int(line[3]), case_folder.read(case, "stdout")
    if status != int(case_folder.read(case, "status", b"0")):
        return f"the status is {status}; standard error: {errors[:300]!r}"
    # A last line without a line feed gets one.
    wanted += b"\n" if wanted and not wanted.endswith(b"\n") else b""
    return first_difference("standard output", output, wanted) or first_difference(
        "standard error", errors, case_folder.read(case, "stderr")
    )


class Batch:
    """The cases that can run in one build. They are run once, when the first result is needed."""

    def __init__(self, root, cases):
        self.root, self.cases = root, cases
        self.files = shared_files(cases)

    def reason(self, case):
        """Why a case cannot run by `rt try --cases`, or None."""
        if STREAMS & {*os.listdir(case)}:
            return "rt try neither closes nor fills a stream"
        if case_folder.has(case, "made"):
            return "rt try keeps no file"
        if b"/dev/stdout" in case_folder.words_of(case):
            return "under rt try /dev/stdout is no pipe"
        if not is_text(case_folder.words_of(case)):
            return "rt try gives only words in UTF-8"
        own = self.own_files(case)
        if own and not self.takes_as_input(case, own):
            return f"rt try gives all cases the same {own[0]}, and it has another one"
        return None

    def own_files(self, case):
        """The files of a case whose names have other bytes in other cases."""
        return [
            name
            for name in case_folder.files_in(f"{case}/files")
            if case_folder.read(case, f"files/{name}") != self.files[name]
        ]

    def takes_as_input(self, case, own):
        """Whether the case has one file of its own, which standard input can be, and {} can
        name."""
        name, printed = own[0].encode(), case_folder.read(case, "stdout") + case_folder.read(
            case, "stderr"
        )
        is_free = not case_folder.input_of(case, self.root) and name not in printed
        return len(own) == 1 and is_free and case_folder.words_of(case).count(name) == 1

    def given(self, case):
        """The standard input of a case, and its words, one on each line."""
        own = self.own_files(case)
        if not own:
            return case_folder.input_of(case, self.root), case_folder.read(case, "words")
        words = [b"{}" if it == own[0].encode() else it for it in case_folder.words_of(case)]
        return case_folder.read(case, f"files/{own[0]}"), b"\n".join([*words, b""])

    def lay_out(self, room):
        """Writes the cases and the shared files in the form of `rt try --cases`, and returns the
        words for it."""
        os.mkdir(f"{room}/cases")
        for case in self.cases:
            if not self.reason(case):
                to = f"{room}/cases/{os.path.basename(case)}"
                content, words = self.given(case)
                write(to, content)
                write(f"{to}.args", words)
        for name, content in self.files.items():
            write(f"{room}/{name}", content)
        return [word for name in self.files for word in ("--data", f"{name}={room}/{name}")] + [
            "--seconds",
            str(LIMIT),
            "--cases",
            f"{room}/cases",
        ]

    @cached_property
    def found(self):
        """For each case that was run, its line, standard error and standard output; and the end of
        the whole output."""
        with tempfile.TemporaryDirectory(prefix="boxglue-cases-") as room:
            _, output, errors = rt_try(self.root, "boxglue", self.lay_out(room))
        outputs, runs, start = blocks(output), {}, 0
        for line in LINE.finditer(errors):
            runs[line[1].decode()] = line, errors[start : line.start()], outputs.get(line[1], b"")
            start = line.end()
        return runs, last_lines(errors)

    def outcome(self, case):
        """The result of a case."""
        why = self.reason(case)
        if why:
            return Skipped(why)
        runs, end = self.found
        name = os.path.basename(case)
        return judge(case, *runs[name]) if name in runs else f"it was not run: {end}"
