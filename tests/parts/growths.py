"""Each growth of memory refused in turn, in runs of a built program: a small library that counts
`malloc` and `realloc` is put before it by LD_PRELOAD. growth_kinds.py says what may come of it. It
proves nothing, and shows it for these scripts alone."""
import functools
import os
import tempfile
from collections import Counter

from common import preloads
from common.files import content, write
from common.outcome import on_each
from common.part import in_turn
from common.running import finished
from models import growth_kinds
from models.growth_kinds import ALONE, NOTHING, WHOLE, Ended, Kind, Wrong, answered, kind_of
from models.growth_kinds import order_wrong
from models.growth_scripts import FILES, HALFWAY, PAGES, READINGS, WITH_FONTS, read_script

TITLE = "runs of the program in which each growth of memory is refused in turn"
NEEDS_PROGRAM = True
WEIGHT = 1
SPLIT = in_turn(4)
MADE = "out.dvi"


class Refusing:
    """A program whose growths can be refused, with files in a folder."""

    def __init__(self, program, folder, files):
        self.program, self.folder, self.library = program, folder, preloads.built("refuse_growth")
        for name, data in files.items():
            write(f"{folder}/{name}", data)

    def take_made(self):
        """The file that a run wrote, which is taken away."""
        path = f"{self.folder}/{MADE}"
        if not os.path.exists(path):
            return b""
        data = content(path)
        os.remove(path)
        return data

    def run(self, words, text, nth):
        """A run in which the growth of this number is refused; none for 0."""
        env = {"LANG": "C.UTF-8", "LD_PRELOAD": self.library, "REFUSE_GROWTH": str(nth)}
        # From a pipe a text comes in pieces by time and chance, and the growths would not be the
        # same in each run.
        with tempfile.TemporaryFile() as given:
            given.write(text)
            given.seek(0)
            ran = finished([self.program, *words], stdin=given, cwd=self.folder, env=env)
        return Ended(ran.returncode, ran.stdout, ran.stderr, self.take_made())

    def run_whole(self, words, text):
        """A run in which none is refused, and how many growths it has."""
        ended = self.run(words, text, 0)
        count = ended.errors.splitlines()[-1:]
        if not count or not count[0].isdigit():
            raise Wrong(f"the growths were not counted: standard error {ended.errors[:200]!r}")
        return Ended(
            ended.status, ended.output, ended.errors[: -len(count[0]) - 1], ended.made
        ), int(count[0])


def text_without(script, line=0):
    """The text of a script in which the command of a line is taken out: the line is empty then, so
    the others keep their numbers."""
    return "".join(
        "\n" if at == line else f"{it}\n" for at, it in enumerate(script.lines, 1)
    ).encode()


def check_whole(script, ended):
    """Refuses a run that is not as it must be where no growth is refused."""
    whole = answered(ended)
    answers = ended.output.partition(b"end: ")
    said = answers[0] + answers[1] + whole.end.encode() + b"\n"
    if (said, whole.data, ended.errors, ended.status) != (
        script.answers,
        script.file,
        b"",
        script.status,
    ):
        raise Wrong(
            f"with no growth refused the answers are {said[-300:]!r}, with {len(whole.data)} bytes and the status {ended.status}"
        )
    return whole


def kinds_of(refusing, script):
    """The kinds of the runs of a script in which each growth is refused."""
    ended, count = refusing.run_whole(script.words, text_without(script))
    whole = check_whole(script, ended)
    without = functools.lru_cache(None)(
        lambda line: answered(refusing.run_whole(script.words, text_without(script, line))[0])
    )
    kinds = []
    for nth in range(1, count + 1):
        try:
            kinds.append(
                kind_of(
                    script, refusing.run(script.words, text_without(script), nth), whole, without
                )
            )
        except Wrong as wrong:
            raise Wrong(f"growth {nth} of {count}: {wrong}") from wrong
    return kinds


def halfway_wrong(script, kinds):
    """Says which command that has to run out halfway did not meet more than one refused growth, or
    returns None."""
    met = Counter(it.line for it in kinds)
    for line, command in HALFWAY.get(script.name, {}).items():
        if script.lines[line - 1] != command or met[line] < 2:
            return f"{command} in line {line} met {met[line]} refused growths"
    return None


def script_wrong(program, script):
    """Refuses each growth of a script's run, and says what is wrong, or returns None."""
    with tempfile.TemporaryDirectory(prefix="boxglue-growths-") as folder:
        kinds = kinds_of(Refusing(program, folder, FILES), script)
    order = growth_kinds.order_of(script.name, script.words[0] if script.words else None)
    return order_wrong(kinds, order) or halfway_wrong(script, kinds)


def reading_kind(ended, printed, nth):
    """The kind of a run of `list`, `fonts` or `paint` in which a growth was refused."""
    if (ended.output, ended.errors, ended.status) == (ALONE, b"", 1):
        return Kind(NOTHING)
    if (ended.output, ended.errors, ended.status) == (printed, b"", 0):
        return Kind(WHOLE)
    raise Wrong(
        f"growth {nth}: the status is {ended.status}, and {ended.output[:200]!r} is printed"
    )


def reading_wrong(program, words, data, printed):
    """Refuses each growth of a run of `list`, `fonts` or `paint`, and says what is wrong, or
    returns None."""
    with tempfile.TemporaryDirectory(prefix="boxglue-growths-") as folder:
        refusing = Refusing(program, folder, {**FILES, "f.dvi": data})
        ended, count = refusing.run_whole(words, b"")
        if reading_kind(ended, printed, 0).letter != WHOLE:
            raise Wrong(f"with no growth refused {ended.output[:200]!r} is printed")
        kinds = [
            reading_kind(refusing.run(words, b"", nth), printed, nth) for nth in range(1, count + 1)
        ]
    return order_wrong(kinds, growth_kinds.ORDER_OF_A_READING)


def of_script(root, name, task, program):
    """The call of a case with a script."""
    return script_wrong(program, read_script(name, root, task))


def of_reading(reading, program):
    """The call of a case of `list`, `fonts` or `paint`."""
    return reading_wrong(program, *reading)


def cases(programs, root):
    """The scripts of tests/cases/growths: those without a font on a device in memory, and all to a
    file, also as sessions; and the readings of two files."""
    calls = {
        name: functools.partial(of_script, root, name, None)
        for name in PAGES
        if name not in WITH_FONTS
    }
    calls.update(
        {
            f"{task}_{name}": functools.partial(of_script, root, name, task)
            for task in ("typeset", "session")
            for name in PAGES
        }
    )
    calls.update({name: functools.partial(of_reading, it) for name, it in READINGS.items()})
    return [(name, functools.partial(on_each, programs, call)) for name, call in calls.items()]
