"""The program tests/run: its words, its processes, and its counts."""
import argparse
import multiprocessing
import os
import signal
import sys
from collections import Counter
from dataclasses import dataclass, field

from common.library_build import build_unproved, lacking
from common.outcome import Skipped, attempt
from common.part import all_parts
from common.progress import Progress
from common.shared import Unbuilt, folder
from lint import outside_tools

ABOUT = """Runs all tests of boxglue, without proofs: nothing is proved by it. It needs the kit's `rt`, and no network.

Without words it builds by `rt try`, up to four builds at a time where memory allows: the #[test] functions of each crate that has
some, the rows of rows_scripts, and those cases of tests/cases/program that can run in one build. What can only run a built program runs over one that
tools/unproved.py builds without proofs, and so do the parts library_.. over the library for C, which need a C compiler too.

With --program it builds no program: all that is data runs over these programs, and the crates' own tests are left out. `rt run` in
crates/boxglue makes out/boxglue; `rt ci` makes out/boxglue and out/boxglue.by-rattle.

With --library the parts library_.. run over this archive, which `rt lib` in crates/boxglue_c makes as out/libboxglue_c.a; else over one that is built
without proofs. They compare it with the first --program.

With --gate, which needs those three, a case is skipped only where a tool is missing that docs/internal/GATE.md lists: every other skip is a failure.

The parts `callers`, `claims`, `damaged_files`, `definitions`, `documents`, `english`, `header`, `known_devices`, `known_files`,
`known_growths`, `layers`, `library`, `names`, `outside_tools`, `placed` and `python` run no program.

A line is printed for each part: ok, FAILED or skipped, its seconds, how many of its cases passed; and a line at least every ten seconds.
The last line is `N passed, M failed, K skipped`. The status is 0 where nothing failed, 1 where something did, 2 where the words are wrong."""
NOTHING_PROVED = "Nothing is proved by these tests: only `rt ci` proves."
LANES, ROOM = 4, 1_500_000_000
NEEDED = {
    "boxglue": "a built program: --program",
    "rows_scripts": "a built program: --rows",
    "library": "a C compiler and rt on the path",
}
# A worker has ended.
OVER = None


@dataclass
class Result:
    """The results of the cases of a part, with the reason for each that did not pass."""

    passed: int = 0
    failed: list = field(default_factory=list)
    skipped: list = field(default_factory=list)

    def add(self, name, found):
        """Adds the result of a case."""
        if found is None:
            self.passed += 1
        elif isinstance(found, Skipped):
            self.skipped.append((name, found.reason))
        else:
            self.failed.append((name, found))

    def __add__(self, other):
        return Result(
            self.passed + other.passed, self.failed + other.failed, self.skipped + other.skipped
        )


def words_of(given):
    """Reads the command line."""
    usage = "tests/run [NAME ..] [--program PATH ..] [--rows PATH ..] [--library ARCHIVE] [--gate], tests/run --list"
    form = argparse.RawDescriptionHelpFormatter
    parser = argparse.ArgumentParser(usage=usage, description=ABOUT, formatter_class=form)
    builds, flag = {"metavar": "PATH", "nargs": "+", "default": []}, {"action": "store_true"}
    no_archive = "run the tests of the library for C over this archive, in place of building it without proofs"
    no_skip = "let no case be skipped but for a missing tool that docs/internal/GATE.md lists"
    for name, about, how in (
        ("names", "run these parts alone (--list names them)", {"metavar": "NAME", "nargs": "*"}),
        ("--program", "run over these builds of boxglue, in place of building", builds),
        ("--rows", "run rows_scripts over these builds of it, in place of building", builds),
        ("--library", no_archive, {"metavar": "ARCHIVE"}),
        ("--gate", no_skip, flag),
        ("--list", "print the names of the parts, and what each tests", flag),
    ):
        parser.add_argument(name, help=about, **how)
    return parser, parser.parse_intermixed_args(given)


def lanes():
    """How many processes run parts side by side."""
    with open("/proc/meminfo", encoding="ascii") as it:
        free = next(int(line.split()[1]) for line in it if line.startswith("MemAvailable:")) * 1024
    return max(1, min(LANES, len(os.sched_getaffinity(0)), free // ROOM))


def pairs_of(part, programs, root):
    """The cases of a part. If they cannot be made, or names are missing or equal, one case that
    fails."""
    why = None
    try:
        pairs = list(part.cases(programs, root))
        twice = [name for name, count in Counter(name for name, _ in pairs).items() if count > 1]
        why = f"two cases have one name: {twice[0]}" if twice else None
        why = why if pairs else "there are no cases"
    except Exception as error:
        why = f"{type(error).__name__}: {error}"
    return [("its cases", lambda: why)] if why else pairs


def programs_of(part, built, root):
    """The programs over which a part runs. What it needs and was not given is built without proofs:
    the library, and the program where no program was given."""
    given, is_given = built.get(part.program, []), any(built.values())
    if part.program == "library" and not lacking():
        archives = given or [build_unproved(root, "library")]
        return archives + (built["boxglue"] or [build_unproved(root, "program")])
    if part.program == "boxglue" and part.needs_program and not is_given:
        return [build_unproved(root, "program")]
    return given


def pieces_of(part, pairs, built):
    """The cases of a part in pieces that run side by side: one piece if one run of `rt try` gives
    the results of all."""
    is_apart = any(built.values()) or part.needs_program or not part.tries
    return part.split(pairs) if part.split and is_apart else [pairs]


def run_piece(part, piece, built, root, say):
    """Runs the cases of a piece of a part in turn, or, if nothing is built yet, in one run of `rt
    try` that gives the results of all."""
    result, why, programs = Result(), None, []
    say("waits for what it runs")
    try:
        programs = programs_of(part, built, root)
    except Unbuilt as error:
        why = str(error)
    pairs = pieces_of(part, pairs_of(part, programs, root), built)[piece]
    is_skipped = not programs and not why and (part.needs_program or any(built.values()))
    for done, (name, call) in enumerate(pairs):
        if programs or not part.tries:
            say(f"{done} of {len(pairs)}: {name}")
        else:
            say(f"rt try, for {len(pairs)} cases")
        skipped = Skipped(f"it needs {NEEDED[part.program]}") if is_skipped else None
        result.add(name, why or skipped or attempt(call))
    return result


def work(parts, jobs, events, built, root):
    """What a process does: pieces of parts, each by the number of its part and its own, until there
    are none."""
    for at, piece in iter(jobs.get, None):
        say = lambda what, at=at, piece=piece: events.put((at, piece, what))
        events.put((at, piece, run_piece(parts[at], piece, built, root, say)))
    events.put(OVER)


def lines_of(part, result, seconds):
    """The line of a part, and one for each reason why cases did not pass."""
    count = result.passed + len(result.failed) + len(result.skipped)
    how = "FAILED" if result.failed else "ok" if result.passed else "skipped"
    more = f", {len(result.skipped)} skipped" if result.skipped else ""
    yield f"{how:8}{part.name:21}{seconds:5.0f} s  {result.passed} of {count}{more}"
    for what, found in (("FAILED", result.failed), ("skipped", result.skipped)):
        for why in dict.fromkeys(why for _, why in found):
            names = [name for name, its in found if its == why]
            yield f"    {what}: {', '.join(names[:6])}{f' and {len(names) - 6} more' if len(names) > 6 else ''}: {why[:600]}"


def end_part(part, result, in_gate, root, progress):
    """Prints the results of a part, and returns them. In the gate a case that is skipped for want
    of anything but a listed tool has failed."""
    if in_gate:
        wrong = outside_tools.others(result.skipped, root)
        skipped = [it for it in result.skipped if it not in wrong]
        result = Result(result.passed, result.failed + wrong, skipped)
    for line in lines_of(part, result, progress.end(part.name)):
        progress.say(line)
    return result


def heard(parts, counts, events, in_gate, root, workers):
    """Prints what the processes say until the last one has ended. Returns the results of the
    parts."""
    found, left, over = [Result() for _ in parts], dict(enumerate(counts)), 0
    with Progress(len(parts), workers) as progress:
        while over < len(workers):
            event = events.get()
            if event is OVER:
                over += 1
                continue
            at, piece, what = event
            if isinstance(what, str):
                progress.step(parts[at].name, piece, what)
                continue
            progress.step(parts[at].name, piece, None)
            found[at] += what
            left[at] -= 1
            if not left[at]:
                found[at] = end_part(parts[at], found[at], in_gate, root, progress)
    return found


def run_all(parts, built, in_gate, root):
    """Runs parts side by side, each in pieces, in processes that share what is built."""
    folder()
    counts = [len(pieces_of(it, pairs_of(it, [], root), built)) for it in parts]
    jobs, events = multiprocessing.Queue(), multiprocessing.SimpleQueue()
    job_count = min(lanes(), sum(counts))
    given = parts, jobs, events, built, root
    workers = [multiprocessing.Process(target=work, args=given) for _ in range(job_count)]
    for it in workers:
        it.start()
    pieces = [(at, piece) for at, count in enumerate(counts) for piece in range(count)]
    for job in [*pieces, *[None] * job_count]:
        jobs.put(job)
    try:
        return heard(parts, counts, events, in_gate, root, workers)
    finally:
        for it in workers:
            it.terminate()
            it.join()


def chosen(parser, words, root):
    """The parts that the command line names."""
    is_data = bool(words.program or words.rows or words.library)
    parts = {it.name: it for it in all_parts(root) if it.program or not is_data}
    wrong = [it for it in words.names if it not in parts]
    if wrong:
        how = " runs built programs" if is_data else ""
        parser.error(f"no part {wrong[0]}{how}: the names are {' '.join(parts)}")
    return [it for name, it in parts.items() if name in words.names or not words.names]


def main(root, given):
    """Runs the command line, and returns the status."""
    parser, words = words_of(given)
    parts = chosen(parser, words, root)
    if words.list:
        by_name = sorted(parts, key=lambda it: it.name)
        width = max(len(it.name) for it in by_name) + 2
        print("".join(f"{it.name:{width}}{it.title}\n" for it in by_name), end="")
        return 0
    if words.gate and not (words.program and words.rows and words.library):
        parser.error("--gate needs --program, --rows and --library")
    paths = {"boxglue": words.program, "rows_scripts": words.rows}
    built = {name: [*map(os.path.abspath, its)] for name, its in paths.items()}
    is_program = lambda it: os.access(it, os.X_OK) and not os.path.isdir(it)
    programs = [it for its in built.values() for it in its]
    absent = [f"program {it}" for it in programs if not is_program(it)]
    if words.library:
        built["library"] = [os.path.abspath(words.library)]
        absent += [f"archive {it}" for it in built["library"] if not os.path.isfile(it)]
    if absent:
        failures = "".join(f"FAILED: no {it}\n" for it in absent)
        print(f"{failures}0 passed, {len(absent)} failed, 0 skipped", flush=True)
        return 1
    signal.signal(signal.SIGTERM, lambda number, _: sys.exit(128 + number))
    results = run_all(parts, built, words.gate, root)
    counts = [(it.passed, len(it.failed), len(it.skipped)) for it in results]
    passed, failed, skipped = map(sum, zip(*counts))
    if words.gate:
        print(outside_tools.note([case for it in results for case in it.skipped], root))
    print(f"{NOTHING_PROVED}\n{passed} passed, {failed} failed, {skipped} skipped", flush=True)
    return 1 if failed else 0
