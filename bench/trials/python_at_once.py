#!/usr/bin/env python3
"""Uses the package for Python from many threads and processes at once: python_at_once.py WAY
WORKERS ROUNDS SCRIPT TFM, as callers_at_once.py runs it.

  threads    threads run all calls, and the lines of one job that they share
  pools      pools by fork, spawn and forkserver: results, and refusals that are raised, come back
             as they are here
  parts      a process with a job that is half done forks; it and its children make the other half
  ends       children end inside calls: os._exit, sys.exit, SIGKILL, a daemon thread inside a call
             at the end; the next pool works
  interrupts an exception comes at any moment of calls on a job: no byte of its file is lost or
             comes twice
  copies     pickles of all protocols, copies and deep copies of what calls give; a job refuses all
             of them
  views      tables as memoryviews, after all that they came from is dropped

All that comes is compared with what one thread got before."""

import concurrent.futures
import copy
import functools
import gc
import itertools
import multiprocessing
import os
import pickle
import random
import signal
import sys
import time

from common.files import content
from common.outcome import require
from common.running import finished
import boxglue

LINES, COPIED = 5, 20
BAD = "hbox into 0\nrule 1pt 1pt 0pt\nend\nship 7\n"
REFUSED = "line 4: refused 21 VoidBox: 'ship 7'"
MAKES = (
    "import os, sys, threading, time, boxglue\nscript, fonts = open(sys.argv[1]).read(), {'cmr10': open(sys.argv[2], 'rb').read()}\n"
    "inside = threading.Event()\ndef calls():\n    while True:\n        job = boxglue.Job(fonts)\n        inside.set()\n        job.commands(script)\n        job.finish()\n        job.take()\n"
    "threading.Thread(target=calls, daemon=True).start()\ninside.wait()\ntime.sleep(float(sys.argv[3]))\n"
)
ENDS = {
    "os._exit": ("os._exit(3)\n", 3),
    "sys.exit": ("sys.exit(4)\n", 4),
    "the end": ("", 0),
    "an exception": ("raise SystemError\n", 1),
    "SIGKILL": ("os.kill(os.getpid(), 9)\n", -9),
}


class Given:
    """A script and its fonts, and what one thread got of them."""

    def __init__(self, script, metrics):
        self.script, self.fonts = content(script).decode("ascii"), {"cmr10": content(metrics)}
        lines = self.script.splitlines(keepends=True)
        self.pieces = ["".join(lines[at : at + LINES]) for at in range(0, len(lines), LINES)]
        self.wanted = all_calls(self.script, self.fonts)

    @property
    def dvi(self):
        return self.wanted[0].dvi


def all_calls(script, fonts):
    """What each call gives."""
    ran = boxglue.run(script, fonts)
    return (
        ran,
        boxglue.listing(ran.dvi, fonts),
        boxglue.marks(ran.dvi, fonts),
        boxglue.fonts(ran.dvi),
        boxglue.paint(ran.dvi, fonts, width=40, height=30),
    )


def rest_of(job, pieces):
    """The bytes that a job hands over for pieces of its script and its end."""
    found = b""
    for piece in pieces:
        job.commands(piece)
        found += job.take()
    job.finish()
    return found + job.take()


def run_job(given):
    with boxglue.Job(given.fonts) as job:
        return rest_of(job, given.pieces)


def in_threads(count, call):
    """Makes a call in so many threads, and raises what one of them raised."""
    with concurrent.futures.ThreadPoolExecutor(count) as pool:
        for it in [pool.submit(call) for _ in range(count)]:
            it.result()


def threads(given, workers, rounds):
    def calls():
        for _ in range(rounds):
            found = all_calls(given.script, given.fonts)
            require(found == given.wanted, "a thread got something else")
            require(run_job(given) == given.dvi, "a job of a thread made another file")

    in_threads(workers, calls)
    with boxglue.Job() as job:
        taken = []

        def share():
            for _ in range(rounds):
                job.commands("hbox into 0\nrule 1pt 1pt 0pt\nend\n")
                job.commands("copy 0\nmeasure 0\n")
                taken.append(job.take())

        in_threads(workers, share)
        found = job.commands("measure 0\n").replies[0]
    counted = found.line, found.width, b"".join(taken)
    wanted = workers * rounds * 5 + 1, 65536, b""
    require(counted == wanted, f"the lines of a shared job are counted as {found!r}")


def worked(words):
    """What a worker of a pool makes: results, or a refusal that it raises."""
    number, script, fonts = words
    if number % 7 == 3:
        boxglue.run(BAD).check()
    return number, all_calls(script, fonts)


def pool_of(workers, method):
    context = multiprocessing.get_context(method)
    return concurrent.futures.ProcessPoolExecutor(workers, context)


def pools(given, workers, rounds):
    for method in ("fork", "spawn", "forkserver"):
        with pool_of(workers, method) as pool:
            words = [(number, given.script, given.fonts) for number in range(rounds)]
            for number, it in enumerate([pool.submit(worked, its) for its in words]):
                is_refused = str(it.exception()) == REFUSED
                is_right = is_refused if number % 7 == 3 else it.result() == (number, given.wanted)
                require(is_right, f"{method}: result {number} is another")


def waited(child):
    """The status of a child, negative for a signal."""
    return os.waitstatus_to_exitcode(os.waitpid(child, 0)[1])


def parts(given, workers, rounds):
    half = len(given.pieces) // 2
    for _ in range(max(rounds // 10, 1)):
        with boxglue.Job(given.fonts) as job:
            first, children = b"", []
            for piece in given.pieces[:half]:
                job.commands(piece)
                first += job.take()
            for _ in range(workers):
                children.append(os.fork())
                if not children[-1]:
                    os._exit(first + rest_of(job, given.pieces[half:]) != given.dvi)
            made = first + rest_of(job, given.pieces[half:])
            require(made == given.dvi, "the parent made another file")
            require(not any(map(waited, children)), "a child made another file")


def stay(given, moment):
    """Calls for ever, in a process that a signal ends."""
    signal.signal(signal.SIGALRM, lambda *_: os._exit(5))
    signal.setitimer(signal.ITIMER_REAL, moment)
    while True:
        run_job(given)


def broken_pool(given, workers, method):
    """A pool one of whose workers is ended, and the next one."""
    words = 0, given.script, given.fonts
    with pool_of(workers, method) as pool:
        asked = [pool.submit(worked, words) for _ in range(50)]
        while not getattr(pool, "_processes", None):
            time.sleep(0.001)
        os.kill(next(iter(pool._processes)), signal.SIGKILL)
        failed = {type(it.exception()).__name__ for it in asked} - {"NoneType"}
        is_right = failed <= {"BrokenProcessPool"}
        require(is_right, f"a pool whose worker was ended raised {failed!r}")
    with pool_of(workers, method) as pool:
        found = pool.submit(worked, words).result()
    require(found == (0, given.wanted), "the next pool gave something else")


def ends(given, workers, rounds):
    chance = random.Random(1)
    for _, (name, (code, status)) in zip(range(rounds), itertools.cycle(ENDS.items())):
        words = [sys.executable, "-c", MAKES + code, *sys.argv[4:6], str(chance.random() / 50)]
        ran = finished(words, timeout=60)
        is_right = ran.returncode == status and (name == "an exception" or not ran.stderr)
        require(is_right, f"{name}: status {ran.returncode}, {ran.stderr[-500:]!r}")
        child = os.fork()
        if not child:
            stay(given, 0.0001 + chance.random() / 50)
        require(waited(child) == 5, "a child that a handler ended")
    for method in ("fork", "spawn"):
        broken_pool(given, workers, method)


class Interrupt(Exception):
    """What comes at any moment."""


class Alarm:
    """Raises Interrupt at a moment of a call, at most once each time."""

    def __init__(self):
        self.armed, self.came, self.chance = False, 0, random.Random(2)
        signal.signal(signal.SIGALRM, self.ring)

    def ring(self, *_):
        if self.armed:
            self.armed, self.came = False, self.came + 1
            raise Interrupt

    def interrupt(self, call):
        """Makes a call. Returns whether it came to its end."""
        try:
            self.armed = True
            signal.setitimer(signal.ITIMER_REAL, 1e-6 + self.chance.random() ** 3 / 1000)
            call()
            self.armed = False
            return True
        except Interrupt:
            return False


def interrupts(given, _workers, rounds):
    alarm = Alarm()
    for _ in range(rounds):
        taken, known = [], 0
        with boxglue.Job(given.fonts) as job:
            for piece in given.pieces:
                is_run = False
                while not is_run:
                    alarm.interrupt(lambda: taken.append(job.take()))
                    alarm.interrupt(lambda: job.commands(piece))
                    # The number of the next line tells whether the piece was run.
                    line = job.commands("measure 9\n").replies[0].line
                    is_run, known = line - 1 > known, line
            job.finish().check()
            while not alarm.interrupt(lambda: taken.append(job.take())):
                pass
            taken.append(job.take())
        made = b"".join(taken)
        said = f"of the file {len(made)} bytes were taken, and not {len(given.dvi)}"
        require(made == given.dvi, said)
    print(f"{alarm.came} exceptions came")


def equal_copies(one):
    """All copies of an object."""
    for protocol in range(2, pickle.HIGHEST_PROTOCOL + 1):
        yield pickle.loads(pickle.dumps(one, protocol))
    yield from (copy.copy(one), copy.deepcopy(one))


def things_of(given):
    """Objects of all kinds that a program may copy."""
    ran, _, document, fonts, bitmap = given.wanted
    refused = boxglue.run(BAD)
    yield from (ran, ran.replies, *ran.replies[:COPIED])
    yield from (document, document.pages, document.marks, document.marks[::3])
    yield from (*document.pages[:COPIED], *document.marks[:COPIED], *fonts, bitmap)
    yield from (refused, *refused.refusals, document.units)
    for name in ("OutOfMemory", "NoSuchPage", "BadFontName", "NoJob"):
        yield getattr(boxglue, name)("x")


def is_copy(one, other):
    """Whether another object is as this one. Exceptions but for refusals compare by their texts."""
    if isinstance(one, Exception) and not isinstance(one, boxglue.Refused):
        return str(other) == str(one) and type(other) is type(one)
    return other == one


def copies(given, _workers, rounds):
    things = [*things_of(given)]
    for one in things * max(rounds // 50, 1):
        for other in equal_copies(one):
            require(is_copy(one, other), f"{one!r} has another copy")
    job = boxglue.Job(given.fonts)
    protocols = range(pickle.HIGHEST_PROTOCOL + 1)
    by_pickle = [functools.partial(pickle.dumps, protocol=it) for it in protocols]
    for way in (copy.copy, copy.deepcopy, *by_pickle):
        try:
            way(job)
        except TypeError:
            continue
        require(False, "a job was copied")
    is_same = rest_of(job, given.pieces) == given.dvi
    require(is_same, "a job that refused to be copied made another file")


def tables(ran, document):
    """Views of tables of marks and of replies."""
    return document.marks.rows, document.pages[0].marks[1:].rows, ran.replies[3:9].rows


def views(given, workers, rounds):
    ran, _, document, *_ = given.wanted
    wanted, mark = [bytes(it) for it in tables(ran, document)], document.marks[0]

    def calls():
        for _ in range(rounds):
            document = boxglue.marks(given.dvi, given.fonts)
            found, one = tables(boxglue.run(given.script, given.fonts), document), document.marks[0]
            del document
            gc.collect(0)
            is_right = [bytes(it) for it in found] == wanted and one == mark
            require(is_right, "a view is another")

    in_threads(workers, calls)


WAYS = {it.__name__: it for it in (threads, pools, parts, ends, interrupts, copies, views)}


def main():
    way, workers, rounds, script, metrics = sys.argv[1:]
    WAYS[way](Given(script, metrics), int(workers), int(rounds))
    size = len(Given(script, metrics).dvi)
    print(f"{way}: {workers} workers, {rounds} rounds, {size} bytes of a file")


if __name__ == "__main__":
    main()
