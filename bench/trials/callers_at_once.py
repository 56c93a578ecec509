#!/usr/bin/env python3
"""Calls the library from many threads and processes at once: bench/trials/callers_at_once.py
--archive LIBBOXGLUE_C [--workers N] [--rounds N] [WAY ..].

callers_at_once.c says what the ways in C are. Each is built plain, with AddressSanitizer and with
ThreadSanitizer, and the plain one runs under valgrind's memcheck, helgrind and drd too. The
sanitizers see the caller, and the library's calls of malloc and free: its own code has none of
their checks. valgrind sees all code. The ways in Python are those of python_at_once.py. Printed is
a line for each run; the status is 1 where one failed. A tool that is missing says so, and is left
out."""

import argparse
import os
import shutil
import sys
import tempfile
import time

from trial import HERE, ROOT
from common.files import content, write
from common.library_build import compile_c, python_words
from common.running import finished
from models.plain_font import metric_file

LIMIT = 1800
C_WAYS = ("threads", "passed", "forks", "killed", "exits")
PYTHON_WAYS = ("threads", "pools", "parts", "ends", "interrupts", "copies", "views")
SCRIPT = "page_of_text.box"
# A page of boxes as deep as they may be.
DEEP = b"hbox into 1\nrule 1pt 1pt 0pt\nend\n" + b"hbox into 1\nbox 1\nend\n" * 199 + b"ship 1\n"
BUILDS = {"plain": [], "address": ["-fsanitize=address,undefined"], "thread": ["-fsanitize=thread"]}
LEAK_KINDS = "--leak-check=full --errors-for-leak-kinds=definite --show-leak-kinds=definite"
VALGRIND = {"memcheck": LEAK_KINDS.split(), "helgrind": [], "drd": []}
# Where a process ends inside calls, what they took is not freed.
LEAKS = {"exits": ["--leak-check=no"], "killed": ["--leak-check=no"]}


def build(archive, folder, name):
    """Builds the caller, and returns its path."""
    out = f"{folder}/caller_{name}"
    flags = ["-D_GNU_SOURCE", "-pthread", *BUILDS[name], f"-I{ROOT}/bindings/c"]
    sources = [f"{HERE}/callers_at_once.c", f"{ROOT}/bindings/c/inputs.c"]
    wrong = compile_c(ROOT, archive, sources, out, flags)
    if wrong:
        sys.exit(f"the caller is not built: {wrong}")
    return out


def commands(archive, folder, way):
    """The runs of a way in C: the name of what watches it, its command, and how often less it makes
    its rounds."""
    for name in BUILDS:
        yield name, [build(archive, folder, name)], 1
    for tool, options in VALGRIND.items():
        if not shutil.which("valgrind"):
            print("valgrind is not there")
            return
        options = options + LEAKS.get(way, []) if tool == "memcheck" else options
        words = f"valgrind -q --tool={tool} --error-exitcode=9 --fair-sched=yes".split()
        yield tool, [*words, *options, build(archive, folder, "plain")], 20


def run(name, words, env, folder):
    """Runs a command. Returns whether it was well."""
    start = time.monotonic()
    ran = finished(words, cwd=folder, env=env, timeout=LIMIT)
    is_well = ran.returncode == 0 and not ran.stderr
    said = "; ".join(ran.stdout.decode(errors="replace").strip().split("\n"))
    came = "well" if is_well else f"status {ran.returncode}"
    print(f"{name}: {came}, {time.monotonic() - start:.0f} s, {said}", flush=True)
    if not is_well:
        print(ran.stderr.decode(errors="replace")[-3000:], flush=True)
    return is_well


def runs_in_c(archive, folder, way, workers, rounds):
    """Makes the runs of a way in C. Returns whether all were well."""
    wells = []
    for name, words, less in commands(archive, folder, way):
        env = {**os.environ, "ASAN_OPTIONS": f"detect_leaks={int(way not in LEAKS)}"}
        sizes = [str(workers), str(max(rounds // less, 1)), "script", "cmr10=plain.tfm"]
        wells.append(run(f"{way} in C, {name}", [*words, way, *sizes], env, folder))
    return all(wells)


def main():
    ways = [*(f"c:{it}" for it in C_WAYS), *(f"python:{it}" for it in PYTHON_WAYS)]
    layout = argparse.RawDescriptionHelpFormatter
    parser = argparse.ArgumentParser(description=__doc__, formatter_class=layout)
    parser.add_argument("--archive", required=True, type=os.path.abspath)
    parser.add_argument("--workers", type=int, default=8, help="how many threads or processes (8)")
    often = "how often each makes all calls (200)"
    parser.add_argument("--rounds", type=int, default=200, help=often)
    parser.add_argument("ways", nargs="*", metavar="WAY", help=", ".join(ways))
    words, wells = parser.parse_args(), []
    for way in {*words.ways} - {*ways}:
        parser.error(f"there is no way {way}")
    with tempfile.TemporaryDirectory(prefix="boxglue-callers-") as folder:
        write(f"{folder}/script", content(f"{ROOT}/examples/{SCRIPT}") + DEEP)
        write(f"{folder}/plain.tfm", metric_file())
        sizes = [str(words.workers), str(words.rounds), "script", "plain.tfm"]
        for language, _, way in (it.partition(":") for it in words.ways or ways):
            if language == "c":
                wells.append(runs_in_c(words.archive, folder, way, words.workers, words.rounds))
            else:
                program = f"{HERE}/python_at_once.py"
                command, env = python_words(ROOT, words.archive, [program, way, *sizes])
                env["PYTHONPATH"] += f":{ROOT}/tests"
                wells.append(run(f"{way} in Python", command, env, folder))
    print("all were well" if all(wells) else "some went wrong")
    sys.exit(not all(wells))


if __name__ == "__main__":
    main()
