#!/usr/bin/env python3
"""Times typed calls: bench/typed.py ARCHIVE, where ARCHIVE is the library for C. For each language
it prints a line: microseconds a command by typed calls, and by a text that the program makes. In
Python the calls are those of a batch, and a third number is the time of one call after the other.
In C the third is that of a text for each command. Each is the least of some rounds."""
import os
import subprocess
import sys
import tempfile
import time

ROOT = os.path.dirname(os.path.dirname(os.path.abspath(__file__)))
PAIRS, ROUNDS = 2000, 100
MANIFEST = '[package]\nname = "typed"\nversion = "0.1.0"\nedition = "2021"\n[dependencies]\nboxglue = { path = "%s/bindings/rust/boxglue" }\n[[bin]]\nname = "typed"\npath = "%s/bench/typed/typed.rs"\n'


def fill(calls):
    """A box of rules and kerns."""
    with calls.hbox(into=0):
        for it in range(PAIRS):
            calls.rule(65536 + it, 65536, 0)
            calls.kern(-it)


def by_batch(job):
    """The commands in a batch."""
    with job.batch() as batch:
        fill(batch)


def by_text(job):
    """The commands as a text."""
    lines = ["hbox into 0"]
    for it in range(PAIRS):
        lines.append(f"rule {65536 + it}sp 65536sp 0sp")
        lines.append(f"kern {-it}sp")
    job.commands("\n".join([*lines, "end\n"])).check()


def least(job, run):
    """The least time of a command."""
    times = []
    for _ in range(ROUNDS):
        began = time.process_time()
        run(job)
        times.append(time.process_time() - began)
    return min(times) / (2 * PAIRS + 2) * 1e6


def in_python():
    """The line of Python. The library is in BOXGLUE_LIBRARY."""
    import boxglue

    with boxglue.Job() as job:
        print("Python", *(f"{least(job, it):.3f}" for it in (by_batch, by_text, fill)), sep="\t")


def main(archive):
    """Builds what the languages need, and runs all of them."""
    with tempfile.TemporaryDirectory(prefix="boxglue-typed-") as room:

        def run(*words, **env):
            subprocess.run(words, cwd=room, env={**os.environ, **env}, check=True)

        run(f"{ROOT}/bindings/build", os.path.abspath(archive), f"{room}/libboxglue.so")
        run(f"{ROOT}/bindings/build", "--static", os.path.abspath(archive), f"{room}/libboxglue.a")
        run(
            "cc",
            "-O2",
            f"-I{ROOT}/include",
            f"{ROOT}/bench/typed/typed.c",
            "libboxglue.a",
            "-o",
            "typed",
        )
        with open(f"{room}/Cargo.toml", "w", encoding="utf-8") as it:
            it.write(MANIFEST % (ROOT, ROOT))
        run(
            sys.executable,
            "-B",
            os.path.abspath(__file__),
            BOXGLUE_LIBRARY=f"{room}/libboxglue.so",
            PYTHONPATH=f"{ROOT}/bindings/python",
        )
        run("./typed")
        run(
            "cargo",
            "run",
            "--quiet",
            "--offline",
            "--release",
            BOXGLUE_LIB_DIR=room,
            CARGO_TARGET_DIR=f"{room}/target",
        )


if __name__ == "__main__":
    main(sys.argv[1]) if sys.argv[1:] else in_python()
