#!/usr/bin/env python3
"""Round trips of `boxglue session` by pipes, and its memory: bench/sessions.py PROGRAM [OTHER ..]

Prints for each program, in turns: how many round trips a second a client makes that writes a line
and reads its answer before the next; how many lines a second are run of a client that writes on
while it reads; and the peak memory of the latter. The client is this program, so the figures are of
both together."""
import argparse
import os
import subprocess
import tempfile
import threading
import time

LINES = (b"hbox into 0\n", b"rule 1pt 1pt 0pt\n", b"kern 2pt\n", b"end\n")
BLOCK = b"".join(LINES) * 2_500
TURNS = 5


def start(program, folder):
    return subprocess.Popen(
        [program, "session", f"{folder}/out.dvi"],
        stdin=subprocess.PIPE,
        stdout=subprocess.PIPE,
        bufsize=0,
    )


def end(session):
    """Waits for the end of a session whose input is closed. Returns its peak memory in
    megabytes."""
    _, status, usage = os.wait4(session.pid, 0)
    session.returncode = os.waitstatus_to_exitcode(status)
    if session.returncode:
        raise RuntimeError(f"the status is {session.returncode}")
    return usage.ru_maxrss / 1000


def round_trips(program, count):
    """Round trips a second."""
    with tempfile.TemporaryDirectory() as folder, start(program, folder) as session:
        given, taken = session.stdin.fileno(), session.stdout.fileno()
        began = time.perf_counter()
        for number in range(count):
            os.write(given, LINES[number & 3])
            if not os.read(taken, 4096).endswith(b"\n"):
                raise RuntimeError("an answer is not whole")
        seconds = time.perf_counter() - began
        session.stdin.close()
        session.stdout.read()
        end(session)
    return count / seconds


def write_blocks(stream, count):
    for _ in range(count // 10_000):
        stream.write(BLOCK)
    stream.close()


def pipelined(program, count):
    """Lines a second, and the peak memory in megabytes."""
    with tempfile.TemporaryDirectory() as folder, start(program, folder) as session:
        writer = threading.Thread(
            target=write_blocks, args=(os.fdopen(os.dup(session.stdin.fileno()), "wb"), count)
        )
        session.stdin.close()
        began = time.perf_counter()
        writer.start()
        answers = 0
        while piece := os.read(session.stdout.fileno(), 1 << 16):
            answers += piece.count(b"\n")
        seconds = time.perf_counter() - began
        writer.join()
        memory = end(session)
    if answers != count + 1:
        raise RuntimeError(f"{answers} lines answer {count} and the end")
    return count / seconds, memory


def main():
    parser = argparse.ArgumentParser(
        description=__doc__, formatter_class=argparse.RawDescriptionHelpFormatter
    )
    parser.add_argument("programs", metavar="PROGRAM", nargs="+")
    parser.add_argument("--trips", type=int, default=100_000, help="round trips of a run (100,000)")
    parser.add_argument(
        "--lines",
        type=int,
        default=10_000_000,
        help="lines of the run without waiting, a multiple of 10,000 (10,000,000)",
    )
    words = parser.parse_args()
    found = {program: [] for program in words.programs}
    for _ in range(TURNS):
        for program in words.programs:
            found[program].append(round_trips(program, words.trips))
    for program in words.programs:
        speed, memory = pipelined(program, words.lines)
        load = os.getloadavg()[0]
        print(
            f"{program}: {max(found[program]):,.0f} round trips a second (least {min(found[program]):,.0f} of {TURNS} runs); "
            f"{words.lines:,} lines: {speed:,.0f} a second, {memory:.1f} MB; load {load:.1f}",
            flush=True,
        )


if __name__ == "__main__":
    main()
