"""Commands that take long, as `install` runs them: each in a session of its own, so that a signal
ends it with all that it has started. Lines say what runs."""
import contextlib
import os
import signal
import subprocess
import tempfile
import time

# A line is printed at least once in so many seconds.
EVERY = 10


class Failed(Exception):
    """What is wrong."""


class Stopped(Exception):
    """A signal has asked for the end."""


# The process group that runs, if one does, and the signal that has asked for the end, if one has.
running, signals = [], []
# When this began, and when the last line was printed.
BEGAN = time.monotonic()
printed = [BEGAN]


def stop(number, _):
    """Takes a signal. It raises nothing: an exception from here could leave a lock of `subprocess`
    taken for ever, so the code asks `go_on` at places of its own."""
    signals.append(number)
    end_running()


def end_running():
    """Ends what runs, with all that it has started."""
    for group in running:
        with contextlib.suppress(ProcessLookupError):
            os.killpg(group, signal.SIGTERM)


def go_on():
    """Raises `Stopped` after a signal."""
    if signals:
        raise Stopped


def say(text):
    """Prints a line after the minutes and seconds since the start."""
    printed[0] = time.monotonic()
    spent = int(printed[0] - BEGAN)
    print(f"[{spent // 60:3}:{spent % 60:02}] {text}", flush=True)


def is_quiet():
    """Whether the next line is due, when this is asked once a second."""
    return time.monotonic() - printed[0] >= EVERY - 1


def text_of(log):
    """What is in a log so far. It is read at a place of its own, since the place of the file is
    where the command writes."""
    return os.pread(log.fileno(), os.fstat(log.fileno()).st_size, 0).decode(errors="replace")


def look_at(look):
    """Calls `look`. Where a line can no longer be printed, what runs is ended, since nothing would
    wait for it."""
    try:
        look()
    except OSError:
        end_running()
        raise


def run(words, folder, log, look):
    """Runs a command in a folder, calls `look` each second until it has ended, and returns its
    status."""
    with subprocess.Popen(
        words, cwd=folder, stdin=subprocess.DEVNULL, stdout=log, stderr=log, start_new_session=True
    ) as started:
        running.append(started.pid)
        # A signal that came before this line found nothing to end.
        if signals:
            end_running()
        status = None
        while status is None:
            try:
                status = started.wait(1)
            except subprocess.TimeoutExpired:
                look_at(look)
        running.clear()
    go_on()
    return status


def done(words, folder, what, end, wrong):
    """Runs a command, and prints how it ended; a command that fails ends all. Returns what it
    printed."""
    since = time.monotonic()

    def look():
        if is_quiet():
            say(f"{what}: {time.monotonic() - since:.0f} s")

    with tempfile.TemporaryFile() as log:
        status, text = run(words, folder, log, look), text_of(log)
    if status != 0:
        raise Failed(f"{wrong}: status {status}\n{text[-3000:]}")
    say(f"{what}: {end}, {time.monotonic() - since:.0f} s")
    return text
