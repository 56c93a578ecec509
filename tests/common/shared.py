"""A folder that all processes of a run of the tests share, and what is made in it once."""
import atexit
import fcntl
import functools
import shutil
import tempfile

MADE = "made"


class Unbuilt(Exception):
    """What could not be built, and why."""


@functools.lru_cache(None)
def folder():
    """The folder, which is removed at the end of the process that asks first: tests/run does before
    it starts others."""
    room = tempfile.mkdtemp(prefix="boxglue-run-")
    atexit.register(shutil.rmtree, room, ignore_errors=True)
    return room


@functools.lru_cache(None)
def own_folder():
    """A folder in it for this process alone."""
    return tempfile.mkdtemp(dir=folder())


def once(name, make):
    """The path of what `make` makes at a path, or its Unbuilt. The first process or thread that
    asks makes it, and the others wait for it."""
    path = f"{folder()}/{name}"
    with open(f"{path}.lock", "a+", encoding="utf-8") as lock:
        fcntl.flock(lock, fcntl.LOCK_EX)
        lock.seek(0)
        said = lock.read()
        if not said:
            said = make(path) or MADE
            lock.write(said)
    if said != MADE:
        raise Unbuilt(said)
    return path
