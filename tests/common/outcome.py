"""The result of a case."""
import os
import shutil
import subprocess


class Skipped(Exception):
    """A case could not be run here; the text is the reason. A case returns it, or raises it."""

    @property
    def reason(self):
        """The reason."""
        return str(self)


class Wrong(Exception):
    """What is wrong."""


def require(holds, why):
    """Raises the reason if something is wrong."""
    if not holds:
        raise Wrong(why)


def equal(what, found, wanted):
    """Raises what was found where something else is wanted."""
    require(found == wanted, f"{what}: found {found!r}, and not {wanted!r}")


def without(tool):
    """The result of a case for which this tool has to be there, and is not. docs/internal/GATE.md
    lists the tool: the gate lets no other case be skipped."""
    return Skipped(f"no {tool}")


def lacks(tool):
    """The same if this command is not on the path, otherwise None."""
    return None if shutil.which(tool) else without(tool)


def need(*tools):
    """Skips the case unless these commands are on the path."""
    for tool in tools:
        if lacks(tool):
            raise without(tool)


def attempt(call):
    """The result of a case: None, a Skipped, or a text about what is wrong, as which an exception
    counts."""
    try:
        return call()
    except Skipped as skipped:
        return skipped
    except (Wrong, OSError, subprocess.TimeoutExpired) as error:
        return str(error)
    except Exception as error:
        return f"{type(error).__name__}: {error}"


def on_each(programs, call):
    """Does a call with each program. Returns what is wrong, after the name of the program, or a
    Skipped, or None."""
    found = [(os.path.basename(it), attempt(lambda it=it: call(it))) for it in programs]
    skipped = next((why for _, why in found if isinstance(why, Skipped)), None)
    return skipped or "; ".join(f"{name}: {why}" for name, why in found if why) or None
