"""Helpers for texts that programs printed."""
import os
import re

from common.outcome import Wrong


def first_difference(what, found, wanted):
    """Returns the place from which two texts differ, or None."""
    if found == wanted:
        return None
    at = len(os.path.commonprefix([found, wanted]))
    return f"{what} from byte {at} on is {found[at:at + 100]!r} and not {wanted[at:at + 100]!r}"


def same(what, found, wanted):
    """Raises the place from which two texts differ."""
    if found != wanted:
        raise Wrong(first_difference(what, found, wanted))


def last_lines(text, count=3):
    """The last lines of an output, as one line."""
    lines = [it.strip() for it in text.decode(errors="replace").splitlines() if it.strip()]
    return " / ".join(lines[-count:]) or "nothing was printed"


def blocks(text):
    """The texts after lines `== NAME`, by their names; the name is empty for the text before the
    first."""
    pieces = re.split(rb"^== (.*)\n", text, flags=re.M)
    return {b"": pieces[0], **dict(zip(pieces[1::2], pieces[2::2]))}
