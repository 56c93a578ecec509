"""Files, as texts and as bytes."""
import functools
import os


def read(path):
    """The text of a file."""
    with open(path, encoding="utf-8") as it:
        return it.read()


@functools.lru_cache(None)
def source(path):
    """The text of a file of the repository, which is read once. Bytes that are no text are
    replaced."""
    with open(path, encoding="utf-8", errors="replace") as it:
        return it.read()


def content(path):
    """The bytes of a file."""
    with open(path, "rb") as it:
        return it.read()


def write(path, given, mode=None):
    """Writes a text or bytes into a file, and makes its folder."""
    os.makedirs(os.path.dirname(path) or ".", exist_ok=True)
    with open(path, "wb") as it:
        it.write(given.encode() if isinstance(given, str) else given)
    if mode is not None:
        os.chmod(path, mode)
