"""What marks a name of a module as one of the package."""
from __future__ import annotations

from typing import TypeVar

_Named = TypeVar("_Named")


def public(it: _Named) -> _Named:
    """Names a class or a function as users know it: `boxglue.Job`, not `boxglue._job.Job`, in
    tracebacks, pickles and help.

    Args:
        it: The class or the function.

    Returns:
        The same class or function.
    """
    setattr(it, "__module__", "boxglue")
    return it
