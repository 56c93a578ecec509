"""A part of the tests, and how the parts are found."""
import importlib
import pkgutil
from dataclasses import dataclass
from typing import Callable, Optional

import lint
import models.tests
import parts


@dataclass(frozen=True)
class Part:
    """A named list of cases; parts/__init__.py has the form of `cases`."""

    name: str
    title: str
    cases: Callable
    # The program of which it runs builds; None if it always builds by itself.
    program: Optional[str] = "boxglue"
    # Whether it cannot build that program by itself.
    needs_program: bool = False
    # Parts with a larger one begin earlier.
    weight: int = 0
    # Whether one run of `rt try` gives the results of all its cases if no program is built.
    tries: bool = True
    # Divides the cases of a part that takes long into lists that run side by side.
    split: Optional[Callable] = None


def in_turn(count):
    """Divides cases into so many lists."""
    return lambda pairs: [it for it in (pairs[at::count] for at in range(count)) if it]


def parts_of(package, name, root):
    """The parts of one module: none if it is a helper."""
    module = importlib.import_module(f"{package.__name__}.{name}")
    if not hasattr(module, "TITLE"):
        return []
    if hasattr(module, "parts"):
        return module.parts(root)
    fields = ("program", "needs_program", "weight", "tries", "split")
    said = {
        field: getattr(module, field.upper()) for field in fields if hasattr(module, field.upper())
    }
    return [Part(name, module.TITLE, module.cases, **said)]


def all_parts(root):
    """The parts of all modules of the packages with parts; those that begin earlier come first."""
    found = sorted(
        (
            (it.name, package)
            for package in (lint, models.tests, parts)
            for it in pkgutil.iter_modules(package.__path__)
        ),
        key=lambda it: it[0],
    )
    return sorted(
        (part for name, package in found for part in parts_of(package, name, root)),
        key=lambda it: -it.weight,
    )
