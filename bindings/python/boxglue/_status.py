"""The statuses of the library's calls, and what is raised for them."""
from __future__ import annotations

import enum
from typing import Literal, NamedTuple, NoReturn, TypeAlias

from ._public import public

# How a list is opened: the command.
Form: TypeAlias = Literal["hbox", "vbox", "vtop", "par"]


@public
class Status(enum.IntEnum):
    """The statuses of the library's calls. The calls of this package return results instead, and
    raise an exception if there is none."""

    ACCEPTED = 0
    REFUSED = 1
    OUT_OF_MEMORY = 2
    BAD_FONT_NAME = 3
    BUFFER_TOO_SMALL = 4
    NO_SUCH_PAGE = 5
    OUT_OF_RANGE = 6
    REFUSED_MEMORY = 7
    NO_JOB = 8
    JOB_EXISTS = 9
    ANSWERS_LOST = 10

    @property
    def text(self) -> str:
        """The status in a few words, those of boxglue_status_text in C."""
        return _TEXTS[self]


_TEXTS = {
    Status.ACCEPTED: "accepted",
    Status.REFUSED: "refused: the text, or a reply, says why",
    Status.OUT_OF_MEMORY: "out of memory",
    Status.BAD_FONT_NAME: "the name of a font does not have 1 to 255 bytes",
    Status.BUFFER_TOO_SMALL: "a buffer is too small: the sizes say what is needed",
    Status.NO_SUCH_PAGE: "the DVI file has no page of this number",
    Status.OUT_OF_RANGE: "a number is out of its range",
    Status.REFUSED_MEMORY: "refused: there was no memory for a command, or for the end of the job",
    Status.NO_JOB: "the handle has no job",
    Status.JOB_EXISTS: "the handle has a job already",
    Status.ANSWERS_LOST: "the commands were run, and there was no memory for their answers",
}


@public
class BoxglueError(Exception):
    """The base of all exceptions of this package."""


@public
class ListOpening(NamedTuple):
    """A list that is open.

    Attributes:
        form: The command that opened it: "hbox", "vbox", "vtop" or "par".
        line: The line of this command: in the script, or among all commands of the job.
        caller: The file and the line of the call that sent it; None of a script.
    """

    form: Form
    line: int
    caller: tuple[str, int] | None = None

    def __str__(self) -> str:
        where = f", called at {self.caller[0]}:{self.caller[1]}" if self.caller else ""
        return f"{self.form} (line {self.line}{where})"


@public
class Refused(BoxglueError):
    """A command, a script or a DVI file was refused. An attribute that a refusal does not have is
    None.

    Two refusals are equal if the library says the same of them.

    Attributes:
        name: The name of the refusal (docs/REFUSALS.md), such as "NoFont".
        number: Its number, such as 4.
        line: The line of the command or of the bad line of a script.
        place: The place at which a DVI file breaks a rule.
        cause: The name of the rule that a file or a line breaks, such as "Word" after "BadScript".
        detail: The text after the name, such as "74 Trailer" after "BadDvi".
        command: The command that was refused, such as "use 7"; the bad line of a script.
        caller: The file and the line of the typed call that sent it.
        open_lists: After "WrongMode", "VoidBox" and "ListsOpen" the open lists, the innermost one
            last.
        hint: What else its text says, such as which fonts the job has after "NoFont"; else "".
    """

    def __init__(
        self,
        name: str,
        number: int,
        line: int | None = None,
        detail: str = "",
        command: str | None = None,
        caller: tuple[str, int] | None = None,
        open_lists: tuple[ListOpening, ...] = (),
        hint: str = "",
    ) -> None:
        self.name, self.number, self.detail, self.command, self.caller, self.open_lists = (
            name,
            number,
            detail,
            command,
            caller,
            open_lists,
        )
        self.hint = hint
        where, _, cause = detail.rpartition(" ")
        self.line = int(where) if name == "BadScript" else line
        self.place = int(where) if name == "BadDvi" else None
        self.cause = cause or None
        self._parts = name, number, line, detail
        said = f"line {line}: " if line is not None else ""
        said = f"{said}refused {number} {name} {detail}".rstrip()
        if command is not None:
            said += f": {command[:200]!r}"
        if caller is not None:
            said += f", called at {caller[0]}:{caller[1]}"
        if open_lists:
            said += f"; open lists: {', '.join(map(str, open_lists))}"
        if hint:
            said += f"; {hint}"
        super().__init__(said)

    def of_command(
        self,
        command: str | None,
        caller: tuple[str, int] | None,
        open_lists: tuple[ListOpening, ...] = (),
        hint: str = "",
    ) -> Refused:
        """Returns the same refusal with its command, the place of its call, the open lists, and a
        hint.

        Args:
            command: The command that was refused.
            caller: The file and the line of the call that sent it.
            open_lists: The lists that were open, the innermost one last.
            hint: What else its text says.

        Returns:
            Another exception.
        """
        return Refused(*self._parts, command, caller, open_lists, hint)

    def __eq__(self, other: object) -> bool:
        return isinstance(other, Refused) and self._parts == other._parts

    def __hash__(self) -> int:
        return hash(self._parts)

    def __reduce__(self) -> tuple[type[Refused], tuple[object, ...]]:
        # By default pickle makes an exception again only from its message, which fails here. A
        # worker of a process pool that raises such an exception would hang the pool.
        return type(self), (*self._parts, self.command, self.caller, self.open_lists, self.hint)


@public
class BadCharacter(BoxglueError, ValueError):
    """A text has a character that a script, an encoding or a font does not have. Nothing was sent.

    Attributes:
        text: The text.
        place: Where the character is in the text, from 0.
        why: The rule that it breaks.
    """

    def __init__(self, text: str, place: int, why: str) -> None:
        self.text, self.place, self.why = text, place, why
        super().__init__(
            f"{text[place]!r} (U+{ord(text[place]):04X}) at {place} of {text[max(place - 20, 0):place + 20]!r}: {why}"
        )

    def __reduce__(self) -> tuple[type[BadCharacter], tuple[str, int, str]]:
        return type(self), (self.text, self.place, self.why)


@public
class NeedsRecovery(BoxglueError):
    """An exception left a list open, so the next typed call would add to it. Say by `recover` of
    the job which lists are open."""


@public
class OutOfMemory(BoxglueError, MemoryError):
    """The system refused memory, and nothing was done."""


@public
class BadFontName(BoxglueError, ValueError):
    """The name of a font does not have 1 to 255 bytes."""


@public
class NoSuchPage(BoxglueError, IndexError):
    """The DVI file is good and does not have this page."""


@public
class OutOfRange(BoxglueError, ValueError):
    """The number of a page, of pixels an inch, or of a bitmap's pixels is out of its range."""


@public
class NoJob(BoxglueError, ValueError):
    """The job is closed."""


@public
class AnswersLost(BoxglueError, MemoryError):
    """The commands were run, and the system refused memory for the text of their answers. No call
    of this package raises it."""


_ERRORS: dict[int, type[BoxglueError]] = {
    Status.OUT_OF_MEMORY: OutOfMemory,
    Status.BAD_FONT_NAME: BadFontName,
    Status.NO_SUCH_PAGE: NoSuchPage,
    Status.OUT_OF_RANGE: OutOfRange,
    Status.NO_JOB: NoJob,
    Status.ANSWERS_LOST: AnswersLost,
}


def fail(status: int) -> NoReturn:
    """Raises what a status means that has no result."""
    # A job of this package always has a handle: it has no job once it is closed.
    raise _ERRORS.get(status, BoxglueError)(
        "the job is closed" if status == Status.NO_JOB else Status(status).text
    )
