"""Many commands in one call."""
from __future__ import annotations

from collections.abc import Iterator, Sequence
from contextlib import contextmanager
from sys import _getframe
from typing import TYPE_CHECKING, Any, Generic, TypeVar

from ._commands import Commands
from ._lists import OpenBox, OpenParagraph
from ._opened import Calls, line_of
from ._public import public
from ._replies import Added, Measured, Ok, Reply, Shipped, Split
from ._status import BoxglueError, Refused

if TYPE_CHECKING:
    from types import FrameType, TracebackType

    from ._job import Job
    from ._lists import EndT, LoadedFont
    from ._status import Form

ReplyT = TypeVar("ReplyT")


def caller() -> tuple[str, int]:
    """The file and the line of the call that came into this package."""
    frame = outside()
    return line_of(frame.f_code, frame.f_lasti)


def outside() -> FrameType:
    """The frame of the call that came into this package."""
    frame = _getframe(1)
    while frame.f_back and frame.f_globals.get("__package__") == "boxglue":
        frame = frame.f_back
    return frame


@public
class Handle(Generic[ReplyT]):
    """A command of a batch, whose reply it has once the batch has ended."""

    __slots__ = "_batch", "_at"
    _batch: Batch
    _at: int

    def __repr__(self) -> str:
        return f"<Handle of {self._batch.command(self._at)!r}>"

    @property
    def reply(self) -> ReplyT:
        """The reply to the command.

        Raises:
            Refused: The command was refused.
            BoxglueError: The batch has not ended, or was not run.
        """
        found: Any = self._batch.reply(self._at)
        return found  # type: ignore[no-any-return]

    @property
    def refusal(self) -> Refused | None:
        """The refusal of the command; None if the command was not refused.

        Raises:
            BoxglueError: The batch has not ended, or was not run.
        """
        return self._batch.refusal(self._at)


class TextHandle(Handle[Added]):
    """The handle of a text that is sent as several commands: one reply for all of them."""

    __slots__ = ("_count",)

    def __init__(self, batch: Batch, at: int, count: int) -> None:
        self._batch, self._at, self._count = batch, at, count

    @property
    def reply(self) -> Added:
        return added([self._batch.reply(it) for it in range(self._at, self._at + self._count)])

    @property
    def refusal(self) -> Refused | None:
        return next(
            (
                why
                for it in range(self._at, self._at + self._count)
                if (why := self._batch.refusal(it))
            ),
            None,
        )


def added(replies: list[Reply]) -> Added:
    """The replies to the commands of a text as one. A kern is one item."""
    items = [it.items if isinstance(it, Added) else 1 for it in replies]
    missing = [it.missing or 0 for it in replies if isinstance(it, Added)]
    first = replies[0]
    return Added(first.line if isinstance(first, (Ok, Added)) else 0, sum(items), sum(missing))


@public
class Batch(
    Commands["Handle[Ok]", "Handle[Added]", "Handle[Split]", "Handle[Measured]", "Handle[Shipped]"]
):
    """Commands that are sent in one call, at the end of a `with`.

        with job.batch() as it:
            width = it.measure(7)
            it.ship(7)
        print(width.reply.width)

    A refused command does not stop the commands after it. The end of the batch raises the first
    refusal, and the handles of the other commands have their replies. If the refused command opened
    or ended a list, typed calls raise NeedsRecovery until `recover`.

    If an exception leaves the `with`, nothing is sent, and the job is as it was before.
    """

    def __init__(self, job: Job) -> None:
        self._job, self._state = job, job._state
        self._lines: list[str] = []
        self._calls = Calls()
        self._loads: dict[int, LoadedFont] = {}
        self._replies: Sequence[Reply] | None = None
        self._is_open = False

    def __repr__(self) -> str:
        return f"<boxglue.Batch: {len(self._lines)}{'' if self._is_open else ', ended'}>"

    def __enter__(self) -> Batch:
        self._begin()
        return self

    def _begin(self) -> None:
        """Begins, and keeps what the job knows now."""
        self._job._begin(self)
        self._is_open = True
        self._before = [*self._state.lists], self._state.current, {**self._state.fonts}

    def __exit__(
        self,
        kind: type[BaseException] | None,
        error: BaseException | None,
        trace: TracebackType | None,
    ) -> None:
        self._is_open = False
        self._job._batch = None
        if kind is None:
            self._run()
        else:
            self._cancel()

    @contextmanager
    def recorded(self) -> Iterator[None]:
        """Collects the commands within a `with`, and runs none. After it the job is as it was.

        Returns:
            A context manager.

        Raises:
            NoJob: The job is closed.
            BoxglueError: Another batch is open.
            NeedsRecovery: An exception left a list open.
        """
        self._begin()
        try:
            yield
        finally:
            self._is_open = False
            self._job._batch = None
            self._cancel()

    def lines(self) -> list[str]:
        """Returns the commands of the batch.

        Returns:
            The commands, each a line.

        Raises:
            BoxglueError: One of them loads a font.
        """
        if self._loads:
            raise BoxglueError("a piece of a paragraph loads no font")
        return self._lines

    def command(self, at: int) -> str:
        """Returns a command of the batch.

        Args:
            at: The number of the command, from 0.

        Returns:
            Its line, without the line feed.
        """
        return self._lines[at].rstrip("\n")

    def reply(self, at: int) -> Reply:
        """Returns the reply to a command.

        Args:
            at: The number of the command, from 0.

        Returns:
            The reply.

        Raises:
            Refused: The command was refused.
            BoxglueError: The batch has not ended, or was not run.
        """
        why = self.refusal(at)
        if why:
            raise why
        assert self._replies is not None
        return self._replies[at]

    def refusal(self, at: int) -> Refused | None:
        """Returns why a command was refused.

        Args:
            at: The number of the command, from 0.

        Returns:
            The refusal; None if the command was not refused.

        Raises:
            BoxglueError: The batch has not ended, or was not run.
        """
        if self._replies is None:
            raise BoxglueError(
                "the batch has not ended" if self._is_open else "the batch was not run"
            )
        found = self._replies[at]
        return found if isinstance(found, Refused) else None

    def _cancel(self) -> None:
        """Forgets what the batch would have done."""
        lists, self._state.current, self._state.fonts = self._before
        for it in self._state.lists:
            it.is_open = False
        for it in lists:
            it.is_open, it._ended = True, None
        self._state.lists, self._state.is_left = lists, False

    def _run(self) -> None:
        """Sends the commands."""
        try:
            self._state.check()
            answers = self._job._commands("".join(self._lines).encode("ascii"), self._calls)
        except BoxglueError:
            # A list is left, memory was refused, or the job is closed: nothing was run.
            self._cancel()
            raise
        except BaseException:
            self._state.is_left = True  # the commands may have been run
            raise
        self._replies = answers.replies
        if not answers.accepted:
            self._refused(answers.replies)

    def _refused(self, replies: Sequence[Reply]) -> None:
        """Raises the first refusal."""
        if len(replies) < len(self._lines):  # a bad line, which typed calls do not make
            self._cancel()
            raise answers_wrong(replies)
        refused = [at for at, it in enumerate(replies) if isinstance(it, Refused)]
        for at in refused:
            if at in self._loads:
                del self._state.fonts[self._loads[at].slot]
            if at in self._calls.lists:
                self._state.is_left = True
        why = self.refusal(refused[0])
        assert why is not None
        raise why

    def _check(self) -> None:
        """Raises where the batch takes no command."""
        self._state.check()
        if not self._is_open:
            raise BoxglueError("a batch takes commands within its `with`")

    def _add(self, line: str, frame: FrameType | None = None) -> Handle[Any]:
        """Keeps a command, and where its call came from: by default the caller of the function that
        calls this one."""
        if self._state.is_left or not self._is_open:
            self._check()
        if frame is None:
            frame = _getframe(2)
        lines, calls = self._lines, self._calls
        handle: Handle[Any] = Handle()  # in half the time that __init__ would take
        handle._batch = self
        handle._at = len(lines)
        lines.append(line)
        calls.codes.append(frame.f_code)
        calls.places.append(frame.f_lasti)
        return handle

    _ok = _added = _split = _measured = _shipped = _add

    def _text(self, lines: list[str]) -> Handle[Added]:
        first = len(self._lines)
        for it in lines:
            self._add(it, outside())
        return TextHandle(self, first, len(lines))

    def _load(self, font: LoadedFont, line: str) -> None:
        self._loads[len(self._lines)] = font
        self._add(line, outside())
        self._state.fonts[font.slot] = font

    def _box(self, form: Form, size: str) -> OpenBox:
        self._calls.lists[len(self._lines)] = form
        self._add(f"{form}{size}\n", outside())
        return OpenBox(form, self._job)

    def _paragraph(self) -> OpenParagraph:
        self._calls.lists[len(self._lines)] = "par"
        self._add("par\n", outside())
        return OpenParagraph("par", self._job)

    def _end(self, kind: type[EndT]) -> Handle[EndT]:
        self._calls.lists[len(self._lines)] = None
        return self._add("end\n", outside())


def answers_wrong(replies: Sequence[Reply]) -> BoxglueError:
    """The exception for a piece that was refused as a whole."""
    return (
        replies[0]
        if replies and isinstance(replies[0], Refused)
        else BoxglueError("a command has no reply")
    )
