"""What the typed calls of a job keep: open lists, registers and fonts."""
from __future__ import annotations

from typing import TYPE_CHECKING, Any, Generic, Protocol, TypeVar

from ._public import public
from ._replies import Packed, Paragraph
from ._scripts import REGISTERS, SLOTS
from ._status import BoxglueError, NeedsRecovery

if TYPE_CHECKING:
    from types import TracebackType

    from ._library import Data
    from ._metrics import Metrics
    from ._paragraphs import Words

EndT = TypeVar("EndT", bound="Packed | Paragraph")
_Ended = TypeVar("_Ended", bound="Packed | Paragraph", covariant=True)
_Same = TypeVar("_Same", bound="OpenList[Any]")


class Ends(Protocol[_Ended]):
    """What gives the reply to the end of a list, once there is one."""

    @property
    def reply(self) -> _Ended:
        ...


@public
class LoadedFont:
    """A font in a slot, which `load` of a job returns.

    Attributes:
        slot: The number of its slot, which DVI files and their marks use for it, too.
        name: Its name.
        size: Its size in scaled points; None is its design size.
    """

    __slots__ = "slot", "name", "size"

    def __init__(self, slot: int, name: str, size: int | None) -> None:
        self.slot, self.name, self.size = slot, name, size

    def __index__(self) -> int:
        return self.slot

    def __repr__(self) -> str:
        return f"LoadedFont({self.slot}, {self.name!r}, {self.size})"


class State:
    """What the typed calls of a job know: lists that they opened, registers and slots that they
    chose, and the current font."""

    def __init__(self, fonts: dict[str, Data]) -> None:
        self.lists: list[OpenList[Any]] = []
        self.is_left = False
        self.files, self.names = fonts, tuple(fonts)
        self.fonts: dict[int, LoadedFont | None] = {}
        self.current: LoadedFont | None = None
        self.next_register, self.free_registers = REGISTERS - 1, list[int]()
        # A paragraph with hyphens changes this parameter for a while. docs/boxglue.1 has its first
        # value.
        self.pretolerance = 100
        self.metrics: dict[tuple[str, int | None], Metrics | None] = {}
        self.words: dict[Any, Words] = {}

    def check(self) -> None:
        """Raises NeedsRecovery where an exception left a list open."""
        if self.is_left:
            lists = ", ".join(it.form for it in self.lists) or "none"
            ends = 'end each by job.commands("end\\n"), then call job.recover(); or give recover() those that go on'
            raise NeedsRecovery(
                f"an exception left lists open (typed calls opened: {lists}): {ends}"
            )

    def loaded(self, name: str, size: int | None) -> LoadedFont | None:
        """The font that was loaded at this size."""
        return next(
            (it for it in self.fonts.values() if it and (it.name, it.size) == (name, size)), None
        )

    def own(self, font: LoadedFont) -> LoadedFont:
        """A font, which must be one of this job: by another job's font, texts would have the wrong
        metrics."""
        known = self.fonts.get(font.slot)
        if known is not font and (
            known is None or (known.name, known.size) != (font.name, font.size)
        ):
            raise BoxglueError(f"{font!r} is not a font of this job: load it in this job")
        return font

    def free_slot(self) -> int:
        """The first free slot."""
        for slot in range(SLOTS):
            if slot not in self.fonts:
                return slot
        raise BoxglueError(f"all {SLOTS} slots have a font")

    def recover(self, lists: tuple[OpenList[Any], ...]) -> None:
        """Takes these lists for the open ones."""
        strange = [it for it in lists if it not in self.lists]
        if strange:
            raise ValueError(f"{strange[0]!r} was not open")
        for it in self.lists:
            it.is_open = it in lists
        self.lists = [it for it in self.lists if it.is_open]
        self.is_left = False


class Typed(Protocol):
    """What a list and a register need of a job or a batch."""

    _state: State

    def _end(self, kind: type[EndT]) -> Ends[EndT]:
        ...


@public
class Register:
    """A register that a job chose. Give its number or itself to calls, and give it back by
    `release` or at the end of a `with`.

    It is void at first. The job voids it again before it gives it to another call.

    Attributes:
        number: Its number, 0 to 32,767.
    """

    __slots__ = "number", "_state"

    def __init__(self, number: int, state: State) -> None:
        self.number = number
        self._state: State | None = state

    def __index__(self) -> int:
        if self._state is None:
            raise BoxglueError(f"the register {self.number} was given back")
        return self.number

    def __repr__(self) -> str:
        return f"<Register {self.number}{'' if self._state else ', given back'}>"

    def release(self) -> None:
        """Gives the register back to the job. You may give it back twice."""
        if self._state is not None:
            self._state.free_registers.append(self.number)
            self._state = None

    def __enter__(self) -> Register:
        return self

    def __exit__(self, *_error: object) -> None:
        self.release()


@public
class OpenList(Generic[EndT]):
    """A list that a typed call opened, as a context manager. Its end sends `end`, and its reply is
    here afterwards.

    After an exception within the `with`, no `end` is sent, since it might end another list. Typed
    calls on the job then raise NeedsRecovery until you say by `recover` of the job which lists are
    open.

    Attributes:
        form: "hbox", "vbox", "vtop" or "par".
        is_open: Whether it is open.
    """

    __slots__ = "form", "is_open", "_typed", "_ended"
    _KIND: type[EndT]

    def __init__(self, form: str, typed: Typed) -> None:
        self.form, self.is_open, self._typed = form, True, typed
        self._ended: Ends[EndT] | None = None
        typed._state.lists.append(self)

    def __repr__(self) -> str:
        return f"<{type(self).__name__} {self.form}{', open' if self.is_open else ''}>"

    def end(self) -> None:
        """Ends the list, which must be the innermost one. A `with` does so by itself.

        Raises:
            Refused: The end is refused, and the list is open as before.
            BoxglueError: Another list is the innermost one, or this one is not open.
            NeedsRecovery: An exception left a list open.
        """
        state = self._typed._state
        state.check()
        if not state.lists or state.lists[-1] is not self:
            inner = (
                f"{state.lists[-1]!r} is the innermost list" if self.is_open else "it is not open"
            )
            raise BoxglueError(f"{self!r} cannot be ended: {inner}")
        self._ended = self._typed._end(self._KIND)
        state.lists.pop()
        self.is_open = False

    @property
    def reply(self) -> EndT:
        """The reply to its end.

        Raises:
            BoxglueError: There is none: the list is open, or its batch has not ended.
            Refused: Its end was refused, in a batch.
        """
        if self.is_open:
            found = "lines" if self.form == "par" else "sizes"
            raise BoxglueError(
                f"this {self.form} is open: read its {found} after its `with` or `end`"
            )
        if self._ended is None:
            raise BoxglueError(f"{self!r} has no reply: typed calls did not end it")
        return self._ended.reply

    def __enter__(self: _Same) -> _Same:
        return self

    def __exit__(
        self,
        kind: type[BaseException] | None,
        error: BaseException | None,
        trace: TracebackType | None,
    ) -> None:
        if not self.is_open:
            return
        if kind is not None:
            self._typed._state.is_left = True
            return
        try:
            self.end()
        except BaseException:
            self._typed._state.is_left = True
            raise


@public
class OpenBox(OpenList[Packed]):
    """The list of a box (see OpenList). After its end it has the badness of the box, and its sizes
    in scaled points."""

    __slots__ = ()
    _KIND = Packed

    @property
    def width(self) -> int:
        """The width of the box."""
        return self.reply.width

    @property
    def height(self) -> int:
        """The height of the box."""
        return self.reply.height

    @property
    def depth(self) -> int:
        """The depth of the box."""
        return self.reply.depth

    @property
    def badness(self) -> int:
        """The badness of the box: 0 to 10,000, or 1,000,000 if it is overfull."""
        return self.reply.badness


@public
class OpenParagraph(OpenList[Paragraph]):
    """The list of a paragraph (see OpenList). After its end it has the lines, the pass, the
    overhang and the demerits."""

    __slots__ = ()
    _KIND = Paragraph

    @property
    def lines(self) -> int:
        """The number of its lines."""
        return self.reply.lines

    @property
    def deciding_pass(self) -> int:
        """The pass that decided, 1 to 3; 0 for an empty paragraph."""
        return self.reply.deciding_pass

    @property
    def overhang(self) -> int:
        """By how much its lines are overfull, in scaled points."""
        return self.reply.overhang

    @property
    def demerits(self) -> int:
        """Its demerits."""
        return self.reply.demerits
