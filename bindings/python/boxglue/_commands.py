"""The commands of scripts as typed calls. A job runs each at once, and a batch keeps them; so what
they return is a parameter of the class."""
from __future__ import annotations

from abc import ABC, abstractmethod
from typing import TYPE_CHECKING, Generic, Literal, SupportsIndex, TypeVar

from . import _metrics
from ._encoded import codes_of, encoded, refuse_missing
from ._encodings import ASCII
from ._lists import LoadedFont, OpenBox, OpenParagraph, Register
from ._scripts import (
    CHARACTERS,
    COUNTS,
    LARGEST_FONT,
    MOST_FIRST_LINES,
    MOST_PENALTY,
    SLOTS,
    Glue,
    dimension,
    glue,
    glue_parameter,
    length,
    name_of_font,
    number,
    quote,
    register,
    sizes_of_rule,
    target,
)
from ._status import BoxglueError

if TYPE_CHECKING:
    from ._encodings import Encoding
    from ._lists import State
    from ._metrics import Metrics
    from ._scripts import Stretch
    from ._status import Form

    Missing = Literal["count", "raise"]

OkT = TypeVar("OkT")
AddedT = TypeVar("AddedT")
SplitT = TypeVar("SplitT")
MeasuredT = TypeVar("MeasuredT")
ShippedT = TypeVar("ShippedT")
_DIMENSIONS = {*"boxmaxdepth splitmaxdepth lineskiplimit hsize firstsize hoffset voffset".split()}
_GLUES = {*"splittopskip baselineskip lineskip parfillskip".split()}


class Commands(ABC, Generic[OkT, AddedT, SplitT, MeasuredT, ShippedT]):
    """The commands of docs/COMMANDS.md, section 3, as calls. A `Job` runs each at once and returns
    its reply; a `Batch` returns a `Handle` that has it later.

    Dimensions are whole numbers of scaled points, as `pt`, `inch` and the other units give them. A
    register is a number, or a `Register` of `register()`.

    Each call may raise these exceptions, and tests for the first four before it sends anything:
        TypeError: An argument is of another type. A float is not a dimension.
        ValueError: A number is out of the range that scripts have for it. BadCharacter is a
            ValueError, for a text.
        NeedsRecovery: An exception left a list open: see `recover`.
        NoJob: The job is closed.
        Refused: The command is refused, and changes nothing. The exception has the command and the
            line of the call. Each call lists its own refusals; all of them are refused after
            `finish` (JobOver).
        OutOfMemory: The system refused memory, and nothing was done.

    Use these calls of one job in one thread at a time: a list that one thread opens is open for
    all.
    """

    _state: State

    # What a job and a batch do with a command.

    @abstractmethod
    def _check(self) -> None:
        ...

    @abstractmethod
    def _ok(self, line: str) -> OkT:
        ...

    @abstractmethod
    def _added(self, line: str) -> AddedT:
        ...

    @abstractmethod
    def _text(self, lines: list[str]) -> AddedT:
        ...

    @abstractmethod
    def _split(self, line: str) -> SplitT:
        ...

    @abstractmethod
    def _measured(self, line: str) -> MeasuredT:
        ...

    @abstractmethod
    def _shipped(self, line: str) -> ShippedT:
        ...

    @abstractmethod
    def _load(self, font: LoadedFont, line: str) -> None:
        ...

    @abstractmethod
    def _box(self, form: Form, size: str) -> OpenBox:
        ...

    @abstractmethod
    def _paragraph(self) -> OpenParagraph:
        ...

    # Fonts.

    def load(
        self, name: str, *, at: SupportsIndex | None = None, slot: SupportsIndex | None = None
    ) -> LoadedFont:
        """Loads a font, unless it is loaded at this size already.

        Args:
            name: Its name among the fonts of the job.
            at: Its size in scaled points, such as pt(12); None is its design size.
            slot: The number of its slot, 0 to 255; None is the first free slot.

        Returns:
            The font, for `use`.

        Raises:
            Refused: No file has this name (NoFont), the file is bad (BadTfm) or too large at this
                size (DimensionTooLarge), or the slot has a font (SlotTaken).
            BoxglueError: No slot is free.
        """
        size = None if at is None else number(at, 1, LARGEST_FONT, "the size of a font")
        found = self._state.loaded(name, size) if slot is None else None
        if found:
            return found
        words = f"{name_of_font(name)}{'' if size is None else f' at {size}sp'}\n"
        while True:
            chosen = (
                self._state.free_slot() if slot is None else number(slot, 0, SLOTS - 1, "a slot")
            )
            font = LoadedFont(chosen, name, size)
            self._load(font, f"font {chosen} {words}")
            if slot is not None or self._state.fonts.get(chosen) is font:
                return font

    def use(self, font: LoadedFont | SupportsIndex) -> OkT:
        """Makes a font the current one.

        Args:
            font: A font of `load`, or the number of its slot.

        Returns:
            The reply; in a batch, a handle that has it later.

        Raises:
            Refused: The slot has no font (NoFont).
            BoxglueError: The font is not a font of this job.
        """
        if isinstance(font, str):
            raise TypeError(
                f"a font must be one of load() or the number of its slot: job.use(job.load({font!r}))"
            )
        slot = (
            self._state.own(font).slot
            if isinstance(font, LoadedFont)
            else number(font, 0, SLOTS - 1, "a slot")
        )
        done = self._ok(f"use {slot}\n")
        self._state.current = font if isinstance(font, LoadedFont) else self._state.fonts.get(slot)
        return done

    # Lists.

    def hbox(
        self,
        *,
        to: SupportsIndex | None = None,
        spread: SupportsIndex | None = None,
        into: SupportsIndex | None = None,
    ) -> OpenBox:
        """Opens the list of an hbox, for a `with`.

        Args:
            to: The width of the box.
            spread: By how much it is wider than its contents. Without both it has its natural
                width.
            into: The register for the box; None is the enclosing list.

        Returns:
            The list. After its end it has the sizes of the box.

        Raises:
            Refused: 64 lists are open (TooDeep), or `into` is None and no list is open
                (NoOpenList).
            TypeError: Both `to` and `spread` are given.
        """
        return self._box("hbox", target(to, spread, into))

    def vbox(
        self,
        *,
        to: SupportsIndex | None = None,
        spread: SupportsIndex | None = None,
        into: SupportsIndex | None = None,
    ) -> OpenBox:
        """Opens the list of a vbox, for a `with`.

        Args:
            to: The height of the box.
            spread: By how much it is higher than its contents. Without both it has its natural
                height.
            into: The register for the box; None is the enclosing list.

        Returns:
            The list. After its end it has the sizes of the box.

        Raises:
            Refused: 64 lists are open (TooDeep), or `into` is None and no list is open
                (NoOpenList).
            TypeError: Both `to` and `spread` are given.
        """
        return self._box("vbox", target(to, spread, into))

    def vtop(
        self,
        *,
        to: SupportsIndex | None = None,
        spread: SupportsIndex | None = None,
        into: SupportsIndex | None = None,
    ) -> OpenBox:
        """Opens the list of a vtop, a vbox whose height is its first item's, for a `with`.

        Args:
            to: The height that the same list has as a vbox.
            spread: By how much this height is more than the natural one. Without both the list has
                its natural height.
            into: The register for the box; None is the enclosing list.

        Returns:
            The list. After its end it has the sizes of the box.

        Raises:
            Refused: 64 lists are open (TooDeep), or `into` is None and no list is open
                (NoOpenList).
            TypeError: Both `to` and `spread` are given.
        """
        return self._box("vtop", target(to, spread, into))

    def par(self) -> OpenParagraph:
        """Opens a paragraph in a vertical list, for a `with`.

        Returns:
            The list. After its end it has the number of lines, and how well they fit.

        Raises:
            Refused: No list is open (NoOpenList), the list is horizontal (WrongMode), or 64 lists
                are open (TooDeep).
        """
        return self._paragraph()

    def recover(self, *lists: OpenBox | OpenParagraph) -> None:
        """Lets typed calls go on after an exception left a list open.

        No call closes a list that the exception left. End those that you do not want by a script,
        such as `job.commands("end\\nend\\n")`, and give the others here: their `with` or `end` ends
        them.

        Args:
            lists: The lists of typed calls that are open, in any order.

        Raises:
            ValueError: One of them was not open.
        """
        self._state.recover(lists)

    # Items.

    def text(
        self, text: str, *, encoding: Encoding | None = None, missing: Missing = "count"
    ) -> AddedT:
        """Adds a text in the current font, with its kerns and ligatures.

        Args:
            text: The text. Without an encoding it may have only the characters 32 to 126.
            encoding: The codes of the characters in the font, such as `OT1` and `T1`, or any
                mapping of yours. The call may send such a text as several commands, with the font's
                kerns between them, and returns one reply for all.
            missing: "count" drops characters that the font lacks, and the reply counts them.
                "raise" asks for the font's metrics first, and raises for such a character.

        Returns:
            How many items were added, and how many characters are missing; in a batch, a handle
            that has this reply later.

        Raises:
            BadCharacter: A script, the encoding or the font does not have a character. The
                exception has its place.
            BoxglueError: `missing` is "raise", and the metrics of the current font are not known.
            Refused: No font is current (NoFont), no list is open (NoOpenList), the list is vertical
                (WrongMode) or full (ListTooLong).
        """
        if encoding is None and missing == "count":
            return self._added(f"text {quote(text)}\n")
        codes, metrics = codes_of(text, ASCII if encoding is None else encoding), self._metrics()
        if missing == "raise":
            self._needed(metrics, text, codes)
        return self._text(encoded(codes, metrics))

    def char(self, code: SupportsIndex) -> AddedT:
        """Adds a character of the current font.

        Args:
            code: Its number, 0 to 255.

        Returns:
            The reply; in a batch, a handle that has it later.

        Raises:
            Refused: No font is current (NoFont), no list is open (NoOpenList), the list is vertical
                (WrongMode) or full (ListTooLong).
        """
        return self._added(f"char {number(code, 0, CHARACTERS - 1, 'a character')}\n")

    def kern(self, amount: SupportsIndex) -> OkT:
        """Adds a kern, a fixed space.

        Args:
            amount: The space.

        Returns:
            The reply; in a batch, a handle that has it later.

        Raises:
            Refused: No list is open (NoOpenList), or it is full (ListTooLong).
        """
        if (
            type(amount) is int and -1_073_741_823 <= amount <= 1_073_741_823
        ):  # as in `length`, and quicker
            return self._ok(f"kern {amount}sp\n")
        return self._ok(f"kern {length(amount)}\n")

    def glue(self, width: SupportsIndex, plus: Stretch = 0, minus: Stretch = 0) -> OkT:
        """Adds glue.

        Args:
            width: Its natural width.
            plus: Its stretch: a dimension, or an amount and an order, such as (1, "fil").
            minus: Its shrink, in the same form.

        Returns:
            The reply; in a batch, a handle that has it later.

        Raises:
            Refused: No list is open (NoOpenList), or it is full (ListTooLong).
        """
        return self._ok(f"glue {glue(width, plus, minus)}\n")

    def penalty(self, penalty: SupportsIndex) -> OkT:
        """Adds a penalty, the price of a break.

        Args:
            penalty: -10,000 and below force a break, and 10,000 and above forbid one.

        Returns:
            The reply; in a batch, a handle that has it later.

        Raises:
            Refused: No list is open (NoOpenList), or it is full (ListTooLong).
        """
        return self._ok(f"penalty {number(penalty, -MOST_PENALTY, MOST_PENALTY, 'a penalty')}\n")

    def rule(
        self, width: SupportsIndex | None, height: SupportsIndex | None, depth: SupportsIndex | None
    ) -> OkT:
        """Adds a rule. A size of None comes from the box around the rule.

        Args:
            width: Its width; None only in a vertical list.
            height: Its height above the baseline; None only in a horizontal list.
            depth: Its depth below the baseline; None only in a horizontal list.

        Returns:
            The reply; in a batch, a handle that has it later.

        Raises:
            Refused: No list is open (NoOpenList), the list does not allow this None (WrongMode), or
                it is full (ListTooLong).
        """
        if (
            type(width) is int and type(height) is int and type(depth) is int
        ):  # as in `sizes_of_rule`, and quicker
            if (
                -1_073_741_823 <= width <= 1_073_741_823
                and -1_073_741_823 <= height <= 1_073_741_823
                and -1_073_741_823 <= depth <= 1_073_741_823
            ):
                return self._ok(f"rule {width}sp {height}sp {depth}sp\n")
        return self._ok(f"rule {sizes_of_rule(width, height, depth)}\n")

    def special(self, text: str | bytes) -> OkT:
        """Adds a special.

        Args:
            text: A text for the program that reads the file.

        Returns:
            The reply; in a batch, a handle that has it later.

        Raises:
            BadCharacter: A script does not have a character of the text.
            Refused: No list is open (NoOpenList), the text has more than 65,535 bytes
                (TooMuchSpecial), or the list is full (ListTooLong).
        """
        return self._ok(f"special {quote(text)}\n")

    # Boxes in registers.

    def register(self) -> Register:
        """Chooses a register that no other call of this got, from 32,767 down. Give it back by its
        `release`, or use it in a `with`.

        Returns:
            The register, which is void.

        Raises:
            BoxglueError: All registers are in use.
        """
        self._check()
        state = self._state
        if state.free_registers:
            self._ok(f"void {state.free_registers[-1]}\n")
            return Register(state.free_registers.pop(), state)
        if state.next_register < 0:
            raise BoxglueError("all registers are in use")
        state.next_register -= 1
        return Register(state.next_register + 1, state)

    def box(self, box: SupportsIndex, *, shift: SupportsIndex = 0) -> AddedT:
        """Adds the box of a register, which becomes void.

        Args:
            box: The register.
            shift: How far the box is moved: down in a horizontal list, to the right in a vertical
                one.

        Returns:
            The reply; in a batch, a handle that has it later.

        Raises:
            Refused: No list is open (NoOpenList), the glue before the box does not fit
                (DimensionTooLarge), or the list is full (ListTooLong).
        """
        return self._added(
            f"box {register(box)}{f' shift {dimension(shift)}sp' if shift else ''}\n"
        )

    def copy(self, box: SupportsIndex, *, shift: SupportsIndex = 0) -> AddedT:
        """Adds a copy of the box of a register.

        Args:
            box: The register.
            shift: How far the box is moved: down in a horizontal list, to the right in a vertical
                one.

        Returns:
            The reply; in a batch, a handle that has it later.

        Raises:
            Refused: No list is open (NoOpenList), the glue before the box does not fit
                (DimensionTooLarge), or the list is full (ListTooLong).
        """
        return self._added(
            f"copy {register(box)}{f' shift {dimension(shift)}sp' if shift else ''}\n"
        )

    def unhbox(self, box: SupportsIndex) -> AddedT:
        """Adds the items of the hbox of a register, which becomes void.

        Args:
            box: The register.

        Returns:
            The reply; in a batch, a handle that has it later.

        Raises:
            Refused: No list is open (NoOpenList), the list is vertical (WrongMode), the box is
                vertical (WrongKind), or the list is full (ListTooLong).
        """
        return self._added(f"unhbox {register(box)}\n")

    def unhcopy(self, box: SupportsIndex) -> AddedT:
        """Adds copies of the items of the hbox of a register.

        Args:
            box: The register.

        Returns:
            The reply; in a batch, a handle that has it later.

        Raises:
            Refused: No list is open (NoOpenList), the list is vertical (WrongMode), the box is
                vertical (WrongKind), or the list is full (ListTooLong).
        """
        return self._added(f"unhcopy {register(box)}\n")

    def unvbox(self, box: SupportsIndex) -> AddedT:
        """Adds the items of the vbox of a register, which becomes void.

        Args:
            box: The register.

        Returns:
            The reply; in a batch, a handle that has it later.

        Raises:
            Refused: No list is open (NoOpenList), the list is horizontal (WrongMode), the box is
                horizontal (WrongKind), or the list is full (ListTooLong).
        """
        return self._added(f"unvbox {register(box)}\n")

    def unvcopy(self, box: SupportsIndex) -> AddedT:
        """Adds copies of the items of the vbox of a register.

        Args:
            box: The register.

        Returns:
            The reply; in a batch, a handle that has it later.

        Raises:
            Refused: No list is open (NoOpenList), the list is horizontal (WrongMode), the box is
                horizontal (WrongKind), or the list is full (ListTooLong).
        """
        return self._added(f"unvcopy {register(box)}\n")

    def lastbox(self, into: SupportsIndex) -> OkT:
        """Moves the last item of the list into a register if it is a box; otherwise makes the
        register void.

        Args:
            into: The register.

        Returns:
            The reply; in a batch, a handle that has it later.

        Raises:
            Refused: No list is open (NoOpenList).
        """
        return self._ok(f"lastbox {register(into)}\n")

    def vsplit(self, box: SupportsIndex, *, to: SupportsIndex, into: SupportsIndex) -> SplitT:
        """Splits the vbox of a register at a height.

        Args:
            box: The register, which keeps the rest.
            to: The height of the front.
            into: The register for the front.

        Returns:
            The reply; in a batch, a handle that has it later.

        Raises:
            Refused: The box is horizontal (WrongKind), its glue shrinks infinitely
                (InfiniteShrink), or a size does not fit (DimensionTooLarge).
        """
        return self._split(f"vsplit {register(box)} to {dimension(to)}sp into {register(into)}\n")

    def measure(self, box: SupportsIndex) -> MeasuredT:
        """Measures the box of a register.

        Args:
            box: The register.

        Returns:
            The reply; in a batch, a handle that has it later.

        Raises:
            ValueError: The number of the register is not 0 to 32,767.
        """
        return self._measured(f"measure {register(box)}\n")

    def void(self, box: SupportsIndex) -> OkT:
        """Makes a register void.

        Args:
            box: The register.

        Returns:
            The reply; in a batch, a handle that has it later.

        Raises:
            ValueError: The number of the register is not 0 to 32,767.
        """
        return self._ok(f"void {register(box)}\n")

    # Parameters and pages.

    def set(
        self,
        *,
        boxmaxdepth: SupportsIndex | None = None,
        splitmaxdepth: SupportsIndex | None = None,
        splittopskip: Glue | SupportsIndex | None = None,
        baselineskip: Glue | SupportsIndex | None = None,
        lineskip: Glue | SupportsIndex | None = None,
        lineskiplimit: SupportsIndex | None = None,
        hsize: SupportsIndex | None = None,
        firstsize: SupportsIndex | None = None,
        firstlines: SupportsIndex | None = None,
        parfillskip: Glue | SupportsIndex | None = None,
        pretolerance: SupportsIndex | None = None,
        tolerance: SupportsIndex | None = None,
        linepenalty: SupportsIndex | None = None,
        adjdemerits: SupportsIndex | None = None,
        clubpenalty: SupportsIndex | None = None,
        widowpenalty: SupportsIndex | None = None,
        interlinepenalty: SupportsIndex | None = None,
        hoffset: SupportsIndex | None = None,
        voffset: SupportsIndex | None = None,
    ) -> list[OkT]:
        """Sets parameters (docs/COMMANDS.md, section 1), and leaves those that are not given.

        Args:
            boxmaxdepth, splitmaxdepth, lineskiplimit, hsize, firstsize, hoffset, voffset:
                Dimensions, such as pt(300).
            splittopskip, baselineskip, lineskip, parfillskip: Glues: each a `Glue`, or scaled
                points for glue without stretch and shrink.
            firstlines: A number from 0 to 32.
            pretolerance, tolerance, linepenalty, adjdemerits: Numbers of at most 500,000,000, or
                their negatives.
            clubpenalty, widowpenalty, interlinepenalty: Such numbers, too.

        Returns:
            A reply for each parameter that is given; in a batch, handles that have them later.

        Raises:
            ValueError: A value is out of its range, and nothing is set.
        """
        given = {name: it for name, it in locals().items() if name != "self" and it is not None}
        lines = [f"set {name} {_value(name, it)}\n" for name, it in given.items()]
        done = []
        for line in lines:  # no comprehension, which has a frame of its own
            done.append(self._ok(line))
        return done

    def count(self, which: SupportsIndex, value: SupportsIndex) -> OkT:
        """Sets one of the ten counts of the pages that follow.

        Args:
            which: Its number, 0 to 9.
            value: A whole number of 32 bits, with its sign.

        Returns:
            The reply; in a batch, a handle that has it later.

        Raises:
            ValueError: A number is out of its range.
        """
        return self._ok(
            f"count {number(which, 0, COUNTS - 1, 'a count')} {number(value, -1 << 31, (1 << 31) - 1, 'the value of a count')}\n"
        )

    def ship(self, box: SupportsIndex) -> ShippedT:
        """Ships the box of a register as the next page. The register becomes void.

        Args:
            box: The register.

        Returns:
            The number of pages so far; in a batch, a handle that has this reply later.

        Raises:
            Refused: The register is void (VoidBox), a place does not fit (HugePage), or the file
                would be too large (TooManyPages, TooMuchShipped, TooMuchSpecial). After Device the
                job is over.
        """
        return self._shipped(f"ship {register(box)}\n")

    # Metrics.

    def _metrics(self) -> Metrics | None:
        """The metrics of the current font; None where they are not known."""
        return self._metrics_at(self._state.current)

    def _metrics_at(self, font: LoadedFont | None) -> Metrics | None:
        """The metrics of a font, which are kept; None where they are not known."""
        state = self._state
        if font is None or font.name not in state.files:
            return None
        key = font.name, font.size
        if key not in state.metrics:
            state.metrics[key] = _metrics.metrics_of(state.files[font.name], font.size)
        return state.metrics[key]

    def _needed(self, metrics: Metrics | None, text: str, codes: list[int]) -> None:
        """Raises for what the font lacks."""
        if metrics is None:
            raise BoxglueError(
                'missing="raise" needs the metrics of the current font, which are not known here'
            )
        refuse_missing(text, codes, metrics)


def _value(name: str, given: Glue | SupportsIndex) -> str:
    """The value of a parameter."""
    if name in _GLUES:
        return glue_parameter(given)
    if isinstance(given, Glue):
        raise TypeError(f"{name} is not a glue")
    if name in _DIMENSIONS:
        return f"{dimension(given)}sp"
    if name == "firstlines":
        return str(number(given, 0, MOST_FIRST_LINES, name))
    return str(number(given, -MOST_PENALTY, MOST_PENALTY, name))
