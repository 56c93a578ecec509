"""Jobs that are kept between calls."""
from __future__ import annotations

import ctypes
import re
import threading
import weakref
from ctypes import byref, c_size_t
from typing import TYPE_CHECKING, Any, Generic, NoReturn, SupportsIndex, TypeVar

from ._batches import Batch, added, caller, outside
from ._commands import Commands
from ._library import (
    DVI_ROOM,
    ITEM_ROOM,
    TEXT_ROOM,
    Data,
    Fonts,
    ItemRow,
    ItemSizes,
    JobHandle,
    ReplyRow,
    Text,
    given_fonts,
    library,
    new_buffer,
    pairs_of,
    sized,
    text_of,
)
from ._lists import Ends, EndT, LoadedFont, OpenBox, OpenParagraph, State
from ._opened import BY_OPEN_LISTS, Opened, Piece, hint_of
from ._public import public
from ._replies import Added, Measured, Ok, ReplyKind, Shipped, Split, reply_of
from ._runs import HAS_RUN, Answers, replies_of
from ._scripts import MOST_PENALTY, number, register
from ._status import BoxglueError, NoJob, Refused, Status, fail
from ._tables import new_table, part_of

if TYPE_CHECKING:
    from collections.abc import Iterable

    from ._boxes import Box
    from ._encodings import Encoding
    from ._opened import Calls
    from ._status import Form
    from .hyphenation import HyphenatedParagraph
    from .hyphenation import Piece as PieceOfParagraph
    from .hyphenation import Rule

_One = TypeVar("_One")
_PRETOLERANCE = re.compile(rb"(?m)pretolerance +([+-]?\d+) *\r?$")


class _Ended(Generic[EndT]):
    """The reply to the end of a list."""

    __slots__ = ("reply",)

    def __init__(self, reply: EndT) -> None:
        self.reply = reply


@public
class Job(Commands[Ok, Added, Split, Measured, Shipped]):
    """A job that is kept between calls. Its calls are the commands of scripts, and `commands` takes
    a script piece by piece.

        with boxglue.Job(fonts) as job:
            job.use(job.load("cmr10"))
            with job.register() as page:
                with job.hbox(into=page) as box:
                    job.text("A page")
                print(box.width)
                job.ship(page)
            job.finish().check()
            dvi = job.take()

    Close a job, or use it in a `with`; Python closes a job that is dropped. After `close`, each
    call raises NoJob.

    Several threads may call; their calls wait for each other. Use typed calls (all except
    `commands`, `take`, `finish` and `close`) in one thread at a time, since a list that one thread
    opens is open for all.

    Args:
        fonts: A mapping from names to the bytes of metric files, or pairs of both, which the job
            copies. It takes all fonts of a `FontFolder`.

    Raises:
        OutOfMemory: The system refused memory.
        BadFontName: A name does not have 1 to 255 bytes.
    """

    def __init__(self, fonts: Fonts = ()) -> None:
        given = pairs_of(fonts)
        # A handler of a signal may close the job where it interrupts a call on it in the same
        # thread.
        self._handle, self._lock = JobHandle(), threading.RLock()
        # The buffers that calls of `take` filled and whose bytes no caller got yet, each with the
        # size of what is in it: more than one where KeyboardInterrupt or MemoryError cut a call
        # off.
        self._filled: list[tuple[Any, c_size_t]] = []
        self._free = weakref.finalize(self, library().boxglue_job_free, self._handle)
        # When the program ends, a thread that is a daemon may still be inside a call on this job.
        # Its memory goes with the process.
        self._free.atexit = False
        status = library().boxglue_job_new(self._handle, *given_fonts(given))
        if status != Status.ACCEPTED:
            fail(status)
        files: dict[str, Data] = {}
        for name, metrics in given:
            files.setdefault(
                text_of(name, "the name of a font").decode("utf-8", "surrogateescape"), metrics
            )
        self._state, self._rows = State(files), (ReplyRow * 2)()
        self._batch: Batch | None = None
        # How many lines were run, and the lists that are open, whoever opened them.
        self._lines, self._opened_lists = 0, list[Opened]()

    def __reduce__(self) -> NoReturn:
        raise TypeError("a job cannot be copied")

    def __repr__(self) -> str:
        return f"<boxglue.Job{', closed' if self.closed else ''}>"

    @property
    def closed(self) -> bool:
        """Whether its memory was freed."""
        return not self._free.alive

    def __enter__(self) -> Job:
        return self

    def __exit__(self, *_error: object) -> None:
        self.close()

    def commands(self, script: Text) -> Answers:
        """Runs a piece of a script, which is whole lines. Lines are numbered on from piece to
        piece.

        A piece with a bad line is refused as a whole: its one reply is this refusal, nothing of it
        is run, and the job goes on.

        Args:
            script: The piece. A `str` is handed over as UTF-8.

        Returns:
            The replies to its commands. A refusal is a reply, which `check` raises.

        Raises:
            OutOfMemory: The system refused memory, and nothing was run.
            NoJob: The job is closed.
        """
        return self._commands(text_of(script, "a script"))

    def _commands(self, text: bytes, calls: Calls | None = None) -> Answers:
        """Runs a piece, whose lines came from these typed calls."""
        count = c_size_t()
        room = text.count(b"\n") + 1
        rows = new_table(ReplyRow, room)
        with self._lock:
            status = library().boxglue_job_run(self._handle, *sized(text), rows, room, byref(count))
            if status not in HAS_RUN:
                fail(status)
            piece = Piece(
                text, self._lines + 1, tuple(self._opened_lists), calls, self._state.names
            )
            self._opened_lists = piece.follow(part_of(rows, 0, count.value))
            is_bad = bool(count.value) and rows[0].kind == ReplyKind.BAD_LINE
            if b"pretolerance" in text and not is_bad:
                for found in _PRETOLERANCE.finditer(text):
                    if text[text.rfind(b"\n", 0, found.start()) + 1 : found.start()].split() == [
                        b"set"
                    ]:
                        self._state.pretolerance = int(found[1])
            if not is_bad:
                self._lines += room - (not text or text.endswith(b"\n"))
        return Answers(replies_of(rows, count.value, piece), status == Status.ACCEPTED)

    def batch(self) -> Batch:
        """Makes a batch: commands that are sent in one call, at the end of a `with`. Meanwhile the
        typed calls of the job itself raise BoxglueError.

        Returns:
            The batch, which has the same typed calls.
        """
        return Batch(self)

    def _begin(self, batch: Batch) -> None:
        """Begins a batch."""
        self._check()
        self._batch = batch

    def _check(self) -> None:
        """Raises where a typed call cannot be sent."""
        if self.closed:
            fail(Status.NO_JOB)
        if self._batch is not None:
            raise BoxglueError("a batch is open: its calls come first")
        self._state.check()

    def _reply(self, line: str, kind: type[_One]) -> _One:
        """Runs a command, and returns its reply. A refusal is raised."""
        self._check()
        count, script = c_size_t(), line.encode("ascii")
        with self._lock:
            status = library().boxglue_job_run(
                self._handle, script, len(script), self._rows, 2, byref(count)
            )
            if status not in HAS_RUN:
                fail(status)
            reply = reply_of(self._rows[0])
            self._lines += self._rows[0].kind != ReplyKind.BAD_LINE
        if isinstance(reply, kind):
            return reply
        if isinstance(reply, Refused):
            lists = self._opened_lists if reply.number in BY_OPEN_LISTS else ()
            command = line.rstrip("\n")
            raise reply.of_command(
                command,
                caller(),
                tuple(it.shown() for it in lists),
                hint_of(reply, command, self._state.names),
            )
        raise BoxglueError(f"the reply to {line!r} is {reply!r}")

    def _ok(self, line: str) -> Ok:
        done = self._reply(line, Ok)
        if line.startswith("set pretolerance "):
            self._state.pretolerance = int(line[17:])
        return done

    def _added(self, line: str) -> Added:
        return self._reply(line, Added)

    def _text(self, lines: list[str]) -> Added:
        return added([self._reply(it, Ok if it.startswith("kern") else Added) for it in lines])

    def _split(self, line: str) -> Split:
        return self._reply(line, Split)

    def _measured(self, line: str) -> Measured:
        return self._reply(line, Measured)

    def _shipped(self, line: str) -> Shipped:
        return self._reply(line, Shipped)

    def _load(self, font: LoadedFont, line: str) -> None:
        try:
            self._reply(line, Ok)
        except Refused as refused:
            if refused.name == "SlotTaken":
                self._state.fonts.setdefault(font.slot, None)  # by a script
            raise
        self._state.fonts[font.slot] = font

    def _opened(self, line: str, form: Form) -> None:
        """Opens a list. Where the call is cut off, it is not known whether it is open."""
        try:
            reply, frame = self._reply(line, Ok), outside()
            self._opened_lists.append(Opened(form, reply.line, (frame.f_code, frame.f_lasti)))
        except BoxglueError:
            raise
        except BaseException:
            self._state.is_left = True
            raise

    def _box(self, form: Form, size: str) -> OpenBox:
        self._opened(f"{form}{size}\n", form)
        return OpenBox(form, self)

    def _paragraph(self) -> OpenParagraph:
        self._opened("par\n", "par")
        return OpenParagraph("par", self)

    def _end(self, kind: type[EndT]) -> Ends[EndT]:
        if self._batch is not None:
            return self._batch._end(kind)
        reply = self._reply("end\n", kind)
        if self._opened_lists:
            self._opened_lists.pop()
        return _Ended(reply)

    def paragraph(
        self,
        pieces: str | Iterable[PieceOfParagraph],
        *,
        hyphens: Rule | None = None,
        encoding: Encoding | None = None,
        hyphenpenalty: SupportsIndex = 50,
        exhyphenpenalty: SupportsIndex = 50,
        first_word: bool = False,
    ) -> HyphenatedParagraph:
        """Sets a paragraph, whose lines may end within words as TeX's do (docs/AUTHORS.md, section
        4), and adds its lines to the vertical list that is open.

            english = boxglue.hyphenation.Patterns.read("hyphen.tex")
            with job.vbox(into=0):
                job.paragraph("A well-known text", hyphens=english)

        A line may end after a hyphen of the text, at a `Discretionary` and, if no breaks are as
        good as pretolerance asks, at the places of the rule.

        Args:
            pieces: A text in the current font; or pieces, each a text, a font of `load` for what
                follows, a `Glue`, a `Discretionary` of boxglue.hyphenation, or a function that adds
                other items by the calls of the batch that it is given. The paragraph is set up to
                three times, so let the function copy boxes.
            hyphens: The rule: a function from a word to the places at which it may be hyphenated,
                such as Patterns of boxglue.hyphenation. None leaves words whole.
            encoding: The codes of the characters in the fonts, as for `text`.
            hyphenpenalty: The penalty of a break at a place of the rule, and at a discretionary
                with a part before the break.
            exhyphenpenalty: The penalty of a break after a hyphen of the text, and at other
                discretionaries.
            first_word: Whether the first word may be hyphenated, which TeX does only after glue.

        Returns:
            The lines, the pass that decided, the demerits, and the places within words that were
            taken.

        Raises:
            BadCharacter: A script, or the encoding, does not have a character. Nothing was sent.
            BoxglueError: No font is current and no font is the first piece, the metrics of a font
                are not known, or it is not a font of this job.
            Refused: A command was refused. If the end of a list was, calls raise NeedsRecovery
                until `recover`.

        Warns:
            UserWarning: With hyphens the paragraph would have more than 8,192 places, or more than
                65,536 items. The job then ignores the rule.
        """
        from ._paragraphs import Style, set_paragraph  # here, since few programs set paragraphs so

        self._check()
        if hyphens is not None and not callable(hyphens):
            raise TypeError(
                f"hyphens must be a function from a word to places, such as hyphenation.Patterns.read(path), not {hyphens!r:.40}"
            )
        penalty, explicit_penalty = (
            number(it, -MOST_PENALTY, MOST_PENALTY, "a penalty")
            for it in (hyphenpenalty, exhyphenpenalty)
        )
        style = Style(
            hyphens, frozenset(getattr(hyphens, "letters", ())), encoding, penalty, explicit_penalty
        )
        return set_paragraph(self, pieces, style, first_word)

    def inspect(self, box: SupportsIndex) -> Box | None:
        """Lists the box in a register with all that is in it, and leaves the job as it was.

            page = job.inspect(0)
            for line in page.lines():
                print(line.y, line.badness, line.overhang)
            print(page)  # as TeX's \\showbox

        Args:
            box: The register.

        Returns:
            The box, as a tree whose objects are made when you visit them; None if the register is
            void.

        Raises:
            NoJob: The job is closed.
            BoxglueError: A batch is open: its commands were not sent yet.
        """
        from ._boxes import Box, ItemTable  # here, since few programs look into boxes

        if self._batch is not None:
            raise BoxglueError("a batch is open: its commands come first")
        number, sizes, rooms = register(box), ItemSizes(), (ITEM_ROOM, TEXT_ROOM)
        with self._lock:
            while True:
                rows, text = new_table(ItemRow, rooms[0]), new_buffer(rooms[1])
                status = library().boxglue_job_items(
                    self._handle, number, rows, rooms[0], text, rooms[1], byref(sizes)
                )
                if status != Status.BUFFER_TOO_SMALL:
                    break
                rooms = sizes.items, sizes.text
        if status != Status.ACCEPTED:
            fail(status)
        return (
            Box(ItemTable(part_of(rows, 0, sizes.items), ctypes.string_at(text, sizes.text)), 0)
            if sizes.items
            else None
        )

    def take(self) -> bytes:
        """Takes the bytes of the DVI file that went out since the last call: pages as they were
        shipped, and the end of the file after `finish`.

        Returns:
            The bytes, which may be none.

        Raises:
            NoJob: The job is closed.
        """
        handed: list[tuple[Any, c_size_t]] = []
        try:
            with self._lock:
                room, status = DVI_ROOM, Status.BUFFER_TOO_SMALL
                while status == Status.BUFFER_TOO_SMALL:
                    buffer, size = new_buffer(room), c_size_t()
                    self._filled.append((buffer, size))
                    status = library().boxglue_job_take(self._handle, buffer, room, byref(size))
                    room = size.value
                if status != Status.ACCEPTED:
                    self._filled = []
                    fail(status)
                # A buffer that was too small has nothing.
                taken = b"".join(
                    ctypes.string_at(buffer, size.value)
                    for buffer, size in self._filled
                    if size.value <= len(buffer)
                )
                handed, self._filled = self._filled, []
            return taken
        except BaseException:
            # KeyboardInterrupt may come while the lock is released, when the buffers are handed on
            # already. They come first in the next call then.
            if handed:
                with self._lock:
                    self._filled[:0] = handed
            raise

    def finish(self) -> Answers:
        """Ends the job. Take the last bytes afterwards. This call does not raise a refusal, such as
        ListsOpen, and returns it; `job.finish().check()` raises it.

        Returns:
            The reply to the end. After ListsOpen and OutOfMemory the job goes on, and you may end
            it later.

        Raises:
            NoJob: The job is closed.
        """
        rows = new_table(ReplyRow, 1)
        with self._lock:
            status = library().boxglue_job_end(self._handle, rows[0])
            piece = Piece(b"", self._lines + 1, tuple(self._opened_lists))
        if status not in HAS_RUN:
            fail(status)
        return Answers(replies_of(rows, 1, piece), status == Status.ACCEPTED)

    def close(self) -> None:
        """Frees the memory of the job. Bytes that were not taken are lost. You may close a job
        twice."""
        with self._lock:
            self._free()
