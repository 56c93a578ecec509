"""The shared object: how it is found, its structs and calls, and how bytes go in and come out."""
from __future__ import annotations

import ctypes
import functools
import os
from collections.abc import Callable, Iterable, Mapping
from ctypes import (
    POINTER,
    Structure,
    byref,
    c_char,
    c_char_p,
    c_int32,
    c_int64,
    c_size_t,
    c_uint32,
    c_uint64,
    c_void_p,
)
from typing import TYPE_CHECKING, Any, TypeAlias

from ._public import public
from ._status import BoxglueError, Status, fail

if TYPE_CHECKING:
    from array import array
    from mmap import mmap

# What is like bytes. Python before 3.12 has no name for all of it.
Data: TypeAlias = "bytes | bytearray | memoryview | mmap | array[Any]"
Text: TypeAlias = "str | Data"
Fonts: TypeAlias = "Mapping[str, Data] | Mapping[bytes, Data] | Iterable[tuple[Text, Data]]"

# The name of the library that the system's loader looks for.
SYSTEM_LIBRARY = "libboxglue.so.1"
# The sizes of the first buffers. Where an output needs more, the call is made again with what it
# needs.
TEXT_ROOM, DVI_ROOM, FONT_ROOM, ITEM_ROOM = 1 << 14, 1 << 16, 64, 256


class Font(Structure):
    _fields_ = [
        ("name", c_char_p),
        ("name_size", c_size_t),
        ("bytes", c_char_p),
        ("bytes_size", c_size_t),
    ]


class DviFontRow(Structure):
    _fields_ = [
        ("number", c_int32),
        ("size", c_int32),
        ("design_size", c_int32),
        ("check_sum", c_uint32),
        ("name_start", c_size_t),
        ("name_size", c_size_t),
    ]


class FontSizes(Structure):
    _fields_ = [("fonts", c_size_t), ("text", c_size_t)]


class PageRow(Structure):
    _fields_ = [("counts", c_int32 * 10), ("first_mark", c_size_t), ("marks", c_size_t)]


class MarkRow(Structure):
    _fields_ = [
        *(
            (name, c_uint32 if name == "kind" else c_int32)
            for name in ("kind", "font", "code", "h", "v", "height", "width")
        ),
        ("text_size", c_uint32),
        ("text_start", c_uint64),
    ]


class MarkSizes(Structure):
    _fields_ = [
        ("pages", c_size_t),
        ("marks", c_size_t),
        ("text", c_size_t),
        ("num", c_int32),
        ("den", c_int32),
        ("mag", c_int32),
    ]


class FaultRow(Structure):
    _fields_ = [
        ("number", c_uint32),
        ("cause", c_uint32),
        ("font", c_int32),
        ("place", c_uint64),
        ("name_size", c_size_t),
    ]


class Measure(Structure):
    _fields_ = [("value", c_int32), ("is_unfit", c_uint32)]


class GlyphMetrics(Structure):
    _fields_ = [
        ("is_there", c_uint32),
        ("width", c_int32),
        ("height", c_int32),
        ("depth", c_int32),
        ("italic", Measure),
    ]


class GlyphTable(Structure):
    _fields_ = [("rows", GlyphMetrics * 256)]


class FontParameters(Structure):
    _fields_ = [
        ("size", c_int32),
        ("design_size", c_int32),
        ("check_sum", c_uint32),
        *((name, c_int32) for name in ("slant", "space", "stretch", "shrink")),
        *((name, Measure) for name in ("x_height", "quad", "extra_space")),
    ]


class StepRow(Structure):
    _fields_ = [
        ("character", c_uint32),
        ("following", c_uint32),
        ("kind", c_uint32),
        ("kern", c_int32),
        ("ligature", c_uint32),
    ]


class BoxSizes(Structure):
    _fields_ = [("width", c_int32), ("height", c_int32), ("depth", c_int32)]


class ReplyRow(Structure):
    _fields_ = [
        ("line", c_uint64),
        ("kind", c_uint32),
        ("refusal", c_uint32),
        ("cause", c_uint32),
        ("box_kind", c_uint32),
        ("box", BoxSizes),
        ("rest", BoxSizes),
        ("has_rest", c_uint32),
        ("badness", c_uint32),
        ("pass_", c_uint32),
        ("missing", c_uint32),
        ("count", c_uint64),
        ("bytes", c_uint64),
        ("overhang", c_int64),
        ("demerits", c_int64),
    ]


class ReplySizes(Structure):
    _fields_ = [("replies", c_size_t), ("dvi", c_size_t)]


class WideDimen(Structure):
    _fields_ = [("low", c_uint64), ("high", c_int64)]


class ItemRow(Structure):
    _fields_ = [
        ("level", c_uint32),
        ("kind", c_uint32),
        *((name, WideDimen) for name in ("right", "down", "set_width")),
        *((name, c_int32) for name in ("width", "height", "depth", "shift")),
        ("stretch", c_int32),
        ("stretch_order", c_uint32),
        ("shrink", c_int32),
        ("shrink_order", c_uint32),
        ("setting", c_uint32),
        ("setting_order", c_uint32),
        ("ratio_num", c_int64),
        ("ratio_den", c_int64),
        ("slot", c_uint32),
        ("code", c_uint32),
        ("penalty", c_int32),
        ("running", c_uint32),
        ("text_start", c_uint64),
        ("text_size", c_uint64),
    ]


class ItemSizes(Structure):
    _fields_ = [("items", c_size_t), ("text", c_size_t)]


class JobHandle(Structure):
    _fields_ = [("at", c_void_p)]


_INPUT, _OUTPUT, _SIZE = [c_char_p, c_size_t], [POINTER(c_char), c_size_t], [POINTER(c_size_t)]
_GIVEN, _REPLIES = [POINTER(Font), c_size_t], [POINTER(ReplyRow), c_size_t]
_CALLS = {
    "version": [],
    "proved": [],
    "run_replies": [*_INPUT, *_GIVEN, *_REPLIES, *_OUTPUT, POINTER(ReplySizes)],
    "list": [*_INPUT, *_GIVEN, *_OUTPUT, *_SIZE],
    "paint": [*_INPUT, *_GIVEN, *[c_uint32] * 4, *_OUTPUT, *_SIZE],
    "fonts": [*_INPUT, POINTER(DviFontRow), c_size_t, *_OUTPUT, POINTER(FontSizes)],
    "marks": [
        *_INPUT,
        *_GIVEN,
        POINTER(PageRow),
        c_size_t,
        POINTER(MarkRow),
        c_size_t,
        *_OUTPUT,
        POINTER(MarkSizes),
    ],
    "check": [*_INPUT, *_GIVEN, POINTER(FaultRow), *_OUTPUT],
    "metrics": [
        *_INPUT,
        c_int32,
        POINTER(GlyphTable),
        POINTER(FontParameters),
        POINTER(StepRow),
        c_size_t,
        *_SIZE,
        POINTER(FaultRow),
    ],
    "job_new": [POINTER(JobHandle), *_GIVEN],
    "job_run": [POINTER(JobHandle), *_INPUT, *_REPLIES, *_SIZE],
    "job_take": [POINTER(JobHandle), *_OUTPUT, *_SIZE],
    "job_end": [POINTER(JobHandle), POINTER(ReplyRow)],
    "job_items": [
        POINTER(JobHandle),
        c_uint32,
        POINTER(ItemRow),
        c_size_t,
        *_OUTPUT,
        POINTER(ItemSizes),
    ],
    "job_free": [POINTER(JobHandle)],
}


def library_path() -> str:
    """The path of the shared object. BOXGLUE_LIBRARY comes first, then this package's file, then
    the name that the system's loader looks for."""
    named = os.environ.get("BOXGLUE_LIBRARY")
    own = os.path.join(os.path.dirname(os.path.abspath(__file__)), "libboxglue.so")
    return os.path.abspath(named) if named else own if os.path.exists(own) else SYSTEM_LIBRARY


def shown_version(number: int) -> str:
    """A version as texts show it."""
    return f"{number // 10_000}.{number // 100 % 100}.{number % 100}"


@functools.lru_cache(None)
def library() -> Any:
    """The library, with the types of its calls."""
    path = library_path()
    # A reader of a message who did not set the variable looks for the file in the package.
    shown = f"BOXGLUE_LIBRARY names {path}, which" if os.environ.get("BOXGLUE_LIBRARY") else path
    try:
        found = ctypes.CDLL(path)
        found.boxglue_version.argtypes, found.boxglue_version.restype = [], c_uint32
        number = found.boxglue_version()
    except (OSError, AttributeError) as error:
        if path == SYSTEM_LIBRARY and isinstance(error, OSError):
            why = "boxglue found no library in this package or the system: install the wheel, or name a library in BOXGLUE_LIBRARY"
            raise BoxglueError(f"{why} ({error})") from error
        raise BoxglueError(f"{shown} is not a library of boxglue: {error}") from error
    if number // 10_000 != 1:
        raise BoxglueError(
            f"{shown} has version {shown_version(number)}, and this package is for 1.x"
        )
    # After the version, so that an older library is named as one.
    for name, types in _CALLS.items():
        try:
            call = getattr(found, f"boxglue_{name}")
        except AttributeError:
            raise BoxglueError(
                f"{shown} has version {shown_version(number)}, and lacks boxglue_{name}: it is older than this package"
            ) from None
        call.argtypes, call.restype = types, None if name == "job_free" else c_uint32
    return found


@public
def version() -> str:
    """Returns the version of the library that is loaded.

    Returns:
        The version, such as "1.2.0".

    Raises:
        BoxglueError: No library is found, or it does not fit this package.
    """
    return shown_version(library().boxglue_version())


@public
def proved() -> bool:
    """Tells whether the library that is loaded is proved. An unproved one has run-time checks, and
    a fault of its own ends the process.

    Returns:
        What the library itself says.

    Raises:
        BoxglueError: No library is found, or it does not fit this package.
    """
    return bool(library().boxglue_proved())


def data_of(given: Data, what: str, kinds: str = "bytes") -> bytes:
    """The bytes of what is like bytes. Nothing else is taken: bytes(7) would be seven zeros, and
    the name of a file is not the file."""
    try:
        return given if isinstance(given, bytes) else memoryview(given).tobytes()
    except TypeError:
        raise TypeError(f"{what} must be {kinds}, not {type(given).__name__}") from None


def metrics_data(given: Data) -> bytes:
    """The bytes of a metric file."""
    return data_of(given, "a metric file", 'bytes, such as Path("cmr10.tfm").read_bytes()')


def text_of(given: Text, what: str) -> bytes:
    """The bytes of a text, a `str` as UTF-8."""
    return (
        given.encode("utf-8", "surrogateescape")
        if isinstance(given, str)
        else data_of(given, what, "str or bytes")
    )


def sized(data: bytes) -> tuple[bytes, int]:
    """Bytes as a call takes them."""
    return data, len(data)


def new_buffer(room: int) -> Any:
    """A buffer. No pointer may be null, so that it has at least a byte."""
    return (c_char * max(room, 1))()


def pairs_of(given: Fonts) -> list[tuple[Text, Data]]:
    """Fonts as pairs of a name and the bytes of a metric file."""
    if isinstance(given, (str, bytes, bytearray, memoryview)):
        raise TypeError(f"fonts must be a mapping or pairs, not {type(given).__name__}")
    pairs: list[tuple[Text, Data]] = []
    for pair in given.items() if isinstance(given, Mapping) else given:
        try:
            name, metrics = pair
        except (TypeError, ValueError):
            raise TypeError(
                f"a font must be a pair of its name and the bytes of its metric file, not {pair!r:.40}"
            ) from None
        pairs.append((name, metrics))
    return pairs


def given_fonts(given: Fonts) -> tuple[Any, int]:
    """Fonts as a call takes them. The array keeps the bytes."""
    pairs = pairs_of(given)
    array = (Font * max(len(pairs), 1))()
    for at, (name, metrics) in enumerate(pairs):
        array[at] = Font(*sized(text_of(name, "the name of a font")), *sized(metrics_data(metrics)))
    if not pairs:
        array[0] = Font(b"", 0, b"", 0)
    return array, len(pairs)


def one_output(call: Callable[..., int], room: int) -> tuple[int, bytes]:
    """Calls with a buffer, and again with a larger one if it was too small. Returns the status and
    the output."""
    size = c_size_t()
    while True:
        buffer = new_buffer(room)
        status = call(buffer, room, byref(size))
        if status != Status.BUFFER_TOO_SMALL:
            break
        room = size.value
    if status > Status.REFUSED:
        fail(status)
    return status, ctypes.string_at(buffer, size.value)
