"""Tables that the library fills, as sequences of what their rows stand for."""
from __future__ import annotations

import ctypes
import mmap
from abc import abstractmethod
from collections.abc import Iterator, Sequence
from typing import Any, TypeVar, overload

# A table of this size or more is mapped, so that rows which a call does not write take no memory.
# Memory of the heap is quicker, which the kernel need not clear.
_MAPPED = 1 << 20
Item = TypeVar("Item")
_Same = TypeVar("_Same", bound="Table[Any]")


def new_table(row: type[ctypes.Structure], room: int) -> Any:
    """A table with room for so many rows. No pointer may be null, so that it has at least one."""
    table = row * max(room, 1)
    size = ctypes.sizeof(table)
    if size < _MAPPED:
        return table()
    try:
        return table.from_buffer(mmap.mmap(-1, size, flags=mmap.MAP_PRIVATE | mmap.MAP_ANONYMOUS))
    except OSError as error:
        raise MemoryError(f"{size} bytes for a table") from error


def part_of(table: Any, first: int, count: int) -> Any:
    """So many rows of a table from the first one on, which are not copied."""
    row = table._type_
    return (row * count).from_buffer(table, first * ctypes.sizeof(row))


class Table(Sequence[Item]):
    """Items in order. Each is made from its row when it is asked for. A slice of neighbours copies
    no row."""

    def __init__(self, rows: Any, *beside: object) -> None:
        """An array of structs, and what else items are made from."""
        self._rows, self._beside = rows, beside

    @abstractmethod
    def _item(self, row: Any) -> Item:
        """What a row stands for."""

    @property
    def rows(self) -> memoryview:
        """The table as a memoryview, which cannot be written. From Python 3.12 on `memoryview` of
        this gives the same."""
        return memoryview(self._rows).toreadonly()

    def __buffer__(self, _flags: int) -> memoryview:
        return self.rows

    def __len__(self) -> int:
        return len(self._rows)

    @overload
    def __getitem__(self, index: int) -> Item:
        ...

    @overload
    def __getitem__(self: _Same, index: slice) -> _Same:
        ...

    def __getitem__(self, index: int | slice) -> Any:
        if not isinstance(index, slice):
            return self._item(self._rows[index])
        places = range(len(self))[index]
        rows = (
            part_of(self._rows, places.start, len(places))
            if places.step == 1
            else (self._rows._type_ * len(places))(*self._rows[index])
        )
        return type(self)(rows, *self._beside)

    def __iter__(self) -> Iterator[Item]:
        return map(self._item, self._rows)

    def __eq__(self, other: object) -> bool:
        if not isinstance(other, type(self)):
            return NotImplemented
        return len(self) == len(other) and all(one == its for one, its in zip(self, other))

    def __hash__(self) -> int:
        return hash(tuple(self))

    def __reduce__(self) -> tuple[Any, ...]:
        # An array cannot be pickled: its type has no name.
        return _copy_of, (type(self), self._rows._type_, bytes(self._rows), *self._beside)

    def __repr__(self) -> str:
        return f"<{type(self).__name__}: {len(self)}>"


def _copy_of(
    kind: type[Table[Any]], row: type[ctypes.Structure], data: bytes, *beside: object
) -> Table[Any]:
    """The table with the bytes of its rows."""
    return kind((row * (len(data) // ctypes.sizeof(row))).from_buffer_copy(data), *beside)
