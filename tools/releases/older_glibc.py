"""Lets a program that was linked over glibc 2.34 or later start over an older one too. Its code
stays as it is.

Such a program names the function that begins it, __libc_start_main, at version 2.34. That version
differs from the one of 2.2.5 in one thing: it calls the program's constructors itself, where the
older one called a function that the program handed it. This program hands none. So the symbol gets
the older version, and the table of constructors becomes that of those which the loader calls before
all others, as each glibc does. These get the program's arguments too, and call nothing of libc."""
import struct
from dataclasses import dataclass

START, NEW, OLD = b"__libc_start_main", b"GLIBC_2.34", b"GLIBC_2.2.5"
# Kinds of entries in the dynamic section, and those of the table of constructors with what they
# become.
STRTAB, SYMTAB, VERSYM, VERNEED, VERNEEDNUM, NULL = 5, 6, 0x6FFFFFF0, 0x6FFFFFFE, 0x6FFFFFFF, 0
EARLY = {25: 32, 27: 33}
LOADED, DYNAMIC = 1, 2


class Unknown(Exception):
    """Why a program is not of the form that is known here."""


@dataclass(frozen=True)
class Segment:
    """A part of the file, and where it is loaded."""

    kind: int
    offset: int
    address: int
    size: int


class Program:
    """The bytes of a program for x86-64 Linux, which may change, and its dynamic section."""

    def __init__(self, data: bytes) -> None:
        self.data = bytearray(data)
        if self.data[:6] != b"\x7fELF\x02\x01":
            raise Unknown("it is not an ELF file of 64 bits")
        (at,) = struct.unpack_from("<Q", self.data, 32)
        size, count = struct.unpack_from("<HH", self.data, 54)
        rows = [
            struct.unpack_from("<II5Q", self.data, at + size * number) for number in range(count)
        ]
        self.segments = [
            Segment(kind, offset, address, file_size)
            for kind, _, offset, address, _, file_size, _ in rows
        ]
        self.dynamic = self.dynamic_entries()

    def dynamic_entries(self) -> dict[int, tuple[int, int]]:
        """The entries of the dynamic section by their kinds: where each stands in the file, and its
        value."""
        for it in (it for it in self.segments if it.kind == DYNAMIC):
            rows = [
                (at, *struct.unpack_from("<QQ", self.data, at))
                for at in range(it.offset, it.offset + it.size, 16)
            ]
            return {kind: (at, value) for at, kind, value in rows if kind != NULL}
        raise Unknown("it has no dynamic section")

    def place(self, kind: int) -> int:
        """Where in the file what an entry of the dynamic section names begins."""
        if kind not in self.dynamic:
            raise Unknown(f"its dynamic section has no entry {kind:#x}")
        address = self.dynamic[kind][1]
        found = [
            it.offset + address - it.address
            for it in self.segments
            if it.kind == LOADED and it.address <= address < it.address + it.size
        ]
        if not found:
            raise Unknown(f"nothing is loaded at {address:#x}")
        return found[0]

    def text(self, offset: int) -> bytes:
        """A text of the table of dynamic names."""
        begin = self.place(STRTAB) + offset
        return bytes(self.data[begin : self.data.index(0, begin)])

    def needed_versions(self) -> list[tuple[int, int, int]]:
        """The versions that the program needs: where each stands in the file, its number in the
        program, and where its name is in the table."""
        found, at = [], self.place(VERNEED)
        for _ in range(self.dynamic[VERNEEDNUM][1]):
            _, count, _, first, following = struct.unpack_from("<HHIII", self.data, at)
            its = at + first
            for _ in range(count):
                _, _, number, name, after = struct.unpack_from("<IHHII", self.data, its)
                found.append((its, number, name))
                its += after
            at += following
        return found

    def names_of(self, version: int) -> list[bytes]:
        """The names of the dynamic symbols that have this version. Their table ends where that of
        the numbers of their versions does: before the versions."""
        numbers, symbols = self.place(VERSYM), self.place(SYMTAB)
        count = (self.place(VERNEED) - numbers) // 2
        its = [
            number
            for number in range(count)
            if struct.unpack_from("<H", self.data, numbers + 2 * number)[0] == version
        ]
        return [
            self.text(struct.unpack_from("<I", self.data, symbols + 24 * number)[0])
            for number in its
        ]


def hash_of(name: bytes) -> int:
    """The number by which the loader compares the name of a version."""
    found = 0
    for byte in name:
        found = (found << 4) + byte
        high = found & 0xF0000000
        found = (found ^ high >> 24) & ~high & 0xFFFFFFFF
    return found


def with_older_start(data: bytes) -> bytes:
    """The program, so that it starts over older versions of glibc too."""
    program = Program(data)
    names = {
        program.text(name): (at, number, name) for at, number, name in program.needed_versions()
    }
    if NEW not in names or OLD not in names:
        raise Unknown(
            f"it needs {b', '.join(sorted(names)).decode()}, and not both {NEW.decode()} and {OLD.decode()}"
        )
    at, number, _ = names[NEW]
    if program.names_of(number) != [START]:
        raise Unknown(f"these symbols have the version {NEW.decode()}: {program.names_of(number)}")
    if set(EARLY.values()) & set(program.dynamic) or not set(EARLY) <= set(program.dynamic):
        raise Unknown("its constructors are not in the one table that is known here")
    struct.pack_into("<I", program.data, at, hash_of(OLD))
    struct.pack_into("<I", program.data, at + 8, names[OLD][2])
    for kind, early in EARLY.items():
        struct.pack_into("<Q", program.data, program.dynamic[kind][0], early)
    return bytes(program.data)


def needed_glibc(*files: bytes) -> str:
    """The least version of glibc that has what programs and shared objects need."""
    found: list[tuple[int, ...]] = []
    for data in files:
        program = Program(data)
        names = [program.text(name).decode() for _, _, name in program.needed_versions()]
        found += [
            tuple(int(it) for it in name.removeprefix("GLIBC_").split("."))
            for name in names
            if name.startswith("GLIBC_2")
        ]
    return ".".join(map(str, max(found)))
