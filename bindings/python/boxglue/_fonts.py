"""Metric files by the names of their fonts."""
from __future__ import annotations

import os
import re
from collections.abc import Iterable, Iterator, Mapping

from ._public import public

_NAME = re.compile(r"[A-Za-z0-9_.][A-Za-z0-9_.+-]*", re.ASCII)
_FONT_LINE = re.compile(rb"^ *font +[^ \n]+ +([^ \r\n]+)", re.M)
_SECONDS = 60


@public
class FontFolder(Mapping[str, bytes]):
    """The metric files of folders, by the names of their fonts: the file of "cmr10" is cmr10.tfm in
    the first of the folders that has it.

        cm = "/usr/share/texlive/texmf-dist/fonts/tfm/public/cm"
        folder = boxglue.FontFolder(cm, kpsewhich=True)
        boxglue.run(script, folder)

    The folder reads a file when you ask for it, and keeps it. `run`, `listing`, `paint`, `marks`
    and `check` take the fonts that their script or file names. A `Job` takes all fonts of the
    folders, so give it `folder.choose(names)`.

    Args:
        folders: The folders, of which the first one that has a file counts.
        kpsewhich: Whether TeX's program of this name, if it is on the path, looks for fonts that no
            folder has. `choose` runs it once for all names.
    """

    def __init__(self, *folders: str | os.PathLike[str], kpsewhich: bool = False) -> None:
        self._folders = [os.fspath(it) for it in folders]
        self._kpsewhich = _program("kpsewhich") if kpsewhich else None
        self._files: dict[str, bytes | None] = {}

    def __getitem__(self, name: str) -> bytes:
        self._look_for([name])
        found = self._files[name]
        if found is None:
            raise KeyError(name)
        return found

    def __iter__(self) -> Iterator[str]:
        return iter(self._names())

    def __len__(self) -> int:
        return len(self._names())

    def __repr__(self) -> str:
        return f"FontFolder({', '.join(map(repr, self._folders))}{', kpsewhich=True' if self._kpsewhich else ''})"

    def choose(self, names: Iterable[str]) -> dict[str, bytes]:
        """Reads the metric files of fonts.

        Args:
            names: The names of the fonts.

        Returns:
            The files that are there, by their names. The typesetter refuses the other fonts as
            NoFont.
        """
        wanted = [*dict.fromkeys(names)]
        self._look_for(wanted)
        return {name: found for name in wanted if (found := self._files[name]) is not None}

    def _names(self) -> list[str]:
        files = {
            name for folder in self._folders for name in os.listdir(folder) if name.endswith(".tfm")
        }
        return sorted(it for it in (name[:-4] for name in files) if _NAME.fullmatch(it))

    def _look_for(self, names: list[str]) -> None:
        """Reads the files of these names that were not looked for yet."""
        new = [it for it in names if it not in self._files]
        # A DVI file may name any bytes. A name must not lead out of the folder, or become an option
        # of a program.
        paths = {it: self._path(it) for it in new if isinstance(it, str) and _NAME.fullmatch(it)}
        far = [it for it, path in paths.items() if path is None]
        if far and self._kpsewhich:
            paths.update(_far_paths(self._kpsewhich, far))
        for it in new:
            path = paths.get(it)
            self._files[it] = _read(path) if path else None

    def _path(self, name: str) -> str | None:
        return next(
            (path for folder in self._folders if os.path.isfile(path := f"{folder}/{name}.tfm")),
            None,
        )


def _program(name: str) -> str | None:
    """The path of a program; None where it is not on the path."""
    import shutil  # here, as below, since few need it

    return shutil.which(name)


def _far_paths(kpsewhich: str, names: list[str]) -> dict[str, str]:
    """The paths of the files that TeX's program finds, by the names of their fonts. It prints a
    line for each that it finds."""
    import subprocess

    words = [kpsewhich, *(f"{it}.tfm" for it in names)]
    found = subprocess.run(
        words,
        stdin=subprocess.DEVNULL,
        stdout=subprocess.PIPE,
        stderr=subprocess.DEVNULL,
        timeout=_SECONDS,
    )
    paths = os.fsdecode(found.stdout).splitlines()
    return {os.path.basename(it).removesuffix(".tfm"): it for it in paths}


def _read(path: str) -> bytes:
    with open(path, "rb") as it:
        return it.read()


def names_in_script(script: bytes) -> list[str]:
    """The names of the fonts that a script loads."""
    return [
        *dict.fromkeys(it.decode("utf-8", "surrogateescape") for it in _FONT_LINE.findall(script))
    ]
