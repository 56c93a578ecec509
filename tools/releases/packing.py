"""Files of which the bytes depend on the contents alone: a tarball, and files with one time."""
import gzip
import os
import tarfile
from typing import IO, cast

from tools.releases.tree import files_below


def set_times(top: str, seconds: int) -> None:
    """Gives all files and folders below a folder, and it itself, one time."""
    for folder, names, files in os.walk(top):
        for it in (*names, *files, "."):
            os.utime(f"{folder}/{it}", (seconds, seconds), follow_symlinks=False)


def tarball(top: str, path: str, seconds: int) -> None:
    """Packs a folder, with its name. All belongs to root, and each file may be run or not."""
    parent, name = os.path.split(top)
    folders = {name, *(f"{name}/{os.path.dirname(it)}" for it in files_below(top) if "/" in it)}
    folders |= {
        "/".join(it.split("/")[:count]) for it in folders for count in range(1, it.count("/") + 1)
    }
    with open(path, "wb") as out, gzip.GzipFile("", "wb", 9, out, seconds) as packed, tarfile.open(
        fileobj=cast(IO[bytes], packed), mode="w", format=tarfile.GNU_FORMAT
    ) as made:
        for it in sorted([*folders, *(f"{name}/{it}" for it in files_below(top))]):
            entry = made.gettarinfo(f"{parent}/{it}", it)
            entry.uid, entry.gid, entry.uname, entry.gname, entry.mtime = (
                0,
                0,
                "root",
                "root",
                seconds,
            )
            entry.mode = (
                0o777 if entry.issym() else 0o755 if entry.isdir() or entry.mode & 0o100 else 0o644
            )
            # Equal files are two files, whatever the folder has of links.
            entry.type = tarfile.REGTYPE if entry.islnk() else entry.type
            if entry.isreg():
                entry.size = os.path.getsize(f"{parent}/{it}")
                with open(f"{parent}/{it}", "rb") as data:
                    made.addfile(entry, data)
            else:
                made.addfile(entry)
