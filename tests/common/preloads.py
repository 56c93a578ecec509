"""Small libraries that are put before a built program by LD_PRELOAD, and make some of its calls
fail: the files *.c of this folder that say so."""
import functools
import os
import shutil

from common.outcome import Skipped
from common.running import finished
from common.shared import once

NO_COMPILER = Skipped("the kit's clang, which builds the library, is not there")


@functools.lru_cache(None)
def compiler():
    """The C compiler of the kit, whose first page `rt doc` names, or None where there is none."""
    if not shutil.which("rt"):
        return None
    page = finished(["rt", "doc"], text=True).stdout.strip()
    return shutil.which(f"{os.path.dirname(page)}/toolchain/bin/clang")


def built(name):
    """The path of a library, which is built once."""

    def make(path):
        source = os.path.join(os.path.dirname(os.path.abspath(__file__)), f"{name}.c")
        words = [compiler(), *"-O1 -shared -fPIC -nostdlib -fuse-ld=lld -o".split(), path, source]
        finished(words, check=True)

    if not compiler():
        raise NO_COMPILER
    return once(f"{name}.so", make)
