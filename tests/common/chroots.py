"""Fresh systems of Debian: a folder that debootstrap has made, below a layer of its own for each
use, in which commands run without network.

A system is kept in the folder of caches, since it is downloaded: for some minutes, once."""
import fcntl
import functools
import hashlib
import os
import shutil
import subprocess
import tempfile

from common.outcome import Skipped, without
from common.running import finished

MIRROR = "http://deb.debian.org/debian"
# A system with an older glibc, in which there is nothing but what Debian always has; and one with
# what programs are built with.
OLD, TOOLS = "bullseye", "trixie"
PACKAGES = {
    OLD: [],
    TOOLS: "gcc libc6-dev pkgconf cmake make python3 python3-pip python3-venv cargo".split(),
}
MADE_IN, RUNS_IN = 1200, 600
# The first words of the shell: all that it writes goes into a layer in memory.
LAYER = """set -eu
mount -t tmpfs boxglue "$1"
mkdir "$1/new" "$1/work" "$1/top"
mount -t overlay boxglue -o "lowerdir=$2,upperdir=$1/new,workdir=$1/work" "$1/top"
mkdir "$1/top/given"
mount --bind "$3" "$1/top/given"
mount -t proc proc "$1/top/proc"
exec chroot "$1/top" /bin/sh -euc "$4"
"""


def cache():
    """The folder of the systems that are kept."""
    return os.path.join(
        os.environ.get("XDG_CACHE_HOME") or os.path.expanduser("~/.cache"), "boxglue-chroots"
    )


def made(suite, path):
    """Whether a system could be made."""
    words = [
        "debootstrap",
        "--variant=minbase",
        *[f"--include={','.join(PACKAGES[suite])}"] * bool(PACKAGES[suite]),
        suite,
        f"{path}.new",
        MIRROR,
    ]
    shutil.rmtree(f"{path}.new", ignore_errors=True)
    ran = subprocess.run(
        words,
        stdin=subprocess.DEVNULL,
        stdout=subprocess.DEVNULL,
        stderr=subprocess.DEVNULL,
        timeout=MADE_IN,
    )
    if ran.returncode == 0:
        os.rename(f"{path}.new", path)
    return ran.returncode == 0


@functools.lru_cache(None)
def system(suite):
    """The folder of a system, or why there is none: without debootstrap, without the rights of root
    or without network it cannot be made."""
    if not shutil.which("debootstrap") or os.geteuid() != 0:
        return without("debootstrap")
    path = f"{cache()}/{suite}-{hashlib.sha256(' '.join(PACKAGES[suite]).encode()).hexdigest()[:8]}"
    os.makedirs(cache(), exist_ok=True)
    with open(f"{path}.lock", "w", encoding="ascii") as lock:
        fcntl.flock(lock, fcntl.LOCK_EX)
        return path if os.path.isdir(path) or made(suite, path) else without("debootstrap")


def run_in(suite, script, given):
    """Runs commands of a shell in a fresh system. It has these files below /given, and no network.
    Returns what the commands print, or why the system is not there."""
    folder = system(suite)
    if isinstance(folder, Skipped):
        return folder
    with tempfile.TemporaryDirectory(prefix="boxglue-chroot-") as room:
        words = [
            *"unshare --mount --net --pid --fork --kill-child sh -c".split(),
            LAYER,
            "sh",
            room,
            folder,
            given,
            script,
        ]
        env = {
            "PATH": "/usr/local/sbin:/usr/local/bin:/usr/sbin:/usr/bin:/sbin:/bin",
            "HOME": "/root",
            "LC_ALL": "C.UTF-8",
        }
        ran = finished(words, env=env, text=True, timeout=RUNS_IN)
    if ran.returncode:
        raise AssertionError(
            f"in {suite}: the status is {ran.returncode}: {(ran.stderr or ran.stdout)[-400:]}"
        )
    return ran.stdout
