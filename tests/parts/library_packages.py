"""What `./install --library` puts in place, as programs outside of the repository use it: the
examples of examples/library in C, Python and Rust make the page of README.md by it; no installed
file names the folder in which all was put together; and the libraries have the names of the header
alone."""
import base64
import csv
import hashlib
import os
import re
import shutil
import sys
import tempfile
import zipfile
from functools import partial

from common.files import content, read, write
from common.library_build import compiler, named_for
from common.outcome import need, require, without
from common.part import in_turn
from common.running import finished
from common.shared import once, own_folder
from common.texts import last_lines
from parts.installing import files_below
from tools.exports import calls
from tools.unproved import SAYS
from tools.version import dotted

TITLE = "./install --library: programs in C, Python and Rust over what it puts in place"
PROGRAM = "library"
NEEDS_PROGRAM = True
SPLIT = in_turn(4)
LIMIT = 300
METRICS = "examples/plain.tfm"
# Prints the version, and whether the library is proved.
PROVED = """#include <boxglue.h>
#include <stdio.h>
int main(void) {
    unsigned version = boxglue_version();
    printf("%u.%u.%u %s\\n", version / 10000, version / 100 % 100, version % 100, boxglue_unproved ? boxglue_unproved : "proved");
    return version != BOXGLUE_VERSION;
}
"""
FLAGS = "-std=c99 -Wall -Wextra -Wpedantic -Werror".split()
# What cargo leaves in the folder of a crate.
BUILDS = shutil.ignore_patterns("target", "Cargo.lock")
KEPT = ("PATH", "HOME", "CARGO_HOME", "RUSTUP_HOME")
END, SIZE = b"end: pages 1 bytes 232\n", 232


def run(words, cwd, **env):
    """Runs a command that has to succeed, and returns its output. Of the environment it gets what
    tools need, and nothing that names the repository."""
    kept = {name: os.environ[name] for name in KEPT if name in os.environ}
    ran = finished(words, cwd=cwd, env={**kept, **env})
    why = last_lines(ran.stderr or ran.stdout)
    require(
        not ran.returncode, f"{os.path.basename(words[0])}: the status is {ran.returncode}: {why}"
    )
    return ran.stdout


def line_of(words, cwd, **env):
    """The line that a command prints."""
    return run(words, cwd, **env).decode().strip()


def cargo(words, folder, **env):
    """Runs cargo."""
    return run(["cargo", *words.split(), "--quiet", "--offline"], folder, **env)


def compiled(source, prefix, room, library="-lboxglue", flags=FLAGS):
    """Compiles a program in C by the folders of a prefix, and returns its path."""
    folders = f"-I{prefix}/include", f"-L{prefix}/lib"
    run([compiler(), *flags, folders[0], "-o", "made", source, folders[1], library], room)
    return f"{room}/made"


def installing(root, archive, program, prefix):
    """The words that put the program and the library in place."""
    return [f"{root}/install", "--program", program, "--library", archive, "--prefix", prefix]


def installed(root, archive, program):
    """The prefix in which all is put once, and what the script printed."""

    def make(prefix):
        write(f"{prefix}.said", run(installing(root, archive, program, prefix), own_folder()))

    prefix = once(named_for(archive, "prefix"), make)
    return prefix, read(f"{prefix}.said")


def page_wrong(root, words, room, **env):
    """What is wrong with a program that makes the page of README.md, or None."""
    answers = run([*words, f"{root}/{METRICS}", "page.dvi"], room, **env)
    size = os.path.getsize(f"{room}/page.dvi")
    if answers.endswith(END) and size == SIZE:
        return None
    return f"the answers end with {answers[-40:]!r}, and the file has {size} bytes"


def page_in_c(is_static, root, prefix, _said, room):
    """The example in C, by pkg-config, with the shared object or with the archive alone."""
    need("pkg-config")
    shutil.copy(f"{root}/examples/library/page.c", room)
    paths = {"PKG_CONFIG_PATH": f"{prefix}/lib/pkgconfig"}
    flags = line_of(["pkg-config", "--cflags", "--libs", "boxglue"], room, **paths).split()
    if is_static:
        flags = [*flags[:-1], "-l:libboxglue.a"]
    run([compiler(), *FLAGS, "-o", "page", "page.c", *flags], room)
    env = {} if is_static else {"LD_LIBRARY_PATH": f"{prefix}/lib"}
    return page_wrong(root, [f"{room}/page"], room, **env)


def proved_in_c(root, prefix, _said, room):
    """What C says of the proofs of the shared object, and of the archive."""
    write(f"{room}/proved.c", PROVED)
    wanted = SAYS if SAYS.encode() in content(f"{prefix}/lib/libboxglue.so") else "proved"
    for library in ("-lboxglue", "-l:libboxglue.a"):
        made = compiled("proved.c", prefix, room, library)
        found = line_of([made], room, LD_LIBRARY_PATH=f"{prefix}/lib")
        if found != f"{dotted(root)} {wanted}":
            return f"with {library} it prints {found!r}"
    return None


def page_in_python(root, prefix, said, room):
    """The example in Python, with the wheel that the script names."""
    wheel = re.search(r"^for Python: pip install (\S+)$", said, re.M)[1]
    if finished([sys.executable, "-m", "pip", "--version"]).returncode:
        return without("pip")
    pip = "-m pip install --no-index --quiet --disable-pip-version-check --target".split()
    run([sys.executable, *pip, f"{room}/site", wheel], room)
    ask = [sys.executable, "-c", "import boxglue; print(boxglue.version())"]
    version = line_of(ask, room, PYTHONPATH=f"{room}/site")
    if version != dotted(root):
        return f"the package has version {version}"
    shutil.copy(f"{root}/examples/library/page.py", room)
    return page_wrong(root, [sys.executable, "page.py"], room, PYTHONPATH=f"{room}/site")


def page_in_rust(root, _prefix, said, room):
    """The example in Rust, with the path that the script prints."""
    need("cargo")
    shutil.copytree(f"{root}/examples/library/page", f"{room}/page", ignore=BUILDS)
    manifest = f"{room}/page/Cargo.toml"
    line = re.search(r"^for Rust, in Cargo.toml: (.*)$", said, re.M)[1]
    text, count = re.subn(r"(?m)^boxglue = .*$", lambda _: line, read(manifest))
    if count != 1:
        return "Cargo.toml of the example does not name the crate"
    write(manifest, text)
    words = ["cargo", *"run --quiet --offline --manifest-path".split(), manifest, "--"]
    return page_wrong(root, words, room)


def rust_tests(is_shared, _root, prefix, _said, room):
    """The tests and the examples in the comments of the crates, with the archive or with the shared
    object."""
    need("cargo")
    shutil.copytree(f"{prefix}/share/boxglue/rust", f"{room}/rust")
    env = {"BOXGLUE_SHARED": "1", "LD_LIBRARY_PATH": f"{prefix}/lib"} if is_shared else {}
    env |= {"PKG_CONFIG_PATH": f"{prefix}/lib/pkgconfig", "BOXGLUE_LIB_DIR": f"{prefix}/lib"}
    cargo("test", f"{room}/rust", **env)
    return None


def names_wrong(root, prefix, _said, room):
    """What is wrong with the names of the shared object and of the archive: those of the header,
    and that of an unproved library."""
    need("nm")
    for option, name in (("--dynamic", "libboxglue.so"), ("--extern-only", "libboxglue.a")):
        text = line_of(["nm", option, "--defined-only", f"{prefix}/lib/{name}"], room)
        found = {*re.findall(r"^[0-9a-f]+ \w (\S+)$", text, re.M)} - {"boxglue_unproved"}
        if found != {*calls(root)}:
            return f"these names are in a library or the header alone: {sorted(found ^ {*calls(root)})}"
    is_named = b"\0libboxglue.so.1\0" in content(f"{prefix}/lib/libboxglue.so")
    return None if is_named else "the shared object does not have the name libboxglue.so.1"


def wheel_wrong(root, prefix, said, room):
    """What is wrong with the wheel: another run gives other bytes, or its record is not that of its
    files."""
    wheel = re.search(r"^for Python: pip install (\S+)$", said, re.M)[1]
    words = [sys.executable, f"{root}/bindings/wheel", f"{prefix}/lib/libboxglue.so", room]
    made = line_of(words, room)
    if content(wheel) != content(made) or os.path.basename(wheel) != os.path.basename(made):
        return "the wheel is another one when it is made again"
    with zipfile.ZipFile(wheel) as it:
        *names, record = it.namelist()
        rows = [*csv.reader(it.read(record).decode().splitlines())]
        data = {name: it.read(name) for name in names}
    found = [[name, record_digest(its), str(len(its))] for name, its in data.items()]
    if sorted(rows) == sorted([*found, [record, "", ""]]):
        return None
    return "the record is not that of the files"


def record_digest(data):
    """The digest of a file, as the record of a wheel has it."""
    return "sha256=" + base64.urlsafe_b64encode(hashlib.sha256(data).digest()).rstrip(b"=").decode()


def stage_wrong(root, archive, program):
    """What is wrong with files that are put below DESTDIR: one that names it."""
    with tempfile.TemporaryDirectory(prefix="boxglue-stage-") as room:
        run(installing(root, archive, program, "/opt/boxglue"), room, DESTDIR=f"{room}/stage")
        paths = [f"{room}/{it}" for it in files_below(room)]
        others = [it for it in paths if not it.startswith(f"{room}/stage/opt/boxglue/")]
        wrong = others + [it for it in paths if room.encode() in content(it)]
        if wrong or len(paths) < 20:
            return f"these files name DESTDIR, or are not below the prefix: {wrong}"
        return None


def outcome(call, root, archive=None, program=None, *_programs):
    """Runs a case in a folder of its own."""
    prefix, said = installed(root, archive, program)
    with tempfile.TemporaryDirectory(prefix="boxglue-packages-") as room:
        return call(root, prefix, said, room)


def cases(programs, root):
    """The programs over the installed files, and the files."""
    calls_of = {
        "C, the shared object": partial(page_in_c, False),
        "C, the archive": partial(page_in_c, True),
        "C, whether it is proved": proved_in_c,
        "Python": page_in_python,
        "Rust": page_in_rust,
        "tests of the crates, the archive": partial(rust_tests, False),
        "tests of the crates, the shared object": partial(rust_tests, True),
        "names": names_wrong,
        "the wheel": wheel_wrong,
    }
    for name, call in calls_of.items():
        yield name, partial(outcome, call, root, *programs)
    yield "DESTDIR", partial(stage_wrong, root, *programs[:2])
