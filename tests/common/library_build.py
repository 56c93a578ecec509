"""Builds what calls the library for C: the program of bindings/c, where the compiler has it with
AddressSanitizer, and the shared object of bindings/build; and the program and the library without
proofs."""
import glob
import os
import shutil
import sys

from common.files import write
from common.outcome import Skipped
from common.running import finished
from common.shared import once, own_folder
from common.texts import last_lines
from common.trying import run_tried

WRAPPED = "-Wl,--wrap=malloc,--wrap=realloc,--wrap=free"
SANITIZERS = [["-fsanitize=address,undefined"], []]


def compiler():
    """The C compiler on the path, or None."""
    return shutil.which("cc") or shutil.which("clang")


def lacking():
    """Why nothing can be built here, or None."""
    tools = {"C compiler": compiler(), "rt": shutil.which("rt")}
    missing = [name for name, found in tools.items() if not found]
    return Skipped(f"no {' and no '.join(missing)}") if missing else None


def heap_archive():
    """The archive of the kit that gives the library its heap."""
    page = finished(["rt", "doc"], text=True, check=True).stdout.strip()
    return f"{os.path.dirname(page)}/c/liblibc_c.a"


def need_compiler():
    """Skips the case where nothing can be built."""
    if lacking():
        raise lacking()


def run_build(words):
    """Runs a command that builds something. Returns what is wrong, or None."""
    ran = finished(words)
    return last_lines(ran.stderr) if ran.returncode else None


def compile_c(root, archive, sources, out, flags):
    """Compiles a program in C with the library. Returns what is wrong, or None."""
    need_compiler()
    flags = [*"-std=c11 -O1 -g -Wall -Wextra -Werror".split(), *flags, f"-I{root}/include"]
    return run_build([compiler(), *flags, "-o", out, *sources, archive, heap_archive()])


def object_words(root, source, folder):
    """The words that make a compiler write the object of a source into a folder."""
    return [f"-I{root}/include", "-c", source, "-o", f"{folder}/{os.path.basename(source)[:-2]}.o"]


def named_for(archive, name):
    """The name in the folder of the run of what is built for an archive."""
    return f"{archive.replace('/', '-')[-150:]}-{name}"


def build_calls(root, archive):
    """The path of the program in C, which is built once."""

    def make(out):
        sources = sorted(glob.glob(f"{root}/bindings/c/*.c"))
        wrong = None
        for flags in SANITIZERS:
            wrong = compile_c(root, archive, sources, out, [*flags, WRAPPED])
            if not wrong:
                return None
        return f"bindings/c is not built: {wrong}"

    need_compiler()
    return once(named_for(archive, "library_calls"), make)


def build_shared(root, archive):
    """The path of the shared object, which is built once."""

    def make(out):
        wrong = run_build([f"{root}/bindings/build", archive, out])
        return f"libboxglue.so is not built: {wrong}" if wrong else None

    need_compiler()
    return once(named_for(archive, "libboxglue.so"), make)


def build_unproved(root, kind):
    """The path of the program or of the archive of the library without proofs, which is built
    once."""

    def make(out):
        kinds = ["--library"] if kind == "library" else []
        words = [sys.executable, f"{root}/tools/unproved.py", *kinds, out]
        status, _, errors = run_tried(words, root)
        return f"the {kind} is not built without proofs: {last_lines(errors)}" if status else None

    return once("libboxglue_c.a" if kind == "library" else "boxglue.unproved", make)


CARGO = '[package]\nname = "client"\nversion = "0.1.0"\nedition = "2021"\n[dependencies]\nboxglue = { path = "%s" }\n'


def rust_client(folder, crate, source):
    """Makes a program over a crate for Rust in a folder, and gives the words that run it."""
    write(f"{folder}/Cargo.toml", CARGO % crate)
    write(f"{folder}/src/main.rs", source)
    return [*"cargo run --quiet --offline --manifest-path".split(), f"{folder}/Cargo.toml", "--"]


def python_words(root, archive, words):
    """The words that run Python with the binding, and their environment."""
    env = {
        **os.environ,
        "BOXGLUE_LIBRARY": build_shared(root, archive),
        "PYTHONPATH": f"{root}/bindings/python",
        "PYTHONPYCACHEPREFIX": f"{own_folder()}/pycache",
    }
    return [sys.executable, *words], env
