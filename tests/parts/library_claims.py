"""What packages of the library say of its proofs: pip prefers the proved wheel, a wheel is made of
the right library or not at all, `boxglue_proved` is asked at run time in each language, and Python
loads no library but its own, the system's and the named one. All in fresh environments, without
network.

Stand-ins for libraries are proved, or have another version: they have each call of the header, and
only those two answers."""
import glob
import os
import re
import shutil
import sys
import tarfile
import zipfile
from functools import partial

from common.files import content, read, write
from common.library_build import compiler, rust_client
from common.outcome import Wrong, need, without
from common.part import in_turn
from common.running import finished
from parts.library_packages import BUILDS, LIMIT, cargo, compiled, line_of, outcome, run
from tools.exports import calls
from tools.unproved import SAYS
from tools.version import dotted, number

TITLE = "the library's packages say truly whether it is proved: wheels, source distribution, calls at run time, the loader of Python"
PROGRAM = "library"
NEEDS_PROGRAM = True
SPLIT = in_turn(4)
PRINT_PYTHON = "import boxglue; print(boxglue.version(), int(boxglue.proved()))"
PRINT_C = """#include <boxglue.h>
#include <stdio.h>
int main(void) {
    uint32_t version = boxglue_version();
    unsigned numbers[] = {version / 10000, version / 100 % 100, version % 100};
    return printf("%u.%u.%u %u\\n", numbers[0], numbers[1], numbers[2], (unsigned)boxglue_proved()) < 0;
}
"""
PRINT_RUST = (
    'fn main() {\n    println!("{} {}", boxglue::version(), u32::from(boxglue::is_proved()));\n}\n'
)
NO_NETWORK = {"PIP_NO_INDEX": "1", "PIP_DISABLE_PIP_VERSION_CHECK": "1", "PIP_NO_CACHE_DIR": "1"}
NO_NETWORK |= {"PIP_CONFIG_FILE": os.devnull}
PIP_WHEEL = "-m pip wheel --no-deps --wheel-dir".split()


def need_pip():
    """Skips the case unless pip is there."""
    if finished([sys.executable, "-m", "pip", "--version"], timeout=LIMIT).returncode:
        raise without("pip")


def stand_in(root, path, is_proved, value=None):
    """A shared object in place of the library, with this version and this answer; and with the
    symbol of one that is not proved."""
    answers = dict.fromkeys(calls(root), 0)
    answers |= {"boxglue_version": value or number(root), "boxglue_proved": int(is_proved)}
    lines = [f"unsigned {name}(void) {{ return {it}; }}\n" for name, it in answers.items()]
    symbol = "" if is_proved else f'const char boxglue_unproved[] = "{SAYS}";\n'
    write(f"{path}.c", "".join(lines) + symbol)
    flags = "-shared -fPIC -Wl,-soname,libboxglue.so.1 -o".split()
    run([compiler(), *flags, path, f"{path}.c"], os.path.dirname(path))
    os.remove(f"{path}.c")
    return path


def wheel_of(root, library, folder):
    """The wheel of a library."""
    return line_of([sys.executable, f"{root}/bindings/wheel", library, folder], folder)


def new_environment(folder):
    """An environment for Python that has nothing, and the words that run its Python."""
    run([sys.executable, "-m", "venv", "--without-pip", folder], os.path.dirname(folder))
    return f"{folder}/bin/python"


def pip(python, words, room, **env):
    """Runs pip for an environment."""
    return run([sys.executable, "-m", "pip", "--python", python, *words], room, **NO_NETWORK, **env)


def version_in(python, room):
    """The version of the package that an environment has."""
    asks = "from importlib import metadata; print(metadata.version('boxglue'))"
    return line_of([python, "-c", asks], room)


def wheels_wrong(root, prefix, said, room):
    """What pip does with a proved and an unproved wheel of one version: it prefers the proved one,
    whichever comes first."""
    need_pip()
    version, folders = dotted(root), (f"{room}/proved", f"{room}/unproved")
    _, unproved = (
        wheel_of(root, stand_in(root, f"{it}/libboxglue.so", it.endswith("/proved")), it)
        for it in folders
    )
    for at, names in enumerate((folders, folders[::-1])):
        python = new_environment(f"{room}/environment-{at}")
        links = [it for name in names for it in ("--find-links", name)]
        newest = ["--upgrade", *links, "boxglue"]
        runs = (
            ([*links, "boxglue"], version),
            ([unproved], f"{version}.dev0+unproved"),
            (newest, version),
            (["--pre", *newest], version),
        )
        for words, wanted in runs:
            pip(python, ["install", "--quiet", *words], room)
            if version_in(python, room) != wanted:
                return f"pip install {' '.join(words)} gives {version_in(python, room)}"
    python = new_environment(f"{room}/environment")
    try:
        pip(python, ["install", "--quiet", "--find-links", folders[1], f"boxglue=={version}"], room)
    except Wrong:
        return None
    return "pip takes the unproved wheel for the proved version"


def wheels_in(folder):
    """The names of the wheels in a folder, and whether each has its own version in the package and
    the library."""
    found = {}
    for path in glob.glob(f"{folder}/*.whl"):
        with zipfile.ZipFile(path) as it:
            text = it.read("boxglue/__init__.py").decode()
            has_library = "boxglue/libboxglue.so" in it.namelist()
        name, version = os.path.basename(path), re.search(r'__version__ = "([^"]+)"', text)[1]
        found[name] = name.startswith(f"boxglue-{version}-") and has_library
    return found


def refused_wheel(source, words, why, room, **env):
    """What is wrong where pip should refuse to make a wheel, and say why."""
    words = [sys.executable, *PIP_WHEEL, f"{room}/refused", *words, source]
    kept = {name: value for name, value in os.environ.items() if name != "BOXGLUE_LIBRARY"}
    ran = finished(words, cwd=room, env={**kept, **NO_NETWORK, **env}, text=True, timeout=LIMIT)
    if not ran.returncode or wheels_in(f"{room}/refused"):
        return f"pip makes the wheels {[*wheels_in(f'{room}/refused')]}"
    said = f"{ran.stdout}{ran.stderr}"
    if why in said and "Traceback" not in said:
        return None
    return f"pip does not say {why!r} alone: {said[-600:]}"


def backend_wrong(root, prefix, said, room):
    """What is wrong with wheels that pip makes of the folder: they are the one of ./install, or
    there is a clear error."""
    need_pip()
    (wheel,) = glob.glob(f"{prefix}/share/boxglue/python/*.whl")
    left_out = shutil.ignore_patterns("rust", "target", "__pycache__", "*.so")
    source = shutil.copytree(f"{root}/bindings", f"{room}/bindings", ignore=left_out) + "/python"
    shutil.copytree(f"{root}/examples", f"{room}/examples", ignore=shutil.ignore_patterns("target"))
    library = f"{prefix}/lib/libboxglue.so"
    given = ["--config-settings", f"library={library}"]
    pip = [sys.executable, *PIP_WHEEL]
    name = os.path.basename(wheel)
    for at, (words, env) in enumerate(((given, {}), ([], {"BOXGLUE_LIBRARY": library}))):
        run([*pip, f"{room}/{at}", *words, source], room, **NO_NETWORK, **env)
        is_same = content(wheel) == content(f"{room}/{at}/{name}")
        if not is_same or wheels_in(f"{room}/{at}") != {name: True}:
            return f"pip makes {wheels_in(f'{room}/{at}')}, which is not the wheel of ./install"
    old = stand_in(root, f"{room}/old/libboxglue.so", True, 10100)
    absent, as_old = (["--config-settings", f"library={it}"] for it in (f"{room}/absent", old))
    text, named = f"{source}/README.md", lambda it: {"BOXGLUE_LIBRARY": it}
    refusals = (
        ([], "the wheel needs libboxglue.so", {}),
        ([], f"boxglue: BOXGLUE_LIBRARY: {old} has version 1.1.0, and the package", named(old)),
        ([], f"BOXGLUE_LIBRARY: {text} is not a library of boxglue", named(text)),
        ([], f"BOXGLUE_LIBRARY: there is no {source}/absent", named("absent")),
        (absent, f"boxglue: [Errno 2] No such file or directory: '{room}/absent'", named(library)),
        (as_old, f"boxglue: {old} has version 1.1.0, and the package", named(library)),
    )
    found = (refused_wheel(source, words, why, room, **env) for words, why, env in refusals)
    return next(filter(None, found), None)


def source_wrong(root, prefix, said, room):
    """What is wrong with the source distribution: its wheel is not the one of ./install, or its
    tests fail over the wheel, away from the clone."""
    need_pip()
    make = "import sys; sys.dont_write_bytecode = True; sys.path.insert(0, '.'); import _backend; print(_backend.build_sdist(sys.argv[1]))"
    words = [sys.executable, "-c", make]
    first, again = (
        f"{it}/{line_of([*words, it], f'{root}/bindings/python')}"
        for it in (room, os.path.dirname(prefix))
    )
    name = os.path.basename(first)
    if content(first) != content(again) or name != f"boxglue-{dotted(root)}.tar.gz":
        return f"{name} has other bytes when it is made again, or another name"
    python, library = new_environment(f"{room}/environment"), f"{prefix}/lib/libboxglue.so"
    pip(python, ["install", "--quiet", first], room, BOXGLUE_LIBRARY=library)
    (wheel,) = glob.glob(f"{prefix}/share/boxglue/python/*.whl")
    if not os.path.basename(wheel).startswith(f"boxglue-{version_in(python, room)}-"):
        return f"the environment has version {version_in(python, room)}"
    with tarfile.open(first) as it:
        it.extractall(f"{room}/source")
    shutil.move(f"{room}/source/boxglue-{dotted(root)}/tests", f"{room}/away/tests")
    tests = "-m unittest discover -q -s tests -t .".split()
    run([python, *tests], f"{room}/away", PYTHONDONTWRITEBYTECODE="1")
    return None


def metadata_wrong(root, prefix, said, room):
    """What is wrong with what the wheel says of itself: as pyproject.toml, with classifiers and
    keywords; and README.md says what threads may do."""
    (wheel,) = glob.glob(f"{prefix}/share/boxglue/python/*.whl")
    with zipfile.ZipFile(wheel) as it:
        text = it.read(next(name for name in it.namelist() if name.endswith("/METADATA"))).decode()
    wanted = [
        "Keywords: dvi,",
        "Classifier: Development Status :: ",
        "Classifier: Intended Audience :: ",
        "Classifier: Typing :: Typed",
        *(f"Classifier: Programming Language :: Python :: 3.{it}\n" for it in range(10, 14)),
        "Requires-Python: >=3.10",
        "Description-Content-Type: text/markdown\n\n# boxglue",
        "free-threaded",
    ]
    absent = [it for it in wanted if it not in text]
    return f"METADATA does not have {absent}" if absent else None


def said_at_run_time(root, prefix, room, words, env_of):
    """What is wrong with what a program says of the library that it runs over: the prefix has one,
    with a symbol if it is not proved, and there are stand-ins."""
    is_proved = b"boxglue_unproved" not in content(f"{prefix}/lib/libboxglue.so.1")
    stand_ins = {stand_in(root, f"{room}/{it}/libboxglue.so.1", it): it for it in (True, False)}
    libraries = {f"{prefix}/lib/libboxglue.so.1": is_proved, **stand_ins}
    for library, wanted in libraries.items():
        found = run(words, room, **env_of(library)).decode()
        if found != f"{dotted(root)} {int(wanted)}\n":
            return f"over a library that is {'' if wanted else 'not '}proved it says {found!r}"
    return None


def loader_path(library):
    """The environment in which the system's loader finds a library."""
    return {"LD_LIBRARY_PATH": os.path.dirname(library)}


def asked_in_c(root, prefix, said, room):
    """What a program in C says that was linked with the shared object of the prefix."""
    write(f"{room}/asks.c", PRINT_C)
    made = compiled("asks.c", prefix, room)
    return said_at_run_time(root, prefix, room, [made], loader_path)


def asked_in_rust(root, prefix, said, room):
    """The same in Rust."""
    need("cargo")
    rust_client(room, f"{prefix}/share/boxglue/rust/boxglue", PRINT_RUST)
    cargo("build", room, BOXGLUE_SHARED="1", CARGO_TARGET_DIR=f"{room}/target")
    return said_at_run_time(root, prefix, room, [f"{room}/target/debug/client"], loader_path)


def older_in_rust(root, prefix, said, room):
    """What is wrong with crates over the calls of version 1.1.0, as an archive and as a shared
    object: the build has to name a call that is not there. Without a library it has to succeed, as
    for documentation."""
    need("cargo")
    rows = [it.split("\t") for it in read(f"{root}/tests/interface.tsv").splitlines()]
    names = [
        re.search(r" (boxglue_\w+)\(", it[1])[1] for it in rows if it[0] < "1.2" and "(" in it[1]
    ]
    write(f"{room}/old.c", "".join(f"unsigned {it}(void) {{ return 0; }}\n" for it in names))
    folders = {"a": f"{room}/archive", "so": f"{room}/shared", "": f"{room}/none"}
    for folder in folders.values():
        os.mkdir(folder)
    run([compiler(), "-shared", "-fPIC", "-o", "shared/libboxglue.so", "old.c"], room)
    run([compiler(), "-c", "-o", "old.o", "old.c"], room)
    run(["ar", "rcs", "archive/libboxglue.a", "old.o"], room)
    crates = shutil.copytree(f"{root}/bindings/rust", f"{room}/crates", ignore=BUILDS)
    for kind, folder in folders.items():
        env = {"BOXGLUE_LIB_DIR": folder, "CARGO_TARGET_DIR": f"{room}/target"}
        try:
            cargo("check", crates, **env)
            if kind:
                return f"{folder}/libboxglue.{kind} is accepted"
        except Wrong as wrong:
            if not kind or f"{folder}/libboxglue.{kind} lacks boxglue_paint_bits: " not in str(
                wrong
            ):
                return f"over {folder}: {wrong}"
    return None


def asked_in_python(root, prefix, said, room):
    """The same in Python, which is told by BOXGLUE_LIBRARY."""
    env_of = lambda library: {"BOXGLUE_LIBRARY": library, "PYTHONPATH": f"{root}/bindings/python"}
    return said_at_run_time(root, prefix, room, [sys.executable, "-B", "-c", PRINT_PYTHON], env_of)


def loader_wrong(root, prefix, said, room):
    """What is wrong with the library that Python loads: that of its package, then the system's, and
    never one that lies where a clone has it."""
    left_out = shutil.ignore_patterns("__pycache__", "*.so")
    source = f"{root}/bindings/python/boxglue"
    package = shutil.copytree(source, f"{room}/a/b/c/boxglue", ignore=left_out)
    words, env = [sys.executable, "-B", "-c", PRINT_PYTHON], {"PYTHONPATH": f"{room}/a/b/c"}
    planted = stand_in(root, f"{room}/a/crates/boxglue_c/out/libboxglue.so", True, 10999)
    try:
        return f"{os.path.relpath(planted, room)} is loaded: {run(words, room, **env)!r}"
    except Wrong as wrong:
        if "found no library" not in str(wrong):
            return f"without a library it says {wrong}"
    system = stand_in(root, f"{room}/system/libboxglue.so.1", True, 10201)
    found = [run(words, room, **env, **loader_path(system))]
    stand_in(root, f"{package}/libboxglue.so", False, 10202)
    for named in ({}, {"BOXGLUE_LIBRARY": planted}):
        found.append(run(words, room, **env, **loader_path(system), **named))
    if found == [b"1.2.1 1\n", b"1.2.2 0\n", b"1.9.99 1\n"]:
        return None
    return f"the system's library, the package's and the named one say {found}"


def cases(programs, root):
    """The wheels, the calls and the loader."""
    calls_of = {
        "two wheels": wheels_wrong,
        "a wheel by pip": backend_wrong,
        "the source distribution": source_wrong,
        "the wheel's metadata": metadata_wrong,
        "asked in C": asked_in_c,
        "asked in Rust": asked_in_rust,
        "an older library in Rust": older_in_rust,
        "asked in Python": asked_in_python,
        "the loader of Python": loader_wrong,
    }
    for name, call in calls_of.items():
        yield name, partial(outcome, call, root, *programs)
