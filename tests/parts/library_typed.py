"""The typed calls of the bindings: random documents have the same replies and the same file by them
as by their scripts. Those of C are silent in all editions of C and C++, and refuse what scripts
cannot have before anything is sent."""
import os
import re
import tempfile
from functools import partial

from common.files import read, write
from common.library_build import compile_c, compiler, heap_archive, object_words, python_words
from common.library_build import run_build, rust_client
from common.outcome import need
from common.running import finished
from common.texts import last_lines
from common.typed_documents import COUNT, SAID, documents
from models.plain_font import metric_file

TITLE = "typed calls in Python, Rust and C: random documents by them and by their scripts"
PROGRAM = "library"
NEEDS_PROGRAM = True
WEIGHT = 1
# Long enough for a machine with much other work: it only ends what stands still.
LIMIT = 3600
WARNINGS = "-Wall -Wextra -Wpedantic -Wconversion -Wshadow -Wcast-qual -Wcast-align -Wundef -Werror".split()
EDITIONS = ("c99", "c11", "c17", "c2x"), ("c++98", "c++11", "c++14", "c++17", "c++20", "c++2b")
SOURCES = "typed_calls", "typed_faults"


def in_python(more, root, archive, _folder, given):
    """The typed calls of a job, or of a batch, in Python."""
    driver = f"{root}/bindings/python/tests/typed_calls.py"
    return run_wrong(*python_words(root, archive, [driver, *given, *more]))


def rust_words(root, archive, folder, source):
    """The words that run a program over the binding for Rust, and their environment, or what is
    wrong with the library."""
    text = read(f"{root}/tests/clients/{source}")
    words = rust_client(folder, f"{root}/bindings/rust/boxglue", text)
    build = [f"{root}/bindings/build", "--static", archive, f"{folder}/libboxglue.a"]
    return words, rust_environment(folder), run_build(build)


def in_rust(root, archive, folder, given):
    """The typed calls of Rust."""
    need("cargo")
    words, env, wrong = rust_words(root, archive, folder, "typed_calls.rs")
    return wrong or run_wrong([*words, *given, str(SAID)], env)


def rust_environment(folder):
    """The environment in which cargo finds the library in a folder, and builds there."""
    return {**os.environ, "BOXGLUE_LIB_DIR": folder, "CARGO_TARGET_DIR": f"{folder}/target"}


def in_c(root, archive, folder, given):
    """The typed calls of C."""
    sources, made = [f"{root}/tests/clients/typed_calls.c"], f"{folder}/calls"
    return compile_c(root, archive, sources, made, []) or run_wrong([made, *given])


def faults_in_c(language, root, archive, folder):
    """What scripts cannot have, null handles and long texts, by the calls in a language, with the
    sanitizers of the compiler."""
    words, sanitized = language.split(), ["-fsanitize=address,undefined", "-g"]
    need(words[0])
    source, made = f"{root}/tests/clients/typed_faults.c", f"{folder}/faults"
    flags = [*WARNINGS, *sanitized, f"-I{root}/include"]
    return (
        run_build([*words, *flags, "-c", source, "-o", f"{made}.o"])
        or run_build([words[0], *sanitized, "-o", made, f"{made}.o", archive, heap_archive()])
        or run_wrong([made], wanted=b"")
    )


def warnings(name, root, _archive, _folder):
    """What a compiler says of the header and of programs with all its calls, in each edition of a
    language."""
    need(name)
    words, editions = ["-x", "c++"] if "++" in name else [], EDITIONS["++" in name]
    for edition in editions:
        for source in SOURCES:
            flags = [f"-std={edition}", *WARNINGS, f"-I{root}/include", "-fsyntax-only"]
            wrong = run_build([name, *words, *flags, f"{root}/tests/clients/{source}.c"])
            if wrong:
                return f"{edition}: {wrong}"
    return None


def lints_in_rust(root, _archive, folder):
    """What clippy says of the crates and their tests."""
    need("cargo-clippy")
    words = "cargo clippy --quiet --offline --all-targets --workspace --manifest-path".split()
    words += [f"{root}/bindings/rust/Cargo.toml", *"-- -D warnings".split()]
    return run_wrong(words, rust_environment(folder), b"")


def unused_result(root, _archive, folder):
    """Whether a compiler warns where the status of a call is not used."""
    function = "void unused(struct boxglue_typed *page)"
    body = f"{function};\n{function} {{\n    boxglue_do_kern(page, 1);\n}}\n"
    write(f"{folder}/unused.c", f'#include "boxglue_typed.h"\n{body}')
    source = object_words(root, f"{folder}/unused.c", folder)
    wrong = run_build([compiler(), "-std=c99", *WARNINGS, *source])
    return None if wrong and "boxglue_do_kern" in wrong else f"the compiler says {wrong}"


def run_wrong(words, env=None, wanted=b"%d documents\n" % COUNT):
    """Runs a driver, whose output has this pattern. Returns what is wrong, or None."""
    ran = finished(words, env=env, timeout=LIMIT)
    if ran.returncode:
        return last_lines(ran.stderr or ran.stdout)
    return None if re.fullmatch(wanted, ran.stdout) else f"it prints {ran.stdout[-80:]!r}"


def alone(call, root, archive=None, *_programs):
    """Runs a case that needs no documents."""
    with tempfile.TemporaryDirectory(prefix="boxglue-typed-") as folder:
        return call(root, archive, folder)


def outcome(call, root, archive=None, *_programs):
    """Runs a driver over the documents."""
    with tempfile.TemporaryDirectory(prefix="boxglue-typed-") as folder:
        given = f"{folder}/documents", f"{folder}/metrics"
        for path, data in zip(given, (documents(root), metric_file())):
            write(path, data)
        return call(root, archive, folder, given)


def cases(programs, root):
    """A driver for each language."""
    calls = {
        "Python": partial(in_python, ()),
        "Python, in a batch": partial(in_python, ("batch", str(SAID))),
        "Rust": in_rust,
        "C": in_c,
    }
    languages = ("cc -std=c99", "c++ -x c++ -std=c++98")
    others = {f"what {it.split()[-1][5:]} refuses": partial(faults_in_c, it) for it in languages}
    compilers = ("gcc", "g++", "clang", "clang++")
    others |= {f"warnings of {it}": partial(warnings, it) for it in compilers}
    others |= {"warnings of clippy": lints_in_rust, "unused results": unused_result}
    return [
        (name, partial(run, call, root, *programs))
        for run, its in ((outcome, calls), (alone, others))
        for name, call in its.items()
    ]
