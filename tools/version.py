#!/usr/bin/env python3
"""The version of boxglue, which is that of include/boxglue.h: 10,000 times its first number, 100
times the second, and the third.

  tools/version.py          prints it, as 1.1.0
  tools/version.py 1.2.0    writes it into each place that has it: the program, the library with its
  clauses, the manual page and the bindings"""
import os
import re
import sys

ROOT = os.path.dirname(os.path.dirname(os.path.abspath(__file__)))
HEADER, DEFINED = "include/boxglue.h", r"(?<=#define BOXGLUE_VERSION )\d+"
# Each other place: a file, a pattern of what stands there, and whether that is the dotted text, or
# the number.
DOTTED, NUMBER = r"\d+\.\d+\.\d+", r"[1-9][\d_]{4,}"
PLACES = [
    (HEADER, rf"(?<=the library that this header describes, ){DOTTED}"),
    (HEADER, rf'(?<=#define BOXGLUE_VERSION_STRING "){DOTTED}'),
    ("crates/boxglue_words/src/task.rt", rf'(?<=VERSION_LINE: &str = "boxglue ){DOTTED}'),
    ("crates/boxglue_calls/src/edition.rt", rf"(?<=ensures {{ result ≡ ){NUMBER}"),
    ("crates/boxglue_calls/src/edition.rt", rf"(?<=\n    ){NUMBER}(?=\n)"),
    (
        "crates/boxglue_c/src/lib.rt",
        rf"(?<=boxglue_version\(\) -> u32\n    ensures {{ result ≡ ){NUMBER}",
    ),
    ("crates/tests_calls/src/scripts.rt", rf"(?<=version\(\), ){NUMBER}"),
    ("docs/boxglue.1", rf'(?<=\d "boxglue ){DOTTED}'),
    ("docs/boxglue.1", rf'(?<=\.BR "boxglue ){DOTTED}'),
    ("bindings/python/boxglue/__init__.py", rf'(?<=__version__ = "){DOTTED}'),
    *(
        ("bindings/python/README.md", rf"(?<={before}){DOTTED}")
        for before in ("library's version, such as ", "has a version such as ")
    ),
    *(
        ("bindings/wheel", rf"(?<={before}){DOTTED}")
        for before in ("a wheel of the version ", "which sorts below ")
    ),
    ("bindings/rust/Cargo.toml", rf'(?<=\nversion = "){DOTTED}'),
    ("bindings/rust/boxglue/Cargo.toml", rf'(?<="../boxglue-sys", version = "){DOTTED}'),
    *(
        ("bindings/rust/Cargo.lock", rf'(?<=\nname = "{name}"\nversion = "){DOTTED}')
        for name in ("boxglue", "boxglue-sys")
    ),
    *(
        (f"tests/cases/program/{name}/stdout", rf"(?<=boxglue ){DOTTED}")
        for name in ("version", "version_before_other_words", "version_by_its_short_option")
    ),
]


def read(root, path):
    """The text of a file."""
    with open(f"{root}/{path}", encoding="utf-8") as it:
        return it.read()


def number(root):
    """The version as a number."""
    return int(re.search(DEFINED, read(root, HEADER))[0])


def dotted(root):
    """The version as a text."""
    found = number(root)
    return f"{found // 10_000}.{found // 100 % 100}.{found % 100}"


def wrong(root):
    """What stands in places that have another version, or have none."""
    wanted = {dotted(root), str(number(root)), f"{number(root):_}"}
    found = [(path, re.findall(pattern, read(root, path))) for path, pattern in PLACES]
    return [f"{path} has {its}" for path, its in found if len(its) != 1 or its[0] not in wanted]


def write(root, text):
    """Writes a version into all places."""
    first, second, third = (int(it) for it in text.split("."))
    value = 10_000 * first + 100 * second + third
    for path, pattern in [(HEADER, DEFINED), *PLACES]:
        old = read(root, path)
        with open(f"{root}/{path}", "w", encoding="utf-8") as it:
            it.write(
                re.sub(
                    pattern,
                    lambda found: text
                    if "." in found[0]
                    else f"{value:_}"
                    if "_" in found[0]
                    else str(value),
                    old,
                )
            )


def main(words):
    if words and not re.fullmatch(r"\d+\.\d\d?\.\d\d?", words[0]):
        print("tools/version.py: a version has three numbers, as 1.2.0", file=sys.stderr)
        return 2
    if words:
        write(ROOT, words[0])
    print(dotted(ROOT))
    return 0


if __name__ == "__main__":
    sys.exit(main(sys.argv[1:]))
