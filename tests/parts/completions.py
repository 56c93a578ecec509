"""The files of completions/ and the options of the manual page: they have the subcommands and
options of the program's help, and no others. The help is that of the built program; without one it
is that of tests/cases/program, which the program has to print."""
import re
from functools import partial

from common.files import read
from common.outcome import lacks
from common.running import finished

TITLE = "completions/ and the manual page: the words of the program's help"
TRIES = False
# Prints the completions of bash: its words are the words of the line, of which the last is
# completed.
BASH = """source "$1"; shift; COMP_WORDS=("$@"); COMP_CWORD=$(($# - 1)); _boxglue; printf '%s\\n' "${COMPREPLY[@]}" """
FISH = 'source $argv[1]; complete -C "$argv[2]"'


def help_of(programs, root, use):
    """The help of a subcommand; with an empty text that of the program."""
    if not programs:
        return read(f"{root}/tests/cases/program/help{use and '_of_' + use}/stderr")
    words = [programs[0], *([use] if use else []), "--help"]
    return finished(words, env={}, text=True).stderr


def rows(text, title):
    """The lines of a part of the help."""
    found = re.search(rf"^{title}:\n((?:  .*\n)+)", text, re.M)
    return found[1].splitlines() if found else []


def options_of(text):
    """The long options of a help."""
    return {
        option
        for line in rows(text, "Options")
        for option in re.findall(r"^ +(?:-\w, )?(--[\w-]+)", line)
    }


def words_of_help(programs, root):
    """The options of the program alone, and of each subcommand."""
    text = help_of(programs, root, "")
    uses = [line.split()[0] for line in rows(text, "Commands")]
    found = {use: options_of(help_of(programs, root, use)) for use in uses}
    return {"": options_of(text), **found}


def bash_words(path, *words):
    """The completions of bash at the end of these words."""
    ran = finished(["bash", "--norc", "-c", BASH, "bash", path, "boxglue", *words], text=True)
    return {*ran.stdout.split()}


def of_bash(folder):
    """The words that bash completes: subcommands, and options."""
    path = f"{folder}/boxglue.bash"
    firsts = bash_words(path, "")
    options = {use: bash_words(path, use, "--") for use in firsts if not use.startswith("-")}
    return {"": {it for it in firsts if it.startswith("-")}, **options}


def of_zsh(folder):
    """The words of the file for zsh: the options of each block that has one, and those before the
    blocks."""
    text = read(f"{folder}/_boxglue")
    described = {*re.findall(r"^ +'([a-z]+):", text, re.M)}
    first, *blocks = re.split(r"^    (\w+)\)$", text, flags=re.M)
    found = {"": first, **dict(zip(blocks[::2], blocks[1::2]))}
    if described != {*found} - {""}:
        raise ValueError(f"the subcommands that are described are {described}")
    return {use: {*re.findall(r"--[a-z][a-z-]*", block)} for use, block in found.items()}


def by_fish(folder):
    """The words that fish completes."""

    def asked(line):
        ran = finished(
            ["fish", "--no-config", "-c", FISH, f"{folder}/boxglue.fish", line], text=True
        )
        return {it.split("\t")[0] for it in ran.stdout.splitlines()}

    return {
        "": {it for it in asked("boxglue --") if it.startswith("-")},
        **{use: asked(f"boxglue {use} --") for use in asked("boxglue ")},
    }


def of_fish(folder):
    """The words of the file for fish."""
    lines = [it for it in read(f"{folder}/boxglue.fish").splitlines() if it.startswith("complete ")]
    named = {use for line in lines for use in re.findall(r" -a (\w+)", line)}

    def options(use):
        none = [it for it in lines if "not __fish_seen_subcommand_from" in it and not use]
        mine = none + [
            it
            for it in lines
            if "seen_subcommand_from" not in it or f"'__fish_seen_subcommand_from {use}'" in it
        ]
        return {f"--{it}" for line in mine for it in re.findall(r" -l (\w+)", line)}

    return {use: options(use) for use in ["", *named]}


def of_manual(folder):
    """The words of the manual page: those of its synopsis, and `--help` and `--version`, which its
    options name."""
    text = read(f"{folder}/../docs/boxglue.1").replace("\\-", "-")
    synopsis, _, options = text.partition(".SH DESCRIPTION")
    lines = [
        re.findall(r"boxglue +(\w+)(.*)", line)
        for line in synopsis.splitlines()
        if line.startswith(".BI")
    ]
    plain = {*re.findall(r"--[a-z]+", options.partition(".SH OPTIONS")[2].partition(".SH")[0])}
    both = {"--help"} & plain
    return {
        "": both | {"--version"} & plain,
        **{use: {*re.findall(r"--[a-z]+", more)} | both for line in lines for use, more in line},
    }


def outcome(found, programs, root):
    """Compares the words of a file with those of the help."""
    wanted, words = words_of_help(programs, root), found(f"{root}/completions")
    if len(wanted) < 4 or not all(wanted.values()):
        return "the help is not read"
    uses = sorted(use for use in {*words, *wanted} if words.get(use) != wanted.get(use))
    apart = [
        f"{use or 'boxglue'} ({' '.join(sorted(words.get(use, set()) ^ wanted.get(use, set())))})"
        for use in uses
    ]
    return (
        f"these are not the same in the file and in the help: {', '.join(apart)}" if apart else None
    )


def paths_of_bash(root):
    """After a `=` bash completes a path, and no option; after an option with a number it completes
    nothing."""
    path, start = f"{root}/completions/boxglue.bash", f"{root}/examples/plain.t"
    lines = [
        ("list", "out.dvi", "plain", "=", start),
        ("paint", "--page", ""),
        ("paint", "--page", "=", "1"),
        ("other", ""),
    ]
    found = [bash_words(path, *words) for words in lines]
    if found == [{f"{root}/examples/plain.tfm"}, set(), set(), set()]:
        return None
    return f"bash completes {found}"


def cases(programs, root):
    """A case for each shell, and one for the manual page."""
    for name, found in (
        ("bash", of_bash),
        ("zsh", of_zsh),
        ("fish", of_fish),
        ("the manual page", of_manual),
    ):
        yield name, partial(outcome, found, programs, root)
    yield "fish, by its own completion", lambda: lacks("fish") or outcome(by_fish, programs, root)
    yield "paths in bash", partial(paths_of_bash, root)
