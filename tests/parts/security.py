"""SECURITY.md: its commands in their order, over each program, and its program in Python over the
library; the script that takes most, by its bytes and its memory; the stack that suffices; and what
`list` and `fonts` print of bytes that a terminal would obey."""
import os
import re
import resource
import subprocess
import tempfile
from functools import partial

from common.files import content, read, write
from common.library_build import python_words
from common.running import finished
from parts.authors import in_rooms
from parts.questions import follow, section

TITLE = "SECURITY.md: its limits of time and memory, in the shell and in Python, and what it says of scripts, stacks and terminals"
PROGRAM = "library"
NEEDS_PROGRAM = True
LIMIT = 120
PYTHON = "    python3 out/limited.py\n"
# The script that the document counts.
DOUBLED = "hbox into 0\nkern 1sp\nend\n" + 22 * "hbox into 0\ncopy 0\ncopy 0\nend\n"
# The deepest boxes that a job may have, and a paragraph that breaks.
DEEPEST = "hbox into 0\nrule 1pt 1pt 0pt\nend\n" + 199 * "hbox into 0\nbox 0\nend\n" + "ship 0\n"
SPECIAL = b"AAAA"
CODES = b"\x1b[2J"


def document(root):
    """The text of the document."""
    return read(f"{root}/SECURITY.md")


def follow_commands(room):
    """The commands of the shell print what the document shows."""
    os.mkdir(f"{room.folder}/out")
    follow(
        room,
        section(document(room.root), "How to limit time and memory").partition("\nPython sets")[0],
    )


def commands(root, _archive, *programs):
    """The commands of the shell over each program."""
    return in_rooms(follow_commands, root, None, programs)


def in_python(root, archive, *_programs):
    """The program in Python, over the script of the shell."""
    text = section(document(root), "How to limit time and memory")
    source, wanted = re.search(
        r"(?s)Save this as `out/limited\.py`:\n\n```python\n(.*?)```\n.*?\n```text\n(.*?)```", text
    ).groups()
    words, env = python_words(root, archive, ["out/limited.py"])
    with tempfile.TemporaryDirectory(prefix="boxglue-security-") as path:
        os.mkdir(f"{path}/out")
        for name, made in (
            ("limited.py", source),
            (
                "double.box",
                "hbox into 0\nkern 1sp\nend\n" + 30 * "hbox into 0\ncopy 0\ncopy 0\nend\n",
            ),
        ):
            write(f"{path}/out/{name}", made)
        ran = finished(words, cwd=path, env=env, text=True)
    if (ran.returncode, ran.stdout) == (0, wanted) and PYTHON in text:
        return None
    return f"the status is {ran.returncode}: {(ran.stderr or ran.stdout)[-200:]!r}"


def limited(program, words, script, **limits):
    """Runs the program with limits, and returns its status, its output, and the greatest memory
    that it had, in bytes."""

    def limit():
        for name, value in limits.items():
            resource.setrlimit(getattr(resource, name), (value, value))

    with tempfile.TemporaryDirectory(
        prefix="boxglue-security-"
    ) as path, tempfile.TemporaryFile() as given, tempfile.TemporaryFile() as printed:
        given.write(script.encode())
        given.seek(0)
        started = subprocess.Popen(
            [program, *words],
            stdin=given,
            stdout=printed,
            stderr=subprocess.STDOUT,
            cwd=path,
            preexec_fn=limit,
        )
        _, status, used = os.wait4(started.pid, 0)
        started.returncode = os.waitstatus_to_exitcode(status)
        printed.seek(0)
        return started.returncode, printed.read().decode(), 1024 * used.ru_maxrss


def most(root, _archive, *programs):
    """The script of the document has its bytes, and takes the document's memory, give or take a
    tenth."""
    told = re.search(
        r"^  Our script of (\d+) bytes, which doubles a box (\d+) times by `copy`, took ([\d.]+) GB",
        document(root),
        re.M,
    )
    if (int(told[1]), int(told[2])) != (len(DOUBLED), DOUBLED.count("copy") // 2):
        return f"the script has {len(DOUBLED)} bytes"
    size = 1_000_000_000 * float(told[3])
    for program in programs:
        status, answers, used = limited(
            program, ["typeset", "page.dvi"], DOUBLED, RLIMIT_AS=int(1.2 * size), RLIMIT_CPU=LIMIT
        )
        if status or "OutOfMemory" in answers or not 0.9 * size < used < 1.1 * size:
            return (
                f"{os.path.basename(program)}: the status is {status}, and the memory {used} bytes"
            )
    return None


def stack(_root, _archive, *programs):
    """The deepest box of a job is shipped with the stack that suffices."""
    for program in programs:
        status, answers, _ = limited(
            program, ["typeset", "page.dvi"], DEEPEST, RLIMIT_STACK=160 * 1024
        )
        if status or "end: pages 1 bytes " not in answers:
            return f"{os.path.basename(program)}: the status is {status}: {answers[-100:]!r}"
    return None


def terminals(_root, _archive, *programs):
    """A special and a font's name with control codes are printed as hexadecimal digits."""
    for program in programs:
        with tempfile.TemporaryDirectory(prefix="boxglue-security-") as path:
            finished(
                [program, "typeset", "page.dvi"],
                input=b"hbox into 0\nspecial AAAA\nend\nship 0\n",
                cwd=path,
                check=True,
            )
            write(f"{path}/page.dvi", content(f"{path}/page.dvi").replace(SPECIAL, CODES))
            printed = finished([program, "list", "page.dvi"], cwd=path).stdout
        if b"special 0 0 \\1b[2J\n" not in printed or any(
            it < 32 and it != 10 or it > 126 for it in printed
        ):
            return f"{os.path.basename(program)}: {printed!r}"
    return None


def cases(programs, root):
    """The commands, the program in Python, and the claims."""
    for name, call in {
        "commands": commands,
        "Python": in_python,
        "the script that takes most": most,
        "stack": stack,
        "terminals": terminals,
    }.items():
        yield name, partial(call, root, *programs)
