"""tools/release without --unproved: it makes a release where `rt ci` says that it has nothing left
to prove, and else refuses.

A stand-in for `rt` answers, and leaves a program, so nothing is proved; but for these answers, all
is as it is with the kit. The program and the archive are built without proofs, with another text in
place of the one that says so. The library still answers boxglue_proved() by 0, so the wheel is
named as unproved."""
import os
import re
import shutil
import sys
import tempfile
from functools import partial

from common.files import content, write
from common.outcome import lacks
from common.running import finished
from parts.releases import LIMIT, build, committed, copied, run
from tools.unproved import SAYS

TITLE = "tools/release without --unproved: a stand-in for rt says what is proved, and what is not proved is refused"
PROGRAM = "library"
NEEDS_PROGRAM = True
WEIGHT = 2
STANDS_IN = SAYS.replace("UNPROVED", "STAND-IN")
# What makes no difference to proofs.
LEFT_OUT = re.compile(r"(?:tests|bench)/|crates/\w+/(?!src/|specs/|proofs/|std)")
# Prints a text, and may then be silent.
ANSWERS = '#!/bin/sh\ncat "$SAID"\n[ -z "$SILENT" ] || sleep 50\n'
QUESTION = """import sys, tempfile
from tools import commands
from tools.releases import builds
builds.LONGEST = 2
with tempfile.NamedTemporaryFile("wb+") as log:
    try:
        print(builds.Question(".", ["left", "right"], log).answer())
    except commands.Failed as error:
        sys.exit(f"refused: {error}")
"""
# Says that all crates are kept, and leaves the program. It proves nothing, and asks the kit only
# for its name and its pages.
RT = """#!/bin/sh
case $1 in
  ci)
    for crate in $(sed -n 's/^\\([a-z_]*\\)[ :].*/\\1/p' crates.txt); do echo "rt: $crate is kept: an earlier run on this machine proved the same files over the same libraries"; done
    mkdir -p crates/boxglue/out && cp "$ROOM/boxglue" crates/boxglue/out/boxglue
    echo 'rt: ok; handles allowed: none; done in this run: 0 of the 40 proofs (of crates and of their tests); the others are kept from earlier runs' ;;
  doc | version) exec "$REAL" "$@" ;;
  *) echo "the stand-in proves nothing: $*"; exit 1 ;;
esac
"""
STAMP = """import importlib.machinery, importlib.util, os, sys
sys.dont_write_bytecode = True
loader = importlib.machinery.SourceFileLoader("archive", ".ci/archive")
archive = importlib.util.module_from_spec(importlib.util.spec_from_loader("archive", loader))
loader.exec_module(archive)
crate = next(it for it in archive.rtlib.crates_below(os.getcwd()) if it.name == "boxglue_c")
print(archive.stamp_of(crate) + archive.rtlib.sum_of("crates/boxglue_c/out/libboxglue_c.a"), end="")
"""
KEPT = (
    "rt: {} is kept: an earlier run on this machine proved the same files over the same libraries\n"
)
END_OF_CI = "rt: ok; handles allowed: none; done in this run: {} of the 2 proofs (of crates and of their tests); the others are kept from earlier runs of the same files on this machine\n"


def asks_rt(text, is_silent, wanted, root):
    """What is made of the lines of `rt ci`: it is taken, where all is kept, and refused at the
    first proof."""
    with tempfile.TemporaryDirectory(prefix="boxglue-asked-") as room:
        write(f"{room}/rt", ANSWERS.encode())
        write(f"{room}/said", text.encode())
        os.chmod(f"{room}/rt", 0o755)
        env = {
            "PATH": f"{room}:{os.environ['PATH']}",
            "SAID": f"{room}/said",
            "SILENT": "1" * is_silent,
            "PYTHONPATH": root,
            "PYTHONDONTWRITEBYTECODE": "1",
        }
        status, output, errors = run([sys.executable, "-c", QUESTION], room, **env)
        if wanted in output + errors and (status == 0) == (wanted == "0 of the 2 proofs"):
            return None
        return f"the status is {status}: {(output + errors)[-300:]!r}"


def made_clone(root, archive, program, room):
    """A clone with an archive and its stamp, as .ci/archive leaves them, and a date of its version;
    and the environment with the stand-in."""
    _, _, program, _, archive = build(root, archive, program)
    write(f"{room}/boxglue", content(program).replace(SAYS.encode(), STANDS_IN.encode()))
    write(f"{room}/rt", RT.encode())
    for name in ("boxglue", "rt"):
        os.chmod(f"{room}/{name}", 0o755)
    clone = copied(root, f"{room}/clone", LEFT_OUT)
    dated = re.sub(
        r"(?m)^(## [\d.]+), not released yet$",
        r"\1, 30 November 2026",
        content(f"{clone}/CHANGELOG.md").decode(),
    )
    write(f"{clone}/CHANGELOG.md", dated.encode())
    committed(clone)
    os.makedirs(f"{clone}/crates/boxglue_c/out")
    made = f"{clone}/crates/boxglue_c/out/libboxglue_c.a"
    write(made, content(archive).replace(SAYS.encode(), STANDS_IN.encode()))
    stamp = finished([sys.executable, "-c", STAMP], cwd=clone, timeout=LIMIT, check=True).stdout
    write(f"{made}.stamp", stamp)
    return clone, {"PATH": f"{room}:{os.environ['PATH']}", "ROOM": room, "REAL": shutil.which("rt")}


def released(root, archive=None, program=None, *_programs):
    """The release of what the stand-in says is proved; then an archive that does not fit its stamp
    is refused, since the stand-in does not prove it again."""
    missing = next(filter(None, map(lacks, ("cargo", "dpkg-deb"))), None)
    if missing:
        return missing
    with tempfile.TemporaryDirectory(prefix="boxglue-proved-") as room:
        clone, env = made_clone(root, archive, program, room)
        status, output, errors = run([f"{clone}/tools/release", f"{room}/made"], room, **env)
        if status:
            return f"the status is {status}: {(errors or output)[-300:]!r}"
        names = sorted(it for it in os.listdir(f"{room}/made") if not it.endswith(".whl"))
        report = content(f"{room}/made/PROVED.txt").decode() if "PROVED.txt" in names else ""
        if (
            len(names) != 11
            or any("unproved" in it.lower() for it in names)
            or "0 of the 40 proofs" not in report
            or " boxglue_c\n" not in report
        ):
            return f"the files are {names}, and the report {report!r}"
        with open(f"{clone}/crates/boxglue_c/out/libboxglue_c.a", "ab") as it:
            it.write(b"\n")
        status, output, errors = run([f"{clone}/tools/release", f"{room}/other"], room, **env)
        if status == 1 and "proves nothing: lib" in errors and not os.path.exists(f"{room}/other"):
            return None
        return f"another archive: the status is {status}: {(errors or output)[-300:]!r}"


def cases(programs, root):
    """The release by the stand-in, and what is made of the lines of `rt ci`."""
    yield "a release", partial(released, root, *programs)
    kept = KEPT.format("left") + KEPT.format("right")
    asked = {
        "all is proved": (kept + END_OF_CI.format(0), False, "0 of the 2 proofs"),
        "something was proved": (kept + END_OF_CI.format(1), False, "refused"),
        "a crate is proved now": (
            KEPT.format("left") + "== right\nrt: right proved\n",
            True,
            "left to prove: right",
        ),
        "a crate takes long": (KEPT.format("left"), True, "left to prove: right"),
        "no end": (kept, False, "refused"),
        "a crate is lost": (
            KEPT.format("left") + END_OF_CI.format(0),
            False,
            "left to prove: right",
        ),
    }
    for name, words in asked.items():
        yield name, partial(asks_rt, *words, root)
