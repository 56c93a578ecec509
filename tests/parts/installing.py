"""The script `install`. Built programs are copied with --program; without it a stand-in for `rt` is
on the path, which records its calls and the crates: nothing is proved. So are stand-ins for what
builds without proofs and what makes the library's files; library_packages.py has the real ones."""
import fcntl
import os
import re
import shutil
import signal
import subprocess
import tempfile
import time
from dataclasses import dataclass
from functools import partial

from common.files import content, read, write
from common.outcome import equal, on_each, require
from common.part import in_turn
from common.running import finished
from common.texts import same
from tools import machine
from tools.progress import CRATE, LINE, READING, Progress
from tools.side_by_side import MEMORY, jobs_that_fit

TITLE = "install: what it puts in place, and the crates that it has proved"
TRIES = False
SPLIT = in_turn(4)
LIMIT = 60
# Each file that is put in place, the file of the repository that it is, and the list of all files,
# which says what is proved.
PLACES = {
    "bin/boxglue": None,
    "share/man/man1/boxglue.1": "docs/boxglue.1",
    "share/fish/vendor_completions.d/boxglue.fish": "completions/boxglue.fish",
    "share/bash-completion/completions/boxglue": "completions/boxglue.bash",
    "share/zsh/site-functions/_boxglue": "completions/_boxglue",
}
LIST = "share/boxglue/installed.tsv"
# The files of the library, below the prefix; the version stands for itself, and LIBDIR for the
# folder of libraries.
KEPT = """
    LIBDIR/libboxglue.so.1 LIBDIR/libboxglue.a
    share/boxglue/python/boxglue-1-py3-none-any.whl share/boxglue/rust/Cargo.toml""".split()
LIBRARY = {
    *KEPT,
    *"""
    include/boxglue.h include/boxglue_typed.h share/man/man3/boxglue.3 LIBDIR/libboxglue.so.VERSION LIBDIR/libboxglue.so LIBDIR/pkgconfig/boxglue.pc
    LIBDIR/cmake/boxglue/boxglue-config.cmake LIBDIR/cmake/boxglue/boxglue-config-version.cmake share/boxglue/rust/boxglue-sys/libdir""".split(),
}
# Answers an empty script, as boxglue does.
ANSWERS = "#!/bin/sh\necho end: pages 0 bytes 0\n"
# Stands in for `rt`. `all check` takes each crate of crates.txt that has no library; one in the
# file `bad` is refused, and one in `slow` takes long. While others are proved it does not end for a
# crate that is refused. `run` in the folder of the program leaves the program, and `lib` the
# archive.
RT = """#!/bin/sh
echo "$* ${PWD##*/}" >> "$ROOM/calls"
if [ "$1" = run ]; then mkdir -p out && cp "$ROOM/boxglue" out/boxglue; fi
if [ "$1" = lib ]; then mkdir -p out && echo proved > out/libboxglue_c.a; fi
[ "$1" = all ] || exit 0
echo only=0 proved=0
for crate in $(sed 's/[ :].*//' crates.txt); do
  made=crates/$crate/out/rlib
  [ -e $made/stamp ] || {
    echo $crate >> "$ROOM/proofs"
    grep -qsx $crate "$ROOM/slow" && sleep 50
    grep -qsx $crate "$ROOM/bad" && { printf '== %s\nthe prover says why\n' $crate; [ $crate = boxglue ] || sleep 50; printf '== summary\n%s: failed (1)\n' $crate; exit 1; }
    case $crate in boxglue*) ;; *) mkdir -p $made && cat crates/$crate/src/lib.rt > $made/stamp ;; esac
  }
  printf '== %s\nlogic=proved\n' $crate
done
printf '== summary\nall crates ok\n'
"""
# Stand in for tools/unproved.py, bindings/build and bindings/wheel.
SAYS = "UNPROVED, with run-time checks"
UNPROVED = f"""import os, sys
with open(sys.argv[-1], "w") as it:
    it.write("#!/bin/sh\\necho end: pages 0 bytes 0\\n# {SAYS}\\n")
os.chmod(sys.argv[-1], 0o755)
with open(os.environ["ROOM"] + "/calls", "a") as it:
    it.write(f"unproved {{' '.join(sys.argv[1:-1])}}\\n")
"""
BUILD = """#!/bin/sh
[ "$1" = --static ] && shift
cat "$1" > "$2"
"""
WHEEL = f"""import shutil, sys
name = f"boxglue-1{{'.dev0+unproved' if b'{SAYS}' in open(sys.argv[1], 'rb').read() else ''}}-py3-none-any.whl"
shutil.copy(sys.argv[1], f"{{sys.argv[2]}}/{{name}}")
print(f"{{sys.argv[2]}}/{{name}}")
"""
# A repository of four crates, and two that the program does not use.
CRATES = "# NAME: what it uses\nleft:\nother: left\nright: left itoa\nupper: left right\nboxglue: upper clap\nboxglue_c staticlib: upper\n"
NAMES = ["left", "right", "upper", "boxglue"]
COPIED = """
    install docs/boxglue.1 docs/boxglue.3 completions/boxglue.bash completions/_boxglue completions/boxglue.fish include/boxglue.h include/boxglue_typed.h
    tools/version.py tools/commands.py tools/crates.py tools/machine.py tools/progress.py tools/side_by_side.py
    bindings/boxglue.pc.in bindings/boxglue-config.cmake.in bindings/boxglue-config-version.cmake.in""".split()


def files_below(folder):
    """The files of a folder."""
    paths = [f"{place}/{name}" for place, _, names in os.walk(folder) for name in names]
    return {os.path.relpath(it, folder) for it in paths}


def check_places(prefix, root, program):
    """The files of the program are in place, and no others."""
    equal("the files", sorted(files_below(prefix)), sorted([*PLACES, LIST]))
    for name, source in PLACES.items():
        same(name, content(f"{prefix}/{name}"), content(f"{root}/{source}" if source else program))
        equal(name, os.stat(f"{prefix}/{name}").st_mode & 0o777, 0o644 if source else 0o755)


@dataclass(frozen=True)
class Ran:
    """How the script ended."""

    status: int
    output: str
    errors: str

    def __str__(self):
        return f"the status is {self.status}: {(self.errors or self.output)[-200:]!r}"

    def check(self):
        """It succeeds, and says nothing on standard error."""
        require(self.status == 0 and not self.errors, self)

    def check_refusal(self, why):
        """It fails, and says why."""
        require(self.status == 1 and why in self.errors, self)


def install(root, words, room, path=None, **env):
    """Runs the script."""
    path = path or os.environ["PATH"]
    env = {"HOME": f"{room}/home", "PATH": path, "ROOM": room, **env}
    ran = finished([f"{root}/install", *words], cwd=room, env=env, text=True)
    return Ran(ran.returncode, ran.stdout, ran.stderr)


def copies(root, words, prefix, program):
    """Installs a program twice, over itself. The installed program answers an empty script."""
    with tempfile.TemporaryDirectory(prefix="boxglue-install-") as room:
        for _ in range(2):
            given = [it.replace("ROOM", room) for it in words]
            ran = install(root, [*given, "--program", os.path.relpath(program, room)], room)
            ran.check()
            require(all(f"{room}/{prefix}/{it}\n" in ran.output for it in PLACES), ran)
        answer = finished([f"{room}/{prefix}/bin/boxglue"])
        found = answer.returncode, answer.stdout
        equal("the program that was put in place", found, (0, b"end: pages 0 bytes 0\n"))
        check_places(f"{room}/{prefix}", root, program)


def with_programs(call, programs):
    """Runs a case with each program, or with a stand-in if none is built."""
    with tempfile.TemporaryDirectory(prefix="boxglue-install-") as room:
        write(f"{room}/boxglue", ANSWERS, 0o755)
        return on_each(programs or [f"{room}/boxglue"], call)


def refused(root, words, why, before=""):
    """A program that cannot be copied: the status is 1, and nothing is installed."""
    with tempfile.TemporaryDirectory(prefix="boxglue-install-") as room:
        write(f"{room}/given", before, 0o755)
        ran = install(root, [*words, "--prefix", f"{room}/here"], room)
        ran.check_refusal(why)
        require(not os.path.exists(f"{room}/here"), "something is put in place")


class Site:
    """A repository with the script, in which a stand-in for `rt` proves; and what is installed from
    it."""

    def __init__(self, root, room):
        self.room, self.top, self.path = room, f"{room}/top", f"{room}/bin:{os.environ['PATH']}"
        for name in COPIED:
            write(f"{self.top}/{name}", content(f"{root}/{name}"), 0o755)
        made = {"crates.txt": CRATES, "HANDLES": "Handles allowed: none.\n"}
        made |= {"bindings/rust/Cargo.toml": "[workspace]\n", "tools/unproved.py": UNPROVED}
        made |= {"bindings/build": BUILD, "bindings/wheel": WHEEL}
        crates = (*NAMES, "other", "boxglue_c")
        made |= {f"crates/{name}/src/lib.rt": f"// {name}\n" for name in crates}
        for name, text in made.items():
            write(f"{self.top}/{name}", text, 0o755)
        self.write("boxglue", ANSWERS)
        self.write("bin/rt", RT)

    def write(self, name, text):
        """Writes a file beside the repository."""
        write(f"{self.room}/{name}", text, 0o755)

    def install(self, *words, path=None, **env):
        """Runs the script; `ROOM` in its words is the folder of all."""
        given = [it.replace("ROOM", self.room) for it in words]
        return install(self.top, given, self.room, path or self.path, **env)

    def installs(self, *words, **env):
        """Runs the script, which has to succeed."""
        ran = self.install(*words, **env)
        require(ran.status == 0, ran)
        return ran

    def started(self):
        """Starts the script. A shell cannot trap a signal that was ignored when it began, as an
        interrupt is in the background jobs of a script."""
        env = {"HOME": f"{self.room}/home", "PATH": self.path, "ROOM": self.room}
        pipes = {"stdin": subprocess.DEVNULL, "stdout": subprocess.PIPE, "stderr": subprocess.PIPE}
        words = ["env", "--default-signal=INT", f"{self.top}/install"]
        return subprocess.Popen(words, env=env, text=True, **pipes)

    def recorded(self, name="calls"):
        """The calls of `rt`, or the crates that it proved."""
        path = f"{self.room}/{name}"
        return read(path).splitlines() if os.path.exists(path) else []

    def check_kept(self, names):
        """The proved work of these crates is kept in their folders, and no other."""
        crates = f"{self.top}/crates"
        found = [it for it in os.listdir(crates) if os.path.exists(f"{crates}/{it}/out/rlib/stamp")]
        equal("the crates of which work is kept", sorted(found), sorted(names))
        require(not os.path.exists(f"{self.top}/out/proved"), "out/proved is left")

    def check_proofs(self, *names):
        """These crates were proved, in this order."""
        equal("what was proved", self.recorded("proofs"), [*names])

    def check_places(self):
        """The program is installed in HOME."""
        check_places(f"{self.room}/home/.local", self.top, f"{self.room}/boxglue")

    def check_library(self, prefix, libdir):
        """The program and the library are installed, the libraries in a folder."""
        names = files_below(f"{self.room}/{prefix}")
        found = {re.sub(r"so\.\d+\.\d+\.\d+", "so.VERSION", it) for it in names}
        wanted = {*PLACES, LIST, *(it.replace("LIBDIR", libdir) for it in LIBRARY)}
        equal("the files", sorted(found), sorted(wanted))


def on_site(call, root, *words):
    """Runs a case in a repository of its own."""
    with tempfile.TemporaryDirectory(prefix="boxglue-install-") as room:
        call(Site(root, room), *words)


def proves(site):
    """The crates of the program are proved by one call of `rt`, with a line as they end; then the
    program is built, and all is installed. What is proved stays so."""
    for words in ([], ["--jobs", "3"]):
        ran = site.install(*words)
        ran.check()
        lines = [it.split("] ")[1] for it in ran.output.splitlines() if it.startswith("[")]
        proved = [it.split(": proved; ")[0].split(", ") for it in lines if ": proved; " in it]
        equal("what the lines name", [name for names in proved for name in names], NAMES)
        begins, ends = ("4 crates, ", "boxglue: built, "), ": proved; 0 of 4 left"
        is_told = (lines[0].startswith(begins[0]), lines[-1].startswith(begins[1]))
        require(all(is_told) and lines[-2].endswith(ends), f"the lines are {lines}")
    made = "\n".join(site.recorded())
    one_job = r"all check --jobs [1-9]\d* proved\nrun boxglue\n"
    three = r"all check --jobs 3 proved\nrun boxglue"
    require(re.fullmatch(one_job + three, made), f"rt was called as {made!r}")
    site.check_proofs(*NAMES, "boxglue")
    site.check_kept(NAMES[:3])
    site.check_places()


def stops_at_a_crate(site, name, before):
    """A crate that is not proved ends it soon, with the text of `rt`; nothing is installed, and
    what is proved is kept."""
    site.write("bad", f"{name}\n")
    began = time.monotonic()
    ran = site.install()
    ran.check_refusal(f"{name} is not proved\nthe prover says why\n")
    require(time.monotonic() - began < 20, "it did not end soon")
    site.check_kept(before)
    equal("the calls of rt", len(site.recorded()), 1)
    require(not os.path.exists(f"{site.room}/home"), "something is put in place")


def stops_when_told(site, number, lines):
    """A signal ends the script and the `rt` that runs, once it has printed these lines: while a
    crate takes long, it prints one every ten seconds. Started again, it continues."""
    site.write("slow", "right\n")
    with site.started() as started:
        found = [started.stdout.readline() for _ in lines]
        began = time.monotonic()
        started.send_signal(number)
        try:
            started.communicate(timeout=LIMIT)
        finally:
            # The end of the `with` waits for it.
            started.kill()
    equal("the status", started.returncode, 128 + number)
    require(time.monotonic() - began < 20, "it did not end soon")
    require(all(line in it for line, it in zip(lines, found)), f"the lines are {found}")
    site.check_kept(NAMES[:1])
    os.remove(f"{site.room}/slow")
    site.installs()
    site.check_proofs("left", "right", *NAMES[1:])
    site.check_places()


def stops_without_a_reader(site):
    """Where its lines can no longer be printed, it ends, and what it runs with it; what is proved
    is kept."""
    site.write("slow", "right\n")
    began = time.monotonic()
    with site.started() as started:
        started.stdout.readline()
        started.stdout.close()
        errors = started.stderr.read()
        started.wait(LIMIT)
    seconds = time.monotonic() - began
    require(
        started.returncode and "Broken pipe" in errors and seconds < 20,
        f"the status is {started.returncode} after {seconds:.0f} s: {errors[-200:]!r}",
    )
    site.check_kept(NAMES[:1])


def goes_on_after_a_kill(site):
    """What a run that was killed left in its own tree is taken. Beside another run it does not
    begin."""
    site.write("top/out/proved/crates/left/out/rlib/stamp", "// left\n")
    site.write("top/out/proved/crates/left/src/old.rt", "old\n")
    with open(f"{site.top}/out/proved.lock", "w", encoding="ascii") as lock:
        fcntl.flock(lock, fcntl.LOCK_EX)
        site.install().check_refusal("another ./install")
        equal("the calls of rt beside another run", site.recorded(), [])
    site.installs()
    site.check_proofs(*NAMES[1:])
    site.check_kept(NAMES[:3])


def knows_what_is_left(_root):
    """What is proved at a time, and how long it goes on, as the lines of `rt` tell it."""
    uses = {"left": [], "right": ["left"], "other": []}
    uses |= {"upper": ["left", "right"], "boxglue": ["upper", "other"]}
    with tempfile.TemporaryDirectory(prefix="boxglue-install-") as room:
        for name in uses:
            write(f"{room}/crates/{name}/src/lib.rt", "\n")
        found, each = Progress(room, uses, 2), CRATE + LINE
        wanted = [
            ("", [], READING + 4 * each),
            ("only=0\n", ["left", "other"], 4 * each),
            ("== other\n", ["left"], 4 * each),
            ("== left\n", ["right"], 3 * each),
        ]
        text = ""
        for more, names, left in wanted:
            text += more
            found.update(text)
            equal(f"after {text!r}", {*found.under_way()}, {*names})
            seconds = found.seconds_left()
            require(abs(seconds - left) <= 1, f"after {text!r}: {seconds} s are left")
        write(f"{room}/crates/right/out/rlib/stamp", "")
        equal("what has failed", sorted(found.failed()), ["left", "other"])


def fits_a_control_group(_root):
    """No more is proved at a time than the time and the memory that a control group leaves."""
    found, was = [], machine.GROUP
    with tempfile.TemporaryDirectory(prefix="boxglue-install-") as machine.GROUP:
        limits = ("max", "max"), ("100000", "max"), ("max", str(2 * MEMORY)), ("50000", "0")
        for quota, limit in limits:
            write(f"{machine.GROUP}/cpu.max", f"{quota} 100000\n")
            write(f"{machine.GROUP}/memory.max", f"{limit}\n")
            write(f"{machine.GROUP}/memory.stat", f"file 5\nanon {MEMORY}\n")
            found.append((machine.cores(), jobs_that_fit()))
    machine.GROUP = was
    cores, most = found[0]
    require(cores >= most >= 1, f"of {cores} cores so many prove at a time: {most}")
    equal("cores, and proofs at a time", found[1:], [(1, 1), (cores, 1), (1, 1)])


def builds_unproved(site):
    """Without proofs nothing is proved, and the last lines say what was built and how to have the
    proved program."""
    ran = site.install("--unproved", "--prefix", "ROOM/here")
    ran.check()
    equal("what was called", site.recorded(), ["version top", "unproved "])
    equal("the files", files_below(f"{site.room}/here"), {*PLACES, LIST})
    said = SAYS.encode() in content(f"{site.room}/here/bin/boxglue")
    require(said, "the program does not say that it is unproved")
    last = ran.output.splitlines()[-2:]
    is_told = "UNPROVED" in last[0] and last[1].endswith(f": ./install --prefix {site.room}/here")
    require(is_told, f"the last lines are {last}")


def keeps_builds(site):
    """What was built without proofs is built again only if a source, a script or the kit is another
    one; where nothing can be kept, each time."""
    program, library = "unproved ", "unproved --library"
    changes = {
        "a crate": ("top/crates/left/src/lib.rt", "// left too\n"),
        "a crate's files": ("top/crates/left/src/more.rt", ""),
        "a script": ("top/tools/unproved.py", f"# A line.\n{UNPROVED}"),
        "the kit": ("bin/rt", "#!/bin/sh\necho another\n"),
    }

    def check(what, wanted, *words):
        before = len(site.recorded())
        site.installs("--unproved", *words)
        found = [it for it in site.recorded()[before:] if it.startswith("unproved")]
        equal(f"what is built {what}", found, wanted)

    check("at first", [program])
    check("for the library", [library], "--library")
    site.write("top/README.md", "text\n")
    check("after a change of a document", [], "--library")
    for what, change in changes.items():
        site.write(*change)
        check(f"after a change of {what}", [program, library], "--library")
        check("again", [], "--library")
    equal("the kept builds", len(os.listdir(f"{site.top}/out/unproved")), 1)
    shutil.rmtree(f"{site.top}/out")
    site.write("top/out", "")
    check("without a folder", [program, library], "--library")


def keeps_what_is_proved(site):
    """What is unproved takes the place of what is proved with --replace alone, built now or given;
    what is proved takes any place."""
    site.write("unproved", f"{ANSWERS}# {SAYS}\n")
    proved, stays, goes = (0, False, False), (1, False, True), (0, True, False)
    ways = (
        ("--program ROOM/boxglue", proved),
        ("--unproved", stays),
        ("--program ROOM/unproved", stays),
        ("--unproved --replace", goes),
        ("--unproved", goes),
    )
    for words, wanted in (*ways, ways[0]):
        ran = site.install(*words.split())
        is_unproved = SAYS.encode() in content(f"{site.room}/home/.local/bin/boxglue")
        what = (
            f"{words}: the status, whether the program is unproved, and whether --replace is named"
        )
        equal(what, (ran.status, is_unproved, "--replace" in ran.errors), wanted)


def puts_the_library(site):
    """The library is proved beside the program, and its files go below DESTDIR. A crate that both
    use is proved once, and an old wheel goes."""
    stage = f"{site.room}/stage"
    site.write("stage/usr/share/boxglue/python/boxglue-0-py3-none-any.whl", "old\n")
    ran = site.installs("--library", "--prefix", "/usr", DESTDIR=stage)
    equal("the calls of rt", site.recorded()[1:], ["run boxglue", "lib boxglue_c"])
    site.check_proofs(*NAMES, "boxglue_c")
    site.check_library("stage/usr", "lib")
    line = read(f"{stage}/usr/lib/pkgconfig/boxglue.pc").splitlines()[0]
    equal("the prefix in boxglue.pc", line, "prefix=${pcfiledir}/../..")
    equal("what is below DESTDIR", os.listdir(stage), ["usr"])
    line = "pip install /usr/share/boxglue/python/boxglue-1-py3-none-any.whl\n"
    require(line in ran.output, f"it prints {ran.output[-300:]!r}")


def puts_the_library_elsewhere(site):
    """With --libdir the library is in another folder below the prefix, which its files and the
    crates find by their places; a folder elsewhere is refused."""
    here = f"{site.room}/here"
    words = "--program ROOM/boxglue --library ROOM/boxglue --prefix ROOM/here --libdir".split()
    for wrong in ("../lib", "/lib", "."):
        equal(f"the status of --libdir {wrong}", site.install(*words, wrong).status, 1)
        require(not os.path.exists(here), f"something is put in place for --libdir {wrong}")
    for libdir in ("lib/some-linux", f"{here}/lib/some-linux"):
        site.installs(*words, libdir)
        site.check_library("here", "lib/some-linux")
    folder = f"{here}/lib/some-linux"
    config = read(f"{folder}/cmake/boxglue/boxglue-config.cmake")
    lines = read(f"{folder}/pkgconfig/boxglue.pc").splitlines()[0:3:2]
    found = [*lines, read(f"{here}/share/boxglue/rust/boxglue-sys/libdir")]
    wanted = ["prefix=${pcfiledir}/../../..", "libdir=${prefix}/lib/some-linux"]
    equal("what the files name", found, [*wanted, "../../../../lib/some-linux\n"])
    is_named = '/../../../.."' in config and "lib/some-linux/libboxglue.a" in config
    require(is_named, f"CMake's file is {config}")


def needs_no_rt(site):
    """Where program and archive are built already, no `rt` is asked for."""
    os.remove(f"{site.room}/bin/rt")
    words = "--program ROOM/boxglue --library ROOM/boxglue --prefix ROOM/here".split()
    site.installs(*words, path=without_rt(site.path, f"{site.room}/tools"))
    site.check_library("here", "lib")


def without_rt(path, folder):
    """A path on which there is no `rt`: links to the commands of each of its folders that has one
    stand in its place."""
    kept = []
    for at, place in enumerate(path.split(":")):
        if os.path.exists(f"{place}/rt"):
            os.makedirs(f"{folder}/{at}")
            for name in os.listdir(place):
                if name != "rt":
                    os.symlink(f"{place}/{name}", f"{folder}/{at}/{name}")
            place = f"{folder}/{at}"
        kept.append(place)
    return ":".join(kept)


def keeps_what_is_proved_of_the_library(site):
    """Each file of a proved library, its wheel and its crates stay without --replace, even where no
    other is left; a proved one takes the place of any."""
    site.write("unproved.a", f"{SAYS}\n")
    site.write("proved.a", "proved\n")
    prefix = f"{site.room}/here"
    words = "--program ROOM/boxglue --prefix ROOM/here --library".split()
    names = [it.replace("LIBDIR", "lib") for it in KEPT]
    for kept in names:
        site.installs(*words, "ROOM/proved.a")
        for it in {*names} - {kept}:
            os.remove(f"{prefix}/{it}")
        before = files_below(prefix)
        ran = site.install(*words, "ROOM/unproved.a")
        ran.check_refusal("--replace")
        equal(f"the files beside {kept}", files_below(prefix), before)
        for more in (["--replace"], []):
            site.installs(*words, "ROOM/unproved.a", *more)
        line = f"unproved\t{kept}\n".replace("boxglue-1-", "boxglue-1.dev0+unproved-")
        require(line in read(f"{prefix}/{LIST}"), f"the list does not say that {kept} is unproved")


def removes(site):
    """--uninstall removes all that was put in place and nothing else, once; a list that names a
    file outside is refused."""
    site.write("here/bin/other", "kept\n")
    for more in ("", "--library ROOM/boxglue --libdir lib64", "--library ROOM/boxglue"):
        site.installs(*"--program ROOM/boxglue --prefix ROOM/here".split(), *more.split())
    remove, here = ("--uninstall", "--prefix", "ROOM/here"), f"{site.room}/here"
    site.installs(*remove)
    equal("the files that are left", files_below(here), {"bin/other"})
    folders = {os.path.relpath(it, here) for it, _, _ in os.walk(here)}
    equal("the folders that are left", folders, {".", "bin"})
    site.install(*remove).check_refusal("installed.tsv is not there")
    site.write(f"here/{LIST}", "text\t../outside\n")
    site.write("outside", "kept\n")
    site.install(*remove).check_refusal("is not below")
    require(os.path.exists(f"{site.room}/outside"), "a file outside is removed")


def cases(programs, root):
    """The cases, by name."""
    site = lambda call, *given: partial(on_site, call, root, *given)
    copied = lambda *given: partial(with_programs, partial(copies, root, *given), programs)
    wrong = lambda path, *given: partial(refused, root, ["--program", path], *given)
    yield "a program", copied(["--prefix", "ROOM/a folder"], "a folder")
    yield "a program, without a folder", copied([], "home/.local")
    yield "a file that is not there", wrong("absent", "absent cannot be run")
    yield "a file that is no program", wrong(
        "given", "given cannot be run", "end: pages 0 bytes 0\n"
    )
    another = "#!/bin/sh\necho end: pages 1 bytes 0\n"
    yield "another program", wrong("given", "given is not boxglue", another)
    yield "crates in order", site(proves)
    yield "a crate that is not proved", site(stops_at_a_crate, "right", ["left"])
    yield "a program that is not proved", site(stops_at_a_crate, "boxglue", NAMES[:3])
    told = ["4 crates", "left: proved"]
    proving = [*told, "proving right; 3 of 4 left, about "]
    yield "an interrupt", site(stops_when_told, signal.SIGINT, proving)
    yield "the end of a terminal", site(stops_when_told, signal.SIGHUP, told)
    yield "an end", site(stops_when_told, signal.SIGTERM, told)
    yield "lines that nobody reads", site(stops_without_a_reader)
    yield "a kill", site(goes_on_after_a_kill)
    yield "what is left", partial(knows_what_is_left, root)
    yield "a control group", partial(fits_a_control_group, root)
    yield "without proofs", site(builds_unproved)
    yield "builds that are kept", site(keeps_builds)
    yield "over a proved program", site(keeps_what_is_proved)
    yield "the library", site(puts_the_library)
    yield "the library in another folder", site(puts_the_library_elsewhere)
    yield "the library without rt", site(needs_no_rt)
    yield "over a proved library, wheel and crates", site(keeps_what_is_proved_of_the_library)
    yield "all is removed", site(removes)
