"""What tools/release makes of a build without proofs: the files are the same when they are made
again in another folder, and fresh systems of Debian, without `rt` and without network, can use
them. In each the page of README.md is made: by the program, in C, in Python and in Rust.
Uninstalled again, nothing is left.

A release of what is proved differs in where its program and its archive come from, which
release_proofs.py tests."""
import functools
import glob
import gzip
import json
import os
import re
import shutil
import sys
import tempfile
from functools import partial

from common.chroots import OLD, TOOLS, run_in
from common.files import content, write
from common.library_build import build_unproved
from common.outcome import Skipped, lacks, need
from common.running import finished
from common.shared import own_folder
from common.texts import last_lines
from parts.library_claims import NO_NETWORK, need_pip
from tools.releases.builds import says_unproved

TITLE = "tools/release: the same bytes twice, in fresh systems of Debian by tarball and by packages, and without lintian's errors; what is damaged or changed is refused"
PROGRAM = "library"
NEEDS_PROGRAM = True
WEIGHT = 4
LIMIT = 600
# What is not part of a release, and what makes no difference to it.
LEFT_OUT = re.compile(r"(?:crates|tests|bench)/")
SECONDS = "1800000000"
# What lintian may call an error: the maintainer has no address, and there is no licence.
ALLOWED = {"malformed-contact", "no-copyright-file", "copyright-not-using-common-license-for-gpl"}
NAMES = """
    boxglue-{number}-unproved-x86_64-linux.tar.gz boxglue-{number}-unproved-x86_64-linux.spdx.json
    boxglue-{python}-py3-none-manylinux_2_14_x86_64.whl boxglue-{python}.tar.gz
    boxglue-{cargo}.crate boxglue-sys-{cargo}.crate boxglue_{debian}_amd64.deb
    libboxglue1_{debian}_amd64.deb libboxglue-dev_{debian}_amd64.deb
    python3-boxglue_{debian}_all.deb UNPROVED.txt SHA256SUMS""".split()
# The end of the script, and of the examples in C, Python and Rust.
END, ENDS = "end: pages 1 bytes 976\n", "end: pages 1 bytes 232\n"
# Lines of the shell in a fresh system. The first two are all that README.md needs.
LISTED = "find / -xdev \\( -path /proc -o -path /tmp -o -path /given \\) -prune -o -print | sort"
TARBALL = "tar -C /tmp -xf /given/boxglue-*-linux.tar.gz && /tmp/boxglue-*-linux/install.sh --prefix /usr/local > /tmp/said\n"
PAGE = 'cd /tmp && boxglue typeset page.dvi cmtt10=DOC/examples/plain.tfm < DOC/examples/first_page.box | tail -n 1 && test "$(stat -c %s page.dvi)" = 976\n'
METRICS = "/usr/local/share/doc/boxglue/examples/plain.tfm"
PACKAGED = "dpkg -i /given/*.deb > /tmp/said 2>&1\n"
C = "cd /tmp && cc -std=c99 -Wall -Werror -o page /given/page.c $(pkg-config --cflags --libs boxglue) && LD_LIBRARY_PATH=LIB ./page METRICS page.dvi | tail -n 1\n"
CMAKE = """mkdir /tmp/c && cd /tmp/c && cp /given/page.c .
printf 'cmake_minimum_required(VERSION 3.10)\\nproject(page C)\\nfind_package(boxglue 1.2 REQUIRED)\\nadd_executable(page page.c)\\ntarget_link_libraries(page boxglue::boxglue)\\n' > CMakeLists.txt
cmake -B built . > /tmp/said && cmake --build built > /tmp/said && built/page METRICS page.dvi | tail -n 1
"""
PYTHON = """cd /tmp && python3 -m venv venv && venv/bin/pip install --no-index --quiet /usr/local/share/boxglue/python/boxglue-*.whl
venv/bin/python /given/page.py METRICS page.dvi | tail -n 1
"""
RUST = """cp -r /given/page /tmp/page && cd /tmp/page
sed -i "s|^boxglue = .*|$(sed -n 's/^for Rust, in Cargo.toml: //p' /tmp/said)|" Cargo.toml
cargo run --quiet --offline -- METRICS /tmp/page.dvi | tail -n 1
"""
PACKED_RUST = """mkdir /tmp/rust && cd /tmp/rust && for it in /given/*.crate; do tar -xf "$it"; done
cp -r /given/page /tmp/page && cd /tmp/page && sed -i "s|^boxglue = .*|boxglue = { path = \\"$(echo /tmp/rust/boxglue-1*)\\" }|" Cargo.toml
printf '[patch.crates-io]\\nboxglue-sys = { path = "%s" }\\n' "$(echo /tmp/rust/boxglue-sys-1*)" >> Cargo.toml
cargo run --quiet --offline -- METRICS /tmp/page.dvi | tail -n 1
"""


def run(words, cwd, **env):
    """Runs a command, and returns its status and what it printed."""
    ran = finished(words, cwd=cwd, env={**os.environ, **env}, text=True)
    return ran.returncode, ran.stdout, ran.stderr


def done(words, cwd, **env):
    """Runs a command that has to succeed, and returns what it printed."""
    status, output, errors = run(words, cwd, **env)
    if status:
        raise AssertionError(
            f"{os.path.basename(words[0])}: the status is {status}: {last_lines((errors or output).encode())}"
        )
    return output


def copied(root, folder, left_out=LEFT_OUT):
    """A folder with the files that the repository has now."""
    for name in done(
        ["git", "ls-files", "-z", "--cached", "--others", "--exclude-standard"], root
    ).split("\0"):
        if name and not left_out.match(name) and os.path.exists(f"{root}/{name}"):
            os.makedirs(os.path.dirname(f"{folder}/{name}"), exist_ok=True)
            shutil.copy(f"{root}/{name}", f"{folder}/{name}")
    return folder


def committed(folder):
    """The folder as a clone of which a release can be made: its files as a commit."""
    env = {
        f"GIT_{who}_{what}": value
        for who in ("AUTHOR", "COMMITTER")
        for what, value in (("NAME", "a"), ("EMAIL", "a@b"), ("DATE", f"@{SECONDS} +0000"))
    }
    for words in (["init", "--quiet"], ["add", "--all"], ["commit", "--quiet", "--message", "all"]):
        done(["git", *words], folder, **env, GIT_CONFIG_GLOBAL="/dev/null")
    return folder


def build(root, archive, program):
    """The words of a build without proofs: that of the part, or else another one."""
    if not says_unproved(program) or not says_unproved(archive):
        program, archive = build_unproved(root, "program"), build_unproved(root, "library")
    return ["--unproved", "--program", program, "--library", archive]


@functools.lru_cache(None)
def released(root, archive, program, number):
    """The folder of a release, made in a clone of its own, or why it cannot be made."""
    missing = next(filter(None, map(lacks, ("cargo", "dpkg-deb"))), None)
    if missing:
        return missing
    path = f"{own_folder()}/release-{number}"
    clone = committed(copied(root, f"{path}/{'clone' * number}"))
    done([f"{clone}/tools/release", *build(root, archive, program), f"{path}/made"], path)
    return f"{path}/made"


def over(call, root, archive, program, *_programs):
    """Runs a case over a release."""
    made = released(root, archive, program, 1)
    return made if isinstance(made, Skipped) else call(root, made)


def spellings(made):
    """The version, in the spelling of each kind of package."""
    number = re.search(
        r"/boxglue-([\d.]+)-unproved-x86_64-linux\.tar\.gz$", only(made, "*-linux.tar.gz")
    )[1]
    return {
        "number": number,
        "python": f"{number}.dev0+unproved",
        "cargo": f"{number}-dev.0+unproved",
        "debian": f"{number}~dev0+unproved",
    }


def only(folder_of, pattern):
    """The one file of a pattern."""
    (path,) = glob.glob(f"{folder_of}/{pattern}")
    return path


def names_wrong(_root, made):
    """The files that are there: each name says that it is not proved, and SHA256SUMS has all
    others."""
    wanted, found = {it.format(**spellings(made)) for it in NAMES}, {*os.listdir(made)}
    if wanted != found:
        return f"these files are there or not there: {sorted(wanted ^ found)}"
    said = done(["sha256sum", "--check", "--strict", "SHA256SUMS"], made)
    return (
        None if len(said.splitlines()) == len(wanted) - 1 else f"SHA256SUMS has {said.splitlines()}"
    )


def pip_takes(_root, made):
    """What pip takes for the bare name, in the folder of a release: the wheel. Older versions of
    pip take for a source distribution what has a version between `boxglue-` and `.tar.gz`."""
    need_pip()
    words = [sys.executable, *"-m pip download --quiet --no-deps --find-links".split(), made]
    with tempfile.TemporaryDirectory(prefix="boxglue-pip-") as room:
        done([*words, "--dest", room, "boxglue"], room, **NO_NETWORK)
        found, wanted = os.listdir(room), os.path.basename(only(made, "*.whl"))
    return None if found == [wanted] else f"pip takes {found}, and not {wanted}"


def twice(root, archive, program, *_programs):
    """The same bytes from a clone in another folder."""
    first, second = (released(root, archive, program, number) for number in (1, 2))
    if isinstance(first, Skipped):
        return first
    others = [
        it
        for it in sorted(os.listdir(first))
        if content(f"{first}/{it}") != content(f"{second}/{it}")
    ]
    return f"other bytes when made again: {', '.join(others)}" if others else None


def bill_wrong(root, made):
    """What is wrong with the bill of materials: it has each library of the kit that crates.txt
    names for the program, the kit's name and logic, and the sums of the files."""
    bill = json.loads(content(only(made, "*.spdx.json")))
    versions = {it["name"]: it["versionInfo"] for it in bill["packages"]}
    kit, _, logic = done(["rt", "version"], root).strip().partition(" ")
    lost = [
        it
        for it in ("itoa", "byteorder", "smallvec", "memchr", "clap", "thiserror", "std")
        if kit not in versions.get(f"rattle-{it}", "")
    ]
    sums = {it["fileName"]: it["checksums"][0]["checksumValue"] for it in bill["files"]}
    listed = dict(
        line.split("  ")[::-1] for line in content(f"{made}/SHA256SUMS").decode().splitlines()
    )
    wrong = [name for name, value in sums.items() if listed.get(name.removeprefix("./")) != value]
    if (
        lost
        or wrong
        or len(sums) < 9
        or versions["glibc"] != ">= 2.14"
        or logic not in bill["packages"][1]["comment"]
        or bill["spdxVersion"] != "SPDX-2.3"
    ):
        return f"the bill lacks {lost}, has wrong sums of {wrong} or another glibc: {versions['glibc']}"
    return None


def lintian_wrong(_root, made):
    """Errors of lintian beyond the missing licence and the missing address."""
    need("lintian")
    _, output, _ = run(
        [
            *"lintian --allow-root --tag-display-limit 0".split(),
            *sorted(glob.glob(f"{made}/*.deb")),
        ],
        made,
    )
    found = {line.split()[2] for line in output.splitlines() if line.startswith("E: ")} - ALLOWED
    return f"lintian's errors: {', '.join(sorted(found))}" if found else None


def in_system(suite, lines, expected, root, made):
    """Runs lines in a fresh system, over the release and the examples in C, Python and Rust. They
    print this, and nothing of the release stays at the end."""
    with tempfile.TemporaryDirectory(prefix="boxglue-given-") as given:
        for it in os.listdir(made):
            shutil.copy(f"{made}/{it}", given)
        for name in ("page.c", "page.py"):
            shutil.copy(f"{root}/examples/library/{name}", given)
        shutil.copytree(
            f"{root}/examples/library/page",
            f"{given}/page",
            ignore=shutil.ignore_patterns("target", "Cargo.lock"),
        )
        found = run_in(suite, lines.replace("METRICS", METRICS), given)
    return (
        found
        if isinstance(found, Skipped)
        else None
        if found == expected
        else f"it prints {found[-300:]!r}"
    )


def removed(install, page, uninstall):
    """Lines that install, make the page, and uninstall; then no file is there that was not there
    before. dpkg's and the loader's own records change."""
    same = "comm -3 /tmp/before /tmp/after | grep -v -E '^\\s*/(var|etc/ld.so.cache|root|run)' || true\n"
    return f"{LISTED} > /tmp/before\n{install}{page}{uninstall}{LISTED} > /tmp/after\n{same}"


def damages(made, tarball):
    """A tarball and the SHA256SUMS beside it, which may be missing, for each way in which these can
    be wrong."""
    data, sums, half = (
        content(tarball),
        content(f"{made}/SHA256SUMS"),
        os.path.getsize(tarball) // 2,
    )
    ours = re.search(rf"(\w{{64}})  {re.escape(os.path.basename(tarball))}\n", sums.decode())[
        1
    ].encode()
    return {
        "cut": (data[:-1000], None),
        "cut, with its sum": (data[:-1000], sums),
        "changed": (data[:half] + bytes([data[half] ^ 1]) + data[half + 1 :], sums),
        "a wrong sum": (data, sums.replace(ours, 64 * b"0")),
        "no sum": (data, b""),
        "no release": (gzip.compress(b"no tarball"), None),
    }


def damaged(root, made):
    """A tarball that was cut or changed, a wrong sum beside it, and a changed file inside: each is
    refused, and nothing is written."""
    wrong, tarball = [], only(made, "*-linux.tar.gz")
    for name, (data, sums) in damages(made, tarball).items():
        with tempfile.TemporaryDirectory(prefix="boxglue-damaged-") as room:
            given = f"{room}/{os.path.basename(tarball)}"
            write(given, data)
            if sums is not None:
                write(f"{room}/SHA256SUMS", sums)
            status, _, errors = run(
                [f"{root}/install", "--from", given, "--prefix", f"{room}/here"], room
            )
            if status != 1 or not errors.startswith("install: ") or os.path.exists(f"{room}/here"):
                wrong.append(f"{name}: the status is {status}: {errors[-200:]!r}")
    return "; ".join(wrong) or changed_inside(made)


def unpacked(made, room):
    """An unpacked release."""
    done(["tar", "-C", room, "-xf", only(made, "*-linux.tar.gz")], room)
    return only(room, "boxglue-*-linux")


def changed_inside(made):
    """A file that was changed after the tarball was unpacked."""
    with tempfile.TemporaryDirectory(prefix="boxglue-damaged-") as room:
        top = unpacked(made, room)
        write(f"{top}/include/boxglue.h", content(f"{top}/include/boxglue.h") + b"\n")
        status, errors = placed(made, room, "--prefix", f"{room}/here")
        if (
            status == 1
            and "nothing is put in place" in errors
            and not os.path.exists(f"{room}/here")
        ):
            return None
        return f"a changed file: the status is {status}: {errors[-200:]!r}"


def placed(made, room, *words, **env):
    """Runs the installing script of a release, and returns its status and its errors."""
    top = (
        unpacked(made, room)
        if not glob.glob(f"{room}/boxglue-*-linux")
        else only(room, "boxglue-*-linux")
    )
    status, _, errors = run(["sh", f"{top}/install.sh", *words], room, **env)
    return status, errors


def files_below(top):
    """The files and folders of a folder."""
    return {
        os.path.relpath(f"{place}/{it}", top)
        for place, names, files in os.walk(top)
        for it in (*names, *files)
    }


def kept(_root, made):
    """What is proved stays without --replace, in a folder with a list and in one without; with it,
    the list says that the files are unproved."""
    with tempfile.TemporaryDirectory(prefix="boxglue-kept-") as room:
        wrong = []
        for name in ("with", "without"):
            prefix, listed = f"{room}/{name}", f"{room}/{name}/share/boxglue/installed.tsv"
            os.makedirs(f"{prefix}/bin")
            os.makedirs(f"{prefix}/share/boxglue")
            shutil.copy("/bin/true", f"{prefix}/bin/boxglue")
            if name == "with":
                write(listed, b"proved\tbin/boxglue\n")
            before = files_below(prefix)
            stays = placed(made, room, "--prefix", prefix)[0] == 1 and files_below(prefix) == before
            goes = placed(made, room, "--prefix", prefix, "--replace")[
                0
            ] == 0 and b"unproved\tbin/boxglue\n" in content(listed)
            again = placed(made, room, "--prefix", prefix)[0] == 0
            wrong += (
                []
                if (stays, goes, again) == (True, True, True)
                else [f"{name} a list: stays {stays}, is replaced {goes}, and again {again}"]
            )
        return "; ".join(wrong) or None


def both_ways(root, made):
    """Files below DESTDIR name only the prefix, ./install --from puts the same files there, and
    each of the two removes what the other put."""
    prefix = ["--prefix", "/opt/a b"]
    with tempfile.TemporaryDirectory(prefix="boxglue-ways-") as room:
        sh = lambda *words: placed(made, room, *words, *prefix, DESTDIR=f"{room}/sh")
        by_install = lambda folder, *words: run(
            [f"{root}/install", *words, *prefix], room, DESTDIR=f"{room}/{folder}"
        )[::2]
        tarball = only(made, "*-linux.tar.gz")
        said = {"sh": sh(), "from": by_install("from", "--from", tarball)}
        first, second = (files_below(f"{room}/{it}") for it in said)
        paths = {it: f"{room}/from/{it}" for it in second if os.path.isfile(f"{room}/from/{it}")}
        texts = [it for it, path in paths.items() if room.encode() in content(path)]
        is_wrong = any(status for status, _ in said.values()) or first != second
        if is_wrong or len(first) < 50 or texts:
            others = sorted(first ^ second)[:5]
            return f"{said}, other files {others}, files that name DESTDIR {texts}"
        other = placed(made, room, "--uninstall", *prefix, DESTDIR=f"{room}/from")
        gone = [by_install("sh", "--uninstall"), other]
        left = [files_below(f"{room}/{it}") for it in said]
        if [it for it, _ in gone] == [0, 0] and left == [{"opt", "opt/a b"}] * 2:
            return None
        return f"{gone}, and these are left: {[sorted(it)[:5] for it in left]}"


def script_wrong(root, _made):
    """What shellcheck finds in the installing script."""
    return lacks("shellcheck") or (
        run(["shellcheck", f"{root}/tools/releases/install.sh"], root)[1][:300] or None
    )


def refuses_changes(root, made):
    """A clone with a file that its commit lacks, and a folder that is not empty."""
    with tempfile.TemporaryDirectory(prefix="boxglue-changed-") as room:
        clone = committed(copied(root, f"{room}/clone"))
        write(f"{clone}/more", b"more\n")
        status, _, errors = run([f"{clone}/tools/release", "--unproved", f"{room}/out"], room)
        again = run([f"{clone}/tools/release", "--unproved", made], room)[0]
        if (status, again) == (1, 2) and "?? more" in errors and not os.path.exists(f"{room}/out"):
            return None
        return f"the statuses are {status} and {again}: {errors[-200:]!r}"


def cases(programs, root):
    """The files of a release, what fresh systems make of them, and what is refused."""
    given = [*programs[:2], None, None][:2]
    page, doc = PAGE.replace("DOC", "/usr/local/share/doc/boxglue"), "/usr/share/doc/boxglue"
    local = "export PKG_CONFIG_PATH=/usr/local/lib/pkgconfig\n"
    uninstalled = "/tmp/boxglue-*-linux/install.sh --uninstall --prefix /usr/local > /tmp/said\n"
    in_c = C.replace("LIB ", "/usr/local/lib ")
    metrics = f"{doc}/examples/plain.tfm"
    by_c = C.replace("LIB ", "/none ").replace("METRICS", metrics)
    python = f"python3 /given/page.py {metrics} page.dvi | tail -n 1\n"
    packages = PAGE.replace("DOC", doc) + by_c + python
    names = "python3-boxglue libboxglue-dev libboxglue1 boxglue"
    over_packages = removed(PACKAGED, packages, f"dpkg --purge {names} > /tmp/said 2>&1\n")
    tools = lambda text, end=ENDS: partial(in_system, TOOLS, text, end)
    over_tarball = removed(TARBALL, page, uninstalled)
    yield "the same bytes twice", partial(twice, root, *given)
    over_release = {
        "names and sums": names_wrong,
        "what pip takes": pip_takes,
        "bill of materials": bill_wrong,
        "lintian": lintian_wrong,
        "shellcheck": script_wrong,
        "tarball in an older system": partial(in_system, OLD, over_tarball, END),
        "C by pkg-config": tools(f"{TARBALL}{local}{in_c}"),
        "C by CMake": tools(f"{TARBALL}{CMAKE}"),
        "Python by pip": tools(f"{TARBALL}{PYTHON}"),
        "Rust": tools(f"{TARBALL}{RUST}"),
        "Rust by .crate files": tools(f"{TARBALL}{PACKED_RUST}"),
        "packages": tools(over_packages, END + 2 * ENDS),
        "damaged": damaged,
        "what is proved stays": kept,
        "DESTDIR, and ./install --from": both_ways,
        "changed clones": refuses_changes,
    }
    for name, call in over_release.items():
        yield name, partial(over, call, root, *given)
