"""Four packages for Debian, made by dpkg-deb of what `./install` puts in place: boxglue,
libboxglue1, libboxglue-dev and python3-boxglue."""
import gzip
import hashlib
import os
import re
import zipfile
from dataclasses import dataclass, field
from email.utils import formatdate

from tools.commands import done
from tools.releases.builds import Build
from tools.releases.edition import Edition
from tools.releases.older_glibc import needed_glibc
from tools.releases.packing import set_times
from tools.releases.tree import (
    NO_LICENCE,
    WHEELS,
    data_of,
    files_below,
    put_documents,
    staged,
    write,
)

LIBRARIES = "lib/x86_64-linux-gnu"
PACKAGES = "usr/lib/python3/dist-packages"
# Its address is missing, since there is none.
MAINTAINER = "boxglue maintainers"
SUMMARY = "typesetter with TeX's model of boxes, glue and paragraphs"
COPYRIGHT = f"Format: https://www.debian.org/doc/packaging-manuals/copyright-format/1.0/\nUpstream-Name: boxglue\n\nFiles: *\nCopyright: the authors of boxglue\nLicense: none\n {NO_LICENCE.strip().splitlines()[0]}\n"


@dataclass(frozen=True)
class Package:
    """A package: what it is, where each of its files is below the prefix of `./install`, its links,
    and its scripts."""

    name: str
    section: str
    depends: str
    about: str
    files: dict[str, str]
    links: dict[str, str] = field(default_factory=dict)
    control: dict[str, str] = field(default_factory=dict)
    fields: str = "Architecture: amd64\n"


def with_glibc(path: str) -> str:
    """The dependency of a program or a library on glibc."""
    return f"libc6 (>= {needed_glibc(data_of(path))})"


def program_package(root: str, top: str, kinds: dict[str, str], room: str) -> Package:
    """The package of the program, with its manual page, its completions, the documents and the
    examples."""
    places = ("bin/", "share/man/man1/", "share/bash-completion/", "share/fish/")
    files = {it: f"usr/{it}" for it in kinds if it.startswith(places)}
    files["share/zsh/site-functions/_boxglue"] = "usr/share/zsh/vendor-completions/_boxglue"
    for name in put_documents(root, f"{room}/documents"):
        place = os.path.relpath(f"{room}/documents/{name}", top)
        files[place] = f"usr/share/doc/boxglue/{name}"
    about = "It runs scripts of boxes, glue and text, writes DVI files, and reads them."
    return Package("boxglue", "text", with_glibc(f"{top}/bin/boxglue"), about, files)


def development_files(kinds: dict[str, str]) -> dict[str, str]:
    """What who builds with the library needs beside it."""
    suffixes, places = (".a", ".pc", ".cmake"), ("include/", "share/man/man3/")
    is_other = lambda it: it.endswith(suffixes) and not it.startswith("share/")
    return {it: f"usr/{it}" for it in kinds if it.startswith(places) or is_other(it)}


def packages_of(
    root: str, top: str, kinds: dict[str, str], room: str, edition: Edition
) -> list[Package]:
    """The packages but for that of Python, of what `./install` puts into Debian's folders."""
    shared = f"{LIBRARIES}/libboxglue.so.{edition.number}"
    same = "Architecture: amd64\nMulti-Arch: same\n"
    return [
        program_package(root, top, kinds, room),
        Package(
            "libboxglue1",
            "libs",
            with_glibc(f"{top}/{shared}"),
            "This package has the shared library.",
            {shared: f"usr/{shared}"},
            {f"usr/{LIBRARIES}/libboxglue.so.1": os.path.basename(shared)},
            {
                "shlibs": f"libboxglue 1 libboxglue1 (>= {edition.debian})\n",
                "triggers": "activate-noawait ldconfig\n",
            },
            same,
        ),
        Package(
            "libboxglue-dev",
            "libdevel",
            f"libboxglue1 (= {edition.debian})",
            "This package has the header, the archive, and files for pkg-config and CMake.",
            development_files(kinds),
            {f"usr/{LIBRARIES}/libboxglue.so": "libboxglue.so.1"},
            {},
            same,
        ),
    ]


def python_package(top: str, room: str, edition: Edition) -> Package:
    """The package of Python: the wheel's files without its library, since the system has one."""
    (wheel,) = (it for it in files_below(f"{top}/{WHEELS}") if it.endswith(".whl"))
    with zipfile.ZipFile(f"{top}/{WHEELS}/{wheel}") as it:
        names = [name for name in it.namelist() if not name.endswith((".so", "/RECORD"))]
        it.extractall(f"{room}/wheel", names)
    files = {os.path.relpath(f"{room}/wheel/{name}", top): f"{PACKAGES}/{name}" for name in names}
    scripts = {
        "postinst": "#!/bin/sh\nset -e\nif command -v py3compile > /dev/null 2>&1; then\n  py3compile -p python3-boxglue\nfi\n",
        "prerm": "#!/bin/sh\nset -e\nif command -v py3clean > /dev/null 2>&1; then\n  py3clean -p python3-boxglue\nfi\n",
    }
    about = "This package calls the library from Python."
    return Package(
        "python3-boxglue",
        "python",
        f"python3 (>= 3.10), libboxglue1 (>= {edition.debian})",
        about,
        files,
        {},
        scripts,
        "Architecture: all\n",
    )


def control(package: Package, edition: Edition, size: int) -> str:
    """The text of DEBIAN/control."""
    proofs = (
        ""
        if edition.is_proved
        else " .\n It is UNPROVED: run-time checks are in place of the proofs.\n"
    )
    kind = {"libs": " - library", "libdevel": " - for development", "python": " - Python"}.get(
        package.section, ""
    )
    return (
        f"Package: {package.name}\nSource: boxglue\nVersion: {edition.debian}\nMaintainer: {MAINTAINER}\n{package.fields}Section: {package.section}\nPriority: optional\n"
        f"Installed-Size: {size}\nDepends: {package.depends}\nDescription: {SUMMARY}{kind}\n {package.about}\n{proofs}"
    )


def put(path: str, data: bytes, mode: int) -> None:
    """Writes a file."""
    os.makedirs(os.path.dirname(path), exist_ok=True)
    with open(path, "wb") as it:
        it.write(data)
    os.chmod(path, mode)


def stripped(path: str, *words: str) -> None:
    """Takes the names of its parts out of a program or a library."""
    done(
        ["strip", "--strip-unneeded", *words, path],
        "/",
        os.path.basename(path),
        "stripped",
        f"{path} is not stripped",
    )


def put_file(source: str, path: str) -> None:
    """Copies a file. Manual pages are packed, and programs and libraries are stripped."""
    data = data_of(source)
    if "/share/man/" in path:
        put(f"{path}.gz", gzip.compress(data, 9, mtime=0), 0o644)
        return
    is_script = "/share/doc/" in path and os.access(source, os.X_OK)
    put(path, data, 0o755 if is_script or path.endswith("/bin/boxglue") else 0o644)
    if path.endswith("/bin/boxglue") or re.search(r"\.so\.[\d.]+$", path):
        stripped(path, "--remove-section=.comment")
    if path.endswith(".a"):
        stripped(path, "--enable-deterministic-archives")


def changes(edition: Edition) -> str:
    """The text of the list of changes."""
    return f"boxglue ({edition.debian}) unstable; urgency=medium\n\n  * Version {edition.number}: CHANGELOG.md of the package boxglue lists the changes.\n\n -- {MAINTAINER}  {formatdate(edition.seconds)}\n"


def fill(package: Package, top: str, room: str, edition: Edition) -> None:
    """Makes the folder of which dpkg-deb makes a package."""
    for source, target in package.files.items():
        put_file(f"{top}/{source}", f"{room}/{target}")
    for path, target in package.links.items():
        os.makedirs(os.path.dirname(f"{room}/{path}"), exist_ok=True)
        os.symlink(target, f"{room}/{path}")
    documents = f"{room}/usr/share/doc/{package.name}"
    put(f"{documents}/changelog.gz", gzip.compress(changes(edition).encode(), 9, mtime=0), 0o644)
    put(f"{documents}/copyright", COPYRIGHT.encode(), 0o644)
    names = files_below(room)
    size = sum(
        1 if os.path.islink(f"{room}/{it}") else (os.path.getsize(f"{room}/{it}") + 1023) // 1024
        for it in names
    )
    sums = "".join(
        f"{md5_of(f'{room}/{it}')}  {it}\n" for it in names if not os.path.islink(f"{room}/{it}")
    )
    for name, text in {
        "control": control(package, edition, size),
        "md5sums": sums,
        **package.control,
    }.items():
        write(f"{room}/DEBIAN/{name}", text, 0o755 if name in ("postinst", "prerm") else 0o644)


def md5_of(path: str) -> str:
    """The sum that dpkg compares."""
    return hashlib.md5(data_of(path), usedforsecurity=False).hexdigest()


def make_packages(
    root: str, build: Build, program: str, folder: str, room: str, edition: Edition
) -> None:
    """Writes the packages into a folder."""
    top, kinds = staged(root, build, program, f"{room}/debian", LIBRARIES)
    packages = packages_of(root, top, kinds, room, edition)
    for package in [*packages, python_package(top, room, edition)]:
        make_package(package, top, folder, f"{room}/packages/{package.name}", edition)


def make_package(package: Package, top: str, folder: str, tree: str, edition: Edition) -> None:
    """Writes a package. Its folder on the way becomes that of root, and all files have one time."""
    os.makedirs(tree)
    fill(package, top, tree, edition)
    set_times(tree, edition.seconds)
    architecture = package.fields.splitlines()[0].removeprefix("Architecture: ")
    path = f"{folder}/{package.name}_{edition.debian}_{architecture}.deb"
    words = [
        "env",
        f"SOURCE_DATE_EPOCH={edition.seconds}",
        "dpkg-deb",
        "--root-owner-group",
        "--threads-max=1",
        "-Zxz",
        "--build",
        tree,
        path,
    ]
    done(words, folder, package.name, "made", f"{package.name} is not made")
