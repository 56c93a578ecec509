"""The folder that becomes the tarball: what `./install` puts in place, documents, and the script
that installs them."""
import hashlib
import os
import re
import shutil

from tools.commands import done
from tools.releases.builds import Build
from tools.releases.edition import Edition, answer_of

LIST, WHEELS, CRATES = "share/boxglue/installed.tsv", "share/boxglue/python", "share/boxglue/rust"
# Files of the repository, by what they are below the folder and below share/doc/boxglue of a
# prefix. All examples are there too.
DOCUMENTS = [
    "README.md",
    "CHANGELOG.md",
    "SECURITY.md",
    *(
        f"docs/{it}.md"
        for it in (
            "QUICKSTART",
            "FAQ",
            "LIBRARY",
            "COMMANDS",
            "FORMATS",
            "REFUSALS",
            "AUTHORS",
            "PROVED",
            "TOUR",
            "SPEED",
        )
    ),
    "docs/quickstart.png",
    "docs/speed_places.svg",
    "docs/speed_items.svg",
    "docs/speed_memory.svg",
    "docs/boxglue.1",
]
NO_LICENCE = """No licence has been chosen for boxglue. Ask the person who gave you these files before you use them or hand them on.
The Rattle kit's libraries, of which parts are in the program and in the libraries, have licences of their own: the bill of materials names the libraries.
"""
# The file of a link of a document.
LINK = re.compile(r"(!?)\[([^\]]*)\]\(([^)#\s]+)(#[^)]*)?\)")


def write(path: str, text: str, mode: int = 0o644) -> None:
    """Writes a text."""
    os.makedirs(os.path.dirname(path), exist_ok=True)
    with open(path, "w", encoding="utf-8") as it:
        it.write(text)
    os.chmod(path, mode)


def read(path: str) -> str:
    """The text of a file."""
    with open(path, encoding="utf-8") as it:
        return it.read()


def staged(
    root: str, build: Build, program: str, folder: str, libdir: str
) -> tuple[str, dict[str, str]]:
    """What `./install` puts in place below a prefix, in a folder; and of each file what it is:
    proved, unproved or a text."""
    words = [
        "env",
        f"DESTDIR={folder}",
        f"{root}/install",
        "--program",
        program,
        "--library",
        build.archive,
        "--prefix",
        "/usr",
        "--libdir",
        libdir,
    ]
    done(
        words,
        root,
        f"what ./install puts in place, with {libdir}",
        "put together",
        "the files are not put together",
    )
    top = f"{folder}/usr"
    rows = (line.split("\t") for line in read(f"{top}/{LIST}").splitlines())
    kinds = {path: kind for kind, path in rows if kind != "folder" and path != LIST}
    os.remove(f"{top}/{LIST}")
    return top, kinds


def with_own_archive(top: str, kinds: dict[str, str], edition: Edition) -> None:
    """Lets the crates for Rust have the archive inside and the version of the edition, so that a
    copy of them needs no other file."""
    crates = f"{top}/{CRATES}"
    os.makedirs(f"{crates}/boxglue-sys/lib")
    shutil.copy(f"{top}/lib/libboxglue.a", f"{crates}/boxglue-sys/lib")
    kinds[f"{CRATES}/boxglue-sys/lib/libboxglue.a"] = kinds["lib/libboxglue.a"]
    write(f"{crates}/boxglue-sys/libdir", "lib\n")
    for path in (
        f"{crates}/Cargo.toml",
        f"{crates}/boxglue/Cargo.toml",
        f"{crates}/boxglue-sys/Cargo.toml",
    ):
        text = read(path).replace(f'version = "{edition.number}"', f'version = "{edition.cargo}"')
        write(path, re.sub(r'(?m)^#.*\nexclude = \["libdir"\]\n', "", text))


def without_lost_links(text: str, path: str, names: list[str]) -> str:
    """A document whose links to files that are not in the folder are their texts alone."""

    def shown(found: re.Match[str]) -> str:
        target = os.path.normpath(os.path.join(os.path.dirname(path), found[3]))
        is_there = any(it == target or it.startswith(f"{target}/") for it in names)
        return found[0] if "://" in found[3] or is_there else found[2]

    return LINK.sub(shown, text)


def document_names(root: str) -> list[str]:
    """The documents and the examples of a clone."""
    examples = answer_of(["git", "ls-files", "examples"], root).splitlines()
    return [*DOCUMENTS, *(it for it in examples if os.path.basename(it) != ".gitignore")]


def put_documents(root: str, top: str) -> list[str]:
    """Copies the documents and the examples, and returns their names."""
    names = document_names(root)
    for name in names:
        os.makedirs(os.path.dirname(f"{top}/{name}"), exist_ok=True)
        if name.endswith(".md"):
            write(f"{top}/{name}", without_lost_links(read(f"{root}/{name}"), name, names))
        else:
            shutil.copyfile(f"{root}/{name}", f"{top}/{name}")
            os.chmod(f"{top}/{name}", 0o755 if os.access(f"{root}/{name}", os.X_OK) else 0o644)
    return names


def files_below(top: str) -> list[str]:
    """The files and links of a folder, in order."""
    return sorted(
        os.path.relpath(f"{folder}/{it}", top)
        for folder, names, files in os.walk(top)
        for it in (*names, *files)
        if os.path.islink(f"{folder}/{it}") or it in files
    )


def data_of(path: str) -> bytes:
    """The bytes of a file."""
    with open(path, "rb") as it:
        return it.read()


def sum_of(path: str) -> str:
    """The sum of a file."""
    return hashlib.sha256(data_of(path)).hexdigest()


def write_sums(top: str) -> None:
    """Writes SHA256SUMS of all other files of a folder, as sha256sum does."""
    write(
        f"{top}/SHA256SUMS",
        "".join(
            f"{sum_of(f'{top}/{it}')}  {it}\n" for it in files_below(top) if it != "SHA256SUMS"
        ),
    )


def finish(root: str, top: str, kinds: dict[str, str], report: tuple[str, str]) -> None:
    """Adds documents, the report on the proofs, the installing script, the list of files for it,
    and the sums."""
    name, text = report
    write(f"{top}/{name}", text)
    write(f"{top}/LICENCE.txt", NO_LICENCE)
    names = [*put_documents(root, top), "LICENCE.txt", name]
    places = {it: f"share/doc/boxglue/{it}" for it in names}
    rows = [
        *((kind, path, path) for path, kind in kinds.items()),
        *(("text", source, target) for source, target in places.items()),
    ]
    write(
        f"{top}/FILES",
        "".join("\t".join(row) + "\n" for row in sorted(rows, key=lambda row: row[2])),
    )
    shutil.copy(f"{root}/tools/releases/install.sh", f"{top}/install.sh")
    write_sums(top)
