"""The bill of materials of a release, in SPDX 2.3 as JSON: boxglue, its crates, the kit's libraries
that are in it, the kit, and the C library that it loads."""
import hashlib
import json
import os
import re
import time
import uuid

from tools.crates import crates_below, libraries
from tools.releases.builds import NAMES
from tools.releases.edition import Edition, answer_of
from tools.releases.tree import files_below, read, sum_of
from tools.unproved import kit, kit_uses

# What the page of a library of the kit says of the Rust crate that it is like.
LIKE = re.compile(r"Rust crates? `([\w-]+)` (\d[\d.]*\d)")
# The kit's part that gives a program its heap and its arguments.
OF_C = ("c/liblibc_c.a", "c/libos_c.a")


def package(name: str, version: str, comment: str, purpose: str = "LIBRARY") -> dict[str, object]:
    """A package of the bill. No licence is known here: boxglue has none, and each library of the
    kit has its own."""
    return {
        "SPDXID": f"SPDXRef-{re.sub(r'[^A-Za-z0-9.]', '-', name)}",
        "name": name,
        "versionInfo": version,
        "downloadLocation": "NOASSERTION",
        "filesAnalyzed": False,
        "licenseConcluded": "NOASSERTION",
        "licenseDeclared": "NOASSERTION",
        "copyrightText": "NOASSERTION",
        "primaryPackagePurpose": purpose,
        "comment": comment,
    }


def library_of_kit(name: str, kit_name: str) -> dict[str, object]:
    """A library of the kit: its version is the kit's, behind that of the Rust crate that it is
    like."""
    path = f"{kit()}/rattle/{name}/README.md"
    like = LIKE.search(read(path)) if os.path.exists(path) else None
    comment = f"Rattle's library {name}" + (
        f", after the Rust crate {like[1]} {like[2]}" if like else ""
    )
    version = f"{like[2]}+{kit_name}" if like else kit_name
    return package(
        f"rattle-{name}",
        version,
        f"{comment}. SHA-256 of its record rlibs/{name}.rlib/format: {sum_of(f'{kit()}/rlibs/{name}.rlib/format')}",
    )


def packages_of(root: str, edition: Edition, glibc: str) -> list[dict[str, object]]:
    """The packages: boxglue first."""
    kit_name, _, logic = answer_of(["rt", "version"], root).partition(" ")
    found = libraries(root)
    ours = crates_below(found, NAMES)
    of_kit = sorted(
        kit_uses([*(it for name in ours for it in found[name] if it not in found), "std"])
    )
    sums = ", ".join(f"{it} {sum_of(f'{kit()}/{it}')}" for it in OF_C)
    proofs = "every function is proved" if edition.is_proved else "UNPROVED, with run-time checks"
    return [
        package(
            "boxglue",
            edition.python,
            f"Commit {edition.commit}; {proofs}. Crates: {' '.join(ours)}",
            "APPLICATION",
        ),
        package(
            kit_name,
            kit_name,
            f"Compiler and prover: {logic}. {' '.join(read(f'{kit()}/WHAT').split())}. SHA-256 of its parts in the program and the library: {sums}",
            "OTHER",
        ),
        package(
            "glibc",
            f">= {glibc}",
            "The C library of the system, which is loaded and not part of the files.",
            "OPERATING-SYSTEM",
        ),
        *(library_of_kit(it, kit_name) for it in of_kit),
    ]


# The names of what a relationship has.
RELATION = ("spdxElementId", "relationshipType", "relatedSpdxElement")


def bill(root: str, folder: str, edition: Edition, glibc: str) -> str:
    """The bill of the files in a folder. Its name depends on these alone."""
    packages = packages_of(root, edition, glibc)
    files = [
        {
            "SPDXID": f"SPDXRef-File-{number}",
            "fileName": f"./{name}",
            "checksums": [{"algorithm": "SHA256", "checksumValue": sum_of(f"{folder}/{name}")}],
            "licenseConcluded": "NOASSERTION",
            "copyrightText": "NOASSERTION",
        }
        for number, name in enumerate(files_below(folder), 1)
    ]
    ids = [str(it["SPDXID"]) for it in packages]
    related = [
        ("SPDXRef-DOCUMENT", "DESCRIBES", ids[0]),
        (ids[1], "BUILD_TOOL_OF", ids[0]),
        (ids[0], "DYNAMIC_LINK", ids[2]),
        *((ids[0], "STATIC_LINK", it) for it in ids[3:]),
        *((str(it["SPDXID"]), "GENERATED_FROM", ids[0]) for it in files),
    ]
    digest = hashlib.sha256(json.dumps([packages, files]).encode()).digest()
    name = uuid.UUID(bytes=digest[:16], version=5)
    created = time.strftime("%Y-%m-%dT%H:%M:%SZ", time.gmtime(edition.seconds))
    text = {
        "spdxVersion": "SPDX-2.3",
        "dataLicense": "CC0-1.0",
        "SPDXID": "SPDXRef-DOCUMENT",
        "name": edition.top,
        "documentNamespace": f"urn:uuid:{name}",
        "creationInfo": {"created": created, "creators": ["Tool: boxglue-tools-release"]},
        "packages": packages,
        "files": files,
        "relationships": [dict(zip(RELATION, it)) for it in related],
    }
    return json.dumps(text, indent=1) + "\n"
