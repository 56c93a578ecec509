"""What C, CMake and Rust find of `./install --library`, wherever it is: in another folder for
libraries, moved, below a system root, without `rt`; how the shared object is linked; and the header
in strict C89."""
import glob
import os
import re
import shutil
import struct
from functools import partial

from common.files import content, read, write
from common.library_build import CARGO, compiler
from common.outcome import Wrong, lacks, need
from common.part import in_turn
from parts.installing import without_rt
from parts.library_packages import BUILDS, FLAGS, cargo, compiled, installing, line_of, outcome
from parts.library_packages import page_wrong, run
from tools.version import dotted

TITLE = "./install --library in other places: moved, with --libdir, below a system root, without rt; CMake, pkg-config, cargo package, C89"
PROGRAM = "library"
NEEDS_PROGRAM = True
SPLIT = in_turn(4)
CMAKE = """cmake_minimum_required(VERSION 3.13)
project(page C)
find_package(boxglue %s REQUIRED)
add_executable(page page.c)
target_link_libraries(page boxglue::boxglue)
add_executable(page_static page.c)
target_link_libraries(page_static boxglue::boxglue_static)
"""
C89 = "#include <boxglue.h>\nint main(void) { return boxglue_version() != BOXGLUE_VERSION || boxglue_proved() > 1; }\n"
# The tags of an ELF file's dynamic section for flags, and the bits that bind all symbols when it is
# loaded.
DYNAMIC, BINDS_NOW = 2, {30: 8, 0x6FFFFFFB: 1}


def placed(root, archive, program, room, *words, **env):
    """A prefix of its own, with an empty environment."""
    run([*installing(root, archive, program, f"{room}/prefix"), *words], room, **env)
    return f"{room}/prefix"


def moved(prefix, room):
    """A copy of a prefix in another folder, with a blank in its name."""
    return shutil.copytree(prefix, f"{room}/another place", symlinks=True)


def page_by_pkg_config(root, folder, libdir, room):
    """What is wrong with the example in C by pkg-config, from a folder."""
    words = ["pkg-config", "--cflags", "--libs", f"boxglue = {dotted(root)}"]
    given = line_of(words, room, PKG_CONFIG_PATH=f"{folder}/{libdir}/pkgconfig")
    # A backslash stands before a blank in a name.
    flags = [it.replace("\\ ", " ") for it in re.split(r"(?<!\\) +", given)]
    run([compiler(), *FLAGS, "-o", "page", f"{root}/examples/library/page.c", *flags], room)
    return page_wrong(root, [f"{room}/page"], room, LD_LIBRARY_PATH=f"{folder}/{libdir}")


def moved_in_c(root, prefix, said, room):
    """What is wrong with pkg-config where the prefix was moved."""
    need("pkg-config")
    folder = moved(prefix, room)
    paths = {"PKG_CONFIG_PATH": f"{folder}/lib/pkgconfig"}
    found = line_of(["pkg-config", "--variable=prefix", "boxglue"], room, **paths)
    if os.path.realpath(found.replace("\\ ", " ")) != folder:
        return f"the prefix is {found}"
    return page_by_pkg_config(root, folder, "lib", room)


def configured(version, folder, room, **env):
    """Runs CMake over the example, with a version that it asks for."""
    shutil.rmtree(f"{room}/made", ignore_errors=True)
    write(f"{room}/CMakeLists.txt", CMAKE % version)
    run(["cmake", "-S", room, "-B", f"{room}/made", f"-DCMAKE_PREFIX_PATH={folder}"], room, **env)


def page_by_cmake(root, folder, room):
    """What is wrong with the example in C by CMake, with the shared object and with the archive,
    and with the versions that it asks for."""
    need("cmake", "make")
    shutil.copy(f"{root}/examples/library/page.c", room)
    for version in ("", "1.1", "1.2.0 EXACT"):
        configured(version, folder, room)
    run(["cmake", "--build", f"{room}/made"], room)
    pages = [page_wrong(root, [f"{room}/made/page{it}"], room) for it in ("", "_static")]
    wrong = pages[0] or pages[1]
    for version in ("1.99", "2", "0.9"):
        try:
            configured(version, folder, room)
            wrong = wrong or f"CMake takes version {dotted(root)} for {version}"
        except Wrong:
            pass
    return wrong


def by_cmake(root, prefix, said, room):
    """What is wrong with CMake where the prefix was moved."""
    return page_by_cmake(root, moved(prefix, room), room)


def rust_page(root, crates, room, **env):
    """What is wrong with the example in Rust over crates in a folder."""
    shutil.copytree(f"{root}/examples/library/page/src", f"{room}/client/src", dirs_exist_ok=True)
    write(f"{room}/client/Cargo.toml", CARGO % f"{crates}/boxglue")
    cargo("build", f"{room}/client", CARGO_TARGET_DIR=f"{room}/target", **env)
    return page_wrong(root, [f"{room}/target/debug/client"], room)


def moved_in_rust(root, prefix, said, room):
    """What is wrong with the crates where the prefix was moved: they find the archive beside
    them."""
    need("cargo")
    crates = f"{moved(prefix, room)}/share/boxglue/rust"
    return rust_page(root, crates, room, PKG_CONFIG_PATH="")


def system_root_in_rust(root, prefix, said, room):
    """What is wrong with crates elsewhere, and two system roots in turn, in which boxglue.pc names
    /usr, as a distribution has it."""
    need("cargo", "pkg-config")
    crates = shutil.copytree(f"{root}/bindings/rust", f"{room}/crates", ignore=BUILDS)
    for system in (f"{room}/first", f"{room}/second"):
        shutil.copytree(prefix, f"{system}/usr", symlinks=True)
        folder = f"{system}/usr/lib/pkgconfig"
        lines = read(f"{folder}/boxglue.pc").splitlines()[1:]
        write(f"{folder}/boxglue.pc", "\n".join(["prefix=/usr", *lines, ""]))
        env = {"PKG_CONFIG_SYSROOT_DIR": system, "PKG_CONFIG_LIBDIR": folder}
        wrong = rust_page(root, crates, room, **env)
        if wrong:
            return wrong
        outputs = glob.glob(f"{room}/target/debug/build/boxglue-sys-*/output")
        if not any(f"native={system}/" in read(it) for it in outputs):
            return f"the library below {os.path.basename(system)} is not the one that is linked"
    return None


def packaged(root, prefix, said, room):
    """What is wrong with `cargo package`: it packs and builds both crates, with the library of the
    prefix and, as docs.rs does, without any."""
    need("cargo")
    crates = shutil.copytree(f"{root}/bindings/rust", f"{room}/crates", ignore=BUILDS)
    target = {"CARGO_TARGET_DIR": f"{room}/target"}
    for env in ({"BOXGLUE_LIB_DIR": f"{prefix}/lib"}, {"DOCS_RS": "1", "PKG_CONFIG_PATH": ""}):
        cargo("package --workspace", crates, **target, **env)
    for crate in ("boxglue", "boxglue-sys"):
        names = {*cargo(f"package --list -p {crate}", crates, **target).decode().split()}
        text = read(f"{crates}/{crate}/Cargo.toml")
        is_told = all(f"\n{it} = " in text for it in ("readme", "keywords", "categories"))
        if "README.md" not in names or "libdir" in names or not is_told:
            return f"{crate} has the files {sorted(names)}"
    return None


def other_folder(root, archive, program, room):
    """What is wrong with a library in another folder, by pkg-config, CMake and Rust, and with its
    end."""
    libdir = "lib/x86_64-linux-gnu"
    prefix = placed(root, archive, program, room, "--libdir", libdir)
    if os.listdir(f"{prefix}/lib") != ["x86_64-linux-gnu"]:
        return f"lib has {os.listdir(f'{prefix}/lib')}"
    wrong = None if lacks("pkg-config") else page_by_pkg_config(root, prefix, libdir, room)
    if not wrong and not lacks("cmake") and not lacks("make"):
        wrong = page_by_cmake(root, prefix, room)
    if not wrong and not lacks("cargo"):
        wrong = rust_page(root, f"{prefix}/share/boxglue/rust", room, PKG_CONFIG_PATH="")
    run([f"{root}/install", "--uninstall", "--prefix", prefix], room)
    left = os.listdir(prefix) if os.path.exists(prefix) else []
    return wrong or (f"{left} is left" if left else None)


def without_kit(root, archive, program, room):
    """What is wrong without `rt`: an archive that needs no other file is put in place, and
    libboxglue_c.a, which needs the kit's heap, is refused."""
    run([f"{root}/bindings/build", "--static", archive, f"{room}/libboxglue.a"], room)
    path = without_rt(os.environ["PATH"], f"{room}/tools")
    try:
        placed(root, archive, program, room, PATH=path)
        return "libboxglue_c.a is put in place without the kit's heap"
    except Wrong as wrong:
        if "lacks the heap of its kit" not in str(wrong) or os.path.exists(f"{room}/prefix"):
            return f"libboxglue_c.a: {wrong}"
    prefix = placed(root, f"{room}/libboxglue.a", program, room, PATH=path)
    made = compiled(f"{root}/examples/library/page.c", prefix, room)
    return page_wrong(root, [made], room, LD_LIBRARY_PATH=f"{prefix}/lib")


def dynamic_of(data):
    """The tags and values of the dynamic section of a 64-bit ELF file."""
    (start,) = struct.unpack_from("<Q", data, 32)
    size, count = struct.unpack_from("<HH", data, 54)
    for at in range(start, start + size * count, size):
        kind, _flags, place, _address, _physical, length = struct.unpack_from("<IIQQQQ", data, at)
        if kind == DYNAMIC:
            tags = range(place, place + length, 16)
            return dict(struct.unpack_from("<QQ", data, it) for it in tags)
    return {}


def bound_now(root, prefix, said, room):
    """Whether the loader binds all symbols of the shared object before it runs."""
    found = dynamic_of(content(f"{prefix}/lib/libboxglue.so"))
    if any(found.get(tag, 0) & bit for tag, bit in BINDS_NOW.items()):
        return None
    return f"the flags are {[found.get(tag) for tag in BINDS_NOW]}"


def in_c89(root, prefix, said, room):
    """What is wrong with the header in strict C89: it is accepted with BOXGLUE_NO_INLINE alone, and
    says so."""
    write(f"{room}/calls.c", C89)
    flags = "-std=c89 -pedantic-errors -Wall -Wextra -Werror -DBOXGLUE_NO_INLINE".split()
    made = compiled("calls.c", prefix, room, flags=flags)
    run([made], room, LD_LIBRARY_PATH=f"{prefix}/lib")
    text = " ".join(read(f"{prefix}/include/boxglue.h").replace("\n *", " ").split())
    if "Strict C89 has no inline functions, and needs BOXGLUE_NO_INLINE." in text:
        return None
    return "the header does not say what strict C89 needs"


def with_own_prefix(call, archive, program, root, _prefix, _said, room):
    """A case that puts a library in place by itself."""
    return call(root, archive, program, room)


def cases(programs, root):
    """The places, and how the library is linked."""
    calls_of = {
        "moved, in C": moved_in_c,
        "moved, by CMake": by_cmake,
        "moved, in Rust": moved_in_rust,
        "a system root, in Rust": system_root_in_rust,
        "cargo package": packaged,
        "bound when it is loaded": bound_now,
        "strict C89": in_c89,
        "another folder": partial(with_own_prefix, other_folder, *programs[:2]),
        "without rt": partial(with_own_prefix, without_kit, *programs[:2]),
    }
    for name, call in calls_of.items():
        yield name, partial(outcome, call, root, *programs)
