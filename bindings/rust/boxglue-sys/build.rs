//! Finds libboxglue: in the folder that BOXGLUE_LIB_DIR names; else in the one that `./install --library` wrote into the file `libdir` beside this script;
//! else by pkg-config. It links the archive libboxglue.a, so that a program needs no library where it runs; with BOXGLUE_SHARED=1, or without an archive, the shared object.
//! A library that lacks a call of this crate is refused. Where docs.rs makes the documentation nothing is linked.
use std::collections::HashSet;
use std::path::{Path, PathBuf};
use std::process::Command;
use std::{env, fs};

const NAMES: [&str; 8] = [
    "BOXGLUE_LIB_DIR",
    "BOXGLUE_SHARED",
    "DOCS_RS",
    "PKG_CONFIG",
    "PKG_CONFIG_ALLOW_SYSTEM_LIBS",
    "PKG_CONFIG_LIBDIR",
    "PKG_CONFIG_PATH",
    "PKG_CONFIG_SYSROOT_DIR",
];

/// What pkg-config prints for these words, if it succeeds.
fn pkg_config(words: &[&str]) -> Option<String> {
    let program = env::var_os("PKG_CONFIG").unwrap_or_else(|| "pkg-config".into());
    let done = Command::new(program).env("PKG_CONFIG_ALLOW_SYSTEM_LIBS", "1").args(words).output().ok()?;
    let text = String::from_utf8(done.stdout).ok()?;
    done.status.success().then(|| text.trim().to_string())
}

/// A call of this crate that a library lacks. An older library lacks some, and has structs of other sizes, which no linker finds. In an archive and in a
/// shared object each name is a text between two bytes of 0. A library that is not there lacks nothing here: `cargo doc` and `cargo check` need none.
fn missing_call(library: &Path) -> Option<&'static str> {
    let bytes = fs::read(library).ok()?;
    let names: HashSet<&[u8]> = bytes.split(|it| *it == 0).collect();
    let mut calls = include_str!("src/lib.rs").lines().filter_map(|it| it.strip_prefix("    pub fn ")?.split('(').next());
    calls.find(|it| !names.contains(it.as_bytes()))
}

/// The folder of an installed library of a version that fits. It is that of the flag -L, before which pkg-config puts PKG_CONFIG_SYSROOT_DIR, as it does not
/// before the variable libdir. A blank in it comes behind a backslash.
fn asked() -> Option<PathBuf> {
    pkg_config(&["--exists", concat!("boxglue >= ", env!("CARGO_PKG_VERSION")), "boxglue < 2"])?;
    let flag = pkg_config(&["--libs-only-L", "boxglue"])?;
    Some(PathBuf::from(flag.strip_prefix("-L")?.replace('\\', "")))
}

/// The folder beside an installed crate, from this crate on.
fn beside(here: &Path) -> Option<PathBuf> {
    let folder = here.join(fs::read_to_string(here.join("libdir")).ok()?.trim_end());
    folder.canonicalize().ok()
}

fn main() {
    for name in NAMES {
        println!("cargo:rerun-if-env-changed={name}");
    }
    println!("cargo:rerun-if-changed=build.rs");
    if env::var_os("DOCS_RS").is_some() {
        return;
    }
    let here = PathBuf::from(env::var_os("CARGO_MANIFEST_DIR").unwrap_or_default());
    let named = env::var_os("BOXGLUE_LIB_DIR").map(PathBuf::from);
    let Some(folder) = named.or_else(|| beside(&here)).or_else(asked) else {
        panic!("there is no libboxglue {}: run `./install --library` of boxglue, or name the library's folder in BOXGLUE_LIB_DIR", env!("CARGO_PKG_VERSION"));
    };
    let archive = folder.join("libboxglue.a");
    let is_static = archive.exists() && env::var("BOXGLUE_SHARED").as_deref() != Ok("1");
    let library = if is_static { archive } else { folder.join("libboxglue.so") };
    println!("cargo:rerun-if-changed={}", library.display());
    if let Some(call) = missing_call(&library) {
        panic!("{} lacks {call}: it is older than this crate, which needs version {}", library.display(), env!("CARGO_PKG_VERSION"));
    }
    println!("cargo:rustc-link-search=native={}", folder.display());
    println!("cargo:rustc-link-lib={}=boxglue", if is_static { "static" } else { "dylib" });
}
