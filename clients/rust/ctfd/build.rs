//! Finds libctfd.a: the file that CTFD_ARCHIVE names, else the one that pkg-config finds, else the
//! one built in this clone. With the feature `shared`, libctfd.so, which CTFD_LIBRARY may name.

use std::env;
use std::fs;
use std::path::{Path, PathBuf};
use std::process::Command;

/// The library that `make install` installed, found by pkg-config.
fn installed_library(name: &str) -> Option<PathBuf> {
    let asked = Command::new(env::var("PKG_CONFIG").unwrap_or_else(|_| "pkg-config".into()))
        .args(["--libs-only-L", "--keep-system-libs", "ctfd"])
        .output()
        .ok()?;
    let said = String::from_utf8(asked.stdout).ok()?;
    said.split_whitespace()
        .filter_map(|word| word.strip_prefix("-L"))
        .map(|folder| Path::new(folder).join(name))
        .find(|library| asked.status.success() && library.exists())
}

/// The library built in the clone that contains this crate.
fn library_of_clone(name: &str) -> Option<PathBuf> {
    let top = Path::new(&env::var_os("CARGO_MANIFEST_DIR")?).join("../../..");
    Some(top.join("crates/ctf_c/out").join(name)).filter(|library| library.exists())
}

/// The path of a library: the value of the environment variable `word`, else an installed library,
/// else that of the clone.
fn library_path(name: &str, word: &str) -> PathBuf {
    let named = env::var_os(word).map(PathBuf::from);
    let library = named.or_else(|| installed_library(name)).or_else(|| library_of_clone(name));
    let library =
        library.unwrap_or_else(|| panic!("no {name}: `make install` it, or name it by {word}"));
    println!("cargo:rerun-if-changed={}", library.display());
    library
}

/// Links an archive that does not exist yet: the caller builds it before it links a program. Cargo
/// does not see when the archive changes, so the caller must also have the program linked again.
fn name_archive() {
    let archive = env::var_os("CTFD_ARCHIVE").map(PathBuf::from).unwrap_or_default();
    let folder = archive.parent().expect("CTFD_ARCHIVE names a file");
    println!("cargo:rustc-link-search=native={}", folder.display());
    println!("cargo:rustc-link-lib=static:-bundle=ctfd");
}

/// Copies the archive into a folder of its own: next to it is the shared library, which the linker
/// would prefer.
fn link_archive() {
    let archive = library_path("libctfd.a", "CTFD_ARCHIVE");
    let out = env::var("OUT_DIR").expect("cargo says where");
    fs::copy(&archive, Path::new(&out).join("libctfd.a"))
        .unwrap_or_else(|why| panic!("{}: {why}", archive.display()));
    println!("cargo:rustc-link-search=native={out}");
    println!("cargo:rustc-link-lib=static=ctfd");
}

/// Links the shared library. Crates that use this one get its folder as DEP_CTFD_FOLDER, for a run
/// path.
fn link_shared() {
    let library = library_path("libctfd.so", "CTFD_LIBRARY");
    let folder = library.parent().expect("a file stands in a folder");
    println!("cargo:folder={}", folder.display());
    println!("cargo:rustc-link-search=native={}", folder.display());
    println!("cargo:rustc-link-lib=dylib=ctfd");
}

fn main() {
    for word in ["ARCHIVE", "LIBRARY"] {
        println!("cargo:rerun-if-env-changed=CTFD_{word}");
    }
    println!("cargo:rerun-if-env-changed=PKG_CONFIG_PATH");
    println!("cargo:rerun-if-env-changed=PKG_CONFIG_SYSROOT_DIR");
    // A documentation build links nothing.
    if env::var_os("DOCS_RS").is_some() {
        return;
    }
    if env::var_os("CARGO_FEATURE_SHARED").is_some() {
        link_shared();
    } else if env::var_os("CTFD_LINKED_LATER").is_some() {
        name_archive();
    } else {
        link_archive();
    }
}
