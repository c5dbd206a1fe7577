//! Links the programs again if libctfd.a has changed.

use std::env;
use std::path::PathBuf;

fn main() {
    println!("cargo:rerun-if-env-changed=CTFD_ARCHIVE");
    if let Some(archive) = env::var_os("CTFD_ARCHIVE").map(PathBuf::from) {
        println!("cargo:rerun-if-changed={}", archive.display());
    }
}
