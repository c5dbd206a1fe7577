//! Links libzstd.a if the C compiler finds it; it is in Debian's package libzstd-dev.

use std::env;
use std::path::PathBuf;
use std::process::Command;

const ARCHIVE: &str = "libzstd.a";

/// The path of the archive; `None` if there is none, and then sections compressed with zstd are not
/// read.
fn archive() -> Option<PathBuf> {
    let compiler = env::var("CC").unwrap_or_else(|_| "cc".into());
    let asked = Command::new(compiler).arg(format!("-print-file-name={ARCHIVE}")).output().ok()?;
    let path = PathBuf::from(String::from_utf8(asked.stdout).ok()?.trim());
    (path.is_absolute() && path.exists()).then_some(path)
}

fn main() {
    println!("cargo:rerun-if-env-changed=CC");
    println!("cargo:rerun-if-changed=build.rs");
    let Some(folder) = archive().and_then(|path| Some(path.parent()?.to_owned())) else { return };
    println!("cargo:rustc-cfg=has_zstd");
    println!("cargo:rustc-link-search=native={}", folder.display());
    println!("cargo:rustc-link-lib=static:-bundle=zstd");
}
