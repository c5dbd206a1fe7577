//! The libraries of two packages or folders, and which of them belong together.

use super::options::{Words, NAME};
use crate::output::Folder;
use crate::packages::{self, Format};
use crate::types::failure::{Failure, Outcome};
use crate::types::json::Object;
use crate::types::open::display_path;
use crate::types::text::printable;
use crate::types::warn_by;
use ctfd_read::error::{reason, Error};
use ctfd_read::exports::soname;
use ctfd_read::image::Image;
use std::collections::BTreeMap;
use std::fs;
use std::path::{Path, PathBuf};

/// The folder of debug files in a folder or package.
const DEBUG: &str = "usr/lib/debug";
const DEEPEST: usize = 64;

/// Whether a path is that of a package or a folder.
pub fn has_libraries(path: &Path) -> bool {
    path.is_dir() || is_package(path)
}

fn is_package(path: &Path) -> bool {
    Format::of(path) == Some(Format::Debian)
}

/// A library, and the name by which programs that were linked with it ask for it.
#[derive(Clone, Debug, PartialEq, Eq)]
pub struct Library {
    pub path: PathBuf,
    /// Its soname, or its file name if it has none.
    pub name: String,
}

impl Library {
    /// Its name as messages have it.
    pub fn printable_name(&self) -> String {
        printable(self.name.as_bytes()).into_owned()
    }

    /// Its name up to `.so`, without a version before that.
    fn stem(&self) -> &str {
        let end = self.name.find(".so").unwrap_or(self.name.len());
        self.name[..end].trim_end_matches(|letter: char| letter.is_ascii_digit() || letter == '.')
    }
}

/// An unpacked package. Messages name the package instead of the temporary folder.
pub struct UnpackedPackage {
    folder: Folder,
    package: String,
}

impl UnpackedPackage {
    /// A line with the package's name in place of the folder's.
    pub fn with_package_name(&self, line: &str) -> String {
        line.replace(&display_path(self.folder.path()), &self.package)
    }
}

/// The libraries of a package or folder, and the folders of their debug files.
pub struct Side {
    /// The folders of debug files, which are searched before those of the command line.
    pub folders: Vec<PathBuf>,
    /// The unpacked package, if there is one.
    pub unpacked: Option<UnpackedPackage>,
    libraries: Vec<Library>,
}

impl Side {
    /// The libraries at a path; `debug` names packages with their debug information.
    pub fn open(path: &Path, debug: &[PathBuf]) -> Outcome<Side> {
        let mut folder = path.to_owned();
        let mut unpacked = None;
        let own = is_package(path).then_some(path);
        if own.is_some() || !debug.is_empty() {
            let made = UnpackedPackage { folder: Folder::new()?, package: display_path(path) };
            let packages = own.into_iter().chain(debug.iter().map(PathBuf::as_path));
            packages.into_iter().try_for_each(|one| unpack(one, made.folder.path()))?;
            if own.is_some() {
                folder = made.folder.path().to_owned();
            }
            unpacked = Some(made);
        }
        let mut libraries = Vec::new();
        find(&folder, &folder.join(DEBUG), DEEPEST, &mut libraries)?;
        libraries.sort_by(|one: &Library, other| {
            (&one.name, &one.path).cmp(&(&other.name, &other.path))
        });
        let unpacked_debug = unpacked.as_ref().map(|made| made.folder.path().join(DEBUG));
        let folders = [Some(folder.join(DEBUG)), unpacked_debug].into_iter().flatten();
        let folders = folders.filter(|folder| folder.is_dir()).collect();
        Ok(Side { folders, unpacked, libraries })
    }
}

/// The line before the differences of a library.
pub fn title(words: &Words, library: &Library) -> String {
    match words.is_json {
        true => Object::default().text("library", library.name.as_bytes()).end() + "\n",
        false => format!("{}:\n", library.printable_name()),
    }
}

/// An old library and the new one that belongs to it; either may be missing.
pub type Pair<'p> = (Option<&'p Library>, Option<&'p Library>);

/// The libraries of two sides that belong together: those with the same name, then those whose
/// names differ only in their versions.
pub fn pairs<'p>(old: &'p Side, new: &'p Side) -> Vec<Pair<'p>> {
    let mut left: BTreeMap<&str, Vec<&Library>> = BTreeMap::new();
    for one in &new.libraries {
        left.entry(one.stem()).or_default().push(one);
    }
    let mut made: Vec<Pair<'p>> = old.libraries.iter().map(|one| (Some(one), None)).collect();
    let passes: [fn(&Library, &Library) -> bool; 2] =
        [|one, other| one.name == other.name, |_, _| true];
    for is_same in passes {
        for (one, found) in &mut made {
            let Some(one) = one.filter(|_| found.is_none()) else { continue };
            let Some(listed) = left.get_mut(one.stem()) else { continue };
            let place = listed.iter().position(|other| is_same(one, other));
            *found = place.map(|place| listed.remove(place));
        }
    }
    made.extend(left.into_values().flatten().map(|one| (None, Some(one))));
    made
}

/// The two sides of a command line.
pub fn sides(words: &Words) -> Outcome<[Side; 2]> {
    let [old, new] = &words.debug_packages;
    let sides = [Side::open(&words.old, old)?, Side::open(&words.new, new)?];
    for (path, side) in [&words.old, &words.new].into_iter().zip(&sides) {
        if side.libraries.is_empty() {
            return Err(Failure::Refused(format!(
                "{}: there is no shared library in it",
                display_path(path)
            )));
        }
    }
    Ok(sides)
}

/// Adds the libraries below a folder, except below `passed`. Links are skipped: they lead to files
/// that are found anyway, or elsewhere.
fn find(folder: &Path, passed: &Path, depth: usize, found: &mut Vec<Library>) -> Outcome<()> {
    let refused = |error| Error(format!("{}: {}", display_path(folder), reason(&error)));
    let mut entries: Vec<_> = fs::read_dir(folder)
        .and_then(|entries| entries.collect::<std::io::Result<Vec<_>>>())
        .map_err(refused)?;
    entries.sort_by_key(fs::DirEntry::file_name);
    for entry in entries {
        let (path, kind) = (entry.path(), entry.file_type().map_err(refused)?);
        if kind.is_dir() && depth > 0 && path != passed {
            find(&path, passed, depth - 1, found)?;
        } else if kind.is_file() {
            found.extend(library(path));
        }
    }
    Ok(())
}

/// A file as a library, if it is one: an ELF file that programs can be linked with.
fn library(path: PathBuf) -> Option<Library> {
    let file_name = path.file_name()?.to_string_lossy().into_owned();
    if !file_name.contains(".so") {
        return None;
    }
    let image = Image::open(&path).ok().filter(Image::is_elf)?;
    let own = soname(&image).ok()??;
    let name = if own.is_empty() { file_name } else { String::from_utf8_lossy(&own).into_owned() };
    Some(Library { path, name })
}

/// Unpacks the regular files of a package.
fn unpack(package: &Path, into: &Path) -> Outcome<()> {
    if !is_package(package) {
        let path = display_path(package);
        return Err(Failure::Refused(format!("{path}: it is no package of Debian (.deb)")));
    }
    if packages::unpack(package, Format::Debian, into, |_| true)? == 0 {
        warn_by(NAME, &format!("{}: it has no files", display_path(package)));
    }
    Ok(())
}

#[cfg(test)]
mod tests {
    use super::{pairs, Library, Side};
    use std::path::PathBuf;

    fn side(names: &[&str]) -> Side {
        let library =
            |name: &&str| Library { path: PathBuf::from(*name), name: (*name).to_owned() };
        Side { folders: Vec::new(), unpacked: None, libraries: names.iter().map(library).collect() }
    }

    #[test]
    fn libraries_are_paired_by_their_names() {
        let old = side(&["liba.so.1", "libb.so.1", "libgone.so.1", "libtwo-1.2.so"]);
        let new = side(&["liba.so.1", "liba.so.2", "libb.so.2", "libnew.so.1", "libtwo-1.3.so"]);
        let shown = |one: Option<&Library>| one.map_or(String::new(), |one| one.name.clone());
        let told: Vec<String> = pairs(&old, &new)
            .into_iter()
            .map(|(one, other)| format!("{} {}", shown(one), shown(other)))
            .collect();
        let wanted = [
            "liba.so.1 liba.so.1",
            "libb.so.1 libb.so.2",
            "libgone.so.1 ",
            "libtwo-1.2.so libtwo-1.3.so",
            " liba.so.2",
            " libnew.so.1",
        ];
        assert_eq!(told, wanted);
    }
}
