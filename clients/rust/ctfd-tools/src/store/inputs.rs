//! The files to add to a store, from the command line, folders and packages, grouped by build.

use super::build_id::BuildId;
use crate::output;
use crate::packages::{self, Format};
use crate::types::failure::Outcome;
use crate::types::open::display_path;
use ctfd_read::debuggee::{Debuggee, Section};
use ctfd_read::error::{reason, refuse, Result};
use ctfd_read::image::Image;
use object::elf;
use rayon::prelude::*;
use std::collections::BTreeMap;
use std::ffi::OsStr;
use std::fs;
use std::io;
use std::path::{Path, PathBuf};

/// The path of debug files in a folder or package, and the folder in it whose files are named by
/// build-id.
const DEBUG: &str = "usr/lib/debug";
const BY_BUILD_ID: &str = ".build-id";
/// The depth to which folders are searched.
const DEEPEST: usize = 64;
/// Sections with types: debug information, and the other forms that are read.
const TYPES: [&str; 5] = [".debug_info", ".zdebug_info", ".SUNW_ctf", ".ctf", ".BTF"];

/// A file of a build.
#[derive(Clone, Debug, PartialEq, Eq, PartialOrd, Ord)]
pub struct BuildFile {
    /// Its path as the user knows it; for a file of a package, the package's path comes first.
    pub shown: PathBuf,
    /// Its real path.
    pub place: PathBuf,
    /// Its name in a store.
    pub name: String,
    pub id: BuildId,
    /// Whether it contains the code.
    pub has_code: bool,
    /// Whether it contains the types.
    pub has_types: bool,
}

/// The files of a build.
#[derive(Debug)]
pub struct Group {
    /// The file with the types, or with a link to a debug file that has them.
    pub types: BuildFile,
    /// The file with the code, if there is one.
    pub program: Option<BuildFile>,
}

impl Group {
    /// The group of some files. For the types, a debug file is preferred to a program that has them
    /// too.
    fn of(mut listed: Vec<BuildFile>) -> Option<Group> {
        listed.sort_unstable();
        let is_better = |one: &&BuildFile| (!one.has_types, one.has_code);
        let types = listed.iter().min_by_key(is_better)?.clone();
        let program = match types.has_code {
            true => Some(types.clone()),
            false => listed.into_iter().find(|one| one.has_code),
        };
        Some(Group { types, program })
    }

    /// The name of the build in a store: that of its program, if there is one.
    pub fn name(&self) -> &str {
        &self.program.as_ref().unwrap_or(&self.types).name
    }
}

/// A file that is not added, and why.
#[derive(Debug, PartialEq, Eq, PartialOrd, Ord)]
pub struct Refusal {
    pub path: PathBuf,
    pub why: String,
}

impl Refusal {
    /// The refusal of the file at `place`, which the user knows as `path`. If the reason begins
    /// with the place, this is left out.
    fn new(place: &Path, path: PathBuf, why: impl ToString) -> Refusal {
        let why = why.to_string();
        let front = format!("{}: ", place.display());
        let why = why.strip_prefix(&front).map(str::to_owned).unwrap_or(why);
        Refusal { why: why.replace(&display_path(place), &display_path(&path)), path }
    }

    /// The refusal of a file that was found.
    pub fn of(found: &BuildFile, why: impl ToString) -> Refusal {
        Refusal::new(&found.place, found.shown.clone(), why)
    }
}

/// All files that were found.
#[derive(Default)]
pub struct Inputs {
    /// The files of each build.
    pub groups: BTreeMap<BuildId, Group>,
    pub refusals: Vec<Refusal>,
    /// The folders of debug files among them.
    pub folders: Vec<PathBuf>,
    /// The folders of unpacked packages, which exist as long as this does, and the packages.
    unpacked: Vec<(output::Folder, PathBuf)>,
}

impl Inputs {
    /// Searches some paths.
    pub fn of(paths: &[PathBuf]) -> Inputs {
        let mut made = Inputs::default();
        let mut builds: BTreeMap<BuildId, Vec<BuildFile>> = BTreeMap::new();
        let scanned: Vec<Scan> = paths.par_iter().map(|path| Scan::of(path)).collect();
        for scan in scanned {
            for found in scan.found {
                builds.entry(found.id.clone()).or_default().push(found);
            }
            made.refusals.extend(scan.refusals);
            made.folders.extend(scan.debug);
            made.unpacked.extend(scan.unpacked.map(|folder| (folder, scan.front)));
        }
        let groups = builds.into_iter().filter_map(|(id, listed)| Some((id, Group::of(listed)?)));
        made.groups = groups.collect();
        made
    }

    /// A message with the path of a package in place of the folder into which it was unpacked.
    pub fn with_package_name(&self, told: &str) -> String {
        let named = |told: String, (folder, package): &(output::Folder, PathBuf)| {
            told.replace(&display_path(folder.path()), &display_path(package))
        };
        self.unpacked.iter().fold(told.to_owned(), named)
    }
}

/// What was found at one path.
struct Scan {
    /// The path that messages show in place of `root`.
    front: PathBuf,
    root: PathBuf,
    found: Vec<BuildFile>,
    refusals: Vec<Refusal>,
    debug: Option<PathBuf>,
    unpacked: Option<output::Folder>,
}

impl Scan {
    fn of(path: &Path) -> Scan {
        let mut made = Scan {
            front: path.to_owned(),
            root: path.to_owned(),
            found: Vec::new(),
            refusals: Vec::new(),
            debug: None,
            unpacked: None,
        };
        if path.is_dir() {
            made.folder(path, DEEPEST);
            made.debug = Some(path.join(DEBUG));
        } else if let Some(format) = Format::of(path) {
            if let Err(failure) = made.package(path, format) {
                made.refusals.push(Refusal::new(path, path.to_owned(), failure));
            }
        } else {
            match debug_file_at(path, path) {
                Ok(Some(one)) => made.found.push(one),
                Ok(None) => made.refuse(path, "it has only what other debug files share"),
                Err(error) => made.refuse(path, error),
            }
        }
        made
    }

    fn refuse(&mut self, place: &Path, why: impl ToString) {
        self.refusals.push(Refusal::new(place, self.shown_path(place), why));
    }

    /// The path of a place as the user knows it.
    fn shown_path(&self, place: &Path) -> PathBuf {
        match place.strip_prefix(&self.root) {
            Ok(rest) if rest.as_os_str().is_empty() => self.front.clone(),
            Ok(rest) => self.front.join(rest),
            Err(_) => place.to_owned(),
        }
    }

    /// Adds the programs of a package.
    fn package(&mut self, path: &Path, format: Format) -> Outcome<()> {
        let unpacked = output::Folder::new()?;
        self.root = unpacked.path().to_owned();
        let root = self.root.clone();
        self.debug = Some(root.join(DEBUG));
        self.unpacked = Some(unpacked);
        packages::unpack(path, format, &root, |first| first == elf::ELFMAG)?;
        self.folder(&root, DEEPEST);
        let name = path.file_stem().map_or_else(String::new, text);
        for one in self.found.iter_mut().filter(|one| is_by_build_id(&one.place)) {
            one.name.clone_from(&name);
        }
        Ok(())
    }

    /// Adds the programs below a folder. Links are skipped, since they lead to files that are found
    /// anyway.
    fn folder(&mut self, folder: &Path, depth: usize) {
        let read = fs::read_dir(folder).and_then(|entries| entries.collect::<io::Result<Vec<_>>>());
        let mut entries: Vec<fs::DirEntry> = match read {
            Ok(entries) => entries,
            Err(error) => return self.refuse(folder, reason(&error)),
        };
        entries.sort_by_key(fs::DirEntry::file_name);
        for entry in entries {
            let path = entry.path();
            match entry.file_type() {
                Ok(kind) if kind.is_dir() && depth > 0 => self.folder(&path, depth - 1),
                Ok(kind) if kind.is_file() => self.file(&path),
                _ => {}
            }
        }
    }

    /// Adds a file, if it is a program.
    fn file(&mut self, path: &Path) {
        let is_program = Image::open_linked(path).is_none_or(|image| image.is_elf());
        if !is_program {
            return;
        }
        match debug_file_at(path, &self.shown_path(path)) {
            Ok(one) => self.found.extend(one),
            Err(error) => self.refuse(path, error),
        }
    }
}

fn text(name: &OsStr) -> String {
    name.to_string_lossy().into_owned()
}

/// Whether a file is named by its build-id, as debug files in some packages are.
fn is_by_build_id(path: &Path) -> bool {
    let folder = path.parent().and_then(Path::parent).and_then(Path::file_name);
    folder.is_some_and(|name| name == BY_BUILD_ID)
}

/// Examines a file; None if it has only what debug files share with each other.
fn debug_file_at(place: &Path, shown: &Path) -> Result<Option<BuildFile>> {
    let image = Image::open(place)?;
    if !image.is_elf() {
        return refuse("it is no program: an ELF file, a folder or a package is added");
    }
    let file = Debuggee::of(&image)?;
    if !matches!(file.head.kind, elf::ET_EXEC | elf::ET_DYN | elf::ET_REL) {
        return refuse("it is no program, library or module");
    }
    let has_bytes = |one: &&Section<'_>| one.kind != elf::SHT_NOBITS && one.size > 0;
    let is_loaded = |one: &&Section<'_>| one.is_loaded() && one.kind != elf::SHT_NOTE;
    if !file.sections.iter().any(|one| is_loaded(&one)) {
        return Ok(None);
    }
    let is_code = |one: &Section<'_>| one.flags & u64::from(elf::SHF_EXECINSTR) != 0;
    let is_of_types = |one: &Section<'_>| TYPES.iter().any(|name| one.name == name.as_bytes());
    let mut with_bytes =
        file.sections.iter().filter(has_bytes).map(|one| (is_code(one), is_of_types(one)));
    let flags = with_bytes.clone();
    Ok(Some(BuildFile {
        shown: shown.to_owned(),
        place: place.to_owned(),
        name: text(shown.file_name().unwrap_or_default()),
        id: BuildId::of_bytes(file.build_id())?,
        has_code: with_bytes.any(|(is_code, _)| is_code),
        has_types: { flags }.any(|(_, is_of_types)| is_of_types),
    }))
}
