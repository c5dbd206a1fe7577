//! The files that are mapped in an address space: their addresses and their symbols.

use super::space::Space;
use ctfd_read::core_file::MappedFile;
use ctfd_read::error::{refuse, Error, Result};
use ctfd_read::image::Image;
use ctfd_read::segments::{build_id, segments, Purpose, Segment};
use ctfd_read::symbol_places::{symbol_places, symbols_before_strip, SymbolPlace};
use object::read::ReadRef as _;
use object::Object as _;
use std::cell::OnceCell;
use std::path::Path;

const PAGE: u64 = 4096;
/// Longer notes are not searched for the build-id.
const LONGEST_NOTES: u64 = 4096;
/// What link-time optimisation appends to the names of local symbols.
const RENAMED: &[u8] = b".lto_priv.";

/// A symbol's place in memory. Of several at one address the one with the highest rank is used:
/// symbols with a size rank before others, and then global ones.
#[derive(Clone, Copy, Debug, PartialEq, Eq, PartialOrd, Ord)]
struct Place<'m> {
    address: u64,
    rank: u8,
    name: &'m [u8],
    size: u64,
    is_function: bool,
}

impl<'m> Place<'m> {
    fn of(one: &SymbolPlace<'m>, slide: u64) -> Place<'m> {
        Place {
            address: one.address.wrapping_add(slide),
            rank: 2 * u8::from(one.size != 0) + u8::from(one.is_global),
            name: one.written_name(),
            size: one.size,
            is_function: one.is_function,
        }
    }
}

/// A symbol in a list; its name is a range of the list's names.
struct Entry {
    address: u64,
    is_global: bool,
    is_function: bool,
    name: (usize, usize),
    size: u64,
}

/// The symbols of a file in the order of their addresses.
#[derive(Default)]
struct Symbols {
    names: Vec<u8>,
    entries: Vec<Entry>,
}

impl Symbols {
    fn of(image: &Image, slide: u64) -> Result<Symbols> {
        let before = symbols_before_strip(image);
        let listed = symbol_places(before.as_ref().unwrap_or(image))?;
        let mut places: Vec<Place<'_>> = listed.iter().map(|one| Place::of(one, slide)).collect();
        places.sort_unstable();
        let mut made = Symbols::default();
        for one in places {
            let start = made.names.len();
            made.names.extend(one.name);
            let name = (start, made.names.len());
            made.entries.push(Entry {
                address: one.address,
                is_global: one.rank % 2 == 1,
                is_function: one.is_function,
                name,
                size: one.size,
            });
        }
        Ok(made)
    }

    fn name(&self, entry: &Entry) -> &[u8] {
        &self.names[entry.name.0..entry.name.1]
    }

    fn entry(&self, name: &[u8]) -> Option<&Entry> {
        let is_written = |one: &&Entry| self.name(one) == name;
        let is_renamed = |one: &&Entry| written_name(self.name(one)) == name;
        let mut written = self.entries.iter().filter(is_written);
        let first = written.next();
        let global = first.into_iter().chain(written).find(|one| one.is_global);
        global.or(first).or_else(|| self.entries.iter().find(is_renamed))
    }

    /// The last symbol that begins at or before an address.
    fn before(&self, address: u64) -> Option<&Entry> {
        let count = self.entries.partition_point(|one| one.address <= address);
        count.checked_sub(1).map(|number| &self.entries[number])
    }
}

/// A symbol's name in C, if link-time optimisation renamed it.
pub fn written_name(name: &[u8]) -> &[u8] {
    let digits = name.iter().rev().take_while(|byte| byte.is_ascii_digit()).count();
    let renamed = name[..name.len() - digits].strip_suffix(RENAMED);
    renamed.filter(|_| digits != 0).unwrap_or(name)
}

/// A mapped file.
pub struct Module {
    pub image: Image,
    /// Whether it is the program itself.
    pub is_program: bool,
    /// The distance of its addresses in memory from those in the file.
    pub slide: u64,
    segments: Vec<Segment>,
    symbols: OnceCell<Symbols>,
}

/// A symbol's place in memory.
#[derive(Clone, Copy, Debug)]
pub struct Definition {
    pub address: u64,
    /// Its size in bytes.
    pub size: u64,
    /// Whether it is visible in other files.
    pub is_global: bool,
}

/// Why a mapped file is no module.
pub enum NoModule {
    /// The file is not the one that is in memory.
    OtherBuild(Error),
    /// The file cannot be opened, or is data.
    NoProgram(Error),
}

impl NoModule {
    /// The error for the user.
    pub fn error(self) -> Error {
        match self {
            NoModule::OtherBuild(error) | NoModule::NoProgram(error) => error,
        }
    }
}

impl From<Error> for NoModule {
    fn from(error: Error) -> NoModule {
        NoModule::NoProgram(error)
    }
}

impl Module {
    /// A file that is mapped in an address space.
    pub fn of(space: &Space, file: &MappedFile) -> std::result::Result<Module, NoModule> {
        let path = &file.path;
        let named = |error: Error| error.within(&path.display().to_string());
        let opened = file.places.iter().find_map(|place| Image::linked_as(place, path));
        let missing = || {
            Error(format!(
                "{} can't be opened: --program names the program of a core file, and --types a \
                 file with its types",
                path.display()
            ))
        };
        let image = opened.ok_or_else(missing)?;
        image.data_is_64().map_err(named)?;
        let segments = segments(&image).map_err(named)?;
        let other = || NoModule::OtherBuild(other_build(path, space));
        let slide = slide(file, &segments).ok_or_else(other)?;
        let symbols = OnceCell::new();
        let made = Module { image, is_program: file.is_program, slide, segments, symbols };
        let own = made.image.elf().map_err(named)?;
        let own = own.build_id().ok().flatten();
        match (own, made.build_id_in(space)) {
            (Some(own), Some(other_id)) if own != other_id => Err(other()),
            _ => Ok(made),
        }
    }

    /// The path of the file.
    pub fn path(&self) -> &Path {
        self.image.path()
    }

    /// Whether an address is in the file's segments, including its zero-initialised variables.
    pub fn has(&self, address: u64) -> bool {
        self.loadable_segments().any(|one| {
            let behind = address.wrapping_sub(one.address.wrapping_add(self.slide));
            behind < one.in_memory
        })
    }

    /// At most `length` bytes of the file for an address in memory that is not writable; none for
    /// other addresses.
    pub fn constant_bytes(&self, address: u64, length: u64) -> &[u8] {
        for one in self.loadable_segments().filter(|one| !one.is_writable) {
            let behind = address.wrapping_sub(one.address.wrapping_add(self.slide));
            if behind < one.in_file {
                let count = length.min(one.in_file - behind);
                let at = one.offset.saturating_add(behind);
                return self.image.data().read_bytes_at(at, count).unwrap_or_default();
            }
        }
        &[]
    }

    /// A symbol's place in memory; global symbols come first.
    pub fn definition(&self, name: &[u8]) -> Option<Definition> {
        let found = self.symbols().entry(name)?;
        let Entry { address, size, is_global, .. } = *found;
        Some(Definition { address, size, is_global })
    }

    /// The address of the only symbol with a name; None if there are several.
    pub fn only_address(&self, name: &[u8]) -> Option<u64> {
        let symbols = self.symbols();
        let mut found = symbols.entries.iter().filter(|one| symbols.name(one) == name);
        let first = found.next().map(|one| one.address);
        first.filter(|_| found.next().is_none())
    }

    /// The symbol at an address, as `<main+4>`; empty if there is none.
    pub fn label(&self, address: u64) -> Vec<u8> {
        let symbols = self.symbols();
        let Some(entry) = symbols.before(address) else { return Vec::new() };
        let behind = address - entry.address;
        let name = symbols.name(entry);
        match behind {
            _ if entry.size == 0 && !entry.is_function => Vec::new(), // as in gdb
            _ if behind >= entry.size.max(1) => Vec::new(),
            0 => [b"<", name, b">"].concat(),
            _ => [b"<", name, format!("+{behind}>").as_bytes()].concat(),
        }
    }

    /// The names of its symbols.
    pub fn names(&self) -> impl Iterator<Item = &[u8]> {
        let symbols = self.symbols();
        symbols.entries.iter().map(|one| symbols.name(one))
    }

    /// Its symbols; none if its symbol table is damaged, as if it were stripped.
    fn symbols(&self) -> &Symbols {
        self.symbols.get_or_init(|| Symbols::of(&self.image, self.slide).unwrap_or_default())
    }

    fn loadable_segments(&self) -> impl Iterator<Item = &Segment> {
        self.segments.iter().filter(|one| one.purpose == Purpose::Load)
    }

    /// The build-id of what is in memory.
    fn build_id_in(&self, space: &Space) -> Option<Vec<u8>> {
        let is_read = |one: &&Segment| {
            one.purpose == Purpose::Note && (13..=LONGEST_NOTES).contains(&one.in_file)
        };
        self.segments.iter().filter(is_read).find_map(|one| {
            let bytes = space.read(one.address.wrapping_add(self.slide), one.in_file);
            build_id(&bytes).map(<[u8]>::to_vec)
        })
    }
}

/// The distance of a file's addresses in memory from its own, by the first mapping of a segment.
fn slide(file: &MappedFile, segments: &[Segment]) -> Option<u64> {
    let whole = |offset: u64| offset / PAGE * PAGE;
    let is_load = |one: &&Segment| one.purpose == Purpose::Load;
    file.mappings.iter().find_map(|mapping| {
        let begins = |one: &&Segment| whole(one.offset) == mapping.offset;
        let segment = segments.iter().filter(is_load).find(begins)?;
        Some(mapping.start.wrapping_sub(whole(segment.address)))
    })
}

fn other_build(path: &Path, space: &Space) -> Error {
    Error(format!(
        "{} is another build than what {} has in memory, since it was replaced: --program names \
         the program of a core file, and --types a file with the types of that build",
        path.display(),
        space.name()
    ))
}

/// The mapped files that can be read. Warns of libraries that were replaced, and skips data. Fails
/// if the program is needed, but was replaced or cannot be read.
pub fn modules(space: &Space, needs_program: bool, warn: impl Fn(&str)) -> Result<Vec<Module>> {
    let mut made = Vec::new();
    for (number, file) in space.files().iter().enumerate() {
        match Module::of(space, file) {
            Ok(module) => made.push(module),
            Err(no_module) if number == 0 && needs_program => return Err(no_module.error()),
            Err(NoModule::OtherBuild(error)) => warn(&error.0),
            Err(NoModule::NoProgram(_)) => {}
        }
    }
    match made.is_empty() && space.files().is_empty() && needs_program {
        true => refuse(format!("{} does not say which files were in memory", space.name())),
        false => Ok(made),
    }
}
