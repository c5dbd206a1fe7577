//! ELF files: their sections, the files with their debug information, and their symbols.

use crate::bytes::Names;
use crate::compressed::StoredSection;
use crate::error::{refuse, Result};
use crate::image::{Data, Elf, ElfSection, Image};
use crate::symbols::{Symbol, SymbolTable, Symbols};
use gimli::{Endianity as _, RunTimeEndian};
use object::read::elf::{FileHeader, SectionHeader, Sym as _};
use object::{elf, Architecture, Endianness, Object, ObjectKind, ObjectSection, ObjectSymbol};
use object::{Relocation, RelocationKind, RelocationTarget, SectionIndex};
use rayon::prelude::*;
use std::borrow::Cow;
use std::path::{Component, Path, PathBuf};

const FOLDER: &str = "/usr/lib/debug";
const PAGE: u64 = 4096;
/// How many of the paths at which a debug file was looked for an error lists.
const MOST_SHOWN: usize = 6;

/// Whether a file has DWARF, and not only empty sections, as `strip` leaves them.
pub fn has_debug(file: &Elf<'_>) -> bool {
    file.section_by_name(".debug_info")
        .is_some_and(|one| matches!(one.file_range(), Some((_, size)) if size > 0))
}

/// The byte order of a file.
pub fn endian(file: &Elf<'_>) -> RunTimeEndian {
    if file.is_little_endian() {
        RunTimeEndian::Little
    } else {
        RunTimeEndian::Big
    }
}

/// Advice for an object file of -flto.
pub const LINK_IT: &str = "an object file of -flto has none of its own before it is linked: name \
                           the linked program, or compile with -ffat-lto-objects";

/// Whether this is an object file of -flto, which normally has no code of its own.
pub fn is_lto(file: &Elf<'_>) -> bool {
    let is_of_lto =
        |name: &[u8]| name.starts_with(b".gnu.lto_") || name.starts_with(b".gnu.debuglto_");
    file.kind() == ObjectKind::Relocatable
        && file.sections().any(|one| one.name_bytes().is_ok_and(is_of_lto))
}

/// The debug information of a file: in a file of its own, or in the file itself.
pub struct DebugFile {
    /// The file that has it, if it is another one.
    pub debug: Option<Image>,
}

/// The bytes of the section with a name; empty if there is none.
pub fn section_bytes<'a>(image: &'a Image, name: &str) -> Result<&'a [u8]> {
    match image.elf()?.section_by_name(name) {
        Some(section) => Ok(section.data()?),
        None => Ok(&[]),
    }
}

/// The file with the debug information of another, or none if that has it itself. It is looked for
/// as gdb does: by the build-id, then by the name in .gnu_debuglink; the checksum must be the
/// stated one unless the build-ids are equal.
pub fn debug_file(image: &Image, folders: &[PathBuf]) -> Result<DebugFile> {
    let file = image.elf()?;
    if has_debug(&file) {
        return Ok(DebugFile { debug: None });
    }
    let build = file.build_id()?.unwrap_or_default();
    let (link, sum) = file.gnu_debuglink()?.unwrap_or_default();
    let link = Path::new(std::str::from_utf8(link).unwrap_or_default());
    let beside = image.path().canonicalize()?;
    let beside = beside.parent().unwrap_or(Path::new("/"));
    let folders = || folders.iter().map(PathBuf::as_path).chain([Path::new(FOLDER)]);
    let mut tried = Vec::new();
    if build.len() > 1 {
        tried.extend(folders().map(|folder| by_build_id(folder, build)));
    }
    if link.components().count() == 1 {
        tried.extend([beside.join(link), beside.join(".debug").join(link)]);
        let inner = beside.strip_prefix("/").unwrap_or(beside);
        tried.extend(folders().map(|folder| folder.join(inner).join(link)));
    }
    for path in &tried {
        let Some(found) = Image::open_linked(path) else { continue };
        let is_debug = match found.elf() {
            Ok(other) if has_debug(&other) => {
                let is_build = !build.is_empty() && other.build_id().ok().flatten() == Some(build);
                is_build || found.crc()? == sum
            }
            _ => false,
        };
        if is_debug {
            return Ok(DebugFile { debug: Some(found) });
        }
    }
    if is_lto(&file) {
        return refuse(format!("it has no debug information: {LINK_IT}"));
    }
    let mut looked: Vec<String> = tried.iter().map(|path| path.display().to_string()).collect();
    if looked.len() > MOST_SHOWN {
        let rest = format!("in {} other places", looked.split_off(MOST_SHOWN).len());
        looked.push(rest);
    }
    let place = match looked.is_empty() {
        true => String::new(),
        false => format!("; no debug file is at {}", looked.join(" or ")),
    };
    refuse(format!(
        "it has no debug information{place}: compile it with -g, or install the debug symbols of \
         its package"
    ))
}

/// The file to which `dwz -m` moved common parts; `None` if the file names none. Anybody may have
/// written that name, so only files next to this one, and in folders for debug files, are accepted.
pub fn alternate_file(image: &Image, folders: &[PathBuf]) -> Result<Option<Image>> {
    let file = image.elf()?;
    let Some((name, build)) = file.gnu_debugaltlink()? else { return Ok(None) };
    let beside = image.path().canonicalize()?;
    let beside = beside.parent().unwrap_or(Path::new("/"));
    let name = Path::new(std::str::from_utf8(name).unwrap_or_default());
    let folders: Vec<&Path> =
        folders.iter().map(PathBuf::as_path).chain([Path::new(FOLDER)]).collect();
    let mut tried = vec![beside.join(name)];
    if build.len() > 1 {
        tried.extend(folders.iter().map(|folder| by_build_id(folder, build)));
    }
    if let Some(inner) = in_dwz(name) {
        tried.extend(folders.iter().map(|folder| folder.join(&inner)));
    }
    let is_within = |path: &Path| {
        let roots = folders.iter().copied().chain([beside]);
        let real = path.canonicalize().ok();
        real.is_some_and(|path| {
            roots.filter_map(|root| root.canonicalize().ok()).any(|root| path.starts_with(root))
        })
    };
    for path in tried.iter().filter(|path| is_within(path)) {
        let Some(found) = Image::open_linked(path) else { continue };
        if found.elf().ok().and_then(|other| other.build_id().ok().flatten()) == Some(build) {
            return Ok(Some(found));
        }
    }
    let tried: Vec<String> = tried.iter().map(|path| path.display().to_string()).collect();
    refuse(format!(
        "parts of its debug information are in a file that dwz made, which is not at {}, or is \
         another one: name its folder by --debug-folder",
        tried.join(" or ")
    ))
}

/// The part of a path from the folder `.dwz` on, which Debian's packages have for the files of dwz.
fn in_dwz(name: &Path) -> Option<PathBuf> {
    let mut parts = name.components().skip_while(|part| part.as_os_str() != ".dwz");
    parts.clone().next()?;
    let is_plain = parts.clone().all(|part| matches!(part, Component::Normal(_)));
    is_plain.then(|| parts.by_ref().collect())
}

fn by_build_id(folder: &Path, build: &[u8]) -> PathBuf {
    let digits: String = build.iter().map(|byte| format!("{byte:02x}")).collect();
    folder.join(".build-id").join(&digits[..2]).join(format!("{}.debug", &digits[2..]))
}

/// The contents of the sections with a name, decompressed and relocated; an object file may have
/// several.
pub fn section<'a>(image: &'a Image, file: &Elf<'a>, name: &str) -> Result<Cow<'a, [u8]>> {
    let [made] = sections(image, file, [name]);
    made
}

/// The contents of the sections with several names, as [`section`] returns them. Compressed ones
/// are decompressed in parallel.
pub fn sections<'a, const N: usize>(
    image: &'a Image,
    file: &Elf<'a>,
    names: [&str; N],
) -> [Result<Cow<'a, [u8]>>; N] {
    let mut places = names.map(|_| Vec::new());
    let mut packed: Vec<Result<Vec<StoredSection<'a>>>> = Vec::new();
    for (name, places) in names.iter().zip(&mut places) {
        packed.push(sections_of_name(file, name).and_then(|found| {
            let listed =
                found.iter().map(|one| StoredSection::of(image, file, one, name)).collect();
            *places = found;
            listed
        }));
    }
    let inflate =
        |(packed, name): (Result<Vec<StoredSection<'a>>>, &&str)| -> Result<Vec<Cow<'a, [u8]>>> {
            packed?.into_iter().map(|one| one.inflate(name)).collect()
        };
    let inflated: Vec<_> = match packed.iter().flatten().flatten().any(StoredSection::is_compressed)
    {
        true => packed.into_par_iter().zip(&names).map(inflate).collect(),
        false => packed.into_iter().zip(&names).map(inflate).collect(),
    };
    let mut listed = inflated.into_iter().zip(places);
    names.map(|_| {
        let (parts, places) = listed.next().expect("there is one for each name");
        joined_bytes(file, parts?, &places)
    })
}

/// The sections with a name, or with the .zdebug name that GNU's tools once gave compressed ones.
fn sections_of_name<'a, 'f>(file: &'f Elf<'a>, name: &str) -> Result<Vec<ElfSection<'a, 'f>>> {
    let zipped = name.strip_prefix(".debug").map(|rest| format!(".zdebug{rest}"));
    let mut found = Vec::new();
    for one in file.sections() {
        let called = one.name_bytes()?;
        if called == name.as_bytes() || zipped.as_deref().map(str::as_bytes) == Some(called) {
            found.push(one);
        }
    }
    Ok(found)
}

/// The bytes of some sections, relocated and joined.
fn joined_bytes<'a>(
    file: &Elf<'a>,
    mut parts: Vec<Cow<'a, [u8]>>,
    places: &[ElfSection<'a, '_>],
) -> Result<Cow<'a, [u8]>> {
    if file.kind() == ObjectKind::Relocatable {
        for (data, section) in parts.iter_mut().zip(places) {
            relocate(file, section, data.to_mut())?;
        }
    }
    Ok(match parts.len() {
        0 | 1 => parts.pop().unwrap_or_default(),
        _ => Cow::Owned(parts.concat()),
    })
}

/// Applies the relocations of an object file, as the linker would.
fn relocate(file: &Elf<'_>, section: &ElfSection<'_, '_>, data: &mut [u8]) -> Result<()> {
    let (places, mut endian) = (places(file), endian(file));
    for (at, one) in section.relocations() {
        let Some(length) = relocated_bytes(file.architecture(), &one)? else { continue };
        let place = match one.target() {
            RelocationTarget::Symbol(index) => {
                let symbol = file.symbol_by_index(index)?;
                let place = symbol.section_index().and_then(|index| places.get(index.0));
                symbol.address().wrapping_add(place.copied().unwrap_or(0))
            }
            _ => 0,
        };
        let cell = usize::try_from(at).ok().and_then(|at| data.get_mut(at..));
        let Some(cell) = cell.and_then(|cell| cell.get_mut(..length)) else {
            return refuse("a relocation lies outside of its section: damage");
        };
        let mut value = place.wrapping_add(one.addend() as u64);
        if one.has_implicit_addend() {
            value = value.wrapping_add(endian.read_uint(cell));
        }
        let bytes = value.to_le_bytes();
        cell.copy_from_slice(&bytes[..length]);
        if endian.is_big_endian() {
            cell.reverse();
        }
    }
    Ok(())
}

/// The number of bytes that a relocation of debug information writes; `None` if it leaves them.
///
/// Offsets within thread-local storage and in the global offset table are no addresses, and the
/// sums and differences of RISC-V are lengths of code, which no type has.
fn relocated_bytes(machine: Architecture, one: &Relocation) -> Result<Option<usize>> {
    use Architecture::{Aarch64, Arm, Bpf, PowerPc64, Riscv32, Riscv64, I386, X86_64, X86_64_X32};
    let number = match one.kind() {
        RelocationKind::Absolute if matches!(one.size(), 8 | 16 | 32 | 64) => {
            return Ok(Some(usize::from(one.size() / 8)));
        }
        RelocationKind::Elf(number) => number,
        _ => u32::MAX,
    };
    match (machine, number) {
        (Bpf, 2) => Ok(Some(8)),
        (Bpf, 3) => Ok(Some(4)),
        (Architecture::Unknown, _) => refuse(
            "an object file of a machine whose relocations are not known: name the linked program",
        ),
        (_, elf::R_X86_64_NONE) // 0 for each machine
        | (X86_64 | X86_64_X32, elf::R_X86_64_DTPOFF64 | elf::R_X86_64_DTPOFF32)
        | (I386, elf::R_386_GOTOFF | elf::R_386_TLS_LDO_32 | elf::R_386_TLS_DTPOFF32)
        | (Aarch64, 1028 | 1029)
        | (Arm, elf::R_ARM_TLS_DTPOFF32 | elf::R_ARM_TLS_LDO32)
        | (Riscv32 | Riscv64, 8 | 9 | 33..=40 | 52..=61)
        | (PowerPc64, elf::R_PPC64_DTPREL64) => Ok(None),
        _ if one.kind() == RelocationKind::GotBaseOffset => Ok(None),
        _ => refuse(format!(
            "its debug information has a relocation of a kind that is not known ({:?}): name the \
             linked program",
            one.kind()
        )),
    }
}

/// An address for each section of an object file, such that no two symbols share an address.
fn places(file: &Elf<'_>) -> Vec<u64> {
    let mut made = vec![0];
    let mut place = PAGE;
    for one in file.sections() {
        let is_put = file.kind() == ObjectKind::Relocatable
            && matches!(one.flags(), object::SectionFlags::Elf { sh_flags }
                        if sh_flags & u64::from(elf::SHF_ALLOC) != 0);
        made.resize(made.len().max(one.index().0 + 1), 0);
        if is_put {
            made[one.index().0] = place;
            place += one.size().div_ceil(PAGE) * PAGE;
        }
    }
    made
}

/// The entries of a symbol table, and its string table.
type RawTable<'a, S> = (&'a [S], Names<'a>);

/// Names may overlap: those that are read may have this many times the bytes of their table and its
/// entries.
const MOST_TIMES: u64 = 64;

/// A symbol table of a file; `None` if there is none with this name that has bytes in the file.
fn raw_table<'a, F>(data: Data<'a>, name: &str) -> Result<Option<RawTable<'a, F::Sym>>>
where
    F: FileHeader<Endian = Endianness>,
{
    let header = F::parse(data)?;
    let endian = header.endian()?;
    let sections = header.sections(endian, data)?;
    let Some((_, section)) = sections.section_by_name(endian, name.as_bytes()) else {
        return Ok(None);
    };
    let Ok(strings) = sections.section(SectionIndex(section.sh_link(endian) as usize)) else {
        return Ok(None);
    };
    if section.sh_type(endian) == elf::SHT_NOBITS {
        return Ok(None);
    }
    let entries = section.data_as_array(endian, data)?;
    Ok(Some((entries, Names(strings.data(endian, data)?))))
}

/// The functions and objects of a symbol table, in the order of a dictionary's entries; `None` if
/// the file has no such table.
pub fn symbols_of<'a>(image: &'a Image, table: SymbolTable) -> Result<Option<Symbols<'a>>> {
    match image.elf()?.is_64() {
        true => symbols_in::<elf::FileHeader64<Endianness>>(image, table),
        false => symbols_in::<elf::FileHeader32<Endianness>>(image, table),
    }
}

fn symbols_in<F>(image: &Image, table: SymbolTable) -> Result<Option<Symbols<'_>>>
where
    F: FileHeader<Endian = Endianness>,
{
    let Some((entries, names)) = raw_table::<F>(image.data(), table.word())? else {
        return Ok(None);
    };
    let endian = F::parse(image.data())?.endian()?;
    let places = places(&image.elf()?);
    let mut left = MOST_TIMES * (names.0.len() + 24 * entries.len()) as u64;
    let mut listed = Vec::new();
    for one in entries {
        let (place, kind, section) = (one.st_name(endian), one.st_type(), one.st_shndx(endian));
        let is_function = kind == elf::STT_FUNC;
        if !is_function && kind != elf::STT_OBJECT || section == elf::SHN_UNDEF || place == 0 {
            continue;
        }
        let name = names.at(place.into());
        let name = name.filter(|name| {
            left = left.saturating_sub(name.len() as u64);
            left != 0
        });
        let Some(name) = name else {
            return refuse(format!("the names of {} are damaged", table.word()));
        };
        let address: u64 = one.st_value(endian).into();
        let is_nothing = !is_function && section == elf::SHN_ABS && address == 0;
        if name.is_empty() || name == b"_START_" || name == b"_END_" || is_nothing {
            continue;
        }
        let put = places.get(usize::from(section)).copied().unwrap_or(0);
        let address = address.wrapping_add(put);
        listed.push(Symbol { name: Cow::Borrowed(name), address, is_function });
    }
    listed.shrink_to_fit();
    Ok(Some(Symbols { table, listed }))
}

/// A symbol table and its strings in the form that the library takes; `None` unless they are
/// little-endian, of 64 bits.
pub fn symbol_lists(image: &Image, table: SymbolTable) -> Option<(&[u8], &[u8])> {
    let data = image.data();
    let header = elf::FileHeader64::<Endianness>::parse(data).ok()?;
    let endian = header.endian().ok().filter(|&endian| endian == Endianness::Little)?;
    let sections = header.sections(endian, data).ok()?;
    let (_, section) = sections.section_by_name(endian, table.word().as_bytes())?;
    let strings = sections.section(SectionIndex(section.sh_link(endian) as usize)).ok()?;
    Some((section.data(endian, data).ok()?, strings.data(endian, data).ok()?))
}

/// The strings that go with a section of types: those that it links to, or those of the symbol
/// table that it links to; else `.strtab`.
pub fn linked_strings<'a>(image: &'a Image, name: &str) -> Result<&'a [u8]> {
    if image.elf()?.is_64() {
        strings_of::<elf::FileHeader64<Endianness>>(image.data(), name)
    } else {
        strings_of::<elf::FileHeader32<Endianness>>(image.data(), name)
    }
}

fn strings_of<'a, F: FileHeader<Endian = Endianness>>(
    data: Data<'a>,
    name: &str,
) -> Result<&'a [u8]> {
    let header = F::parse(data)?;
    let endian = header.endian()?;
    let sections = header.sections(endian, data)?;
    let numbered = |number: u32| sections.section(SectionIndex(number as usize)).ok();
    let of_name = |name: &str| sections.section_by_name(endian, name.as_bytes());
    let mut found = of_name(name)
        .map(|(_, section)| section.sh_link(endian))
        .filter(|&link| link != 0)
        .and_then(numbered);
    if let Some(table) = found {
        if matches!(table.sh_type(endian), elf::SHT_SYMTAB | elf::SHT_DYNSYM) {
            found = numbered(table.sh_link(endian));
        }
    }
    match found.or_else(|| of_name(".strtab").map(|(_, section)| section)) {
        Some(section) => Ok(section.data(endian, data)?),
        None => Ok(&[]),
    }
}
