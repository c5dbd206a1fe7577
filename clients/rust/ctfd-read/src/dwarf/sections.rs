//! The sections of debug information: those of a program, of the common file that dwz made, and of
//! the .dwo files or packages in which `-gsplit-dwarf` leaves most of it.

use crate::dwarf::plain_unit::plain_unit;
use crate::dwarf::units::Slice;
use crate::elf;
use crate::error::{refuse, Result};
use crate::image::{Elf, Image};
use gimli::{constants as dw, SectionId, UnitHeader, UnitType};
use gimli::{AttributeValue, DwarfFileType, DwarfPackage, DwoId, EndianSlice, RunTimeEndian};
use std::borrow::Cow;
use std::collections::HashMap;
use std::path::{Path, PathBuf};

/// The sections of a file, borrowed unless they are compressed.
pub type OwnedSections<'a> = gimli::Dwarf<Cow<'a, [u8]>>;

/// A skeleton unit, which stands for one in a .dwo file, has only one entry: longer units are none.
const LONGEST_SKELETON: usize = 4096;

/// The sections of a program, of dwz's common file if there is one, and of .dwo files.
pub struct Sections<'a> {
    /// The program's sections.
    pub main: OwnedSections<'a>,
    /// The sections of dwz's common file.
    pub common: Option<OwnedSections<'a>>,
    /// The byte order of all of them.
    pub endian: RunTimeEndian,
    /// The .dwo files and packages.
    pub splits: Vec<Split>,
    /// The skeleton units, by offset.
    pub skeletons: HashMap<u64, Skeleton>,
}

/// A skeleton unit: it stands for a unit in a .dwo file.
pub struct Skeleton {
    /// The index of the .dwo file in `splits`.
    pub split: usize,
    /// The identifier of the unit in that file.
    pub id: DwoId,
    /// The file's name, as in the skeleton unit.
    pub name: String,
}

/// A .dwo file, or a package of them.
pub struct Split {
    /// The path of the file.
    pub path: PathBuf,
    data: HashMap<&'static str, Vec<u8>>,
    is_package: bool,
    endian: RunTimeEndian,
}

/// The sections, in the form that gimli reads.
pub fn borrow_all<'a>(
    sections: &'a OwnedSections<'a>,
    endian: RunTimeEndian,
) -> gimli::Dwarf<Slice<'a>> {
    sections.borrow(|section: &'a Cow<'a, [u8]>| EndianSlice::new(section, endian))
}

impl<'a> Sections<'a> {
    /// Loads the sections of a file and of those that it names: dwz's common file, which is looked
    /// for beside it and in `folders`, and .dwo files. Line tables are included if `has_lines`.
    pub fn load(image: &'a Image, folders: &[PathBuf], has_lines: bool) -> Result<Self> {
        let file = image.elf()?;
        let mut needed = needed_of(image, &file, has_lines);
        let main =
            gimli::Dwarf::load(|id| needed.remove(&id).unwrap_or_else(|| Ok(Cow::default())))?;
        let endian = elf::endian(&file);
        let (splits, skeletons) = (Vec::new(), HashMap::new());
        let mut sections = Sections { main, common: None, endian, splits, skeletons };
        if let Some(common) = elf::alternate_file(image, folders)? {
            let file = common.elf()?;
            let mut needed = needed_of(&common, &file, has_lines);
            let owned = |id: SectionId| -> Result<Cow<'a, [u8]>> {
                let found = needed.remove(&id).unwrap_or_else(|| Ok(Cow::default()))?;
                Ok(Cow::Owned(found.into_owned()))
            };
            sections.common = Some(gimli::Dwarf::load(owned)?);
        }
        let named = named_splits(&borrow_all(&sections.main, endian))?;
        let mut places: HashMap<PathBuf, usize> = HashMap::new();
        for (start, one) in named {
            let split = sections.split_of(image, &one, &mut places)?;
            sections.skeletons.insert(start, Skeleton { split, id: one.id, name: one.name });
        }
        Ok(sections)
    }

    /// Whether other files have parts of the debug information.
    pub fn goes_on(&self) -> bool {
        self.common.is_some() || !self.splits.is_empty()
    }

    /// The index of the .dwo file of a unit, or of the package that has it.
    fn split_of(
        &mut self,
        image: &Image,
        named: &DwoName,
        places: &mut HashMap<PathBuf, usize>,
    ) -> Result<usize> {
        let beside = image.path().canonicalize()?;
        let beside = beside.parent().unwrap_or(Path::new("/")).to_owned();
        let name = Path::new(&named.name);
        let mut package = image.path().as_os_str().to_owned();
        package.push(".dwp");
        let bare = name.file_name().unwrap_or_default();
        let folder = Path::new(&named.folder);
        let mut tried =
            vec![folder.join(name), beside.join(name), beside.join(bare), PathBuf::from(package)];
        tried.dedup();
        for path in &tried {
            if let Some(&place) = places.get(path) {
                return Ok(place);
            }
            if let Some(split) = Split::load(path)? {
                let place = self.splits.len();
                self.splits.push(split);
                places.insert(path.clone(), place);
                return Ok(place);
            }
        }
        let tried: Vec<String> = tried.iter().map(|path| path.display().to_string()).collect();
        refuse(format!(
            "its debug information is in .dwo files (-gsplit-dwarf), and there is none at {}",
            tried.join(" or ")
        ))
    }
}

/// The sections that types and symbols need.
const NEEDED: [SectionId; 9] = [
    SectionId::DebugAbbrev,
    SectionId::DebugAddr,
    SectionId::DebugInfo,
    SectionId::DebugLineStr,
    SectionId::DebugRanges,
    SectionId::DebugRngLists,
    SectionId::DebugStr,
    SectionId::DebugStrOffsets,
    SectionId::DebugTypes,
];

/// The needed sections of a file, and its lines if they are wanted. If some can't be read, the
/// first in gimli's order gives the error.
fn needed_of<'a>(
    image: &'a Image,
    file: &Elf<'a>,
    has_lines: bool,
) -> HashMap<SectionId, Result<Cow<'a, [u8]>>> {
    let found = elf::sections(image, file, NEEDED.map(|id| id.name()));
    let mut made: HashMap<_, _> = NEEDED.into_iter().zip(found).collect();
    if has_lines {
        let lines = SectionId::DebugLine;
        made.insert(lines, elf::section(image, file, lines.name()));
    }
    made
}

/// The path and the ID of a .dwo file, as its skeleton unit has them.
struct DwoName {
    name: String,
    folder: String,
    id: DwoId,
}

/// The skeleton units of a program, with their offsets.
fn named_splits(dwarf: &gimli::Dwarf<Slice<'_>>) -> Result<Vec<(u64, DwoName)>> {
    let mut found = Vec::new();
    let mut units = dwarf.units();
    while let Some(header) = units.next()? {
        let is_likely = match header.type_() {
            UnitType::Skeleton(_) => true,
            UnitType::Compilation => {
                header.version() < 5 && header.length_including_self() <= LONGEST_SKELETON
            }
            _ => false,
        };
        if !is_likely {
            continue;
        }
        let unit = plain_unit(dwarf, header)?;
        let mut entries = unit.entries();
        let Some((_, top)) = entries.next_dfs()? else { continue };
        let text = |name| -> Result<Option<String>> {
            let Some(value) = top.attr_value(name)? else { return Ok(None) };
            let text = dwarf.attr_string(&unit, value)?;
            Ok(Some(String::from_utf8_lossy(text.slice()).into_owned()))
        };
        let name = match text(dw::DW_AT_dwo_name)? {
            Some(name) => Some(name),
            None => text(dw::DW_AT_GNU_dwo_name)?,
        };
        let Some((name, id)) = name.zip(dwo_id(dwarf, &header)?) else { continue };
        let folder = text(dw::DW_AT_comp_dir)?.unwrap_or_default();
        let start = header.offset().as_debug_info_offset().map_or(0, |at| at.0 as u64);
        found.push((start, DwoName { name, folder, id }));
    }
    Ok(found)
}

/// The identifier of a split unit: from its header or, before DWARF 5, its first entry.
pub fn dwo_id<'a>(
    dwarf: &gimli::Dwarf<Slice<'a>>,
    header: &UnitHeader<Slice<'a>>,
) -> Result<Option<DwoId>> {
    match header.type_() {
        UnitType::Skeleton(id) | UnitType::SplitCompilation(id) => return Ok(Some(id)),
        _ if header.version() >= 5 => return Ok(None),
        _ => {}
    }
    let unit = plain_unit(dwarf, *header)?;
    let mut entries = unit.entries();
    let Some((_, top)) = entries.next_dfs()? else { return Ok(None) };
    Ok(match top.attr_value(dw::DW_AT_GNU_dwo_id)? {
        Some(AttributeValue::DwoId(id)) => Some(id),
        _ => None,
    })
}

/// The sections of .dwo files that are read.
const SPLIT: [SectionId; 13] = [
    SectionId::DebugAbbrev,
    SectionId::DebugCuIndex,
    SectionId::DebugInfo,
    SectionId::DebugLine,
    SectionId::DebugLoc,
    SectionId::DebugLocLists,
    SectionId::DebugMacinfo,
    SectionId::DebugMacro,
    SectionId::DebugRngLists,
    SectionId::DebugStr,
    SectionId::DebugStrOffsets,
    SectionId::DebugTuIndex,
    SectionId::DebugTypes,
];

/// Whether the index of a package lists anything: GNU's dwp also writes one without slots.
fn has_slots(index: &[u8]) -> bool {
    index.get(12..16).is_some_and(|slots| slots != [0; 4])
}

impl Split {
    /// Loads a file that another names; `None` if it does not exist or is no ELF file.
    fn load(path: &Path) -> Result<Option<Split>> {
        let Some(image) = Image::open_linked(path) else { return Ok(None) };
        let Ok(file) = image.elf() else { return Ok(None) };
        let mut data = HashMap::new();
        for id in SPLIT {
            if let Some(name) = id.dwo_name() {
                data.insert(name, elf::section(&image, &file, name)?.into_owned());
            }
        }
        data.retain(|name, bytes| !name.ends_with("_index") || has_slots(bytes));
        let is_package = data.get(".debug_cu_index").is_some_and(|index| !index.is_empty());
        Ok(Some(Split { path: path.to_owned(), data, is_package, endian: elf::endian(&file) }))
    }

    fn section(&self, id: SectionId) -> gimli::Result<Slice<'_>> {
        let data = id.dwo_name().and_then(|name| self.data.get(name));
        Ok(EndianSlice::new(data.map_or(&[][..], Vec::as_slice), self.endian))
    }

    /// The parts of the file that have a unit: all of a .dwo file; of a package the unit's own part
    /// and, if `has_types`, all type units.
    pub fn parts<'a>(
        &'a self,
        main: &gimli::Dwarf<Slice<'a>>,
        id: DwoId,
        has_types: bool,
    ) -> Result<Vec<gimli::Dwarf<Slice<'a>>>> {
        if !self.is_package {
            let mut dwarf = gimli::Dwarf::load(|id| self.section(id))?;
            dwarf.file_type = DwarfFileType::Dwo;
            dwarf.debug_addr = main.debug_addr;
            dwarf.ranges.set_debug_ranges(*main.ranges.debug_ranges());
            return Ok(vec![dwarf]);
        }
        let empty = EndianSlice::new(&[], self.endian);
        let package = DwarfPackage::load(|id| self.section(id), empty)?;
        let mut parts: Vec<_> = package.find_cu(id, main)?.into_iter().collect();
        if has_types {
            for row in 1..=package.tu_index.unit_count() {
                parts.push(package.tu_sections(row, main)?);
            }
        }
        Ok(parts)
    }
}
