//! The exports of a file: the functions and objects that other programs see, with their versions.

use crate::bytes::{Names, Reader};
use crate::error::{Error, Result};
use crate::image::{Data, Image};
use object::elf::{self, FileHeader32, FileHeader64};
use object::read::elf::{Dyn as _, FileHeader, SectionHeader, SectionTable, Sym as _};
use object::{Endian as _, Endianness, Object as _, SectionIndex};
use std::borrow::Cow;
use std::collections::HashMap;

/// Names may overlap: those that are read may have `MOST_TIMES` times the bytes of their table, and
/// `AT_LEAST` more.
const MOST_TIMES: u64 = 16;
const AT_LEAST: u64 = 65_536;
/// The size of a symbol in the form that the library takes, in bytes.
const ENTRY: usize = 24;
/// The type of functions whose address is found when the program is loaded.
const INDIRECT: u8 = 10;
const UNIQUE: u8 = 10;
/// Version numbers below this one mean no version; the flag marks versions that are not the
/// default.
const LEAST_VERSION: u16 = 2;
const HIDDEN: u16 = 0x8000;
/// Symbols that linkers define in any file.
const OF_LINKERS: [&[u8]; 15] = [
    b"_init",
    b"_fini",
    b"_edata",
    b"edata",
    b"_end",
    b"end",
    b"_etext",
    b"etext",
    b"__bss_start",
    b"_IO_stdin_used",
    b"__data_start",
    b"data_start",
    b"_start",
    b"__dso_handle",
    b"__TMC_END__",
];

/// The kind of an exported symbol.
#[derive(Clone, Copy, Debug, PartialEq, Eq)]
pub enum ExportKind {
    /// A function.
    Function,
    /// An object.
    Object,
    /// A symbol without a type in its table.
    Symbol,
}

impl ExportKind {
    fn of_symbol(kind: u8) -> Option<ExportKind> {
        match kind {
            elf::STT_OBJECT | elf::STT_TLS => Some(ExportKind::Object),
            elf::STT_FUNC | INDIRECT => Some(ExportKind::Function),
            elf::STT_NOTYPE => Some(ExportKind::Symbol),
            _ => None,
        }
    }

    /// The kind as a word.
    pub fn word(self) -> &'static str {
        match self {
            ExportKind::Function => "function",
            ExportKind::Object => "object",
            ExportKind::Symbol => "symbol",
        }
    }
}

/// A symbol that other programs see.
#[derive(Clone, Debug)]
pub struct Export<'a> {
    /// Its name.
    pub name: &'a [u8],
    /// Its version; empty if it has none.
    pub version: &'a [u8],
    /// Its kind.
    pub kind: ExportKind,
    /// Its size in bytes.
    pub size: u64,
    /// Its number in the symbol table that the types belong to, if it is there.
    pub number: Option<u32>,
    /// Whether it is thread-local.
    pub is_of_threads: bool,
}

impl Export<'_> {
    /// Its name, with the version if there is one.
    pub fn label(&self) -> Vec<u8> {
        match self.version {
            b"" => self.name.to_vec(),
            version => [self.name, b"@", version].concat(),
        }
    }
}

/// All exports of a file.
#[derive(Debug, Default)]
pub struct Exports<'a> {
    /// The symbols in the order of their table, without duplicates.
    pub listed: Vec<Export<'a>>,
    /// The name that programs linked with the file record; empty if there is none.
    pub soname: Cow<'a, [u8]>,
    by_version: HashMap<(&'a [u8], &'a [u8]), usize>,
    by_name: HashMap<&'a [u8], usize>,
}

impl<'a> Exports<'a> {
    /// Whether any of them is a function.
    pub fn has_functions(&self) -> bool {
        self.listed.iter().any(|one| one.kind == ExportKind::Function)
    }

    /// The symbol here that is used by a program linked with `other`.
    pub fn matching(&self, other: &Export<'_>) -> Option<&Export<'a>> {
        let exact = self.by_version.get(&(other.name, other.version));
        let place = exact.or_else(|| match other.version {
            b"" => self.by_name.get(other.name),
            _ => self.by_version.get(&(other.name, &[][..])),
        });
        place.map(|&place| &self.listed[place])
    }

    fn add(&mut self, one: Export<'a>) {
        let place = self.listed.len();
        if *self.by_version.entry((one.name, one.version)).or_insert(place) == place {
            self.by_name.entry(one.name).or_insert(place);
            self.listed.push(one);
        }
    }
}

/// The exports of a file: its dynamic symbols, or the global ones of a file that was not linked for
/// the loader. `table` and `strings` are the symbols that its types belong to.
pub fn exports<'a>(image: &'a Image, table: &[u8], strings: &[u8]) -> Result<Exports<'a>> {
    let numbers = numbers(table, strings);
    let found = match image.elf()?.is_64() {
        true => File::<FileHeader64<Endianness>>::parse(image)?.exports(&numbers),
        false => File::<FileHeader32<Endianness>>::parse(image)?.exports(&numbers),
    };
    found.map_err(|error| error.of(image.path().display()))
}

/// The numbers of symbols in the table that types belong to, by name and address. Of several with
/// the same name and address, a global one is preferred.
type Numbers<'n> = HashMap<(&'n [u8], u64), u32>;

fn numbers<'n>(table: &'n [u8], strings: &'n [u8]) -> Numbers<'n> {
    let mut made = HashMap::new();
    let mut names = Strings::new(strings);
    for is_local in [false, true] {
        for (number, entry) in table.chunks_exact(ENTRY).enumerate() {
            let Some(symbol) = TypedSymbol::of(entry).filter(|one| one.is_local == is_local) else {
                continue;
            };
            let Some(name) = names.at(symbol.name) else { continue };
            let key = (without_version(name).0, symbol.address);
            made.entry(key).or_insert(number as u32);
        }
    }
    made
}

/// The name that programs linked with a shared library record, empty if there is none; `None` for
/// other files.
pub fn soname(image: &Image) -> Result<Option<Vec<u8>>> {
    fn of<F: FileHeader<Endian = Endianness>>(image: &Image) -> Result<Option<Vec<u8>>> {
        let file: File<'_, F> = File::parse(image)?;
        match file.section_of_name(".dynsym").is_some() && file.is_shared {
            true => Ok(Some(file.soname()?.to_vec())),
            false => Ok(None),
        }
    }
    match image.elf()?.is_64() {
        true => of::<FileHeader64<Endianness>>(image),
        false => of::<FileHeader32<Endianness>>(image),
    }
}

/// A function or object of the table that types belong to.
struct TypedSymbol {
    name: u32,
    address: u64,
    is_local: bool,
}

impl TypedSymbol {
    fn of(entry: &[u8]) -> Option<TypedSymbol> {
        let name = u32::from_le_bytes(entry.get(..4)?.try_into().ok()?);
        let address = u64::from_le_bytes(entry.get(8..16)?.try_into().ok()?);
        let is_typed = matches!(entry[4] & 15, elf::STT_OBJECT | elf::STT_FUNC);
        let is_there = name != 0 && entry[6..8] != [0, 0];
        let is_local = entry[4] >> 4 == elf::STB_LOCAL;
        (is_typed && is_there).then_some(TypedSymbol { name, address, is_local })
    }
}

/// The names of a string table, with a limit on the bytes that are read.
struct Strings<'a> {
    names: Names<'a>,
    left: u64,
}

impl<'a> Strings<'a> {
    fn new(bytes: &'a [u8]) -> Strings<'a> {
        Strings { names: Names(bytes), left: MOST_TIMES * bytes.len() as u64 + AT_LEAST }
    }

    fn at(&mut self, place: u32) -> Option<&'a [u8]> {
        let name = self.names.at(place.into())?;
        self.left = self.left.checked_sub(name.len() as u64)?;
        Some(name)
    }
}

/// The name and the version in a symbol's name, which may have `@` or `@@` between them.
fn without_version(name: &[u8]) -> (&[u8], &[u8]) {
    let end = name.iter().position(|&byte| byte == b'@').unwrap_or(name.len());
    let signs = name[end..].iter().take_while(|&&byte| byte == b'@').count();
    (&name[..end], &name[end + signs..])
}

/// An ELF file, of 32 or 64 bits.
struct File<'a, F: FileHeader<Endian = Endianness>> {
    data: Data<'a>,
    endian: Endianness,
    is_linked: bool,
    is_shared: bool,
    sections: SectionTable<'a, F, Data<'a>>,
}

impl<'a, F: FileHeader<Endian = Endianness>> File<'a, F> {
    fn parse(image: &'a Image) -> Result<File<'a, F>> {
        let data = image.data();
        let header = F::parse(data)?;
        let endian = header.endian()?;
        let sections = header.sections(endian, data)?;
        let kind = header.e_type(endian);
        let (is_linked, is_shared) = (kind != elf::ET_REL, kind == elf::ET_DYN);
        Ok(File { data, endian, is_linked, is_shared, sections })
    }

    /// The section with a name, if it has bytes in the file.
    fn section_of_name(&self, name: &str) -> Option<&'a F::SectionHeader> {
        let (_, found) = self.sections.section_by_name(self.endian, name.as_bytes())?;
        (found.sh_type(self.endian) != elf::SHT_NOBITS).then_some(found)
    }

    fn bytes(&self, section: &F::SectionHeader) -> Result<&'a [u8]> {
        Ok(section.data(self.endian, self.data)?)
    }

    /// The strings that go with a section.
    fn strings(&self, section: &F::SectionHeader) -> Result<Option<Strings<'a>>> {
        let index = SectionIndex(section.sh_link(self.endian) as usize);
        let found = self.sections.section(index).ok();
        found.map(|found| self.bytes(found).map(Strings::new)).transpose()
    }

    fn exports(&self, numbers: &Numbers<'_>) -> Result<Exports<'a>> {
        let mut made = Exports { soname: self.soname()?.into(), ..Exports::default() };
        let dynamic = self.section_of_name(".dynsym").filter(|_| self.is_linked);
        let Some(table) = dynamic.or_else(|| self.section_of_name(".symtab")) else {
            return Ok(made);
        };
        let Some(mut strings) = self.strings(table)? else { return Ok(made) };
        let versions = self.versions()?;
        let symbols: &[F::Sym] = table.data_as_array(self.endian, self.data)?;
        for (place, symbol) in symbols.iter().enumerate() {
            let name = match symbol.st_name(self.endian) {
                0 => &[],
                at => strings.at(at).ok_or_else(damage)?,
            };
            let Some(kind) = self.export_kind(symbol, name) else { continue };
            let (name, own) = without_version(name);
            let version = versions.get(place).copied().filter(|one| !one.is_empty());
            made.add(Export {
                name,
                version: version.unwrap_or(own),
                kind,
                size: symbol.st_size(self.endian).into(),
                number: numbers.get(&(name, symbol.st_value(self.endian).into())).copied(),
                is_of_threads: symbol.st_type() == elf::STT_TLS,
            });
        }
        Ok(made)
    }

    /// The kind of a symbol that other files see; `None` for other symbols.
    fn export_kind(&self, symbol: &F::Sym, name: &[u8]) -> Option<ExportKind> {
        let section = symbol.st_shndx(self.endian);
        let is_bound = matches!(symbol.st_bind(), elf::STB_GLOBAL | elf::STB_WEAK | UNIQUE);
        let is_seen = matches!(symbol.st_visibility(), elf::STV_DEFAULT | elf::STV_PROTECTED);
        let is_a_number = section == elf::SHN_ABS
            && matches!(symbol.st_type(), elf::STT_OBJECT | elf::STT_NOTYPE);
        let is_there = is_bound && is_seen && section != elf::SHN_UNDEF && !is_a_number;
        let is_own = !name.is_empty() && !OF_LINKERS.contains(&name);
        ExportKind::of_symbol(symbol.st_type()).filter(|_| is_there && is_own)
    }

    /// The version of each dynamic symbol, as GNU's linker writes them; empty for none, and for the
    /// version of the file itself.
    fn versions(&self) -> Result<Vec<&'a [u8]>> {
        let Some(table) = self.section_of_name(".gnu.version") else { return Ok(Vec::new()) };
        let defined = match self.section_of_name(".gnu.version_d") {
            Some(section) => self.version_names(section)?,
            None => HashMap::new(),
        };
        let of_place = |bytes: &[u8]| {
            let number = self.endian.read_u16_bytes([bytes[0], bytes[1]]);
            defined.get(&(number & !HIDDEN)).copied().unwrap_or_default()
        };
        Ok(self.bytes(table)?.chunks_exact(2).map(of_place).collect())
    }

    /// The names of the versions that a file defines, by number.
    fn version_names(&self, section: &F::SectionHeader) -> Result<HashMap<u16, &'a [u8]>> {
        let mut made = HashMap::new();
        let mut rest = self.bytes(section)?;
        let Some(mut strings) = self.strings(section)? else { return Ok(made) };
        while rest.len() >= 20 {
            let mut record = Reader::new(rest, self.endian, "the versions of its symbols");
            record.word()?;
            let number = record.half()?;
            record.half()?;
            record.word()?;
            let (first, following) = (record.word()? as usize, record.word()? as usize);
            if number >= LEAST_VERSION {
                let name = rest.get(first..).ok_or_else(damage)?;
                let at = Reader::new(name, self.endian, "the versions of its symbols").word()?;
                made.insert(number, strings.at(at).ok_or_else(damage)?);
            }
            if following == 0 {
                break;
            }
            rest = rest.get(following..).unwrap_or_default();
        }
        Ok(made)
    }

    /// The name that programs linked with the file record.
    fn soname(&self) -> Result<&'a [u8]> {
        let Some(section) = self.section_of_name(".dynamic") else { return Ok(&[]) };
        let Some(mut strings) = self.strings(section)? else { return Ok(&[]) };
        let listed: &[F::Dyn] = section.data_as_array(self.endian, self.data)?;
        let found = listed.iter().find(|one| one.tag32(self.endian) == Some(elf::DT_SONAME));
        let Some(found) = found else { return Ok(&[]) };
        let name = found.val32(self.endian).and_then(|at| strings.at(at));
        name.ok_or_else(|| Error("the name in its dynamic section is damaged".to_owned()))
    }
}

fn damage() -> Error {
    Error("its symbols are damaged: a name lies outside of its strings, or many are one".to_owned())
}
