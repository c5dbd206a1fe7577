//! A place to look up types by build-id: a store in a folder, a store behind a web server, or
//! servers with the debug information of distributions.

use super::cache::Cache;
use super::child::{self, Request};
use crate::debuginfo::debug_file::of_dictionary_alone;
use crate::store::{BuildId, Store, DEBUG_FILE, DICTIONARY, SECTIONS};
use crate::types::failure::refusal_text;
use crate::types::text::printable;
use ctfd::Model;
use ctfd_read::dictionary;
use ctfd_read::entry_symbols::identity_of;
use ctfd_read::error::{refuse, Error, Result};
use ctfd_read::image::Image;
use ctfd_read::inputs::{with_types, Options};
use ctfd_read::opening::{self, LibraryInput, Origin};
use ctfd_read::symbols::SymbolTable;
use object::Object as _;
use std::env;
use std::path::{Path, PathBuf};

/// The largest file that is accepted, in bytes.
pub const LONGEST: u64 = 64 << 20;
/// The environment variable with the path of an index, to check what a web server sends.
const INDEX: &str = "CTFD_STORE_INDEX";
/// How many bytes a message shows of an answer that is no dictionary.
const SHOWN: usize = 16;
const OF_FOLDERS: &str = "file://";

/// A place with types.
pub enum Place {
    /// A store in a folder.
    Folder(PathBuf),
    /// A store behind a web server.
    Url(String),
    /// Servers that have only debug information; their URLs are separated by blanks.
    Distribution(String),
}

/// The sections that a place has for a build.
struct Copies {
    ctf: Vec<u8>,
    symbols: Option<[Vec<u8>; 2]>,
}

impl Place {
    /// The store that a word names: a URL or a folder.
    pub fn store(word: &str) -> Place {
        let path = word.strip_prefix(OF_FOLDERS).unwrap_or(word);
        match path.len() == word.len() && word.contains("://") {
            true => Place::Url(word.trim_end_matches('/').to_owned()),
            false => Place::Folder(path.into()),
        }
    }

    /// The servers of distributions.
    pub fn distribution(urls: &str) -> Place {
        Place::Distribution(urls.to_owned())
    }

    /// How messages name a build in this place.
    fn path(&self, id: &BuildId) -> PathBuf {
        match self {
            Place::Folder(root) => root.join("buildid").join(id.digits()),
            Place::Url(url) => PathBuf::from(format!("{url}/buildid/{id}")),
            Place::Distribution(urls) => PathBuf::from(format!("{urls}: {id}")),
        }
    }

    /// A file with the types of a build; None if the place has none.
    pub fn find(&self, id: &BuildId) -> Result<Option<Image>> {
        let path = self.path(id);
        let found = match self {
            Place::Folder(root) => in_folder(root, id),
            Place::Url(url) | Place::Distribution(url) => self.fetch(url, id),
        };
        let found = found.map_err(|error| error.within(&path.display().to_string()))?;
        Ok(found.map(|bytes| Image::of_bytes(path, bytes)))
    }

    /// The same from a server, or from the cache.
    fn fetch(&self, url: &str, id: &BuildId) -> Result<Option<Vec<u8>>> {
        let cache = Cache::open(url)?;
        if let Some(kept) = cache.bytes(id)? {
            return Ok(Some(kept));
        }
        let fetch = |wanted| child::fetch(url, id, wanted, cache.folder());
        let found = match self {
            Place::Distribution(_) => fetch(Request::DebugFile)?.map(|bytes| convert(id, bytes)),
            _ => match fetch(Request::Section(DICTIONARY))? {
                Some(ctf) => Some(self.with_symbols(id, ctf, fetch)),
                None => fetch(Request::DebugFile)?.map(|bytes| convert(id, bytes)),
            },
        };
        let found = found.transpose()?;
        if let Some(bytes) = &found {
            cache.keep(id, bytes)?;
        }
        Ok(found)
    }

    /// A file with a dictionary and the symbols that it was written for. Each section must be as in
    /// the index, if the user has one.
    fn with_symbols(
        &self,
        id: &BuildId,
        ctf: Vec<u8>,
        fetch: impl Fn(Request) -> Result<Option<Vec<u8>>>,
    ) -> Result<Vec<u8>> {
        let mut copies = Copies { ctf, symbols: None };
        let judge = |name: &str, bytes: &[u8]| judge_by_index(id, name, bytes);
        judge(DICTIONARY, &copies.ctf)?;
        if copies.has_symbols()? {
            let listed = [fetch(Request::Section(".symtab"))?, fetch(Request::Section(".strtab"))?];
            if let [Some(table), Some(strings)] = listed {
                judge(".symtab", &table)?;
                judge(".strtab", &strings)?;
                copies.symbols = Some([table, strings]);
            }
        }
        copies.file()
    }
}

impl Copies {
    /// The library's input for the dictionary.
    fn library_input<'a>(image: &'a Image) -> Result<LibraryInput<'a>> {
        match opening::dictionary_of(image, None)? {
            Some(handed) => Ok(handed),
            None => refuse(foreign(image.all()?)),
        }
    }

    /// Whether the dictionary was written for the order of `.symtab`.
    fn has_symbols(&self) -> Result<bool> {
        let image = Image::of_bytes(DICTIONARY.into(), self.ctf.clone());
        let handed = Copies::library_input(&image)?;
        Ok(identity_of(&handed.ctf).is_some_and(|one| one.table == SymbolTable::Symtab))
    }

    /// An ELF file with these sections. Fails if the library refuses the dictionary.
    fn file(&self) -> Result<Vec<u8>> {
        let image = Image::of_bytes(DICTIONARY.into(), self.ctf.clone());
        let model =
            opening::model_named(&Copies::library_input(&image)?.ctf).unwrap_or(Model::Lp64);
        let symbols = self.symbols.as_ref().map(|[table, strings]| (&table[..], &strings[..]));
        let made = of_dictionary_alone(model, &self.ctf, symbols)?;
        judge(&made)?;
        Ok(made)
    }
}

/// Refuses a file whose dictionary the library refuses.
fn judge(bytes: &[u8]) -> Result<()> {
    let image = Image::of_bytes(DICTIONARY.into(), bytes.to_vec());
    let handed = Copies::library_input(&image)?;
    if handed.origin == Origin::Differs {
        return refuse("its symbols are not those that its dictionary was written for");
    }
    let opened = ctfd::Dictionary::open_lent(&handed.ctf, handed.options()).map(drop);
    opened.map_err(|refusal| Error(refusal_text(DICTIONARY, refusal)))
}

/// The message for bytes that are no dictionary.
fn foreign(bytes: &[u8]) -> String {
    let begins = printable(&bytes[..bytes.len().min(SHOWN)]);
    format!("no dictionary of CTF version 2 came: it begins with '{begins}'")
}

/// Converts debug information to a file with a dictionary. A file that has a dictionary, or more
/// types than one can hold, is returned unchanged.
fn convert(id: &BuildId, bytes: Vec<u8>) -> Result<Vec<u8>> {
    let image = Image::of_bytes(format!("the debug file of {id}").into(), bytes);
    judge_id(id, &image)?;
    if opening::dictionary_of(&image, None)?.is_some() {
        judge(image.all()?)?;
        return Ok(image.all()?.to_vec());
    }
    let made = with_types(&image, &Options::default(), |found| {
        let (found, _) = dictionary::select(found, &[])?;
        if found.table.len() > dictionary::MOST_TYPES {
            return Ok(None);
        }
        let mut made = dictionary::alone(found.table, found.symbols);
        let model = made.table.model();
        let ctf = made.checked_bytes(&image, Path::new(DICTIONARY))?;
        let symbols = match made.symbols.table {
            SymbolTable::Symtab => opening::table_of_program(&image),
            _ => None,
        };
        of_dictionary_alone(model, &ctf, symbols).map(Some)
    })?;
    match made {
        Some(made) => judge(&made).map(|()| made),
        None => Ok(image.all()?.to_vec()),
    }
}

/// Refuses a file of another build.
fn judge_id(id: &BuildId, image: &Image) -> Result<()> {
    let found = match image.is_elf() {
        true => image.elf()?.build_id()?.unwrap_or_default().to_vec(),
        false => {
            return refuse(
                foreign(image.all()?).replace("dictionary of CTF version 2", "debug file"),
            )
        }
    };
    match found == id.bytes() {
        true => Ok(()),
        false => refuse("the debug file of another build came"),
    }
}

/// The file for a build from a store in a folder.
fn in_folder(root: &Path, id: &BuildId) -> Result<Option<Vec<u8>>> {
    let store = Store::open(root)?;
    let Some(build) = store.build(id)? else { return Ok(None) };
    let section = |name: &str| -> Result<Option<Vec<u8>>> {
        let Some(copies) = build.child(SECTIONS)? else { return Ok(None) };
        let Some(bytes) = copies.bytes(name, LONGEST)? else { return Ok(None) };
        store.judge_file(id, &format!("{SECTIONS}/{name}"), &bytes)?;
        Ok(Some(bytes))
    };
    let Some(ctf) = section(DICTIONARY)? else {
        let found = build.bytes(DEBUG_FILE, LONGEST)?;
        return found.map(|bytes| convert(id, bytes)).transpose();
    };
    let mut copies = Copies { ctf, symbols: None };
    if copies.has_symbols()? {
        if let (Some(table), Some(strings)) = (section(".symtab")?, section(".strtab")?) {
            copies.symbols = Some([table, strings]);
        }
    }
    copies.file().map(Some)
}

/// Refuses a section that differs from the user's index, if there is one.
fn judge_by_index(id: &BuildId, name: &str, bytes: &[u8]) -> Result<()> {
    match env::var_os(INDEX).filter(|path| !path.is_empty()) {
        Some(path) => {
            crate::store::judge_by_index(Path::new(&path), id, &format!("{SECTIONS}/{name}"), bytes)
        }
        None => Ok(()),
    }
}
