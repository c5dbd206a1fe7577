//! Output of `ctfd-convert` for other programs: the types of a file with all that belongs to them,
//! in one stream, and what an ELF file is.
//!
//! A bundle is a line of JSON, followed by the lists that it counts. `lists` has their lengths in
//! bytes, and `dictionaries` says which of them are the dictionary, the symbols and the strings of
//! each; a parent comes first. `how` tells how the symbols were found, and `label` is the label by
//! which a child names this dictionary as its parent. On request `addresses` is a further list, as
//! JSON: the functions and objects of the symbols, each with its name, number and address, and
//! whether it is a function. `made` says whether the types were converted, `alone` whether they
//! come from this file alone, and `losses` what CTF cannot represent of them.

use crate::types::json::{list, text, Object};
use ctfd::Model;
use ctfd_read::debuggee::{listed_symbols, Debuggee, ProgramSymbol};
use ctfd_read::error::{Error, Result};
use ctfd_read::image::Image;
use ctfd_read::opening::{self, LibraryInput, SECTIONS};
use object::archive::THIN_MAGIC;
use object::elf::{ET_CORE, ET_DYN, ET_EXEC, ET_REL, SHT_NOBITS};
use object::ReadRef as _;

/// Sections with debug information; `strip` may leave them empty.
const DEBUG: [&str; 2] = [".debug_info", ".zdebug_info"];

/// The lists of a bundle, without duplicates.
#[derive(Default)]
struct Lists<'a>(Vec<std::borrow::Cow<'a, [u8]>>);

impl<'a> Lists<'a> {
    /// The index of a list, as JSON; `null` if there is no list.
    fn place(&mut self, bytes: Option<&'a [u8]>) -> String {
        let Some(bytes) = bytes else { return "null".to_owned() };
        let known = self.0.iter().position(|one| **one == *bytes);
        known.unwrap_or_else(|| self.add(bytes.into())).to_string()
    }

    fn add(&mut self, bytes: std::borrow::Cow<'a, [u8]>) -> usize {
        self.0.push(bytes);
        self.0.len() - 1
    }
}

/// The bundle for a file.
pub fn bundle(image: &Image, handed: &LibraryInput<'_>, has_addresses: bool) -> Result<Vec<u8>> {
    let mut lists = Lists::default();
    let mut listed = Vec::new();
    for one in std::iter::once(handed).chain(&handed.children) {
        listed.push(dictionary(one, &mut lists, has_addresses)?);
    }
    let mut head = Object::default();
    head.field("lists", list(lists.0.iter().map(|one| one.len().to_string())))
        .field("dictionaries", list(listed.into_iter()))
        .field("made", handed.is_made)
        .field("alone", !is_thin(image))
        .field("losses", list(handed.losses.iter().map(|line| text(line.as_bytes()))));
    let mut bytes = (head.end() + "\n").into_bytes();
    lists.0.iter().for_each(|one| bytes.extend_from_slice(one));
    Ok(bytes)
}

/// Whether the file is a thin archive, whose members are other files.
fn is_thin(image: &Image) -> bool {
    let length = THIN_MAGIC.len() as u64;
    image.data().read_bytes_at(0, length) == Ok(&THIN_MAGIC[..])
}

fn dictionary<'a>(
    one: &'a LibraryInput<'_>,
    lists: &mut Lists<'a>,
    has_addresses: bool,
) -> Result<String> {
    let label = opening::label_of_parent(&one.ctf).map_or("null".to_owned(), |label| text(&label));
    let mut made = Object::default();
    made.field("ctf", lists.place(Some(&one.ctf)))
        .field("symbols", lists.place(one.symbols.as_deref()))
        .field("strings", lists.place(one.strings.as_deref()))
        .text("how", one.origin.word().as_bytes())
        .field("model", one.model.map_or("null".to_owned(), |model| text(word_of(model))))
        .field("label", label);
    if let (true, Some(symbols), Some(strings)) = (has_addresses, &one.symbols, &one.strings) {
        let addresses = list(listed_symbols(symbols, strings)?.iter().map(address));
        made.field("addresses", lists.add(addresses.into_bytes().into()));
    }
    Ok(made.end())
}

fn address(one: &ProgramSymbol<'_>) -> String {
    let ProgramSymbol { name, number, address, is_function, .. } = one;
    list([text(name), number.to_string(), address.to_string(), is_function.to_string()].into_iter())
}

fn word_of(model: Model) -> &'static [u8] {
    match model {
        Model::Ilp32 => b"ilp32",
        Model::Lp64 => b"lp64",
    }
}

/// What an ELF file is, as a JSON object; `null` for any other file.
pub fn description(image: &Image) -> Result<String> {
    if !image.is_elf() {
        return Ok("null\n".to_owned());
    }
    let file = Debuggee::of(image)?;
    let section = |name: &str| file.section_of(name).and_then(|at| file.sections.get(at));
    let has_debug =
        |name: &&str| section(name).is_some_and(|one| one.kind != SHT_NOBITS && one.size > 0);
    let build_id: String = file.build_id().iter().map(|byte| format!("{byte:02x}")).collect();
    let text_at = section(".text").map_or("null".to_owned(), |one| one.address.to_string());
    let mut made = Object::default();
    made.text("kind", kind_of(file.head.kind).as_bytes())
        .text("model", word_of(file.model))
        .field("entry", file.head.entry)
        .field("text", text_at)
        .text("build_id", build_id.as_bytes())
        .field("has_ctf", SECTIONS.iter().any(|name| section(name).is_some()))
        .field("has_debug", DEBUG.iter().any(has_debug));
    Ok(made.end() + "\n")
}

fn kind_of(kind: u16) -> &'static str {
    match kind {
        ET_REL => "object",
        ET_EXEC => "program",
        ET_DYN => "library",
        ET_CORE => "core",
        _ => "other",
    }
}

/// The library's input for a file, with the symbols that only the dictionary has names for.
pub fn library_input<'a>(
    image: &'a Image,
    reading: &ctfd_read::inputs::Options,
) -> Result<LibraryInput<'a>> {
    let mut found = opening::library_input(image, reading)?;
    if found.has_more_names() {
        found.add_names();
    }
    crate::types::open::judge_model(&mut found, reading.model, image.path())
        .map_err(|failure| Error(failure.to_string()))?;
    Ok(found)
}
