//! All types of some files as rows of JSON, which refer to each other by index; row 0 is void.
//! Functions and variables are rows of their own.

use crate::types::catalog::{Catalog, Number, Record, SymbolAnswer};
use crate::types::json::{list, text, word_of, Object};
use crate::types::open::display_path;
use crate::types::symbol_lists::symbols_with_types;
use crate::types::text::printable;
use ctfd::Kind;
use ctfd_read::opening::LibraryInput;
use std::collections::HashMap;
use std::path::Path;

/// The kinds. Rows refer to them by their index here plus 1; 0 is void.
const KINDS: [Kind; 14] = [
    Kind::Integer,
    Kind::Float,
    Kind::Pointer,
    Kind::Array,
    Kind::Function,
    Kind::Struct,
    Kind::Union,
    Kind::Enum,
    Kind::Forward,
    Kind::Typedef,
    Kind::Volatile,
    Kind::Const,
    Kind::Restrict,
    Kind::Unknown,
];
const VOID: &str = "[0,\"\"]";

/// The indices of rows by the numbers of types.
type Places = HashMap<Number, usize>;

/// The rows of all files. The types of a parent occur once, before those of its children.
pub struct Rows {
    parent: String,
    /// A row for each type; empty until it is made.
    rows: Vec<String>,
    files: Vec<String>,
    copies: Vec<usize>,
    parents: Places,
    objects: Vec<String>,
    functions: Vec<String>,
}

impl Rows {
    /// No rows but void's; `parent` is the path of the parent.
    pub fn new(parent: Option<&Path>) -> Rows {
        Rows {
            parent: parent.map_or("the parent".to_owned(), display_path),
            rows: vec![VOID.to_owned()],
            files: Vec::new(),
            copies: Vec::new(),
            parents: Places::new(),
            objects: Vec::new(),
            functions: Vec::new(),
        }
    }

    /// Adds the types of a file, and its functions and variables.
    pub fn add(&mut self, path: &Path, catalog: &Catalog<'_>, handed: &LibraryInput<'_>) {
        let above: Vec<Number> = catalog.all().filter(|&number| !catalog.is_own(number)).collect();
        if !above.is_empty() && self.parents.is_empty() {
            self.parents = self.reserve_rows(catalog, &above, &self.parent.clone());
        }
        let own: Vec<Number> = catalog.own_numbers().collect();
        let mut places = self.parents.clone();
        places.extend(self.reserve_rows(catalog, &own, &display_path(path)));
        for number in catalog.all() {
            let place = places[&number];
            if catalog.is_own(number) || self.rows[place].is_empty() {
                self.rows[place] = row(catalog, number, &places);
                if is_copy(catalog, number) {
                    self.copies.push(place);
                }
            }
        }
        self.add_symbols(catalog, handed, &places);
    }

    fn add_symbols(&mut self, catalog: &Catalog<'_>, handed: &LibraryInput<'_>, places: &Places) {
        let place = |number: Number| places.get(&number).copied().unwrap_or(0);
        let file = self.files.len() - 1;
        for one in symbols_with_types(catalog, handed) {
            let name = text(printable(&one.name).as_bytes());
            match one.answer {
                SymbolAnswer::Object(of) => {
                    self.objects.push(format!("[{name},{},{file}]", place(of)))
                }
                SymbolAnswer::Function(signature) => {
                    let takes = signature.arguments.iter().map(|&one| place(one).to_string());
                    let (takes, returns) = (list(takes), place(signature.returns));
                    let is_open = u8::from(signature.is_open);
                    self.functions.push(format!("[{name},{returns},{takes},{is_open},{file}]"));
                }
            }
        }
    }

    /// Reserves rows for some types. The page's list of files has an entry for each run of
    /// consecutive numbers.
    fn reserve_rows(&mut self, catalog: &Catalog<'_>, numbers: &[Number], path: &str) -> Places {
        let first = self.rows.len();
        let pointer = if catalog.is_ilp32() { 4 } else { 8 };
        let path = text(path.as_bytes());
        let mut last = None;
        for (place, &number) in numbers.iter().enumerate() {
            if last.is_none_or(|last| last + 1 != number) {
                self.files.push(format!("[{path},{},{number},{pointer}]", first + place));
            }
            last = Some(number);
        }
        if numbers.is_empty() {
            self.files.push(format!("[{path},{first},0,{pointer}]"));
        }
        self.rows.resize(first + numbers.len(), String::new());
        numbers.iter().enumerate().map(|(place, &number)| (number, first + place)).collect()
    }

    /// All rows as a JSON object that can be embedded in a page.
    pub fn json(self) -> String {
        let kinds = std::iter::once("void").chain(KINDS.into_iter().map(word_of));
        let kinds = list(kinds.map(|word| text(word.as_bytes())));
        let copies = list(self.copies.iter().map(usize::to_string));
        let rows = |rows: Vec<String>| list(rows.into_iter());
        let mut made = Object::default();
        made.field("kinds", kinds)
            .field("files", rows(self.files))
            .field("types", rows(self.rows))
            .field("copies", copies)
            .field("objects", rows(self.objects))
            .field("functions", rows(self.functions));
        made.end().replace('<', "\\u003c") // so that no name ends the script
    }
}

/// The row of a type: `kind, name, size`, followed by what depends on the kind.
fn row(catalog: &Catalog<'_>, number: Number, places: &Places) -> String {
    let record = catalog.record(number);
    let kind = 1 + KINDS.iter().position(|&kind| kind == record.kind).unwrap_or(KINDS.len() - 1);
    let size = catalog.size(number).map_or("null".to_owned(), |size| size.to_string());
    format!("[{kind},{},{size},{}]", name(&record.name), behind(catalog, number, record, places))
}

fn name(bytes: &[u8]) -> String {
    text(printable(bytes).as_bytes())
}

fn behind(catalog: &Catalog<'_>, number: Number, record: &Record<'_>, places: &Places) -> String {
    let place = |number: Number| places.get(&number).copied().unwrap_or(0);
    match record.kind {
        Kind::Integer | Kind::Float => {
            let (bits, offset) = record.encoding.map_or((0, 0), |lies| (lies.bits, lies.offset));
            format!("{bits},{offset},{}", u8::from(catalog.span(number).width.is_some()))
        }
        Kind::Struct | Kind::Union => list(
            catalog
                .members(number)
                .iter()
                .map(|part| format!("[{},{},{}]", name(part.name), place(part.of), part.offset)),
        ),
        Kind::Enum => {
            let values = catalog.values(number).iter();
            list(values.map(|one| format!("[{},{}]", name(&one.name), one.value)))
        }
        Kind::Array => format!("{},{}", place(record.of), record.elements),
        Kind::Function => {
            let signature = catalog.signature(number);
            let arguments = list(signature.arguments.iter().map(|&one| place(one).to_string()));
            format!("{},{arguments},{}", place(record.of), u8::from(signature.is_open))
        }
        Kind::Forward => text(word_of(record.tag).as_bytes()),
        _ => place(record.of).to_string(),
    }
}

/// Whether a type is a hidden copy that only bit-fields use.
fn is_copy(catalog: &Catalog<'_>, number: Number) -> bool {
    let end = catalog.record(catalog.resolve(number));
    !catalog.record(number).is_root && end.kind == Kind::Integer && !end.is_root
}
