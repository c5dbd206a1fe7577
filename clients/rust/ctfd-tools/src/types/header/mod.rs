//! Declarations of a dictionary's types that a C compiler accepts, each after all that it needs.
//!
//! gcc gives them the sizes and offsets of the dictionary. If C cannot express a type, a comment
//! says so.

mod abi;
mod forms;
mod naming;
mod order;

use super::catalog::{Catalog, Number, Part, Record, Value};
use super::declare::{declarator_by, Declarator};
use super::failure::Outcome;
use super::file_types::FileTypes;
use super::text::printable;
use ctfd::Kind;
use forms::{Forms, MemberForm};
use naming::{comment, identifier};
use std::cell::RefCell;
use std::collections::{HashMap, HashSet};
use std::io::Write;

const MOST_IN_PLACE: usize = 512;
const DEEPEST: usize = 16;
/// Writes the declarations of all own types, or of the named ones, with all that these need.
pub fn write(
    whole: &FileTypes<'_, '_>,
    patterns: &[Vec<u8>],
    output: &mut dyn Write,
) -> Outcome<()> {
    let own = whole.names.catalog.own_numbers();
    let wanted = match patterns {
        [] => own.collect(),
        patterns => whole.names.matching(patterns, own)?,
    };
    let header = Header::new(whole.names.catalog, &wanted);
    let mut text = String::new();
    let path = printable(whole.path).replace("*/", "* /");
    text += &format!("/* The types of {path}. */\n");
    header.add_forwards(&mut text);
    for &number in &header.order {
        header.add_definition(number, &mut text);
        header.written.borrow_mut().insert(number);
        if text.len() > 1 << 16 {
            output.write_all(text.as_bytes())?;
            text.clear();
        }
    }
    output.write_all(text.as_bytes())?;
    Ok(())
}

/// Types in an order that a compiler accepts, and their names in the header.
///
/// A type keeps its own name if C allows it and no other type has it; else the name begins with
/// `ctfd_` or ends with the type's number.
struct Header<'h, 'd> {
    catalog: &'h Catalog<'d>,
    forms: Forms<'h, 'd>,
    tags: RefCell<HashMap<String, Number>>,
    ordinary: RefCell<HashMap<String, Number>>,
    names: RefCell<HashMap<Number, String>>,
    lengths: RefCell<HashMap<Number, usize>>,
    written: RefCell<HashSet<Number>>,
    /// Structs that declarations refer to, even without their definition, in order of occurrence.
    pointed: Vec<Number>,
    /// Unnamed structs that need a name.
    tagged: HashSet<Number>,
    order: Vec<Number>,
}

impl<'h, 'd> Header<'h, 'd> {
    fn new(catalog: &'h Catalog<'d>, wanted: &[Number]) -> Header<'h, 'd> {
        let mut made = Header {
            catalog,
            forms: Forms::new(catalog),
            tags: RefCell::default(),
            ordinary: RefCell::default(),
            names: RefCell::default(),
            lengths: RefCell::default(),
            written: RefCell::default(),
            pointed: Vec::new(),
            tagged: HashSet::new(),
            order: Vec::new(),
        };
        made.put_in_order(wanted);
        made
    }

    fn record(&self, number: Number) -> &'h Record<'d> {
        self.catalog.record(number)
    }

    fn add_forwards(&self, text: &mut String) {
        let is_listed = |number: &Number| {
            let record = self.record(*number);
            let is_forward = record.kind == Kind::Forward && record.tag != Kind::Enum;
            (record.is_aggregate() || is_forward) && !self.is_in_place(*number)
        };
        let mut known = HashSet::new();
        for &number in self.order.iter().chain(&self.pointed).filter(|number| is_listed(number)) {
            let name = self.name(number);
            if known.insert(name.clone()) {
                *text += &format!("{name};\n");
            }
        }
    }

    /// Whether a struct or union is written where it is used, since it is unnamed and short.
    fn is_in_place(&self, number: Number) -> bool {
        self.record(number).name.is_empty()
            && !self.tagged.contains(&number)
            && self.length(number) <= MOST_IN_PLACE
    }

    /// The number of members, including those of unnamed members, up to a limit. The lengths of
    /// contained types are known before, since these come first in the order.
    fn length(&self, number: Number) -> usize {
        if let Some(&known) = self.lengths.borrow().get(&number) {
            return known;
        }
        let mut length = 0;
        for part in self.catalog.members(number) {
            let inner = self.catalog.underlying(part.of).number;
            let record = self.record(inner);
            let is_open = record.is_aggregate() && record.name.is_empty();
            length += match is_open {
                true => self.lengths.borrow().get(&inner).copied().unwrap_or(MOST_IN_PLACE),
                false => 1,
            };
        }
        let length = (length + 1).min(MOST_IN_PLACE + 1);
        self.lengths.borrow_mut().insert(number, length);
        length
    }

    fn add_definition(&self, number: Number, text: &mut String) {
        match self.record(number).kind {
            Kind::Struct | Kind::Union => {
                self.length(number);
                self.forms.form(number);
                if !self.is_in_place(number) {
                    self.add_aggregate(number, &format!("{} {{", self.name(number)), ";", 0, text);
                }
            }
            Kind::Enum => self.add_enum(number, text),
            Kind::Typedef => self.add_typedef(number, text),
            Kind::Integer | Kind::Float => self.add_number(number, text),
            _ => {}
        }
    }

    fn add_aggregate(
        &self,
        number: Number,
        head: &str,
        behind: &str,
        depth: usize,
        text: &mut String,
    ) {
        let form = self.forms.form(number);
        let tabs = "\t".repeat(depth);
        *text += &format!("{tabs}{head}\n");
        if form.is_bytes {
            let why = comment("C can not say its members: its bytes alone");
            *text += &format!("{tabs}\t{why}\n");
            *text += &format!("{tabs}\tchar ctfd_bytes[{}];\n", form.shape.size);
        }
        let mut names = HashSet::new();
        let last = form.members.len().wrapping_sub(1);
        let is_struct = self.record(number).kind == Kind::Struct;
        for (place, said) in form.members.iter().enumerate() {
            let member = Member { place, is_last: is_struct && 0 < place && place == last };
            self.add_member(said, member, &mut names, depth + 1, text);
        }
        *text += &format!("{tabs}}}{}{behind}\n", form.attribute());
    }

    /// Writes a member. The last one of a struct may be an array of unknown length.
    fn add_member(
        &self,
        said: &MemberForm<'d>,
        member: Member,
        names: &mut HashSet<&'d [u8]>,
        depth: usize,
        text: &mut String,
    ) {
        let tabs = "\t".repeat(depth);
        let place = member.place;
        let part = match said {
            MemberForm::Bytes(size) => {
                *text += &format!("{tabs}char ctfd_hole_{place}[{size}];\n");
                return;
            }
            MemberForm::Bits(width) => {
                *text += &format!("{tabs}unsigned int : {width};\n");
                return;
            }
            MemberForm::Part(part, width) => {
                if let Some(width) = width {
                    let (name, why) = member_name(part, place, names);
                    let told = format!("{} {name}", self.bit_field(part));
                    *text += &format!("{tabs}{}: {width};{why}\n", told.trim_end());
                    return;
                }
                part
            }
        };
        let (name, why) = member_name(part, place, names);
        let called = |one| self.base_name(one);
        let declarator = declarator_by(self.catalog, part.of, &called, member.is_last);
        if self.is_open(&declarator) && depth <= DEEPEST {
            let head = opening(&declarator, self.record(declarator.base).word(), "");
            let behind = format!(" {}{name}{}", declarator.left, declarator.right);
            let behind = format!("{};{why}", behind.trim_end());
            self.add_aggregate(declarator.base, &head, &behind, depth, text);
        } else {
            let name = if name.is_empty() { format!("ctfd_member_{place}") } else { name };
            *text += &format!("{tabs}{};{why}\n", declarator.around(&name));
        }
    }

    /// Whether the struct or union at the base of a declaration is written in place.
    fn is_open(&self, declarator: &Declarator) -> bool {
        !declarator.has_star()
            && self.record(declarator.base).is_aggregate()
            && self.is_in_place(declarator.base)
    }

    /// The type of a bit-field, without its typedefs, which name a type of the bit-field's width.
    fn bit_field(&self, part: &Part<'_>) -> &'static str {
        let end = self.catalog.resolve(part.of);
        self.forms.alike(self.record(end), end).map_or("unsigned int", |alike| alike.name)
    }

    /// The name of a declaration's base type, which must be declared by then.
    fn base_name(&self, number: Number) -> String {
        if number == 0 {
            return "void".to_owned();
        }
        match self.record(number).kind {
            Kind::Typedef if !self.written.borrow().contains(&number) => {
                let end = self.catalog.resolve(number);
                match self.record(end).is_aggregate() {
                    true => self.name(end),
                    false => "void *".to_owned(),
                }
            }
            Kind::Unknown => "void".to_owned(),
            _ => self.name(number),
        }
    }

    fn add_enum(&self, number: Number, text: &mut String) {
        let (shape, is_packed) = self.forms.enumeration(number);
        let size = self.catalog.size(number).unwrap_or(0);
        if shape.size != size.into() {
            let name = self.name(number);
            let said = format!("{name}: {size} bytes here, {} in C", shape.size);
            *text += &format!("{}\n", comment(&said));
        }
        *text += &format!("{} {{\n", self.name(number));
        let is_free = |one: &&Value| {
            identifier(&one.name).is_some_and(|name| {
                let mut taken = self.ordinary.borrow_mut();
                *taken.entry(name.to_owned()).or_insert(number) == number
            })
        };
        let values = self.catalog.values(number);
        let free: HashSet<(&[u8], i32)> =
            values.iter().filter(is_free).map(|one| (&one.name[..], one.value)).collect();
        for one in values {
            let name = printable(&one.name);
            *text += &match free.contains(&(&one.name[..], one.value)) {
                true => format!("\t{name} = {},\n", one.value),
                false => {
                    let said = format!("{name} = {}: not free, or no name in C", one.value);
                    format!("\t{}\n", comment(&said))
                }
            };
        }
        if free.is_empty() {
            *text += &format!("\tctfd_enum_{number}\n");
        }
        *text += if is_packed { "} __attribute__((packed));\n" } else { "};\n" };
    }

    fn add_typedef(&self, number: Number, text: &mut String) {
        let name = self.name(number);
        if self.catalog.span(number).width.is_some() {
            return; // a bit-field's, which is written without it
        }
        let other = self.ordinary.borrow().get(&name).copied().unwrap_or(number);
        if other != number && !name.ends_with(&format!("__{number}")) {
            return; // the same typedef again
        }
        let called = |one| self.base_name(one);
        let of = self.record(number).of;
        let declarator = declarator_by(self.catalog, of, &called, false);
        if self.is_open(&declarator) {
            let head = opening(&declarator, self.record(declarator.base).word(), "typedef ");
            let behind = format!(" {}{name}{};", declarator.left, declarator.right);
            self.add_aggregate(declarator.base, &head, &behind, 0, text);
        } else {
            *text += &format!("typedef {};\n", declarator.around(&name));
        }
    }

    /// Writes a number for which the compiler has no name.
    fn add_number(&self, number: Number, text: &mut String) {
        let record = self.record(number);
        let name = self.name(number);
        let alike = self.forms.alike(record, number);
        let is_known = alike.is_some_and(|alike| alike.name.as_bytes() == record.name);
        if name == "void" || is_known || self.catalog.span(number).width.is_some() {
            return;
        }
        *text += &match alike {
            Some(alike) => format!("typedef {} {name};\n", alike.name),
            None => {
                let size = self.catalog.size(number).unwrap_or(0);
                format!("typedef struct {{ char ctfd_bytes[{size}]; }} {name};\n")
            }
        };
    }
}

/// The index of a member, and whether it is the last of several in a struct.
#[derive(Clone, Copy)]
struct Member {
    place: usize,
    is_last: bool,
}

/// The name of a member in C, and a comment with its own name if that differs.
fn member_name<'d>(
    part: &Part<'d>,
    place: usize,
    names: &mut HashSet<&'d [u8]>,
) -> (String, String) {
    if part.name.is_empty() {
        return (String::new(), String::new());
    }
    match identifier(part.name).filter(|_| names.insert(part.name)) {
        Some(name) => (name.to_owned(), String::new()),
        None => {
            let name = printable(part.name);
            (format!("ctfd_member_{place}"), format!(" {}", comment(&name)))
        }
    }
}

/// The start of a declaration with a struct or union in place.
fn opening(declarator: &Declarator, word: &str, before: &str) -> String {
    let qualifiers: String = declarator.qualifiers.iter().map(|word| format!("{word} ")).collect();
    format!("{before}{qualifiers}{word} {{")
}
