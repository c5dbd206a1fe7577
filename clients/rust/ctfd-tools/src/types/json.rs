//! Types as JSON objects, one on each line: the output of `--json`.
//!
//! `offset` and `bits` of members are in bits, as in the library; all else is in bytes.

use super::catalog::Number;
use super::embeds::EmbeddedMember;
use super::file_types::FileTypes;
use super::layout::Layout;
use super::text::code_points;
use ctfd::Kind;
use std::fmt::Write as _;

/// An object while it is written, field by field.
#[derive(Default)]
pub struct Object(String);

impl Object {
    /// Adds a field whose value is JSON.
    pub fn field(&mut self, name: &str, value: impl std::fmt::Display) -> &mut Object {
        let mark = if self.0.is_empty() { '{' } else { ',' };
        let _ = write!(self.0, "{mark}\"{name}\":{value}");
        self
    }

    /// Adds a field with a text.
    pub fn text(&mut self, name: &str, value: &[u8]) -> &mut Object {
        self.field(name, text(value))
    }

    /// Ends the object, and returns it.
    pub fn end(&mut self) -> String {
        match self.0.is_empty() {
            true => "{}".to_owned(),
            false => std::mem::take(&mut self.0) + "}",
        }
    }
}

/// A name as a JSON string in ASCII, which keeps all bytes.
pub fn text(name: &[u8]) -> String {
    let mut made = String::with_capacity(name.len() + 2);
    made.push('"');
    for point in code_points(name) {
        match point {
            0x22 => made += "\\\"",
            0x5c => made += "\\\\",
            0x08 => made += "\\b",
            0x09 => made += "\\t",
            0x0a => made += "\\n",
            0x0c => made += "\\f",
            0x0d => made += "\\r",
            0x20..=0x7e => made.extend(char::from_u32(point)),
            0x10000.. => {
                let rest = point - 0x10000;
                let (high, low) = (0xd800 + (rest >> 10), 0xdc00 + (rest & 0x3ff));
                let _ = write!(made, "\\u{high:04x}\\u{low:04x}");
            }
            _ => {
                let _ = write!(made, "\\u{point:04x}");
            }
        }
    }
    made.push('"');
    made
}

/// A list whose items are JSON.
pub fn list(items: impl Iterator<Item = String>) -> String {
    format!("[{}]", items.collect::<Vec<_>>().join(","))
}

/// A type with all its properties.
pub fn of_type(whole: &FileTypes<'_, '_>, number: Number) -> String {
    let catalog = whole.names.catalog;
    let record = catalog.record(number);
    let size = catalog.size(number).map_or("null".to_owned(), |size| size.to_string());
    let mut made = Object::default();
    made.text("file", whole.path)
        .field("number", number)
        .text("kind", word_of(record.kind).as_bytes())
        .text("name", &record.name)
        .text("label", whole.names.label(number).as_bytes())
        .field("size", size);
    add_details(whole, number, &mut made);
    made.end()
}

fn add_details(whole: &FileTypes<'_, '_>, number: Number, made: &mut Object) {
    let catalog = whole.names.catalog;
    let record = catalog.record(number);
    let spelled = |of: Number| text(whole.names.spelling(of).as_bytes());
    match record.kind {
        Kind::Struct | Kind::Union => {
            let figures = whole.sizes.figures(number);
            made.field("members", members(whole, number))
                .field("holes", figures.holes)
                .field("in_holes", figures.in_holes)
                .field("bit_holes", figures.bit_holes)
                .field("padding", figures.padding)
                .field("saved", figures.saved);
        }
        Kind::Enum => {
            let values = catalog.values(number).iter().map(|one| {
                Object::default().text("name", &one.name).field("value", one.value).end()
            });
            made.field("enumerators", list(values));
        }
        Kind::Function => {
            let signature = catalog.signature(number);
            made.field("returns", spelled(signature.returns))
                .field("varargs", signature.is_open)
                .field("arguments", list(signature.arguments.iter().map(|&one| spelled(one))));
        }
        Kind::Integer | Kind::Float => {
            let (flags, bits) = record.encoding.map_or((0, 0), |it| (it.encoding, it.bits));
            made.field("encoding", flags).field("bits", bits);
        }
        Kind::Forward => {
            made.text("tag", record.word().as_bytes());
        }
        Kind::Unknown => {}
        _ => {
            made.field("type", spelled(record.of)).field("to", record.of);
            if record.kind == Kind::Array {
                made.field("count", record.elements);
            }
        }
    }
}

fn members(whole: &FileTypes<'_, '_>, number: Number) -> String {
    let layout = Layout::of(whole.names.catalog, number);
    list(layout.places.iter().map(|place| {
        let of = place.part.of;
        let mut made = Object::default();
        made.text("name", place.part.name)
            .text("type", whole.names.spelling(of).as_bytes())
            .field("number", of)
            .field("offset", place.start)
            .field("bits", place.bits);
        if place.width.is_some() {
            made.field("bit_field", true);
        }
        made.end()
    }))
}

/// A member that contains a type or a pointer to it.
pub fn embedded_member(whole: &FileTypes<'_, '_>, one: &EmbeddedMember<'_>) -> String {
    Object::default()
        .text("file", whole.path)
        .field("number", one.owner)
        .text("label", whole.names.label(one.owner).as_bytes())
        .field("path", list(one.path.iter().map(|name| text(name))))
        .text("type", whole.names.spelling(one.of).as_bytes())
        .field("offset", one.offset)
        .field("elements", one.elements)
        .end()
}

/// A function, and how it uses a type.
pub fn function(whole: &FileTypes<'_, '_>, name: &[u8], how: &[&str], declared: &str) -> String {
    Object::default()
        .text("file", whole.path)
        .text("function", name)
        .field("how", list(how.iter().map(|word| text(word.as_bytes()))))
        .text("text", declared.as_bytes())
        .end()
}

/// The service's word for a kind.
pub fn word_of(kind: Kind) -> &'static str {
    match kind {
        Kind::Unknown => "unknown",
        Kind::Integer => "integer",
        Kind::Float => "float",
        Kind::Pointer => "pointer",
        Kind::Array => "array",
        Kind::Function => "function",
        Kind::Struct => "struct",
        Kind::Union => "union",
        Kind::Enum => "enum",
        Kind::Forward => "forward",
        Kind::Typedef => "typedef",
        Kind::Volatile => "volatile",
        Kind::Const => "const",
        Kind::Restrict => "restrict",
    }
}
