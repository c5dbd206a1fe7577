//! Writes the bytes of a dictionary of CTF version 2, from a table that was reduced to what that
//! can represent.

use crate::error::{refuse, Result};
use crate::hashed::Map;
use crate::table::{Kind, Record, Table};

const MAGIC: u16 = 0xcff1;
const VERSION: u8 = 2;
/// Structs and unions of at least this many bytes have members in the long form.
pub const LONG_MEMBERS: u64 = 8192;
/// The value of a record's size field if the size does not fit it.
pub const LONG_SIZE: u64 = 0xffff;
/// Own types of a child have numbers above this one.
const CHILD: u32 = 0x8000;
/// The most types of a dictionary.
pub const MOST_TYPES: u32 = 32_766;

/// A buffer of little-endian numbers.
#[derive(Default)]
struct Bytes(Vec<u8>);

impl Bytes {
    fn half(&mut self, value: u64) {
        self.0.extend((value as u16).to_le_bytes());
    }

    fn word(&mut self, value: u64) {
        self.0.extend((value as u32).to_le_bytes());
    }

    /// Appends a 64-bit number, its high half first.
    fn two(&mut self, value: u64) {
        self.word(value >> 32);
        self.word(value);
    }
}

/// The string section, in which each name occurs once.
struct Names<'t> {
    bytes: Vec<u8>,
    known: Map<&'t [u8], u64>,
}

impl<'t> Names<'t> {
    fn place(&mut self, name: &'t [u8]) -> u64 {
        let name = name.split(|&byte| byte == 0).next().unwrap_or(name);
        if name.is_empty() {
            return 0;
        }
        let end = self.bytes.len() as u64;
        let place = *self.known.entry(name).or_insert(end);
        if place == end {
            self.bytes.extend(name);
            self.bytes.push(0);
        }
        place
    }

    fn append(&mut self, name: &[u8]) -> u64 {
        let place = self.bytes.len() as u64;
        self.bytes.extend(name);
        self.bytes.push(0);
        place
    }
}

/// Encodes a table. If `parent_name` is not empty, the dictionary is a child: the first `bases`
/// types of the table are then those of the parent, and are not written.
pub fn encode(table: &Table<'_>) -> Result<Vec<u8>> {
    let is_child = !table.parent_name.is_empty();
    let bases = if is_child { table.bases } else { 0 };
    if table.len() - bases > MOST_TYPES {
        let count = table.len() - bases;
        return refuse(format!("{count} types are more than the {MOST_TYPES} of a dictionary"));
    }
    let number = |n: u32| if is_child && n > bases { n - bases + CHILD } else { n };
    let mut names = Names { bytes: vec![0], known: Map::default() };
    let (parent, label) = (names.place(&table.parent_name), names.place(&table.parent_label));
    let mut types = Bytes::default();
    for record in &table.records[bases as usize..] {
        write(record, &number, &mut names, &mut types)?;
    }
    let (objects, functions) = symbols(table, &number);
    let mut labels = Bytes::default();
    for (label, last) in &table.labels {
        labels.word(names.append(label));
        labels.word(number(*last).into());
    }
    let mut made = Bytes::default();
    made.half(MAGIC.into());
    made.0.extend([VERSION, 0]);
    made.word(label);
    made.word(parent);
    let mut end = 0;
    made.word(end);
    for section in [&labels, &objects, &functions, &types] {
        end += section.0.len() as u64;
        made.word(end);
    }
    made.word(names.bytes.len() as u64);
    let sections = [labels.0, objects.0, functions.0, types.0, names.bytes];
    made.0.extend(sections.concat());
    Ok(made.0)
}

/// The entries of objects and of functions, padded to four bytes together.
fn symbols(table: &Table<'_>, number: &impl Fn(u32) -> u32) -> (Bytes, Bytes) {
    let (mut objects, mut functions) = (Bytes::default(), Bytes::default());
    table.objects.iter().for_each(|&n| objects.half(number(n).into()));
    for one in &table.functions {
        let Some(function) = one else {
            functions.half(0);
            continue;
        };
        let listed = arguments(function, number);
        functions.half((Kind::Function as u64) << 11 | 1 << 10 | listed.len() as u64);
        functions.half(number(function.of).into());
        listed.into_iter().for_each(|n| functions.half(n));
    }
    while (objects.0.len() + functions.0.len()) % 4 != 0 {
        functions.0.push(0);
    }
    (objects, functions)
}

/// The arguments of a function. A 0 after them means that more may follow.
fn arguments(function: &Record<'_>, number: &impl Fn(u32) -> u32) -> Vec<u64> {
    let mut listed: Vec<u64> = function.arguments().iter().map(|&n| number(n).into()).collect();
    listed.extend(function.varargs.then_some(0));
    listed
}

/// Writes one record, in the long form if its size needs it.
fn write<'t>(
    record: &'t Record<'_>,
    number: &impl Fn(u32) -> u32,
    names: &mut Names<'t>,
    made: &mut Bytes,
) -> Result<()> {
    let length = match record.kind {
        Kind::Function => arguments(record, number).len(),
        _ => record.members().len() + record.values().len(),
    };
    let field = match record.kind {
        Kind::Forward => record.tag as u64,
        Kind::Integer | Kind::Float | Kind::Array | Kind::Struct | Kind::Union | Kind::Enum => {
            record.size
        }
        _ => number(record.of).into(),
    };
    let head = made.0.len();
    made.word(0); // the name, which comes after those of members in the strings
    made.half((record.kind as u64) << 11 | u64::from(record.root) << 10 | length as u64);
    made.half(field.min(LONG_SIZE));
    if field >= LONG_SIZE {
        made.two(field);
    }
    write_tail(record, number, names, made)?;
    let name = names.place(&record.name) as u32;
    made.0[head..head + 4].copy_from_slice(&name.to_le_bytes());
    Ok(())
}

/// Writes the part of a record after its head.
fn write_tail<'t>(
    record: &'t Record<'_>,
    number: &impl Fn(u32) -> u32,
    names: &mut Names<'t>,
    tail: &mut Bytes,
) -> Result<()> {
    match record.kind {
        Kind::Integer | Kind::Float => {
            if record.encoding.bits > 0xffff {
                return refuse(format!(
                    "{}: a width that no type of C has: damage",
                    record.tag_name()
                ));
            }
            let (flags, offset) =
                (u64::from(record.encoding.flags), u64::from(record.encoding.offset));
            tail.word(flags << 24 | offset << 16 | record.encoding.bits);
        }
        Kind::Array => {
            tail.half(number(record.of).into());
            tail.half(number(record.index).into());
            tail.word(record.elements);
        }
        Kind::Function => {
            let listed = arguments(record, number);
            listed.iter().for_each(|&n| tail.half(n));
            if listed.len() % 2 != 0 {
                tail.half(0);
            }
        }
        Kind::Struct | Kind::Union => members(record, number, names, tail)?,
        _ => {
            for one in record.values() {
                tail.word(names.place(&one.name));
                tail.word(one.value as u64);
            }
        }
    }
    Ok(())
}

fn members<'t>(
    record: &'t Record<'_>,
    number: &impl Fn(u32) -> u32,
    names: &mut Names<'t>,
    tail: &mut Bytes,
) -> Result<()> {
    for one in record.members() {
        tail.word(names.place(&one.name));
        tail.half(number(one.of).into());
        if record.size >= LONG_MEMBERS {
            tail.half(0);
            tail.two(one.offset);
        } else if one.offset <= 0xffff {
            tail.half(one.offset);
        } else {
            let tagged = record.tag_name();
            return refuse(format!("{tagged}: a member lies outside of it: damage"));
        }
    }
    Ok(())
}
