//! Reduces a table to what CTF version 2 can represent, and records the losses.

use crate::table::{Encoding, Kind, Member, Name, Parts, Record, Table};
use std::borrow::Cow;
use std::collections::HashMap;
use std::ops::Range;

const MOST_PARTS: usize = 1023;
const MOST_COUNT: u64 = 0xffff_ffff;
const DEEPEST: usize = 512;

/// Reduces a table to what CTF can represent, and records the losses.
pub fn fit(table: &mut Table<'_>) {
    let mut widths = Widths::default();
    for number in 1..=table.len() {
        if fits(table.get(number)) {
            continue;
        }
        let mut record = table.get(number).clone();
        match record.kind {
            Kind::Struct | Kind::Union => aggregate(table, &mut record, &mut widths),
            Kind::Float => float(table, &mut record),
            Kind::Atomic => {
                record.kind = Kind::Typedef;
                record.tag = Kind::Typedef;
                record.name = Cow::Owned(format!("_Atomic({})", spelling(table, record.of)).into());
            }
            Kind::Array => long_array(table, &mut record),
            Kind::Function => function(&mut table.losses, &mut record),
            Kind::Enum => enumerators(table, &mut record),
            _ => continue,
        }
        table.records[number as usize - 1] = record;
    }
    let Table { functions, losses, .. } = table;
    functions.iter_mut().flatten().for_each(|one| function(losses, one));
}

/// Whether CTF can represent a type as it is.
fn fits(record: &Record<'_>) -> bool {
    match record.kind {
        Kind::Struct | Kind::Union => {
            let members = record.members();
            members.len() <= MOST_PARTS && members.iter().all(|one| one.width.is_none())
        }
        Kind::Float => record.encoding.flags != 0,
        Kind::Atomic => false,
        Kind::Array => record.elements <= MOST_COUNT,
        Kind::Function => record.arguments().len() <= argument_room(record),
        Kind::Enum => {
            let (values, held) = (record.values(), values_held(record));
            values.len() <= MOST_PARTS && values.iter().all(|one| held.contains(&one.value))
        }
        _ => true,
    }
}

/// The number of arguments that CTF can hold for a function.
fn argument_room(record: &Record<'_>) -> usize {
    MOST_PARTS - usize::from(record.varargs)
}

/// The enumerator values that CTF can hold for an enum.
fn values_held(record: &Record<'_>) -> Range<i128> {
    -(1 << 31)..if record.size == 4 { 1 << 32 } else { 1 << 31 }
}

fn float(table: &mut Table<'_>, record: &mut Record<'_>) {
    record.encoding.flags = match &*record.name {
        b"float" | b"_Float32" | b"f32" => 1,
        b"double" | b"_Float64" | b"_Float32x" | b"f64" => 2,
        b"complex float" | b"_Complex float" => 3,
        b"complex double" | b"_Complex double" => 4,
        b"complex long double" | b"_Complex long double" => 5,
        b"long double" | b"_Float64x" => 6,
        _ => 0,
    };
    if record.encoding.flags == 0 {
        let name = record.tag_name();
        table.losses.push(format!(
            "{name}: CTF has no word for how this float is encoded; its encoding is 0"
        ));
    }
}

fn long_array(table: &mut Table<'_>, record: &mut Record<'_>) {
    table.losses.push(format!(
        "an array of {} elements: CTF counts up to {MOST_COUNT}; so many stand in its place, and \
         its size is right",
        record.elements
    ));
    record.size = record.elements.saturating_mul(size_of(table, record.of).unwrap_or(0));
    record.elements = MOST_COUNT;
}

fn function(losses: &mut Vec<String>, record: &mut Record<'_>) {
    let (count, room) = (record.arguments().len(), argument_room(record));
    if count > room {
        losses.push(format!(
            "a function of {count} arguments: CTF holds {room}; the others are left out"
        ));
        record.parts = Parts::Arguments(record.arguments()[..room].into());
    }
}

fn enumerators(table: &mut Table<'_>, record: &mut Record<'_>) {
    let held = values_held(record);
    let tagged = record.tag_name();
    let Parts::Values(listed) = std::mem::take(&mut record.parts) else { return };
    let mut kept = listed.into_vec();
    kept.retain(|one| {
        let fits = held.contains(&one.value);
        if !fits {
            table.losses.push(format!(
                "{tagged}: its enumerator {} is {}, and CTF holds 32 bits; it is left out",
                String::from_utf8_lossy(&one.name),
                one.value
            ));
        }
        fits
    });
    if kept.len() > MOST_PARTS {
        table.losses.push(format!(
            "{tagged}: it has {} enumerators, and CTF holds {MOST_PARTS}; those from {} on are \
             left out",
            kept.len(),
            String::from_utf8_lossy(&kept[MOST_PARTS].name)
        ));
        kept.truncate(MOST_PARTS);
    }
    record.parts = Parts::Values(kept.into());
}

fn aggregate<'a>(table: &mut Table<'a>, record: &mut Record<'a>, widths: &mut Widths) {
    let tagged = record.tag_name();
    if let Parts::Members(members) = &mut record.parts {
        members.iter_mut().for_each(|one| widths.member(table, &tagged, one));
    }
    let count = record.members().len();
    if count > MOST_PARTS {
        let word = record.kind.word();
        table.losses.push(format!(
            "{tagged}: it has {count} members, and CTF holds {MOST_PARTS}; they stand in unnamed \
             {word}s within it"
        ));
    }
    while record.members().len() > MOST_PARTS {
        nest(table, record);
    }
}

/// Moves members beyond the limit to unnamed structs or unions, each as large as the whole.
fn nest<'a>(table: &mut Table<'a>, record: &mut Record<'a>) {
    let mut groups = Vec::new();
    for some in record.members().chunks(MOST_PARTS) {
        let mut inner = Record::new(record.kind, Cow::Borrowed(b""));
        inner.size = record.size;
        inner.root = false;
        inner.parts = Parts::Members(some.into());
        let of = table.add(inner);
        groups.push(Member { name: Cow::Borrowed(b""), of, offset: 0, width: None });
    }
    record.parts = Parts::Members(groups.into());
}

/// The types of bit-fields. Each is made only once, since typedefs may be deep, and members many.
#[derive(Default)]
struct Widths {
    narrowed: HashMap<(u32, u64), u32>,
    made: HashMap<u64, Vec<u32>>,
}

impl Widths {
    /// Gives a bit-field a type of its width; other members are unchanged. If it is as wide as its
    /// type, it gets a hidden copy of that, which marks it as a bit-field.
    fn member(&mut self, table: &mut Table<'_>, whole: &str, member: &mut Member<'_>) {
        let Some(width) = member.width.take().map(u64::from) else { return };
        let end = table.resolve(member.of);
        if end == 0 {
            return;
        }
        let base = table.get(end);
        match base.kind {
            Kind::Integer => {}
            Kind::Enum if width != 8 * base.size => {
                let name = String::from_utf8_lossy(&member.name);
                let line = format!(
                    "{whole}: its bit-field {name} is one of {}, and CTF has widths of integers \
                     alone; an integer of {width} bits with the enum's name stands there",
                    base.tag_name()
                );
                table.losses.push(line);
            }
            _ => return,
        }
        member.of = self.narrow(table, member.of, width);
    }

    /// The type, with its typedefs and qualifiers, over an integer of the given width.
    fn narrow(&mut self, table: &mut Table<'_>, number: u32, width: u64) -> u32 {
        let mut passed = Vec::new();
        let mut at = number;
        let mut made = loop {
            if let Some(&known) = self.narrowed.get(&(at, width)) {
                break known;
            }
            let record = table.get(at);
            let mut copy = record.clone();
            copy.root = false;
            if record.kind == Kind::Enum {
                let is_signed = record.values().iter().any(|one| one.value < 0);
                copy = Record::new(Kind::Integer, Name::Owned(record.tag_name().into()));
                copy.size = record.size;
                copy.root = false;
                copy.encoding = Encoding { flags: u8::from(is_signed), offset: 0, bits: width };
            } else if record.kind == Kind::Integer {
                copy.encoding.bits = width;
            } else {
                passed.push(at);
                at = record.of;
                continue;
            }
            let made = self.once(table, copy);
            self.narrowed.insert((at, width), made);
            break made;
        };
        for at in passed.into_iter().rev() {
            if table.get(at).kind != Kind::Atomic {
                let mut copy = table.get(at).clone();
                copy.root = false;
                copy.of = made;
                made = self.once(table, copy);
            }
            self.narrowed.insert((at, width), made);
        }
        made
    }

    /// The type with a record. It is added unless an earlier call has added it.
    fn once<'a>(&mut self, table: &mut Table<'a>, record: Record<'a>) -> u32 {
        let listed = self.made.entry(record.shape()).or_default();
        if let Some(&known) = listed.iter().find(|&&n| *table.get(n) == record) {
            return known;
        }
        let made = table.add(record);
        listed.push(made);
        made
    }
}

/// The size of a type in bytes; `None` if it has none.
fn size_of(table: &Table<'_>, mut number: u32) -> Option<u64> {
    let mut count: u64 = 1;
    for _ in 0..=table.len() {
        number = table.resolve(number);
        let record = (number != 0).then(|| table.get(number))?;
        let size = match record.kind {
            Kind::Pointer if table.is_ilp32 => 4,
            Kind::Pointer => 8,
            Kind::Forward | Kind::Unknown => return None,
            Kind::Array if record.size == 0 => {
                count = count.saturating_mul(record.elements);
                number = record.of;
                continue;
            }
            _ => record.size,
        };
        return Some(count.saturating_mul(size));
    }
    None
}

/// The type as C spells it in a cast, without the arguments of functions.
fn spelling(table: &Table<'_>, mut number: u32) -> String {
    let (mut left, mut right) = (String::new(), String::new());
    let mut before: Vec<&str> = Vec::new();
    let kind = |n: u32| if n == 0 { Kind::Unknown } else { table.get(n).kind };
    for _ in 0..DEEPEST {
        if number == 0 {
            break;
        }
        let record = table.get(number);
        match record.kind {
            Kind::Pointer => {
                left.insert(0, '*');
                if matches!(kind(record.of), Kind::Array | Kind::Function) {
                    left.insert(0, '(');
                    right.push(')');
                }
            }
            Kind::Array => right += &format!("[{}]", record.elements),
            Kind::Function => right += "()",
            Kind::Volatile | Kind::Const | Kind::Restrict => {
                let word = record.kind.word();
                if kind(record.of) == Kind::Pointer {
                    left = format!("{word} {left}");
                } else if !before.contains(&word) {
                    before.push(word);
                }
            }
            _ => break,
        }
        number = record.of;
    }
    let base = if number == 0 { "void".to_owned() } else { table.get(number).tag_name() };
    let around = left + &right;
    let words = before.into_iter().chain([&*base, &*around]);
    words.filter(|word| !word.is_empty()).collect::<Vec<_>>().join(" ")
}
