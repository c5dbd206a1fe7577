//! Questions on members: which is at an offset, and which have a name.

use super::catalog::{is_renaming, Catalog, Number};
use super::declare::declaration;
use super::embeds::Embeds;
use super::failure::{Failure, Outcome};
use super::file_types::FileTypes;
use super::json;
use super::names::Names;
use super::text::{printable, Meaning};
use ctfd::Kind;
use std::collections::BTreeSet;
use std::io::Write;

const MOST_STEPS: usize = 1000;
const MOST_TEXT: usize = 1 << 25;
const NAMELESS: &str = "(a member without a name)";

/// A member or element at a bit: its path, type, offset in bits and width in bits.
struct Here {
    path: String,
    of: Number,
    start: u128,
    bits: u128,
}

/// Parses a number: decimal, or with a prefix `0x`, `0o` or `0b`.
pub fn number(written: &str) -> Option<u64> {
    let digits = written.trim().replace('_', "");
    let lower = digits.to_ascii_lowercase();
    for (prefix, base) in [("0x", 16), ("0o", 8), ("0b", 2)] {
        if let Some(rest) = lower.strip_prefix(prefix) {
            return u64::from_str_radix(rest, base).ok();
        }
    }
    let is_octal = digits.len() > 1 && digits.starts_with('0') && digits.bytes().any(|b| b != b'0');
    if is_octal || !digits.bytes().all(|byte| byte.is_ascii_digit()) {
        return None;
    }
    digits.parse().ok()
}

/// Parses an offset, and returns it in bits: bytes, and bits after a colon.
pub fn offset(written: &str) -> Outcome<u128> {
    let (byte, bit) = written.split_once(':').unwrap_or((written, "0"));
    let bit = number(if bit.is_empty() { "0" } else { bit }).filter(|&bit| bit <= 7);
    match (number(byte), bit) {
        (Some(byte), Some(bit)) => Ok(8 * u128::from(byte) + u128::from(bit)),
        _ => Err(Failure::Refused(format!(
            "{} is no offset: it is a number of bytes such as 56 or 0x38 or of bytes and bits such \
             as 56:3",
            printable(written.as_bytes())
        ))),
    }
}

/// Prints what a struct or union has at an offset: each member, the innermost last.
pub fn at(
    whole: &FileTypes<'_, '_>,
    name: &[u8],
    written: &str,
    output: &mut dyn Write,
) -> Outcome<()> {
    let names = whole.names;
    let bit = offset(written)?;
    let mut bound = Bound::new(whole);
    for number in aggregates(names, name)? {
        let label = names.label(number);
        let size = names.catalog.size(number).unwrap_or(0);
        if bit >= 8 * u128::from(size) {
            let written = printable(written.as_bytes()).into_owned();
            return Err(Failure::Refused(format!(
                "{label} has {size} bytes, and none at {written}"
            )));
        }
        let found = members_at(names.catalog, number, bit, written.contains(':'));
        for here in &found {
            if !bound.write(&line_of(names.catalog, &label, here, bit), output)? {
                return Ok(());
            }
        }
        let hole = format!("{:>8}  {label}  (a hole)", in_bytes(bit));
        if found.is_empty() && !bound.write(&hole, output)? {
            return Ok(());
        }
    }
    Ok(())
}

/// The structs and unions with a name, including those that typedefs name.
fn aggregates(names: &Names<'_, '_>, name: &[u8]) -> Outcome<BTreeSet<Number>> {
    let meant = names.types_of_name(name)?;
    let ends = meant.into_iter().map(|number| names.catalog.resolve(number));
    let kept: BTreeSet<Number> = ends.filter(|&n| names.catalog.record(n).is_aggregate()).collect();
    match kept.is_empty() {
        true => Err(Failure::Refused(format!(
            "{} is no struct and no union, and has no members",
            printable(name)
        ))),
        false => Ok(kept),
    }
}

/// The members at a bit, each before those that it contains. Stops at a number of steps, since a
/// type may be hostile.
fn members_at(catalog: &Catalog<'_>, number: Number, bit: u128, is_bit: bool) -> Vec<Here> {
    let end = bit + if is_bit { 1 } else { 8 };
    let bits = 8 * u128::from(catalog.size(number).unwrap_or(0));
    let mut todo = vec![Here { path: String::new(), of: number, start: 0, bits }];
    let mut found = Vec::new();
    for _ in 0..MOST_STEPS {
        let Some(here) = todo.pop() else { break };
        let inside = inside(catalog, &here, bit);
        let meets = |one: &Here| one.start < end && bit < one.start + one.bits;
        todo.extend(inside.into_iter().rev().filter(meets));
        if !here.path.is_empty()
            && catalog.kind(without_qualifiers(catalog, here.of)) != Kind::Array
        {
            found.push(here);
        }
    }
    found
}

/// The members of a struct or union, or the element of an array at the bit.
fn inside(catalog: &Catalog<'_>, here: &Here, bit: u128) -> Vec<Here> {
    let number = without_qualifiers(catalog, here.of);
    let record = catalog.record(number);
    if record.kind == Kind::Array {
        let bits = 8 * u128::from(catalog.size(record.of).unwrap_or(0));
        let place = bit.saturating_sub(here.start).checked_div(bits).unwrap_or(0);
        if bits == 0 || place >= record.elements.into() {
            return Vec::new();
        }
        let path = format!("{}[{place}]", here.path);
        return vec![Here { path, of: record.of, start: here.start + place * bits, bits }];
    }
    let member = |part: &super::catalog::Part<'_>| {
        let span = catalog.span(part.of);
        let name = String::from_utf8_lossy(part.name);
        let path = match (here.path.as_str(), &*name) {
            ("", "") => NAMELESS.to_owned(),
            (path, "") => path.to_owned(),
            ("", name) => name.to_owned(),
            (path, name) => format!("{path}.{name}"),
        };
        let start = here.start + u128::from(part.offset) + u128::from(span.lies);
        Here { path, of: part.of, start, bits: span.bits }
    };
    catalog.members(number).iter().map(member).collect()
}

fn without_qualifiers(catalog: &Catalog<'_>, mut number: Number) -> Number {
    while is_renaming(catalog.kind(number)) {
        number = catalog.resolve(number);
    }
    number
}

fn line_of(catalog: &Catalog<'_>, label: &str, here: &Here, bit: u128) -> String {
    let told = declaration(catalog, here.of, here.path.as_bytes());
    let note = match (bit / 8).saturating_sub(here.start / 8) {
        0 => String::new(),
        within => format!("  (byte {within} of it)"),
    };
    format!("{:>8}  {label}  {told}{note}", in_bytes(here.start))
}

fn in_bytes(bits: u128) -> String {
    match (bits / 8, bits % 8) {
        (byte, 0) => byte.to_string(),
        (byte, bit) => format!("{byte}:{bit}"),
    }
}

/// Prints the members with a name or pattern.
pub fn list_members_of_name(
    whole: &FileTypes<'_, '_>,
    name: &[u8],
    is_json: bool,
    output: &mut dyn Write,
) -> Outcome<()> {
    let names = whole.names;
    let meaning = Meaning::of([name.to_vec()]);
    let embeds = Embeds::new(names, false);
    let mut found = Vec::new();
    for number in names.catalog.aggregates().filter(|&number| names.has_name(number)) {
        embeds.walk(number, |one| {
            if one.path.last().is_some_and(|name| meaning.has(name)) {
                found.push(one.clone());
            }
        });
    }
    if found.is_empty() {
        return Err(Failure::Unknown(format!("no member is called {}", printable(name))));
    }
    let mut bound = Bound::new(whole);
    for one in &found {
        let line = if is_json { json::embedded_member(whole, one) } else { one.line(names) };
        if !bound.write(&line, output)? {
            break;
        }
    }
    Ok(())
}

/// A limit on the lines that are printed: a hostile type may have nested members without end.
struct Bound<'b, 'w, 'd> {
    whole: &'b FileTypes<'w, 'd>,
    count: usize,
}

impl<'b, 'w, 'd> Bound<'b, 'w, 'd> {
    fn new(whole: &'b FileTypes<'w, 'd>) -> Bound<'b, 'w, 'd> {
        Bound { whole, count: 0 }
    }

    /// Writes a line, unless there are too many. Returns whether more may follow.
    fn write(&mut self, line: &str, output: &mut dyn Write) -> Outcome<bool> {
        self.count += line.chars().count();
        if self.count > MOST_TEXT {
            self.whole.cut(format!("more than {MOST_TEXT} bytes of members: ask for fewer"));
            return Ok(false);
        }
        writeln!(output, "{line}")?;
        Ok(true)
    }
}
