//! Finds types by names as a person writes them.

use super::catalog::{Catalog, Number};
use super::text::{name_and_number, normal, printable, spellings, without_tag, TAGS};
use ctfd::{Fault, Kind, Refusal};

/// A type, or a pointer to it with so many stars, which need not be in the dictionary.
#[derive(Clone, Copy, Debug, PartialEq, Eq)]
pub struct FoundType {
    /// The type: 0 for void.
    pub number: Number,
    /// The number of stars in the name.
    pub stars: usize,
}

/// The type with a name, or the one with the least number if several have it; None if there is
/// none. Qualifiers are ignored. Another type of the name is found by name and number, as `struct
/// dict__17`.
pub fn find(catalog: &Catalog<'_>, name: &[u8]) -> Result<Option<FoundType>, Refusal> {
    let (base, stars) = normal(name);
    if base == b"void" {
        return Ok(Some(FoundType { number: 0, stars }));
    }
    let mut refusals = Vec::new();
    for spelling in spellings(&base) {
        match catalog.find(&spelling) {
            Ok(number) => return Ok(Some(FoundType { number, stars })),
            Err(refusal) => refusals.push(refusal),
        }
    }
    if let Some(number) = other_of(catalog, &base) {
        return Ok(Some(FoundType { number, stars }));
    }
    match refusals.first() {
        Some(refusal) if refusal.fault != Fault::NotFound => Err(*refusal),
        _ => Ok(None),
    }
}

/// A type by its name and number, such as `struct dict__17`.
fn other_of(catalog: &Catalog<'_>, base: &[u8]) -> Option<Number> {
    let (name, number) = name_and_number(base)?;
    let record = catalog.get(number).map(|_| catalog.record(number))?;
    let usual = normal(name).0;
    spellings(&usual).contains(&record.tag_name()).then_some(number)
}

/// The struct, union or enum with a tag, unless several have it.
pub fn find_tag(catalog: &Catalog<'_>, tag: &[u8]) -> Option<Number> {
    let is_plain = !tag.is_empty() && tag.iter().all(|&byte| !b" *".contains(&byte));
    let named = |word: &&str| catalog.find(&[word.as_bytes(), b" ", tag].concat()).ok();
    let mut found = TAGS.iter().filter_map(named);
    let first = is_plain.then(|| found.next()).flatten();
    first.filter(|_| found.next().is_none())
}

/// All own types with a name, including hidden ones, but not copies that only bit-fields use. None
/// for a name with stars.
pub fn find_all(catalog: &Catalog<'_>, name: &[u8]) -> Vec<Number> {
    let (base, stars) = normal(name);
    if stars != 0 {
        return Vec::new();
    }
    let wanted = spellings(&base);
    let apart: Vec<(&str, &[u8])> = wanted.iter().map(|name| without_tag(name)).collect();
    let mut found = Vec::new();
    for number in catalog.own_numbers() {
        let declared = catalog.get(number).and_then(|of| of.declared_name().ok());
        let Some(declared) = declared else { continue };
        if apart.iter().any(|(_, bare)| **bare == *declared) {
            let record = catalog.record(number);
            if apart.contains(&(record.word(), &record.name)) {
                found.push(number);
            }
        }
    }
    found.retain(|&number| !is_copy(catalog, number));
    found
}

/// Whether a type is a hidden integer, or a hidden typedef of one.
fn is_copy(catalog: &Catalog<'_>, number: Number) -> bool {
    let end = catalog.record(catalog.resolve(number));
    !catalog.record(number).is_root && !end.is_root && end.kind == Kind::Integer
}

/// A line that several types have a name, of which the first is shown; None if there are not
/// several.
pub fn others(found: &[Number], name: &[u8]) -> Option<String> {
    let numbers: Vec<String> = found.iter().map(Number::to_string).collect();
    (found.len() > 1).then(|| {
        format!(
            "{} types are called {}, and this is the first: --all shows them all, --number N one \
             ({})",
            found.len(),
            printable(name),
            numbers.join(", ")
        )
    })
}

/// The names by which types are found, including the parent's.
pub fn names(catalog: &Catalog<'_>) -> Vec<Vec<u8>> {
    let is_found = |number: &Number| {
        let record = catalog.record(*number);
        record.is_root && !record.name.is_empty()
    };
    catalog.all().filter(is_found).map(|number| catalog.record(number).tag_name()).collect()
}

/// Resolves a typedef to the struct, union or enum that it names; other types are returned as they
/// are.
pub fn worth_listing(catalog: &Catalog<'_>, number: Number) -> Number {
    let has_end = catalog.get(number).is_some_and(|of| matches!(of.resolve(), Ok(Some(_))));
    let end = if has_end { catalog.resolve(number) } else { 0 };
    match catalog.kind(end) {
        Kind::Struct | Kind::Union | Kind::Enum => end,
        _ => number,
    }
}
