//! Differences between the symbols that two files export.

use super::changes::Sides;
use super::differences::{Change, Datum, Difference, Fate};
use super::structure::Findings;
use super::UNTOLD;
use crate::types::catalog::{Catalog, SymbolAnswer};
use crate::types::text::printable;
use ctfd_read::exports::{Export, ExportKind, Exports};

/// The type or signature of a symbol in the dictionary, if it has one.
fn symbol_answer(catalog: &Catalog<'_>, one: &Export<'_>) -> Option<SymbolAnswer> {
    let told = catalog.symbol_answer(one.number?)?;
    let is_of_kind = match told {
        SymbolAnswer::Function(_) => one.kind == ExportKind::Function,
        SymbolAnswer::Object(_) => one.kind == ExportKind::Object,
    };
    is_of_kind.then_some(told)
}

/// The label of a symbol in a change.
pub fn label(one: &Export<'_>) -> String {
    format!("{} {}", one.kind.word(), printable(&one.label()))
}

/// The same with the name unescaped, for patterns that leave symbols out.
pub fn plain_label(one: &Export<'_>) -> Vec<u8> {
    [one.kind.word().as_bytes(), b" ", &one.label()].concat()
}

/// A change for a removed symbol.
pub fn removal(one: &Export<'_>) -> Change {
    let said = Difference::breaking("removed", "removed").of(one.label());
    Change::new(label(one), one.kind.word(), Fate::Removed, vec![said])
}

/// A change for an added symbol.
pub fn addition(one: &Export<'_>) -> Change {
    let said = Difference::harmless("added", "added").of(one.label());
    Change::new(label(one), one.kind.word(), Fate::Added, vec![said])
}

/// A change of the soname, by which programs that were linked with a library ask for it.
pub fn soname(old: &Exports<'_>, new: &Exports<'_>) -> Option<Change> {
    let (was, now) = (&*old.soname, &*new.soname);
    if was.is_empty() || was == now {
        return None;
    }
    let shown = if now.is_empty() { "none".into() } else { printable(now) };
    let text = format!(
        "soname {} -> {shown}: programs that were linked with the old do not find the new",
        printable(was)
    );
    let said = Difference::breaking("soname", text).from(Datum::text(was), Datum::text(now));
    Some(Change::new("the library".to_owned(), "soname", Fate::Changed, vec![said]))
}

/// The differences of a symbol that both files export, and the pairs of types that it leads to.
pub fn difference(sides: &Sides<'_, '_, '_>, one: &Export<'_>, other: &Export<'_>) -> Findings {
    let kinds = [one.kind, other.kind];
    if one.kind != other.kind && !kinds.contains(&ExportKind::Symbol) {
        let (was, now) = (one.kind.word(), other.kind.word());
        let said = Difference::breaking("kind", format!("{was} -> {now}")).of(one.label());
        return Findings::of([said.from(Datum::text(was), Datum::text(now))]);
    }
    if one.is_of_threads != other.is_of_threads {
        let text = match other.is_of_threads {
            true => "now each thread has its own",
            false => "now all threads have one",
        };
        let said = Difference::breaking("threads", text).of(one.label());
        let (was, now) = (Datum::Truth(one.is_of_threads), Datum::Truth(other.is_of_threads));
        return Findings::of([said.from(was, now)]);
    }
    let (was, now) =
        (symbol_answer(sides.before.catalog, one), symbol_answer(sides.after.catalog, other));
    match (&was, &now) {
        (Some(SymbolAnswer::Function(was)), Some(SymbolAnswer::Function(now))) => {
            sides.signature(was, now)
        }
        (Some(SymbolAnswer::Object(was)), Some(SymbolAnswer::Object(now))) => {
            let mut found = sides.value("it", *was, *now, "is");
            found.said.extend(sides.qualifiers(*was, *now));
            found
        }
        _ => Findings::of(untyped(one, other, was.is_some(), now.is_some())),
    }
}

/// A change of an object's size in bytes.
pub fn size(one: &Export<'_>, other: &Export<'_>) -> Option<Difference> {
    (one.kind == ExportKind::Object && one.size != other.size).then(|| {
        let text = format!("size {} -> {}", one.size, other.size);
        let sizes = (Datum::number(one.size), Datum::number(other.size));
        Difference::breaking("size", text).of(one.label()).from(sizes.0, sizes.1)
    })
}

/// The differences of symbols if at least one has no known type.
fn untyped(
    one: &Export<'_>,
    other: &Export<'_>,
    was_typed: bool,
    is_typed: bool,
) -> Vec<Difference> {
    let mut said: Vec<Difference> = size(one, other).into_iter().collect();
    if one.is_of_threads && other.is_of_threads {
        let text = "CTF has no types of thread-local variables: it is not compared";
        said.push(Difference::harmless(UNTOLD, text).of(one.label()));
    } else if was_typed != is_typed {
        let which = if is_typed { "old" } else { "new" };
        let text = format!("its type is missing in the {which}, and not compared");
        said.push(Difference::harmless(UNTOLD, text).of(one.label()));
    }
    said
}
