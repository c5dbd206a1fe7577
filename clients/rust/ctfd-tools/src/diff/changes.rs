//! Differences between the types of two dictionaries.
//!
//! Types are matched by kind and name. A change breaks if a program built for the old types goes
//! wrong with the new: a change of sizes, offsets, values of enumerators, or of what functions take
//! and return.

use super::candidates::Candidates;
use super::differences::{kind_word, size, Change, Datum, Difference, Fate};
use super::members::differences as members;
use super::side::{is_of_base, places, Key, Side};
use crate::types::catalog::{is_renaming, Number};
use crate::types::json::word_of;
use crate::types::text::printable;
use ctfd::Kind;
use std::collections::{HashMap, HashSet};

/// The types of the old and the new file.
#[derive(Clone, Copy)]
pub struct Sides<'s, 'o, 'n> {
    /// The old side.
    pub before: &'s Side<'s, 'o>,
    /// The new side.
    pub after: &'s Side<'s, 'n>,
}

impl Sides<'_, '_, '_> {
    /// All changes: those of the old types in order, then the added types.
    pub fn changes(&self) -> Vec<Change> {
        let (before, after) = (self.before, self.after);
        let mut made = Vec::new();
        for (key, numbers) in before.own.iter() {
            let others = after.get(key);
            if is_of_base(key.0) && others.is_none() {
                continue; // its uses have another type now, and are reported
            }
            made.extend(self.changes_of(key, numbers, others.unwrap_or_default()));
        }
        for (key, numbers) in after.own.iter() {
            if !is_of_base(key.0) && before.get(key).is_none() {
                made.push(addition(after, key, numbers[0]));
            }
        }
        made
    }

    /// The changes of the types of one key: equal types are matched first, the others in order.
    fn changes_of(&self, key: &Key, old: &[Number], new: &[Number]) -> Vec<Change> {
        let mut candidates = Candidates::new(self.after, new);
        let is_same = |old: Number, new: Number| self.differences(old, new).is_empty();
        let mut rest = Vec::new();
        for &number in old {
            if !candidates.take(self.before, number, is_same) {
                rest.push(number);
            }
        }
        let mut left = candidates.remaining().peekable();
        if left.peek().is_none() && !new.is_empty() {
            return Vec::new(); // some of several types of this name are gone, but not all
        }
        let changed = |number: Number| {
            let (fate, said, other) = match left.next() {
                Some(other) => (Fate::Changed, self.differences(number, other), other),
                None => (Fate::Removed, vec![Difference::breaking("removed", "removed")], 0),
            };
            let change = Change::new(key.1.clone(), word_of(key.0), fate, said);
            Change { pair: Some((number, other)), ..change }
        };
        rest.into_iter().map(changed).collect()
    }

    /// The differences between two types of one key.
    fn differences(&self, old: Number, new: Number) -> Vec<Difference> {
        let (before, after) = (self.before.kind(old), self.after.kind(new));
        if before != after {
            return vec![other_kind(before, after)];
        }
        match before {
            Some(Kind::Struct | Kind::Union) => {
                let sizes = (self.before.catalog.size(old), self.after.catalog.size(new));
                let mut said = Vec::from_iter(size(sizes.0, sizes.1));
                let (here, there) = (self.before.parts(old), self.after.parts(new));
                said.extend(members(&places(&here), &places(&there)));
                said
            }
            Some(Kind::Enum) => self.enums(old, new),
            Some(Kind::Typedef) => Vec::from_iter(self.typedefs(old, new)),
            Some(Kind::Integer | Kind::Float) => self.numbers(old, new),
            _ => Vec::new(),
        }
    }

    /// The differences between the enumerators, matched by name.
    pub fn enums(&self, old: Number, new: Number) -> Vec<Difference> {
        let sizes = (self.before.catalog.size(old), self.after.catalog.size(new));
        let mut said = Vec::from_iter(size(sizes.0, sizes.1));
        let (here, there) = (self.before.values(old), self.after.values(new));
        let (was, now) = (by_name(&here), by_name(&there));
        for name in each_once(&here) {
            let (shown, old) = (printable(name), was[name]);
            let one = match now.get(name) {
                None => Difference::breaking("removed enumerator", format!("{shown} removed"))
                    .from(Datum::Number(old), Datum::Nothing),
                Some(&new) if new != old => {
                    Difference::breaking("value", format!("{shown} {old} -> {new}"))
                        .from(Datum::Number(old), Datum::Number(new))
                }
                Some(_) => continue,
            };
            said.push(one.of(name));
        }
        for name in each_once(&there).filter(|name| !was.contains_key(name)) {
            let text = format!("{} = {} added", printable(name), now[name]);
            let one = Difference::harmless("added enumerator", text).of(name);
            said.push(one.from(Datum::Nothing, Datum::Number(now[name])));
        }
        said
    }

    fn typedefs(&self, old: Number, new: Number) -> Option<Difference> {
        let one = self.before.catalog.record(old).of;
        let other = self.after.catalog.record(new).of;
        let (was, now) = (self.before.text(one), self.after.text(other));
        let breaks = self.before.value(one) != self.after.value(other);
        let is_reported = was != now || breaks && !is_reported(self.before, one);
        let said =
            Difference { breaks, ..Difference::breaking("type", format!("is {now}, was {was}")) };
        is_reported.then(|| said.from(Datum::text(&*was), Datum::text(&*now)))
    }

    fn numbers(&self, old: Number, new: Number) -> Vec<Difference> {
        let sizes = (self.before.catalog.size(old), self.after.catalog.size(new));
        let mut said = Vec::from_iter(size(sizes.0, sizes.1));
        let (was, now) = (self.before.flags(old), self.after.flags(new));
        if was != now {
            let one = Difference::breaking("encoding", format!("encoding {was} -> {now}"));
            said.push(one.from(Datum::number(was), Datum::number(now)));
        }
        said
    }
}

/// The values of an enum by their names; for a repeated name, the last one.
fn by_name<'v>(values: &[(&'v [u8], i128)]) -> HashMap<&'v [u8], i128> {
    values.iter().copied().collect()
}

/// The names of an enum's values in order, without duplicates.
fn each_once<'v>(values: &[(&'v [u8], i128)]) -> impl Iterator<Item = &'v [u8]> {
    let mut seen = HashSet::new();
    let names: Vec<&[u8]> = values.iter().map(|(name, _)| *name).collect();
    names.into_iter().filter(move |name| seen.insert(*name))
}

fn addition(side: &Side<'_, '_>, key: &Key, number: Number) -> Change {
    let size = side.catalog.size(number);
    let text = size.map_or("added".to_owned(), |size| format!("added, size {size}"));
    let said = Difference::harmless("added", text).from(Datum::Nothing, Datum::size(size));
    let change = Change::new(key.1.clone(), word_of(key.0), Fate::Added, vec![said]);
    Change { pair: Some((0, number)), ..change }
}

/// The difference between two kinds: a forward on one side, or a name that changed its kind.
fn other_kind(before: Option<Kind>, after: Option<Kind>) -> Difference {
    if before == Some(Kind::Forward) {
        return Difference::harmless("defined", "only declared before, now defined");
    }
    if after == Some(Kind::Forward) {
        return Difference::breaking("undefined", "its definition is gone, only declared now");
    }
    let (was, now) = (kind_word(before), kind_word(after));
    Difference::breaking("kind", format!("{was} -> {now}")).from(Datum::text(was), Datum::text(now))
}

/// Whether changes of the type that a typedef names are reported for that type itself.
fn is_reported(side: &Side<'_, '_>, mut number: Number) -> bool {
    while is_renaming(side.catalog.kind(number)) && side.key(number).is_none() {
        number = side.catalog.record(number).of;
    }
    side.key(number).is_some()
}
