//! Aliases: names for types whose own name finds another type. `struct dict__17` is type 17, a
//! `struct dict`.
//!
//! Source files may have different types of one name, and a debugger that meets several takes any
//! of them. So the first that is not hidden keeps the name, and the number is appended to the names
//! of the others.

use super::widths::is_narrow;
use crate::types::catalog::{Catalog, Number};
use ctfd::Kind;
use std::collections::HashMap;

const MOST_NAMES: usize = 40;
const MOST_OF_A_NAME: usize = 3;

/// What look-ups find a type by: `struct`, `union`, `enum` or an empty word, and its name.
type Key = (&'static str, Vec<u8>);

/// A type with a name.
struct NamedType {
    number: Number,
    key: Key,
    is_root: bool,
    is_forward: bool,
    is_narrow: bool,
}

impl NamedType {
    /// Whether the type needs an alias. A root forward does not: its name finds the definition. Nor
    /// does a narrow integer whose name finds no type.
    fn is_other(&self, plain: &HashMap<&Key, &NamedType>) -> bool {
        match plain.get(&self.key) {
            None if self.is_narrow => false,
            Some(found) if found.number == self.number => false,
            _ => !(self.is_root && self.is_forward),
        }
    }
}

/// The aliases of the types that need one.
pub struct Aliases {
    by_number: HashMap<Number, Vec<u8>>,
    /// Each name that several types have, with the aliases of the others, in the order of look-ups.
    shared: Vec<(String, Vec<String>)>,
}

impl Aliases {
    /// The aliases for some types of a catalog, which are in the order of look-ups.
    pub fn new(catalog: &Catalog<'_>, listed: &[Number]) -> Aliases {
        let types = named_types(catalog, listed);
        let mut plain: HashMap<&Key, &NamedType> = HashMap::new();
        for one in types.iter().filter(|one| one.is_root) {
            let known = plain.entry(&one.key).or_insert(one);
            if known.is_forward && !one.is_forward {
                *known = one;
            }
        }
        let mut made = Aliases { by_number: HashMap::new(), shared: Vec::new() };
        let mut places: HashMap<&Key, usize> = HashMap::new();
        for one in types.iter().filter(|one| one.is_other(&plain)) {
            let (word, name) = &one.key;
            let mut alias = alias(name, one.number);
            while plain.contains_key(&(*word, alias.clone())) {
                alias.push(b'_');
            }
            let place = *places.entry(&one.key).or_insert_with(|| {
                made.shared.push((spelling_of(word, name), Vec::new()));
                made.shared.len() - 1
            });
            made.shared[place].1.push(String::from_utf8_lossy(&alias).into_owned());
            made.by_number.insert(one.number, alias);
        }
        made
    }

    /// The alias of a type, if it needs one.
    pub fn get(&self, number: Number) -> Option<&[u8]> {
        self.by_number.get(&number).map(Vec::as_slice)
    }

    /// A line on names that several types have; None if there are none.
    pub fn line(&self) -> Option<String> {
        let each = |(name, others): &(String, Vec<String>)| {
            format!("{name} (also {})", some_of(others, MOST_OF_A_NAME))
        };
        let listed: Vec<String> = self.shared.iter().map(each).collect();
        let begin = match listed.len() {
            0 => return None,
            1 => "1 name stands for several types; alone, it means its".to_owned(),
            count => format!("{count} names stand for several types; alone, each means its"),
        };
        Some(format!("{begin} first type that is not hidden: {}", some_of(&listed, MOST_NAMES)))
    }
}

/// The name of a type, or of one of its enumerators, with the type's number appended.
pub fn alias(name: &[u8], number: Number) -> Vec<u8> {
    [name, format!("__{number}").as_bytes()].concat()
}

/// The types with a name, without the narrow copies of integers that bit-fields have: those with no
/// more bits than another root integer of their name.
fn named_types(catalog: &Catalog<'_>, listed: &[Number]) -> Vec<NamedType> {
    let widest = widest(catalog, listed);
    let name = |&number: &Number| {
        let record = catalog.record(number);
        let bits = record.encoding.map_or(0, |lies| lies.bits);
        let seen = widest.get(&record.name[..]).filter(|_| record.kind == Kind::Integer);
        let is_copy = seen.is_some_and(|&(first, most)| first != number && bits <= most);
        (!record.name.is_empty() && !is_copy).then(|| NamedType {
            number,
            key: (record.word(), record.name.clone()),
            is_root: record.is_root,
            is_forward: record.kind == Kind::Forward,
            is_narrow: is_narrow(catalog, number),
        })
    };
    listed.iter().filter_map(name).collect()
}

/// For each name, the first root integer with the most bits, and their number.
fn widest<'c>(catalog: &'c Catalog<'_>, listed: &[Number]) -> HashMap<&'c [u8], (Number, u16)> {
    let mut made: HashMap<&[u8], (Number, u16)> = HashMap::new();
    for &number in listed {
        let record = catalog.record(number);
        if record.kind == Kind::Integer && record.is_root {
            let bits = record.encoding.map_or(0, |lies| lies.bits);
            let known = made.entry(&record.name).or_insert((number, bits));
            if known.1 < bits {
                *known = (number, bits);
            }
        }
    }
    made
}

fn spelling_of(word: &str, name: &[u8]) -> String {
    let name = String::from_utf8_lossy(name);
    if word.is_empty() {
        name.into_owned()
    } else {
        format!("{word} {name}")
    }
}

/// At most `most` names, and how many more there are.
fn some_of(names: &[String], most: usize) -> String {
    let mut listed: Vec<String> = names.iter().take(most).cloned().collect();
    if names.len() > most {
        listed.push(format!("{} more", names.len() - most));
    }
    listed.join(", ")
}
