//! The types that stand for their tags while units are joined.
//!
//! If a tag has a single definition in the program, all that define or declare it are one type.
//! Each definition is compared with the first: both must be equal, except that a type to which one
//! refers may be only declared where the other has its definition. If two differ, the tag stands
//! for no type from then on. If a declaration was joined by it before, that is a conflict, and all
//! units are joined again.

use crate::join::{Identities, NumberHasher, Piece};
use crate::table::{is_same, Kind, Record, Table};
use std::collections::{HashMap, HashSet};
use std::hash::BuildHasherDefault;

/// The number of types that are compared for two definitions that are not equal.
const MOST_PAIRS: usize = 4096;

type ByKey<T> = HashMap<u64, T, BuildHasherDefault<NumberHasher>>;

/// The types of a table that stand for their tags, by the tags' keys.
#[derive(Default)]
pub struct Slots {
    by_key: ByKey<u32>,
    /// The keys of tags for which a declaration, or a definition with less detail, was joined.
    pub loose: HashSet<u64>,
    several: HashSet<u64>,
    /// The keys of tags that have several definitions, though declarations were joined by them.
    pub conflicts: HashSet<u64>,
}

/// The results for the definitions of a unit.
#[derive(Default)]
pub struct Verdicts {
    /// The keys of tags whose definitions differ.
    pub several: Vec<u64>,
    /// The keys of tags of which one definition has less detail than another.
    pub loose: Vec<u64>,
    /// The unit's numbers of definitions that have more detail than the known ones.
    pub fuller: HashSet<u32>,
}

/// How a definition compares with the known one.
#[derive(Clone, Copy, PartialEq, Eq)]
enum Likeness {
    Same,
    Fuller,
    Emptier,
    Different,
}

impl Slots {
    /// The number of the type that stands for a tag.
    pub fn number(&self, key: u64) -> Option<u32> {
        self.by_key.get(&key).copied()
    }

    /// Lets a type stand for its tag, if none does yet.
    pub fn add(&mut self, key: u64, number: u32) {
        self.by_key.entry(key).or_insert(number);
    }

    /// For each number of a unit, including 0, the type that stands for its tag; 0 if none does.
    pub fn find(&self, piece: &Piece<'_>, table: &Table<'_>) -> Vec<u32> {
        let mut is = vec![0; piece.records.len() + 1];
        let mut own: ByKey<u32> = HashMap::default();
        for (number, key) in piece.single_definitions() {
            let record = piece.get(number);
            let (same, of_tag) = match self.number(key) {
                Some(known) => (known, table.get(known)),
                None => {
                    let first = *own.entry(key).or_insert(number);
                    (table.len() + first, piece.get(first))
                }
            };
            if has_tag_of(record, of_tag) {
                is[number as usize] = same;
            }
        }
        is
    }

    /// Compares the definitions of a unit with the known ones.
    pub fn judge(&self, piece: &Piece<'_>, table: &Table<'_>, found: &Identities) -> Verdicts {
        let mut judged = Verdicts::default();
        let mut first: ByKey<u32> = HashMap::default();
        for (number, key) in piece.single_definitions() {
            let (record, same) = (piece.get(number), found.is[number as usize]);
            if record.is_forward() || same == 0 {
                continue;
            }
            let of = |n: u32| found.is[n as usize];
            let before = *first.entry(key).or_insert(number);
            let other = piece.get(before);
            let is_first_again = record.has_shape_of(other)
                && record.references().map(of).eq(other.references().map(of));
            let likeness = match self.number(key).filter(|&known| known == same) {
                _ if before != number && !is_first_again => Likeness::Different,
                Some(known) if !table.get(known).is_forward() => {
                    likeness(number, known, &Comparison { piece, table, found })
                }
                _ => Likeness::Same,
            };
            match likeness {
                Likeness::Same => {}
                Likeness::Different => judged.several.push(key),
                Likeness::Emptier => judged.loose.push(key),
                Likeness::Fuller => {
                    judged.loose.push(key);
                    judged.fuller.insert(number);
                }
            }
        }
        judged
    }

    /// Marks the tags of a unit's declarations, and those of which a definition has less detail.
    pub fn loosen(&mut self, piece: &Piece<'_>, loose: &[u64]) {
        let declared =
            piece.single_definitions().filter(|&(number, _)| piece.get(number).is_forward());
        let keys = declared.map(|(_, key)| key).chain(loose.iter().copied());
        self.loose.extend(keys.chain(piece.loose.iter().copied()));
    }

    /// Marks tags as having several definitions.
    pub fn add_several(&mut self, keys: &[u64], piece: &Piece<'_>) {
        for &key in keys.iter().filter(|&&key| key != 0) {
            self.several.insert(key);
            self.by_key.remove(&key);
            if self.loose.contains(&key) || piece.loose.contains(&key) {
                self.conflicts.insert(key);
            }
        }
    }

    /// Removes the keys of tags with several definitions from a unit.
    pub fn leave_several_out(&self, piece: &mut Piece<'_>) {
        if !self.several.is_empty() {
            let is_several = |key: &&mut u64| self.several.contains(&**key);
            piece.single.iter_mut().filter(is_several).for_each(|key| *key = 0);
        }
    }
}

fn has_tag_of(one: &Record<'_>, other: &Record<'_>) -> bool {
    one.tag == other.tag && is_same(&one.name, &other.name)
}

fn is_tagged(record: &Record<'_>) -> bool {
    let is_of_tag = record.kind.is_aggregate() || matches!(record.kind, Kind::Enum | Kind::Forward);
    is_of_tag && !record.name.is_empty()
}

/// A type that a unit refers to: one of its own, or one that the table has already.
#[derive(Clone, Copy)]
enum Reference {
    OfUnit(u32),
    OfTable(u32),
}

/// The types of a unit, and what they are in a table.
struct Comparison<'c, 'a> {
    piece: &'c Piece<'a>,
    table: &'c Table<'a>,
    found: &'c Identities,
}

impl<'c, 'a> Comparison<'c, 'a> {
    fn record(&self, one: Reference) -> &'c Record<'a> {
        match one {
            Reference::OfUnit(number) => self.piece.get(number),
            Reference::OfTable(number) => self.table.get(number),
        }
    }

    /// The pairs of references of two types that are not known to be equal; `None` if only one of a
    /// pair is a type.
    fn open_pairs(&self, one: Reference, other: u32) -> Option<Vec<(Reference, u32)>> {
        let pairs = self.record(one).references().zip(self.table.get(other).references());
        let open = pairs.filter_map(|(x, y)| {
            let (named, is) = match one {
                Reference::OfUnit(_) => {
                    let known = self.piece.table_number(x).map(Reference::OfTable);
                    (known.unwrap_or(Reference::OfUnit(x)), self.found.is[x as usize])
                }
                Reference::OfTable(_) => (Reference::OfTable(x), x),
            };
            (is != y).then_some((x != 0 && y != 0).then_some((named, y)))
        });
        open.collect()
    }
}

/// Compares a unit's definition of a tag with the known one. Types without a tag are compared with
/// all that they refer to; those with a tag must be equal, or declared on one side only.
fn likeness(number: u32, known: u32, compared: &Comparison<'_, '_>) -> Likeness {
    let mut likeness = Likeness::Same;
    let mut todo = vec![(Reference::OfUnit(number), known)];
    let mut at = 0;
    while at < todo.len() {
        let (x, y) = todo[at];
        let (mine, theirs) = (compared.record(x), compared.table.get(y));
        if at > 0 && is_tagged(mine) && is_tagged(theirs) {
            if !has_tag_of(mine, theirs) || mine.is_forward() == theirs.is_forward() {
                return Likeness::Different;
            }
            likeness = match likeness {
                Likeness::Same | Likeness::Fuller if theirs.is_forward() => Likeness::Fuller,
                _ => Likeness::Emptier,
            };
        } else if !mine.has_shape_of(theirs) {
            return Likeness::Different;
        } else {
            match compared.open_pairs(x, y) {
                Some(open) => todo.extend(open),
                None => return Likeness::Different,
            }
            if todo.len() > MOST_PAIRS {
                return Likeness::Different;
            }
        }
        at += 1;
    }
    likeness
}
