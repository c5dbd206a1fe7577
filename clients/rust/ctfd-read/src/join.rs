//! Joins the types of each unit to those of all units before it: most units repeat the types of
//! others.
//!
//! Two types are joined if no walk along their references finds a difference. A named struct or
//! union is compared with those that look like it. A type without a name is identified by the types
//! that it refers to, since in C no cycle is without a name. What a bound keeps apart, `merge`
//! finds.
//!
//! A tag with a single definition in the program stands for this definition, even if a unit only
//! declares it: `slots` has these tags.

use crate::dwarf::tags::SingleTags;
use crate::slots::Slots;
use crate::table::{Record, Table};
use std::collections::{HashMap, HashSet};
use std::hash::{BuildHasherDefault, Hash, Hasher};

/// The number of similar types with which a struct is compared, and the number of members and types
/// that are visited for each type of a unit.
const MOST_ALIKE: usize = 32;
const MOST_STEPS: u64 = 256;
/// How many times a unit is joined again without the tags whose definitions differ.
const MOST_TRIES: u32 = 8;

/// A hasher of numbers that are hashes already, or offsets.
#[derive(Default)]
pub struct NumberHasher(u64);

impl Hasher for NumberHasher {
    fn finish(&self) -> u64 {
        self.0
    }

    fn write(&mut self, _: &[u8]) {
        unreachable!("numbers alone are hashed here");
    }

    fn write_u64(&mut self, number: u64) {
        self.0 = number.wrapping_mul(0x9e37_79b9_7f4a_7c15);
        self.0 ^= self.0 >> 32;
    }
}

/// Types by a hash: the first for each hash, and for each type the next.
#[derive(Default)]
struct Chains {
    first: HashMap<u64, u32, BuildHasherDefault<NumberHasher>>,
    next: Vec<u32>,
}

impl Chains {
    fn of(&self, hash: u64) -> impl Iterator<Item = u32> + '_ {
        let first = self.first.get(&hash).copied().filter(|&n| n != 0);
        std::iter::successors(first, |&n| Some(self.next[n as usize]).filter(|&n| n != 0))
    }

    fn add(&mut self, hash: u64, number: u32) {
        if self.next.len() <= number as usize {
            self.next.resize(number as usize + 1, 0);
        }
        self.next[number as usize] = self.first.insert(hash, number).unwrap_or(0);
    }
}

/// The types of one unit, which are numbered from 1, and the shape of each.
pub struct Piece<'a> {
    pub records: Vec<Record<'a>>,
    pub shape: Vec<u64>,
    /// For each type whose tag has a single definition, the key of the tag; else 0.
    pub single: Vec<u64>,
    /// The keys of tags by which declarations were joined already.
    pub loose: HashSet<u64>,
    /// Own numbers that stand for types of the table, in order, with their numbers there.
    known: Vec<(u32, u32)>,
}

impl<'a> Piece<'a> {
    /// A piece of some types, of which those in `known` have numbers in the table.
    pub fn new(records: Vec<Record<'a>>, known: Vec<(u32, u32)>, tags: &SingleTags) -> Piece<'a> {
        let shape = records.iter().map(Record::shape).collect();
        Piece { known, ..Piece::with_shape(records, shape, HashSet::new(), tags) }
    }

    fn with_shape(
        records: Vec<Record<'a>>,
        shape: Vec<u64>,
        loose: HashSet<u64>,
        tags: &SingleTags,
    ) -> Piece<'a> {
        let single = records.iter().map(|record| tags.key(record)).collect();
        Piece { records, shape, single, loose, known: Vec::new() }
    }

    /// The numbers of types whose tags have a single definition, with the keys of the tags.
    pub fn single_definitions(&self) -> impl Iterator<Item = (u32, u64)> + '_ {
        (1..).zip(self.single.iter().copied()).filter(|&(_, key)| key != 0)
    }

    /// The number in the table for an own number, if `known` has it.
    pub fn table_number(&self, number: u32) -> Option<u32> {
        let place = self.known.binary_search_by_key(&number, |&(own, _)| own).ok()?;
        Some(self.known[place].1)
    }

    /// The type with a number.
    pub fn get(&self, number: u32) -> &Record<'a> {
        &self.records[number as usize - 1]
    }

    fn shape(&self, number: u32) -> u64 {
        self.shape[number as usize - 1]
    }
}

/// The table of all types so far, without duplicates.
#[derive(Default)]
pub struct Joiner<'a> {
    table: Table<'a>,
    shape: Vec<u64>,
    /// For each type the turn in which it was first seen, or first defined if it is defined at all.
    turn: Vec<u64>,
    turns: u64,
    known: Chains,
    named: Chains,
    slots: Slots,
}

/// The types of a unit, as far as they are identified. 0 is not known yet; other numbers are those
/// of the table, or, above these, the unit's own.
pub struct Identities {
    /// For each number, including 0, the type that it is.
    pub is: Vec<u32>,
    pairs: Vec<u32>,
    differ: HashSet<u64, BuildHasherDefault<NumberHasher>>,
    steps: u64,
}

impl<'a> Joiner<'a> {
    /// Joins the types of a unit. Returns the number in the table for each number of the unit,
    /// including 0.
    pub fn join(&mut self, mut piece: Piece<'a>) -> Vec<u32> {
        self.slots.leave_several_out(&mut piece);
        for left in (0..MOST_TRIES).rev() {
            let found = self.find(&piece);
            let judged = self.slots.judge(&piece, &self.table, &found);
            if judged.several.is_empty() {
                self.slots.loosen(&piece, &judged.loose);
                return self.take(piece, found.is, &judged.fuller);
            }
            let several = if left == 1 { piece.single.clone() } else { judged.several };
            self.slots.add_several(&several, &piece);
            self.slots.leave_several_out(&mut piece);
        }
        unreachable!("without tags there are none that differ");
    }

    /// Identifies each type of a unit.
    fn find(&self, piece: &Piece<'a>) -> Identities {
        let count = piece.records.len() as u32;
        let mut is = self.slots.find(piece, &self.table);
        piece.known.iter().for_each(|&(own, known)| is[own as usize] = known);
        let mut found = Identities {
            is,
            pairs: vec![0; count as usize + 1],
            differ: HashSet::default(),
            steps: MOST_STEPS * u64::from(count) + MOST_STEPS,
        };
        for number in 1..=count {
            if found.is[number as usize] == 0 && piece.get(number).is_named_aggregate() {
                self.compare(piece, number, &mut found);
            }
        }
        for number in 1..=count {
            if found.is[number as usize] == 0 && piece.get(number).is_named_aggregate() {
                found.is[number as usize] = self.table.len() + number;
            }
        }
        let mut fresh = Chains::default();
        for number in 1..=count {
            self.look_up(piece, number, &mut found, &mut fresh);
        }
        found
    }

    /// Adds the new types to the table, in the order of their first copies.
    fn take(&mut self, piece: Piece<'a>, is: Vec<u32>, fuller: &HashSet<u32>) -> Vec<u32> {
        let known = self.table.len();
        let mut to = vec![0; is.len()];
        let mut kept = vec![0; is.len()];
        let mut order = Vec::new();
        for number in 1..is.len() {
            let mut same = is[number];
            if same > known {
                let own = &mut kept[(same - known) as usize];
                if *own == 0 {
                    order.push((same - known, number));
                    *own = known + order.len() as u32;
                }
                same = *own;
            }
            to[number] = same;
        }
        let mut records: Vec<Option<Record>> = piece.records.into_iter().map(Some).collect();
        self.table.records.reserve(order.len());
        self.known.first.reserve(order.len());
        for &(own, first) in &order {
            let place = own as usize - 1;
            let mut record = records[place].take().expect("each is kept once");
            record.renumber(|n| to[n as usize]);
            let turn = self.turns + first as u64;
            self.add(record, piece.shape[place], piece.single[place], turn);
        }
        for (place, &key) in piece.single.iter().enumerate().filter(|(_, &key)| key != 0) {
            let Some(mut record) = records[place].take() else { continue };
            let number = to[place + 1];
            let is_declared = self.table.get(number).is_forward() && !record.is_forward();
            if self.slots.number(key) == Some(number) && is_declared {
                self.turn[number as usize - 1] = self.turns + place as u64 + 1;
                record.renumber(|n| to[n as usize]);
                self.replace(number, record, piece.shape[place]);
            } else if fuller.contains(&(place as u32 + 1)) {
                record.renumber(|n| to[n as usize]);
                self.replace(number, record, piece.shape[place]);
            }
        }
        self.turns += records.len() as u64;
        to
    }

    fn add(&mut self, record: Record<'a>, shape: u64, key: u64, turn: u64) {
        let hash = with_references(shape, record.references());
        let is_named = record.is_named_aggregate();
        let number = self.table.add(record);
        self.shape.push(shape);
        self.turn.push(turn);
        self.known.add(hash, number);
        if is_named {
            self.named.add(shape, number);
        }
        if key != 0 {
            self.slots.add(key, number);
        }
    }

    /// Replaces a type by a copy of it with more detail.
    fn replace(&mut self, number: u32, record: Record<'a>, shape: u64) {
        let place = number as usize - 1;
        if record.is_named_aggregate() && self.shape[place] != shape {
            self.named.add(shape, number);
        }
        self.shape[place] = shape;
        self.table.records[place] = record;
    }

    /// The keys of tags by which declarations were joined, and that turned out to have several
    /// definitions.
    pub fn conflicts(&mut self) -> &mut HashSet<u64> {
        &mut self.slots.conflicts
    }

    /// The table in the order in which types were seen, and the new number of each old one,
    /// including 0.
    pub fn into_table(self) -> (Table<'a>, Vec<u32>) {
        let Joiner { mut table, turn, .. } = self;
        let (order, to) = order_of_turns(&turn);
        table.choose(&order, &to);
        (table, to)
    }

    /// The joined types as a piece, to be joined with others; the new numbers; and the conflicts.
    pub fn into_piece(self, tags: &SingleTags) -> (Piece<'a>, Vec<u32>, HashSet<u64>) {
        let Joiner { mut table, shape, turn, slots, .. } = self;
        let (order, to) = order_of_turns(&turn);
        table.choose(&order, &to);
        let shape = order.iter().map(|&n| shape[n as usize - 1]).collect();
        (Piece::with_shape(table.records, shape, slots.loose, tags), to, slots.conflicts)
    }

    /// Looks for a struct or union, with all that it refers to, among the known types.
    fn compare(&self, piece: &Piece<'a>, number: u32, found: &mut Identities) {
        let alike: Vec<u32> = self.named.of(piece.shape(number)).take(MOST_ALIKE).collect();
        for other in alike {
            if !found.differ.contains(&pair(number, other))
                && self.is_alike(piece, number, other, found)
            {
                return;
            }
        }
    }

    /// Whether a new type and all that it refers to equal known types; if so, they are identified.
    /// If two types differ, so do all on the way to them, which are not compared again.
    fn is_alike(&self, piece: &Piece<'a>, number: u32, other: u32, found: &mut Identities) -> bool {
        found.pairs[number as usize] = other;
        let mut met = vec![(number, 0)];
        let mut at = 0;
        let mut differs = None;
        while at < met.len() && differs.is_none() {
            let one = met[at].0;
            let same = found.pairs[one as usize];
            let (mine, theirs) = (piece.get(one), self.table.get(same));
            let cost = 1 + mine.members().len() as u64;
            let has_hash = piece.shape(one) == self.shape[same as usize - 1];
            if found.steps < cost || !has_hash || !mine.has_shape_of(theirs) {
                differs = Some(at);
            }
            found.steps = found.steps.saturating_sub(cost);
            if differs.is_none() && !pair_all(mine, theirs, at, found, &mut met) {
                differs = Some(at);
            }
            at += 1;
        }
        if let Some(mut at) = differs {
            loop {
                let one = met[at].0;
                found.differ.insert(pair(one, found.pairs[one as usize]));
                if at == 0 {
                    break;
                }
                at = met[at].1;
            }
        }
        for &(one, _) in &met {
            let same = std::mem::take(&mut found.pairs[one as usize]);
            if differs.is_none() {
                found.is[one as usize] = same;
            }
        }
        differs.is_none()
    }

    /// Identifies a type, after all types that it refers to.
    fn look_up(&self, piece: &Piece<'a>, number: u32, found: &mut Identities, fresh: &mut Chains) {
        const BEGUN: u32 = u32::MAX;
        let mut todo = vec![number];
        while let Some(&number) = todo.last() {
            let place = number as usize;
            let record = piece.get(number);
            if found.is[place] != 0 {
                todo.pop();
            } else if found.pairs[place] != BEGUN {
                found.pairs[place] = BEGUN;
                let is_open = |n: &u32| {
                    *n != 0 && found.is[*n as usize] == 0 && found.pairs[*n as usize] != BEGUN
                };
                todo.extend(record.references().filter(is_open));
            } else {
                todo.pop();
                found.is[place] = self.of_record(piece, number, found, fresh);
            }
        }
    }

    /// Identifies a type whose references are identified.
    fn of_record(
        &self,
        piece: &Piece<'a>,
        number: u32,
        found: &Identities,
        fresh: &mut Chains,
    ) -> u32 {
        let record = piece.get(number);
        let of = |n: u32| found.is[n as usize];
        let hash = with_references(piece.shape(number), record.references().map(of));
        let known = self.known.of(hash).find(|&other| {
            let other = self.table.get(other);
            record.has_shape_of(other) && record.references().map(of).eq(other.references())
        });
        let own = || {
            fresh.of(hash).find(|&other| {
                let other = piece.get(other);
                let references = other.references().map(of);
                record.has_shape_of(other) && record.references().map(of).eq(references)
            })
        };
        if let Some(known) = known {
            return known;
        }
        if let Some(own) = own() {
            return self.table.len() + own;
        }
        fresh.add(hash, number);
        self.table.len() + number
    }
}

/// The types in the order of their turns, and the new number of each old one, including 0.
fn order_of_turns(turn: &[u64]) -> (Vec<u32>, Vec<u32>) {
    let mut order: Vec<u32> = (1..=turn.len() as u32).collect();
    order.sort_by_key(|&n| turn[n as usize - 1]);
    let mut to = vec![0; order.len() + 1];
    for (place, &number) in order.iter().enumerate() {
        to[number as usize] = place as u32 + 1;
    }
    (order, to)
}

/// A pair of numbers as one number.
fn pair(one: u32, other: u32) -> u64 {
    u64::from(one) << 32 | u64::from(other)
}

/// Pairs the references of two types. Returns false if they differ.
fn pair_all(
    mine: &Record<'_>,
    theirs: &Record<'_>,
    at: usize,
    found: &mut Identities,
    met: &mut Vec<(u32, usize)>,
) -> bool {
    for (x, y) in mine.references().zip(theirs.references()) {
        let known = match found.is[x as usize] {
            0 => found.pairs[x as usize],
            known => known,
        };
        let is_open = x != 0 && known == 0;
        if is_open && y != 0 && !found.differ.contains(&pair(x, y)) {
            found.pairs[x as usize] = y;
            met.push((x, at));
        } else if is_open || known != y {
            return false;
        }
    }
    true
}

fn with_references(shape: u64, references: impl Iterator<Item = u32>) -> u64 {
    let mut hasher = ahash::AHasher::new_with_keys(1, 2);
    shape.hash(&mut hasher);
    references.for_each(|n| n.hash(&mut hasher));
    hasher.finish()
}

#[cfg(test)]
mod tests {
    use super::*;
    use crate::table::{Kind, Member, Parts};
    use std::borrow::Cow;

    fn pointer(of: u32) -> Record<'static> {
        Record { of, ..Record::new(Kind::Pointer, Cow::Borrowed(b"")) }
    }

    fn forward(name: &'static str) -> Record<'static> {
        Record { tag: Kind::Struct, ..Record::new(Kind::Forward, Cow::Borrowed(name.as_bytes())) }
    }

    fn structure(name: &'static str, of: u32) -> Record<'static> {
        let member = Member { name: Cow::Borrowed(b"of"), of, offset: 0, width: None };
        let parts = Parts::Members([member].into());
        Record { size: 8, parts, ..Record::new(Kind::Struct, Cow::Borrowed(name.as_bytes())) }
    }

    #[test]
    fn a_number_may_stand_for_a_type_that_was_joined() {
        let tags = SingleTags::default();
        let mut joiner = Joiner::default();
        let first = joiner.join(Piece::new(vec![pointer(2), structure("node", 1)], vec![], &tags));
        let known = vec![(1, first[1])];
        let records = vec![Record::unknown(), structure("node", 1), structure("list", 1)];
        let second = joiner.join(Piece::new(records, known, &tags));
        assert_eq!(second[..3], [0, first[1], first[2]]);
        let table = joiner.into_table().0;
        assert_eq!(table.len(), 3);
        assert_eq!(table.get(3).members()[0].of, 1);
    }

    #[test]
    fn a_tag_is_one_where_a_joined_type_tells_more_of_what_it_names() {
        let tags = SingleTags::of_structs(&["list"]);
        let mut joiner = Joiner::default();
        let declared = vec![forward("node"), pointer(1), structure("list", 2)];
        let first = joiner.join(Piece::new(declared, vec![], &tags));
        let told = vec![structure("node", 2), pointer(1)];
        let second = joiner.join(Piece::new(told, vec![], &tags));
        assert_ne!(second[2], first[2]);
        let records = vec![Record::unknown(), structure("list", 1)];
        let third = joiner.join(Piece::new(records, vec![(1, second[2])], &tags));
        assert_eq!(third[2], first[3]);
        assert!(joiner.conflicts().is_empty());
        let (table, to) = joiner.into_table();
        assert_eq!(table.get(to[first[3] as usize]).members()[0].of, to[second[2] as usize]);
    }
}
