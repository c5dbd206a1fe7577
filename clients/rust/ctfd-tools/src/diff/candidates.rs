//! The new types of one name, for matching with the old ones. A hash finds equal types, since a
//! file may have thousands of one name.

use super::side::Side;
use crate::types::catalog::Number;
use ctfd::Kind;
use std::collections::hash_map::DefaultHasher;
use std::collections::{HashMap, VecDeque};
use std::hash::{Hash, Hasher};

/// How many types with the same hash are compared.
const TRIES: usize = 4;

/// The new types of one name.
pub struct Candidates<'c> {
    listed: &'c [Number],
    is_left: Vec<bool>,
    /// Their indices by their hashes; empty for a single type, which is compared without one.
    by_sum: HashMap<u64, VecDeque<usize>>,
}

impl<'c> Candidates<'c> {
    /// The given types of a side.
    pub fn new(side: &Side<'_, '_>, listed: &'c [Number]) -> Candidates<'c> {
        let mut by_sum: HashMap<u64, VecDeque<usize>> = HashMap::new();
        if listed.len() > 1 {
            for (place, &number) in listed.iter().enumerate() {
                by_sum.entry(sum(side, number)).or_default().push_back(place);
            }
        }
        Candidates { listed, is_left: vec![true; listed.len()], by_sum }
    }

    /// Takes the first type that is the same as an old one. Returns whether there is one.
    pub fn take(
        &mut self,
        side: &Side<'_, '_>,
        old: Number,
        is_same: impl Fn(Number, Number) -> bool,
    ) -> bool {
        if let [only] = self.listed {
            let is_taken = self.is_left[0] && is_same(old, *only);
            self.is_left[0] &= !is_taken;
            return is_taken;
        }
        if self.by_sum.is_empty() {
            return false;
        }
        let Some(places) = self.by_sum.get_mut(&sum(side, old)) else { return false };
        let tried = places.iter().take(TRIES).position(|&place| is_same(old, self.listed[place]));
        let taken = tried.and_then(|tried| places.remove(tried));
        if let Some(place) = taken {
            self.is_left[place] = false;
        }
        taken.is_some()
    }

    /// The types that were not taken, in order.
    pub fn remaining(self) -> impl Iterator<Item = Number> + 'c {
        let listed = self.listed.iter().copied().zip(self.is_left);
        listed.filter(|(_, is_left)| *is_left).map(|(number, _)| number)
    }
}

/// A hash that is equal for types that do not differ.
fn sum(side: &Side<'_, '_>, number: Number) -> u64 {
    let mut parts: Vec<u64> = Vec::new();
    let mut add = |part: &dyn Fn(&mut DefaultHasher)| {
        let mut hasher = DefaultHasher::new();
        part(&mut hasher);
        parts.push(hasher.finish());
    };
    let record = side.catalog.record(number);
    if record.is_aggregate() {
        for (place, _) in side.parts(number) {
            add(&|to| (&place.path, place.start, place.told.bits, &place.told.text).hash(to));
        }
    } else {
        for one in side.values(number) {
            add(&|to| one.hash(to));
        }
    }
    parts.sort_unstable(); // members may be in any order
    let mut hasher = DefaultHasher::new();
    (record.kind as u32, side.catalog.size(number), side.flags(number)).hash(&mut hasher);
    if record.kind == Kind::Typedef {
        side.text(record.of).hash(&mut hasher);
    }
    parts.hash(&mut hasher);
    hasher.finish()
}
