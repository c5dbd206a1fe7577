//! Spreads the types of a table over several dictionaries, if one does not hold them: a parent with
//! types that many others refer to, and children, each with all that its types reach outside the
//! parent.
//!
//! The choice depends only on the table. Types that form a cycle stay together: they, and all that
//! they reach, are in the parent or in each child that needs them.

use crate::section::MOST_TYPES;
use crate::table::Table;

/// How many types may fail to fit into the parent: each try costs as much as a parent holds.
const MOST_FAILURES: u32 = 2048;

/// The types of the parent and of the children, by ascending numbers.
pub struct Spread {
    /// The parent's types.
    pub parent: Vec<u32>,
    /// The types of each child, without the parent's.
    pub children: Vec<Vec<u32>>,
    /// Types that reach more than a child holds.
    pub left: Vec<u32>,
}

/// Spreads the types of a table.
pub fn spread(table: &Table<'_>) -> Spread {
    let parent = SharedTypes::of(table);
    let mut parts = Spread { parent: Vec::new(), children: Vec::new(), left: Vec::new() };
    let mut is_placed = parent.is_in.clone();
    let mut child = ReachableTypes::beside(table, &parent.is_in);
    for number in 1..=table.len() {
        if is_placed[number as usize] || child.take(number, MOST_TYPES) {
            continue;
        }
        let mut next = ReachableTypes::beside(table, &parent.is_in);
        if next.take(number, MOST_TYPES) {
            child.added.iter().for_each(|&n| is_placed[n as usize] = true);
            parts.children.push(std::mem::replace(&mut child, next).added);
        } else {
            parts.left.push(number);
        }
    }
    parts.children.push(child.added);
    parts.children.retain(|one| !one.is_empty());
    parts.children.iter_mut().for_each(|one| one.sort_unstable());
    // What does not fit into one child, since it comes with too much, may be part of another.
    let told: std::collections::HashSet<u32> = parts.children.iter().flatten().copied().collect();
    parts.left.retain(|n| !told.contains(n));
    parts.parent = (1..=table.len()).filter(|&n| parent.is_in[n as usize]).collect();
    parts
}

/// The types of the parent.
struct SharedTypes {
    is_in: Vec<bool>,
}

impl SharedTypes {
    /// Those types to which several others refer, the most used first, each with all that it
    /// reaches, as many as fit.
    fn of(table: &Table<'_>) -> SharedTypes {
        let mut users = vec![0u32; table.len() as usize + 1];
        for record in &table.records {
            record.references().for_each(|n| users[n as usize] += 1);
        }
        let mut wanted: Vec<u32> = (1..=table.len()).filter(|&n| users[n as usize] > 1).collect();
        wanted.sort_by_key(|&n| std::cmp::Reverse(users[n as usize])); // a stable sort
        let nothing = vec![false; table.len() as usize + 1];
        let mut shared = ReachableTypes::beside(table, &nothing);
        let mut failures = 0;
        for number in wanted {
            failures += u32::from(!shared.take(number, MOST_TYPES));
            if failures > MOST_FAILURES {
                break;
            }
        }
        SharedTypes { is_in: shared.is_in }
    }
}

/// Types with all that they reach, except those that are elsewhere.
struct ReachableTypes<'t, 'a> {
    table: &'t Table<'a>,
    is_in: Vec<bool>,
    added: Vec<u32>,
}

impl<'t, 'a> ReachableTypes<'t, 'a> {
    fn beside(table: &'t Table<'a>, elsewhere: &[bool]) -> Self {
        ReachableTypes { table, is_in: elsewhere.to_vec(), added: Vec::new() }
    }

    /// Adds a type and all that it reaches, or nothing if there is no room. Returns whether they
    /// fit.
    fn take(&mut self, number: u32, most: u32) -> bool {
        let before = self.added.len();
        let mut at = before;
        self.add(number);
        while at < self.added.len() && self.added.len() <= most as usize {
            let table = self.table;
            for n in table.get(self.added[at]).references() {
                self.add(n);
            }
            at += 1;
        }
        let fits = self.added.len() <= most as usize;
        if !fits {
            for n in self.added.drain(before..) {
                self.is_in[n as usize] = false;
            }
        }
        fits
    }

    fn add(&mut self, number: u32) {
        if number != 0 && !std::mem::replace(&mut self.is_in[number as usize], true) {
            self.added.push(number);
        }
    }
}
