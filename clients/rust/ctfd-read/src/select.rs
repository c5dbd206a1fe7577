//! Selects the types of a table for a dictionary: those that others reach, as many as it holds.

use crate::error::{refuse, Result};
use crate::nearest::suggestion;
use crate::section::MOST_TYPES;
use crate::table::{Kind, Record, Table};
use std::collections::HashSet;

/// How many names of types that are left out a line lists.
const LISTED: usize = 20;

/// The types of a table that were chosen and those left out, by number, in order.
pub struct Choice {
    /// The types to keep.
    pub kept: Vec<u32>,
    /// The types to leave out.
    pub left: Vec<u32>,
}

/// The types that look-ups by name find, and enums.
pub fn roots(table: &Table<'_>) -> Vec<u32> {
    let is_root = |&n: &u32| {
        let record = table.get(n);
        record.root && (!record.name.is_empty() || record.kind == Kind::Enum)
    };
    (1..=table.len()).filter(is_root).collect()
}

/// The types with names in C, such as `struct list_head` or `size_t`.
pub fn types_named(table: &Table<'_>, names: &[String]) -> Result<Vec<u32>> {
    let mut found = Vec::new();
    for name in names {
        let plain = normal(name);
        if plain.contains('*') {
            return refuse(format!("--only {name}: a pointer is no name"));
        }
        let is_named = |&n: &u32| {
            let record = table.get(n);
            !record.name.is_empty() && record.tag_name() == plain
        };
        let before = found.len();
        found.extend((1..=table.len()).filter(is_named));
        if found.len() == before {
            let records = table.records.iter();
            let names = records.filter(|record| !record.name.is_empty()).map(Record::tag_name);
            return refuse(format!(
                "--only {name}: it has no type of this name{}",
                suggestion(&plain, names)
            ));
        }
    }
    Ok(found)
}

/// A name with one blank between its words.
fn normal(name: &str) -> String {
    name.replace('*', " * ").split_whitespace().collect::<Vec<_>>().join(" ")
}

/// Chooses as many types as a dictionary holds, each with all types that it needs by value. Types
/// that are only pointed to come after all named ones, and after them those in `last`.
pub fn fitting(
    table: &Table<'_>,
    roots: impl IntoIterator<Item = u32>,
    last: impl IntoIterator<Item = u32>,
) -> Choice {
    let mut filling = Filling { table, chosen: vec![false; table.len() as usize + 1], count: 0 };
    let mut later = Vec::new();
    let mut roots: Vec<u32> = roots.into_iter().collect();
    roots.sort_unstable();
    roots.dedup();
    roots.into_iter().for_each(|root| filling.take(root, &mut later));
    later.extend(last);
    let mut at = 0;
    while at < later.len() {
        filling.take(later[at], &mut later); // `later` grows as they bring further types
        at += 1;
    }
    let numbers = 1..=table.len();
    let (kept, left) = numbers.partition(|&n| filling.chosen[n as usize]);
    Choice { kept, left }
}

/// The types chosen so far.
struct Filling<'t, 'a> {
    table: &'t Table<'a>,
    chosen: Vec<bool>,
    count: u32,
}

impl Filling<'_, '_> {
    /// Adds a type and all that it needs by value, or nothing if there is no room.
    fn take(&mut self, root: u32, later: &mut Vec<u32>) {
        if root == 0 || self.chosen[root as usize] {
            return;
        }
        let mut own = HashSet::from([root]);
        let mut todo = vec![root];
        let mut outside = Vec::new();
        while let Some(number) = todo.pop() {
            let record = self.table.get(number);
            for n in record.references() {
                if !is_by_value(record) {
                    outside.push(n);
                } else if n != 0 && !self.chosen[n as usize] && own.insert(n) {
                    todo.push(n);
                }
            }
            if self.count + own.len() as u32 > MOST_TYPES {
                return;
            }
        }
        self.count += own.len() as u32;
        own.into_iter().for_each(|n| self.chosen[n as usize] = true);
        later.append(&mut outside);
    }
}

/// Whether a type needs what it refers to: each type but a pointer.
fn is_by_value(record: &Record<'_>) -> bool {
    record.kind != Kind::Pointer
}

/// The types of a parent, as many as it holds: each with all that it reaches.
pub fn closure_of_all(table: &Table<'_>, roots: impl IntoIterator<Item = u32>) -> Vec<u32> {
    let mut kept = HashSet::new();
    let mut never = HashSet::new();
    let mut roots: Vec<u32> = roots.into_iter().collect();
    roots.sort_unstable();
    for root in roots {
        if kept.contains(&root) || never.contains(&root) {
            continue;
        }
        match closure(table, root, &kept, &never) {
            Some(own) => kept.extend(own),
            None => {
                never.insert(root);
            }
        }
    }
    let mut kept: Vec<u32> = kept.into_iter().collect();
    kept.sort_unstable();
    kept
}

/// A type and all that it reaches, without those kept already; `None` if that is too much.
fn closure(
    table: &Table<'_>,
    root: u32,
    kept: &HashSet<u32>,
    never: &HashSet<u32>,
) -> Option<HashSet<u32>> {
    let mut own = HashSet::from([root]);
    let mut todo = vec![root];
    while let Some(number) = todo.pop() {
        for n in table.get(number).references() {
            if never.contains(&n) {
                return None;
            }
            if n != 0 && !kept.contains(&n) && own.insert(n) {
                todo.push(n);
            }
        }
        if kept.len() + own.len() > MOST_TYPES as usize {
            return None;
        }
    }
    Some(own)
}

/// A line on types that are left out for lack of numbers; `None` if there are none.
pub fn left_out(table: &Table<'_>, left: &[u32], what: &str) -> Option<String> {
    let names: Vec<String> = left
        .iter()
        .map(|&n| table.get(n))
        .filter(|record| !record.name.is_empty())
        .map(Record::tag_name)
        .collect();
    let mut listed = names[..names.len().min(LISTED)].join(", ");
    if names.len() > LISTED {
        listed += &format!(" and {} more", names.len() - LISTED);
    }
    if names.is_empty() {
        listed = "none of them has a name".to_owned();
    }
    (!left.is_empty()).then(|| {
        format!(
            "{} types are more than the {MOST_TYPES} that {what}; they are left out, and pointers \
             to them become void *: {listed}",
            left.len()
        )
    })
}
