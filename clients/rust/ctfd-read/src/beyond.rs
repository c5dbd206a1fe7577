//! Facts about the types of a file that CTF cannot represent, for comparing two files.

use crate::limits::fit;
use crate::table::{Kind, Record, Table};
use std::collections::HashMap;

/// The name and the value of an enumerator.
pub type Named = (Vec<u8>, i128);

/// Facts that a dictionary does not have, by its type numbers.
#[derive(Clone, Debug, Default)]
pub struct Beyond {
    /// All enumerators of enums with more, or greater, values than CTF can represent.
    pub values: HashMap<u32, Vec<Named>>,
    /// The number of elements of arrays that are longer than CTF allows.
    pub elements: HashMap<u32, u64>,
    /// All arguments of functions with more than CTF allows.
    pub arguments: HashMap<u32, Vec<u32>>,
    /// The enums that are types of bit-fields, by the struct or union and the member's index in it.
    pub fields: HashMap<(u32, usize), u32>,
    /// What is lost nevertheless, one line for each loss.
    pub losses: Vec<String>,
}

impl Beyond {
    /// The facts about the types of a file that the dictionary written from it lacks. `None` if not
    /// all of the types were written.
    pub(crate) fn of_written(full: &Table<'_>, written: &Table<'_>) -> Option<Beyond> {
        let is_there = |number: u32| {
            let record = full.get(number);
            record.kind == Kind::Atomic || record.name == written.get(number).name
        };
        let is_whole = full.len() <= written.len() && (1..=full.len()).all(is_there);
        is_whole.then(|| Beyond::of(full))
    }

    fn of(full: &Table<'_>) -> Beyond {
        let mut fitted = full.clone();
        fit(&mut fitted);
        let lost = fitted.losses[full.losses.len()..].iter().filter(|line| line.contains("float"));
        let losses = full.losses.iter().chain(lost).cloned().collect();
        let mut made = Beyond { losses, ..Beyond::default() };
        for number in 1..=full.len() {
            made.add(full, number, full.get(number), fitted.get(number));
        }
        made
    }

    /// Adds the facts that a type's record in the dictionary lacks.
    fn add(&mut self, full: &Table<'_>, number: u32, record: &Record<'_>, fitted: &Record<'_>) {
        if record.values() != fitted.values() {
            let named = record.values().iter().map(|one| (one.name.to_vec(), one.value));
            self.values.insert(number, named.collect());
        }
        if record.elements != fitted.elements {
            self.elements.insert(number, record.elements);
        }
        if record.arguments() != fitted.arguments() {
            self.arguments.insert(number, record.arguments().to_vec());
        }
        if record.members().len() != fitted.members().len() {
            return;
        }
        for (place, member) in record.members().iter().enumerate() {
            let end = full.resolve(member.of);
            if member.width.is_some() && end != 0 && full.get(end).kind == Kind::Enum {
                self.fields.insert((number, place), end);
            }
        }
    }
}
