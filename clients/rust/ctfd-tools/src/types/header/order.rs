//! The order of a header: each type comes after those that it needs in full.

use super::Header;
use crate::types::catalog::{is_qualifier, Number};
use ctfd::Kind;
use std::collections::HashSet;

/// A step of the walk: before or after the types that a type needs.
enum Step {
    Enter(Number),
    Leave(Number),
}

/// The types that a declaration needs.
#[derive(Default)]
struct Needs {
    /// Types that must come before it, in full.
    before: Vec<Number>,
    /// Structs that it refers to, and the unnamed ones among these.
    pointed: Vec<Number>,
    tagged: Vec<Number>,
}

impl Header<'_, '_> {
    /// Puts types in order, each after those that it needs in full: depth first, without recursion,
    /// since chains may be long.
    pub(super) fn put_in_order(&mut self, wanted: &[Number]) {
        let mut seen = HashSet::new();
        let mut todo: Vec<Step> = wanted.iter().rev().map(|&number| Step::Enter(number)).collect();
        let mut pointed = HashSet::new();
        while let Some(step) = todo.pop() {
            let number = match step {
                Step::Leave(number) => {
                    self.order.push(number);
                    continue;
                }
                Step::Enter(number) if seen.insert(number) => number,
                Step::Enter(_) => continue,
            };
            todo.push(Step::Leave(number));
            let needs = self.needs(number);
            self.pointed.extend(needs.pointed.into_iter().filter(|&one| pointed.insert(one)));
            self.tagged.extend(needs.tagged);
            let before = needs.before.into_iter().rev().filter(|one| !seen.contains(one));
            todo.extend(before.map(Step::Enter));
        }
    }

    /// The types that a declaration refers to, and the structs that it contains. A pointer does not
    /// need its struct in full.
    fn needs(&self, number: Number) -> Needs {
        let mut needs = Needs::default();
        let record = self.record(number);
        match record.kind {
            Kind::Struct | Kind::Union => {
                let members = self.catalog.members(number).iter();
                members.for_each(|part| self.add_named_in(part.of, false, &mut needs));
            }
            Kind::Enum | Kind::Integer | Kind::Float | Kind::Forward => {}
            Kind::Function => self.add_named_in(number, false, &mut needs),
            kind => self.add_named_in(record.of, kind == Kind::Typedef, &mut needs),
        }
        needs
    }

    /// Adds the types that a declaration refers to; before these the struct that it contains, if it
    /// must be complete.
    fn add_named_in(&self, number: Number, is_renamed: bool, needs: &mut Needs) {
        let reached = self.catalog.underlying(number);
        let end = self.record(reached.number);
        let is_whole = !is_renamed || reached.is_array || end.name.is_empty();
        if end.is_aggregate() && is_whole {
            needs.before.push(reached.number);
        }
        let mut todo = vec![number];
        let mut seen = HashSet::new(); // a function may take a pointer to itself
        while let Some(number) = todo.pop() {
            if !seen.insert(number) {
                continue;
            }
            let record = self.record(number);
            match record.kind {
                Kind::Pointer | Kind::Array => todo.push(record.of),
                Kind::Function => {
                    todo.push(record.of);
                    todo.extend(&self.catalog.signature(number).arguments);
                }
                kind if is_qualifier(kind) => todo.push(record.of),
                Kind::Typedef | Kind::Enum | Kind::Integer | Kind::Float => {
                    needs.before.push(number);
                }
                Kind::Struct | Kind::Union | Kind::Forward => {
                    needs.pointed.push(number);
                    if number != reached.number && record.name.is_empty() {
                        needs.tagged.push(number);
                    }
                }
                _ => {}
            }
        }
    }
}
