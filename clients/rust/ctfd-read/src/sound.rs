//! Checks that a table can be written: damaged files may have types that no program has.

use crate::error::{refuse, Result};
use crate::table::{Kind, Record, Table};
use smallvec::{smallvec, SmallVec};

/// The types to which a type leads.
type Next = SmallVec<[u32; 8]>;

/// Refuses a table in which a type refers to a missing one, or has an offset or a size that no type
/// of C has.
pub fn judge(table: &Table<'_>) -> Result<()> {
    let count = table.len();
    for record in &table.records {
        if record.references().any(|n| n > count) {
            return refuse(format!("{} names a type that is not there: damage", name_of(record)));
        }
        if record.size >= LONGEST || record.elements >= LONGEST || record.encoding.bits > 0xffff {
            return refuse(format!("{} has a size that no type of C has: damage", name_of(record)));
        }
        if record.kind.is_aggregate() {
            judge_members(record)?;
        }
    }
    if table.symbol_roots().iter().any(|&n| n > count) {
        return refuse("a symbol has a type that is not there: damage");
    }
    let (values, declarations) =
        rayon::join(|| judge_depth(table, by_value), || judge_depth(table, as_declared));
    values.and(declarations)
}

/// The types by value of which a type consists.
fn by_value(record: &Record<'_>) -> Next {
    match record.kind {
        kind if kind.is_aggregate() => record.members().iter().map(|one| one.of).collect(),
        Kind::Typedef | Kind::Array => smallvec![record.of],
        kind if kind.is_qualifier() => smallvec![record.of],
        _ => Next::new(),
    }
}

/// The next type in the declaration of a type.
fn as_declared(record: &Record<'_>) -> Next {
    match record.kind {
        Kind::Typedef | Kind::Pointer | Kind::Function | Kind::Array => smallvec![record.of],
        kind if kind.is_qualifier() => smallvec![record.of],
        _ => Next::new(),
    }
}

/// Refuses a table in which chains of types are longer than in any program, or endless: code that
/// follows them could take a step for each pair of types.
fn judge_depth(table: &Table<'_>, leads: fn(&Record<'_>) -> Next) -> Result<()> {
    const BEGUN: u32 = u32::MAX;
    // For each type the length of its longest chain, plus one; 0 if that is not known yet.
    let mut steps = vec![0u32; table.len() as usize + 1];
    let mut todo = Vec::new();
    for number in 1..=table.len() {
        todo.extend(Some(number).filter(|&n| steps[n as usize] == 0));
        while let Some(&here) = todo.last() {
            let mut inner = leads(table.get(here));
            inner.retain(|n| *n != 0);
            let place = here as usize;
            if steps[place] == 0 {
                steps[place] = BEGUN;
                if inner.iter().any(|&n| steps[n as usize] == BEGUN) {
                    return refuse("a type leads back to itself: damage");
                }
                todo.extend(inner.iter().filter(|&&n| steps[n as usize] == 0));
                continue;
            }
            if steps[place] == BEGUN {
                steps[place] = 1 + inner.iter().map(|&n| steps[n as usize]).max().unwrap_or(0);
            }
            todo.pop();
            if steps[place] > DEEPEST + 1 {
                return refuse(format!(
                    "more than {DEEPEST} types lead from one to the next: no C program has such"
                ));
            }
        }
    }
    Ok(())
}

/// The longest chain of types that the rules of a dictionary allow.
const DEEPEST: u32 = 512;

const LONGEST: u64 = 1 << 60;

/// Checks the offsets of members: those of a small struct have 16 bits.
fn judge_members(record: &Record<'_>) -> Result<()> {
    let last = if record.size < crate::section::LONG_MEMBERS { 0xffff } else { 8 * LONGEST - 1 };
    for one in record.members() {
        if one.offset > last || one.width == Some(u16::MAX) {
            let name = String::from_utf8_lossy(&one.name);
            let name = if name.is_empty() { "(anon)".into() } else { name };
            return refuse(format!(
                "{}: its member {name} lies at bit {}, outside of it: damage",
                name_of(record),
                one.offset
            ));
        }
    }
    Ok(())
}

fn name_of(record: &Record<'_>) -> String {
    match record.tag_name() {
        name if name.is_empty() => format!("a type of kind {}", record.kind.name()),
        name => name,
    }
}
