//! The partial units that dwz made of what several units share, and which unit imports each first.

use crate::dwarf::units::{Debug, Entry, Unit};
use crate::error::Result;
use gimli::constants as dw;
use rayon::prelude::*;
use std::collections::{HashMap, HashSet};

/// For each unit the partial units that it imports before any other unit does; all by their
/// offsets.
pub(super) fn imports(debug: &Debug<'_>) -> Result<HashMap<u64, Vec<u64>>> {
    let numbers = 0..debug.units();
    let mut made = HashMap::new();
    let is_partial = |number: usize| -> Result<bool> {
        if debug.version(number) >= 5 {
            return Ok(debug.is_partial(number));
        }
        let unit = debug.open(number)?;
        let top = Entry::top(&unit)?;
        Ok(top.tag == dw::DW_TAG_partial_unit)
    };
    let is_told_by_header = numbers.clone().all(|number| debug.version(number) >= 5);
    let partial: Vec<bool> = match is_told_by_header {
        true => numbers.clone().map(is_partial).collect::<Result<_>>()?,
        false => numbers.clone().into_par_iter().map(is_partial).collect::<Result<_>>()?,
    };
    if !debug.has_common() && !partial.contains(&true) {
        return Ok(made);
    }
    let whole = numbers.into_par_iter().filter(|&number| !partial[number]);
    let listed: Vec<(u64, Vec<u64>)> = whole
        .map(|number| Ok((debug.start(number), imported_units(debug, &debug.open(number)?)?)))
        .collect::<Result<_>>()?;
    let mut met = HashSet::new();
    for (start, named_by) in listed {
        let mut own = Vec::new();
        let mut todo: Vec<u64> = named_by.into_iter().filter(|&key| met.insert(key)).collect();
        while let Some(key) = todo.pop() {
            own.push(key);
            todo.extend(
                imported_units(debug, debug.unit_of(key)?)?.into_iter().filter(|&k| met.insert(k)),
            );
        }
        made.insert(start, own);
    }
    Ok(made)
}

/// The offsets of the units that a unit imports.
fn imported_units<'a>(debug: &Debug<'a>, unit: &Unit<'a>) -> Result<Vec<u64>> {
    let mut made = Vec::new();
    let top = Entry::top(unit)?;
    for one in top.children_of(|tag| tag == dw::DW_TAG_imported_unit)? {
        if let Some(key) = debug.key(&one?, dw::DW_AT_import)? {
            made.push(debug.unit_of(key)?.start);
        }
    }
    Ok(made)
}
