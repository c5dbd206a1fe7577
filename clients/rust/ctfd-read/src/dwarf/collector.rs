//! Reads all units of a program, many at a time, and joins them in order.

use crate::descriptions::{Descriptions, SymbolFilter};
use crate::dwarf::groups::groups;
use crate::dwarf::imports::imports;
use crate::dwarf::line::Line;
use crate::dwarf::names::Language;
use crate::dwarf::tags::SingleTags;
use crate::dwarf::types::Reader;
use crate::dwarf::unit_types::{JoinedEntries, JoinedUnits, Losses, Numbers, UnitTypes};
use crate::dwarf::units::{Debug, Entry};
use crate::error::{refuse, Result};
use crate::join::{Joiner, Piece};
use crate::progress::{Listener, Work};
use crate::symbols::Symbols;
use crate::table::Table;
use crate::verify::Judges;
use gimli::{constants as dw, DwLang};
use rayon::prelude::*;
use std::collections::{BTreeMap, HashMap, HashSet};
use std::ops::Range;
use std::sync::atomic::{AtomicUsize, Ordering};

/// How many times everything is read at most: again if a tag turns out to have several definitions.
const MOST_ROUNDS: usize = 3;
/// Files with fewer bytes of entries than this are read faster than their tags could be found.
const WORTH_TAGS: usize = 1 << 24;

enum Outcome<'a> {
    OfC(UnitTypes<'a>),
    Foreign(DwLang),
    Nothing,
}

/// The types and symbols of all units so far.
#[derive(Default)]
pub struct Collector<'a> {
    joiner: Joiner<'a>,
    symbols: Descriptions,
    roots: Numbers,
    losses: Losses,
    units: usize,
    foreign: BTreeMap<String, usize>,
}

/// The joined types and symbols of some units.
struct Group<'a> {
    piece: Piece<'a>,
    conflicts: HashSet<u64>,
    unit_types: UnitTypes<'a>,
    units: usize,
    foreign: Vec<DwLang>,
}

/// Reads all units of some files; each file has the name that errors begin with.
pub fn collect<'a>(
    files: &[(Debug<'a>, String)],
    filter: &SymbolFilter<'_>,
    is_ilp32: bool,
    listener: &Listener,
) -> Result<Collector<'a>> {
    let mut tags = SingleTags::default();
    if files.iter().map(|(debug, _)| debug.entry_bytes()).sum::<usize>() >= WORTH_TAGS {
        tags = SingleTags::of(files.iter().map(|(debug, _)| debug));
    }
    for left in (0..MOST_ROUNDS).rev() {
        let mut collector = Collector::default();
        let work = listener.begin(files.iter().map(|(debug, _)| debug.units() as u64).sum());
        for (debug, name) in files {
            let read = collector.read(debug, filter, is_ilp32, &tags, &work);
            read.map_err(|error| error.of(name))?;
        }
        let conflicts = std::mem::take(collector.joiner.conflicts());
        match left {
            _ if conflicts.is_empty() => return Ok(collector),
            1 => tags.clear(),
            _ => tags.remove(conflicts),
        }
    }
    refuse("its types can't be distinguished")
}

/// Refuses dictionaries that differ from the types in the units of some files. Returns the number
/// of types compared.
pub fn verify(
    files: &[(Debug<'_>, String)],
    is_ilp32: bool,
    written: &Judges<'_>,
) -> Result<usize> {
    let filter = SymbolFilter::new(&[]);
    let mut count = 0;
    for (debug, name) in files {
        let imports = imports(debug)?;
        let alone = JoinedEntries::default();
        let judged = |number: usize| -> Result<usize> {
            match read_unit(debug, number, &filter, &imports, &alone, is_ilp32)? {
                Outcome::OfC(unit) => written.judge(&unit.records, &unit.roots),
                _ => Ok(0),
            }
        };
        let of_file: Result<usize> = (0..debug.units()).into_par_iter().map(judged).sum();
        count += of_file.map_err(|error| error.of(name))?;
    }
    written.finish()?;
    Ok(count)
}

impl<'a> Collector<'a> {
    /// Reads all units of a file, many at a time, and joins them in order.
    fn read(
        &mut self,
        debug: &Debug<'a>,
        filter: &SymbolFilter<'_>,
        is_ilp32: bool,
        tags: &SingleTags,
        work: &Work<'_>,
    ) -> Result<()> {
        let imports = imports(debug)?;
        let read = |number: usize, joined: &JoinedEntries| {
            work.add(1);
            read_unit(debug, number, filter, &imports, joined, is_ilp32)
        };
        let groups = groups(debug);
        let line = Line::new(|group| self.take(group));
        let next = AtomicUsize::new(0);
        let read_some = |_| loop {
            let place = next.fetch_add(1, Ordering::Relaxed);
            match groups.get(place) {
                Some(group) if line.put(place, || Group::read(group.clone(), read, tags)) => {}
                _ => break,
            }
        };
        let readers = rayon::current_num_threads().min(groups.len());
        (0..readers).into_par_iter().for_each(read_some);
        line.finish()?;
        self.losses.end_file();
        Ok(())
    }

    fn take(&mut self, group: Group<'a>) {
        for language in group.foreign {
            *self.foreign.entry(language_name(language)).or_default() += 1;
        }
        self.units += group.units;
        self.joiner.conflicts().extend(group.conflicts);
        let to = self.joiner.join(group.piece);
        let UnitTypes { roots, told, losses, .. } = group.unit_types.with_numbers(&to);
        self.roots.extend(&roots);
        self.losses.extend(losses);
        told.into_iter().for_each(|told| self.symbols.tell(told));
    }

    /// The table with all types and the types of symbols, and the numbers of the named types.
    pub fn finish(
        self,
        wanted: &Symbols<'_>,
        filter: &SymbolFilter<'_>,
        is_linked: bool,
        is_ilp32: bool,
    ) -> Result<(Table<'a>, Vec<u32>)> {
        let described = |(name, units): (&String, &usize)| match units {
            1 => format!("1 unit in {name}"),
            _ => format!("{units} units in {name}"),
        };
        let listed: Vec<String> = self.foreign.iter().map(described).collect();
        if self.units == 0 && !listed.is_empty() {
            let listed = listed.join(" and ");
            return refuse(format!(
                "its debug information is of {listed}: types of C, C++ and Rust are read"
            ));
        }
        let (mut table, to) = self.joiner.into_table();
        let place = |n: u32| to[n as usize];
        for one in &wanted.listed {
            let said = self.symbols.description_of(one, filter, is_linked);
            if one.is_function {
                let function = said.and_then(|said| said.function.as_ref());
                table.functions.push(function.map(|function| function.record(place)));
            } else {
                table.objects.push(said.map_or(0, |said| place(said.of)));
            }
        }
        table.is_ilp32 = is_ilp32;
        table.losses = self.losses.lines;
        table.losses.extend(listed.iter().map(|one| {
            format!(
                "{one} of the program: types of C, C++ and Rust are read; what it tells is left out"
            )
        }));
        Ok((table, self.roots.listed.into_iter().map(place).collect()))
    }
}

impl<'a> Group<'a> {
    /// Reads some units and joins them in the same thread, so that the rest of each unit is freed
    /// by the thread that allocated it.
    fn read(
        numbers: Range<usize>,
        read: impl Fn(usize, &JoinedEntries) -> Result<Outcome<'a>>,
        tags: &SingleTags,
    ) -> Result<Group<'a>> {
        if numbers.len() == 1 {
            let outcome = read(numbers.start, &JoinedEntries::default())?;
            return Ok(Group::of_unit(outcome, tags));
        }
        let mut joiner = Joiner::default();
        let mut all = JoinedUnits::default();
        let mut joined = JoinedEntries::default();
        let (mut units, mut foreign) = (0, Vec::new());
        for number in numbers {
            match read(number, &joined)? {
                Outcome::Nothing => {}
                Outcome::Foreign(language) => foreign.push(language),
                Outcome::OfC(mut unit_types) => {
                    units += 1;
                    let records = std::mem::take(&mut unit_types.records);
                    let known = std::mem::take(&mut unit_types.joined);
                    let to = joiner.join(Piece::new(records, known, tags));
                    joined.extend(&unit_types.shared, &to);
                    all.extend(unit_types.with_numbers(&to));
                }
            }
        }
        let (piece, to, conflicts) = joiner.into_piece(tags);
        Ok(Group { piece, conflicts, unit_types: all.with_numbers(&to), units, foreign })
    }

    /// The group of a single unit, which needs no joining of its own.
    fn of_unit(outcome: Outcome<'a>, tags: &SingleTags) -> Group<'a> {
        let (unit, foreign) = match outcome {
            Outcome::Nothing => (None, Vec::new()),
            Outcome::Foreign(language) => (None, vec![language]),
            Outcome::OfC(unit) => (Some(unit), Vec::new()),
        };
        let units = usize::from(unit.is_some());
        let mut unit_types = unit.unwrap_or_default();
        let piece = Piece::new(std::mem::take(&mut unit_types.records), Vec::new(), tags);
        Group { piece, conflicts: HashSet::new(), unit_types, units, foreign }
    }
}

/// Reads a unit and the units that it imports.
fn read_unit<'a>(
    debug: &Debug<'a>,
    number: usize,
    filter: &SymbolFilter<'_>,
    imports: &HashMap<u64, Vec<u64>>,
    joined: &JoinedEntries,
    is_ilp32: bool,
) -> Result<Outcome<'a>> {
    let unit = debug.open(number)?;
    let top = Entry::top(&unit)?;
    if top.tag == dw::DW_TAG_partial_unit {
        return Ok(Outcome::Nothing);
    }
    match top.constant(dw::DW_AT_language).map(|said| DwLang(said as u16)) {
        Some(dw::DW_LANG_Mips_Assembler | DwLang(0x31)) => return Ok(Outcome::Nothing),
        Some(language) if Language::of(language).is_none() => {
            return Ok(Outcome::Foreign(language));
        }
        _ => {}
    }
    let mut reader = Reader::new(debug, unit.start, filter, joined, is_ilp32);
    reader.unit(&unit)?;
    for &key in imports.get(&debug.start(number)).into_iter().flatten() {
        reader.unit(debug.unit_of(key)?)?;
    }
    Ok(Outcome::OfC(reader.unit_types))
}

/// The name of a language.
fn language_name(language: DwLang) -> String {
    let name = match language.0 {
        0x16 => "Go",
        0x13 => "D",
        0x03 | 0x0d | 0x2e | 0x2f => "Ada",
        0x07 | 0x08 | 0x0e | 0x22 | 0x23 => "Fortran",
        0x09 => "Pascal",
        0x10 => "Objective-C",
        0x11 => "Objective-C++",
        0x1e => "Swift",
        0x0b => "Java",
        0x0a => "Modula-2",
        0x17 => "Modula-3",
        other => return format!("language 0x{other:x}"),
    };
    name.to_owned()
}
