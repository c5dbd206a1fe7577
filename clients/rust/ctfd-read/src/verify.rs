//! Verifies that a dictionary agrees with the units of its program, by a walk that does not depend
//! on how types were joined.
//!
//! For each type that a unit defines, some type of the dictionary must have the same name, and must
//! agree with it in all that both refer to: kinds, sizes, names, offsets and widths of members,
//! values, elements and arguments. Pairs that lead back to themselves agree unless something else
//! shows that they do not. What CTF cannot represent is compared in the form in which it was
//! written: a bit-field only by its width, an atomic type by the typedef that replaces it. A
//! declaration may stand for a type that another unit defines.

use crate::error::{refuse, Result};
use crate::table::{Kind, Record, Table};
use std::collections::{HashMap, HashSet};
use std::sync::atomic::{AtomicBool, Ordering};

/// Longer lists of members, enumerators and arguments are written in another form.
const MOST_PARTS: usize = 1023;
/// The number of pairs that are compared for each type of a unit.
const MOST_PAIRS: usize = 4096;

/// How many of a program's types are written.
#[derive(Clone, Copy, Debug, PartialEq, Eq)]
pub enum Extent {
    /// All named types of its units.
    All,
    /// Some of them. Then each written type must be one of a unit.
    Some,
}

/// The dictionaries that were written for a program.
pub struct Judges<'t> {
    listed: Vec<Judge<'t>>,
    extent: Extent,
}

impl<'t> Judges<'t> {
    /// Takes the types of each dictionary, those of its parent first.
    pub fn new(tables: &'t [Table<'t>], extent: Extent) -> Judges<'t> {
        Judges { listed: tables.iter().map(Judge::new).collect(), extent }
    }

    /// Compares the named types of a unit with the dictionaries. Refuses a type that no dictionary
    /// has if all types were written. Returns the number of types that one has.
    pub fn judge(&self, records: &[Record<'_>], roots: &[u32]) -> Result<usize> {
        let walk = |judge| Walk { judge, records, known: HashSet::new() };
        let mut walks: Vec<Walk<'_, '_>> = self.listed.iter().map(walk).collect();
        let mut met = HashSet::new();
        let mut count = 0;
        for &root in roots.iter().filter(|&&root| root != 0) {
            let record = &records[root as usize - 1];
            if record.name.is_empty() || !met.insert(root) {
                continue;
            }
            let agrees = match self.extent {
                Extent::All => walks.iter_mut().any(|walk| walk.agrees(root)),
                Extent::Some => walks.iter_mut().fold(false, |told, walk| walk.mark(root) | told),
            };
            if !agrees && self.extent == Extent::All {
                return refuse(format!(
                    "{} was converted wrongly (it differs from its debug information): please \
                     report this, with the program",
                    record.tag_name()
                ));
            }
            count += usize::from(agrees);
        }
        Ok(count)
    }

    /// If some types were written, refuses those that no unit has.
    pub fn finish(&self) -> Result<()> {
        let of_none = match self.extent {
            Extent::All => None,
            Extent::Some => self.listed.iter().find_map(Judge::of_no_unit),
        };
        match of_none {
            None => Ok(()),
            Some(record) => refuse(format!(
                "{} was converted wrongly (no unit of the debug information has it so): please \
                 report this, with the program",
                record.tag_name()
            )),
        }
    }
}

/// The types of a dictionary, by name.
struct Judge<'t> {
    table: &'t Table<'t>,
    by_name: HashMap<(Kind, Vec<u8>), Vec<u32>>,
    /// For each type, whether some unit has it.
    is_of_unit: Vec<AtomicBool>,
}

impl<'t> Judge<'t> {
    /// Takes the types that were written.
    fn new(table: &'t Table<'t>) -> Judge<'t> {
        let mut by_name: HashMap<_, Vec<u32>> = HashMap::new();
        for (number, record) in (1..).zip(&table.records) {
            if !record.name.is_empty() {
                by_name.entry((record.tag, record.name.to_vec())).or_default().push(number);
            }
        }
        let is_of_unit = table.records.iter().map(|_| AtomicBool::new(false)).collect();
        Judge { table, by_name, is_of_unit }
    }

    /// An own named type that no unit has.
    fn of_no_unit(&self) -> Option<&Record<'t>> {
        let own = self.table.records.iter().zip(&self.is_of_unit).skip(self.table.bases as usize);
        let is_of_none = |(record, is_of_unit): &(&Record<'t>, &AtomicBool)| {
            record.root && is_of_source(record) && !is_of_unit.load(Ordering::Relaxed)
        };
        own.into_iter().find(is_of_none).map(|(record, _)| record)
    }
}

/// Whether a type comes from a source file; other types are made for CTF.
fn is_of_source(record: &Record<'_>) -> bool {
    let is_tagged = matches!(record.kind, Kind::Struct | Kind::Union | Kind::Enum);
    !record.name.is_empty()
        && (is_tagged || record.kind == Kind::Typedef && !record.name.starts_with(b"_Atomic("))
}

/// Pairs of a unit's type and a dictionary's that are known to agree.
struct Walk<'w, 't> {
    judge: &'w Judge<'t>,
    records: &'w [Record<'w>],
    known: HashSet<(u32, u32)>,
}

impl Walk<'_, '_> {
    fn candidates(&self, root: u32) -> &[u32] {
        let record = &self.records[root as usize - 1];
        self.judge.by_name.get(&(record.tag, record.name.to_vec())).map_or(&[], Vec::as_slice)
    }

    /// Whether some type of the dictionary agrees with a type of the unit.
    fn agrees(&mut self, root: u32) -> bool {
        self.candidates(root).to_vec().into_iter().any(|n| self.is_alike(root, n))
    }

    /// As `agrees`, but also marks all types that agree, unless either is a declaration.
    fn mark(&mut self, root: u32) -> bool {
        let kind = self.records[root as usize - 1].kind;
        let alike = self.candidates(root).to_vec();
        let alike: Vec<u32> = alike.into_iter().filter(|&n| self.is_alike(root, n)).collect();
        for &number in alike.iter().filter(|&&n| self.judge.table.get(n).kind == kind) {
            self.judge.is_of_unit[number as usize - 1].store(true, Ordering::Relaxed);
        }
        !alike.is_empty()
    }

    fn is_alike(&mut self, x: u32, y: u32) -> bool {
        let mut met = HashSet::new();
        let mut todo = vec![(x, y)];
        while let Some((x, y)) = todo.pop() {
            if self.known.contains(&(x, y)) || !met.insert((x, y)) {
                continue;
            }
            // A type that is too much to compare at once is judged by the types that it consists
            // of.
            if met.len() > MOST_PAIRS {
                return true;
            }
            if (x == 0) != (y == 0) || x != 0 && !self.compare(x, y, &mut todo) {
                return false;
            }
        }
        self.known.extend(met);
        true
    }

    /// Compares two types, and adds the types that they refer to to `todo`.
    fn compare(&self, x: u32, y: u32, todo: &mut Vec<(u32, u32)>) -> bool {
        let (mine, told) = (&self.records[x as usize - 1], self.judge.table.get(y));
        if mine.kind == Kind::Forward {
            return mine.tag == told.tag && mine.name == told.name;
        }
        if mine.kind == Kind::Atomic {
            todo.push((mine.of, told.of));
            return told.kind == Kind::Typedef && told.name.starts_with(b"_Atomic(");
        }
        let is_named = !matches!(mine.kind, Kind::Array | Kind::Function | Kind::Pointer);
        if mine.kind != told.kind || is_named && mine.name != told.name {
            return false;
        }
        match mine.kind {
            Kind::Struct | Kind::Union => mine.size == told.size && self.members(mine, told, todo),
            Kind::Enum => mine.size == told.size && values(mine, told),
            Kind::Integer | Kind::Float => {
                mine.size == told.size && mine.encoding.bits == told.encoding.bits
            }
            Kind::Array => {
                todo.extend([(mine.of, told.of), (mine.index, told.index)]);
                mine.elements == told.elements || mine.elements > u64::from(u32::MAX)
            }
            Kind::Function => {
                todo.push((mine.of, told.of));
                let (own, theirs) = (mine.arguments(), told.arguments());
                todo.extend(own.iter().copied().zip(theirs.iter().copied()));
                mine.varargs == told.varargs
                    && (own.len() == theirs.len() || own.len() >= MOST_PARTS)
            }
            Kind::Unknown => true,
            _ => {
                todo.push((mine.of, told.of));
                true
            }
        }
    }

    fn members(&self, mine: &Record<'_>, told: &Record<'_>, todo: &mut Vec<(u32, u32)>) -> bool {
        let (own, theirs) = (mine.members(), told.members());
        if own.len() > MOST_PARTS {
            return true;
        }
        own.len() == theirs.len()
            && own.iter().zip(theirs).all(|(own, told)| {
                let is_wide = match own.width {
                    None => {
                        todo.push((own.of, told.of));
                        true
                    }
                    Some(width) => self.has_width(told.of, width.into()),
                };
                is_wide && own.name == told.name && own.offset == told.offset
            })
    }

    /// Whether a type resolves to an integer or an enum of some width in bits.
    fn has_width(&self, number: u32, width: u64) -> bool {
        let end = self.judge.table.resolve(number);
        let record = (end != 0).then(|| self.judge.table.get(end));
        record.is_some_and(|record| match record.kind {
            Kind::Integer => record.encoding.bits == width,
            Kind::Enum => 8 * record.size == width,
            _ => false,
        })
    }
}

/// Whether a dictionary has all values of an enum that CTF can represent.
fn values(mine: &Record<'_>, told: &Record<'_>) -> bool {
    let most = if mine.size == 4 { 1i128 << 32 } else { 1 << 31 };
    let fitting = mine.values().iter().filter(|one| (-(1i128 << 31)..most).contains(&one.value));
    let mut theirs = told.values().iter();
    fitting.take(MOST_PARTS).all(|one| {
        theirs
            .next()
            .is_some_and(|other| one.name == other.name && one.value as i32 == other.value as i32)
    }) && theirs.next().is_none()
}

#[cfg(test)]
mod tests {
    use super::*;
    use crate::table::{Encoding, Member, Parts};
    use std::borrow::Cow;

    /// An int, a struct with an int and a pointer to the struct, and the pointer.
    fn unit() -> Vec<Record<'static>> {
        let mut int = Record::new(Kind::Integer, Cow::Borrowed(b"int"));
        int.size = 4;
        int.encoding = Encoding { flags: 1, offset: 0, bits: 32 };
        let mut node = Record::new(Kind::Struct, Cow::Borrowed(b"node"));
        let member = |name: &'static [u8], of, offset, width| Member {
            name: Cow::Borrowed(name),
            of,
            offset,
            width,
        };
        node.size = 16;
        node.parts =
            Parts::Members(Box::new([member(b"value", 1, 0, None), member(b"next", 3, 64, None)]));
        let mut pointer = Record::new(Kind::Pointer, Cow::Borrowed(b""));
        pointer.of = 2;
        vec![int, node, pointer]
    }

    fn agrees(change: impl FnOnce(&mut Vec<Record<'static>>)) -> bool {
        let mut records = unit();
        change(&mut records);
        let tables = [Table { records, ..Table::default() }];
        Judges::new(&tables, Extent::All).judge(&unit(), &[1, 2]).is_ok()
    }

    fn is_true(change: impl FnOnce(&mut Vec<Record<'static>>)) -> bool {
        let mut records = unit();
        change(&mut records);
        let tables = [Table { records, ..Table::default() }];
        let judges = Judges::new(&tables, Extent::Some);
        judges.judge(&unit(), &[1, 2]).is_ok() && judges.finish().is_ok()
    }

    fn members(record: &mut Record<'static>, change: impl FnOnce(&mut [Member<'static>])) {
        if let Parts::Members(listed) = &mut record.parts {
            change(listed);
        }
    }

    #[test]
    fn what_is_told_truly_is_accepted() {
        assert!(agrees(|_| {}));
        // Another type with the name may exist.
        assert!(agrees(|records| {
            let mut other = records[1].clone();
            other.size = 24;
            records.push(other);
        }));
    }

    #[test]
    fn each_difference_is_refused() {
        assert!(!agrees(|records| records[0].size = 8));
        assert!(!agrees(|records| records[0].encoding.bits = 31));
        assert!(!agrees(|records| records[1].size = 24));
        assert!(!agrees(|records| records[1].name = Cow::Borrowed(b"other")));
        assert!(!agrees(|records| records[2].of = 1));
        assert!(!agrees(|records| members(&mut records[1], |listed| listed[1].offset = 32)));
        assert!(!agrees(|records| members(&mut records[1], |listed| listed[1].of = 1)));
        assert!(!agrees(|records| {
            members(&mut records[1], |listed| listed[0].name = Cow::Borrowed(b"worth"));
        }));
        assert!(!agrees(|records| records[1] = Record::unknown()));
    }

    #[test]
    fn of_some_types_each_is_of_a_unit() {
        assert!(is_true(|_| {}));
        assert!(is_true(|records| records[1] = Record::unknown()));
        assert!(!is_true(|records| records[1].size = 24));
        assert!(!is_true(|records| {
            let mut other = records[1].clone();
            other.size = 24;
            records.push(other);
        }));
    }
}
