//! Visits of a type and all that it contains.

use crate::faults::Refusal;
use crate::names::Name;
use crate::raw::VisitRow;
use crate::types::Type;
use std::fmt;
use std::iter::FusedIterator;

/// The first number of rows; it doubles each time that there are more.
const FIRST: usize = 64;

/// A type in a visit: a member, or the outermost type.
#[derive(Clone, PartialEq, Eq)]
pub struct VisitedType<'d> {
    /// The name of the member; empty for the outermost type.
    pub name: Name,
    /// The type of the member; `None` for no type.
    pub of_type: Option<Type<'d>>,
    /// The struct or union that it is a member of; for the outermost type, that type itself.
    pub holder: Type<'d>,
    /// Its offset from the beginning of the outermost type, in bits; `None` past 64 bits.
    pub offset: Option<u64>,
    /// The number of structs and unions around it.
    pub depth: u32,
}

impl fmt::Debug for VisitedType<'_> {
    fn fmt(&self, to: &mut fmt::Formatter<'_>) -> fmt::Result {
        write!(to, "{} {:?} at {:?}, {} deep", self.name, self.of_type, self.offset, self.depth)
    }
}

/// An iterator over a type and all that it contains, each member followed by all that it contains,
/// from [`Type::visit`].
#[derive(Clone, Debug)]
pub struct Visits<'d> {
    of: Type<'d>,
    rows: Vec<VisitRow>,
    // The number of rows of the visit; if there are more than were asked for, one more than these.
    count: u64,
    next: usize,
    // For each depth, the number of members passed.
    passed: Vec<usize>,
}

impl<'d> Visits<'d> {
    pub(crate) fn of(of: Type<'d>) -> Result<Visits<'d>, Refusal> {
        let mut rows = vec![VisitRow::default(); FIRST];
        let count = of.visit_rows(&mut rows)?;
        Ok(Visits { of, rows, count, next: 0, passed: Vec::new() })
    }

    /// The row of the next type, if any is left.
    fn row(&mut self) -> Option<VisitRow> {
        if self.next == self.rows.len() && self.count > self.rows.len() as u64 {
            self.rows.resize(2 * self.rows.len(), VisitRow::default());
            self.count = self.of.visit_rows(&mut self.rows).ok()?;
        }
        let row = (self.next as u64) < self.count;
        row.then(|| self.rows[self.next])
    }

    /// The name of a row's member, which is the next one of its holder.
    fn name(&mut self, row: &VisitRow, holder: Type<'d>) -> Name {
        let depth = row.depth as usize;
        self.passed.truncate(depth + 1);
        self.passed.resize(depth + 1, 0);
        let index = self.passed[depth];
        self.passed[depth] += 1;
        if depth == 0 {
            return Name::default();
        }
        if let Some(name) = holder.dictionary().name_at(row.holder, row.name_list, row.name_at) {
            return Name(name.to_vec());
        }
        let mut room = Vec::new();
        match holder.member_in(index, &mut room) {
            Ok(_) => Name(room),
            Err(refused) => unreachable!("a member that is visited is there: {refused}"),
        }
    }
}

impl<'d> Iterator for Visits<'d> {
    type Item = VisitedType<'d>;

    fn next(&mut self) -> Option<VisitedType<'d>> {
        let row = self.row()?;
        self.next += 1;
        let holder = Type::of_answer(self.of.dictionary(), row.holder);
        Some(VisitedType {
            name: self.name(&row, holder),
            of_type: Type::some(self.of.dictionary(), row.tnum),
            holder,
            offset: (row.offset != u64::MAX).then_some(row.offset),
            depth: row.depth,
        })
    }
}

impl FusedIterator for Visits<'_> {}
