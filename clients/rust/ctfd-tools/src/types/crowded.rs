//! Detects dictionaries whose names are far too large for their size.
//!
//! Names may share their bytes, so that each type of a small file may have a large name.

use super::catalog::{Catalog, Volume};
use ctfd::{Dictionary, EnumeratorRow, Kind, MemberRow, TypeRow};

/// All names may have this many times the bytes of the lists, and this many more.
const TIMES: u64 = 16;
const AT_LEAST: u64 = 1 << 20;
const AT_ONCE: usize = 256;
/// The fewest bytes of a type, a member or an enumerator.
const LEAST_OF_A_NAMED: u64 = 8;
/// The message for such a file.
pub const CROWDED: &str =
    "its names share their bytes, and are too large each by itself: no compiler \
                       writes that, so it is damaged or made to be slow";
const ENUM: u32 = Kind::Enum as u32;
const STRUCT: u32 = Kind::Struct as u32;
const UNION: u32 = Kind::Union as u32;

/// Whether a dictionary of a catalog has such names.
pub fn is_crowded(catalog: &Catalog<'_>) -> bool {
    catalog.volumes().iter().any(has_crowded_names)
}

/// Whether a dictionary itself has such names.
pub fn has_crowded_names(volume: &Volume<'_>) -> bool {
    let length = volume.lists.length() as u64;
    let left = TIMES * length + AT_LEAST;
    // A quick answer for most files: even if every name were the longest, their sum would be small
    // enough.
    if volume.lists.longest_name() as u64 * (length / LEAST_OF_A_NAMED) <= left {
        return false;
    }
    let mut room = Room { types: volume.types, left };
    room.with_types().is_none()
}

/// How many bytes further names may have.
struct Room<'r> {
    types: &'r Dictionary<'r>,
    left: u64,
}

impl Room<'_> {
    fn with_types(&mut self) -> Option<()> {
        let mut rows = vec![TypeRow::default(); AT_ONCE];
        let count = self.types.count();
        for from in (0..count).step_by(AT_ONCE) {
            self.types.type_rows(from, &mut rows);
            for row in rows.iter().take(count - from) {
                self.take(row.tnum, row.name_list, row.name_at)?;
                match row.kind {
                    STRUCT | UNION => self.with_members(row)?,
                    ENUM => self.with_enumerators(row)?,
                    _ => {}
                }
            }
        }
        Some(())
    }

    fn with_members(&mut self, of: &TypeRow) -> Option<()> {
        let Ok(found) = self.types.get(of.tnum) else { return Some(()) };
        let mut rows = vec![MemberRow::default(); of.length as usize];
        let count = found.member_rows(0, &mut rows).unwrap_or(0) as usize;
        let mut rows = rows.iter().take(count);
        rows.try_for_each(|row| self.take(of.tnum, row.name_list, row.name_at))
    }

    fn with_enumerators(&mut self, of: &TypeRow) -> Option<()> {
        let Ok(found) = self.types.get(of.tnum) else { return Some(()) };
        let mut rows = vec![EnumeratorRow::default(); of.length as usize];
        let count = found.enumerator_rows(0, &mut rows).unwrap_or(0) as usize;
        let mut rows = rows.iter().take(count);
        rows.try_for_each(|row| self.take(of.tnum, row.name_list, row.name_at))
    }

    fn take(&mut self, number: u16, list: u32, at: u64) -> Option<()> {
        let name = self.types.name_at(number, list, at).unwrap_or_default();
        self.left = self.left.checked_sub(name.len() as u64)?;
        Some(())
    }
}
