//! Locations of arguments. Arguments in registers have one from a function's first byte to the end
//! of `endbr64; push %rbp; mov %rsp,%rbp`, where breakpoints stop; arguments on the stack have one
//! throughout the function.

use super::entries::{Entries, Entry};
use super::passing::{Passing, Place};
use super::symbols::TypedSymbol;
use crate::types::catalog::{Catalog, Signature};
use ctfd_read::debuggee::Debuggee;
use gimli::constants::DW_AT_location;
use gimli::write::{Expression, Location, LocationList};

const ENDBR: &[u8] = b"\xf3\x0f\x1e\xfa";
const PUSH: &[u8] = b"\x55";
const MOVES: [&[u8]; 2] = [b"\x48\x89\xe5", b"\x48\x8b\xec"];
const LONGEST_ENTRY: u64 = 8;

/// The locations of arguments in a program for x86-64.
pub struct Arguments<'p, 'c, 'd> {
    program: &'p Debuggee<'p>,
    passing: Passing<'c, 'd>,
}

/// The location of an argument.
pub enum ArgumentPlace {
    /// Valid as long as the function runs.
    Everywhere(Expression),
    /// Valid at some addresses.
    Somewhere(Location),
}

impl ArgumentPlace {
    /// Sets the location of an argument.
    pub fn set(self, entries: &mut Entries, argument: Entry) {
        match self {
            ArgumentPlace::Everywhere(place) => entries.set(argument, DW_AT_location, place),
            ArgumentPlace::Somewhere(location) => {
                let list = LocationList(vec![location]);
                let place = entries.unit(argument.unit).locations.add(list);
                entries.set(argument, DW_AT_location, place);
            }
        }
    }
}

impl<'p, 'c, 'd> Arguments<'p, 'c, 'd> {
    /// The locations for a program whose types are in a catalog.
    pub fn new(program: &'p Debuggee<'p>, catalog: &'c Catalog<'d>) -> Arguments<'p, 'c, 'd> {
        Arguments { program, passing: Passing::new(catalog) }
    }

    /// The location of each argument, or None if it is not known. Addresses in location lists are
    /// relative to `base`.
    pub fn places(
        &self,
        function: &TypedSymbol<'_>,
        signature: &Signature,
        base: u64,
    ) -> Vec<Option<ArgumentPlace>> {
        let length = self.entry_length(function).min(function.size());
        let listed = self.passing.places(signature).into_iter();
        let placed = |place| match place {
            Place::Stack(place) => Some(ArgumentPlace::Everywhere(place)),
            Place::Registers(_) if length == 0 => None,
            Place::Registers(data) => {
                Some(ArgumentPlace::Somewhere(location(function, base, length, data)))
            }
        };
        listed.map(|place| place.and_then(placed)).collect()
    }

    /// The number of bytes from a function's start on in which its arguments are still in
    /// registers.
    fn entry_length(&self, function: &TypedSymbol<'_>) -> u64 {
        let code = self.program.code(function.address(), LONGEST_ENTRY, function.section());
        let rest = code.strip_prefix(ENDBR).unwrap_or(code);
        let Some(behind) = rest.strip_prefix(PUSH) else {
            return (code.len() - rest.len()) as u64 + 1;
        };
        let moved = MOVES.iter().find_map(|moves| behind.strip_prefix(*moves));
        (code.len() - moved.unwrap_or(behind).len()) as u64 + 1
    }
}

/// A location valid in the first `length` bytes of a function.
fn location(function: &TypedSymbol<'_>, base: u64, length: u64, data: Expression) -> Location {
    match function.is_relocated() {
        true => Location::StartLength { begin: function.behind(0, 8), length, data },
        false => {
            let begin = function.address() - base;
            Location::OffsetPair { begin, end: begin.saturating_add(length), data }
        }
    }
}
