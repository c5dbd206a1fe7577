//! Members, enumerators and arguments.

use crate::declaration::Declaration;
use crate::faults::{Fault, Refusal};
use crate::names::Name;
use crate::raw::{EnumeratorRow, MemberRow};
use crate::types::{Kind, Type};
use std::fmt;
use std::iter::FusedIterator;

/// A member of a struct or union. Its `Display` form is its declaration: `struct point *next`, or
/// `unsigned int flags:3` for a bit-field.
#[derive(Clone, Copy, Debug, PartialEq, Eq)]
pub struct Member<'d, N = Name> {
    /// Its name; empty for a member without one.
    pub name: N,
    /// Its offset from the start of the struct or union, in bits.
    pub offset: u64,
    /// Its type; `None` for no type.
    pub of_type: Option<Type<'d>>,
}

impl<N: AsRef<[u8]>> fmt::Display for Member<'_, N> {
    fn fmt(&self, to: &mut fmt::Formatter<'_>) -> fmt::Result {
        Declaration::new(self.of_type, self.name.as_ref()).fmt(to)?;
        match self.of_type.and_then(Type::bit_field) {
            Some(lies) => write!(to, ":{}", lies.bits),
            None => Ok(()),
        }
    }
}

impl AsRef<[u8]> for Name {
    fn as_ref(&self) -> &[u8] {
        self
    }
}

/// An enumerator of an enum.
#[derive(Clone, Debug, PartialEq, Eq)]
pub struct Enumerator {
    /// Its name.
    pub name: Name,
    /// Its value.
    pub value: i32,
}

/// The number of rows that one call reads.
const AT_ONCE: usize = 16;

/// The remaining items of a list, and some of its rows.
#[derive(Clone, Debug)]
struct RemainingItems<'d, R> {
    of: Type<'d>,
    next: usize,
    end: usize,
    rows: [R; AT_ONCE],
    // The number of the first of these rows, if they were read.
    from: Option<usize>,
}

impl<'d, R: Row> RemainingItems<'d, R> {
    /// All items of a type, whose kind must be one of these.
    fn all(of: Type<'d>, kinds: &[Kind]) -> Result<RemainingItems<'d, R>, Refusal> {
        let end = of.length()?;
        if !kinds.contains(&of.kind()) {
            let fault = Fault::WrongKind;
            return Err(Refusal { fault, place: 0 });
        }
        Ok(RemainingItems { of, next: 0, end, rows: [R::default(); AT_ONCE], from: None })
    }

    fn take(&mut self) -> Option<usize> {
        if self.next == self.end {
            return None;
        }
        self.next += 1;
        Some(self.next - 1)
    }

    fn take_back(&mut self) -> Option<usize> {
        if self.next == self.end {
            return None;
        }
        self.end -= 1;
        Some(self.end)
    }

    fn len(&self) -> usize {
        self.end - self.next
    }

    /// The row with a number. It is read together with its neighbours.
    fn row(&mut self, index: usize) -> R {
        let from = index - index % AT_ONCE;
        if self.from != Some(from) {
            expect_item(R::read(self.of, from, &mut self.rows));
            self.from = Some(from);
        }
        self.rows[index % AT_ONCE]
    }
}

/// A row of a type's list.
trait Row: Copy + Default {
    /// Fills rows from number `from` on. Returns the length of the whole list.
    fn read(of: Type<'_>, from: usize, rows: &mut [Self]) -> Result<u64, Refusal>;
}

impl Row for MemberRow {
    fn read(of: Type<'_>, from: usize, rows: &mut [MemberRow]) -> Result<u64, Refusal> {
        of.member_rows(from, rows)
    }
}

impl Row for EnumeratorRow {
    fn read(of: Type<'_>, from: usize, rows: &mut [EnumeratorRow]) -> Result<u64, Refusal> {
        of.enumerator_rows(from, rows)
    }
}

impl Row for u16 {
    fn read(of: Type<'_>, from: usize, rows: &mut [u16]) -> Result<u64, Refusal> {
        of.argument_rows(from, rows)
    }
}

/// The result of a call for an item that exists, which is never refused.
fn expect_item<T>(item: Result<T, Refusal>) -> T {
    item.unwrap_or_else(|refused| unreachable!("an item that is counted is there: {refused}"))
}

macro_rules! list {
    ($(#[$what:meta])* $name:ident, $item:ty, $row:ty, $kinds:expr) => {
        $(#[$what])*
        #[derive(Clone, Debug)]
        pub struct $name<'d>(RemainingItems<'d, $row>);

        impl<'d> $name<'d> {
            pub(crate) fn of(t: Type<'d>) -> Result<Self, Refusal> {
                Ok($name(RemainingItems::all(t, &$kinds)?))
            }
        }

        impl<'d> Iterator for $name<'d> {
            type Item = $item;

            fn next(&mut self) -> Option<$item> {
                self.0.take().map(|index| self.at(index))
            }

            fn size_hint(&self) -> (usize, Option<usize>) {
                (self.0.len(), Some(self.0.len()))
            }
        }

        impl<'d> DoubleEndedIterator for $name<'d> {
            fn next_back(&mut self) -> Option<$item> {
                self.0.take_back().map(|index| self.at(index))
            }
        }

        impl ExactSizeIterator for $name<'_> {}

        impl FusedIterator for $name<'_> {}
    };
}

list!(
    /// An iterator over the members of a struct or union, from [`Type::members`].
    Members,
    Member<'d>,
    MemberRow,
    [Kind::Struct, Kind::Union]
);

list!(
    /// An iterator over the enumerators of an enum, from [`Type::enumerators`].
    Enumerators,
    Enumerator,
    EnumeratorRow,
    [Kind::Enum]
);

list!(
    /// An iterator over the arguments of a function type, from [`Type::arguments`].
    Arguments,
    Option<Type<'d>>,
    u16,
    [Kind::Function]
);

impl<'d> Members<'d> {
    fn at(&mut self, index: usize) -> Member<'d> {
        let (row, of) = (self.0.row(index), self.0.of);
        let name = name_of(of, row.name_list, row.name_at).unwrap_or_else(|| {
            let mut room = Vec::new();
            expect_item(of.member_in(index, &mut room));
            Name(room)
        });
        Member { name, offset: row.offset, of_type: Type::some(of.dictionary(), row.tnum) }
    }
}

impl Enumerators<'_> {
    fn at(&mut self, index: usize) -> Enumerator {
        let (row, of) = (self.0.row(index), self.0.of);
        let name = name_of(of, row.name_list, row.name_at);
        let name = name.unwrap_or_else(|| expect_item(of.enumerator_name_at(index)));
        Enumerator { name, value: row.value }
    }
}

impl<'d> Arguments<'d> {
    fn at(&mut self, index: usize) -> Option<Type<'d>> {
        Type::some(self.0.of.dictionary(), self.0.row(index))
    }
}

/// The name to which a row of a type's list refers; `None` if the lists are those of a draft.
fn name_of(of: Type<'_>, list: u32, at: u64) -> Option<Name> {
    let name = of.dictionary().name_at(of.number(), list, at)?;
    Some(Name(name.to_vec()))
}
