//! Types, and questions about them.

use crate::declaration::Declaration;
use crate::dictionary::Dictionary;
use crate::faults::{outcome_of, told_at, Refusal};
use crate::lists::{Arguments, Enumerators, Member, Members};
use crate::names::{fill, text, Name};
use crate::raw::{self, EnumeratorRow, MemberRow, VisitRow};
use crate::visits::Visits;
use std::fmt;
use std::hash::{Hash, Hasher};

/// The kind of a type, with its number in sys/ctf.h.
#[derive(Clone, Copy, Debug, PartialEq, Eq, Hash)]
#[repr(u8)]
pub enum Kind {
    /// An unknown kind.
    Unknown = 0,
    /// An integer.
    Integer = 1,
    /// A floating-point number.
    Float = 2,
    /// A pointer.
    Pointer = 3,
    /// An array.
    Array = 4,
    /// A function type.
    Function = 5,
    /// A struct.
    Struct = 6,
    /// A union.
    Union = 7,
    /// An enum.
    Enum = 8,
    /// A forward declaration of a struct, union or enum.
    Forward = 9,
    /// A typedef.
    Typedef = 10,
    /// A type with `volatile`.
    Volatile = 11,
    /// A type with `const`.
    Const = 12,
    /// A type with `restrict`.
    Restrict = 13,
}

impl Kind {
    const ALL: [Kind; 14] = [
        Kind::Unknown,
        Kind::Integer,
        Kind::Float,
        Kind::Pointer,
        Kind::Array,
        Kind::Function,
        Kind::Struct,
        Kind::Union,
        Kind::Enum,
        Kind::Forward,
        Kind::Typedef,
        Kind::Volatile,
        Kind::Const,
        Kind::Restrict,
    ];

    /// The kind with a number that the library returned.
    fn of(number: u32) -> Kind {
        Kind::ALL[number as usize]
    }
}

/// How the value of an integer or a float is stored.
#[derive(Clone, Copy, Debug, PartialEq, Eq, Hash)]
pub struct Encoding {
    /// The number of the encoding in the format. For an integer, a sum of 1 (signed), 2
    /// (character), 4 (boolean) and 8 (varargs).
    pub encoding: u8,
    /// The offset of the value in its storage, in bits.
    pub offset: u8,
    /// The width of the value, in bits.
    pub bits: u16,
}

/// The parts of an array.
#[derive(Clone, Copy, Debug)]
pub struct Array<'d> {
    /// The type of its elements.
    pub contents: Option<Type<'d>>,
    /// The type of its index.
    pub index: Option<Type<'d>>,
    /// The number of elements.
    pub count: u32,
}

/// A type of a dictionary, which it borrows. In results, `None` is no type, such as what a pointer
/// to void points to.
#[derive(Clone, Copy)]
pub struct Type<'d> {
    of: &'d Dictionary<'d>,
    number: u16,
}

impl PartialEq for Type<'_> {
    fn eq(&self, other: &Self) -> bool {
        std::ptr::eq(self.of, other.of) && self.number == other.number
    }
}

impl Eq for Type<'_> {}

impl Hash for Type<'_> {
    fn hash<H: Hasher>(&self, to: &mut H) {
        (self.of as *const Dictionary<'_>).hash(to);
        self.number.hash(to);
    }
}

impl fmt::Debug for Type<'_> {
    fn fmt(&self, to: &mut fmt::Formatter<'_>) -> fmt::Result {
        write!(to, "{} ({self})", self.number)
    }
}

/// Formats the type as C spells it, as in a cast.
impl fmt::Display for Type<'_> {
    fn fmt(&self, to: &mut fmt::Formatter<'_>) -> fmt::Result {
        match self.name() {
            Ok(name) => name.fmt(to),
            Err(refused) => write!(to, "({refused})"),
        }
    }
}

impl<'d> Type<'d> {
    /// The type with a number that the library returned.
    pub(crate) fn of_answer(of: &'d Dictionary<'d>, number: u16) -> Type<'d> {
        Type { of, number }
    }

    /// The type with a number that the library returned; `None` for 0, which is no type.
    pub(crate) fn some(of: &'d Dictionary<'d>, number: u16) -> Option<Type<'d>> {
        (number != 0).then_some(Type { of, number })
    }

    /// The type with a number that a caller passed.
    pub(crate) fn get(of: &'d Dictionary<'d>, number: u16) -> Result<Type<'d>, Refusal> {
        let found = Type { of, number };
        found.answer_of(raw::ctfd_kind)?;
        Ok(found)
    }

    pub(crate) fn dictionary(self) -> &'d Dictionary<'d> {
        self.of
    }

    /// The number of the type.
    pub fn number(self) -> u16 {
        self.number
    }

    /// The kind of the type; unknown for a type of a parent that is not imported.
    pub fn kind(self) -> Kind {
        self.answer_of(raw::ctfd_kind).map_or(Kind::Unknown, Kind::of)
    }

    /// The name of the type as C spells it, such as `struct point *`.
    pub fn name(self) -> Result<Name, Refusal> {
        self.text_of(raw::ctfd_name)
    }

    /// The name in the type's record, without `struct`, `union` or `enum`; empty if it has none.
    pub fn declared_name(self) -> Result<Name, Refusal> {
        self.text_of(raw::ctfd_declared_name)
    }

    /// A declaration of `name` with this type, such as `struct point *next`.
    pub fn declare(self, name: impl AsRef<[u8]>) -> Declaration<'d> {
        Declaration::new(Some(self), name.as_ref())
    }

    /// The offset and width of the value if this is the type of a bit-field: an integer narrower
    /// than its storage, or a hidden copy of one that is not. Else `None`.
    pub fn bit_field(self) -> Option<Encoding> {
        let integer = self.resolve().ok().flatten()?;
        let (lies, size) = (integer.encoding().ok()?, integer.size().ok()?);
        let is_whole = lies.offset == 0 && u64::from(lies.bits) == 8 * size;
        let is_integer = integer.kind() == Kind::Integer && lies.bits != 0;
        (is_integer && (!is_whole || integer.is_copy(lies))).then_some(lies)
    }

    /// Whether this is a hidden integer, and look-ups find one that differs from it in nothing
    /// else.
    fn is_copy(self, lies: Encoding) -> bool {
        let seen = self.declared_name().ok().and_then(|name| self.of.find(&name).ok());
        matches!(self.is_root(), Ok(false))
            && seen.is_some_and(|other| {
                other.kind() == Kind::Integer
                    && other.encoding() == Ok(lies)
                    && other.size() == self.size()
            })
    }

    /// Whether look-ups by name find the type.
    pub fn is_root(self) -> Result<bool, Refusal> {
        Ok(self.answer_of(raw::ctfd_root)? != 0)
    }

    /// The size of the type in bytes. Types without a size, such as forwards, are refused with
    /// [`Fault::Incomplete`](crate::Fault::Incomplete).
    pub fn size(self) -> Result<u64, Refusal> {
        self.answer_of(raw::ctfd_size)
    }

    /// The alignment of the type in bytes. Refused as [`size`](Type::size).
    pub fn align(self) -> Result<u64, Refusal> {
        self.answer_of(raw::ctfd_align)
    }

    /// The type that this one resolves to, through typedefs and qualifiers.
    pub fn resolve(self) -> Result<Option<Type<'d>>, Refusal> {
        Ok(Type::some(self.of, self.answer_of(raw::ctfd_resolve)?))
    }

    /// The type that a pointer points to, a typedef renames, or a qualifier qualifies. Other kinds
    /// are refused with [`Fault::NotReference`](crate::Fault::NotReference).
    pub fn reference(self) -> Result<Option<Type<'d>>, Refusal> {
        Ok(Type::some(self.of, self.answer_of(raw::ctfd_reference)?))
    }

    /// The pointer to this type with the least number; if there is none, one to the type that it
    /// resolves to.
    pub fn pointer(self) -> Result<Type<'d>, Refusal> {
        Ok(Type::of_answer(self.of, self.answer_of(raw::ctfd_pointer)?))
    }

    /// The return type of a function type; `Ok(None)` for void.
    pub fn returns(self) -> Result<Option<Type<'d>>, Refusal> {
        Ok(Type::some(self.of, self.answer_of(raw::ctfd_return)?))
    }

    /// The kind of type that a forward declares: a struct, a union or an enum.
    pub fn tag(self) -> Result<Kind, Refusal> {
        self.answer_of(raw::ctfd_tag).map(Kind::of)
    }

    /// The encoding of an integer or a float. Other kinds are refused with
    /// [`Fault::WrongKind`](crate::Fault::WrongKind).
    pub fn encoding(self) -> Result<Encoding, Refusal> {
        let raw: raw::Encoding = self.answer_of(raw::ctfd_encoding)?;
        Ok(Encoding {
            encoding: raw.encoding as u8,
            offset: raw.offset as u8,
            bits: raw.bits as u16,
        })
    }

    /// The parts of an array. Other kinds are refused with
    /// [`Fault::WrongKind`](crate::Fault::WrongKind).
    pub fn array(self) -> Result<Array<'d>, Refusal> {
        let raw: raw::Array = self.answer_of(raw::ctfd_array)?;
        Ok(Array {
            contents: Type::some(self.of, raw.contents),
            index: Type::some(self.of, raw.index),
            count: raw.count,
        })
    }

    /// The number of members, enumerators or arguments; 0 for kinds without a list.
    pub fn length(self) -> Result<usize, Refusal> {
        Ok(self.answer_of(raw::ctfd_length)? as usize)
    }

    /// The members of a struct or union, in order.
    pub fn members(self) -> Result<Members<'d>, Refusal> {
        Members::of(self)
    }

    /// The enumerators of an enum, in order.
    pub fn enumerators(self) -> Result<Enumerators<'d>, Refusal> {
        Enumerators::of(self)
    }

    /// The types of a function type's arguments, in order; a last `None` means that more may
    /// follow.
    pub fn arguments(self) -> Result<Arguments<'d>, Refusal> {
        Arguments::of(self)
    }

    /// The member with a number, counted from 0. Its name is borrowed from `room`, a buffer that
    /// you can use for many calls.
    pub fn member_in<'n>(
        self,
        index: usize,
        room: &'n mut Vec<u8>,
    ) -> Result<Member<'d, &'n [u8]>, Refusal> {
        let mut raw = raw::Member::default();
        fill(room, |at, len, told| {
            let handle = self.of.handle();
            // SAFETY: as in `answer_of`; `fill` passes a buffer of `len` bytes.
            let status = unsafe { raw::ctfd_member(handle, self.number, index, at, len, &mut raw) };
            *told = raw.name_len;
            status
        })?;
        Ok(Member { name: room, offset: raw.offset, of_type: Type::some(self.of, raw.tnum) })
    }

    /// The name of the enumerator with a number.
    pub(crate) fn enumerator_name_at(self, index: usize) -> Result<Name, Refusal> {
        let (handle, number, mut value) = (self.of.handle(), self.number, 0);
        // SAFETY: as in `answer_of`; `text` passes a buffer of `len` bytes.
        text(|at, len, told| unsafe {
            raw::ctfd_enumerator(handle, number, index, at, len, &mut value, told)
        })
    }

    /// The name of the first enumerator with a value.
    pub fn enumerator_name(self, value: i32) -> Result<Name, Refusal> {
        let (handle, number) = (self.of.handle(), self.number);
        // SAFETY: as in `answer_of`; `text` passes a buffer of `len` bytes.
        text(|at, len, told| unsafe { raw::ctfd_enum_name(handle, number, value, at, len, told) })
    }

    /// The value of the first enumerator with a name.
    pub fn enumerator_value(self, name: impl AsRef<[u8]>) -> Result<i32, Refusal> {
        let (name, mut value) = (name.as_ref(), 0);
        let handle = self.of.handle();
        // SAFETY: as in `answer_of`; the name lives for the call.
        outcome_of(unsafe {
            raw::ctfd_enum_value(handle, self.number, name.as_ptr(), name.len(), &mut value)
        })?;
        Ok(value)
    }

    /// Fills rows with the members of a struct or union, from number `from` on, and returns the
    /// number of all members. Rows after the last member are unchanged.
    pub fn member_rows(self, from: usize, rows: &mut [MemberRow]) -> Result<u64, Refusal> {
        self.fill_rows(raw::ctfd_members, from, rows)
    }

    /// Fills rows with the enumerators of an enum, from number `from` on, and returns the number of
    /// all enumerators. Rows after the last enumerator are unchanged.
    pub fn enumerator_rows(self, from: usize, rows: &mut [EnumeratorRow]) -> Result<u64, Refusal> {
        self.fill_rows(raw::ctfd_enumerators, from, rows)
    }

    /// Fills rows with the type numbers of a function type's arguments as stored, from number
    /// `from` on, and returns the number of all arguments; a last 0 means that more may follow.
    /// Rows after the last argument are unchanged.
    pub fn argument_rows(self, from: usize, rows: &mut [u16]) -> Result<u64, Refusal> {
        self.fill_rows(raw::ctfd_arguments, from, rows)
    }

    /// Fills rows with the type and all that it contains: the members of the struct or union that
    /// it resolves to, each followed by all that it contains. Returns the number of rows that this
    /// takes; if `rows` is shorter, one more than its length.
    pub fn visit_rows(self, rows: &mut [VisitRow]) -> Result<u64, Refusal> {
        let (at, len, mut count) = (rows.as_mut_ptr(), rows.len(), 0);
        let handle = self.of.handle();
        // SAFETY: as in `fill_rows`.
        outcome_of(unsafe { raw::ctfd_visit(handle, self.number, at, len, &mut count) })?;
        Ok(count)
    }

    /// The type and all that it contains, each member followed by all that it contains.
    ///
    /// ```
    /// let types = ctfd::Dictionary::open(&std::fs::read("../../../examples/lua.ctf").unwrap()).unwrap();
    /// let state = types.find("struct lua_State").unwrap();
    /// let deepest = state.visit().unwrap().map(|visited| visited.depth).max();
    /// assert!(deepest >= Some(2));
    /// ```
    pub fn visit(self) -> Result<Visits<'d>, Refusal> {
        Visits::of(self)
    }

    /// The offset in bits of the first member with a name, and its type.
    pub fn field(self, name: impl AsRef<[u8]>) -> Result<(u64, Option<Type<'d>>), Refusal> {
        let (name, mut offset, mut to) = (name.as_ref(), 0, 0);
        let handle = self.of.handle();
        // SAFETY: as in `answer_of`; the name lives for the call.
        outcome_of(unsafe {
            raw::ctfd_field(handle, self.number, name.as_ptr(), name.len(), &mut offset, &mut to)
        })?;
        Ok((offset, Type::some(self.of, to)))
    }

    /// The offset in bits and the type of a member of a member, by the names of all steps; the
    /// outermost comes first. The place of a refusal is the number of its step, from 0.
    pub fn path(self, names: &[&[u8]]) -> Result<(u64, Option<Type<'d>>), Refusal> {
        let (mut offset, mut to, mut place) = (0, 0, 0);
        let steps: Vec<u8> =
            names.iter().flat_map(|name| name.iter().chain(&[0])).copied().collect();
        let handle = self.of.handle();
        // SAFETY: as in `answer_of`; the steps live for the call, and each ends in a zero byte.
        let status = unsafe {
            raw::ctfd_path(
                handle,
                self.number,
                steps.as_ptr(),
                steps.len(),
                &mut offset,
                &mut to,
                &mut place,
            )
        };
        told_at(status, place)?;
        Ok((offset, Type::some(self.of, to)))
    }

    /// The value that begins at bit `offset` of `memory`, as a debugger shows it.
    pub fn show(self, memory: &[u8], offset: u64) -> Result<Name, Refusal> {
        // SAFETY: as in `answer_of`; the memory lives for the call, and the buffer of `text` does
        // not overlap it.
        text(|at, len, told| unsafe {
            let handle = self.of.handle();
            let memory_at = memory.as_ptr();
            raw::ctfd_show(handle, self.number, memory_at, memory.len(), offset, at, len, told)
        })
    }
}
