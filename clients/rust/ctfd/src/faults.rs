//! Faults and refusals of calls.

use std::fmt;

/// The reason of a refusal, as in docs/FAULTS.md. `scripts/faults.py` writes the lists in this
/// file.
#[derive(Clone, Copy, Debug, PartialEq, Eq, Hash)]
#[non_exhaustive]
#[repr(u8)]
pub enum Fault {
    /// Memory was refused.
    Memory = 0,
    /// Fewer than 4 bytes.
    TooShort = 1,
    /// The first two bytes are no CTF.
    BadMagic = 2,
    /// Not version 2.
    BadVersion = 3,
    /// The body is compressed.
    Compressed = 4,
    /// Fewer than 36 bytes.
    ShortHeader = 5,
    /// The sections are not in order.
    BadOrder = 6,
    /// A section is not aligned.
    BadAlign = 7,
    /// A section ends past the bytes.
    PastEnd = 8,
    /// The strings do not begin with a zero byte.
    BadStrings = 9,
    /// A record is cut off.
    Truncated = 10,
    /// A record has an unknown kind.
    BadKind = 11,
    /// More than 32,766 types.
    TooMany = 12,
    /// A reference to a name names nothing.
    BadName = 13,
    /// A record names a type that is not there.
    BadReference = 14,
    /// Values hold each other more than 512 deep.
    ValueDeep = 15,
    /// A declaration of more than 512 steps.
    DeclDeep = 16,
    /// The entry of a function is bad.
    BadFuncs = 17,
    /// A symbol names a type that is not there.
    BadSymbolType = 18,
    /// The symbol table's size is not a multiple of 24 bytes.
    BadSymtab = 19,
    /// The dictionary names no parent.
    NotChild = 20,
    /// The parent names a parent itself.
    ParentIsChild = 21,
    /// The parent has fewer types than are named.
    ParentShort = 22,
    /// A type of a parent, and none is imported.
    NoParent = 23,
    /// No type has this number.
    NoType = 24,
    /// No pointer, typedef or qualifier.
    NotReference = 25,
    /// The type has no size, alignment or value.
    Incomplete = 26,
    /// A size or an offset is past 64 bits.
    TooBig = 27,
    /// No member of this name or number.
    NoMember = 28,
    /// No struct or union.
    NotAggregate = 29,
    /// Not asked of types of this kind.
    WrongKind = 30,
    /// A text of more than 65,536 bytes.
    TooLong = 31,
    /// No type has this name, or no pointer leads there.
    NotFound = 32,
    /// The text is not the name of a type.
    BadSyntax = 33,
    /// No symbol of this name or number.
    NoSymbol = 34,
    /// The symbol is not an object.
    NotData = 35,
    /// The symbol is not a function.
    NotFunction = 36,
    /// The symbol has no type information.
    NoInfo = 37,
    /// No label of this name or number.
    NoLabel = 38,
    /// The new type refers to a type that does not exist.
    BadRef = 39,
    /// The draft has 32,766 types.
    Full = 40,
    /// The name is there already.
    Duplicate = 41,
    /// The type was updated, or is the parent's.
    Settled = 42,
    /// 1,023 members, enumerators or arguments.
    VlenFull = 43,
    /// The member's type is more than 512 deep.
    DeepMember = 44,
    /// The member's place exceeds 64 bits, or the stated size.
    BadOffset = 45,
    /// A name has a zero byte.
    NameHasZero = 46,
    /// More than 67,108,864 bytes.
    DictTooBig = 47,
    /// A value lies past the memory.
    ShortMemory = 48,
    /// Nothing is open behind the handle.
    NoSlot = 49,
    /// All slots are in use.
    SlotsFull = 50,
    /// A list of more than 67,108,864 bytes.
    StageFull = 51,
    /// The dictionary is not a draft.
    ReadOnly = 52,
    /// The name is published already.
    NameTaken = 53,
    /// Nothing is published by this name.
    NotPublished = 54,
    /// Something is pending.
    NotUpdated = 55,
    /// A reply of more than 4,194,304 bytes.
    LongReply = 56,
    /// The line is not JSON.
    NotJson = 57,
    /// The line is not a request.
    BadRequest = 58,
    /// A line of more than 1,048,576 bytes.
    LongLine = 59,
    /// Child and parent have other data models.
    ModelDiffers = 60,
    /// More than a session may hold.
    QuotaFull = 61,
    /// The parent of a draft is fixed.
    FixedParent = 62,
}

/// All faults, in the order of their codes.
const FAULTS: [Fault; 63] = [
    Fault::Memory,
    Fault::TooShort,
    Fault::BadMagic,
    Fault::BadVersion,
    Fault::Compressed,
    Fault::ShortHeader,
    Fault::BadOrder,
    Fault::BadAlign,
    Fault::PastEnd,
    Fault::BadStrings,
    Fault::Truncated,
    Fault::BadKind,
    Fault::TooMany,
    Fault::BadName,
    Fault::BadReference,
    Fault::ValueDeep,
    Fault::DeclDeep,
    Fault::BadFuncs,
    Fault::BadSymbolType,
    Fault::BadSymtab,
    Fault::NotChild,
    Fault::ParentIsChild,
    Fault::ParentShort,
    Fault::NoParent,
    Fault::NoType,
    Fault::NotReference,
    Fault::Incomplete,
    Fault::TooBig,
    Fault::NoMember,
    Fault::NotAggregate,
    Fault::WrongKind,
    Fault::TooLong,
    Fault::NotFound,
    Fault::BadSyntax,
    Fault::NoSymbol,
    Fault::NotData,
    Fault::NotFunction,
    Fault::NoInfo,
    Fault::NoLabel,
    Fault::BadRef,
    Fault::Full,
    Fault::Duplicate,
    Fault::Settled,
    Fault::VlenFull,
    Fault::DeepMember,
    Fault::BadOffset,
    Fault::NameHasZero,
    Fault::DictTooBig,
    Fault::ShortMemory,
    Fault::NoSlot,
    Fault::SlotsFull,
    Fault::StageFull,
    Fault::ReadOnly,
    Fault::NameTaken,
    Fault::NotPublished,
    Fault::NotUpdated,
    Fault::LongReply,
    Fault::NotJson,
    Fault::BadRequest,
    Fault::LongLine,
    Fault::ModelDiffers,
    Fault::QuotaFull,
    Fault::FixedParent,
];

/// For each fault, in the order of codes, what is wrong and what to do about it.
#[rustfmt::skip]
const TEXTS: [(&str, &str); 63] = [
    (
        "memory was refused",
        "ask again, close what is not needed, or start the service with a higher limit",
    ),
    (
        "fewer than 4 bytes",
        "is the file empty?",
    ),
    (
        "the first two bytes are no CTF",
        "not the start of a CTF section: f2df is GNU's CTF, 7f454c46 a whole ELF file, cff1 \
         big-endian CTF, and none of these is read",
    ),
    (
        "not version 2",
        "only version 2 is read: convert the program's DWARF by a tool that writes it",
    ),
    (
        "the body is compressed",
        "inflate what follows the header and clear bit 0 of byte 3, as ctfd-convert does",
    ),
    (
        "fewer than 36 bytes",
        "the header has 36 bytes: the file is cut off",
    ),
    (
        "the sections are not in order",
        "the header is damaged, or the body is compressed and its flag was cleared",
    ),
    (
        "a section is not aligned",
        "the header is damaged, or the body is compressed and its flag was cleared",
    ),
    (
        "a section ends past the bytes",
        "the list is cut off, or the body is compressed and its flag was cleared",
    ),
    (
        "the strings do not begin with a zero byte",
        "the header is damaged, or the body is compressed and its flag was cleared",
    ),
    (
        "a record is cut off",
        "the bytes at that record are no type: damage, or an extension of the format",
    ),
    (
        "a record has an unknown kind",
        "the bytes at that record are no type: damage, or an extension of the format",
    ),
    (
        "more than 32,766 types",
        "more types than the format has numbers: split it into a parent and a child",
    ),
    (
        "a reference to a name names nothing",
        "a name is in no string table: hand in the strings of the program's symbol table, .strtab \
         of the very file that has the section",
    ),
    (
        "a record names a type that is not there",
        "a record names a type that is not there: damage, or a child without parname",
    ),
    (
        "values hold each other more than 512 deep",
        "a value holds itself, or 512 others in each other: no C program has that",
    ),
    (
        "a declaration of more than 512 steps",
        "a declaration goes on for more than 512 steps: no C program has that",
    ),
    (
        "the entry of a function is bad",
        "is this the symbol table that the section was written for? Else leave it out",
    ),
    (
        "a symbol names a type that is not there",
        "is this the symbol table that the section was written for? Else leave it out",
    ),
    (
        "the symbol table's size is not a multiple of 24 bytes",
        "a symbol table has 24 bytes for each symbol: this is another file, is cut off, or has 32 \
         bits, which is not supported",
    ),
    (
        "the dictionary names no parent",
        "the dictionary names no parent and needs none: were the two swapped?",
    ),
    (
        "the parent names a parent itself",
        "a parent has no parent itself: is this the file that the child names?",
    ),
    (
        "the parent has fewer types than are named",
        "the child names more types than this parent has: it is not its parent",
    ),
    (
        "a type of a parent, and none is imported",
        "open the parent's file too and import it",
    ),
    (
        "no type has this number",
        "no type has this number",
    ),
    (
        "no pointer, typedef or qualifier",
        "only pointers, typedefs and qualifiers refer to another type",
    ),
    (
        "the type has no size, alignment or value",
        "the type has no size: a forward is declared in full elsewhere, if at all",
    ),
    (
        "a size or an offset is past 64 bits",
        "the number does not fit 64 bits: no program has such a type",
    ),
    (
        "no member of this name or number",
        "the struct has no member of this name; the place is the step",
    ),
    (
        "no struct or union",
        "only structs and unions have members; the place is the step",
    ),
    (
        "not asked of types of this kind",
        "the question is not one for a type of this kind",
    ),
    (
        "a text of more than 65,536 bytes",
        "more than 65,536 bytes of text: ask for its parts",
    ),
    (
        "no type has this name, or no pointer leads there",
        "is the word in front right (struct, union, enum or none)?",
    ),
    (
        "the text is not the name of a type",
        "a name with one blank behind struct, union or enum, and stars behind it",
    ),
    (
        "no symbol of this name or number",
        "no such symbol: were the symbol table and its strings handed in?",
    ),
    (
        "the symbol is not an object",
        "the symbol is not an object",
    ),
    (
        "the symbol is not a function",
        "the symbol is not a function",
    ),
    (
        "the symbol has no type information",
        "the compiler recorded no type for this symbol",
    ),
    (
        "no label of this name or number",
        "no label has this name",
    ),
    (
        "the new type refers to a type that does not exist",
        "add that type first; 0 means no type",
    ),
    (
        "the draft has 32,766 types",
        "make a second dictionary, with this one as its parent",
    ),
    (
        "the name is there already",
        "a member, an enumerator or a label has its name once",
    ),
    (
        "the type was updated, or is the parent's",
        "members and enumerators are added before the update",
    ),
    (
        "1,023 members, enumerators or arguments",
        "the format has room for 1,023 members, enumerators or arguments",
    ),
    (
        "the member's type is more than 512 deep",
        "a struct can't contain itself: did you mean a pointer to it?",
    ),
    (
        "the member's place exceeds 64 bits, or the stated size",
        "64 bits do not hold the member's place or the new size, or a member begins behind a \
         stated size",
    ),
    (
        "a name has a zero byte",
        "a name ends at its first zero byte",
    ),
    (
        "more than 67,108,864 bytes",
        "make a second dictionary, with this one as its parent",
    ),
    (
        "a value lies past the memory",
        "pass as many bytes as the type's size",
    ),
    (
        "nothing is open behind the handle",
        "the dictionary was closed, or was opened in another session",
    ),
    (
        "all slots are in use",
        "a session has 1023 slots: close a dictionary that is not needed",
    ),
    (
        "a list of more than 67,108,864 bytes",
        "a list may have at most 67,108,864 bytes",
    ),
    (
        "the dictionary is not a draft",
        "the slot has no draft: a dictionary that was opened or taken is read-only",
    ),
    (
        "the name is published already",
        "the session has a publication of this name: choose another, or withdraw that",
    ),
    (
        "nothing is published by this name",
        "that session has published nothing by this name, or has withdrawn it",
    ),
    (
        "something is pending",
        "something is pending: update or discard first",
    ),
    (
        "a reply of more than 4,194,304 bytes",
        "ask for fewer items with count",
    ),
    (
        "the line is not JSON",
        "the request is not JSON",
    ),
    (
        "the line is not a request",
        "the service does not know this word, or a field is missing or out of range",
    ),
    (
        "a line of more than 1,048,576 bytes",
        "a request has at most 1,048,576 bytes: hand in a list by several parts",
    ),
    (
        "child and parent have other data models",
        "child and parent are of programs whose pointers differ in size: open both with the data \
         model of the one that they belong to",
    ),
    (
        "more than a session may hold",
        "a session holds 268,435,456 bytes at most: close, clear or withdraw something",
    ),
    (
        "the parent of a draft is fixed",
        "a draft's parent is chosen when the draft is created",
    ),
];

impl Fault {
    /// A short description of the fault, such as "no symbol of this name or number".
    pub fn sentence(self) -> &'static str {
        TEXTS[usize::from(self.code())].0
    }

    /// Advice on what to do about the fault, such as "no such symbol: were the symbol table and its
    /// strings handed in?".
    pub fn advice(self) -> &'static str {
        TEXTS[usize::from(self.code())].1
    }

    /// The code of the fault, as in docs/FAULTS.md.
    pub fn code(self) -> u16 {
        self as u16
    }

    /// The fault with a code; `None` if there is none.
    pub fn from_code(code: u16) -> Option<Fault> {
        FAULTS.get(usize::from(code)).copied()
    }
}

impl fmt::Display for Fault {
    fn fmt(&self, to: &mut fmt::Formatter<'_>) -> fmt::Result {
        fmt::Debug::fmt(self, to)
    }
}

/// A refusal: a fault and its place. Its `Display` form says what is wrong and what to do about it:
///
/// ```
/// let refused = ctfd::Dictionary::open(b"").map(drop).unwrap_err();
/// assert_eq!(
///     refused.to_string(),
///     "TooShort: fewer than 4 bytes; is the file empty?"
/// );
/// ```
#[derive(Clone, Copy, Debug, PartialEq, Eq)]
pub struct Refusal {
    /// The reason for the refusal.
    pub fault: Fault,
    /// The place of the fault; 0 if it has none. docs/FAULTS.md says what the number counts.
    pub place: u64,
}

impl fmt::Display for Refusal {
    fn fmt(&self, to: &mut fmt::Formatter<'_>) -> fmt::Result {
        let Refusal { fault, place } = *self;
        match place {
            0 => write!(to, "{fault}: {}; {}", fault.sentence(), fault.advice()),
            _ => write!(to, "{fault} at {place}: {}; {}", fault.sentence(), fault.advice()),
        }
    }
}

impl std::error::Error for Refusal {}

/// The result of a call that returned a status, and a place for a refusal.
pub(crate) fn told_at(status: u32, place: u64) -> Result<(), Refusal> {
    match status.checked_sub(1) {
        None => Ok(()),
        Some(code) => {
            let fault = FAULTS.get(code as usize).copied();
            let fault = fault.expect("the library answers the faults of its own");
            Err(Refusal { fault, place })
        }
    }
}

/// The result of a call that gives no place.
pub(crate) fn outcome_of(status: u32) -> Result<(), Refusal> {
    told_at(status, 0)
}
