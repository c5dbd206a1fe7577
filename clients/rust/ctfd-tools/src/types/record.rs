//! Records of a catalog's types: their properties, and a cache of the library's answers.

use super::volumes::Number;
use ctfd::{Encoding, Kind};
use std::cell::OnceCell;

/// A member of a struct or union.
#[derive(Clone, Copy, Debug)]
pub struct Part<'d> {
    /// Its name, empty if it has none.
    pub name: &'d [u8],
    /// Its type.
    pub of: Number,
    /// Its offset in bits, without the offset that a bit-field's type adds.
    pub offset: u64,
}

#[derive(Clone, Debug, PartialEq)]
pub struct Value {
    pub name: Vec<u8>,
    pub value: i32,
}

/// What a function takes and returns; 0 is void.
#[derive(Clone, Debug, Default)]
pub struct Signature {
    pub returns: Number,
    pub arguments: Vec<Number>,
    /// Whether it takes further arguments.
    pub is_open: bool,
}

/// The type at the end of typedefs, qualifiers and arrays.
#[derive(Clone, Copy, Debug)]
pub struct UnderlyingType {
    pub number: Number,
    /// The number of values of this type: the product of the arrays' lengths.
    pub elements: u128,
    /// Whether there are arrays before it.
    pub is_array: bool,
}

/// The bits of a value in its storage.
#[derive(Clone, Copy, Debug)]
pub struct Span {
    /// The number of bits before it.
    pub lies: u64,
    /// Its width in bits.
    pub bits: u128,
    /// Its width, if it is a bit-field.
    pub width: Option<u64>,
}

/// A type: its properties, and the answers about it so far.
pub struct Record<'d> {
    pub kind: Kind,
    /// Its name, without `struct`, `union` or `enum`.
    pub name: Vec<u8>,
    /// Whether look-ups by name find it.
    pub is_root: bool,
    /// For a forward the kind that it declares; else its own.
    pub tag: Kind,
    /// The type that it points to, renames, qualifies, contains or returns; 0 if there is none.
    pub of: Number,
    /// The number of elements of an array.
    pub elements: u32,
    /// The encoding of a number.
    pub encoding: Option<Encoding>,
    pub(super) size: OnceCell<Option<u64>>,
    pub(super) resolved: OnceCell<Number>,
    pub(super) reached: OnceCell<UnderlyingType>,
    pub(super) span: OnceCell<Span>,
    pub(super) members: OnceCell<Vec<Part<'d>>>,
    pub(super) values: OnceCell<Vec<Value>>,
    pub(super) signature: OnceCell<Signature>,
}

impl Record<'_> {
    /// The record of a kind, without other properties.
    pub(super) fn of_kind(kind: Kind) -> Self {
        Record {
            kind,
            name: Vec::new(),
            is_root: false,
            tag: kind,
            of: 0,
            elements: 0,
            encoding: None,
            size: OnceCell::new(),
            resolved: OnceCell::new(),
            reached: OnceCell::new(),
            span: OnceCell::new(),
            members: OnceCell::new(),
            values: OnceCell::new(),
            signature: OnceCell::new(),
        }
    }

    /// Whether it is a struct or union.
    pub fn is_aggregate(&self) -> bool {
        matches!(self.kind, Kind::Struct | Kind::Union)
    }

    /// Whether it is of a kind that has tags.
    pub fn is_tagged(&self) -> bool {
        matches!(self.kind, Kind::Struct | Kind::Union | Kind::Enum | Kind::Forward)
    }

    /// The word before its name in C; empty if it has none.
    pub fn word(&self) -> &'static str {
        match self.tag {
            Kind::Struct => "struct",
            Kind::Union => "union",
            Kind::Enum => "enum",
            _ => "",
        }
    }

    /// Its name in C, after the word.
    pub fn tag_name(&self) -> Vec<u8> {
        match self.word() {
            "" => self.name.clone(),
            word => [word.as_bytes(), b" ", &self.name].concat(),
        }
    }
}

/// Whether types of a kind add a qualifier to another.
pub fn is_qualifier(kind: Kind) -> bool {
    matches!(kind, Kind::Const | Kind::Volatile | Kind::Restrict)
}

/// Whether types of a kind are typedefs or qualifiers.
pub fn is_renaming(kind: Kind) -> bool {
    kind == Kind::Typedef || is_qualifier(kind)
}
