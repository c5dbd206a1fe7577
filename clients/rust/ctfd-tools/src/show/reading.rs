//! Shapes and sizes of types from dictionaries, and values that are one number, as the library
//! formats them.

use super::operand::Scalar;
use super::target::Target;
use super::value_type::{pointer_size, Integer, Shape, ValueType};
use crate::types::catalog::{is_qualifier, Catalog, Number};
use ctfd::{Fault, Kind};

/// Flags of an integer's encoding.
const SIGNED: u8 = 1;
const CHARACTER: u8 = 2;
const BOOLEAN: u8 = 4;

/// A value that is one number, or the reason why there is none.
#[derive(Clone, Debug, PartialEq)]
pub enum Leaf {
    /// An integer.
    Whole(i128),
    /// The bits of a floating-point number.
    Bits(u128),
    /// An enumerator, by its name and value.
    Enumerator(Vec<u8>, i32),
    /// A number with too many bits for arithmetic, formatted.
    Text(String),
    /// An integer without bits.
    Void,
    /// A missing value, with the reason, such as `not read`.
    Missing(&'static str),
}

impl Target<'_> {
    /// The shape of a type, after its typedefs and qualifiers.
    pub fn shape(&self, of: &ValueType) -> Shape {
        match of {
            ValueType::Pointer(to) => Shape::Pointer((**to).clone()),
            ValueType::Array(contents, count) => Shape::Array((**contents).clone(), *count),
            ValueType::Qualifier(_, of) => self.shape(of),
            ValueType::Function(_) => Shape::Function,
            ValueType::Basic(basic) => basic.shape(),
            ValueType::Dictionary { number: 0, .. } => Shape::Void,
            &ValueType::Dictionary { home, number } => self.dictionary_shape(home, number),
        }
    }

    fn dictionary_shape(&self, home: usize, number: Number) -> Shape {
        let catalog = self.catalog(home);
        let number = catalog.resolve(number);
        let record = catalog.record(number);
        let listed = |number| ValueType::Dictionary { home, number };
        match record.kind {
            Kind::Integer => integer(catalog, number),
            Kind::Float => Shape::Float {
                size: catalog.size(number).unwrap_or(0),
                encoding: record.encoding.map_or(0, |lies| lies.encoding),
            },
            Kind::Pointer => Shape::Pointer(listed(record.of)),
            Kind::Array => Shape::Array(listed(record.of), record.elements.into()),
            Kind::Function => Shape::Function,
            Kind::Struct | Kind::Union => Shape::Aggregate { home, number },
            Kind::Enum => Shape::Enum { home, number },
            _ if number == 0 => Shape::Void,
            _ => Shape::Incomplete,
        }
    }

    /// The size of a value in bytes; None if it has none.
    pub fn size(&self, of: &ValueType) -> Option<u64> {
        match of {
            ValueType::Pointer(_) => Some(pointer_size(self.model)),
            ValueType::Array(contents, count) => self.size(contents)?.checked_mul(*count),
            ValueType::Qualifier(_, of) => self.size(of),
            ValueType::Function(_) => None,
            ValueType::Basic(basic) => Some(basic.size),
            ValueType::Dictionary { number: 0, .. } => None,
            ValueType::Dictionary { home, number } => self.catalog(*home).size(*number),
        }
    }

    /// The number of bytes that a value spans if it begins at `bit` of the first one.
    pub fn span(&self, of: &ValueType, bit: u64) -> u64 {
        let bits = match of {
            ValueType::Dictionary { home, number } if *number != 0 => {
                let span = self.catalog(*home).span(*number);
                u128::from(span.lies) + span.bits
            }
            ValueType::Qualifier(_, of) => return self.span(of, bit),
            _ => 8 * u128::from(self.size(of).unwrap_or(0)),
        };
        u64::try_from((u128::from(bit) + bits).div_ceil(8)).unwrap_or(u64::MAX)
    }

    /// Whether a type is a bit-field's.
    pub fn is_bit_field(&self, of: &ValueType) -> bool {
        matches!(of, ValueType::Dictionary { home, number }
                 if *number != 0 && self.catalog(*home).span(*number).width.is_some())
    }

    /// A type without its outer qualifiers.
    pub fn without_qualifiers(&self, of: &ValueType) -> ValueType {
        let (home, mut number) = match of {
            ValueType::Dictionary { home, number } => (*home, *number),
            ValueType::Qualifier(_, of) => return self.without_qualifiers(of),
            _ => return of.clone(),
        };
        while number != 0 && is_qualifier(self.catalog(home).kind(number)) {
            number = self.catalog(home).record(number).of;
        }
        ValueType::Dictionary { home, number }
    }

    /// The number in memory at a bit.
    pub fn leaf(&self, of: &ValueType, memory: &[u8], bit: u64) -> Leaf {
        match of {
            &ValueType::Dictionary { home, number } if number != 0 => {
                self.dictionary_leaf(home, number, memory, bit)
            }
            ValueType::Qualifier(_, of) => self.leaf(of, memory, bit),
            _ => self.own_leaf(of, memory),
        }
    }

    fn dictionary_leaf(&self, home: usize, number: Number, memory: &[u8], bit: u64) -> Leaf {
        let catalog = self.catalog(home);
        let Some(of) = catalog.get(number) else { return Leaf::Missing("incomplete type") };
        let needed = self.span(&ValueType::Dictionary { home, number }, bit);
        let memory = &memory[..memory.len().min(usize::try_from(needed).unwrap_or(usize::MAX))];
        let text = match of.show(memory, bit) {
            Ok(text) => text,
            Err(refusal) if refusal.fault == Fault::Incomplete => {
                return Leaf::Missing("incomplete type");
            }
            Err(_) => return Leaf::Missing("not read"),
        };
        match self.shape(&ValueType::Dictionary { home, number }) {
            Shape::Float { .. } => bits_of(&text).map_or_else(|| leaf_of(&text), Leaf::Bits),
            Shape::Enum { number, .. } => enumerator(catalog, number, &text),
            Shape::Integer(integer) => integer_leaf(&text, integer),
            _ => number_of(&text).map_or(Leaf::Missing("not read"), Leaf::Whole),
        }
    }

    /// The same for a type that is not in a dictionary; bytes are in little-endian order.
    fn own_leaf(&self, of: &ValueType, memory: &[u8]) -> Leaf {
        let size = self.size(of).unwrap_or(0) as usize;
        let Some(bytes) = memory.get(..size).filter(|_| size != 0) else {
            return Leaf::Missing("not read");
        };
        let bits = from_little_endian(bytes);
        match self.shape(of) {
            Shape::Float { .. } => Leaf::Bits(bits),
            Shape::Integer(integer) => Leaf::Whole(sign_extend(bits, integer)),
            _ => Leaf::Whole(bits as i128),
        }
    }

    /// The bytes of a number of a type, in little-endian order.
    pub fn bytes_of(&self, of: &ValueType, value: Scalar) -> Vec<u8> {
        let size = self.size(of).unwrap_or(8).min(16) as usize;
        let bits = match (self.shape(of), value) {
            (Shape::Float { size: 4, .. }, Scalar::Point(number)) => {
                u128::from((number as f32).to_bits())
            }
            (Shape::Float { .. }, Scalar::Point(number)) => u128::from(number.to_bits()),
            (_, Scalar::Point(number)) => number as i128 as u128,
            (_, Scalar::Whole(number)) => number as u128,
        };
        bits.to_le_bytes()[..size].to_vec()
    }
}

fn integer(catalog: &Catalog<'_>, number: Number) -> Shape {
    let record = catalog.record(number);
    let size = catalog.size(number).unwrap_or(0);
    let Some(lies) = record.encoding else { return Shape::Incomplete };
    let has = |flag| lies.encoding & flag != 0;
    Shape::Integer(Integer {
        size,
        bits: lies.bits.into(),
        is_signed: has(SIGNED),
        is_character: has(CHARACTER),
        is_boolean: has(BOOLEAN),
        is_whole: lies.offset == 0 && u64::from(lies.bits) == 8 * size,
    })
}

/// The number that some bits are in a type of integers.
pub fn sign_extend(bits: u128, integer: Integer) -> i128 {
    let width = integer.bits.clamp(1, 128) as u32;
    let kept = if width == 128 { bits } else { bits & ((1 << width) - 1) };
    let is_below = integer.is_signed && width < 128 && kept >> (width - 1) == 1;
    kept as i128 - if is_below { 1 << width } else { 0 }
}

/// The number of some bytes in little-endian order.
pub fn from_little_endian(bytes: &[u8]) -> u128 {
    bytes.iter().rev().fold(0, |made, &byte| made << 8 | u128::from(byte))
}

/// Parses a number in decimal or hexadecimal.
fn number_of(text: &[u8]) -> Option<i128> {
    match text.strip_prefix(b"0x") {
        Some(_) => bits_of(text).map(|bits| bits as i128),
        None => std::str::from_utf8(text).ok()?.parse().ok(),
    }
}

/// Parses a number in hexadecimal.
fn bits_of(text: &[u8]) -> Option<u128> {
    let digits = std::str::from_utf8(text.strip_prefix(b"0x")?).ok()?;
    u128::from_str_radix(digits, 16).ok()
}

/// The value for a text of the library that is not parsed.
fn leaf_of(text: &[u8]) -> Leaf {
    match text {
        b"void" => Leaf::Void,
        _ => Leaf::Text(String::from_utf8_lossy(text).into_owned()),
    }
}

/// Parses an integer. The library formats one of an odd width as bits, in hexadecimal.
fn integer_leaf(text: &[u8], integer: Integer) -> Leaf {
    if let (Some(bits), false, 128..) = (bits_of(text), integer.is_signed, integer.bits) {
        return Leaf::Text(bits.to_string());
    }
    match number_of(text) {
        Some(number) if text.starts_with(b"0x") => {
            Leaf::Whole(sign_extend(number as u128, integer))
        }
        Some(number) => Leaf::Whole(number),
        None => leaf_of(text),
    }
}

/// Parses a value of an enum: the library formats it as its name, if it has one.
fn enumerator(catalog: &Catalog<'_>, number: Number, text: &[u8]) -> Leaf {
    let named = catalog.values(number).iter().find(|one| *one.name == *text);
    match named {
        Some(one) => Leaf::Enumerator(one.name.clone(), one.value),
        None => number_of(text).map_or(Leaf::Missing("not read"), Leaf::Whole),
    }
}
