//! The result of an expression: a value in memory, a number or a function.

use super::value_type::ValueType;

/// A number that is not in memory.
#[derive(Clone, Copy, Debug, PartialEq)]
pub enum Scalar {
    /// An integer.
    Whole(i128),
    /// A floating-point number.
    Point(f64),
}

/// The result of an expression.
#[derive(Clone, Debug)]
pub enum Operand {
    /// A value in memory, which begins at `bit` of the byte at `address`.
    Memory { of: ValueType, address: u64, bit: u64 },
    /// A value that is not in memory.
    Number { of: ValueType, value: Scalar },
    /// A function.
    Code { of: ValueType, address: u64 },
    /// A symbol whose address is known, but not its type; `why` says why not.
    Untyped { name: Vec<u8>, address: u64, why: String },
}

impl Operand {
    /// An integer of a type.
    pub fn of_integer(of: impl Into<ValueType>, value: i128) -> Operand {
        Operand::Number { of: of.into(), value: Scalar::Whole(value) }
    }
}
