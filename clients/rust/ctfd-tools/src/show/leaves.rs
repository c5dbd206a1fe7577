//! Formats values that are one number, as gdb does: with texts behind pointers, and names of flags.

use super::floats;
use super::printing::{Printer, Value};
use super::quoting::{quote_character, Limits};
use super::reading::Leaf;
use super::texts::{Letters, PLAIN};
use super::value_type::{Class, Integer, Shape, ValueType, EXTENDED, EXTENDED_COMPLEX};
use crate::types::catalog::{is_qualifier, is_renaming, Number};
use crate::types::text::printable;
use ctfd::Kind;

const EXTENDED_BITS: u32 = 80;
/// The prefixes of texts of wide characters, by the typedefs of these.
const PREFIXES: [(&[u8], &str); 3] = [(b"wchar_t", "L"), (b"char16_t", "u"), (b"char32_t", "U")];

/// gdb's settings: `print elements`, `print repeats`, and the format /x.
#[derive(Clone, Copy, Debug)]
pub struct Style {
    /// How much is printed of arrays and texts.
    pub limits: Limits,
    /// Whether numbers are printed in hexadecimal.
    pub is_hexadecimal: bool,
}

impl Printer<'_, '_> {
    /// Formats a value that is one number.
    pub fn leaf(&self, value: Value<'_>, shape: &Shape) -> String {
        match (self.target.leaf(value.of, value.memory, value.bit), shape) {
            (Leaf::Missing(why), _) => format!("<{why}>"),
            (Leaf::Void, _) => "void".to_owned(),
            (Leaf::Text(text), &Shape::Float { encoding: EXTENDED_COMPLEX, .. })
                if !self.style.is_hexadecimal =>
            {
                floats::format_extended_pair(&text).unwrap_or(text)
            }
            (Leaf::Text(text), _) => match text.parse::<u128>() {
                Ok(bits) if self.style.is_hexadecimal => format!("0x{bits:x}"),
                _ => text,
            },
            (Leaf::Whole(number), Shape::Pointer(to)) => self.pointer(to, number as u64),
            (Leaf::Whole(number), Shape::Integer(integer)) => {
                self.integer(value.of, *integer, number)
            }
            (Leaf::Bits(bits), &Shape::Float { size, encoding }) => {
                self.float(bits, size, encoding)
            }
            (Leaf::Enumerator(name, number), _) => match self.style.is_hexadecimal {
                true => hexadecimal(number.into(), 4),
                false => printable(&name).into_owned(),
            },
            (Leaf::Whole(number), &Shape::Enum { home, number: of }) => {
                self.flags(home, of, number)
            }
            (Leaf::Whole(number), _) => number.to_string(),
            (Leaf::Bits(bits), _) => format!("0x{bits:x}"),
        }
    }

    fn float(&self, bits: u128, size: u64, encoding: u8) -> String {
        if self.style.is_hexadecimal {
            let width = if encoding == EXTENDED { EXTENDED_BITS } else { 8 * size.min(16) as u32 };
            let kept = if width >= 128 { bits } else { bits & ((1 << width) - 1) };
            return format!("0x{kept:x}");
        }
        floats::format_float(bits, encoding, size)
    }

    fn pointer(&self, to: &ValueType, address: u64) -> String {
        if address == 0 || self.style.is_hexadecimal {
            return format!("0x{address:x}");
        }
        match self.letters_of(to) {
            Some(letters) => format!("{} {}", self.address(address), self.text(address, letters)),
            None => self.address(address),
        }
    }

    /// The text at an address.
    pub fn text(&self, address: u64, letters: Letters) -> String {
        let (text, count) = self.target.text(address, letters, self.style.limits);
        self.charge(count);
        text
    }

    fn integer(&self, of: &ValueType, integer: Integer, number: i128) -> String {
        if self.style.is_hexadecimal {
            return hexadecimal(number, integer.size);
        }
        if integer.is_boolean && (number == 0 || number == 1) {
            return if number == 1 { "true" } else { "false" }.to_owned();
        }
        if let Some(prefix) = self.wide_prefix(of, integer) {
            let code = number as u32 & u32::MAX >> (32 - 8 * integer.size.clamp(1, 4));
            return format!("{number} {}", quote_character(code, prefix));
        }
        match integer.is_character && integer.size == 1 {
            true => format!("{number} {}", quote_character(number as u32 & 255, "")),
            false => number.to_string(),
        }
    }

    /// A number that no enumerator has, as flags. If an enumerator is neither 0 nor a single bit,
    /// it stays a number.
    fn flags(&self, home: usize, of: Number, number: i128) -> String {
        let size = self.target.catalog(home).size(of).unwrap_or(4);
        if self.style.is_hexadecimal {
            return hexadecimal(number, size);
        }
        let (mut told, mut left) = (Vec::new(), number);
        for one in self.target.catalog(home).values(of) {
            let bits = i128::from(one.value);
            if bits < 0 || bits & (bits - 1) != 0 {
                return number.to_string();
            }
            if bits & left != 0 {
                told.push(printable(&one.name).into_owned());
                left &= !bits;
            }
        }
        if left < 0 || number == 0 {
            return number.to_string();
        }
        if left != 0 {
            told.push(format!("unknown: 0x{left:x}"));
        }
        format!("({})", told.join(" | "))
    }

    /// How texts of a type of characters are written; None for other types.
    pub fn letters_of(&self, of: &ValueType) -> Option<Letters> {
        let Shape::Integer(integer) = self.target.shape(of) else { return None };
        match self.wide_prefix(of, integer) {
            Some(prefix) => Some(Letters { size: integer.size, prefix }),
            None => integer.is_letter().then_some(PLAIN),
        }
    }

    /// The prefix of texts of a type of wide characters; None for other types.
    fn wide_prefix(&self, of: &ValueType, integer: Integer) -> Option<&'static str> {
        let ValueType::Dictionary { home, mut number } = self.target.without_qualifiers(of) else {
            return None;
        };
        let catalog = self.target.catalog(home);
        if !matches!(integer.size, 1 | 2 | 4) {
            return None;
        }
        while is_renaming(catalog.kind(number)) {
            let record = catalog.record(number);
            let prefix = PREFIXES.iter().find(|(name, _)| *name == record.name);
            if let Some((_, prefix)) = prefix.filter(|_| record.kind == Kind::Typedef) {
                return Some(prefix);
            }
            number = record.of;
        }
        None
    }

    /// Whether a type is a pointer to text, which is printed without its type.
    pub fn is_text_pointer(&self, of: &ValueType) -> bool {
        let to = match self.target.without_qualifiers(of) {
            ValueType::Pointer(to) => (*to).clone(),
            ValueType::Dictionary { home, number } if number != 0 => {
                let record = self.target.catalog(home).record(number);
                if record.kind != Kind::Pointer {
                    return false;
                }
                ValueType::Dictionary { home, number: record.of }
            }
            _ => return false,
        };
        let is_wide = self.letters_of(&to).is_some_and(|letters| !letters.prefix.is_empty());
        is_wide || self.is_char(&to)
    }

    /// Whether a type is `char` itself, perhaps with qualifiers.
    fn is_char(&self, of: &ValueType) -> bool {
        match self.target.without_qualifiers(of) {
            ValueType::Basic(basic) => {
                basic.name == "char" && matches!(basic.class, Class::Character { .. })
            }
            ValueType::Dictionary { home, number } => {
                let record = self.target.catalog(home).record(number);
                !is_qualifier(record.kind) && record.name == b"char"
            }
            _ => false,
        }
    }
}

/// The low `size` bytes of a number in hexadecimal.
fn hexadecimal(number: i128, size: u64) -> String {
    let width = 8 * size.min(16) as u32;
    let kept = if width >= 128 { number as u128 } else { number as u128 & ((1 << width) - 1) };
    format!("0x{kept:x}")
}
