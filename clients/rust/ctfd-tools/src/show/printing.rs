//! Formats values as gdb does: structs, arrays, and the types of pointers.

use super::leaves::Style;
use super::operand::Operand;
use super::quoting::quote;
use super::reading::from_little_endian;
use super::target::Target;
use super::texts::PLAIN;
use super::value_type::{Shape, ValueType};
use crate::types::catalog::{Number, Part};
use crate::types::text::printable;
use ctfd_read::error::{refuse, Result};
use std::cell::Cell;

/// The most bytes of a value that are read.
const MOST_BYTES: u64 = 16 << 20;
/// The most bytes of values that are read for one answer.
const MOST_READ: u64 = 256 << 20;
/// The most values and parts of values in an answer, and about how many bytes it may have.
const MOST_PIECES: usize = 65_536;
const LONGEST: usize = 4 << 20;
/// The depth to which nested values are printed.
const DEEPEST: usize = 20;
const DOTS: &str = "...";
/// Stands for what exceeds the limits of an answer.
pub const CUT: &str = "<cut>";

/// A value: its place, and the bytes from the one in which it begins.
#[derive(Clone, Copy)]
pub struct Value<'v> {
    pub of: &'v ValueType,
    /// As many of its bytes as could be read.
    pub memory: &'v [u8],
    /// The bit of the first byte at which it begins.
    pub bit: u64,
    /// The address of the first byte; None if it is not in memory.
    pub at: Option<u64>,
}

/// Prints the values of an address space in one style.
pub struct Printer<'p, 't> {
    /// The address space.
    pub target: &'p Target<'t>,
    /// How values are formatted.
    pub style: Style,
    /// What is left for the current answer: pieces, bytes of its text, and bytes to read.
    pieces: Cell<usize>,
    room: Cell<usize>,
    readable: Cell<u64>,
}

impl<'p, 't> Printer<'p, 't> {
    /// A printer with a style.
    pub fn new(target: &'p Target<'t>, style: Style) -> Printer<'p, 't> {
        let (pieces, room) = (Cell::new(MOST_PIECES), Cell::new(LONGEST));
        Printer { target, style, pieces, room, readable: Cell::new(MOST_READ) }
    }

    /// Formats the result of an expression.
    pub fn operand(&self, operand: &Operand) -> Result<String> {
        self.begin();
        match operand {
            Operand::Untyped { name, why, .. } => {
                refuse(format!("{why}; cast its address, as *(TYPE *) &{}", printable(name)))
            }
            Operand::Code { of, address } => self.code(of, *address),
            Operand::Number { of, value } => {
                let bytes = self.target.bytes_of(of, *value);
                Ok(self.top(Value { of, memory: &bytes, bit: 0, at: None }))
            }
            Operand::Memory { of, address, bit } => self.memory_value(of, *address, *bit),
        }
    }

    /// Begins an answer: resets its limits.
    pub fn begin(&self) {
        self.pieces.set(MOST_PIECES);
        self.room.set(LONGEST);
        self.readable.set(MOST_READ);
    }

    /// Whether a value has more bytes than may still be read.
    pub fn is_spent(&self, of: &ValueType) -> bool {
        self.target.span(of, 0).min(MOST_BYTES) > self.readable.get()
    }

    /// Counts further bytes of the answer's text.
    pub fn charge(&self, count: usize) {
        self.room.set(self.room.get().saturating_sub(count));
    }

    fn memory_value(&self, of: &ValueType, address: u64, bit: u64) -> Result<String> {
        match self.target.shape(of) {
            Shape::Function => return self.code(of, address),
            Shape::Void => return refuse("void has no value: cast the pointer"),
            _ => {}
        }
        if self.target.size(of).is_none() {
            let spelled = self.target.spelling(of);
            return refuse(format!("{spelled} has no size here, so no value"));
        }
        let memory = self.memory(of, address, bit)?;
        Ok(self.top(Value { of, memory: &memory, bit, at: Some(address) }))
    }

    /// The bytes of a value. Fails if the first cannot be read.
    pub fn memory(&self, of: &ValueType, address: u64, bit: u64) -> Result<Vec<u8>> {
        let length = self.target.span(of, bit).min(MOST_BYTES);
        let Some(left) = self.readable.get().checked_sub(length) else {
            return refuse("it has more bytes than are read for one answer: ask for a part");
        };
        self.readable.set(left);
        self.target.read(address, length)
    }

    fn code(&self, of: &ValueType, address: u64) -> Result<String> {
        self.target.read(address, 1)?; // fails if nothing is there
        let label = self.target.label(address);
        let made = format!("{{{}}} 0x{address:x} {label}", self.target.spelling(of));
        Ok(made.trim_end().to_owned())
    }

    /// Formats a value that is not part of another; a pointer's type comes before it.
    fn top(&self, value: Value<'_>) -> String {
        let is_pointer = matches!(self.target.shape(value.of), Shape::Pointer(_));
        let made = self.value(value, 0);
        match is_pointer && !self.is_text_pointer(value.of) && !self.style.is_hexadecimal {
            true => format!("({}) {made}", self.target.spelling(value.of)),
            false => made,
        }
    }

    /// Formats a value that is nested `depth` deep.
    pub fn value(&self, value: Value<'_>, depth: usize) -> String {
        let Some(left) = self.pieces.get().checked_sub(1).filter(|_| self.room.get() != 0) else {
            return CUT.to_owned();
        };
        self.pieces.set(left);
        let made = self.format(value, depth);
        if depth == 0 || !made.starts_with('{') {
            self.charge(made.len());
        }
        made
    }

    fn format(&self, value: Value<'_>, depth: usize) -> String {
        match self.target.shape(value.of) {
            Shape::Aggregate { .. } if depth >= DEEPEST => "{...}".to_owned(),
            Shape::Aggregate { home, number } => self.aggregate(value, (home, number), depth),
            Shape::Array(contents, count) => self.array(value, &contents, count, depth),
            shape => self.leaf(value, &shape),
        }
    }

    /// Formats all members. An unnamed struct or union adds no depth.
    fn aggregate(&self, value: Value<'_>, of: (usize, Number), depth: usize) -> String {
        let (home, number) = of;
        let parts = self.target.catalog(home).members(number);
        let member = |part: &Part<'_>| {
            let of = ValueType::Dictionary { home, number: part.of };
            let inner = value.part(&of, part.offset);
            if !part.name.is_empty() {
                return format!("{} = {}", printable(part.name), self.value(inner, depth + 1));
            }
            match self.target.shape(&of) {
                Shape::Aggregate { .. } => self.value(inner, depth),
                _ => self.value(inner, depth + 1),
            }
        };
        match parts.is_empty() {
            true => "{<No data fields>}".to_owned(),
            false => format!("{{{}}}", parts.iter().map(member).collect::<Vec<_>>().join(", ")),
        }
    }

    fn array(&self, value: Value<'_>, contents: &ValueType, count: u64, depth: usize) -> String {
        let letters = self.letters_of(contents);
        let size = self.target.size(contents).unwrap_or(0) as usize;
        if count == 0 || size == 0 {
            return match value.at {
                None => "{}".to_owned(),
                Some(at) if letters.is_none() || self.style.is_hexadecimal => self.address(at),
                Some(at) => format!("{} {}", self.address(at), self.text(at, PLAIN)),
            };
        }
        if depth >= DEEPEST && letters.is_none() {
            return "{...}".to_owned();
        }
        match letters.filter(|_| !self.style.is_hexadecimal && value.bit == 0) {
            Some(letters) => {
                let whole = value.memory.len().min(size.saturating_mul(count as usize));
                let codes: Vec<u32> = value.memory[..whole]
                    .chunks_exact(letters.size as usize)
                    .map(|one| from_little_endian(one) as u32)
                    .collect();
                match codes.is_empty() {
                    true => "<not read>".to_owned(),
                    false => self.quote(&codes, count, letters.prefix),
                }
            }
            None => self.elements(value, contents, count, size, depth),
        }
    }

    /// Formats a text; a complete one loses its final zero.
    fn quote(&self, codes: &[u32], count: u64, prefix: &str) -> String {
        let is_whole = codes.len() as u64 == count;
        let codes = match codes.split_last() {
            Some((0, front)) if is_whole => front,
            _ => codes,
        };
        quote(codes, self.style.limits, !is_whole, prefix)
    }

    /// Formats the elements up to the limit; repeated ones are printed once and counted.
    fn elements(
        &self,
        value: Value<'_>,
        contents: &ValueType,
        count: u64,
        size: usize,
        depth: usize,
    ) -> String {
        let limits = self.style.limits;
        let there = value.memory.len().div_ceil(size.max(1)) as u64;
        // An array that is too long to be read has as many elements as were read.
        let known =
            if (size as u64).saturating_mul(count) > MOST_BYTES { count.min(there) } else { count };
        let (mut listed, mut at, mut printed) = (Vec::new(), 0, 0);
        while at < known && printed < limits.elements && self.pieces.get() != 0 {
            let end = self.end_of_repeats(value, at, known, size);
            let element = value.part(contents, at.saturating_mul(8 * size as u64));
            let made = self.value(element, depth + 1);
            if end - at > limits.repeats as u64 {
                listed.push(format!("{made} <repeats {} times>", end - at));
                printed += limits.repeats;
                at = end;
            } else {
                listed.push(made);
                printed += 1;
                at += 1;
            }
        }
        let dots = if at < count { DOTS } else { "" };
        format!("{{{}{dots}}}", listed.join(", "))
    }

    /// The index after the elements that equal the one at `at`.
    fn end_of_repeats(&self, value: Value<'_>, at: u64, count: u64, size: usize) -> u64 {
        let bytes = |number: u64| {
            let start = usize::try_from(number).ok().and_then(|number| number.checked_mul(size));
            let start = start.unwrap_or(usize::MAX).min(value.memory.len());
            &value.memory[start..start.saturating_add(size).min(value.memory.len())]
        };
        let first = bytes(at);
        if first.is_empty() {
            return count; // no bytes here, nor after it
        }
        (at + 1..count).find(|&number| bytes(number) != first).unwrap_or(count)
    }

    /// An address in hexadecimal, with its label.
    pub fn address(&self, address: u64) -> String {
        format!("0x{address:x} {}", self.target.label(address)).trim_end().to_owned()
    }
}

impl<'v> Value<'v> {
    /// The part of a value at an offset in bits.
    fn part(self, of: &'v ValueType, offset: u64) -> Value<'v> {
        let bits = self.bit.saturating_add(offset);
        let start = usize::try_from(bits / 8).unwrap_or(usize::MAX).min(self.memory.len());
        Value {
            of,
            memory: &self.memory[start..],
            bit: bits % 8,
            at: self.at.map(|at| at.wrapping_add(bits / 8)),
        }
    }
}
