//! Reads numbers and names from the bytes of a section, and refuses those past its end.

use crate::error::{Error, Result};
use object::endian::{Endian as _, Endianness};

/// A reader of numbers in one byte order, from the front of some bytes.
#[derive(Clone, Copy)]
pub struct Reader<'a> {
    bytes: &'a [u8],
    endian: Endianness,
    what: &'static str,
}

impl<'a> Reader<'a> {
    /// A reader of some bytes; errors name their contents `what`.
    pub fn new(bytes: &'a [u8], endian: Endianness, what: &'static str) -> Reader<'a> {
        Reader { bytes, endian, what }
    }

    /// Whether everything was read.
    pub fn is_empty(&self) -> bool {
        self.bytes.is_empty()
    }

    /// The bytes that were not read yet.
    pub fn rest(&self) -> &'a [u8] {
        self.bytes
    }

    /// The next `count` bytes.
    pub fn take(&mut self, count: usize) -> Result<&'a [u8]> {
        if count > self.bytes.len() {
            return Err(self.damage());
        }
        let (taken, rest) = self.bytes.split_at(count);
        self.bytes = rest;
        Ok(taken)
    }

    /// The next number, of 8 bits.
    pub fn byte(&mut self) -> Result<u8> {
        Ok(self.take(1)?[0])
    }

    /// The next number, of 16 bits.
    pub fn half(&mut self) -> Result<u16> {
        let bytes = self.take(2)?.try_into().map_err(|_| self.damage())?;
        Ok(self.endian.read_u16_bytes(bytes))
    }

    /// The next number, of 32 bits.
    pub fn word(&mut self) -> Result<u32> {
        let bytes = self.take(4)?.try_into().map_err(|_| self.damage())?;
        Ok(self.endian.read_u32_bytes(bytes))
    }

    /// The next number, of 64 bits.
    pub fn long(&mut self) -> Result<u64> {
        let bytes = self.take(8)?.try_into().map_err(|_| self.damage())?;
        Ok(self.endian.read_u64_bytes(bytes))
    }

    /// The error for bytes that are cut off.
    pub fn damage(&self) -> Error {
        Error(format!("its {} is damaged or cut off", self.what))
    }
}

/// A part of some bytes. An error if it is not within them; the error names their contents `what`.
pub fn part<'a>(bytes: &'a [u8], start: u64, length: u64, what: &'static str) -> Result<&'a [u8]> {
    let range = usize::try_from(start).ok().zip(usize::try_from(length).ok());
    range
        .and_then(|(start, length)| bytes.get(start..start.checked_add(length)?))
        .ok_or_else(|| Error(format!("its {what} is damaged or cut off")))
}

/// A table of names, each followed by a zero byte.
#[derive(Clone, Copy, Default)]
pub struct Names<'a>(pub &'a [u8]);

impl<'a> Names<'a> {
    /// The name at an offset; `None` past the end of the table, or if the name does not end.
    pub fn at(&self, place: u64) -> Option<&'a [u8]> {
        let rest = self.0.get(usize::try_from(place).ok()?..)?;
        let end = rest.iter().position(|&byte| byte == 0)?;
        Some(&rest[..end])
    }
}
