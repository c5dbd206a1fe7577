//! Types of library calls, and one function to make each.

use crate::dictionary::Dictionary;
use crate::faults::{outcome_of, Refusal};
use crate::names::{text, Name};
use crate::raw::Handle;
use crate::types::Type;

/// A call that returns a value of a whole dictionary.
pub(crate) type OfAll<T> = unsafe extern "C" fn(*mut Handle, *mut T) -> u32;

/// A call that returns a value of a type.
pub(crate) type OfType<T> = unsafe extern "C" fn(*mut Handle, u16, *mut T) -> u32;

/// A call that returns the number of something with a name.
pub(crate) type OfName<T> = unsafe extern "C" fn(*mut Handle, *const u8, usize, *mut T) -> u32;

/// A call that returns a value of a symbol.
pub(crate) type OfSymbol<T> = unsafe extern "C" fn(*mut Handle, u32, *mut T) -> u32;

/// A call that writes a text of a whole dictionary.
pub(crate) type TextOfAll = unsafe extern "C" fn(*mut Handle, *mut u8, usize, *mut u64) -> u32;

/// A call that writes a text of a type.
pub(crate) type TextOfType =
    unsafe extern "C" fn(*mut Handle, u16, *mut u8, usize, *mut u64) -> u32;

/// A call that fills rows with a list of a whole dictionary.
pub(crate) type RowsOfAll<R> =
    unsafe extern "C" fn(*mut Handle, usize, *mut R, usize, *mut u64) -> u32;

/// A call that fills rows with a list of a type.
pub(crate) type RowsOfType<R> =
    unsafe extern "C" fn(*mut Handle, u16, usize, *mut R, usize, *mut u64) -> u32;

impl Dictionary<'_> {
    /// The value that a call of ctfd.h returns.
    pub(crate) fn answer_of<T: Default>(&self, call: OfAll<T>) -> Result<T, Refusal> {
        let mut found = T::default();
        // SAFETY: the call takes a handle that is this value's own, as `handle` says, and writes
        // one value.
        outcome_of(unsafe { call(self.handle(), &mut found) })?;
        Ok(found)
    }

    /// The value that a call returns for a name.
    pub(crate) fn answer_for_name<T: Default>(
        &self,
        call: OfName<T>,
        name: &[u8],
    ) -> Result<T, Refusal> {
        let mut found = T::default();
        // SAFETY: as in `answer_of`; the name lives for the call, and its pointer is never null.
        outcome_of(unsafe { call(self.handle(), name.as_ptr(), name.len(), &mut found) })?;
        Ok(found)
    }

    /// The value that a call returns for a symbol.
    pub(crate) fn of_symbol<T: Default>(
        &self,
        call: OfSymbol<T>,
        symbol: u32,
    ) -> Result<T, Refusal> {
        let mut found = T::default();
        // SAFETY: as in `answer_of`.
        outcome_of(unsafe { call(self.handle(), symbol, &mut found) })?;
        Ok(found)
    }

    /// The text that a call writes.
    pub(crate) fn text_of(&self, call: TextOfAll) -> Result<Name, Refusal> {
        // SAFETY: as in `answer_of`; `text` passes a buffer of `len` bytes.
        text(|at, len, told| unsafe { call(self.handle(), at, len, told) })
    }

    /// Fills rows from number `from` on. Returns the length of the whole list.
    pub(crate) fn fill_rows<R>(
        &self,
        call: RowsOfAll<R>,
        from: usize,
        rows: &mut [R],
    ) -> Result<u64, Refusal> {
        let mut count = 0;
        // SAFETY: as in `answer_of`; the call writes at most as many rows as there are, and any
        // bits are a valid row.
        outcome_of(unsafe {
            call(self.handle(), from, rows.as_mut_ptr(), rows.len(), &mut count)
        })?;
        Ok(count)
    }
}

impl Type<'_> {
    /// The value that a call of ctfd.h returns for this type.
    pub(crate) fn answer_of<T: Default>(self, call: OfType<T>) -> Result<T, Refusal> {
        let mut found = T::default();
        // SAFETY: the call takes a handle that is the dictionary's own, as `Dictionary::handle`
        // says, and any type number, and writes one value.
        outcome_of(unsafe { call(self.dictionary().handle(), self.number(), &mut found) })?;
        Ok(found)
    }

    /// The text that a call writes for this type.
    pub(crate) fn text_of(self, call: TextOfType) -> Result<Name, Refusal> {
        let (handle, number) = (self.dictionary().handle(), self.number());
        // SAFETY: as in `answer_of`; `text` passes a buffer of `len` bytes.
        text(|at, len, told| unsafe { call(handle, number, at, len, told) })
    }

    /// Fills rows from number `from` on. Returns the length of the whole list.
    pub(crate) fn fill_rows<R>(
        self,
        call: RowsOfType<R>,
        from: usize,
        rows: &mut [R],
    ) -> Result<u64, Refusal> {
        let (handle, number, mut count) = (self.dictionary().handle(), self.number(), 0);
        // SAFETY: as in `answer_of`; the call writes at most as many rows as there are, and any
        // bits are a valid row.
        outcome_of(unsafe {
            call(handle, number, from, rows.as_mut_ptr(), rows.len(), &mut count)
        })?;
        Ok(count)
    }
}
