//! The lists that a dictionary is opened from.

use crate::apart::overlap;
use crate::dictionary::{Model, Options};
use std::sync::Arc;

/// The numbers of lists in rows: `enum ctfd_list`.
const IN_SECTION: u32 = 0;
const IN_STRINGS: u32 = 1;

/// Three lists that share no byte, and the data model of the program. Clones have the same bytes.
#[derive(Clone)]
pub(crate) struct InputLists<'b> {
    ctf: Bytes<'b>,
    symbols: Option<Bytes<'b>>,
    strings: Option<Bytes<'b>>,
    model: Model,
}

/// Bytes at an address that does not change.
#[derive(Clone)]
enum Bytes<'b> {
    Lent(&'b [u8]),
    Kept(Arc<[u8]>),
}

impl Bytes<'_> {
    fn get(&self) -> &[u8] {
        match self {
            Bytes::Lent(bytes) => bytes,
            Bytes::Kept(bytes) => bytes,
        }
    }
}

impl InputLists<'static> {
    /// Copies of lists.
    pub(crate) fn of_copies(ctf: &[u8], options: Options<'_>) -> InputLists<'static> {
        let copy = |bytes: &[u8]| Bytes::Kept(Arc::from(bytes));
        InputLists {
            ctf: copy(ctf),
            symbols: options.symbols.map(copy),
            strings: options.strings.map(copy),
            model: options.model,
        }
    }
}

impl<'b> InputLists<'b> {
    /// Borrows lists; copies them if they overlap.
    pub(crate) fn of_borrowed(ctf: &'b [u8], options: Options<'b>) -> InputLists<'b> {
        let symbols = options.symbols.unwrap_or_default();
        let strings = options.strings.unwrap_or_default();
        if overlap(symbols, ctf) || overlap(strings, ctf) || overlap(strings, symbols) {
            return InputLists::of_copies(ctf, options);
        }
        InputLists {
            ctf: Bytes::Lent(ctf),
            symbols: options.symbols.map(Bytes::Lent),
            strings: options.strings.map(Bytes::Lent),
            model: options.model,
        }
    }

    /// The CTF section.
    pub(crate) fn ctf(&self) -> &[u8] {
        self.ctf.get()
    }

    /// The symbol table.
    pub(crate) fn symbols(&self) -> Option<&[u8]> {
        self.symbols.as_ref().map(Bytes::get)
    }

    /// The strings of the symbol table.
    pub(crate) fn strings(&self) -> Option<&[u8]> {
        self.strings.as_ref().map(Bytes::get)
    }

    /// The name at an offset of a list; `list` is the list's number in rows. Empty for other
    /// numbers.
    pub(crate) fn name(&self, list: u32, at: u64) -> &[u8] {
        let list = match list {
            IN_SECTION => self.ctf(),
            IN_STRINGS => self.strings().unwrap_or_default(),
            _ => return &[],
        };
        let rest = &list[at as usize..];
        rest.split(|&byte| byte == 0).next().unwrap_or_default()
    }

    /// The data model of the program.
    pub(crate) fn model(&self) -> Model {
        self.model
    }
}
