//! All types of a file by their names, and notes on what its answers leave out.

use super::figures::Sizes;
use super::names::Names;
use std::cell::RefCell;

/// A file's types. Notes on what an answer leaves out are printed after it.
pub struct FileTypes<'w, 'd> {
    /// The path of the file, as the user gave it.
    pub path: &'w [u8],
    /// The types and their names.
    pub names: &'w Names<'w, 'd>,
    /// Their figures.
    pub sizes: Sizes<'w, 'd>,
    cuts: RefCell<Vec<String>>,
}

impl<'w, 'd> FileTypes<'w, 'd> {
    /// The types of a file.
    pub fn new(path: &'w [u8], names: &'w Names<'w, 'd>) -> FileTypes<'w, 'd> {
        FileTypes { path, names, sizes: Sizes::new(names), cuts: RefCell::default() }
    }

    /// Adds a note on what is left out.
    pub fn cut(&self, line: String) {
        self.cuts.borrow_mut().push(line);
    }

    /// The notes on what was left out.
    pub fn cuts(&self) -> Vec<String> {
        self.cuts.borrow().clone()
    }
}
