//! Writes a program with more types than a dictionary holds to one file, as several dictionaries:
//! an archive with a parent and its children.

use crate::archive::{self, child_name, PARENT};
use crate::dictionary::{keep_described, Dictionary, WithParent};
use crate::error::Result;
use crate::image::Image;
use crate::select::left_out;
use crate::spread::spread;
use crate::symbols::{SymbolTable, Symbols};
use crate::table::Table;
use std::borrow::Cow;
use std::path::Path;

/// The parts of a program.
pub struct WrittenParts<'a> {
    /// The file.
    pub bytes: Vec<u8>,
    /// The types of all parts as one dictionary, which is not written, with the losses.
    pub whole: Dictionary<'a>,
    /// The number of types of the parent, then those of each child.
    pub counts: Vec<usize>,
}

impl WrittenParts<'_> {
    /// The dictionaries, each child with the parent.
    pub fn dictionaries(&self) -> Result<Vec<WithParent<'_>>> {
        let members = archive::members(&self.bytes)?;
        let parent = members.first().map(|(_, bytes)| *bytes);
        let children = members.iter().skip(1).map(|(_, bytes)| (*bytes, parent));
        Ok(parent.map(|bytes| (bytes, None)).into_iter().chain(children).collect())
    }
}

/// Spreads a table over dictionaries in one file. The library checks each of them.
pub fn write<'a>(
    mut table: Table<'a>,
    symbols: Symbols<'a>,
    image: &Image,
    output: &Path,
) -> Result<WrittenParts<'a>> {
    let spread = spread(&table);
    let mut losses = std::mem::take(&mut table.losses);
    table.is_cut = !spread.left.is_empty();
    losses.extend(left_out(&table, &spread.left, "a part of the file holds"));
    let mut parts =
        Parts { table, symbols, described: DescribedSymbols::default(), losses, image, output };
    let parent = parts.bytes(&spread.parent, &[], None)?;
    let mut members = vec![(PARENT.to_owned(), parent.clone())];
    for (place, own) in spread.children.iter().enumerate() {
        let bytes = parts.bytes(&spread.parent, own, Some(&parent))?;
        members.push((child_name(place + 1), bytes));
    }
    let listed = members.iter().map(|(name, bytes)| (name.clone(), bytes.as_slice()));
    let bytes = archive::write(listed)?;
    let counts = std::iter::once(&spread.parent).chain(&spread.children).map(Vec::len).collect();
    let Parts { mut table, symbols, losses, .. } = parts;
    table.losses = losses;
    let whole = Dictionary { table, symbols, parent: None, has_own_parent: false, plain: None };
    Ok(WrittenParts { bytes, whole, counts })
}

/// A table and the state of writing its parts.
struct Parts<'p, 'a> {
    table: Table<'a>,
    symbols: Symbols<'a>,
    described: DescribedSymbols,
    losses: Vec<String>,
    image: &'p Image,
    output: &'p Path,
}

/// The objects and functions that earlier parts describe: each is in the first part that has its
/// type.
#[derive(Default)]
struct DescribedSymbols {
    objects: Vec<bool>,
    functions: Vec<bool>,
}

impl DescribedSymbols {
    fn leave_out(&mut self, part: &mut Table<'_>) {
        self.objects.resize(part.objects.len(), false);
        self.functions.resize(part.functions.len(), false);
        for (number, is_described) in part.objects.iter_mut().zip(&mut self.objects) {
            *number = if *is_described { 0 } else { *number };
            *is_described |= *number != 0;
        }
        for (function, is_described) in part.functions.iter_mut().zip(&mut self.functions) {
            *function = function.take().filter(|_| !*is_described);
            *is_described |= function.is_some();
        }
    }
}

impl Parts<'_, '_> {
    /// The bytes of the parent, or of a child with its own types over the parent.
    fn bytes(&mut self, parents: &[u32], own: &[u32], parent: Option<&Vec<u8>>) -> Result<Vec<u8>> {
        let mut part = self.table.clone();
        let order: Vec<u32> = parents.iter().chain(own).copied().collect();
        part.keep(&order);
        self.described.leave_out(&mut part);
        if parent.is_some() {
            part.bases = parents.len() as u32;
            part.parent_name = Cow::Borrowed(PARENT.as_bytes());
        }
        let symbols = match self.symbols.table {
            SymbolTable::Names => keep_described(&mut part, self.symbols.clone()),
            _ => self.symbols.clone(),
        };
        let (parent, has_own_parent) = (parent.cloned(), false);
        let mut made = Dictionary { table: part, symbols, parent, has_own_parent, plain: None };
        let bytes = made.checked_bytes(self.image, self.output)?;
        self.losses.append(&mut made.table.losses);
        Ok(bytes)
    }
}
