//! Figures of structs and unions: sizes, members, holes, padding, and what a better order saves.

use super::catalog::{Catalog, Number};
use super::failure::Outcome;
use super::layout::{Layout, Place};
use super::names::Names;
use ctfd::Kind;
use std::cell::RefCell;
use std::cmp::Reverse;
use std::collections::{BTreeSet, HashMap};
use std::io::Write;

const COLUMNS: &str = "   bytes members   holes in holes padding   saves  type";

/// The figures of a struct or union; all are in bytes, except counts.
pub struct Figures {
    pub number: Number,
    /// Its name in messages.
    pub label: String,
    /// Its size.
    pub size: u64,
    /// The number of members.
    pub members: usize,
    /// The number of holes between members.
    pub holes: usize,
    /// The bytes in these holes.
    pub in_holes: u128,
    /// The number of holes that are no whole byte.
    pub bit_holes: usize,
    /// The bytes after the last member.
    pub padding: u128,
    /// How much smaller it would be if there were no holes between members.
    pub saved: u128,
}

/// The order of figures.
#[derive(Clone, Copy, Debug, PartialEq, Eq)]
pub enum Order {
    /// The greatest size first.
    Size,
    /// The most bytes in holes first.
    Holes,
    Name,
}

impl Order {
    /// Its words on a command line.
    pub const WORDS: &'static str = "size|holes|name";

    /// The order that a word names.
    pub fn of_word(word: &str) -> Order {
        match word {
            "holes" => Order::Holes,
            "name" => Order::Name,
            _ => Order::Size,
        }
    }

    /// Sorts figures.
    pub fn sort(self, listed: &mut [Figures]) {
        match self {
            Order::Size => listed.sort_by(|one, other| key_of_size(one).cmp(&key_of_size(other))),
            Order::Holes => {
                listed.sort_by(|one, other| key_of_holes(one).cmp(&key_of_holes(other)))
            }
            Order::Name => listed.sort_by(|one, other| one.label.cmp(&other.label)),
        }
    }
}

fn key_of_size(one: &Figures) -> (Reverse<u64>, &str) {
    (Reverse(one.size), &one.label)
}

fn key_of_holes(one: &Figures) -> (Reverse<u128>, Reverse<usize>, &str) {
    (Reverse(one.in_holes), Reverse(one.holes), &one.label)
}

/// The figures of a catalog's types, with a cache of their alignments in C.
pub struct Sizes<'s, 'd> {
    names: &'s Names<'s, 'd>,
    alignments: RefCell<HashMap<Number, u64>>,
}

impl<'s, 'd> Sizes<'s, 'd> {
    /// The figures of a catalog's types.
    pub fn new(names: &'s Names<'s, 'd>) -> Sizes<'s, 'd> {
        Sizes { names, alignments: RefCell::default() }
    }

    fn catalog(&self) -> &'s Catalog<'d> {
        self.names.catalog
    }

    /// The figures of a struct or union.
    pub fn figures(&self, number: Number) -> Figures {
        let whole = Layout::of(self.catalog(), number);
        Figures {
            number,
            label: self.names.label(number),
            size: whole.size,
            members: whole.places.len(),
            holes: whole.holes().count(),
            in_holes: whole.holes().sum(),
            bit_holes: whole.bit_holes().count(),
            padding: whole.padding / 8,
            saved: self.saving(number, &whole),
        }
    }

    /// The figures of the structs and unions with the wanted names, sorted.
    pub fn sorted_figures(
        &self,
        patterns: &[Vec<u8>],
        least: i64,
        order: Order,
    ) -> Outcome<Vec<Figures>> {
        let all = self.catalog().aggregates();
        let chosen = match patterns {
            [] => all.collect(),
            patterns => self.names.matching(patterns, all)?,
        };
        let mut listed: Vec<Figures> = chosen.into_iter().map(|n| self.figures(n)).collect();
        listed.retain(|one| u128::try_from(least).map_or(true, |least| one.in_holes >= least));
        order.sort(&mut listed);
        Ok(listed)
    }

    /// The alignment of a type in C: the greatest of all that it contains by value.
    pub fn alignment(&self, number: Number) -> u64 {
        let whole = self.catalog().underlying(number).number;
        let mut known = self.alignments.borrow_mut();
        let mut todo = vec![whole]; // no recursion: types may be nested deep
        while let Some(&here) = todo.last() {
            let inner = self.inner(here);
            let before = todo.len();
            todo.extend(inner.iter().filter(|one| !known.contains_key(one)));
            if todo.len() == before {
                let greatest = inner.iter().map(|one| known[one]).max();
                known.insert(here, greatest.unwrap_or_else(|| self.plain_alignment(here)));
                todo.pop();
            }
        }
        known[&whole]
    }

    /// The types of the members of a struct or union, or of their elements.
    fn inner(&self, number: Number) -> BTreeSet<Number> {
        let members = self.catalog().members(number).iter();
        members.map(|part| self.catalog().underlying(part.of).number).collect()
    }

    /// The alignment of a number: the greatest power of two up to 16 that divides its size.
    fn plain_alignment(&self, number: Number) -> u64 {
        if self.catalog().record(number).is_aggregate() {
            return 1;
        }
        let size = self.catalog().size(number).filter(|&size| size != 0).unwrap_or(1);
        [16, 8, 4, 2].into_iter().find(|power| size % power == 0).unwrap_or(1)
    }

    /// How much smaller a struct would be without holes, with its end aligned.
    fn saving(&self, number: Number, whole: &Layout<'_>) -> u128 {
        let has_holes = whole.places.iter().any(|place| place.gap != 0);
        if self.catalog().kind(number) != Kind::Struct || !has_holes {
            return 0;
        }
        let align = u128::from(self.alignment(number));
        let least = close(&whole.places).div_ceil(align) * align;
        u128::from(whole.size).saturating_sub(least)
    }
}

/// The sum of the members' bytes; consecutive bit-fields share theirs.
fn close(places: &[Place<'_>]) -> u128 {
    let (mut bytes, mut run): (u128, u128) = (0, 0);
    for place in places {
        match place.width {
            Some(_) => run += place.bits,
            None => {
                bytes += run.div_ceil(8) + place.bits / 8;
                run = 0;
            }
        }
    }
    bytes + run.div_ceil(8)
}

/// Prints a line for each, after one with the names of the columns.
pub fn table(listed: &[Figures], output: &mut dyn Write) -> Outcome<()> {
    writeln!(output, "{COLUMNS}")?;
    for one in listed {
        writeln!(
            output,
            "{:>8} {:>7} {:>7} {:>8} {:>7} {:>7}  {}",
            one.size, one.members, one.holes, one.in_holes, one.padding, one.saved, one.label
        )?;
    }
    Ok(())
}
