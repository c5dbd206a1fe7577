//! The offsets of members in a struct or union, and the holes between them; in bits, unless noted.

use super::catalog::{Catalog, Number, Part};
use ctfd::Kind;

/// A member with its place.
#[derive(Clone, Copy, Debug)]
pub struct Place<'d> {
    pub part: Part<'d>,
    /// Its offset.
    pub start: u128,
    /// Its width; 0 if it has no size.
    pub bits: u128,
    /// The unused bits before it.
    pub gap: u128,
    /// Its width, if it is a bit-field.
    pub width: Option<u64>,
}

impl Place<'_> {
    /// The unused whole bytes before it.
    pub fn hole(&self) -> u128 {
        (self.gap - self.bit_hole()) / 8
    }

    /// The unused bits before it that are no whole byte, next to a bit-field.
    pub fn bit_hole(&self) -> u128 {
        if self.width.is_some() && self.gap < 8 {
            self.gap
        } else {
            self.gap % 8
        }
    }
}

/// The layout of a struct or union.
#[derive(Clone, Debug, Default)]
pub struct Layout<'d> {
    /// Its size in bytes.
    pub size: u64,
    /// Its members in order.
    pub places: Vec<Place<'d>>,
    /// The unused bits after the last member.
    pub padding: u128,
}

impl<'d> Layout<'d> {
    /// The layout of a type.
    pub fn of(catalog: &Catalog<'d>, number: Number) -> Layout<'d> {
        let is_struct = catalog.kind(number) == Kind::Struct;
        let size = catalog.size(number).unwrap_or(0);
        let mut places: Vec<Place<'d>> = Vec::with_capacity(catalog.members(number).len());
        let mut end = 0;
        for &part in catalog.members(number) {
            let span = catalog.span(part.of);
            let start = u128::from(part.offset) + u128::from(span.lies);
            let gap = if is_struct { start.saturating_sub(end) } else { 0 };
            places.push(Place { part, start, bits: span.bits, gap, width: span.width });
            end = end.max(start + span.bits);
        }
        let is_padded = is_struct && !places.is_empty();
        let padding = if is_padded { (8 * u128::from(size)).saturating_sub(end) } else { 0 };
        Layout { size, places, padding }
    }

    /// The sizes of the holes between members, in bytes.
    pub fn holes(&self) -> impl Iterator<Item = u128> + '_ {
        self.places.iter().map(Place::hole).filter(|&hole| hole != 0)
    }

    /// The sizes of the holes that are no whole byte.
    pub fn bit_holes(&self) -> impl Iterator<Item = u128> + '_ {
        self.places.iter().map(Place::bit_hole).filter(|&hole| hole != 0)
    }
}
