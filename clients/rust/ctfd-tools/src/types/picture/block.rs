//! A box of a picture, and its texts.

use crate::types::drawing;

/// A box: `start` and `bits` are in bits, `top` and `high` parts of a row's height.
#[derive(Clone, Debug)]
pub struct Block {
    /// The class of its type, or `group`, `hole` or `padding`.
    pub sort: &'static str,
    pub name: String,
    pub of: String,
    pub start: u128,
    pub bits: u128,
    pub top: f64,
    pub high: f64,
    /// The part of `high` for a group's name.
    pub strip: f64,
}

impl Block {
    pub fn end(&self) -> u128 {
        self.start + self.bits
    }

    pub fn is_unused(&self) -> bool {
        matches!(self.sort, "hole" | "padding")
    }

    /// The name without those of the members that contain it.
    pub fn label(&self) -> &str {
        self.name.rsplit('.').next().unwrap_or_default()
    }

    /// The full name if there is room for it, else the last part.
    pub fn name_within(&self, wide: f64) -> &str {
        match drawing::cut(&self.name, wide) == self.name {
            true => &self.name,
            false => self.label(),
        }
    }

    /// The description of the box.
    pub fn description(&self) -> String {
        let (byte, bit) = (self.start / 8, self.start % 8);
        let at = match bit != 0 || self.bits % 8 != 0 {
            true => format!("{byte}:{bit}"),
            false => byte.to_string(),
        };
        let size = amount(self.bits);
        match self.of.is_empty() {
            true => format!("{} of {size}, at {at}", self.name),
            false => format!("{}: {}, at {at}, {size}", self.name, self.of),
        }
    }
}

/// An amount of bits, in bytes if it is whole.
fn amount(bits: u128) -> String {
    let (count, unit) = if bits % 8 == 0 { (bits / 8, "byte") } else { (bits, "bit") };
    match count {
        1 => format!("1 {unit}"),
        _ => format!("{count} {unit}s"),
    }
}
