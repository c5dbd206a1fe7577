//! Debug information in DWARF, versions 2 to 5.

mod classes;
pub mod collector;
mod groups;
mod imports;
mod line;
pub mod names;
mod plain_unit;
pub mod scopes;
pub mod sections;
pub mod tags;
pub mod types;
mod unit_types;
pub mod units;
