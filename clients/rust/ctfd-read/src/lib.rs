//! Reads the types of C programs from their debug information, and makes CTF dictionaries.
//!
//! [`inputs::with_types`] reads a file of any form. [`gimli`] and [`rayon`] read the units of debug
//! information in parallel, each into records of its own; `join` makes one table of them, without
//! duplicates, and `limits` reduces it to what CTF can represent. [`dictionary`] makes a dictionary
//! of the table, alone or over a parent. `section` writes its bytes, which the proved library of
//! this project opens before anybody gets them.

mod archive;
pub mod baseline;
pub mod beside;
pub mod beyond;
mod btf;
mod bytes;
mod compressed;
pub mod core_file;
mod ctf;
pub mod debuggee;
pub mod declared;
mod descriptions;
pub mod dictionary;
mod dwarf;
mod elf;
pub mod elsewhere;
pub mod entry_symbols;
pub mod error;
pub mod exports;
pub mod foreign;
mod gnu;
mod gnu_symbols;
mod hashed;
pub mod image;
pub mod inputs;
mod join;
mod labels;
mod limits;
mod merge;
pub mod nearest;
pub mod opening;
pub mod parts;
pub mod progress;
mod section;
pub mod segments;
mod select;
mod slots;
mod sound;
mod spread;
pub mod symbol_places;
pub mod symbols;
pub mod table;
pub mod verify;
