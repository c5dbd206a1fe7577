//! The types of a C program, from a CTF dictionary (version 2), in process.
//!
//! [`Dictionary::open`] checks a dictionary in full, and refuses it for any fault. The library
//! `libctfd.a` answers all further calls; it is proved to give the answers that the format defines.
//! This crate wraps them in types that cannot outlive their dictionary.
//!
//! ```
//! use ctfd::{Dictionary, Kind};
//!
//! # fn main() -> Result<(), Box<dyn std::error::Error>> {
//! let types = Dictionary::open(&std::fs::read("../../../examples/lua.ctf")?)?;
//! let node = types.find("struct luaL_Reg")?;
//! assert_eq!(node.kind(), Kind::Struct);
//! assert_eq!(node.size()?, 16);
//! let lines: Vec<String> = node
//!     .members()?
//!     .map(|member| format!("{}: {}", member.offset / 8, member))
//!     .collect();
//! assert_eq!(lines, ["0: const char *name", "8: lua_CFunction func"]);
//! # Ok(())
//! # }
//! ```
//!
//! Sizes and alignments are in bytes, offsets in bits. Errors are of the type [`Refusal`]: a
//! [`Fault`], with its name in docs/FAULTS.md, and its place.
//!
//! ```
//! use ctfd::{Dictionary, Fault};
//!
//! let refused = Dictionary::open(b"\xf1\xcf\x03\0").unwrap_err();
//! assert_eq!(refused.fault, Fault::BadVersion);
//! ```
//!
//! A type borrows its dictionary, so it can't outlive it:
//!
//! ```compile_fail,E0505
//! let types = ctfd::Dictionary::open(&[]).unwrap();
//! let found = types.find("int").unwrap();
//! drop(types);
//! println!("{found}");
//! ```
//!
//! A dictionary may move to another thread, but only one thread can use it at a time:
//!
//! ```
//! let types = ctfd::Dictionary::open(&std::fs::read("../../../examples/lua.ctf").unwrap()).unwrap();
//! let count = std::thread::spawn(move || types.count()).join().unwrap();
//! assert_eq!(count, 526);
//! ```
//!
//! ```compile_fail,E0277
//! let types = ctfd::Dictionary::open(&[]).unwrap();
//! std::thread::scope(|scope| scope.spawn(|| types.count()).join());
//! ```

mod apart;
mod calls;
mod declaration;
mod dictionary;
mod draft;
mod faults;
mod input_lists;
mod lists;
mod names;
mod raw;
mod service;
mod types;
mod visits;

pub use declaration::Declaration;
pub use dictionary::{Dictionary, Function, Label, Labels, Model, Options, Types};
pub use draft::{Draft, NewName};
pub use faults::{Fault, Refusal};
pub use lists::{Arguments, Enumerator, Enumerators, Member, Members};
pub use names::Name;
pub use raw::{EnumeratorRow, LabelRow, MemberRow, SymbolRow, TypeRow, VisitRow};
pub use service::Service;
pub use types::{Array, Encoding, Kind, Type};
pub use visits::{VisitedType, Visits};
