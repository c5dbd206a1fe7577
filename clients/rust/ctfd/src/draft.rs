//! Drafts: dictionaries to which types are added.

use crate::apart::apart;
use crate::dictionary::{Dictionary, Model};
use crate::faults::{outcome_of, told_at, Refusal};
use crate::raw;
use crate::types::{Encoding, Kind};
use std::ops::Deref;

/// The name of a new type, and whether look-ups by name find the type. A `&str` is visible.
#[derive(Clone, Copy, Debug)]
pub struct NewName<'a> {
    name: &'a [u8],
    root: bool,
}

impl<'a> NewName<'a> {
    /// The name of a type that look-ups by name find.
    pub fn visible(name: &'a [u8]) -> NewName<'a> {
        NewName { name, root: true }
    }

    /// The name of a type that look-ups by name do not find.
    pub fn hidden(name: &'a [u8]) -> NewName<'a> {
        NewName { name, root: false }
    }
}

impl<'a> From<&'a str> for NewName<'a> {
    fn from(name: &'a str) -> NewName<'a> {
        NewName::visible(name.as_bytes())
    }
}

/// A dictionary to which you add types. Additions are pending until [`update`](Draft::update); all
/// methods of [`Dictionary`] see the types of the last update. Types are passed and returned as
/// numbers; 0 is no type.
///
/// ```
/// use ctfd::{Draft, Encoding, Model};
///
/// # fn main() -> Result<(), ctfd::Refusal> {
/// let mut draft = Draft::new(Model::Lp64)?;
/// let int = draft.integer("int", Encoding { encoding: 1, offset: 0, bits: 32 }, 4)?;
/// let point = draft.structure("point", 0)?;
/// draft.member(point, "x", int, None)?;
/// draft.member(point, "y", int, None)?;
/// draft.update()?;
/// assert_eq!(draft.find("struct point")?.size()?, 8);
/// # Ok(())
/// # }
/// ```
#[derive(Debug)]
pub struct Draft<'b>(Dictionary<'b>);

impl<'b> Deref for Draft<'b> {
    type Target = Dictionary<'b>;

    fn deref(&self) -> &Dictionary<'b> {
        &self.0
    }
}

macro_rules! adds_a_reference {
    ($(#[$what:meta])* $name:ident, $call:ident) => {
        $(#[$what])*
        pub fn $name<'a>(&mut self, named: impl Into<NewName<'a>>, to: u16) -> Result<u16, Refusal> {
            let NewName { name, root } = named.into();
            // SAFETY: as `add_type` says; the name lives for the call.
            self.add_type(|handle, t| unsafe {
                raw::$call(handle, name.as_ptr(), name.len(), root, to, t)
            })
        }
    };
}

macro_rules! adds_with_a_size {
    ($(#[$what:meta])* $name:ident, $call:ident) => {
        $(#[$what])*
        pub fn $name<'a>(
            &mut self,
            named: impl Into<NewName<'a>>,
            size: u64,
        ) -> Result<u16, Refusal> {
            let NewName { name, root } = named.into();
            // SAFETY: as `add_type` says; the name lives for the call.
            self.add_type(|handle, t| unsafe {
                raw::$call(handle, name.as_ptr(), name.len(), root, size, t)
            })
        }
    };
}

macro_rules! adds_with_an_encoding {
    ($(#[$what:meta])* $name:ident, $call:ident) => {
        $(#[$what])*
        pub fn $name<'a>(
            &mut self,
            named: impl Into<NewName<'a>>,
            encoding: Encoding,
            size: u64,
        ) -> Result<u16, Refusal> {
            let (NewName { name, root }, is) = (named.into(), encoding);
            // SAFETY: as `add_type` says; the name lives for the call.
            self.add_type(|handle, t| unsafe {
                let (at, len) = (name.as_ptr(), name.len());
                raw::$call(handle, at, len, root, is.encoding, is.offset, is.bits, size, t)
            })
        }
    };
}

impl<'b> Draft<'b> {
    /// An empty draft.
    pub fn new(model: Model) -> Result<Draft<'b>, Refusal> {
        let (made, mut place) = (Dictionary::none(), 0);
        // SAFETY: the handle is this value's own, as `Dictionary::handle` says.
        let status = unsafe { raw::ctfd_create(made.handle(), model == Model::Ilp32, &mut place) };
        told_at(status, place)?;
        Ok(Draft(made))
    }

    /// An empty draft over a parent, which stays for good. `name` and `label` are the names of the
    /// parent and of its label for the header.
    pub fn child(parent: &Dictionary<'b>, name: &str, label: &str) -> Result<Draft<'b>, Refusal> {
        let (mut made, own, mut place) = (Dictionary::none(), parent.again()?, 0);
        let label = apart(label.as_bytes(), &[name.as_bytes()]);
        // SAFETY: the handles are two, and nobody else borrows either. The texts live for the call
        // and share no byte. The parent's lists are kept from here on.
        let status = unsafe {
            raw::ctfd_create_child(
                made.handle(),
                own.handle(),
                name.as_ptr(),
                name.len(),
                label.as_ptr(),
                label.len(),
                &mut place,
            )
        };
        told_at(status, place)?;
        made.keep(own);
        Ok(Draft(made))
    }

    /// Adds a type by a call of ctfd.h, and returns the type's number. The call takes the handle,
    /// which is this value's own, as [`Dictionary::handle`] says, and a pointer for the number.
    fn add_type(
        &mut self,
        add: impl FnOnce(*mut raw::Handle, *mut u16) -> u32,
    ) -> Result<u16, Refusal> {
        let mut t = 0;
        outcome_of(add(self.0.handle(), &mut t))?;
        Ok(t)
    }

    adds_with_an_encoding!(
        /// Adds an integer type, with its size in bytes, and returns its number.
        integer,
        ctfd_add_integer
    );
    adds_with_an_encoding!(
        /// Adds a floating-point type, with its size in bytes, and returns its number.
        float,
        ctfd_add_float
    );
    adds_a_reference!(
        /// Adds a pointer to a type, and returns its number.
        pointer,
        ctfd_add_pointer
    );
    adds_a_reference!(
        /// Adds a typedef of a type, and returns its number.
        typedef,
        ctfd_add_typedef
    );
    adds_a_reference!(
        /// Adds a type with `volatile`, and returns its number.
        volatile,
        ctfd_add_volatile
    );
    adds_a_reference!(
        /// Adds a type with `const`, and returns its number.
        constant,
        ctfd_add_const
    );
    adds_a_reference!(
        /// Adds a type with `restrict`, and returns its number.
        restrict,
        ctfd_add_restrict
    );
    adds_with_a_size!(
        /// Adds a struct without members, and returns its number. The size is in bytes; members let
        /// it grow.
        structure,
        ctfd_add_struct
    );
    adds_with_a_size!(
        /// Adds a union without members, with its size in bytes, and returns its number.
        union,
        ctfd_add_union
    );
    adds_with_a_size!(
        /// Adds an enum without enumerators, with its size in bytes, and returns its number.
        enumeration,
        ctfd_add_enum
    );

    /// Adds an array of `count` elements of the type `contents`, and returns its number.
    pub fn array<'a>(
        &mut self,
        named: impl Into<NewName<'a>>,
        contents: u16,
        index: u16,
        count: u32,
    ) -> Result<u16, Refusal> {
        let NewName { name, root } = named.into();
        // SAFETY: as `add_type` says; what is borrowed lives for the call.
        self.add_type(|handle, t| unsafe {
            let (at, len) = (name.as_ptr(), name.len());
            raw::ctfd_add_array(handle, at, len, root, contents, index, count, t)
        })
    }

    /// Adds a function type, and returns its number. A last argument 0 means that more may follow.
    pub fn function<'a>(
        &mut self,
        named: impl Into<NewName<'a>>,
        returns: u16,
        arguments: &[u16],
    ) -> Result<u16, Refusal> {
        let NewName { name, root } = named.into();
        // SAFETY: as `add_type` says; what is borrowed lives for the call.
        self.add_type(|handle, t| unsafe {
            let (at, len) = (name.as_ptr(), name.len());
            let (args, args_len) = (arguments.as_ptr(), arguments.len());
            raw::ctfd_add_function(handle, at, len, root, returns, args, args_len, t)
        })
    }

    /// Adds a forward declaration of a struct, union or enum, and returns its number.
    pub fn forward<'a>(
        &mut self,
        named: impl Into<NewName<'a>>,
        tag: Kind,
    ) -> Result<u16, Refusal> {
        let NewName { name, root } = named.into();
        // SAFETY: as `add_type` says; what is borrowed lives for the call.
        self.add_type(|handle, t| unsafe {
            raw::ctfd_add_forward(handle, name.as_ptr(), name.len(), root, tag as u32, t)
        })
    }

    /// Adds a type of an unknown kind, and returns its number.
    pub fn unknown<'a>(&mut self, named: impl Into<NewName<'a>>) -> Result<u16, Refusal> {
        let NewName { name, root } = named.into();
        // SAFETY: as `add_type` says; what is borrowed lives for the call.
        self.add_type(|handle, t| unsafe {
            raw::ctfd_add_unknown(handle, name.as_ptr(), name.len(), root, t)
        })
    }

    /// Adds a member to a pending struct or union, at an offset in bits, or, without one, after its
    /// last member. Returns the member's offset in bits.
    pub fn member(
        &mut self,
        of: u16,
        name: &str,
        kind: u16,
        offset: Option<u64>,
    ) -> Result<u64, Refusal> {
        let mut at = 0;
        // SAFETY: as `add_type` says; the name lives for the call.
        outcome_of(unsafe {
            raw::ctfd_add_member(
                self.0.handle(),
                of,
                name.as_ptr(),
                name.len(),
                kind,
                offset.is_some(),
                offset.unwrap_or_default(),
                &mut at,
            )
        })?;
        Ok(at)
    }

    /// Adds a member to a pending struct or union, at an offset in bits, and sets the size of the
    /// struct or union, in bytes. The member's type may be incomplete; no member may begin past the
    /// end.
    pub fn member_at(
        &mut self,
        of: u16,
        name: &str,
        kind: u16,
        offset: u64,
        size: u64,
    ) -> Result<(), Refusal> {
        let (at, len) = (name.as_ptr(), name.len());
        // SAFETY: as `add_type` says; the name lives for the call.
        outcome_of(unsafe {
            raw::ctfd_add_member_at(self.0.handle(), of, at, len, kind, offset, size)
        })
    }

    /// Adds an enumerator to a pending enum.
    pub fn enumerator(&mut self, of: u16, name: &str, value: i32) -> Result<(), Refusal> {
        let (at, len) = (name.as_ptr(), name.len());
        // SAFETY: as `add_type` says; the name lives for the call.
        outcome_of(unsafe { raw::ctfd_add_enumerator(self.0.handle(), of, at, len, value) })
    }

    /// Adds a label that covers the types up to `last`.
    pub fn label(&mut self, name: &str, last: u32) -> Result<(), Refusal> {
        // SAFETY: as `add_type` says; the name lives for the call.
        outcome_of(unsafe { raw::ctfd_add_label(self.0.handle(), name.as_ptr(), name.len(), last) })
    }

    /// Writes all pending additions to the dictionary. If it is refused, they stay pending.
    pub fn update(&mut self) -> Result<(), Refusal> {
        let (mut types, mut place) = (0, 0);
        // SAFETY: as `add_type` says.
        let status = unsafe { raw::ctfd_update(self.0.handle(), &mut types, &mut place) };
        told_at(status, place)
    }

    /// Drops all pending additions.
    pub fn discard(&mut self) -> Result<(), Refusal> {
        let mut types = 0;
        // SAFETY: as `add_type` says.
        outcome_of(unsafe { raw::ctfd_discard(self.0.handle(), &mut types) })
    }

    /// The dictionary of the last update, opened anew, to which nothing can be added.
    pub fn into_dictionary(self) -> Result<Dictionary<'static>, Refusal> {
        Dictionary::open_with(
            &self.bytes(),
            crate::Options { model: self.model(), ..crate::Options::default() },
        )
    }
}
