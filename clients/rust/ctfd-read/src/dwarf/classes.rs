//! Classes of C++ and types of Rust, as structs of C: their sizes, data members and bases, with the
//! offsets of these. What C cannot express is recorded as a loss.

use crate::dwarf::types::{is_of_class, location, natural, size, Reader};
use crate::dwarf::units::Entry;
use crate::error::Result;
use crate::table::{Kind, Member, Parts, Record};
use gimli::constants as dw;
use std::borrow::Cow;

const METHODS: &str =
    "a class with functions of its own: a struct of C has none; its data members \
                       and bases stand there";
const VIRTUAL: &str =
    "a class with a virtual base: where that is in it is known only as the program \
                       runs; it is left out";
const VARIANTS: &str =
    "a type with variants: C has none; its size and the members that all variants \
                        have stand there";
const REFERENCE: &str = "a reference: C has none; a pointer stands in its place";
const OF_MEMBER: &str =
    "a pointer to a member of a class: C has none; an unnamed struct of its size \
                         stands in its place";

impl<'d, 'a> Reader<'d, 'a> {
    /// Reads a type of C++ or Rust that C does not have. Returns whether the record is complete.
    pub(super) fn read_beyond_c(
        &mut self,
        entry: &Entry<'d, 'a>,
        made: &mut Record<'a>,
    ) -> Result<bool> {
        match entry.tag {
            dw::DW_TAG_structure_type | dw::DW_TAG_class_type | dw::DW_TAG_union_type
                if !entry.has(dw::DW_AT_declaration) =>
            {
                made.size = size(entry)?.unwrap_or(0);
                made.parts = Parts::Members(self.class_members(entry)?);
            }
            dw::DW_TAG_reference_type | dw::DW_TAG_rvalue_reference_type => {
                self.lost(REFERENCE);
                return Ok(false);
            }
            dw::DW_TAG_ptr_to_member_type => {
                self.lost(OF_MEMBER);
                let of = self.debug.target(entry, dw::DW_AT_type)?;
                let is_function = of.is_some_and(|of| of.tag == dw::DW_TAG_subroutine_type);
                let pointer = u64::from(entry.unit.inner.encoding().address_size);
                *made = Record::new(Kind::Struct, Cow::Borrowed(b""));
                made.size = if is_function { 2 * pointer } else { pointer };
            }
            dw::DW_TAG_base_type if size(entry)? == Some(0) => {
                // Types of Rust with one value, or none.
                made.kind = Kind::Struct;
                made.tag = Kind::Struct;
            }
            _ => return Ok(false),
        }
        Ok(true)
    }

    /// The data members of a class, and its bases as members with the names of their classes.
    fn class_members(&mut self, entry: &Entry<'d, 'a>) -> Result<Box<[Member<'a>]>> {
        let mut made = Vec::new();
        let mut lost = Vec::new();
        for one in entry.children()? {
            let one = one?;
            match one.tag {
                dw::DW_TAG_member
                    if !one.has(dw::DW_AT_external) && !one.has(dw::DW_AT_declaration) =>
                {
                    made.push(self.member(entry, &one)?);
                }
                dw::DW_TAG_inheritance if one.has(dw::DW_AT_virtuality) => lost.push(VIRTUAL),
                dw::DW_TAG_inheritance => made.push(self.base_class(&one)?),
                dw::DW_TAG_subprogram => lost.push(METHODS),
                dw::DW_TAG_variant_part => lost.push(VARIANTS),
                tag if !is_of_class(tag) => self.lost_part(entry, &one)?,
                _ => {}
            }
        }
        lost.sort_unstable();
        lost.dedup();
        lost.into_iter().for_each(|line| self.lost(line));
        Ok(made.into())
    }

    fn base_class(&mut self, entry: &Entry<'d, 'a>) -> Result<Member<'a>> {
        let mut base = self.debug.target(entry, dw::DW_AT_type)?;
        for name in [dw::DW_AT_signature, dw::DW_AT_specification] {
            let further = base.as_ref().map(|one| self.debug.target(one, name)).transpose()?;
            base = further.flatten().or(base);
        }
        let name = match base {
            Some(base) => self.debug.name(&base)?,
            None => Cow::Borrowed(&b""[..]),
        };
        let offset = natural(8 * location(entry)?)?;
        Ok(Member { name, of: self.of(entry)?, offset, width: None })
    }
}
