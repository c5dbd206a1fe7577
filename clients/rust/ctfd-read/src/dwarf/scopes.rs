//! The entries of a unit, of its functions, and of their blocks.
//!
//! Several threads walk a unit that is most of a program, each from another entry at the top level;
//! attributes of siblings lead to these. If a thread does not arrive at the entry where the next
//! one began, the siblings are wrong, and one thread walks the whole unit.

use crate::dwarf::names::{self, Language};
use crate::dwarf::units::{behind, entries_behind, Unit};
use crate::error::Result;
use gimli::{constants as dw, Abbreviation, AttributeValue, DwAt, DwForm, DwTag, UnitOffset};
use rayon::prelude::*;

/// The entries of a unit, function or block that begins at an offset.
pub struct Scope {
    pub offset: UnitOffset,
    pub entries: Vec<Listed>,
    /// Whether it is a class, whose functions and objects are described elsewhere.
    is_class: bool,
}

/// An entry: its offset and its tag.
pub struct Listed {
    pub offset: UnitOffset,
    pub tag: DwTag,
    /// The offset of an argument's type, if it is in the same unit; else 0.
    of: u32,
}

impl Listed {
    /// The offset of an argument's type; `None` if its entry has to be read for that.
    pub fn type_offset(&self) -> Option<UnitOffset> {
        (self.of != 0).then_some(UnitOffset(self.of as usize))
    }
}

impl Scope {
    fn new(offset: UnitOffset, tag: DwTag) -> Scope {
        let is_class = tag != dw::DW_TAG_namespace && names::is_scope(tag);
        Scope { offset, entries: Vec::new(), is_class }
    }
}

/// The entries of the unit, its functions and their blocks, ordered by where these begin: types
/// that are looked up by name, objects, functions and arguments. In C++ and Rust also those of
/// namespaces and classes. At most `threads` threads walk the unit.
pub fn scopes(unit: &Unit<'_>, language: Language, threads: usize) -> Result<Vec<Scope>> {
    let mut raw = unit.inner.entries_raw(None)?;
    let offset = raw.next_offset();
    let shape = if raw.is_empty() { None } else { raw.read_abbreviation()? };
    let Some(shape) = shape.filter(|shape| shape.has_children()) else { return Ok(Vec::new()) };
    raw.skip_attributes(shape.attributes())?;
    let walk = |from: UnitOffset, until: Option<UnitOffset>| {
        Walk::new(unit, language, Scope::new(offset, shape.tag())).through(from, until)
    };
    let first = raw.next_offset();
    let starts = beginnings(unit, first, threads);
    if starts.len() > 1 {
        if let Some(made) = in_pieces(&starts, walk)? {
            return Ok(made);
        }
    }
    Ok(walk(first, None)?.unwrap_or_default())
}

/// Entries at the top level at about equal distances, at which threads begin; the first entry is
/// one of them.
fn beginnings(unit: &Unit<'_>, first: UnitOffset, threads: usize) -> Vec<UnitOffset> {
    let (mut made, mut last) = (vec![first], first);
    let step = unit.bytes() / threads.max(1);
    if threads < 2 {
        return made;
    }
    let Ok(mut raw) = unit.inner.entries_raw(Some(first)) else { return made };
    while !raw.is_empty() {
        let offset = raw.next_offset();
        if offset.0 - last.0 >= step {
            made.push(offset);
            last = offset;
        }
        let Ok(Some(shape)) = raw.read_abbreviation() else { break };
        match behind(shape, &mut raw) {
            Ok(Some(behind)) => match entries_behind(unit, &raw, behind) {
                Ok(next) => raw = next,
                Err(_) => break,
            },
            Ok(None) if !shape.has_children() => {}
            _ => break,
        }
    }
    made
}

/// Walks in parallel from each of these entries, and joins the scopes found; `None` if a walk does
/// not end where the next began.
fn in_pieces(
    starts: &[UnitOffset],
    walk: impl Fn(UnitOffset, Option<UnitOffset>) -> Result<Option<Vec<Scope>>> + Sync,
) -> Result<Option<Vec<Scope>>> {
    let piece = |place: usize| walk(starts[place], starts.get(place + 1).copied());
    let found: Vec<_> = (0..starts.len()).into_par_iter().map(piece).collect();
    let mut made: Vec<Scope> = Vec::new();
    for piece in found {
        let Some(mut piece) = piece? else { return Ok(None) };
        if made.is_empty() {
            made = piece;
        } else {
            made[0].entries.append(&mut piece[0].entries);
            made.extend(piece.into_iter().skip(1));
        }
    }
    Ok(Some(made))
}

/// A walk through entries of a unit, with the scopes found.
struct Walk<'u, 'a> {
    unit: &'u Unit<'a>,
    is_scoped: bool,
    made: Vec<Scope>,
    /// The scopes around `inner`.
    outer: Vec<Option<usize>>,
    /// The scope of the next entry; `None` within an entry that is no scope.
    inner: Option<usize>,
}

impl<'u, 'a> Walk<'u, 'a> {
    fn new(unit: &'u Unit<'a>, language: Language, whole: Scope) -> Walk<'u, 'a> {
        let is_scoped = language == Language::Scoped;
        Walk { unit, is_scoped, made: vec![whole], outer: Vec::new(), inner: Some(0) }
    }

    /// Walks from an entry at the top level to the end of the unit, or to `until`; `None` if it
    /// does not arrive there.
    fn through(
        mut self,
        from: UnitOffset,
        until: Option<UnitOffset>,
    ) -> Result<Option<Vec<Scope>>> {
        let mut raw = self.unit.inner.entries_raw(Some(from))?;
        while !raw.is_empty() {
            let offset = raw.next_offset();
            if self.outer.is_empty() && until.is_some_and(|until| offset >= until) {
                return Ok((until == Some(offset)).then_some(self.made));
            }
            let Some(shape) = raw.read_abbreviation()? else {
                match self.outer.pop() {
                    Some(outer) => self.inner = outer,
                    None => break,
                }
                continue;
            };
            if let Some(behind) = self.pass(offset, shape, &mut raw)? {
                raw = entries_behind(self.unit, &raw, behind)?;
            }
        }
        Ok(until.is_none().then_some(self.made))
    }

    /// Skips the attributes of an entry, and lists the entry if it may be needed. Returns the
    /// offset of its sibling if its children are skipped.
    fn pass(
        &mut self,
        offset: UnitOffset,
        shape: &Abbreviation,
        raw: &mut Entries<'_, '_>,
    ) -> Result<Option<UnitOffset>> {
        let (mut sibling, mut is_local, mut of) = (None, false, 0);
        if let Some(place) = location_of_local(shape) {
            is_local = !has_address(shape, place, raw)?;
        } else if let Some(place) = type_of_argument(shape) {
            of = argument_type(shape, place, raw)?;
        } else {
            sibling = behind(shape, raw)?;
        }
        if let Some(scope) = self.inner.filter(|_| !is_local) {
            if is_listed(shape, self.made[scope].is_class) {
                self.made[scope].entries.push(Listed { offset, tag: shape.tag(), of });
            }
        }
        if !shape.has_children() {
            return Ok(None);
        }
        let is_scope = matches!(shape.tag(), dw::DW_TAG_subprogram | dw::DW_TAG_lexical_block)
            || self.is_scoped && names::is_scope(shape.tag());
        if is_scope {
            self.outer.push(self.inner.replace(self.made.len()));
            self.made.push(Scope::new(offset, shape.tag()));
        } else if sibling.is_none() {
            self.outer.push(self.inner.take());
        }
        Ok(sibling.filter(|_| !is_scope))
    }
}

type Entries<'u, 'a> = gimli::EntriesRaw<'u, 'u, crate::dwarf::units::Slice<'a>>;

/// The index, among the attributes of a shape, of the location that decides whether a variable is
/// an object; `None` if something else decides.
fn location_of_local(shape: &Abbreviation) -> Option<usize> {
    if shape.tag() != dw::DW_TAG_variable || shape.has_children() {
        return None;
    }
    let mut found = None;
    for (place, spec) in shape.attributes().iter().enumerate() {
        match spec.name() {
            dw::DW_AT_external | dw::DW_AT_specification | dw::DW_AT_abstract_origin => {
                return None
            }
            dw::DW_AT_location if is_block(spec.form()) => found = Some(place),
            _ => {}
        }
    }
    found
}

/// Skips attributes, of which the one at an index is a location. Returns whether the location
/// begins with an address.
fn has_address(shape: &Abbreviation, place: usize, raw: &mut Entries<'_, '_>) -> Result<bool> {
    let specs = shape.attributes();
    raw.skip_attributes(&specs[..place])?;
    let location = raw.read_attribute(specs[place])?.raw_value();
    raw.skip_attributes(&specs[place + 1..])?;
    let first = match location {
        AttributeValue::Exprloc(found) => found.0.slice().first(),
        AttributeValue::Block(found) => found.slice().first(),
        _ => None,
    };
    Ok(first.is_some_and(|&first| {
        matches!(dw::DwOp(first), dw::DW_OP_addr | dw::DW_OP_addrx | dw::DW_OP_GNU_addr_index)
    }))
}

/// The index, among the attributes of a shape, of the type of an argument without children.
fn type_of_argument(shape: &Abbreviation) -> Option<usize> {
    if shape.tag() != dw::DW_TAG_formal_parameter || shape.has_children() {
        return None;
    }
    shape.attributes().iter().position(|one| one.name() == dw::DW_AT_type)
}

/// Skips attributes, of which the one at an index is a type. Returns the offset of the type in the
/// unit; 0 if it is elsewhere.
fn argument_type(shape: &Abbreviation, place: usize, raw: &mut Entries<'_, '_>) -> Result<u32> {
    let specs = shape.attributes();
    raw.skip_attributes(&specs[..place])?;
    let of = raw.read_attribute(specs[place])?.raw_value();
    raw.skip_attributes(&specs[place + 1..])?;
    Ok(match of {
        AttributeValue::UnitRef(at) => u32::try_from(at.0).unwrap_or(0),
        _ => 0,
    })
}

/// Whether entries of a shape may be needed: of variables those that may be objects, of enums those
/// that name something.
fn is_listed(shape: &Abbreviation, is_in_class: bool) -> bool {
    let form =
        |name: DwAt| shape.attributes().iter().find(|one| one.name() == name).map(|one| one.form());
    let has = |name: DwAt| form(name).is_some();
    match shape.tag() {
        dw::DW_TAG_structure_type | dw::DW_TAG_class_type | dw::DW_TAG_union_type => {
            has(dw::DW_AT_name) || has(dw::DW_AT_specification)
        }
        dw::DW_TAG_typedef | dw::DW_TAG_template_alias | dw::DW_TAG_base_type => {
            has(dw::DW_AT_name)
        }
        dw::DW_TAG_enumeration_type => shape.has_children() || has(dw::DW_AT_name),
        _ if is_in_class => false,
        dw::DW_TAG_variable => {
            has(dw::DW_AT_external)
                || has(dw::DW_AT_specification)
                || form(dw::DW_AT_location).is_some_and(is_block)
        }
        dw::DW_TAG_subprogram
        | dw::DW_TAG_formal_parameter
        | dw::DW_TAG_unspecified_parameters
        | dw::DW_TAG_imported_unit => true,
        _ => false,
    }
}

fn is_block(form: DwForm) -> bool {
    matches!(
        form,
        dw::DW_FORM_block1
            | dw::DW_FORM_block2
            | dw::DW_FORM_block4
            | dw::DW_FORM_block
            | dw::DW_FORM_exprloc
    )
}
