//! Declares structs and unions so that a C compiler gives them the layout of the dictionary.
//!
//! The natural form is tried first, then attributes, then a packed form whose holes are members. If
//! none of these fits, the type is declared as bytes.

use super::abi::{self, Attributes, Basic, Field, Laid, Shape, BOOLEAN, SIGNED};
use crate::types::catalog::{Catalog, Number, Part, Record};
use ctfd::Kind;
use std::cell::RefCell;
use std::collections::HashMap;
use std::rc::Rc;

const BYTE: Shape = Shape::number(1);
const WORD: Shape = Shape::number(4);
const HIGHEST: u128 = 4096;

/// A member of a declaration: one of the record, or a hole.
#[derive(Clone, Copy, Debug)]
pub enum MemberForm<'d> {
    /// A member of the record, with its width if it is a bit-field.
    Part(Part<'d>, Option<u64>),
    /// A hole of so many bytes.
    Bytes(u128),
    /// A hole of so many bits.
    Bits(u64),
}

/// The form in which a struct or union is declared.
#[derive(Clone, Debug)]
pub struct Form<'d> {
    /// Its members; none if it is declared as bytes.
    pub members: Vec<MemberForm<'d>>,
    /// The attributes after the closing brace.
    pub attributes: Attributes,
    /// The shape that the compiler gives it.
    pub shape: Shape,
    /// Whether it has bytes in place of its members.
    pub is_bytes: bool,
}

impl Form<'_> {
    /// The attributes in C, after a blank if there are any.
    pub fn attribute(&self) -> String {
        let aligned = self.attributes.aligned.map(|align| format!("aligned({align})"));
        let words: Vec<String> = self
            .attributes
            .is_packed
            .then(|| "packed".to_owned())
            .into_iter()
            .chain(aligned)
            .collect();
        match words.is_empty() {
            true => String::new(),
            false => format!(" __attribute__(({}))", words.join(", ")),
        }
    }
}

/// The forms of a catalog's structs and unions, and the shapes that a compiler gives to its types.
pub struct Forms<'f, 'd> {
    catalog: &'f Catalog<'d>,
    is_ilp32: bool,
    basics: Vec<Basic>,
    forms: RefCell<HashMap<Number, Rc<Form<'d>>>>,
}

impl<'f, 'd> Forms<'f, 'd> {
    /// The forms for a catalog.
    pub fn new(catalog: &'f Catalog<'d>) -> Forms<'f, 'd> {
        let is_ilp32 = catalog.is_ilp32();
        Forms { catalog, is_ilp32, basics: abi::basics(is_ilp32), forms: RefCell::default() }
    }

    /// The form of a struct or union. All types that it contains must have one.
    pub fn form(&self, number: Number) -> Rc<Form<'d>> {
        if let Some(known) = self.forms.borrow().get(&number) {
            return known.clone();
        }
        let made = Rc::new(self.make(number));
        self.forms.borrow_mut().insert(number, made.clone());
        made
    }

    /// The shape of a type; None if it has no size in C.
    fn shape(&self, number: Number) -> Option<Shape> {
        let reached = self.catalog.underlying(number);
        let record = self.catalog.record(reached.number);
        let shape = match record.kind {
            Kind::Pointer => abi::pointer(self.is_ilp32),
            Kind::Enum => self.enumeration(reached.number).0,
            Kind::Integer | Kind::Float => self.basic(record, reached.number)?,
            Kind::Struct | Kind::Union => self.form(reached.number).shape,
            _ => return None,
        };
        Some(shape.times(reached.elements))
    }

    fn basic(&self, record: &Record<'_>, number: Number) -> Option<Shape> {
        if let Some(alike) = self.alike(record, number) {
            return Some(alike.shape);
        }
        let size = self.size(number);
        (size != 0).then(|| Shape::new(size, 1))
    }

    fn size(&self, number: Number) -> u128 {
        self.catalog.size(number).unwrap_or(0).into()
    }

    /// The shape of an enum, and whether it has to be packed.
    pub fn enumeration(&self, number: Number) -> (Shape, bool) {
        let values = self.catalog.values(number).iter().map(|one| one.value);
        let wanted = self.size(number);
        for is_packed in [false, true] {
            let shape = abi::enumeration(values.clone(), is_packed);
            if shape.size == wanted {
                return (shape, is_packed);
            }
        }
        (abi::enumeration(values, false), false)
    }

    /// The compiler's type for an integer or float: the one of its name if it has the right size,
    /// else one with its size and sign.
    pub fn alike(&self, record: &Record<'_>, number: Number) -> Option<&Basic> {
        let size = self.size(number);
        let own = self.basics.iter().find(|one| one.name.as_bytes() == record.name);
        let is_whole = |one: &&Basic| one.shape.size == size || is_narrow(record, size);
        if let Some(own) = own.filter(is_whole) {
            return Some(own);
        }
        let encoding = record.encoding.filter(|_| record.kind == Kind::Integer);
        let is_same = |one: &&Basic| match (one.flags, encoding) {
            (None, None) => true,
            (Some(flags), Some(lies)) => (flags ^ lies.encoding) & (SIGNED | BOOLEAN) == 0,
            _ => false,
        };
        let of_size = |one: &&Basic| one.shape.size == size && !one.name.contains("complex");
        self.basics.iter().filter(is_same).find(of_size)
    }

    fn make(&self, number: Number) -> Form<'d> {
        let record = self.catalog.record(number);
        let members = self.catalog.members(number);
        let size = self.size(number);
        let part = |part: &Part<'d>| MemberForm::Part(*part, self.catalog.span(part.of).width);
        let natural: Vec<MemberForm<'d>> = members.iter().map(part).collect();
        let bytes = Form {
            members: Vec::new(),
            attributes: Attributes::default(),
            shape: Shape::new(size, 1),
            is_bytes: true,
        };
        if members.iter().any(|part| self.shape(part.of).is_none()) {
            return bytes;
        }
        let plain = Attributes { is_union: record.kind == Kind::Union, ..Attributes::default() };
        let align = self.lay(&natural, plain).shape.align.min(lowest_bit(size));
        let candidates = std::iter::once((false, None))
            .chain(attributes(size))
            .map(|(is_packed, aligned)| (&natural, Attributes { is_packed, aligned, ..plain }));
        for (members, attributes) in candidates {
            if let Some(form) = self.fitting(size, members, attributes) {
                return form;
            }
        }
        let holes = self.with_holes(number);
        let aligned = (align > 1).then_some(align);
        let attributes = Attributes { is_packed: true, aligned, ..plain };
        self.fitting(size, &holes, attributes).unwrap_or(bytes)
    }

    /// A form, if a compiler would give it the layout of the dictionary.
    fn fitting(
        &self,
        size: u128,
        members: &[MemberForm<'d>],
        attributes: Attributes,
    ) -> Option<Form<'d>> {
        let laid = self.lay(members, attributes);
        let is_there = |(said, place): (&MemberForm<'_>, &u128)| match said {
            MemberForm::Part(part, _) => self.start(part) == *place,
            _ => true,
        };
        let fits = laid.shape.size == size && members.iter().zip(&laid.places).all(is_there);
        fits.then(|| Form {
            members: members.to_vec(),
            attributes,
            shape: laid.shape,
            is_bytes: false,
        })
    }

    fn lay(&self, members: &[MemberForm<'_>], attributes: Attributes) -> Laid {
        let fields: Vec<Field> = members.iter().map(|said| self.field(said)).collect();
        abi::lay(&fields, self.is_ilp32, attributes)
    }

    fn field(&self, said: &MemberForm<'_>) -> Field {
        match *said {
            MemberForm::Bytes(size) => {
                Field { is_named: true, shape: Shape { size, ..BYTE }, width: None }
            }
            MemberForm::Bits(width) => Field { is_named: true, shape: WORD, width: Some(width) },
            MemberForm::Part(part, width) => {
                let shape = self.shape(part.of).unwrap_or(BYTE);
                Field { is_named: !part.name.is_empty() || width.is_none(), shape, width }
            }
        }
    }

    fn start(&self, part: &Part<'_>) -> u128 {
        u128::from(part.offset) + u128::from(self.catalog.span(part.of).lies)
    }

    /// The members, with a member for each hole before them.
    fn with_holes(&self, number: Number) -> Vec<MemberForm<'d>> {
        let is_struct = self.catalog.kind(number) == Kind::Struct;
        let size = self.size(number);
        let (mut made, mut end) = (Vec::new(), 0);
        for part in self.catalog.members(number) {
            let span = self.catalog.span(part.of);
            let start = self.start(part);
            if is_struct {
                made.extend(holes(end, start));
                end = end.max(start + span.bits);
            }
            made.push(MemberForm::Part(*part, span.width));
        }
        if is_struct {
            made.extend(holes(end, 8 * size));
        } else {
            made.push(MemberForm::Bytes(size));
        }
        made
    }
}

/// The attributes to try: aligned, packed, and both.
fn attributes(size: u128) -> impl Iterator<Item = (bool, Option<u128>)> {
    let powers = (1..).map(|power| 1u128 << power).take_while(|&align| align <= HIGHEST);
    let aligns: Vec<u128> = powers.take_while(|align| size != 0 && size % align == 0).collect();
    let packed: Vec<Option<u128>> =
        std::iter::once(None).chain(aligns.iter().copied().map(Some)).collect();
    let aligned = aligns.into_iter().map(|align| (false, Some(align)));
    aligned.chain(packed.into_iter().map(|align| (true, align)))
}

fn lowest_bit(size: u128) -> u128 {
    match size {
        0 => 1,
        _ => 1 << size.trailing_zeros(),
    }
}

fn is_narrow(record: &Record<'_>, size: u128) -> bool {
    let bits = record.encoding.map_or(0, |lies| u128::from(lies.bits));
    record.kind == Kind::Integer && bits != 0 && bits != 8 * size
}

/// A hole as members: bits up to a byte, whole bytes, and bits again. Empty if members overlap.
fn holes<'d>(start: u128, end: u128) -> Vec<MemberForm<'d>> {
    let length = end.saturating_sub(start);
    let bits = ((8 - start % 8) % 8).min(length);
    let rest = length - bits;
    let mut made = Vec::new();
    made.extend((bits != 0).then_some(MemberForm::Bits(bits as u64)));
    made.extend((rest / 8 != 0).then_some(MemberForm::Bytes(rest / 8)));
    made.extend((rest % 8 != 0).then_some(MemberForm::Bits((rest % 8) as u64)));
    made
}
