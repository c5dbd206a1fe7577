//! The types of a dictionary and its parent, with a cache of the library's answers.
//!
//! Kinds, sizes, resolved types and offsets come from the library; nothing here computes them from
//! bytes.

pub use super::record::{
    is_qualifier, is_renaming, Part, Record, Signature, Span, UnderlyingType, Value,
};
use super::volumes::{Entry, Volumes};
pub use super::volumes::{Lists, Number, Volume};
use ctfd::{Dictionary, Kind, MemberRow, Model, Refusal, Type};
use std::cell::{Cell, OnceCell, RefCell};
use std::collections::VecDeque;

/// A child's own types have greater numbers than this.
const CHILD: Number = 0x8000;
/// The number of members that are first asked for at once.
const ROWS: usize = 64;

/// The type of a symbol.
pub enum SymbolAnswer {
    /// What a function takes and returns.
    Function(Signature),
    /// The type of an object; 0 if there is none.
    Object(Number),
}

/// The types of a program by their numbers.
pub struct Catalog<'d> {
    volumes: Volumes<'d>,
    /// The records of each dictionary by their numbers there, beginning with its least number.
    records: Vec<Vec<OnceCell<Box<Record<'d>>>>>,
    rows: RefCell<Vec<MemberRow>>,
    lacks: Cell<bool>,
}

impl<'d> Catalog<'d> {
    /// The catalog of a dictionary, and of its parent if there is one.
    pub fn new(volume: Volume<'d>, parent: Option<Lists<'d>>) -> Catalog<'d> {
        Catalog::of(Volumes::alone(volume, parent))
    }

    /// The catalog of a program in parts: a parent and all its children.
    pub fn in_parts(parent: Volume<'d>, children: Vec<Volume<'d>>) -> Catalog<'d> {
        Catalog::of(Volumes::in_parts(parent, children))
    }

    fn of(volumes: Volumes<'d>) -> Catalog<'d> {
        let cells = |(place, volume): (usize, &Volume<'d>)| {
            let last = volume.types.types().next_back().map_or(0, Type::number);
            let parents = if place == 0 { volume.types.parent_count().unwrap_or(0) } else { 0 };
            let mut cells = Vec::new();
            let count = usize::from(last).max(parents) + 1;
            cells.resize_with(count.saturating_sub(usize::from(first_of(place))), OnceCell::new);
            cells
        };
        let records = volumes.all().iter().enumerate().map(cells).collect();
        let rows = RefCell::new(vec![MemberRow::default(); ROWS]);
        Catalog { volumes, records, rows, lacks: Cell::new(false) }
    }

    /// The dictionaries: one, or the parent followed by its children.
    pub fn volumes(&self) -> &[Volume<'d>] {
        self.volumes.all()
    }

    fn first(&self) -> &'d Dictionary<'d> {
        self.volumes.first().types
    }

    /// Whether it is a single child, whose parent may be missing.
    pub fn is_child(&self) -> bool {
        self.first().is_child()
    }

    /// The name by which a child refers to its parent.
    pub fn parent_name(&self) -> ctfd::Name {
        self.first().parent_name()
    }

    /// The numbers of its own types, in order; for a program in parts, those of all parts.
    pub fn own_numbers(&self) -> impl DoubleEndedIterator<Item = Number> + use<'_, 'd> {
        (0..self.volumes().len()).flat_map(|place| self.volumes.own_numbers_at(place))
    }

    /// Whether a type is its own, not its parent's.
    pub fn is_own(&self, number: Number) -> bool {
        !self.is_child() || number > CHILD
    }

    /// The numbers of all types: those of its parent, followed by its own.
    pub fn all(&self) -> impl Iterator<Item = Number> + use<'_, 'd> {
        let parents = self.first().parent_count().unwrap_or(0) as Number;
        (1..=parents).chain(self.own_numbers())
    }

    /// Whether a type of a missing parent was asked for.
    pub fn lacks_parent(&self) -> bool {
        self.lacks.get()
    }

    /// Whether pointers have 4 bytes.
    pub fn is_ilp32(&self) -> bool {
        self.first().model() == Model::Ilp32
    }

    /// The type that the library finds for a name, in the first part that has one.
    pub fn find(&self, name: &[u8]) -> Result<Number, Refusal> {
        self.volumes.find(name)
    }

    /// The type of the first symbol with a name.
    pub fn symbol(&self, name: &[u8]) -> Result<SymbolAnswer, Refusal> {
        self.volumes.symbol(name).map(|found| self.symbol_type(found))
    }

    /// The type of a symbol, by its number in the file; None if it has none.
    pub fn symbol_answer(&self, symbol: u32) -> Option<SymbolAnswer> {
        self.volumes.entry(symbol).map(|found| self.symbol_type(found))
    }

    /// The type of a symbol, by its number in a part; None if it has none.
    pub fn symbol_answer_in(&self, place: usize, symbol: u32) -> Option<SymbolAnswer> {
        self.volumes.entry_in(place, symbol).map(|found| self.symbol_type(found))
    }

    fn symbol_type(&self, (place, entry): (usize, Entry<'d>)) -> SymbolAnswer {
        match entry {
            Entry::Function(found) => SymbolAnswer::Function(Signature {
                returns: self.volumes.number_of(place, found.returns),
                arguments: self.numbers(place, found.arguments.iter().copied()),
                is_open: found.varargs,
            }),
            Entry::Object(of) => SymbolAnswer::Object(self.volumes.number_of(place, of)),
        }
    }

    fn numbers(&self, place: usize, of: impl Iterator<Item = Option<Type<'d>>>) -> Vec<Number> {
        of.map(|of| self.volumes.number_of(place, of)).collect()
    }

    /// A type of the library; None for 0, and for types of a missing parent.
    pub fn get(&self, number: Number) -> Option<Type<'d>> {
        if number == 0 {
            return None;
        }
        let found = self.volumes.get(number);
        if let Err(refusal) = &found {
            self.lacks.set(self.lacks.get() || refusal.fault == ctfd::Fault::NoParent);
        }
        found.ok()
    }

    /// The record of a type; that of an unknown type for 0, and for types of a missing parent.
    pub fn record(&self, number: Number) -> &Record<'d> {
        let (place, own) = Volumes::place(number);
        let at = usize::from(own).checked_sub(usize::from(first_of(place)));
        let cell = self.records.get(place).and_then(|records| records.get(at?));
        match cell {
            Some(record) => record.get_or_init(|| Box::new(self.read(number))),
            None => self.records[0][0].get_or_init(|| Box::new(Record::of_kind(Kind::Unknown))),
        }
    }

    fn read(&self, number: Number) -> Record<'d> {
        let Some(of) = self.get(number) else { return Record::of_kind(Kind::Unknown) };
        let number_of = |of| self.volumes.number_of(Volumes::place(number).0, of);
        let mut made = Record::of_kind(of.kind());
        made.name = of.declared_name().map(ctfd::Name::into_bytes).unwrap_or_default();
        made.is_root = of.is_root().unwrap_or(false);
        match made.kind {
            Kind::Forward => made.tag = of.tag().unwrap_or(Kind::Struct),
            Kind::Integer | Kind::Float => made.encoding = of.encoding().ok(),
            Kind::Function => made.of = number_of(of.returns().ok().flatten()),
            Kind::Array => {
                let parts = of.array().ok();
                made.of = number_of(parts.and_then(|array| array.contents));
                made.elements = parts.map_or(0, |array| array.count);
            }
            Kind::Pointer => made.of = number_of(of.reference().ok().flatten()),
            kind if is_renaming(kind) => made.of = number_of(of.reference().ok().flatten()),
            _ => {}
        }
        made
    }

    pub fn kind(&self, number: Number) -> Kind {
        self.record(number).kind
    }

    /// The size of a value in bytes; None if it has none.
    pub fn size(&self, number: Number) -> Option<u64> {
        let ask = || self.get(number).and_then(|of| of.size().ok());
        *self.record(number).size.get_or_init(ask)
    }

    /// A type without typedefs and qualifiers.
    pub fn resolve(&self, number: Number) -> Number {
        let record = self.record(number);
        if !is_renaming(record.kind) {
            return number;
        }
        *record.resolved.get_or_init(|| match self.get(number).map(Type::resolve) {
            Some(Ok(end)) => self.volumes.number_of(Volumes::place(number).0, end),
            _ => {
                self.lacks.set(true); // it ends at a type of a missing parent
                self.end_of(number)
            }
        })
    }

    /// The end of typedefs and qualifiers that lead to a missing type.
    fn end_of(&self, mut number: Number) -> Number {
        while is_renaming(self.kind(number)) {
            number = self.record(number).of;
        }
        number
    }

    /// A type without typedefs, qualifiers and arrays.
    pub fn underlying(&self, number: Number) -> UnderlyingType {
        *self.record(number).reached.get_or_init(|| {
            let mut made =
                UnderlyingType { number: self.resolve(number), elements: 1, is_array: false };
            while self.kind(made.number) == Kind::Array {
                let array = self.record(made.number);
                made.elements = made.elements.saturating_mul(array.elements.into());
                made.is_array = true;
                made.number = self.resolve(array.of);
            }
            made
        })
    }

    /// Where the bits of a value are in its storage.
    pub fn span(&self, number: Number) -> Span {
        let end = self.resolve(number);
        *self.record(end).span.get_or_init(|| {
            let is_integer = self.kind(end) == Kind::Integer;
            let field = is_integer.then(|| self.get(end)).flatten().and_then(Type::bit_field);
            match field {
                Some(lies) => Span {
                    lies: lies.offset.into(),
                    bits: lies.bits.into(),
                    width: Some(lies.bits.into()),
                },
                None => {
                    let bits = 8 * u128::from(self.size(end).unwrap_or(0));
                    Span { lies: 0, bits, width: None }
                }
            }
        })
    }

    /// The members of a struct or union, in order; none for other types.
    pub fn members(&self, number: Number) -> &[Part<'d>] {
        self.record(number).members.get_or_init(|| {
            let is_aggregate = self.record(number).is_aggregate();
            let Some(of) = is_aggregate.then(|| self.get(number)).flatten() else {
                return Vec::new();
            };
            let Some(lists) = self.volumes.lists(number) else { return Vec::new() };
            let place = Volumes::place(number).0;
            let mut rows = self.rows.borrow_mut();
            let mut count = of.member_rows(0, &mut rows).unwrap_or(0) as usize;
            if count > rows.len() {
                rows.resize(count, MemberRow::default());
                count = of.member_rows(0, &mut rows).unwrap_or(0) as usize;
            }
            let part = |row: &MemberRow| Part {
                name: lists.name(row.name_list, row.name_at),
                of: self.volumes.number(place, row.tnum),
                offset: row.offset,
            };
            rows[..count].iter().map(part).collect()
        })
    }

    /// The offset in bits and the type of the first member with a name, as the library finds it; if
    /// there is none, that of a member of an unnamed member.
    pub fn field(&self, number: Number, name: &[u8]) -> Option<(u64, Number)> {
        let mut todo = VecDeque::from([(0, number)]);
        while let Some((start, holder)) = todo.pop_front() {
            if let Some((offset, of)) = self.get(holder).and_then(|one| one.field(name).ok()) {
                let of = self.volumes.number_of(Volumes::place(holder).0, of);
                return Some((start + offset, of));
            }
            let unnamed = self.members(holder).iter().filter(|part| part.name.is_empty());
            todo.extend(unnamed.map(|part| (start + part.offset, self.resolve(part.of))));
        }
        None
    }

    /// The enumerators of an enum, in order; none for other types.
    pub fn values(&self, number: Number) -> &[Value] {
        self.record(number).values.get_or_init(|| {
            let listed = self.get(number).and_then(|of| of.enumerators().ok());
            let value =
                |one: ctfd::Enumerator| Value { name: one.name.into_bytes(), value: one.value };
            listed.map(|listed| listed.map(value).collect()).unwrap_or_default()
        })
    }

    /// The type of an array's index; 0 for other types.
    pub fn index(&self, number: Number) -> Number {
        let parts = self.get(number).and_then(|of| of.array().ok());
        let index = parts.and_then(|array| array.index);
        self.volumes.number_of(Volumes::place(number).0, index)
    }

    /// What a function type takes and returns.
    pub fn signature(&self, number: Number) -> &Signature {
        self.record(number).signature.get_or_init(|| {
            let listed = self.get(number).and_then(|of| of.arguments().ok());
            let place = Volumes::place(number).0;
            let mut arguments = listed.map_or(Vec::new(), |listed| self.numbers(place, listed));
            let is_open = arguments.last() == Some(&0);
            arguments.truncate(arguments.len() - usize::from(is_open));
            Signature { returns: self.record(number).of, arguments, is_open }
        })
    }

    /// Its own structs and unions, in order.
    pub fn aggregates(&self) -> impl Iterator<Item = Number> + use<'_, 'd> {
        self.own_numbers().filter(|&number| self.record(number).is_aggregate())
    }
}

/// The number of the first record of the dictionary at an index.
fn first_of(place: usize) -> u16 {
    if place == 0 {
        0
    } else {
        CHILD as u16
    }
}
