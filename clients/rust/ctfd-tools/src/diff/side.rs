//! One of the two dictionaries to compare: its types by the keys that match them, and their
//! properties.

use super::type_names::TypeNames;
use crate::types::catalog::{Catalog, Number, Part, Signature};
use crate::types::embeds::Embeds;
use crate::types::names::Names;
use crate::types::text::{printable, usual};
use ctfd::Kind;
use ctfd_read::beyond::{Beyond, Named};
use std::borrow::Cow;
use std::cell::{OnceCell, RefCell};
use std::collections::{HashMap, HashSet};
use std::fmt;
use std::rc::Rc;

/// What types are matched by: their kind and name.
pub type Key = (Kind, String);

/// Whether types of a kind are base types.
pub fn is_of_base(kind: Kind) -> bool {
    matches!(kind, Kind::Integer | Kind::Float)
}

/// The types of each key, in the order of its first type.
#[derive(Default)]
pub struct Keys {
    places: HashMap<Key, usize>,
    listed: Vec<(Key, Vec<Number>)>,
}

impl Keys {
    fn add(&mut self, key: Key, number: Number) {
        let place = *self.places.entry(key).or_insert_with_key(|key| {
            self.listed.push((key.clone(), Vec::new()));
            self.listed.len() - 1
        });
        self.listed[place].1.push(number);
    }

    /// All keys with their types.
    pub fn iter(&self) -> impl Iterator<Item = &(Key, Vec<Number>)> {
        self.listed.iter()
    }

    /// The types of a key, if it has any.
    pub fn get(&self, key: &Key) -> Option<&[Number]> {
        self.places.get(key).map(|&place| self.listed[place].1.as_slice())
    }
}

/// What the innermost element of a value is to a program.
#[derive(Clone, Debug, PartialEq, Eq)]
enum Core {
    /// A pointer; for a pointer to a function, with the function type in C.
    Pointer(Option<Rc<str>>),
    /// A function, with its type in C.
    Function(Rc<str>),
    /// Any other value: kind, size in bytes, and flags of the encoding. An enum counts as an
    /// integer.
    Plain(Option<Kind>, Option<u64>, u32),
}

impl Default for Core {
    fn default() -> Core {
        Core::Plain(None, None, 0)
    }
}

/// What a value is to a program: its kind, size and encoding, and the arrays around it.
#[derive(Clone, Debug, Default, PartialEq, Eq)]
pub struct Meaning {
    /// The lengths of the arrays around it.
    lengths: Vec<u64>,
    core: Core,
}

/// The properties of a member that follow from its type alone.
#[derive(Debug, Default, PartialEq)]
pub struct MemberText {
    /// Its width in bits.
    pub bits: u128,
    /// Its type in C.
    pub text: Rc<str>,
    /// What its value is to a program.
    pub value: Meaning,
    /// Its values that have names.
    pub named: Rc<NamedValues>,
}

/// The values of an enum that have names.
#[derive(Debug, Default)]
pub struct NamedValues {
    listed: Vec<Named>,
    known: OnceCell<HashSet<Named>>,
    /// The argument of the last `is_within`, and its result.
    last: RefCell<Option<(Rc<NamedValues>, bool)>>,
}

impl PartialEq for NamedValues {
    fn eq(&self, other: &NamedValues) -> bool {
        self.listed == other.listed
    }
}

impl Eq for NamedValues {} // so that `Rc` compares pointers first

impl NamedValues {
    fn of(values: &[(&[u8], i128)]) -> NamedValues {
        let listed = values.iter().map(|&(name, value)| (name.to_vec(), value)).collect();
        NamedValues { listed, ..NamedValues::default() }
    }

    pub fn is_empty(&self) -> bool {
        self.listed.is_empty()
    }

    /// Whether all of them are among the others.
    pub fn is_within(&self, others: &Rc<NamedValues>) -> bool {
        if let Some((_, is_within)) =
            self.last.borrow().as_ref().filter(|(last, _)| Rc::ptr_eq(last, others))
        {
            return *is_within;
        }
        let known = others.known.get_or_init(|| others.listed.iter().cloned().collect());
        let is_within = self.listed.iter().all(|one| known.contains(one));
        *self.last.borrow_mut() = Some((others.clone(), is_within));
        is_within
    }
}

/// The type of a member or the like. For an enum's bit-field it includes the enum, which no type of
/// a dictionary records.
#[derive(Clone, Copy, Debug, PartialEq, Eq, Hash)]
pub struct TypeUse {
    pub number: Number,
    /// The enum of a bit-field, if it has one.
    pub of_enum: Option<Number>,
}

impl From<Number> for TypeUse {
    fn from(number: Number) -> TypeUse {
        TypeUse { number, of_enum: None }
    }
}

/// A member: its name, offset and type.
#[derive(Clone, Debug, PartialEq)]
pub struct Place {
    /// Its name, after the names of the members that contain it.
    pub path: String,
    /// Its offset in bits.
    pub start: u128,
    /// The properties of its type.
    pub told: Rc<MemberText>,
}

/// The members without their types.
pub fn places(parts: &[(Place, TypeUse)]) -> Vec<&Place> {
    parts.iter().map(|(place, _)| place).collect()
}

/// An offset in bits, displayed in bytes, with the bit if it is not a whole number of bytes.
pub struct At(pub u128);

impl fmt::Display for At {
    fn fmt(&self, formatter: &mut fmt::Formatter<'_>) -> fmt::Result {
        match (self.0 / 8, self.0 % 8) {
            (byte, 0) => write!(formatter, "{byte}"),
            (byte, bit) => write!(formatter, "{byte}:{bit}"),
        }
    }
}

/// One of the two dictionaries.
pub struct Side<'s, 'd> {
    pub catalog: &'s Catalog<'d>,
    /// The names of its types.
    pub names: &'s Names<'s, 'd>,
    /// Its own types by key.
    pub own: Keys,
    parents: Keys,
    beyond: &'s Beyond,
    embeds: Embeds<'s, 'd>,
    written: TypeNames<'s, 'd>,
    told: RefCell<HashMap<TypeUse, (u64, Rc<MemberText>)>>,
    named: RefCell<HashMap<Number, Rc<NamedValues>>>,
    enums: HashMap<(Vec<u8>, u64), Number>,
    bytes: usize,
}

impl<'s, 'd> Side<'s, 'd> {
    /// The side of a catalog whose dictionary has so many bytes. `beyond` has what the file records
    /// that CTF cannot represent.
    pub fn new(names: &'s Names<'s, 'd>, beyond: &'s Beyond, bytes: usize) -> Side<'s, 'd> {
        let catalog = names.catalog;
        let mut enums = HashMap::new();
        for number in catalog.all() {
            let record = catalog.record(number);
            if record.kind == Kind::Enum && !record.name.is_empty() {
                let size = catalog.size(number).unwrap_or(4);
                enums.entry((record.tag_name(), size)).or_insert(number);
            }
        }
        let mut made = Side {
            catalog,
            names,
            own: Keys::default(),
            parents: Keys::default(),
            beyond,
            embeds: Embeds::new(names, false),
            written: TypeNames::new(catalog, beyond),
            told: RefCell::default(),
            named: RefCell::default(),
            enums,
            bytes,
        };
        for number in catalog.all() {
            if let Some(key) = made.key(number) {
                match catalog.is_own(number) {
                    true => made.own.add(key, number),
                    false => made.parents.add(key, number),
                }
            }
        }
        made
    }

    /// The size of its dictionary in bytes.
    pub fn bytes(&self) -> usize {
        self.bytes
    }

    /// The number of members, enumerators or arguments of a type.
    pub fn length(&self, number: Number) -> usize {
        match self.catalog.kind(number) {
            Kind::Struct | Kind::Union => self.catalog.members(number).len(),
            Kind::Enum => self.values(number).len(),
            Kind::Function => self.signature(number).arguments.len(),
            _ => 0,
        }
    }

    /// The types of a key: its own, else the parent's.
    pub fn get(&self, key: &Key) -> Option<&[Number]> {
        self.own.get(key).or_else(|| self.parents.get(key))
    }

    /// The kind of a type; None for void.
    pub fn kind(&self, number: Number) -> Option<Kind> {
        (number != 0).then(|| self.catalog.kind(number))
    }

    /// The key of a type; None for types that are compared as parts of others.
    pub fn key(&self, number: Number) -> Option<Key> {
        let record = self.catalog.record(number);
        match record.kind {
            Kind::Struct | Kind::Union | Kind::Enum | Kind::Float | Kind::Forward => {}
            Kind::Typedef if !self.is_unnamed(record.of) => {}
            Kind::Integer if self.is_plain(number) => {}
            _ => return None,
        }
        if self.names.has_name(number) {
            let label = self.names.label(number);
            let label = if is_of_base(record.tag) { usual(&label).to_owned() } else { label };
            return Some((record.tag, label));
        }
        let (first, _) = self.values(number).into_iter().next()?;
        Some((record.tag, format!("enum {{ {}, .. }}", printable(first))))
    }

    /// Whether a struct, union or enum has no tag, so that a typedef of it is its name.
    fn is_unnamed(&self, number: Number) -> bool {
        let record = self.catalog.record(number);
        (record.is_aggregate() || record.kind == Kind::Enum) && record.name.is_empty()
    }

    /// Whether an integer fills its storage, unlike a bit-field's.
    fn is_plain(&self, number: Number) -> bool {
        let bits = self.catalog.record(number).encoding.map_or(0, |lies| u64::from(lies.bits));
        Some(bits) == self.catalog.size(number).map(|size| 8 * size)
    }

    /// A type in C.
    pub fn text(&self, number: Number) -> Rc<str> {
        self.written.name(number)
    }

    /// How C writes the type that a type resolves to.
    pub fn resolved_text(&self, number: Number) -> Rc<str> {
        self.text(self.catalog.resolve(number))
    }

    /// The flags of a type's encoding; 0 if it is no number.
    pub fn flags(&self, number: Number) -> u32 {
        let encoding = self.catalog.record(number).encoding;
        encoding.map_or(0, |encoding| encoding.encoding.into())
    }

    /// What a value of a type is to a program.
    pub fn value(&self, number: Number) -> Meaning {
        let mut end = self.catalog.resolve(number);
        let mut lengths = Vec::new();
        while self.kind(end) == Some(Kind::Array) {
            let array = self.catalog.record(end);
            lengths.push(self.elements(end));
            end = self.catalog.resolve(array.of);
        }
        let core = match self.kind(end) {
            Some(Kind::Pointer) => {
                let target = self.catalog.resolve(self.catalog.record(end).of);
                let is_function = self.kind(target) == Some(Kind::Function);
                Core::Pointer(is_function.then(|| self.text(target)))
            }
            Some(Kind::Function) => Core::Function(self.text(end)),
            kind => {
                let plain = if kind == Some(Kind::Enum) { Some(Kind::Integer) } else { kind };
                Core::Plain(plain, self.catalog.size(end), self.flags(end))
            }
        };
        Meaning { lengths, core }
    }

    /// The number of elements of an array; 0 for another type.
    pub fn elements(&self, number: Number) -> u64 {
        let known = self.beyond.elements.get(&number).copied();
        known.unwrap_or_else(|| self.catalog.record(number).elements.into())
    }

    /// What a function type takes and returns.
    pub fn signature(&self, number: Number) -> Cow<'s, Signature> {
        let told = self.catalog.signature(number);
        match self.beyond.arguments.get(&number) {
            Some(arguments) => {
                Cow::Owned(Signature { arguments: arguments.clone(), ..told.clone() })
            }
            None => Cow::Borrowed(told),
        }
    }

    /// The enumerators of an enum; none for another type.
    pub fn values(&self, number: Number) -> Vec<(&'s [u8], i128)> {
        match self.beyond.values.get(&number) {
            Some(listed) => listed.iter().map(|(name, value)| (name.as_slice(), *value)).collect(),
            None => {
                let listed = self.catalog.values(number).iter();
                listed.map(|one| (one.name.as_slice(), one.value.into())).collect()
            }
        }
    }

    /// The members of a struct or union with their types, including those of unnamed members.
    pub fn parts(&self, number: Number) -> Vec<(Place, TypeUse)> {
        let parts = self.catalog.members(number);
        let mut made = Vec::with_capacity(parts.len());
        if !parts.iter().any(|part| self.embeds.is_walked_through(part.of)) {
            let of_part = |(place, part): (usize, &Part<'_>)| {
                let used = self.type_use(part.of, (number, place));
                (self.place(part.name, used, part.offset.into()), used)
            };
            made.extend(parts.iter().enumerate().map(of_part));
            return made;
        }
        self.embeds.walk(number, |held| {
            let used = self.type_use(held.of, held.within);
            made.push((self.place(&held.name(), used, held.offset), used));
        });
        made
    }

    /// The type of a member; `within` is the struct or union with the member's index.
    fn type_use(&self, number: Number, within: (Number, usize)) -> TypeUse {
        let end = self.catalog.resolve(number);
        let of_enum = self.beyond.fields.get(&within).copied();
        match of_enum.filter(|_| self.kind(end) == Some(Kind::Integer)) {
            Some(of_enum) => TypeUse { number: end, of_enum: Some(of_enum) },
            None => number.into(),
        }
    }

    fn place(&self, name: &[u8], of: TypeUse, offset: u128) -> Place {
        let (lies, told) = self.member_text(of);
        Place { path: printable(name).into_owned(), start: offset + u128::from(lies), told }
    }

    /// The offset of a member's bits in its storage, and the properties of its type.
    fn member_text(&self, of: TypeUse) -> (u64, Rc<MemberText>) {
        if let Some(known) = self.told.borrow().get(&of) {
            return known.clone();
        }
        let span = self.catalog.span(of.number);
        let of_enum = of.of_enum.or_else(|| self.enum_of(self.catalog.resolve(of.number)));
        let named = of_enum.map_or_else(Rc::default, |number| self.named_values(number));
        let told = Rc::new(MemberText {
            bits: span.bits,
            text: self.text(of.number),
            value: self.value(of.number),
            named,
        });
        self.told.borrow_mut().insert(of, (span.lies, told.clone()));
        (span.lies, told)
    }

    fn named_values(&self, of_enum: Number) -> Rc<NamedValues> {
        let mut known = self.named.borrow_mut();
        let made = known.entry(of_enum);
        made.or_insert_with(|| Rc::new(NamedValues::of(&self.values(of_enum)))).clone()
    }

    /// The enum that a type is, or that it stands for as the type of a bit-field.
    ///
    /// A dictionary has no widths of enums: a bit-field of one has an integer with the enum's name
    /// as its type.
    pub fn enum_of(&self, number: Number) -> Option<Number> {
        let record = self.catalog.record(number);
        match record.kind {
            Kind::Enum => Some(number),
            Kind::Integer if record.name.starts_with(b"enum ") => {
                let size = self.catalog.size(number)?;
                self.enums.get(&(record.name.clone(), size)).copied()
            }
            _ => None,
        }
    }

    /// Lines on types that were not compared in full, since they have too many nested members.
    pub fn cut(&self) -> Vec<String> {
        let line = |number: &Number| {
            let label = self.names.label(*number);
            format!("{label} has more members of members than are compared")
        };
        self.embeds.cut().iter().map(line).collect()
    }
}
