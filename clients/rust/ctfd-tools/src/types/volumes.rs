//! The dictionaries of a program: one, perhaps with its parent, or a parent and its children, which
//! are treated as one.

use ctfd::{Dictionary, Fault, Refusal, Type};
use std::collections::HashMap;
use std::ops::Range;

/// The number of a type in its dictionary. For a child of a program in parts, the child's index,
/// counted from 1, is in the bits above the lowest 16.
pub type Number = u32;

/// A child's own types have at least this number.
const CHILD: u16 = 0x8000;
const PLACE: u32 = 16;
/// The size of a dictionary's header, and the bytes of it that contain the offset of the names
/// after it.
const HEADER: usize = 36;
const NAMES_PLACE: Range<usize> = 28..32;

/// The lists from which a dictionary was opened, which contain the names of members.
#[derive(Clone, Copy)]
pub struct Lists<'d> {
    pub ctf: &'d [u8],
    /// The strings of its symbol table.
    pub strings: &'d [u8],
}

impl<'d> Lists<'d> {
    /// Their size in bytes.
    pub fn length(&self) -> usize {
        self.ctf.len() + self.strings.len()
    }

    /// An upper bound for the length of the longest name.
    pub fn longest_name(&self) -> usize {
        let names_at = |ctf: &[u8]| {
            let place = ctf.get(NAMES_PLACE)?.try_into().ok()?;
            Some(HEADER + u32::from_le_bytes(place) as usize)
        };
        let names = names_at(self.ctf).and_then(|at| self.ctf.get(at..)).unwrap_or(self.ctf);
        let of_list = |list: &[u8]| list.split(|&byte| byte == 0).map(<[u8]>::len).max();
        [names, self.strings].into_iter().filter_map(of_list).max().unwrap_or(0)
    }

    /// The name at an offset in one of the lists, as rows of members refer to it.
    pub fn name(&self, list: u32, at: u64) -> &'d [u8] {
        let list = match list {
            0 => self.ctf,
            1 => self.strings,
            _ => &[],
        };
        let rest = usize::try_from(at).ok().and_then(|at| list.get(at..)).unwrap_or_default();
        let end = rest.iter().position(|&byte| byte == 0).unwrap_or(rest.len());
        &rest[..end]
    }
}

/// An open dictionary, and the lists from which it was opened.
pub struct Volume<'d> {
    pub types: &'d Dictionary<'d>,
    pub lists: Lists<'d>,
    /// Whether its entries are in the order of the first dictionary's symbols.
    pub has_first_symbols: bool,
}

/// The type of a symbol in a dictionary.
pub enum Entry<'d> {
    Function(ctfd::Function<'d>),
    /// The type of an object; None for void.
    Object(Option<Type<'d>>),
}

/// The dictionaries of a program: a single one, or a parent followed by its children.
pub struct Volumes<'d> {
    listed: Vec<Volume<'d>>,
    /// The parent of a single dictionary.
    parent: Option<Lists<'d>>,
    /// For types of children that occur in an earlier child too, the number there.
    originals: HashMap<Number, Number>,
}

impl<'d> Volumes<'d> {
    /// A dictionary, and its parent if it has one.
    pub fn alone(volume: Volume<'d>, parent: Option<Lists<'d>>) -> Volumes<'d> {
        Volumes { listed: vec![volume], parent, originals: HashMap::new() }
    }

    pub fn in_parts(parent: Volume<'d>, children: Vec<Volume<'d>>) -> Volumes<'d> {
        let listed: Vec<Volume<'d>> = std::iter::once(parent).chain(children).collect();
        let mut made = Volumes { listed, parent: None, originals: HashMap::new() };
        if made.listed.len() > 2 {
            made.originals = super::copies::originals(&made);
        }
        made
    }

    /// All of them, without the parent of a single one.
    pub fn all(&self) -> &[Volume<'d>] {
        &self.listed
    }

    /// The single one, or the parent of the others.
    pub fn first(&self) -> &Volume<'d> {
        &self.listed[0]
    }

    /// The index of the dictionary that has a type, and the type's number there.
    pub fn place(number: Number) -> (usize, u16) {
        ((number >> PLACE) as usize, number as u16)
    }

    /// The number of a type, by its number in the dictionary at an index.
    pub fn number(&self, place: usize, own: u16) -> Number {
        if place == 0 || own < CHILD {
            return own.into(); // a child refers to the parent's types by their own numbers
        }
        let number = (place as Number) << PLACE | Number::from(own);
        self.originals.get(&number).copied().unwrap_or(number)
    }

    /// The same for a type of the library; 0 for void.
    pub fn number_of(&self, place: usize, of: Option<Type<'_>>) -> Number {
        of.map_or(0, |of| self.number(place, of.number()))
    }

    /// A type; fails if no dictionary has the number.
    pub fn get(&self, number: Number) -> Result<Type<'d>, Refusal> {
        let (place, own) = Volumes::place(number);
        let missing = Refusal { fault: Fault::NoType, place: own.into() };
        self.listed.get(place).ok_or(missing)?.types.get(own)
    }

    /// The lists that contain the names of a type's members.
    pub fn lists(&self, number: Number) -> Option<&Lists<'d>> {
        match (Volumes::place(number), &self.parent) {
            ((0, own), Some(parent)) if own <= CHILD => Some(parent),
            ((place, _), _) => self.listed.get(place).map(|volume| &volume.lists),
        }
    }

    /// The numbers of the types of the dictionary at an index, in order, without copies.
    pub fn own_numbers_at(
        &self,
        place: usize,
    ) -> impl DoubleEndedIterator<Item = Number> + use<'_, 'd> {
        let own = self.listed[place].types.types().map(Type::number);
        own.filter(move |&own| place == 0 || own >= CHILD)
            .map(move |own| if place == 0 { own.into() } else { child_number(place, own) })
            .filter(|number| !self.originals.contains_key(number))
    }

    /// The type with a name, from the first dictionary that has one.
    pub fn find(&self, name: &[u8]) -> Result<Number, Refusal> {
        let found = |(place, volume): (usize, &Volume<'d>)| {
            volume.types.find(name).map(|of| self.number(place, of.number()))
        };
        self.first_of(found)
    }

    /// The type of the first symbol with a name, and the index of its dictionary.
    pub fn symbol(&self, name: &[u8]) -> Result<(usize, Entry<'d>), Refusal> {
        self.first_of(|(place, volume)| {
            let symbol = volume.types.symbol(name)?;
            Ok((place, self.check_object(entry(volume.types, symbol)?)?))
        })
    }

    /// Refuses an object without a type if there are several dictionaries: another may have the
    /// type.
    fn check_object(&self, found: Entry<'d>) -> Result<Entry<'d>, Refusal> {
        match found {
            Entry::Object(None) if self.listed.len() > 1 => {
                Err(Refusal { fault: Fault::NotFound, place: 0 })
            }
            found => Ok(found),
        }
    }

    /// The type of a symbol, by its index in the first dictionary's table.
    pub fn entry(&self, symbol: u32) -> Option<(usize, Entry<'d>)> {
        self.entry_among(|_, volume| volume.has_first_symbols, symbol)
    }

    /// The type of a symbol, by its index in the table of the dictionary at an index.
    pub fn entry_in(&self, place: usize, symbol: u32) -> Option<(usize, Entry<'d>)> {
        self.entry_among(|other, _| other == place, symbol)
    }

    fn entry_among(
        &self,
        is_asked: impl Fn(usize, &Volume<'d>) -> bool,
        symbol: u32,
    ) -> Option<(usize, Entry<'d>)> {
        let asked = self.listed.iter().enumerate().filter(|(place, one)| is_asked(*place, one));
        let mut told = asked.filter_map(|(place, one)| {
            let found = entry(one.types, symbol).and_then(|found| self.check_object(found));
            Some((place, found.ok()?))
        });
        told.next()
    }

    /// The first answer; if there is none, the refusal of the first dictionary.
    fn first_of<T>(
        &self,
        ask: impl Fn((usize, &Volume<'d>)) -> Result<T, Refusal>,
    ) -> Result<T, Refusal> {
        let mut refusal = None;
        for one in self.listed.iter().enumerate() {
            match ask(one) {
                Ok(found) => return Ok(found),
                Err(other) => refusal = refusal.or(Some(other)),
            }
        }
        Err(refusal.unwrap_or(Refusal { fault: Fault::NotFound, place: 0 }))
    }
}

/// The number of a child's type, even if it is a copy.
pub(super) fn child_number(place: usize, own: u16) -> Number {
    (place as Number) << PLACE | Number::from(own)
}

fn entry<'d>(types: &'d Dictionary<'d>, symbol: u32) -> Result<Entry<'d>, Refusal> {
    match types.function(symbol) {
        Ok(found) => Ok(Entry::Function(found)),
        Err(refusal) if refusal.fault == Fault::NotFunction => {
            types.object(symbol).map(Entry::Object)
        }
        Err(refusal) => Err(refusal),
    }
}
