//! The labels by which dictionaries describe themselves and their parents.
//!
//! A label is a name that a tool leaves in a dictionary; it does not change the types.
//!
//! - `ctfd.model=ilp32`: the data model of the program, unless it is lp64.
//! - `ctfd.symbols=TABLE,OBJECTS,FUNCTIONS,CHECKSUM`: the symbols that the entries of functions and
//!   objects belong to. If TABLE is `names`, their names follow the label in the strings, each with
//!   its zero byte, objects before functions.
//! - the label of a child's parent, `ctfd.types=CHECKSUM`: the CRC-32 of the parent's types and
//!   names, as they are in its section.

use crate::bytes::Names;
use crate::ctf::Sections;
use crate::symbols::{Identity, Symbol, SymbolTable, Symbols};
use ctfd::Model;
use flate2::Crc;
use std::borrow::Cow;

const PREFIX: &str = "ctfd.";
const MODEL: &str = "ctfd.model=";
const SYMBOLS: &str = "ctfd.symbols=";
const TYPES: &str = "ctfd.types=";
const ILP32: &str = "ilp32";
const LP64: &str = "lp64";

/// The word for a data model.
pub fn model_word(model: Model) -> &'static str {
    match model {
        Model::Ilp32 => ILP32,
        _ => LP64,
    }
}

/// The text of the first label that begins with `word`, without this word, and the names that
/// follow the label.
fn text_behind<'a>(sections: &Sections<'a>, word: &str) -> Option<(&'a [u8], &'a [u8])> {
    let names = Names(sections.names);
    // So no search for the end of a name can fail, however many labels there are.
    if sections.names.last() != Some(&0) {
        return None;
    }
    let listed = sections
        .labels
        .chunks_exact(8)
        .map(|label| u32::from_le_bytes([label[0], label[1], label[2], label[3]]));
    for place in listed {
        let begins = sections
            .names
            .get(place as usize..)
            .is_some_and(|text| text.starts_with(word.as_bytes()));
        if begins {
            let text = names.at(place.into())?;
            let behind = sections.names.get(place as usize + text.len() + 1..)?;
            return Some((&text[word.len()..], behind));
        }
    }
    None
}

/// The data model in a dictionary's label.
pub fn model(sections: &Sections<'_>) -> Option<Model> {
    match text_behind(sections, MODEL)?.0 {
        text if text == ILP32.as_bytes() => Some(Model::Ilp32),
        text if text == LP64.as_bytes() => Some(Model::Lp64),
        _ => None,
    }
}

/// The symbols in a dictionary's label.
pub fn symbols(sections: &Sections<'_>) -> Option<Identity> {
    let text = std::str::from_utf8(text_behind(sections, SYMBOLS)?.0).ok()?;
    let words: Vec<&str> = text.split(',').collect();
    let [table, objects, functions, checksum] = words[..] else { return None };
    Some(Identity {
        table: SymbolTable::of_word(table)?,
        objects: objects.parse().ok()?,
        functions: functions.parse().ok()?,
        checksum: u32::from_str_radix(checksum, 16).ok()?,
    })
}

/// The symbols whose names the dictionary itself has; `None` unless it has all of them.
pub fn own_symbols<'a>(sections: &Sections<'a>) -> Option<Symbols<'a>> {
    let wanted = symbols(sections).filter(|one| one.table == SymbolTable::Names)?;
    let (_, behind) = text_behind(sections, SYMBOLS)?;
    let count = wanted.objects.checked_add(wanted.functions)?;
    let listed: Vec<Symbol<'a>> = behind
        .split(|&byte| byte == 0)
        .take(count)
        .enumerate()
        .map(|(place, name)| Symbol {
            name: Cow::Borrowed(name),
            address: 0,
            is_function: place >= wanted.objects,
        })
        .collect();
    let found = Symbols { table: SymbolTable::Names, listed };
    (found.identity() == wanted).then_some(found)
}

/// The label of a data model; `None` for the one that a dictionary without a label has.
pub fn of_model(model: Model) -> Option<Vec<u8>> {
    matches!(model, Model::Ilp32).then(|| format!("{MODEL}{ILP32}").into_bytes())
}

/// The label of symbols, followed by their names if the dictionary is to have them.
pub fn of_symbols(symbols: &Symbols<'_>) -> Vec<u8> {
    let Identity { table, objects, functions, checksum } = symbols.identity();
    let table = table.word();
    let mut label = format!("{SYMBOLS}{table},{objects},{functions},{checksum:08x}").into_bytes();
    if symbols.table == SymbolTable::Names {
        for one in &symbols.listed {
            label.push(0);
            label.extend(&*one.name);
        }
    }
    label
}

/// The label by which a child identifies its parent.
pub fn of_types(sections: &Sections<'_>) -> Vec<u8> {
    let mut crc = Crc::new();
    crc.update(sections.types);
    crc.update(sections.names);
    format!("{TYPES}{:08x}", crc.sum()).into_bytes()
}

/// The reason why a dictionary is not the parent that a child's label identifies; `None` if it may
/// be.
pub fn not_its_parent(label: &[u8], of_parent: &[u8]) -> Option<&'static str> {
    (label.starts_with(TYPES.as_bytes()) && label != of_parent).then_some(
        "these are not the types with which the child was made: name the file that was its parent \
         then, or let ctfd-convert make the child again with this one",
    )
}

/// Whether a label is written anew with each dictionary.
pub fn is_own(label: &[u8]) -> bool {
    [MODEL, SYMBOLS].iter().any(|word| label.starts_with(word.as_bytes()))
        && label.starts_with(PREFIX.as_bytes())
}
