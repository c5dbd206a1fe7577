//! Differences and changes as they are reported: what differs in a type or symbol, and which
//! symbols reach it.

use super::structure::Pair;
use crate::types::json::{list, text, Object};
use crate::types::text::printable;
use ctfd::Kind;
use std::fmt;

/// An old or new number, text or truth value; offsets are in bits.
#[derive(Clone, Debug, Default, PartialEq)]
pub enum Datum {
    /// No value.
    #[default]
    Nothing,
    Number(i128),
    Text(Vec<u8>),
    Truth(bool),
}

impl Datum {
    pub fn text(text: impl AsRef<[u8]>) -> Datum {
        Datum::Text(text.as_ref().to_vec())
    }

    /// A count, an offset or a size.
    pub fn number(number: impl Into<i128>) -> Datum {
        Datum::Number(number.into())
    }

    /// An offset or a number of bits; these are far below `i128::MAX`.
    pub fn bits(bits: u128) -> Datum {
        Datum::Number(i128::try_from(bits).unwrap_or(i128::MAX))
    }

    /// A size, if there is one.
    pub fn size(size: Option<u64>) -> Datum {
        size.map_or(Datum::Nothing, Datum::number)
    }
}

impl fmt::Display for Datum {
    /// Writes JSON.
    fn fmt(&self, formatter: &mut fmt::Formatter<'_>) -> fmt::Result {
        match self {
            Datum::Nothing => formatter.write_str("null"),
            Datum::Number(number) => write!(formatter, "{number}"),
            Datum::Text(bytes) => formatter.write_str(&text(bytes)),
            Datum::Truth(is_so) => write!(formatter, "{is_so}"),
        }
    }
}

/// A single difference.
#[derive(Clone, Debug, PartialEq)]
pub struct Difference {
    /// The word or words for this sort of difference.
    pub what: &'static str,
    /// The difference for a person to read.
    pub text: String,
    /// Whether programs built for the old break with the new.
    pub breaks: bool,
    /// The member, enumerator, argument or symbol that differs.
    pub name: Vec<u8>,
    /// The old value.
    pub old: Datum,
    /// The new value.
    pub new: Datum,
}

impl Difference {
    /// A difference that breaks, without a name or values.
    pub fn breaking(what: &'static str, text: impl Into<String>) -> Difference {
        Difference {
            what,
            text: text.into(),
            breaks: true,
            name: Vec::new(),
            old: Datum::Nothing,
            new: Datum::Nothing,
        }
    }

    /// A difference that does not break, without a name or values.
    pub fn harmless(what: &'static str, text: impl Into<String>) -> Difference {
        Difference { breaks: false, ..Difference::breaking(what, text) }
    }

    /// Sets the name.
    pub fn of(self, name: impl AsRef<[u8]>) -> Difference {
        Difference { name: name.as_ref().to_vec(), ..self }
    }

    /// Sets the old and the new value.
    pub fn from(self, old: Datum, new: Datum) -> Difference {
        Difference { old, new, ..self }
    }

    /// Whether members were added, removed or moved between two bits. Moves count only in ranges up
    /// to the end of the struct: a difference may report several members by the first, and does not
    /// have the offset of the last.
    pub fn is_between(&self, from: u128, to: u128) -> bool {
        let is_within = |datum: &Datum| match datum {
            Datum::Number(bit) => u128::try_from(*bit).is_ok_and(|bit| (from..=to).contains(&bit)),
            _ => false,
        };
        match self.what {
            "added member" => is_within(&self.new),
            "removed member" => is_within(&self.old),
            "moved" => to == u128::MAX && is_within(&self.old) && is_within(&self.new),
            _ => false,
        }
    }

    fn json(&self) -> String {
        Object::default()
            .text("what", self.what.as_bytes())
            .field("breaks", self.breaks)
            .text("name", &self.name)
            .field("old", &self.old)
            .field("new", &self.new)
            .end()
    }
}

/// A change of a size in bytes.
pub fn size(old: Option<u64>, new: Option<u64>) -> Option<Difference> {
    let shown = |size: Option<u64>| size.map_or("None".to_owned(), |size| size.to_string());
    let text = format!("size {} -> {}", shown(old), shown(new));
    let said = Difference::breaking("size", text).from(Datum::size(old), Datum::size(new));
    (old != new).then_some(said)
}

/// Symbols that lead to a type by the same steps.
#[derive(Clone, Debug)]
pub struct Reach {
    pub symbols: Vec<Vec<u8>>,
    pub steps: Vec<String>,
}

impl Reach {
    fn json(&self) -> String {
        let symbols = self.symbols.iter().map(|name| text(name));
        let steps = self.steps.iter().map(|step| text(step.as_bytes()));
        Object::default().field("symbols", list(symbols)).field("steps", list(steps)).end()
    }
}

impl fmt::Display for Reach {
    fn fmt(&self, formatter: &mut fmt::Formatter<'_>) -> fmt::Result {
        let symbols: Vec<_> = self.symbols.iter().map(|name| printable(name)).collect();
        write!(formatter, "{}: {}", symbols.join(", "), self.steps.join(", "))
    }
}

/// What happened to a type or symbol.
#[derive(Clone, Copy, Debug, PartialEq, Eq)]
pub enum Fate {
    Added,
    Removed,
    Changed,
}

impl Fate {
    fn word(self) -> &'static str {
        match self {
            Fate::Added => "added",
            Fate::Removed => "removed",
            Fate::Changed => "changed",
        }
    }
}

/// All differences of one type or symbol.
#[derive(Clone, Debug)]
pub struct Change {
    /// Its name, after the word for its kind.
    pub label: String,
    /// The word for its kind.
    pub kind: &'static str,
    /// What happened to it.
    pub fate: Fate,
    /// The differences.
    pub said: Vec<Difference>,
    /// The exported symbols that lead to the type.
    pub reached: Vec<Reach>,
    /// The old and the new type; 0 for a missing one. None for a symbol.
    pub pair: Option<Pair>,
}

impl Change {
    /// A change to which no symbols lead.
    pub fn new(label: String, kind: &'static str, fate: Fate, said: Vec<Difference>) -> Change {
        Change { label, kind, fate, said, reached: Vec::new(), pair: None }
    }

    /// Whether programs break by it.
    pub fn breaks(&self) -> bool {
        self.said.iter().any(|one| one.breaks)
    }

    /// The change with only its breaking differences.
    pub fn breaking(mut self) -> Change {
        self.said.retain(|one| one.breaks);
        self
    }

    /// The differences, followed by the symbols that lead to the type.
    pub fn lines(&self) -> String {
        let mut made = self.to_string();
        for reach in &self.reached {
            made += &format!("\n    {reach}");
        }
        made
    }

    /// The same, after a word that says whether it breaks.
    pub fn with_verdict(&self) -> String {
        let word = if self.breaks() { "breaks" } else { "compatible" };
        format!("{word}: {}", self.lines())
    }

    /// The change as a JSON object, with both types in full if they are given.
    pub fn json(&self, full: Option<&[String; 2]>) -> String {
        let mut made = Object::default();
        made.text("label", self.label.as_bytes())
            .text("kind", self.kind.as_bytes())
            .text("change", self.fate.word().as_bytes())
            .field("breaking", self.breaks())
            .field("said", list(self.said.iter().map(Difference::json)))
            .text("text", self.to_string().as_bytes())
            .field("reached", list(self.reached.iter().map(Reach::json)));
        match full {
            Some([was, is]) => made.text("old", was.as_bytes()).text("new", is.as_bytes()).end(),
            None => made.end(),
        }
    }
}

impl fmt::Display for Change {
    fn fmt(&self, formatter: &mut fmt::Formatter<'_>) -> fmt::Result {
        let said: Vec<&str> = self.said.iter().map(|one| one.text.as_str()).collect();
        write!(formatter, "{}: {}", self.label, said.join("; "))
    }
}

/// The word for the kind of a type; `void` for None.
pub fn kind_word(kind: Option<Kind>) -> &'static str {
    kind.map_or("void", crate::types::json::word_of)
}
