//! What a store records of a build: a file with a word and its value on each line.

use crate::debuginfo::Counts;
use crate::types::text::printable;
use std::fmt::{self, Display};

/// The record of a build.
#[derive(Clone, Debug, Default, PartialEq, Eq)]
pub struct About {
    /// The name of its file.
    pub name: String,
    /// The counts of its debug file.
    pub counts: Counts,
    /// How many constructs CTF cannot represent.
    pub losses: usize,
    /// The size in bytes of the file with the debug information that it was made from.
    pub original: u64,
}

impl About {
    /// Parses the text of a record; missing words give empty values.
    pub fn parse(text: &str) -> About {
        let word = |name: &str| {
            let mut lines = text.lines();
            lines.find_map(|line| line.strip_prefix(name)?.strip_prefix(' ')).unwrap_or_default()
        };
        let count = |name: &str| word(name).parse().unwrap_or(0);
        About {
            name: printable(word("name").as_bytes()).into_owned(),
            counts: Counts {
                types: count("types"),
                objects: count("objects"),
                functions: count("functions"),
            },
            losses: count("lost"),
            original: word("original").parse().unwrap_or(0),
        }
    }
}

impl Display for About {
    fn fmt(&self, to: &mut fmt::Formatter<'_>) -> fmt::Result {
        let Counts { types, objects, functions } = self.counts;
        writeln!(to, "name {}", printable(self.name.as_bytes()))?;
        writeln!(to, "types {types}\nobjects {objects}\nfunctions {functions}")?;
        writeln!(to, "lost {}\noriginal {}", self.losses, self.original)
    }
}

#[cfg(test)]
mod tests {
    use super::About;
    use crate::debuginfo::Counts;

    #[test]
    fn what_is_written_is_read() {
        let about = About {
            name: "lib x.so.1".to_owned(),
            counts: Counts { types: 1, objects: 2, functions: 3 },
            losses: 4,
            original: 5,
        };
        assert_eq!(About::parse(&about.to_string()), about);
        assert_eq!(About::parse("nonsense\nname\ntypes many"), About::default());
    }
}
