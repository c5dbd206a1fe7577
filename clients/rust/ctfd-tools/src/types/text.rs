//! Names as a person reads and writes them: escapes, patterns, and spellings of base types.

use super::catalog::Number;
use std::borrow::Cow;
use std::collections::hash_map::DefaultHasher;
use std::collections::HashSet;
use std::hash::{Hash as _, Hasher as _};

/// The size limit of a name or declaration in output, in bytes.
const LONGEST: usize = 2048;
/// The words before tags.
pub const TAGS: [&str; 3] = ["struct", "union", "enum"];
const QUALIFIERS: [&str; 3] = ["const", "volatile", "restrict"];

/// Spellings of base types that C allows, and the names that compilers give them in a dictionary.
const SPELLINGS: [(&str, &str); 15] = [
    ("unsigned", "unsigned int"),
    ("signed", "int"),
    ("signed int", "int"),
    ("long", "long int"),
    ("signed long", "long int"),
    ("unsigned long", "long unsigned int"),
    ("unsigned long int", "long unsigned int"),
    ("long unsigned", "long unsigned int"),
    ("long long", "long long int"),
    ("unsigned long long", "long long unsigned int"),
    ("unsigned long long int", "long long unsigned int"),
    ("short", "short int"),
    ("unsigned short", "short unsigned int"),
    ("unsigned short int", "short unsigned int"),
    ("bool", "_Bool"),
];

/// A name for a terminal: the bytes of characters that are not printable are escaped.
pub fn printable(name: &[u8]) -> Cow<'_, str> {
    match std::str::from_utf8(name) {
        Ok(text) if text.bytes().all(|byte| matches!(byte, b' '..=b'~')) => Cow::Borrowed(text),
        _ => Cow::Owned(escape_name(name)),
    }
}

fn escape_name(name: &[u8]) -> String {
    let mut made = String::with_capacity(name.len());
    for chunk in name.utf8_chunks() {
        for letter in chunk.valid().chars() {
            if is_printable(letter) {
                made.push(letter);
            } else {
                letter.encode_utf8(&mut [0; 4]).bytes().for_each(|byte| escape(&mut made, byte));
            }
        }
        chunk.invalid().iter().for_each(|&byte| escape(&mut made, byte));
    }
    made
}

fn escape(made: &mut String, byte: u8) {
    *made += &format!("\\x{byte:02x}");
}

/// Whether a terminal prints a character, rather than obeying it.
fn is_printable(letter: char) -> bool {
    if letter.is_ascii() {
        return !letter.is_ascii_control();
    }
    // After another character, a combining character is printable too.
    let pair = String::from_iter(['a', letter]);
    pair.escape_debug().skip(1).eq([letter])
}

/// The code points of a name; a byte that is not UTF-8 becomes a number that no character has.
pub fn code_points(name: &[u8]) -> Vec<u32> {
    let of_chunk = |chunk: std::str::Utf8Chunk<'_>| -> Vec<u32> {
        let valid = chunk.valid().chars().map(u32::from);
        valid.chain(chunk.invalid().iter().map(|&byte| 0xdc00 + u32::from(byte))).collect()
    };
    name.utf8_chunks().flat_map(of_chunk).collect()
}

/// Shortens a very long text to its beginning and a hash.
pub fn shorten(text: String) -> String {
    if text.len() <= LONGEST {
        return text;
    }
    let mut hasher = DefaultHasher::new();
    text.hash(&mut hasher);
    let end = (0..=LONGEST).rev().find(|&end| text.is_char_boundary(end)).unwrap_or(0);
    format!("{}..{:016x}", &text[..end], hasher.finish())
}

/// The name that a dictionary has for a written name, without qualifiers, and the number of stars.
pub fn normal(written: &[u8]) -> (Vec<u8>, usize) {
    let stars = written.iter().filter(|&&byte| byte == b'*').count();
    let words = written
        .split(|byte| *byte == b'*' || byte.is_ascii_whitespace())
        .filter(|word| !word.is_empty())
        .filter(|word| !QUALIFIERS.iter().any(|known| known.as_bytes() == *word));
    let base = words.collect::<Vec<_>>().join(&b' ');
    let usual = SPELLINGS.iter().find(|(other, _)| other.as_bytes() == base);
    (usual.map_or(base, |(_, usual)| usual.as_bytes().to_vec()), stars)
}

/// The name that gcc gives to a base type; other compilers spell some differently.
pub fn usual(name: &str) -> &str {
    SPELLINGS.iter().find(|(other, _)| *other == name).map_or(name, |(_, usual)| *usual)
}

/// A name without qualifiers, and its other spellings in C.
pub fn spellings(base: &[u8]) -> Vec<Vec<u8>> {
    let others = SPELLINGS.iter().filter(|(_, usual)| usual.as_bytes() == base);
    std::iter::once(base.to_vec())
        .chain(others.map(|(other, _)| other.as_bytes().to_vec()))
        .collect()
}

/// Splits an alias into a type's own name and number: `struct dict__17`. None for other names.
pub fn name_and_number(written: &[u8]) -> Option<(&[u8], Number)> {
    let end = written.len() - written.iter().rev().take_while(|&&byte| byte == b'_').count();
    let digits = written[..end].iter().rev().take_while(|byte| byte.is_ascii_digit()).count();
    // The first `__` that only digits follow, so that the name is the shortest.
    let starts = (1..end).filter(|&at| at + digits.min(5) + 2 >= end);
    for at in starts {
        let Some(number) = written[at..end].strip_prefix(b"__") else { continue };
        let is_number = !number.is_empty()
            && number.len() <= 5
            && number[0] != b'0'
            && number.iter().all(u8::is_ascii_digit);
        if is_number {
            let number = std::str::from_utf8(number).ok()?.parse().ok()?;
            return Some((&written[..at], number));
        }
    }
    None
}

/// The word `struct`, `union` or `enum` at the start of a name, and the rest.
pub fn without_tag(name: &[u8]) -> (&'static str, &[u8]) {
    for word in TAGS {
        if let Some(rest) = name.strip_prefix(word.as_bytes()).and_then(|r| r.strip_prefix(b" ")) {
            return (word, rest);
        }
    }
    ("", name)
}

/// Whether a written name is a pattern. Stars after a blank make a pointer instead.
pub fn is_pattern(written: &[u8]) -> bool {
    let is_blank = |byte: &u8| byte.is_ascii_whitespace();
    let tail = written.iter().rev().take_while(|byte| **byte == b'*' || is_blank(byte)).count();
    let tail = &written[written.len() - tail..];
    let stars = tail.iter().position(is_blank).map_or(0, |blank| tail.len() - blank);
    written[..written.len() - stars].iter().any(|byte| b"*?[".contains(byte))
}

/// The patterns for a written name: base types have several spellings.
pub fn patterns_of(written: &[u8]) -> Vec<Vec<u8>> {
    let trimmed = written.trim_ascii();
    for word in TAGS {
        if let Some(rest) = trimmed.strip_prefix(word.as_bytes()) {
            if rest.first().is_some_and(u8::is_ascii_whitespace) {
                return vec![[word.as_bytes(), b" ", rest.trim_ascii()].concat()];
            }
        }
    }
    if is_pattern(written) {
        return vec![written.to_vec()];
    }
    let mut made = vec![written.to_vec()];
    made.extend(spellings(&normal(written).0));
    made
}

/// A set of names and patterns that a person wrote.
pub struct Meaning {
    names: HashSet<Vec<u8>>,
    patterns: Vec<Vec<u32>>,
}

impl Meaning {
    /// The set of written names, as `patterns_of` returns them.
    pub fn of(written: impl IntoIterator<Item = Vec<u8>>) -> Meaning {
        let names: HashSet<Vec<u8>> = written.into_iter().collect();
        let listed = names.iter().filter(|name| is_pattern(name));
        Meaning { patterns: listed.map(|name| code_points(name)).collect(), names }
    }

    /// Whether a name is in the set, or matches a pattern.
    pub fn has(&self, name: &[u8]) -> bool {
        if self.names.contains(name) {
            return true;
        }
        if self.patterns.is_empty() {
            return false;
        }
        let points = code_points(name);
        self.patterns.iter().any(|pattern| matches(pattern, &points))
    }
}

/// Whether a pattern as in a shell matches a name. Only the last star is tried again.
fn matches(pattern: &[u32], name: &[u32]) -> bool {
    let (mut at, mut here) = (0, 0);
    let mut again: Option<(usize, usize)> = None;
    loop {
        if pattern.get(at) == Some(&u32::from(b'*')) {
            again = Some((at + 1, here));
            at += 1;
            continue;
        }
        let is_done = at == pattern.len();
        if is_done && here == name.len() {
            return true;
        }
        let step = name.get(here).filter(|_| !is_done).and_then(|&one| meets(&pattern[at..], one));
        if let Some(length) = step {
            at += length;
            here += 1;
            continue;
        }
        match &mut again {
            Some((behind, from)) if *from < name.len() => {
                *from += 1;
                (at, here) = (*behind, *from);
            }
            _ => return false,
        }
    }
}

/// The length of the front of a pattern if it matches a code point.
fn meets(pattern: &[u32], one: u32) -> Option<usize> {
    match pattern[0] {
        first if first == u32::from(b'?') => Some(1),
        first if first == u32::from(b'[') => match set_of(pattern) {
            Some((set, length)) => is_in_set(set, one).then_some(length),
            None => (one == first).then_some(1),
        },
        first => (one == first).then_some(1),
    }
}

/// The set in brackets at the front of a pattern, and the length with the brackets.
fn set_of(pattern: &[u32]) -> Option<(&[u32], usize)> {
    let mut end = 1;
    end += usize::from(pattern.get(end) == Some(&u32::from(b'!')));
    end += usize::from(pattern.get(end) == Some(&u32::from(b']')));
    let more = pattern.get(end..)?.iter().position(|&one| one == u32::from(b']'))?;
    Some((&pattern[1..end + more], end + more + 1))
}

fn is_in_set(set: &[u32], one: u32) -> bool {
    let is_negated = set.first() == Some(&u32::from(b'!'));
    let set = if is_negated { &set[1..] } else { set };
    let mut at = 0;
    let mut has = false;
    while at < set.len() {
        if at + 2 < set.len() && set[at + 1] == u32::from(b'-') {
            has |= (set[at]..=set[at + 2]).contains(&one);
            at += 3;
        } else {
            has |= set[at] == one;
            at += 1;
        }
    }
    has != is_negated
}

#[cfg(test)]
mod tests {
    use super::*;

    fn matches_name(pattern: &str, name: &str) -> bool {
        Meaning::of([pattern.as_bytes().to_vec()]).has(name.as_bytes())
    }

    #[test]
    fn patterns_are_those_of_a_shell() {
        for (pattern, name) in [
            ("*", ""),
            ("tcp_*", "tcp_sock"),
            ("*hook", "l_hook"),
            ("a*b*c", "aXbYbZc"),
            ("?", "\u{e9}"),
            ("[a-c]x", "bx"),
            ("[!a-c]x", "dx"),
            ("[]]", "]"),
            ("a[", "a["),
            ("struct ?*", "struct s"),
        ] {
            assert!(matches_name(pattern, name), "{pattern} {name}");
        }
        for (pattern, name) in
            [("tcp_*", "udp"), ("?", ""), ("[a-c]x", "dx"), ("[!a-c]", "b"), ("struct ?*", "s")]
        {
            assert!(!matches_name(pattern, name), "{pattern} {name}");
        }
    }

    #[test]
    fn stars_behind_a_blank_are_those_of_a_pointer() {
        assert!(!is_pattern(b"struct s *"));
        assert!(!is_pattern(b"struct s * *"));
        assert!(is_pattern(b"struct s*"));
        assert!(is_pattern(b"struct ?*"));
        assert_eq!(normal(b"const unsigned long **"), (b"long unsigned int".to_vec(), 2));
    }

    #[test]
    fn names_are_shown_and_not_obeyed() {
        assert_eq!(printable(b"a\x1b[2J"), "a\\x1b[2J");
        assert_eq!(printable(b"\xff\xc3\xa9"), "\\xff\u{e9}");
        assert_eq!(printable("a\u{202e}b".as_bytes()), "a\\xe2\\x80\\xaeb");
        assert_eq!(name_and_number(b"struct dict__17"), Some((&b"struct dict"[..], 17)));
        assert_eq!(name_and_number(b"dict__17_"), Some((&b"dict"[..], 17)));
        assert_eq!(name_and_number(b"dict__0"), None);
    }
}
