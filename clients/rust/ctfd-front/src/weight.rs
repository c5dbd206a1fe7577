//! Which requests may be long, as far as their words say: before anything is known of their cost.

use crate::members::Members;
use memchr::memchr;

/// Longer lines take time in proportion to their bytes, whatever the word.
const SHORT_BYTES: usize = 65_536;

/// Words that look something up, read the names of a type, or write an answer in proportion to its
/// length: at most some milliseconds, whatever the dictionary.
const SHORT: [&str; 27] = [
    "kind",
    "record",
    "members",
    "find",
    "size",
    "align",
    "resolve",
    "reference",
    "encoding",
    "array",
    "model",
    "enumerators",
    "args",
    "name",
    "pointer",
    "path",
    "show",
    "symbol",
    "object",
    "function",
    "labels",
    "label",
    "info",
    "bytes",
    "take",
    "part",
    "add",
];

/// Lines up to this length are searched for the word before their members are scanned.
const PLAIN_BYTES: usize = 256;
const WORD_KEY: &[u8] = b"\"op\"";

/// Whether answering a line may take as long as reading a whole dictionary: not if its word is that
/// of a short request, or if it has none.
pub fn may_be_long(line: &[u8]) -> bool {
    if line.len() > SHORT_BYTES {
        return true;
    }
    if plain_word(line).is_some_and(|word| SHORT.iter().any(|short| word == short.as_bytes())) {
        return false;
    }
    let word = Members::of(line).filter(|member| member.key.is("op")).last();
    match word.map(|member| member.text()) {
        None => false,
        Some(None) => true,
        Some(Some(word)) => !SHORT.iter().any(|short| word.is(short)),
    }
}

/// The word of a line as most clients write it: short, without escapes, and with one `"op"`. If
/// this is in the object of a member, the line has no word.
fn plain_word(line: &[u8]) -> Option<&[u8]> {
    if line.len() > PLAIN_BYTES || memchr(b'\\', line).is_some() {
        return None;
    }
    let mut keys = line.windows(WORD_KEY.len()).enumerate().filter(|(_, bytes)| *bytes == WORD_KEY);
    let (key, _) = keys.next()?;
    let rest = line[key + WORD_KEY.len()..].strip_prefix(b":\"")?;
    let word = &rest[..memchr(b'"', rest)?];
    keys.next().is_none().then_some(word)
}

#[cfg(test)]
mod tests {
    use super::*;

    #[test]
    fn words_say_what_may_be_long() {
        for line in [r#"{"op":"kind"}"#, r#"{"op":"open","\u006fp":"f\u0069nd"}"#, "{}", "no"] {
            assert!(!may_be_long(line.as_bytes()), "{line}");
        }
        for line in [r#"{"x":{"op":"kind"}}"#, r#"{"x":"op"}"#, r#"{"x":"op","op":"kind"}"#] {
            assert!(!may_be_long(line.as_bytes()), "{line}");
        }
        for line in [r#"{"op":"import","d":1}"#, r#"{"op":"kind","op":"open"}"#, r#"{"op":7}"#] {
            assert!(may_be_long(line.as_bytes()), "{line}");
        }
        for line in [r#"{"x":{"op":"kind"},"op":"open"}"#, r#"{"op":"kind","\u006fp":"open"}"#] {
            assert!(may_be_long(line.as_bytes()), "{line}");
        }
        assert!(may_be_long(&[b' '; SHORT_BYTES + 1]));
    }
}
