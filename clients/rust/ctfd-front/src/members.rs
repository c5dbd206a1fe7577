//! The members of a line's object: a scanner, not a parser.
//!
//! Its results are right if the line is JSON; the service refuses all other lines, whatever is in
//! them.

use memchr::memchr2;

/// Whether a byte may be between the parts of a line.
pub fn is_blank(byte: u8) -> bool {
    matches!(byte, b' ' | b'\t' | b'\r')
}

/// The first offset from `at` on that has no blank.
pub fn past_blanks(line: &[u8], mut at: usize) -> usize {
    while line.get(at).is_some_and(|&byte| is_blank(byte)) {
        at += 1;
    }
    at
}

/// A JSON string between its quotes, with its escapes.
#[derive(Clone, Copy, Debug, PartialEq, Eq)]
pub struct Text<'a>(pub &'a [u8]);

impl Text<'_> {
    /// Whether it equals a plain text, however it is escaped.
    pub fn is(&self, plain: &str) -> bool {
        self.0 == plain.as_bytes()
            || (self.0.contains(&b'\\') && self.characters().eq(plain.bytes().map(Some)))
    }

    /// Its characters; `None` for one that is not plain ASCII, and for a wrong escape.
    pub fn characters(&self) -> impl Iterator<Item = Option<u8>> + '_ {
        let mut rest = self.0;
        std::iter::from_fn(move || {
            let (&first, behind) = rest.split_first()?;
            rest = behind;
            if first != b'\\' {
                return Some(Some(first).filter(u8::is_ascii));
            }
            let escape = rest.first().copied();
            rest = rest.get(1..).unwrap_or_default();
            Some(match escape {
                Some(b'u') => {
                    let code = rest.get(..4).and_then(|digits| std::str::from_utf8(digits).ok());
                    rest = rest.get(4..).unwrap_or_default();
                    code.and_then(|code| u8::from_str_radix(code, 16).ok()).filter(u8::is_ascii)
                }
                Some(byte @ (b'"' | b'\\' | b'/')) => Some(byte),
                _ => None, // control characters, which no word or name has
            })
        })
    }
}

/// A member of an object.
#[derive(Clone, Copy, Debug, PartialEq, Eq)]
pub struct Member<'a> {
    /// Its key.
    pub key: Text<'a>,
    /// Its value, which blanks may follow.
    pub value: &'a [u8],
}

impl<'a> Member<'a> {
    /// The value, if it is a string.
    pub fn text(&self) -> Option<Text<'a>> {
        let end = self.value.iter().rposition(|&byte| !is_blank(byte))?;
        self.value[..=end].strip_prefix(b"\"")?.strip_suffix(b"\"").map(Text)
    }
}

/// An iterator over the members of a line's object.
pub struct Members<'a> {
    line: &'a [u8],
    at: usize,
}

impl<'a> Members<'a> {
    /// The members of a line; none if it is no object.
    pub fn of(line: &'a [u8]) -> Members<'a> {
        let first = past_blanks(line, 0);
        let at = if line.get(first) == Some(&b'{') { first + 1 } else { line.len() };
        Members { line, at }
    }

    /// Moves past a string whose opening quote is before `self.at`. Returns the end of the string.
    fn skip_text(&mut self) -> Option<usize> {
        loop {
            self.at += memchr2(b'"', b'\\', self.line.get(self.at..)?)? + 1;
            if self.line[self.at - 1] == b'"' {
                return Some(self.at - 1);
            }
            self.at += 1; // the escaped character
        }
    }

    /// Moves past a value, to the comma or the bracket that ends it.
    fn skip_value(&mut self) -> Option<()> {
        let mut depth = 0_usize;
        loop {
            match self.line.get(self.at)? {
                b'"' => {
                    self.at += 1;
                    self.skip_text()?;
                    continue;
                }
                b'{' | b'[' => depth += 1,
                b',' if depth == 0 => return Some(()),
                b'}' | b']' => match depth.checked_sub(1) {
                    Some(less) => depth = less,
                    None => return Some(()),
                },
                _ => {}
            }
            self.at += 1;
        }
    }
}

impl<'a> Iterator for Members<'a> {
    type Item = Member<'a>;

    fn next(&mut self) -> Option<Member<'a>> {
        self.at = past_blanks(self.line, self.at);
        if self.line.get(self.at) == Some(&b',') {
            self.at = past_blanks(self.line, self.at + 1);
        }
        if self.line.get(self.at) != Some(&b'"') {
            return None;
        }
        self.at += 1;
        let begin = self.at;
        let end = self.skip_text()?;
        self.at = past_blanks(self.line, self.at);
        if self.line.get(self.at) != Some(&b':') {
            return None;
        }
        self.at = past_blanks(self.line, self.at + 1);
        let value = self.at;
        self.skip_value()?;
        Some(Member { key: Text(&self.line[begin..end]), value: &self.line[value..self.at] })
    }
}

#[cfg(test)]
mod tests {
    use super::*;

    #[test]
    fn members_stand_in_their_order() {
        let line = br#" { "a" : "x,}\"" ,"b":[1,{"c":2}], "\u0064":{} }"#;
        let keys: Vec<_> = Members::of(line).map(|member| member.key.0).collect();
        assert_eq!(keys, [&b"a"[..], b"b", b"\\u0064"]);
        assert!(Members::of(line).last().is_some_and(|member| member.key.is("d")));
        assert_eq!(Members::of(line).next().unwrap().text(), Some(Text(b"x,}\\\"")));
    }

    #[test]
    fn broken_lines_end_somewhere() {
        for line in ["{", "{\"", "{\"a\\", "{\"a\":", "{\"a\":\"\\", "{,", "{\"a\"}", "}{", "{]"] {
            assert_eq!(Members::of(line.as_bytes()).count(), 0, "{line}");
        }
    }

    #[test]
    fn texts_are_compared_however_written() {
        assert!(Text(b"publish").is("publish"));
        assert!(Text(br"\u0070ublish").is("publish"));
        assert!(Text(br"\/").is("/"));
        for text in [r"\u00", r"\", r"\upublish", r"publish\", r"\u1070ublish"] {
            assert!(!Text(text.as_bytes()).is("publish"), "{text}");
        }
    }
}
