//! Characters and texts in quotes, as gdb prints them if its charset is ASCII.

/// The limits of a text.
#[derive(Clone, Copy, Debug)]
pub struct Limits {
    /// The most characters that are printed.
    pub elements: usize,
    /// The most repeats of a character that are printed, rather than counted.
    pub repeats: usize,
}

/// A character, escaped if it is not printable ASCII.
fn character(code: u32, quote: char) -> String {
    match code {
        7 => "\\a".to_owned(),
        8 => "\\b".to_owned(),
        9 => "\\t".to_owned(),
        10 => "\\n".to_owned(),
        11 => "\\v".to_owned(),
        12 => "\\f".to_owned(),
        13 => "\\r".to_owned(),
        0x20..=0x7e => {
            let plain = char::from(code as u8);
            let escape = if plain == '\\' || plain == quote { "\\" } else { "" };
            format!("{escape}{plain}")
        }
        0..=0o777 => format!("\\{code:03o}"),
        _ => format!("\\x{code:x}"),
    }
}

/// Consecutive characters. A hexadecimal digit after a hexadecimal escape is escaped too, so that
/// it is not taken for a part of that.
fn characters(codes: &[u32], is_behind_number: &mut bool) -> String {
    let mut made = String::new();
    for &code in codes {
        let is_digit = u8::try_from(code).is_ok_and(|code| code.is_ascii_hexdigit());
        match is_digit && *is_behind_number {
            true => made += &format!("\\{code:03o}"),
            false => made += &character(code, '"'), // gdb escapes the quote of texts everywhere
        }
        *is_behind_number = code > 0o777;
    }
    made
}

/// A character in quotes, after a prefix.
pub fn quote_character(code: u32, prefix: &str) -> String {
    format!("{prefix}'{}'", character(code, '\''))
}

/// A text in quotes. A character that repeats often is printed once and counted. The text ends at
/// the limit, but after the last repeat of the character there. `has_more` says that the text goes
/// on after `codes`.
pub fn quote(codes: &[u32], limits: Limits, has_more: bool, prefix: &str) -> String {
    let mut segments: Vec<String> = Vec::new();
    let (mut plain, mut printed, mut has_more) = (String::new(), 0, has_more);
    let mut is_behind_number = false;
    for group in codes.chunk_by(|one, other| one == other) {
        if printed >= limits.elements {
            has_more = true;
            break;
        }
        printed += group.len();
        if group.len() > limits.repeats {
            let text = characters(&group[..1], &mut is_behind_number);
            if !plain.is_empty() {
                segments.push(format!("{prefix}\"{plain}\""));
                plain.clear();
            }
            segments.push(format!("{prefix}'{text}' <repeats {} times>", group.len()));
        } else {
            plain += &characters(group, &mut is_behind_number);
        }
    }
    if !plain.is_empty() || segments.is_empty() {
        segments.push(format!("{prefix}\"{plain}\""));
    }
    segments.join(", ") + if has_more { "..." } else { "" }
}

#[cfg(test)]
mod tests {
    use super::*;

    fn quoted_text(text: &str, elements: usize, has_more: bool) -> String {
        let codes: Vec<u32> = text.bytes().map(u32::from).collect();
        quote(&codes, Limits { elements, repeats: 10 }, has_more, "")
    }

    #[test]
    fn texts_are_cut_and_counted() {
        assert_eq!(quoted_text("plain", 200, false), "\"plain\"");
        assert_eq!(quoted_text("plain", 200, true), "\"plain\"...");
        assert_eq!(quoted_text("", 200, false), "\"\"");
        assert_eq!(quoted_text("abc", 2, false), "\"ab\"...");
        let many = format!("a{}b", "c".repeat(12));
        assert_eq!(quoted_text(&many, 200, false), "\"a\", 'c' <repeats 12 times>, \"b\"");
        assert_eq!(quoted_text("a\"\\\n\u{1}", 200, false), r#""a\"\\\n\001""#);
        let wide = [0x20ac, 97, 97, 0x20ac, 122];
        let limits = Limits { elements: 200, repeats: 10 };
        assert_eq!(quote(&wide, limits, false, "L"), r#"L"\x20ac\141a\x20acz""#);
    }

    #[test]
    fn characters_are_escaped() {
        for (code, text) in
            [(65, "'A'"), (39, r"'\''"), (34, "'\"'"), (200, r"'\310'"), (0x20ac, r"'\x20ac'")]
        {
            assert_eq!(quote_character(code, ""), text);
        }
        assert_eq!(quote_character(65, "L"), "L'A'");
    }
}
