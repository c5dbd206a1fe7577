//! Tokens of an expression.

use super::value_type::{Basic, CHAR, DOUBLE, FLOAT};
use crate::types::text::printable;
use ctfd_read::error::{refuse, Error, Result};

/// An integer literal; its suffix limits the types that it may have.
#[derive(Clone, Copy, Debug, PartialEq, Eq)]
pub struct Literal {
    /// Its value.
    pub value: u64,
    /// Whether it is decimal, so that its type is signed unless it has the suffix `u`.
    pub is_decimal: bool,
    /// Whether it has the suffix `u`.
    pub is_unsigned: bool,
    /// How many `l` its suffix has.
    pub longs: usize,
}

/// A token.
#[derive(Clone, Debug, PartialEq)]
pub enum Token {
    /// An integer.
    Whole(Literal),
    /// A floating-point number with its type.
    Point(f64, Basic),
    /// A character in quotes.
    Character(i128),
    Name(Vec<u8>),
    /// A name in quotes, which may contain any characters.
    QuotedName(Vec<u8>),
    /// A register of a debugger.
    Register(Vec<u8>),
    /// An operator or bracket, such as `->` or `(`.
    Sign(&'static str),
}

/// Operators and brackets, longer ones first.
const SIGNS: [&str; 41] = [
    "<<=", ">>=", "->", "<<", ">>", "<=", ">=", "==", "!=", "&&", "||", "++", "--", "+=", "-=",
    "*=", "/=", "%=", "&=", "|=", "^=", "::", "+", "-", "*", "/", "%", "&", "|", "^", "~", "!",
    "<", ">", "?", ":", "@", "(", ")", "[", "]",
];
const LAST_SIGNS: [&str; 3] = [".", ",", "="];
/// The most characters of a number, including prefix and suffix.
const LONGEST_NUMBER: usize = 64;

impl Token {
    /// Whether it is this sign.
    pub fn is(&self, sign: &str) -> bool {
        matches!(self, Token::Sign(own) if *own == sign)
    }
}

/// The tokens of an expression, each with its offset.
pub fn tokens(expression: &[u8]) -> Result<Vec<(usize, Token)>> {
    let mut made = Vec::new();
    let mut at = 0;
    while let Some(blanks) = expression[at..].iter().position(|byte| !byte.is_ascii_whitespace()) {
        at += blanks;
        let (token, length) = token(&expression[at..])?;
        made.push((at, token));
        at += length;
    }
    Ok(made)
}

/// The first token, and its length.
fn token(rest: &[u8]) -> Result<(Token, usize)> {
    let next = rest.get(1).copied().unwrap_or(0);
    match rest[0] {
        b'0'..=b'9' => number(rest),
        b'.' if next.is_ascii_digit() => number(rest),
        b'\'' => in_quotes(rest),
        b'"' => refuse("texts in quotes are not made: nothing is written to the program"),
        b'$' => {
            let length = 1 + name_length(&rest[1..]);
            Ok((Token::Register(rest[1..length].to_vec()), length))
        }
        first if is_name(first) => {
            let length = name_length(rest);
            Ok((Token::Name(rest[..length].to_vec()), length))
        }
        _ => {
            let mut signs = SIGNS.iter().chain(&LAST_SIGNS);
            match signs.find(|sign| rest.starts_with(sign.as_bytes())) {
                Some(sign) => Ok((Token::Sign(sign), sign.len())),
                None => refuse(format!("what is '{}'?", printable(rest.trim_ascii()))),
            }
        }
    }
}

fn is_name(byte: u8) -> bool {
    byte == b'_' || byte.is_ascii_alphanumeric() || byte >= 0x80
}

fn name_length(rest: &[u8]) -> usize {
    rest.iter().take_while(|&&byte| is_name(byte)).count()
}

/// Parses a number, integer or floating-point.
fn number(rest: &[u8]) -> Result<(Token, usize)> {
    let is_hexadecimal = rest.len() > 1 && rest[0] == b'0' && rest[1] | 32 == b'x';
    let mut length = 0;
    while let Some(&byte) = rest.get(length) {
        let before = rest[..length].last().map_or(0, |byte| byte | 32);
        let is_sign = matches!(byte, b'+' | b'-') && before == b'e' && !is_hexadecimal;
        if !(byte == b'.' || is_sign || byte.is_ascii_alphanumeric()) {
            break;
        }
        length += 1;
    }
    let text = std::str::from_utf8(&rest[..length]).unwrap_or_default();
    let no_number = || {
        let cut: String = text.chars().take(24).collect();
        let dots = if cut.len() < text.len() { ".." } else { "" };
        Error(format!("{cut}{dots} is no number of 64 bits"))
    };
    if text.len() > LONGEST_NUMBER {
        return Err(no_number());
    }
    let is_point = text.contains('.') || !is_hexadecimal && text.contains(['e', 'E']);
    let made = match is_point && !text.starts_with("0b") {
        true => point(text),
        false => integer_literal(text).map(Token::Whole),
    };
    made.map(|token| (token, length)).ok_or_else(no_number)
}

fn point(text: &str) -> Option<Token> {
    let (digits, of) = match text.strip_suffix(['f', 'F']) {
        Some(digits) => (digits, FLOAT),
        None => (text, DOUBLE),
    };
    let number: f64 = digits.parse().ok().filter(|number: &f64| number.is_finite())?;
    let number = if of == FLOAT { f64::from(number as f32) } else { number };
    Some(Token::Point(number, of))
}

fn integer_literal(text: &str) -> Option<Literal> {
    let lower = text.to_ascii_lowercase();
    let (digits, base) = match (lower.strip_prefix("0x"), lower.strip_prefix("0b")) {
        (Some(digits), _) => (digits, 16),
        (None, Some(digits)) => (digits, 2),
        _ if lower.len() > 1 && lower.starts_with('0') => (&lower[1..], 8),
        _ => (lower.as_str(), 10),
    };
    let front = digits.trim_end_matches(['u', 'l']);
    let suffix = &digits[front.len()..];
    let longs = suffix.matches('l').count();
    let unsigned = suffix.matches('u').count();
    let is_suffix = longs <= 2 && unsigned <= 1 && !suffix.contains("lul");
    // For "0" with a suffix, the prefix of an octal number took the only digit.
    let front = if front.is_empty() && base == 8 { "0" } else { front };
    let value = u64::from_str_radix(front, base).ok().filter(|_| is_suffix)?;
    Some(Literal { value, is_decimal: base == 10, is_unsigned: unsigned == 1, longs })
}

/// Parses a character, or the name of a symbol in quotes.
fn in_quotes(rest: &[u8]) -> Result<(Token, usize)> {
    let mut end = 1;
    while let Some(&byte) = rest.get(end) {
        match byte {
            b'\'' => break,
            b'\\' => end += 2,
            _ => end += 1,
        }
    }
    if end >= rest.len() {
        return refuse(format!("what is '{}'? A quote is not closed", printable(rest)));
    }
    let text = &rest[1..end];
    let token = match character(text) {
        Some(code) => Token::Character(code),
        None => Token::QuotedName(text.to_vec()),
    };
    Ok((token, end + 1))
}

/// The value of a single character or escape; None for any other text.
fn character(text: &[u8]) -> Option<i128> {
    let code = match *text {
        [plain] if plain != b'\\' => plain,
        [b'\\', b'x', ref digits @ ..] if !digits.is_empty() => {
            u8::from_str_radix(std::str::from_utf8(digits).ok()?, 16).ok()?
        }
        [b'\\', ref digits @ ..] if digits.first().is_some_and(u8::is_ascii_digit) => {
            u8::from_str_radix(std::str::from_utf8(digits).ok()?, 8).ok()?
        }
        [b'\\', escaped] => match escaped {
            b'a' => 7,
            b'b' => 8,
            b'e' => 27,
            b'f' => 12,
            b'n' => b'\n',
            b'r' => b'\r',
            b't' => b'\t',
            b'v' => 11,
            b'\\' | b'\'' | b'"' => escaped,
            _ => return None,
        },
        _ => return None,
    };
    debug_assert_eq!(CHAR.size, 1);
    Some(i128::from(code as i8))
}

#[cfg(test)]
mod tests {
    use super::*;

    fn tokens_of(expression: &str) -> Vec<Token> {
        tokens(expression.as_bytes()).unwrap().into_iter().map(|(_, token)| token).collect()
    }

    fn literal(value: u64) -> Literal {
        Literal { value, is_decimal: true, is_unsigned: false, longs: 0 }
    }

    #[test]
    fn words_and_signs() {
        let name = |text: &str| Token::Name(text.as_bytes().to_vec());
        let sign = Token::Sign;
        assert_eq!(
            tokens_of("*(struct a_1 *)$rdi->b[0x1F].c + 'x.0'"),
            [
                sign("*"),
                sign("("),
                name("struct"),
                name("a_1"),
                sign("*"),
                sign(")"),
                Token::Register(b"rdi".to_vec()),
                sign("->"),
                name("b"),
                sign("["),
                Token::Whole(Literal { is_decimal: false, ..literal(31) }),
                sign("]"),
                sign("."),
                name("c"),
                sign("+"),
                Token::QuotedName(b"x.0".to_vec()),
            ]
        );
        assert_eq!(
            tokens_of("a<<b<=c"),
            ["a", "<<", "b", "<=", "c"].map(|word| match word {
                "<<" => sign("<<"),
                "<=" => sign("<="),
                other => name(other),
            })
        );
    }

    #[test]
    fn numbers_as_c_has_them() {
        assert_eq!(tokens_of("5 0 017 0b101")[..2], [5, 0].map(|one| Token::Whole(literal(one))));
        let value = |text: &str| match &tokens_of(text)[..] {
            [Token::Whole(one)] => one.value,
            other => panic!("{other:?}"),
        };
        assert_eq!([value("017"), value("0b101"), value("0XffUL"), value("0u")], [15, 5, 255, 0]);
        assert_eq!(value("18446744073709551615"), u64::MAX);
        assert_eq!(
            tokens_of("1.5 2e3 .5f"),
            [Token::Point(1.5, DOUBLE), Token::Point(2000.0, DOUBLE), Token::Point(0.5, FLOAT)]
        );
        for wrong in ["018", "18446744073709551616", "1lul", "0xg", "1e999", "1.2.3", "12ab"] {
            let error = tokens(wrong.as_bytes()).unwrap_err();
            assert_eq!(error.0, format!("{wrong} is no number of 64 bits"));
        }
        let long = tokens("9".repeat(99).as_bytes()).unwrap_err();
        assert_eq!(long.0, format!("{}.. is no number of 64 bits", "9".repeat(24)));
    }

    #[test]
    fn characters_and_names_in_quotes() {
        for (text, code) in [("'a'", 97), (r"'\n'", 10), (r"'\101'", 65), (r"'\x41'", 65)] {
            assert_eq!(tokens_of(text), [Token::Character(code)]);
        }
        assert_eq!(tokens_of(r"'\377'"), [Token::Character(-1)]);
        assert_eq!(tokens_of("'a.1'"), [Token::QuotedName(b"a.1".to_vec())]);
        assert!(tokens(b"'a").is_err() && tokens(b"a ; b").is_err() && tokens(b"\"a\"").is_err());
    }
}
