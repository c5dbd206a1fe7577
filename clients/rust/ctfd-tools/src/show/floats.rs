//! Floating-point numbers formatted with as many digits as in gdb.
//!
//! Each is an integer times a power of two, so it has an exact decimal form. Its first digits are
//! kept, and the last is rounded to the nearest, or to even if both are equally near.

use super::value_type::{COMPLEX, DOUBLE_ENCODING, EXTENDED, SINGLE};

/// The sizes of the x87's format in memory, in bytes.
const EXTENDED_SIZES: [u64; 3] = [10, 12, 16];
const EXTENDED_DIGITS: usize = 21;
/// The base of the parts of a large number: each has nine digits.
const PART: u64 = 1_000_000_000;

/// A binary format of IEEE 754: its bits, and the number of decimal digits that tell its numbers
/// apart.
struct Format {
    bits: u32,
    fraction: u32,
    digits: usize,
}

fn format_of(encoding: u8) -> Option<Format> {
    match encoding {
        SINGLE => Some(Format { bits: 32, fraction: 23, digits: 9 }),
        DOUBLE_ENCODING => Some(Format { bits: 64, fraction: 52, digits: 17 }),
        _ => None,
    }
}

/// Formats the number with these bits. `encoding` is the dictionary's, and `size` in bytes. If the
/// format is not known, the result is hexadecimal.
pub fn format_float(bits: u128, encoding: u8, size: u64) -> String {
    if let Some(format) = format_of(encoding).filter(|one| u64::from(one.bits) == 8 * size) {
        return format_binary(bits as u64, &format);
    }
    let part = COMPLEX.iter().find(|(whole, _)| *whole == encoding).map(|(_, part)| *part);
    if let Some(format) = part.and_then(format_of) {
        if u64::from(2 * format.bits) == 8 * size {
            let (real, other) = (bits as u64, (bits >> format.bits) as u64);
            return format!(
                "{} + {}i",
                format_binary(real, &format),
                format_binary(other, &format)
            );
        }
    }
    if encoding == EXTENDED && EXTENDED_SIZES.contains(&size) {
        return format_extended(bits);
    }
    format!("0x{bits:0width$x}", width = 2 * size as usize)
}

/// Formats a complex number of the x87's format, whose bits are 64 hexadecimal digits.
pub fn format_extended_pair(digits: &str) -> Option<String> {
    let digits = digits.strip_prefix("0x").filter(|digits| digits.len() == 64)?;
    let part = |range| u128::from_str_radix(digits.get(range)?, 16).ok();
    let (real, other) = (part(32..64)?, part(0..32)?);
    Some(format!("{} + {}i", format_extended(real), format_extended(other)))
}

fn sign(is_below: bool) -> &'static str {
    if is_below {
        "-"
    } else {
        ""
    }
}

fn format_binary(bits: u64, format: &Format) -> String {
    let width = format.bits - format.fraction - 1; // of the exponent
    let fraction = bits & ((1 << format.fraction) - 1);
    let exponent = bits >> format.fraction & ((1 << width) - 1);
    let minus = sign(bits >> (format.bits - 1) & 1 == 1);
    let bias = (1i32 << (width - 1)) - 1 + format.fraction as i32;
    match exponent {
        _ if exponent == (1 << width) - 1 && fraction != 0 => format!("{minus}nan(0x{fraction:x})"),
        _ if exponent == (1 << width) - 1 => format!("{minus}inf"),
        0 => format!("{minus}{}", general(fraction, 1 - bias, format.digits)),
        _ => {
            let whole = fraction | 1 << format.fraction;
            format!("{minus}{}", general(whole, exponent as i32 - bias, format.digits))
        }
    }
}

/// Formats the x87's 80 bits, which include the first digit of the significand.
fn format_extended(bits: u128) -> String {
    let (whole, high) = (bits as u64, (bits >> 64) as u16);
    let (minus, exponent) = (sign(high >> 15 == 1), i32::from(high & 0x7fff));
    if exponent == 0x7fff {
        return match whole << 1 {
            0 => format!("{minus}inf"),
            _ => format!("{minus}nan(0x{whole:x})"),
        };
    }
    format!("{minus}{}", general(whole, exponent.max(1) - 16383 - 63, EXTENDED_DIGITS))
}

/// Formats `whole` times two to the `power`, as C's `%.*g` does.
fn general(whole: u64, power: i32, digits: usize) -> String {
    if whole == 0 {
        return "0".to_owned();
    }
    let Decimal { digits: listed, exponent } = decimal(whole, power).round(digits);
    let text = String::from_utf8_lossy(&listed).into_owned();
    let trimmed = |text: &str| text.trim_end_matches('0').trim_end_matches('.').to_owned();
    if exponent < -4 || exponent >= digits as i32 {
        let mantissa = trimmed(&format!("{}.{}", &text[..1], &text[1..]));
        let minus = if exponent < 0 { '-' } else { '+' };
        return format!("{mantissa}e{minus}{:02}", exponent.abs());
    }
    if exponent < 0 {
        return trimmed(&format!("0.{}{text}", "0".repeat(-exponent as usize - 1)));
    }
    let point = exponent as usize + 1;
    trimmed(&format!("{}.{}", &text[..point], &text[point..]))
}

/// The decimal digits of a number; the first counts ten to the `exponent`.
struct Decimal {
    digits: Vec<u8>,
    exponent: i32,
}

impl Decimal {
    /// Rounds to `count` digits; if there are fewer, zeros are appended.
    fn round(mut self, count: usize) -> Decimal {
        if self.digits.len() > count {
            let rest = self.digits.split_off(count);
            let is_odd = self.digits[count - 1] % 2 == 1;
            let is_half = rest[0] == b'5' && rest[1..].iter().all(|&digit| digit == b'0');
            if rest[0] > b'5' || rest[0] == b'5' && (!is_half || is_odd) {
                self.increment();
            }
        }
        self.digits.resize(count, b'0');
        self
    }

    fn increment(&mut self) {
        let nines = self.digits.iter().rev().take_while(|&&digit| digit == b'9').count();
        let end = self.digits.len() - nines;
        self.digits[end..].fill(b'0');
        match self.digits[..end].last_mut() {
            Some(last) => *last += 1,
            None => {
                self.digits.insert(0, b'1');
                self.digits.pop();
                self.exponent += 1;
            }
        }
    }
}

/// All digits of `whole` times two to the `power`.
fn decimal(whole: u64, power: i32) -> Decimal {
    // For a negative power, multiplies by fives instead, and moves the decimal point.
    let mut large = LargeNumber(vec![whole % PART, whole / PART % PART, whole / PART / PART]);
    let (factor, count) = if power < 0 { (5, -power) } else { (2, power) };
    large.multiply(factor, count as u32);
    let digits = large.digits();
    let places = if power < 0 { -power } else { 0 };
    let exponent = digits.len() as i32 - 1 - places;
    Decimal { digits, exponent }
}

/// A large integer in parts of nine digits, the lowest first.
struct LargeNumber(Vec<u64>);

impl LargeNumber {
    /// Multiplies by a small factor, `count` times.
    fn multiply(&mut self, factor: u64, count: u32) {
        let at_once = if factor == 5 { 12 } else { 28 }; // powers below 2^30
        let mut left = count;
        while left != 0 {
            let step = left.min(at_once);
            let by = factor.pow(step);
            let mut carry = 0;
            for part in &mut self.0 {
                let made = *part * by + carry;
                *part = made % PART;
                carry = made / PART;
            }
            if carry != 0 {
                self.0.push(carry);
            }
            left -= step;
        }
    }

    fn digits(&self) -> Vec<u8> {
        let text: String = self.0.iter().rev().map(|part| format!("{part:09}")).collect();
        text.trim_start_matches('0').as_bytes().to_vec()
    }
}

#[cfg(test)]
mod tests {
    use super::*;

    fn double(number: f64) -> String {
        format_float(number.to_bits().into(), DOUBLE_ENCODING, 8)
    }

    #[test]
    #[allow(clippy::excessive_precision)]
    fn doubles_are_those_of_c() {
        for (number, text) in [
            (0.0, "0"),
            (-0.0, "-0"),
            (0.5, "0.5"),
            (0.1, "0.10000000000000001"),
            (1e21, "1e+21"),
            (1e16, "10000000000000000"),
            (123_456_789.125, "123456789.125"),
            (1e-5, "1.0000000000000001e-05"),
            (f64::MAX, "1.7976931348623157e+308"),
            (5e-324, "4.9406564584124654e-324"),
            (f64::INFINITY, "inf"),
            (1_234_567_890_123.031_25, "1234567890123.0312"),
            (9_999_999_999_999_999.5, "10000000000000000"),
            (-3.25, "-3.25"),
        ] {
            assert_eq!(double(number), text);
        }
        assert_eq!(
            format_float(f64::NAN.to_bits().into(), DOUBLE_ENCODING, 8),
            "nan(0x8000000000000)"
        );
    }

    #[test]
    fn others_have_their_own_digits() {
        assert_eq!(format_float((1f32 / 3.0).to_bits().into(), SINGLE, 4), "0.333333343");
        let complex = u128::from(2f32.to_bits()) << 32 | u128::from(1f32.to_bits());
        assert_eq!(format_float(complex, 3, 8), "1 + 2i");
        let long = 0x3fff_u128 << 64 | 0xc000_0000_0000_0000; // 1.5
        assert_eq!(format_float(long, EXTENDED, 16), "1.5");
        assert_eq!(format_float(0x7fff_u128 << 64 | 1 << 63, EXTENDED, 16), "inf");
        assert_eq!(format_float(5, 9, 2), "0x0005");
    }
}
