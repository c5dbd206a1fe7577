//! Build-ids: bytes in a note that a linker writes, different for each build of a program.

use ctfd_read::error::{refuse, Result};
use std::fmt::{self, Display};

/// The sizes of build-ids that debuginfod's clients accept, in bytes.
const FEWEST: usize = 2;
const MOST: usize = 64;

/// A build-id as hexadecimal digits, which name its folder in a store.
#[derive(Clone, Debug, PartialEq, Eq, PartialOrd, Ord, Hash)]
pub struct BuildId(String);

impl BuildId {
    /// The build-id from the bytes of a note. Fails if debuginfod does not accept it.
    pub fn of_bytes(bytes: &[u8]) -> Result<BuildId> {
        match bytes.len() {
            0 => refuse("it has no build-id, which the linker writes (--build-id)"),
            FEWEST..=MOST => Ok(BuildId(bytes.iter().map(|byte| format!("{byte:02x}")).collect())),
            length => refuse(format!(
                "its build-id has {length} bytes, and debuginfod takes {FEWEST} to {MOST}"
            )),
        }
    }

    /// The build-id from the digits in a path; None if they are no build-id.
    pub fn of_digits(digits: &str) -> Option<BuildId> {
        let is_digit = |byte: u8| matches!(byte, b'0'..=b'9' | b'a'..=b'f');
        let is_id = digits.len() % 2 == 0
            && (2 * FEWEST..=2 * MOST).contains(&digits.len())
            && digits.bytes().all(is_digit);
        is_id.then(|| BuildId(digits.to_owned()))
    }

    pub fn bytes(&self) -> Vec<u8> {
        let byte = |at: usize| u8::from_str_radix(&self.0[at..at + 2], 16).unwrap_or(0);
        (0..self.0.len()).step_by(2).map(byte).collect()
    }

    pub fn digits(&self) -> &str {
        &self.0
    }
}

impl Display for BuildId {
    fn fmt(&self, to: &mut fmt::Formatter<'_>) -> fmt::Result {
        self.0.fmt(to)
    }
}

#[cfg(test)]
mod tests {
    use super::BuildId;

    #[test]
    fn build_ids_of_odd_lengths_are_refused() {
        let id = BuildId::of_bytes(&[0x0a, 0xff]).unwrap();
        assert_eq!((id.digits(), id.bytes()), ("0aff", vec![0x0a, 0xff]));
        for length in [0, 1, 65, 200] {
            assert!(BuildId::of_bytes(&vec![1; length]).is_err(), "{length}");
        }
        let long = "ab".repeat(65);
        for digits in ["", "ab", "abc", "abcde", "ABCD", "../x", "ab/d", "abcg", &long] {
            assert!(BuildId::of_digits(digits).is_none(), "{digits}");
        }
        assert!(BuildId::of_digits(&long[2..]).is_some());
    }
}
