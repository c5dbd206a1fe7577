//! Decompression with libzstd. This crate binds the two functions that it needs: Debian's crates
//! that bind all of libzstd generate their bindings during the build, with clang and forty crates.

/// The reason why nothing was decompressed.
#[derive(Clone, Copy, Debug, PartialEq, Eq)]
pub enum Refusal {
    /// The bytes are damaged, or decompress to another length.
    Damaged,
    /// The program was built without libzstd.
    NotBuilt,
}

/// Decompresses bytes. The result must have exactly `length` bytes.
pub fn decompress(bytes: &[u8], length: usize) -> Result<Vec<u8>, Refusal> {
    let mut made = vec![0; length];
    match library::decompress(&mut made, bytes)? {
        count if count == length => Ok(made),
        _ => Err(Refusal::Damaged),
    }
}

#[cfg(has_zstd)]
mod library {
    use super::Refusal;
    use std::ffi::c_uint;

    extern "C" {
        fn ZSTD_decompress(to: *mut u8, room: usize, from: *const u8, length: usize) -> usize;
        fn ZSTD_isError(code: usize) -> c_uint;
    }

    /// Decompresses into a buffer. Returns the number of bytes written.
    pub fn decompress(to: &mut [u8], from: &[u8]) -> Result<usize, Refusal> {
        // SAFETY: it writes only into the buffer, and reads only the bytes.
        let code = unsafe { ZSTD_decompress(to.as_mut_ptr(), to.len(), from.as_ptr(), from.len()) };
        // SAFETY: it only looks at the number.
        match unsafe { ZSTD_isError(code) } {
            0 => Ok(code),
            _ => Err(Refusal::Damaged),
        }
    }
}

#[cfg(not(has_zstd))]
mod library {
    use super::Refusal;

    pub fn decompress(_: &mut [u8], _: &[u8]) -> Result<usize, Refusal> {
        Err(Refusal::NotBuilt)
    }
}

#[cfg(all(test, has_zstd))]
mod tests {
    use super::*;

    /// "ctfd" a hundred times, compressed by `zstd`.
    const MADE: &[u8] = &[
        0x28, 0xb5, 0x2f, 0xfd, 0x60, 0x90, 0x00, 0x5d, 0x00, 0x00, 0x20, 0x63, 0x74, 0x66, 0x64,
        0x01, 0x00, 0x89, 0xd4, 0x4b, 0x04,
    ];

    #[test]
    fn what_was_compressed_comes_back() {
        assert_eq!(decompress(MADE, 400), Ok(b"ctfd".repeat(100)));
    }

    #[test]
    fn another_length_and_damage_are_refused() {
        for length in [0, 399, 401, 4000] {
            assert_eq!(decompress(MADE, length), Err(Refusal::Damaged), "{length}");
        }
        for end in 0..MADE.len() {
            assert_eq!(decompress(&MADE[..end], 400), Err(Refusal::Damaged), "{end}");
        }
    }
}
