//! Tests of damaged files: they are read or refused, and nothing panics, whatever their bytes are.

mod chance;

use chance::Chance;
use ctfd_read::dictionary;
use ctfd_read::image::Image;
use ctfd_read::inputs::{with_types, Options};
use object::read::ReadRef as _;
use std::path::PathBuf;

/// Reads some bytes as a file, and makes a dictionary if they can be read. Returns whether they
/// can.
fn read(bytes: Vec<u8>) -> bool {
    let image = Image::of_bytes(PathBuf::from("damaged"), bytes);
    let made = with_types(&image, &Options::default(), |found| {
        let (found, _) = dictionary::select(found, &[])?;
        dictionary::alone(found.table, found.symbols).bytes()
    });
    made.is_ok()
}

fn damage(whole: &[u8], rounds: usize) {
    let mut chance = Chance::new();
    let mut accepted = 0;
    for _ in 0..rounds {
        let mut bytes = whole.to_vec();
        for _ in 0..=chance.below(3) {
            let place = chance.below(bytes.len());
            bytes[place] = [0, 1, 0x7f, 0x80, 0xff][chance.below(5)];
        }
        if chance.below(4) == 0 {
            bytes.truncate(chance.below(bytes.len()));
        }
        accepted += usize::from(read(bytes));
    }
    assert!(accepted > 0, "all of {rounds} damaged files were refused");
}

#[test]
fn damaged_dictionaries_are_read_or_refused() {
    let path = concat!(env!("CARGO_MANIFEST_DIR"), "/../../../examples/zlib.ctf");
    damage(&std::fs::read(path).unwrap(), 2000);
}

#[test]
fn nothing_is_read_behind_the_end() {
    let image = Image::of_bytes(PathBuf::from("short"), vec![7; 16]);
    for (place, size) in [(0, 17), (8, 1 << 32), (64, u64::MAX - 63), (17, 0), (1, u64::MAX)] {
        assert!(image.data().read_bytes_at(place, size).is_err(), "{size} bytes at {place}");
    }
    assert_eq!(image.data().read_bytes_at(8, 8), Ok(&[7u8; 8][..]));
    let backwards = std::ops::Range { start: 9, end: 8 };
    assert!(image.data().read_bytes_at_until(backwards, 0).is_err());
}

/// BTF of `int` and of `struct node { struct node *next; int value : 3; }`.
fn btf() -> Vec<u8> {
    let names = b"\0int\0node\0next\0value\0";
    let words: [u32; 16] = [
        1,
        1 << 24,
        4,
        1 << 24 | 32, // 1: int
        5,
        4 << 24 | 2 | 1 << 31,
        16, // 2: struct node
        10,
        3,
        0, // next
        15,
        1,
        3 << 24 | 64, // value
        0,
        2 << 24,
        2, // 3: struct node *
    ];
    let mut bytes = vec![0x9f, 0xeb, 1, 0];
    for word in [24, 0, 64, 64, names.len() as u32] {
        bytes.extend(word.to_le_bytes());
    }
    words.iter().for_each(|word| bytes.extend(word.to_le_bytes()));
    bytes.extend(names);
    bytes
}

#[test]
fn damaged_btf_is_read_or_refused() {
    damage(&btf(), 5000);
}

#[test]
fn btf_is_read() {
    let image = Image::of_bytes(PathBuf::from("own.btf"), btf());
    let names = with_types(&image, &Options::default(), |found| {
        Ok(found.table.records.iter().map(|record| record.tag_name()).collect::<Vec<_>>())
    });
    assert_eq!(names.unwrap(), ["int", "struct node", ""]);
}

#[test]
fn what_is_nothing_is_refused_in_a_sentence() {
    let image = Image::of_bytes(PathBuf::from("none"), b"hello".to_vec());
    let refused = with_types(&image, &Options::default(), |_| Ok(())).unwrap_err();
    assert_eq!(
        refused.to_string(),
        "none: neither an ELF file nor a CTF section: it begins with 68656c6c, and CTF with f1cf02"
    );
}
