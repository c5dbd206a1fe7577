//! Tests of core files: memory and mapped files are read, and damaged files are read or refused.

mod chance;

use chance::Chance;
use ctfd::Model;
use ctfd_read::core_file::{CoreFile, MappedFile, Mapping};
use ctfd_read::error::Result;
use ctfd_read::image::Image;
use std::path::PathBuf;

const DAMAGES: usize = 3000;
const BASE: u64 = 0x40_0000;
const AUXILIARY: u32 = 6;
const FILES: u32 = 0x4649_4c45;
const ENTRY: u64 = 9;

fn longs(numbers: &[u64]) -> Vec<u8> {
    numbers.iter().flat_map(|number| number.to_le_bytes()).collect()
}

fn note(kind: u32, text: &[u8]) -> Vec<u8> {
    let head = [5, text.len() as u32, kind].map(u32::to_le_bytes).concat();
    let mut made = [&head, &b"CORE\0\0\0\0"[..], text].concat();
    made.resize(made.len().next_multiple_of(4), 0);
    made
}

fn segment(kind: u32, offset: u64, address: u64, length: u64) -> Vec<u8> {
    let words = [kind, 6].map(u32::to_le_bytes).concat();
    [words, longs(&[offset, address, 0, length, length, 1])].concat()
}

/// A core file of a program at `BASE`, with 16 bytes of memory at `BASE + 0x1000`.
fn core() -> Vec<u8> {
    let files = [&longs(&[2, 4096]), &longs(&[BASE - 0x3000, BASE - 0x1000, 2]) as &[u8]];
    let files = [&files.concat(), &longs(&[BASE, BASE + 0x2000, 0]), &b"/lib/a\0/bin/none\0"[..]];
    let auxiliary = longs(&[3, 64, ENTRY, BASE + 16, 0, 0]);
    let notes = [note(FILES, &files.concat()), note(AUXILIARY, &auxiliary)].concat();
    let at = 64 + 2 * 56;
    let halves = |listed: &[u16]| -> Vec<u8> {
        listed.iter().flat_map(|number| number.to_le_bytes()).collect()
    };
    let mut made = b"\x7fELF\x02\x01\x01\0\0\0\0\0\0\0\0\0".to_vec();
    made.extend([halves(&[4, 62]), vec![1, 0, 0, 0], longs(&[0, 64, 0]), vec![0; 4]].concat());
    made.extend(halves(&[64, 56, 2, 64, 0, 0]));
    made.extend(segment(4, at, 0, notes.len() as u64));
    made.extend(segment(1, at + notes.len() as u64, BASE + 0x1000, 16));
    made.extend(notes);
    made.extend(0..16);
    made
}

fn read(bytes: Vec<u8>, program: Option<&str>) -> Result<CoreFile> {
    let image = Image::of_bytes(PathBuf::from("core"), bytes);
    CoreFile::of_image(image, program.map(str::as_ref))
}

fn file(path: &str, mapping: Mapping, is_program: bool) -> MappedFile {
    let path = PathBuf::from(path);
    MappedFile { path: path.clone(), places: vec![path], mappings: vec![mapping], is_program }
}

#[test]
fn memory_and_files() {
    let found = read(core(), None).unwrap();
    let program = Mapping { start: BASE, end: BASE + 0x2000, offset: 0 };
    let library = Mapping { start: BASE - 0x3000, end: BASE - 0x1000, offset: 0x2000 };
    let files = [file("/bin/none", program, true), file("/lib/a", library, false)];
    assert_eq!((found.files(), found.model()), (&files[..], Model::Lp64));
    assert_eq!(found.read(BASE + 0x1004, 4), [4, 5, 6, 7]);
    assert_eq!(found.read(BASE + 0x100c, 99), [12, 13, 14, 15]);
    assert_eq!(found.read(BASE, 4), b"");
    let named = read(core(), Some("/tmp/other")).unwrap();
    assert_eq!(named.files()[0], file("/tmp/other", program, true));
}

#[test]
fn what_is_no_core_file_is_refused() {
    let refusal = |bytes| read(bytes, None).map(|_| ()).unwrap_err().0;
    assert_eq!(refusal(b"no file".to_vec()), "core: no ELF file");
    let mut program = core();
    program[16] = 3;
    assert_eq!(refusal(program), "core: an ELF file that is no core file");
    let mut big = core();
    big[5] = 2;
    assert!(refusal(big).starts_with("core: a big-endian ELF file"));
    let mut many = core();
    let count = many.windows(8).position(|one| one == 2u64.to_le_bytes()).unwrap();
    many[count + 4] = 1;
    assert_eq!(refusal(many), "core: a core file that is cut off or damaged");
    let mut unnamed = core();
    let entry = unnamed.windows(8).position(|one| one == (BASE + 16).to_le_bytes()).unwrap();
    unnamed[entry + 4] = 1;
    let said = read(unnamed, Some("/tmp/other")).map(|_| ()).unwrap_err().0;
    assert_eq!(said, "core does not record where its program was in memory");
}

/// Files that are cut at each byte, or damaged: results stay within the file, and nothing panics.
#[test]
fn damaged_core_files_are_read_or_refused() {
    let whole = core();
    let mut accepted = 0;
    let mut judge = |bytes: Vec<u8>| {
        let Ok(found) = read(bytes, None) else { return };
        accepted += 1;
        assert!(found.files().len() <= 2);
        for address in [0, BASE + 0x1000, u64::MAX] {
            assert!(found.read(address, 64).len() <= 64);
        }
    };
    (0..whole.len()).for_each(|end| judge(whole[..end].to_vec()));
    let mut chance = Chance::new();
    for round in 0..DAMAGES {
        let mut bytes = whole.clone();
        for _ in 0..=round % 3 {
            let place = 4 + chance.below(bytes.len() - 4);
            bytes[place] = [0, 1, 0x7f, 0xff][chance.below(4)];
        }
        judge(bytes);
    }
    assert!(accepted > 1000);
}
