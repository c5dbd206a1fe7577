//! The reason why a file has no dictionary that can be read, and what to do about it.

use crate::elf;
use crate::error::{Error, Result};
use crate::image::Image;
use crate::inputs::{foreign, Form};
use crate::opening::{has_others, SECTIONS};

const CONVERTS: &str = "which is not read as it is; ctfd-convert makes CTF of version 2 of it";

/// The reason why a file has no dictionary of version 2, in a line for the user.
pub fn why_no_dictionary(image: &Image) -> Error {
    let path = image.path().display().to_string();
    let why = if image.is_elf() { why_in_elf(image, &path) } else { why_of_bytes(image) };
    why.unwrap_or_else(|error| error).within(&path)
}

fn why_in_elf(image: &Image, path: &str) -> Result<Error> {
    for name in SECTIONS {
        let data = elf::section_bytes(image, name)?;
        if let Some(form) = Form::of(data) {
            return Ok(Error(format!("{path}, {name}: {form}, {CONVERTS}")));
        }
    }
    let advice = match has_others(image) {
        true => format!("it has debug information: `ctfd-convert {path} OUT` makes CTF of it"),
        false => "compile it with -g, and let ctfd-convert make CTF of that".to_owned(),
    };
    Ok(Error(format!("an ELF file without .SUNW_ctf or .ctf; {advice}")))
}

fn why_of_bytes(image: &Image) -> Result<Error> {
    let data = image.all()?;
    Ok(Error(match Form::of(data) {
        _ if data.is_empty() => "it is empty".to_owned(),
        Some(form) => format!("{form}, {CONVERTS}"),
        None if data.starts_with(b"!<arch>\n") => {
            "an archive, of whose members each is a file: take them out by `ar x`".to_owned()
        }
        None => foreign(data),
    }))
}
