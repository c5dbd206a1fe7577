//! `ctfd-store check`: checks each file of a store.

use super::build_id::BuildId;
use super::builds::{sums_of, Store, INDEX, LOCK, LONGEST_FILE};
use super::entry::{copy_of, ABOUT, DEBUG_FILE, DICTIONARY, PROGRAM, SECTIONS, SYMBOLS};
use super::folder::Folder;
use super::index::{Sums, BUILD_IDS};
use super::options::NAME;
use super::stage::{abandoned_folders, STAGES};
use crate::messages::LOSSY;
use crate::progress::Bar;
use crate::types::failure::{Failure, Outcome};
use crate::types::open::display_path;
use crate::types::output::Output;
use crate::types::warn_by;
use ctfd_read::debuggee::Debuggee;
use ctfd_read::error::{refuse, Error, Result};
use ctfd_read::image::Image;
use ctfd_read::opening::{dictionary_of, Origin};
use ctfd_read::progress::Progress as _;
use rayon::prelude::*;
use std::collections::BTreeMap;
use std::io::Write as _;
use std::path::Path;
use std::sync::atomic::{AtomicU64, Ordering};

/// Advice on what to do.
const ADDED_AGAIN: &str = "add its program again";
const MENDED: &str = "the next add, of whatever, writes the sums anew";

/// Checks a store, and reports what is wrong, one line each. Returns the exit status.
pub fn run(path: &Path) -> Outcome<u8> {
    let store = Store::open(path)?;
    let sums = store.sums()?;
    let names = store.names()?;
    let bar = Bar::new(format!("checking {}", display_path(path)));
    let (count, total) = (AtomicU64::new(0), names.len() as u64);
    let judged = |name: &String| {
        let found = judge_name(&store, name, &sums).err().map(|error| error.to_string());
        bar.advance(count.fetch_add(1, Ordering::Relaxed) + 1, total);
        found
    };
    let mut wrong: Vec<String> = names.par_iter().filter_map(judged).collect();
    bar.end();
    wrong.extend(strangers(&store)?);
    wrong.extend(
        missing(&sums, &names)
            .map(|id| format!("{BUILD_IDS}/{id}: {INDEX} has it, and it is not there: {MENDED}")),
    );
    wrong.iter().for_each(|line| warn_by(NAME, &format!("{}/{line}", display_path(path))));
    let mut lines = Output::new();
    writeln!(lines, "{}: {} builds, {} wrong", display_path(path), names.len(), wrong.len())?;
    lines.flush()?;
    Ok(if wrong.is_empty() { 0 } else { LOSSY })
}

/// The builds that the index has, but not the store.
fn missing<'s>(
    sums: &'s BTreeMap<BuildId, Sums>,
    names: &'s [String],
) -> impl Iterator<Item = &'s BuildId> {
    sums.keys().filter(|id| names.binary_search_by(|name| name.as_str().cmp(id.digits())).is_err())
}

/// Lines on what is in a store besides its builds, its index and the folders of running commands.
fn strangers(store: &Store) -> Result<Vec<String>> {
    let left = abandoned_folders(store)?;
    let told = |name: String| match name.as_str() {
        BUILD_IDS | INDEX | LOCK => None,
        name if name.starts_with(INDEX) => None, // such as a signature of it
        name if left.iter().any(|one| one == name) => {
            Some(format!("{name}: left by a command that was ended: the next add removes it"))
        }
        name if name.starts_with(STAGES) => None,
        name => Some(format!("{name}: no file of a store")),
    };
    Ok(store.root().names()?.into_iter().filter_map(told).collect())
}

fn judge_name(store: &Store, name: &str, sums: &BTreeMap<BuildId, Sums>) -> Result<()> {
    let place = format!("{BUILD_IDS}/{name}");
    let judge = || {
        let Some(id) = BuildId::of_digits(name) else { return refuse("no build-id") };
        match store.build(&id)? {
            Some(build) => judge_build(&id, &build, sums.get(&id)),
            None => refuse("it went away"),
        }
    };
    judge().map_err(|error| error.of(place))
}

/// Refuses a build with wrong files, or with other files than the index has.
fn judge_build(id: &BuildId, build: &Folder, listed: Option<&Sums>) -> Result<()> {
    let sums = sums_of(build)?;
    if let Some(listed) = listed {
        judge_sums(&sums, listed)?;
    }
    if let Some(name) = sums.keys().find(|name| !is_of_build(name)) {
        return refuse(format!("{name}: no file of a store"));
    }
    judge_content(id, build, sums.contains_key(PROGRAM))?;
    match listed {
        Some(_) => Ok(()),
        None => refuse(format!("{INDEX} does not have it: {MENDED}")),
    }
}

/// Refuses files that differ from those of the index.
fn judge_sums(sums: &Sums, listed: &Sums) -> Result<()> {
    if let Some(name) = sums.keys().find(|name| listed.get(*name) != sums.get(*name)) {
        return refuse(format!("{name} is not the file that {INDEX} has: {ADDED_AGAIN}"));
    }
    match listed.keys().find(|name| !sums.contains_key(*name)) {
        Some(name) => refuse(format!("{INDEX} has {name}, and it is not there: {ADDED_AGAIN}")),
        None => Ok(()),
    }
}

/// Refuses files of another build, sections that differ from those of the debug file, and a
/// dictionary that the library refuses.
fn judge_content(id: &BuildId, build: &Folder, has_program: bool) -> Result<()> {
    let debug_file = image_of(build, DEBUG_FILE)?;
    judge_id(id, &debug_file)?;
    if build.file(ABOUT)?.is_none() {
        return refuse(format!("{ABOUT} is not there: {ADDED_AGAIN}"));
    }
    let Some(copies) = build.child(SECTIONS)? else {
        return refuse(format!("{SECTIONS} is not there: {ADDED_AGAIN}"));
    };
    judge_dictionary(&copies, &debug_file)?;
    judge_copies(&copies, &debug_file)?;
    match has_program {
        true => judge_id(id, &image_of(build, PROGRAM)?),
        false => Ok(()),
    }
}

fn is_of_build(name: &str) -> bool {
    let is_section = name.strip_prefix(SECTIONS).is_some_and(|rest| rest.starts_with('/'));
    is_section || [DEBUG_FILE, PROGRAM, ABOUT].contains(&name)
}

fn image_of(build: &Folder, name: &str) -> Result<Image> {
    match build.bytes(name, LONGEST_FILE)? {
        Some(bytes) => Ok(Image::of_bytes(name.into(), bytes)),
        None => refuse(format!("{name} is not there: {ADDED_AGAIN}")),
    }
}

/// Refuses a file of another build.
fn judge_id(id: &BuildId, image: &Image) -> Result<()> {
    let found = BuildId::of_bytes(Debuggee::of(image)?.build_id());
    match found.map_err(|error| error.of(image.path().display()))? {
        found if found == *id => Ok(()),
        found => refuse(format!("{}: it is of build {found}", image.path().display())),
    }
}

/// Refuses a dictionary that the library refuses, or that was not written for the symbols of the
/// debug file.
fn judge_dictionary(copies: &Folder, debug_file: &Image) -> Result<()> {
    let image = image_of(copies, DICTIONARY)?;
    let Some(mut handed) = dictionary_of(&image, None)? else {
        return refuse(format!("{DICTIONARY}: no dictionary of CTF version 2"));
    };
    handed.model = Some(Debuggee::of(debug_file)?.model);
    handed.add_symbols_of(debug_file)?;
    if handed.origin == Origin::Differs {
        return refuse(format!("{DICTIONARY}: {}", handed.origin.warning()));
    }
    let opened = ctfd::Dictionary::open_lent(&handed.ctf, handed.options()).map(drop);
    opened.map_err(|refusal| Error(Failure::of_library(DICTIONARY, refusal).to_string()))
}

/// Refuses copies of sections that differ from those of the debug file, which may lack the
/// dictionary.
fn judge_copies(copies: &Folder, debug_file: &Image) -> Result<()> {
    let own = [DICTIONARY].into_iter().chain(SYMBOLS).map(|name| copy_of(debug_file, name));
    let wanted: Vec<(String, Vec<u8>)> =
        own.filter_map(Result::transpose).collect::<Result<_>>()?;
    for (name, bytes) in &wanted {
        let copy = copies.bytes(name.rsplit('/').next().unwrap_or(name), LONGEST_FILE)?;
        if copy.as_ref() != Some(bytes) {
            return refuse(format!("{name}: not that of {DEBUG_FILE}"));
        }
    }
    let is_known = |name: &String| {
        name == DICTIONARY || wanted.iter().any(|(known, _)| known.ends_with(&format!("/{name}")))
    };
    match copies.names()?.into_iter().find(|name| !is_known(name)) {
        None => Ok(()),
        Some(name) => refuse(format!("{SECTIONS}/{name}: {DEBUG_FILE} has no such section")),
    }
}
