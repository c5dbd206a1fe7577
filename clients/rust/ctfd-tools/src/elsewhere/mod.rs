//! Types by build-id, from the stores of `--store` or CTFD_STORE.

mod cache;
mod child;
mod place;

use crate::store::BuildId;
use ctfd_read::elsewhere::{Elsewhere, Finder};
use ctfd_read::error::{refuse, Error, Result};
use ctfd_read::image::Image;
use ctfd_read::inputs::Options;
use place::Place;
use std::env;
use std::path::Path;
use std::sync::Arc;

/// The environment variable that names stores.
const VARIABLE: &str = "CTFD_STORE";
/// The variable of debuginfod's clients; its servers have the debug information of distributions.
const DISTRIBUTIONS: &str = "DEBUGINFOD_URLS";
/// The fewest digits of a build-id given in place of a file: fewer may be the name of a type.
const FEWEST_DIGITS: usize = 16;

/// The stores to ask, in order.
struct Stores(Vec<Place>);

impl Finder for Stores {
    fn find(&self, build_id: &[u8]) -> Result<Option<Image>> {
        let id = BuildId::of_bytes(build_id)?;
        for place in &self.0 {
            if let Some(found) = place.find(&id)? {
                return Ok(Some(found));
            }
        }
        Ok(None)
    }
}

/// The stores that `word` names, else those of the environment. There may be none.
pub fn of(word: Option<&str>) -> Elsewhere {
    let listed = match word {
        Some(word) => word.to_owned(),
        None => env::var(VARIABLE).unwrap_or_default(),
    };
    let mut places: Vec<Place> = match Path::new(&listed).is_dir() {
        true => vec![Place::store(&listed)],
        false => listed.split_whitespace().map(Place::store).collect(),
    };
    if places.is_empty() {
        return Elsewhere::default();
    }
    let urls = env::var(DISTRIBUTIONS).unwrap_or_default();
    if !urls.trim().is_empty() {
        places.push(Place::distribution(&urls));
    }
    Elsewhere::new(Arc::new(Stores(places)))
}

/// Opens a file; if the path is a build-id instead, opens what a store has for it.
pub fn open(path: &Path, reading: &Options) -> Result<Image> {
    let digits = path.to_str().map(str::to_ascii_lowercase).unwrap_or_default();
    let id = BuildId::of_digits(&digits).filter(|_| digits.len() >= FEWEST_DIGITS);
    let Some(id) = id.filter(|_| !path.exists()) else { return Image::open(path) };
    if !reading.elsewhere.is_there() {
        return refuse(format!(
            "{id}: no such file: a store by {VARIABLE} or --store has build-ids"
        ));
    }
    match reading.elsewhere.find(&id.bytes())? {
        Some(image) => Ok(image),
        None => Err(Error(format!("{id}: no store has this build"))),
    }
}
