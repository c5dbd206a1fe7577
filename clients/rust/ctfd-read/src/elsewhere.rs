//! A source of types by build-id, for programs that have none themselves, and no debug file on this
//! machine.

use crate::error::Result;
use crate::image::Image;
use std::fmt;
use std::sync::Arc;

/// A source of types, by the build-ids of programs.
pub trait Finder: Send + Sync {
    /// A file with the types of a build; `None` if there is none.
    fn find(&self, build_id: &[u8]) -> Result<Option<Image>>;
}

/// The source to ask, if there is one.
#[derive(Clone, Default)]
pub struct Elsewhere(Option<Arc<dyn Finder>>);

impl Elsewhere {
    /// Asks this source.
    pub fn new(asked: Arc<dyn Finder>) -> Elsewhere {
        Elsewhere(Some(asked))
    }

    /// Whether there is a source to ask.
    pub fn is_there(&self) -> bool {
        self.0.is_some()
    }

    /// A file with the types of a build; `None` if there is none, or no source.
    pub fn find(&self, build_id: &[u8]) -> Result<Option<Image>> {
        match &self.0 {
            Some(asked) if !build_id.is_empty() => asked.find(build_id),
            _ => Ok(None),
        }
    }
}

impl fmt::Debug for Elsewhere {
    fn fmt(&self, to: &mut fmt::Formatter<'_>) -> fmt::Result {
        to.write_str("Elsewhere")
    }
}
