//! Address spaces: the memory of a process or a core file, and the mapped files.

use super::options::{Place, Words};
use super::process::Process;
use ctfd_read::core_file::{CoreFile, MappedFile};
use ctfd_read::error::Result;

/// An address space.
pub enum Space {
    /// A running process.
    Process(Process),
    /// A core file.
    Core(CoreFile),
}

impl Space {
    /// The address space of the command line.
    pub fn of(words: &Words) -> Result<Space> {
        match &words.place {
            Place::Process(pid) => Process::open(*pid).map(Space::Process),
            Place::Core(path) => CoreFile::open(path, words.program.as_deref()).map(Space::Core),
        }
    }

    /// The name for messages.
    pub fn name(&self) -> String {
        match self {
            Space::Process(process) => process.name(),
            Space::Core(core) => core.path().display().to_string(),
        }
    }

    /// The mapped files; the program comes first.
    pub fn files(&self) -> &[MappedFile] {
        match self {
            Space::Process(process) => process.files(),
            Space::Core(core) => core.files(),
        }
    }

    /// At most `length` bytes at an address: as many as can be read.
    pub fn read(&self, address: u64, length: u64) -> Vec<u8> {
        match self {
            Space::Process(process) => process.read(address, length),
            Space::Core(core) => core.read(address, length),
        }
    }

    /// Whether it is a process that has ended meanwhile.
    pub fn has_ended(&self) -> bool {
        matches!(self, Space::Process(process) if process.has_ended())
    }
}
