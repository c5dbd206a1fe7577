//! All commands of ctfd, in one program; the name of the program selects the command.
//!
//! Separate from `ctfd-tools`, so that that crate compiles while libctfd.a is built, and only this
//! one waits to be linked with it.

use std::process::ExitCode;

fn main() -> ExitCode {
    ctfd_tools::main()
}
