//! `ctfd-front`, linked with libctfd.

use std::process::ExitCode;

fn main() -> ExitCode {
    ctfd_front::main(ctfd_tools::refuse)
}
