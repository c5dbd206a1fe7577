//! `ctfd-show`: prints variables of a running process or a core file.

mod arithmetic;
mod evaluation;
mod file_types;
mod floats;
mod leaves;
mod linked;
mod lookups;
mod modules;
mod operand;
mod options;
mod parser;
mod printing;
mod process;
mod quoting;
mod reading;
mod space;
mod spelling;
mod steps;
mod syntax;
mod target;
mod texts;
mod tokens;
mod type_names;
mod value_type;
mod watch;

use crate::standard;
use crate::types::output::{self, Output};
use crate::types::text::printable;
use crate::types::warn_by;
use ctfd_read::error::{Error, Result};
use ctfd_read::opening::has_dictionary;
use leaves::Style;
use modules::{modules, Module};
use options::{Follow, Words, NAME};
use printing::Printer;
use quoting::Limits;
use space::Space;
use std::cell::OnceCell;
use std::ffi::OsString;
use std::io::{self, Write as _};
use std::process::ExitCode;
use target::{Source, Target, TypesOfFiles};

const REFUSED: u8 = 2;
/// The most repeats of a value that are printed, rather than counted; as in gdb.
const REPEATS: usize = 10;

/// The answer to an expression: a line, or one for each node of a list.
type Answers = std::result::Result<Vec<String>, String>;

/// Why the command failed.
enum Failure {
    Refused(Error),
    Unwritten(io::Error),
}

impl From<Error> for Failure {
    fn from(error: Error) -> Failure {
        Failure::Refused(error)
    }
}

impl From<io::Error> for Failure {
    fn from(error: io::Error) -> Failure {
        Failure::Unwritten(error)
    }
}

/// Runs the command, and returns its exit status.
pub fn main(words: Vec<OsString>) -> ExitCode {
    let words = Words::parse(words);
    if standard::is_output_closed() {
        warn_by(NAME, standard::CLOSED);
        return ExitCode::from(REFUSED);
    }
    match run(&words) {
        Ok(true) => ExitCode::SUCCESS,
        Ok(false) => ExitCode::from(REFUSED),
        Err(Failure::Unwritten(error)) => output::lost(NAME, REFUSED, &error),
        Err(Failure::Refused(error)) => {
            warn_by(NAME, &error.0);
            ExitCode::from(REFUSED)
        }
    }
}

/// Answers the expressions. Returns whether none was refused.
fn run(words: &Words) -> std::result::Result<bool, Failure> {
    let space = Space::of(words)?;
    let modules = modules(&space, words.types.is_none(), |line| warn_by(NAME, line))?;
    let sources = sources(words, &modules);
    let typed: TypesOfFiles = sources.iter().map(|_| OnceCell::new()).collect();
    let target = Target::new(&space, &modules, sources, &typed, words);
    target.judge_types()?;
    let limits = Limits { elements: words.elements, repeats: REPEATS };
    let style = Style { limits, is_hexadecimal: words.is_hexadecimal };
    let printer = Printer::new(&target, style);
    let mut shower = Shower { printer, words, output: Output::new() };
    match &words.watch {
        Some(watch) => watch::watch(&mut shower, watch),
        None => shower.show_all(),
    }
}

/// The sources of types: the file that the user named for the program, and the mapped files.
fn sources<'w>(words: &Words, modules: &'w [Module]) -> Vec<Source<'w>> {
    let program = modules.iter().find(|one| one.is_program);
    let named = words.types.as_ref().map(|path| Source {
        module: program,
        named: Some(path.clone()),
        has_dictionary: true,
    });
    let is_replaced = |one: &&Module| named.is_some() && one.is_program;
    let mapped = modules.iter().filter(|one| !is_replaced(one)).map(|one| Source {
        module: Some(one),
        named: None,
        has_dictionary: has_dictionary(&one.image),
    });
    let mapped: Vec<Source<'w>> = mapped.collect();
    named.into_iter().chain(mapped).collect()
}

/// Prints the answers to expressions.
struct Shower<'s, 't> {
    printer: Printer<'s, 't>,
    words: &'s Words,
    output: Output,
}

impl Shower<'_, '_> {
    /// Prints all answers, up to the first refused expression unless `--keep-going` is given.
    /// Returns whether none was refused.
    fn show_all(&mut self) -> std::result::Result<bool, Failure> {
        let mut is_whole = true;
        for expression in &self.words.expressions {
            match self.answer(expression) {
                Ok(lines) => {
                    for line in lines {
                        writeln!(self.output, "{line}")?;
                    }
                }
                Err(error) => {
                    self.output.flush()?;
                    if !self.words.goes_on {
                        return Err(error.into());
                    }
                    warn_by(NAME, &error.0);
                    is_whole = false;
                }
            }
        }
        self.output.flush()?;
        Ok(is_whole)
    }

    /// The answer to each expression.
    fn answers(&self) -> Vec<Answers> {
        let listed = self.words.expressions.iter();
        listed.map(|one| self.answer(one).map_err(|error| error.0)).collect()
    }

    fn answer(&self, expression: &[u8]) -> Result<Vec<String>> {
        self.value(expression).map_err(|error| error.of(printable(expression)))
    }

    fn value(&self, expression: &[u8]) -> Result<Vec<String>> {
        let target = self.printer.target;
        let operand = target.evaluate(expression)?;
        match &self.words.follow {
            None => Ok(vec![self.printer.operand(&operand)?]),
            Some(Follow { member, inside }) => {
                let inside = inside.as_deref().map(|name| target.type_of(name)).transpose()?;
                self.printer.list(&operand, member, inside.as_ref())
            }
        }
    }

    /// Prints an answer of a watch after its expression.
    fn show_change(&mut self, number: usize, answers: &Answers) -> io::Result<()> {
        let expression = printable(&self.words.expressions[number]);
        match answers {
            Ok(lines) if self.words.follow.is_some() => {
                writeln!(self.output, "{expression}:")?;
                lines.iter().try_for_each(|line| writeln!(self.output, "{line}"))
            }
            Ok(lines) => writeln!(self.output, "{expression} = {}", lines.join("\n")),
            Err(why) => {
                self.output.flush()?;
                warn_by(NAME, why);
                Ok(())
            }
        }
    }
}
