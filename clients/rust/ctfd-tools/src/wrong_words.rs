//! Wrong command lines, refused in one line that names `--help`.

use crate::messages::{self, REFUSED};
use clap::error::{ContextKind, ContextValue, Error, ErrorKind};
use clap::{ArgMatches, Command};
use std::ffi::OsString;

/// Parses a command line. A wrong one ends the process with status 2; `--help` and `--version` end
/// it with status 0.
pub fn parse_words(command: Command, words: Vec<OsString>) -> ArgMatches {
    command.clone().try_get_matches_from(words).unwrap_or_else(|error| refuse(&command, &error))
}

/// Ends the process with a message that refuses the command line.
pub fn refuse_because(command: &Command, said: &str) -> ! {
    messages::warn(command.get_name(), with_advice(command, said.into()));
    std::process::exit(REFUSED.into())
}

/// Ends the process for an error of clap: a wrong command line, or one that asks for help.
pub fn refuse(command: &Command, error: &Error) -> ! {
    if error.use_stderr() {
        refuse_because(command, &sentence(command, error));
    }
    error.exit()
}

fn with_advice(command: &Command, said: String) -> String {
    format!("{said}; see {} --help", command.get_name())
}

fn sentence(command: &Command, error: &Error) -> String {
    if error.kind() == ErrorKind::UnknownArgument {
        return unknown(command, error);
    }
    let text = error.to_string();
    let paragraph = text.split("\n\n").next().unwrap_or_default();
    let words: Vec<&str> = paragraph.split_whitespace().collect();
    words.join(" ").trim_start_matches("error: ").to_owned()
}

/// The message for an unknown word, with the nearest option if the help lists it.
fn unknown(command: &Command, error: &Error) -> String {
    let word = text_of(error, ContextKind::InvalidArg).unwrap_or_default();
    let sort = if word.starts_with('-') { "no option" } else { "no place for" };
    let is_shown = |near: &&str| {
        let name = near.trim_start_matches("--");
        let named = command.get_arguments().find(|argument| argument.get_long() == Some(name));
        named.is_some_and(|argument| !argument.is_hide_set())
    };
    match text_of(error, ContextKind::SuggestedArg).filter(is_shown) {
        Some(near) => format!("{sort} {word} (did you mean {near}?)"),
        None => format!("{sort} {word}"),
    }
}

fn text_of(error: &Error, kind: ContextKind) -> Option<&str> {
    error.context().find_map(|(of, value)| match value {
        ContextValue::String(text) if of == kind => Some(text.as_str()),
        _ => None,
    })
}

#[cfg(test)]
mod tests {
    use super::*;
    use clap::Arg;

    fn refusal_of(words: &[&str]) -> String {
        let command = Command::new("tool")
            .arg(Arg::new("file").required(true))
            .arg(Arg::new("size").long("size").value_parser(clap::value_parser!(u8)))
            .arg(Arg::new("gone").long("gone").hide(true));
        let words = ["tool"].iter().chain(words);
        let error = command.clone().try_get_matches_from(words).unwrap_err();
        with_advice(&command, sentence(&command, &error))
    }

    #[test]
    fn one_line_names_the_word_and_help() {
        let rows: [(&[&str], &str); 5] = [
            (&["a", "--siz9"], "no option --siz9 (did you mean --size?); see tool --help"),
            (&["a", "--gon"], "no option --gon; see tool --help"),
            (&["a", "b"], "no place for b; see tool --help"),
            (&[], "The following required arguments were not provided: <file>; see tool --help"),
            (
                &["a", "--size", "900"],
                "Invalid value '900' for '--size <size>': 900 is not in 0..=255; see tool --help",
            ),
        ];
        for (words, line) in rows {
            assert_eq!(refusal_of(words), line);
        }
    }
}
