//! Which command the words name, and what they give it.

use super::{Ended, help, map, run};
use crate::shown::shown;
use std::ffi::{OsStr, OsString};
use std::io::Write;
use std::path::{Path, PathBuf};

/// A command.
pub struct Command {
    /// One word, or a group's word and its own.
    name: &'static str,
    page: &'static str,
    /// What must be given, in this order.
    operands: &'static [&'static str],
    /// What may be given beside, in any place.
    options: &'static [&'static str],
    pub act: fn(&Given, &mut dyn Write) -> Ended,
}

/// All commands.
static COMMANDS: [Command; 4] = [
    Command { name: "run", page: help::RUN, operands: &["PLAN"], options: &["--json", "--strict"], act: run::run },
    Command { name: "map build", page: help::BUILD, operands: &["CELLS", "OUT"], options: &[], act: map::build },
    Command { name: "map show", page: help::SHOW, operands: &["FILE"], options: &["--json"], act: map::show },
    Command { name: "check", page: help::CHECK, operands: &["FILE"], options: &[], act: map::check },
];

/// The word that groups commands.
const GROUP: &str = "map";

/// What is due behind the group's word.
fn in_group() -> String {
    let grouped = COMMANDS.iter().filter_map(|command| command.name.strip_prefix(GROUP)?.strip_prefix(' '));
    grouped.collect::<Vec<_>>().join(" or ")
}

/// What a command is given: all its operands, and some of its options.
pub struct Given {
    operands: Vec<PathBuf>,
    options: Vec<&'static str>,
}

impl Given {
    /// An operand, by its place among those that the command must be given.
    pub fn operand(&self, place: usize) -> &Path {
        &self.operands[place]
    }

    /// Whether an option is given.
    pub fn has(&self, option: &str) -> bool {
        self.options.contains(&option)
    }
}

/// What the words ask for.
pub enum Choice {
    Page(&'static str),
    Version,
    Command(&'static Command, Given),
}

/// What the words ask for; else what is wrong with them.
pub fn choose(words: &[OsString]) -> Result<Choice, String> {
    match words {
        [] => Err(help::OVERVIEW.to_string()),
        [first, rest @ ..] if is_help(first) => page_of(rest).map(Choice::Page),
        [first, rest @ ..] if first == "--version" || first == "-V" => match rest.first() {
            Some(word) if is_help(word) => Ok(Choice::Page(help::OVERVIEW)),
            Some(word) => Err(too_many("", word)),
            None => Ok(Choice::Version),
        },
        _ => match named(words)? {
            Named::Command(command, rest) => given(command, rest),
            Named::Group([]) => Err(wrong(GROUP, format!("{} is missing", in_group()))),
            Named::Group([word, ..]) if is_help(word) => Ok(Choice::Page(help::MAP)),
            Named::Group([word, ..]) => Err(not_in_group(word)),
        },
    }
}

/// What the first words name, and the words behind.
enum Named<'w> {
    Command(&'static Command, &'w [OsString]),
    Group(&'w [OsString]),
}

fn named(words: &[OsString]) -> Result<Named<'_>, String> {
    for command in &COMMANDS {
        let length = command.name.split(' ').count();
        if words.len() >= length && command.name.split(' ').zip(words).all(|(name, word)| word == name) {
            return Ok(Named::Command(command, &words[length..]));
        }
    }
    match words {
        [group, rest @ ..] if group == GROUP => Ok(Named::Group(rest)),
        [word, ..] => Err(wrong("", format!("'{}' is not a command", shown(word)))),
        [] => Err(wrong("", "a command is missing".to_string())),
    }
}

/// The page for a command, by its words; the overview, which has `help` too, for none.
fn page_of(words: &[OsString]) -> Result<&'static str, String> {
    if words.first().is_none_or(|word| is_help(word)) {
        return Ok(help::OVERVIEW);
    }
    match named(words)? {
        Named::Command(command, []) => Ok(command.page),
        Named::Command(_, [word, ..]) => Err(too_many("", word)),
        Named::Group([]) => Ok(help::MAP),
        Named::Group([word, ..]) => Err(not_in_group(word)),
    }
}

/// Sorts the words behind a command's name. A file called `help` can't be the first of them; `./help` can.
fn given(command: &'static Command, words: &[OsString]) -> Result<Choice, String> {
    let asks_help = |word: &OsString| word == "--help" || word == "-h";
    if words.first().is_some_and(|word| is_help(word)) || words.iter().any(asks_help) {
        return Ok(Choice::Page(command.page));
    }
    let mut given = Given { operands: Vec::new(), options: Vec::new() };
    for word in words {
        let is_option = word.as_encoded_bytes().starts_with(b"-") && word != "-";
        match command.options.iter().find(|option| word == **option) {
            Some(option) => given.options.push(option),
            None if is_option => {
                return Err(wrong(command.name, format!("'{}' is not an option of it", shown(word))));
            }
            None if given.operands.len() == command.operands.len() => return Err(too_many(command.name, word)),
            None => given.operands.push(word.into()),
        }
    }
    match command.operands.get(given.operands.len()) {
        Some(operand) => Err(wrong(command.name, format!("{operand} is missing"))),
        None => Ok(Choice::Command(command, given)),
    }
}

fn is_help(word: &OsStr) -> bool {
    word == "help" || word == "--help" || word == "-h"
}

fn too_many(name: &str, word: &OsStr) -> String {
    wrong(name, format!("'{}' is a word too many", shown(word)))
}

fn not_in_group(word: &OsStr) -> String {
    wrong(GROUP, format!("'{}' is not {}", shown(word), in_group()))
}

/// What is wrong with the words of a command, and where help is. Without a name it is no command in particular.
fn wrong(name: &str, what: String) -> String {
    let command = format!("codwalet {name}");
    let command = command.trim_end();
    format!("{command}: {what}; see {command} --help")
}

#[cfg(test)]
mod tests {
    use super::*;

    #[test]
    fn pages_fit_a_terminal_and_name_what_is_taken() {
        for command in &COMMANDS {
            for word in [command.operands, command.options].concat() {
                assert!(command.page.contains(word), "the page of {} lacks {word}", command.name);
            }
            let (_, statuses) = command.page.split_once("Exit status: 0 ").expect("the page has the statuses");
            assert!(statuses.contains(", 1 ") && statuses.contains("2 a mistake"), "{statuses}");
        }
        for page in COMMANDS.iter().map(|command| command.page).chain([help::OVERVIEW, help::MAP]) {
            let fits = page.lines().count() <= 24 && page.lines().all(|line| line.chars().count() <= 80);
            assert!(fits && page.ends_with('\n'), "{page}");
        }
    }
}
