//! The words of a command line: which command, its words, its options.

use std::ffi::{OsStr, OsString};
use std::os::unix::ffi::{OsStrExt, OsStringExt};
use std::path::Path;

use lotlog::Digest;

use crate::said::{Outcome, Trouble};
use crate::teller::Teller;
use crate::text::shown;

/// An option with its values.
pub struct Choice {
    pub name: &'static str,
    /// What stands behind it, a word for each value.
    pub values: &'static [&'static str],
    pub text: &'static str,
}

/// A subcommand: what it is called with, what its help says, and what it does.
pub struct Command {
    pub name: &'static str,
    /// What stands behind its name, for the help.
    pub words: &'static str,
    /// The fewest and the most words that are no options.
    pub least: usize,
    pub most: usize,
    pub choices: &'static [Choice],
    /// What it does, in a line.
    pub summary: &'static str,
    /// What a caller may rely on.
    pub text: &'static str,
    pub run: fn(&Words, &Teller) -> Outcome,
}

impl Command {
    pub fn usage(&self) -> String {
        format!("usage: lot {} {}", self.name, self.words)
    }
}

/// A command line that was understood as far as its form goes.
pub struct Words {
    pub command: &'static Command,
    plain: Vec<OsString>,
    chosen: Vec<(&'static str, Vec<OsString>)>,
    pub json: bool,
    pub quiet: bool,
    pub help: bool,
}

impl Words {
    /// Reads what stands behind the command's name.
    pub fn read(command: &'static Command, line: &[OsString]) -> Result<Words, Trouble> {
        let (plain, chosen) = (vec![], vec![]);
        let mut words = Words { command, plain, chosen, json: false, quiet: false, help: false };
        let mut left = line.iter();
        while let Some(word) = left.next() {
            match word.as_bytes() {
                b"--" => {
                    words.plain.extend(left.by_ref().cloned());
                }
                b"-" => words.plain.push(word.clone()),
                [b'-', ..] => words.take_option(word, &mut left)?,
                _ => words.plain.push(word.clone()),
            }
        }
        if !words.help {
            words.must_have_enough()?;
        }
        Ok(words)
    }

    fn trouble(&self, text: String) -> Trouble {
        Trouble::usage(text, self.command.usage())
    }

    fn take_option<'a>(
        &mut self,
        word: &OsStr,
        left: &mut impl Iterator<Item = &'a OsString>,
    ) -> Result<(), Trouble> {
        let (flag, name) = match word.as_bytes() {
            b"--json" => (&mut self.json, "--json"),
            b"-q" | b"--quiet" => (&mut self.quiet, "-q"),
            b"-h" | b"--help" => (&mut self.help, "-h"),
            _ => return self.take_choice(word, left),
        };
        if std::mem::replace(flag, true) {
            return Err(self.trouble(format!("{} is given twice", name)));
        }
        Ok(())
    }

    fn take_choice<'a>(
        &mut self,
        word: &OsStr,
        left: &mut impl Iterator<Item = &'a OsString>,
    ) -> Result<(), Trouble> {
        let bytes = word.as_bytes();
        let end = bytes.iter().position(|&byte| byte == b'=').unwrap_or(bytes.len());
        let is_meant = |choice: &&Choice| choice.name.as_bytes() == &bytes[..end];
        let choice = match self.command.choices.iter().find(is_meant) {
            Some(choice) => choice,
            None => return Err(self.trouble(format!("there is no option {}", shown(word)))),
        };
        if self.chosen.iter().any(|(name, _)| *name == choice.name) {
            return Err(self.trouble(format!("{} is given twice", choice.name)));
        }
        let joined = bytes.get(end + 1..).map(|value| OsString::from_vec(value.to_vec()));
        let wanted = choice.values.len();
        let values: Vec<OsString> =
            joined.into_iter().chain(left.take(wanted).cloned()).take(wanted).collect();
        if values.len() < wanted || (wanted == 0 && end < bytes.len()) {
            return Err(self.trouble(format!("{} takes {}", choice.name, wants(choice))));
        }
        self.chosen.push((choice.name, values));
        Ok(())
    }

    fn must_have_enough(&self) -> Result<(), Trouble> {
        if self.plain.len() < self.command.least {
            return Err(self.trouble("a word is missing".to_string()));
        }
        match self.plain.get(self.command.most) {
            Some(word) => Err(self.trouble(format!("{} is a word too many", shown(word)))),
            None => Ok(()),
        }
    }

    /// A complaint about the words as a whole.
    pub fn wrong(&self, text: &str) -> Trouble {
        self.trouble(text.to_string())
    }

    pub fn count(&self) -> usize {
        self.plain.len()
    }

    pub fn word(&self, at: usize) -> &OsStr {
        &self.plain[at]
    }

    pub fn words_from(&self, at: usize) -> &[OsString] {
        &self.plain[at..]
    }

    /// The same as names of files.
    pub fn names_from(&self, at: usize) -> Vec<&OsStr> {
        self.plain[at..].iter().map(|name| &name[..]).collect()
    }

    /// The values of an option, if it is given.
    pub fn chosen(&self, name: &str) -> Option<&[OsString]> {
        self.chosen.iter().find(|(chosen, _)| *chosen == name).map(|(_, values)| &values[..])
    }

    /// The values of an option that must be given.
    pub fn needed(&self, name: &str) -> Result<&[OsString], Trouble> {
        self.chosen(name).ok_or_else(|| self.trouble(format!("{} is missing", name)))
    }

    /// The path of a file that the command changes: that can't be standard input.
    pub fn own<'a>(&self, name: &'a OsStr) -> Result<&'a Path, Trouble> {
        if name == "-" {
            return Err(self.trouble("- can't stand for a file that is changed".to_string()));
        }
        Ok(Path::new(name))
    }

    /// A number, in decimal digits alone.
    pub fn number(&self, word: &OsStr) -> Result<u64, Trouble> {
        let digits = word.to_str().filter(|text| text.bytes().all(|byte| byte.is_ascii_digit()));
        match digits.and_then(|digits| digits.parse().ok()) {
            Some(number) => Ok(number),
            None => Err(self.trouble(format!("'{}' is no number below 2^64", shown(word)))),
        }
    }

    /// The number behind an option that must be given.
    pub fn needed_number(&self, name: &str) -> Result<u64, Trouble> {
        self.number(&self.needed(name)?[0])
    }

    /// The number behind an option, if it is given.
    pub fn chosen_number(&self, name: &str) -> Result<Option<u64>, Trouble> {
        self.chosen(name).map(|values| self.number(&values[0])).transpose()
    }

    /// A digest or a root.
    pub fn digest(&self, word: &OsStr) -> Result<Digest, Trouble> {
        digest_in(word.as_bytes())
            .ok_or_else(|| self.trouble(format!("'{}' is no 64 hex digits", shown(word))))
    }

    /// Whether the bytes that the command makes go to standard output.
    pub fn writes_to_standard_output(&self) -> bool {
        matches!(self.chosen("-o"), Some([name]) if name == "-")
    }
}

/// What an option wants behind it.
fn wants(choice: &Choice) -> String {
    match choice.values {
        [] => "no value".to_string(),
        values => values.join(" and "),
    }
}

/// The 32 bytes that 64 hex digits stand for.
pub fn digest_in(digits: &[u8]) -> Option<Digest> {
    let mut digest = [0; 32];
    if digits.len() != 2 * digest.len() {
        return None;
    }
    for (byte, pair) in digest.iter_mut().zip(digits.chunks(2)) {
        let [high, low] = [pair[0], pair[1]].map(|digit| (digit as char).to_digit(16));
        *byte = (16 * high? + low?) as u8;
    }
    Some(digest)
}
