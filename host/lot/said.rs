//! What a command says: an answer, which is a line and an exit status, or a complaint.

use std::ffi::OsStr;
use std::io;

use lotlog::file::{Error, Refusal};
use lotlog::Answer;

use crate::json::{Fields, Value};
use crate::text::{hops, shown};

/// The exit statuses.
pub const GOOD: u8 = 0;
pub const FALSE: u8 = 1;
pub const UNABLE: u8 = 2;
pub const DAMAGED: u8 = 3;

/// An answer: the line, or several where it is a picture, and what an object has of it. The aside
/// is a line for standard error.
pub struct Said {
    pub status: u8,
    pub line: String,
    pub fields: Fields,
    pub aside: Option<String>,
}

/// Whether the library's number is the verdict on something that was to be checked, or was asked
/// for something that it can't give.
#[derive(Clone, Copy, PartialEq, Eq)]
pub enum Call {
    Checks,
    Makes,
}

impl Said {
    pub fn good(line: impl Into<String>) -> Said {
        Said { status: GOOD, line: line.into(), fields: vec![], aside: None }
    }

    /// An answer that was told in parts already.
    pub fn told() -> Said {
        Said::good("")
    }

    pub fn with(mut self, name: &'static str, value: impl Into<Value>) -> Said {
        self.fields.push((name, value.into()));
        self
    }

    pub fn status(mut self, status: u8) -> Said {
        self.status = status;
        self
    }

    pub fn aside(mut self, line: String) -> Said {
        self.aside = Some(line);
        self
    }

    /// More words behind the line, where the library's answer does not say which of several it was.
    pub fn at(mut self, place: &str) -> Said {
        self.line.push_str(place);
        self
    }

    /// A refusal of the library, with its number, its meaning and its place.
    pub fn refused(answer: Answer, call: Call) -> Said {
        let [first, element, level] = answer.beside;
        let meaning = meaning(answer.number);
        let refused = Said::good(format!("refused {}: {}", answer.number, meaning))
            .status(status_of(answer.number, call))
            .with("refused", answer.number)
            .with("meaning", meaning);
        let after = format!(", after {}", hops(first));
        match answer.number {
            9 | 10 => {
                let kind = if answer.number == 9 { "row" } else { "level" };
                let place = format!(" at element {}, {} {}{}", element, kind, level, after);
                refused.at(&place).with("element", element).with(kind, level).with("hops", first)
            }
            11 => refused.at(&after).with("hops", first),
            12 => refused.at(&format!(" at element {}", first)).with("element", first),
            13 => refused.at(&format!(", proof {}", first)).with("proof", first),
            24 => refused.at(&format!(" at entry {}", first)).with("entry", first),
            _ => refused,
        }
    }

    /// A refusal that has nothing beside its number.
    pub fn refused_with(number: u64, call: Call) -> Said {
        Said::refused(Answer { number, beside: [0; 3] }, call)
    }
}

/// Words for a refusal. All that the command lends for output is long enough, so 6 is the van's
/// key.
pub fn meaning(number: u64) -> &'static str {
    match number {
        6 => "van's key not of 32 bytes",
        _ => lotlog::meaning(number),
    }
}

/// The exit status that belongs to a refusal: 3 where the caller's own store, held file, list, key
/// or log is to blame, 1 where something was checked and is not so, 2 where something was asked for
/// that the call can't take.
fn status_of(number: u64, call: Call) -> u8 {
    match number {
        1 | 2 | 5 | 6 | 14 | 18..=23 => DAMAGED,
        3 | 4 if call == Call::Makes => UNABLE,
        _ => FALSE,
    }
}

/// Why there is no answer: the command can't be understood, or a file can't be read or written. The
/// status is 2.
pub struct Trouble {
    pub text: String,
    /// How the command is used, where it was not used so.
    pub usage: Option<String>,
}

impl Trouble {
    pub fn new(text: impl Into<String>) -> Trouble {
        Trouble { text: text.into(), usage: None }
    }

    pub fn usage(text: impl Into<String>, usage: String) -> Trouble {
        Trouble { text: text.into(), usage: Some(usage) }
    }

    /// Of a file.
    pub fn of(name: &OsStr, text: &str) -> Trouble {
        Trouble::new(format!("{}: {}", shown(name), text))
    }

    pub fn with_file(name: &OsStr, error: &io::Error) -> Trouble {
        Trouble::of(name, &system_words(error))
    }
}

/// The system's words for an error.
pub fn system_words(error: &io::Error) -> String {
    let words = error.to_string();
    match (error.kind(), words.find(" (os error")) {
        (io::ErrorKind::AlreadyExists, _) => "a file is there already".to_string(),
        (io::ErrorKind::WouldBlock, _) => "another process has it open for writing".to_string(),
        (_, Some(end)) => words[..end].to_string(),
        (_, None) => words,
    }
}

/// Why a command ends before its last line: an answer already, or a complaint.
pub enum Stop {
    Said(Box<Said>),
    Trouble(Trouble),
}

impl From<Trouble> for Stop {
    fn from(trouble: Trouble) -> Stop {
        Stop::Trouble(trouble)
    }
}

impl From<Said> for Stop {
    fn from(said: Said) -> Stop {
        Stop::Said(Box::new(said))
    }
}

impl Stop {
    /// What a call on a file could not do.
    pub fn of(name: &OsStr, error: Error) -> Stop {
        match error {
            Error::System(error) => Trouble::with_file(name, &error).into(),
            Error::Refused(Refusal(number)) => Said::refused_with(number, Call::Makes).into(),
        }
    }
}

pub type Outcome = Result<Said, Stop>;
