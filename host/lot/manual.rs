//! The manual page, which is made of the commands' own help, as text and in the form that `man`
//! reads.

use std::ffi::{OsStr, OsString};
use std::fmt::Write as _;

use crate::commands::{COMMANDS, GROUPS};
use crate::said::{meaning, Outcome, Said, Trouble};
use crate::text::shown;
use crate::words::{Choice, Command};

/// The version of this program.
const VERSION: &str = "1.0";

/// The SHA-256 of the archive that the program was linked with, as the build gives it.
const LIBRARY: Option<&str> = option_env!("LOT_LIBRARY");

/// The columns of the page.
const WIDTH: usize = 79;

const COMMON: [Choice; 3] = [
    Choice { name: "--json", values: &[], text: "the answer as one object, on the same stream" },
    Choice {
        name: "-q, --quiet",
        values: &[],
        text: "no answer, the exit status alone; complaints still come",
    },
    Choice { name: "-h, --help", values: &[], text: "the help of the command" },
];

const STATUSES: [(&str, &str); 4] = [
    ("0", "good"),
    (
        "1",
        "looked at and not so: a proof that is not accepted, a wrong T, a difference, a kind of \
         proof that is not true",
    ),
    ("2", "usage; a file that can't be read or written; a number or an entry that can't be taken"),
    ("3", "the caller's own store, held file, list, or van's log or key is damaged or refuses"),
];

/// A part of a page.
enum Part {
    Section(&'static str),
    Text(String),
    Item(String, String),
    Lines(&'static str),
}

use Part::{Item, Lines, Section, Text};

pub fn usage() -> String {
    "usage: lot COMMAND WORD.. [OPTION..]   (lot help has the manual page)".to_string()
}

/// A command that there is not, and the one that may be meant.
pub fn unknown(word: &OsStr) -> Trouble {
    let word = shown(word);
    let near = COMMANDS.iter().map(|command| command.name).min_by_key(|name| distance(name, &word));
    let near = near.filter(|name| distance(name, &word) <= 2);
    let meant = near.map(|name| format!("; is {} meant?", name)).unwrap_or_default();
    Trouble::usage(format!("there is no command '{}'{}", word, meant), usage())
}

/// How many letters must be changed, put in or left out to make one word of another.
fn distance(one: &str, other: &str) -> usize {
    let other: Vec<char> = other.chars().collect();
    let mut row: Vec<usize> = (0..=other.len()).collect();
    for (at, letter) in one.chars().enumerate() {
        let mut corner = std::mem::replace(&mut row[0], at + 1);
        for (column, same) in other.iter().map(|&other| other == letter).enumerate() {
            let changed = corner + usize::from(!same);
            corner = row[column + 1];
            row[column + 1] = changed.min(corner + 1).min(row[column] + 1);
        }
    }
    row[other.len()]
}

pub fn version(rest: &[OsString]) -> Outcome {
    if let Some(word) = rest.iter().find(|word| *word != "--json") {
        return Err(Trouble::usage(format!("{} is a word too many", shown(word)), usage()).into());
    }
    let library = LIBRARY.unwrap_or("unknown");
    let most = lotlog::ELEMENTS_MOST as u64;
    let line = format!(
        "lot {}: store version 1, held file version 1, up to {} elements, library {}",
        VERSION, most, library
    );
    Ok(Said::good(line).with("version", VERSION).with("elements", most).with("library", library))
}

/// What `lot help` prints: the page, the page for `man`, or the help of one command.
pub fn help(rest: &[OsString]) -> Outcome {
    let word = match rest {
        [] => return Ok(Said::good(as_text(&page()))),
        [word] if word == "--man" => return Ok(Said::good(as_man(&page()))),
        [word] => word,
        [_, word, ..] => {
            let text = format!("{} is a word too many", shown(word));
            return Err(Trouble::usage(text, usage()).into());
        }
    };
    match COMMANDS.iter().find(|command| word == command.name) {
        Some(command) => Ok(Said::good(of_command(command))),
        None => Err(unknown(word).into()),
    }
}

/// The help of a command.
pub fn of_command(command: &Command) -> String {
    let text = format!("{}. {}", capital(command.summary), command.text);
    let mut parts = vec![Text(text)];
    parts.extend(command.choices.iter().chain(&COMMON).map(of_choice));
    parts.push(Text("Exit status:".to_string()));
    parts.extend(STATUSES.iter().map(|(status, text)| Item(status.to_string(), text.to_string())));
    format!("{}\n\n{}", command.usage(), as_text(&parts))
}

fn of_choice(choice: &Choice) -> Part {
    let words = choice.values.iter().map(|value| format!(" {}", value));
    Item(format!("{}{}", choice.name, words.collect::<String>()), choice.text.to_string())
}

/// The whole page.
fn page() -> Vec<Part> {
    let mut parts = vec![
        Section("NAME"),
        Text("lot - keep a lot log, and check what it proves".to_string()),
        Section("SYNOPSIS"),
        Text("lot COMMAND WORD.. [--json] [-q]".to_string()),
        Section("DESCRIPTION"),
    ];
    parts.extend(DESCRIPTION.iter().map(|text| Text(text.to_string())));
    for command in &COMMANDS {
        parts.extend(
            GROUPS
                .iter()
                .filter(|(_, first)| *first == command.name)
                .map(|(name, _)| Section(name)),
        );
        let head = format!("lot {} {}", command.name, command.words);
        let choices =
            command.choices.iter().map(|choice| format!(" {}: {}.", choice.name, choice.text));
        let text = format!(
            "{}. {}{}",
            capital(command.summary),
            command.text,
            choices.collect::<String>()
        );
        parts.push(Item(head, text));
    }
    parts.push(Section("HELP"));
    parts.extend(HELP.iter().map(|(head, text)| Item(head.to_string(), text.to_string())));
    parts.push(Section("OPTIONS OF EVERY COMMAND"));
    parts.extend(COMMON.iter().map(of_choice));
    parts.push(Section("EXIT STATUS"));
    parts.extend(STATUSES.iter().map(|(status, text)| Item(status.to_string(), text.to_string())));
    parts.push(Section("REFUSALS"));
    parts.push(Text(REFUSALS.to_string()));
    parts.extend((1..=26).map(|number| Item(number.to_string(), meaning(number).to_string())));
    parts.extend([Section("EXAMPLES"), Lines(EXAMPLES), Section("FILES")]);
    parts.extend(FILES.iter().map(|(name, text)| Item(name.to_string(), text.to_string())));
    parts
}

fn capital(text: &str) -> String {
    let mut letters = text.chars();
    let first = letters.next().map(|letter| letter.to_uppercase().to_string());
    format!("{}{}", first.unwrap_or_default(), letters.as_str())
}

const DESCRIPTION: [&str; 5] = [
    "A house keeps an append-only log of lots in a file, the store. Practices hold a digest of \
     that log in a file of their own, and check the house's proofs with it: that a lot stands in \
     the log, and that the log has only grown. Everything that is decided here the proved library \
     decides; this command reads words and files and tells its answer.",
    "An answer is one line on standard output. A refusal is an answer too: its number, its meaning \
     and its place, as in: refused 10: link differs at element 8, level 1, after 2 hops. What is \
     no answer, a file that can't be read for instance, is a complaint on standard error, and then \
     nothing is on standard output.",
    "Options may stand anywhere; -- ends them. Numbers are decimal digits, DIGEST and ROOT 64 hex \
     digits. Where a file is read, - is standard input, for one file of a command. A file that a \
     command makes (-o) is replaced whole, and is never one that it reads.",
    "A second process that would write a store, a held file or a key which another is writing \
     complains and does nothing. Readers may run beside a writer. After a process that was ended, \
     and after a power cut, a store has the old log or the new one, a held file the old state or \
     the new one.",
    "With --json an answer is an object on one line: command, status, and what the line says under \
     names of its own; a refusal has refused, meaning and, where it has a place, element, row, \
     level, hops, proof, line or entry.",
];

const HELP: [(&str, &str); 2] = [
    (
        "lot help [COMMAND | --man]",
        "This page; the help of a command; or this page in the form that man reads: lot help --man \
         >lot.1, and man -l lot.1.",
    ),
    (
        "lot --version",
        "One line: the version of this program, those of the store and of the held file, the most \
         elements of a log, and the SHA-256 of the proved library that it was linked with.",
    ),
];

const REFUSALS: &str =
    "The numbers of a refusal and their meanings. 12 is printed by lot audit as wrong N, with its \
     number on standard error.";

const EXAMPLES: &str = "lot init store.lot --log 7 --room 100000
lot append store.lot delivery.txt
lot digest store.lot
lot prove-growth store.lot 0 -o growth
lot prove store.lot 1 -o proof
lot hold held --log 7
lot advance held 1 DIGEST growth
lot verify held 1 delivery.txt proof";

const FILES: [(&str, &str); 3] = [
    (
        "STORE",
        "16 bytes, and 65 for each element there is room for; STORE.growing beside it while it \
         grows",
    ),
    (
        "HELD",
        "53 to 1,077 bytes; HELD.saving beside it while it is replaced. Keep a copy on another \
         machine",
    ),
    ("PROOF", "up to 34,784 bytes for an element, 34,720 for growth, 8,192 for a key"),
];

/// A page as text: an empty line between its parts, but none between short items.
fn as_text(parts: &[Part]) -> String {
    let mut text = String::new();
    for (at, part) in parts.iter().enumerate() {
        let is_short = |part: Option<&Part>| matches!(part, Some(Item(head, _)) if head.len() < 6);
        let follows = at > 0 && !matches!(parts[at - 1], Section(_));
        if follows && !(is_short(Some(part)) && is_short(parts.get(at - 1))) {
            text.push('\n');
        }
        text.push_str(&part_as_text(part));
        text.push('\n');
    }
    text.trim_end().to_string()
}

fn part_as_text(part: &Part) -> String {
    match part {
        Section(name) => name.to_uppercase(),
        Text(words) => filled(words, 4),
        Item(head, words) if head.len() < 6 => {
            format!("    {:<6}{}", head, filled(words, 10).trim_start())
        }
        Item(head, words) => format!("    {}\n{}", head, filled(words, 10)),
        Lines(lines) => {
            lines.lines().map(|line| format!("    {}", line)).collect::<Vec<_>>().join("\n")
        }
    }
}

/// Words in lines, each behind so many columns.
fn filled(words: &str, indent: usize) -> String {
    let mut lines = vec![String::new()];
    for word in words.split_whitespace() {
        let last = lines.len() - 1;
        let length = lines[last].chars().count();
        if length > 0 && indent + length + 1 + word.chars().count() > WIDTH {
            lines.push(word.to_string());
        } else {
            let space = if length == 0 { "" } else { " " };
            lines[last].push_str(&format!("{}{}", space, word));
        }
    }
    let indented = lines.iter().map(|line| format!("{}{}", " ".repeat(indent), line));
    indented.collect::<Vec<_>>().join("\n")
}

/// A page as `man` reads it.
fn as_man(parts: &[Part]) -> String {
    let mut text = format!(".TH LOT 1 \"\" \"lot {}\" \"The proved lot log\"\n", VERSION);
    for part in parts {
        let _ = match part {
            Section(name) => writeln!(text, ".SH {}", name.to_uppercase()),
            Text(words) => writeln!(text, ".PP\n{}", in_man(words)),
            Item(head, words) => writeln!(text, ".TP\n.B {}\n{}", in_man(head), in_man(words)),
            Lines(lines) => writeln!(text, ".nf\n{}\n.fi", in_man(lines)),
        };
    }
    text.trim_end().to_string()
}

/// Text in which nothing means anything to `man`.
fn in_man(text: &str) -> String {
    let escaped = text.replace('\\', "\\e").replace('-', "\\-");
    let lines = escaped.lines().map(|line| match line.starts_with(&['.', '\''][..]) {
        true => format!("\\&{}", line),
        false => line.to_string(),
    });
    lines.collect::<Vec<_>>().join("\n")
}
