//! `lot`: the lot log on the command line, for the house that keeps it and for the practices that
//! check it. What is right the proved library says; this program reads words and files, lends them
//! to it, and tells its answer in a line, with an exit status that a script can rely on.
//!
//! `commands` lists what there is, with the help of each; `house`, `append`, `practice`, `draw`,
//! `lists` and `van` do it. `words` reads a command line and `files` what it names; `said` is what
//! comes of it, and `teller` tells it.

mod append;
mod bar;
mod commands;
mod draw;
mod files;
mod house;
mod json;
mod lists;
mod manual;
mod practice;
mod said;
mod teller;
mod text;
mod van;
mod words;

use std::ffi::OsString;
use std::os::raw::c_int;
use std::{env, process};

use commands::COMMANDS;
use said::{Said, Stop, Trouble, UNABLE};
use teller::Teller;
use words::{Command, Words};

extern "C" {
    fn signal(number: c_int, what: usize) -> usize;
}

/// The system's numbers on x86-64 Linux: the signal for a file that would grow past its limit, and
/// that it is ignored.
const FILE_TOO_LARGE: c_int = 25;
const IGNORED: usize = 1;

fn main() {
    // so that a write past the limit is an error, which is told, and not the end of the process
    unsafe { signal(FILE_TOO_LARGE, IGNORED) };
    let line: Vec<OsString> = env::args_os().skip(1).collect();
    process::exit(i32::from(run(&line)));
}

/// Does what a command line says; gives the exit status.
fn run(line: &[OsString]) -> u8 {
    let is_json = line.iter().take_while(|word| *word != "--").any(|word| word == "--json");
    let early = Teller { command: "", json: is_json, quiet: false, aside: false };
    // options that every command takes may stand before its name too
    let is_option =
        |word: &OsString| ["--json", "-q", "--quiet"].iter().any(|option| word == option);
    let at = line.iter().take_while(|word| is_option(word)).count();
    let first = match line.get(at) {
        Some(first) => first,
        None => return troubled(&early, &Trouble::usage("which command?", manual::usage())),
    };
    let rest = [&line[..at], &line[at + 1..]].concat();
    match first.to_str() {
        Some("help" | "--help" | "-h") => return told(&PLAIN, manual::help(&rest)),
        Some("--version" | "-V") => return told(&early, manual::version(&rest)),
        _ => {}
    }
    match COMMANDS.iter().find(|command| first == command.name) {
        Some(command) => run_command(command, &rest, is_json),
        None => troubled(&early, &manual::unknown(first)),
    }
}

/// Tells in plain text, of no command.
const PLAIN: Teller = Teller { command: "", json: false, quiet: false, aside: false };

fn run_command(command: &'static Command, line: &[OsString], json: bool) -> u8 {
    let early = Teller { command: command.name, json, quiet: false, aside: false };
    let words = match Words::read(command, line) {
        Ok(words) => words,
        Err(trouble) => return troubled(&early, &trouble),
    };
    if words.help {
        return told(&PLAIN, Ok(Said::good(manual::of_command(command))));
    }
    told(&Teller::of(&words), (command.run)(&words, &Teller::of(&words)))
}

/// Tells how a command ended; gives the exit status.
fn told(teller: &Teller, outcome: Result<Said, Stop>) -> u8 {
    let said = match outcome {
        Ok(said) => said,
        Err(Stop::Said(said)) => *said,
        Err(Stop::Trouble(trouble)) => return troubled(teller, &trouble),
    };
    match teller.tell(&said) {
        Ok(()) => said.status,
        Err(trouble) => troubled(teller, &trouble),
    }
}

fn troubled(teller: &Teller, trouble: &Trouble) -> u8 {
    teller.tell_trouble(trouble);
    UNABLE
}
