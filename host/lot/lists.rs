//! The commands for the list of withdrawn lots: its root, and what it proves of a key.

use std::ffi::OsStr;
use std::os::unix::ffi::OsStrExt;

use lotlog::{Answer, Digest, HANDLES_MOST, TRIE_PROOF_MOST};

use crate::files::{read_first, Output};
use crate::house::{done_alone, ENTRY_MOST};
use crate::said::{Call, Outcome, Said, Stop, Trouble};
use crate::teller::Teller;
use crate::text::{hex, shown};
use crate::words::{digest_in, Words};

/// The bytes of a list beyond which it has a key that is too long, or too many.
const LIST_MOST: usize = (HANDLES_MOST + 1) * (ENTRY_MOST + 2);

/// The handles of a list, as the library takes them, and the line that each came from.
struct List {
    handles: Vec<(Digest, u64)>,
}

impl List {
    fn read(words: &Words, name: &OsStr) -> Result<List, Stop> {
        let bytes = read_first(name, LIST_MOST)?;
        let mut handles = vec![];
        // one more than a list may have shows that it is too long
        for (text, line) in lines_of(&bytes).take(HANDLES_MOST + 1).zip(1..) {
            let handle = match words.chosen("--handles") {
                Some(_) => digest_in(text).ok_or_else(|| at_line(14, line))?,
                None => handle_of(name, text, line)?,
            };
            handles.push((handle, line));
        }
        if words.chosen("--handles").is_none() {
            // which of two keys has the lower handle is nothing that a user sees
            handles.sort_unstable();
        }
        Ok(List { handles })
    }

    fn bytes(&self) -> Vec<u8> {
        self.handles.iter().flat_map(|(handle, _)| *handle).collect()
    }

    /// The refusal of this list, with the line that is to blame: the first one too many, or one
    /// that does not rise.
    fn refused(&self) -> Said {
        let falls = self.handles.windows(2).find(|pair| pair[0].0 >= pair[1].0);
        let line = match falls {
            Some(pair) if self.handles.len() <= HANDLES_MOST => pair[0].1.max(pair[1].1),
            _ => HANDLES_MOST as u64 + 1,
        };
        at_line(14, line)
    }
}

/// The lines of a text; a line feed at its end begins no further one.
fn lines_of(text: &[u8]) -> impl Iterator<Item = &[u8]> {
    let whole = text.strip_suffix(b"\n").unwrap_or(text);
    let lines = if text.is_empty() { 0 } else { usize::MAX };
    whole.split(|&byte| byte == b'\n').take(lines)
}

fn at_line(number: u64, line: u64) -> Said {
    Said::refused_with(number, Call::Makes).at(&format!(" at line {}", line)).with("line", line)
}

/// The handle of a key in a list. Space around a key is nearly always a slip, and a key with it is
/// another key: the lot would not be found in the list, as if it had never been withdrawn.
fn handle_of(name: &OsStr, key: &[u8], line: u64) -> Result<Digest, Stop> {
    let is_space = |byte: Option<&u8>| matches!(byte, Some(b' ' | b'\t' | b'\r'));
    if is_space(key.first()) || is_space(key.last()) {
        let text = format!("line {} begins or ends with a space, a tab or a carriage return", line);
        return Err(Trouble::of(name, &text).into());
    }
    let mut handle = [0; 32];
    match lotlog::handle(key, &mut handle) {
        0 => Ok(handle),
        number => Err(at_line(number, line).into()),
    }
}

pub fn root(words: &Words, _: &Teller) -> Outcome {
    let list = List::read(words, words.word(0))?;
    let mut root = [0; 32];
    match lotlog::trie_root(&list.bytes(), &mut root) {
        0 => Ok(Said::good(hex(&root)).with("root", hex(&root))),
        _ => Ok(list.refused()),
    }
}

/// A kind of proof: its name, how it is made, and what is so where it can't be made.
struct Kind {
    name: &'static str,
    prove: fn(&[u8], &[u8], &mut [u8]) -> Answer,
    otherwise: &'static str,
}

fn proved(words: &Words, kind: Kind) -> Outcome {
    let (name, key) = (words.word(0), words.word(1));
    let out = Output::of(&words.needed("-o")?[0], &[name])?;
    let list = List::read(words, name)?;
    let mut proof = vec![0; TRIE_PROOF_MOST];
    let answer = (kind.prove)(&list.bytes(), key.as_bytes(), &mut proof);
    let refused = || Said::refused(answer, Call::Makes);
    match answer.number {
        0 => out.write(&proof[..answer.beside[0] as usize])?,
        14 => return Ok(list.refused()),
        15 => return Ok(refused().at(&format!(", {} is {}", shown(key), kind.otherwise))),
        _ => return Ok(refused()),
    }
    let (key, bytes) = (shown(key), answer.beside[0]);
    let said = Said::good(format!("{} {}, {} bytes", kind.name, key, bytes));
    Ok(said.with("key", key).with("bytes", bytes))
}

pub fn absent(words: &Words, _: &Teller) -> Outcome {
    let otherwise = "in the list";
    proved(words, Kind { name: "absent", prove: lotlog::prove_absence, otherwise })
}

pub fn present(words: &Words, _: &Teller) -> Outcome {
    let otherwise = "not in the list";
    proved(words, Kind { name: "present", prove: lotlog::prove_presence, otherwise })
}

fn checked(words: &Words, name: &str, check: fn(&[u8], &Digest, &[u8]) -> u64) -> Outcome {
    let (root, key) = (words.digest(words.word(0))?, words.word(1));
    let proof = read_first(words.word(2), TRIE_PROOF_MOST + 1)?;
    done_alone(check(key.as_bytes(), &root, &proof), Call::Checks)?;
    let key = shown(key);
    let said = Said::good(format!("accepted: {} is {}", key, name));
    Ok(said.with("answer", "accepted").with("key", key))
}

pub fn verify_absent(words: &Words, _: &Teller) -> Outcome {
    checked(words, "absent", lotlog::check_absence)
}

pub fn verify_present(words: &Words, _: &Teller) -> Outcome {
    checked(words, "present", lotlog::check_presence)
}
