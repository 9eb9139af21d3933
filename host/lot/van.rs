//! The van's commands, and the office's.

use std::ffi::OsStr;
use std::fs::OpenOptions;
use std::io::{self, ErrorKind};

use lotlog::file::seal_to;
use lotlog::{Digest, CLOSING};

use crate::files::{must_be_one, must_differ, read, read_first};
use crate::house::{done, ENTRY_MOST};
use crate::said::{Call, Outcome, Said, Stop, Trouble, DAMAGED};
use crate::teller::Teller;
use crate::words::Words;

/// The bytes of a key.
const KEY: usize = 32;

/// Seals an entry; gives its number, and the bytes of its data.
fn sealed(words: &Words, kind: u32, data: Option<&OsStr>) -> Result<(u64, u64), Stop> {
    let (name, key) = (words.word(0), &words.needed("--key")?[0][..]);
    let (log, key_path) = (words.own(name)?, words.own(key)?);
    must_differ(key, &[Some(name), data])?;
    let data = data.map_or(Ok(vec![]), |data| read_first(data, ENTRY_MOST + 1))?;
    must_open(key).map_err(|error| Trouble::with_file(key, &error))?;
    match must_open(name) {
        Err(error) if error.kind() == ErrorKind::NotFound => {}
        opened => opened.map_err(|error| Trouble::with_file(name, &error))?,
    }
    let answer = seal_to(log, key_path, kind, &data).map_err(|error| {
        // the lock is the key's
        let is_key = error.kind() == ErrorKind::WouldBlock;
        Trouble::with_file(if is_key { key } else { name }, &error)
    })?;
    match answer.number {
        0 => Ok((answer.beside[0], data.len() as u64)),
        24 => Err(Said::refused(answer, Call::Makes).status(DAMAGED).into()),
        _ => Err(Said::refused(answer, Call::Makes).into()),
    }
}

/// Looks whether a file can be changed, so that a complaint names the right one of two.
fn must_open(name: &OsStr) -> io::Result<()> {
    OpenOptions::new().read(true).write(true).open(name).map(|_| ())
}

pub fn seal(words: &Words, _: &Teller) -> Outcome {
    let number = words.needed_number("--type")?;
    let kind = u32::try_from(number).map_err(|_| words.wrong("a type is below 2^32"))?;
    if kind == CLOSING {
        return Err(words.wrong("type 1 closes the log: that is lot seal-close").into());
    }
    let (entry, bytes) = sealed(words, kind, Some(words.word(1)))?;
    let said = Said::good(format!("entry {}, type {}, {} bytes of data", entry, kind, bytes));
    Ok(said.with("entry", entry).with("type", number).with("bytes", bytes))
}

pub fn seal_close(words: &Words, _: &Teller) -> Outcome {
    let data = words.words_from(1).first().map(|data| &data[..]);
    let (entry, _) = sealed(words, CLOSING, data)?;
    let said = Said::good(format!("entry {}, closed", entry));
    Ok(said.with("entry", entry).with("type", u64::from(CLOSING)))
}

pub fn seal_check(words: &Words, _: &Teller) -> Outcome {
    let key = &words.needed("--first-key")?[0];
    must_be_one(&[key, words.word(0)])?;
    let first_key: Digest = match read_first(key, KEY + 1)?.try_into() {
        Ok(first_key) => first_key,
        Err(_) => return Err(Trouble::of(key, "a key has 32 bytes").into()),
    };
    let log = read(words.word(0))?;
    let entries = done(lotlog::seal_check(&first_key, &log), Call::Checks)?;
    let plural = if entries == 1 { "y" } else { "ies" };
    let said = Said::good(format!("accepted: {} entr{}, closed", entries, plural));
    Ok(said.with("answer", "accepted").with("entries", entries))
}
