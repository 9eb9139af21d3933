//! Appending: entries from files or from the lines of one, each told when it is safe on the disk.

use std::ffi::{OsStr, OsString};
use std::fs;
use std::io::{BufRead, BufReader, Read};
use std::path::Path;

use lotlog::file::{Error, Writer};

use crate::bar::Bar;
use crate::files::{must_be_one, open, read_first};
use crate::house::{digest_of, ENTRY_MOST};
use crate::said::{Call, Outcome, Said, Stop, Trouble};
use crate::teller::Teller;
use crate::text::{hex, shown};
use crate::words::Words;

/// Entries that are to be appended, one after the other.
trait Entries {
    /// The name and the bytes of the next.
    fn next(&mut self) -> Result<Option<(String, Vec<u8>)>, Trouble>;

    /// How much was handed out, and of how much if that is known.
    fn progress(&self) -> (u64, Option<u64>);
}

/// Files, all of them read: one that can't be is found before the log has any of them.
struct Files {
    entries: Vec<(String, Vec<u8>)>,
    next: usize,
}

impl Files {
    fn read(names: &[OsString]) -> Result<Files, Trouble> {
        must_be_one(&names.iter().map(|name| &name[..]).collect::<Vec<_>>())?;
        let read = |name: &OsString| Ok((shown(name), read_first(name, ENTRY_MOST + 1)?));
        let entries = names.iter().map(read).collect::<Result<_, _>>()?;
        Ok(Files { entries, next: 0 })
    }

    /// One that is too long is found so too.
    fn too_long(&self) -> Option<&str> {
        self.entries.iter().find(|(_, entry)| entry.len() > ENTRY_MOST).map(|(name, _)| &name[..])
    }
}

impl Entries for Files {
    fn next(&mut self) -> Result<Option<(String, Vec<u8>)>, Trouble> {
        let entry = self.entries.get(self.next).cloned();
        self.next += 1;
        Ok(entry)
    }

    fn progress(&self) -> (u64, Option<u64>) {
        (self.next as u64, Some(self.entries.len() as u64))
    }
}

/// The lines of a file, read one by one, so that what comes through a pipe is appended as it comes.
struct Lines<'a> {
    name: &'a OsStr,
    from: BufReader<Box<dyn Read>>,
    line: u64,
    bytes: u64,
    total: Option<u64>,
}

impl<'a> Lines<'a> {
    fn open(name: &'a OsStr) -> Result<Lines<'a>, Trouble> {
        let file = fs::metadata(name).ok().filter(|file| name != "-" && file.is_file());
        let from = BufReader::new(open(name)?);
        Ok(Lines { name, from, line: 0, bytes: 0, total: file.map(|file| file.len()) })
    }
}

impl Entries for Lines<'_> {
    fn next(&mut self) -> Result<Option<(String, Vec<u8>)>, Trouble> {
        let mut line = vec![];
        // of a line that is too long no more than shows it, and its line feed
        let mut part = (&mut self.from).take(ENTRY_MOST as u64 + 2);
        let read = part.read_until(b'\n', &mut line);
        let read = read.map_err(|error| Trouble::with_file(self.name, &error))?;
        if read == 0 {
            return Ok(None);
        }
        if line.last() == Some(&b'\n') {
            line.pop();
        }
        self.bytes += read as u64;
        self.line += 1;
        Ok(Some((format!("{}:{}", shown(self.name), self.line), line)))
    }

    fn progress(&self) -> (u64, Option<u64>) {
        (self.bytes, self.total)
    }
}

pub fn append(words: &Words, teller: &Teller) -> Outcome {
    let name = words.word(0);
    let path = words.own(name)?;
    match (words.words_from(1), words.chosen("--lines")) {
        (files @ [_, ..], None) => {
            let mut files = Files::read(files)?;
            let writer = opened(name, path)?;
            if let Some(name) = files.too_long() {
                return Ok(refused_entry(3, name));
            }
            append_all(name, writer, &mut files, teller)
        }
        ([], Some(lines)) => {
            let writer = opened(name, path)?;
            append_all(name, writer, &mut Lines::open(&lines[0])?, teller)
        }
        _ => Err(words.wrong("entries are FILE.. or --lines FILE").into()),
    }
}

fn opened(name: &OsStr, path: &Path) -> Result<Writer, Stop> {
    Writer::open(path).map_err(|error| Stop::of(name, error))
}

/// Appends one entry after the other, and tells each when it is safe. The first that is refused
/// ends it.
fn append_all(
    store: &OsStr,
    mut writer: Writer,
    entries: &mut dyn Entries,
    teller: &Teller,
) -> Outcome {
    let mut bar = Bar::new(entries.progress().1, teller.quiet);
    let mut appended = 0;
    let outcome = loop {
        let (name, entry) = match entries.next() {
            Ok(Some(entry)) => entry,
            Ok(None) => break Ok(Said::told()),
            Err(trouble) => break Err(trouble.into()),
        };
        let said = match append_one(store, &mut writer, &name, &entry) {
            Ok(said) => said,
            refused => break refused,
        };
        bar.make_room();
        if let Err(trouble) = teller.tell(&said) {
            break Err(trouble.into());
        }
        appended += 1;
        bar.show(entries.progress().0, appended);
    };
    bar.clear();
    outcome
}

fn append_one(store: &OsStr, writer: &mut Writer, name: &str, entry: &[u8]) -> Outcome {
    let position = match writer.append(entry) {
        Ok(position) => position,
        Err(Error::Refused(refusal)) => return Err(refused_entry(refusal.0, name).into()),
        Err(error) => return Err(Stop::of(store, error)),
    };
    let digest = digest_of(writer.store(), position)?;
    let said = Said::good(format!("{} {} {}", position, hex(&digest), name));
    Ok(said.with("element", position).with("digest", hex(&digest)).with("name", name))
}

/// The refusal of an entry, with its name.
fn refused_entry(number: u64, name: &str) -> Said {
    Said::refused_with(number, Call::Makes).at(&format!(", {}", name)).with("name", name)
}
