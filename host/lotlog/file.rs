//! A store in a file: made, opened, appended to durably, and grown; what a practice holds in a file:
//! saved and read ([`save_held`], [`load_held`]); a van's log in one ([`seal_to`]); and any file that
//! is replaced whole ([`put`]). docs/DURABILITY.md says what reaches the disk when, and why.
//!
//! One process at a time has the store open for writing, as a [`Writer`]; any number read beside it,
//! each through a [`Reader`], which gives the store as it stood between two appends. Both go by
//! locks that the system releases when a process ends, however it ends. Whoever changes the file in
//! another way is not held back, and one that cuts it shorter ends the writer's process.
//!
//! The file holds digests alone. An entry that is appended here must be kept by the caller, and be
//! safe on the disk before the append: a digest whose entry is lost proves nothing.

use std::fmt;
use std::fs::{self, File, OpenOptions};
use std::io::{self, Read};
use std::path::{Path, PathBuf};

use super::{store_bytes, Answer, ELEMENTS_MOST, HEADER_BYTES, RECORD_BYTES, WHOLE};

mod held;
mod lock;
mod map;
mod place;
mod van;
mod whole;

pub use held::{create_held, load_held, replace_held, save_held};
pub use van::seal_to;
pub use whole::{put, Before};

use lock::{Lock, GATE, SEAT};
use map::Map;

/// The stop of an append that stores d and T and leaves the record open.
const BODY: u64 = WHOLE - 1;

/// A refusal of the library: the number of document 01 or 02, which is not 0. The store, or the file of
/// a held state, is as it was.
#[derive(Debug, Clone, Copy, PartialEq, Eq)]
pub struct Refusal(pub u64);

impl fmt::Display for Refusal {
    fn fmt(&self, out: &mut fmt::Formatter) -> fmt::Result {
        write!(out, "refused with {}: {}", self.0, super::meaning(self.0))
    }
}

/// Why something was not done: the system could not, or the library refused.
#[derive(Debug)]
pub enum Error {
    System(io::Error),
    Refused(Refusal),
}

impl fmt::Display for Error {
    fn fmt(&self, out: &mut fmt::Formatter) -> fmt::Result {
        match self {
            Error::System(error) => error.fmt(out),
            Error::Refused(refusal) => refusal.fmt(out),
        }
    }
}

impl std::error::Error for Error {}

impl From<io::Error> for Error {
    fn from(error: io::Error) -> Error {
        Error::System(error)
    }
}

/// The first number beside an answer that is no refusal.
#[inline]
fn done(answer: Answer) -> Result<u64, Error> {
    match answer.number {
        0 => Ok(answer.beside[0]),
        number => Err(Error::Refused(Refusal(number))),
    }
}

/// Starts a store; one that is too short is refused.
#[inline]
fn started(store: &mut [u8], log: u64) -> Result<(), Error> {
    done(Answer { number: super::start(store, log), beside: [0; 3] }).map(|_| ())
}

/// Appends an entry to a store that is kept elsewhere, so that what is kept is at every moment the
/// old log or the new one. `keep` is handed the bytes of the record and returns when they are safe.
/// It is called twice: with d and T stored and the record still open, and with the record closed. So
/// no closed record is ever kept without its d and T, whatever part of a record is written first.
///
/// Gives the new count. Refusals: 1, 3, 5, and then `keep` is not called. If `keep` fails the first
/// time the log is the old one; if it fails the second time, what is kept is the old or the new one.
#[inline]
pub fn append_durably(
    store: &mut [u8],
    entry: &[u8],
    mut keep: impl FnMut(&[u8]) -> io::Result<()>,
) -> Result<u64, Error> {
    let before = done(super::append(store, entry, BODY))? as usize;
    let record = store_bytes(before)..store_bytes(before + 1);
    keep(&store[record.clone()])?;
    let count = done(super::append(store, entry, WHOLE))?;
    keep(&store[record])?;
    Ok(count)
}

/// Reserves room in a file and starts a store there.
#[inline]
fn fresh(file: &File, log: u64, room: usize) -> Result<Map, Error> {
    map::reserve(file, store_bytes(room))?;
    let mut map = Map::of(file, store_bytes(room))?;
    started(map.bytes_mut(), log)?;
    Ok(map)
}

/// Waits until all of a file is on the disk.
fn settle(file: &File, map: &Map) -> io::Result<()> {
    map::flush(map.bytes())?;
    file.sync_all()
}

/// A store that this process alone may change.
pub struct Writer {
    /// Where the store stands, from the root and with no links on the way.
    path: PathBuf,
    file: File,
    map: Map,
    /// Whether a flush failed: then nobody can say what is on the disk.
    unsure: bool,
}

impl Writer {
    /// Makes a file with a fresh store for a log, with room for so many elements, all of it reserved
    /// on the disk. A file that is there already is an error and stays as it is. Of an attempt that
    /// fails no file is left.
    #[inline]
    pub fn create(path: &Path, log: u64, room: usize) -> Result<Writer, Error> {
        check_room(room)?;
        let file = OpenOptions::new().read(true).write(true).create_new(true).open(path)?;
        let made = Writer::fill(path, file, log, room);
        if made.is_err() {
            // the first error is the one to tell
            let _ = fs::remove_file(path);
        }
        made
    }

    #[inline]
    fn fill(path: &Path, file: File, log: u64, room: usize) -> Result<Writer, Error> {
        let path = fs::canonicalize(path)?;
        Lock::try_alone(&file, SEAT)?.keep();
        let gate = Lock::alone(&file, GATE)?;
        let map = fresh(&file, log, room)?;
        settle(&file, &map)?;
        drop(gate);
        place::sync_folder(&path)?;
        Ok(Writer { path, file, map, unsure: false })
    }

    /// Opens a store for writing. That another process has it is an error of the system, of the kind
    /// `WouldBlock`. A store that is damaged is refused with 1; its digests are for the audit to
    /// judge.
    #[inline]
    pub fn open(path: &Path) -> Result<Writer, Error> {
        let path = fs::canonicalize(path)?;
        let file = seated(&path, OpenOptions::new().read(true).write(true))?;
        // a writer that was killed may have closed a record that is not on the disk yet, or named the
        // file: no record behind it may get there first, nor a record in a file without its name
        file.sync_all()?;
        place::sync_folder(&path)?;
        let map = Map::of(&file, length_of(&file)?)?;
        done(super::count(map.bytes()))?;
        Ok(Writer { path, file, map, unsure: false })
    }

    /// The store, for every call that reads one.
    pub fn store(&self) -> &[u8] {
        self.map.bytes()
    }

    /// Appends an entry and returns when it is safe on the disk, with the new count. Refusals: 1, 3,
    /// 5. After an error of the system the log on the disk is the old or the new one, and this
    /// writer appends no more.
    #[inline]
    pub fn append(&mut self, entry: &[u8]) -> Result<u64, Error> {
        self.must_be_sure()?;
        let gate = Lock::alone(&self.file, GATE)?;
        let appended = append_durably(self.map.bytes_mut(), entry, map::flush);
        drop(gate);
        self.note(appended)
    }

    /// Adds room for so many elements, reserved on the disk. The store gets a new file, made beside
    /// it under its name and `.growing`, which takes its place when all of it is safe: at every
    /// moment the store's name stands for the log with the old room or with all of the new. After an
    /// error of the system this writer appends no more; the log is as it was.
    #[inline]
    pub fn grow(&mut self, more: usize) -> Result<(), Error> {
        self.must_be_sure()?;
        let whole = (self.map.bytes().len() - HEADER_BYTES) / RECORD_BYTES;
        check_room(whole.saturating_add(more))?;
        let grown = self.moved(whole, more);
        let (file, map) = self.note(grown)?;
        self.file = file;
        self.map = map;
        Ok(())
    }

    /// Puts a longer file in the place of the store's.
    #[inline]
    fn moved(&self, whole: usize, more: usize) -> Result<(File, Map), Error> {
        let next = place::next_to(&self.path, ".growing");
        let made = self.longer(&next, whole, more).and_then(|made| {
            fs::rename(&next, &self.path)?;
            Ok(made)
        });
        if made.is_err() {
            // the first error is the one to tell
            let _ = fs::remove_file(&next);
        }
        let made = made?;
        place::sync_folder(&self.path)?;
        Ok(made)
    }

    /// Makes a file with the whole records of the store and open ones behind them; what an open
    /// record is, a fresh store says. One of that name which an earlier writer left is overwritten.
    #[inline]
    fn longer(&self, path: &Path, whole: usize, more: usize) -> Result<(File, Map), Error> {
        let file = OpenOptions::new().read(true).write(true).create(true).open(path)?;
        Lock::try_alone(&file, SEAT)?.keep();
        file.set_len(0)?;
        place::make_like(&file, &self.file)?;
        let mut map = fresh(&file, 0, whole + more)?;
        let kept = &self.map.bytes()[..store_bytes(whole)];
        map.bytes_mut()[..kept.len()].copy_from_slice(kept);
        settle(&file, &map)?;
        Ok((file, map))
    }

    fn must_be_sure(&self) -> io::Result<()> {
        if self.unsure {
            return Err(io::Error::new(io::ErrorKind::Other, "an earlier write or flush failed"));
        }
        Ok(())
    }

    /// Hands a result on, and remembers an error of the system.
    fn note<T>(&mut self, result: Result<T, Error>) -> Result<T, Error> {
        self.unsure = matches!(result, Err(Error::System(_)));
        result
    }
}

/// Opens a file and takes the writer's lock on it. Where a writer before has moved it in between, a
/// store that was grown or a state that was saved, its name stands for another file by now, or for
/// none: then it is opened anew.
fn seated(path: &Path, how: &OpenOptions) -> io::Result<File> {
    loop {
        let file = how.open(path)?;
        Lock::try_alone(&file, SEAT)?.keep();
        if place::is_at(&file, path)? {
            return Ok(file);
        }
    }
}

/// A store that others may write meanwhile.
pub struct Reader {
    path: PathBuf,
}

impl Reader {
    /// That there is no such file, or none that may be read, is told here.
    pub fn open(path: &Path) -> io::Result<Reader> {
        File::open(path)?;
        Ok(Reader { path: fs::canonicalize(path)? })
    }

    /// A copy of the store as it stands between two appends, for every call that reads one; all of it
    /// is on the disk, also if the last writer was killed. It waits for an append that is under way,
    /// and an append waits for it.
    pub fn store(&self) -> io::Result<Vec<u8>> {
        // anew for each copy: a store that was grown stands in another file
        let file = File::open(&self.path)?;
        let _gate = Lock::shared(&file, GATE)?;
        file.sync_all()?;
        let length = length_of(&file)?;
        read_all(&file, length)
    }
}

/// All bytes of a file, or of what else can be read; how many they are need not be right. That the
/// memory does not hold them is an error, of the kind `OutOfMemory`.
pub fn read_all(mut from: impl Read, expected: usize) -> io::Result<Vec<u8>> {
    const LEAST: usize = 4_096;
    let mut bytes: Vec<u8> = vec![];
    // one more than expected shows that this was all, and twice as many each time that it was not
    let mut more = expected.saturating_add(1).max(LEAST);
    loop {
        bytes.try_reserve_exact(more).map_err(|_| io::Error::from(io::ErrorKind::OutOfMemory))?;
        if (&mut from).take(more as u64).read_to_end(&mut bytes)? < more {
            return Ok(bytes);
        }
        more = bytes.len();
    }
}

fn length_of(file: &File) -> io::Result<usize> {
    Ok(file.metadata()?.len() as usize)
}

/// Room past the most elements of a log could never be used.
fn check_room(room: usize) -> io::Result<()> {
    if room > ELEMENTS_MOST {
        let message = format!("a log has at most {} elements", ELEMENTS_MOST);
        return Err(io::Error::new(io::ErrorKind::InvalidInput, message));
    }
    Ok(())
}
