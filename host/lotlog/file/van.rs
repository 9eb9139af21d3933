//! A van's log in a file, and its key in another. The log is replaced whole, and reaches the disk before
//! the key moves: a van that is cut off in between has an entry more than its key knows of, and the
//! next call finds that out and moves the key.

use std::fs::{File, OpenOptions};
use std::io::{self, ErrorKind, Read};
use std::os::unix::fs::FileExt;
use std::path::Path;

use super::super::{clear_stack, seal_add, Answer, Digest, CLOSING, SEALED_BESIDE};
use super::whole::{put, Before};
use super::{place, read_all, seated};

/// The bytes of an entry's type and length, and the most bytes of its data.
const HEAD: usize = 6;
const DATA_MOST: usize = 4_096;

/// The bytes of a key.
const KEY: usize = 32;

/// Seals an entry behind a van's log, which is made if it is not there, and overwrites the key, in its
/// place in the file of 32 bytes, with the next one, or with zeros if the type is 1; returns when both
/// are safe on the disk. Answers the entry's number, from 0. Refusals: 3, 6, 23, also where the log is
/// closed and the key is not, and before these 24 with the number of an entry in the log that is cut
/// short or whose length none can have; then nothing is sealed.
///
/// At every moment the log is the one before or the new one, whole, and with the next call the key is
/// that of the log. That another process is sealing with this key is an error of the kind `WouldBlock`.
/// After an error of the system the entry is in the log, or it is not.
#[inline]
pub fn seal_to(log: &Path, key: &Path, kind: u32, data: &[u8]) -> io::Result<Answer> {
    let key_file = seated(key, OpenOptions::new().read(true).write(true))?;
    let before = log_of(log)?;
    let bytes = before.as_deref().unwrap_or_default();
    let walked = match walk(bytes) {
        Ok(walked) => walked,
        Err(entry) => return Ok(Answer { number: 24, beside: [entry, 0, 0] }),
    };
    // a process that was ended may have left a key that is not on the disk yet: no entry may get there
    // before the key under which it is sealed
    key_file.sync_all()?;
    let mut key = Key::of(&key_file)?;
    if walked.last.map_or(false, |last| key.moves_over(last)) {
        key.store(&key_file)?;
    }
    if walked.is_closed {
        // a key that is not of this log does not open it
        key.bytes = [0; KEY + 1];
    }
    let mut chain = walked.chain;
    let mut out = vec![0; data.len() + SEALED_BESIDE];
    let answer = key.seal(&mut chain, kind, data, &mut out);
    if answer.number != 0 {
        return Ok(answer);
    }
    let there = before.as_deref().map_or(Before::Nothing, Before::These);
    put(log, &[bytes, &out].concat(), there)?;
    key.store(&key_file)?;
    Ok(Answer { number: 0, beside: [walked.entries, 0, 0] })
}

/// The log's bytes, if it is there, all of them on the disk and under this name: the key must not move
/// over an entry that a power cut could take back.
fn log_of(path: &Path) -> io::Result<Option<Vec<u8>>> {
    let file = match File::open(path) {
        Err(error) if error.kind() == ErrorKind::NotFound => return Ok(None),
        file => file?,
    };
    let bytes = read_all(&file, 0)?;
    file.sync_all()?;
    place::sync_folder(&path.canonicalize()?)?;
    Ok(Some(bytes))
}

/// An entry of a log, with the chain before it.
#[derive(Clone, Copy)]
struct Entry<'a> {
    before: Digest,
    kind: u32,
    data: &'a [u8],
    bytes: &'a [u8],
}

impl<'a> Entry<'a> {
    /// The entry with which a part of a log begins, if there is a whole one that is not too long.
    fn first_of(log: &'a [u8], before: Digest) -> Option<Entry<'a>> {
        let head = log.get(..HEAD)?;
        let kind = u32::from_be_bytes([head[0], head[1], head[2], head[3]]);
        let length = usize::from(u16::from_be_bytes([head[4], head[5]]));
        let bytes = log.get(..SEALED_BESIDE + length).filter(|_| length <= DATA_MOST)?;
        Some(Entry { before, kind, data: &bytes[HEAD..HEAD + length], bytes })
    }
}

/// A log, read to its end.
struct Walked<'a> {
    entries: u64,
    length: usize,
    last: Option<Entry<'a>>,
    chain: Digest,
    is_closed: bool,
}

/// Reads a log. Where an entry is cut short, or its length is over the most, its number comes back: a
/// log that is replaced whole is never left so.
#[inline]
fn walk(log: &[u8]) -> Result<Walked<'_>, u64> {
    let chain = [0; 32];
    let mut walked = Walked { entries: 0, length: 0, last: None, chain, is_closed: false };
    // the library says what the chain becomes; it does not depend on the key
    let mut out = [0; DATA_MOST + SEALED_BESIDE];
    while walked.length < log.len() {
        let entry = Entry::first_of(&log[walked.length..], walked.chain).ok_or(walked.entries)?;
        let _ = seal_add(&mut [1; KEY], &mut walked.chain, entry.kind, entry.data, &mut out);
        walked.is_closed |= entry.kind == CLOSING;
        walked.entries += 1;
        walked.length += entry.bytes.len();
        walked.last = Some(entry);
    }
    Ok(walked)
}

/// A key, which is overwritten in memory when it is not needed any more.
struct Key {
    bytes: [u8; KEY + 1],
    length: usize,
}

impl Key {
    /// The bytes of a key's file, or as many as show that it is too long.
    fn of(mut file: &File) -> io::Result<Key> {
        let mut key = Key { bytes: [0; KEY + 1], length: 0 };
        while key.length <= KEY {
            match file.read(&mut key.bytes[key.length..]) {
                Ok(0) => break,
                Ok(more) => key.length += more,
                Err(error) if error.kind() == ErrorKind::Interrupted => {}
                Err(error) => return Err(error),
            }
        }
        Ok(key)
    }

    #[inline]
    fn seal(&mut self, chain: &mut Digest, kind: u32, data: &[u8], out: &mut [u8]) -> Answer {
        let answer = seal_add(&mut self.bytes[..self.length], chain, kind, data, out);
        clear_stack();
        answer
    }

    /// Whether this is still the key under which a log's last entry was sealed; then it becomes the
    /// next one.
    #[inline]
    fn moves_over(&mut self, last: Entry) -> bool {
        let mut next = Key { bytes: self.bytes, length: self.length };
        let mut chain = last.before;
        let mut out = vec![0; last.bytes.len()];
        let answer = next.seal(&mut chain, last.kind, last.data, &mut out);
        let is_last = answer.number == 0 && out == last.bytes;
        if is_last {
            self.bytes = next.bytes;
        }
        is_last
    }

    /// Overwrites the key in its file.
    fn store(&self, file: &File) -> io::Result<()> {
        file.write_all_at(&self.bytes[..self.length], 0)?;
        file.sync_all()
    }
}

impl Drop for Key {
    fn drop(&mut self) {
        for byte in &mut self.bytes {
            // volatile, or the stores would be left out since nothing reads the key again
            unsafe { std::ptr::write_volatile(byte, 0) };
        }
    }
}
