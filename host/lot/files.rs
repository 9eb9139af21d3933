//! The files of a command: what it reads, which may be standard input, and what it makes, which may
//! be standard output.

use std::ffi::OsStr;
use std::fs::{self, File, OpenOptions};
use std::io::{self, Read, Write};
use std::os::unix::fs::MetadataExt;
use std::path::Path;

use lotlog::file::{put, read_all, Before, Reader};

use crate::said::Trouble;

/// Looks that standard input stands for one file of a command at most: it can be read once.
pub fn must_be_one(names: &[&OsStr]) -> Result<(), Trouble> {
    match names.iter().filter(|name| **name == "-").count() {
        0 | 1 => Ok(()),
        _ => Err(Trouble::new("standard input can stand for one file only")),
    }
}

/// Opens a file to read, or for `-` standard input.
pub fn open(name: &OsStr) -> Result<Box<dyn Read>, Trouble> {
    if name == "-" {
        return Ok(Box::new(io::stdin()));
    }
    match File::open(name) {
        Ok(file) => Ok(Box::new(file)),
        Err(error) => Err(Trouble::with_file(name, &error)),
    }
}

/// The bytes of a file, but no more than so many: a file that is longer than any can be that is of
/// use is refused by its first bytes as it would be by all.
pub fn read_first(name: &OsStr, most: usize) -> Result<Vec<u8>, Trouble> {
    let mut bytes = vec![];
    match open(name)?.take(most as u64).read_to_end(&mut bytes) {
        Ok(_) => Ok(bytes),
        Err(error) => Err(Trouble::with_file(name, &error)),
    }
}

/// All bytes of a file.
pub fn read(name: &OsStr) -> Result<Vec<u8>, Trouble> {
    read_all(open(name)?, 0).map_err(|error| Trouble::with_file(name, &error))
}

/// A store as it stands between two appends.
pub fn read_store(name: &OsStr) -> Result<Vec<u8>, Trouble> {
    if name == "-" {
        return read(name);
    }
    let store = Reader::open(Path::new(name)).and_then(|reader| reader.store());
    store.map_err(|error| Trouble::with_file(name, &error))
}

/// Which file a name stands for, if there is one.
fn identity(name: &OsStr) -> Option<(u64, u64)> {
    fs::metadata(name).ok().map(|file| (file.dev(), file.ino()))
}

/// Whether two names stand for one file, also for one that is not there yet.
pub fn is_one_place(one: &OsStr, other: &OsStr) -> bool {
    let place = |name: &OsStr| {
        let path = Path::new(name);
        // a bare name has an empty parent
        let folder = path.parent().filter(|folder| !folder.as_os_str().is_empty());
        let folder = fs::canonicalize(folder.unwrap_or_else(|| Path::new("."))).ok();
        (folder, path.file_name().map(OsStr::to_os_string))
    };
    is_one_file(one, other) || place(one) == place(other)
}

fn is_one_file(one: &OsStr, other: &OsStr) -> bool {
    identity(one).map_or(false, |one| identity(other) == Some(one))
}

/// Where what a command makes goes: to a file, or for `-` to standard output.
pub struct Output<'a>(&'a OsStr);

impl<'a> Output<'a> {
    /// That it is one of the files which the command reads is a slip: the file would be lost.
    pub fn of(name: &'a OsStr, inputs: &[&OsStr]) -> Result<Output<'a>, Trouble> {
        if name != "-" && inputs.iter().any(|input| is_one_file(input, name)) {
            return Err(Trouble::of(name, "it is read, so it can't be written"));
        }
        Ok(Output(name))
    }

    /// Writes it whole: a file that is there is replaced when all of the new one is safe. A device
    /// or a pipe takes the bytes as they come.
    pub fn write(&self, bytes: &[u8]) -> Result<(), Trouble> {
        let Output(name) = self;
        let written = match fs::metadata(name) {
            _ if *name == "-" => to_standard_output(bytes),
            Ok(found) if !found.is_file() => {
                OpenOptions::new().write(true).open(name).and_then(|mut file| file.write_all(bytes))
            }
            _ => put(Path::new(name), bytes, Before::Anything),
        };
        let name = if *name == "-" { OsStr::new("standard output") } else { name };
        written.map_err(|error| Trouble::with_file(name, &error))
    }
}

fn to_standard_output(bytes: &[u8]) -> io::Result<()> {
    let mut out = io::stdout();
    out.write_all(bytes)?;
    out.flush()
}

/// That a van's key is given as something else too is a slip: it would be sealed and sent, or lost.
pub fn must_differ(key: &OsStr, others: &[Option<&OsStr>]) -> Result<(), Trouble> {
    if others.iter().flatten().any(|other| is_one_file(other, key)) {
        return Err(Trouble::of(key, "the key can't be another file of the command too"));
    }
    Ok(())
}
