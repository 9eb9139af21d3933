//! A file that is replaced whole. The bytes go to a new file, and the name goes over to it: written over
//! those of the file before they could be a mixture of both after a cut.

use std::fs::{self, File, OpenOptions};
use std::io::{self, ErrorKind, Read, Write};
use std::path::{Path, PathBuf};

use super::{place, seated};

/// What must stand at a place for a file to be put there.
#[derive(Clone, Copy)]
pub enum Before<'a> {
    Anything,
    Nothing,
    These(&'a [u8]),
}

/// Puts a file with these bytes at a path, and returns when it is safe on the disk. It is made beside
/// the path, under its name and `.saving`, and takes the name when all of it is safe: at every moment
/// the name stands for what stood there before, or for these bytes, whole. It has the owner, the group
/// and the rights of the file that it replaces.
///
/// What stands there is looked at when no other process can put a file there: so of two that both
/// found the same bytes there and put others in their place, the second fails. That another process is
/// at it is an error of the kind `WouldBlock`, a file where there must be none `AlreadyExists`. After
/// an error what stood there is as it was, and nothing of the attempt is left. Only where the last
/// flush failed, which makes the name safe, the name stands for the new file, and on the disk for
/// either.
pub fn put(path: &Path, bytes: &[u8], before: Before) -> io::Result<()> {
    let path = place_of(path)?;
    let next = place::next_to(&path, ".saving");
    let file = seated(&next, OpenOptions::new().read(true).write(true).create(true))?;
    let made = fill(&file, &path, bytes, before).and_then(|()| fs::rename(&next, &path));
    if made.is_err() {
        // the first error is the one to tell; with the lock on it the file is nobody else's
        let _ = fs::remove_file(&next);
    }
    made?;
    place::sync_folder(&path)
}

/// Where the file stands or is to stand, from the root. Where the path is a link that is what it leads
/// to, and a link that leads nowhere is an error.
fn place_of(path: &Path) -> io::Result<PathBuf> {
    let found = fs::canonicalize(path);
    match (&found, path.parent(), path.file_name()) {
        (Err(error), Some(folder), Some(name))
            if error.kind() == ErrorKind::NotFound && !path.is_symlink() =>
        {
            // a bare name has an empty parent
            let folder = if folder.as_os_str().is_empty() { Path::new(".") } else { folder };
            Ok(fs::canonicalize(folder)?.join(name))
        }
        _ => found,
    }
}

/// Fills a file that is to take the place of the one at the path, and waits until all of it is on the
/// disk. What an earlier attempt left in it goes first.
fn fill(mut file: &File, path: &Path, bytes: &[u8], before: Before) -> io::Result<()> {
    if matches!(before, Before::Nothing) && fs::symlink_metadata(path).is_ok() {
        return Err(ErrorKind::AlreadyExists.into());
    }
    let old = file_at(path)?;
    must_hold(old.as_ref(), before)?;
    file.set_len(0)?;
    if let Some(old) = &old {
        place::make_like(file, old)?;
    }
    file.write_all(bytes)?;
    file.sync_all()
}

/// Looks whether the file that is there holds what it must; of a longer one no more is read than shows
/// that.
fn must_hold(old: Option<&File>, before: Before) -> io::Result<()> {
    let bytes = match before {
        Before::These(bytes) => bytes,
        Before::Anything | Before::Nothing => return Ok(()),
    };
    let mut found = vec![];
    let old = old.ok_or_else(|| io::Error::from(ErrorKind::NotFound))?;
    old.take(bytes.len() as u64 + 1).read_to_end(&mut found)?;
    if found != bytes {
        return Err(io::Error::new(ErrorKind::Other, "another process has changed it meanwhile"));
    }
    Ok(())
}

/// The first bytes of a file: all of them, or as many as are asked for.
pub fn first_bytes(path: &Path, most: usize) -> io::Result<Vec<u8>> {
    let mut bytes = vec![];
    File::open(path)?.take(most as u64).read_to_end(&mut bytes)?;
    Ok(bytes)
}

/// The file that is there, if there is one. It is opened for writing, though nothing is written to it:
/// one that may not be written is not replaced either. Nor is a device, which a link may lead to.
fn file_at(path: &Path) -> io::Result<Option<File>> {
    let file = match OpenOptions::new().read(true).write(true).open(path) {
        Err(error) if error.kind() == ErrorKind::NotFound => return Ok(None),
        opened => opened?,
    };
    if !file.metadata()?.is_file() {
        return Err(io::Error::new(ErrorKind::InvalidInput, "what is there is no file"));
    }
    Ok(Some(file))
}
