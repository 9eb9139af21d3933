//! A file's place: whether a file still stands there, the one that is to stand there next, and the
//! folder.

use std::fs::{self, File};
use std::io;
use std::os::raw::c_int;
use std::os::unix::fs::MetadataExt;
use std::os::unix::io::AsRawFd;
use std::path::{Path, PathBuf};

extern "C" {
    fn fchown(file: c_int, owner: u32, group: u32) -> c_int;
}

/// Whether this file, and not another or none, is the one that the path names.
pub fn is_at(file: &File, path: &Path) -> io::Result<bool> {
    let named = match fs::metadata(path) {
        Err(error) if error.kind() == io::ErrorKind::NotFound => return Ok(false),
        named => named?,
    };
    let ours = file.metadata()?;
    Ok((ours.dev(), ours.ino()) == (named.dev(), named.ino()))
}

/// The name of the file that is to take the place of one: the same, with the suffix behind it.
pub fn next_to(path: &Path, suffix: &str) -> PathBuf {
    let mut name = path.as_os_str().to_os_string();
    name.push(suffix);
    name.into()
}

/// Gives a file the owner, the group and the rights of another.
pub fn make_like(file: &File, other: &File) -> io::Result<()> {
    let [ours, wanted] = [file.metadata()?, other.metadata()?];
    let same = (ours.uid(), ours.gid()) == (wanted.uid(), wanted.gid());
    if !same && unsafe { fchown(file.as_raw_fd(), wanted.uid(), wanted.gid()) } == -1 {
        return Err(io::Error::last_os_error());
    }
    file.set_permissions(wanted.permissions())
}

/// Makes safe which files have which names: that stands in their folder.
pub fn sync_folder(path: &Path) -> io::Result<()> {
    File::open(path.parent().unwrap_or(path))?.sync_all()
}
