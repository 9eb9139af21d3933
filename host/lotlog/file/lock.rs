//! Locks between processes: the system's locks on single bytes of a file, which belong to an open
//! file and end with it. They say nothing of the bytes themselves, and hold back only those who ask.

use std::fs::File;
use std::io;
use std::os::raw::{c_int, c_short};
use std::os::unix::io::AsRawFd;

/// The byte whose lock the writer has for as long as it has the store open.
pub const SEAT: i64 = 0;

/// The byte whose lock is had alone during an append, and shared while the store is copied.
pub const GATE: i64 = 1;

/// The system's `struct flock` on x86-64 Linux, and its numbers for locks of an open file.
#[repr(C)]
struct Range {
    kind: c_short,
    whence: c_short,
    start: i64,
    length: i64,
    process: c_int,
}

const SHARED: c_short = 0;
const ALONE: c_short = 1;
const FREE: c_short = 2;

const TRY: c_int = 37;
const WAIT: c_int = 38;

extern "C" {
    fn fcntl(file: c_int, command: c_int, ...) -> c_int;
}

/// A lock that is had until this is dropped.
pub struct Lock<'a> {
    file: &'a File,
    byte: i64,
}

impl<'a> Lock<'a> {
    /// Waits until nobody else has the byte.
    pub fn alone(file: &'a File, byte: i64) -> io::Result<Lock<'a>> {
        Lock::take(file, byte, ALONE, WAIT)
    }

    /// Waits until nobody else has the byte alone.
    pub fn shared(file: &'a File, byte: i64) -> io::Result<Lock<'a>> {
        Lock::take(file, byte, SHARED, WAIT)
    }

    /// Where somebody else has the byte it is an error, of the kind `WouldBlock`.
    pub fn try_alone(file: &'a File, byte: i64) -> io::Result<Lock<'a>> {
        Lock::take(file, byte, ALONE, TRY)
    }

    /// Leaves the byte locked until the file is closed.
    pub fn keep(self) {
        std::mem::forget(self);
    }

    fn take(file: &'a File, byte: i64, kind: c_short, command: c_int) -> io::Result<Lock<'a>> {
        loop {
            if set(file, byte, kind, command) != -1 {
                return Ok(Lock { file, byte });
            }
            let error = io::Error::last_os_error();
            // a signal that came while waiting
            if error.kind() != io::ErrorKind::Interrupted {
                return Err(error);
            }
        }
    }
}

impl Drop for Lock<'_> {
    fn drop(&mut self) {
        set(self.file, self.byte, FREE, TRY);
    }
}

fn set(file: &File, byte: i64, kind: c_short, command: c_int) -> c_int {
    let range = Range { kind, whence: 0, start: byte, length: 1, process: 0 };
    unsafe { fcntl(file.as_raw_fd(), command, &range) }
}
