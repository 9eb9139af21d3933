//! A file's bytes as memory, their way to the disk, and room there.

use std::fs::File;
use std::io;
use std::os::raw::{c_int, c_long, c_void};
use std::os::unix::io::AsRawFd;
use std::{ptr, slice};

/// The system's numbers on x86-64 Linux.
const READ_AND_WRITE: c_int = 1 | 2;
const MAP_SHARED: c_int = 1;
const WAIT_FOR_THE_DISK: c_int = 4;
const PAGE_SIZE: c_int = 30;

extern "C" {
    fn mmap(
        at: *mut c_void,
        n: usize,
        access: c_int,
        how: c_int,
        file: c_int,
        from: i64,
    ) -> *mut c_void;
    fn munmap(at: *mut c_void, n: usize) -> c_int;
    fn msync(at: *mut c_void, n: usize, how: c_int) -> c_int;
    fn posix_fallocate(file: c_int, from: i64, n: i64) -> c_int;
    fn sysconf(what: c_int) -> c_long;
}

/// The bytes of a file from its start: what is stored in them is stored in the file.
pub struct Map {
    start: *mut u8,
    length: usize,
}

/// The memory is this value's alone.
unsafe impl Send for Map {}
unsafe impl Sync for Map {}

impl Map {
    /// The file has at least so many bytes. Where they are none nothing is mapped.
    pub fn of(file: &File, length: usize) -> io::Result<Map> {
        if length == 0 {
            return Ok(Map { start: ptr::NonNull::dangling().as_ptr(), length });
        }
        let descriptor = file.as_raw_fd();
        let start =
            unsafe { mmap(ptr::null_mut(), length, READ_AND_WRITE, MAP_SHARED, descriptor, 0) };
        if start as isize == -1 {
            return Err(io::Error::last_os_error());
        }
        Ok(Map { start: start.cast(), length })
    }

    pub fn bytes(&self) -> &[u8] {
        unsafe { slice::from_raw_parts(self.start, self.length) }
    }

    pub fn bytes_mut(&mut self) -> &mut [u8] {
        unsafe { slice::from_raw_parts_mut(self.start, self.length) }
    }
}

impl Drop for Map {
    fn drop(&mut self) {
        if self.length > 0 {
            unsafe { munmap(self.start.cast(), self.length) };
        }
    }
}

/// Waits until bytes of a map are on the disk, with all that is needed to read them again.
pub fn flush(part: &[u8]) -> io::Result<()> {
    let page = unsafe { sysconf(PAGE_SIZE) } as usize;
    // the system takes whole pages
    let before = part.as_ptr() as usize % page;
    let from = part.as_ptr().wrapping_sub(before) as *mut c_void;
    if unsafe { msync(from, before + part.len(), WAIT_FOR_THE_DISK) } == -1 {
        return Err(io::Error::last_os_error());
    }
    Ok(())
}

/// Reserves room on the disk for the first bytes of a file, and makes it that long if it is shorter.
/// Without it a full disk would show as a signal in the middle of an append.
pub fn reserve(file: &File, length: usize) -> io::Result<()> {
    match unsafe { posix_fallocate(file.as_raw_fd(), 0, length as i64) } {
        0 => Ok(()),
        error => Err(io::Error::from_raw_os_error(error)),
    }
}
