//! A store of the most elements and one more, some 279 GB, that takes no disk and little memory: one
//! file of 17 MB in memory, mapped again and again. A page that is changed is copied first, so that a
//! change is seen at its place alone.
//!
//! The file has a whole number of records, and of pages. So the records go on from one copy to the
//! next, and all of them read as closed. Each copy is a mapping of its own, of which the system allows
//! a process some 65,000; there are 16,385. What it takes beside the file is the system's table of the
//! pages, 0.5 GB, and under the emulator that one's, 1.6 GB.

use std::fs::File;
use std::io::{self, Write};
use std::os::raw::{c_char, c_int, c_uint, c_void};
use std::os::unix::io::{AsRawFd, FromRawFd};
use std::{ptr, slice};

use lotlog::{store_bytes, ELEMENTS_MOST, HEADER_BYTES, RECORD_BYTES};

/// The records of the file, and its bytes.
const FILE_RECORDS: usize = 1 << 18;
const FILE_BYTES: usize = RECORD_BYTES * FILE_RECORDS;

/// The bytes of the store, and of the copies that it lies in.
const STORE_BYTES: usize = store_bytes(ELEMENTS_MOST + 1);
const ALL_BYTES: usize = (STORE_BYTES + FILE_BYTES - 1) / FILE_BYTES * FILE_BYTES;

/// A whole number of pages, whatever their size; the file's bytes are a whole number of these.
const PAGES: usize = 1 << 16;

const CLOSED: u8 = 1;

/// The system's numbers on x86-64 Linux.
const NO_ACCESS: c_int = 0;
const READ: c_int = 1;
const READ_AND_WRITE: c_int = 1 | 2;
const MAP_PRIVATE: c_int = 2;
const AT_THIS_PLACE: c_int = 16;
const WITHOUT_A_FILE: c_int = 32;
const NOTHING_RESERVED: c_int = 0x4000;

extern "C" {
    fn memfd_create(name: *const c_char, how: c_uint) -> c_int;
    fn mmap(
        at: *mut c_void,
        n: usize,
        access: c_int,
        how: c_int,
        file: c_int,
        from: i64,
    ) -> *mut c_void;
    fn mprotect(at: *mut c_void, n: usize, access: c_int) -> c_int;
}

/// A closed record with made-up d and T, which differ from number to number.
pub fn made_up(number: u64) -> [u8; RECORD_BYTES] {
    let mut record = [CLOSED; RECORD_BYTES];
    let mut state = number;
    for part in record.chunks_exact_mut(8) {
        // splitmix64, whose outputs for different states differ
        state = state.wrapping_add(0x9e37_79b9_7f4a_7c15);
        let mut word = (state ^ (state >> 30)).wrapping_mul(0xbf58_476d_1ce4_e5b9);
        word = (word ^ (word >> 27)).wrapping_mul(0x94d0_49bb_1331_11eb);
        part.copy_from_slice(&(word ^ (word >> 31)).to_be_bytes());
    }
    record
}

/// Where the record of an element begins.
pub fn place(j: u64) -> usize {
    store_bytes(j as usize - 1)
}

/// Ends the program where the system could not.
fn must(call: &str, is_done: bool) {
    assert!(is_done, "{}: {}", call, io::Error::last_os_error());
}

/// The file in memory. Its records begin behind the header, so the end of the last stands in front.
fn repeated() -> File {
    let mut bytes: Vec<u8> = (0..FILE_RECORDS).flat_map(|r| made_up(!(r as u64))).collect();
    bytes.rotate_right(HEADER_BYTES);
    let descriptor = unsafe { memfd_create(b"records\0".as_ptr().cast(), 0) };
    must("memfd_create", descriptor != -1);
    let mut file = unsafe { File::from_raw_fd(descriptor) };
    file.write_all(&bytes).expect("room in memory");
    file
}

/// Maps memory, and gives where it is.
fn map(at: *mut u8, length: usize, access: c_int, how: c_int, file: c_int) -> *mut u8 {
    let start = unsafe { mmap(at.cast(), length, access, MAP_PRIVATE | how, file, 0) };
    must("mmap", start as isize != -1);
    start.cast()
}

/// The store. It can be read and not written: a byte stored there ends the program, but where
/// `allow` lets it.
pub struct Large {
    start: *mut u8,
}

impl Large {
    /// The store with that header, all of its records closed.
    pub fn new(header: &[u8; HEADER_BYTES]) -> Large {
        let file = repeated();
        let addresses = WITHOUT_A_FILE | NOTHING_RESERVED;
        let start = map(ptr::null_mut(), ALL_BYTES, NO_ACCESS, addresses, -1);
        for copy in (0..ALL_BYTES).step_by(FILE_BYTES) {
            map(start.wrapping_add(copy), FILE_BYTES, READ, AT_THIS_PLACE, file.as_raw_fd());
        }
        let mut large = Large { start };
        large.put(0, header);
        large
    }

    pub fn bytes(&self) -> &[u8] {
        unsafe { slice::from_raw_parts(self.start, STORE_BYTES) }
    }

    /// For the calls that are lent a store to write.
    pub fn bytes_mut(&mut self) -> &mut [u8] {
        unsafe { slice::from_raw_parts_mut(self.start, STORE_BYTES) }
    }

    /// Changes bytes, at this place alone.
    pub fn put(&mut self, at: usize, bytes: &[u8]) {
        self.allow(at, bytes.len());
        self.bytes_mut()[at..at + bytes.len()].copy_from_slice(bytes);
        self.forbid(at, bytes.len());
    }

    /// Lets bytes be written, and those on the same pages.
    pub fn allow(&mut self, at: usize, length: usize) {
        self.protect(at, length, READ_AND_WRITE);
    }

    /// Lets them be written no more.
    pub fn forbid(&mut self, at: usize, length: usize) {
        self.protect(at, length, READ);
    }

    fn protect(&mut self, at: usize, length: usize, access: c_int) {
        let first = at - at % PAGES;
        let start = self.start.wrapping_add(first);
        let whole = (at + length - first + PAGES - 1) / PAGES * PAGES;
        must("mprotect", unsafe { mprotect(start.cast(), whole, access) } != -1);
    }
}
