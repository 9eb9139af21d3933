//! The calls of the system by which a store, a held state or a van's entry reaches the disk and is
//! locked, watched: they take the place of the C library's, note what they are asked for, and fail, or
//! let something happen first, when told to.

use std::ffi::{CStr, OsStr};
use std::fs;
use std::os::raw::{c_char, c_int, c_long, c_void};
use std::os::unix::ffi::OsStrExt;
use std::path::PathBuf;
use std::slice;
use std::sync::atomic::{AtomicUsize, Ordering::SeqCst};
use std::sync::Mutex;

/// The system's numbers on x86-64 Linux.
const READ: c_long = 0;
const WRITE: c_long = 1;
const WRITE_AT: c_long = 18;
const MSYNC: c_long = 26;
const FCNTL: c_long = 72;
const FSYNC: c_long = 74;
const RENAME: c_long = 82;
const SET_PRIVILEGES: c_long = 126;
const FALLOCATE: c_long = 285;
const INPUT_OUTPUT_ERROR: c_int = 5;
pub const NO_SPACE: c_int = 28;

/// The command by which a lock is tried.
const TRY_LOCK: c_int = 37;

extern "C" {
    fn syscall(number: c_long, ...) -> c_long;
    fn __errno_location() -> *mut c_int;
}

/// What each flush was asked to bring to the disk.
static FLUSHED: Mutex<Vec<Vec<u8>>> = Mutex::new(vec![]);

/// How often a whole file was flushed.
static FILES_FLUSHED: AtomicUsize = AtomicUsize::new(0);

/// A call that brings bytes into a file, all of a file to the disk, or a file to another name.
#[derive(Debug, PartialEq)]
pub enum Step {
    Written(PathBuf, Vec<u8>),
    Flushed(PathBuf),
    Renamed(PathBuf, PathBuf),
}

/// These calls in their order.
static STEPS: Mutex<Vec<Step>> = Mutex::new(vec![]);

/// How many bytes were read from files.
static BYTES_READ: AtomicUsize = AtomicUsize::new(0);

/// Which flush from now on fails, which of a whole file, which reservation, which write, which rename
/// and which step of any kind; 0 for none.
static BAD_FLUSH: AtomicUsize = AtomicUsize::new(0);
static BAD_FILE_FLUSH: AtomicUsize = AtomicUsize::new(0);
static BAD_RESERVATION: AtomicUsize = AtomicUsize::new(0);
static BAD_WRITE: AtomicUsize = AtomicUsize::new(0);
static BAD_RENAME: AtomicUsize = AtomicUsize::new(0);
static BAD_STEP: AtomicUsize = AtomicUsize::new(0);

pub fn fail_flush(number: usize) {
    BAD_FLUSH.store(number, SeqCst);
}

pub fn fail_file_flush(number: usize) {
    BAD_FILE_FLUSH.store(number, SeqCst);
}

pub fn fail_reservation(number: usize) {
    BAD_RESERVATION.store(number, SeqCst);
}

pub fn fail_write(number: usize) {
    BAD_WRITE.store(number, SeqCst);
}

pub fn fail_rename(number: usize) {
    BAD_RENAME.store(number, SeqCst);
}

pub fn fail_step(number: usize) {
    BAD_STEP.store(number, SeqCst);
}

/// Something that is done once.
type Once = Mutex<Option<Box<dyn FnOnce() + Send>>>;

/// What is done before the next lock is tried, before the next file gets another name, and before a
/// step, with the number of that step from now on.
static BEFORE_LOCK: Once = Mutex::new(None);
static BEFORE_RENAME: Once = Mutex::new(None);
static BEFORE_STEP: Once = Mutex::new(None);
static AWAITED_STEP: AtomicUsize = AtomicUsize::new(0);

pub fn before_lock(work: impl FnOnce() + Send + 'static) {
    *BEFORE_LOCK.lock().expect("no other thread") = Some(Box::new(work));
}

pub fn before_rename(work: impl FnOnce() + Send + 'static) {
    *BEFORE_RENAME.lock().expect("no other thread") = Some(Box::new(work));
}

pub fn before_step(number: usize, work: impl FnOnce() + Send + 'static) {
    *BEFORE_STEP.lock().expect("no other thread") = Some(Box::new(work));
    AWAITED_STEP.store(number, SeqCst);
}

fn do_once(which: &Once) {
    let work = which.lock().expect("no other thread").take();
    if let Some(work) = work {
        work();
    }
}

/// What was flushed since this was asked last.
pub fn flushed() -> Vec<Vec<u8>> {
    std::mem::take(&mut FLUSHED.lock().expect("no other thread"))
}

/// How often a whole file was flushed since this was asked last.
pub fn files_flushed() -> usize {
    FILES_FLUSHED.swap(0, SeqCst)
}

/// The steps since this was asked last.
pub fn steps() -> Vec<Step> {
    std::mem::take(&mut STEPS.lock().expect("no other thread"))
}

/// Notes a step, after what is to happen before it; whether it fails.
fn note(step: Step) -> bool {
    if is_due(&AWAITED_STEP) {
        do_once(&BEFORE_STEP);
    }
    STEPS.lock().expect("no other thread").push(step);
    is_due(&BAD_STEP)
}

/// How many bytes were read from files since this was asked last.
pub fn bytes_read() -> usize {
    BYTES_READ.swap(0, SeqCst)
}

/// Takes from this process, for good, what lets one of the administrator's past the rights of a file.
pub fn obey_rights() {
    const VERSION: u32 = 0x2008_0522;
    let (which, none) = ([VERSION, 0], [0_u32; 6]);
    let set = unsafe { syscall(SET_PRIVILEGES, which.as_ptr(), none.as_ptr()) };
    assert_eq!(set, 0, "the privileges stay");
}

/// The name by which the system knows an open file.
fn name_of(file: c_int) -> PathBuf {
    fs::read_link(format!("/proc/self/fd/{}", file)).unwrap_or_default()
}

/// Counts down to the call that is meant.
fn is_due(which: &AtomicUsize) -> bool {
    let left = which.load(SeqCst);
    which.store(left.saturating_sub(1), SeqCst);
    left == 1
}

/// # Safety
/// As of the C library's.
#[no_mangle]
pub unsafe extern "C" fn msync(at: *mut c_void, n: usize, how: c_int) -> c_int {
    let bytes = slice::from_raw_parts(at.cast::<u8>(), n).to_vec();
    FLUSHED.lock().expect("no other thread").push(bytes);
    if is_due(&BAD_FLUSH) {
        *__errno_location() = INPUT_OUTPUT_ERROR;
        return -1;
    }
    syscall(MSYNC, at, n, how) as c_int
}

/// # Safety
/// As of the C library's.
#[no_mangle]
pub unsafe extern "C" fn fsync(file: c_int) -> c_int {
    FILES_FLUSHED.fetch_add(1, SeqCst);
    if note(Step::Flushed(name_of(file))) | is_due(&BAD_FILE_FLUSH) {
        *__errno_location() = INPUT_OUTPUT_ERROR;
        return -1;
    }
    syscall(FSYNC, c_long::from(file)) as c_int
}

/// # Safety
/// As of the C library's.
#[no_mangle]
pub unsafe extern "C" fn fcntl(file: c_int, command: c_int, with: *mut c_void) -> c_int {
    if command == TRY_LOCK {
        do_once(&BEFORE_LOCK);
    }
    syscall(FCNTL, c_long::from(file), c_long::from(command), with) as c_int
}

/// # Safety
/// As of the C library's.
#[no_mangle]
pub unsafe extern "C" fn posix_fallocate(file: c_int, from: i64, n: i64) -> c_int {
    if is_due(&BAD_RESERVATION) {
        return NO_SPACE;
    }
    match syscall(FALLOCATE, c_long::from(file), 0 as c_long, from, n) {
        0 => 0,
        _ => *__errno_location(),
    }
}

/// # Safety
/// As of the C library's.
#[no_mangle]
pub unsafe extern "C" fn read(file: c_int, to: *mut c_void, n: usize) -> isize {
    let got = syscall(READ, c_long::from(file), to, n) as isize;
    BYTES_READ.fetch_add(got.max(0) as usize, SeqCst);
    got
}

/// Where it fails the disk is full, and some of the bytes are written.
///
/// # Safety
/// As of the C library's.
#[no_mangle]
pub unsafe extern "C" fn write(file: c_int, from: *const c_void, n: usize) -> isize {
    let bytes = slice::from_raw_parts(from.cast::<u8>(), n).to_vec();
    if note(Step::Written(name_of(file), bytes)) | is_due(&BAD_WRITE) {
        syscall(WRITE, c_long::from(file), from, n / 2);
        *__errno_location() = NO_SPACE;
        return -1;
    }
    syscall(WRITE, c_long::from(file), from, n) as isize
}

/// Where it fails the disk is full, and behind the end of the file some of the bytes are written. Within
/// the file none is: they have their room, and a sector is changed whole or not at all.
///
/// # Safety
/// As of the C library's.
#[no_mangle]
pub unsafe extern "C" fn pwrite64(file: c_int, from: *const c_void, n: usize, at: i64) -> isize {
    let bytes = slice::from_raw_parts(from.cast::<u8>(), n).to_vec();
    if note(Step::Written(name_of(file), bytes)) | is_due(&BAD_WRITE) {
        if fs::metadata(name_of(file)).map_or(true, |found| found.len() <= at as u64) {
            syscall(WRITE_AT, c_long::from(file), from, n / 2, at);
        }
        *__errno_location() = NO_SPACE;
        return -1;
    }
    syscall(WRITE_AT, c_long::from(file), from, n, at) as isize
}

/// # Safety
/// As of the C library's.
#[no_mangle]
pub unsafe extern "C" fn rename(from: *const c_char, to: *const c_char) -> c_int {
    do_once(&BEFORE_RENAME);
    let [old, new] = [from, to].map(|name| OsStr::from_bytes(CStr::from_ptr(name).to_bytes()));
    if note(Step::Renamed(old.into(), new.into())) | is_due(&BAD_RENAME) {
        *__errno_location() = INPUT_OUTPUT_ERROR;
        return -1;
    }
    syscall(RENAME, from, to) as c_int
}
