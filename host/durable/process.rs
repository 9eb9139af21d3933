//! Another process, memory that it shares with this one, and its end.

use std::io;
use std::os::raw::{c_int, c_void};
use std::ptr;

/// The system's numbers on x86-64 Linux.
const READ_AND_WRITE: c_int = 1 | 2;
const MAP_SHARED: c_int = 1;
const WITHOUT_A_FILE: c_int = 32;
const KILL: c_int = 9;

extern "C" {
    fn fork() -> c_int;
    fn kill(process: c_int, signal: c_int) -> c_int;
    fn waitpid(process: c_int, status: *mut c_int, options: c_int) -> c_int;
    fn _exit(status: c_int) -> !;
    fn mmap(
        at: *mut c_void,
        n: usize,
        access: c_int,
        how: c_int,
        file: c_int,
        from: i64,
    ) -> *mut c_void;
}

/// Memory that processes share, for as long as they live: a file's first bytes, or with no file
/// zeros.
pub fn shared(file: Option<c_int>, length: usize) -> *mut u8 {
    let (how, file) = match file {
        Some(file) => (MAP_SHARED, file),
        None => (MAP_SHARED | WITHOUT_A_FILE, -1),
    };
    let start = unsafe { mmap(ptr::null_mut(), length, READ_AND_WRITE, how, file, 0) };
    assert!(start as isize != -1, "mmap: {}", io::Error::last_os_error());
    start.cast()
}

/// A process that does some work and nothing else.
pub struct Process(c_int);

impl Process {
    /// This process goes on beside it.
    pub fn begin(work: impl FnOnce()) -> Process {
        let id = unsafe { fork() };
        assert!(id >= 0, "fork: {}", io::Error::last_os_error());
        if id == 0 {
            work();
            unsafe { _exit(0) };
        }
        Process(id)
    }

    /// Waits for its end; whether it did all its work.
    pub fn ends_well(self) -> bool {
        let mut status = 0;
        unsafe { waitpid(self.0, &mut status, 0) == self.0 && status == 0 }
    }

    /// Ends it, by its id, wherever it is.
    pub fn end(self) {
        let mut status = 0;
        unsafe {
            assert_eq!(kill(self.0, KILL), 0, "kill: {}", io::Error::last_os_error());
            assert_eq!(waitpid(self.0, &mut status, 0), self.0);
        }
        assert_eq!(status & 0x7f, KILL, "the process ended otherwise");
    }
}
