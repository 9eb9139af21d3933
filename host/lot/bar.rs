//! A bar that shows how far a long append has come, on a terminal and after its first second.

use std::io::{self, Write};
use std::os::raw::c_int;
use std::time::{Duration, Instant};

extern "C" {
    fn isatty(file: c_int) -> c_int;
}

/// The numbers of standard output and standard error.
const STANDARD_OUTPUT: c_int = 1;
const STANDARD_ERROR: c_int = 2;

const WAIT: Duration = Duration::from_secs(1);
const PAUSE: Duration = Duration::from_millis(100);
const WIDTH: u64 = 30;

pub struct Bar {
    is_wanted: bool,
    /// Whether lines of the answer go to a terminal too: then the bar makes room for each, and is
    /// drawn anew below it.
    among_lines: bool,
    began: Instant,
    drawn: Option<Instant>,
    /// How much there is to do, if that is known.
    total: Option<u64>,
}

impl Bar {
    pub fn new(total: Option<u64>, quiet: bool) -> Bar {
        let is_terminal = |file: c_int| unsafe { isatty(file) } == 1;
        let is_wanted = !quiet && is_terminal(STANDARD_ERROR);
        let among_lines = is_terminal(STANDARD_OUTPUT);
        let total = total.filter(|&total| total > 0);
        Bar { is_wanted, among_lines, began: Instant::now(), drawn: None, total }
    }

    /// Shows how far it is, where lines do not pass it at most ten times a second.
    pub fn show(&mut self, done: u64, appended: u64) {
        let is_early = self.began.elapsed() < WAIT;
        let is_soon = self.drawn.map_or(false, |drawn| drawn.elapsed() < PAUSE);
        if !self.is_wanted || is_early || is_soon {
            return;
        }
        self.drawn = Some(Instant::now());
        let bar = self.total.map(|total| drawn(done.min(total), total)).unwrap_or_default();
        write(&format!("\r\x1b[K{}{} appended", bar, appended));
    }

    /// Makes room for a line.
    pub fn make_room(&mut self) {
        if self.among_lines {
            self.clear();
        }
    }

    /// Takes the bar away.
    pub fn clear(&mut self) {
        if self.drawn.take().is_some() {
            write("\r\x1b[K");
        }
    }
}

fn drawn(done: u64, total: u64) -> String {
    let full = (u128::from(done) * u128::from(WIDTH) / u128::from(total)) as usize;
    let percent = u128::from(done) * 100 / u128::from(total);
    let empty = WIDTH as usize - full;
    format!("[{}{}] {:>3} %, ", "#".repeat(full), ".".repeat(empty), percent)
}

/// What can't be drawn is left out: nothing depends on it.
fn write(text: &str) {
    let _ = io::stderr().write_all(text.as_bytes());
}
