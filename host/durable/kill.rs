//! Ends a process in the middle of its appends, by its id, and looks at what it left:
//! kill KIND TIMES FILE.
//!
//! The process appends entry after entry to a store in a file and tells, in memory that it shares
//! with this one, how many appends it began and how many it ended. It is ended at a random moment of
//! a random append. Then the log in the file must be the one before that append or the one after it,
//! by the second program and by the audit, and the next append must work; the next process goes on
//! from there. Only ends that fell into an append are counted.
//!
//! KIND is how it appends: `mapped`, the library's call on a mapped file; `durable`,
//! `lotlog::file::Writer`; and `careless`, a copy of all 65 bytes of a record at once, from the last
//! to the first, which must be found out.

mod expected;
#[allow(dead_code)] // the test of files uses the rest
mod process;

use std::fs::{self, OpenOptions};
use std::os::unix::io::AsRawFd;
use std::path::Path;
use std::sync::atomic::{AtomicU64, AtomicUsize, Ordering::SeqCst};
use std::time::{Duration, Instant};
use std::{env, hint, slice, thread};

use compare::logs::{entry, LOG};
use compare::random::{fresh_seed, Random};
use lotlog::file::Writer;
use lotlog::{store_bytes, RECORD_BYTES, WHOLE};
use second::hash::Sha256;

use expected::Expected;
use process::{shared, Process};

/// A process is ended in one of its first appends. It makes a few more if its end comes late, and then
/// waits for it.
const APPENDS: u64 = 12;
const SPARE: u64 = 3;

/// The longest that a process may take for them.
const PATIENCE: Duration = Duration::from_secs(60);

/// The most processes for each end that falls into an append: on a busy machine some come late.
const TRIES: u64 = 10;

/// Where the mapped store lies, for the copy routine below.
static STORE: AtomicUsize = AtomicUsize::new(0);
static STORE_END: AtomicUsize = AtomicUsize::new(0);

/// A copy routine that goes from the last byte to the first and, where it writes to the store,
/// slowly: what the library's copies call where its archive says so in place of `memcpy`.
///
/// # Safety
/// As of `memcpy`.
#[no_mangle]
pub unsafe extern "C" fn backward_copy(to: *mut u8, from: *const u8, n: usize) -> *mut u8 {
    let slowly = (STORE.load(SeqCst)..STORE_END.load(SeqCst)).contains(&(to as usize));
    for at in (0..n).rev() {
        to.add(at).write_volatile(from.add(at).read_volatile());
        for _ in 0..if slowly { 200 } else { 0 } {
            hint::spin_loop();
        }
    }
    to
}

/// The same in place of `memmove`; bytes that it would overwrite before it reads them it copies the
/// other way.
///
/// # Safety
/// As of `memmove`.
#[no_mangle]
pub unsafe extern "C" fn backward_move(to: *mut u8, from: *const u8, n: usize) -> *mut u8 {
    if (to as usize) < from as usize && (from as usize) < to as usize + n {
        (0..n).for_each(|at| to.add(at).write_volatile(from.add(at).read_volatile()));
        return to;
    }
    backward_copy(to, from, n)
}

/// The store in a file as memory, until the process ends.
fn mapped(path: &Path) -> &'static mut [u8] {
    let file = OpenOptions::new().read(true).write(true).open(path).expect("the store");
    let length = file.metadata().expect("the store").len() as usize;
    let start = shared(Some(file.as_raw_fd()), length);
    STORE.store(start as usize, SeqCst);
    STORE_END.store(start as usize + length, SeqCst);
    unsafe { slice::from_raw_parts_mut(start, length) }
}

/// How a process appends to the store in a file.
#[derive(Clone, Copy, PartialEq)]
enum Kind {
    Mapped,
    Durable,
    Careless,
}

impl Kind {
    fn named(name: &str) -> Kind {
        match name {
            "mapped" => Kind::Mapped,
            "durable" => Kind::Durable,
            "careless" => Kind::Careless,
            _ => panic!("no kind {}", name),
        }
    }

    /// Opens the store; what it gives appends one entry.
    fn open(self, path: &Path) -> Box<dyn FnMut(&[u8])> {
        if self == Kind::Durable {
            let mut writer = Writer::open(path).expect("the store");
            return Box::new(move |entry| assert!(writer.append(entry).is_ok()));
        }
        let store = mapped(path);
        if self == Kind::Mapped {
            return Box::new(move |entry| {
                assert_eq!(lotlog::append(store, entry, WHOLE).number, 0)
            });
        }
        Box::new(move |entry| {
            let mut next = store.to_vec();
            let count = second::store::append::<Sha256>(&mut next, entry, WHOLE).expect("room");
            let at = store_bytes(count as usize - 1);
            unsafe { backward_copy(store[at..].as_mut_ptr(), next[at..].as_ptr(), RECORD_BYTES) };
        })
    }
}

/// The elements whose appends were begun, and those whose appends were ended.
struct Progress {
    begun: AtomicU64,
    ended: AtomicU64,
}

impl Progress {
    fn shared() -> &'static Progress {
        unsafe { &*shared(None, 4096).cast() }
    }

    fn set(&self, count: u64) {
        self.begun.store(count, SeqCst);
        self.ended.store(count, SeqCst);
    }
}

/// What the process does: it appends up to an element, and waits to be ended.
fn append_up_to(last: u64, kind: Kind, path: &Path, progress: &Progress) {
    let mut append = kind.open(path);
    for next in progress.ended.load(SeqCst) + 1..=last {
        let entry = entry(next);
        progress.begun.store(next, SeqCst);
        append(&entry);
        progress.ended.store(next, SeqCst);
    }
    thread::sleep(PATIENCE);
}

/// Waits until a process has begun an append; gives the time that one took, if there were others
/// before it.
fn wait_for(progress: &Progress, last: u64) -> Option<Duration> {
    let called = Instant::now();
    let first = progress.begun.load(SeqCst) + 1;
    let mut began = called;
    loop {
        let begun = progress.begun.load(SeqCst);
        if begun < first {
            began = Instant::now();
        }
        if begun >= last {
            return began.elapsed().checked_div((last - first) as u32);
        }
        assert!(called.elapsed() < PATIENCE, "the process does not go on");
        hint::spin_loop();
    }
}

/// One process, from its start to its end in an append, and one append after it.
struct Round<'a> {
    kind: Kind,
    path: &'a Path,
    progress: &'a Progress,
    expected: Expected,
    random: Random,
    /// The time of an append, as far as it is known.
    span: Duration,
    ends: u64,
    torn: u64,
    new: u64,
}

impl Round<'_> {
    fn run(&mut self) -> Result<(), String> {
        let before = self.expected.count;
        self.progress.set(before);
        let last = before + self.random.between(1, APPENDS);
        let process =
            Process::begin(|| append_up_to(last + SPARE, self.kind, self.path, self.progress));
        if let Some(span) = wait_for(self.progress, last) {
            self.span = span;
        }
        let wait = self.random.below(self.span.as_nanos().max(1) as u64);
        let reached = Instant::now();
        while reached.elapsed() < Duration::from_nanos(wait) {
            hint::spin_loop();
        }
        process.end();
        self.look()
    }

    /// Looks at what the process left, and appends once more.
    fn look(&mut self) -> Result<(), String> {
        let [begun, ended] = [&self.progress.begun, &self.progress.ended].map(|n| n.load(SeqCst));
        let store = fs::read(self.path).expect("the store");
        let count = self.expected.judge(&store, ended, begun)?;
        if ended < begun {
            self.ends += 1;
            self.torn += u64::from(store != self.expected.store);
            self.new += u64::from(count == begun);
        }
        self.kind.open(self.path)(&entry(count + 1));
        let store = fs::read(self.path).expect("the store");
        self.expected.judge(&store, count + 1, count + 1)?;
        if store != self.expected.store {
            return Err(format!("the append after the end left other bytes, count {}", count));
        }
        Ok(())
    }
}

fn main() {
    let arguments: Vec<String> = env::args().skip(1).collect();
    let [kind, times, path] = <[String; 3]>::try_from(arguments).expect("kill KIND TIMES FILE");
    let (kind, times) = (Kind::named(&kind), times.parse::<u64>().expect("a number"));
    let path = Path::new(&path);
    let tries = TRIES * times;
    // each process appends so often at most, and once more is appended after it
    let room = ((APPENDS + SPARE + 1) * tries) as usize;
    drop(Writer::create(path, LOG, room).expect("a new store"));

    let seed = fresh_seed();
    let mut round = Round {
        kind,
        path,
        progress: Progress::shared(),
        expected: Expected::fresh(room),
        random: Random::new(seed),
        span: Duration::from_micros(100),
        ends: 0,
        torn: 0,
        new: 0,
    };
    let mut found = None;
    let mut tried = 0;
    while round.ends < times && found.is_none() {
        assert!(tried < tries, "seed {}: only {} ends fell into an append", seed, round.ends);
        tried += 1;
        found = round.run().err();
    }
    match (found, kind == Kind::Careless) {
        (None, false) => println!(
            "ended in {} appends: {} old logs, {} of them with a torn record, {} new ones",
            times,
            times - round.new,
            round.torn,
            round.new
        ),
        (Some(fault), true) => println!("found out after {} ends: {}", round.ends, fault),
        (None, true) => panic!("seed {}: the careless append was not found out", seed),
        (Some(fault), false) => panic!("seed {}, after {} ends: {}", seed, round.ends, fault),
    }
}
