//! A van's log in a file and its key in another: what `seal_to` leaves of both, by the second program. A
//! whole way from the first entry to the closing one; refusals, and which comes first; what is done in
//! which order; a write, a flush or a rename that fails, once and again and again; every state of the
//! two files that a cut can leave, also one of the power behind an end of the process; a second process
//! at every moment that matters; names and files of other kinds; and ends in the middle of sealing. A
//! log that goes on is closed at last and must pass the office's check, with every entry that was
//! answered, once and in order.

use std::io::{self, ErrorKind, Write};
use std::os::unix::fs::{symlink, MetadataExt, PermissionsExt};
use std::path::{Path, PathBuf};
use std::sync::atomic::{AtomicU64, Ordering::SeqCst};
use std::sync::Arc;
use std::{env, fs};

use compare::logs;
use compare::random::{fresh_seed, Random};
use lotlog::file::{seal_to, Error};
use lotlog::{seal_check, Answer};
use second::hash::Sha256;
use second::sealed::{add, check, stored};
use second::sealed::{BESIDE_DATA, CLOSED_KEY, CLOSING, DATA_MOST, FIRST_CHAIN};
use second::Digest;

use crate::held::{by_its_rights, everything, fails_with, names};
use crate::process::{shared, Process};
use crate::system::{self, Step};
use crate::{end_in_the_middle, finds_no_space, Tests, ENDS};

/// A van by the second program: A(0), and what its two files must hold.
#[derive(Clone)]
struct Van {
    first_key: Digest,
    key: Digest,
    chain: Digest,
    log: Vec<u8>,
    entries: u64,
}

impl Van {
    /// A van whose A(0) was just drawn.
    fn new(seed: u64) -> Van {
        let first_key = Random::new(seed).bytes(32).try_into().expect("32 bytes");
        Van { first_key, key: first_key, chain: FIRST_CHAIN, log: vec![], entries: 0 }
    }

    /// A van with so many short entries, none of which closes.
    fn of(entries: u64) -> Van {
        (2..2 + entries).fold(Van::new(entries), |van, j| van.with(j as u32, &logs::entry(7 * j)))
    }

    /// This van with an entry more.
    fn with(&self, kind: u32, data: &[u8]) -> Van {
        let mut van = self.clone();
        let mut entry = vec![0; data.len() + BESIDE_DATA];
        let added = add::<Sha256>(&mut van.key, &mut van.chain, kind, data, &mut entry);
        assert_eq!(added, Ok(entry.len() as u64));
        van.log.extend(entry);
        van.entries += 1;
        van
    }

    fn is_closed(&self) -> bool {
        self.key == CLOSED_KEY
    }
}

/// An entry that does not close, with data of any length.
fn some_entry(seed: u64) -> (u32, Vec<u8>) {
    let mut random = Random::new(seed);
    let kind = random.next() as u32 | 2;
    let length = random.of_any_size(DATA_MOST as u64 + 1) as usize - 1;
    (kind, random.bytes(length))
}

/// The answer to an entry of that number.
fn sealed(number: u64) -> Option<Answer> {
    Some(Answer { number: 0, beside: [number, 0, 0] })
}

/// Makes a file or writes over one; without emptying it first, after which the system would wait for the
/// disk.
fn write_over(path: &Path, bytes: &[u8]) -> io::Result<()> {
    let mut file = fs::OpenOptions::new().write(true).create(true).truncate(false).open(path)?;
    file.write_all(bytes)?;
    file.set_len(bytes.len() as u64)
}

/// The two files of a van, and the one that is made beside the log.
#[derive(Clone)]
struct Files {
    folder: PathBuf,
    log: PathBuf,
    key: PathBuf,
    saving: PathBuf,
}

impl Files {
    fn seal(&self, kind: u32, data: &[u8]) -> Result<Answer, Error> {
        Ok(seal_to(&self.log, &self.key, kind, data)?)
    }

    /// Puts there a key, and a log or none, and nothing else.
    fn put(&self, log: Option<&[u8]>, key: &[u8]) {
        for (path, bytes) in [(&self.log, log), (&self.key, Some(key)), (&self.saving, None)] {
            match bytes {
                Some(bytes) => write_over(path, bytes).expect("a file"),
                None if path.exists() => fs::remove_file(path).expect("the file"),
                None => {}
            }
        }
    }

    /// The bytes of the log, none where it is not there, and of the key.
    fn bytes(&self) -> [Vec<u8>; 2] {
        [bytes_at(&self.log), fs::read(&self.key).expect("the key")]
    }
}

/// The bytes of a file, none where it is not there.
fn bytes_at(path: &Path) -> Vec<u8> {
    if path.exists() {
        fs::read(path).expect("the file")
    } else {
        vec![]
    }
}

impl Tests {
    /// A folder with a van's two files; a log without entries is not there.
    fn files(&self, name: &str, van: &Van) -> Files {
        let folder = self.folder(name);
        let [log, key, saving] = ["log", "key", "log.saving"].map(|name| folder.join(name));
        let files = Files { folder, log, key, saving };
        files.put((van.entries > 0).then(|| &van.log[..]), &van.key);
        files
    }

    /// Looks whether the files hold what a van's must.
    fn hold(&mut self, what: &str, files: &Files, log: &[u8], key: &[u8]) {
        let [log_there, key_there] = files.bytes();
        self.look(what, log_there == log);
        self.look(what, key_there == key);
    }

    /// Looks whether an entry is sealed, and gives the van that has it.
    fn seals(&mut self, files: &Files, van: &Van, kind: u32, data: &[u8]) -> Van {
        let next = van.with(kind, data);
        let file = fs::metadata(&files.key).expect("the key").ino();
        self.look("it is sealed", files.seal(kind, data).ok() == sealed(van.entries));
        self.hold("the entry and the next key", files, &next.log, &next.key);
        let key_after = fs::metadata(&files.key).expect("the key").ino();
        self.look("the old key is overwritten", key_after == file);
        self.look("nothing else", names(&files.folder).len() == 2);
        next
    }

    /// Looks whether a log that holds these entries goes on, closes and passes; the key may be behind.
    fn goes_on(&mut self, files: &Files, van: &Van) {
        let mut van = van.clone();
        if !van.is_closed() {
            van = self.seals(files, &van, 9, b"and on");
            van = self.seals(files, &van, CLOSING, b"end of the day");
        }
        let closed = Answer { number: 23, beside: [0; 3] };
        self.look("it is closed", files.seal(9, b"").ok() == Some(closed));
        self.hold("the whole log", files, &van.log, &CLOSED_KEY);
        let [log, _] = files.bytes();
        let passed = Answer { number: 0, beside: [van.entries, 0, 0] };
        self.look("it passes", seal_check(&van.first_key, &log) == passed);
        let checked = check::<Sha256>(&van.first_key, &log);
        self.look("by the second program too", checked == Ok(van.entries));
    }
}

/// Logs from the first entry to the closing one, with the longest data and with none, in all places; a
/// log that is there and empty is like none.
fn a_whole_way(tests: &mut Tests) {
    const MOST: usize = DATA_MOST;
    let many: Vec<usize> = (0..40).map(|j| j * j * j % (MOST + 1)).collect();
    let ways: [&[usize]; 6] =
        [&[0], &[MOST], &[0, 0, 0], &[MOST, 0, 1, MOST - 1, MOST], &[17, MOST, MOST, 0], &many];
    for (number, lengths) in ways.into_iter().enumerate() {
        let mut van = Van::new(number as u64);
        let mut random = Random::new(number as u64);
        let files = tests.files(&format!("van-way-{}", number), &van);
        if number % 2 == 1 {
            files.put(Some(&[]), &van.key);
        }
        fs::set_permissions(&files.key, fs::Permissions::from_mode(0o600)).expect("its rights");
        let (closing, others) = lengths.split_last().expect("an entry");
        for (j, &length) in others.iter().enumerate() {
            let kind = [0, u32::MAX, 2, 0x0100_0000][j % 4];
            van = tests.seals(&files, &van, kind, &random.bytes(length));
        }
        van = tests.seals(&files, &van, CLOSING, &random.bytes(*closing));
        tests.goes_on(&files, &van);
        let rights = fs::metadata(&files.key).expect("the key").mode() & 0o777;
        tests.look("the key's rights", rights == 0o600);
    }
}

/// The steps by which a van's next entry is sealed. First what is there is made safe: the log and its
/// name, if there is one, and the key. Then the new log, whole, beside the old one, its flush, its name and
/// the flush of that; then the key and its flush.
fn steps_to(files: &Files, van: &Van, next: &Van) -> Vec<Step> {
    let there = [Step::Flushed(files.log.clone()), Step::Flushed(files.folder.clone())];
    let sealing = [
        Step::Flushed(files.key.clone()),
        Step::Written(files.saving.clone(), next.log.clone()),
        Step::Flushed(files.saving.clone()),
        Step::Renamed(files.saving.clone(), files.log.clone()),
        Step::Flushed(files.folder.clone()),
        Step::Written(files.key.clone(), next.key.to_vec()),
        Step::Flushed(files.key.clone()),
    ];
    there.into_iter().filter(|_| van.entries > 0).chain(sealing).collect()
}

/// How many steps make a log safe that is there, how many follow, and which of these matter most.
const THERE: usize = 2;
const SEALING: usize = 7;
const RENAMED: usize = 3;
const KEY_WRITTEN: usize = 5;

/// The steps are made, and in this order, for a new log as for one that is there, and for a closing entry.
fn in_this_order(tests: &mut Tests) {
    let mut van = Van::new(1);
    let files = tests.files("van-order", &van);
    for (kind, data) in [(7, &b"first"[..]), (8, &[5; DATA_MOST]), (9, b""), (CLOSING, b"end")] {
        system::steps();
        let answer = files.seal(kind, data);
        let steps = system::steps();
        tests.look("it is sealed", answer.ok() == sealed(van.entries));
        let next = van.with(kind, data);
        tests.look("the steps", steps == steps_to(&files, &van, &next));
        van = next;
    }
}

/// A log or none, and the refusal that it brings: none, or 24 with an entry, or 23.
type Log = (Option<Vec<u8>>, Option<(u64, u64)>);

/// Logs of a van of three entries: none, an empty one, whole ones, ones that are cut off; and in each entry
/// and behind the last a length over the most, whatever follows, or one that leads past the end.
fn logs_of(van: &Van) -> Vec<Log> {
    let begin = |j: u64| Van::of(j).log.len();
    let mut logs = vec![(None, None)];
    for (length, refused) in [
        (0, None),
        (5, Some((24, 0))),
        (begin(1), None),
        (begin(2) + 7, Some((24, 2))),
        (begin(3) - 1, Some((24, 2))),
        (begin(3), None),
    ] {
        logs.push((Some(van.log[..length].to_vec()), refused));
    }
    for j in 0..=3 {
        let (before, behind) = van.log.split_at(begin(j));
        for length in [DATA_MOST as u16, DATA_MOST as u16 + 1, 0x2000, u16::MAX] {
            let head = [&[0, 0, 0, 1][..], &length.to_be_bytes()].concat();
            logs.push((Some([before, &head[..5]].concat()), Some((24, j))));
            logs.push((Some([before, &head].concat()), Some((24, j))));
            logs.push((Some([before, &head, behind].concat()), Some((24, j))));
        }
        let long = stored(7, &[0; DATA_MOST + 1], &[0x5A; 32]);
        logs.push((Some([before, &long, behind].concat()), Some((24, j))));
    }
    logs
}

/// Closed logs of another van, whose key is not at hand: as it should be, with bytes behind it, with an
/// entry behind it, and with one that is too long.
fn closed_logs() -> Vec<Log> {
    let closed = Van::of(2).with(CLOSING, b"end").log;
    let behind = Van::of(1).log;
    let long = [0, 0, 0, 7, 0xFF, 0xFF];
    vec![
        (Some(closed.clone()), Some((23, 0))),
        (Some([&closed[..], &[0; 30]].concat()), Some((24, 3))),
        (Some([&closed[..], &behind].concat()), Some((23, 0))),
        (Some([&closed[..], &behind, &long].concat()), Some((24, 4))),
    ]
}

/// Keys of a van and of a closed one, whole and of other lengths, with the refusal that each brings.
fn some_keys(van: &Van) -> Vec<(Vec<u8>, u64)> {
    let mut keys = vec![(van.key.to_vec(), 0), (CLOSED_KEY.to_vec(), 23)];
    for length in [0, 31, 33, 64] {
        keys.push((van.key.repeat(2)[..length].to_vec(), 6));
        keys.push((vec![0; length], 6));
    }
    keys
}

/// Logs, data and keys, each with each: of the causes of a refusal the first in the order 24, 3, 6, 23
/// decides, nothing is written, and all is as it was.
fn refusals(tests: &mut Tests) {
    let van = Van::of(3);
    let files = tests.files("van-refused", &van);
    for (log, of_log) in logs_of(&van).into_iter().chain(closed_logs()) {
        for (key, of_key) in some_keys(&van) {
            for (length, of_data) in [(0, 0), (DATA_MOST, 0), (DATA_MOST + 1, 3), (65_536, 3)] {
                let (of_log, entry) = of_log.unwrap_or((0, 0));
                let causes = [of_log, of_data, of_key];
                let first = [24, 3, 6, 23].into_iter().find(|number| causes.contains(number));
                let number = match first {
                    Some(number) => number,
                    None => continue,
                };
                files.put(log.as_deref(), &key);
                let before = everything(&files.folder);
                system::steps();
                let answer = files.seal([7, CLOSING][length % 2], &vec![3; length]);
                let told = Answer { number, beside: [entry, 0, 0] };
                tests.look("it is refused", answer.ok() == Some(told));
                let is_flush = |step: &Step| matches!(step, Step::Flushed(_));
                tests.look("nothing is written", system::steps().iter().all(is_flush));
                tests.look("all is as it was", everything(&files.folder) == before);
            }
        }
    }
}

/// A call that comes to its end at one of its steps, in a folder of its own.
struct Broken {
    files: Files,
    van: Van,
    next: Van,
    kind: u32,
    at: usize,
}

impl Broken {
    const DATA: &'static [u8] = b"that does not come to its end";

    /// Calls that seal and that close, each with a new log and with one that is there, and at each of
    /// their steps.
    fn all(tests: &Tests, name: &str) -> Vec<Broken> {
        let mut all = vec![];
        for (entries, steps) in [(0, SEALING), (3, THERE + SEALING)] {
            let van = Van::of(entries);
            for (kind, at) in
                [7, CLOSING].into_iter().flat_map(|kind| (0..steps).map(move |at| (kind, at)))
            {
                let name = format!("van-{}-{}-{}-{}", name, entries, kind, at);
                let next = van.with(kind, Broken::DATA);
                let (files, van) = (tests.files(&name, &van), van.clone());
                all.push(Broken { files, van, next, kind, at });
            }
        }
        all
    }

    fn seal(&self) -> Result<Answer, Error> {
        self.files.seal(self.kind, Broken::DATA)
    }

    /// The van with the entry if that step of sealing was done, else without it.
    fn after(&self, step: usize) -> &Van {
        let before = if self.van.entries > 0 { THERE } else { 0 };
        if self.at > before + step {
            &self.next
        } else {
            &self.van
        }
    }

    /// Looks at what the files hold, the log and the key as they were left, and whether the next call goes
    /// on.
    fn look(&self, tests: &mut Tests) {
        let (log, key) = (&self.after(RENAMED).log, &self.after(KEY_WRITTEN).key);
        tests.hold("whole or not at all", &self.files, log, key);
        tests.goes_on(&self.files, self.after(RENAMED));
    }
}

/// Each step fails in its turn: the entry is there whole or not at all, nothing is left beside the log,
/// and the next call goes on.
fn failing(tests: &mut Tests) {
    for call in Broken::all(tests, "fail") {
        system::fail_step(call.at + 1);
        tests.look("it is told", matches!(call.seal(), Err(Error::System(_))));
        let is_log = call.after(RENAMED).entries > 0;
        tests.look("no log that is new", call.files.log.exists() == is_log);
        tests.look("nothing is left", names(&call.files.folder).len() == 1 + usize::from(is_log));
        call.look(tests);
    }
    let files = tests.files("van-full", &Van::new(0));
    system::fail_write(1);
    tests.look("the first error is told", finds_no_space(files.seal(7, b"full")));
}

/// A process ends before each step in its turn: what it has written is there, and the next call goes on.
fn ended_before_a_step(tests: &mut Tests) {
    for call in Broken::all(tests, "end") {
        let process = Process::begin(|| {
            system::before_step(call.at + 1, || std::process::exit(3));
            let _ = call.seal();
        });
        tests.look("it ends", !process.ends_well());
        call.look(tests);
    }
}

impl Tests {
    /// Seals an entry while some step fails, if the call comes so far. Gives the van whose log is there
    /// then, and whether the call was answered.
    fn seals_or_fails(&mut self, files: &Files, van: &Van, step: usize, seed: u64) -> (Van, bool) {
        let (kind, data) = some_entry(seed);
        let next = van.with(kind, &data);
        system::fail_step(step);
        let answer = files.seal(kind, &data);
        system::fail_step(0);
        let [log, _] = files.bytes();
        let is_there = log == next.log;
        self.look("whole or not at all", is_there || log == van.log);
        let is_answered = answer.is_ok();
        match answer {
            Ok(_) => self.look("it is sealed", is_there && answer.ok() == sealed(van.entries)),
            Err(_) => self.look("a step fails", step > 0),
        }
        (if is_there { next } else { van.clone() }, is_answered)
    }
}

/// Logs in which steps of one call after another fail: all that was answered is there, once and in order,
/// and of a failed call the entry or nothing.
fn failing_again_and_again(tests: &mut Tests) {
    for number in 0..20 {
        let mut random = Random::new(number);
        let mut van = Van::new(number);
        let files = tests.files(&format!("van-fails-{}", number), &van);
        let mut answered = 0;
        for _ in 0..20 {
            let (step, seed) = (random.place(14), random.next());
            let (next, is_answered) = tests.seals_or_fails(&files, &van, step, seed);
            van = next;
            answered += u64::from(is_answered);
        }
        tests.look("some fail and some do not", 0 < answered && answered < 20);
        tests.goes_on(&files, &van);
    }
}

/// What the files hold of a call that was cut off, and the van whose log that is.
struct Cut {
    log: Option<Vec<u8>>,
    key: Digest,
    van: Van,
}

/// Every state of the two files that a cut can leave of a call: the log before and its key, or the new one
/// with the old key or with the next.
fn cuts(van: &Van, kind: u32, data: &[u8]) -> Vec<Cut> {
    let whole = van.with(kind, data);
    let before = Some(van.log.clone()).filter(|_| van.entries > 0);
    let mut cuts = vec![Cut { log: before, key: van.key, van: van.clone() }];
    for key in [van.key, whole.key] {
        cuts.push(Cut { log: Some(whole.log.clone()), key, van: whole.clone() });
    }
    cuts
}

/// The calls that are cut off: behind no entry, one and three; with no data, little and the most; also
/// one that closes.
fn all_cuts() -> Vec<Cut> {
    let mut all = vec![];
    for (entries, length) in
        [0, 1, 3].into_iter().flat_map(|n| [0, 40, DATA_MOST].map(|length| (n, length)))
    {
        for kind in [7, CLOSING] {
            all.extend(cuts(&Van::of(entries), kind, &vec![0xDA; length]));
        }
    }
    all
}

/// From every state that a cut can leave the next call goes on, whether it is refused, seals another entry
/// or closes: a key that did not move moves. What the call that was cut off has left beside the log is in
/// nobody's way.
fn after_a_cut(tests: &mut Tests) {
    let files = tests.files("van-cut", &Van::new(0));
    let (long, refused) = (vec![0; DATA_MOST + 1], Answer { number: 3, beside: [0; 3] });
    for (number, Cut { log, key, mut van }) in all_cuts().into_iter().enumerate() {
        files.put(log.as_deref(), &key);
        tests.look("a refusal", files.seal(7, &long).ok() == Some(refused));
        tests.hold("moves the key alone", &files, log.as_deref().unwrap_or_default(), &van.key);
        files.put(log.as_deref(), &key);
        write_over(&files.saving, &vec![0xEE; 50 * number]).expect("a file");
        if number % 2 == 1 && !van.is_closed() {
            van = tests.seals(&files, &van, CLOSING, &[0xDA; 60]);
        }
        tests.goes_on(&files, &van);
    }
}

/// From states that a cut can leave, each step of the next call fails in its turn, until none is left
/// that could.
fn failing_after_a_cut(tests: &mut Tests) {
    let files = tests.files("van-cut-fail", &Van::new(0));
    for (entries, kind) in [(0, 7), (2, 8)] {
        for cut in cuts(&Van::of(entries), kind, b"") {
            let (mut step, mut is_answered) = (0, false);
            while !is_answered {
                step += 1;
                files.put(cut.log.as_deref(), &cut.key);
                let (van, answered) = tests.seals_or_fails(&files, &cut.van, step, step as u64);
                tests.goes_on(&files, &van);
                is_answered = answered;
            }
            tests.look("each step has failed", step > SEALING);
        }
    }
}

/// A disk, and what is on its way there: the logs that the name may stand for, the keys that the key's file
/// may hold, and the file beside the log, with whether it is flushed. The last of each is what a process
/// sees.
#[derive(Clone)]
struct Disk {
    logs: Vec<Option<Vec<u8>>>,
    keys: Vec<Vec<u8>>,
    saving: Option<(Vec<u8>, bool)>,
}

impl Disk {
    fn of(van: &Van) -> Disk {
        let log = Some(van.log.clone()).filter(|_| van.entries > 0);
        Disk { logs: vec![log], keys: vec![van.key.to_vec()], saving: None }
    }

    fn take(&mut self, files: &Files, step: Step) {
        match step {
            Step::Written(path, bytes) if path == files.saving => {
                self.saving = Some((bytes, false))
            }
            Step::Written(path, bytes) if path == files.key => self.keys.push(bytes),
            Step::Flushed(path) if path == files.saving => {
                self.saving = self.saving.take().map(|(bytes, _)| (bytes, true));
            }
            Step::Flushed(path) if path == files.key => {
                drop(self.keys.drain(..self.keys.len() - 1))
            }
            Step::Flushed(path) if path == files.folder => {
                drop(self.logs.drain(..self.logs.len() - 1));
            }
            // a file that has the name was flushed before
            Step::Flushed(path) if path == files.log => {}
            Step::Renamed(from, to) if (&from, &to) == (&files.saving, &files.log) => {
                let (log, is_safe) = self.saving.take().expect("a file beside the log");
                assert!(is_safe, "it has the name before it is safe");
                self.logs.push(Some(log));
            }
            step => panic!("{:?} is no step of sealing", step),
        }
    }

    /// What a power cut can leave of the two files.
    fn cuts(&self) -> Vec<(Option<Vec<u8>>, Vec<u8>)> {
        let with_each = |log: &Option<Vec<u8>>| {
            self.keys.iter().map(|key| (log.clone(), key.clone())).collect()
        };
        self.logs.iter().flat_map::<Vec<_>, _>(with_each).collect()
    }
}

/// The van with an entry of a type.
fn entry_of(van: &Van, kind: u32) -> Van {
    van.with(kind, &[kind as u8; 20])
}

/// The disks before each step of a call, and behind the last.
fn disks(files: &Files, mut disk: Disk, kind: u32) -> Vec<Disk> {
    let (log, key) = disk.cuts().pop().expect("what a process sees");
    files.put(log.as_deref(), &key);
    system::steps();
    assert!(files.seal(kind, &[kind as u8; 20]).is_ok());
    let mut disks = vec![disk.clone()];
    for step in system::steps() {
        disk.take(files, step);
        disks.push(disk.clone());
    }
    disks
}

/// The vans whose log may be there when two have sealed behind this one, the second with type 8: with what
/// was answered.
fn vans_behind(van: &Van, kind: u32, answered: [bool; 2]) -> Vec<Van> {
    let first = entry_of(van, kind);
    let with_second = |van: &Van| if van.is_closed() { van.clone() } else { entry_of(van, 8) };
    let mut vans = vec![with_second(&first)];
    if !answered[1] {
        vans.push(first);
    }
    if !answered[0] {
        vans.push(with_second(van));
    }
    if answered == [false; 2] {
        vans.push(van.clone());
    }
    vans
}

/// A process is ended behind any of its steps, the next one seals, and the power is cut behind any step of
/// that: what the first had written and not made safe may be gone then, and the log goes on all the same,
/// with all that was answered.
fn cut_after_an_end(tests: &mut Tests) {
    let files = tests.files("van-end-cut", &Van::new(0));
    for (entries, kind) in [(0, 7), (2, 7), (2, CLOSING)] {
        let van = Van::of(entries);
        let first = disks(&files, Disk::of(&van), kind);
        for (ended, left) in first.iter().enumerate() {
            let second = disks(&files, left.clone(), 8);
            for (at, disk) in second.iter().enumerate() {
                let answered = [ended + 1 == first.len(), at + 1 == second.len()];
                let vans = vans_behind(&van, kind, answered);
                for (log, key) in disk.cuts() {
                    let found = log.as_deref().unwrap_or_default();
                    let there = vans.iter().find(|van| van.log == found);
                    tests.look("all that was answered", there.is_some());
                    files.put(log.as_deref(), &key);
                    tests.goes_on(&files, there.expect("a log"));
                }
            }
        }
    }
}

/// While one seals, another comes before each of its steps, in this process and in a second: the other is
/// held back and changes nothing, and the first goes on.
fn two_at_once(tests: &mut Tests) {
    let mut van = Van::of(1);
    let files = tests.files("van-two", &van);
    let came = Arc::new(AtomicU64::new(0));
    for step in 1..=THERE + SEALING {
        let (same, coming) = (files.clone(), came.clone());
        let held_back = move || {
            let before = everything(&same.folder);
            assert!(fails_with(same.seal(8, b"the other"), ErrorKind::WouldBlock));
            assert!(everything(&same.folder) == before, "all is as it was");
        };
        system::before_step(step, move || {
            held_back();
            assert!(Process::begin(&held_back).ends_well(), "held back in another process");
            coming.fetch_add(1, SeqCst);
        });
        van = tests.seals(&files, &van, 7, b"the first");
        tests.look("another came", came.load(SeqCst) == step as u64);
    }
    tests.goes_on(&files, &van);
}

/// Another seals when the first has opened the key and has not the lock yet, in this process or in a
/// second: the first goes on behind it, under the next key; or is refused, if the other closed.
fn sealed_meanwhile(tests: &mut Tests) {
    for (number, (entries, kind, in_another)) in
        [(0, 8, false), (0, 8, true), (2, 8, true), (2, CLOSING, true)].into_iter().enumerate()
    {
        let van = Van::of(entries);
        let files = tests.files(&format!("van-meanwhile-{}", number), &van);
        let same = files.clone();
        system::before_lock(move || {
            let work = || assert_eq!(same.seal(kind, b"the other").ok(), sealed(entries));
            if in_another {
                assert!(Process::begin(work).ends_well(), "the other process");
            } else {
                work();
            }
        });
        tests.goes_on(&files, &van.with(kind, b"the other"));
    }
}

/// A program that asks for no lock changes the log when it was read already: the call is told, and leaves
/// the log and the key as they are.
fn changed_meanwhile(tests: &mut Tests) {
    for (entries, step, kind) in
        [(0, 1, ErrorKind::AlreadyExists), (2, THERE + 1, ErrorKind::Other)]
    {
        let van = Van::of(entries);
        let files = tests.files(&format!("van-changed-{}", entries), &van);
        let (same, other) = (files.clone(), van.with(8, b"by another program").log);
        let there = other.clone();
        system::before_step(step, move || write_over(&same.log, &other).expect("a file"));
        tests.fails("it is told", files.seal(7, b"x"), kind);
        tests.hold("the other's log", &files, &there, &van.key);
        tests.look("nothing is left", names(&files.folder).len() == 2);
    }
}

/// No key, no folder, and folders where files should be: errors, and all is as it was.
fn no_such_files(tests: &mut Tests) {
    let van = Van::of(2);
    let files = tests.files("van-none", &van);
    let [inner, missing, nowhere] =
        ["inner", "missing", "no/such"].map(|name| files.folder.join(name));
    fs::create_dir(&inner).expect("a new folder");
    let in_a_file = files.log.join("log");
    let none = Some(ErrorKind::NotFound);
    let before = everything(&files.folder);
    for (log, key, kind) in [
        (&files.log, &missing, none),
        (&missing, &missing, none),
        (&files.log, &nowhere, none),
        (&nowhere, &files.key, none),
        (&in_a_file, &files.key, None),
        (&files.log, &in_a_file, None),
        (&files.log, &inner, None),
        (&missing, &inner, None),
        (&inner, &files.key, None),
    ] {
        let failed = seal_to(log, key, 7, b"data");
        tests.look("it is told", matches!(failed, Err(e) if kind.map_or(true, |k| e.kind() == k)));
        tests.look("all is as it was", everything(&files.folder) == before);
    }
    fs::remove_dir(&inner).expect("the folder");
    let before = everything(&files.folder);
    let no_log = Answer { number: 24, beside: [0; 3] };
    tests.look("a key is no log", seal_to(&files.key, &files.key, 7, b"x").ok() == Some(no_log));
    tests.look("all is as it was", everything(&files.folder) == before);
    tests.goes_on(&files, &van);
}

/// A log or a key that may not be read or written, and a folder in which no log may be made.
fn by_the_rights(tests: &mut Tests) {
    for (number, (name, rights, entries)) in [
        ("log", 0, 2),
        ("log", 0o200, 2),
        ("log", 0o444, 2),
        ("key", 0, 2),
        ("key", 0o200, 2),
        ("key", 0o444, 0),
        ("", 0o555, 0),
    ]
    .into_iter()
    .enumerate()
    {
        let van = Van::of(entries);
        let files = tests.files(&format!("van-rights-{}", number), &van);
        let path = files.folder.join(name);
        let set = |rights| fs::set_permissions(&path, rights).expect("its rights");
        let (before, usual) = (everything(&files.folder), fs::metadata(&path).expect("a file"));
        set(PermissionsExt::from_mode(rights));
        let failed =
            by_its_rights(|| assert!(fails_with(files.seal(7, b"x"), ErrorKind::PermissionDenied)));
        set(usual.permissions());
        tests.look("it is told", failed);
        tests.look("all is as it was", everything(&files.folder) == before);
        tests.goes_on(&files, &van);
    }
}

/// Names of other kinds: links, of which what they lead to is changed and its folder flushed, and one that
/// leads nowhere, bare names, and a key in another folder.
fn other_names(tests: &mut Tests) {
    let mut van = Van::of(0);
    let files = tests.files("van-names", &van);
    let links = tests.folder("van-links");
    let [log, key] = ["log", "key"].map(|name| links.join(name));
    symlink(&files.log, &log).expect("a link");
    symlink(&files.key, &key).expect("a link");
    let nowhere = seal_to(&log, &key, 7, b"by a link to nowhere");
    tests.look("no log", matches!(nowhere, Err(e) if e.kind() == ErrorKind::NotFound));
    tests.hold("all is as it was", &files, b"", &van.key);
    van = tests.seals(&files, &van, 7, b"a new log");
    for data in [&b"by links"[..], b"and again"] {
        system::steps();
        tests.look("by links", seal_to(&log, &key, 7, data).ok() == sealed(van.entries));
        let flushed = Step::Flushed(files.folder.clone());
        tests.look("the folder of the log", system::steps().contains(&flushed));
        van = van.with(7, data);
        tests.hold("what they lead to", &files, &van.log, &van.key);
        tests.look("they are links still", log.is_symlink() && key.is_symlink());
    }
    let bare = Process::begin(|| {
        env::set_current_dir(&files.folder).expect("the folder");
        let answer = seal_to(Path::new("log"), Path::new("key"), 7, b"bare");
        assert_eq!(answer.ok(), sealed(3));
    });
    tests.look("bare names", bare.ends_well());
    van = van.with(7, b"bare");
    tests.hold("bare names", &files, &van.log, &van.key);

    let apart = links.join("apart");
    fs::rename(&files.key, &apart).expect("another place");
    system::steps();
    tests.look("a key apart", seal_to(&files.log, &apart, 7, b"apart").ok() == sealed(4));
    let flushed = Step::Flushed(files.folder.clone());
    tests.look("the folder of the log", system::steps().contains(&flushed));
    fs::rename(&apart, &files.key).expect("its place");
    tests.goes_on(&files, &van.with(7, b"apart"));
}

/// What a process that was ended has left, given the van that had all its answers and the one with the
/// next entry: the van whose log is there, and whether there is an unfinished file beside it, or an entry
/// that the key does not know of.
fn left_by(tests: &mut Tests, files: &Files, [van, next]: [Van; 2]) -> (Van, [bool; 2]) {
    let [log, key] = files.bytes();
    let is_next = log == next.log;
    tests.look("all that was answered, and perhaps the next", is_next || log == van.log);
    let van = if is_next { next } else { van };
    (van.clone(), [files.saving.exists(), key != van.key])
}

/// Processes that seal one entry after another, ended at any moment, several in each log: all that was
/// answered is there, and of what each left a copy goes on, closes and passes. Gives how many left an
/// unfinished file, and how many an entry that the key does not know of.
fn ended_in_sealing(tests: &mut Tests) -> [u64; 2] {
    const IN_A_LOG: u64 = 5;
    let mut random = Random::new(fresh_seed());
    let mut van = Van::new(random.next());
    let [files, copy] = ["van-ended", "van-ended-copy"].map(|name| tests.files(name, &van));
    let [begun, answered]: &[AtomicU64; 2] = unsafe { &*shared(None, 4096).cast() };
    let mut left = [0; 2];
    for number in 0..ENDS {
        if number % IN_A_LOG == 0 {
            van = Van::new(random.next());
            files.put(None, &van.key);
        }
        let entry = |j: u64| some_entry(number << 32 | j);
        [begun, answered].iter().for_each(|count| count.store(van.entries, SeqCst));
        end_in_the_middle(&mut random, || loop {
            let j = begun.fetch_add(1, SeqCst);
            let (kind, data) = entry(j);
            assert_eq!(files.seal(kind, &data).ok(), sealed(j));
            answered.store(j + 1, SeqCst);
        });
        let with = |van: Van, j: u64| van.with(entry(j).0, &entry(j).1);
        van = (van.entries..answered.load(SeqCst)).fold(van, with);
        let next = with(van.clone(), van.entries);
        let (there, is_left) = left_by(tests, &files, [van, next]);
        left.iter_mut().zip(is_left).for_each(|(count, is_so)| *count += u64::from(is_so));
        van = there;
        let [log, key] = files.bytes();
        copy.put(Some(&log), &key);
        tests.goes_on(&copy, &van);
    }
    tests.look("some ended in the middle", left[0] > 0);
    left
}

/// Looks at all of it, and tells.
pub(crate) fn look(tests: &mut Tests) {
    a_whole_way(tests);
    in_this_order(tests);
    refusals(tests);
    failing(tests);
    ended_before_a_step(tests);
    failing_again_and_again(tests);
    after_a_cut(tests);
    failing_after_a_cut(tests);
    cut_after_an_end(tests);
    two_at_once(tests);
    sealed_meanwhile(tests);
    changed_meanwhile(tests);
    no_such_files(tests);
    by_the_rights(tests);
    other_names(tests);
    let [unfinished, behind] = ended_in_sealing(tests);
    println!(
        "{} things of a van's log in a file are as they should be; of {} ends while entries are sealed \
         {} left an unfinished file, {} an entry that the key did not know of",
        tests.looked_at, ENDS, unfinished, behind
    );
}
