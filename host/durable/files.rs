//! A store in a file, call by call: files FOLDER. Every answer, every error and every byte of the file
//! after it; what is flushed when; a flush or a reservation that fails; two writers; readers beside a
//! writer that goes on appending and growing; and ends in the middle of making and growing a store.
//! And a held state in a file, which `held.rs` looks at, and a van's log in one, which `van.rs` does.

mod expected;
mod held;
#[allow(dead_code)] // the program that ends processes uses the rest
mod process;
mod system;
mod van;

use std::io::ErrorKind;
use std::os::unix::fs::{symlink, MetadataExt, PermissionsExt};
use std::path::{Path, PathBuf};
use std::time::{Duration, Instant};
use std::{env, fs, thread};

use compare::logs::{entry, LOG};
use compare::random::{fresh_seed, Random};
use lotlog::file::{Error, Reader, Refusal, Writer};
use lotlog::{store_bytes, ELEMENTS_MOST, HEADER_BYTES, RECORD_BYTES};

use second::store::OPEN;

use expected::Expected;
use process::Process;

/// The folder of the files, and how many things were looked at.
struct Tests {
    folder: PathBuf,
    looked_at: u64,
}

impl Tests {
    fn look(&mut self, what: &str, is_so: bool) {
        assert!(is_so, "{}", what);
        self.looked_at += 1;
    }

    /// Looks whether a call failed with an error of the system of that kind.
    fn fails<T>(&mut self, what: &str, result: Result<T, Error>, kind: ErrorKind) {
        self.look(what, matches!(result, Err(Error::System(error)) if error.kind() == kind));
    }

    /// Looks whether the library refused.
    fn refused<T>(&mut self, what: &str, result: Result<T, Error>, number: u64) {
        self.look(what, matches!(result, Err(Error::Refused(Refusal(n))) if n == number));
    }

    fn path(&self, name: &str) -> PathBuf {
        self.folder.join(name)
    }

    /// Looks whether a file holds those bytes, all of them on reserved room.
    fn holds(&mut self, what: &str, path: &Path, bytes: &[u8]) {
        self.look(what, fs::read(path).expect("the file") == bytes);
        let file = fs::metadata(path).expect("the file");
        self.look("the room is reserved", file.blocks() * 512 >= file.len());
    }

    /// A new store with its first entries, and what it must hold.
    fn store(&mut self, name: &str, room: usize, count: u64) -> (PathBuf, Writer, Expected) {
        let path = self.path(name);
        let mut writer = Writer::create(&path, LOG, room).expect("a new store");
        let mut expected = Expected::fresh(room);
        for j in 1..=count {
            self.look("an append", writer.append(&entry(j)).ok() == Some(j));
        }
        expected.grow(count);
        self.holds("a store", &path, &expected.store);
        (path, writer, expected)
    }
}

/// Whether a call failed since the disk is full.
fn finds_no_space<T>(result: Result<T, Error>) -> bool {
    matches!(result, Err(Error::System(e)) if e.raw_os_error() == Some(system::NO_SPACE))
}

fn creating(tests: &mut Tests) {
    for room in [0, 1, 2, 63, 1000] {
        let (path, writer, expected) = tests.store(&format!("create-{}", room), room, 0);
        tests.look("the store is the file's", writer.store() == &expected.store[..]);
        let again = Writer::create(&path, 8, 5);
        tests.fails("a file that is there", again, ErrorKind::AlreadyExists);
        tests.holds("it stays", &path, &expected.store);
    }
    let path = tests.path("create-not");
    let long = Writer::create(&path, LOG, ELEMENTS_MOST + 1);
    tests.fails("too much room", long, ErrorKind::InvalidInput);
    let nowhere = Writer::create(&tests.path("no/such/folder"), LOG, 1);
    tests.fails("no such folder", nowhere, ErrorKind::NotFound);
    // the most room that a log may have is asked for like any other
    for room in [10, ELEMENTS_MOST] {
        system::fail_reservation(1);
        tests.look("a full disk", finds_no_space(Writer::create(&path, LOG, room)));
        tests.look("no file is left", !path.exists());
    }
    // of the bytes, of the file and of its name in the folder
    for fail in
        [|| system::fail_flush(1), || system::fail_file_flush(1), || system::fail_file_flush(2)]
    {
        fail();
        let failed = Writer::create(&path, LOG, 10);
        tests.look("a failed flush", matches!(failed, Err(Error::System(_))));
        tests.look("no file is left", !path.exists());
    }
}

fn opening(tests: &mut Tests) {
    let (path, writer, expected) = tests.store("open", 5, 3);
    tests.fails("a second writer", Writer::open(&path), ErrorKind::WouldBlock);
    let other = Process::begin(|| {
        let second = Writer::open(&path);
        assert!(matches!(second, Err(Error::System(e)) if e.kind() == ErrorKind::WouldBlock));
        let reader = Reader::open(&path).and_then(|reader| reader.store());
        assert_eq!(reader.expect("a copy"), expected.store);
    });
    tests.look("a writer and a reader in another process", other.ends_well());
    drop(writer);
    system::files_flushed();
    let writer = Writer::open(&path).expect("the store");
    tests.look("opened again", writer.store() == &expected.store[..]);
    // the file, and the folder for its name
    tests.look("what was left is flushed first", system::files_flushed() == 2);
    drop(writer);
    for bad in [1, 2] {
        system::fail_file_flush(bad);
        tests.look("a failed flush", matches!(Writer::open(&path), Err(Error::System(_))));
    }
    let reader = Reader::open(&path).expect("the store");
    system::files_flushed();
    tests.look("a copy", reader.store().expect("a copy") == expected.store);
    tests.look("what is read is flushed first", system::files_flushed() == 1);
    system::fail_file_flush(1);
    tests.look("a failed flush", reader.store().is_err());
    tests.fails("no file", Writer::open(&tests.path("not")), ErrorKind::NotFound);

    let mut damaged = vec![vec![], vec![0; 15], expected.store.clone(), expected.store.clone()];
    damaged[2][1] ^= 1;
    damaged[3][store_bytes(2) - 1] = 2;
    for store in damaged {
        let path = tests.path("damaged");
        fs::write(&path, &store).expect("a file");
        tests.refused("a damaged store", Writer::open(&path), 1);
        tests.look("it stays", fs::read(&path).expect("the file") == store);
    }
}

fn appending(tests: &mut Tests) {
    let (path, mut writer, mut expected) = tests.store("append", 70, 0);
    system::flushed();
    for j in 1..=70 {
        tests.look("an append", writer.append(&entry(j)).ok() == Some(j));
        expected.grow(j);
        let record = &expected.store[store_bytes(j as usize - 1)..store_bytes(j as usize)];
        let (body, closed) = record.split_at(64);
        let flushed = system::flushed();
        // the flushed bytes begin with a page and end with the record
        tests.look("two flushes", flushed.len() == 2);
        let [first, second] = [&flushed[0], &flushed[1]].map(|part| part.split_at(part.len() - 1));
        tests.look("first d and T", first.0.ends_with(body) && first.1 == [OPEN]);
        tests.look("then the state byte", second.0.ends_with(body) && second.1 == closed);
    }
    tests.refused("no room", writer.append(b"x"), 5);
    tests.refused("a long entry", writer.append(&[0; 4097]), 3);
    tests.look("nothing is flushed then", system::flushed().is_empty());
    tests.holds("the store", &path, &expected.store);
    tests.refused("a refusal does not end it", writer.append(b"x"), 5);
    let shown = writer.append(b"x").expect_err("no room").to_string();
    tests.look("it says why", shown == "refused with 5: no open record");
}

fn failing_flushes(tests: &mut Tests) {
    for (bad, left) in [(1, 2), (2, 3)] {
        let (path, mut writer, mut expected) = tests.store(&format!("fail-{}", bad), 4, 2);
        system::fail_flush(bad);
        let failed = writer.append(&entry(3));
        tests.look("a failed flush", matches!(failed, Err(Error::System(_))));
        let again = writer.append(&entry(3));
        tests.fails("it appends no more", again, ErrorKind::Other);
        tests.fails("it grows no more", writer.grow(1), ErrorKind::Other);
        drop(writer);
        let mut writer = Writer::open(&path).expect("the store");
        tests.look("old or new", expected.judge(writer.store(), left, left).is_ok());
        tests.look("the next append", writer.append(&entry(left + 1)).ok() == Some(left + 1));
        expected.grow(left + 1);
        tests.holds("the store", &path, &expected.store);
    }
}

fn growing(tests: &mut Tests) {
    let (path, mut writer, _) = tests.store("grow", 2, 2);
    tests.refused("no room", writer.append(&entry(3)), 5);
    let mut room = 2;
    let mut expected = Expected::fresh(room);
    for more in [1, 62, 0, 100] {
        tests.look("room is added", writer.grow(more).is_ok());
        let old = room;
        room += more;
        expected = Expected::fresh(room);
        expected.grow(old as u64);
        tests.holds("the grown store", &path, &expected.store);
        for j in old as u64 + 1..=room as u64 {
            tests.look("an append", writer.append(&entry(j)).ok() == Some(j));
        }
        expected.grow(room as u64);
        tests.holds("the filled store", &path, &expected.store);
    }
    let most = ELEMENTS_MOST - room;
    tests.fails("too much", writer.grow(most + 1), ErrorKind::InvalidInput);
    tests.fails("far too much", writer.grow(usize::MAX), ErrorKind::InvalidInput);
    tests.refused("still no room", writer.append(b"x"), 5);
    system::fail_reservation(1);
    tests.look("the most that fits is asked for", finds_no_space(writer.grow(most)));
    tests.holds("the store is as it was", &path, &expected.store);
}

/// The store with so much room, at a count.
fn with_room(room: usize, count: u64) -> Vec<u8> {
    let mut expected = Expected::fresh(room);
    expected.grow(count);
    expected.store
}

/// Growing that fails: a full disk, and each flush, of the new file's bytes, of the file and of its
/// name. When the last one fails the new file has the name already.
fn failing_growth(tests: &mut Tests) {
    let ways: [(fn(), usize); 4] = [
        (|| system::fail_reservation(1), 3),
        (|| system::fail_flush(1), 3),
        (|| system::fail_file_flush(1), 3),
        (|| system::fail_file_flush(2), 8),
    ];
    for (number, (fail, room)) in ways.into_iter().enumerate() {
        let (path, mut writer, _) = tests.store(&format!("grow-fail-{}", number), 3, 2);
        fail();
        tests.look("it is told", matches!(writer.grow(5), Err(Error::System(_))));
        tests.fails("it appends no more", writer.append(b"x"), ErrorKind::Other);
        tests.fails("it grows no more", writer.grow(1), ErrorKind::Other);
        tests.holds("the log is as it was", &path, &with_room(room, 2));
        tests.look("nothing is left beside it", !beside(&path, ".growing").exists());
        drop(writer);
        let mut writer = Writer::open(&path).expect("the store");
        tests.look("then it grows", writer.grow(1).is_ok());
        tests.look("the next append", writer.append(&entry(3)).ok() == Some(3));
        tests.holds("the grown store", &path, &with_room(room + 1, 3));
    }
}

/// Where a store is grown, or a held state saved.
fn beside(path: &Path, suffix: &str) -> PathBuf {
    let mut name = path.to_path_buf().into_os_string();
    name.push(suffix);
    name.into()
}

/// The grown store is where the store was, also behind a link, and with its rights; a writer that
/// has it keeps it; what another left beside it is no hindrance.
fn keeping_its_place(tests: &mut Tests) {
    let (path, mut writer, _) = tests.store("rights", 1, 1);
    fs::set_permissions(&path, fs::Permissions::from_mode(0o640)).expect("its rights");
    fs::write(beside(&path, ".growing"), [0xEE; 5_000]).expect("a file");
    tests.look("room is added", writer.grow(2).is_ok());
    tests.look("its rights", fs::metadata(&path).expect("the file").mode() & 0o777 == 0o640);
    tests.look("nothing is left beside it", !beside(&path, ".growing").exists());
    tests.fails("a second writer", Writer::open(&path), ErrorKind::WouldBlock);
    tests.look("the next append", writer.append(&entry(2)).ok() == Some(2));
    drop(writer);

    let link = tests.path("link");
    symlink("rights", &link).expect("a link");
    let mut writer = Writer::open(&link).expect("the store");
    tests.look("room is added", writer.grow(1).is_ok());
    drop(writer);
    tests.look("it is a link still", fs::symlink_metadata(&link).expect("the link").is_symlink());
    tests.holds("the grown store", &path, &with_room(4, 2));
}

/// A writer that opens a store while another grows it, appends to it and ends: it has the new file
/// and not the one that lost its name.
fn opening_while_growing(tests: &mut Tests) {
    let (path, writer, _) = tests.store("moved", 2, 2);
    drop(writer);
    let same = path.clone();
    system::before_lock(move || {
        let mut other = Writer::open(&same).expect("the store");
        assert!(other.grow(3).is_ok());
        assert_eq!(other.append(&entry(3)).ok(), Some(3));
    });
    let mut writer = Writer::open(&path).expect("the store");
    tests.look("the grown store", writer.store() == with_room(5, 3));
    tests.look("the next append", writer.append(&entry(4)).ok() == Some(4));
    tests.holds("it is in the file", &path, &with_room(5, 4));
}

/// Readers beside a writer that grows: each copy is a store of its length, and no later one is older.
fn reading_beside_growth(tests: &mut Tests) {
    const LAST: u64 = 60;
    let (path, writer, _) = tests.store("beside-growth", 1, 1);
    drop(writer);
    let reader = Reader::open(&path).expect("the store");
    let process = Process::begin(|| {
        let mut writer = Writer::open(&path).expect("the store");
        for j in 2..=LAST {
            assert!(writer.grow(1).is_ok());
            assert!(writer.append(&entry(j)).is_ok());
            thread::sleep(Duration::from_millis(2));
        }
    });
    let (mut last, mut different) = (1, 0);
    let began = Instant::now();
    while last < LAST {
        let store = reader.store().expect("a copy");
        let room = (store.len() - HEADER_BYTES) / RECORD_BYTES;
        let count = lotlog::count(&store).beside[0];
        tests.look("a copy of a whole store", store == with_room(room, count));
        tests
            .look("no older one", last <= count && count as usize <= room && room <= LAST as usize);
        different += u64::from(count > last);
        last = count;
        assert!(began.elapsed() < Duration::from_secs(120), "the writer does not go on");
    }
    tests.look("the log grew meanwhile", different > 5);
    tests.look("the writer was not held up", process.ends_well());
}

/// So many processes are ended, each at some moment of its first milliseconds.
const ENDS: u64 = 100;

/// Lets a process do some work without end, and ends it at a random moment.
fn end_in_the_middle(random: &mut Random, work: impl FnOnce()) {
    const LONGEST: u64 = 30_000;
    let process = Process::begin(work);
    thread::sleep(Duration::from_micros(random.below(LONGEST)));
    process.end();
}

/// Processes that make a store again and again, ended at any moment: there is no file, one that is
/// refused with 1, or an empty log; and when that is removed a store can be made. Gives how many left
/// a file.
fn ended_in_creation(tests: &mut Tests) -> u64 {
    const ROOM: usize = 1_000;
    let path = tests.path("unborn");
    let mut random = Random::new(fresh_seed());
    let mut left = 0;
    for _ in 0..ENDS {
        end_in_the_middle(&mut random, || {
            while Writer::create(&path, LOG, ROOM).is_ok() {
                fs::remove_file(&path).expect("the file");
            }
        });
        let file = path.exists();
        left += u64::from(file);
        match Writer::open(&path) {
            Ok(writer) => tests.look("an empty log", writer.store() == with_room(ROOM, 0)),
            Err(Error::Refused(Refusal(number))) => tests.look("an unfinished one", number == 1),
            Err(Error::System(_)) => tests.look("no file", !file),
        }
        tests.look("it can be removed", !file || fs::remove_file(&path).is_ok());
        tests.look("and made", Writer::create(&path, LOG, 1).is_ok());
        fs::remove_file(&path).expect("the file");
    }
    tests.look("some left a file", left > 0);
    left
}

/// Processes that grow a store again and again, ended at any moment: the store has the old room or
/// the new, and all of its bytes. Gives how many left an unfinished file beside it.
fn ended_in_growth(tests: &mut Tests) -> u64 {
    let (path, writer, _) = tests.store("ended", 3, 2);
    drop(writer);
    let mut random = Random::new(fresh_seed());
    let mut unfinished = 0;
    for _ in 0..ENDS {
        end_in_the_middle(&mut random, || {
            let mut writer = Writer::open(&path).expect("the store");
            while writer.grow(1).is_ok() {}
        });
        unfinished += u64::from(beside(&path, ".growing").exists());
        let store = fs::read(&path).expect("the file");
        let room = (store.len() - HEADER_BYTES) / RECORD_BYTES;
        tests.look("a whole store", store == with_room(room, 2));
        let mut writer = Writer::open(&path).expect("the store");
        tests.look("it can be grown", writer.grow(1).is_ok());
        tests.look("nothing is left beside it", !beside(&path, ".growing").exists());
        tests.holds("the grown store", &path, &with_room(room + 1, 2));
    }
    tests.look("some ended in the middle", unfinished > 0);
    unfinished
}

/// Bytes behind the last whole record are not read by the library; growing takes their place.
fn growing_over_a_rest(tests: &mut Tests) {
    let (path, writer, expected) = tests.store("rest", 2, 1);
    drop(writer);
    fs::write(&path, [&expected.store[..], &[0xEE; 30]].concat()).expect("a file");
    let mut writer = Writer::open(&path).expect("the store");
    tests.look("room is added", writer.grow(2).is_ok());
    let mut expected = Expected::fresh(4);
    expected.grow(1);
    tests.holds("the grown store", &path, &expected.store);
}

/// A reader sees a log between two appends, whatever the writer does.
fn reading_beside(tests: &mut Tests) {
    const LAST: u64 = 600;
    let (path, writer, mut expected) = tests.store("beside", LAST as usize, 1);
    drop(writer);
    let process = Process::begin(|| {
        let mut writer = Writer::open(&path).expect("the store");
        for j in 2..=LAST {
            assert!(writer.append(&entry(j)).is_ok());
            thread::sleep(Duration::from_millis(1));
        }
    });
    let reader = Reader::open(&path).expect("the store");
    let (mut last, mut different) = (1, 0);
    let began = Instant::now();
    while last < LAST {
        let store = reader.store().expect("a copy");
        let count = expected.judge(&store, last, LAST).unwrap_or_else(|fault| panic!("{}", fault));
        // not even a torn record
        tests.look("a copy between two appends", store == expected.store);
        different += u64::from(count > last);
        last = count;
        assert!(began.elapsed() < Duration::from_secs(120), "the writer does not go on");
    }
    tests.look("the log grew meanwhile", different > 5);
    tests.look("the writer was not held up", process.ends_well());
}

fn main() {
    let folder = PathBuf::from(env::args().nth(1).expect("files FOLDER"));
    let mut tests = Tests { folder, looked_at: 0 };
    creating(&mut tests);
    opening(&mut tests);
    appending(&mut tests);
    failing_flushes(&mut tests);
    growing(&mut tests);
    failing_growth(&mut tests);
    keeping_its_place(&mut tests);
    growing_over_a_rest(&mut tests);
    opening_while_growing(&mut tests);
    reading_beside(&mut tests);
    reading_beside_growth(&mut tests);
    let made = ended_in_creation(&mut tests);
    let unfinished = ended_in_growth(&mut tests);
    println!(
        "{} things of a store in a file are as they should be; of {} ends while one is made {} left a \
         file, of {} ends while one grows {} left an unfinished one",
        tests.looked_at, ENDS, made, ENDS, unfinished
    );
    held::look(&mut Tests { folder: tests.folder.clone(), looked_at: 0 });
    van::look(&mut Tests { folder: tests.folder, looked_at: 0 });
}
