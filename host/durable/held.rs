//! A held state in a file: what `save_held` leaves and `load_held` gives, by the second program. States
//! at many counts; one that is not in order; what is there already: an older state, a leftover, a
//! link, no folder, no file; what is done in which order; a write, a flush or a rename that fails; a
//! second saver at every moment that matters; damaged files; and ends in the middle of saving. And the
//! same of `create_held`, which leaves what is there, and of `replace_held`, which leaves what is not
//! the state that it was told of, also if another process puts it there at the last moment.

use std::ffi::{CString, OsString};
use std::io::ErrorKind;
use std::os::raw::{c_char, c_int};
use std::os::unix::ffi::{OsStrExt, OsStringExt};
use std::os::unix::fs::{symlink, MetadataExt, PermissionsExt};
use std::path::{Path, PathBuf};
use std::sync::atomic::{AtomicU64, Ordering::SeqCst};
use std::{env, fs};

use compare::damage::bit_turned;
use compare::logs::{read, sound};
use compare::random::{fresh_seed, Random};
use compare::second_calls::held_bytes;
use lotlog::file::{create_held, load_held, replace_held, save_held, Error};
use lotlog::{HELD_FILE_LEAST, HELD_FILE_MOST};
use second::hash::Sha256;
use second::held::{held_of, held_start, in_use, Held, ROWS};
use second::saved::file_of;
use second::LIMIT;

use crate::process::{shared, Process};
use crate::system::{self, Step};
use crate::{beside, end_in_the_middle, finds_no_space, Tests, ENDS};

extern "C" {
    fn mkfifo(path: *const c_char, rights: u32) -> c_int;
}

fn make_pipe(path: &Path) {
    let name = CString::new(path.as_os_str().as_bytes()).expect("a name");
    assert_eq!(unsafe { mkfifo(name.as_ptr(), 0o600) }, 0, "a pipe");
}

/// The states of one log at every count up to the last.
fn of_a_log(last: u64) -> Vec<Held> {
    let store = sound(last, 0);
    let log = read(&store);
    (0..=last).map(|count| held_of::<Sha256>(&log, count)).collect()
}

/// A state in order at any count, with made-up rows.
fn made_up(count: u64) -> Held {
    let mut state = held_start::<Sha256>(count);
    let mut random = Random::new(count);
    let mut some = || random.bytes(32).try_into().expect("32 bytes");
    if count > 0 {
        state.count = count;
        state.digest = some();
    }
    (0..ROWS).filter(|&row| in_use(count, row)).for_each(|row| state.rows[row] = some());
    state
}

/// The file that a saver makes first.
fn saving(path: &Path) -> PathBuf {
    beside(path, ".saving")
}

fn save(path: &Path, state: &Held) -> Result<(), Error> {
    save_held(path, &held_bytes(state))
}

fn create(path: &Path, state: &Held) -> Result<(), Error> {
    create_held(path, &held_bytes(state))
}

fn replace(path: &Path, before: &Held, state: &Held) -> Result<(), Error> {
    replace_held(path, &held_bytes(before), &held_bytes(state))
}

/// Whether a call failed with an error of the system of that kind.
pub(crate) fn fails_with<T>(result: Result<T, Error>, kind: ErrorKind) -> bool {
    matches!(result, Err(Error::System(error)) if error.kind() == kind)
}

/// Whether some work is done well by a process that the rights of files hold back, whoever runs this.
pub(crate) fn by_its_rights(work: impl FnOnce()) -> bool {
    let obeying = Process::begin(|| {
        system::obey_rights();
        work();
    });
    obeying.ends_well()
}

/// The names in a folder, and the file that each stands for.
pub(crate) fn names(folder: &Path) -> Vec<(OsString, u64)> {
    let mut names: Vec<_> = fs::read_dir(folder)
        .expect("the folder")
        .map(|entry| entry.expect("a name"))
        .map(|entry| (entry.file_name(), entry.metadata().expect("a file").ino()))
        .collect();
    names.sort();
    names
}

/// All of a folder: its names, the file that each stands for, its rights, and its bytes or where it
/// leads.
pub(crate) fn everything(folder: &Path) -> Vec<(OsString, u64, u32, Vec<u8>)> {
    let with_all = |(name, file): (OsString, u64)| {
        let path = folder.join(&name);
        let kind = fs::symlink_metadata(&path).expect("a file");
        let holds = if kind.is_symlink() {
            fs::read_link(&path).expect("a link").into_os_string().into_vec()
        } else if kind.is_file() {
            fs::read(&path).expect("a file")
        } else {
            vec![]
        };
        (name, file, kind.mode(), holds)
    };
    names(folder).into_iter().map(with_all).collect()
}

impl Tests {
    /// A folder of its own.
    pub(crate) fn folder(&self, name: &str) -> PathBuf {
        let folder = self.path(name);
        fs::create_dir(&folder).expect("a new folder");
        fs::canonicalize(folder).expect("the folder")
    }

    /// Looks whether a file holds a state and nothing else, and none is left beside it.
    fn has_saved(&mut self, what: &str, path: &Path, state: &Held) {
        self.look(what, fs::read(path).expect("the file") == file_of(state));
        self.look(what, load_held(path).ok() == Some(held_bytes(state)));
        self.look("nothing is left beside it", !saving(path).exists());
    }

    /// A file with a state, in a folder of its own.
    fn saved(&mut self, name: &str, state: &Held) -> PathBuf {
        let path = self.folder(name).join("held");
        self.look("a new file", save(&path, state).is_ok());
        self.has_saved("a new file", &path, state);
        path
    }

    /// Looks whether a call saves a state by the bytes, their flush, the name and its flush.
    fn saves(&mut self, path: &Path, state: &Held, call: impl FnOnce() -> Result<(), Error>) {
        system::steps();
        self.look("it is saved", call().is_ok());
        let steps = [
            Step::Written(saving(path), file_of(state)),
            Step::Flushed(saving(path)),
            Step::Renamed(saving(path), path.to_path_buf()),
            Step::Flushed(path.parent().expect("a folder").to_path_buf()),
        ];
        self.look("the steps", system::steps() == steps);
        self.has_saved("the state", path, state);
    }

    /// Looks whether a call fails with an error of that kind, before its first step, and leaves all of
    /// a folder as it was.
    fn leaves_all(
        &mut self,
        folder: &Path,
        kind: ErrorKind,
        call: impl FnOnce() -> Result<(), Error>,
    ) {
        let before = everything(folder);
        system::steps();
        self.fails("it is told", call(), kind);
        self.look("no step is made", system::steps().is_empty());
        self.look("all is as it was", everything(folder) == before);
    }
}

/// Each state over the one before, shorter and longer ones.
fn at_many_counts(tests: &mut Tests) {
    let path = tests.saved("held-counts", &made_up(LIMIT));
    let mut states = of_a_log(200);
    states.extend((0..ROWS).flat_map(|row| [1 << row, LIMIT >> row].map(made_up)));
    for state in &states {
        tests.look("it is saved", save(&path, state).is_ok());
        tests.has_saved("the state", &path, state);
    }
    tests.look("one name", names(path.parent().expect("a folder")).len() == 1);
}

/// A state that is not in order is refused with 2, whether there is a file or not.
fn not_in_order(tests: &mut Tests) {
    let good = made_up(5);
    let path = tests.saved("held-refused", &good);
    let folder = path.parent().expect("a folder");
    fs::write(saving(&path), b"left").expect("a file");
    let before = names(folder);
    let mut row = good.clone();
    row.rows[1][31] = 1;
    let over = Held { count: LIMIT + 1, ..good.clone() };
    let start = Held { digest: [0; 32], ..held_start::<Sha256>(7) };
    for bad in [row, over, start] {
        system::steps();
        tests.refused("a state not in order", save(&path, &bad), 2);
        let new = folder.join("new");
        tests.refused("a state not in order", save(&new, &bad), 2);
        for path in [&path, &new] {
            tests.refused("to be made", create(path, &bad), 2);
            tests.refused("to be put there", replace(path, &good, &bad), 2);
            tests.refused("to be replaced", replace(path, &bad, &good), 2);
        }
        tests.look("no step is made", system::steps().is_empty());
        tests.look("the folder is as it was", names(folder) == before);
        tests.look("the file too", fs::read(&path).expect("the file") == file_of(&good));
        tests.look("and what was left", fs::read(saving(&path)).expect("the file") == b"left");
    }
}

/// The bytes, their flush, the name, its flush; for a new file as for one that is there.
fn in_this_order(tests: &mut Tests) {
    let folder = tests.folder("held-order");
    let path = folder.join("held");
    for state in [made_up(3), made_up(LIMIT), made_up(0)] {
        tests.saves(&path, &state, || save(&path, &state));
    }
}

/// What can fail on the way, and whether the new file has the name then: when the last flush fails, that
/// of the name, it has it already.
const WAYS: [(fn(), bool); 4] = [
    (|| system::fail_write(1), false),
    (|| system::fail_file_flush(1), false),
    (|| system::fail_rename(1), false),
    (|| system::fail_file_flush(2), true),
];

/// Saving that fails leaves the state before, or no file, and then it is saved.
fn failing(tests: &mut Tests) {
    let [old, new] = [7, 8].map(made_up);
    for (number, (fail, is_new)) in WAYS.into_iter().enumerate() {
        let path = tests.saved(&format!("held-fail-{}", number), &old);
        fail();
        tests.look("it is told", matches!(save(&path, &new), Err(Error::System(_))));
        tests.has_saved("old or new", &path, if is_new { &new } else { &old });
        tests.look("then it is saved", save(&path, &new).is_ok());
        tests.has_saved("the state", &path, &new);

        let first = path.with_file_name("first");
        fail();
        tests.look("it is told", matches!(save(&first, &new), Err(Error::System(_))));
        tests.look("no file, or the new one", first.exists() == is_new);
        tests.look("nothing is left beside it", !saving(&first).exists());
    }
    system::fail_write(1);
    let full = save(&tests.path("held-full"), &new);
    tests.look("the first error is told", finds_no_space(full));
}

/// A leftover, longer than the new file or shorter, is overwritten; the rights of the old file are kept.
fn over_what_is_there(tests: &mut Tests) {
    let path = tests.saved("held-over", &made_up(LIMIT));
    for (left, rights) in [(5_000, 0o640), (1, 0o604), (0, 0o600), (60, 0o666)] {
        let state = made_up(left as u64);
        fs::write(saving(&path), vec![0xEE; left]).expect("a file");
        fs::set_permissions(&path, fs::Permissions::from_mode(rights)).expect("its rights");
        tests.look("it is saved", save(&path, &state).is_ok());
        tests.has_saved("the state", &path, &state);
        let mode = fs::metadata(&path).expect("the file").mode();
        tests.look("its rights", mode & 0o777 == rights);
    }
}

/// What a link leads to is replaced, in its own folder; a link that leads nowhere is left alone.
fn links(tests: &mut Tests) {
    let path = tests.saved("held-target", &made_up(1));
    let folder = tests.folder("held-links");
    let link = folder.join("link");
    symlink(&path, &link).expect("a link");
    system::steps();
    tests.look("it is saved", save(&link, &made_up(2)).is_ok());
    let renamed = Step::Renamed(saving(&path), path.clone());
    tests.look("beside what it leads to", system::steps().contains(&renamed));
    tests.has_saved("the state", &path, &made_up(2));
    tests.look("it is a link still", link.is_symlink());
    tests.look("it is read by the link", load_held(&link).ok() == Some(held_bytes(&made_up(2))));

    let nowhere = folder.join("nowhere");
    symlink("no such file", &nowhere).expect("a link");
    let before = names(&folder);
    tests.fails("a link to nowhere", save(&nowhere, &made_up(2)), ErrorKind::NotFound);
    tests.look("the folder is as it was", names(&folder) == before);

    let linked = folder.join("folder");
    symlink(path.parent().expect("a folder"), &linked).expect("a link");
    tests.look("a new file", save(&linked.join("new"), &made_up(3)).is_ok());
    tests.has_saved("behind a linked folder", &path.with_file_name("new"), &made_up(3));
}

/// Names of other kinds: a bare one, one in no folder, a folder, and a pipe, which is no file.
fn other_names(tests: &mut Tests) {
    let folder = tests.folder("held-names");
    let bare = Process::begin(|| {
        env::set_current_dir(&folder).expect("the folder");
        (1..=2).for_each(|count| assert!(save(Path::new("bare"), &made_up(count)).is_ok()));
    });
    tests.look("a bare name", bare.ends_well());
    tests.has_saved("a bare name", &folder.join("bare"), &made_up(2));

    let [inner, pipe] = ["inner", "pipe"].map(|name| folder.join(name));
    fs::create_dir(&inner).expect("a new folder");
    make_pipe(&pipe);
    let before = names(&folder);
    let state = made_up(2);
    let nowhere = folder.join("no/held");
    tests.fails("no such folder", save(&nowhere, &state), ErrorKind::NotFound);
    tests.fails("no such file", load_held(&nowhere), ErrorKind::NotFound);
    tests.look("a folder", matches!(save(&inner, &state), Err(Error::System(_))));
    tests.look("a folder", matches!(load_held(&inner), Err(Error::System(_))));
    tests.fails("a pipe", save(&pipe, &state), ErrorKind::InvalidInput);
    tests.look("all is as it was", names(&folder) == before);
}

/// One saver is about to give its file the name when another comes, in this process and in a second:
/// the other is held back and changes nothing, and the first goes on.
fn two_savers(tests: &mut Tests) {
    let [old, new, other] = [6, 7, 8].map(made_up);
    let path = tests.saved("held-two", &old);
    let (same, written) = (path.clone(), file_of(&new));
    let held_back = move || {
        let second = save(&same, &other);
        assert!(matches!(second, Err(Error::System(e)) if e.kind() == ErrorKind::WouldBlock));
        assert_eq!(fs::read(&same).expect("the file"), file_of(&old));
        assert_eq!(fs::read(saving(&same)).expect("the file"), written);
    };
    system::before_rename(move || {
        held_back();
        assert!(Process::begin(&held_back).ends_well(), "held back in another process");
    });
    tests.look("the first goes on", save(&path, &new).is_ok());
    tests.has_saved("its state", &path, &new);
}

/// One saver has opened the file beside when another gives it the name. The first must leave it alone,
/// since it holds what was saved: it makes a new one, or takes one that a third has left. If it fails
/// then, the other's state stays.
fn moved_meanwhile(tests: &mut Tests) {
    let [old, new, other] = [6, 7, 8].map(made_up);
    for (name, leaves, fails) in
        [("free", false, false), ("left", true, false), ("fails", false, true)]
    {
        let path = tests.saved(&format!("held-moved-{}", name), &old);
        let (same, others) = (path.clone(), other.clone());
        system::before_lock(move || {
            assert!(save(&same, &others).is_ok());
            if leaves {
                fs::write(saving(&same), [0xEE; 900]).expect("a file");
            }
            system::fail_write(usize::from(fails));
        });
        tests.look("the first goes on, or fails", save(&path, &new).is_err() == fails);
        tests.has_saved("the last state", &path, if fails { &other } else { &new });
    }
}

/// Damaged files, each also made longer up to a megabyte, of which no more is read than is needed.
fn damaged(tests: &mut Tests) {
    const MEGABYTE: usize = 1 << 20;
    let path = tests.path("held-damaged");
    let good = file_of(&made_up(5));
    let most = file_of(&made_up(LIMIT));
    let start = file_of(&made_up(0));
    let files = [
        (vec![], 18),
        (good[..HELD_FILE_LEAST - 1].to_vec(), 18),
        (bit_turned(&good, 0), 19),
        (bit_turned(&good, 8 * 2 + 7), 19),
        (bit_turned(&good, 8 * 4 + 1), 20),
        (bit_turned(&good, 8 * 13), 21),
        (bit_turned(&good, 8 * 16), 21),
        (bit_turned(&good, 8 * 17 + 7), 22),
        (bit_turned(&good, 8 * 20 + 1), 22),
        (good[..good.len() - 1].to_vec(), 22),
        ([&good[..], &[0]].concat(), 22),
        ([&most[..], &[0]].concat(), 22),
        (bit_turned(&start, 8 * 21), 2),
    ];
    for (mut file, number) in files {
        fs::write(&path, &file).expect("a file");
        tests.refused("a damaged file", load_held(&path), number);
        // none is too short then, and one whose only fault is T(0) has another
        let long = match (number, file.len()) {
            (18, 0) => 19,
            (18 | 2, _) => 22,
            _ => number,
        };
        file.resize(MEGABYTE, 0);
        fs::write(&path, &file).expect("a file");
        system::bytes_read();
        tests.refused("a damaged file of a megabyte", load_held(&path), long);
        tests.look("its first bytes are read", system::bytes_read() == HELD_FILE_MOST + 1);
    }
}

/// A file is made where there is none, whatever an earlier attempt left beside; not once more.
fn creating(tests: &mut Tests) {
    let folder = tests.folder("held-create");
    for (count, left) in [(0, None), (3, Some(0)), (5, Some(1)), (LIMIT, Some(5_000))] {
        let (path, state) = (folder.join(count.to_string()), made_up(count));
        if let Some(left) = left {
            fs::write(saving(&path), vec![0xEE; left]).expect("a file");
        }
        tests.saves(&path, &state, || create(&path, &state));
        for other in [&state, &made_up(1)] {
            tests.leaves_all(&folder, ErrorKind::AlreadyExists, || create(&path, other));
        }
    }
    let path = folder.join("0");
    fs::write(saving(&path), b"left").expect("a file");
    tests.fails("it is there", create(&path, &made_up(1)), ErrorKind::AlreadyExists);
    tests.look("it stays", fs::read(&path).expect("the file") == file_of(&made_up(0)));
}

/// What may stand in a file's place: a state, an empty file, a folder, a pipe, and a file that may not be
/// written.
const THERE: [&str; 5] = ["state", "empty", "inner", "pipe", "fixed"];

/// Makes one of each, a link to each, and a link that leads nowhere.
fn make_all_kinds(folder: &Path) {
    let [state, empty, inner, pipe, fixed] = THERE.map(|name| folder.join(name));
    save(&state, &made_up(7)).expect("a state");
    fs::write(empty, b"").expect("a file");
    fs::create_dir(inner).expect("a new folder");
    make_pipe(&pipe);
    fs::write(&fixed, b"fixed").expect("a file");
    fs::set_permissions(&fixed, fs::Permissions::from_mode(0o444)).expect("its rights");
    for name in THERE {
        symlink(name, folder.join(format!("to-{}", name))).expect("a link");
    }
    symlink("no such file", folder.join("nowhere")).expect("a link");
}

/// What stands where a file is to be made stays, and what a link leads to; and nothing is made where a link
/// leads nowhere or there is no folder.
fn creating_over(tests: &mut Tests) {
    let folder = tests.folder("held-create-over");
    make_all_kinds(&folder);
    let state = made_up(2);
    for name in THERE.into_iter().flat_map(|name| [name.to_string(), format!("to-{}", name)]) {
        let path = folder.join(name);
        tests.leaves_all(&folder, ErrorKind::AlreadyExists, || create(&path, &state));
    }
    for name in ["nowhere", "no/held"] {
        let path = folder.join(name);
        tests.leaves_all(&folder, ErrorKind::NotFound, || create(&path, &state));
    }
    let (before, fixed) = (everything(&folder), folder.join("fixed"));
    let held_back = || assert!(fails_with(create(&fixed, &state), ErrorKind::AlreadyExists));
    tests.look("it may not be written", by_its_rights(held_back));
    tests.look("all is as it was", everything(&folder) == before);
}

/// Making that fails leaves no file, and then one can be made; where the last flush fails it is there.
fn failing_creation(tests: &mut Tests) {
    let state = made_up(8);
    for (number, (fail, is_new)) in WAYS.into_iter().enumerate() {
        let folder = tests.folder(&format!("held-create-fail-{}", number));
        let path = folder.join("held");
        fail();
        tests.look("it is told", matches!(create(&path, &state), Err(Error::System(_))));
        tests.look("no file, or the new one", names(&folder).len() == usize::from(is_new));
        if is_new {
            tests.leaves_all(&folder, ErrorKind::AlreadyExists, || create(&path, &state));
        } else {
            tests.saves(&path, &state, || create(&path, &state));
        }
        tests.has_saved("the state", &path, &state);
    }
}

/// Lets something happen when the next call has begun and has not its lock yet: in this process or in
/// another, and with a leftover beside the file then, or without.
fn meanwhile(path: &Path, (in_another, leaves): (bool, bool), work: impl Fn() + Send + 'static) {
    let path = path.to_path_buf();
    system::before_lock(move || {
        if in_another {
            assert!(Process::begin(&work).ends_well(), "the other process");
        } else {
            work();
        }
        if leaves {
            fs::write(saving(&path), [0xEE; 900]).expect("a file");
        }
    });
}

/// Where and how something happens meanwhile.
const MEANWHILE: [(bool, bool); 4] = [(false, false), (false, true), (true, false), (true, true)];

/// Another makes the file, or saves one there, when the first has begun and has not the lock yet: the
/// first is told, and leaves it.
fn created_meanwhile(tests: &mut Tests) {
    let [state, others] = [7, 8].map(made_up);
    for (name, call) in [("create", create as fn(&Path, &Held) -> _), ("save", save)] {
        for (number, how) in MEANWHILE.into_iter().enumerate() {
            let path = tests.folder(&format!("held-{}-meanwhile-{}", name, number)).join("held");
            let (same, other) = (path.clone(), others.clone());
            meanwhile(&path, how, move || assert!(call(&same, &other).is_ok()));
            let created = create(&path, &state);
            tests.fails("it is there by now", created, ErrorKind::AlreadyExists);
            tests.has_saved("the other's state", &path, &others);
        }
    }
}

/// Each state in the place of the one before, by the steps of saving, and at last by itself; also where
/// a link leads.
fn replacing(tests: &mut Tests) {
    let mut states = of_a_log(70);
    states.extend((0..ROWS).flat_map(|row| [1 << row, LIMIT >> row].map(made_up)));
    states.push(made_up(LIMIT));
    states.push(made_up(LIMIT));
    let path = tests.saved("held-replace", &states[0]);
    let folder = path.parent().expect("a folder");
    fs::set_permissions(&path, fs::Permissions::from_mode(0o640)).expect("its rights");
    for pair in states.windows(2) {
        tests.saves(&path, &pair[1], || replace(&path, &pair[0], &pair[1]));
    }
    tests.look("its rights", fs::metadata(&path).expect("the file").mode() & 0o777 == 0o640);

    let link = tests.folder("held-replace-link").join("link");
    symlink(&path, &link).expect("a link");
    fs::write(saving(&path), [0xEE; 5_000]).expect("a file");
    tests.saves(&path, &made_up(2), || replace(&link, &made_up(LIMIT), &made_up(2)));
    tests.look("it is a link still", link.is_symlink());
    tests.look("one name", names(folder).len() == 1);
}

/// Files that hold anything else than a state's: one bit of any byte turned, every part of it, some bytes
/// more, and other states.
fn others_than(state: &Held) -> Vec<Vec<u8>> {
    let good = file_of(state);
    let mut others: Vec<_> = (0..good.len()).map(|at| bit_turned(&good, 8 * at + at % 8)).collect();
    others.extend((0..good.len()).map(|length| good[..length].to_vec()));
    others.extend([1, 32, 1 << 20].map(|more| [&good[..], &vec![0; more]].concat()));
    others.extend([state.count - 1, state.count + 1, 0, LIMIT].map(|at| file_of(&made_up(at))));
    others
}

/// What is not the state that it was told of is not replaced, and of a long file no more is read than
/// shows that; nor is anything put where there is no file.
fn replacing_another(tests: &mut Tests) {
    let [before, state] = [5, 6].map(made_up);
    let folder = tests.folder("held-replace-another");
    let path = folder.join("held");
    for other in others_than(&before) {
        fs::write(&path, &other).expect("a file");
        tests.leaves_all(&folder, ErrorKind::Other, || {
            system::bytes_read();
            let replaced = replace(&path, &before, &state);
            let enough = other.len().min(file_of(&before).len() + 1);
            assert_eq!(system::bytes_read(), enough, "its first bytes are read");
            replaced
        });
    }
    fs::remove_file(&path).expect("the file");
    tests.leaves_all(&folder, ErrorKind::NotFound, || replace(&path, &before, &state));
    symlink("no such file", &path).expect("a link");
    tests.leaves_all(&folder, ErrorKind::NotFound, || replace(&path, &before, &state));
    let nowhere = folder.join("no/held");
    tests.leaves_all(&folder, ErrorKind::NotFound, || replace(&nowhere, &before, &state));

    fs::remove_file(&path).expect("the link");
    fs::create_dir(&path).expect("a new folder");
    let kept = everything(&folder);
    let failed = replace(&path, &before, &state);
    tests.look("a folder", matches!(failed, Err(Error::System(_))));
    tests.look("all is as it was", everything(&folder) == kept);

    fs::remove_dir(&path).expect("the folder");
    make_pipe(&path);
    tests.leaves_all(&folder, ErrorKind::InvalidInput, || replace(&path, &before, &state));
}

/// A file that may not be written is not replaced, nor one that may not be read.
fn replacing_by_its_rights(tests: &mut Tests) {
    let [before, state] = [5, 6].map(made_up);
    let path = tests.saved("held-replace-rights", &before);
    let folder = path.parent().expect("a folder");
    for rights in [0o444, 0o200, 0] {
        let set = |mode| fs::set_permissions(&path, fs::Permissions::from_mode(mode));
        set(0o600).expect("its rights");
        let kept = everything(folder);
        set(rights).expect("its rights");
        let held_back = || {
            let replaced = replace(&path, &before, &state);
            assert!(fails_with(replaced, ErrorKind::PermissionDenied));
        };
        tests.look("it is told", by_its_rights(held_back));
        let mode = fs::metadata(&path).expect("the file").mode();
        tests.look("its rights", mode & 0o777 == rights);
        set(0o600).expect("its rights");
        tests.look("all is as it was", everything(folder) == kept);
    }
}

/// Replacing that fails leaves the state before, and then it can be replaced; where the last flush fails
/// the new one is there.
fn failing_replacement(tests: &mut Tests) {
    let [old, new] = [7, 8].map(made_up);
    for (number, (fail, is_new)) in WAYS.into_iter().enumerate() {
        let path = tests.saved(&format!("held-replace-fail-{}", number), &old);
        fail();
        tests.look("it is told", matches!(replace(&path, &old, &new), Err(Error::System(_))));
        let there = if is_new { &new } else { &old };
        tests.has_saved("old or new", &path, there);
        tests.saves(&path, &made_up(9), || replace(&path, there, &made_up(9)));
    }
}

/// Another saves a later state, or puts it in the place of the old one, when the first has begun and has
/// not the lock yet: the first is told, and the later state stays.
fn replaced_meanwhile(tests: &mut Tests) {
    let [old, new, later, last] = [6, 7, 8, 9].map(made_up);
    for (name, by_saving) in [("save", true), ("replace", false)] {
        for (number, how) in MEANWHILE.into_iter().enumerate() {
            let path = tests.saved(&format!("held-{}-later-{}", name, number), &old);
            let (same, [before, other]) = (path.clone(), [old.clone(), later.clone()]);
            meanwhile(&path, how, move || {
                let saved =
                    if by_saving { save(&same, &other) } else { replace(&same, &before, &other) };
                assert!(saved.is_ok());
            });
            tests.fails("another by now", replace(&path, &old, &new), ErrorKind::Other);
            tests.has_saved("the later state", &path, &later);
            tests.saves(&path, &last, || replace(&path, &later, &last));
        }
    }
}

/// The file is taken away meanwhile, or the state that is told of is put there only then: what counts is
/// what stands there under the lock.
fn there_at_the_last_moment(tests: &mut Tests) {
    let [old, new, other] = [6, 7, 8].map(made_up);
    for (number, how) in MEANWHILE.into_iter().enumerate() {
        let path = tests.saved(&format!("held-moment-{}", number), &old);
        let same = path.clone();
        meanwhile(&path, how, move || fs::remove_file(&same).expect("the file"));
        tests.fails("it is gone by now", replace(&path, &old, &new), ErrorKind::NotFound);
        tests.look("nothing is left", names(path.parent().expect("a folder")).is_empty());

        tests.look("another", create(&path, &other).is_ok());
        let (same, before) = (path.clone(), old.clone());
        meanwhile(&path, how, move || assert!(save(&same, &before).is_ok()));
        tests.look("it is there by now", replace(&path, &old, &new).is_ok());
        tests.has_saved("the state", &path, &new);
    }
}

/// One that makes or replaces a file is about to give it the name when another comes, to save, to make or
/// to replace, in this process and in a second: the other is held back, and the first goes on.
fn held_back_at_the_name(tests: &mut Tests) {
    let [old, new, other] = [6, 7, 8].map(made_up);
    for is_there in [false, true] {
        let folder = tests.folder(&format!("held-back-{}", is_there));
        let path = folder.join("held");
        tests.look("the state before", !is_there || save(&path, &old).is_ok());
        let (same, [before, others]) = (path.clone(), [old.clone(), other.clone()]);
        let held_back = move || {
            let kept = everything(&folder);
            for failed in
                [save(&same, &others), create(&same, &others), replace(&same, &before, &others)]
            {
                assert!(fails_with(failed, ErrorKind::WouldBlock));
                assert!(everything(&folder) == kept, "all is as it was");
            }
        };
        system::before_rename(move || {
            held_back();
            assert!(Process::begin(&held_back).ends_well(), "held back in another process");
        });
        let put = if is_there { replace(&path, &old, &new) } else { create(&path, &new) };
        tests.look("the first goes on", put.is_ok());
        tests.has_saved("its state", &path, &new);
    }
}

/// Saves a state at a path where there is the state before it.
type Next = fn(&Path, &Held, &Held) -> Result<(), Error>;

/// Processes that save one state after another, ended at any moment: the file has the last state that
/// was saved or the one that was being saved, and the next saver goes on from there. Gives how many left
/// an unfinished file beside it.
fn ended_in_saving(tests: &mut Tests, name: &str, put: Next) -> u64 {
    let states = of_a_log(100);
    let state = |number: u64| &states[number as usize % states.len()];
    let path = tests.saved(name, state(0));
    let [begun, ended]: &[AtomicU64; 2] = unsafe { &*shared(None, 4096).cast() };
    let mut random = Random::new(fresh_seed());
    let mut unfinished = 0;
    for _ in 0..ENDS {
        end_in_the_middle(&mut random, || loop {
            let next = begun.fetch_add(1, SeqCst) + 1;
            assert!(put(&path, state(next - 1), state(next)).is_ok());
            ended.store(next, SeqCst);
        });
        unfinished += u64::from(saving(&path).exists());
        let loaded = load_held(&path).expect("a whole state");
        let saved = [ended, begun].map(|number| number.load(SeqCst));
        let there = saved.into_iter().find(|&number| loaded == held_bytes(state(number)));
        tests.look("the old state or the new", there.is_some());
        let there = there.expect("a state");
        let next = there + 1;
        let other = replace(&path, state(next), state(there));
        tests.fails("another is not replaced", other, ErrorKind::Other);
        tests.look("the next is saved", put(&path, state(there), state(next)).is_ok());
        tests.has_saved("the next", &path, state(next));
        [begun, ended].iter().for_each(|number| number.store(next, SeqCst));
    }
    tests.look("some ended in the middle", unfinished > 0);
    unfinished
}

/// Looks at all of it, and tells.
pub(crate) fn look(tests: &mut Tests) {
    at_many_counts(tests);
    not_in_order(tests);
    in_this_order(tests);
    failing(tests);
    over_what_is_there(tests);
    links(tests);
    other_names(tests);
    two_savers(tests);
    moved_meanwhile(tests);
    damaged(tests);
    creating(tests);
    creating_over(tests);
    failing_creation(tests);
    created_meanwhile(tests);
    replacing(tests);
    replacing_another(tests);
    replacing_by_its_rights(tests);
    failing_replacement(tests);
    replaced_meanwhile(tests);
    there_at_the_last_moment(tests);
    held_back_at_the_name(tests);
    let unfinished = ended_in_saving(tests, "held-ended", |path, _, state| save(path, state));
    let replaced = ended_in_saving(tests, "held-replace-ended", replace);
    println!(
        "{} things of a held state in a file are as they should be; of {} ends while one is saved {} \
         left an unfinished file, of {} ends while one is replaced {}",
        tests.looked_at, ENDS, unfinished, ENDS, replaced
    );
}
