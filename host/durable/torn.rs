//! What a power cut may leave of an append: such disks are made and looked at.
//!
//! A disk writes whole sectors. What was handed to it since the last flush it may have written or
//! not, each sector for itself and in any order; and a sector that is on its way while the bytes of a
//! record are copied may be written with some of them. Here a disk is bytes in memory, and what
//! `append_durably` asks to be kept is a flush. For logs whose next record lies across a border of
//! sectors in every way, each sector is taken as it was, as it is to be, and with either half of the
//! bytes that change: every such disk must hold the old log or the new one, and the next append must
//! work. The same is done to an append with one flush at its end, even if no sector
//! is written in the middle of a copy: there a bad disk must be found, which is why there are two.
//! And to an append that follows a process which was killed before its last flush: with all that it
//! left made safe first, as `Writer::open` does, and without, where a bad disk must be found. And to
//! room that is added to a file in place, where bytes that are not written yet read as zeros: there
//! too a bad disk must be found, which is why `Writer::grow` makes a new file.

mod expected;

use compare::logs::entry;
use lotlog::file::append_durably;
use lotlog::{append, store_bytes, WHOLE};

use expected::Expected;

/// Logs of up to so many elements, in stores with room for some more; the next record of some lies
/// across the border of a page.
const ELEMENTS: u64 = 70;
const ROOM: usize = ELEMENTS as usize + 4;

/// The sizes of a sector: that of old disks, and that of new ones and of a page.
const SECTORS: [usize; 2] = [512, 4096];

/// What is on its way to a disk between two flushes: the bytes before, and those after.
struct Pending {
    before: Vec<u8>,
    after: Vec<u8>,
}

impl Pending {
    /// The states in which a sector can be written: with none of the changed bytes, all of them, and
    /// if it is written in the middle of a copy, those of its first half or of its second half.
    fn states(&self, from: usize, to: usize, midway: bool) -> Vec<Vec<u8>> {
        let [old, new] = [&self.before[from..to], &self.after[from..to]];
        let changed: Vec<usize> = (0..old.len()).filter(|&at| old[at] != new[at]).collect();
        let (first, second) = changed.split_at(changed.len() / 2);
        let parts = [&[], &changed[..], first, second];
        let mut states = vec![];
        for part in &parts[..if midway { 4 } else { 2 }] {
            let mut state = old.to_vec();
            part.iter().for_each(|&at| state[at] = new[at]);
            states.push(state);
        }
        states.sort();
        states.dedup();
        states
    }

    /// The disks that a cut can leave, with each choice of states for its sectors.
    fn disks(&self, sector: usize, midway: bool) -> Vec<Vec<u8>> {
        let mut disks = vec![vec![]];
        for from in (0..self.before.len()).step_by(sector) {
            let states = self.states(from, (from + sector).min(self.before.len()), midway);
            disks = disks
                .iter()
                .flat_map(|disk| states.iter().map(move |state| [&disk[..], state].concat()))
                .collect();
        }
        disks
    }
}

/// A disk, and the memory whose bytes it is to keep.
#[derive(Clone)]
struct Kept {
    disk: Vec<u8>,
    memory: Vec<u8>,
}

impl Kept {
    fn safe(store: &[u8]) -> Kept {
        Kept { disk: store.to_vec(), memory: store.to_vec() }
    }

    /// What an append by `append_durably` has on its way to the disk before each of its flushes. A
    /// flush brings the sectors of the record to the disk and no others.
    fn append(&mut self, entry: &[u8], sector: usize) -> Vec<Pending> {
        let Kept { disk, memory } = self;
        let before = memory.clone();
        let record = lotlog::count(memory).beside[0] as usize;
        let place = store_bytes(record)..store_bytes(record + 1);
        let sectors = place.start / sector * sector
            ..((place.end + sector - 1) / sector * sector).min(before.len());
        let mut pending = vec![];
        let appended = append_durably(memory, entry, |kept| {
            let mut after = before.clone();
            after[place.clone()].copy_from_slice(kept);
            pending.push(Pending { before: disk.clone(), after: after.clone() });
            disk[sectors.clone()].copy_from_slice(&after[sectors.clone()]);
            Ok(())
        });
        assert_eq!(appended.ok(), Some(record as u64 + 1));
        assert_eq!(pending.len(), 2);
        pending
    }

    /// A process that was killed when it had closed its record in memory, before the last flush.
    fn killed(store: &[u8], entry: &[u8]) -> Kept {
        let [mut disk, mut memory] = [store.to_vec(), store.to_vec()];
        assert_eq!(append(&mut disk, entry, WHOLE - 1).number, 0);
        assert_eq!(append(&mut memory, entry, WHOLE).number, 0);
        Kept { disk, memory }
    }
}

/// What an append that flushes at its end alone has on its way before that.
fn in_one(store: &[u8], entry: &[u8]) -> Pending {
    let mut after = store.to_vec();
    assert_eq!(append(&mut after, entry, WHOLE).number, 0);
    Pending { before: store.to_vec(), after }
}

/// Room for three more elements that is added in place: the file is that long already, the bytes are
/// on their way.
fn grown_in_place(store: &[u8]) -> Pending {
    let mut before = store.to_vec();
    before[store_bytes(ROOM - 3)..].fill(0);
    Pending { before, after: store.to_vec() }
}

/// Whether a disk holds a log of one of the lengths, and can be appended to.
fn holds(disk: &[u8], least: u64, most: u64) -> Result<(), String> {
    let mut expected = Expected::fresh(ROOM);
    let mut disk = disk.to_vec();
    let count = expected.judge(&disk, least, most)?;
    let next = append(&mut disk, &entry(count + 1), WHOLE);
    if [next.number, next.beside[0]] != [0, count + 1] {
        return Err(format!("the next append answers {:?}", next));
    }
    expected.judge(&disk, count + 1, count + 1).map(|_| ())
}

/// Disks, and those among them that hold neither log.
#[derive(Default)]
struct Tally {
    disks: usize,
    bad: usize,
}

impl Tally {
    fn look(&mut self, disks: Vec<Vec<u8>>, least: u64, most: u64) {
        self.disks += disks.len();
        self.bad += disks.iter().filter(|disk| holds(disk, least, most).is_err()).count();
    }
}

fn main() {
    let [mut right, mut once, mut unsafe_start, mut in_place] = [(); 4].map(|_| Tally::default());
    for (n, sector) in (0..=ELEMENTS).flat_map(|n| SECTORS.map(|sector| (n, sector))) {
        let mut expected = Expected::fresh(ROOM);
        expected.grow(n);
        let store = &expected.store;
        let [next, after_it] = [entry(n + 1), entry(n + 2)];

        for pending in Kept::safe(store).append(&next, sector) {
            right.look(pending.disks(sector, true), n, n + 1);
        }
        once.look(in_one(store, &next).disks(sector, false), n, n + 1);
        in_place.look(grown_in_place(store).disks(sector, false), n, n);

        // the next writer appends to what a killed one left, and makes that safe first, or does not
        let killed = Kept::killed(store, &next);
        for pending in Kept::safe(&killed.memory).append(&after_it, sector) {
            right.look(pending.disks(sector, true), n + 1, n + 2);
        }
        for pending in killed.clone().append(&after_it, sector) {
            unsafe_start.look(pending.disks(sector, false), n, n + 2);
        }
        // and what is on the disk when nobody appends any more
        let mut left = killed;
        left.append(&after_it, sector);
        unsafe_start.look(vec![left.disk], n, n + 2);
    }
    assert_eq!(right.bad, 0, "disks that hold neither log");
    assert!(once.bad > 0, "an append with one flush was not found out");
    assert!(unsafe_start.bad > 0, "an open without a flush was not found out");
    assert!(in_place.bad > 0, "room added in place was not found out");
    println!(
        "{} disks hold the old log or the new one; {} of {} do not with one flush, {} of {} not \
         where a killed writer's bytes are not made safe first, {} of {} not where room is added in \
         place",
        right.disks,
        once.bad,
        once.disks,
        unsafe_start.bad,
        unsafe_start.disks,
        in_place.bad,
        in_place.disks
    );
}
