//! The group `store`: start, count, append, digest and audit.

use lotlog::Answer;
use second::store::{header, place, CLOSED, HEADER, OPEN, RECORD, STATE};
use second::{ENTRY_MOST, LIMIT};

use crate::both::BothStore;
use crate::logs::{entry, sound, LOG, OLD_LIMIT, REAL};
use crate::Scale;

const WHOLE: u64 = RECORD as u64;

/// Sizes of logs at which the number of links changes, and one that is longer.
const SIZES: [u64; 7] = [0, 1, 2, 3, 7, 8, 33];

pub fn run(both: &mut dyn BothStore, scale: Scale) {
    for elements in SIZES {
        every_cut(both, elements);
        entries(both, elements);
        damaged_header(both, elements);
        damaged_states(both, elements);
        wrong_digests(both, elements);
    }
    odd_sizes(both);
    closed_past_the_old_limit(both);
    if scale == Scale::Full {
        past_the_old_limit(both);
    }
}

/// All that can be read of a store.
fn look(both: &mut dyn BothStore, store: &[u8]) {
    let count = both.count(store).beside[0];
    both.audit(store);
    for at in (0..=count + 2).chain([OLD_LIMIT, LIMIT, LIMIT + 1, LIMIT + 2, u64::MAX]) {
        both.digest_at(store, at);
    }
}

/// A sound store whose open room holds leftovers.
fn with_leftovers(elements: u64, room: u64) -> Vec<u8> {
    let mut store = sound(elements, room);
    for j in elements + 1..=elements + room {
        store[place(j)..place(j) + STATE].fill(0xC3);
    }
    store
}

/// An append stopped after every number of stores, and what the next one makes of it.
fn every_cut(both: &mut dyn BothStore, elements: u64) {
    for stop in (0..=66).chain([u64::MAX]) {
        let mut store = with_leftovers(elements, 2);
        let held = both.append(&mut store, b"cut", stop).beside[0];
        assert_eq!(held, elements + u64::from(stop >= WHOLE));
        look(both, &store);
        both.append(&mut store, b"after the cut", WHOLE);
        both.append(&mut store, b"one more", WHOLE);
        look(both, &store);
    }
}

/// Entries at the ends of their range, with room and without.
fn entries(both: &mut dyn BothStore, elements: u64) {
    for length in [0, 1, ENTRY_MOST, ENTRY_MOST + 1] {
        for room in [0, 1, 2] {
            let mut store = with_leftovers(elements, room);
            both.append(&mut store, &vec![0x5A; length], WHOLE);
            look(both, &store);
        }
    }
}

/// Each byte of the header changed, in each of its bits and to its complement.
fn damaged_header(both: &mut dyn BothStore, elements: u64) {
    for at in 0..HEADER {
        for change in [1, 2, 4, 8, 16, 32, 64, 128, 255] {
            let mut store = with_leftovers(elements, 1);
            store[at] ^= change;
            look(both, &store);
            both.append(&mut store, b"x", WHOLE);
        }
    }
}

/// Each state byte turned over and set to values that are damage, 0 among them, which makes every
/// order of open and closed next to each other.
fn damaged_states(both: &mut dyn BothStore, elements: u64) {
    let room = 3;
    for j in 1..=elements + room {
        for state in [0, 1, 2, 127, 128, 254, 255] {
            let mut store = with_leftovers(elements, room);
            store[place(j) + STATE] = state;
            look(both, &store);
            both.append(&mut store, b"x", WHOLE);
            both.append(&mut store, &[0; ENTRY_MOST + 1], WHOLE);
        }
    }
}

/// A wrong T and a wrong d at each element in turn, alone and with a later one; damage besides.
fn wrong_digests(both: &mut dyn BothStore, elements: u64) {
    for wrong in 1..=elements {
        for at in [0, 31, 32, 63] {
            let mut store = with_leftovers(elements, 1);
            store[place(wrong) + at] ^= 0x10;
            look(both, &store);
            both.append(&mut store, b"x", WHOLE);
            look(both, &store);
            store[place(elements) + 40] ^= 1;
            both.audit(&store);
            store[place(wrong) + STATE] = 2;
            both.audit(&store);
        }
    }
}

/// Stores that end anywhere in the header or in a record: started, looked at and filled.
fn odd_sizes(both: &mut dyn BothStore) {
    let partial = HEADER + 2 * RECORD + 30;
    for size in (0..=17).chain([80, 81, 82, 145, 146, 147, partial]) {
        for byte in [0, 1, 0xEE] {
            let mut store = vec![byte; size];
            look(both, &store);
            both.start(&mut store, LOG);
            look(both, &store);
            for _ in 0..4 {
                both.append(&mut store, b"x", WHOLE);
            }
            look(both, &store);
            both.start(&mut store, u64::MAX);
        }
    }
}

/// A store of more records than the old limit, closed but for the last two, whose digests are made
/// up: nothing but the audit would find that out.
fn closed_past_the_old_limit(both: &mut dyn BothStore) {
    let closed = OLD_LIMIT + 3;
    let mut store = vec![CLOSED; HEADER + RECORD * (closed as usize + 2)];
    store[..HEADER].copy_from_slice(&header(LOG));
    (1..=2).for_each(|open| store[place(closed + open) + STATE] = OPEN);
    let counted = |beside: u64| Answer { number: 0, beside: [beside, 0, 0] };
    assert_eq!(both.count(&store), counted(closed));
    for at in [OLD_LIMIT, OLD_LIMIT + 1, closed] {
        assert_eq!(both.digest_at(&store, at), (0, [CLOSED; 32]));
    }
    assert_eq!(both.digest_at(&store, closed + 1).0, 4);
    assert_eq!(both.append(&mut store, b"x", 64), counted(closed));
    assert_eq!(both.append(&mut store, b"x", WHOLE), counted(closed + 1));
    store[place(OLD_LIMIT + 1) + STATE] = OPEN;
    assert_eq!(both.count(&store).number, 1);
}

/// A sound store past the old limit, one record short of its room and full, with a part of a record
/// behind it that is never read; and damage past the old limit.
fn past_the_old_limit(both: &mut dyn BothStore) {
    let mut store = sound(REAL - 1, 1);
    store.resize(store.len() + 30, 0xEE);
    assert_eq!(both.count(&store).beside[0], REAL - 1);
    assert_eq!(both.append(&mut store, &entry(REAL), 64).beside[0], REAL - 1);
    assert_eq!(both.append(&mut store, &entry(REAL), WHOLE).beside[0], REAL);
    assert_eq!(both.append(&mut store, b"x", WHOLE).number, 5);
    assert_eq!(both.audit(&store).beside[0], REAL);
    for at in [0, 1, OLD_LIMIT - 1, OLD_LIMIT, OLD_LIMIT + 1, REAL] {
        assert_eq!(both.digest_at(&store, at).0, 0);
    }
    for at in [REAL + 1, LIMIT, LIMIT + 1, LIMIT + 2, LIMIT + 1 + REAL] {
        assert_eq!(both.digest_at(&store, at).0, 4);
    }
    for wrong in [REAL, OLD_LIMIT + 1, OLD_LIMIT] {
        store[place(wrong) + 32] ^= 1;
        assert_eq!(both.audit(&store), Answer { number: 12, beside: [wrong, 0, 0] });
    }
    store[place(OLD_LIMIT + 1) + STATE] = 2;
    assert_eq!(both.count(&store).number, 1);
    both.start(&mut store, LOG);
}
