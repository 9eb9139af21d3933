//! Times counting and appending on a store of a million records beside a plain Rust pass over the same
//! state bytes, and comparing it with a copy beside a plain Rust comparison of the two. One of full
//! size would have 279 GB (`host/limit`).
//!
//! The append is stopped before its last store, so that it does the same work each time: it counts,
//! it hashes the entry and the element, and it writes 64 bytes. The store of 68 megabytes does not
//! fit the caches, and nothing is cleared between the rounds.

mod timing;

use std::cell::RefCell;

use second::hash::Sha256;
use second::store::{store_of, CLOSED, HEADER, OPEN, RECORD, STATE};
use timing::{way, Timing};

const RECORDS: u64 = (1 << 20) - 1;
const ROUNDS: usize = 21;

/// The count of a store in order, by one pass over its state bytes.
fn plain_count(store: &[u8]) -> Option<u64> {
    let mut states = store[HEADER..].chunks_exact(RECORD).map(|record| record[STATE]);
    let mut count = 0;
    for state in &mut states {
        match state {
            CLOSED => count += 1,
            OPEN => return states.all(|state| state == OPEN).then(|| count),
            _ => return None,
        }
    }
    Some(count)
}

/// Where the closed records of two stores of one log first differ, byte by byte, each store counted
/// first; nothing if they are equal.
fn plain_difference(first: &[u8], second: &[u8]) -> Option<(usize, usize)> {
    let counts = (plain_count(first), plain_count(second));
    let count =
        counts.0.filter(|_| counts.0 == counts.1).expect("two stores of one count") as usize;
    let records = |store| <[u8]>::chunks_exact(store, RECORD).take(count);
    let mut pairs = records(&first[HEADER..]).zip(records(&second[HEADER..])).enumerate();
    pairs.find_map(|(j, (x, y))| (0..STATE).find(|&b| x[b] != y[b]).map(|b| (j + 1, b)))
}

fn print(call: &str, [ours, plain]: [Timing; 2]) {
    let (ratio, ours, plain) = (plain.ratio, ours.time / 1e6, plain.time / 1e6);
    println!("{:>8} {:>12.2} {:>12.2} {:>7.2}", call, ours, plain, ratio);
}

fn main() {
    let before = RECORDS - 1;
    // one store for both sides: a pass over a copy, elsewhere in memory, takes another time
    let store = RefCell::new(store_of::<Sha256>(7, RECORDS, (0..before).map(|_| vec![])));
    println!("{:>8} {:>12} {:>12} {:>7}", "call", "proved ms", "plain ms", "ratio");
    let plain = || assert_eq!(plain_count(&store.borrow()), Some(before));
    let count = || assert_eq!(lotlog::count(&store.borrow()).beside[0], before);
    print("count", timing::side_by_side(ROUNDS, 1, [way(count), way(plain)]));
    let append = || {
        let answer = lotlog::append(&mut store.borrow_mut(), b"", 64);
        assert_eq!(answer.beside[0], before);
    };
    print("append", timing::side_by_side(ROUNDS, 1, [way(append), way(plain)]));
    let copy = store.borrow().clone();
    let compare = || assert_eq!(lotlog::compare(&store.borrow(), &copy).beside, [0; 3]);
    let plain = || assert_eq!(plain_difference(&store.borrow(), &copy), None);
    print("compare", timing::side_by_side(ROUNDS, 1, [way(compare), way(plain)]));
}
