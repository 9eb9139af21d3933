//! Writes the inputs of the test of the program lot_compare, two files for each, NAME.first and
//! NAME.second, and beside them NAME.line with what the second program writes for them, and
//! NAME.turned with what it writes for them in the other order: copies-cases FOLDER.

use std::path::Path;
use std::{env, fs};

use second::hash::Sha256;
use second::program::{compare_line, FILE_MOST};
use second::store::{header, place, start, store_of, CLOSED, HEADER, OPEN, STATE};

const LOG: u64 = 7;
const ELEMENTS: u64 = 33;

/// The elements of the longest store that the program reads.
const MOST: u64 = 503;

type Case = (String, Vec<u8>, Vec<u8>);

/// A sound store with room for others.
fn sound(elements: u64, room: u64) -> Vec<u8> {
    store_of::<Sha256>(LOG, elements + room, (1..=elements).map(|j| vec![j as u8; j as usize % 90]))
}

/// A started store of so many bytes.
fn started(bytes: usize) -> Vec<u8> {
    let mut store = vec![0xEE; bytes];
    let _too_short = start(&mut store, LOG);
    store
}

/// A sound store made longer, to so many bytes of open room.
fn filled(elements: u64, bytes: usize) -> Vec<u8> {
    let mut store = sound(elements, 0);
    store.resize(bytes, OPEN);
    store
}

/// The store with bits of one byte of a record turned.
fn changed(store: &[u8], j: u64, at: usize, bits: u8) -> Vec<u8> {
    let mut other = store.to_vec();
    other[place(j) + at] ^= bits;
    other
}

/// The store as another log's.
fn of_log(store: &[u8], log: u64) -> Vec<u8> {
    [&header(log)[..], &store[HEADER..]].concat()
}

/// Stores that do not differ in any element.
fn alike() -> Vec<Case> {
    let mut cases = Vec::new();
    let lengths = [0, 1, 2, 9, ELEMENTS, MOST - 1, MOST];
    for (at, first) in lengths.into_iter().enumerate() {
        for second in lengths.into_iter().skip(at) {
            let name = format!("alike-{}-{}", first, second);
            cases.push((name, sound(first, 0), sound(second, 0)));
        }
    }
    for elements in 0..ELEMENTS {
        let (one, other) = (sound(elements, elements % 3), sound(elements, elements % 2));
        cases.push((format!("room-{}", elements), one.clone(), other));
        let mut next = sound(elements + 1, 1);
        next[place(elements + 1) + STATE] = OPEN;
        cases.push((format!("opened-{}", elements), one.clone(), next));
        cases.push((format!("longer-{}", elements), one, sound(elements + 1, 0)));
    }
    for bytes in [16, 17, 80, 81, 82, 145, 146, FILE_MOST - 1, FILE_MOST] {
        cases.push((format!("started-{}", bytes), started(bytes), sound(0, 0)));
    }
    cases
}

/// Stores that differ in an element, and maybe in others and in their length.
fn different() -> Vec<Case> {
    let mut cases = Vec::new();
    let store = sound(ELEMENTS, 0);
    for j in 1..=ELEMENTS {
        let at = j as usize * 7 % STATE;
        let other = changed(&store, j, at, 0x80);
        cases.push((format!("differ-{}", j), store.clone(), other.clone()));
        cases.push((format!("differ-before-{}", j), sound(j - 1, 2), other.clone()));
        cases.push((format!("differ-with-{}", j), sound(j, 0), other.clone()));
        let later = changed(&other, ELEMENTS, 0, 1);
        cases.push((format!("differ-twice-{}", j), store.clone(), later));
        cases.push((format!("other-log-{}", j), store.clone(), of_log(&other, LOG + j)));
    }
    for at in 0..STATE {
        cases.push((format!("byte-{}", at), store.clone(), changed(&store, 12, at, 1)));
    }
    // numbers of one figure, of two and of three
    let longest = sound(MOST, 0);
    for j in [1, 9, 10, 11, 99, 100, 101, 255, 256, 257, 499, 500, MOST] {
        for at in [0, 9, 10, 63] {
            let other = changed(&longest, j, at, 0xFF);
            cases.push((format!("far-{}-{}", j, at), longest.clone(), other));
        }
    }
    cases
}

/// Stores of which one or both are refused or not read.
fn refused() -> Vec<Case> {
    let mut cases = Vec::new();
    let store = sound(9, 2);
    let mut push = |name: String, bad: Vec<u8>| {
        let different = changed(&store, 1, 0, 1);
        cases.push((format!("{}-alone", name), store.clone(), bad.clone()));
        cases.push((format!("{}-other-log", name), of_log(&different, 8), bad.clone()));
        cases.push((format!("{}-twice", name), bad.clone(), bad));
    };
    for bytes in [0, 1, 8, 15] {
        push(format!("short-{}", bytes), store[..bytes].to_vec());
    }
    for at in 0..HEADER {
        let mut bent = store.clone();
        bent[at] ^= 1;
        push(format!("header-{}", at), bent);
    }
    for j in 1..=11 {
        push(format!("state-{}", j), changed(&store, j, STATE, 2));
        push(format!("open-{}", j), changed(&store, j, STATE, CLOSED ^ OPEN));
        let mut zero = store.clone();
        zero[place(j) + STATE] = 0;
        push(format!("zero-{}", j), zero);
    }
    for bytes in [FILE_MOST - 1, FILE_MOST, FILE_MOST + 1, 40_000, 65_536, 200_000] {
        push(format!("rubbish-{}", bytes), vec![0x4C; bytes]);
        push(format!("filled-{}", bytes), filled(9, bytes));
    }
    cases
}

fn main() {
    let folder = env::args().nth(1).expect("usage: copies-cases FOLDER");
    for (name, first, second) in alike().into_iter().chain(different()).chain(refused()) {
        let path = Path::new(&folder).join(name);
        let write = |kind: &str, bytes: &[u8]| {
            fs::write(path.with_extension(kind), bytes).expect("written");
        };
        write("line", compare_line(&[Some(&first), Some(&second)]).as_bytes());
        write("turned", compare_line(&[Some(&second), Some(&first)]).as_bytes());
        write("first", &first);
        write("second", &second);
    }
}
