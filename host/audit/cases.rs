//! Writes the inputs of the test of the program lot_audit, each as NAME.store, and beside it
//! NAME.line with what the second program writes for it: audit-cases FOLDER.

use std::path::Path;
use std::{env, fs};

use second::hash::Sha256;
use second::program::{line, INPUT_MOST};
use second::store::{place, start, store_of, CLOSED, OPEN, STATE};

const LOG: u64 = 7;
const ELEMENTS: u64 = 33;

/// A started store of so many bytes.
fn started(bytes: usize) -> Vec<u8> {
    let mut store = vec![0xEE; bytes];
    let _too_short = start(&mut store, LOG);
    store
}

/// A sound store with room for others.
fn sound(elements: u64, room: u64) -> Vec<u8> {
    store_of::<Sha256>(LOG, elements + room, (1..=elements).map(|j| vec![j as u8; j as usize]))
}

/// A store as document 01 had it: the state byte of each open record is 0.
fn old(elements: u64, room: u64) -> Vec<u8> {
    let mut store = sound(elements, room);
    (elements + 1..=elements + room).for_each(|j| store[place(j) + STATE] = 0);
    store
}

/// The sound store with bits of one byte of a record turned.
fn changed(j: u64, at: usize, bits: u8) -> Vec<u8> {
    let mut store = sound(ELEMENTS, 2);
    store[place(j) + at] ^= bits;
    store
}

fn cases() -> Vec<(String, Vec<u8>)> {
    let mut cases = vec![("empty".to_string(), vec![]), ("full".to_string(), sound(1_008, 0))];
    for bytes in [1, 15, 16, 80, 81, 145, 146, INPUT_MOST - 1, INPUT_MOST, INPUT_MOST + 1, 200_000]
    {
        cases.push((format!("started-{}", bytes), started(bytes)));
    }
    for elements in 0..=ELEMENTS {
        cases.push((format!("sound-{}", elements), sound(elements, elements % 3)));
        cases.push((format!("old-{}", elements), old(elements, 1 + elements % 3)));
    }
    for j in 1..=ELEMENTS {
        cases.push((format!("wrong-digest-{}", j), changed(j, 32 + j as usize % 32, 1)));
        cases.push((format!("wrong-d-{}", j), changed(j, j as usize % 32, 0x80)));
        cases.push((format!("state-{}", j), changed(j, STATE, 2)));
        cases.push((format!("open-{}", j), changed(j, STATE, CLOSED ^ OPEN)));
        cases.push((format!("zero-{}", j), changed(j, STATE, CLOSED)));
    }
    for at in 0..16 {
        let mut store = sound(ELEMENTS, 0);
        store[at] ^= 1;
        cases.push((format!("header-{}", at), store));
    }
    cases
}

fn main() {
    let folder = env::args().nth(1).expect("usage: audit-cases FOLDER");
    for (name, store) in cases() {
        let path = Path::new(&folder).join(name);
        fs::write(path.with_extension("line"), line::<Sha256>(&store)).expect("written");
        fs::write(path.with_extension("store"), store).expect("written");
    }
}
