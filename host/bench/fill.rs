//! Fills a store that is there with its first lots, by the second program: bench-fill STORE LOTS. The
//! command takes lots one by one, each of them durably; a million would take it the better part of an
//! hour. Prints how long the second program took for their digests, and for its own audit.

use std::fs::OpenOptions;
use std::os::unix::fs::FileExt;
use std::time::Instant;
use std::{env, fs};

use second::hash::Sha256;
use second::store::{audit, store_of, HEADER, RECORD};

fn main() {
    let arguments: Vec<String> = env::args().skip(1).collect();
    let (path, lots): (&str, u64) = match &arguments[..] {
        [path, lots] => (path, lots.parse().expect("a number of lots")),
        _ => panic!("usage: bench-fill STORE LOTS"),
    };
    let fresh = fs::read(path).expect("the store");
    let log = u64::from_be_bytes(fresh[8..HEADER].try_into().expect("8 bytes"));
    let records = ((fresh.len() - HEADER) / RECORD) as u64;
    let entries = (1..=lots).map(|lot| format!("lot {:07} of a million\n", lot).into_bytes());
    let began = Instant::now();
    let store = store_of::<Sha256>(log, records, entries);
    let made = began.elapsed();
    let began = Instant::now();
    assert_eq!(audit::<Sha256>(&store), Ok(lots));
    println!("{} ms, its audit {} ms", made.as_millis(), began.elapsed().as_millis());
    // into the room that is reserved
    let file = OpenOptions::new().write(true).open(path).expect("the store");
    file.write_all_at(&store, 0).expect("its bytes");
}
