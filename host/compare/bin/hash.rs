//! Compares the library's hashing with the second program's.

use compare::{both::Both, hash, library::Library, Scale};

fn main() {
    let mut both = Both::<Library>::default();
    hash::run(&mut both, Scale::Full);
    println!("{} calls agree", both.calls);
}
