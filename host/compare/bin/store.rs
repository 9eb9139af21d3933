//! Compares the library's keeping of a store with the second program's.

use compare::{both::Both, library::Library, store, Scale};

fn main() {
    let mut both = Both::<Library>::default();
    store::run(&mut both, Scale::Full);
    println!("{} calls agree", both.calls);
}
