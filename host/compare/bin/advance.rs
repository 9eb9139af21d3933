//! Compares the library's held states and advancement proofs with the second program's.

use compare::{advance, both::Both, library::Library, Scale};

fn main() {
    let mut both = Both::<Library>::default();
    advance::run(&mut both, Scale::Full);
    println!("{} calls agree, {} of them as told beforehand", both.calls, both.told);
}
