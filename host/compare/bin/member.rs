//! Compares the library's membership proofs and disputes with the second program's.

use compare::{both::Both, library::Library, member, Scale};

fn main() {
    let mut both = Both::<Library>::default();
    member::run(&mut both, Scale::Full);
    println!("{} calls agree, {} of them as told beforehand", both.calls, both.told);
}
